"""Signs and volumes without rounding, against determinants of fractions: doubles of all sizes, walls along an axis and oblique ones, fours that are flat but for one bit."""
from __future__ import annotations

import unittest
from fractions import Fraction
from itertools import permutations
from typing import Callable
from unittest import mock

import setting  # noqa: F401

import numpy as np

from cottontuff import exact, fast
from cottontuff.measures import Floats, Ints

EVERY = np.arange(4)[None]


def determinant(corners: Floats) -> Fraction:
    """D of four points by the sum over all orders of the axes, in fractions."""
    a, *others = [[Fraction(value) for value in point] for point in corners.tolist()]
    rows = [[x - y for x, y in zip(point, a)] for point in others]
    total = Fraction(0)
    for i, j, k in permutations(range(3)):
        way = 1 if (i, j, k) in ((0, 1, 2), (1, 2, 0), (2, 0, 1)) else -1
        total += way * rows[0][i] * rows[1][j] * rows[2][k]
    return total


def sign(value: Fraction) -> int:
    return (value > 0) - (value < 0)


def rows(count: int) -> Ints:
    """The fours of points that stand four by four."""
    return np.arange(4 * count).reshape(-1, 4)


# ---- where the points come from: each gives (4 count, 3) doubles
def plain(random: np.random.Generator, count: int) -> Floats:
    return random.uniform(-1, 1, (4 * count, 3))


def wild(random: np.random.Generator, count: int) -> Floats:
    """Any exponents at all, those of subnormal numbers too."""
    size = (4 * count, 3)
    return np.ldexp(random.uniform(-1, 1, size), random.integers(-1074, 1000, size))


def mixed(random: np.random.Generator, count: int) -> Floats:
    """1e-200, 1 and 1e200 in one four, and zeros."""
    size = (4 * count, 3)
    return random.choice([-1, 1, 0.3], size) * random.choice([0, 1e-200, 1e-100, 1, 1e100, 1e200], size) * random.uniform(0.5, 1, size)


def tiny(random: np.random.Generator, count: int) -> Floats:
    """Subnormal numbers only: every product of two is 0 in doubles."""
    return random.integers(-6, 7, (4 * count, 3)) * 5e-324


def at_the_border(random: np.random.Generator, count: int) -> Floats:
    """Differences about 2^-300 and 2^300, where the filter stops."""
    size = (4 * count, 3)
    return random.choice([-1, 1], size) * np.ldexp(random.uniform(1, 2, size), random.choice([-303, -302, -301, -300, -299, 298, 299, 300, 301], size))


def far(random: np.random.Generator, count: int) -> Floats:
    """A small thing far from the origin: differences lose all but a few bits."""
    return 1e9 + random.integers(-8, 9, (4 * count, 3)) * 2.0**-22


def axis_walls(random: np.random.Generator, count: int) -> Floats:
    """Four points with one coordinate in common: flat, and every product has a factor that is 0."""
    points = random.uniform(-1, 1, (count, 4, 3))
    points[np.arange(count), :, random.integers(0, 3, count)] = random.choice([0.1, 1 / 3, -7.7, 1e-8], (count, 1))
    return points.reshape(-1, 3)


def oblique_walls(random: np.random.Generator, count: int) -> Floats:
    """Whole multiples of two directions, exact in doubles: flat, and along no axis."""
    start, u, v = (random.integers(-(2**20), 2**20, (count, 1, 3)).astype(float) for _ in range(3))
    i, j = (random.integers(-(2**10), 2**10, (count, 4, 1)) for _ in range(2))
    return ((start + i * u + j * v) * 2.0**-12).reshape(-1, 3)


def rounded_walls(random: np.random.Generator, count: int) -> Floats:
    """The same with roundings, as a turned part has them: some flat, most nearly."""
    start, u, v = (random.uniform(-1, 1, (count, 1, 3)) for _ in range(3))
    i, j = (random.integers(-9, 10, (count, 4, 1)) / 10 for _ in range(2))
    return (start + i * u + j * v).reshape(-1, 3)


def moved(random: np.random.Generator, count: int) -> Floats:
    """Flat fours with one coordinate moved by one ulp."""
    points = oblique_walls(random, count).reshape(count, 4, 3)
    where = np.arange(count), random.integers(0, 4, count), random.integers(0, 3, count)
    points[where] = np.nextafter(points[where], random.choice([-np.inf, np.inf], count))
    return points.reshape(-1, 3)


KINDS: list[tuple[Callable[[np.random.Generator, int], Floats], int]] = [
    (plain, 800), (wild, 600), (mixed, 1200), (tiny, 600), (at_the_border, 800), (far, 800), (axis_walls, 500), (oblique_walls, 800), (rounded_walls, 800), (moved, 1500),
]


class Signs(unittest.TestCase):
    """signs, filtered and counted_signs."""

    def test_against_fractions(self) -> None:
        for make, count in KINDS:
            points = make(np.random.default_rng(5), count)
            wanted = [sign(determinant(points[4 * i: 4 * i + 4])) for i in range(count)]
            with self.subTest(make.__name__):
                self.assertEqual(exact.signs(points, rows(count)).tolist(), wanted)
                said, certain = exact.filtered(points, rows(count))
                self.assertEqual(said[certain].tolist(), np.array(wanted)[certain].tolist())
                again, open_ones = exact.counted_signs(points, rows(count))
                self.assertEqual((again.tolist(), open_ones), (wanted, int((~certain).sum())))

    def test_they_are_what_they_are_called(self) -> None:
        """Walls are flat; moved fours are mostly not, and look to the filter as if they were; subnormal ones have both signs and 0."""
        random = np.random.default_rng(6)
        for make in (axis_walls, oblique_walls):
            self.assertEqual(set(exact.signs(make(random, 300), rows(300)).tolist()), {0})
        shifted = exact.signs(moved(random, 300), rows(300))
        self.assertGreater(int((shifted != 0).sum()), 200)
        self.assertLess(int(exact.filtered(moved(random, 300), rows(300))[1].sum()), 100)
        for make in (tiny, far, mixed):
            self.assertEqual(set(exact.signs(make(random, 1000), rows(1000)).tolist()), {-1, 0, 1})

    def test_the_filter_decides(self) -> None:
        """Plain fours and walls along an axis need no whole numbers."""
        random = np.random.default_rng(7)
        self.assertEqual(exact.counted_signs(axis_walls(random, 300), rows(300))[1], 0)
        self.assertLess(exact.counted_signs(plain(random, 3000), rows(3000))[1], 3)
        self.assertEqual(exact.counted_signs(oblique_walls(random, 300) + 0.1, rows(300))[1], 300)

    def test_order(self) -> None:
        """An exchange of two corners turns the sign round, whichever way it was found."""
        random = np.random.default_rng(8)
        for make in (plain, wild, moved, far):
            points = make(random, 40)
            for order in permutations(range(4)):
                way = -1 if sum(order[j] > order[i] for i in range(4) for j in range(i)) % 2 else 1
                with self.subTest(f'{make.__name__} {order}'):
                    np.testing.assert_array_equal(exact.signs(points, rows(40)[:, order]), way * exact.signs(points, rows(40)))

    def test_mirror_and_powers_of_two(self) -> None:
        random = np.random.default_rng(9)
        for make in (plain, moved, rounded_walls):
            points = make(random, 300)
            before = exact.signs(points, rows(300))
            np.testing.assert_array_equal(exact.signs(-points, rows(300)), -before)
            np.testing.assert_array_equal(exact.signs(points * 2.0**200, rows(300)), before)
            np.testing.assert_array_equal(exact.signs(points * 2.0**-900, rows(300)), before)

    def test_extremes(self) -> None:
        """Differences that overflow, and one point four times."""
        most = np.finfo(float).max
        corner = np.array([[-most, -most, -most], [most, -most, -most], [-most, most, -most], [-most, -most, most]])
        self.assertEqual(exact.signs(corner, EVERY).tolist(), [1])
        uneven = np.array([[most, 0, 0], [0, 5e-324, 0], [0, 0, 5e-324], [0, 0, 0]])
        self.assertEqual(exact.signs(uneven, EVERY).tolist(), [sign(determinant(uneven))])
        self.assertEqual(exact.signs(np.full((4, 3), 0.1), EVERY).tolist(), [0])
        self.assertEqual(exact.signs(np.zeros((4, 3)) * -1, EVERY).tolist(), [0])
        self.assertEqual(exact.signs(corner, np.zeros((0, 4), np.int64)).tolist(), [])

    def test_absent_points(self) -> None:
        """As numpy says it, with the helper too: nothing is looked up beyond the points."""
        corner = np.array([[0.0, 0, 0], [1, 0, 0], [0, 1, 0], [0, 0, 1]])
        for fours in ([[0, 1, 2, 4]], [[0, 1, 2, 3], [0, 1, 2, 10**9]], [[-5, 0, 1, 2]]):
            with self.assertRaises(IndexError):
                exact.signs(corner, np.array(fours))


def both(points: Floats, tets: Ints) -> tuple[Fraction, bool]:
    """fast.volume6, and whether the helper gave it."""
    with mock.patch.object(exact, 'volume6', wraps=exact.volume6) as plainly:
        return fast.volume6(points, tets), not plainly.called


class Volumes(unittest.TestCase):
    """volume6 of exact and of fast."""

    def setUp(self) -> None:
        if fast.usable() is None:
            self.skipTest('the helper is not used')

    def test_against_fractions(self) -> None:
        for make, count in KINDS:
            points = make(np.random.default_rng(11), count // 4)
            wanted = sum(abs(determinant(points[4 * i: 4 * i + 4])) for i in range(count // 4))
            with self.subTest(make.__name__):
                self.assertEqual(exact.volume6(points, rows(count // 4)), wanted)
                self.assertEqual(fast.volume6(points, rows(count // 4)), wanted)

    def test_turned_fours_add(self) -> None:
        """Each four counts as positive, so the order of its corners does not matter, nor what else the points have."""
        random = np.random.default_rng(12)
        points = random.uniform(-1, 1, (50, 3))
        tets = np.array([random.permutation(50)[:4] for _ in range(400)])
        turned = np.array([random.permutation(tet) for tet in tets])
        wanted = exact.volume6(points, tets)
        self.assertGreater(wanted, 0)
        for found in (exact.volume6(points, turned), fast.volume6(points, turned), fast.volume6(np.vstack([points, np.full((1, 3), 1e300)]), tets)):
            self.assertEqual(found, wanted)

    def test_110_bits(self) -> None:
        """The helper takes coordinates of 110 bits over the finest, and not of 111; the answer is the same."""
        for spread, taken in ((0, True), (30, True), (57, True), (58, False), (200, False)):
            points = np.array([[1, -1, 1], [2.0**-spread, 0, 0.75], [-(2.0**-spread), 0.875, 0], [0.5, -0.5, 2.0**-spread]]) * (2 - 2.0**-52)
            points[points != 0] = np.nextafter(points[points != 0], 0)
            with self.subTest(spread):
                found, by_helper = both(points, EVERY)
                self.assertEqual((found, by_helper), (abs(determinant(points)), taken))

    def test_sizes(self) -> None:
        """The smallest and the greatest doubles, alone: few bits, whatever their exponents."""
        random = np.random.default_rng(13)
        for unit in (5e-324, 2.0**-1022, 1e-200, 1e-5, 1.0, 1e9, 1e200, 2.0**990):
            points = random.integers(-(2**20), 2**20, (40, 3)) * unit
            tets = rows(10)
            with self.subTest(unit):
                found, by_helper = both(points, tets)
                self.assertEqual(found, sum(abs(determinant(points[tet])) for tet in tets))
                self.assertTrue(by_helper)

    def test_many(self) -> None:
        """Sums that run over several words: 30,000 fours of 110 bits, all but the first with D of one size."""
        random = np.random.default_rng(14)
        points = np.vstack([random.choice([-1, 1], (60, 3)) * random.uniform(0.5, 1, (60, 3)), random.uniform(0.5, 1, (2, 3)) * 2.0**-56])
        tets = np.array([random.permutation(62)[:4] for _ in range(30000)])
        found, by_helper = both(points, tets)
        self.assertTrue(by_helper)
        whole = [[int(Fraction(value) * 2**110) for value in point] for point in points.tolist()]
        total = 0
        for a, b, c, d in tets.tolist():
            (p, q, r), (s, t, u), (v, w, x) = ([whole[point][i] - whole[a][i] for i in range(3)] for point in (b, c, d))
            total += abs(p * t * x + q * u * v + r * s * w - r * t * v - q * s * x - p * u * w)
        self.assertEqual(found, Fraction(total, 2**330))

    def test_nothing(self) -> None:
        points = np.array([[0.0, -0.0, 0.0]] * 5)
        for tets in (np.zeros((0, 4), np.int64), rows(1), np.array([[1, 1, 1, 1]])):
            self.assertEqual((exact.volume6(points, tets), fast.volume6(points, tets)), (0, 0))

    def test_pure(self) -> None:
        points = np.random.default_rng(15).uniform(-1, 1, (40, 3))
        wanted, by_helper = both(points, rows(10))
        self.assertTrue(by_helper)
        with mock.patch.dict('os.environ', {'COTTONTUFF_PURE': '1'}):
            self.assertEqual(both(points, rows(10)), (wanted, False))

    def test_other_memory(self) -> None:
        """Points and fours as they come: strided, Fortran order, 32 bits."""
        random = np.random.default_rng(16)
        points = random.uniform(-1, 1, (80, 3))
        wide = np.zeros((80, 6))
        wide[:, ::2] = points
        wanted = exact.volume6(points, rows(20))
        for other in (wide[:, ::2], np.asfortranarray(points)):
            self.assertEqual(fast.volume6(other, rows(20)), wanted)
        for tets in (rows(20).astype(np.int32), np.asfortranarray(rows(20)), rows(20).astype(np.uint64)):
            self.assertEqual(fast.volume6(points, tets), wanted)


if __name__ == '__main__':
    unittest.main()
