"""Cavities of meshes: growth against the kernel's bench, the helper against numpy, measures against the kernel's, rounding, borders and tagged triangles, tetrahedra that are not touched."""
from __future__ import annotations

import ctypes
import functools
import itertools
import unittest
import unittest.mock
import warnings
from fractions import Fraction
from typing import Iterator, Optional, Union

import setting

import numpy as np
from numpy.typing import NDArray

from cottontuff import cavity, exact, fast, kernel, measures
from cottontuff.cavity import Job, Options
from cottontuff.measures import Floats, Ints
from cottontuff.mesh import Mesh, read
from cottontuff.neighbours import FLAT, OVERLAPPING, SOUND, TURNED, Neighbours, neighbours

Engines = tuple[fast.PlainEngine, fast.FastEngine]
EMBEDDED, REGIONS = 'embedded', 'small-regions'
NAMES = ('small-ball', 'small-plate', 'small-turned', 'small-stretched-0.01', 'small-stretched-0.001', EMBEDDED, REGIONS)
NO_FACES, NO_LINES = np.zeros((0, 3), np.int64), np.zeros((0, 2), np.int64)


# ---- meshes
def cubes(n: int, five: bool = False, unit: float = 1.0) -> Mesh:
    """n^3 cubes of six tetrahedra each, or of five, without any jitter, so that much ties."""
    number = {place: i for i, place in enumerate(itertools.product(range(n + 1), repeat=3))}
    tets = []
    for base in itertools.product(range(n), repeat=3):
        corner = {way: number[tuple(np.add(base, way))] for way in itertools.product((0, 1), repeat=3)}
        if five:
            odd = [way for way in corner if (sum(way) + sum(base)) % 2]
            tets.append([corner[way] for way in odd])
            tets += [[corner[way]] + [corner[other] for other in odd if sum(abs(np.subtract(way, other))) == 1] for way in corner if way not in odd]
            continue
        for order in itertools.permutations(range(3)):
            tets.append([corner[tuple(int(axis in order[:k]) for axis in range(3))] for k in range(4)])
    return Mesh(np.array(list(number), float) * unit, np.array(tets), np.zeros(len(tets), np.int64))


@functools.lru_cache(maxsize=None)
def loaded(name: str) -> Mesh:
    """A test mesh."""
    return read(setting.mesh_file(name))


@functools.lru_cache(maxsize=None)
def around(name: str) -> Neighbours:
    """The neighbours in a test mesh."""
    return neighbours(loaded(name))


def engines(of: Neighbours, options: Options = Options()) -> Engines:
    """The plain engine and the fast one of a mesh."""
    helper = fast.helper()
    if helper is None:
        raise unittest.SkipTest('there is no helper')
    return fast.PlainEngine(of, options), fast.FastEngine(of, options, helper)


def piece(mesh: Mesh, seed: int) -> tuple[NDArray[np.int32], NDArray[np.uint8]]:
    """The tetrahedra around one, as many as the bench takes, on whole numbers to 50,000."""
    centres = mesh.points[mesh.tets].mean(1)
    used: set[int] = set()
    taken: list[int] = []
    for tet in np.argsort(((centres - centres[seed]) ** 2).sum(1)).tolist():
        more = used | set(mesh.tets[tet].tolist())
        if len(more) > 64 or len(taken) == 256:
            break
        used = more
        taken.append(tet)
    points, local = np.unique(mesh.tets[taken], return_inverse=True)
    xyz = mesh.points[points]
    low, high = xyz.min(0), xyz.max(0)
    return np.rint((xyz - (low + high) / 2) / (high - low).max() * 100_000).clip(-50_000, 50_000).astype(np.int32), local.reshape(-1, 4).astype(np.uint8)


# ---- the bench: cottontuff_bench of include/cottontuff.h
class Bench(ctypes.Structure):
    """A mesh and at most one open cavity."""

    _fields_ = [
        ('points', ctypes.c_int32 * 192), ('tets', ctypes.c_uint8 * 1024), ('qualities', ctypes.c_uint32 * 256), ('in_cavity', ctypes.c_uint8 * 256), ('in_points', ctypes.c_uint8 * 64),
        ('point_count', ctypes.c_uint32), ('tet_count', ctypes.c_uint32), ('count', ctypes.c_uint32), ('open', ctypes.c_uint8),
    ]

    def cavity(self) -> tuple[list[int], list[int]]:
        return [i for i, here in enumerate(self.in_cavity) if here], [i for i, here in enumerate(self.in_points) if here]


class Answer(ctypes.Structure):
    """What the bench gives back."""

    _fields_ = [('number', ctypes.c_uint32), ('bench', Bench)]


@functools.lru_cache(maxsize=None)
def bench() -> ctypes.CDLL:
    """The library with the bench's functions declared."""
    library = kernel.library()
    library.cottontuff_bench_fresh.restype = Bench
    lists = [ctypes.c_void_p, ctypes.c_size_t, ctypes.c_void_p, ctypes.c_size_t]
    for name, arguments in (('load', [Bench, *lists]), ('open', [Bench, ctypes.c_uint32]), ('grow', [Bench])):
        function = getattr(library, 'cottontuff_bench_' + name)
        function.restype, function.argtypes = Answer, arguments
    return library


def on_bench(points: NDArray[np.int32], tets: NDArray[np.uint8]) -> Answer:
    library = bench()
    answer: Answer = library.cottontuff_bench_load(library.cottontuff_bench_fresh(), points.ctypes.data, points.size, tets.ctypes.data, tets.size)
    return answer


def tied(tets: list[list[int]], qualities: list[int], inside: list[int], points: list[int]) -> bool:
    """Whether two points are met as often and with the same sum, so that the lower number joins."""
    faces = {face for tet in inside for face in itertools.combinations(sorted(tets[tet]), 3)}
    met: dict[int, tuple[int, int]] = {}
    for tet in set(range(len(tets))) - set(inside):
        if any(face in faces for face in itertools.combinations(sorted(tets[tet]), 3)):
            (corner,) = set(tets[tet]) - set(points)
            count, total = met.get(corner, (0, 0))
            met[corner] = (count + 1, total - qualities[tet])
    return sorted(met.values())[-2:].count(max(met.values(), default=(0, 0))) == 2


class Growth(unittest.TestCase):
    """Both engines against cottontuff_bench_grow, step for step."""

    def compare(self, points: NDArray[np.int32], tets: NDArray[np.uint8], every: int) -> Optional[tuple[int, int]]:
        """How many steps were compared and how many of them were ties; None where the bench does not take the piece."""
        answer = on_bench(points, tets)
        if answer.number:
            return None
        of = neighbours(Mesh(points.astype(float), tets.astype(np.int64), np.zeros(len(tets), np.int64)))
        both = engines(of)
        qualities = answer.bench.qualities[: len(tets)]
        for engine in both:
            self.assertEqual(engine.qualities().tolist(), qualities)
        steps = ties = 0
        for slot in range(0, len(tets), every):
            for step in self.follow(answer.bench, both, slot):
                steps, ties = steps + 1, ties + tied(tets.tolist(), qualities, *step)
        return steps, ties

    def follow(self, loaded_bench: Bench, both: Engines, slot: int) -> Iterator[tuple[list[int], list[int]]]:
        """Grows one cavity on the bench and in both engines as far as it goes; gives each cavity before it grew."""
        held = bench().cottontuff_bench_open(loaded_bench, slot).bench
        for engine in both:
            engine.open(slot)
        for size in range(5, 18):
            before = held.cavity()
            answer = bench().cottontuff_bench_grow(held)
            if answer.number:
                self.assertEqual(answer.number, 34 if size == 17 else 35)
                self.assertEqual([engine.grow(min(size, 16)) for engine in both], [size - 1] * 2)
                return
            held = answer.bench
            for engine in both:
                self.assertEqual(engine.grow(size), size)
                self.assertEqual((sorted(engine.cavity_tets()), sorted(engine.cavity_points())), held.cavity(), type(engine).__name__)
            yield before

    def test_pieces_of_meshes(self) -> None:
        random = np.random.default_rng(21)
        steps = taken = 0
        for name in NAMES:
            mesh = loaded(name)
            for seed in random.choice(len(mesh.tets), 5, replace=False).tolist():
                with self.subTest(f'{name} {seed}'):
                    found = self.compare(*piece(mesh, seed), every=17)
                    steps, taken = steps + (found[0] if found else 0), taken + bool(found)
        self.assertGreater(taken, 15)
        self.assertGreater(steps, 2000)

    def test_symmetric(self) -> None:
        """Cubes cut alike: much ties, so that the lowest number decides, also where points are numbered otherwise."""
        random = np.random.default_rng(22)
        steps = ties = 0
        for n, five in ((3, False), (3, True), (2, False), (2, True)):
            mesh = cubes(n, five)
            for turn in range(3):
                order = random.permutation(len(mesh.points)) if turn else np.arange(len(mesh.points))
                tets = order[mesh.tets] if turn else mesh.tets
                points = np.zeros(mesh.points.shape, np.int32)
                points[order] = mesh.points * 20_000 - 30_000
                with self.subTest(f'{n} {five} {turn}'):
                    found = self.compare(points, random.permutation(tets).astype(np.uint8) if turn else tets.astype(np.uint8), every=8)
                    assert found is not None, 'the bench does not take it'
                    steps, ties = steps + found[0], ties + found[1]
        self.assertGreater(steps, 1500)
        self.assertGreater(ties, 300)

    def test_to_a_size_at_once(self) -> None:
        """Growing to 16 at once is the same as one by one; grown() too."""
        for name in (EMBEDDED, REGIONS):
            plain, quick = engines(around(name))
            for slot in np.flatnonzero(plain.touchable())[::97].tolist():
                for engine in (plain, quick):
                    engine.open(slot)
                    for size in range(5, 17):
                        engine.grow(size)
                by_steps = sorted(plain.cavity_tets())
                self.assertEqual(sorted(quick.cavity_tets()), by_steps)
                quick.open(slot)
                quick.grow(16)
                self.assertEqual((sorted(quick.cavity_tets()), list(cavity.grown(plain.mesh, slot).tets)), (by_steps, by_steps))


# ---- the helper against numpy
def thinness(corners: Floats) -> Floats:
    """A measure of one's own: the shortest edge by the longest."""
    edges = np.array(measures.squared_edges(corners))
    return np.sqrt(edges.min(0) / edges.max(0))


def strange(corners: Floats) -> Floats:
    """A measure that is nan, infinite, negative or above 1 here and there."""
    shape = measures.shape(corners)
    return np.select([shape < 0.1, shape < 0.2, shape < 0.3, shape < 0.4], [np.nan, np.inf, -shape, 5 * shape], shape)


OPTIONS = [Options(measure, ranked, limit) for measure in ('shape', 'gamma', thinness) for ranked in (False, True) for limit in (50_000, 10_000, 1_000)]


def opened(both: Engines, slot: int, size: int) -> tuple[Job, Job]:
    """The job of one cavity in both engines."""
    for engine in both:
        engine.open(slot)
        engine.grow(size)
        if engine.prepare() is not None:
            raise AssertionError('no job')
    return both[0].job(), both[1].job()


def put(engine: Union[fast.PlainEngine, fast.FastEngine], filling: NDArray[np.uint8]) -> None:
    """Lays a filling where the kernel's answers come."""
    engine.answer[: filling.size] = filling.reshape(-1)


class Same(unittest.TestCase):
    """What both engines make must be the same bytes."""

    def same_jobs(self, plain: Job, quick: Job) -> None:
        for name, value in vars(plain).items():
            other = getattr(quick, name)
            if isinstance(value, np.ndarray):
                self.assertEqual((value.dtype, value.shape), (other.dtype, other.shape), name)
                self.assertEqual(value.tobytes(), other.tobytes(), name)
            else:
                self.assertEqual((type(value), value), (type(other), other), name)

    def same_state(self, plain: fast.PlainEngine, quick: fast.FastEngine) -> None:
        """The mesh in every slot, the places of empty ones too."""
        fours, others = plain.fours(), quick.fours()
        full = fours[:, 0] >= 0
        np.testing.assert_array_equal(full, others[:, 0] >= 0)
        np.testing.assert_array_equal(fours[full], others[full])
        slots = len(fours)
        for mine, theirs in ((plain.signs(), quick.signs()), (plain.regions(), quick.regions()), (plain.qualities(), quick.qualities()), (plain.touchable(), quick.touchable())):
            np.testing.assert_array_equal(mine, theirs)
        np.testing.assert_array_equal(np.array(plain.mesh.beside)[full], quick.arrays['beside'][:slots][full])


class Jobs(Same):
    def test_every_field(self) -> None:
        random = np.random.default_rng(31)
        sizes: dict[int, int] = {}
        for name in NAMES:
            for options in OPTIONS:
                both = engines(around(name), options)
                for slot in random.choice(np.flatnonzero(both[0].touchable()), 7, replace=False).tolist():
                    size = int(random.integers(5, 17))
                    with self.subTest(f'{name} {options} {slot} {size}'):
                        plain, quick = opened(both, slot, size)
                        self.same_jobs(plain, quick)
                        self.assertEqual(both[0].facts(), both[1].facts())
                        self.assertEqual((both[0].cavity_tets(), both[0].cavity_points(), both[0].own_fours()), (both[1].cavity_tets(), both[1].cavity_points(), both[1].own_fours()))
                        sizes[len(plain.points)] = sizes.get(len(plain.points), 0) + 1
        self.assertEqual(set(sizes), set(range(5, 17)))

    def test_strange_measures(self) -> None:
        """Values that are no numbers, or out of range, come to the same entries, from 1 to 1,000,000."""
        for ranked in (False, True):
            both = engines(around('small-ball'), Options(strange, ranked))
            for slot in range(0, 1800, 150):
                plain, quick = opened(both, slot, 12)
                self.same_jobs(plain, quick)
                self.assertTrue(bool(((plain.full >= -1) & (plain.full <= 1_000_000)).all()))
                self.assertIsNone(kernel.check(plain.coordinates.copy(), plain.triangles, plain.full, kept=plain.kept, inner=plain.inner))

    def test_a_measure_of_another_shape(self) -> None:
        for wrong in (lambda corners: 0.5, lambda corners: np.ones((len(corners), 1)), lambda corners: np.ones(len(corners) + 1)):
            for kind in (0, 1):
                with self.assertRaisesRegex(ValueError, 'one number for each is needed'):
                    engines(cavity.two_beside(), Options(wrong))[kind]

    def test_signs_of_rounded_and_own(self) -> None:
        """sign and rounded against fractions' whole numbers, on plates where much is flat and on stretched parts where rounding turns some."""
        turned = 0
        for name, limit in (('small-plate', 50_000), ('small-stretched-0.001', 1_000), ('small-turned', 1_000)):
            both = engines(around(name), Options(limit=limit))
            for slot in range(0, 2300, 460):
                job = opened(both, slot, 11)[1]
                whole, _ = exact.whole_numbers(job.xyz)
                rounded: exact.Whole = [(x, y, z) for x, y, z in job.coordinates.tolist()]
                for place, (a, b, c, d) in enumerate(itertools.combinations(range(len(job.points)), 4)):
                    self.assertEqual(job.sign[place], np.sign(exact.six_volume(whole, (a, b, c, d))))
                    self.assertEqual(job.rounded[place], np.sign(exact.six_volume(rounded, (a, b, c, d))))
                turned += int((job.sign != job.rounded).sum())
        self.assertGreater(turned, 20)

    def test_tables(self) -> None:
        """What an entry says, by the rules: flat, turned, measured; barred where it can't better; ranks are those of the doubles."""
        for ranked in (False, True):
            both = engines(around('small-stretched-0.001'), Options('shape', ranked, 1_000))
            for slot in range(0, 2300, 230):
                job = opened(both, slot, 10)[1]
                allowed = (job.rounded != 0) & (job.rounded == job.sign)
                self.assertEqual(set(job.full[job.rounded == 0].tolist()) | {-1}, {-1})
                self.assertEqual(set(job.full[(job.rounded != 0) & ~allowed].tolist()) | {0}, {0})
                shape = measures.shape(job.xyz[np.array(list(itertools.combinations(range(len(job.points)), 4)))])
                for one, other in itertools.combinations(np.flatnonzero(allowed)[::7].tolist(), 2):
                    if ranked:
                        self.assertEqual(shape[one] * 1e6 < shape[other] * 1e6, job.full[one] < job.full[other])
                    else:
                        self.assertEqual(job.full[one], min(1_000_000, max(1, int(Fraction(shape[one] * 1e6)))))
                barred = (job.table == 0) & (job.full > 0)
                self.assertTrue((job.full[barred] <= job.worst_entry).all() and (job.table[~barred] == job.full[~barred]).all() and (job.table[allowed & ~barred] > job.worst_entry).all())

    def test_wild_sizes(self) -> None:
        """A part of another size has the same job, bit for bit where that is a power of two, as far as the measures stay doubles; beyond that it has none, in both engines alike."""
        mesh = cubes(2, five=True)
        for measure, ranked in itertools.product(('shape', 'gamma'), (False, True)):
            unit = opened(engines(neighbours(mesh), Options(measure, ranked)), 3, 9)[0]
            for power in (-1000, -300, -121, -118, -60, 60, 119, 121, 300, 1000):
                both = engines(neighbours(Mesh(mesh.points * 2.0**power, mesh.tets, mesh.regions)), Options(measure, ranked))
                with self.subTest(f'{measure} {ranked} {power}'):
                    for engine in both:
                        engine.open(3)
                        self.assertEqual(engine.grow(9), 9)
                        self.assertEqual(engine.prepare(), None if -120 < power < 120 else 'too small or too large for doubles')
                    if -120 < power < 120:
                        self.same_jobs(both[0].job(), both[1].job())
                        for name in ('points', 'coordinates', 'full', 'table', 'sign', 'value'):
                            np.testing.assert_array_equal(getattr(both[0].job(), name), getattr(unit, name))

    def test_mixed_sizes(self) -> None:
        """Coordinates that need more bits than the helper has, and differences below 2^-300."""
        for tiny in (1e-17, 1e-30, 1e-60, 1e-89, 1e-100, 1e-300, 5e-324):
            mesh = cubes(2)
            mesh.points[(mesh.points == 0) & (np.arange(27) % 5 == 0)[:, None]] = tiny
            both = engines(neighbours(mesh))
            with self.subTest(tiny):
                for slot in range(0, 48, 6):
                    plain, quick = opened(both, slot, 12)
                    self.same_jobs(plain, quick)
                    for engine in both:
                        put(engine, plain.own)
                        self.assertTrue(engine.recheck(len(plain.own)))


def random_filling(job: Job, random: np.random.Generator) -> Optional[NDArray[np.uint8]]:
    """A lawful filling of a cavity, whichever it is: the best by a table of chance, nothing barred that rounding left as it was."""
    table = np.where(job.full > 0, random.integers(1, 1_000_000, len(job.full)), job.full)
    found = kernel.search(job.coordinates, job.triangles, table, kept=job.kept, inner=job.inner)
    return found.tets if isinstance(found, kernel.Filling) else None


class Rechecks(unittest.TestCase):
    """recheck of right and of spoiled fillings. The kernel doesn't come into it: spoiled ones are handed over by the test."""

    def said(self, both: Engines, filling: NDArray[np.uint8]) -> bool:
        answers = []
        for engine in both:
            put(engine, filling)
            answers.append(engine.recheck(len(filling)))
        answers.append(cavity.recheck(both[1].job(), filling))
        self.assertEqual(len(set(answers)), 1, f'{answers} {filling.tolist()}')
        return answers[0]

    def spoiled(self, right: NDArray[np.uint8], n: int, random: np.random.Generator) -> list[NDArray[np.uint8]]:
        """The filling without a four, with one twice, with another in its place, with one more, with corners exchanged, with an absent point, and nothing at all."""
        at = int(random.integers(len(right)))
        others = [four for four in itertools.combinations(range(n), 4) if list(four) not in right.tolist()]
        other, broken, absent = (right.copy() for _ in range(3))
        other[at] = others[int(random.integers(len(others)))]
        broken[at] = broken[at][[1, 0, 2, 3]]
        absent[at, 3] = n
        more = np.vstack([right, np.array(others[int(random.integers(len(others)))], np.uint8)])
        return [np.delete(right, at, 0), np.vstack([right, right[at]]), other, more, broken, absent, right[:0], np.vstack([right, right])]

    def test_right_and_spoiled(self) -> None:
        random = np.random.default_rng(41)
        right = 0
        for name in NAMES:
            both = engines(around(name))
            for slot in random.choice(np.flatnonzero(both[0].touchable()), 25, replace=False).tolist():
                job = opened(both, slot, int(random.integers(5, 17)))[0]
                for filling in (job.own, random_filling(job, random)):
                    if filling is None:
                        continue
                    self.assertTrue(self.said(both, filling))
                    self.assertTrue(self.said(both, random.permutation(filling)))
                    right += 1
                    for wrong in self.spoiled(filling, len(job.points), random):
                        self.assertFalse(self.said(both, wrong))
        self.assertGreater(right, 200)

    def test_inner_point_left_out(self) -> None:
        """One tetrahedron in the place of four around a point: the same boundary, the same volume, and a point without a tetrahedron."""
        points = np.array([[0.0, 0, 0], [4, 0, 0], [0, 4, 0], [0, 0, 4], [1, 1, 1]])
        both = engines(neighbours(Mesh(points, np.array([[0, 1, 2, 4], [0, 1, 3, 4], [0, 2, 3, 4], [1, 2, 3, 4]]), np.zeros(4, np.int64))))
        job = opened(both, 0, 5)[0]
        self.assertEqual(len(job.own), 4)
        self.assertTrue(self.said(both, job.own))
        self.assertFalse(self.said(both, np.array([[0, 1, 2, 3]], np.uint8)))

    def every_list(self, points: Floats, tets: list[list[int]]) -> list[list[list[int]]]:
        """All lists of up to six fours that pass; each must be what the proved judge finds lawful."""
        both = engines(neighbours(Mesh(points, np.array(tets), np.zeros(len(tets), np.int64))))
        job = opened(both, 0, len(points))[0]
        self.assertEqual(job.own.tolist(), tets)
        right = []
        for count in range(7):
            for rows in itertools.combinations(itertools.combinations(range(len(points)), 4), count):
                filling = np.array(rows, np.uint8).reshape(-1, 4)
                verdict = kernel.judge(job.coordinates, job.triangles, job.full, filling)
                if self.said(both, filling) != (verdict.law == 0):
                    self.fail(f'{rows}: {verdict}')
                if verdict.law == 0:
                    right.append(filling.tolist())
        return right

    def test_octahedron(self) -> None:
        """Its corners, where volumes coincide: three lists are right, one for each diagonal."""
        points = np.array([[1.0, 0, 0], [-1, 0, 0], [0, 1, 0], [0, -1, 0], [0, 0, 1], [0, 0, -1]])
        self.assertEqual(len(self.every_list(points, [[0, 1, 2, 4], [0, 1, 2, 5], [0, 1, 3, 4], [0, 1, 3, 5]])), 3)

    def test_same_volume_another_boundary(self) -> None:
        """0134 and 0234 have the volume, the points and the number of outer faces of the cavity, look at none of its triangles from outside, and are not its filling."""
        points = np.array([[2.0, 1, 3], [2, 1, 0], [0, 1, 3], [1, 0, 3], [1, 2, 0]])
        own = [[0, 1, 2, 3], [0, 1, 2, 4]]
        self.assertEqual(exact.volume6(points, np.array(own)), exact.volume6(points, np.array([[0, 1, 3, 4], [0, 2, 3, 4]])))
        found = self.every_list(points, own)
        self.assertIn(own, found)
        self.assertNotIn([[0, 1, 3, 4], [0, 2, 3, 4]], found)

    def test_the_other_side(self) -> None:
        """Of all lists of five points' fours two are right, and nothing that looks at a boundary triangle from outside."""
        points = np.array([[0.0, 0, 0], [6, 0, 0], [0, 6, 0], [1, 1, 5], [1, 1, -5]])
        both = engines(neighbours(Mesh(points, np.array([[0, 1, 3, 4], [0, 2, 3, 4], [1, 2, 3, 4]]), np.zeros(3, np.int64))))
        job = opened(both, 0, 5)[0]
        self.assertTrue(self.said(both, np.array([[0, 1, 2, 3], [0, 1, 2, 4]], np.uint8)))
        for rows in itertools.chain.from_iterable(itertools.combinations(itertools.combinations(range(5), 4), k) for k in range(6)):
            lawful = sorted(rows) in ([(0, 1, 2, 3), (0, 1, 2, 4)], [(0, 1, 3, 4), (0, 2, 3, 4), (1, 2, 3, 4)])
            self.assertEqual(self.said(both, np.array(rows, np.uint8).reshape(-1, 4)), lawful)
        self.assertEqual(len(job.own), 3)


class Exchanges(Same):
    """Chains of exchanges: both engines come to the same mesh, and it is the one that the neighbours of its tetrahedra say."""

    def chain(self, of: Neighbours, both: Engines, wanted: int, seed: int, sizes: tuple[int, int] = (5, 11)) -> int:
        """Exchanges cavities for fillings of chance, so many or as many as come; how many."""
        random = np.random.default_rng(seed)
        done = 0
        for _ in range(4 * wanted):
            slot = int(random.choice(np.flatnonzero(both[0].touchable())))
            job, other = opened(both, slot, int(random.integers(*sizes)))
            filling = random_filling(job, random)
            if filling is None or len(job.points) < 5 or filling.tolist() == job.own.tolist():
                continue
            for engine in both:
                put(engine, filling)
                self.assertTrue(engine.recheck(len(filling)))
            self.assertEqual(both[0].exchange(len(filling)), both[1].exchange(len(filling)))
            done += 1
            if done % 50 == 0:
                self.same_state(*both)
            if done == wanted:
                break
        self.same_state(*both)
        return done

    def is_the_mesh(self, of: Neighbours, engine: fast.FastEngine) -> None:
        """Signs, qualities and neighbours of what stands in the slots, worked out anew."""
        full = np.flatnonzero(engine.touchable())
        fours, regions = engine.fours()[full], engine.regions()[full]
        anew = neighbours(Mesh(of.points, fours, regions, of.shut, of.lines))
        self.assertEqual(set(anew.kind.tolist()), {SOUND})
        np.testing.assert_array_equal(anew.sign, engine.signs()[full])
        np.testing.assert_array_equal(engine.options.values(of.points[fours]), engine.qualities()[full])
        new = np.full(len(engine.fours()) + 1, -1)
        new[full] = np.arange(len(full))
        np.testing.assert_array_equal(anew.beside, new[engine.arrays['beside'][full]])
        sound = of.kind == SOUND
        for region in np.unique(of.region):
            self.assertEqual(fast.volume6(of.points, fours[regions == region]), fast.volume6(of.points, of.corners[sound & (of.region == region)]))

    def test_chains(self) -> None:
        for number, name in enumerate(NAMES):
            with self.subTest(name):
                options = OPTIONS[(5 * number) % len(OPTIONS)]
                both = engines(around(name), options)
                self.assertGreater(self.chain(around(name), both, 150, 50 + number), 60)
                self.is_the_mesh(around(name), both[1])

    def test_arrays_grow(self) -> None:
        """More tetrahedra than there was room for."""
        of = neighbours(cubes(2, five=True))
        both = engines(of)
        capacity = both[1].mesh.capacity
        self.assertEqual(self.chain(of, both, 400, 61, (6, 12)), 400)
        self.assertGreater(both[1].mesh.capacity, capacity)
        self.is_the_mesh(of, both[1])

    def test_own_for_own(self) -> None:
        """A cavity exchanged for itself changes nothing."""
        for name in (EMBEDDED, 'small-plate'):
            both = engines(around(name))
            before = both[1].fours(), both[1].arrays['beside'].copy(), both[1].qualities()
            for slot in np.flatnonzero(both[0].touchable())[::40].tolist():
                job = opened(both, slot, 9)[0]
                for engine in both:
                    put(engine, np.array([sorted(job.points.tolist().index(point) for point in before[0][tet]) for tet in engine.cavity_tets()], np.uint8))
                    self.assertEqual(engine.exchange(len(job.own)), engine.cavity_tets())
            np.testing.assert_array_equal(before[0], both[1].fours())
            np.testing.assert_array_equal(before[1], both[1].arrays['beside'])
            np.testing.assert_array_equal(before[2], both[1].qualities())
            self.same_state(*both)

    def test_reopened(self) -> None:
        """reopen opens the cavity that growth had: the same job, whichever order its slots and points come in."""
        random = np.random.default_rng(62)
        both = engines(around(EMBEDDED))
        for slot in np.flatnonzero(both[0].touchable())[::60].tolist():
            plain, _ = opened(both, slot, 13)
            tets, points = both[0].cavity_tets(), both[0].cavity_points()
            opened(both, 5, 6)
            for engine in both:
                engine.reopen(random.permutation(tets).tolist(), random.permutation(points).tolist())
                self.assertIsNone(engine.prepare())
                self.same_jobs(plain, engine.job())
        with self.assertRaises(ValueError):
            both[1].reopen(list(range(20)), list(range(17)))


# ---- measures
class Measures(unittest.TestCase):
    """The measures in doubles, against the kernel's and against formulas of another kind."""

    def corners(self, random: np.random.Generator, count: int) -> NDArray[np.int32]:
        """Fours over all sizes that whole numbers to 50,000 have: large, small, thin and flat ones."""
        most = np.maximum(1, np.rint(50_000 ** random.uniform(0, 1, (count, 1, 1)))).astype(np.int64)
        found = random.integers(-most, most + 1, (count, 4, 3))
        thin = random.integers(0, 4, count) == 0
        found[thin, 3] = np.clip(found[thin, 0] + found[thin, 1] - found[thin, 2] + random.integers(-1, 2, (int(thin.sum()), 3)), -50_000, 50_000)
        return np.ascontiguousarray(found, np.int32)

    def test_shape_against_the_kernel(self) -> None:
        """Shape numbers bit for bit, D without loss, and the millionths of the queue: 50,000 fours."""
        corners = self.corners(np.random.default_rng(71), 50_000)
        doubles = corners.astype(float)
        shape, volumes, entries = measures.shape(doubles), measures.six_volumes(doubles), Options().values(doubles)
        measure, start = kernel.library().cottontuff_measure, corners.ctypes.data
        flat = 0
        for i, (mine, volume, entry) in enumerate(zip(shape.tolist(), volumes.tolist(), entries.tolist())):
            raw = measure(start + 48 * i, 12)
            if raw.flat:
                flat += 1
                self.assertEqual(volume, 0)
            elif (raw.d, raw.shape, raw.millionths) != (abs(volume), mine, entry):
                self.fail(f'{corners[i].tolist()}: {raw.d} {raw.shape} {raw.millionths}, and here {volume} {mine} {entry}')
        self.assertTrue(500 < flat < 10_000, flat)

    def test_tables_against_the_kernel(self) -> None:
        """A whole table: the job's values on points that are whole numbers are measure_table's."""
        random = np.random.default_rng(72)
        for _ in range(10):
            points = random.integers(-50_000, 50_001, (16, 3))
            table = kernel.measure_table(points)
            found = Options().values(points[cavity.fours(16)].astype(float))
            np.testing.assert_array_equal(found[table > 0], table[table > 0])

    def test_gamma(self) -> None:
        """3 r / R with R from the centre of the sphere through the corners, r from heights."""
        random = np.random.default_rng(73)
        corners = random.uniform(-1, 1, (2000, 4, 3))
        edges = corners[:, 1:] - corners[:, :1]
        volume = np.abs(np.linalg.det(edges)) / 6
        corners, edges, volume = (array[volume > 1e-3] for array in (corners, edges, volume))
        radius = np.linalg.norm(np.linalg.solve(2 * edges, (edges**2).sum(2)[..., None])[..., 0], axis=1)
        faces = [np.linalg.norm(np.cross(corners[:, b] - corners[:, a], corners[:, c] - corners[:, a]), axis=1) / 2 for a, b, c in itertools.combinations(range(4), 3)]
        np.testing.assert_allclose(measures.gamma(corners), 3 * (3 * volume / sum(faces)) / radius, rtol=1e-9)
        self.assertLessEqual(measures.gamma(corners).max(), 1 + 1e-12)
        self.assertEqual(measures.gamma(np.zeros((1, 4, 3))).tolist(), [0])

    def test_no_warnings(self) -> None:
        """Parts of any size are measured without a word, also where squares and cubes of lengths overflow."""
        corner = np.array([[[0.0, 0, 0], [1, 0, 0], [0, 1, 0], [0, 0, 1]]])
        with warnings.catch_warnings():
            warnings.simplefilter('error')
            for size in (5e-324, 1e-200, 1e-60, 1e-20, 1e20, 1e60, 1e150, 1e307):
                for name in ('shape', 'gamma'):
                    with self.subTest(f'{name} {size}'):
                        (found,) = Options(name).values(corner * size).tolist()
                        self.assertTrue(1 <= found <= 1_000_000)
                        if 1e-30 < size < 1e30:
                            self.assertEqual(found, Options(name).values(corner)[0])

    def test_quality_of_a_mesh(self) -> None:
        """One value for a tetrahedron, whichever way its corners stand in the file."""
        random = np.random.default_rng(74)
        mesh = loaded('small-turned')
        other = random.permuted(mesh.tets, axis=1)
        for name in ('shape', 'gamma', thinness):
            self.assertEqual(measures.quality(mesh.points, mesh.tets, name).tobytes(), measures.quality(mesh.points, other, name).tobytes())

    def test_millionths(self) -> None:
        values = np.array([0.0, -1.0, 9.99e-7, 1e-6, 0.5, 0.9999999, 1.0, 1.1, np.nan, np.inf, -np.inf])
        self.assertEqual(measures.millionths(values).tolist(), [1, 1, 1, 1, 500_000, 999_999, 1_000_000, 1_000_000, 1, 1, 1])


class Scale(unittest.TestCase):
    """Rounding to whole numbers."""

    def test_within(self) -> None:
        random = np.random.default_rng(81)
        for limit in (50_000, 10_000, 1_000, 1):
            for stretch in ((1, 1, 1), (1, 1e-3, 1e-9), (1e-6, 3, 1), (1e80, 1e60, 1e80), (1e-80, 1e-85, 1e-80)):
                points = random.uniform(-1, 1, (12, 3)) * stretch + random.uniform(-2, 2, 3) * stretch
                found = cavity.scale(points, limit)
                longest = int(np.argmax(points.max(0) - points.min(0)))
                self.assertEqual((found.dtype, found[:, longest].min(), found[:, longest].max(), np.abs(found).max()), (np.int32, -limit, limit, limit))
                unit = (points.max(0) - points.min(0)).max() / (2 * limit)
                np.testing.assert_allclose((found - found[0]) * unit, points - points[0], atol=1.001 * unit, rtol=0)

    def test_symmetric(self) -> None:
        """Mirrored, and with axes exchanged, the rounded points are too; times a power of two they are the same."""
        random = np.random.default_rng(82)
        for _ in range(200):
            points = random.uniform(-1, 1, (10, 3)) * random.uniform(0.1, 1, 3)
            found = cavity.scale(points)
            np.testing.assert_array_equal(cavity.scale(-points), -found)
            np.testing.assert_array_equal(cavity.scale(points[:, [2, 0, 1]]), found[:, [2, 0, 1]])
            np.testing.assert_array_equal(cavity.scale(points * 2.0**-70), found)
            np.testing.assert_array_equal(cavity.scale(points[::-1]), found[::-1])

    def test_far_from_the_origin(self) -> None:
        """1e9 away a double has 2^-23 left: what is a metre there is rounded as it would be here."""
        random = np.random.default_rng(83)
        for _ in range(200):
            points = random.integers(-(2**20), 2**20, (10, 3)) * 2.0**-22
            np.testing.assert_array_equal(cavity.scale(points + 1e9), cavity.scale(points))

    def test_few_bits_left(self) -> None:
        """A tenth of a millimetre 1e9 away, some 800 steps of the doubles across: the middle of the box is no double there."""
        random = np.random.default_rng(85)
        for _ in range(50):
            points = 1e9 + random.uniform(0, 1e-4, (10, 3))
            found = cavity.scale(points)
            longest = int(np.argmax(points.max(0) - points.min(0)))
            self.assertEqual((found[:, longest].min(), found[:, longest].max()), (-50_000, 50_000))

    def test_whole_numbers_stay(self) -> None:
        """Points that fill the range are themselves."""
        random = np.random.default_rng(84)
        points = random.integers(-50_000, 50_001, (10, 3))
        points[0], points[1] = -50_000, 50_000
        np.testing.assert_array_equal(cavity.scale(points.astype(float)), points)


# ---- borders, tagged triangles and lines
def sides(mesh: Mesh, of: Neighbours) -> dict[tuple[int, ...], list[int]]:
    """By face: the tetrahedra that have it and may be touched."""
    found: dict[tuple[int, ...], list[int]] = {}
    for tet, corners in enumerate(of.corners.tolist()):
        if of.kind[tet] == SOUND:
            for face in itertools.combinations(corners, 3):
                found.setdefault(face, []).append(tet)
    return found


def wheel(spokes: int, faces: Ints = NO_FACES, lines: Ints = NO_LINES, regions: Optional[list[int]] = None) -> Mesh:
    """Tetrahedra around the edge from point 0 to point 1; the points around it are 2, 3, .."""
    angles = 2 * np.pi * np.arange(spokes) / spokes
    rim = np.stack([np.cos(angles), np.sin(angles), 0.1 * np.cos(3 * angles)], axis=1)
    tets = [[0, 1, 2 + i, 2 + (i + 1) % spokes] for i in range(spokes)]
    return Mesh(np.vstack([[[0, 0, 1.1], [0, 0, -1]], rim]), np.array(tets), np.array(regions or [0] * spokes), np.array(faces).reshape(-1, 3), np.array(lines).reshape(-1, 2))


class Borders(unittest.TestCase):
    """What a cavity may not cross, and what must stay inside it."""

    def reachable(self, mesh: Mesh, over: dict[tuple[int, ...], list[int]], inside: list[int]) -> set[int]:
        """The corners of tetrahedra over faces of the cavity that have one region on both sides and no triangle of the file's."""
        shut, own = {tuple(sorted(face)) for face in mesh.faces.tolist()}, set(inside)
        found: set[int] = set()
        for tet in inside:
            for face in itertools.combinations(sorted(mesh.tets[tet].tolist()), 3):
                if face not in shut:
                    found.update(*(set(mesh.tets[x].tolist()) - set(face) for x in over[face] if x not in own and mesh.regions[x] == mesh.regions[tet]))
        return found

    def test_growth(self) -> None:
        """Each point that joins is reached over a face that may be passed; where none is, growth ends."""
        ended = 0
        for name in (EMBEDDED, REGIONS):
            mesh, of = loaded(name), around(name)
            over, both = sides(mesh, of), engines(of)
            for slot in np.flatnonzero(both[0].touchable())[::23].tolist():
                for engine in both:
                    engine.open(slot)
                    points: set[int] = set(mesh.tets[slot].tolist())
                    for size in range(5, 17):
                        may = self.reachable(mesh, over, engine.cavity_tets())
                        if engine.grow(size) < size:
                            self.assertEqual(may, set())
                            ended += 1
                            break
                        (joined,) = set(engine.cavity_points()) - points
                        self.assertIn(joined, may)
                        points.add(joined)
                    self.assertEqual(len({int(mesh.regions[tet]) for tet in engine.cavity_tets()}), 1)
                    whole = np.isin(mesh.tets, list(points)).all(axis=1) & (of.kind == SOUND) & (mesh.regions == mesh.regions[slot])
                    self.assertEqual(sorted(engine.cavity_tets()), np.flatnonzero(whole).tolist())
        self.assertLess(ended, 200)

    def test_inner_and_kept(self) -> None:
        """job.inner is every triangle of the file's with both sides in the cavity, job.kept every line inside it; both in ascending order and as places in the cavity."""
        inner = kept = 0
        mesh, of = loaded(EMBEDDED), around(EMBEDDED)
        over, both = sides(mesh, of), engines(of)
        faces, lines = {tuple(sorted(face)) for face in mesh.faces.tolist()}, {tuple(sorted(line)) for line in mesh.lines.tolist()}
        tets = {four: tet for tet, four in enumerate(map(tuple, of.corners.tolist()))}
        for slot in np.flatnonzero(both[0].touchable())[::6].tolist():
            for job in opened(both, slot, 16):
                own = [tuple(job.points[four].tolist()) for four in job.own]
                inside = {tets[four] for four in own}
                both_sides = [face for face in faces if len(over.get(face, [])) == 2 and inside.issuperset(over[face])]
                skin = {edge for four in own for face in itertools.combinations(four, 3) if not inside.issuperset(over[face]) or len(over[face]) < 2 for edge in itertools.combinations(face, 2)}
                through = [edge for edge in {edge for four in own for edge in itertools.combinations(four, 2)} if edge in lines and edge not in skin]
                self.assertEqual([tuple(job.points[row].tolist()) for row in job.inner], sorted(both_sides))
                self.assertEqual([tuple(job.points[row].tolist()) for row in job.kept], sorted(through))
                inner, kept = inner + len(both_sides), kept + len(through)
        self.assertGreater(inner, 40)
        self.assertGreater(kept, 40)

    def test_wheel(self) -> None:
        """Around an edge: growth stops at a tagged triangle, comes round from the other side, and has it as an inner triangle then."""
        for engine in engines(neighbours(wheel(5, faces=[[1, 0, 3]]))):
            engine.open(0)
            engine.grow(16)
            self.assertIsNone(engine.prepare())
            job = engine.job()
            self.assertEqual((job.inner.tolist(), job.kept.tolist(), len(job.own), len(job.triangles)), ([[0, 1, 3]], [], 5, 10))
            self.assertNotIn(1, [engine.open(0), engine.grow(5), engine.cavity_tets()][2])

    def test_wheel_shut_twice(self) -> None:
        """Two tagged triangles part the wheel, one region for each part too."""
        for mesh in (wheel(6, faces=[[0, 1, 2], [5, 1, 0]]), wheel(6, regions=[8, 8, 8, 3, 3, 3])):
            for engine in engines(neighbours(mesh)):
                for slot, part in ((0, [0, 1, 2]), (2, [0, 1, 2]), (3, [3, 4, 5]), (4, [3, 4, 5])):
                    engine.open(slot)
                    self.assertEqual(engine.grow(16), 6)
                    self.assertEqual(sorted(engine.cavity_tets()), part)
                    self.assertIsNone(engine.prepare())
                    self.assertEqual(engine.job().inner.tolist(), [])

    def test_lines(self) -> None:
        """The axis is kept once the cavity goes all round it; a line on the cavity's skin is not needed, nor one that is no edge."""
        lines = [[1, 0], [2, 3], [2, 0], [2, 4], [0, 1]]
        for engine in engines(neighbours(wheel(5, lines=lines))):
            engine.open(0)
            for size, kept in ((5, []), (6, []), (16, [[0, 1]])):
                engine.grow(size)
                self.assertIsNone(engine.prepare())
                self.assertEqual(engine.job().kept.tolist(), kept)
            found = engine.search()
            self.assertEqual(found.number, kernel.NO_FILLING)

    def test_exchange_keeps_triangles_shut(self) -> None:
        """After an exchange nothing grows over a tagged triangle that was inside the cavity."""
        mesh = wheel(7, faces=[[0, 1, 4]])
        of = neighbours(mesh)
        both = engines(of)
        job = opened(both, 0, 16)[0]
        self.assertEqual(job.inner.tolist(), [[0, 1, 4]])
        filling = random_filling(job, np.random.default_rng(91))
        assert filling is not None
        for engine in both:
            put(engine, filling)
            self.assertTrue(engine.recheck(len(filling)))
            fresh = engine.exchange(len(filling))
            two = [slot for slot in fresh if {0, 1, 4} <= set(engine.fours()[slot].tolist())]
            self.assertEqual(len(two), 2)
            beside = engine.mesh.beside if isinstance(engine, fast.PlainEngine) else engine.arrays['beside'].tolist()
            self.assertFalse(two[1] in beside[two[0]] or two[0] in beside[two[1]])


# ---- neighbours
class Untouched(unittest.TestCase):
    """Tetrahedra that no cavity may have, and what is beside the others."""

    def never_in_a_cavity(self, of: Neighbours, wrong: list[int]) -> None:
        for engine in engines(of):
            self.assertEqual(np.flatnonzero(~engine.touchable()).tolist(), sorted(wrong))
            for slot in np.flatnonzero(engine.touchable()).tolist():
                engine.open(slot)
                engine.grow(16)
                self.assertFalse(set(engine.cavity_tets()) & set(wrong))
        self.assertFalse(np.isin(of.beside, wrong).any())
        self.assertTrue((of.beside[wrong] == -1).all())

    def with_more(self, *more: list[int], points: Optional[list[list[float]]] = None) -> Neighbours:
        """27 points of 8 cubes, and further points and tetrahedra behind them."""
        mesh = cubes(2)
        tets = np.vstack([mesh.tets, np.array(more).reshape(-1, 4)])
        return neighbours(Mesh(np.vstack([mesh.points, np.array(points or []).reshape(-1, 3)]), tets, np.zeros(len(tets), np.int64)))

    def test_sound(self) -> None:
        for mesh in (cubes(2), cubes(3, five=True)):
            of = neighbours(mesh)
            self.assertEqual(of.untouched(), {'flat': [], 'turned': [], 'overlapping': []})
            over = sides(mesh, of)
            for tet, corners in enumerate(of.corners.tolist()):
                for i, corner in enumerate(corners):
                    others = [x for x in over[tuple(point for point in corners if point != corner)] if x != tet]
                    self.assertEqual([of.beside[tet, i]], others or [-1])

    def test_flat(self) -> None:
        """On the skin of the cubes, a flat one beside two that are sound; its faces are not passed."""
        of = self.with_more([0, 1, 3, 4], [0, 1, 3, 12])
        self.assertEqual(of.untouched()['flat'], [48])
        self.assertEqual(of.kind[48], FLAT)
        self.assertIn(49, of.untouched()['overlapping'])
        self.never_in_a_cavity(of, sum(of.untouched().values(), []))

    def test_flat_between(self) -> None:
        """Two tetrahedra with a flat one between them are not beside each other."""
        points = np.array([[0.0, 0, 0], [1, 0, 0], [1, 1, 0], [0, 1, 0], [0.5, 0.5, 1], [0.5, 0.5, -1]])
        tets = np.array([[0, 1, 2, 4], [0, 2, 3, 4], [0, 1, 2, 3], [0, 1, 3, 5], [1, 2, 3, 5]])
        of = neighbours(Mesh(points, tets, np.zeros(5, np.int64)))
        self.assertEqual(of.untouched(), {'flat': [2], 'turned': [], 'overlapping': []})
        self.assertEqual([set(row.tolist()) for row in of.beside], [{-1, 1}, {-1, 0}, {-1}, {-1, 4}, {-1, 3}])
        self.never_in_a_cavity(of, [2])

    def test_its_faces_stay(self) -> None:
        """A face of a tetrahedron that is not touched can't be passed where two others have it, and stays when both are in the cavity."""
        mesh = wheel(5)
        points, tets = np.vstack([mesh.points, [[2.0, 0, 0]]]), np.vstack([mesh.tets, [[0, 1, 2, 7]]])
        of = neighbours(Mesh(points, tets, np.zeros(6, np.int64)))
        self.assertEqual(of.untouched(), {'flat': [5], 'turned': [], 'overlapping': []})
        self.assertEqual([sorted(row) for row in of.beside.tolist()], [[-1, -1, -1, 1], [-1, -1, 0, 2], [-1, -1, 1, 3], [-1, -1, 2, 4], [-1, -1, -1, 3], [-1] * 4])
        for job in opened(engines(of), 0, 16):
            self.assertEqual((len(job.own), job.inner.tolist()), (5, [[0, 1, 2]]))
        self.never_in_a_cavity(of, [5])

    def test_doubled(self) -> None:
        """The same four twice, in the same order and in another: both count, and neither is touched."""
        mesh = cubes(2)
        for again in (mesh.tets[7].tolist(), mesh.tets[7][[1, 0, 2, 3]].tolist(), mesh.tets[7][[1, 2, 0, 3]].tolist()):
            of = self.with_more(again)
            found = of.untouched()
            self.assertEqual(sorted(found['turned'] + found['overlapping']), [7, 48])
            self.never_in_a_cavity(of, [7, 48])

    def test_overlapping(self) -> None:
        """A tetrahedron with a face of the skin and its fourth corner inside."""
        of = self.with_more([0, 1, 4, 27], points=[[0.2, 0.6, 1.4]])
        mesh = cubes(2)
        (under,) = [tet for tet in range(48) if {0, 1, 4} <= set(mesh.tets[tet].tolist())]
        found = of.untouched()
        self.assertEqual(sorted(found['turned'] + found['overlapping']), [under, 48])
        self.never_in_a_cavity(of, [under, 48])

    def test_turned(self) -> None:
        """A point that was pulled through a face: the tetrahedron that it turned is called so, and its neighbours overlap it."""
        points = np.array([[0.0, 0, 0], [2, 0, 0], [0, 2, 0], [0.5, 0.5, 1], [0.5, 0.5, -1]])
        tets = np.array([[0, 1, 2, 3], [0, 2, 1, 4]])
        self.assertEqual(sum(neighbours(Mesh(points, tets, np.zeros(2, np.int64))).untouched().values(), []), [])
        more = np.vstack([points, points[3] + [0, 0, 2]])
        three = np.vstack([tets, [[0, 1, 3, 5]], [[1, 2, 3, 5]]])
        more[3, 2] = -0.5
        of = neighbours(Mesh(more, three, np.zeros(4, np.int64)))
        self.assertEqual(of.untouched()['turned'], [0])
        self.assertIn(1, of.untouched()['overlapping'])
        self.assertEqual((of.kind[0], of.kind[1]), (TURNED, OVERLAPPING))
        self.never_in_a_cavity(of, sum(of.untouched().values(), []))

    def test_face_of_three(self) -> None:
        """Two of them lie on one side of it; the third is sound, and has nothing beside it there."""
        points = np.array([[0.0, 0, 0], [3, 0, 0], [0, 3, 0], [1, 1, 2], [0.5, 0.5, 1], [1, 1, -2], [1, 1, -4]])
        tets = np.array([[0, 1, 2, 3], [0, 1, 2, 4], [0, 2, 1, 5], [0, 1, 5, 6]])
        for order in itertools.permutations(range(4)):
            of = neighbours(Mesh(points, tets[list(order)], np.zeros(4, np.int64)))
            wrong = sorted(order.index(k) for k in (0, 1))
            self.assertEqual(of.untouched(), {'flat': [], 'turned': [], 'overlapping': wrong})
            self.assertEqual(of.beside[order.index(2)].tolist(), [-1, -1, order.index(3), -1])
            self.never_in_a_cavity(of, wrong)

    def test_left_handed(self) -> None:
        """A file whose tetrahedra all stand the other way round, and one where they stand as they like: nothing is wrong with them, and all else is the same."""
        mesh = loaded('small-turned')
        right = around('small-turned')
        random = np.random.default_rng(95)
        mirrored = mesh.tets[:, [1, 0, 2, 3]]
        left = neighbours(Mesh(mesh.points, mirrored, mesh.regions, mesh.faces, mesh.lines))
        self.assertEqual(left.handed, -right.handed)
        for other in (left, neighbours(Mesh(mesh.points, random.permuted(mesh.tets, axis=1), mesh.regions, mesh.faces, mesh.lines))):
            self.assertEqual(other.untouched(), right.untouched())
            for name in ('corners', 'sign', 'beside', 'kind', 'region'):
                np.testing.assert_array_equal(getattr(other, name), getattr(right, name))

    def test_regions_and_triangles(self) -> None:
        """Passable is what has one region on both sides and no triangle, however its corners stand in the file; the same by both ways of numbering faces."""
        for name in (EMBEDDED, REGIONS):
            mesh, of = loaded(name), around(name)
            shut, over = {tuple(sorted(face)) for face in mesh.faces.tolist()}, sides(mesh, of)
            for tet in range(0, len(mesh.tets), 11):
                for i, corner in enumerate(of.corners[tet].tolist()):
                    face = tuple(point for point in of.corners[tet].tolist() if point != corner)
                    others = [x for x in over.get(face, []) if x != tet and mesh.regions[x] == mesh.regions[tet]] if of.kind[tet] == SOUND and face not in shut else []
                    self.assertEqual([of.beside[tet, i]], others or [-1])
            with unittest.mock.patch('cottontuff.neighbours.face_keys', lambda faces, points: np.unique(faces, axis=0, return_inverse=True)[1].reshape(-1)):
                np.testing.assert_array_equal(neighbours(mesh).beside, of.beside)


if __name__ == '__main__':
    unittest.main()
