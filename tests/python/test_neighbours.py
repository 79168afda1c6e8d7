"""What lies beside each face and what is wrong with a tetrahedron, and tetrahedra as a set: the helper and the plain form say the same, of meshes and of soups that are none."""
from __future__ import annotations

import dataclasses
import os
import unittest
from typing import Any, Callable
from unittest import mock

import setting

import numpy as np

from cottontuff.helper import usable
from cottontuff.mesh import Mesh, read
from cottontuff.neighbours import EMPTY, Neighbours, joined, neighbours
from cottontuff.record import rows_of


def both(call: Callable[[], Any]) -> tuple[Any, Any]:
    """By the helper, and by the plain form."""
    found = []
    for form in ('0', '1'):
        with mock.patch.dict(os.environ, {'COTTONTUFF_PURE': form}):
            found.append(call())
    return found[0], found[1]


def soup(chance: np.random.Generator, points: int, tets: int) -> Mesh:
    """Tetrahedra on few points of a grid, so that many share a face, lie on the same side of it, are flat or stand twice; some of their faces as triangles of the file."""
    places = chance.integers(0, 4, (points, 3)).astype(float)
    fours = np.array([chance.permutation(points)[:4] for _ in range(tets)])
    fours[tets // 2: tets // 2 + tets // 8] = fours[: tets // 8]
    faces = fours[chance.random(tets) < 0.1][:, chance.permutation(4)[:3]]
    return Mesh(places, fours, chance.integers(5, 8, tets), faces=faces)


class Joined(unittest.TestCase):
    def setUp(self) -> None:
        if usable() is None:
            self.skipTest('there is no helper')

    def compare(self, mesh: Mesh) -> Neighbours:
        fast, plain = both(lambda: neighbours(mesh))
        for field in dataclasses.fields(Neighbours):
            np.testing.assert_array_equal(getattr(fast, field.name), getattr(plain, field.name), field.name)
        return fast

    def test_meshes(self):
        for name in ('small-ball', 'small-regions', 'embedded', 'small-tetgen'):
            found = self.compare(read(setting.mesh_file(name)))
            self.assertGreater((found.beside >= 0).mean(), 0.5)

    def test_soups(self):
        chance, kinds = np.random.default_rng(11), np.zeros(4, np.int64)
        for _ in range(300):
            found = self.compare(soup(chance, int(chance.integers(5, 12)), int(chance.integers(1, 60))))
            kinds += np.bincount(found.kind, minlength=4)
            beside = np.flatnonzero(found.beside >= 0)
            self.assertTrue((found.kind[found.beside.reshape(-1)[beside]] == 0).all())
        self.assertTrue((kinds > 100).all(), kinds)

    def test_one_tetrahedron_a_thousand_times(self):
        mesh = Mesh(np.array([[0.0, 0, 0], [1, 0, 0], [0, 1, 0], [0, 0, 1], [1, 1, 1]]), np.array([[0, 1, 2, 3]] * 1000 + [[1, 2, 3, 4]]), np.zeros(1001, np.int64))
        self.assertEqual(self.compare(mesh).untouched()['overlapping'], list(range(1000)))

    def test_empty_ones_are_none(self):
        """A slot that is empty has no faces, though its corners may still stand there."""
        chance = np.random.default_rng(12)
        for _ in range(100):
            of = neighbours(soup(chance, 8, 40))
            kind = np.where(chance.random(40) < 0.3, EMPTY, of.kind).astype(np.int8)
            fast, plain = both(lambda: joined(of.corners, of.region, kind, of.shut, 8))
            np.testing.assert_array_equal(fast[0], plain[0])
            np.testing.assert_array_equal(fast[1], plain[1])

    def test_nothing(self):
        none = np.zeros((0, 4), np.int64)
        for _, beside in both(lambda: joined(none, np.zeros(0, np.int64), np.zeros(0, np.int8), np.zeros((0, 3), np.int64), 4)):
            self.assertEqual(beside.shape, (0, 4))


class Rows(unittest.TestCase):
    def test_rows(self):
        chance = np.random.default_rng(13)
        for count, points in ((0, 9), (1, 9), (2, 9), (50, 6), (5000, 8), (5000, 10**6)):
            tets, regions = chance.integers(0, points, (count, 4)), chance.integers(-3, 3, count)
            fast, plain = both(lambda: rows_of(tets, regions))
            np.testing.assert_array_equal(fast, plain)
            order = chance.permutation(count)
            np.testing.assert_array_equal(rows_of(tets[order][:, [2, 0, 3, 1]], regions[order]), fast)

    def test_mixes_that_meet(self):
        """Rows with one mix: the first of the numbers and the last are turned so that the mix is the same."""
        factor, most = 0x9E3779B97F4A7C15, 2**64 - 1
        inverse = pow(factor, -1, 2**64)

        def mix(row: list[int]) -> int:
            mixed = 0
            for number in row:
                mixed = (mixed ^ number) * factor & most
                mixed ^= mixed >> 29
            return mixed

        def last(row: list[int], wanted: int) -> int:
            """The region that gives a row this mix."""
            high = wanted
            for _ in range(3):
                high = wanted ^ high >> 29
            found = high * inverse & most ^ mix(row)
            return found - 2**64 if found >= 2**63 else found

        tets = [[0, 1, 2, k] for k in range(3, 40)]
        regions = [last(row, 77 << 50 | k % 2) for k, row in enumerate(tets)]
        self.assertEqual({mix([*row, region & most]) for row, region in zip(tets, regions)}, {77 << 50, 77 << 50 | 1})
        fast, plain = both(lambda: rows_of(np.array(tets[::-1]), np.array(regions[::-1])))
        np.testing.assert_array_equal(fast, plain)


if __name__ == '__main__':
    unittest.main()
