"""docs/CARRYING.md, tried: points that are whole numbers stand for the doubles, and a far coarser rounding for the rounded points, so that the kernel can judge and search both sides."""
from __future__ import annotations

import collections
import unittest

import setting  # noqa: F401  (finds the package, the library and the helper)

import numpy as np
from cottontuff import cavity, exact, kernel, neighbours
from cottontuff.mesh import Mesh, read


def by_chance(corners: np.ndarray) -> np.ndarray:
    """A measure that has nothing to do with shape, so that rounding turns good ones too."""
    sums = corners.sum(axis=1) @ np.array([0.7312, 1.9173, 3.3171])
    return np.abs(np.sin(sums * 0.618)) * 0.999 + 1e-6


def on_whole_numbers(name: str) -> Mesh:
    """A test mesh whose points are whole numbers to 50,000."""
    mesh = read(setting.mesh_file(name))
    return Mesh(cavity.scale(mesh.points).astype(float), mesh.tets, mesh.regions, mesh.faces, mesh.lines)


class Carrying(unittest.TestCase):
    """The two sides of many cavities."""

    def sides(self, job: cavity.Job) -> tuple[object, object, object]:
        """The answer on the rounded points, the answer on the points themselves, and the judge's word there on the former."""
        whole = job.xyz.astype(np.int32)
        table = np.where(job.sign == 0, -1, np.where(job.value > job.worst, job.value, 0)).astype(np.int32)
        rounded = kernel.search(job.coordinates, job.triangles, job.table, kept=job.kept, inner=job.inner)
        there = kernel.search(whole, job.triangles, table, kept=job.kept, inner=job.inner)
        said = kernel.judge(whole, job.triangles, table, rounded.tets, kept=job.kept, inner=job.inner) if isinstance(rounded, kernel.Filling) else None
        return rounded, there, said

    def one(self, job: cavity.Job, seen: collections.Counter[str]) -> None:
        own = kernel.judge(job.coordinates, job.triangles, job.full, job.own, kept=job.kept, inner=job.inner)
        a = isinstance(own, kernel.Verdict) and own.law == 0
        rounded, there, said = self.sides(job)
        if isinstance(rounded, kernel.Refusal) and rounded.number != kernel.NO_FILLING:
            seen['refused'] += 1
            return
        found = isinstance(rounded, kernel.Filling)
        same = type(rounded) is type(there) and (not found or (np.array_equal(rounded.tets, there.tets) and rounded.worst == there.worst))
        if found:
            self.assertEqual(said, kernel.Verdict(0, rounded.worst), 'a filling of the rounded points is lawful on the others')
            self.assertTrue(a, 'where there is a filling, a holds')
        if a and job.agrees:
            self.assertTrue(same, 'with a and b the answers are the same')
        seen[('filling' if found else '15') + (' with a and b' if a and job.agrees else ' without') + ('' if same else ', other answer')] += 1

    def test_both_sides(self) -> None:
        seen: collections.Counter[str] = collections.Counter()
        for name in ('small-ball', 'embedded', 'small-regions'):
            mesh = on_whole_numbers(name)
            of = neighbours.neighbours(mesh)
            slots = np.flatnonzero(of.kind == 0)[::7].tolist()
            for limit, measure in ((25, by_chance), (60, by_chance), (12, 'shape'), (400, by_chance)):
                state = cavity.Tetrahedra(of, cavity.Options(measure, False, limit))
                for number, slot in enumerate(slots):
                    job = cavity.job(cavity.grown(state, slot, 5 + number % 7))
                    if job.own_allowed:
                        self.one(job, seen)
        others = sum(count for kind, count in seen.items() if kind.endswith('other answer'))
        for kind, count in (('filling with a and b', seen['filling with a and b']), ('15 with a and b', seen['15 with a and b']), ('other answers without a or b', others)):
            self.assertGreater(count, 50, f'{kind}: too few to say anything, of {dict(seen)}')
        if __name__ == '__main__':
            print(dict(sorted(seen.items())))


BASE = [(0, 0, 0), (60, 0, 0), (0, 60, 0), (10, 10, 50), (10, 10, -50)]
AWAY = [(10, -60, 40), (50, -60, 40), (20, -60, 80)]
ROUND_THE_EDGE = [(0, 1, 3, 4), (0, 2, 3, 4), (1, 2, 3, 4)]


class Examples(unittest.TestCase):
    """The examples of docs/CARRYING.md in which one condition does not hold: the points stand for the doubles, a tenth of them for the rounded points. Entries: 5 for what betters the cavity, 1 for the rest."""

    def answers(self, points: list[tuple[int, ...]], own: list[tuple[int, ...]], better: list[tuple[int, ...]]) -> list[tuple[object, object]]:
        """On the points and on a tenth of them: the judge's word on the cavity, and the search's answer."""
        whole = np.array(points)
        of = neighbours.neighbours(Mesh(whole.astype(float), np.array(own), np.zeros(len(own), int)))
        triangles = cavity.job(cavity.Cavity(cavity.Tetrahedra.of(of), tuple(range(len(own))), tuple(range(len(points))))).triangles
        said = []
        for at in (whole, np.rint(whole / 10).astype(int)):
            every = cavity.fours(len(at))
            entries = np.array([5 if tuple(four) in better else 1 for four in every.tolist()])
            table = np.where(exact.signs(at.astype(float), every) == 0, -1, entries)
            said.append((kernel.judge(at, triangles, table, own), kernel.search(at, triangles, np.where(table == 1, 0, table))))
        return said

    def test_overlap_that_rounding_hides(self) -> None:
        (own, there), (rounded_own, rounded) = self.answers([*BASE, (20, 4, 19), *AWAY], [(0, 1, 2, 3), (0, 1, 2, 4), (5, 6, 7, 8)], [*ROUND_THE_EDGE, (5, 6, 7, 8)])
        self.assertEqual((own.law, rounded_own.law, there.number, rounded.worst), (3, 0, 15, 5))

    def test_overlap_that_rounding_makes(self) -> None:
        (own, there), (rounded_own, rounded) = self.answers([*BASE, (20, 6, 31), *AWAY], [(0, 1, 2, 3), (0, 1, 2, 4), (5, 6, 7, 8)], [*ROUND_THE_EDGE, (5, 6, 7, 8)])
        self.assertEqual((own.law, rounded_own.law, there.worst, rounded.number), (0, 3, 5, 15))

    def test_a_four_that_rounding_flattens(self) -> None:
        points = [*BASE[:3], (10, 1, 50), (10, 1, -50)]
        (_, there), (_, rounded) = self.answers(points, [(0, 1, 2, 3), (0, 1, 2, 4)], ROUND_THE_EDGE)
        self.assertEqual((there.tets.tolist(), rounded.number), ([list(four) for four in ROUND_THE_EDGE], 15))


if __name__ == '__main__':
    unittest.main()
