"""The kernel over arrays: against the stored jobs, what it does with arrays of a wrong kind, threads, and which library is loaded.

The stored jobs stand in ../shared/jobs. Where there are none, as in a user's checkout, the jobs of examples/ are used and the tests of the other rows are skipped, which says so.
"""
from __future__ import annotations

import os
import pathlib
import shutil
import subprocess
import sys
import tempfile
import threading
import unittest
from itertools import combinations
from typing import Any, Iterator, NamedTuple, Optional

import setting

import numpy as np

from cottontuff import kernel
from cottontuff.kernel import Filling, Measured, Refusal, Verdict

JOBS = setting.SHARED / 'jobs'
FOLDERS = ('small', 'real', 'star', 'keep', 'hard', 'slip-01', 'slip-02', 'slip-05')
MEASURED = ('real', 'star', 'keep')  # their tables have the measured qualities


class Stored(NamedTuple):
    """A job as its text has it, and the printout that is expected."""

    name: str
    points: list[int]
    triangles: list[int]
    kept: list[int]
    inner: list[int]
    table: list[int]
    expected: list[list[str]]

    def lists(self) -> tuple[list[int], list[int], list[int]]:
        return self.points, self.triangles, self.table

    def inside(self) -> dict[str, list[int]]:
        return {'kept': self.kept, 'inner': self.inner}

    def refusal(self) -> Optional[int]:
        return int(self.expected[0][1]) if self.expected[0][0] == 'R' else None


def table_of(points: int, rows: list[list[int]]) -> list[int]:
    """The table of Q lines. Its length is wrong where a line speaks of an absent four, or of one a second time, so that the kernel must answer 11 as for the text. Some texts
    have thousands of points, whose table nobody needs: 2 comes first."""
    if points > 2 * kernel.MOST_POINTS:
        return []
    place: dict[tuple[int, ...], int] = {four: i for i, four in enumerate(combinations(range(points), 4))}
    table = [kernel.UNMEASURED] * len(place)
    fours = [tuple(row[:4]) for row in rows]
    if len(set(fours)) < len(fours) or not set(fours) <= set(place):
        return table + [1]
    for row in rows:
        table[place[tuple(row[:4])]] = row[4]
    return table


def parse(name: str, text: str, printout: str) -> Stored:
    """A text of the form, read without asking whether it is. Point numbers over 255 don't fit a list, and 255 is as absent as they are."""
    rows: dict[str, list[list[int]]] = {kind: [] for kind in 'PTEKQ'}
    for line in text.splitlines():
        kind, *fields = line.split(',')
        rows[kind].append([int(field) if kind in 'PQ' else min(int(field), 255) for field in fields])
    points, triangles, kept, inner = ([value for row in rows[kind] for value in row] for kind in 'PTEK')
    return Stored(name, points, triangles, kept, inner, table_of(len(rows['P']), rows['Q']), [line.split(',') for line in printout.splitlines()])


def beyond(text: str) -> str:
    """The text with 50,001 in the place of each coordinate beyond 10,000, the limit of before."""
    lines = [line.split(',') for line in text.splitlines()]
    far = [[str(50001 if int(x) > 0 else -50001) if abs(int(x)) > 10000 else x for x in line[1:]] if line[0] == 'P' else line[1:] for line in lines]
    return ''.join(','.join(line[:1] + fields) + '\n' for line, fields in zip(lines, far))


def changed(out: pathlib.Path) -> Optional[pathlib.Path]:
    """Where the answer stands that a later request changed, if one did."""
    places = (out.parent.parent / 'slip-05' / 'changed' / out.name, setting.ROOT / 'tests' / 'changed' / out.name)
    return next((place for place in places if place.exists()), None)


def stored(folder: pathlib.Path) -> Iterator[Stored]:
    """The jobs of a folder, and those whose answer changed with the limit of a coordinate once more, refused with 3 as before. Texts that are refused with 1 are no jobs for lists."""
    for out in sorted(folder.glob('*.out')):
        if not out.with_suffix('.txt').exists():
            continue
        before, now = out.read_text(), changed(out)
        name = f'{folder.name}/{out.stem}'
        if before == 'R,1\n':
            continue
        text = out.with_suffix('.txt').read_text()
        yield parse(name, text, before if now is None else now.read_text())
        if now is not None:
            yield parse(name + ' beyond', beyond(text), 'R,3\n')


def folders() -> list[pathlib.Path]:
    """The folders of stored jobs."""
    if JOBS.exists():
        return [JOBS / name for name in FOLDERS]
    print(f'{JOBS} is not there: the jobs of examples/ only', file=sys.stderr)
    return [setting.ROOT / 'examples']


def rows_of(*names: str) -> list[list[str]]:
    """The rows of stored tables, parted at semicolons."""
    if not JOBS.exists():
        raise unittest.SkipTest(f'{JOBS} is not there')
    return [line.split(';') for name in names for line in (JOBS / name).read_text().splitlines() if line]


def numbers(text: str) -> list[int]:
    """A list in decimal, perhaps empty."""
    return [int(part) for part in text.split(',')] if text else []


class StoredJobs(unittest.TestCase):
    """search, check, judge and measure_table against printouts that programs written apart from each other agree on."""

    jobs: list[Stored]

    @classmethod
    def setUpClass(cls) -> None:
        cls.jobs = [job for folder in folders() for job in stored(folder)]

    def test_enough(self) -> None:
        refusals = {job.refusal() for job in self.jobs}
        self.assertGreater(len(self.jobs), 400 if JOBS.exists() else 3)
        if JOBS.exists():
            self.assertLessEqual({None, *range(2, 14), 15, 22, 23} - {7}, refusals)

    def test_search(self) -> None:
        for job in self.jobs:
            with self.subTest(job.name):
                found = kernel.search(*job.lists(), **job.inside())
                if job.refusal() is not None:
                    self.assertEqual(found, Refusal.of(job.refusal()))
                    continue
                (_, count, worst), fours = job.expected[0], [[int(x) for x in row[1:5]] for row in job.expected[1:]]
                self.assertEqual((len(found.tets), found.worst, found.tets.tolist()), (int(count), int(worst), fours))
                self.assertEqual((found.tets.dtype, found.tets.shape), (np.uint8, (len(fours), 4)))

    def test_check(self) -> None:
        for job in self.jobs:
            with self.subTest(job.name):
                number = job.refusal()
                self.assertEqual(kernel.check(*job.lists(), **job.inside()), None if number in (None, 15) else Refusal.of(number))

    def test_judge(self) -> None:
        """The stored filling is lawful; without its last four it breaks law 4, backwards law 1."""
        for job in self.jobs:
            fours = [[int(x) for x in row[1:5]] for row in job.expected[1:]]
            if job.refusal() is not None or not fours:
                continue
            with self.subTest(job.name):
                self.assertEqual(kernel.judge(*job.lists(), fours, **job.inside()), Verdict(0, int(job.expected[0][2])))
                self.assertEqual(kernel.judge(*job.lists(), fours[:-1], **job.inside()), Verdict(4, 0))
                if len(fours) > 1:
                    self.assertEqual(kernel.judge(*job.lists(), fours[::-1], **job.inside()), Verdict(1, 0))

    def test_judge_refuses(self) -> None:
        for job in self.jobs:
            if job.refusal() not in (None, 15):
                with self.subTest(job.name):
                    self.assertEqual(kernel.judge(*job.lists(), [], **job.inside()), Refusal.of(job.refusal()))

    def test_tables(self) -> None:
        """The tables of cavities from real meshes were measured."""
        measured = [job for job in self.jobs if job.name.split('/')[0] in MEASURED]
        for job in measured:
            with self.subTest(job.name):
                self.assertEqual(kernel.measure_table(job.points).tolist(), job.table)
                holes = [kernel.UNMEASURED if i % 3 else 7 for i in range(len(job.table))]
                self.assertEqual(kernel.measure_table(job.points, holes).tolist(), [old if i % 3 else 7 for i, old in enumerate(job.table)])
        self.assertTrue(measured or not JOBS.exists())


class StoredRows(unittest.TestCase):
    """Rows: verdicts, measurements, and lists of lengths that no text has."""

    def test_judge(self) -> None:
        jobs = {job.name: job for job in stored(JOBS / 'small')}
        for name, fours, result in rows_of('judge/cases.txt'):
            with self.subTest(f'{name};{fours}'):
                job, (kind, value) = jobs[f'small/{name}'], result.split(',')
                wanted = {'W': Verdict(0, int(value)), 'L': Verdict(int(value), 0), 'R': Refusal.of(int(value))}[kind]
                self.assertEqual(kernel.judge(*job.lists(), numbers(fours), **job.inside()), wanted)

    def test_judge_lists(self) -> None:
        for points, triangles, kept, inner, table, fours, result in rows_of('slip-02/judge-lists.txt'):
            with self.subTest(f'{points};{fours}'):
                kind, value = result.split(',')
                said = kernel.judge(numbers(points), numbers(triangles), numbers(table), numbers(fours), kept=numbers(kept), inner=numbers(inner))
                self.assertEqual(said, Verdict(int(value), 0) if kind == 'L' else Refusal.of(int(value)))

    def test_lists(self) -> None:
        """The package lends a buffer that is long enough, so that 14 never comes; the checker knows of no buffer."""
        for points, triangles, kept, inner, table, buffer, result, fours in rows_of('slip-02/lists.txt'):
            number, count, worst = numbers(result)
            lists = [numbers(part) for part in (points, triangles, table)]
            inside = {'kept': numbers(kept), 'inner': numbers(inner)}
            with self.subTest(f'{points};{buffer}'):
                self.assertEqual(kernel.check(*lists, **inside), None if number in (0, 14, 15) else Refusal.of(number))
                found = kernel.search(*lists, **inside)
                if number == 14:
                    self.assertNotEqual(found, Refusal.of(14))
                elif number:
                    self.assertEqual(found, Refusal.of(number))
                else:
                    self.assertEqual((found.worst, found.tets.tolist()), (worst, [numbers(four) for four in fours.split()]))
                    self.assertEqual(found.tets.shape, (count, 4))

    def test_measure(self) -> None:
        new = dict(rows_of('slip-05/changed/measure.txt'))
        for corners, result in rows_of('measure/cases.txt', 'slip-05/measure/cases.txt'):
            with self.subTest(corners):
                self.compare(kernel.measure(numbers(corners)), new.get(corners, result))
                if len(numbers(corners)) == 12:
                    self.compare(kernel.measure(np.array(numbers(corners)).reshape(4, 3)), new.get(corners, result))

    def compare(self, found: Any, result: str) -> None:
        kind, *fields = result.split(',')
        if kind == 'R':
            self.assertEqual(found, Refusal.of(int(fields[0])))
        elif kind == 'FLAT':
            self.assertEqual(found, Measured(0.0, float(fields[0]), 0.0, True, 0))
        else:
            d, s, shape, _, millionths = fields
            self.assertEqual(found, Measured(float(d), float(s), float.fromhex(shape), False, int(millionths)))

    def test_limits(self) -> None:
        """50,000 is taken and 50,001 refused, at both ends, in jobs, tables and measurements."""
        for limit, number in ((50000, None), (50001, 3), (2**31 - 1, 3), (-50000, None), (-50001, 3), (-(2**31), 3)):
            points = [0, 0, 0, limit, 0, 0, 0, 1, 0, 0, 0, 1 if limit > 0 else -1]
            with self.subTest(limit):
                for found in (kernel.measure(points), kernel.measure_table(points), kernel.check(points, [0, 2, 1, 0, 1, 3, 0, 3, 2, 1, 2, 3], [1])):
                    self.assertEqual(found if isinstance(found, Refusal) else None, None if number is None else Refusal.of(number))

    def test_measure_table_refuses(self) -> None:
        four = [0, 0, 0, 1, 0, 0, 0, 1, 0, 0, 0, 1]
        rows: list[tuple[list[int], Optional[list[int]], int]] = [([], None, 2), (four[:9], None, 2), (four[:11], None, 2), ([0] * 51, None, 2), (four[:9] + [0, 0, 0], None, 4), (four, [], 11), (four, [1, 1], 11)]
        for points, table, number in rows:
            with self.subTest(f'{points} {table}'):
                self.assertEqual(kernel.measure_table(points, table), Refusal.of(number))


class Arrays(unittest.TestCase):
    """What arrays may be made of."""

    points = np.array(kernel.case_b()[0]).reshape(-1, 3)
    triangles = np.array(kernel.case_b()[1]).reshape(-1, 3)
    table = np.array(kernel.case_b()[2])
    answer = [[0, 1, 3, 4], [0, 2, 3, 4], [1, 2, 3, 4]]

    def searched(self, points: Any = None, triangles: Any = None, table: Any = None, **inside: Any) -> Any:
        given = (self.points if points is None else points, self.triangles if triangles is None else triangles, self.table if table is None else table)
        return kernel.search(*given, **inside)

    def test_kinds(self) -> None:
        """Whatever whole numbers an array has, in whatever order they lie in memory."""
        for kind in ('int8', 'int16', 'int32', 'int64', '>i4', '>i8', '>i2'):
            self.assertEqual(self.searched(points=self.points.astype(kind)).tets.tolist(), self.answer)
        for kind in ('int8', 'uint8', 'uint16', 'uint64', 'int64', '>u2'):
            self.assertEqual(self.searched(triangles=self.triangles.astype(kind)).tets.tolist(), self.answer)
        for kind in ('int32', 'int64', 'uint32', 'uint64', '>i4'):
            self.assertEqual(self.searched(table=self.table.astype(kind)).worst, 450000)

    def test_orders(self) -> None:
        wide, tall = np.zeros((5, 9), np.int32), np.zeros((10, 3), np.int32)
        wide[:, ::3], tall[::2] = self.points, self.points
        back = np.ascontiguousarray(self.points[::-1], np.int32)[::-1]
        plain = (self.points.tolist(), tuple(map(tuple, self.points.tolist())), self.points.ravel())
        for points in (wide[:, ::3], tall[::2], back, np.asfortranarray(self.points, np.int32), self.points.T.copy().T, *plain):
            self.assertEqual(self.searched(points=points).tets.tolist(), self.answer)
        self.assertEqual(self.searched(triangles=np.asfortranarray(self.triangles, np.uint8)).tets.tolist(), self.answer)
        strided = np.zeros(10, np.int32)
        strided[::2] = self.table
        self.assertEqual(self.searched(table=strided[::2]).worst, 450000)
        fours = np.asfortranarray(self.answer, np.uint8)
        self.assertEqual(kernel.judge(self.points, self.triangles, self.table, fours), Verdict(0, 450000))
        self.assertEqual(kernel.measure(np.asfortranarray(self.points[:4], np.int32)), kernel.measure(self.points[:4].tolist()))

    def refused(self, kind: type[Exception], words: str, **changed: Any) -> None:
        with self.subTest(f'{changed}'):
            with self.assertRaises(kind) as caught:
                self.searched(**changed)
            self.assertIn(words, str(caught.exception))

    def test_no_whole_numbers(self) -> None:
        for name in ('points', 'triangles', 'table', 'kept', 'inner'):
            for wrong, what in (
                ([1.0, 2.0, 3.0], 'float64'), ('0,0,0', '<U5'), (['a', 'b', 'c'], '<U1'), ([True, False, True], 'bool'), ([None, 1, 2], 'object'), (np.zeros(6, np.complex64), 'complex64'), (b'abc', '|S3'),
            ):
                self.refused(TypeError, f'{name}: whole numbers are needed, not {what}', **{name: wrong})
        nothing: Any = None
        for call in (
            lambda: kernel.search(nothing, self.triangles, self.table), lambda: kernel.judge(self.points, self.triangles, self.table, nothing),
            lambda: kernel.measure(nothing), lambda: kernel.measure_table(nothing),
        ):
            with self.assertRaisesRegex(TypeError, 'whole numbers are needed, not object'):
                call()
        with self.assertRaisesRegex(TypeError, 'corners: whole numbers are needed, not float64'):
            kernel.measure(np.zeros((4, 3)))

    def test_shapes(self) -> None:
        self.refused(ValueError, 'points: rows of 3, or one flat list, not an array of shape (3, 5)', points=self.points.T)
        self.refused(ValueError, 'points: rows of 3, or one flat list, not an array of shape (1, 5, 3)', points=self.points[None])
        self.refused(ValueError, 'points: rows of 3, or one flat list, not an array of shape ()', points=7)
        self.refused(ValueError, 'triangles: rows of 3, or one flat list, not an array of shape (9, 2)', triangles=self.triangles.reshape(9, 2))
        self.refused(ValueError, 'kept: rows of 2, or one flat list, not an array of shape (1, 3)', kept=[[0, 1, 2]])
        self.refused(ValueError, 'inner: rows of 3, or one flat list, not an array of shape (1, 2)', inner=[[0, 1]])
        self.refused(ValueError, 'table: one number an entry, not an array of shape (5, 1)', table=self.table[:, None])
        with self.assertRaisesRegex(ValueError, r'tets: rows of 4, or one flat list, not an array of shape \(4, 3\)'):
            kernel.judge(self.points, self.triangles, self.table, np.array(self.answer).T)
        with self.assertRaisesRegex(ValueError, r'corners: rows of 3'):
            kernel.measure(np.zeros((3, 4), np.int32))
        with self.assertRaises(ValueError):
            self.searched(points=[[0, 0, 0], [1]])

    def test_ranges(self) -> None:
        """What doesn't fit the C interface is never cut down to something that does."""
        far = self.points.astype(np.int64)
        far[4, 2] = 2**32 - 5
        self.refused(ValueError, 'points: 4294967291 is not from -2147483648 to 2147483647', points=far)
        far[4, 2] = -(2**32) - 5
        self.refused(ValueError, 'points: -4294967301 is not from -2147483648 to 2147483647', points=far)
        self.refused(ValueError, 'triangles: 256 is not from 0 to 255', triangles=np.where(self.triangles == 0, 256, self.triangles))
        self.refused(ValueError, 'triangles: -1 is not from 0 to 255', triangles=np.where(self.triangles == 0, -1, self.triangles))
        self.refused(ValueError, 'kept: 259 is not from 0 to 255', kept=[259, 4])
        self.refused(ValueError, 'inner: 256 is not from 0 to 255', inner=np.array([256, 1, 3], np.uint64))
        self.refused(ValueError, 'table: 4295467296 is not from', table=self.table + 2**32)
        self.refused(ValueError, 'table: 18446744073709551615 is not from', table=np.full(5, 2**64 - 1, np.uint64))
        with self.assertRaisesRegex(ValueError, 'tets: 256 is not from 0 to 255'):
            kernel.judge(self.points, self.triangles, self.table, [[256, 1, 2, 3]])
        with self.assertRaisesRegex(ValueError, 'corners: 2147483648 is not from'):
            kernel.measure([2**31] + [0] * 11)
        for huge in ([2**70] + [0] * 11, [-(2**70)] + [0] * 11):
            with self.assertRaises((TypeError, ValueError)):
                kernel.measure(huge)

    def test_values(self) -> None:
        """Every refusal is a value, with its words."""
        self.assertEqual(self.searched(points=self.points[:3]), Refusal(2, 'not 4 to 16 points, or a length that is no multiple of 3'))
        self.assertEqual(self.searched(points=self.points.ravel()[:-1]).number, 2)
        self.assertEqual(self.searched(triangles=np.where(self.triangles == 0, 255, self.triangles)).number, 6)
        self.assertEqual(self.searched(table=[0] * 5), Refusal(15, 'no lawful filling exists: proved, not given up'))
        self.assertEqual(self.searched(kept=[[3, 3]]).number, 10)
        self.assertEqual(self.searched(kept=[3]).number, 9)
        self.assertEqual(self.searched(inner=[[3, 4, 3]]).number, 23)
        self.assertEqual(str(kernel.check(self.points, self.triangles, self.table + 1_000_000)), '12: an entry of the table below -1 or above 1,000,000')
        self.assertEqual(kernel.measure([0] * 11), Refusal(16, 'not twelve coordinates'))
        self.assertEqual(sorted(kernel.TEXTS), [*range(1, 17), 22, 23])

    def test_kept_and_inner(self) -> None:
        """Each list comes to its place: kept 3-4 and inner 0-1-2 exclude each other."""
        self.assertEqual(self.searched(table=[5, 5, 4, 4, 4]).tets.tolist(), [[0, 1, 2, 3], [0, 1, 2, 4]])
        self.assertEqual(self.searched(table=[5, 5, 4, 4, 4], kept=[[3, 4]]).tets.tolist(), self.answer)
        self.assertEqual(self.searched(inner=[[0, 1, 2]]).tets.tolist(), [[0, 1, 2, 3], [0, 1, 2, 4]])
        self.assertEqual(self.searched(kept=[[3, 4]], inner=[[0, 1, 2]]), Refusal.of(15))
        self.assertEqual(kernel.judge(self.points, self.triangles, self.table, self.answer, inner=[[0, 1, 2]]).law, 8)
        self.assertEqual(kernel.judge(self.points, self.triangles, self.table, [[0, 1, 2, 3], [0, 1, 2, 4]], kept=[[3, 4]]).law, 7)

    def test_empty(self) -> None:
        found = kernel.search([], [], [])
        self.assertIsInstance(found, Filling)
        self.assertEqual((found.tets.shape, found.worst), ((0, 4), 1000000))
        self.assertIsNone(kernel.check(np.zeros((0, 3), int), np.zeros((0, 3), int), np.zeros(0, int)))
        self.assertEqual(kernel.judge([], [], [], []), Verdict(0, 1000000))

    def test_unchanged(self) -> None:
        """No array that is handed over changes, also those of the very kind that the library takes; an answer stays when the next comes."""
        points, triangles, table = self.points.astype(np.int32), self.triangles.astype(np.uint8), self.table.astype(np.int32)
        kept, inner, tets = np.array([[0, 1]], np.uint8), np.array([[0, 1, 3]], np.uint8), np.array(self.answer, np.uint8)
        holes = np.array([-1, -1, 0, 5, -1], np.int32)
        given: list[Any] = [points, triangles, table, kept, inner, tets, holes]
        before = [array.copy() for array in given]
        for array in given:
            array.flags.writeable = False
        first = kernel.search(points, triangles, table, kept=kept, inner=inner)
        kernel.judge(points, triangles, table, tets, kept=kept, inner=inner)
        kernel.check(points, triangles, table, kept=kept, inner=inner)
        kernel.measure(points[:4])
        filled = kernel.measure_table(points, holes)
        self.assertEqual(filled[1:4].tolist(), [kernel.measure(points[[0, 1, 2, 4]]).millionths, 0, 5])
        kernel.search([0, 0, 0, 1, 0, 0, 0, 1, 0, 0, 0, 1], [0, 2, 1, 0, 1, 3, 0, 3, 2, 1, 2, 3], [9])
        self.assertEqual(first.tets.tolist(), self.answer)
        for old, array in zip(before, given):
            np.testing.assert_array_equal(old, array)


class Threads(unittest.TestCase):
    def test_own_buffers(self) -> None:
        """16 threads that search different jobs at once get their own answers."""
        jobs = [job for folder in folders() for job in stored(folder) if job.refusal() is None and len(job.expected) > 2]
        jobs = sorted(jobs, key=lambda job: -len(job.points))[:64]
        wrong: list[str] = []
        start = threading.Barrier(16)

        def work(mine: list[Stored]) -> None:
            start.wait()
            for job in mine * (4 if len(jobs) > 15 else 50):
                found = kernel.search(*job.lists(), **job.inside())
                if found.tets.tolist() != [[int(x) for x in row[1:5]] for row in job.expected[1:]] or found.worst != int(job.expected[0][2]):
                    wrong.append(job.name)

        threads = [threading.Thread(target=work, args=(jobs[i::16] or jobs[i % len(jobs):][:1],)) for i in range(16)]
        for thread in threads:
            thread.start()
        for thread in threads:
            thread.join()
        self.assertEqual(wrong, [])


ASK = '''
from cottontuff import kernel
from cottontuff.faults import Fault
try:
    print(kernel.library()._name, kernel.search(*kernel.case_b()).worst)
except Fault as fault:
    print('Fault:', fault)
'''
STRUCTS = '''
#include <stddef.h>
#include <stdint.h>
typedef struct { double d, s, shape; uint32_t number, flat, millionths; } measured;
typedef struct { uint32_t a, b, c; } three;
measured cottontuff_measure(const int32_t *x, size_t n) {
    measured m = {0};
    for (size_t i = 0; i < n; i++) if (x[i] < -10000 || x[i] > 10000) m.number = 3;
    return m;
}
uint32_t cottontuff_measure_table(void) { return 0; }
'''
LATER = '''
uint32_t cottontuff_check_inner(void) { return 0; }
three cottontuff_judge_inner(void) { three t = {0}; return t; }
three cottontuff_search_inner(void) { three t = {0}; return t; }
'''


class Library(unittest.TestCase):
    """Which library is loaded, and what is said of one that can't be used. Each in a process of its own, since a process loads one."""

    def setUp(self) -> None:
        folder = tempfile.TemporaryDirectory()
        self.addCleanup(folder.cleanup)
        self.folder = pathlib.Path(folder.name)

    def ask(self, package: pathlib.Path = setting.ROOT / 'python', **variables: str) -> str:
        plain = {name: value for name, value in os.environ.items() if name not in ('COTTONTUFF_LIBRARY', 'LD_LIBRARY_PATH')}
        run = subprocess.run([sys.executable, '-c', ASK], env={**plain, 'PYTHONPATH': str(package), **variables}, cwd=self.folder, capture_output=True, text=True, check=False)
        self.assertEqual(run.stderr, '')
        return run.stdout

    def stub(self, name: str, text: str) -> str:
        source = self.folder / (name + '.c')
        source.write_text(text)
        return str(setting.compiled(source, self.folder / (name + '.so')))

    def test_named(self) -> None:
        path = os.environ['COTTONTUFF_LIBRARY']
        self.assertEqual(self.ask(COTTONTUFF_LIBRARY=path), f'{path} 450000\n')

    def test_missing(self) -> None:
        path = str(self.folder / 'nowhere.so')
        said = self.ask(COTTONTUFF_LIBRARY=path)
        self.assertRegex(said, r"^Fault: the library libcottontuff\.so can't be loaded \(.*cannot open shared object file.*\): `make` builds it, and COTTONTUFF_LIBRARY names its file\n$")
        self.assertIn(path, said)

    def test_no_library(self) -> None:
        for name, content in (('text.so', b'not a library, though long enough to look like one\n' * 20), ('empty.so', b'')):
            path = self.folder / name
            path.write_bytes(content)
            said = self.ask(COTTONTUFF_LIBRARY=str(path))
            self.assertTrue(said.startswith(f"Fault: the library libcottontuff.so can't be loaded ({path}: "), said)
        self.assertIn("can't be loaded", self.ask(COTTONTUFF_LIBRARY=str(self.folder)))

    def test_lacking(self) -> None:
        path = self.stub('lacking', STRUCTS)
        wanted = f'Fault: {path}: no Cottontuff library of a version that can be used: it lacks cottontuff_check_inner, which came with 1.1.0; this package needs version 1.5.0 or a newer 1.x\n'
        self.assertEqual(self.ask(COTTONTUFF_LIBRARY=path), wanted)

    def test_another_library(self) -> None:
        path = self.stub('another', 'int nothing(void) { return 0; }\n')
        self.assertIn('it lacks cottontuff_measure, which came with 1.0.0', self.ask(COTTONTUFF_LIBRARY=path))

    def test_old(self) -> None:
        path = self.stub('old', STRUCTS + LATER)
        wanted = f'Fault: {path}: this Cottontuff library is older than 1.5.0: it refuses the coordinate 50,000; this package needs version 1.5.0 or a newer 1.x\n'
        self.assertEqual(self.ask(COTTONTUFF_LIBRARY=path), wanted)

    def test_beside(self) -> None:
        """Without the variable the library beside the package comes first, whichever of its two names it has; the loader's is next."""
        shutil.copytree(setting.PACKAGE, self.folder / 'cottontuff', ignore=shutil.ignore_patterns('*.so*', '__pycache__'))
        library = os.environ['COTTONTUFF_LIBRARY']
        elsewhere = self.folder / 'elsewhere'
        elsewhere.mkdir()
        shutil.copy(library, elsewhere / 'libcottontuff.so.1')
        self.assertEqual(self.ask(self.folder, LD_LIBRARY_PATH=str(elsewhere)), 'libcottontuff.so.1 450000\n')
        for name in ('libcottontuff.so.1', 'libcottontuff.so'):
            beside = self.folder / 'cottontuff' / name
            shutil.copy(library, beside)
            self.assertEqual(self.ask(self.folder, LD_LIBRARY_PATH=str(elsewhere)), f'{beside} 450000\n')
        self.assertEqual(self.ask(self.folder, COTTONTUFF_LIBRARY=''), f'{beside} 450000\n')

    def test_old_beside(self) -> None:
        """An old library beside the package is said, and not passed over for another."""
        shutil.copytree(setting.PACKAGE, self.folder / 'cottontuff', ignore=shutil.ignore_patterns('*.so*', '__pycache__'))
        shutil.copy(self.stub('old', STRUCTS + LATER), self.folder / 'cottontuff' / 'libcottontuff.so')
        self.assertIn('is older than 1.5.0', self.ask(self.folder))


if __name__ == '__main__':
    unittest.main()
