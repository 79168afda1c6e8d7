"""Parts, each bettered by a process of its own: valid, the same each time, whatever the processes' speed."""
from __future__ import annotations

import functools
import itertools
import json
import multiprocessing
import os
import pathlib
import random
import signal
import subprocess
import sys
import tempfile
import time
import unittest
from typing import Any, NamedTuple
from unittest import mock

import setting

import numpy as np

from cottontuff import improve as improving, parts
from cottontuff.faults import Fault
from cottontuff.improve import Result, example, improve
from cottontuff.measures import millionths, quality, shape
from cottontuff.mesh import Mesh, read, write
from cottontuff.neighbours import neighbours
from cottontuff.record import verify
from validate import validate

FOLDER = tempfile.TemporaryDirectory()
HERE = pathlib.Path(FOLDER.name)
REAL_WORK, REAL_RUN, REAL_ATTEMPT = parts._work, improving.Run.run, improving.Run.attempt


class Done(NamedTuple):
    """A run: its mesh and report, and the files."""

    result: Result
    source: pathlib.Path
    out: pathlib.Path
    record: pathlib.Path


@functools.lru_cache(maxsize=None)
def mesh_of(name: str) -> Mesh:
    return read(setting.mesh_file(name))


def run(name: str, jobs: int, **options: Any) -> Done:
    source, number = setting.mesh_file(name), len(os.listdir(HERE))
    out, record = HERE / f'{number}{source.suffix}', HERE / f'{number}.record'
    result = improve(mesh_of(name), jobs=jobs, record=record, **options)
    write(out, result.mesh)
    return Done(result, source, out, record)


@functools.lru_cache(maxsize=None)
def usual(name: str, jobs: int) -> Done:
    return run(name, jobs)


def slow_work(number: int) -> Any:
    """A part's work with pauses of random length, other ones in each process and each time."""
    chance = random.Random(os.urandom(8))
    time.sleep(chance.random() / 10)

    def attempt(self: Any, slot: int) -> Any:
        time.sleep(chance.random() / 2000)
        return REAL_ATTEMPT(self, slot)

    with mock.patch.object(improving.Run, 'attempt', attempt):
        done = REAL_WORK(number)
    time.sleep(chance.random() / 10)
    return done


def failing_work(number: int) -> Any:
    raise Fault('this part fails')


def dying_work(number: int) -> Any:
    if number == 1:
        os.kill(os.getpid(), signal.SIGKILL)
    return REAL_WORK(number)


def killed() -> None:
    """A run one of whose processes is killed; prints the Fault. What is left of it ends after some seconds."""
    signal.signal(signal.SIGALRM, lambda *_: os.killpg(0, signal.SIGKILL))
    signal.alarm(8)
    with mock.patch.object(parts, '_work', dying_work):
        try:
            improve(mesh_of('small-ball'), jobs=2)
        except Fault as fault:
            print(f'Fault: {fault}')


def only_parts(self: Any, *given: Any) -> None:
    """The stage after the parts, which leaves nothing for later, is left out."""
    if self.cut:
        REAL_RUN(self, *given)


class Parts(unittest.TestCase):
    def test_valid(self):
        for name, jobs in itertools.product(('small-ball', 'small-regions', 'embedded', 'small-tetgen'), (1, 2, 3)):
            with self.subTest(name=name, jobs=jobs):
                done = usual(name, jobs)
                self.assertEqual(validate(done.source, done.out), [])
                self.assertTrue(all(done.result.report['kept'].values()))
                before, after = (sorted(millionths(quality(mesh.points, mesh.tets)).tolist()) for mesh in (mesh_of(name), done.result.mesh))
                self.assertGreater(after[0], before[0])
                self.assertGreater(after, before)

    def test_the_record_verifies(self):
        for name, jobs in (('small-ball', 2), ('small-regions', 2), ('embedded', 3)):
            done = usual(name, jobs)
            said = verify(mesh_of(name), read(done.out), done.record, search=name == 'small-ball')
            self.assertEqual((said.wrong, said.replacements), ([], done.result.report['exchanges']))

    def test_counts(self):
        for name, jobs in itertools.product(('small-ball', 'small-regions'), (2, 3)):
            report = usual(name, jobs).result.report
            lines = usual(name, jobs).record.read_text().splitlines()
            self.assertEqual(len(lines) - 2, report['exchanges'])
            for what in ('exchanges', 'searches'):
                self.assertEqual(sum(row[what] for row in report['passes']), report[what])
                self.assertEqual(sum(row[what] for row in report['by_size'].values()), report[what])
            self.assertEqual({row['part'] for row in report['passes'] if 'part' in row}, set(range(1, jobs + 1)))
            self.assertEqual([json.loads(line)['n'] for line in lines[1:-1]], list(range(1, len(lines) - 1)))

    def test_nothing_is_left(self):
        """What failed in a part and is not tried again would fail again."""
        for name, jobs in itertools.product(('small-ball', 'small-regions', 'embedded', 'small-tetgen'), (2, 3)):
            with self.subTest(name=name, jobs=jobs):
                self.assertEqual(improve(usual(name, jobs).result.mesh).report['exchanges'], 0)

    def test_what_is_passed_over_would_fail_again(self):
        for name, jobs in (('small-regions', 2), ('embedded', 3)):
            with mock.patch.object(improving.Run, 'is_unchanged', lambda self, slot: False):
                done = run(name, jobs)
            self.assertEqual(done.record.read_bytes(), usual(name, jobs).record.read_bytes())
            self.assertGreater(done.result.report['searches'], usual(name, jobs).result.report['searches'])

    def test_more_jobs_than_work(self):
        result = improve(example(), below=0.9, jobs=5)
        self.assertEqual((len(result.mesh.tets), result.report['exchanges']), (3, 1))
        self.assertEqual(validate(usual('small-ball', 1).source, run('small-ball', 9, below=0.1).out), [])


class SameEachTime(unittest.TestCase):
    def compare(self, one: Done, two: Done) -> None:
        self.assertEqual(one.record.read_bytes(), two.record.read_bytes())
        self.assertEqual(one.out.read_bytes(), two.out.read_bytes())
        self.assertEqual(one.result.mesh.tets.tolist(), two.result.mesh.tets.tolist())

    def test_twice(self):
        for name in ('small-ball', 'small-regions', 'small-tetgen'):
            self.compare(usual(name, 2), run(name, 2))

    def test_whatever_their_speed(self):
        for name, jobs in (('small-ball', 2), ('small-regions', 3)):
            with mock.patch.object(parts, '_work', slow_work):
                self.compare(usual(name, jobs), run(name, jobs))

    def test_with_progress(self):
        seen: list[tuple[int, int, float]] = []
        self.compare(usual('small-tetgen', 2), run('small-tetgen', 2, progress=lambda *row: seen.append(row)))
        self.assertTrue(all(number >= 1 and left >= 0 for number, left, _ in seen))

    def test_both_forms(self):
        with mock.patch.dict(os.environ, {'COTTONTUFF_PURE': '1'}):
            plain = run('small-ball', 2)
        self.compare(usual('small-ball', 2), plain)

    def test_a_function(self):
        done = run('small-ball', 2, measure=lambda corners: shape(corners))
        self.assertEqual(done.out.read_bytes(), usual('small-ball', 2).out.read_bytes())


class Cuts(unittest.TestCase):
    """The stage of the parts alone."""

    def test_cut_faces_stay(self):
        for name, jobs in itertools.product(('small-ball', 'small-regions'), (2, 3)):
            with self.subTest(name=name, jobs=jobs), mock.patch.object(improving.Run, 'run', only_parts):
                done = run(name, jobs)
                self.assertGreater(done.result.report['exchanges'], 0)
                self.assertEqual(validate(done.source, done.out), [])
                cut = self.cut_faces(mesh_of(name), jobs)
                after = {face for four in np.sort(done.result.mesh.tets, axis=1).tolist() for face in itertools.combinations(four, 3)}
                self.assertTrue(cut)
                self.assertEqual(cut - after, set())
                self.assertEqual(verify(mesh_of(name), read(done.out), done.record).wrong, [])

    def cut_faces(self, mesh: Mesh, jobs: int) -> set[tuple[int, ...]]:
        of = neighbours(mesh)
        part = np.zeros(len(mesh.tets), int)
        for number, slots in enumerate(parts.bisect(of, np.arange(len(of.corners)), jobs)):
            self.assertTrue((np.diff(slots) > 0).all())
            part[slots] = number
        self.assertLessEqual(np.ptp(np.bincount(part)), 1)
        sides: dict[tuple[int, ...], set[int]] = {}
        for four, number in zip(of.corners.tolist(), part.tolist()):
            for face in itertools.combinations(four, 3):
                sides.setdefault(face, set()).add(number)
        return {face for face, numbers in sides.items() if len(numbers) > 1}


class Ends(unittest.TestCase):
    def test_stop(self):
        for name in ('small-ball', 'small-tetgen'):
            start = time.monotonic()
            for wait in (0.0, 0.05, 0.15):
                done = run(name, 2, stop=lambda end=time.monotonic() + wait: time.monotonic() > end)
                self.assertEqual(validate(done.source, done.out), [])
                self.assertEqual(verify(mesh_of(name), read(done.out), done.record).wrong, [])
                if wait == 0.0:
                    self.assertTrue(done.result.report['interrupted'])
            self.assertLess(time.monotonic() - start, 30)

    def test_a_fault_in_a_part_is_said(self):
        with mock.patch.object(parts, '_work', failing_work), self.assertRaisesRegex(Fault, 'this part fails'):
            improve(mesh_of('small-ball'), jobs=2)

    def test_a_process_that_is_killed_is_said(self):
        """As when memory runs out: no waiting for ever."""
        code = f'import sys; sys.path[:0] = {sys.path!r}; import test_parts; test_parts.killed()'
        try:
            done = subprocess.run([sys.executable, '-c', code], capture_output=True, text=True, timeout=10, start_new_session=True)
        except subprocess.TimeoutExpired:
            self.fail('it waits for a process that was killed')
        self.assertIn('Fault: ', done.stdout)

    def test_a_process_that_can_not_be_started_is_said(self):
        """None of those that were started before it is left behind."""
        start, count = multiprocessing.context.ForkProcess.start, itertools.count()

        def second(process: Any) -> None:
            if next(count):
                raise BlockingIOError(11, 'Resource temporarily unavailable')
            start(process)

        with mock.patch.object(multiprocessing.context.ForkProcess, 'start', second), self.assertRaises(BlockingIOError):
            improve(mesh_of('small-ball'), jobs=3)
        self.assertEqual(multiprocessing.active_children(), [])
        self.assertEqual(next(count), 2)

    def test_a_measure_by_chance_ends(self):
        chance = np.random.default_rng(5)
        with mock.patch.object(improving, 'MOST_EXCHANGES', 0), self.assertRaisesRegex(Fault, 'different values'):
            improve(mesh_of('small-ball'), below=1, jobs=2, measure=lambda corners: chance.random(len(corners)))


if __name__ == '__main__':
    unittest.main()
