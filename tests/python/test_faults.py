"""Faults that a user can run into and must be told of: files written over each other, a helper that is not there, meshes made from arrays, a flat tetrahedron on a face of two others."""
from __future__ import annotations

import os
import pathlib
import shutil
import subprocess
import sys
import tempfile
import unittest

import setting

import numpy as np
from cottontuff.improve import example, improve
from cottontuff.look import look
from cottontuff.measures import quality
from cottontuff.mesh import Mesh
from cottontuff.neighbours import neighbours


def run(*arguments: str, **environment: str) -> subprocess.CompletedProcess[str]:
    return subprocess.run([sys.executable, '-m', 'cottontuff', *arguments], env={**os.environ, 'PYTHONPATH': str(setting.ROOT / 'python'), **environment}, capture_output=True, text=True)


class Overwriting(unittest.TestCase):
    """No file is written over a mesh or over another."""

    def setUp(self) -> None:
        folder = tempfile.TemporaryDirectory()
        self.addCleanup(folder.cleanup)
        self.folder = pathlib.Path(folder.name)
        self.part = self.folder / 'part.msh'
        shutil.copy(setting.mesh_file('small-ball'), self.part)
        self.before = self.part.read_bytes()

    def refused(self, *arguments: str) -> None:
        done = run(*arguments)
        self.assertEqual((done.returncode, self.part.read_bytes() == self.before), (1, True), done.stderr)
        self.assertNotIn('Traceback', done.stderr)
        self.assertEqual(sorted(path.name for path in self.folder.iterdir()), ['part.msh'])

    def test_input(self) -> None:
        out = str(self.folder / 'out.msh')
        for option in ('--record', '--report'):
            self.refused('improve', str(self.part), '-o', out, option, str(self.part))
        self.refused('cavity', str(self.part), '--tet', '3', '-o', str(self.part))
        self.refused('cavity', str(self.part), '--tet', '3', '-o', str(self.folder / '.' / 'part.msh'))

    def test_output(self) -> None:
        out, record = str(self.folder / 'out.msh'), str(self.folder / 'record')
        self.refused('improve', str(self.part), '-o', out, '--report', out)
        self.refused('improve', str(self.part), '-o', out, '--report', record, '--record', record)

    def test_tetgen_has_two_files(self) -> None:
        source = setting.mesh_file('small-tetgen')
        for suffix in ('.node', '.ele'):
            shutil.copy(source.with_suffix(suffix), self.folder / f'pair{suffix}')
        before = (self.folder / 'pair.node').read_bytes()
        done = run('improve', str(self.folder / 'pair.ele'), '-o', str(self.folder / 'pair.node'))
        self.assertEqual((done.returncode, (self.folder / 'pair.node').read_bytes() == before), (1, True), done.stderr)


class Helper(unittest.TestCase):
    """A helper that is named and is not there is a fault, not ten times the time."""

    def test_named_and_absent(self) -> None:
        with tempfile.TemporaryDirectory() as folder:
            done = run('improve', str(setting.mesh_file('small-ball')), '-o', f'{folder}/out.msh', COTTONTUFF_HELPER=f'{folder}/helper.so')
            self.assertEqual((done.returncode, os.listdir(folder)), (1, []), done.stderr)
        self.assertIn('the helper can\'t be loaded', done.stderr)
        self.assertNotIn('Traceback', done.stderr)


class FromArrays(unittest.TestCase):
    """A mesh that was not read from a file is looked at."""

    def test_kinds_that_can_be_taken(self) -> None:
        mesh = example()
        lists = Mesh(mesh.points.astype(np.float32), mesh.tets.tolist(), mesh.regions.tolist())
        self.assertEqual(improve(lists, below=0.9).report['exchanges'], 1)

    def test_words(self) -> None:
        mesh = example()
        for change, words in (
            ({'tets': np.array([[0, 1, 2, 9]]), 'regions': np.zeros(1, int)}, 'row 0 names an absent point'),
            ({'tets': np.array([[0, 1, 1, 2]]), 'regions': np.zeros(1, int)}, 'or one twice'),
            ({'tets': np.zeros((0, 4), int), 'regions': np.zeros(0, int)}, 'no tetrahedra'),
            ({'tets': mesh.tets.astype(float)}, 'whole numbers'),
            ({'regions': np.zeros(3, int)}, 'for each of 2 tetrahedra'),
            ({'points': np.full((5, 3), np.nan)}, 'finite'),
            ({'points': np.zeros((5, 2))}, 'rows of three'),
        ):
            with self.subTest(words), self.assertRaisesRegex(ValueError, words):
                improve(Mesh(**{**{'points': mesh.points, 'tets': mesh.tets, 'regions': mesh.regions}, **change}))

    def test_measure(self) -> None:
        for call in (lambda: quality(example().points, example().tets, 'beauty'), lambda: improve(example(), measure='beauty')):
            with self.assertRaisesRegex(ValueError, 'shape or gamma'):
                call()


class FlatBetween(unittest.TestCase):
    """A flat tetrahedron on a face of two others keeps that face."""

    def test_face_stays(self) -> None:
        points = np.array([[0.0, 0, 0], [6, 0, 0], [0, 6, 0], [1, 1, 0.75], [1, 1, -5], [3, 3, 0]])
        mesh = Mesh(points, np.array([[0, 1, 2, 3], [0, 2, 1, 4], [0, 1, 2, 5]]), np.zeros(3, np.int64))
        self.assertEqual(neighbours(mesh).untouched()['flat'], [2])
        better = improve(mesh, below=0.9)
        self.assertTrue(all(better.report['kept'].values()))
        self.assertEqual(better.report['exchanges'], 0)
        self.assertEqual(len(look(mesh, 0, steps=5).tets), 1)


if __name__ == '__main__':
    unittest.main()
