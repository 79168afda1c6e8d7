"""Pictures of cavities: that they fill their frames, that what is in front is drawn last, that a failing write says so and leaves nothing."""
from __future__ import annotations

import contextlib
import doctest
import io
import itertools
import os
import pathlib
import resource
import sys
import tempfile
import unittest
import warnings
from unittest import mock

sys.path.insert(0, str(pathlib.Path(__file__).resolve().parents[2] / 'python'))

import matplotlib.image
import meshio
import numpy as np

from cottontuff import show
from cottontuff.faults import Fault
from cottontuff.measures import quality


def cubes(n, seed=1, stretch=(1, 1, 1)):
    """n^3 cubes of six tetrahedra each; points shaken (no tetrahedron turns), turned and stretched."""
    random = np.random.default_rng(seed)
    number = {p: i for i, p in enumerate(itertools.product(range(n + 1), repeat=3))}
    tets = []
    for base in itertools.product(range(n), repeat=3):
        for order in itertools.permutations(range(3)):
            corner, four = list(base), [number[base]]
            for axis in order:
                corner[axis] += 1
                four.append(number[tuple(corner)])
            tets.append(four)
    points = np.array(list(number), float) + random.uniform(-0.1, 0.1, (len(number), 3))
    turn = np.linalg.qr(random.normal(size=(3, 3)))[0]
    return (points * stretch) @ turn.T, np.array(tets)


RING = np.array([[np.cos(a), np.sin(a), 0.05 * k] for k, a in enumerate(np.linspace(0, 2 * np.pi, 6, endpoint=False))] + [[0, 0, -0.4], [0, 0, 0.9]])
BEFORE = np.array([[k, (k + 1) % 6, 6, 7] for k in range(6)])
AFTER = np.array([[0, k, k + 1, top] for k in range(1, 5) for top in (6, 7)])


@contextlib.contextmanager
def folder():
    with tempfile.TemporaryDirectory() as name:
        yield pathlib.Path(name)


def drawn(path, count):
    """Of each panel, between head and foot: which pixels are no background; and the picture's shape."""
    picture = matplotlib.image.imread(path)[:, :, :3]
    head, foot = int(show.HEAD * show.DPI), int(show.FOOT * show.DPI)
    body = (picture < 0.99).any(axis=2)[head:len(picture) - foot]
    return np.split(body[:, :body.shape[1] // count * count], count, axis=1), picture


class Order(unittest.TestCase):
    def test_every_ray_meets_what_is_drawn_last_first(self):
        for seed in range(4):
            points, tets = cubes(2, seed)
            place = {tet: k for k, tet in enumerate(show.back_to_front(points[tets], tets))}
            self.assertEqual(sorted(place), list(range(len(tets))))
            random, met = np.random.default_rng(seed), 0
            for x, y in random.uniform(points[:, :2].min(0), points[:, :2].max(0), (60, 2)):
                spans = []
                for i, four in enumerate(tets):
                    a, b, c, d = points[four]
                    base = np.column_stack([b - a, c - a, d - a])
                    start, step = np.linalg.solve(base, np.array([x, y, 0]) - a), np.linalg.solve(base, np.array([0., 0, 1]))
                    at, by = np.append(start, 1 - start.sum()), np.append(step, -step.sum())
                    low = max([-at[k] / by[k] for k in range(4) if by[k] > 0])
                    high = min([-at[k] / by[k] for k in range(4) if by[k] < 0])
                    if high - low > 1e-9:
                        spans.append((low + high, place[i]))
                met += len(spans)
                self.assertEqual([p for _, p in sorted(spans)], sorted(p for _, p in spans))
            self.assertGreater(met, 100)

    def test_a_ring_of_overlaps_has_an_order_too(self):
        points = np.random.default_rng(3).normal(size=(9, 3))
        tets = np.array(list(itertools.combinations(range(9), 4)))
        self.assertEqual(sorted(show.back_to_front(points[tets], tets)), list(range(len(tets))))

    def test_boundary(self):
        skin = {tuple(f) for f in show.boundary_of(BEFORE).tolist()}
        self.assertEqual(skin, {tuple(sorted((k, (k + 1) % 6, top))) for k in range(6) for top in (6, 7)})
        self.assertEqual(skin, {tuple(f) for f in show.boundary_of(AFTER[:, ::-1]).tolist()})


class Camera(unittest.TestCase):
    def test_it_turns_and_does_not_mirror(self):
        for stretch in itertools.permutations((1, 3, 40)):
            points = cubes(1, 5, stretch)[0]
            turn = show.camera(points)
            np.testing.assert_allclose(turn @ turn.T, np.eye(3), atol=1e-12)
            self.assertAlmostEqual(float(np.linalg.det(turn)), 1)
            extent = np.ptp(points @ turn.T, axis=0)
            self.assertGreater(extent[0], 30)
            self.assertGreater(extent[0], 3 * extent[1])

    def test_flat_and_thin_clouds(self):
        for points in ([[0., 0, 0], [1, 0, 0], [0, 1, 0], [1, 1, 0]], [[0., 0, 0], [1, 1, 1], [2, 2, 2], [5, 5, 5]]):
            self.assertAlmostEqual(float(np.linalg.det(show.camera(np.array(points)))), 1)


class Picture(unittest.TestCase):
    def check_filled(self, points, before, after):
        with folder() as where:
            show.cavity_picture(where / 'a.png', points, before, after, title='a cavity')
            halves, picture = drawn(where / 'a.png', 1 if after is None else 2)
        for half in halves:
            rows, columns = np.flatnonzero(half.any(axis=1)), np.flatnonzero(half.any(axis=0))
            tall, wide = (np.ptp(rows) + 1) / len(picture), (np.ptp(columns) + 1) / half.shape[1]
            self.assertGreaterEqual(max(tall, wide), 0.7)
            self.assertGreaterEqual(max(tall * len(picture) / len(half), wide), 0.85, 'of the panel')
            for edge in (half[0], half[-1], half[:, 0], half[:, -1]):
                self.assertFalse(edge.any(), 'it touches the frame')
        white = (picture > 0.99).all(axis=2)
        self.assertTrue(white[0].all() and white[-1].all() and white[:, 0].all() and white[:, -1].all())
        return halves, picture

    def test_the_cavity_fills_its_panel(self):
        self.check_filled(RING, BEFORE, AFTER)
        for stretch in ((1, 1, 1), (1, 1, 1000), (1, 1000, 1000), (1e-3, 1, 30)):
            points, tets = cubes(1, 2, stretch)
            self.check_filled(points, tets, tets[:, ::-1])

    def test_far_from_the_origin_and_among_other_points(self):
        points = np.concatenate([np.full((5, 3), -1e6), RING * 1e-3 + 1000])
        self.check_filled(points, BEFORE + 5, AFTER + 5)
        with folder() as where:  # other points of the mesh change nothing
            show.cavity_picture(where / 'a.png', RING, BEFORE, AFTER)
            show.cavity_picture(where / 'b.png', np.concatenate([np.diag([50., 700, 3]), RING]), BEFORE + 3, AFTER + 3)
            self.assertEqual((where / 'a.png').read_bytes(), (where / 'b.png').read_bytes())

    def test_both_panels_have_one_camera_and_one_scale(self):
        halves, picture = self.check_filled(RING, BEFORE, BEFORE)
        width = picture.shape[1] // 2
        head, foot = int(show.HEAD * show.DPI), int(show.FOOT * show.DPI)
        left, right = picture[head:-foot, :width], picture[head:-foot, width:2 * width]
        self.assertLess((np.abs(left - right) > 0.3).mean(), 0.01)
        self.assertGreater(halves[0].mean(), 0.15)

    def test_the_worst_is_outlined_in_both(self):
        _, picture = self.check_filled(RING, BEFORE, AFTER)
        colour = np.array([int(show.WORST_COLOUR[k:k + 2], 16) / 255 for k in (1, 3, 5)])
        head, foot = int(show.HEAD * show.DPI), int(show.FOOT * show.DPI)
        marked = (np.abs(picture - colour) < 0.02).all(axis=2)[head:-foot]
        for half in np.array_split(marked, 2, axis=1):
            self.assertGreater(half.sum(), 300)

    def test_nothing_better(self):
        for none in (None, [], np.zeros((0, 4), int)):
            with folder() as where:
                show.cavity_picture(where / 'a.svg', RING, BEFORE, none)
                text = (where / 'a.svg').read_text()
            self.assertIn('no better filling', text)
            self.assertIn('before: 6 tetrahedra', text)
            self.assertNotIn('after', text)
        self.check_filled(RING, BEFORE, None)

    def test_words(self):
        with folder() as where:
            show.cavity_picture(where / 'a.svg', RING, BEFORE, AFTER, title='costs $_$ <b>', measure='gamma')
            text = (where / 'a.svg').read_text()
        worst = int(quality(RING, BEFORE, 'gamma').min() * 1e6) / 1e6
        for words in (f'before: 6 tetrahedra, worst {worst:.6f}', 'after: 8 tetrahedra', 'gamma', 'costs $_$'):
            self.assertIn(words, text)

    def test_flat_tetrahedra_are_drawn_without_a_warning(self):
        points = np.array([[0., 0, 0], [1, 0, 0], [0, 1, 0], [1, 1, 0], [0.5, 0.5, 1]])
        with warnings.catch_warnings():
            warnings.simplefilter('error')
            self.check_filled(points, [[0, 1, 2, 3], [0, 1, 2, 4]], [[0, 1, 2, 4]])

    def test_a_boundary_that_is_given_is_drawn(self):
        with folder() as where:
            show.cavity_picture(where / 'a.png', RING, BEFORE, AFTER)
            show.cavity_picture(where / 'b.png', RING, BEFORE, AFTER, boundary=show.boundary_of(BEFORE))
            show.cavity_picture(where / 'c.png', RING, BEFORE, AFTER, boundary=show.boundary_of(BEFORE)[:3])
            a, b, c = ((where / name).read_bytes() for name in ('a.png', 'b.png', 'c.png'))
        self.assertEqual(a, b)
        self.assertNotEqual(a, c)


class Vtu(unittest.TestCase):
    def read(self, *arguments, **named):
        with folder() as where, contextlib.redirect_stdout(io.StringIO()) as said:
            show.cavity_vtu(where / 'a.vtu', *arguments, **named)
            self.assertEqual(os.listdir(where), ['a.vtu'])
            mesh = meshio.read(where / 'a.vtu')
        self.assertEqual(said.getvalue(), '')
        return mesh

    def test_before_and_after_side_by_side(self):
        points = np.concatenate([[[9., 9, 9]], RING])
        mesh = self.read(points, BEFORE + 1, AFTER + 1)
        cells = mesh.cells_dict['tetra']
        data = {name: values[0] for name, values in mesh.cell_data.items()}
        self.assertEqual(set(data), {'quality', 'after', 'number'})
        self.assertEqual(data['after'].tolist(), [0] * 6 + [1] * 8)
        self.assertEqual(data['number'].tolist(), [*range(6), *range(8)])
        self.assertEqual(data['quality'].tolist(), [*quality(RING, BEFORE), *quality(RING, AFTER)])
        np.testing.assert_array_equal(mesh.points[cells[:6]], RING[BEFORE])
        shift = np.array([1.2 * np.ptp(RING[:, 0]), 0, 0])
        np.testing.assert_allclose(mesh.points[cells[6:]], RING[AFTER] + shift)
        self.assertEqual(len(mesh.points), 16)

    def test_without_after(self):
        mesh = self.read(RING, BEFORE, None)
        self.assertEqual(len(mesh.cells_dict['tetra']), 6)

    def test_no_width_along_x(self):
        points = np.array([[0., 0, 0], [0, 1, 0], [0, 0, 1], [0, 1, 2]])
        mesh = self.read(points, [[0, 1, 2, 3]], [[0, 1, 2, 3]], measure='gamma')
        self.assertEqual(sorted(set(mesh.points[:, 0])), [0, 2.4])
        self.assertEqual(mesh.cell_data['quality'][0].tolist(), [0, 0])


class Dispatch(unittest.TestCase):
    def test_forms(self):
        with folder() as where:
            for name, start in (('a.png', b'\x89PNG'), ('b.svg', b'<?xml'), ('c.pdf', b'%PDF'), ('d.vtu', b'<'), ('E.PNG', b'\x89PNG')):
                show.show(str(where / name), RING, BEFORE, AFTER, title='x')
                self.assertTrue((where / name).read_bytes().startswith(start), name)
            self.assertIn(b'UnstructuredGrid', (where / 'd.vtu').read_bytes())
            self.assertEqual(len(os.listdir(where)), 5)

    def test_the_same_bytes_twice(self):
        with folder() as where:
            for suffix in ('.png', '.svg', '.pdf'):
                for name in ('a', 'b'):
                    show.show(where / (name + suffix), RING, BEFORE, AFTER)
                self.assertEqual((where / ('a' + suffix)).read_bytes(), (where / ('b' + suffix)).read_bytes(), suffix)

    def test_other_suffixes(self):
        for name in ('a.gif', 'a', 'a.png.txt', '.png'):
            with self.assertRaises(Fault) as caught:
                show.show(name, RING, BEFORE, AFTER)
            for suffix in show.SUFFIXES:
                self.assertIn(suffix, str(caught.exception))
            self.assertFalse(os.path.exists(name))

    def test_no_cavity(self):
        for name in ('a.png', 'a.vtu'):
            with self.assertRaisesRegex(Fault, 'no tetrahedra'):
                show.show(name, RING, [], AFTER)


class Writing(unittest.TestCase):
    def fails(self, path, reason):
        with self.assertRaises(Fault) as caught:
            show.show(path, RING, BEFORE, AFTER)
        said = str(caught.exception)
        self.assertTrue(said.startswith(f"{path}: it can't be written: "), said)
        self.assertIn(reason, said)
        self.assertNotIn('\n', said)

    def test_a_missing_folder_and_a_folder(self):
        with folder() as where:
            for suffix in show.SUFFIXES:
                self.fails(where / 'none' / ('a' + suffix), 'No such file')
                (where / ('b' + suffix)).mkdir()
                self.fails(where / ('b' + suffix), 'Is a directory')
            self.assertEqual(sorted(os.listdir(where)), sorted('b' + suffix for suffix in show.SUFFIXES))

    def test_no_room(self):
        limit = resource.getrlimit(resource.RLIMIT_FSIZE)
        with folder() as where:
            for suffix in show.SUFFIXES:
                path = where / ('a' + suffix)
                path.write_text('old')
                resource.setrlimit(resource.RLIMIT_FSIZE, (256, limit[1]))
                try:
                    self.fails(path, 'File too large')
                finally:
                    resource.setrlimit(resource.RLIMIT_FSIZE, limit)
                self.assertEqual(path.read_text(), 'old', 'it stays as it was')
            self.assertEqual(len(os.listdir(where)), len(show.SUFFIXES), 'nothing is left behind')

    def test_an_interruption_leaves_nothing(self):
        def write(name):
            pathlib.Path(name).write_text('half')
            raise KeyboardInterrupt
        with folder() as where:
            with self.assertRaises(KeyboardInterrupt):
                show.write_beside(where / 'a.txt', write)
            self.assertEqual(os.listdir(where), [])

    def test_a_link_stays_a_link(self):
        with folder() as where:
            (where / 'b.png').symlink_to(where / 'a.png')
            show.show(where / 'b.png', RING, BEFORE, AFTER)
            self.assertTrue((where / 'b.png').is_symlink())
            self.assertTrue((where / 'a.png').is_file())

    def test_packages_that_are_missing(self):
        with mock.patch.dict(sys.modules, {'matplotlib': None, 'matplotlib.figure': None}), self.assertRaisesRegex(Fault, 'python3-matplotlib'):
            show.show('a.png', RING, BEFORE, AFTER)
        with mock.patch.dict(sys.modules, {'meshio': None}), self.assertRaisesRegex(Fault, 'python3-meshio'):
            show.show('a.vtu', RING, BEFORE, AFTER)


def load_tests(loader, tests, pattern):
    tests.addTests(doctest.DocTestSuite(show))
    return tests


if __name__ == '__main__':
    unittest.main()
