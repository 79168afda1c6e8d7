"""What is said of a mesh: figures against brute force, tables that line up, plain data that is plain."""
from __future__ import annotations

import dataclasses
import doctest
import json
import os
import pathlib
import sys
import tempfile
import unittest
import warnings
from unittest import mock

sys.path.insert(0, str(pathlib.Path(__file__).resolve().parents[2] / 'python'))

import matplotlib.image
import numpy as np

from cottontuff import report
from cottontuff.faults import Fault
from cottontuff.measures import millionths, quality
from cottontuff.mesh import Mesh

REGULAR = np.array([[1., 1, 1], [1, -1, -1], [-1, 1, -1], [-1, -1, 1]])
ONE = np.array([[0, 1, 2, 3]])


def soup(count=400, seed=1, stretch=(1, 1, 1)):
    """Tetrahedra of points at random in three regions."""
    random = np.random.default_rng(seed)
    points = random.normal(size=(60, 3)) * stretch
    tets = np.array([random.choice(60, 4, replace=False) for _ in range(count)])
    names = {'steel': np.array([4, 3]), 'inlet': np.array([7, 2]), 'x' * 120: np.array([7, 3]), 'odd': 'text', 'long': np.arange(3)}
    return Mesh(points, tets, random.choice([4, 7, 1200], count), names=names)


def plain_angles(points, tets):
    """By the normals of two faces: another way than that of the module."""
    angles = []
    for four in tets:
        for i, j, k, l in ((0, 1, 2, 3), (0, 2, 1, 3), (0, 3, 1, 2), (1, 2, 0, 3), (1, 3, 0, 2), (2, 3, 0, 1)):
            a, b, c, d = points[four[[i, j, k, l]]]
            m, n = np.cross(b - a, c - a), np.cross(b - a, d - a)
            angles.append(np.degrees(np.arccos(np.clip(m @ n / np.linalg.norm(m) / np.linalg.norm(n), -1, 1))))
    return np.array(angles).reshape(-1, 6)


class Angles(unittest.TestCase):
    def test_regular(self):
        for size in (1, 1e-150, 1e150, 1e-9):
            np.testing.assert_allclose(report.dihedral_angles(REGULAR * size, ONE), np.full((1, 6), np.degrees(np.arccos(1 / 3))))

    def test_against_normals(self):
        for stretch in ((1, 1, 1), (1, 1, 0.01)):
            mesh = soup(100, 2, stretch)
            np.testing.assert_allclose(report.dihedral_angles(mesh.points, mesh.tets), plain_angles(mesh.points, mesh.tets), atol=1e-5)

    def test_a_flake_has_its_small_angles(self):
        points = np.array([[0., 0, 0], [1, 0, 0], [0, 1, 0], [0.3, 0.3, 1e-9]])
        angles = report.dihedral_angles(points, ONE)[0]
        self.assertAlmostEqual(angles.min() / np.degrees(1e-9 / 0.3), 1, 6)  # at the edges 01 and 02, 0.3 from the top
        self.assertGreater(angles.max(), 179.99)

    def test_flat_ones(self):
        flat = np.array([[0., 0, 0], [1, 0, 0], [0, 1, 0], [1, 1, 0], [2, 0, 0], [3, 0, 0], [0, 0, 0]])
        tets = np.array([[0, 1, 2, 3], [0, 1, 4, 5], [0, 6, 1, 2], [0, 6, 0, 6], [0, 1, 4, 2]])
        with warnings.catch_warnings():
            warnings.simplefilter('error')
            angles = report.dihedral_angles(flat, tets)
            summary = report.summarize(flat, tets)
        self.assertTrue(np.isin(angles, (0.0, 180.0)).all())
        self.assertEqual(sorted(angles[0]), [0, 0, 0, 0, 180, 180])
        self.assertEqual((summary.worst, summary.worst_exact, summary.smallest_angle, summary.largest_angle), (1, 0.0, 0.0, 180.0))

    def test_none(self):
        self.assertEqual(report.dihedral_angles(REGULAR, np.zeros((0, 4), int)).shape, (0, 6))


class Figures(unittest.TestCase):
    def test_against_brute_force(self):
        for measure in ('shape', 'gamma'):
            mesh = soup()
            whole = sorted(int(x) for x in millionths(quality(mesh.points, mesh.tets, measure)))
            s = report.summarize(mesh.points, mesh.tets, measure)
            self.assertEqual((s.tets, s.worst, s.mean), (400, whole[0], sum(whole) // 400))
            self.assertEqual((s.under_100000, s.under_200000, s.under_300000), tuple(sum(x < bound for x in whole) for bound in (100000, 200000, 300000)))
            self.assertEqual(s.first_percentile, int(whole[3] + 0.99 * (whole[4] - whole[3])))
            angles = plain_angles(mesh.points, mesh.tets)
            self.assertAlmostEqual(s.smallest_angle, angles.min(), 4)
            self.assertAlmostEqual(s.largest_angle, angles.max(), 4)
            self.assertEqual(s.worst_exact, quality(mesh.points, mesh.tets, measure).min())

    def test_a_measure_of_ones_own_and_its_bounds(self):
        values = [0.1, 0.2, 0.3, 0.0999999, 0.2999999, 1.0]
        s = report.summarize(REGULAR, np.repeat(ONE, 6, 0), lambda corners: np.array(values))
        self.assertEqual((s.under_100000, s.under_200000, s.under_300000), (1, 2, 4))

    def test_below_a_millionth(self):
        s = report.summarize(REGULAR * [1, 1, 1e-6], ONE)
        self.assertEqual(s.worst, 1)
        self.assertTrue(0 < s.worst_exact < 1e-10)

    def test_none(self):
        empty = Mesh(REGULAR, np.zeros((0, 4), np.int64), np.zeros(0, np.int64))
        self.assertEqual(report.summarize(empty.points, empty.tets).tets, 0)
        self.assertEqual(report.by_region(empty), {})
        self.assertEqual(report.worst_tets(empty), [])
        self.assertIn('0 tetrahedra', report.measure_text(empty))
        json.dumps(report.measure_json(empty), allow_nan=False)

    def test_regions(self):
        mesh = soup()
        found = report.by_region(mesh, 'gamma')
        self.assertEqual(list(found), [4, 7, 1200])
        for region, summary in found.items():
            self.assertEqual(summary, report.summarize(mesh.points, mesh.tets[mesh.regions == region], 'gamma'))

    def test_worst(self):
        mesh = soup()
        mesh.tets[300] = mesh.tets[7][::-1]  # an equal of 7, which stands first
        values = quality(mesh.points, mesh.tets)
        found = report.worst_tets(mesh, 1000)
        self.assertEqual([p.tet for p in found], sorted(range(400), key=lambda i: (values[i], i)))
        self.assertEqual(found[:10], report.worst_tets(mesh))
        self.assertEqual(report.worst_tets(mesh, 0), [])
        for place in found[:20]:
            self.assertEqual((place.millionths, place.exact, place.region), (millionths(values)[place.tet], values[place.tet], mesh.regions[place.tet]))
            self.assertEqual(place.corners, tuple(mesh.tets[place.tet]))
            np.testing.assert_allclose(place.centre, mesh.points[list(place.corners)].mean(0))


class Histograms(unittest.TestCase):
    def test_ends(self):
        self.assertEqual(report.histogram([0, 0.05, 0.0499999, 1, 0.95, 1.0000000002, float('nan')]), [3, 1] + [0] * 17 + [3])
        self.assertEqual(report.histogram([], 4), [0, 0, 0, 0])
        for k in range(20):  # a lower end belongs to its bar, though k / 20 is rounded
            self.assertEqual(report.histogram([k / 20])[k], 1, k)

    def test_agrees_with_the_figures(self):
        mesh = soup()
        bars = report.histogram(quality(mesh.points, mesh.tets))
        s = report.summarize(mesh.points, mesh.tets)
        self.assertEqual((sum(bars[:2]), sum(bars[:4]), sum(bars[:6]), sum(bars)), (s.under_100000, s.under_200000, s.under_300000, s.tets))

    def test_text(self):
        lines = report.histogram_text([0.01] * 4000 + [0.99]).splitlines()
        self.assertEqual(len(lines), 21)
        self.assertEqual(lines[1], '0.00 - 0.05       4,000  ' + '#' * 40)
        self.assertEqual(lines[2], '0.05 - 0.10           0')
        self.assertEqual(lines[20], '0.95 - 1.00           1  #', 'one of many is seen')

    def test_text_of_two(self):
        lines = report.histogram_text([0.01] * 40, [0.01] * 10 + [0.3] * 20).splitlines()
        self.assertEqual(lines[0].split(), ['quality', 'before', 'after'])
        self.assertEqual(lines[1].split(), ['0.00', '-', '0.05', '40', '10', '#' * 10])
        self.assertEqual(lines[7].split(), ['0.30', '-', '0.35', '0', '20', '#' * 20])

    def test_angles(self):
        mesh = soup()
        text = report.angle_histogram_text(mesh.points, mesh.tets)
        halves = [line.split('|') for line in text.splitlines()[1:]]
        rows = [half.split() for side in (0, 1) for half in (line[side] for line in halves)]
        expected = np.histogram(plain_angles(mesh.points, mesh.tets), 18, (0, 180))[0]
        self.assertEqual([int(row[3].replace(',', '')) for row in rows], expected.tolist())
        self.assertEqual([(int(row[0]), int(row[2])) for row in rows], [(10 * k, 10 * k + 10) for k in range(18)])

    def test_flat_angles_are_counted(self):
        flat = np.array([[0., 0, 0], [1, 0, 0], [0, 1, 0], [1, 1, 0]])
        lines = report.angle_histogram_text(flat, ONE).splitlines()
        self.assertEqual((lines[1].split()[3], lines[9].split()[-1]), ('4', '2'))


class Measure(unittest.TestCase):
    def test_text(self):
        mesh = soup(3000)
        text = report.measure_text(mesh)
        lines = text.splitlines()
        self.assertLessEqual(max(map(len, lines)), 100)
        self.assertEqual(len({len(line) for line in lines[2:7]}), 1, 'the columns end together')
        s = report.summarize(mesh.points, mesh.tets)
        total = lines[6].split()
        self.assertEqual(total[:2], ['total', '3,000'])
        self.assertEqual(total[5:8], [f'{n:,}' for n in (s.under_100000, s.under_200000, s.under_300000)])
        self.assertTrue(lines[3].startswith('4 steel '))
        self.assertRegex(lines[4], r'^7 xxx+\.\.\. ')
        self.assertTrue(lines[5].startswith('1200  '))
        self.assertNotIn('inlet', text)
        worst = report.worst_tets(mesh)
        rows = [line.split() for line in lines[10:20]]
        self.assertEqual([row[0] for row in rows], [f'{p.tet:,}' for p in worst])
        for row, place in zip(rows, worst):
            self.assertAlmostEqual(float(row[1]), place.exact, delta=1e-6)
            self.assertEqual(row[2], str(place.region))
            np.testing.assert_allclose([float(x) for x in row[3:]], place.centre, atol=1e-3)
        self.assertTrue(text.endswith(report.histogram_text(quality(mesh.points, mesh.tets))))

    def test_one_region_has_no_total(self):
        text = report.measure_text(Mesh(REGULAR, ONE, np.array([3])), 'gamma')
        self.assertNotIn('total', text)
        self.assertIn('gamma', text)

    def test_far_and_small_places(self):
        for size, start in ((1e-9, 'e-'), (1e12, 'e+'), (1, '.'), (500, '.'), (5e4, '')):
            mesh = soup()
            mesh.points *= size
            lines = report.measure_text(mesh).splitlines()
            self.assertLessEqual(max(map(len, lines)), 100)
            self.assertIn(start, lines[10].split()[3])

    def test_a_stretched_mesh_tells_its_worst_apart(self):
        mesh = soup(50, 1, (1, 1, 1e-4))
        rows = [line.split() for line in report.measure_text(mesh).splitlines()[10:20]]
        self.assertEqual(len({row[1] for row in rows}), 10)
        for row, place in zip(rows, report.worst_tets(mesh)):
            self.assertAlmostEqual(float(row[1]) / place.exact, 1, 2)

    def test_json(self):
        mesh = soup()
        plain = report.measure_json(mesh)
        self.assertEqual(json.loads(json.dumps(plain, allow_nan=False)), plain)
        self.assertEqual([(r['region'], r['name']) for r in plain['regions']], [(4, 'steel'), (7, 'x' * 120), (1200, None)])
        self.assertEqual(plain['total'], dataclasses.asdict(report.summarize(mesh.points, mesh.tets)))
        self.assertEqual([p['tet'] for p in plain['worst']], [p.tet for p in report.worst_tets(mesh)])
        self.assertEqual(sum(plain['histogram']), 400)
        self.assertEqual(sum(plain['angle_histogram']), 2400)
        self.assertEqual(plain['measure'], 'shape')


def improvement():
    mesh = soup(2000)
    before = dataclasses.asdict(report.summarize(mesh.points, mesh.tets))
    after = {**before, 'worst': 212345, 'worst_exact': 0.2123456, 'under_100000': 0, 'tets': 1998}
    passes = [{'number': 1, 'bad': 1120, 'exchanges': 88, 'searches': 500, 'worst': 12345, 'below': 40, 'seconds': 1.2}, {'number': 2, 'bad': 40, 'exchanges': 3}]
    return {'before': before, 'after': after, 'passes': passes,
            'searches': 1234, 'exchanges': 91, 'by_size': {n: {'searches': 100 * n, 'exchanges': 3 * n, 'kernel_seconds': 0.1} for n in (16, 5, 6, 7, 8, 9, 10, 11, 12, 13, 14, 15)},
            'seconds': {'total': 3.214, 'kernel': 1.2, 'growth': 0.6, 'jobs': 0.7, 'exchange': 0.2, 'read': 0.1, 'write': 0.1}, 'given_up': {'nothing around': 2, 'rounding': 20},
            'refused': {15: 3, 99: 1}, 'carries_over': 1200, 'skipped': 12, 'exact_signs': 345, 'interrupted': False, 'untouched': {'flat': 1, 'turned': 0, 'overlapping': 0}, 'untouched_tets': {'flat': [7], 'turned': [], 'overlapping': []},
            'kept': {'boundary': True, 'volume': True}}


class Improve(unittest.TestCase):
    def test_whole(self):
        text = report.improve_text(improvement())
        lines = text.splitlines()
        self.assertLessEqual(max(map(len, lines)), 100)
        table = {line[:16].strip(): line[16:].split() for line in lines[1:10]}
        self.assertEqual(table['worst'][1], '0.212345')
        self.assertEqual(table['tetrahedra'], ['2,000', '1,998'])
        self.assertEqual(table['under 0.1'][1], '0')
        joined = ' '.join(text.split())
        for words in ('passes 2 (1: 1,120 bad, 88 exchanged, worst 0.012345; 2: 40 bad', 'searches 1,234, exchanges 91', 'by points 5: 15/500, 6: 18/600,', '16: 48/1,600 (exchanges/searches)',
                      'seconds 3.21 of processor time (kernel 1.20, growth 0.60, jobs 0.70, exchanges 0.20', 'given up rounding 20, nothing around 2', 'no lawful filling 3, number 99 1',
                      '1,200 of 1,234 searches (97.2 %)', '12 skipped', '345 signs', 'left alone flat 1', 'kept boundary yes, volumes yes'):
            self.assertIn(words, joined)
        self.assertNotIn('\u00a0', text)
        self.assertNotIn('interrupted', text)

    def test_from_a_file(self):
        self.assertEqual(report.improve_text(json.loads(json.dumps(improvement()))), report.improve_text(improvement()))

    def test_what_went_wrong_is_said(self):
        text = report.improve_text({**improvement(), 'kept': {'boundary': False, 'volume': True}, 'interrupted': True})
        self.assertIn('boundary NO, volumes yes; no point is moved', text)
        self.assertIn('interrupted', text)
        for points, word in ((True, 'yes'), (False, 'NO')):
            self.assertIn(f'boundary yes, volumes NO, points {word}\n', report.improve_text({'kept': {'boundary': True, 'volume': False, 'points': points}}))

    def test_any_key_may_be_missing(self):
        whole = improvement()
        self.assertIn('not checked', report.improve_text({}))
        for key in whole:
            report.improve_text({k: v for k, v in whole.items() if k != key})
            if isinstance(whole[key], dict):
                report.improve_text({**whole, key: {}})
        for key in whole['before']:
            text = report.improve_text({**whole, 'before': {k: v for k, v in whole['before'].items() if k != key}})
            self.assertEqual('  - ' in text, not key.endswith('_exact'))


class Picture(unittest.TestCase):
    def test_before_and_after(self):
        with tempfile.TemporaryDirectory() as where, warnings.catch_warnings():
            warnings.simplefilter('error')
            path = pathlib.Path(where) / 'a.png'
            report.histogram_picture(path, [0.1] * 1000 + [0.5], [0.7] * 900, title='a $_$ b')
            picture = matplotlib.image.imread(path)[:, :, :3]
            self.assertEqual(picture.shape, (440, 770, 3))
            blue = (np.abs(picture - np.array([0x7f, 0xb2, 0xdd]) / 255) < 0.02).all(axis=2)
            red = (np.abs(picture - np.array([0xb3, 0x47, 0]) / 255) < 0.02).all(axis=2)
            for colour, at in ((blue, 0.1), (red, 0.7)):
                found = np.flatnonzero(colour[60:].sum(axis=0) > 100)  # below the legend, high bars only
                self.assertTrue(len(found))
                self.assertAlmostEqual(found.mean() / 770, 0.09 + 0.88 * (at + 0.01), delta=0.03)
            self.assertEqual(os.listdir(where), ['a.png'])

    def test_words(self):
        with tempfile.TemporaryDirectory() as where:
            path = pathlib.Path(where) / 'a.svg'
            report.histogram_picture(path, [0.1] * 1234, [0.5, 0.6], title='ball')
            text = path.read_text()
            for words in ('before: 1,234', 'after: 2', 'cube of mean ratio', 'ball'):
                self.assertIn(f'<!-- {words} -->', text)
            report.histogram_picture(path, [0.1] * 1234, measure='gamma')
            text = path.read_text()
            self.assertIn('gamma', text)
            self.assertIn('<!-- tetrahedra: 1,234 -->', text)
            self.assertNotIn('after', text)

    def test_nothing_at_all(self):
        with tempfile.TemporaryDirectory() as where, warnings.catch_warnings():
            warnings.simplefilter('error')
            report.histogram_picture(where + '/a.svg', [], [])
            report.histogram_picture(where + '/a.pdf', [])

    def test_faults(self):
        with tempfile.TemporaryDirectory() as where:
            with self.assertRaisesRegex(Fault, "none/a.png: it can't be written: No such file"):
                report.histogram_picture(where + '/none/a.png', [0.1])
            with self.assertRaisesRegex(Fault, '.png, .svg or .pdf'):
                report.histogram_picture(where + '/a.doc', [0.1])
            with mock.patch.dict(sys.modules, {'matplotlib': None, 'matplotlib.figure': None}), self.assertRaisesRegex(Fault, 'python3-matplotlib'):
                report.histogram_picture(where + '/a.png', [0.1])
            self.assertEqual(os.listdir(where), [])


def load_tests(loader, tests, pattern):
    tests.addTests(doctest.DocTestSuite(report))
    return tests


if __name__ == '__main__':
    unittest.main()
