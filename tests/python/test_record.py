"""The replay of a record: it holds on a real one, and refuses whatever was altered, in words and with nothing but a Fault."""
from __future__ import annotations

import copy
import dataclasses
import gzip
import itertools
import json
import os
import pathlib
import random
import tempfile
import unittest
from typing import Any, Callable, Optional
from unittest import mock

import setting

import numpy as np

from cottontuff import cavity, kernel
from cottontuff.cavity import Options
from cottontuff.faults import Fault
from cottontuff.helper import usable
from cottontuff.improve import example, improve
from cottontuff.measures import shape
from cottontuff.mesh import Mesh, read
from cottontuff.record import Replay, Verified, digest, verify

FOLDER = tempfile.TemporaryDirectory()
HERE = pathlib.Path(FOLDER.name)
Lines = list[dict[str, Any]]


class Case(unittest.TestCase):
    """A mesh, its betterment and the record, to be altered."""

    before: Mesh
    after: Mesh
    lines: Lines

    @classmethod
    def setUpClass(cls) -> None:
        cls.before = read(setting.mesh_file('small-ball'))
        cls.path = HERE / 'ball.record'
        cls.after = improve(cls.before, record=cls.path).mesh
        cls.lines = [json.loads(line) for line in cls.path.read_text().splitlines()]

    def verified(self, lines: Lines, before: Optional[Mesh] = None, after: Optional[Mesh] = None, **options: Any) -> Verified:
        path = HERE / 'altered.record'
        path.write_text(''.join(json.dumps(line) + '\n' for line in lines))
        return verify(before or self.before, after or self.after, path, **options)

    def refused(self, lines: Lines, words: str = '', before: Optional[Mesh] = None, after: Optional[Mesh] = None) -> None:
        """A Verified with something wrong, or a Fault of one sentence; nothing else."""
        for form in ('0', '1'):
            with mock.patch.dict(os.environ, {'COTTONTUFF_PURE': form}):
                try:
                    said = self.verified(lines, before, after)
                except Fault as fault:
                    self.look_at_sentence(str(fault))
                    self.assertIn(words, str(fault))
                    continue
                self.assertFalse(said, 'a record that does not hold is accepted')
                self.assertTrue(any(words in wrong for wrong in said.wrong), said.wrong)
                for wrong in said.wrong:
                    self.look_at_sentence(wrong)

    def look_at_sentence(self, text: str) -> None:
        self.assertTrue(text.strip())
        self.assertNotIn('\n', text)
        self.assertLess(len(text), 400)

    def altered(self, row: int, **changes: Any) -> Lines:
        lines = copy.deepcopy(self.lines)
        lines[row].update(changes)
        return lines


class Holds(Case):
    def test_plain(self):
        for search in (False, True):
            said = verify(self.before, self.after, self.path, search=search)
            self.assertTrue(said)
            self.assertEqual((said.replacements, said.wrong), (len(self.lines) - 2, []))
            self.assertEqual(said.carries_over, sum(line['a'] and line['b'] for line in self.lines[1:-1]))

    def test_every_line_by_the_helper(self):
        """What holds is not replayed a second time in Python, with spaces or without."""
        if usable() is None:
            self.skipTest('there is no helper')
        mesh = read(setting.mesh_file('small-tetgen'))  # a ball has coordinates of 1e-32, whose sums are too long for the helper
        after = improve(mesh, record=HERE / 'helper.record').mesh
        lines = [json.loads(line) for line in (HERE / 'helper.record').read_text().splitlines()]
        for search in (False, True):
            with mock.patch.object(Replay, 'step', side_effect=AssertionError('a line is left to the plain form')):
                self.assertTrue(verify(mesh, after, HERE / 'helper.record', search=search))
                self.assertTrue(self.verified(lines, mesh, after, search=search))

    def test_other_line_ends(self):
        for end in (b'\r\n', b'\r'):
            (HERE / 'ends.record').write_bytes(self.path.read_bytes().replace(b'\n', end))
            self.assertTrue(verify(self.before, self.after, HERE / 'ends.record'))
        (HERE / 'ends.record').write_bytes(self.path.read_bytes().rstrip(b'\n'))
        self.assertTrue(verify(self.before, self.after, HERE / 'ends.record'))

    def test_fields_in_another_order(self):
        """JSON has no order: such lines are for the plain form."""
        self.assertTrue(self.verified([dict(reversed(line.items())) for line in self.lines]))

    def test_packed(self):
        improve(self.before, record=HERE / 'ball.gz')
        self.assertEqual(gzip.open(HERE / 'ball.gz').read(), self.path.read_bytes())
        for search in (False, True):
            self.assertTrue(verify(self.before, self.after, HERE / 'ball.gz', search=search))

    def test_both_forms(self):
        with mock.patch.dict(os.environ, {'COTTONTUFF_PURE': '1'}):
            self.assertTrue(verify(self.before, self.after, self.path, search=True))

    def test_other_meshes(self):
        for name, options in (('small-regions', {}), ('small-tetgen', {'measure': 'gamma'}), ('embedded', {}), ('small-stretched-0.01', {'below': 0.0001, 'table': 'rank'}), ('small-turned', {'limit': 20})):
            with self.subTest(name):
                mesh = read(setting.mesh_file(name))
                result = improve(mesh, record=HERE / 'other.record', **options)
                said = verify(mesh, result.mesh, HERE / 'other.record', search=True)
                self.assertEqual((said.wrong, said.replacements), ([], result.report['exchanges']))

    def test_a_measure_of_ones_own(self):
        own: Callable[[Any], Any] = lambda corners: np.cbrt(shape(corners))
        result = improve(self.before, below=0.6, measure=own, record=HERE / 'own.record')
        self.assertTrue(verify(self.before, result.mesh, HERE / 'own.record', measure=own))
        with self.assertRaisesRegex(Fault, 'a measure of one\'s own'):
            verify(self.before, result.mesh, HERE / 'own.record')
        self.assertFalse(verify(self.before, result.mesh, HERE / 'own.record', measure='gamma'))

    def test_nothing_done(self):
        result = improve(self.before, below=0.0001, record=HERE / 'none.record')
        self.assertEqual(verify(self.before, result.mesh, HERE / 'none.record'), Verified())

    def test_rows_in_another_order(self):
        """Sets are compared: the order of tetrahedra, and of corners, is the file's business."""
        other = dataclasses.replace(self.after, tets=self.after.tets[::-1][:, [1, 0, 3, 2]], regions=self.after.regions[::-1])
        self.assertTrue(verify(self.before, other, self.path))

    def test_progress(self):
        seen: list[int] = []
        verify(self.before, self.after, self.path, progress=seen.append)
        self.assertEqual(seen, list(range(1, len(self.lines) - 1)))


def other_filling(before: Mesh, lines: Lines) -> tuple[int, list[int]]:
    """A line of 6 points or more, and another lawful filling of its cavity, better than it was: the search's with one of its fours barred."""
    replay = Replay(before, Options(), False)
    for row, line in enumerate(lines[1:-1], 1):
        engine = replay.engine
        slots = replay.engine.find(np.array([line['points'][i] for i in line['out']], np.int32).reshape(-1, 4))
        engine.reopen(slots, line['points'])
        engine.prepare()
        job = engine.job()
        for k in range(0, len(line['fill']), 4):
            table = job.table.copy()
            table[cavity.places(len(job.points))[tuple(line['fill'][k: k + 4])]] = 0
            found = kernel.search(job.coordinates, job.triangles, table, kept=job.kept, inner=job.inner)
            if isinstance(found, kernel.Filling):
                return row, found.tets.reshape(-1).tolist()
        replay.step(line)
    raise AssertionError('no line has a second filling')


class Altered(Case):
    def test_another_lawful_filling(self):
        row, fill = other_filling(self.before, self.lines)
        self.refused(self.altered(row, fill=fill))

    def test_another_lawful_filling_with_its_number(self):
        """All is told as it is, but it is not what the search answers, nor what leads to the end."""
        row, fill = other_filling(self.before, self.lines)
        points = self.before.points[np.array(self.lines[row]['points'])]
        worst = int(Options().values(points[np.array(fill).reshape(-1, 4)]).min())
        lines = self.altered(row, fill=fill, worst=worst)
        self.refused(lines)
        short = lines[: row + 1]
        self.assertFalse(self.verified(short + [{**lines[-1], 'end': row}], search=True))
        with_search = self.verified(short, search=True)
        self.assertIn(f'line {row + 1}: the search answers another filling', with_search.wrong)

    def test_a_four_changed(self):
        for row in (1, len(self.lines) // 2, len(self.lines) - 2):
            fill, count = self.lines[row]['fill'], len(self.lines[row]['points'])
            absent = next(list(four) for four in itertools.combinations(range(count), 4) if list(four) not in np.array(fill).reshape(-1, 4).tolist())
            self.refused(self.altered(row, fill=absent + fill[4:]), f'line {row + 1}: ')
            self.refused(self.altered(row, fill=fill[4:]), f'line {row + 1}: ')
            self.refused(self.altered(row, fill=fill + fill[:4]), f'line {row + 1}: ')
            self.refused(self.altered(row, fill=[fill[1], fill[0], *fill[2:]]), f'line {row + 1}: ')

    def test_numbers(self):
        for row in (1, len(self.lines) // 2, len(self.lines) - 2):
            line = self.lines[row]
            for name, value in (('worst', line['worst'] + 1), ('worst', line['worst'] - 1), ('old', line['old'] + 1), ('old', line['old'] - 1), ('a', 1 - line['a']), ('b', 1 - line['b'])):
                self.refused(self.altered(row, **{name: value}), f'line {row + 1}: ')

    def test_no_rise(self):
        """The cavity's own tetrahedra as the filling, with their number: a lawful filling that is no better."""
        line = self.lines[1]
        self.refused(self.altered(1, fill=line['out'], worst=line['old']), 'does not rise')

    def test_cavity(self):
        line = self.lines[1]
        self.refused(self.altered(1, out=line['out'][4:]))
        self.refused(self.altered(1, out=line['out'] + line['out'][:4]))
        self.refused(self.altered(1, out=line['out'][:-1]))
        self.refused(self.altered(1, points=[line['points'][0] - 1, *line['points'][1:]]))

    def test_missing_lines(self):
        for row in (1, 2, len(self.lines) // 2, len(self.lines) - 2):
            self.refused(self.lines[:row] + self.lines[row + 1:])
        self.refused(self.lines[1:], 'line 1')
        self.refused(self.lines[:-1], 'no last line')
        self.refused(self.lines[:1], 'no last line')
        self.refused([], 'line 1')

    def test_a_missing_line_with_all_numbered_anew(self):
        """The number of lines fits; the end does not, or a tetrahedron is not there."""
        for row in (1, len(self.lines) // 2, len(self.lines) - 2):
            lines = copy.deepcopy(self.lines[:row] + self.lines[row + 1:])
            for number, line in enumerate(lines[1:-1], 1):
                line['n'] = number
            self.refused([*lines[:-1], {**lines[-1], 'end': len(lines) - 2}])

    def test_doubled_lines(self):
        for row in (0, 1, len(self.lines) // 2, len(self.lines) - 1):
            self.refused(self.lines[: row + 1] + self.lines[row:])
        again = [dict(line) for line in self.lines[:2] + self.lines[1:]]
        for number, line in enumerate(again[1:-1], 1):
            line['n'] = number
        self.refused([*again[:-1], {**again[-1], 'end': len(again) - 2}], 'line 3: ')


class Order(Case):
    def pair(self, depends: bool) -> int:
        """The row of a line whose cavity has, or has not, a tetrahedron that the line before it put there; the independent ones have no point in common."""
        for row in range(2, len(self.lines) - 2):
            one, two = self.lines[row - 1], self.lines[row]
            came = {tuple(one['points'][i] for i in one['fill'][k: k + 4]) for k in range(0, len(one['fill']), 4)}
            opens = {tuple(two['points'][i] for i in two['out'][k: k + 4]) for k in range(0, len(two['out']), 4)}
            if (came & opens) if depends else not set(one['points']) & set(two['points']):
                return row
        raise AssertionError('no such pair')

    def changed_about(self, row: int) -> Lines:
        return [*self.lines[: row - 1], self.lines[row], self.lines[row - 1], *self.lines[row + 1:]]

    def test_independent_lines(self):
        row = self.pair(False)
        self.refused(self.changed_about(row), f'line {row}: it has the number {row}')

    def test_independent_lines_with_numbers_kept_right_lead_to_the_same_mesh(self):
        """They are independent: only the numbers tell."""
        row = self.pair(False)
        lines = copy.deepcopy(self.changed_about(row))
        lines[row - 1]['n'], lines[row]['n'] = row - 1, row
        self.assertTrue(self.verified(lines))

    def test_dependent_lines(self):
        try:
            row = self.pair(True)
        except AssertionError:
            self.skipTest('no neighbouring lines depend on each other')
        self.refused(self.changed_about(row))
        lines = copy.deepcopy(self.changed_about(row))
        lines[row - 1]['n'], lines[row]['n'] = row - 1, row
        self.refused(lines, f'line {row}: the mesh has no tetrahedron')

    def test_lines_after_the_end(self):
        self.refused([*self.lines, self.lines[-1]], 'does not end')
        self.refused([*self.lines, self.lines[1]], 'does not end')
        self.refused([*self.lines[:-2], self.lines[-1], self.lines[-2]])


class End(Case):
    """The last line and the mesh that is reached."""

    def changed(self) -> Mesh:
        """Another output: the last tetrahedron has another corner."""
        tets = self.after.tets.copy()
        tets[-1, 0] = next(p for p in range(len(self.after.points)) if p not in tets[-1])
        return dataclasses.replace(self.after, tets=tets)

    def test_count_and_digest(self):
        last = self.lines[-1]
        for changes in ({'end': last['end'] + 1}, {'end': last['end'] - 1}, {'end': None}, {'output': 'f' * 64}, {'output': None}, {'output': digest(self.before)}):
            self.refused([*self.lines[:-1], {**last, **changes}], 'does not end as its last line says')

    def test_another_output(self):
        self.refused(self.lines, after=self.changed())
        self.refused(self.lines, after=self.before)
        fewer = dataclasses.replace(self.after, tets=self.after.tets[:-1], regions=self.after.regions[:-1])
        self.refused(self.lines, after=fewer)

    def test_another_output_with_its_digest(self):
        self.refused(self.altered(-1, output=digest(self.changed())), 'the replay does not end in the output', after=self.changed())

    def test_another_region(self):
        mesh = read(setting.mesh_file('small-regions'))
        result = improve(mesh, below=0.01, record=HERE / 'regions.record')
        lines = [json.loads(line) for line in (HERE / 'regions.record').read_text().splitlines()]
        regions = result.mesh.regions.copy()
        regions[-1] = next(region for region in np.unique(regions) if region != regions[-1])
        other = dataclasses.replace(result.mesh, regions=regions)
        self.refused(lines, before=mesh, after=other)
        self.refused([*lines[:-1], {**lines[-1], 'output': digest(other)}], 'does not end in the output', before=mesh, after=other)
        self.refused([*lines[:-1], {**lines[-1], 'output': digest(other)}], before=mesh, after=dataclasses.replace(result.mesh, regions=regions + 5))

    def test_another_input(self):
        self.refused(self.lines, 'starts from another mesh', before=self.after)
        self.refused(self.lines, before=read(setting.mesh_file('small-plate')))
        self.refused(self.lines, 'starts from another mesh', before=dataclasses.replace(self.before, regions=self.before.regions + np.arange(len(self.before.tets))))
        self.refused(self.altered(0, input=None), 'starts from another mesh')

    def test_a_mesh_that_is_none(self):
        """Arrays that no file gives: said in words, not looked up beyond their end."""
        for change in ({'tets': self.before.tets + len(self.before.points)}, {'tets': self.before.tets - 5}, {'regions': self.before.regions[:-1]}, {'points': np.full_like(self.before.points, np.nan)}):
            wrong = dataclasses.replace(self.before, **change)
            for before, after in ((wrong, self.after), (self.before, wrong)):
                with self.assertRaises(ValueError):
                    verify(before, after, self.path)

    def test_a_point_moved(self):
        for point, axis in ((0, 0), (len(self.before.points) - 1, 2)):
            points = self.before.points.copy()
            points[point, axis] = np.nextafter(points[point, axis], 9)
            moved = {'before': dataclasses.replace(self.before, points=points), 'after': dataclasses.replace(self.after, points=points)}
            self.refused(self.lines, 'the points are not the same, bit for bit', before=moved['before'])
            self.refused(self.lines, 'the points are not the same, bit for bit', after=moved['after'])
            self.refused(self.lines, 'starts from another mesh', **moved)

    def test_triangles_and_lines(self):
        for name, other in (('faces', self.after.faces[:-1]), ('faces', self.after.faces + 1), ('lines', np.array([[0, 1]]))):
            self.refused(self.lines, 'are not the same', after=dataclasses.replace(self.after, **{name: other}))


class Unlawful(unittest.TestCase):
    """A filling that loses what has to stay, told as if it were right."""

    def forged(self, mesh: Mesh, free: Mesh) -> Verified:
        """The record of a mesh without its lines, triangles or regions, as one of the mesh with them."""
        after = improve(free, below=1, record=HERE / 'free.record').mesh
        lines = [json.loads(line) for line in (HERE / 'free.record').read_text().splitlines()]
        self.assertEqual(len(lines), 3)
        regions = np.full(len(after.tets), mesh.regions[0])
        regions[-1] = mesh.regions[-1]
        after = dataclasses.replace(after, faces=mesh.faces, lines=mesh.lines, regions=regions)
        lines[0]['input'], lines[-1]['output'] = digest(mesh), digest(after)
        (HERE / 'forged.record').write_text(''.join(json.dumps(line) + '\n' for line in lines))
        return verify(mesh, after, HERE / 'forged.record')

    def test_an_edge(self):
        points = np.array([[6.0, 0, 0], [-3, 5, 0], [-3, -5, 0], [0.1, 0, 4], [0, 0, -4]])
        free = Mesh(points, np.array([[0, 1, 3, 4], [1, 2, 3, 4], [2, 0, 3, 4]]), np.zeros(3, np.int64))
        self.assertTrue(self.forged(free, free))
        self.assertIn('line 2: the judge says', self.forged(dataclasses.replace(free, lines=np.array([[3, 4]])), free).wrong[0])

    def test_a_triangle(self):
        self.assertTrue(self.forged(example(), example()))
        self.assertIn('line 2: the judge says', self.forged(dataclasses.replace(example(), faces=np.array([[0, 1, 2]])), example()).wrong[0])

    def test_a_border(self):
        self.assertIn('line 2: the cavity has tetrahedra of two regions', self.forged(dataclasses.replace(example(), regions=np.array([1, 2])), example()).wrong)

    def test_two_regions_at_once(self):
        """The example and its mirror image in another region, both bettered in one line: the border stays a face, but the new tetrahedra would all be of one region."""
        points = example().points
        normal = np.cross(points[2] - points[1], points[4] - points[1])
        mirrored = [point - 2 * ((point - points[1]) @ normal) / (normal @ normal) * normal for point in points[[0, 3]]]
        places = np.concatenate([points, mirrored, example().points[:4] + 99])
        out, fill = [[0, 1, 2, 3], [0, 1, 2, 4], [1, 2, 4, 5], [1, 2, 5, 6]], [[0, 1, 3, 4], [0, 2, 3, 4], [1, 2, 3, 4], [1, 2, 4, 6], [1, 4, 5, 6], [2, 4, 5, 6]]
        old, worst = (int(Options().values(places[np.array(fours)]).min()) for fours in (out, fill))
        before = Mesh(places, np.array([*out, [7, 8, 9, 10]]), np.array([1, 1, 2, 2, 2]))
        after = Mesh(places, np.array([*fill, [7, 8, 9, 10]]), np.array([1] * 6 + [2]))
        for regions, words in ((before.regions, ['line 2: the cavity has tetrahedra of two regions']), (np.array([1, 1, 1, 1, 2]), [])):
            mesh = dataclasses.replace(before, regions=regions)
            lines = [{'cottontuff record': 1, 'input': digest(mesh), 'measure': 'shape', 'table': 'millionths', 'limit': 50_000},
                     {'n': 1, 'points': list(range(7)), 'out': sum(out, []), 'fill': sum(fill, []), 'old': old, 'worst': worst, 'a': 1, 'b': 1}, {'end': 1, 'output': digest(after)}]
            (HERE / 'forged.record').write_text(''.join(json.dumps(line) + '\n' for line in lines))
            for form in ('0', '1'):
                with mock.patch.dict(os.environ, {'COTTONTUFF_PURE': form}):
                    self.assertEqual(verify(mesh, after, HERE / 'forged.record').wrong, words)


class Garbage(Case):
    """Lines and files that are no record's."""

    def refuse_bytes(self, raw: bytes, name: str = 'garbage.record') -> None:
        (HERE / name).write_bytes(raw)
        try:
            said = verify(self.before, self.after, HERE / name)
        except Fault as fault:
            self.look_at_sentence(str(fault))
        else:
            self.assertFalse(said)

    def test_values(self):
        wrong = [[], {}, None, 'x', -1, 10**30, 1.5, [1.0, 2.0], ['a'], [None], [[1]], [True] * 4, [-1, 2, 3, 4], [10**30] * 5, [10**9] * 8, list(range(5000))]
        for name, value in itertools.product(('points', 'out', 'fill'), wrong):
            with self.subTest(name=name, value=str(value)[:30]):
                self.refused(self.altered(1, **{name: value}), 'line 2: ')
        for name, value in itertools.product(('old', 'worst', 'a', 'b', 'n'), ([], {}, None, 'x', -1, 10**30, 1.5)):
            with self.subTest(name=name, value=value):
                self.refused(self.altered(1, **{name: value}), 'line 2: ')

    def test_points_that_do_not_ascend(self):
        points = self.lines[1]['points']
        for wrong in ([points[1], points[0], *points[2:]], [points[0], points[0], *points[2:]], points[:-1], points + [points[-1] + 1], list(range(17))):
            self.refused(self.altered(1, points=wrong), 'line 2: ')

    def test_missing_fields(self):
        for name in self.lines[1]:
            lines = copy.deepcopy(self.lines)
            del lines[1][name]
            self.refused(lines, 'line 2: ')

    def test_first_lines(self):
        for changes in ({'cottontuff record': 2}, {'cottontuff record': None}, {'measure': 'beauty'}, {'measure': None}, {'limit': 0}, {'limit': 50_001}, {'limit': 'x'}, {'limit': 5.0},
                        {'limit': None}, {'table': 'x'}, {'table': None}, {'table': []}, {'limit': [1]}, {'input': 5}):
            with self.subTest(changes):
                self.refused(self.altered(0, **changes))

    def test_no_objects(self):
        for line in ('[]', '5', 'null', '"x"', 'true', '[{"n": 1}]', '', ' ', '{', '{"n": 1', 'n', '{"n": 1}{"n": 2}', "{'n': 1}", '\0', '{"n": ' + '9' * 5000 + '}'):
            text = self.path.read_text().splitlines()
            for row in (0, 1, len(text) - 1):
                with self.subTest(line=line[:20], row=row):
                    self.refuse_bytes('\n'.join(text[:row] + [line] + text[row:]).encode())

    def test_bytes(self):
        whole = self.path.read_bytes()
        for raw in (b'', b'\0' * 100, bytes(range(256)) * 9, b'\xff\xfe', whole[: len(whole) // 2], whole[:-9], whole.replace(b'\n', b''), whole.decode().encode('utf-16'), b'\xef\xbb\xbf' + whole):
            self.refuse_bytes(raw)

    def test_packed(self):
        packed = gzip.compress(self.path.read_bytes())
        for raw in (b'', packed[:-1], packed[:-9], packed[: len(packed) // 2], packed[:15], packed[:3], packed + b'x', self.path.read_bytes(), b'\x1f\x8b' + b'\0' * 50):
            self.refuse_bytes(raw, 'garbage.gz')
        self.refuse_bytes(packed, 'garbage.record')

    def test_a_packed_file_with_a_bit_turned(self):
        packed = gzip.compress(self.path.read_bytes())
        for at in range(10, len(packed), 41):
            raw = bytearray(packed)
            raw[at] ^= 0x55
            self.refuse_bytes(bytes(raw), 'garbage.gz')

    def said_of(self, raw: bytes, form: str) -> object:
        (HERE / 'garbage.record').write_bytes(raw)
        with mock.patch.dict(os.environ, {'COTTONTUFF_PURE': form}):
            try:
                return verify(self.short, self.shorter, HERE / 'garbage.record')
            except Fault as fault:
                return str(fault)

    def test_as_the_plain_form_says(self):
        """The helper reads lines by itself: whatever a byte is turned into, it must accept no more and no less than the plain form."""
        chance = random.Random(17)
        self.short = self.before
        self.shorter = improve(self.before, below=0.005, record=HERE / 'short.record').mesh
        raw = (HERE / 'short.record').read_bytes()
        first, last = raw.index(b'\n') + 1, raw.rindex(b'{')
        places = [at for at in range(first, last) if raw[at: at + 1].isdigit()]
        edits = [(at, what) for at in chance.sample(places, 40) for what in (b'0%c', b'%c0', b'-%c', b'%c.0', b' %c', b'%c ', b'9')]
        edits += [(chance.randrange(first, last), bytes([chance.choice(b' ,:[]{}"\n\r\t019abn-')])) for _ in range(60)]
        held = 0
        for at, what in edits:
            altered = raw[:at] + (what % raw[at] if b'%' in what else what) + raw[at + 1:]
            fast, plain = self.said_of(altered, '0'), self.said_of(altered, '1')
            self.assertEqual(fast, plain, altered[max(first, at - 60): at + 60])
            held += bool(isinstance(fast, Verified) and fast)
        self.assertGreater(held, 20)
        self.assertLess(held, len(edits) - 100)

    def test_deep_lists(self):
        for row in (0, 1):
            text = self.path.read_text().splitlines()
            self.refuse_bytes('\n'.join(text[:row] + ['[' * 100_000]).encode())

    def test_a_measure_that_is_a_list(self):
        for value in ([], {}, ['shape']):
            self.refused(self.altered(0, measure=value))

    def test_numbers_of_another_kind(self):
        """1.0 and true are not 1."""
        line = self.lines[1]
        for changes in ({'n': 1.0}, {'n': True}, {'worst': float(line['worst'])}, {'old': float(line['old'])}, {'a': bool(line['a'])}, {'b': float(line['b'])}):
            with self.subTest(changes):
                self.refused(self.altered(1, **changes))
        self.refused(self.altered(-1, end=float(self.lines[-1]['end'])))

    def test_files(self):
        for path in (HERE / 'absent.record', HERE / 'absent.gz', HERE, HERE / 'no folder' / 'x.record'):
            with self.assertRaisesRegex(Fault, 'the record can\'t be read'):
                verify(self.before, self.after, path)
        with self.assertRaises(Fault):
            verify(self.before, self.after, 'a\0b')


class Writing(unittest.TestCase):
    def test_no_folder(self):
        for path in (HERE / 'no folder' / 'x', HERE, HERE / 'no folder' / 'x.gz'):
            with self.assertRaisesRegex(Fault, 'the record can\'t be written'):
                improve(example(), below=0.9, record=path)

    def test_full(self):
        if not os.path.exists('/dev/full'):
            self.skipTest('no /dev/full')
        with self.assertRaisesRegex(Fault, 'the record was not written to its end'):
            improve(read(setting.mesh_file('small-ball')), record='/dev/full')


if __name__ == '__main__':
    unittest.main()
