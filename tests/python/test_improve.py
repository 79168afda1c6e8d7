"""Bettered meshes: what has to stay has stayed, what is said of a run is so, and the rules that a run keeps.

Every mesh is read, bettered, written, and then looked at by validate.py, which shares no code with the package.
"""
from __future__ import annotations

import dataclasses
import functools
import itertools
import json
import os
import pathlib
import tempfile
import unittest
from fractions import Fraction
from typing import Any, Iterator, NamedTuple
from unittest import mock

import setting

import numpy as np

from cottontuff import cavity, fast, improve as improving
from cottontuff.cavity import Options
from cottontuff.faults import Fault
from cottontuff.improve import Result, example, improve
from cottontuff.measures import millionths, quality, shape
from cottontuff.mesh import Mesh, read, write
from cottontuff.neighbours import neighbours
from cottontuff.report import summarize
from validate import validate

FOLDER = tempfile.TemporaryDirectory()
HERE = pathlib.Path(FOLDER.name)
NAMES = ('small-ball', 'small-bracket', 'small-plate', 'small-regions', 'embedded', 'small-tetgen', 'small-turned', 'small-stretched-0.01')
BELOW = {'small-stretched-0.01': 0.0001}  # all of its tetrahedra are under 0.3
FORMS = ('0', '1')  # COTTONTUFF_PURE


def pure(form: str) -> Any:
    """The environment for the fast form ('0') or the plain one ('1')."""
    return mock.patch.dict(os.environ, {'COTTONTUFF_PURE': form})


class Bettered(NamedTuple):
    """A mesh before and after, with its files and its record."""

    before: Mesh
    result: Result
    source: pathlib.Path
    out: pathlib.Path
    lines: list[dict[str, Any]]


@functools.lru_cache(maxsize=None)
def mesh_of(name: str) -> Mesh:
    return read(setting.mesh_file(name))


def bettered(name: str, form: str = '0', **options: Any) -> Bettered:
    """The mesh of that name, bettered and written."""
    source = setting.mesh_file(name)
    number = len(os.listdir(HERE))
    out, record = HERE / f'{number}{source.suffix}', HERE / f'{number}.record'
    with pure(form):
        result = improve(mesh_of(name), record=record, **{'below': BELOW.get(name, 0.3), **options})
    write(out, result.mesh)
    return Bettered(mesh_of(name), result, source, out, [json.loads(line) for line in record.read_text().splitlines()])


@functools.lru_cache(maxsize=None)
def usual(name: str) -> Bettered:
    return bettered(name)


def sorted_millionths(mesh: Mesh, measure: Any = 'shape') -> list[int]:
    return sorted(millionths(quality(mesh.points, mesh.tets, measure)).tolist())


def same_mesh(a: Mesh, b: Mesh) -> bool:
    return np.array_equal(a.tets, b.tets) and np.array_equal(a.regions, b.regions)


def fours_of(line: dict[str, Any], name: str) -> np.ndarray:
    """The fours of a line of a record, as point numbers."""
    return np.array(line['points'])[np.array(line[name]).reshape(-1, 4)]


class Good(unittest.TestCase):
    """Each of the meshes, bettered."""

    def each(self) -> Iterator[Bettered]:
        for name in NAMES:
            with self.subTest(name):
                yield usual(name)

    def test_an_independent_reader_finds_nothing(self):
        for found in self.each():
            self.assertEqual(validate(found.source, found.out), [])
            self.assertTrue(all(found.result.report['kept'].values()), found.result.report['kept'])

    def test_no_point_moves(self):
        for found in self.each():
            self.assertEqual(found.before.points.tobytes(), found.result.mesh.points.tobytes())
            self.assertEqual(found.before.points.tobytes(), read(found.out).points.tobytes())

    def test_better(self):
        for found in self.each():
            before, after = sorted_millionths(found.before), sorted_millionths(found.result.mesh)
            self.assertGreater(after[0], before[0])
            self.assertGreater(after, before)  # dictionary order: by the first that differs

    def test_what_is_not_touched_stands_as_it_did(self):
        for found in self.each():
            mesh = found.result.mesh
            old = mesh.origin >= 0
            self.assertTrue(np.array_equal(mesh.tets[old], found.before.tets[mesh.origin[old]]))
            self.assertTrue(np.array_equal(mesh.regions[old], found.before.regions[mesh.origin[old]]))
            self.assertTrue((np.diff(mesh.origin[old]) > 0).all())

    def test_a_second_run_finds_nothing_more(self):
        for name in NAMES[:4]:
            with self.subTest(name):
                again = improve(usual(name).result.mesh)
                self.assertEqual(again.report['exchanges'], 0)
                self.assertTrue(same_mesh(again.mesh, usual(name).result.mesh))

    def test_sheet_and_wire_stay(self):
        found = usual('embedded')
        tets = np.sort(found.result.mesh.tets, axis=1).tolist()
        faces = {face for four in tets for face in itertools.combinations(four, 3)}
        edges = {edge for four in tets for edge in itertools.combinations(four, 2)}
        self.assertTrue(len(found.before.faces) and len(found.before.lines))
        self.assertEqual([face for face in np.sort(found.before.faces, axis=1).tolist() if tuple(face) not in faces], [])
        self.assertEqual([edge for edge in np.sort(found.before.lines, axis=1).tolist() if tuple(edge) not in edges], [])


class Counted(unittest.TestCase):
    """What a report says, counted again."""

    def test_summaries(self):
        for name in NAMES:
            found, report = usual(name), usual(name).result.report
            for mesh, said in ((read(found.source), report['before']), (read(found.out), report['after'])):
                with self.subTest(name):
                    whole = sorted_millionths(mesh)
                    self.assertEqual(dataclasses.asdict(summarize(mesh.points, mesh.tets)), said)
                    self.assertEqual([len(whole), whole[0]], [said['tets'], said['worst']])
                    self.assertEqual([sum(x < bound for x in whole) for bound in (100_000, 200_000, 300_000)], [said[f'under_{b}'] for b in (100_000, 200_000, 300_000)])

    def test_exchanges(self):
        for name in NAMES:
            with self.subTest(name):
                found, report = usual(name), usual(name).result.report
                steps = found.lines[1:-1]
                self.assertEqual([line['n'] for line in steps], list(range(1, report['exchanges'] + 1)))
                self.assertEqual(found.lines[-1]['end'], report['exchanges'])
                more = sum(len(line['fill']) - len(line['out']) for line in steps) // 4
                self.assertEqual(len(found.before.tets) + more, len(found.result.mesh.tets))
                for what in ('exchanges', 'searches'):
                    self.assertEqual(sum(done[what] for done in report['passes']), report[what])
                    self.assertEqual(sum(row[what] for row in report['by_size'].values()), report[what])
                self.assertEqual(report['passes'][-1]['exchanges'], 0)
                self.assertEqual(report['passes'][-1]['worst'], report['after']['worst'])
                self.assertFalse(report['interrupted'])

    def test_sizes_of_the_record(self):
        for name in NAMES:
            sizes = [len(line['points']) for line in usual(name).lines[1:-1]]
            self.assertEqual({size: sizes.count(size) for size in set(sizes)}, {size: row['exchanges'] for size, row in usual(name).result.report['by_size'].items() if row['exchanges']})

    def test_searches_and_what_was_passed_over(self):
        seen = {'search': 0, 'signs': 0, 'settled': 0, 'carries': 0}
        search, settled, facts = fast.FastEngine.search, improving.Run.is_settled, fast.FastEngine.facts

        def counting(engine: Any) -> Any:
            seen['search'] += 1
            own = engine.judge_own()
            seen['carries'] += own.number == 0 and own.law == 0 and engine.job().agrees
            return search(engine)

        def settling(run: Any, slot: int) -> bool:
            seen['settled'] += settled(run, slot)
            return settled(run, slot)

        def signs(engine: Any) -> Any:
            seen['signs'] += facts(engine)[4]
            return facts(engine)

        with mock.patch.object(fast.FastEngine, 'search', counting), mock.patch.object(improving.Run, 'is_settled', settling), mock.patch.object(fast.FastEngine, 'facts', signs):
            report = bettered('small-plate').result.report
        self.assertEqual([report['searches'], report['exact_signs'], report['skipped'], report['carries_over']], [seen['search'], seen['signs'], seen['settled'], seen['carries']])

    def test_bad_ones_of_a_pass(self):
        found = usual('small-ball')
        self.assertEqual(found.result.report['passes'][0]['bad'], found.result.report['before']['under_300000'])
        self.assertEqual(found.result.report['passes'][-1]['below'], found.result.report['after']['under_300000'])


class TwoForms(unittest.TestCase):
    """The plain form and the fast one do the same, to the byte."""

    def compare(self, name: str, **options: Any) -> None:
        one, two = (bettered(name, form, **options) for form in FORMS)
        self.assertGreater(one.result.report['exchanges'], 0)
        self.assertEqual(one.lines, two.lines)
        self.assertEqual(one.out.read_bytes(), two.out.read_bytes())
        self.assertTrue(same_mesh(one.result.mesh, two.result.mesh))
        for what in ('searches', 'exchanges', 'skipped', 'exact_signs', 'carries_over', 'given_up', 'refused', 'after'):
            self.assertEqual(one.result.report[what], two.result.report[what], what)

    def test_ball(self):
        self.compare('small-ball')

    def test_plate(self):
        self.compare('small-plate')

    def test_regions(self):
        self.compare('small-regions', below=0.12)

    def test_sheet_and_wire(self):
        self.compare('embedded', below=0.03)

    def test_tetgen(self):
        self.compare('small-tetgen', below=0.1)

    def test_turned_and_gamma(self):
        self.compare('small-turned', below=0.2, measure='gamma')

    def test_stretched_and_ranked(self):
        self.compare('small-stretched-0.01', below=0.00003, table='rank')

    def test_coarse(self):
        self.compare('small-ball', limit=5)


def mean_ratio(corners: np.ndarray) -> np.ndarray:
    return np.cbrt(shape(corners))


class Measures(unittest.TestCase):
    def test_gamma(self):
        found = bettered('small-ball', measure='gamma')
        self.assertEqual(validate(found.source, found.out), [])
        before, after = (sorted_millionths(mesh, 'gamma') for mesh in (found.before, found.result.mesh))
        self.assertGreater(after[0], before[0])
        self.assertGreater(after, before)
        self.assertEqual([found.result.report['measure'], found.result.report['after']['worst']], ['gamma', after[0]])

    def test_a_function(self):
        found = bettered('small-ball', measure=mean_ratio, below=0.6)
        self.assertEqual(validate(found.source, found.out), [])
        before, after = (sorted_millionths(mesh, mean_ratio) for mesh in (found.before, found.result.mesh))
        self.assertGreater(after, before)
        self.assertEqual([found.result.report['measure'], found.result.report['after']['worst']], ['a function', after[0]])

    def test_a_function_that_is_shape_gives_what_shape_gives(self):
        for form in FORMS:
            found = bettered('small-ball', form, measure=lambda corners: shape(corners))
            self.assertTrue(same_mesh(found.result.mesh, usual('small-ball').result.mesh))
            self.assertEqual(found.lines[1:], usual('small-ball').lines[1:])

    def test_ranks(self):
        whole, ranked = (bettered('small-stretched-0.001', below=0.000001, table=table) for table in ('millionths', 'rank'))
        self.assertEqual(validate(ranked.source, ranked.out), [])
        first = [np.percentile(quality(mesh.points, mesh.tets), 1) for mesh in (ranked.before, whole.result.mesh, ranked.result.mesh)]
        self.assertGreater(first[2], first[1])
        self.assertGreater(first[2], 2 * first[0])
        self.assertGreater(ranked.result.report['after']['worst_exact'], 2 * ranked.result.report['before']['worst_exact'])

    def test_a_measure_by_chance_ends(self):
        random = np.random.default_rng(5)
        with mock.patch.object(improving, 'MOST_EXCHANGES', 0), self.assertRaisesRegex(Fault, 'the measure gives one tetrahedron different values'):
            improve(mesh_of('small-ball'), below=1, measure=lambda corners: random.random(len(corners)))

    def test_a_measure_that_hangs_on_its_neighbours_ends(self):
        with mock.patch.object(improving, 'MOST_EXCHANGES', 0):
            try:
                result = improve(mesh_of('small-ball'), below=0.5, sizes=(5, 6, 8), measure=lambda corners: shape(corners) * (len(corners) % 7 + 1) / 8)
            except Fault as fault:
                self.assertIn('different values', str(fault))
            else:
                self.assertTrue(all(result.report['kept'].values()))

    def test_a_measure_of_a_wrong_form(self):
        for wrong in (lambda corners: corners, lambda corners: 1.0, lambda corners: shape(corners)[:-1]):
            with self.assertRaisesRegex(ValueError, 'one number for each is needed'):
                improve(example(), measure=wrong)

    def test_no_numbers(self):
        for value in (np.nan, np.inf, -np.inf, -1.0, 0.0, 1e300):
            result = improve(example(), measure=lambda corners: np.full(len(corners), value))
            self.assertEqual(result.report['exchanges'], 0)


def engines(mesh: Mesh, options: Options = Options()) -> Iterator[Any]:
    """The engine in both forms."""
    for form in FORMS:
        with pure(form):
            yield fast.engine(neighbours(mesh), options)


def jobs(engine: Any, sizes: tuple[int, ...] = (5, 6, 8, 11, 16), every: int = 40) -> Iterator[cavity.Job]:
    """Jobs of the cavities of every so manyth tetrahedron."""
    for slot in np.flatnonzero(engine.touchable())[::every].tolist():
        engine.open(slot)
        for size in sizes:
            engine.grow(size)
            if engine.prepare() is None:
                yield engine.job()


def exact_sign(points: list[list[float]]) -> int:
    """The sign of D, by fractions."""
    a, b, c, d = ([Fraction(x) for x in point] for point in points)
    (p, q, r), (s, t, u), (v, w, x) = ([one - other for one, other in zip(end, a)] for end in (b, c, d))
    volume = p * (t * x - u * w) + q * (u * v - s * x) + r * (s * w - t * v)
    return (volume > 0) - (volume < 0)


class Rules(unittest.TestCase):
    """The rules, one by one, on the jobs themselves."""

    def test_one_measure_of_the_files_doubles(self):
        for form, limit in itertools.product(FORMS, (100, None)):
            with mock.patch.object(improving, 'MOST_EXCHANGES', 0):
                found = bettered('small-ball', form, limit=limit, passes=3)
            for line in found.lines[1:-1]:
                for name, said in (('out', line['old']), ('fill', line['worst'])):
                    self.assertEqual(int(millionths(quality(found.before.points, fours_of(line, name))).min()), said)
                self.assertGreater(line['worst'], line['old'])

    def test_the_table(self):
        for options in (Options(), Options(limit=4), Options('gamma'), Options(ranked=True)):
            for engine in engines(mesh_of('small-turned'), options):
                for job in jobs(engine, every=150):
                    self.look_at_table(job, options)

    def look_at_table(self, job: cavity.Job, options: Options) -> None:
        fours = cavity.fours(len(job.points))
        values = options.values(job.xyz[fours])
        turned = (job.rounded != 0) & (job.sign != job.rounded)
        sound = (job.rounded != 0) & ~turned
        self.assertTrue((job.full[job.rounded == 0] == -1).all())
        self.assertTrue((job.full[turned] == 0).all(), 'a four that rounding turned is not barred')
        if options.ranked:
            self.assertEqual(job.full[sound].tolist(), (np.searchsorted(np.unique(values[sound]), values[sound]) + 1).tolist())
        else:
            self.assertEqual(job.full[sound].tolist(), values[sound].tolist())
        own = [cavity.places(len(job.points))[tuple(four)] for four in job.own.tolist()]
        self.assertEqual(job.worst_entry, job.full[own].min())
        self.assertEqual(job.own_allowed, bool((job.full[own] > 0).all()))
        self.assertEqual(job.agrees, not bool(((job.sign != 0) & (job.sign != job.rounded) & (values > values[own].min())).any()))
        barred = (job.full > 0) & (job.full <= job.worst_entry)
        self.assertEqual(job.table.tolist(), np.where(barred, 0, job.full).tolist())

    def test_rounding_turns_fours_of_these_jobs(self):
        """So that the test of the table is about something."""
        for engine in engines(mesh_of('small-turned'), Options(limit=4)):
            made = list(jobs(engine, every=150))
            self.assertTrue(any(((job.rounded != 0) & (job.sign == -job.rounded)).any() for job in made))
            self.assertTrue(any(not job.own_allowed for job in made))
            self.assertTrue(any(not job.agrees for job in made) and any(job.agrees for job in made))

    def test_signs_are_exact(self):
        for engine in engines(mesh_of('small-turned')):
            opened = 0
            for job in jobs(engine, (11,), every=60):
                fours = cavity.fours(len(job.points))
                _, certain = cavity.exact.filtered(job.xyz, fours)
                opened += int((~certain).sum())
                for place in np.flatnonzero(~certain).tolist():
                    self.assertEqual(job.sign[place], exact_sign(job.xyz[fours[place]].tolist()))
            self.assertGreater(opened, 100)

    def test_the_look_at_a_filling(self):
        for engine in engines(mesh_of('small-turned')):
            for job in jobs(engine, (5, 8, 16), every=200):
                own = job.own.tolist()
                absent = next(list(four) for four in itertools.combinations(range(len(job.points)), 4) if list(four) not in own)
                back = [own[0][1], own[0][0], *own[0][2:]]
                for filling, holds in ((own, True), (own[::-1], True), (own[1:], False), (own + own[:1], False), ([absent] + own, False), ([absent] + own[1:], False), ([back] + own[1:], False)):
                    engine.answer[: 4 * len(filling)] = np.array(filling, np.uint8).reshape(-1)
                    self.assertEqual(engine.recheck(len(filling)), holds)

    def test_rounding_is_given_up_and_counted(self):
        for form, limit in itertools.product(FORMS, (1, 4)):
            found = bettered('small-turned', form, limit=limit, below=0.3 if limit == 1 else 0.15)
            self.assertGreater(found.result.report['given_up']['rounding turned one of its own'], 0)
            self.assertNotIn('the look at the filling in doubles failed', found.result.report['given_up'])
            self.assertEqual(found.result.report['refused'], {})
            self.assertEqual(validate(found.source, found.out), [])

    def test_what_is_barred_could_not_help(self):
        search, seen = fast.FastEngine.search, {15: 0, 0: 0}

        def both(engine: Any) -> Any:
            full = engine.library.cottontuff_search_inner(*engine._lists('full'), engine.answer_at, fast.ANSWER_BYTES)
            wanted = engine.answer[: 4 * full.count].tolist()
            found = search(engine)
            seen[found.number] += 1
            self.assertEqual(full.number, 0)
            self.assertEqual(found.number == 15, full.worst <= engine.facts()[2])
            if found.number == 0:
                self.assertEqual((found.worst, engine.answer[: 4 * found.count].tolist()), (full.worst, wanted))
            return found

        with mock.patch.object(fast.FastEngine, 'search', both):
            self.assertTrue(same_mesh(bettered('small-plate').result.mesh, usual('small-plate').result.mesh))
        self.assertTrue(seen[15] and seen[0])

    def test_the_full_table_gives_the_same_mesh(self):
        def full(engine: Any) -> Any:
            return engine.library.cottontuff_search_inner(*engine._lists('full'), engine.answer_at, fast.ANSWER_BYTES)

        with mock.patch.object(fast.FastEngine, 'search', full):
            found = bettered('small-ball')
        self.assertTrue(same_mesh(found.result.mesh, usual('small-ball').result.mesh))
        self.assertEqual(found.lines, usual('small-ball').lines)

    def test_what_is_settled_would_fail_again(self):
        for name in ('small-regions', 'small-plate', 'embedded'):
            with mock.patch.object(improving.Run, 'is_settled', lambda run, slot: False):
                found = bettered(name, passes=6)
            self.assertGreater(usual(name).result.report['skipped'], 0)
            self.assertLess(len(found.result.report['passes']), 6)
            self.assertTrue(same_mesh(found.result.mesh, usual(name).result.mesh))
            self.assertEqual(found.lines, usual(name).lines)

    def test_the_first_size_that_brings_a_rise(self):
        seen: list[tuple[int, int, bool]] = []
        attempt, search = improving.Run.attempt, improving.Run._search

        def searching(run: Any, size: int) -> Any:
            found = search(run, size)
            seen.append((len(starts), size, found is not None))
            return found

        starts: list[int] = []
        with mock.patch.object(improving.Run, '_search', searching), mock.patch.object(improving.Run, 'attempt', lambda run, slot: starts.append(slot) or attempt(run, slot)):
            bettered('small-plate')
        for _, rows in itertools.groupby(seen, key=lambda row: row[0]):
            sizes, brought = zip(*(row[1:] for row in rows))
            self.assertEqual(list(sizes[:-1]), [5, 6, 8, 11, 16][: len(sizes) - 1])
            self.assertLessEqual(sizes[-1], [5, 6, 8, 11, 16][len(sizes) - 1])  # smaller where nothing is around it any more
            self.assertFalse(any(brought[:-1]))


def grid(n: int) -> Mesh:
    """Cubes, each of six tetrahedra about a diagonal: full of ties."""
    at = np.arange((n + 1) ** 3).reshape(n + 1, n + 1, n + 1)
    points = np.stack(np.meshgrid(*[np.arange(n + 1.0)] * 3, indexing='ij'), axis=-1).reshape(-1, 3)
    tets = []
    for corner in itertools.product(range(n), repeat=3):
        for order in itertools.permutations(range(3)):
            path = [np.array(corner)]
            for axis in order:
                path.append(path[-1] + np.eye(3, dtype=int)[axis])
            tets.append([at[tuple(step)] for step in path])
    return Mesh(points, np.array(tets), np.zeros(len(tets), np.int64))


def plain_growth(mesh: Mesh, start: int, size: int) -> tuple[set[int], set[int]]:
    """Document 01's growth, written anew: slots and points."""
    fours = [set(four) for four in mesh.tets.tolist()]
    value = millionths(quality(mesh.points, mesh.tets)).tolist()
    tets, points = {start}, set(fours[start])
    while len(points) < size:
        around = [t for t in range(len(fours)) if t not in tets and any(len(fours[t] & fours[u]) == 3 for u in tets)]
        outer = [(t, next(iter(fours[t] - points))) for t in around]
        if not outer:
            break
        rank = {p: (-sum(q == p for _, q in outer), sum(value[t] for t, q in outer if q == p), p) for _, p in outer}
        points.add(min(rank, key=rank.__getitem__))
        tets |= {t for t in range(len(fours)) if fours[t] <= points}
    return tets, points


class Growth(unittest.TestCase):
    def test_ties(self):
        mesh = grid(3)
        for engine in engines(mesh):
            for slot, size in itertools.product((0, 40, 77, 80, 100, 161), (5, 6, 8, 11, 16)):
                engine.open(slot)
                engine.grow(size)
                engine.prepare()
                tets, points = plain_growth(mesh, slot, size)
                self.assertEqual((engine.cavity_tets(), engine.cavity_points()), (sorted(tets), sorted(points)), (slot, size))

    def test_sums(self):
        mesh = mesh_of('small-ball')
        for engine in engines(mesh):
            for slot, size in itertools.product(range(0, len(mesh.tets), 150), (6, 11, 16)):
                engine.open(slot)
                engine.grow(size)
                engine.prepare()
                tets, points = plain_growth(mesh, slot, size)
                self.assertEqual((engine.cavity_tets(), engine.cavity_points()), (sorted(tets), sorted(points)), (slot, size))

    def test_no_cavity_has_two_regions(self):
        mesh = mesh_of('small-tetgen')
        for engine in engines(mesh):
            border = 0
            for slot in range(0, len(mesh.tets), 50):
                engine.open(slot)
                engine.grow(16)
                engine.prepare()
                regions = set(mesh.regions[engine.cavity_tets()].tolist())
                border += any(set(mesh.regions[np.isin(mesh.tets, point).any(axis=1)].tolist()) != regions for point in engine.cavity_points())
                self.assertEqual(regions, {int(mesh.regions[slot])})
            self.assertGreater(border, 0)

    def test_tagged_triangles_are_not_passed(self):
        mesh = mesh_of('embedded')
        tagged = {tuple(face) for face in np.sort(mesh.faces, axis=1).tolist()}
        for engine in engines(mesh):
            inside = 0
            for job in jobs(engine, (16,), every=7):
                own = job.points[job.own]
                faces = [face for four in own.tolist() for face in itertools.combinations(four, 3)]
                wanted = {face for face in faces if faces.count(face) == 2 and face in tagged}
                inside += len(wanted)
                self.assertEqual({tuple(face) for face in job.points[job.inner].tolist()}, wanted)
            self.assertGreater(inside, 0)


def needle() -> Mesh:
    """Three tetrahedra around an edge, 3-4, that are better as two without it; the edge is a line of the file."""
    points = np.array([[6.0, 0, 0], [-3, 5, 0], [-3, -5, 0], [0.1, 0, 4], [0, 0, -4]])
    return Mesh(points, np.array([[0, 1, 3, 4], [1, 2, 3, 4], [2, 0, 3, 4]]), np.zeros(3, np.int64), lines=np.array([[4, 3]]))


def sheet() -> Mesh:
    """The flat tetrahedron of `example` and its neighbour, with a triangle of the file between them."""
    return dataclasses.replace(example(), faces=np.array([[2, 1, 0]]))


class Kept(unittest.TestCase):
    """Lines and triangles of the file in a cavity whose best filling would do without them."""

    def test_an_edge(self):
        for form in FORMS:
            with pure(form):
                free = dataclasses.replace(needle(), lines=np.zeros((0, 2), np.int64))
                self.assertEqual(len(improve(free, below=1).mesh.tets), 2)
                self.assertEqual(len(improve(needle(), below=1).mesh.tets), 3)

    def test_a_triangle(self):
        for form in FORMS:
            with pure(form):
                self.assertEqual(len(improve(example(), below=1).mesh.tets), 3)
                self.assertEqual(len(improve(sheet(), below=1).mesh.tets), 2)

    def test_a_border(self):
        for form in FORMS:
            with pure(form):
                two = dataclasses.replace(example(), regions=np.array([3, 9]))
                self.assertEqual(len(improve(two, below=1).mesh.tets), 2)

    def test_sheet_and_wire_at_a_high_bound(self):
        found = bettered('embedded', below=0.5, sizes=(5, 6, 8))
        self.assertEqual(validate(found.source, found.out), [])


class Arguments(unittest.TestCase):
    def test_passes(self):
        one = bettered('small-regions', passes=1)
        self.assertEqual(len(one.result.report['passes']), 1)
        self.assertEqual(validate(one.source, one.out), [])
        self.assertEqual(one.lines[1:-1], usual('small-regions').lines[1: len(one.lines) - 1])

    def test_limits(self):
        for limit in (1, 7, 1000):
            found = bettered('small-ball', limit=limit)
            self.assertEqual(validate(found.source, found.out), [])
            self.assertEqual((found.result.report['limit'], found.lines[0]['limit']), (limit, limit))
        self.assertGreater(found.result.report['after']['worst'], found.result.report['before']['worst'])

    def test_sizes(self):
        for sizes in ((5,), (16,), (5, 7, 9), tuple(range(5, 17)), [6, 12]):
            with self.subTest(sizes):
                found = bettered('small-ball', sizes=sizes)
                self.assertEqual(validate(found.source, found.out), [])
                self.assertGreater(sorted_millionths(found.result.mesh), sorted_millionths(found.before))
                self.assertLessEqual(max(found.result.report['by_size']), max(sizes))

    def test_below(self):
        for below in (0.0003, 1):
            found = bettered('small-ball', below=below, sizes=(5, 6))
            self.assertEqual(validate(found.source, found.out), [])
            self.assertTrue(all(line['old'] < below * 1e6 for line in found.lines[1:-1]))

    def test_wrong_ones(self):
        wrong = [
            ('below', 0), ('below', -1), ('below', 1.1), ('below', float('nan')), ('sizes', ()), ('sizes', (4,)), ('sizes', (17,)), ('sizes', (6, 5)), ('sizes', (5, 5)), ('sizes', (5.0,)),
            ('measure', 'beauty'), ('table', 'ranks'), ('passes', 0), ('limit', 0), ('limit', 50_001), ('limit', -5), ('jobs', 0), ('jobs', -1),
        ]
        for name, value in wrong:
            with self.subTest(name=name, value=value), self.assertRaisesRegex(ValueError, f'^{name}: '):
                improve(example(), **{name: value})

    def test_progress(self):
        seen: list[tuple[int, int, float]] = []
        improve(mesh_of('small-bracket'), progress=lambda *row: seen.append(row))
        self.assertTrue(seen)
        self.assertTrue(all(number >= 1 and left >= 0 and 0 < worst < 300_000 for number, left, worst in seen))

    def test_nothing_to_do(self):
        found = bettered('small-ball', below=0.0001)
        self.assertEqual([found.result.report['exchanges'], found.result.report['searches'], found.lines[1]['end']], [0, 0, 0])
        self.assertEqual(found.result.mesh.tets.tolist(), found.before.tets.tolist())


class Interrupted(unittest.TestCase):
    def stopped(self, calls: int, **options: Any) -> Bettered:
        left = itertools.count(calls, -1)
        return bettered('small-tetgen', stop=lambda: next(left) <= 0, **options)

    def test_after_so_many_calls(self):
        for calls in (0, 1, 60, 300):
            with self.subTest(calls):
                found = self.stopped(calls)
                self.assertTrue(found.result.report['interrupted'])
                self.assertEqual(validate(found.source, found.out), [])
                self.assertTrue(all(found.result.report['kept'].values()))
                self.assertEqual(found.lines[-1]['end'], found.result.report['exchanges'])
                self.assertEqual(found.lines[1:-1], usual('small-tetgen').lines[1: len(found.lines) - 1])

    def test_never(self):
        self.assertFalse(self.stopped(10**9).result.report['interrupted'])


if __name__ == '__main__':
    unittest.main()
