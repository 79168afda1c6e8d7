"""A mesh in, a better mesh out: bad tetrahedra are opened, worst first, and their cavities replaced by the kernel's fillings. No point moves and none is added.

The rules, each measured (docs/BENCHMARKS.md): one measure of the file's doubles decides queue, table and acceptance; what can't better a cavity is barred, so that 15 says that nothing does; what
rounding turned is barred; the first of the sizes that brings a strict rise is taken; a tetrahedron that was tried is not tried again until a point of its last cavity was touched.
"""
from __future__ import annotations

import dataclasses
import heapq
import os
import time
from fractions import Fraction
from typing import Any, Callable, Sequence

import numpy as np

from . import fast
from .cavity import Options
from .faults import Fault
from .kernel import FURTHEST, MOST_POINTS, NO_FILLING
from .measures import MeasureName, named
from .mesh import Mesh, boundary, checked
from .neighbours import Neighbours, neighbours
from .report import summarize

SIZES = (5, 6, 8, 11, 16)
# A strict rise ends by itself. A measure that gives one tetrahedron two values need not: then it stops here, and says so.
MOST_EXCHANGES = 20
Progress = Callable[[int, int, float], None]
Note = Callable[[bytes], None]  # takes the line of a record, behind its number


@dataclasses.dataclass
class Counts:
    """What a run did."""

    searches: int = 0
    exchanges: int = 0
    skipped: int = 0
    exact_signs: int = 0
    carries_over: int = 0
    by_size: dict[int, list[float]] = dataclasses.field(default_factory=dict)
    given_up: dict[str, int] = dataclasses.field(default_factory=dict)
    refused: dict[int, int] = dataclasses.field(default_factory=dict)
    seconds: dict[str, float] = dataclasses.field(default_factory=lambda: {'kernel': 0.0, 'growth': 0.0, 'jobs': 0.0, 'exchange': 0.0})
    slowest: float = 0.0

    def add(self, other: Counts) -> None:
        """Adds what another run did.

        >>> both = Counts(searches=2)
        >>> both.add(Counts(searches=3, refused={4: 1}))
        >>> both.searches, both.refused
        (5, {4: 1})
        """
        for name in ('searches', 'exchanges', 'skipped', 'exact_signs', 'carries_over'):
            setattr(self, name, getattr(self, name) + getattr(other, name))
        parts: list[tuple[dict[Any, Any], dict[Any, Any]]] = [(self.given_up, other.given_up), (self.refused, other.refused), (self.seconds, other.seconds)]
        for mine, theirs in parts:
            for key, value in theirs.items():
                mine[key] = mine.get(key, 0) + value
        for size, row in other.by_size.items():
            self.by_size[size] = [a + b for a, b in zip(self.by_size.get(size, [0, 0, 0.0]), row)]
        self.slowest = max(self.slowest, other.slowest)


class Run:
    """Betters the mesh of an engine, pass by pass."""

    def __init__(self, of: Neighbours, options: Options, below: float, sizes: Sequence[int], note: Note | None, stop: Callable[[], bool]) -> None:
        self.engine = fast.engine(of, options)
        self.below, self.sizes, self.note, self.stop = below * 1e6, sizes, note, stop
        self.counts = Counts()
        self.passes: list[dict[str, Any]] = []
        self.now = 0
        self.touched = [0] * len(of.points)
        self.failed: dict[int, tuple[int, list[int]]] = {}  # when a slot was tried last, and the points of its cavity then
        self.cut = b''  # by point: 1 where it is on a cut; what fails there is for the run over the whole
        self.hindered: set[int] = set()  # what failed there
        self.fresh: set[int] = set()
        self.gone: list[int] = []
        self.ended = False
        self.interrupted = False
        self.elsewhere = 0.0  # processor time of other processes
        self.most = MOST_EXCHANGES * len(of.corners) + 1000

    def is_unchanged(self, slot: int) -> bool:
        """Whether it was tried before and no point of its last cavity was touched since: growth and answer would be the same.

        >>> Run(neighbours(example()), Options(), 0.3, SIZES, None, lambda: False).is_unchanged(0)
        False
        """
        before = self.failed.get(slot)
        return before is not None and max(self.touched[point] for point in before[1]) <= before[0]

    def is_settled(self, slot: int) -> bool:
        """Whether there is nothing to try: it would fail again, or is for the run over the whole.

        >>> Run(neighbours(example()), Options(), 0.3, SIZES, None, lambda: False).is_settled(0)
        False
        """
        return slot in self.hindered or self.is_unchanged(slot)

    def attempt(self, slot: int) -> list[int] | None:
        """Opens a tetrahedron and exchanges the first of its cavities that can be bettered; the slots of what came in, or None.

        >>> run = Run(neighbours(example()), Options(), 0.3, SIZES, None, lambda: False)
        >>> sorted(run.attempt(0))
        [0, 1, 2]
        """
        engine, clock = self.engine, time.process_time
        engine.open(slot)
        reached = 4
        for size in self.sizes:
            start = clock()
            before, reached = reached, engine.grow(size)
            self.counts.seconds['growth'] += clock() - start
            if reached < 0:
                self._give_up('over 512 tetrahedra')
                break
            if reached == before:  # nothing is around it any more; four points have no other filling
                break
            found = self._search(reached)
            if found is not None:
                return found
            if self.ended or reached < size:
                break
        points = engine.cavity_points()
        self.failed[slot] = (self.now, points)
        if self.cut and any(self.cut[point] for point in points):
            self.hindered.add(slot)
        return None

    def _give_up(self, why: str) -> None:
        self.counts.given_up[why] = self.counts.given_up.get(why, 0) + 1
        self.ended = True

    def _search(self, size: int) -> list[int] | None:
        """Asks the kernel for a better filling of the open cavity, and exchanges it."""
        engine, counts, clock = self.engine, self.counts, time.process_time
        self.ended = False
        start = clock()
        why = engine.prepare()
        allowed, agrees, worst, _, signs = engine.facts() if why is None else (False, False, 0, 0.0, 0)
        counts.seconds['jobs'] += clock() - start
        counts.exact_signs += signs
        if why is not None or not allowed:
            self._give_up(why or 'rounding turned one of its own')
            return None
        start = clock()
        found = engine.search()
        taken = clock() - start
        own = engine.judge_own()
        counts.seconds['kernel'] += clock() - start
        lawful = own.number == 0 and own.law == 0
        counts.searches += 1
        counts.carries_over += lawful and agrees
        counts.slowest = max(counts.slowest, taken)
        tried = counts.by_size.setdefault(size, [0, 0, 0.0])
        tried[0] += 1
        tried[2] += taken
        if found.number == 0 and found.worst > worst:
            came = self._exchange(found.count, worst, found.worst, lawful, agrees)
            tried[1] += came is not None
            return came
        if found.number not in (0, NO_FILLING):
            counts.refused[found.number] = counts.refused.get(found.number, 0) + 1
            self.ended = True  # a larger cavity has the same points, and is rounded more coarsely
        return None

    def _exchange(self, count: int, old: int, worst: int, a: bool, b: bool) -> list[int] | None:
        engine = self.engine
        start = time.process_time()
        if not engine.recheck(count):
            self._give_up('the look at the filling in doubles failed')
            return None
        points, self.gone = engine.cavity_points(), engine.cavity_tets()
        if self.note is not None:
            self.note(engine.line(count, old, worst, a, b))
        fresh = engine.exchange(count)
        self.now += 1
        for point in points:
            self.touched[point] = self.now
        for slot in self.gone:
            self.failed.pop(slot, None)
            self.hindered.discard(slot)
            self.fresh.discard(slot)
        self.fresh.update(fresh)
        self.counts.exchanges += 1
        self.counts.seconds['exchange'] += time.process_time() - start
        return fresh

    def run(self, passes: int | None, progress: Progress | None) -> None:
        """Passes until one brings nothing, or so many.

        >>> run = Run(neighbours(example()), Options(), 0.9, SIZES, None, lambda: False)
        >>> run.run(None, None)
        >>> [done['exchanges'] for done in run.passes]
        [1, 0]
        """
        number = 0
        while passes is None or number < passes:
            number += 1
            before, start = self.counts.exchanges, time.process_time()
            searches = self.counts.searches
            bad = self._one_pass(number, progress)
            alive = self.engine.qualities()[self.engine.state().corners[:, 0] >= 0]
            self.passes.append({
                'number': number, 'bad': bad, 'exchanges': self.counts.exchanges - before, 'searches': self.counts.searches - searches,
                'worst': float(alive.min()), 'below': int((alive < self.below).sum()), 'seconds': round(time.process_time() - start, 3),
            })
            if self.interrupted or self.counts.exchanges == before:
                break

    def _one_pass(self, number: int, progress: Progress | None) -> int:
        """Tries every tetrahedron below the bound once, the worst first; how many there were."""
        quality = self.engine.qualities()
        start = np.flatnonzero(self.engine.touchable() & (quality < self.below))
        queue: list[tuple[float, int]] = [(float(quality[slot]), int(slot)) for slot in start]
        heapq.heapify(queue)
        now: dict[int, float] = {slot: value for value, slot in queue}
        left_worst = float('inf')
        tried = 0
        while queue:
            if self.stop():
                self.interrupted = True
                break
            value, slot = heapq.heappop(queue)
            if now.get(slot) != value:
                continue
            del now[slot]
            tried += 1
            if progress is not None and tried % 64 == 0:
                progress(number, len(now), min(value, left_worst))
            left_worst = min(left_worst, self._one(slot, value, queue, now))
        return len(start)

    def _one(self, slot: int, value: float, queue: list[tuple[float, int]], now: dict[int, float]) -> float:
        """Tries one tetrahedron; what it leaves behind: its quality where nothing betters it."""
        if self.is_settled(slot):
            self.counts.skipped += slot not in self.hindered  # what is tried later is not passed over
            return value
        came = self.attempt(slot)
        if came is None:
            return value
        if self.counts.exchanges > self.most:
            raise Fault(f'over {self.most:,} exchanges: the measure gives one tetrahedron different values at different times')
        for gone in self.gone:
            now.pop(gone, None)
        for fresh, better in zip(came, self.engine.quality_of(came)):
            if better < self.below:
                now[fresh] = better
                heapq.heappush(queue, (better, fresh))
        return float('inf')


def _look_at(below: float, sizes: Sequence[int], measure: MeasureName, table: str, passes: int | None, limit: int, jobs: int) -> None:
    """Says in words what is wrong with an argument."""
    if not 0 < below <= 1:
        raise ValueError(f'below: a quality above 0 and at most 1, not {below}')
    if not sizes or any(not isinstance(size, int) or not 5 <= size <= MOST_POINTS for size in sizes) or list(sizes) != sorted(set(sizes)):
        raise ValueError(f'sizes: rising whole numbers from 5 to {MOST_POINTS}, not {list(sizes)}')
    named(measure)
    if table not in ('millionths', 'rank'):
        raise ValueError(f"table: 'millionths' or 'rank', not {table!r}")
    if passes is not None and passes < 1:
        raise ValueError(f'passes: 1 or more, not {passes}')
    if not 1 <= limit <= FURTHEST:
        raise ValueError(f'limit: from 1 to {FURTHEST:,}, not {limit}')
    if jobs < 1:
        raise ValueError(f'jobs: 1 or more, not {jobs}')


def result_mesh(mesh: Mesh, of: Neighbours, run: Run) -> Mesh:
    """The mesh of a run: what was not touched stands as in the file and in its order, then what is new, its corners the way round that most of the file's have.

    >>> run = Run(neighbours(example()), Options(), 0.9, SIZES, None, lambda: False)
    >>> run.run(None, None)
    >>> result_mesh(example(), neighbours(example()), run).tets.tolist()
    [[1, 0, 3, 4], [0, 2, 3, 4], [2, 1, 3, 4]]
    """
    state, fresh = run.engine.state(), np.array(sorted(run.fresh), np.int64)
    stays = state.corners[:, 0] >= 0
    stays[fresh] = False
    old = np.flatnonzero(stays)
    new, turned = state.corners[fresh].astype(np.int64), state.sign[fresh] != of.handed
    new[turned] = new[turned][:, [1, 0, 2, 3]]
    names = np.unique(mesh.regions)
    regions = np.concatenate([mesh.regions[old], names[state.region[fresh]]]) if len(fresh) else mesh.regions[old]
    origin = mesh.origin if mesh.origin is not None else np.arange(len(mesh.tets))
    return dataclasses.replace(
        mesh, tets=np.concatenate([mesh.tets[old], new]), regions=regions, origin=np.concatenate([origin[old], np.full(len(fresh), -1, np.int64)]),
    )


@dataclasses.dataclass
class Result:
    """The better mesh, and what was done."""

    mesh: Mesh
    report: dict[str, Any]


def example() -> Mesh:
    """Two tetrahedra, one of them flat, that are better as three, for examples.

    >>> len(example().tets)
    2
    """
    points = np.array([[0.0, 0, 0], [6, 0, 0], [0, 6, 0], [1, 1, 0.75], [1, 1, -5]])
    return Mesh(points, np.array([[0, 1, 2, 3], [0, 2, 1, 4]]), np.zeros(2, np.int64))


def improve(
    mesh: Mesh, *, below: float = 0.3, sizes: Sequence[int] = SIZES, measure: MeasureName = 'shape', table: str = 'millionths', passes: int | None = None, limit: int | None = None,
    jobs: int = 1, record: str | os.PathLike[str] | None = None, progress: Progress | None = None, stop: Callable[[], bool] | None = None,
) -> Result:
    """Betters a mesh. Tetrahedra of a quality below `below` are opened, the worst first; the cavity is replaced at the first of the sizes at which a filling has a greater worst quality.

    measure: 'shape', 'gamma', or a function of corners (n, 4, 3) to n numbers up to 1, which must give a tetrahedron one value wherever it stands in the array. table: 'rank' for meshes so stretched
    that millionths are too coarse. passes: None, until one brings nothing. limit: how far the rounded points reach, 50,000 where None. jobs: processes, each with a part of the mesh.
    record: a file that `record.verify` replays. progress(pass, left, worst) is called now and then; stop() ends the run early where it gives True.

    >>> better = improve(example(), below=0.9)
    >>> len(better.mesh.tets), better.report['before']['worst'], better.report['after']['worst']
    (3, 39551, 94014)
    """
    mesh, limit = checked(mesh), FURTHEST if limit is None else limit
    _look_at(below, sizes, measure, table, passes, limit, jobs)
    from . import parts, record as records
    options = Options(measure, table == 'rank', limit)
    start, clock = time.process_time(), time.perf_counter()
    with records.Writer(record, mesh, options, below, sizes) as writer:
        begun = parts.Aside(writer.begin, jobs > 1)
        of = neighbours(mesh)
        setup = time.process_time() - start
        begun.wait()
        if jobs > 1:
            run = parts.run(of, options, below, sizes, passes, jobs, writer.note, progress, stop or _never)
        else:
            run = Run(of, options, below, sizes, writer.note, stop or _never)
            run.run(passes, progress)
        better = result_mesh(mesh, of, run)
        writer.close(better)
    total = time.process_time() - start + run.elsewhere
    elapsed = time.perf_counter() - clock
    return Result(better, {**_report(mesh, better, of, run, {'total': total, 'setup': setup}, options), 'elapsed': elapsed})


def _never() -> bool:
    return False


def volumes(mesh: Mesh) -> dict[int, Fraction]:
    """Six times the exact volume of each region.

    >>> volumes(example())
    {0: Fraction(207, 1)}
    """
    return {int(region): fast.volume6(mesh.points, mesh.tets[mesh.regions == region]) for region in np.unique(mesh.regions)}


def _report(before: Mesh, after: Mesh, of: Neighbours, run: Run, seconds: dict[str, float], options: Options) -> dict[str, Any]:
    """What was done, as plain data."""
    start = time.process_time()
    counts, measure = run.counts, options.measure
    kept = {
        'boundary': bool(np.array_equal(boundary(before), boundary(after))), 'volume': volumes(before) == volumes(after),
        'points': bool(np.array_equal(before.points.view(np.int64), after.points.view(np.int64))),
    }
    made: dict[str, Any] = {
        'before': dataclasses.asdict(summarize(before.points, before.tets, measure)), 'after': dataclasses.asdict(summarize(after.points, after.tets, measure)),
        'measure': measure if isinstance(measure, str) else 'a function', 'table': 'rank' if options.ranked else 'millionths', 'limit': options.limit,
        'passes': run.passes, 'searches': counts.searches, 'exchanges': counts.exchanges, 'skipped': counts.skipped, 'exact_signs': counts.exact_signs,
        'carries_over': counts.carries_over, 'given_up': counts.given_up, 'refused': counts.refused, 'slowest_search': counts.slowest,
        'by_size': {size: {'searches': int(a), 'exchanges': int(b), 'kernel_seconds': c} for size, (a, b, c) in sorted(counts.by_size.items())},
        'seconds': {**seconds, **counts.seconds}, 'interrupted': run.interrupted, 'untouched': {kind: len(rows) for kind, rows in of.untouched().items()}, 'untouched_tets': of.untouched(), 'kept': kept,
    }
    made['seconds']['check'] = time.process_time() - start
    return made
