"""A mesh in parts, each bettered by a process of its own, then the whole once more.

Parts are regions: a cut is a border, its faces stay, so what the processes do does not touch. This process takes the first part, and goes on over the whole when it has taken over what the others
made of theirs. What failed in a part with no point on a cut would fail in the whole too, by the same growth and the same answer, and is not tried again; what failed with one is left to the whole.
The answer depends on how many parts there are, never on how fast they are.
"""
from __future__ import annotations

import dataclasses
import fcntl
import gc
import multiprocessing
import threading
import time
from multiprocessing.connection import Connection, wait
from typing import Any, Callable, Sequence

import numpy as np
from numpy.typing import NDArray

from .cavity import Options
from .fast import Engine, State
from .faults import Fault
from .improve import Counts, Note, Progress, Run
from .measures import Ints
from .neighbours import EMPTY, FLAT, SOUND, Neighbours, joined


class Aside(threading.Thread):
    """Does something at once, or beside what is done before `wait`; what goes wrong is raised there.

    >>> done: list[int] = []
    >>> Aside(lambda: done.append(1), True).wait()
    >>> done
    [1]
    """

    def __init__(self, what: Callable[[], None], beside: bool) -> None:
        super().__init__(daemon=True)
        self.what = what
        self.fault: BaseException | None = None
        (self.start if beside else what)()

    def run(self) -> None:
        try:
            self.what()
        except BaseException as fault:
            self.fault = fault

    def wait(self) -> None:
        """Waits for its end."""
        if self.ident is not None:
            self.join()
        if self.fault is not None:
            raise self.fault


def bisect(of: Neighbours, slots: Ints, parts: int) -> list[Ints]:
    """Cuts ascending slots into parts of the same size, again and again across the longest side of the box around their corners, by the centres.

    >>> from .cavity import two_beside
    >>> [part.tolist() for part in bisect(two_beside(), np.arange(2), 2)]
    [[1], [0]]
    """
    if parts == 1:
        return [slots]
    corners, used = of.corners[slots], np.zeros(len(of.points), np.bool_)
    used[corners] = True
    quarters = 0.25 * of.points
    along = quarters[:, int(np.argmax(np.ptp(quarters[used], axis=0)))].copy()
    centres = along[corners[:, 0]] + along[corners[:, 1]] + along[corners[:, 2]] + along[corners[:, 3]]
    cut = len(slots) * (parts // 2) // parts
    border = np.partition(centres, cut)[cut]
    first = centres < border
    first[np.flatnonzero(centres == border)[: cut - int(first.sum())]] = True  # of those on the border the lowest
    return bisect(of, slots[first], parts // 2) + bisect(of, slots[~first], parts - parts // 2)


def on_cuts(of: Neighbours, parts: list[Ints]) -> NDArray[np.bool_]:
    """Which points are corners in more than one part. That stays so: a point of a cavity is a corner of its filling.

    >>> from .cavity import two_beside
    >>> on_cuts(two_beside(), [np.array([1]), np.array([0])]).tolist()
    [True, True, True, False, False]
    """
    often = np.zeros(len(of.points), np.int64)
    for slots in parts:
        here = np.zeros(len(of.points), np.bool_)
        here[of.corners[slots]] = True
        often += here
    return often > 1


def part_of(of: Neighbours, slots: Ints) -> Neighbours:
    """The neighbours within a part: over a cut there is nothing.

    >>> from .cavity import two_beside
    >>> part_of(two_beside(), np.array([1])).beside.tolist()
    [[-1, -1, -1, -1]]
    """
    new = np.full(len(of.corners) + 1, -1, np.int64)
    new[slots] = np.arange(len(slots))
    return dataclasses.replace(of, corners=of.corners[slots], sign=of.sign[slots], region=of.region[slots], beside=new[of.beside[slots]], kind=of.kind[slots])


def alone(of: Neighbours, slots: Ints) -> Neighbours:
    """The same with every slot at its place: those of other parts count as empty.

    >>> from .cavity import two_beside
    >>> alone(two_beside(), np.array([1])).kind.tolist(), alone(two_beside(), np.array([1])).beside[1].tolist()
    ([4, 0], [-1, -1, -1, -1])
    """
    here = np.zeros(len(of.corners), np.bool_)
    here[slots] = True
    beside = of.beside.copy()
    beside[slots] = np.where(here[beside[slots]], beside[slots], -1)
    return dataclasses.replace(of, beside=beside, kind=np.where(here, of.kind, EMPTY).astype(np.int8))


@dataclasses.dataclass
class Done:
    """What a process gives back of its part."""

    state: State
    fresh: Ints
    settled: dict[int, list[int]]  # what would fail in the whole too: the points of its last cavity
    lines: bytes
    counts: Counts
    passes: list[dict[str, Any]]
    interrupted: bool
    seconds: float


@dataclasses.dataclass
class _Shared:
    """What the processes are started with: they are copies of this one, so nothing is sent."""

    of: Neighbours
    options: Options
    below: float
    sizes: Sequence[int]
    passes: int | None
    stop: Callable[[], bool]
    parts: list[Ints]
    cut: bytes  # by point: 1 where it is a corner in several parts
    noted: bool
    shown: Any


_shared: _Shared | None = None


def _work(number: int) -> Done:
    assert _shared is not None
    shared, start = _shared, time.process_time()
    lines: list[bytes] = []

    def show(done: int, left: int, worst: float) -> None:
        shared.shown[3 * number: 3 * number + 3] = [done, left, worst]

    run = Run(part_of(shared.of, shared.parts[number]), shared.options, shared.below, shared.sizes, lines.append if shared.noted else None, shared.stop)
    run.cut = shared.cut
    run.run(shared.passes, show)
    settled = {slot: points for slot, (_, points) in run.failed.items() if slot not in run.hindered and run.is_unchanged(slot)}
    fresh = np.array(sorted(run.fresh), np.int64)
    return Done(run.engine.state(), fresh, settled, b''.join(lines), run.counts, run.passes, run.interrupted, time.process_time() - start)


def _send(number: int, there: Connection) -> None:
    """Betters a part and sends what came of it, or what went wrong."""
    gc.disable()  # it would look at all that the process was started with, and have each page of it copied
    try:
        there.send(_work(number))
    except BaseException as fault:
        there.send(fault)


def _shown(shared: _Shared, progress: Progress | None) -> None:
    """Shows together what the processes show of themselves."""
    shown = np.array(shared.shown[:]).reshape(-1, 3)
    if progress is not None and shown[:, 0].any():
        progress(int(shown[:, 0].max()), int(shown[:, 1].sum()), float(shown[shown[:, 0] > 0, 2].min()))


def _widen(pipe: Connection) -> None:
    """Lets a pipe hold a mebibyte, so that a part goes through it in few turns."""
    try:
        fcntl.fcntl(pipe.fileno(), fcntl.F_SETPIPE_SZ, 1 << 20)
    except OSError:
        pass  # the system allows less: then it stays as it is


class _Others:
    """A process for each part but the first. However it ends, none of them is left behind."""

    def __init__(self, shared: _Shared) -> None:
        global _shared
        _shared, self.shared = shared, shared
        self.started: list[Any] = []
        self.waiting: dict[Connection, int] = {}

    def __enter__(self) -> _Others:
        return self

    def start(self) -> None:
        """Starts them."""
        context = multiprocessing.get_context('fork')
        for number in range(1, len(self.shared.parts)):
            here, there = context.Pipe(duplex=False)
            _widen(here)
            self.waiting[here] = number
            process = context.Process(target=_send, args=(number, there), daemon=True)
            process.start()
            there.close()  # so that the process's own end is the last: when it dies, this side hears of it
            self.started.append(process)

    def gathered(self, progress: Progress | None) -> list[Done]:
        """What they send, in the order of the parts."""
        done: dict[int, Done] = {}
        while len(done) < len(self.waiting):
            for ready in wait([here for here, number in self.waiting.items() if number not in done], 0.2):
                assert isinstance(ready, Connection)
                try:
                    answer = ready.recv()
                except EOFError:
                    raise Fault('a process ended before its part was done: it was killed, or the memory did not suffice') from None
                if isinstance(answer, BaseException):
                    raise answer
                done[self.waiting[ready]] = answer
            _shown(self.shared, progress)
        return [done[number] for number in sorted(done)]

    def __exit__(self, *_: object) -> None:
        global _shared
        _shared = None
        for process in self.started:
            process.terminate()
            process.join()
        for here in self.waiting:
            here.close()


def _over_cuts(engine: Engine, of: Neighbours, cut: NDArray[np.bool_]) -> None:
    """Joins the tetrahedra on the two sides of a cut."""
    state = engine.state()
    on_cut = cut.astype(np.int8)
    near = np.flatnonzero((sum(on_cut[state.corners[:, i]] for i in range(4)) >= 3) & (state.corners[:, 0] >= 0))  # the others have no face there
    kind = np.where(state.sign[near] != 0, SOUND, FLAT).astype(np.int8)  # what is not touched keeps its faces
    _, found = joined(state.corners[near].astype(np.int64), state.region[near].astype(np.int64), kind, of.shut, len(of.points))
    before = state.beside[near]
    engine.rejoin(near, np.where((before < 0) & (found >= 0), near[found], before))


def _take_over(run: Run, slots: Ints, part: Done) -> None:
    """Puts a part into the whole: its old slots where they were, its new ones at the end."""
    end = len(run.engine.state().sign)
    places = np.concatenate([slots, np.arange(end, end + len(part.state.sign) - len(slots))])
    run.engine.adopt(places, part.state)
    run.fresh.update(places[part.fresh].tolist())
    run.counts.add(part.counts)
    run.elsewhere += part.seconds
    run.failed.update({int(places[slot]): (0, points) for slot, points in part.settled.items()})
    run.interrupted = run.interrupted or part.interrupted


def run(
    of: Neighbours, options: Options, below: float, sizes: Sequence[int], passes: int | None, jobs: int, note: Note | None,
    progress: Progress | None, stop: Callable[[], bool],
) -> Run:
    """Betters the parts at the same time, then what the cuts hindered; the run of this process, with the counts of all.

    >>> from .improve import example, improve
    >>> improve(example(), below=0.9, jobs=2).report['exchanges']
    1
    """
    count = min(jobs, max(1, len(of.corners) // 8))
    parts = bisect(of, np.arange(len(of.corners)), count)
    cut = on_cuts(of, parts)
    shared = _Shared(of, options, below, sizes, passes, stop, parts, cut.tobytes(), note is not None, multiprocessing.get_context('fork').RawArray('d', 3 * count))

    def show(done: int, left: int, worst: float) -> None:
        shared.shown[:3] = [done, left, worst]
        _shown(shared, progress)

    with _Others(shared) as others:
        others.start()
        whole = Run(alone(of, parts[0]), options, below, sizes, note, stop)
        whole.cut = shared.cut
        whole.run(passes, show)
        done = others.gathered(progress)
        whole.passes = [{**row, 'part': number} for number, rows in enumerate([whole.passes, *(part.passes for part in done)], 1) for row in rows]
        for slot in whole.hindered:
            del whole.failed[slot]
        whole.cut, whole.hindered = b'', set()
        for slots, part in zip(parts[1:], done):
            _take_over(whole, slots, part)
            if note is not None:
                for line in part.lines.splitlines(keepends=True):
                    note(line)
        _over_cuts(whole.engine, of, cut)
        if not whole.interrupted:
            whole.run(passes, progress)
    return whole
