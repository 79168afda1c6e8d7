"""The same as `cavity`, over the helper in C: growth, jobs and exchanges in flat arrays. `engine` gives this one where the helper was built, else the plain one; with COTTONTUFF_PURE=1 always the plain one.

An engine has one open cavity at a time. `open`, `grow` and `prepare` lead to its job, `search` and `judge_own` ask the kernel, `recheck` and `exchange` put the answer in its place.
"""
from __future__ import annotations

import ctypes
import functools
import json
from fractions import Fraction
from typing import Any, NamedTuple, Protocol, Union

import numpy as np
from numpy.typing import NDArray

from . import cavity, exact, kernel
from .cavity import Job, Options
from .faults import Fault
from .helper import address as _address, helper, usable
from .kernel import ANSWER_BYTES, MOST_FOURS, MOST_POINTS, RawFound, RawVerdict
from .measures import Floats, Ints
from .neighbours import EMPTY, Neighbours

_TRIANGLES, _TETS = 560, 512
_MEASURES = {'shape': 0, 'gamma': 1}
_GIVEN = 2
_UNDECIDED = 2
_LINE_BYTES = 11 * MOST_POINTS + 3 * (4 * _TETS + ANSWER_BYTES) + 200  # of a record's line at most
SMALLEST_CAVITY, LARGEST_CAVITY = 2.0**-119, 2.0**121  # beyond that the measures leave the doubles


class State(NamedTuple):
    """The slots of an engine: corners, the first of them -1 where it is empty; what lies beside each face; the sign, 0 for what is not touched; region and quality."""

    corners: NDArray[np.int32]
    beside: NDArray[np.int32]
    sign: NDArray[np.int8]
    region: NDArray[np.int32]
    quality: Floats


class Engine(Protocol):
    """What `improve` and `record` work with."""

    answer: NDArray[np.uint8]

    def open(self, slot: int) -> None: ...
    def reopen(self, slots: list[int], points: list[int]) -> None: ...
    def grow(self, points: int) -> int: ...
    def prepare(self) -> str | None: ...
    def facts(self) -> tuple[bool, bool, int, float, int]: ...
    def cavity_points(self) -> list[int]: ...
    def cavity_tets(self) -> list[int]: ...
    def job(self) -> Job: ...
    def search(self) -> RawFound: ...
    def judge_own(self) -> RawVerdict: ...
    def judge_answer(self, count: int) -> RawVerdict: ...
    def recheck(self, count: int) -> bool: ...
    def exchange(self, count: int) -> list[int]: ...
    def qualities(self) -> Floats: ...
    def fours(self) -> Ints: ...
    def touchable(self) -> NDArray[np.bool_]: ...
    def quality_of(self, slots: list[int]) -> list[float]: ...
    def own_fours(self) -> list[int]: ...
    def signs(self) -> NDArray[np.int8]: ...
    def regions(self) -> Ints: ...
    def find(self, fours: NDArray[np.int32]) -> list[int]: ...
    def regions_of(self, slots: list[int]) -> list[int]: ...
    def state(self) -> State: ...
    def adopt(self, places: Ints, state: State) -> None: ...
    def rejoin(self, slots: Ints, beside: Ints) -> None: ...
    def line(self, count: int, old: int, worst: int, a: bool, b: bool) -> bytes: ...
    def replay(self, text: bytes, start: int, number: int, search: bool) -> tuple[int, int, int]: ...


_P = ctypes.c_void_p


class _Mesh(ctypes.Structure):
    _fields_ = [(name, _P) for name in (
        'points', 'corners', 'beside', 'region', 'sign', 'quality', 'head', 'next', 'previous', 'cavity_mark', 'around_mark', 'point_mark', 'local', 'line_start', 'line_end',
    )] + [('slots', ctypes.c_int64), ('capacity', ctypes.c_int64), ('point_count', ctypes.c_int64)] + [(name, ctypes.c_int32) for name in ('mark', 'step', 'limit', 'measure', 'ranked')]


class _Cavity(ctypes.Structure):
    _fields_ = [
        ('tets', ctypes.c_int32 * _TETS), ('points', ctypes.c_int32 * MOST_POINTS), ('fresh', ctypes.c_int32 * MOST_FOURS),
        *((name, ctypes.c_int32) for name in (
            'tet_count', 'point_count', 'fresh_count', 'triangle_count', 'kept_count', 'inner_count', 'unsure_count', 'exact_count', 'worst_entry', 'own_allowed', 'agrees',
        )),
        ('worst', ctypes.c_double), ('xyz', ctypes.c_double * (3 * MOST_POINTS)), ('value', ctypes.c_double * MOST_FOURS),
        ('coordinates', ctypes.c_int32 * (3 * MOST_POINTS)), ('full', ctypes.c_int32 * MOST_FOURS), ('table', ctypes.c_int32 * MOST_FOURS), ('unsure', ctypes.c_int32 * MOST_FOURS),
        ('triangles', ctypes.c_uint8 * (3 * _TRIANGLES)), ('inner', ctypes.c_uint8 * (3 * _TRIANGLES)), ('kept', ctypes.c_uint8 * (MOST_POINTS * (MOST_POINTS - 1))),
        ('own', ctypes.c_uint8 * (4 * _TETS)), ('sign', ctypes.c_int8 * MOST_FOURS), ('rounded', ctypes.c_int8 * MOST_FOURS),
    ]


@functools.lru_cache(maxsize=1)
def _fits() -> bool:
    """Whether the helper's structs are laid out as those here."""
    loaded = helper()
    return loaded is not None and loaded.helper_sizes(0) == ctypes.sizeof(_Mesh) and loaded.helper_sizes(1) == ctypes.sizeof(_Cavity)


class FastEngine:
    """The engine over the helper in C."""

    def __init__(self, of: Neighbours, options: Options, loaded: ctypes.CDLL) -> None:
        self.options, self.helper, self.library = options, loaded, kernel.library()
        self.answer = np.zeros(ANSWER_BYTES, np.uint8)
        count, points = len(of.corners), len(of.points)
        self.arrays: dict[str, NDArray[Any]] = {'points': np.ascontiguousarray(of.points, np.float64)}
        self._slots(of, count + count // 4 + 64)
        for name, fill in (('head', -1), ('point_mark', 0), ('local', 0)):
            self.arrays[name] = np.full(points, fill, np.int32)
        self.arrays['line_start'] = np.searchsorted(of.lines[:, 0], np.arange(points + 1)).astype(np.int32)
        self.arrays['line_end'] = np.ascontiguousarray(of.lines[:, 1], np.int32)
        self.mesh = _Mesh(slots=count, capacity=count + count // 4 + 64, point_count=points, limit=options.limit, ranked=options.ranked)
        self.mesh.measure = _MEASURES[options.measure] if isinstance(options.measure, str) else _GIVEN
        self._point()
        self.at = ctypes.addressof(self.mesh)
        self.cavity = _Cavity()
        self.cavity_at = ctypes.addressof(self.cavity)
        self._views()
        if self.mesh.measure == _GIVEN:
            there = of.kind != EMPTY
            self.arrays['quality'][:count][there] = options.values(of.points[of.corners[there]])
        else:
            loaded.helper_measure(self.at)
        loaded.helper_link(self.at)

    def _slots(self, of: Neighbours, capacity: int) -> None:
        count = len(of.corners)
        for name, values, kind in (('corners', of.corners, np.int32), ('beside', of.beside, np.int32), ('region', of.region, np.int32), ('sign', np.where(of.kind == 0, of.sign, 0), np.int8)):
            room = np.empty((capacity, *values.shape[1:]), kind)
            room[:count] = values
            self.arrays[name] = room
        self.arrays['corners'][:count][of.kind == EMPTY, 0] = -1
        self.arrays['quality'] = np.empty(capacity)
        for name, rows in (('next', 4), ('previous', 4), ('cavity_mark', 1), ('around_mark', 1)):
            self.arrays[name] = np.zeros(rows * capacity, np.int32)

    def _point(self) -> None:
        for name, array in self.arrays.items():
            setattr(self.mesh, name, _address(array))

    def _views(self) -> None:
        """Arrays over the cavity's fields, and the addresses that the kernel is called with."""
        self.view: dict[str, NDArray[Any]] = {name: np.frombuffer(getattr(self.cavity, name), kind._type_) for name, kind, *_ in _Cavity._fields_ if hasattr(kind, '_length_')}  # type: ignore[attr-defined]
        self.where = {name: _address(view) for name, view in self.view.items()}
        self.answer_at = _address(self.answer)
        self.room = np.zeros(_LINE_BYTES, np.uint8)
        self.line_at = _address(self.room)

    def _enlarge(self) -> None:
        capacity = 2 * int(self.mesh.capacity)
        for name in ('corners', 'beside', 'region', 'sign', 'quality', 'next', 'previous', 'cavity_mark', 'around_mark'):
            old = self.arrays[name]
            room = np.zeros((2 * len(old), *old.shape[1:]), old.dtype)
            room[: len(old)] = old
            self.arrays[name] = room
        self.mesh.capacity = capacity
        self._point()

    def open(self, slot: int) -> None:
        self.helper.helper_open(self.at, self.cavity_at, slot)

    def reopen(self, slots: list[int], points: list[int]) -> None:
        """Opens the cavity of these slots and points."""
        tets, corners = np.array(slots, np.int32), np.array(points, np.int32)
        if self.helper.helper_reopen(self.at, self.cavity_at, _address(tets), len(tets), _address(corners), len(corners)):
            raise ValueError('no cavity: over 512 tetrahedra or 16 points')

    def grow(self, points: int) -> int:
        return int(self.helper.helper_grow(self.at, self.cavity_at, points))

    def prepare(self) -> str | None:
        """Makes the job; None, or why it can't be made."""
        if self.helper.helper_prepare(self.at, self.cavity_at):
            return 'too small or too large for doubles'
        held = self.cavity
        if held.unsure_count:
            self._decide()
        if self.mesh.measure == _GIVEN:
            n = held.point_count
            every = cavity.fours(n)
            self.view['value'][: len(every)] = self.options.values(self.view['xyz'][: 3 * n].reshape(-1, 3)[every])
        self.helper.helper_table(self.at, self.cavity_at)
        return None

    def _decide(self) -> None:
        """Signs that need more bits than the helper has."""
        n = self.cavity.point_count
        whole, _ = exact.whole_numbers(self.view['xyz'][: 3 * n].reshape(-1, 3))
        for place in self.view['unsure'][: self.cavity.unsure_count].tolist():
            a, b, c, d = cavity.fours(n)[place].tolist()
            volume = exact.six_volume(whole, (a, b, c, d))
            self.view['sign'][place] = (volume > 0) - (volume < 0)

    def facts(self) -> tuple[bool, bool, int, float, int]:
        """own_allowed, agrees, worst_entry, worst and exact_signs of the job."""
        held = self.cavity
        return bool(held.own_allowed), bool(held.agrees), held.worst_entry, held.worst, held.exact_count

    def cavity_points(self) -> list[int]:
        points: list[int] = self.view['points'][: self.cavity.point_count].tolist()
        return points

    def cavity_tets(self) -> list[int]:
        tets: list[int] = self.view['tets'][: self.cavity.tet_count].tolist()
        return tets

    def job(self) -> Job:
        held, view, n = self.cavity, self.view, self.cavity.point_count
        count = len(cavity.fours(n))

        def part(name: str, rows: int, width: int) -> NDArray[Any]:
            return view[name][: rows * width].reshape(rows, width).copy()

        return Job(
            view['points'][:n].astype(np.int64), part('xyz', n, 3), part('coordinates', n, 3), part('triangles', held.triangle_count, 3), part('kept', held.kept_count, 2),
            part('inner', held.inner_count, 3), view['full'][:count].copy(), view['table'][:count].copy(), view['sign'][:count].copy(), view['rounded'][:count].copy(),
            view['value'][:count].copy(), part('own', held.tet_count, 4), held.worst, held.worst_entry, bool(held.own_allowed), bool(held.agrees), held.exact_count,
        )

    def _lists(self, table: str) -> tuple[int, ...]:
        held, where, n = self.cavity, self.where, self.cavity.point_count
        return (
            where['coordinates'], 3 * n, where['triangles'], 3 * held.triangle_count, where['kept'], 2 * held.kept_count,
            where['inner'], 3 * held.inner_count, where[table], n * (n - 1) * (n - 2) * (n - 3) // 24,
        )

    def search(self) -> RawFound:
        found: RawFound = self.library.cottontuff_search_inner(*self._lists('table'), self.answer_at, ANSWER_BYTES)
        return found

    def judge_own(self) -> RawVerdict:
        verdict: RawVerdict = self.library.cottontuff_judge_inner(*self._lists('full'), self.where['own'], 4 * self.cavity.tet_count)
        return verdict

    def judge_answer(self, count: int) -> RawVerdict:
        verdict: RawVerdict = self.library.cottontuff_judge_inner(*self._lists('full'), self.answer_at, 4 * count)
        return verdict

    def recheck(self, count: int) -> bool:
        said = self.helper.helper_recheck(self.cavity_at, self.answer_at, count)
        if said == _UNDECIDED:
            return cavity.recheck(self.job(), self.answer[: 4 * count].reshape(-1, 4))
        return bool(said == 0)

    def exchange(self, count: int) -> list[int]:
        while self.helper.helper_exchange(self.at, self.cavity_at, self.answer_at, count):
            self._enlarge()
        fresh: list[int] = self.view['fresh'][: self.cavity.fresh_count].tolist()
        return fresh

    def qualities(self) -> Floats:
        """The quality in each slot."""
        return self.arrays['quality'][: self.mesh.slots].copy()

    def fours(self) -> Ints:
        """The corners in each slot, the first of them -1 where it is empty."""
        return self.arrays['corners'][: self.mesh.slots].astype(np.int64)

    def touchable(self) -> NDArray[np.bool_]:
        """Whether the slot has a tetrahedron that may be touched."""
        flags: NDArray[np.bool_] = self.arrays['sign'][: self.mesh.slots] != 0
        return flags

    def quality_of(self, slots: list[int]) -> list[float]:
        return [float(self.arrays['quality'][slot]) for slot in slots]

    def own_fours(self) -> list[int]:
        """The cavity's tetrahedra as fours of its points' places, one after another."""
        own: list[int] = self.view['own'][: 4 * self.cavity.tet_count].tolist()
        return own

    def signs(self) -> NDArray[np.int8]:
        return self.arrays['sign'][: self.mesh.slots].copy()

    def regions(self) -> Ints:
        return self.arrays['region'][: self.mesh.slots].astype(np.int64)

    def find(self, fours: NDArray[np.int32]) -> list[int]:
        """The slots of tetrahedra that may be touched, by their ascending corners; -1 for one that is not there."""
        slots = np.empty(len(fours), np.int32)
        self.helper.helper_find(self.at, _address(fours), len(fours), _address(slots))
        found: list[int] = slots.tolist()
        return found

    def regions_of(self, slots: list[int]) -> list[int]:
        regions: list[int] = self.arrays['region'][slots].tolist()
        return regions

    def state(self) -> State:
        """The slots as they are now; not to be changed."""
        return State(*(self.arrays[name][: self.mesh.slots] for name in State._fields))

    def adopt(self, places: Ints, state: State) -> None:
        """Takes over slots of another engine, which stand here at these places. `rejoin` must follow."""
        self.mesh.slots = max(int(self.mesh.slots), int(places.max()) + 1)
        while self.mesh.slots > self.mesh.capacity:
            self._enlarge()
        for name, values in state._asdict().items():
            self.arrays[name][places] = np.append(places, -1)[values] if name == 'beside' else values

    def rejoin(self, slots: Ints, beside: Ints) -> None:
        """Says what lies beside these slots, and enters every slot into the lists of its points."""
        self.arrays['beside'][slots] = beside
        self.arrays['head'].fill(-1)
        self.helper.helper_link(self.at)

    def line(self, count: int, old: int, worst: int, a: bool, b: bool) -> bytes:
        """The line of a record, behind its number, for the answer in the open cavity's place."""
        size = self.helper.helper_line(self.cavity_at, self.answer_at, count, old, worst, a, b, self.line_at)
        return self.room[:size].tobytes()

    def replay(self, text: bytes, start: int, number: int, search: bool) -> tuple[int, int, int]:
        """Replays lines of a record from a place in a text on, the first with this number, as long as they hold; how many, how many bytes they have, how many carry over."""
        whole, done = np.frombuffer(text, np.uint8), np.zeros(3, np.int64)
        judge, ask = (ctypes.cast(function, _P).value for function in (self.library.cottontuff_judge_inner, self.library.cottontuff_search_inner))
        self.helper.helper_replay(self.at, self.cavity_at, judge, ask if search else None, _address(whole) + start, len(text) - start, number, _address(done))
        count, size, carried = done.tolist()
        return count, size, carried


class PlainEngine:
    """The engine over `cavity`."""

    def __init__(self, of: Neighbours, options: Options) -> None:
        self.mesh = cavity.Tetrahedra(of, options)
        self.library = kernel.library()
        self.answer = np.zeros(ANSWER_BYTES, np.uint8)
        self.held: cavity.Cavity
        self.made: Job

    def open(self, slot: int) -> None:
        self.held = self.mesh.open(slot)

    def reopen(self, slots: list[int], points: list[int]) -> None:
        """Opens the cavity of these slots and points."""
        if len(slots) > cavity.MOST_TETS or len(points) > MOST_POINTS:
            raise ValueError('no cavity: over 512 tetrahedra or 16 points')
        self.held = cavity.Cavity(self.mesh, tuple(sorted(slots)), tuple(sorted(points)))

    def grow(self, points: int) -> int:
        while len(self.held.points) < min(points, MOST_POINTS):
            larger = cavity.grow(self.held)
            if larger is None:
                break
            if len(larger.tets) > cavity.MOST_TETS:
                return -1
            self.held = larger
        return len(self.held.points)

    def prepare(self) -> str | None:
        """Makes the job; None, or why it can't be made."""
        xyz = self.mesh.points[list(self.held.points)]
        if not SMALLEST_CAVITY < float((xyz.max(0) - xyz.min(0)).max()) < LARGEST_CAVITY:
            return 'too small or too large for doubles'
        self.made = cavity.job(self.held)
        return None

    def facts(self) -> tuple[bool, bool, int, float, int]:
        """own_allowed, agrees, worst_entry, worst and exact_signs of the job."""
        made = self.made
        return made.own_allowed, made.agrees, made.worst_entry, made.worst, made.exact_signs

    def cavity_points(self) -> list[int]:
        return list(self.held.points)

    def cavity_tets(self) -> list[int]:
        return list(self.held.tets)

    def job(self) -> Job:
        return self.made

    def _lists(self, table: NDArray[np.int32]) -> list[int]:
        made = self.made
        arrays: list[NDArray[Any]] = [made.coordinates, made.triangles, made.kept, made.inner, table]
        return [part for array in arrays for part in (_address(array), array.size)]

    def search(self) -> RawFound:
        found: RawFound = self.library.cottontuff_search_inner(*self._lists(self.made.table), _address(self.answer), ANSWER_BYTES)
        return found

    def judge_own(self) -> RawVerdict:
        verdict: RawVerdict = self.library.cottontuff_judge_inner(*self._lists(self.made.full), _address(self.made.own), self.made.own.size)
        return verdict

    def judge_answer(self, count: int) -> RawVerdict:
        verdict: RawVerdict = self.library.cottontuff_judge_inner(*self._lists(self.made.full), _address(self.answer), 4 * count)
        return verdict

    def recheck(self, count: int) -> bool:
        return cavity.recheck(self.made, self.answer[: 4 * count].reshape(-1, 4))

    def exchange(self, count: int) -> list[int]:
        return cavity.exchange(self.held, self.made, self.answer[: 4 * count].reshape(-1, 4))

    def qualities(self) -> Floats:
        """The quality in each slot."""
        return np.array(self.mesh.quality)

    def fours(self) -> Ints:
        """The corners in each slot, the first of them -1 where it is empty."""
        return np.array([(-1, -1, -1, -1) if four is None else four for four in self.mesh.corners], np.int64).reshape(-1, 4)

    def touchable(self) -> NDArray[np.bool_]:
        """Whether the slot has a tetrahedron that may be touched."""
        return np.array(self.mesh.sign, np.int8).astype(np.bool_)

    def quality_of(self, slots: list[int]) -> list[float]:
        return [self.mesh.quality[slot] for slot in slots]

    def own_fours(self) -> list[int]:
        """The cavity's tetrahedra as fours of its points' places, one after another."""
        own: list[int] = self.made.own.reshape(-1).tolist()
        return own

    def signs(self) -> NDArray[np.int8]:
        return np.array(self.mesh.sign, np.int8)

    def regions(self) -> Ints:
        return np.array(self.mesh.region, np.int64)

    def find(self, fours: NDArray[np.int32]) -> list[int]:
        """The slots of tetrahedra that may be touched, by their ascending corners; -1 for one that is not there."""
        at = self.mesh.at
        return [next((slot for slot in at[a] if self.mesh.corners[slot] == (a, b, c, d)), -1) for a, b, c, d in fours.tolist()]

    def regions_of(self, slots: list[int]) -> list[int]:
        return [self.mesh.region[slot] for slot in slots]

    def state(self) -> State:
        beside = np.array(self.mesh.beside, np.int32).reshape(-1, 4)
        return State(self.fours().astype(np.int32), beside, self.signs(), np.array(self.mesh.region, np.int32), self.qualities())

    def adopt(self, places: Ints, state: State) -> None:
        """Takes over slots of another engine, which stand here at these places. `rejoin` must follow."""
        mesh, lookup = self.mesh, [*places.tolist(), -1]
        more = max(0, max(lookup) + 1 - len(mesh.corners))
        for part in (mesh.corners, mesh.sign, mesh.region, mesh.quality, mesh.beside):
            part.extend([None] * more)  # type: ignore[attr-defined]
        for slot, place in enumerate(places.tolist()):
            a, b, c, d = state.corners[slot].tolist()
            mesh.corners[place], mesh.beside[place] = None if a < 0 else (a, b, c, d), [lookup[x] for x in state.beside[slot].tolist()]
            mesh.sign[place], mesh.region[place], mesh.quality[place] = int(state.sign[slot]), int(state.region[slot]), float(state.quality[slot])

    def rejoin(self, slots: Ints, beside: Ints) -> None:
        """Says what lies beside these slots, and enters every slot into the lists of its points."""
        for slot, row in zip(slots.tolist(), beside.tolist()):
            self.mesh.beside[slot] = row
        self.mesh.enter()

    def line(self, count: int, old: int, worst: int, a: bool, b: bool) -> bytes:
        """The line of a record, behind its number, for the answer in the open cavity's place."""
        what = {'points': self.cavity_points(), 'out': self.own_fours(), 'fill': self.answer[: 4 * count].tolist(), 'old': old, 'worst': worst, 'a': int(a), 'b': int(b)}
        return json.dumps(what, separators=(',', ':'))[1:].encode() + b'\n'

    def replay(self, text: bytes, start: int, number: int, search: bool) -> tuple[int, int, int]:
        """None: each line is replayed by `record`."""
        return 0, 0, 0


def engine(of: Neighbours, options: Options = Options()) -> Union[FastEngine, PlainEngine]:
    """The engine for a mesh.

    >>> made = engine(cavity.two_beside())
    >>> made.open(0)
    >>> made.grow(16), made.cavity_points()
    (5, [0, 1, 2, 3, 4])
    """
    loaded = usable()
    if loaded is not None and not _fits():
        raise Fault('the helper is of another version than the package; python/install builds both')
    return PlainEngine(of, options) if loaded is None else FastEngine(of, options, loaded)


def volume6(points: Floats, tets: Ints) -> Fraction:
    """`exact.volume6`, by the helper where the coordinates fit it.

    >>> volume6(np.array([[0, 0, 0], [.5, 0, 0], [0, .5, 0], [0, 0, .5]]), np.array([[0, 1, 2, 3]]))
    Fraction(1, 8)
    """
    loaded = usable()
    if loaded is not None and len(tets):
        used = np.zeros(len(points), np.bool_)
        used[tets] = True
        xyz, rows = np.ascontiguousarray(points[used], np.float64), np.ascontiguousarray((np.cumsum(used) - 1)[tets], np.int64)
        room, limbs = np.zeros(6 * len(xyz), np.uint64), np.zeros(6, np.uint64)
        if loaded.helper_volume(_address(xyz), len(xyz), _address(rows), len(rows), _address(room), _address(limbs)) == 0:
            total = sum(int(limb) << (64 * i) for i, limb in enumerate(limbs.tolist()))
            low = int(np.frexp(xyz[xyz != 0])[1].min()) - 53 if xyz.any() else 0
            return Fraction(total) * Fraction(2) ** (3 * low)
    return exact.volume6(points, tets)
