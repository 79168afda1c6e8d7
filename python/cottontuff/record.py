"""The record of every replacement, and its replay.

A record is a file of lines, packed where its name ends in .gz. The first line says what it is of; then each line is one replacement: its number n, the cavity's points, ascending, its tetrahedra (out) and
the filling (fill) as fours of places among these points, the worst entry of the table before (old) and after (worst), and a and b, which say whether the kernel's answer carries over to the
file's doubles (docs/MESHES.md). The last line has the count.
"""
from __future__ import annotations

import dataclasses
import gzip
import hashlib
import io
import json
import os
import zlib
from types import TracebackType
from typing import IO, Any, Callable, Iterator, Sequence, cast

import numpy as np

from . import fast
from .cavity import Options
from .faults import Fault
from .helper import address, usable
from .kernel import FURTHEST, MOST_POINTS
from .measures import MEASURES, Floats, Ints, MeasureName
from .mesh import Mesh, checked
from .neighbours import neighbours

FORM = 1
BLOCK = 65_536  # bytes of a record that are read at once


def in_order(rows: Ints) -> Ints:
    """Rows of whole numbers in an order that does not depend on the one they come in: by a mix of their numbers, which is one number to sort by instead of five.

    >>> in_order(np.array([[1, 2], [0, 9]])).tolist() == in_order(np.array([[0, 9], [1, 2]])).tolist()
    True
    """
    rows = np.ascontiguousarray(rows, np.int64)
    mixed = np.zeros(len(rows), np.uint64)
    for column in rows.view(np.uint64).T:
        mixed = (mixed ^ column) * np.uint64(0x9E3779B97F4A7C15)
        mixed ^= mixed >> np.uint64(29)
    order = np.argsort(mixed, kind='stable')
    if (mixed[order[1:]] == mixed[order[:-1]]).any():  # two rows with one mix, or one row twice
        order = np.lexsort((*rows.T[::-1], mixed))
    ordered: Ints = rows[order]
    return ordered


def rows_of(tets: Ints, regions: Ints) -> Ints:
    """Tetrahedra as a set: ascending corners and region, in an order that does not depend on the one they come in.

    >>> rows_of(np.array([[3, 0, 1, 2]]), np.array([7])).tolist()
    [[0, 1, 2, 3, 7]]
    """
    loaded, count = usable(), len(tets)
    if loaded is None:
        return in_order(np.column_stack([np.sort(tets, axis=1), regions]))
    corners, region = np.ascontiguousarray(tets, np.int64), np.ascontiguousarray(regions, np.int64)
    bits = max(count.bit_length() - 4, 1)
    ends, entries, rows = np.empty(1 << bits, np.int64), np.empty((count, 2), np.int64), np.empty((count, 5), np.int64)
    loaded.helper_rows(address(corners), address(region), count, bits, address(ends), address(entries), address(rows))
    return rows


def digest(mesh: Mesh) -> str:
    """A digest of a mesh's points, and of its tetrahedra with their regions as a set.

    >>> one = Mesh(np.zeros((4, 3)), np.array([[0, 1, 2, 3]]), np.array([1]))
    >>> digest(one) == digest(dataclasses.replace(one, tets=np.array([[1, 0, 2, 3]])))
    True
    """
    return _digest(mesh.points, rows_of(mesh.tets, mesh.regions))


def _digest(points: Floats, rows: Ints) -> str:
    found = hashlib.sha256(np.ascontiguousarray(points).data)
    found.update(rows.data)
    return found.hexdigest()


def _json(what: dict[str, Any]) -> bytes:
    return json.dumps(what, separators=(',', ':')).encode() + b'\n'


class Writer:
    """Writes a record line by line, `begin` first; where no file is named it writes nothing, and there is no `note` to hand lines to.

    >>> with Writer(None, Mesh(np.zeros((4, 3)), np.array([[0, 1, 2, 3]]), np.array([1])), Options(), 0.3, (5,)) as writer:
    ...     writer.count
    0
    """

    def __init__(self, path: str | os.PathLike[str] | None, mesh: Mesh, options: Options, below: float, sizes: Sequence[int]) -> None:
        self.path, self.count = None if path is None else os.fspath(path), 0
        self.file: IO[bytes] | None = None
        self.note: Callable[[bytes], None] | None = None if path is None else self.write
        self.mesh, self.options, self.below, self.sizes = mesh, options, below, list(sizes)
        if self.path is None:
            return
        try:
            self.file = io.BufferedWriter(cast(io.RawIOBase, gzip.open(self.path, 'wb'))) if self.path.endswith('.gz') else open(self.path, 'wb')
        except OSError as fault:
            raise Fault(f'{self.path}: the record can\'t be written: {fault.strerror}') from fault

    def begin(self) -> None:
        """Writes the first line, with a digest of the mesh."""
        if self.file is not None:
            measure = self.options.measure if isinstance(self.options.measure, str) else None
            table = 'rank' if self.options.ranked else 'millionths'
            self._put(_json({
                'cottontuff record': FORM, 'input': digest(self.mesh), 'measure': measure, 'table': table, 'limit': self.options.limit, 'below': self.below, 'sizes': self.sizes,
            }))

    def _put(self, line: bytes) -> None:
        if self.file is not None:
            try:
                self.file.write(line)
            except OSError as fault:
                raise Fault(f'{self.path}: the record was not written to its end: {fault.strerror}') from fault

    def write(self, line: bytes) -> None:
        """Writes the line of a replacement, which comes without its number."""
        self.count += 1
        self._put(b'{"n":%d,' % self.count + line)

    def close(self, mesh: Mesh) -> None:
        """Writes the last line, and closes the file."""
        if self.file is not None:
            self._put(_json({'end': self.count, 'output': digest(mesh)}))
            file, self.file = self.file, None
            try:
                file.close()
            except OSError as fault:
                raise Fault(f'{self.path}: the record was not written to its end: {fault.strerror}') from fault

    def __enter__(self) -> Writer:
        return self

    def __exit__(self, kind: type[BaseException] | None, fault: BaseException | None, trace: TracebackType | None) -> None:
        if self.file is not None:
            try:
                self.file.close()
            except OSError:
                pass  # what went wrong before is what is said


def _blocks(name: str) -> Iterator[bytes]:
    """The bytes of a record, some whole lines at a time."""
    try:
        with gzip.open(name) if name.endswith('.gz') else open(name, 'rb') as file:
            while block := b''.join(file.readlines(BLOCK)):
                yield block.replace(b'\r\n', b'\n').replace(b'\r', b'\n') if b'\r' in block else block
    except OSError as fault:
        raise Fault(f'{name}: the record can\'t be read: {fault.strerror or fault}') from fault
    except (ValueError, EOFError, zlib.error) as fault:
        raise Fault(f'{name}: no record, or not whole: {fault}') from fault


class Lines:
    """The lines of a record with their numbers, from 1; or, for the helper, the bytes from `at` on in `block`, of which it takes what it can."""

    def __init__(self, path: str | os.PathLike[str]) -> None:
        self.name = os.fspath(path)
        self.blocks, self.block, self.at, self.number = _blocks(self.name), b'', 0, 0

    def __iter__(self) -> Lines:
        return self

    def is_left(self) -> bool:
        """Whether there is a line that was not taken."""
        while self.at == len(self.block):
            more = next(self.blocks, None)
            if more is None:
                return False
            self.block, self.at = more, 0
        return True

    def __next__(self) -> tuple[int, dict[str, Any]]:
        if not self.is_left():
            raise StopIteration
        end = self.block.find(b'\n', self.at) + 1 or len(self.block)
        line, self.at, self.number = self.block[self.at: end], end, self.number + 1
        try:
            what = json.loads(line.decode())
        except (ValueError, RecursionError) as fault:
            raise Fault(f'{self.name}: no record, or not whole: {fault}') from fault
        if not isinstance(what, dict):
            raise Fault(f'{self.name}: line {self.number} is no line of a record')
        return self.number, what


def lines(path: str | os.PathLike[str]) -> Iterator[tuple[int, dict[str, Any]]]:
    """The lines of a record with their numbers, from 1.

    >>> import tempfile
    >>> with tempfile.TemporaryDirectory() as folder:
    ...     _ = open(folder + '/record', 'w').write('{"end":0}')
    ...     list(lines(folder + '/record'))
    [(1, {'end': 0})]
    """
    return Lines(path)


@dataclasses.dataclass
class Verified:
    """What a replay found: how many replacements hold, how many of them carry over to the doubles, and what is wrong, nothing where all holds."""

    replacements: int = 0
    carries_over: int = 0
    measure: str = 'shape'
    wrong: list[str] = dataclasses.field(default_factory=list)

    def __bool__(self) -> bool:
        return not self.wrong


def is_number(found: object, wanted: int) -> bool:
    """Whether a line has this whole number, and not true or 1.0 for it.

    >>> is_number(1, 1), is_number(True, 1), is_number(1.0, 1)
    (True, False, False)
    """
    return type(found) is int and found == wanted


def _numbers(what: dict[str, Any], name: str, most: int) -> list[int]:
    found = what.get(name)
    if not isinstance(found, list) or set(map(type, found)) != {int} or min(found) < 0 or max(found) >= most:
        raise ValueError(f'{name} is no list of numbers below {most:,}')
    return found


class Replay:
    """Replays a record from the mesh that it starts with."""

    def __init__(self, mesh: Mesh, options: Options, search: bool) -> None:
        self.of = neighbours(mesh)
        self.engine = fast.engine(self.of, options)
        self.search = search
        self.points = len(mesh.points)
        self.names = np.unique(mesh.regions)

    def _cavity(self, what: dict[str, Any]) -> tuple[list[int], list[int]]:
        """The slots and points of a line's cavity; ValueError says what is not there."""
        points = _numbers(what, 'points', self.points)
        if not 4 <= len(points) <= MOST_POINTS or points != sorted(set(points)):
            raise ValueError('its points are not 4 to 16 ascending numbers')
        out = _numbers(what, 'out', len(points))
        if len(set(out)) != len(points) or len(out) % 4:
            raise ValueError('its tetrahedra are no fours, or its points are not those of the cavity')
        fours = np.array([points[place] for place in out], np.int32).reshape(-1, 4)
        slots = self.engine.find(fours)
        if -1 in slots:
            raise ValueError(f'the mesh has no tetrahedron {tuple(fours[slots.index(-1)].tolist())}')
        if len(set(slots)) != len(slots):
            raise ValueError('a tetrahedron stands twice')
        if len(set(self.engine.regions_of(slots))) != 1:
            raise ValueError('the cavity has tetrahedra of two regions')
        return slots, points

    def step(self, what: dict[str, Any]) -> bool:
        """Replays one line; whether its answer carries over to the doubles. ValueError says what does not hold."""
        slots, points = self._cavity(what)
        fill = _numbers(what, 'fill', len(points))
        engine, count = self.engine, len(fill) // 4
        engine.reopen(slots, points)
        why = engine.prepare()
        if why is not None:
            raise ValueError(f'the cavity is {why}')
        allowed, agrees, old, _, _ = engine.facts()
        if len(fill) % 4 or len(fill) > engine.answer.size:
            raise ValueError('its filling is no list of fours')
        engine.answer[: len(fill)] = fill
        self._judge(what, count, allowed, old)
        own = engine.judge_own()
        a = own.number == 0 and own.law == 0
        if not (is_number(what.get('a'), int(a)) and is_number(what.get('b'), int(agrees))):
            raise ValueError(f'a and b are {int(a)} and {int(agrees)}, not as recorded')
        if self.search:
            self._search(what, fill)
        engine.exchange(count)
        return a and agrees

    def _judge(self, what: dict[str, Any], count: int, allowed: bool, old: int) -> None:
        if not allowed:
            raise ValueError('rounding turns one of the cavity\'s own tetrahedra')
        verdict = self.engine.judge_answer(count)
        if verdict.number or verdict.law:
            raise ValueError(f'the judge refuses the job with {verdict.number}' if verdict.number else f'the judge says that the filling breaks law {verdict.law}')
        if not (is_number(what.get('worst'), verdict.worst) and is_number(what.get('old'), old)):
            raise ValueError(f"the worst entries are {old:,} and {verdict.worst:,}, not {what.get('old')} and {what.get('worst')}")
        if verdict.worst <= old:
            raise ValueError(f'the worst entry does not rise: {old:,} and {verdict.worst:,}')
        if not self.engine.recheck(count):
            raise ValueError('in the file\'s doubles the filling does not fill the cavity')

    def _search(self, what: dict[str, Any], fill: list[int]) -> None:
        found = self.engine.search()
        if found.number or found.worst != what.get('worst') or self.engine.answer[: 4 * found.count].tolist() != fill:
            raise ValueError('the search answers another filling')

    def many(self, steps: Lines, said: Verified) -> int:
        """Replays lines as long as the helper finds that they hold; how many. What it leaves is for `step`."""
        count, size, carried = self.engine.replay(steps.block, steps.at, said.replacements + 1, self.search)
        steps.at, steps.number = steps.at + size, steps.number + count
        said.replacements, said.carries_over = said.replacements + count, said.carries_over + carried
        return count

    def ends_in(self, rows: Ints) -> bool:
        """Whether what is reached is these tetrahedra, set for set, with their regions."""
        may, still = np.flatnonzero(self.engine.touchable()), self.of.kind != 0
        regions = self.names[np.concatenate([self.engine.regions()[may], self.of.region[still]])]
        return bool(np.array_equal(rows_of(np.concatenate([self.engine.fours()[may], self.of.corners[still]]), regions), rows))


def _options(path: str, head: dict[str, Any], measure: MeasureName | None) -> Options:
    """The options that a record was made with."""
    if not is_number(head.get('cottontuff record'), FORM):
        raise Fault(f'{path}: line 1 is not the first line of a record of form {FORM}')
    named = head.get('measure')
    if measure is None and named is None:
        raise Fault(f'{path}: it was made with a measure of one\'s own: hand the function to record.verify')
    if named is not None and (not isinstance(named, str) or named not in MEASURES):
        raise Fault(f'{path}: line 1: there is no measure {named!r}')
    limit, table = head.get('limit'), head.get('table')
    if type(limit) is not int or not 1 <= limit <= FURTHEST or table not in ('millionths', 'rank'):
        raise Fault(f'{path}: line 1: limit and table are {limit!r} and {table!r}')
    return Options(named if named is not None else measure or 'shape', table == 'rank', limit)


def _same_besides(before: Mesh, after: Mesh) -> list[str]:
    wrong = []
    if before.points.shape != after.points.shape or before.points.tobytes() != after.points.tobytes():
        wrong.append('the points are not the same, bit for bit')
    for name, a, b in (('triangles', before.faces, after.faces), ('lines', before.lines, after.lines)):
        if not (np.array_equal(a, b) or np.array_equal(in_order(np.sort(a, axis=1)), in_order(np.sort(b, axis=1)))):
            wrong.append(f'the {name} are not the same')
    if not np.array_equal(np.unique(before.regions), np.unique(after.regions)):
        wrong.append('the regions are not the same')
    return wrong


def _replayed(replay: Replay, steps: Lines, said: Verified, output: str, progress: Callable[[int], None] | None) -> bool:
    """Replays the lines behind the first, up to one that does not hold; whether there was a last line."""
    while steps.is_left():
        before = said.replacements
        if not replay.many(steps, said):
            number, what = next(steps)
            if not _one(replay, number, what, said, output):
                return True
            if 'end' in what:
                if steps.is_left():
                    said.wrong.append(f'line {number + 1}: the record does not end as its last line says')
                return True
        if progress is not None:
            for count in range(before, said.replacements):
                progress(count + 1)
    return False


def _one(replay: Replay, number: int, what: dict[str, Any], said: Verified, output: str) -> bool:
    """Replays one line, or looks at the last; whether it holds."""
    try:
        if 'end' in what:
            if not is_number(what['end'], said.replacements) or what.get('output') != output:
                raise ValueError('the record does not end as its last line says')
            return True
        if not is_number(what.get('n'), said.replacements + 1):
            raise ValueError(f"it has the number {what.get('n')}, and {said.replacements + 1} is due")
        said.carries_over += replay.step(what)
    except ValueError as fault:
        said.wrong.append(f'line {number}: {fault}')
        return False
    said.replacements += 1
    return True


def verify(
    before: Mesh, after: Mesh, path: str | os.PathLike[str], *, search: bool = False, measure: MeasureName | None = None, progress: Callable[[int], None] | None = None,
) -> Verified:
    """Replays every replacement of a record. For each: the cavity's tetrahedra are there, the judge says law 0 and the worst entry that is recorded, above the old; signs, faces and volume hold exactly
    in the doubles; with `search` the search answers the same filling. In the end `after` is reached, set for set. The first line that does not hold ends the replay.

    >>> import tempfile
    >>> from .improve import example, improve
    >>> with tempfile.TemporaryDirectory() as folder:
    ...     better = improve(example(), below=0.9, record=folder + '/record')
    ...     verify(example(), better.mesh, folder + '/record', search=True)
    Verified(replacements=1, carries_over=1, measure='shape', wrong=[])
    """
    before, after = checked(before), checked(after)
    said, steps = Verified(wrong=_same_besides(before, after)), Lines(path)
    nothing: dict[str, Any] = {}
    _, head = next(steps, (0, nothing))
    options = _options(steps.name, head, measure)
    replay = Replay(before, options, search)
    said.measure = options.measure if isinstance(options.measure, str) else 'a function'
    if head.get('input') != digest(before):
        said.wrong.append('the record starts from another mesh')
    if said.wrong:
        return said
    wanted = rows_of(after.tets, after.regions)
    ended = _replayed(replay, steps, said, _digest(after.points, wanted), progress)
    if said.wrong:
        return said
    if not ended:
        said.wrong.append('the record has no last line')
    elif not replay.ends_in(wanted):
        said.wrong.append('the replay does not end in the output')
    return said
