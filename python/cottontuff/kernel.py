"""The proved kernel, over arrays: search, judge, check, measure, measure_table.

Points are whole numbers, an array (n, 3) or the flat list of the C interface; triangles (k, 3) or flat, counter-clockwise seen from outside; kept edges (k, 2) or flat; inner triangles (k, 3) or
flat; the table has an entry for each four of points in lexicographic order. What an array is made of is looked at before the call: TypeError and ValueError say in words what is wrong. Everything
else is the kernel's to answer: a refusal is a value, `Refusal(number, text)`, not an exception.
"""
from __future__ import annotations

import ctypes
import dataclasses
import functools
import os
import pathlib
import threading
from typing import Any, Union

import numpy as np
from numpy.typing import ArrayLike, NDArray

from .faults import Fault

MOST_POINTS = 16
MOST_FOURS = 1820  # fours of 16 points
ANSWER_BYTES = 4 * MOST_FOURS
FURTHEST = 50_000  # coordinates from -50,000 to 50,000 (COTTONTUFF_FURTHEST)
UNMEASURED = -1
BARRED = 0
NO_FILLING = 15
OLDEST = '1.5.0'  # the first version whose coordinates reach 50,000

TEXTS = {
    1: 'the text is over 65,536 bytes, or not of the form',
    2: 'not 4 to 16 points, or a length that is no multiple of 3',
    3: 'a coordinate below -50,000 or above 50,000',
    4: 'two points in one place',
    5: 'not 4 to 560 triangles, or a length that is no multiple of 3',
    6: 'a triangle with an absent or repeated point',
    7: 'two triangles with the same three points',
    8: 'the boundary is open: a directed edge stands more or less often than its reverse',
    9: 'over 120 kept edges, or an odd length',
    10: 'a kept edge with an absent or repeated point',
    11: 'the table has not one entry for each four of points',
    12: 'an entry of the table below -1 or above 1,000,000',
    13: 'a solid four is unmeasured: its entry is -1, which does not bar it',
    14: 'the answer buffer is under 7,280 bytes',
    15: 'no lawful filling exists: proved, not given up',
    16: 'not twelve coordinates',
    22: 'over 560 inner triangles, or a length that is no multiple of 3',
    23: 'an inner triangle with an absent or repeated point',
}


@dataclasses.dataclass(frozen=True)
class Refusal:
    """A number of the kernel's, and what it means.

    >>> print(Refusal.of(15))
    15: no lawful filling exists: proved, not given up
    """

    number: int
    text: str

    @classmethod
    def of(cls, number: int) -> Refusal:
        """The refusal with this number.

        >>> Refusal.of(4).text
        'two points in one place'
        """
        return cls(number, TEXTS.get(number, f'number {number}'))

    def __str__(self) -> str:
        return f'{self.number}: {self.text}'


@dataclasses.dataclass(frozen=True)
class Filling:
    """The lawful filling of greatest worst quality, the first among equals: its fours of point numbers, and the worst quality in millionths."""

    tets: NDArray[np.uint8]
    worst: int


@dataclasses.dataclass(frozen=True)
class Verdict:
    """What the judge says of a list: law 0 and the worst quality, or the lowest law that is broken."""

    law: int
    worst: int


@dataclasses.dataclass(frozen=True)
class Measured:
    """D, S and the shape number of a tetrahedron, and its millionths, 0 where it is flat."""

    d: float
    s: float
    shape: float
    flat: bool
    millionths: int


class RawFound(ctypes.Structure):
    """cottontuff_found."""

    _fields_ = [('number', ctypes.c_uint32), ('count', ctypes.c_uint32), ('worst', ctypes.c_uint32)]
    number: int
    count: int
    worst: int


class RawVerdict(ctypes.Structure):
    """cottontuff_verdict."""

    _fields_ = [('number', ctypes.c_uint32), ('law', ctypes.c_uint32), ('worst', ctypes.c_uint32)]
    number: int
    law: int
    worst: int


class RawMeasured(ctypes.Structure):
    """cottontuff_measured."""

    _fields_ = [
        ('d', ctypes.c_double), ('s', ctypes.c_double), ('shape', ctypes.c_double),
        ('number', ctypes.c_uint32), ('flat', ctypes.c_uint32), ('millionths', ctypes.c_uint32),
    ]
    d: float
    s: float
    shape: float
    number: int
    flat: int
    millionths: int


_LIST = [ctypes.c_void_p, ctypes.c_size_t]
# Name, what it answers, how many lists it takes, the version that brought it.
_FUNCTIONS: list[tuple[str, Any, int, str]] = [
    ('cottontuff_measure', RawMeasured, 1, '1.0.0'),
    ('cottontuff_measure_table', ctypes.c_uint32, 2, '1.0.1'),
    ('cottontuff_check_inner', ctypes.c_uint32, 5, '1.1.0'),
    ('cottontuff_judge_inner', RawVerdict, 6, '1.1.0'),
    ('cottontuff_search_inner', RawFound, 6, '1.1.0'),
]


def _declare(loaded: ctypes.CDLL, path: str) -> None:
    """Declares the functions. A library that lacks one, or takes coordinates to 10,000 only, is of another version, which is said."""
    needed = f'this package needs version {OLDEST} or a newer 1.x'
    for name, answer, lists, since in _FUNCTIONS:
        function = getattr(loaded, name, None)
        if function is None:
            raise Fault(f'{path}: no Cottontuff library of a version that can be used: it lacks {name}, which came with {since}; {needed}')
        function.restype = answer
        function.argtypes = _LIST * lists
    corner = np.array([FURTHEST, 0, 0, 0, 1, 0, 0, 0, 1, 0, 0, 0], np.int32)
    if loaded.cottontuff_measure(corner.ctypes.data, 12).number != 0:
        raise Fault(f'{path}: this Cottontuff library is older than {OLDEST}: it refuses the coordinate {FURTHEST:,}; {needed}')


def _places() -> list[str]:
    """Where the library is looked for, in this order."""
    named = os.environ.get('COTTONTUFF_LIBRARY')
    if named:
        return [named]
    here = pathlib.Path(__file__).resolve().parent
    beside = [here / 'libcottontuff.so', here / 'libcottontuff.so.1']
    return [str(path) for path in beside if path.exists()] + ['libcottontuff.so.1', 'libcottontuff.so']


@functools.lru_cache(maxsize=1)
def library() -> ctypes.CDLL:
    """The shared library, loaded at the first call: the file that COTTONTUFF_LIBRARY names, else the one beside the package, else the loader's.

    >>> library().cottontuff_check_inner.restype.__name__
    'c_uint'
    """
    said = []
    for path in _places():
        try:
            loaded = ctypes.CDLL(path)
        except OSError as fault:
            said.append(str(fault))
            continue
        _declare(loaded, path)
        return loaded
    raise Fault(f'the library libcottontuff.so can\'t be loaded ({said[0]}): `make` builds it, and COTTONTUFF_LIBRARY names its file')


class _Buffers(threading.local):
    """Each thread has an answer buffer of its own."""

    def __init__(self) -> None:
        self.answer = np.zeros(ANSWER_BYTES, np.uint8)


_buffers = _Buffers()


def _whole(name: str, values: ArrayLike, width: int, kind: type[np.generic]) -> NDArray[Any]:
    """The values as the contiguous flat list that the C interface takes; TypeError and ValueError say what can't be."""
    array = np.asarray(values)
    if array.size == 0:
        return np.zeros(0, kind)
    if array.dtype.kind not in 'iu':
        raise TypeError(f'{name}: whole numbers are needed, not {array.dtype}')
    if array.ndim > 2 or array.ndim == 0 or (array.ndim == 2 and (width == 1 or array.shape[1] != width)):
        wanted = 'one number an entry' if width == 1 else f'rows of {width}, or one flat list'
        raise ValueError(f'{name}: {wanted}, not an array of shape {array.shape}')
    least, most = np.iinfo(kind).min, np.iinfo(kind).max  # type: ignore[type-var]
    if array.dtype != kind and (int(array.min()) < least or int(array.max()) > most):
        wrong = int(array.min()) if int(array.min()) < least else int(array.max())
        raise ValueError(f'{name}: {wrong} is not from {least} to {most}')
    return np.ascontiguousarray(array.reshape(-1), kind)


def _lists(points: ArrayLike, triangles: ArrayLike, kept: ArrayLike | None, inner: ArrayLike | None, table: ArrayLike) -> list[NDArray[Any]]:
    return [
        _whole('points', points, 3, np.int32), _whole('triangles', triangles, 3, np.uint8),
        _whole('kept', () if kept is None else kept, 2, np.uint8), _whole('inner', () if inner is None else inner, 3, np.uint8),
        _whole('table', table, 1, np.int32),
    ]


def _arguments(lists: list[NDArray[Any]]) -> list[int]:
    return [part for values in lists for part in (values.ctypes.data, values.size)]


def search(points: ArrayLike, triangles: ArrayLike, table: ArrayLike, *, kept: ArrayLike | None = None, inner: ArrayLike | None = None) -> Union[Filling, Refusal]:
    """The lawful filling whose worst quality is greatest, the first among equals, or why there is none.

    >>> b = case_b()
    >>> filling = search(*b)
    >>> filling.worst, filling.tets.tolist()
    (450000, [[0, 1, 3, 4], [0, 2, 3, 4], [1, 2, 3, 4]])
    >>> search(b[0], b[1], [0, 0, 0, 0, 0])
    Refusal(number=15, text='no lawful filling exists: proved, not given up')
    """
    lists = _lists(points, triangles, kept, inner, table)
    answer = _buffers.answer
    found = library().cottontuff_search_inner(*_arguments(lists), answer.ctypes.data, answer.size)
    if found.number:
        return Refusal.of(found.number)
    return Filling(answer[: 4 * found.count].reshape(-1, 4).copy(), found.worst)


def judge(
    points: ArrayLike, triangles: ArrayLike, table: ArrayLike, tets: ArrayLike, *, kept: ArrayLike | None = None, inner: ArrayLike | None = None
) -> Union[Verdict, Refusal]:
    """Which law a list of fours breaks, the lowest of them, or its worst quality.

    >>> judge(*case_b(), [[0, 1, 2, 3], [0, 1, 2, 4]])
    Verdict(law=0, worst=400000)
    >>> judge(*case_b(), [[0, 1, 2, 3]]).law
    4
    """
    lists = _lists(points, triangles, kept, inner, table) + [_whole('tets', tets, 4, np.uint8)]
    verdict = library().cottontuff_judge_inner(*_arguments(lists))
    return Refusal.of(verdict.number) if verdict.number else Verdict(verdict.law, verdict.worst)


def check(points: ArrayLike, triangles: ArrayLike, table: ArrayLike, *, kept: ArrayLike | None = None, inner: ArrayLike | None = None) -> Refusal | None:
    """The refusal of a job, or None: then the search answers a filling or 15.

    >>> print(check(*case_b()))
    None
    >>> print(check(case_b()[0], case_b()[1], [-1, 1, 1, 1, 1]))
    13: a solid four is unmeasured: its entry is -1, which does not bar it
    """
    lists = _lists(points, triangles, kept, inner, table)  # held by name: the call has their addresses only
    number = library().cottontuff_check_inner(*_arguments(lists))
    return Refusal.of(number) if number else None


def measure(corners: ArrayLike) -> Union[Measured, Refusal]:
    """D, S, shape number and millionths of a tetrahedron of whole-number corners.

    >>> measure([[0, 0, 0], [1, 0, 0], [0, 1, 0], [0, 0, 1]]).millionths
    592592
    """
    values = _whole('corners', corners, 3, np.int32)
    raw = library().cottontuff_measure(values.ctypes.data, values.size)
    return Refusal.of(raw.number) if raw.number else Measured(raw.d, raw.s, raw.shape, bool(raw.flat), raw.millionths)


def measure_table(points: ArrayLike, table: ArrayLike | None = None) -> Union[NDArray[np.int32], Refusal]:
    """The table with every -1 measured; flat fours stay -1. Without a table every four is measured. The array handed over stays as it is.

    >>> measure_table(case_b()[0]).tolist()[0]
    687924
    """
    values = _whole('points', points, 3, np.int32)
    count = values.size // 3
    fours = count * (count - 1) * (count - 2) * (count - 3) // 24
    given = _whole('table', table, 1, np.int32).copy() if table is not None else np.full(fours if count <= MOST_POINTS else 0, UNMEASURED, np.int32)
    number = library().cottontuff_measure_table(values.ctypes.data, values.size, given.ctypes.data, given.size)
    return Refusal.of(number) if number else given


def case_b() -> tuple[list[int], list[int], list[int]]:
    """Points, triangles and table of the papers' worked cavity.

    >>> len(case_b()[0]) // 3
    5
    """
    points = [0, 0, 0, 6, 0, 0, 0, 6, 0, 1, 1, 5, 1, 1, -5]
    triangles = [0, 1, 3, 1, 2, 3, 2, 0, 3, 1, 0, 4, 2, 1, 4, 0, 2, 4]
    return points, triangles, [500000, 400000, 450000, 450000, 460000]
