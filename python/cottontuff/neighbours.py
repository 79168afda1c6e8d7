"""Which tetrahedra lie side by side: what growth and exchange need to know of a mesh, worked out once from its arrays.

A face is passable where a cavity may grow over it: two tetrahedra of one region have it, from its two sides, and the file has no triangle there. Flat tetrahedra, and those that have a face on the
same side as another, are not touched: no cavity has them. Of the latter those are called turned whose corners stand the other way round than most of the file's.
"""
from __future__ import annotations

import dataclasses

import numpy as np
from numpy.typing import NDArray

from . import exact
from .helper import address, usable
from .measures import Floats, Ints
from .mesh import OPPOSITE, Mesh

# With D positive face i of an ascending four, opposite corner i, looks outward in ascending order for even i, reversed for odd.
DIRECTION = (1, -1, 1, -1)
SOUND, FLAT, TURNED, OVERLAPPING, EMPTY = 0, 1, 2, 3, 4
KINDS = {FLAT: 'flat', TURNED: 'turned', OVERLAPPING: 'overlapping'}
Flags = NDArray[np.int8]


@dataclasses.dataclass
class Neighbours:
    """A mesh for growth. Corners stand ascending; sign is that of D in this order, exact; beside has the tetrahedron over each face, or -1 where none can be passed to."""

    points: Floats
    corners: Ints
    sign: Flags
    region: Ints
    beside: Ints
    kind: Flags
    lines: Ints
    shut: Ints  # the file's triangles, ascending: no cavity grows over them
    handed: int  # 1 where most of the file's tetrahedra have D > 0 as they stand there, else -1

    def untouched(self) -> dict[str, list[int]]:
        """Which tetrahedra are not touched, by what is wrong with them.

        >>> two = Mesh(np.array([[0., 0, 0], [1, 0, 0], [0, 1, 0], [1, 1, 0], [0, 0, 1]]), np.array([[0, 1, 2, 3], [0, 1, 2, 4]]), np.array([1, 1]))
        >>> neighbours(two).untouched()
        {'flat': [0], 'turned': [], 'overlapping': []}
        """
        return {name: np.flatnonzero(self.kind == kind).tolist() for kind, name in KINDS.items()}


def face_keys(faces: Ints, points: int) -> Ints:
    """One number for each triangle of ascending point numbers.

    >>> face_keys(np.array([[0, 1, 2], [0, 1, 3]]), 10).tolist()
    [12, 13]
    """
    if points < 2_000_000:  # three numbers below that fit into 63 bits
        keys: Ints = (faces[:, 0] * points + faces[:, 1]) * points + faces[:, 2]
        return keys
    _, inverse = np.unique(faces, axis=0, return_inverse=True)
    return inverse.reshape(-1).astype(np.int64)


def parity(tets: Ints) -> Flags:
    """1 for rows that an even number of exchanges sorts, -1 for the others.

    >>> parity(np.array([[0, 1, 2, 3], [1, 0, 2, 3], [3, 2, 1, 0]])).tolist()
    [1, -1, 1]
    """
    odd = np.zeros(len(tets), np.int64)
    for i in range(4):
        for j in range(i):
            odd += tets[:, j] > tets[:, i]
    signs: Flags = (1 - 2 * (odd % 2)).astype(np.int8)
    return signs


def ascending_corners(tets: Ints) -> tuple[Ints, Flags]:
    """The corners of each tetrahedron in ascending order, and the parity of the order in which they came; by the helper where there is one.

    >>> [array.tolist() for array in ascending_corners(np.array([[2, 0, 1, 3]]))]
    [[[0, 1, 2, 3]], [1]]
    """
    loaded = usable()
    if loaded is None:
        return np.sort(tets, axis=1), parity(tets)
    given = np.ascontiguousarray(tets, np.int64)
    corners, signs = np.empty_like(given), np.empty(len(given), np.int8)
    loaded.helper_corners(address(given), len(given), address(corners), address(signs))
    return corners, signs


def region_numbers(regions: Ints) -> Ints:
    """The regions numbered from 0, ascending.

    >>> region_numbers(np.array([7, 5, 7])).tolist()
    [1, 0, 1]
    """
    if len(regions) and (regions == regions[0]).all():
        return np.zeros(len(regions), np.int64)
    return np.unique(regions, return_inverse=True)[1].astype(np.int64)


def _all_faces(corners: Ints) -> Ints:
    return np.concatenate([corners[:, list(face)] for face in OPPOSITE])


def _kinds(sign: Flags, keys: Ints, order: Ints, against: NDArray[np.bool_]) -> Flags:
    """What is wrong with each tetrahedron: flat, or a face that another has on the same side. order sorts the keys."""
    count = len(sign)
    kind = np.where(sign == 0, FLAT, SOUND).astype(np.int8)
    direction = np.concatenate([sign * way for way in DIRECTION])[order]
    new = np.append(True, keys[order[1:]] != keys[order[:-1]]) if len(order) else np.zeros(0, bool)
    group = np.cumsum(new) - 1
    same_side = np.where(direction > 0, np.bincount(group, direction > 0)[group], np.bincount(group, direction < 0)[group])
    doubled = np.unique(order[(direction != 0) & (same_side > 1)] % count)
    kind[doubled] = np.where(against[doubled], TURNED, OVERLAPPING)
    return kind


def _beside(kind: Flags, region: Ints, keys: Ints, order: Ints, tagged: Ints) -> Ints:
    """For each tetrahedron and each of its faces the tetrahedron that a cavity may grow to, or -1. order sorts the keys. What is not touched keeps its faces: they can't be passed either."""
    count = len(kind)
    still = (kind != SOUND) & (kind != EMPTY)
    if still.any():
        tagged = np.union1d(tagged, keys.reshape(4, count)[:, still].ravel())
    beside = np.full(4 * count, -1, np.int64)
    order = order[kind[order % count] == SOUND]
    first, second = order[:-1], order[1:]
    pairs = (keys[first] == keys[second]) & (region[first % count] == region[second % count])
    first, second = first[pairs], second[pairs]
    if len(tagged):
        place = np.minimum(np.searchsorted(tagged, keys[first]), len(tagged) - 1)
        free = tagged[place] != keys[first]
        first, second = first[free], second[free]
    beside[first], beside[second] = second % count, first % count
    return np.ascontiguousarray(beside.reshape(4, count).T)


def neighbours(mesh: Mesh) -> Neighbours:
    """The neighbours of a mesh's tetrahedra.

    >>> two = Mesh(np.array([[0., 0, 0], [1, 0, 0], [0, 1, 0], [0, 0, 1], [0, 0, -1]]), np.array([[0, 1, 2, 3], [0, 2, 1, 4]]), np.array([7, 7]))
    >>> neighbours(two).beside.tolist()
    [[-1, -1, -1, 1], [-1, -1, -1, 0]]
    """
    corners, turned = ascending_corners(mesh.tets)
    sign = exact.signs(mesh.points, corners)
    in_file = sign * turned
    handed = 1 if int((in_file > 0).sum()) >= int((in_file < 0).sum()) else -1
    region = region_numbers(mesh.regions)
    shut = np.sort(mesh.faces, axis=1).reshape(-1, 3)
    kind, beside = joined(corners, region, np.where(sign == 0, FLAT, SOUND).astype(np.int8), shut, len(mesh.points), (sign, in_file == -handed))
    lines = np.unique(np.sort(mesh.lines, axis=1), axis=0).reshape(-1, 2).astype(np.int64)
    return Neighbours(mesh.points, corners, sign, region, beside, kind, lines, shut, handed)


def joined(corners: Ints, region: Ints, kind: Flags, shut: Ints, points: int, looked: tuple[Flags, NDArray[np.bool_]] | None = None) -> tuple[Flags, Ints]:
    """The kinds of tetrahedra, and what lies beside each of their faces; by the helper where there is one. looked has the signs, and which stand the other way round than most, where those that
    overlap are to be found.

    >>> joined(np.array([[0, 1, 2, 3], [0, 1, 2, 4]]), np.array([7, 7]), np.zeros(2, np.int8), np.zeros((0, 3), np.int64), 5)[1].tolist()
    [[-1, -1, -1, 1], [-1, -1, -1, 0]]
    """
    loaded, count = usable(), len(corners)
    if loaded is None or max(points, 4 * count) >= 2**31:
        own, order, tagged = _keys(corners, shut, points)
        kind = kind if looked is None else _kinds(looked[0], own, order, looked[1])
        return kind, _beside(kind, region, own, order, tagged)
    given = [np.ascontiguousarray(array) for array in (corners, region, shut, *(looked or ()))]
    signs, against = (address(given[3]), address(given[4])) if looked is not None else (None, None)
    found, beside = kind.copy(), np.empty((count, 4), np.int64)
    bits = max(count.bit_length() - 1, 1)
    ends, sides = np.empty(1 << bits, np.int64), np.empty((4 * count + len(shut), 4), np.int32)
    loaded.helper_beside(address(given[0]), count, address(given[1]), address(given[2]), len(shut), bits, signs, against, address(found), address(beside), address(ends), address(sides))
    return found, beside


def _keys(corners: Ints, shut: Ints, points: int) -> tuple[Ints, Ints, Ints]:
    """The keys of all faces, the order that sorts them, and the keys of the triangles that can't be passed."""
    keys = face_keys(np.concatenate([_all_faces(corners), shut]), points)
    own = keys[: 4 * len(corners)]
    return own, np.argsort(own, kind='stable'), np.unique(keys[4 * len(corners):])
