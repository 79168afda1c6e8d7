"""Cavities of a mesh: growth, the job for the kernel, the look at a filling in the file's own doubles, the exchange.

This is the plain form, in Python and numpy. `fast` does the same over the helper in C and is tested against it; with COTTONTUFF_PURE=1 this one is used throughout.
"""
from __future__ import annotations

import dataclasses
import functools
from itertools import combinations
from typing import Iterable, Sequence, Union

import numpy as np
from numpy.typing import NDArray

from . import exact
from .kernel import FURTHEST, MOST_POINTS
from .measures import Floats, Ints, MeasureName, millionths, named, six_volumes
from .mesh import OPPOSITE
from .neighbours import DIRECTION, EMPTY, Neighbours

Four = tuple[int, int, int, int]
Triangle = tuple[int, int, int]
MOST_TETS = 512  # as in helper/helper.h; a mesh has far fewer on 16 points


@dataclasses.dataclass(frozen=True)
class Options:
    """How cavities are measured. limit: how far the rounded points reach; ranked: the table has ranks of the doubles instead of millionths."""

    measure: MeasureName = 'shape'
    ranked: bool = False
    limit: int = FURTHEST

    def values(self, corners: Floats) -> Floats:
        """The measure as the queue has it: whole millionths, or a million times the double where ranks are used.

        >>> Options().values(np.array([[[0, 0, 0], [1, 0, 0], [0, 1, 0], [0, 0, 1]]], float))
        array([592592.])
        """
        found = np.asarray(named(self.measure)(corners), np.float64)
        if found.shape != (len(corners),):
            raise ValueError(f'the measure gives an array of shape {found.shape} for {len(corners)} tetrahedra: one number for each is needed')
        if self.ranked:
            with np.errstate(over='ignore', invalid='ignore'):
                scaled: Floats = np.nan_to_num(found * 1e6, nan=0.0, posinf=0.0, neginf=0.0)
            return scaled
        return millionths(found).astype(np.float64)


@functools.lru_cache(maxsize=None)
def fours(points: int) -> Ints:
    """The fours of so many points, in lexicographic order.

    >>> fours(5).tolist()
    [[0, 1, 2, 3], [0, 1, 2, 4], [0, 1, 3, 4], [0, 2, 3, 4], [1, 2, 3, 4]]
    """
    return np.array(list(combinations(range(points), 4)), np.int64).reshape(-1, 4)


@functools.lru_cache(maxsize=None)
def places(points: int) -> dict[Four, int]:
    """The place of each four in the table.

    >>> places(5)[1, 2, 3, 4]
    4
    """
    return {(a, b, c, d): place for place, (a, b, c, d) in enumerate(fours(points).tolist())}


class Tetrahedra:
    """A mesh whose cavities are opened and exchanged. Slots are numbered as the file's tetrahedra; an exchange uses the slots of the cavity, then new ones at the end.

    >>> two = Tetrahedra.of(two_beside())
    >>> cavity = grow(two.open(0))
    >>> cavity.tets, cavity.points
    ((0, 1), (0, 1, 2, 3, 4))
    """

    def __init__(self, of: Neighbours, options: Options) -> None:
        self.points, self.options = of.points, options
        self.corners: list[Four | None] = [None if kind == EMPTY else (a, b, c, d) for kind, (a, b, c, d) in zip(of.kind.tolist(), of.corners.tolist())]
        self.sign: list[int] = np.where(of.kind == 0, of.sign, 0).tolist()
        self.region: list[int] = of.region.tolist()
        self.beside: list[list[int]] = of.beside.tolist()
        there, quality = of.kind != EMPTY, np.zeros(len(of.corners))
        quality[there] = options.values(of.points[of.corners[there]])
        self.quality: list[float] = quality.tolist()
        self.lines: set[tuple[int, int]] = {(a, b) for a, b in of.lines.tolist()}
        self.at: list[set[int]] = []
        self.enter()

    def enter(self) -> None:
        """Enters every slot that may be touched at its points."""
        self.at = [set() for _ in range(len(self.points))]
        for slot, four in enumerate(self.corners):
            if four is not None and self.sign[slot]:
                for point in four:
                    self.at[point].add(slot)

    @classmethod
    def of(cls, of: Neighbours, options: Options = Options()) -> Tetrahedra:
        """The mesh of these neighbours, measured.

        >>> Tetrahedra.of(two_beside()).quality
        [592592.0, 592592.0]
        """
        return cls(of, options)

    def four(self, slot: int) -> Four:
        """The corners of the tetrahedron in a slot.

        >>> Tetrahedra.of(two_beside()).four(1)
        (0, 1, 2, 4)
        """
        four = self.corners[slot]
        if four is None:
            raise ValueError(f'slot {slot} is empty')
        return four

    def open(self, slot: int) -> Cavity:
        """The cavity of one tetrahedron.

        >>> Tetrahedra.of(two_beside()).open(1).points
        (0, 1, 2, 4)
        """
        return Cavity(self, (slot,), self.four(slot))


@dataclasses.dataclass(frozen=True)
class Cavity:
    """Tetrahedra of one region, and all their points; slots and points ascend."""

    mesh: Tetrahedra
    tets: tuple[int, ...]
    points: tuple[int, ...]


def two_beside() -> Neighbours:
    """Two tetrahedra with a face in common, for examples.

    >>> two_beside().beside.tolist()
    [[-1, -1, -1, 1], [-1, -1, -1, 0]]
    """
    points = np.array([[0.0, 0, 0], [1, 0, 0], [0, 1, 0], [0, 0, 1], [0, 0, -1]])
    sign = np.array([1, -1], np.int8)
    beside = np.array([[-1, -1, -1, 1], [-1, -1, -1, 0]])
    return Neighbours(points, np.array([[0, 1, 2, 3], [0, 1, 2, 4]]), sign, np.zeros(2, np.int64), beside, np.zeros(2, np.int8), np.zeros((0, 2), np.int64), np.zeros((0, 3), np.int64), 1)


def grow(cavity: Cavity) -> Cavity | None:
    """Document 01's rule, within a region: of the points of the tetrahedra around the cavity, over faces that can be passed, the one that most of them meet joins it; then the one whose
    tetrahedra have the lowest sum of qualities; then the one of lowest number; and with it every tetrahedron of the region that has four corners in the cavity. None where nothing is around it.

    >>> grow(Tetrahedra.of(two_beside()).open(0)).points
    (0, 1, 2, 3, 4)
    """
    mesh, inside, points = cavity.mesh, set(cavity.tets), set(cavity.points)
    around = {x for slot in cavity.tets for x in mesh.beside[slot] if x >= 0 and x not in inside}
    met: dict[int, list[float]] = {}
    for x in sorted(around):
        for point in mesh.four(x):
            if point not in points:
                count = met.setdefault(point, [0, 0.0])
                count[0] -= 1
                count[1] += mesh.quality[x]
    if not met:
        return None
    joins = min(met, key=lambda point: (met[point][0], met[point][1], point))
    points.add(joins)
    region = mesh.region[cavity.tets[0]]
    inside |= {x for x in mesh.at[joins] if mesh.region[x] == region and points.issuperset(mesh.four(x))}
    return Cavity(mesh, tuple(sorted(inside)), tuple(sorted(points)))


def scale(points: Floats, limit: int = FURTHEST) -> NDArray[np.int32]:
    """The points rounded to whole numbers from -limit to limit, the box's longest side from end to end.

    >>> scale(np.array([[0, 0, 0], [1, 0, 0], [0, .5, 0], [0, 0, .1]]), 100).tolist()
    [[-100, -50, -10], [100, -50, -10], [-100, 50, -10], [-100, -50, 10]]
    """
    low, high = points.min(0), points.max(0)
    with np.errstate(all='ignore'):
        # Without the middle of the box, which far from the origin is no double.
        rounded = np.rint(((points - low) - (high - points)) * (limit / (high - low).max()))
    whole: NDArray[np.int32] = np.clip(np.nan_to_num(rounded), -limit, limit).astype(np.int32)
    return whole


@dataclasses.dataclass
class Job:
    """A cavity's job for the kernel. full is the table before what can't help is barred, table after it; own has the cavity's tetrahedra as fours; sign and rounded are the signs of D in the
    file's doubles and on the rounded points; value the measure of each four. own_allowed: rounding turned none of the cavity's own; agrees: none of the fours that are solid in the doubles and better
    than its worst."""

    points: Ints
    xyz: Floats
    coordinates: NDArray[np.int32]
    triangles: NDArray[np.uint8]
    kept: NDArray[np.uint8]
    inner: NDArray[np.uint8]
    full: NDArray[np.int32]
    table: NDArray[np.int32]
    sign: NDArray[np.int8]
    rounded: NDArray[np.int8]
    value: Floats
    own: NDArray[np.uint8]
    worst: float
    worst_entry: int
    own_allowed: bool
    agrees: bool
    exact_signs: int


def outward(four: Four, sign: int) -> Iterable[tuple[Triangle, int]]:
    """The faces of an ascending four with the sign of its D: each ascending, with 1 where it looks outward so, else -1.

    >>> list(outward((0, 1, 2, 3), 1))
    [((1, 2, 3), 1), ((0, 2, 3), -1), ((0, 1, 3), 1), ((0, 1, 2), -1)]
    """
    return [((four[a], four[b], four[c]), way * sign) for (a, b, c), way in zip(OPPOSITE, DIRECTION)]


def _faces(cavity: Cavity, local: dict[int, int]) -> tuple[list[Triangle], list[Triangle]]:
    """The boundary triangles, looking outward, and the triangles inside that can't be passed, both in ascending order."""
    seen: dict[Triangle, tuple[int, int, bool]] = {}
    mesh = cavity.mesh
    for slot in cavity.tets:
        a, b, c, d = mesh.four(slot)
        for i, (face, way) in enumerate(outward((local[a], local[b], local[c], local[d]), mesh.sign[slot])):
            count = seen[face][0] if face in seen else 0
            seen[face] = (count + 1, way, mesh.beside[slot][i] < 0)
    boundary = [face if way > 0 else (face[0], face[2], face[1]) for face, (count, way, _) in sorted(seen.items()) if count == 1]
    return boundary, [face for face, (count, _, shut) in sorted(seen.items()) if count == 2 and shut]


def _kept(cavity: Cavity, local: dict[int, int], boundary: list[Triangle]) -> list[tuple[int, int]]:
    """The lines that are edges of the cavity's tetrahedra but of no boundary triangle, which stays anyway."""
    if not cavity.mesh.lines:
        return []
    edges = {edge for slot in cavity.tets for edge in combinations(cavity.mesh.four(slot), 2)} & cavity.mesh.lines
    outside = {tuple(sorted(edge)) for face in boundary for edge in combinations(face, 2)}
    return [edge for edge in sorted((local[a], local[b]) for a, b in edges) if edge not in outside]


def _ranks(value: Floats, allowed: NDArray[np.bool_]) -> NDArray[np.int32]:
    entries = np.zeros(len(value), np.int32)
    entries[allowed] = np.unique(value[allowed], return_inverse=True)[1] + 1
    return entries


def _tables(job: Job, ranked: bool) -> None:
    """Fills in the tables and what follows from them: -1 where flat on the rounded points, 0 where rounding turned or opened a four, and then where it can't better the cavity."""
    allowed = (job.rounded != 0) & (job.sign == job.rounded)
    entries = _ranks(job.value, allowed) if ranked else job.value.astype(np.int32)
    job.full = np.where(job.rounded == 0, -1, np.where(allowed, entries, 0)).astype(np.int32)
    own = [places(len(job.points))[a, b, c, d] for a, b, c, d in job.own.tolist()]
    job.worst, job.worst_entry = float(job.value[own].min()), int(job.full[own].min())
    job.own_allowed = bool((job.full[own] > 0).all())
    job.agrees = not bool(((job.sign != 0) & (job.sign != job.rounded) & (job.value > job.worst)).any())
    job.table = np.where((job.full > 0) & (job.full <= job.worst_entry), 0, job.full).astype(np.int32)


def _rows(rows: Sequence[tuple[int, ...]], width: int) -> NDArray[np.uint8]:
    return np.array(rows, np.uint8).reshape(-1, width)


def job(cavity: Cavity) -> Job:
    """The job of a cavity: its points rounded, its boundary, the lines and triangles inside that stay, and the table.

    >>> made = job(grow(Tetrahedra.of(two_beside()).open(0)))
    >>> made.full.tolist(), made.table.tolist(), made.worst_entry
    ([592592, 592592, -1, -1, 629737], [0, 0, -1, -1, 629737], 592592)
    """
    mesh, n = cavity.mesh, len(cavity.points)
    points = np.array(cavity.points, np.int64)
    local = {point: i for i, point in enumerate(cavity.points)}
    xyz = mesh.points[points]
    coordinates = scale(xyz, mesh.options.limit)
    boundary, inner = _faces(cavity, local)
    own = sorted(tuple(local[point] for point in mesh.four(slot)) for slot in cavity.tets)
    every = fours(n)
    # On whole numbers to 50,000 every sum and product of D is below 2^53, so the doubles are exact.
    rounded = np.sign(six_volumes(coordinates.astype(np.float64)[every])).astype(np.int8)
    sign, exact_signs = exact.counted_signs(xyz, every)
    none = np.zeros(0, np.int32)
    made = Job(
        points, xyz, coordinates, _rows(boundary, 3), _rows(_kept(cavity, local, boundary), 2), _rows(inner, 3), none, none,
        sign, rounded, mesh.options.values(xyz[every]), _rows(own, 4), 0.0, 0, False, False, exact_signs,
    )
    _tables(made, mesh.options.ranked)
    return made


def recheck(of: Union[Cavity, Job], filling: NDArray[np.uint8]) -> bool:
    """Looks at a filling in the file's own doubles, without rounding: every four has D > 0 in the order read, the outward faces, pairs cancelled, are the cavity's boundary triangles, every point
    is a corner, and the sum of D is the cavity's. From the first three it follows that it fills the same space, and that the mesh fits together as before (docs/CARRYING.md).

    >>> cavity = grow(Tetrahedra.of(two_beside()).open(0))
    >>> recheck(cavity, job(cavity).own), recheck(cavity, job(cavity).own[:1])
    (True, False)
    """
    made = job(of) if isinstance(of, Cavity) else of
    n, faces = len(made.points), {}
    for a, b, c, d in filling.tolist():
        if not a < b < c < d < n:
            return False
        for face, way in outward((a, b, c, d), int(made.sign[places(n)[a, b, c, d]])):
            if way == 0 or (face, way) in faces:
                return False
            faces[face, way] = 1
    single = {(face, way) for face, way in faces if (face, -way) not in faces}
    wanted = {((a, b, c), 1) if b < c else ((a, c, b), -1) for a, b, c in made.triangles.tolist()}
    return single == wanted and len(np.unique(filling)) == n and _six_volumes(made, filling) == _six_volumes(made, made.own)


def _six_volumes(job: Job, filling: NDArray[np.uint8]) -> int:
    whole, _ = exact.whole_numbers(job.xyz)
    return sum(abs(exact.six_volume(whole, (a, b, c, d))) for a, b, c, d in filling.tolist())


def exchange(cavity: Cavity, job: Job, filling: NDArray[np.uint8]) -> list[int]:
    """Puts a filling in the cavity's place; the slots where it stands.

    >>> cavity = grow(Tetrahedra.of(two_beside()).open(0))
    >>> exchange(cavity, job(cavity), job(cavity).own)
    [0, 1]
    """
    mesh, n = cavity.mesh, len(cavity.points)
    inside, region = set(cavity.tets), mesh.region[cavity.tets[0]]
    over: dict[tuple[int, ...], int] = {face: x for slot in cavity.tets for face, x in zip(combinations(mesh.four(slot), 3), reversed(mesh.beside[slot])) if x not in inside}
    shut = {tuple(job.points[list(face)].tolist()) for face in job.inner.tolist()}
    for slot in cavity.tets:
        for point in mesh.four(slot):
            mesh.at[point].discard(slot)
        mesh.corners[slot], mesh.sign[slot] = None, 0
    extra = max(0, len(filling) - len(cavity.tets))
    first = len(mesh.corners)
    for part, empty in ((mesh.corners, None), (mesh.sign, 0), (mesh.region, region), (mesh.quality, 0.0)):
        part.extend([empty] * extra)  # type: ignore[attr-defined]
    mesh.beside.extend([-1, -1, -1, -1] for _ in range(extra))
    fresh = (list(cavity.tets) + list(range(first, first + extra)))[: len(filling)]
    for slot, (a, b, c, d) in zip(fresh, filling.tolist()):
        place = places(n)[a, b, c, d]
        four = (cavity.points[a], cavity.points[b], cavity.points[c], cavity.points[d])
        mesh.corners[slot], mesh.sign[slot], mesh.quality[slot] = four, int(job.sign[place]), float(job.value[place])
        for point in four:
            mesh.at[point].add(slot)
    _join(mesh, fresh, over, shut)
    return fresh


def _join(mesh: Tetrahedra, fresh: list[int], over: dict[tuple[int, ...], int], shut: set[tuple[int, ...]]) -> None:
    """Joins the faces of new tetrahedra to each other, and to those outside that were over the cavity's faces."""
    first: dict[tuple[int, ...], tuple[int, int]] = {}
    for slot in fresh:
        mesh.beside[slot] = [-1, -1, -1, -1]
        for i, kept in enumerate(OPPOSITE):
            face = tuple(mesh.four(slot)[k] for k in kept)
            outside = over.get(face, -1)
            if face in first and face not in shut:
                other, j = first[face]
                mesh.beside[slot][i], mesh.beside[other][j] = other, slot
            elif outside >= 0:
                mesh.beside[slot][i] = outside
                corner = next(k for k, point in enumerate(mesh.four(outside)) if point not in face)
                mesh.beside[outside][corner] = slot
            first.setdefault(face, (slot, i))


def grown(mesh: Tetrahedra, slot: int, size: int = MOST_POINTS) -> Cavity:
    """The cavity of a tetrahedron, grown to so many points or as far as it goes.

    >>> len(grown(Tetrahedra.of(two_beside()), 0).points)
    5
    """
    cavity = mesh.open(slot)
    while len(cavity.points) < size:
        larger = grow(cavity)
        if larger is None or len(larger.tets) > MOST_TETS:
            break
        cavity = larger
    return cavity
