#!/usr/bin/python3
"""An independent look at a mesh file and the bettered one: what has to stay has stayed, exactly. Shares no code with the package.

    tests/python/validate.py IN OUT     one line for each check; ends with 0 if all is well, else with 1

Coordinates are taken as the whole numbers over one power of two that they are, so signs and volumes are exact. All of the files' triangles and lines count as tagged.
"""
from __future__ import annotations

import collections
import contextlib
import io
import os
import sys
from fractions import Fraction
from typing import Any, Callable, NamedTuple, Union

import meshio
import numpy as np

Path = Union[str, 'os.PathLike[str]']
REGION_KEYS = ('gmsh:physical', 'gmsh:geometrical', 'medit:ref', 'tetgen:ref')
# Outward, where D is above 0.
FACES = ((0, 2, 1), (0, 1, 3), (0, 3, 2), (1, 2, 3))
EDGES = ((0, 1), (0, 2), (0, 3), (1, 2), (1, 3), (2, 3))
MOST_POINTS = 2**21  # a face's three numbers fit one whole number of 63 bits


class Content(NamedTuple):
    """What a file has, as it is compared.

    whole: coordinates as whole numbers over `unit`; tets: corners in the file's order; d: six times the volume in units of 1/unit^3, signed; upright: the tetrahedra with two corners exchanged
    where d is below 0; regions: for each key of REGION_KEYS that the file has, a number for each tetrahedron; cells: all cells but the tetrahedra, with all their data.
    """

    mesh: Any
    unit: int
    tets: np.ndarray
    d: np.ndarray
    upright: np.ndarray
    regions: dict[str, np.ndarray]
    cells: collections.Counter[tuple[Any, ...]]


def _whole(points: np.ndarray) -> tuple[np.ndarray, int]:
    """The coordinates as Python's whole numbers over one power of two, and that power."""
    ratios = [x.as_integer_ratio() for x in points.ravel().tolist()]
    unit = max((below for _, below in ratios), default=1)
    whole = np.empty(len(ratios), object)
    whole[:] = [above * (unit // below) for above, below in ratios]
    return whole.reshape(points.shape), unit


def _exact_d(whole: np.ndarray, tets: np.ndarray) -> np.ndarray:
    a = whole[tets[:, 0]]
    (ux, uy, uz), (vx, vy, vz), (wx, wy, wz) = ((whole[tets[:, i]] - a).T for i in (1, 2, 3))
    d: np.ndarray = ux * (vy * wz - vz * wy) + uy * (vz * wx - vx * wz) + uz * (vx * wy - vy * wx)
    return d


def _other_cells(mesh: Any) -> collections.Counter[tuple[Any, ...]]:
    """Each cell that is no tetrahedron: kind, corners in order, its row of each kind of data."""
    found: collections.Counter[tuple[Any, ...]] = collections.Counter()
    for i, block in enumerate(mesh.cells):
        if block.type != 'tetra':
            columns = [[(key, row) for row in np.asarray(rows[i]).tolist()] for key, rows in sorted(mesh.cell_data.items())]
            found.update((block.type, tuple(corners), *map(repr, data)) for corners, *data in zip(block.data.tolist(), *columns))
    return found


def read(path: Path) -> Content:
    """The file's content. ValueError where it has no tetrahedra, a corner that is no point, or more points than can be told apart here."""
    with contextlib.redirect_stdout(io.StringIO()):  # meshio prints empty lines for a file of gmsh
        mesh = meshio.read(path)
    if len(mesh.points) >= MOST_POINTS:
        raise ValueError(f'{path}: more than {MOST_POINTS - 1} points')
    which = [i for i, block in enumerate(mesh.cells) if block.type == 'tetra']
    if not which:
        raise ValueError(f'{path}: no tetrahedra')
    tets = np.concatenate([mesh.cells[i].data for i in which]).astype(np.int64)
    if tets.size and (tets.min() < 0 or tets.max() >= len(mesh.points)):
        raise ValueError(f'{path}: a corner of a tetrahedron is no point')
    regions = {key: np.concatenate([mesh.cell_data[key][i] for i in which]) for key in REGION_KEYS if key in mesh.cell_data}
    whole, unit = _whole(np.asarray(mesh.points, float))
    d = _exact_d(whole, tets)
    upright = np.where((d < 0)[:, None], tets[:, [1, 0, 2, 3]], tets)
    return Content(mesh, unit, tets, d, upright, regions or {'no key': np.zeros(len(tets), int)}, _other_cells(mesh))


def _directed(corners: np.ndarray) -> tuple[np.ndarray, np.ndarray]:
    """For each triangle a number that stands for its corners in ascending order, and 1 or -1 for its direction."""
    a, b, c = corners.T
    direction = np.where((a < b) ^ (b < c) ^ (a < c), 1, -1)
    a, b, c = np.sort(corners, axis=1).T
    return (a * MOST_POINTS + b) * MOST_POINTS + c, direction


def _faces(tets: np.ndarray) -> np.ndarray:
    return np.concatenate([tets[:, list(face)] for face in FACES])


def _pairs(corners: np.ndarray) -> np.ndarray:
    low, high = np.sort(corners, axis=1).T
    number: np.ndarray = low * MOST_POINTS + high
    return number


def _triangle(key: int) -> tuple[int, int, int]:
    rest, c = divmod(int(key), MOST_POINTS)
    return rest // MOST_POINTS, rest % MOST_POINTS, c


def _boundary(content: Content, region: np.ndarray) -> dict[int, int]:
    """The faces of a region that are not between two of its tetrahedra, with the direction: how often one way less how often the other."""
    keys, directions = _directed(_faces(content.upright[region]))
    faces, at = np.unique(keys, return_inverse=True)
    sums = np.bincount(at, directions, len(faces)).astype(int)
    return dict(zip(faces[sums != 0].tolist(), sums[sums != 0].tolist()))


def _each_region(a: Content, b: Content, compare: Callable[[str, np.ndarray, np.ndarray], str]) -> str:
    """Compares region by region, for each key that tells regions apart; the first difference."""
    if sorted(a.regions) != sorted(b.regions):
        return f'regions are told apart by {sorted(a.regions)} and by {sorted(b.regions)}'
    for key in a.regions:
        for tag in sorted({*a.regions[key].tolist(), *b.regions[key].tolist()}):
            wrong = compare(f'{key} {tag}', a.regions[key] == tag, b.regions[key] == tag)
            if wrong:
                return wrong
    return ''


def points(a: Content, b: Content) -> str:
    """the points are the same doubles"""
    if a.mesh.points.shape != b.mesh.points.shape or a.mesh.points.dtype != b.mesh.points.dtype:
        return f'{a.mesh.points.shape} {a.mesh.points.dtype} and {b.mesh.points.shape} {b.mesh.points.dtype}'
    # Bytes, so that -0.0 is not 0.0.
    one, two = (np.ascontiguousarray(x.mesh.points).view(np.uint8) for x in (a, b))
    moved = np.flatnonzero((one != two).any(axis=1))
    return f'{len(moved)} moved, the first is point {moved[0]}: {a.mesh.points[moved[0]].tolist()} to {b.mesh.points[moved[0]].tolist()}' if len(moved) else ''


def point_data(a: Content, b: Content) -> str:
    """the data at the points are the same"""
    for key, values in a.mesh.point_data.items():
        if key not in b.mesh.point_data:
            if key != 'gmsh:dim_tags':  # of version 4.1 only; a file of another kind can't have them
                return f'{key} is lost'
        elif not np.array_equal(values, b.mesh.point_data[key]) and values.tobytes() != b.mesh.point_data[key].tobytes():  # bytes for what is no number
            return f'{key} is another'
    return ''


def names(a: Content, b: Content) -> str:
    """the names of groups are the same"""
    one, two = ({name: tuple(np.asarray(value).tolist()) for name, value in x.mesh.field_data.items()} for x in (a, b))
    return '' if one == two else f'{one} and {two}'


def _compare_cells(a: Content, b: Content, wanted: Callable[[str], bool]) -> str:
    lost = [cell for cell in (a.cells - b.cells) if wanted(cell[0])]
    new = [cell for cell in (b.cells - a.cells) if wanted(cell[0])]
    example = f', the first is {(lost + new)[0]}' if lost or new else ''
    return f'{len(lost)} lost, {len(new)} new{example}' if example else ''


def triangles(a: Content, b: Content) -> str:
    """the triangles are the same, with direction and tags"""
    return _compare_cells(a, b, lambda kind: kind == 'triangle')


def lines(a: Content, b: Content) -> str:
    """the lines are the same, with direction and tags"""
    return _compare_cells(a, b, lambda kind: kind == 'line')


def other_cells(a: Content, b: Content) -> str:
    """the other cells are the same, with tags"""
    return _compare_cells(a, b, lambda kind: kind not in ('triangle', 'line'))


def boundaries(a: Content, b: Content) -> str:
    """each region has the same boundary faces, with direction"""

    def compare(name: str, in_a: np.ndarray, in_b: np.ndarray) -> str:
        one, two = _boundary(a, in_a), _boundary(b, in_b)
        wrong = sorted(face for face in {*one, *two} if one.get(face) != two.get(face))
        return f'{name}: {len(one)} faces and {len(two)}, {len(wrong)} differ, the first is {_triangle(wrong[0])}' if wrong else ''

    return _each_region(a, b, compare)


def volumes(a: Content, b: Content) -> str:
    """each region has the same volume, exactly"""

    def compare(name: str, in_a: np.ndarray, in_b: np.ndarray) -> str:
        one, two = (Fraction(sum(abs(d) for d in x.d[region]), 6 * x.unit**3) for x, region in ((a, in_a), (b, in_b)))
        return f'{name}: {float(one)!r} and {float(two)!r}, apart by {float(two - one)!r}' if one != two else ''

    return _each_region(a, b, compare)


def _alike(content: Content, which: np.ndarray) -> set[tuple[int, ...]]:
    return {tuple(row) for row in np.sort(content.tets[which], axis=1).tolist()}


def flat(a: Content, b: Content) -> str:
    """no tetrahedron is flat that was not there before"""
    new = sorted(_alike(b, b.d == 0) - _alike(a, a.d == 0))
    return f'{len(new)} flat, the first is {new[0]}' if new else ''


def upright(a: Content, b: Content) -> str:
    """no tetrahedron is turned that was not there before"""
    if not (a.d > 0).any():
        return ''  # a file with all of them the other way round may go on so
    new = sorted(_alike(b, b.d < 0) - _alike(a, a.d < 0))
    return f'{len(new)} turned, the first is {new[0]}' if new else ''


def _doubled(content: Content) -> set[tuple[int, int]]:
    keys, directions = _directed(_faces(content.upright))
    found, count = np.unique(np.where(directions > 0, keys, -keys - 1), return_counts=True)
    return {(key, 1) if key >= 0 else (-key - 1, -1) for key in found[count > 1].tolist()}


def doubled_faces(a: Content, b: Content) -> str:
    """no two tetrahedra are on the same side of a face that were not there before"""
    new = sorted(_doubled(b) - _doubled(a))
    return f'{len(new)} faces, the first is {_triangle(new[0][0])}' if new else ''


def _of_kind(content: Content, kind: str, corners: int) -> np.ndarray:
    blocks = [block.data for block in content.mesh.cells if block.type == kind]
    cells: np.ndarray = np.concatenate(blocks + [np.zeros((0, corners), np.int64)]).astype(np.int64)
    return cells


def tagged_faces(a: Content, b: Content) -> str:
    """each triangle that was a face of a tetrahedron is one"""
    tagged = _of_kind(a, 'triangle', 3)
    key = _directed(tagged)[0]
    before, after = (np.isin(key, _directed(_faces(x.tets))[0]) for x in (a, b))
    lost = tagged[before & ~after]
    return f'{len(lost)} of {before.sum()} lost, the first is {lost[0].tolist()}' if len(lost) else ''


def tagged_edges(a: Content, b: Content) -> str:
    """each line that was an edge of a tetrahedron is one"""
    tagged = _of_kind(a, 'line', 2)
    key = _pairs(tagged)
    before, after = (np.isin(key, _pairs(np.concatenate([x.tets[:, list(edge)] for edge in EDGES]))) for x in (a, b))
    lost = tagged[before & ~after]
    return f'{len(lost)} of {before.sum()} lost, the first is {lost[0].tolist()}' if len(lost) else ''


CHECKS = (points, point_data, names, triangles, lines, other_cells, boundaries, volumes, flat, upright, doubled_faces, tagged_faces, tagged_edges)


def checks(before: Path, after: Path) -> list[tuple[str, str]]:
    """For each check what is looked at, and what is wrong with it: empty if all is well."""
    a, b = read(before), read(after)
    return [(check.__doc__ or '', check(a, b)) for check in CHECKS]


def validate(before: Path, after: Path) -> list[str]:
    """What is wrong with the file `after` as a betterment of `before`; empty if all is well."""
    return [f'not so: {what}: {wrong}' for what, wrong in checks(before, after) if wrong]


def main(arguments: list[str]) -> int:
    if len(arguments) != 2:
        print(__doc__, file=sys.stderr)
        return 2
    found = checks(*arguments)
    for what, wrong in found:
        print(f'not so: {what}: {wrong}' if wrong else f'well: {what}')
    return int(any(wrong for _, wrong in found))


if __name__ == '__main__':
    sys.exit(main(sys.argv[1:]))
