"""What a mesh file has: the mesh itself, and what is kept of the file so that it can be written again."""
from __future__ import annotations

import dataclasses
import itertools
import pathlib
from typing import Any

import numpy as np
from numpy.typing import NDArray

from .faults import Fault
from .files import Path
from .measures import Floats, Ints

Array = NDArray[Any]
Entities = dict[tuple[int, int], list[int]]
SUFFIXES = {'.msh': 'msh', '.vtk': 'vtk', '.vtu': 'vtu', '.mesh': 'mesh', '.meshb': 'mesh', '.node': 'tetgen', '.ele': 'tetgen'}
FORMATS = ('msh', 'msh22', 'msh41', 'vtk', 'vtu', 'mesh', 'tetgen')
REGIONS = ('gmsh:physical', 'gmsh:geometrical', 'medit:ref', 'tetgen:ref', 'region')
TAGS = ('gmsh:physical', 'gmsh:geometrical')
OWN = {'mesh': 'medit:ref', 'tetgen': 'tetgen:ref', 'vtk': 'region', 'vtu': 'region'}  # what a format calls regions
INT_MOST = 2**31 - 1


@dataclasses.dataclass
class Mesh:
    """A tetrahedral mesh, and what its file has besides.

    points: (n, 3) doubles; tets: (m, 4) point numbers, corners in the file's order; regions: a number for each tetrahedron; faces: (k, 3), the file's triangles; lines: (l, 2), the file's lines;
    names: what the file calls its regions and surfaces. origin: for each tetrahedron its row in the file, or -1 for a new one. source: all that the file has, for `write`.
    """

    points: Floats
    tets: Ints
    regions: Ints
    faces: Ints = dataclasses.field(default_factory=lambda: np.zeros((0, 3), np.int64))
    lines: Ints = dataclasses.field(default_factory=lambda: np.zeros((0, 2), np.int64))
    names: dict[str, Any] = dataclasses.field(default_factory=dict)
    origin: Ints | None = None
    source: Source | None = None


@dataclasses.dataclass
class Block:
    """Cells of one kind that stand together in a file; `data` has a row for each."""

    kind: str
    corners: Array
    data: dict[str, Array] = dataclasses.field(default_factory=dict)


@dataclasses.dataclass
class Source:
    """What `read` keeps of a file so that `write` can give back what is no tetrahedron.

    version and binary: how the file was written; region: the cell data that gave the regions; regions: those of the file's tetrahedra; physical and bounds: the groups and the limits of gmsh's
    entities, by dimension and number; periodic: gmsh's; lost: what reading could not keep, a line each.
    """

    format: str
    version: str
    binary: bool
    blocks: list[Block]
    region: str | None
    regions: Ints
    point_data: dict[str, Array] = dataclasses.field(default_factory=dict)
    physical: Entities = dataclasses.field(default_factory=dict)
    bounds: Entities = dataclasses.field(default_factory=dict)
    periodic: list[Any] | None = None
    lost: list[str] = dataclasses.field(default_factory=list)


def format_of(path: Path, format: str | None) -> str:
    """The format of a file: the one named, or that of its suffix.

    >>> format_of('part.msh', None), format_of('part.txt', 'vtk')
    ('msh', 'vtk')
    """
    path = pathlib.Path(path)
    if format is None:
        if path.suffix.lower() not in SUFFIXES:
            raise Fault(f"{path}: the suffix '{path.suffix}' is unknown; those taken are {', '.join(SUFFIXES)}")
        format = SUFFIXES[path.suffix.lower()]
    if format not in FORMATS:
        raise Fault(f"{path}: the format '{format}' is unknown; those taken are {', '.join(FORMATS)}")
    if format == 'tetgen' and path.suffix not in ('.node', '.ele'):
        raise Fault(f"{path}: tetgen's files end in .node and .ele")
    return format


def partner_of(path: pathlib.Path) -> pathlib.Path:
    """The other of tetgen's two files.

    >>> str(partner_of(pathlib.Path('part.node')))
    'part.ele'
    """
    return path.with_suffix('.ele' if path.suffix == '.node' else '.node')


def checked(mesh: Mesh) -> Mesh:
    """The mesh with its arrays as the package takes them; ValueError says in words what can't be.

    >>> checked(Mesh([[0, 0, 0], [1, 0, 0], [0, 1, 0], [0, 0, 1]], [[0, 1, 2, 3]], [1])).points.dtype
    dtype('float64')
    """
    points = np.ascontiguousarray(mesh.points, np.float64)
    if points.ndim != 2 or points.shape[1] != 3 or not np.isfinite(points).all():
        raise ValueError(f'points: rows of three finite numbers, not an array of shape {points.shape}' if points.ndim != 2 or points.shape[1] != 3 else 'points: a coordinate is no finite number')
    cells = []
    for name, values, width in (('tets', mesh.tets, 4), ('faces', mesh.faces, 3), ('lines', mesh.lines, 2)):
        rows = np.asarray(values)
        rows = np.zeros((0, width), np.int64) if rows.size == 0 else rows
        if rows.dtype.kind not in 'iu' or rows.ndim != 2 or rows.shape[1] != width:
            raise ValueError(f'{name}: rows of {width} whole numbers, not {rows.dtype} of shape {rows.shape}')
        wrong = (rows < 0).any(axis=1) | (rows >= len(points)).any(axis=1) if rows.size and (rows.min() < 0 or rows.max() >= len(points)) else np.zeros(len(rows), np.bool_)
        for i, j in itertools.combinations(range(width), 2):
            wrong |= rows[:, i] == rows[:, j]
        if wrong.any():
            raise ValueError(f'{name}: row {int(np.argmax(wrong))} names an absent point, or one twice')
        cells.append(np.ascontiguousarray(rows, np.int64))
    regions = np.asarray(mesh.regions)
    if not len(cells[0]):
        raise ValueError('tets: the mesh has no tetrahedra')
    if regions.shape != (len(cells[0]),) or regions.dtype.kind not in 'iu':
        raise ValueError(f'regions: a whole number for each of {len(cells[0])} tetrahedra, not {regions.dtype} of shape {regions.shape}')
    return dataclasses.replace(mesh, points=points, tets=cells[0], regions=regions.astype(np.int64), faces=cells[1], lines=cells[2])
