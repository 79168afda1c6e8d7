"""What is written: the blocks of the file, with the tetrahedra as they are now, and cell data where it can be carried."""
from __future__ import annotations

import dataclasses
import pathlib

import numpy as np

from .faults import Fault
from .measures import Ints
from .model import Array, Block, Mesh, Source, TAGS, format_of
from .reading import check_corners, check_points, tet_data


@dataclasses.dataclass
class Target:
    """What is written and how; `lines` gathers what can't be carried."""

    format: str
    version: str
    binary: bool
    lines: list[str]

    def no_place(self, what: str) -> None:
        line = f"{what}: {self.format} has no place for {'them' if ' cells ' in what else 'it'}"
        if line not in self.lines:
            self.lines.append(line)


def target_of(path: pathlib.Path, source: Source | None, format: str | None) -> Target:
    """The format and manner: those of the source if it has the same format."""
    asked = format_of(path, format)
    kind = 'msh' if asked.startswith('msh') else asked
    lines = list(source.lost) if source else []
    same = source is not None and source.format == kind
    version = {'msh': '2.2', 'vtk': '4.2'}.get(kind, '')
    binary = kind in ('vtk', 'vtu') or path.suffix.lower() == '.meshb'
    if source is not None and same:
        version, binary = source.version, source.binary if kind != 'mesh' else binary
    if asked in ('msh22', 'msh41'):
        version = {'msh22': '2.2', 'msh41': '4.1'}[asked]
    if kind == 'msh' and version not in ('2.2', '4.1'):
        lines.append(f'version {version}: written as version 2.2')
        version = '2.2'
    return Target(kind, version, binary, lines)


def check_mesh(path: pathlib.Path, mesh: Mesh) -> None:
    """A fault if the arrays of a mesh do not belong together: what is written must be readable."""
    points = check_points(path, np.asarray(mesh.points))
    tets, regions = np.asarray(mesh.tets), np.asarray(mesh.regions)
    if tets.ndim != 2 or tets.shape[1] != 4 or not len(tets):
        raise Fault(f'{path}: the mesh to write has no tetrahedra of four corners')
    if regions.shape != (len(tets),):
        raise Fault(f'{path}: the mesh to write has {len(tets)} tetrahedra and regions of shape {regions.shape}')
    for kind, cells in (('tetra', tets), ('triangle', mesh.faces), ('line', mesh.lines)):
        check_corners(path, kind, np.asarray(cells), len(points))
    rows = 0 if mesh.source is None else len(mesh.source.regions)
    if mesh.source is not None and mesh.origin is not None:
        if np.shape(mesh.origin) != (len(tets),) or np.any(np.asarray(mesh.origin) >= rows):
            raise Fault(f'{path}: the origins of the mesh to write are not rows of its file')


def _plain(mesh: Mesh) -> Source:
    """A source for a mesh from arrays: lines, triangles and tetrahedra, with the region 0 for what is no tetrahedron."""
    blocks = []
    for kind, cells in (('line', mesh.lines), ('triangle', mesh.faces), ('tetra', mesh.tets)):
        if len(cells):
            tags = mesh.regions if kind == 'tetra' else np.zeros(len(cells), np.int64)
            blocks.append(Block(kind, np.asarray(cells, np.int64), {'region': np.asarray(tags, np.int64)}))
    return Source('', '', False, blocks, 'region', np.asarray(mesh.regions, np.int64))


def _carried(name: str, values: Array, source: Source, mesh: Mesh, origin: Ints, lines: list[str]) -> Array:
    """The cell data of each tetrahedron now: a new one has what its region has, if that is one value."""
    if name == source.region:
        return mesh.regions.astype(values.dtype)
    carried: Array = values[np.maximum(origin, 0)].copy()
    for region in np.unique(mesh.regions[origin < 0]):
        of = values[source.regions == region]
        now = mesh.regions == region
        if len(of) and np.array_equal(of, np.broadcast_to(of[0], of.shape), equal_nan=of.dtype.kind == 'f'):
            carried[now & (origin < 0)] = of[0]
        elif len(of) and name in TAGS:
            carried[now] = of.min()
            lines.append(f'cell data {name} differs within region {region}: {of.min()}, the least, is written for its {now.sum()} tetrahedra')
        else:
            blank = np.nan if carried.dtype.kind == 'f' else 0
            carried[now] = blank
            why = 'differs within' if len(of) else 'is unknown in'
            lines.append(f'cell data {name} {why} region {region}: dropped for its {now.sum()} tetrahedra, which get {blank}')
    return carried


def _homes(source: Source, mesh: Mesh, origin: Ints) -> Ints:
    """The block of each tetrahedron now, of those of tetrahedra: a new one goes to the last that holds its region."""
    sizes = [len(block.corners) for block in source.blocks if block.kind == 'tetra']
    block_of_row = np.repeat(np.arange(len(sizes)), sizes)
    home: Ints = block_of_row[np.maximum(origin, 0)]
    for region in np.unique(mesh.regions[origin < 0]):
        holding = block_of_row[source.regions == region]
        home[(origin < 0) & (mesh.regions == region)] = holding.max() if len(holding) else len(sizes) - 1
    return home


def current_blocks(mesh: Mesh, lines: list[str]) -> tuple[Source, list[Block]]:
    """The source and its blocks, those of tetrahedra as the mesh now has them."""
    source = mesh.source or _plain(mesh)
    given = np.arange(len(mesh.tets)) if mesh.source is None else mesh.origin
    origin: Ints = np.full(len(mesh.tets), -1) if given is None else np.asarray(given, np.int64)
    home = _homes(source, mesh, origin)
    names = next(block.data for block in source.blocks if block.kind == 'tetra')
    data = {name: _carried(name, tet_data(source.blocks, name), source, mesh, origin, lines) for name in names}
    order = np.lexsort((np.where(origin < 0, np.iinfo(np.int64).max, origin), home))  # stable: new ones as they come
    cuts = np.searchsorted(home[order], np.arange(len(source.blocks) + 1))
    blocks, at = [], 0
    for block in source.blocks:
        if block.kind == 'tetra':
            rows = order[cuts[at]:cuts[at + 1]]
            blocks.append(Block('tetra', np.asarray(mesh.tets)[rows], {name: values[rows] for name, values in data.items()}))
            at += 1
        else:
            blocks.append(Block(block.kind, block.corners, dict(block.data)))
    return source, [block for block in blocks if len(block.corners)]
