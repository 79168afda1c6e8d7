"""Meshes from files."""
from __future__ import annotations

import os
import pathlib
import re
import stat
from typing import Any

import numpy as np

from .faults import Fault
from .files import Path
from .hearing import Overheard, overhear
from .measures import Floats, Ints
from .model import Array, Block, Mesh, REGIONS, Source, format_of, partner_of
from .quiet import GaveUp, quietly, sentence

READERS = {'msh': 'gmsh', 'vtk': 'vtk', 'vtu': 'vtu', 'mesh': 'medit', 'tetgen': 'tetgen'}  # meshio's names
# Sections that meshio passes over without a word.
MEDIT_LOST = re.compile(rb'^\s*(Corners|Normals|NormalAtVertices|SubDomainFromMesh|VertexOnGeometricVertex|VertexOnGeometricEdge|EdgeOnGeometricEdge)\b', re.M)
ORDERS = {'tetra10': 'second', 'tetra20': 'third', 'tetra35': 'fourth'}


def _head(path: pathlib.Path) -> bytes:
    """The file's first bytes; a fault if there is no file to read."""
    try:
        mode = os.stat(path).st_mode
        if stat.S_ISDIR(mode):
            raise Fault(f'{path}: it is a folder')
        if not stat.S_ISREG(mode):
            raise Fault(f'{path}: it is no regular file')
        with open(path, 'rb') as file:
            head = file.read(4096)
    except OSError as error:
        raise Fault(f'{path}: {error.strerror}') from error
    if not head.strip():
        raise Fault(f'{path}: it is empty')
    return head


def _manner(path: pathlib.Path, format: str, head: bytes) -> tuple[str, bool]:
    """The version of the file's format and whether it is binary."""
    if format == 'msh':
        found = re.search(rb'\$MeshFormat\s+(\S+)\s+(\d)', head)
        version = found.group(1).decode(errors='replace') if found else ''
        return {'2': '2.2', '4': '4.1'}.get(version, version), bool(found and found.group(2) == b'1')
    if format == 'vtk':
        lines = head.split(b'\n', 3)
        return ('5.1' if lines[0].split()[-1:] == [b'5.1'] else '4.2'), len(lines) > 2 and lines[2].strip().upper() == b'BINARY'
    if format == 'vtu':
        text = path.read_bytes()
        if text.count(b'<Piece') > 1:
            raise Fault(f'{path}: it has more than one piece; a file of one piece is needed')  # meshio reads the last alone
        return '', b'format="binary"' in text or b'format="appended"' in text
    return '', path.suffix.lower() == '.meshb'


def _check_tetgen(path: pathlib.Path) -> None:
    """Both files are there and have a line that is no comment: meshio looks for that line without end."""
    for file in (path, partner_of(path)):
        _head(file)
        with open(file, 'rb') as stream:
            line = next((text for text in stream if text.strip() and not text.strip().startswith(b'#')), b'')
        words = line.split()
        if not words:
            raise Fault(f'{file}: it is empty')
        if file.suffix == '.ele' and words[1:2] == [b'10']:
            raise Fault(_of_order(path, 'tetra10'))
        if file.suffix == '.node' and words[1:2] == [b'2']:
            raise Fault(f'{file}: its points have 2 coordinates; 3 are needed')


def _call_reader(path: pathlib.Path, format: str) -> tuple[Any, list[str], Overheard]:
    import meshio  # type: ignore[import]
    with overhear() as heard:
        if format == 'mesh' and path.suffix.lower() != '.meshb':
            with open(path) as file:  # a stream: of a name meshio takes the last letter for the mode
                raw, said = quietly(lambda: meshio.read(file, 'medit'))
        else:
            raw, said = quietly(lambda: meshio.read(path, READERS[format]))
    return raw, said, heard


def _load(path: pathlib.Path, format: str) -> tuple[Any, list[str], Overheard]:
    """meshio's mesh, what it said, and what was overheard."""
    try:
        raw, said, heard = _call_reader(path, format)
    except GaveUp as refusal:
        if format == 'msh' and isinstance(refusal.__cause__, IndexError) and 'out of bounds' in str(refusal):
            raise Fault(f'{path}: an element names a node that is absent') from refusal
        if format == 'msh' and b'$PartitionedEntities' in path.read_bytes():
            raise Fault(f'{path}: a partitioned mesh of version 4.1 is not taken; save it without partitions') from refusal
        said_of = f' ({refusal})' if str(refusal) else ''
        raise Fault(f'{path}: it can\'t be read as {format}: it is damaged, cut off, or of another form{said_of}') from refusal
    except OSError as error:
        raise Fault(f'{path}: {error.strerror or sentence(error)}') from error
    for text in said:
        if 'not closed by' in text or 'before GmfEnd' in text:
            raise Fault(f'{path}: it is cut off: {text}')
    if format == 'vtk':
        _check_vtk(path, raw, said)
    if format == 'mesh' and path.suffix.lower() != '.meshb':
        text_bytes = path.read_bytes()
        said += [f'{word.decode()}: meshio does not read them' for word in dict.fromkeys(MEDIT_LOST.findall(text_bytes))]
        if not re.search(rb'^\s*End\b', text_bytes, re.M):
            said.append("the file has no 'End': it may be cut off")
        if raw.points.dtype == np.float32:
            raw.points = _medit_doubles(text_bytes, raw.points)
    return raw, said, heard


def _check_vtk(path: pathlib.Path, raw: Any, said: list[str]) -> None:
    """A fault if cells are missing: meshio takes as many as have types, and says so only of kinds that it does not know."""
    text = path.read_bytes()
    if not raw.cell_data and b'\nCELL_DATA' in text and any(block.type == 'polygon' for block in raw.cells):
        raise Fault(f'{path}: cell data next to polygons is not read from this version; save it as version 5.1')
    found = re.search(rb'^CELLS\s+(\d+)\s+\d+\s*\n(OFFSETS)?', text, re.M)
    count = sum(len(block) for block in raw.cells)
    if found and not said and count != int(found.group(1)) - bool(found.group(2)):
        raise Fault(f'{path}: it is cut off: {count} cells of {int(found.group(1)) - bool(found.group(2))} have types')


def _medit_doubles(text: bytes, points: Array) -> Array:
    """The coordinates of a .mesh of version 1 as they stand: meshio rounds them to single precision, but tetgen writes all digits."""
    found = re.search(rb'^\s*Vertices\s+\d+\s+', text, re.M)
    if found is None:
        return points
    width = points.shape[1] + 1
    words = text[found.end():].split(None, width * len(points))[:width * len(points)]
    return np.array(words, dtype=float).reshape(-1, width)[:, :-1]


def _of_order(path: pathlib.Path, kind: str) -> str:
    return f'{path}: {kind}: tetrahedra of {ORDERS.get(kind, "higher")} order are not taken; save the mesh with tetrahedra of four corners'


def _native(array: Array) -> Array:
    """The array in this machine's byte order, one column as a row of numbers."""
    plain = np.ascontiguousarray(array).astype(array.dtype.newbyteorder('='), copy=False)
    return plain[:, 0] if plain.ndim == 2 and plain.shape[1] == 1 else plain


def check_points(path: pathlib.Path, points: Array) -> Floats:
    """The points as doubles; a fault if one is not in space.

    >>> check_points(pathlib.Path('part.msh'), np.array([[0, 0, 1]]))
    array([[0., 0., 1.]])
    """
    if points.ndim != 2 or points.shape[1] != 3:
        width = points.shape[1] if points.ndim == 2 else 0
        raise Fault(f'{path}: its points have {width} coordinates; 3 are needed')
    doubles: Floats = np.ascontiguousarray(points, dtype=np.float64)
    wrong = np.argwhere(~np.isfinite(doubles))
    if len(wrong):
        row, column = wrong[0]
        raise Fault(f"{path}: point {row} (the first is 0) has {'xyz'[column]} = {doubles[row, column]}")
    return doubles


def check_corners(path: pathlib.Path, kind: str, corners: Array, points: int) -> None:
    """A fault if a cell names a point that is not there; rows are counted over the cells of the kind.

    >>> check_corners(pathlib.Path('part.msh'), 'tetra', np.array([[0, 1, 2, 3]]), 4)
    """
    wrong = np.argwhere((corners < 0) | (corners >= points))
    if len(wrong):
        row, column = wrong[0]
        point = corners[row, column]
        raise Fault(f"{path}: {'tetrahedron' if kind == 'tetra' else kind} {row} (the first is 0) names {f'point {point}' if point >= 0 else 'a point'} that is absent: there are {points} points")


def _check_tets(path: pathlib.Path, tets: Ints) -> None:
    ascending = np.sort(tets, axis=1)
    wrong = np.argwhere(ascending[:, 1:] == ascending[:, :-1])
    if len(wrong):
        row, column = wrong[0]
        raise Fault(f'{path}: tetrahedron {row} (the first is 0) has point {ascending[row, column]} twice')


def is_whole(values: Array) -> bool:
    """Whether data are whole numbers, one for each cell, and so may be regions.

    >>> is_whole(np.array([1.0, 2.0])), is_whole(np.array([0.5]))
    (True, False)
    """
    if values.ndim != 1 or values.dtype.kind not in 'iuf':
        return False
    return values.dtype.kind != 'f' or bool(np.all(np.isfinite(values)) and np.all(values == np.round(values)) and np.all(np.abs(values) < 2**62))


def _joined(blocks: list[Block], kind: str, width: int) -> Ints:
    """The corners of all cells of a kind, in the file's order."""
    rows = [block.corners for block in blocks if block.kind == kind]
    joined: Ints = np.concatenate(rows).astype(np.int64) if rows else np.zeros((0, width), np.int64)
    return joined


def tet_data(blocks: list[Block], name: str) -> Array:
    """The data of all tetrahedra, in the file's order.

    >>> tet_data([Block('tetra', np.array([[0, 1, 2, 3]]), {'region': np.array([7])})], 'region')
    array([7])
    """
    values: Array = np.concatenate([block.data[name] for block in blocks if block.kind == 'tetra'])
    return values


def _choose_region(path: pathlib.Path, blocks: list[Block], wanted: str | None) -> str | None:
    """The name of the cell data that gives the regions."""
    names = list(next(block.data for block in blocks if block.kind == 'tetra'))
    if wanted is not None:
        if wanted not in names:
            raise Fault(f"{path}: it has no cell data '{wanted}'; it has {', '.join(names) or 'none'}")
        values = tet_data(blocks, wanted)
        if not is_whole(values):
            flat = values if values.ndim == 1 and values.dtype.kind == 'f' else np.zeros(0)
            odd = np.flatnonzero(~(flat == np.round(flat)))
            at = f': tetrahedron {odd[0]} (the first is 0) has {flat[odd[0]]}' if len(odd) else ''
            raise Fault(f"{path}: cell data '{wanted}' is not whole numbers{at}")
        return wanted
    for name in REGIONS:
        if name in names and is_whole(tet_data(blocks, name)):
            # Group 0 is no group: volumes without groups are told apart by their own numbers.
            if name == 'gmsh:physical' and 'gmsh:geometrical' in names and not tet_data(blocks, name).any():
                continue
            return name
    return None


def _blocks_of(path: pathlib.Path, raw: Any) -> list[Block]:
    """meshio's cells as blocks, each with its data, the wrong ones refused."""
    for block in raw.cells:
        if re.fullmatch(r'tetra\d+|VTK_(LAGRANGE|BEZIER)_TETRAHEDRON', block.type):
            raise Fault(_of_order(path, block.type))
    blocks = []
    for i, cells in enumerate(raw.cells):
        data = {name: _native(values[i]) for name, values in raw.cell_data.items()}
        ragged = cells.type.startswith('polyhedron')
        blocks.append(Block(cells.type, cells.data if ragged else np.asarray(cells.data).astype(np.int64), data))
    blocks = [block for block in blocks if len(block.corners)]
    if not any(block.kind == 'tetra' for block in blocks):
        raise Fault(f'{path}: it has no tetrahedra')
    for kind in dict.fromkeys(block.kind for block in blocks):
        same = [block.corners for block in blocks if block.kind == kind]
        if not kind.startswith('polyhedron') and len({rows.shape[1] for rows in same}) == 1:
            check_corners(path, kind, np.concatenate(same), len(raw.points))
    return blocks


def _unfold_periodic(periodic: list[Any] | None, tags: Array | None) -> list[Any] | None:
    """gmsh's periodic nodes as rows of the points: meshio leaves them as numbers in the file, which may have gaps."""
    if not periodic or tags is None:
        return None
    order = np.argsort(tags)
    rows = []
    for dim, entities, affine, pairs in periodic:
        at = np.searchsorted(tags, np.asarray(pairs, np.int64), sorter=order).clip(0, len(tags) - 1)
        rows.append([dim, entities, affine, order[at]])
    return rows


def read(path: Path, *, format: str | None = None, region: str | None = None) -> Mesh:
    """The mesh in a file: its format goes by the suffix, or is one of FORMATS; regions are the whole numbers in the cell data `region`, or in what the format has for it.

    That is the first of REGIONS that the file has; where no tetrahedron of a .msh is in a physical group, volumes are told apart by their own numbers. Without any of them all regions are 0.

    >>> import tempfile
    >>> from cottontuff.writing import write
    >>> cube = np.array([[0., 0, 0], [1, 0, 0], [0, 1, 0], [0, 0, 1], [1, 1, 1]])
    >>> with tempfile.TemporaryDirectory() as folder:
    ...     lines = write(folder + '/two.vtk', Mesh(cube, np.array([[0, 1, 2, 3], [1, 2, 3, 4]]), np.array([1, 7])))
    ...     read(folder + '/two.vtk', region='region').regions
    array([1, 7])
    """
    where = pathlib.Path(path)
    kind = format_of(where, format)[:3] if (format or '').startswith('msh') else format_of(where, format)
    head = _head(where)
    if kind == 'tetgen':
        _check_tetgen(where)
    version, binary = _manner(where, kind, head)
    raw, said, heard = _load(where, kind)
    points = check_points(where, np.asarray(raw.points))
    blocks = _blocks_of(where, raw)
    tets = _joined(blocks, 'tetra', 4)
    _check_tets(where, tets)
    name = _choose_region(where, blocks, region)
    regions: Ints = tet_data(blocks, name).astype(np.int64) if name else np.zeros(len(tets), np.int64)
    point_data = {key: _native(values) for key, values in raw.point_data.items()}
    source = Source(kind, version, binary, blocks, name, regions, point_data, heard.physical, heard.bounds, _unfold_periodic(raw.gmsh_periodic, heard.tags), said + heard.lost)
    return Mesh(points, tets, regions.copy(), _joined(blocks, 'triangle', 3), _joined(blocks, 'line', 2), dict(raw.field_data), np.arange(len(tets)), source)
