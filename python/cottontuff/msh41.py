"""gmsh's version 4.1: meshio writes no entity that has no points of its own, refuses two kinds of cells in one, and puts points into another order."""
from __future__ import annotations

import contextlib
import pathlib
import struct
from typing import Any, IO, Iterator

import numpy as np

from .carrying import Target
from .measures import Floats, Ints
from .model import Array, Block, Entities, Mesh, Source, TAGS


class _Out:
    """Numbers into a .msh file of version 4.1, as text or as bytes: i is an int, n a size, d a double."""

    def __init__(self, file: IO[bytes], binary: bool) -> None:
        self.file, self.binary = file, binary

    def row(self, *parts: tuple[str, Any]) -> None:
        if self.binary:
            for code, values in parts:
                self.file.write(struct.pack(f"={len(values)}{'Q' if code == 'n' else code}", *values))
        else:
            words = [repr(float(x)) if code == 'd' else str(int(x)) for code, values in parts for x in values]
            self.file.write((' '.join(words) + '\n').encode())

    def table(self, rows: Array) -> None:
        if self.binary:
            self.file.write(rows.astype(np.float64 if rows.dtype.kind == 'f' else np.uint64).tobytes())
        else:
            np.savetxt(self.file, rows, '%.16e' if rows.dtype.kind == 'f' else '%d', ' ')

    @contextlib.contextmanager
    def section(self, name: str) -> Iterator[None]:
        self.file.write(f'${name}\n'.encode())
        yield
        self.file.write(f"{chr(10) if self.binary else ''}$End{name}\n".encode())


def _dim(kind: str) -> int:
    from meshio._mesh import topological_dimension  # type: ignore[import]
    return int(topological_dimension[kind])


def _one_group(blocks: list[Block], lines: list[str]) -> None:
    """New entities where cells of one entity are in different groups: version 4.1 gives groups to entities, not to cells."""
    for dim in range(4):
        same = [block for block in blocks if _dim(block.kind) == dim]
        if not same:
            continue
        pairs = np.concatenate([np.stack([block.data['gmsh:geometrical'], block.data['gmsh:physical']], 1) for block in same])
        unique, inverse = np.unique(pairs, axis=0, return_inverse=True)
        if len(np.unique(unique[:, 0])) == len(unique):
            continue
        lines.append(f'cell data gmsh:geometrical: entities of dimension {dim} are numbered anew, for each is in one group in version 4.1')
        at = 0
        for block in same:
            block.data['gmsh:geometrical'] = inverse[at:at + len(block.corners)] + 1
            at += len(block.corners)


def _split(blocks: list[Block]) -> list[Block]:
    """Blocks of one entity each."""
    parts = []
    for block in blocks:
        tags, first = np.unique(block.data['gmsh:geometrical'], return_index=True)
        for tag in tags[np.argsort(first)]:
            rows = block.data['gmsh:geometrical'] == tag
            parts.append(Block(block.kind, block.corners[rows], {name: values[rows] for name, values in block.data.items()}))
    return parts


def _write_entities(out: _Out, points: Floats, blocks: list[Block], dim_tags: Ints, physical: Entities, bounds: Entities) -> None:
    """All entities that points or cells or the source have, with their groups, limits and boxes."""
    groups: Entities = {key: list(of) for key, of in physical.items()}
    boxes: dict[tuple[int, int], Floats] = {}
    for block in blocks:
        key = (_dim(block.kind), int(block.data['gmsh:geometrical'][0]))
        group, known = int(block.data['gmsh:physical'][0]), groups.setdefault(key, [])
        if group and group not in known:
            known.append(group)
        corners = points[np.unique(block.corners)]
        box = np.concatenate([corners, boxes.get(key, corners[:1]).reshape(-1, 3)])
        boxes[key] = np.stack([box.min(axis=0), box.max(axis=0)])
    unique, first = np.unique(dim_tags, axis=0, return_index=True)
    for (dim, tag), row in zip(unique.tolist(), first):
        groups.setdefault((dim, tag), [])
        boxes.setdefault((dim, tag), np.stack([points[row], points[row]]))
    with out.section('Entities'):
        out.row(('n', [sum(key[0] == dim for key in groups) for dim in range(4)]))
        for key in sorted(groups):
            box = boxes.get(key, np.zeros((2, 3))).ravel()[:6 if key[0] else 3]
            limits = [('n', [len(bounds.get(key, []))]), ('i', bounds.get(key, []))] if key[0] else []
            out.row(('i', [key[1]]), ('d', box), ('n', [len(groups[key])]), ('i', groups[key]), *limits)


def _write_nodes(out: _Out, points: Floats, dim_tags: Ints) -> None:
    """Points in their order: a block for each run of one entity."""
    starts = np.flatnonzero(np.append(True, np.any(dim_tags[1:] != dim_tags[:-1], axis=1)))
    ends = np.append(starts[1:], len(points))
    with out.section('Nodes'):
        out.row(('n', [len(starts), len(points), 1, len(points)]))
        for start, end in zip(starts, ends):
            out.row(('i', [*dim_tags[start], 0]), ('n', [end - start]))
            out.table(np.arange(start + 1, end + 1)[:, None])
            out.table(points[start:end])


def _write_elements(out: _Out, blocks: list[Block]) -> None:
    from meshio.gmsh.common import _meshio_to_gmsh_order, _meshio_to_gmsh_type  # type: ignore[import]
    total, at = sum(len(block.corners) for block in blocks), 1
    with out.section('Elements'):
        out.row(('n', [len(blocks), total, 1, total]))
        for block in blocks:
            count = len(block.corners)
            out.row(('i', [_dim(block.kind), block.data['gmsh:geometrical'][0], _meshio_to_gmsh_type[block.kind]]), ('n', [count]))
            out.table(np.column_stack([np.arange(at, at + count), _meshio_to_gmsh_order(block.kind, block.corners) + 1]))
            at += count


def _dim_tags(mesh: Mesh, source: Source, blocks: list[Block]) -> Ints:
    """The entity of each point: the source's, or one volume for all."""
    known = source.point_data.get('gmsh:dim_tags')
    if known is not None and known.shape == (len(mesh.points), 2):
        return known.astype(np.int64)
    volume = next(int(block.data['gmsh:geometrical'][0]) for block in blocks if block.kind == 'tetra')
    return np.tile(np.array([3, volume]), (len(mesh.points), 1))


def save41(path: pathlib.Path, mesh: Mesh, source: Source, blocks: list[Block], point_data: dict[str, Array], names: dict[str, Any], target: Target) -> None:
    from meshio.gmsh import _gmsh41, common  # type: ignore[import]
    own = source.format == 'msh' and source.version == '4.1'
    if not own:
        _one_group(blocks, target.lines)
    blocks = _split(blocks)
    dim_tags = _dim_tags(mesh, source, blocks)
    with open(path, 'wb') as file:
        file.write(f'$MeshFormat\n4.1 {int(target.binary)} 8\n'.encode() + (struct.pack('=i', 1) + b'\n' if target.binary else b'') + b'$EndMeshFormat\n')
        if names:
            common._write_physical_names(file, names)
        out = _Out(file, target.binary)
        _write_entities(out, mesh.points, blocks, dim_tags, source.physical if own else {}, source.bounds if own else {})
        _write_nodes(out, mesh.points, dim_tags)
        _write_elements(out, blocks)
        if source.periodic:
            _gmsh41._write_periodic(file, source.periodic, '.16e', target.binary)
        for name, values in point_data.items():
            common._write_data(file, 'NodeData', name, values, target.binary)
        for name in blocks[0].data:
            if name not in TAGS:
                common._write_data(file, 'ElementData', name, np.concatenate([block.data[name] for block in blocks]), target.binary)
