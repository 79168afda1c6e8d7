"""Blocks, data and names as a format can take them; what it can't is said in a line."""
from __future__ import annotations

from typing import Any

import numpy as np

from .carrying import Target
from .measures import Ints
from .model import Array, Block, INT_MOST, Mesh, OWN, REGIONS, Source, TAGS
from .quiet import GaveUp
from .reading import is_whole

MEDIT_KINDS = ('line', 'triangle', 'quad', 'tetra', 'wedge', 'pyramid', 'hexahedron')


def _ints(values: Array, what: str) -> Ints:
    """Tags as the 32-bit numbers that all formats have."""
    whole: Ints = values.astype(np.int64)
    if len(whole) and max(-whole.min(), whole.max()) > INT_MOST:
        raise GaveUp(f'{what} {whole[np.argmax(np.abs(whole))]} does not fit into 32 bits')
    return whole


def _tag(block: Block, source: Source) -> tuple[str, Ints]:
    """The one number that a cell has in a format of one number, and the data it is from."""
    first = [source.region] if source.region and (block.kind == 'tetra' or source.region not in REGIONS) else []
    for name in [*first, *REGIONS]:
        if name in block.data and is_whole(block.data[name]):
            return name, _ints(block.data[name], name)
    return '', np.zeros(len(block.corners), np.int64)


def _kinds(format: str) -> Any:
    from meshio._vtk_common import meshio_to_vtk_type  # type: ignore[import]
    from meshio.gmsh.common import _meshio_to_gmsh_type  # type: ignore[import]
    return {'msh': _meshio_to_gmsh_type, 'vtk': meshio_to_vtk_type, 'vtu': meshio_to_vtk_type, 'mesh': MEDIT_KINDS, 'tetgen': ('tetra',)}[format]


def _fit_kinds(blocks: list[Block], target: Target) -> list[Block]:
    taken = _kinds(target.format)
    left: dict[str, int] = {}
    for block in blocks:
        if block.kind not in taken:
            left[block.kind] = left.get(block.kind, 0) + len(block.corners)
    for kind, count in left.items():
        target.no_place(f"{count} cell{'s' if count > 1 else ''} '{kind}'")
    return [block for block in blocks if block.kind in taken]


def _fit_msh(blocks: list[Block], source: Source, target: Target) -> list[Block]:
    """Each cell has a physical and a geometrical tag; the rest of the data has 1, 3 or 9 components."""
    names = blocks[0].data
    group = 'gmsh:physical' if 'gmsh:physical' in names else source.region if source.region not in TAGS else None
    fitted = []
    for block in blocks:
        known = group is not None and is_whole(block.data[group])
        physical = block.data[group or ''] if known else np.zeros(len(block.corners), np.int64)
        geometrical = block.data.get('gmsh:geometrical', physical)
        data = {'gmsh:physical': _ints(physical, 'region'), 'gmsh:geometrical': _ints(geometrical, 'entity')}
        fitted.append(Block(block.kind, block.corners, {**data, **_components(block.data, {*TAGS, group or ''}, 'cell data', target)}))
    return fitted


def _components(data: dict[str, Array], without: set[str], what: str, target: Target) -> dict[str, Array]:
    kept = {}
    for name, values in data.items():
        if name in without:
            continue
        if values.dtype.kind in 'biuf' and values[0].size in (1, 3, 9):
            kept[name] = values.reshape(len(values), -1).astype(np.float64)
        else:
            target.no_place(f'{what} {name}')
    return kept


def _fit_tag(blocks: list[Block], source: Source, target: Target) -> list[Block]:
    """For medit and tetgen: a tag for each cell, and the cells of a kind together, for their sections stand once."""
    own = OWN[target.format]
    merged: dict[str, list[Block]] = {}
    for block in blocks:
        used, tag = _tag(block, source)
        # tetgen's number is left out where the file has none; medit always has one.
        data = {} if target.format == source.format == 'tetgen' and not used else {own: tag}
        for name, values in block.data.items():
            if target.format == source.format == 'tetgen' and name.startswith(own) and name != used:
                data[name] = values  # meshio has no other names here than tetgen:ref2 and so on
            elif name != used:
                target.no_place(f'cell data {name}')
        merged.setdefault(block.kind, []).append(Block(block.kind, block.corners, data))
    return [Block(kind, np.concatenate([b.corners for b in same]), {n: np.concatenate([b.data[n] for b in same]) for n in same[0].data}) for kind, same in merged.items()]


def _fit_vtk_data(data: dict[str, Array], target: Target) -> dict[str, Array]:
    kept = {}
    for name, values in data.items():
        if name == 'gmsh:dim_tags':
            continue  # gmsh's own, and told by the cells
        if values.dtype.kind not in 'biuf':
            target.no_place(f'data {name}')
            continue
        plain = values.astype(np.uint8) if values.dtype.kind == 'b' else values
        label = name.replace(' ', '_') if target.format == 'vtk' else name
        if label != name and f'data {name}: written as {label}' not in target.lines:
            target.lines.append(f'data {name}: written as {label}')
        kept[label] = plain.reshape(len(plain), -1) if plain.ndim > 2 else plain
    return kept


def fit_blocks(blocks: list[Block], source: Source, target: Target) -> list[Block]:
    blocks = _fit_kinds(blocks, target)
    if target.format == 'msh':
        return _fit_msh(blocks, source, target)
    if target.format in ('mesh', 'tetgen'):
        return _fit_tag(blocks, source, target)
    return [Block(block.kind, block.corners, _fit_vtk_data(block.data, target)) for block in blocks]


def fit_points(mesh: Mesh, source: Source, target: Target) -> dict[str, Array]:
    """The data of points that the format takes."""
    data = {}
    for name, values in source.point_data.items():
        if len(values) == len(mesh.points):
            data[name] = values
        else:
            target.lines.append(f'point data {name}: it is for {len(values)} points and there are {len(mesh.points)}')
    if target.format == 'msh':
        return _components(data, {'gmsh:dim_tags'}, 'point data', target)
    if target.format in ('vtk', 'vtu'):
        return _fit_vtk_data(data, target)
    own = OWN[target.format]
    ref = next((name for name in (own, 'medit:ref', 'tetgen:ref') if name in data and is_whole(data[name])), None)
    kept = {own: _ints(data[ref], 'point reference')} if ref else {}
    for name, values in data.items():
        if target.format == 'tetgen' and name.startswith('tetgen:attr'):
            kept[name] = values
        elif name not in (ref, 'gmsh:dim_tags'):
            target.no_place(f'point data {name}')
    if target.format == 'mesh' and not kept:
        kept[own] = np.zeros(len(mesh.points), np.int64)
    return kept


def fit_names(mesh: Mesh, source: Source, target: Target) -> dict[str, Any]:
    """The names that .msh takes: a group's number and dimension each."""
    kept = {}
    for name, value in mesh.names.items():
        pair = np.asarray(value)
        if target.format == 'msh' and pair.shape == (2,) and pair.dtype.kind in 'iu' and 0 <= pair[1] <= 3:
            kept[name] = pair
        else:
            target.no_place(f"name '{name}'")
    if source.periodic and target.format != 'msh':
        target.no_place('the table of periodic nodes')
    return kept
