#!/usr/bin/python3
"""Makes the test meshes by gmsh and tetgen, none of them optimized unless its name says so.

    tests/python/meshes.py FOLDER [NAME ..]     makes them, all where none is named; prints name, tetrahedra, seconds

A mesh that stands in the folder is not made again. Needs Debian's gmsh, python3-gmsh, python3-meshio, tetgen. With gmsh 4.8.4 and tetgen 1.5 the same files come out each time, but for HXT's:
its surface is the same, its inside another each time, with one thread too (120,966 to 121,506 tetrahedra seen). tetgen 1.5 makes the same mesh with -O2 and -O10.
"""
from __future__ import annotations

import contextlib
import math
import os
import pathlib
import shutil
import subprocess
import sys
import tempfile
import time
from typing import Any, Callable, Iterator, NamedTuple

import gmsh
import meshio
import numpy as np


def _box_with_holes(occ: Any) -> None:
    box = occ.addBox(0, 0, 0, 4, 3, 1.5)
    holes = [(3, occ.addCylinder(0.8 + 1.2 * i, 0.9, -1, 0, 0, 4, 0.3)) for i in range(3)]
    holes.append((3, occ.addCylinder(-1, 2.2, 0.75, 6, 0, 0, 0.25)))
    occ.cut([(3, box)], holes)


def _bracket(occ: Any) -> None:
    foot, back = occ.addBox(0, 0, 0, 4, 3, 0.4), occ.addBox(0, 0, 0, 0.4, 3, 3)
    spare = occ.addCylinder(0.4, 1.5, 0.4, 0.5, 0, 0, 0.2)  # taken out again: it gives the solid the number it has always had
    solid, _ = occ.fuse([(3, foot)], [(3, back)])
    holes = [occ.addCylinder(2.5, 0.8, -1, 0, 0, 2, 0.3), occ.addCylinder(2.5, 2.2, -1, 0, 0, 2, 0.3), occ.addCylinder(-1, 1.5, 2.0, 2, 0, 0, 0.45)]
    occ.cut(solid, [(3, hole) for hole in holes])
    occ.remove([(3, spare)], recursive=True)


def _plate(occ: Any, side: float = 10) -> None:
    """Thin: one tetrahedron thick in places."""
    unit = side / 10
    plate = occ.addBox(0, 0, 0, side, side, 0.15)
    occ.cut([(3, plate)], [(3, occ.addCylinder(3 * unit, 3 * unit, -1, 0, 0, 2, 0.8 * unit)), (3, occ.addCylinder(7 * unit, 6 * unit, -1, 0, 0, 2, 1.2 * unit))])


def _regions(occ: Any) -> None:
    """A ball in a box and a layer on the box: three regions that share faces."""
    box, ball, layer = occ.addBox(-1.5, -1.5, -1.5, 3, 3, 3), occ.addSphere(0, 0, 0.1, 0.8), occ.addBox(-1.5, -1.5, 1.5, 3, 3, 0.4)
    occ.fragment([(3, box)], [(3, ball), (3, layer)])


PARTS: dict[str, Callable[[Any], Any]] = {
    'box': _box_with_holes,
    'bracket': _bracket,
    'torus': lambda occ: occ.addTorus(0, 0, 0, 2, 0.6),
    'ball': lambda occ: occ.addSphere(0, 0, 0, 1),
    'plate': _plate,
    'small plate': lambda occ: _plate(occ, 2.5),  # not a coarser one: it is to stay as thick as its tetrahedra
    'regions': _regions,
}
DELAUNAY, HXT = 1, 10  # gmsh's numbers


class Solid(NamedTuple):
    """A part, the greatest edge asked for, and how gmsh meshes it."""

    part: str
    size: float
    algorithm: int = DELAUNAY
    optimize: int = 0


SOLIDS = {
    'ball-5k': Solid('ball', 0.16),
    'bracket-20k': Solid('bracket', 0.13),
    'regions-32k': Solid('regions', 0.17),
    'plate-37k': Solid('plate', 0.14),
    'torus-52k': Solid('torus', 0.11),
    'box-54k': Solid('box', 0.115),
    'hxt-121k': Solid('box', 0.085, HXT),
    'hxt-optimized': Solid('box', 0.085, HXT, 1),
    'box-291k': Solid('box', 0.064),
    'small-ball': Solid('ball', 0.24),
    'small-bracket': Solid('bracket', 0.36),
    'small-plate': Solid('small plate', 0.14),
    'small-regions': Solid('regions', 0.42),
}


@contextlib.contextmanager
def _gmsh(model: str) -> Iterator[None]:
    gmsh.initialize()
    try:
        gmsh.option.setNumber('General.Terminal', 0)
        gmsh.option.setNumber('General.NumThreads', 1)
        gmsh.model.add(model)
        yield
    finally:
        gmsh.finalize()


def _set_sizes(size: float) -> None:
    gmsh.option.setNumber('Mesh.MeshSizeMin', size * 0.5)
    gmsh.option.setNumber('Mesh.MeshSizeMax', size)
    gmsh.option.setNumber('Mesh.MeshSizeFromCurvature', 10)


def _make_solid(solid: Solid, path: pathlib.Path, version: str) -> None:
    with _gmsh(solid.part):
        gmsh.option.setNumber('Mesh.Optimize', solid.optimize)
        gmsh.option.setNumber('Mesh.Algorithm3D', solid.algorithm)
        _set_sizes(solid.size)
        PARTS[solid.part](gmsh.model.occ)
        gmsh.model.occ.synchronize()
        for _, tag in gmsh.model.getEntities(3):
            gmsh.model.setPhysicalName(3, gmsh.model.addPhysicalGroup(3, [tag]), f'solid{tag}')
        for _, tag in gmsh.model.getEntities(2):
            gmsh.model.addPhysicalGroup(2, [tag])
        gmsh.model.mesh.generate(3)
        _write(path, version)


def _write(path: pathlib.Path, version: str) -> None:
    gmsh.option.setNumber('Mesh.MshFileVersion', float(version))
    gmsh.write(str(path))


WIRE = ((0.5, 0.5, 0.4), (2.5, 1.6, 0.62))  # runs close above the sheet, so that flat tetrahedra stand between them
SHEET = (0.7, 0.6, 0.5, 1.5, 0.9)  # corner and sides


def _make_embedded(path: pathlib.Path, version: str) -> None:
    """A block, coarse, with a sheet and a wire inside it, both finer: tagged triangles and lines with the same region all round them."""
    with _gmsh('embedded'):
        gmsh.option.setNumber('Mesh.Optimize', 0)
        gmsh.option.setNumber('Mesh.MeshSizeMax', 0.5)
        occ = gmsh.model.occ
        block, sheet = occ.addBox(0, 0, 0, 3, 2.2, 1.2), occ.addRectangle(*SHEET)
        wire = occ.addLine(*(occ.addPoint(*end) for end in WIRE))
        _, children = occ.fragment([(3, block)], [(2, sheet), (1, wire)])
        occ.synchronize()
        blocks, sheets, wires = ([tag for _, tag in of] for of in children)
        skin = [tag for _, tag in gmsh.model.getEntities(2) if tag not in sheets]
        for dimension, tags, name in ((3, blocks, 'block'), (2, sheets, 'sheet'), (2, skin, 'skin'), (1, wires, 'wire')):
            gmsh.model.setPhysicalName(dimension, gmsh.model.addPhysicalGroup(dimension, tags), name)
        for dimension, tags, size in ((2, sheets, 0.16), (1, wires, 0.1)):
            corners = gmsh.model.getBoundary([(dimension, tag) for tag in tags], combined=False, recursive=True)
            gmsh.model.mesh.setSize(corners, size)
        gmsh.model.mesh.generate(3)
        _write(path, version)
    check_embedded(path)


def _tagged(mesh: meshio.Mesh, kind: str, name: str) -> list[tuple[int, ...]]:
    """The cells of one kind in one named group, corners ascending."""
    number = mesh.field_data[name][0]
    rows = [row for block, tags in zip(mesh.cells, mesh.cell_data['gmsh:physical']) if block.type == kind for row, tag in zip(block.data.tolist(), tags) if tag == number]
    return [tuple(sorted(row)) for row in rows]


def check_embedded(path: pathlib.Path) -> tuple[int, int]:
    """How many triangles the sheet has and how many lines the wire; RuntimeError where one is not a face between two tetrahedra of the block, or not an edge off the skin."""
    mesh = meshio.read(path)
    tets, skin = np.array(_tagged(mesh, 'tetra', 'block')), _tagged(mesh, 'triangle', 'skin')
    sides: dict[tuple[int, ...], int] = {}
    for a, b, c, d in tets.tolist():
        for face in ((a, b, c), (a, b, d), (a, c, d), (b, c, d)):
            sides[face] = sides.get(face, 0) + 1
    edges = {pair for a, b, c in sides for pair in ((a, b), (a, c), (b, c))}
    outer = {pair for a, b, c in skin for pair in ((a, b), (a, c), (b, c))}
    sheet, wire = _tagged(mesh, 'triangle', 'sheet'), _tagged(mesh, 'line', 'wire')
    lost = [face for face in sheet if sides.get(face) != 2] + [line for line in wire if line not in edges or line in outer]
    if lost or not sheet or not wire:
        raise RuntimeError(f'{path}: {len(sheet)} triangles in the sheet, {len(wire)} lines in the wire, {len(lost)} of them not inside the block')
    return len(sheet), len(wire)


def _write_block_with_floor(path: pathlib.Path) -> None:
    """A block with a floor across it, as tetgen takes it: two regions."""
    levels = [(x, y, z) for z in (0, 0.45, 1) for x, y in ((0, 0), (1, 0), (1, 1), (0, 1))]
    walls = [(4 * k + i, 4 * k + (i + 1) % 4, 4 * k + 4 + (i + 1) % 4, 4 * k + 4 + i) for k in range(2) for i in range(4)]
    facets = [(0, 1, 2, 3), (4, 5, 6, 7), (8, 9, 10, 11)] + walls
    lines = [f'{len(levels)} 3 0 0'] + [f'{i} {x} {y} {z}' for i, (x, y, z) in enumerate(levels)]
    lines += [f'{len(facets)} 0'] + [f'1\n4 {a} {b} {c} {d}' for a, b, c, d in facets]
    path.write_text('\n'.join(lines + ['0', '0', '']))


def _write_box_surface(path: pathlib.Path) -> None:
    """The surface of the box with holes, as triangles."""
    with _gmsh('box'):
        _set_sizes(0.16)
        _box_with_holes(gmsh.model.occ)
        gmsh.model.occ.synchronize()
        gmsh.model.mesh.generate(2)
        gmsh.write(str(path))


# What writes tetgen's input, the ending that it needs, and tetgen's options.
TETGEN: dict[str, tuple[Callable[[pathlib.Path], None], str, str]] = {
    'tetgen-46k': (_write_box_surface, '.stl', '-pq1.4a0.001O0'),
    'tetgen-O2': (_write_box_surface, '.stl', '-pq1.4a0.001O2'),
    'tetgen-O10': (_write_box_surface, '.stl', '-pq1.4a0.001O10'),
    'small-tetgen': (_write_block_with_floor, '.poly', '-pq1.4a0.001AO0'),
}


def _make_tetgen(name: str, path: pathlib.Path) -> None:
    """Writes path, an .ele file, and the .node file beside it."""
    write, ending, options = TETGEN[name]
    with tempfile.TemporaryDirectory(dir=path.parent) as work:
        source = pathlib.Path(work, 'part' + ending)
        write(source)
        subprocess.run(['tetgen', '-Q', options, source.name], cwd=work, check=True, stdout=subprocess.DEVNULL)
        shutil.move(pathlib.Path(work, 'part.1.node'), path.with_suffix('.node'))
        shutil.move(pathlib.Path(work, 'part.1.ele'), path)  # last: where it stands, the .node file does


def _moved(mesh: meshio.Mesh, points: np.ndarray, path: pathlib.Path) -> pathlib.Path:
    # Version 2.2: meshio writes its points with 17 digits, so that the file has the very doubles.
    data = {key: value for key, value in mesh.point_data.items() if key != 'gmsh:dim_tags'}
    other = meshio.Mesh(points, mesh.cells, point_data=data, cell_data=mesh.cell_data, field_data=mesh.field_data)
    meshio.write(path, other, file_format='gmsh22', binary=False)
    return path


def turned(mesh: meshio.Mesh, path: pathlib.Path) -> pathlib.Path:
    """The mesh turned in space by 0.4 about x, then by 0.7 about z, so that no face is along an axis."""
    x, y, z = mesh.points.T
    y, z = math.cos(0.4) * y - math.sin(0.4) * z, math.sin(0.4) * y + math.cos(0.4) * z
    x, y = math.cos(0.7) * x - math.sin(0.7) * y, math.sin(0.7) * x + math.cos(0.7) * y
    return _moved(mesh, np.stack([x, y, z], axis=1), path)


def stretched(mesh: meshio.Mesh, path: pathlib.Path, z: float) -> pathlib.Path:
    """The mesh with all heights times z: 0.01 or 0.001 make thin tetrahedra of all."""
    return _moved(mesh, mesh.points * [1, 1, z], path)


# Names of meshes made of another one.
DERIVED: dict[str, tuple[str, Callable[[meshio.Mesh, pathlib.Path], pathlib.Path]]] = {
    'turned': ('bracket-20k', turned),
    'stretched-0.01': ('bracket-20k', lambda mesh, path: stretched(mesh, path, 0.01)),
    'stretched-0.001': ('bracket-20k', lambda mesh, path: stretched(mesh, path, 0.001)),
    'small-turned': ('small-bracket', turned),
    'small-stretched-0.01': ('small-bracket', lambda mesh, path: stretched(mesh, path, 0.01)),
    'small-stretched-0.001': ('small-bracket', lambda mesh, path: stretched(mesh, path, 0.001)),
}
NAMES = [*SOLIDS, 'embedded', *TETGEN, *DERIVED]


def make(name: str, folder: str | os.PathLike[str], version: str = '4.1') -> pathlib.Path:
    """The file of that mesh in the folder, made if it isn't there. version: gmsh's file version, 4.1 or 2.2; tetgen's meshes and those made of another have none to choose."""
    if name not in NAMES or version not in ('2.2', '4.1'):
        raise ValueError(f'no mesh {name} in version {version}: the names are {", ".join(NAMES)}, the versions 2.2 and 4.1')
    folder = pathlib.Path(folder)
    folder.mkdir(parents=True, exist_ok=True)
    chosen = '' if version == '4.1' or name in TETGEN or name in DERIVED else '-' + version
    path = folder / (name + chosen + ('.ele' if name in TETGEN else '.msh'))
    if path.exists():
        return path
    if name in TETGEN:
        _make_tetgen(name, path)
        return path
    # Made beside it and then renamed: a file that was broken off never passes for the mesh.
    part = folder / f'{name}{chosen}.{os.getpid()}.part.msh'
    if name in SOLIDS:
        _make_solid(SOLIDS[name], part, version)
    elif name == 'embedded':
        _make_embedded(part, version)
    else:
        source, change = DERIVED[name]
        change(meshio.read(make(source, folder)), part)
    os.replace(part, path)
    return path


def main(arguments: list[str]) -> int:
    if not arguments:
        print(__doc__, file=sys.stderr)
        return 2
    for name in arguments[1:] or NAMES:
        start = time.perf_counter()
        path = make(name, arguments[0])
        seconds = time.perf_counter() - start
        tetrahedra = sum(len(block.data) for block in meshio.read(path).cells if block.type == 'tetra')
        print(f'{name}\t{tetrahedra}\t{seconds:.1f} s', flush=True)
    return 0


if __name__ == '__main__':
    sys.exit(main(sys.argv[1:]))
