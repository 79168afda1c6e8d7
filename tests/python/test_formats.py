#!/usr/bin/python3
"""Formats there and back, each into each other, and what is said of files that can't be taken.

    tests/python/test_formats.py
"""
from __future__ import annotations

import contextlib
import dataclasses
import io
import itertools
import os
import pathlib
import subprocess
import sys
import tempfile
import unittest
from typing import Any
from unittest import mock

ROOT = pathlib.Path(__file__).resolve().parents[2]
sys.path.insert(0, str(ROOT / 'python'))

import gmsh
import meshio
import numpy as np

from cottontuff.faults import Fault
from cottontuff.mesh import Mesh, boundary, read, write

FOLDER = tempfile.TemporaryDirectory()
HERE = pathlib.Path(FOLDER.name)


@contextlib.contextmanager
def model(size: float = 0.5, **options: float):
    gmsh.initialize()
    try:
        gmsh.option.setNumber('General.Terminal', 0)
        gmsh.option.setNumber('General.NumThreads', 1)
        gmsh.option.setNumber('Mesh.MeshSizeMax', size)
        for name, value in options.items():
            gmsh.option.setNumber(f'Mesh.{name}', value)
        yield gmsh.model.occ
    finally:
        gmsh.finalize()


def save(path: pathlib.Path, version: float, binary: int) -> None:
    gmsh.option.setNumber('Mesh.MshFileVersion', version)
    gmsh.option.setNumber('Mesh.Binary', binary)
    gmsh.write(str(path))


def group(dim: int, tags: list[int], number: int, name: str = '') -> None:
    gmsh.model.addPhysicalGroup(dim, tags, number)
    if name:
        gmsh.model.setPhysicalName(dim, number, name)


def make() -> None:
    """A ball in a box, in groups with names; faces, edges and a corner in groups; by gmsh in all ways of .msh, and by gmsh as .mesh."""
    with model() as occ:
        box, ball = occ.addBox(-1, -1, -1, 2, 2, 2), occ.addSphere(0, 0, 0.1, 0.6)
        occ.fragment([(3, box)], [(3, ball)])
        occ.synchronize()
        volumes = [tag for _, tag in gmsh.model.getEntities(3)]
        inner = gmsh.model.getBoundary([(3, ball)], oriented=False)
        group(3, [ball], 7, 'ball of steel')
        group(3, [tag for tag in volumes if tag != ball], 3, 'box')
        group(2, [tag for _, tag in inner], 11, 'skin')
        group(2, [tag for _, tag in gmsh.model.getEntities(2) if (2, tag) not in inner], 12, 'wall')
        group(1, [tag for _, tag in gmsh.model.getEntities(1)], 21, 'edge')
        group(0, [gmsh.model.getEntities(0)[0][1]], 31, 'corner')
        gmsh.model.mesh.generate(3)
        for version, binary in itertools.product((2.2, 4.1), (0, 1)):
            save(HERE / f'ball-{version}-{"binary" if binary else "text"}.msh', version, binary)
        gmsh.option.setNumber('Mesh.SaveElementTagType', 2)
        gmsh.write(str(HERE / 'ball.mesh'))


def setUpModule() -> None:
    make()
    tetgen_files()


def tetgen_files() -> None:
    """Two tetrahedra with two regions, points numbered from 1."""
    (HERE / 'two.node').write_text('# points\n6 3 1 1\n1 0 0 0 .5 1\n2 1 0 0 .5 1\n3 0 1 0 .5 1\n4 0 0 0.1 .5 1\n5 1 1 1 .25 2\n6 9 9 9 0 0\n# end\n')
    (HERE / 'two.ele').write_text('2 4 1\n1 1 2 3 4 5\n2 2 3 4 5 8\n')


def tearDownModule() -> None:
    FOLDER.cleanup()


MSH = ['ball-2.2-text.msh', 'ball-2.2-binary.msh', 'ball-4.1-text.msh', 'ball-4.1-binary.msh']
CUBE = np.array([[0., 0, 0], [1, 0, 0], [0, 1, 0], [0, 0, 1], [1 / 3, 1, 1e-300], [-0., 2, 5e-324]])
TETS = np.array([[0, 1, 2, 3], [1, 2, 3, 4]])


def tet_sets(mesh: Mesh) -> set[tuple[int, ...]]:
    return {(*sorted(row), region) for row, region in zip(mesh.tets.tolist(), mesh.regions.tolist())}


def plainly(path: pathlib.Path | str) -> Any:
    """meshio's mesh, and nothing printed."""
    with contextlib.redirect_stdout(io.StringIO()), contextlib.redirect_stderr(io.StringIO()):
        return meshio.read(path)


def cells(path: pathlib.Path | str, kind: str, name: str) -> list[tuple[int, ...]]:
    """The cells of a kind with a tag, by meshio."""
    raw = plainly(path)
    rows = [(*corners, int(tag)) for block, tags in zip(raw.cells, raw.cell_data[name]) if block.type == kind for corners, tag in zip(block.data.tolist(), np.ravel(tags))]
    return sorted(rows)


def bits(points: Any) -> bytes:
    return np.ascontiguousarray(points, np.float64).tobytes()


class Test(unittest.TestCase):
    def setUp(self) -> None:
        folder = tempfile.TemporaryDirectory(dir=HERE)
        self.addCleanup(folder.cleanup)
        self.out = pathlib.Path(folder.name)

    def same(self, one: Mesh, other: Mesh) -> None:
        self.assertEqual(bits(one.points), bits(other.points))
        self.assertEqual(tet_sets(one), tet_sets(other))
        self.assertEqual(one.faces.tolist(), other.faces.tolist())
        self.assertEqual(one.lines.tolist(), other.lines.tolist())

    def fault(self, sentence: str, path: pathlib.Path, **options: Any) -> None:
        """The file is refused by this sentence, which starts with its name; nothing is printed."""
        said = io.StringIO()
        with self.assertRaises(Fault) as caught, contextlib.redirect_stdout(said), contextlib.redirect_stderr(said):
            read(path, **options)
        self.assertEqual(str(caught.exception), f'{path}: {sentence}')
        self.assertEqual(said.getvalue(), '')

    def fault_with(self, words: str, path: pathlib.Path, **options: Any) -> None:
        said = io.StringIO()
        with self.assertRaises(Fault) as caught, contextlib.redirect_stdout(said), contextlib.redirect_stderr(said):
            read(path, **options)
        text = str(caught.exception)
        self.assertTrue(text.startswith(f'{path}: '), text)
        self.assertIn(words, text)
        self.assertNotIn('\n', text)
        self.assertEqual(said.getvalue(), '')

    def file(self, name: str, text: str | bytes) -> pathlib.Path:
        path = self.out / name
        path.write_bytes(text.encode() if isinstance(text, str) else text)
        return path


class Reading(Test):
    def test_msh(self) -> None:
        meshes = [read(HERE / name) for name in MSH]
        for mesh in meshes:
            self.assertEqual(set(mesh.regions.tolist()), {3, 7})
            self.assertEqual(mesh.names['ball of steel'].tolist(), [7, 3])
            self.assertEqual(mesh.points.dtype, np.float64)
            self.assertEqual(mesh.tets.dtype, np.int64)
            self.assertEqual(mesh.origin.tolist(), list(range(len(mesh.tets))))
            self.assertGreater(len(mesh.faces), 100)
            self.assertGreater(len(mesh.lines), 2)
        for mesh in meshes[1:]:
            self.assertEqual(len(mesh.tets), len(meshes[0].tets))
        for text, binary in ((meshes[0], meshes[1]), (meshes[2], meshes[3])):  # gmsh's text has sixteen digits, which may be one too few
            self.assertTrue(np.allclose(text.points, binary.points, rtol=1e-15))
            self.same(dataclasses.replace(text, points=binary.points), binary)
        raw = plainly(HERE / MSH[0])
        self.assertEqual(bits(raw.points), bits(meshes[0].points))
        self.assertEqual(raw.get_cells_type('tetra').tolist(), meshes[0].tets.tolist())

    def test_gaps_in_numbers(self) -> None:
        text = '$MeshFormat\n2.2 0 8\n$EndMeshFormat\n$Nodes\n5\n10 0 0 0\n3 1 0 0\n40 0 1 0\n7 0 0 1\n8 5 5 5\n$EndNodes\n$Elements\n1\n1 4 2 6 1 7 40 3 10\n$EndElements\n'
        mesh = read(self.file('gaps.msh', text))
        self.assertEqual(mesh.points.tolist(), [[0, 0, 0], [1, 0, 0], [0, 1, 0], [0, 0, 1], [5, 5, 5]])
        self.assertEqual(mesh.tets.tolist(), [[3, 2, 1, 0]])
        self.assertEqual(mesh.regions.tolist(), [6])
        text = ('$MeshFormat\n4.1 0 8\n$EndMeshFormat\n$Nodes\n2 5 3 40\n3 1 0 3\n10\n3\n40\n0 0 0\n1 0 0\n0 1 0\n2 1 0 2\n7\n8\n0 0 1\n5 5 5\n$EndNodes\n'
                '$Elements\n1 1 1 1\n3 1 4 1\n1 7 40 3 10\n$EndElements\n')
        mesh = read(self.file('gaps4.msh', text))
        self.assertEqual(mesh.tets.tolist(), [[3, 2, 1, 0]])
        self.assertEqual(mesh.points[0].tolist(), [0, 0, 0])
        write(self.out / 'again.msh', mesh)
        again = read(self.out / 'again.msh')
        self.same(mesh, again)

    def test_numbers_of_periodic_nodes(self) -> None:
        text = ONE.format(0, '4 2 1 1 10 7 8 9').replace('\n1 0', '\n10 0').replace('\n2 1', '\n7 1').replace('\n3 0', '\n9 0').replace('\n4 0 0 1', '\n8 0 0 1')
        mesh = read(self.file('a.msh', text + '$Periodic\n1\n0 2 1\n2\n7 10\n9 8\n$EndPeriodic\n'))
        self.assertEqual(mesh.tets.tolist(), [[0, 1, 3, 2]])
        self.assertEqual(mesh.source.periodic[0][3].tolist(), [[1, 0], [2, 3]])
        write(self.out / 'b.msh', mesh)
        self.assertIn('0 2 1\n2\n2 1\n3 4\n', (self.out / 'b.msh').read_text())

    def test_entities_of_several_groups(self) -> None:
        """Version 2.2 has groups by cells, version 4.1 by entities."""
        raw = meshio.Mesh(CUBE, [('tetra', TETS)], cell_data={'gmsh:physical': [np.array([4, 9])], 'gmsh:geometrical': [np.array([1, 1])]})
        raw.write(self.out / 'a.msh', 'gmsh22', binary=False)
        lines = write(self.out / 'b.msh', read(self.out / 'a.msh'), format='msh41')
        self.assertEqual(lines, ['cell data gmsh:geometrical: entities of dimension 3 are numbered anew, for each is in one group in version 4.1'])
        self.assertEqual(read(self.out / 'b.msh').regions.tolist(), [4, 9])

    def test_tetgen(self) -> None:
        for suffix in ('node', 'ele'):
            mesh = read(HERE / f'two.{suffix}')
            self.assertEqual(mesh.tets.tolist(), [[0, 1, 2, 3], [1, 2, 3, 4]])
            self.assertEqual(mesh.regions.tolist(), [5, 8])
            self.assertEqual(mesh.points[3].tolist(), [0, 0, 0.1])
            self.assertEqual(len(mesh.points), 6)

    def test_groups_of_some(self) -> None:
        """Files in which volumes have no groups and surfaces have: meshio can't read those of version 4.1."""
        with model(0.8, SaveAll=1) as occ:
            occ.fragment([(3, occ.addBox(0, 0, 0, 1, 1, 1))], [(3, occ.addBox(1, 0, 0, 1, 1, 1))])
            occ.synchronize()
            group(2, [1], 5, 'wall')
            gmsh.model.mesh.generate(3)
            for version, binary in itertools.product((2.2, 4.1), (0, 1)):
                save(self.out / f'{version}{binary}.msh', version, binary)
        for version, binary in itertools.product((2.2, 4.1), (0, 1)):
            path = self.out / f'{version}{binary}.msh'
            mesh = read(path)
            self.assertEqual(set(mesh.regions.tolist()), {1, 2})
            self.assertEqual(set(read(path, region='gmsh:physical').regions.tolist()), {0})
            self.assertEqual(write(self.out / 'out.msh', mesh), [])
            again = read(self.out / 'out.msh')
            self.same(mesh, again)
            self.assertEqual(mesh.source.physical, again.source.physical)
            self.assertEqual(mesh.source.bounds, again.source.bounds)

    def test_region(self) -> None:
        raw = meshio.Mesh(CUBE, [('tetra', TETS)], cell_data={'material': [np.array([4., 9.])], 'part': [np.array([.5, 1.])], 'v': [np.zeros((2, 3))]})
        raw.write(self.out / 'a.vtu')
        self.assertEqual(read(self.out / 'a.vtu').regions.tolist(), [0, 0])
        self.assertEqual(read(self.out / 'a.vtu', region='material').regions.tolist(), [4, 9])
        self.fault("cell data 'part' is not whole numbers: tetrahedron 0 (the first is 0) has 0.5", self.out / 'a.vtu', region='part')
        self.fault("cell data 'v' is not whole numbers", self.out / 'a.vtu', region='v')
        self.fault("it has no cell data 'matter'; it has material, part, v", self.out / 'a.vtu', region='matter')
        for tags in ('gmsh:physical', 'medit:ref'):  # the chosen data stays beside the format's own
            raw = meshio.Mesh(CUBE, [('triangle', TETS[:, :3]), ('tetra', TETS)], cell_data={'material': [np.array([1., .5]), np.array([4., 9.])], tags: [np.array([1, 2]), np.array([3, 3])]})
            raw.write(self.out / 'c.vtu')
            mesh = read(self.out / 'c.vtu', region='material')
            for format in ('msh22', 'msh41'):
                self.assertEqual(write(self.out / 'c.msh', mesh, format=format), [])
                kept = 'material' if tags == 'gmsh:physical' else 'gmsh:physical'
                self.assertEqual(read(self.out / 'c.msh', region=kept).regions.tolist(), [4, 9])
        meshio.Mesh(CUBE, [('tetra', TETS)], cell_data={'region': [np.array([.5, 1])]}).write(self.out / 'd.vtu')
        self.assertEqual(read(self.out / 'd.vtu').regions.tolist(), [0, 0])
        meshio.Mesh(CUBE, [('tetra', TETS)]).write(self.out / 'b.vtu')
        self.fault("it has no cell data 'x'; it has none", self.out / 'b.vtu', region='x')

    def test_medit_of_version_1(self) -> None:
        """Its coordinates have all digits when tetgen writes them."""
        text = 'MeshVersionFormatted 1\nDimension\n3\nVertices\n4\n0 0 0 1\n0.1 0 0 1\n0 0.30000000000000004 0 2\n0 0 1e-30 0\nCorners\n1\n1\nTetrahedra\n1\n1 2 3 4 9\nEnd\n'
        mesh = read(self.file('one.mesh', text))
        self.assertEqual(mesh.points.tolist(), [[0, 0, 0], [.1, 0, 0], [0, .1 + .2, 0], [0, 0, 1e-30]])
        self.assertEqual(write(self.out / 'out.mesh', mesh), ['Corners: meshio does not read them'])
        self.assertEqual(read(self.out / 'out.mesh').source.point_data['medit:ref'].tolist(), [1, 1, 2, 0])

    def test_format_by_name(self) -> None:
        for given, format in ((MSH[0], 'msh'), (MSH[2], 'msh41'), ('ball.mesh', 'mesh')):
            path = self.file('blob', (HERE / given).read_bytes())  # for meshio a name in b is binary
            self.same(read(path, format=format), read(HERE / given))
        write(path, read(path, format='mesh'), format='vtk')
        self.same(read(path, format='vtk'), read(HERE / 'ball.mesh'))


class RoundTrip(Test):
    def test_same_format(self) -> None:
        """There and back: version, mode, points, cells with tags, names; twice gives the same bytes."""
        for name in MSH:
            with self.subTest(name):
                mesh = read(HERE / name)
                self.assertEqual(write(self.out / name, mesh), [])
                again = read(self.out / name)
                self.same(mesh, again)
                self.assertEqual((mesh.source.version, mesh.source.binary), (again.source.version, again.source.binary))
                self.assertEqual({key: list(value) for key, value in mesh.names.items()}, {key: list(value) for key, value in again.names.items()})
                for kind, tag in itertools.product(('vertex', 'line', 'triangle', 'tetra'), ('gmsh:physical', 'gmsh:geometrical')):
                    self.assertEqual(cells(HERE / name, kind, tag), cells(self.out / name, kind, tag))
                write(self.out / 'twice.msh', again)
                self.assertEqual((self.out / name).read_bytes(), (self.out / 'twice.msh').read_bytes())

    def test_tetgen_without_numbers(self) -> None:
        """A pair of tetgen's in which tetrahedra have no number gets none."""
        (self.out / 'a.node').write_text('5 3 0 0\n1 0 0 0\n2 1 0 0\n3 0 1 0\n4 0 0 1\n5 0 0 -1\n')
        (self.out / 'a.ele').write_text('2 4 0\n1 1 2 3 4\n2 1 3 2 5\n')
        self.assertEqual(write(self.out / 'b.ele', read(self.out / 'a.ele')), [])
        self.assertIn('\n2 4 0\n', (self.out / 'b.ele').read_text())

    def test_gmsh_reads_ours(self) -> None:
        for name in MSH:
            write(self.out / name, read(HERE / name))
            found = []
            for path in (HERE / name, self.out / name):
                with model():
                    gmsh.open(str(path))
                    groups = sorted((dim, tag, gmsh.model.getPhysicalName(dim, tag), sorted(gmsh.model.getEntitiesForPhysicalGroup(dim, tag))) for dim, tag in gmsh.model.getPhysicalGroups())
                    counts = [sum(map(len, gmsh.model.mesh.getElements(dim)[1])) for dim in range(4)]
                    found.append((groups, counts, len(gmsh.model.mesh.getNodes()[0])))
            self.assertEqual(found[0], found[1])

    def test_each_into_each(self) -> None:
        """All formats into all: what a format has no place for, and nothing else, is missing."""
        first = read(HERE / MSH[0])
        formats = {'a.msh': None, 'b.msh': 'msh41', 'c.vtk': None, 'd.vtu': None, 'e.mesh': None, 'f.node': None}
        for name, format in formats.items():
            write(self.out / name, first, format=format)
        for (name, _), (other, format) in itertools.product(formats.items(), repeat=2):
            with self.subTest(f'{name} into {other}'):
                mesh = read(self.out / name)
                self.assertEqual(tet_sets(mesh), tet_sets(first))
                self.assertEqual(bits(mesh.points), bits(first.points))
                path = self.out / f'x{other}'
                write(path, mesh, format=format)
                again = read(path)
                self.assertEqual(bits(again.points), bits(first.points))
                self.assertEqual(tet_sets(again), tet_sets(first))
                if not path.suffix == '.node':
                    self.assertEqual(again.faces.tolist(), mesh.faces.tolist())
                    self.assertEqual(again.lines.tolist(), mesh.lines.tolist())
                    if not name == 'f.node':
                        self.tags_kept(path)
                if name.endswith('msh') and other.endswith('msh'):
                    self.assertEqual({key: list(value) for key, value in first.names.items()}, {key: list(value) for key, value in again.names.items()})

    def tags_kept(self, path: pathlib.Path) -> None:
        tag = 'medit:ref' if path.suffix == '.mesh' else None
        for kind in ('triangle', 'line'):
            raw = plainly(path)
            name = tag or next(x for x in ('gmsh:physical', 'medit:ref') if x in raw.cell_data)
            self.assertEqual(cells(path, kind, name), cells(HERE / MSH[0], kind, 'gmsh:physical'))

    def test_lines_said(self) -> None:
        mesh = read(HERE / MSH[2])
        names = [f"name '{name}'" for name in mesh.names]
        for suffix, format in (('vtk', 'vtk'), ('vtu', 'vtu'), ('mesh', 'mesh'), ('ele', 'tetgen')):
            lost = {'mesh': ["1 cell 'vertex'", 'cell data gmsh:geometrical'], 'ele': ["1 cell 'vertex'", f"{len(mesh.lines)} cells 'line'", f"{len(mesh.faces)} cells 'triangle'", 'cell data gmsh:geometrical']}.get(suffix, [])
            self.assertEqual(sorted(write(self.out / f'a.{suffix}', mesh)), sorted(f"{what}: {format} has no place for {'them' if ' cells ' in what else 'it'}" for what in [*lost, *names]))
        raw = meshio.read(self.out / 'a.vtk')
        self.assertEqual(sorted(raw.cell_data), ['gmsh:geometrical', 'gmsh:physical'])
        self.assertEqual(raw.point_data, {})

    def test_modes_of_vtk(self) -> None:
        raw = meshio.Mesh(CUBE, [('triangle', TETS[:, :3]), ('tetra', TETS)], point_data={'heat': np.sqrt(np.arange(6) / 7)}, cell_data={'region': [np.array([0, 0]), np.array([4, 9])], 'f': [np.array([.1, .2]), np.array([1 / 3, 1 / 7])]})
        for name, writer, options in (('a.vtk', 'vtk', {'binary': True}), ('b.vtk', 'vtk42', {'binary': True}), ('c.vtk', 'vtk42', {'binary': False}), ('d.vtk', 'vtk', {'binary': False}), ('e.vtu', 'vtu', {'binary': True}), ('f.vtu', 'vtu', {'binary': False})):
            with self.subTest(name):
                with contextlib.redirect_stderr(io.StringIO()):
                    meshio.write(self.out / name, raw.copy(), writer, **options)
                mesh = read(self.out / name)
                self.assertEqual(mesh.regions.tolist(), [4, 9])
                mesh.points = CUBE.copy()  # meshio's own text of .vtu is rounded
                self.assertEqual(write(self.out / f'x{name}', mesh), [])
                again = read(self.out / f'x{name}')
                self.same(mesh, again)
                self.assertEqual((mesh.source.version, mesh.source.binary), (again.source.version, again.source.binary))
                self.assertEqual(again.source.binary, options['binary'])
                self.assertEqual(bits(mesh.source.point_data['heat']), bits(again.source.point_data['heat']))
                self.assertEqual(bits(mesh.source.blocks[1].data['f']), bits(again.source.blocks[1].data['f']))

    def test_mixed(self) -> None:
        """Hexahedra, prisms, pyramids, quads and vertices; doubled points, a point of no cell, data of points and cells."""
        rng = np.random.default_rng(1)
        points = np.concatenate([CUBE, rng.standard_normal((20, 3))])
        points[7] = points[3]
        blocks = [('vertex', [[5]]), ('line', [[0, 1]]), ('tetra', [[0, 1, 2, 3]]), ('hexahedron', [list(range(8, 16))]), ('wedge', [list(range(3, 9))]), ('quad', [[9, 8, 7, 6]]), ('tetra', [[7, 12, 11, 10], [4, 7, 8, 9]]), ('pyramid', [[1, 2, 5, 8, 9]])]
        tags = [np.arange(len(rows)) + 10 * i for i, (_, rows) in enumerate(blocks)]
        tags[6][:] = 2
        data = {'gmsh:physical': tags, 'gmsh:geometrical': [x.copy() for x in tags], 'speed': [rng.standard_normal((len(rows), 3)) for _, rows in blocks]}
        raw = meshio.Mesh(points, [(kind, np.array(rows)) for kind, rows in blocks], point_data={'heat': rng.standard_normal(26)}, cell_data=data)
        raw.write(self.out / 'mixed.msh', 'gmsh22', binary=False)
        mesh = read(self.out / 'mixed.msh')
        self.assertEqual(mesh.tets.tolist(), [[0, 1, 2, 3], [7, 12, 11, 10], [4, 7, 8, 9]])
        for name, format in (('x.msh', 'msh22'), ('y.msh', 'msh41'), ('z.vtk', None), ('w.vtu', None)):
            self.assertEqual(write(self.out / name, mesh, format=format), [])
            again = read(self.out / name)  # meshio 5.0.0 alone can't read cell data from version 2.2
            self.assertEqual(bits(again.points), bits(points))
            found = [(block.kind, corners) for block in again.source.blocks for corners in block.corners.tolist()]
            self.assertEqual(found, [(kind, corners) for kind, rows in blocks for corners in rows])
            self.assertEqual(bits(np.concatenate([block.data['speed'] for block in again.source.blocks])), bits(np.concatenate(data['speed'])))
            self.assertEqual(np.concatenate([block.data['gmsh:physical'] for block in again.source.blocks]).tolist(), np.concatenate(tags).tolist())
            self.assertEqual(bits(again.source.point_data['heat']), bits(raw.point_data['heat']))
        lines = write(self.out / 'm.mesh', mesh)
        self.assertEqual(sorted(lines), [f'{x}: mesh has no place for it' for x in ("1 cell 'vertex'", 'cell data gmsh:geometrical', 'cell data speed', 'point data heat')])
        found = sorted((block.type, corners) for block in meshio.read(self.out / 'm.mesh').cells for corners in block.data.tolist())
        self.assertEqual(found, sorted((kind, corners) for kind, rows in blocks for corners in rows if kind != 'vertex'))

    def test_arrays(self) -> None:
        """A mesh that is from no file: regions under the name that fits."""
        mesh = Mesh(CUBE, TETS, np.array([4, 9]), faces=TETS[:1, :3], lines=np.array([[0, 4]]), names={'steel': np.array([4, 3])})
        for name, format, region in (('a.msh', None, 'gmsh:physical'), ('b.msh', 'msh41', 'gmsh:geometrical'), ('c.vtk', None, 'region'), ('d.vtu', None, 'region'), ('e.mesh', None, 'medit:ref'), ('f.meshb', None, 'medit:ref'), ('g.ele', None, 'tetgen:ref')):
            with self.subTest(name):
                write(self.out / name, mesh, format=format)
                for again in (read(self.out / name), read(self.out / name, region=region)):
                    self.assertEqual(bits(again.points), bits(CUBE))
                    self.assertEqual(again.tets.tolist(), TETS.tolist())
                    self.assertEqual(again.regions.tolist(), [4, 9])
                    if name != 'g.ele':
                        self.assertEqual((again.faces.tolist(), again.lines.tolist()), ([[0, 1, 2]], [[0, 4]]))
                    if name.endswith('msh'):
                        self.assertEqual(list(again.names['steel']), [4, 3])

    def test_periodic(self) -> None:
        with model(0.6) as occ:
            occ.addBox(0, 0, 0, 1, 1, 1)
            occ.synchronize()
            gmsh.model.mesh.setPeriodic(2, [2], [1], [1, 0, 0, 1, 0, 1, 0, 0, 0, 0, 1, 0, 0, 0, 0, 1])
            gmsh.model.mesh.generate(3)
            for version, binary in itertools.product((2.2, 4.1), (0, 1)):
                save(self.out / f'{version}{binary}.msh', version, binary)
        for name in ('2.20.msh', '4.10.msh', '4.11.msh'):
            mesh = read(self.out / name)
            self.assertEqual(write(self.out / 'x.msh', mesh), [])
            again = read(self.out / 'x.msh')
            pairs = [row[3].tolist() for row in mesh.source.periodic]
            self.assertEqual([row[3].tolist() for row in again.source.periodic], pairs)
            face = next(row[3] for row in mesh.source.periodic if row[0] == 2)
            self.assertTrue(np.allclose(mesh.points[face[:, 0]], mesh.points[face[:, 1]] + [1, 0, 0]))


class NewTets(Test):
    def renewed(self, mesh: Mesh, rows: list[int]) -> Mesh:
        """The mesh with these tetrahedra at the front, as new ones."""
        order = np.array([*rows, *(i for i in range(len(mesh.tets)) if i not in set(rows))])
        origin = order.copy()
        origin[:len(rows)] = -1
        tets = mesh.tets[order].copy()
        tets[:len(rows)] = tets[:len(rows), [1, 0, 3, 2]]
        return dataclasses.replace(mesh, tets=tets, regions=mesh.regions[order], origin=origin)

    def test_place_and_tags(self) -> None:
        """New tetrahedra stand behind the others of their region, with its tags."""
        for name in MSH:
            with self.subTest(name):
                mesh = read(HERE / name)
                ball = np.flatnonzero(mesh.regions == 7)[:3].tolist()
                box = np.flatnonzero(mesh.regions == 3)[2:4].tolist()
                new = self.renewed(mesh, ball + box)
                self.assertEqual(write(self.out / name, new), [])
                again = read(self.out / name)
                self.assertEqual(tet_sets(again), tet_sets(mesh))
                self.assertEqual(boundary(again).tolist(), boundary(mesh).tolist())
                for tag in ('gmsh:physical', 'gmsh:geometrical'):
                    self.assertEqual(self.tagged(HERE / name, tag), self.tagged(self.out / name, tag))
                kept = [tuple(row) for row in mesh.tets[[i for i in range(len(mesh.tets)) if i not in ball + box]].tolist()]
                fresh = {tuple(row) for row in new.tets[:5].tolist()}
                found = [tuple(row) for row in again.tets.tolist()]
                self.assertEqual([row for row in found if row not in fresh], kept)
                if '4.1' in name:  # a block for each volume
                    for region, rows in ((7, new.tets[:3]), (3, new.tets[3:5])):
                        self.assertEqual(again.tets[again.regions == region][-len(rows):].tolist(), rows.tolist())
                else:
                    self.assertEqual(found[-5:], [tuple(row) for row in new.tets[:5].tolist()])

    def tagged(self, path: pathlib.Path, tag: str) -> list[tuple[int, ...]]:
        return sorted((*sorted(row[:4]), row[4]) for row in cells(path, 'tetra', tag))

    def test_data(self) -> None:
        """Cell data of one value in a region is carried, other data is dropped there and stays elsewhere."""
        blocks = [('triangle', np.array([[0, 1, 2]])), ('tetra', np.array([[0, 1, 2, 3], [1, 2, 3, 4]])), ('tetra', np.array([[1, 2, 4, 5], [0, 2, 3, 5]]))]
        data = {'region': [np.array([0]), np.array([1, 2]), np.array([1, 2])], 'one': [np.array([.5]), np.array([.25, .75]), np.array([.25, .75])], 'two': [np.array([5.]), np.array([1., 2]), np.array([1., 3])], 'n': [np.array([5]), np.array([1, 2]), np.array([1, 3])]}
        meshio.Mesh(CUBE, blocks, cell_data=data).write(self.out / 'a.vtu')
        mesh = read(self.out / 'a.vtu')
        new = self.renewed(mesh, [0, 1])
        self.assertEqual(write(self.out / 'b.vtu', new), ['cell data two differs within region 2: dropped for its 2 tetrahedra, which get nan', 'cell data n differs within region 2: dropped for its 2 tetrahedra, which get 0'])
        again = read(self.out / 'b.vtu').source.blocks
        joined = {name: np.concatenate([block.data[name] for block in again]) for name in data}
        self.assertEqual(joined['region'].tolist(), [0, 1, 2, 1, 2])
        self.assertEqual(joined['one'].tolist(), [.5, .25, .75, .25, .75])
        np.testing.assert_array_equal(joined['two'], [5, 1, np.nan, 1, np.nan])
        self.assertEqual(joined['n'].tolist(), [5, 1, 0, 1, 0])
        self.assertEqual(write(self.out / 'c.vtu', self.renewed(mesh, [0])), [])

    def test_last_block(self) -> None:
        """Blocks of tetrahedra with triangles between them: a new one goes to the last that has its region."""
        blocks = [('tetra', np.array([[0, 1, 2, 3], [1, 2, 3, 4]])), ('triangle', np.array([[0, 1, 2]])), ('tetra', np.array([[1, 2, 4, 5]])), ('line', np.array([[0, 1]])), ('tetra', np.array([[0, 2, 3, 5]]))]
        meshio.Mesh(CUBE, blocks, cell_data={'region': [np.array(tags) for tags in ([1, 2], [0], [1], [0], [3])]}).write(self.out / 'a.vtu')
        new = self.renewed(read(self.out / 'a.vtu'), [1, 0])
        self.assertEqual(write(self.out / 'b.vtu', new), [])
        found = [(block.kind, block.corners.tolist(), block.data['region'].tolist()) for block in read(self.out / 'b.vtu').source.blocks]
        self.assertEqual(found, [('tetra', [[2, 1, 4, 3]], [2]), ('triangle', [[0, 1, 2]], [0]), ('tetra', [[1, 2, 4, 5], [1, 0, 3, 2]], [1, 1]), ('line', [[0, 1]], [0]), ('tetra', [[0, 2, 3, 5]], [3])])

    def test_two_volumes_in_a_group(self) -> None:
        with model(0.8) as occ:
            occ.fragment([(3, occ.addBox(0, 0, 0, 1, 1, 1))], [(3, occ.addBox(1, 0, 0, 1, 1, 1)), (3, occ.addBox(2, 0, 0, 1, 1, 1))])
            occ.synchronize()
            group(3, [2, 3], 5, 'pair')
            group(3, [1], 6)
            gmsh.model.mesh.generate(3)
            for version in (2.2, 4.1):
                save(self.out / f'{version}.msh', version, 0)
        for version in (2.2, 4.1):
            mesh = read(self.out / f'{version}.msh')
            self.assertEqual(write(self.out / 'same.msh', mesh), [])
            self.assertEqual(self.tagged(self.out / 'same.msh', 'gmsh:geometrical'), self.tagged(self.out / f'{version}.msh', 'gmsh:geometrical'))
            new = self.renewed(mesh, [int(np.flatnonzero(mesh.regions == 5)[0])])
            count = int((mesh.regions == 5).sum())
            self.assertEqual(write(self.out / 'out.msh', new), [f'cell data gmsh:geometrical differs within region 5: 2, the least, is written for its {count} tetrahedra'])
            again = read(self.out / 'out.msh')
            self.assertEqual(tet_sets(again), tet_sets(mesh))
            self.assertEqual({row[4] for row in cells(self.out / 'out.msh', 'tetra', 'gmsh:geometrical')}, {1, 2})

    def test_volume_without_points(self) -> None:
        """All points of a coarse volume are on its surface: meshio would write no such entity."""
        with model(3) as occ:
            occ.fragment([(3, occ.addBox(0, 0, 0, 1, 1, 1))], [(3, occ.addBox(1, 0, 0, 1, 1, 1))])
            occ.synchronize()
            group(3, [1], 5)
            group(3, [2], 6)
            group(2, [1], 5)
            gmsh.model.mesh.generate(3)
            save(self.out / 'a.msh', 4.1, 0)
        mesh = read(self.out / 'a.msh')
        write(self.out / 'b.msh', self.renewed(mesh, [0, 1]))
        self.assertEqual(tet_sets(read(self.out / 'b.msh')), tet_sets(mesh))

    def test_vtk_and_others(self) -> None:
        mesh = read(HERE / MSH[1])
        for suffix in ('vtk', 'vtu', 'mesh', 'node'):
            write(self.out / f'a.{suffix}', mesh)
            given = read(self.out / f'a.{suffix}')
            self.assertEqual(write(self.out / f'b.{suffix}', self.renewed(given, [5, 50])), [])
            self.assertEqual(tet_sets(read(self.out / f'b.{suffix}')), tet_sets(mesh))


ONE = '$MeshFormat\n2.2 0 8\n$EndMeshFormat\n$Nodes\n4\n1 {} 0 0\n2 1 0 0\n3 0 1 0\n4 0 0 1\n$EndNodes\n$Elements\n1\n1 {}\n$EndElements\n'


class Faults(Test):
    def test_files(self) -> None:
        self.fault('No such file or directory', self.out / 'none.msh')
        self.fault('it is a folder', self.out, format='msh')
        (self.out / 'x.msh').mkdir()
        self.fault('it is a folder', self.out / 'x.msh')
        self.fault("the suffix '.stp' is unknown; those taken are .msh, .vtk, .vtu, .mesh, .meshb, .node, .ele", self.file('a.stp', 'x'))
        self.fault("the format 'abc' is unknown; those taken are msh, msh22, msh41, vtk, vtu, mesh, tetgen", self.file('a.msh', 'x'), format='abc')
        self.fault("tetgen's files end in .node and .ele", self.file('a.txt', 'x'), format='tetgen')
        for suffix in ('msh', 'vtk', 'vtu', 'mesh', 'meshb', 'node', 'ele'):
            self.fault('it is empty', self.file(f'e.{suffix}', ''))
        os.mkfifo(self.out / 'pipe.msh')
        self.fault('it is no regular file', self.out / 'pipe.msh')

    def test_unreadable(self) -> None:
        with mock.patch('builtins.open', side_effect=PermissionError(13, os.strerror(13))):
            self.fault('Permission denied', HERE / MSH[0])

    def test_tetgen(self) -> None:
        path = self.file('a.node', (HERE / 'two.node').read_bytes())
        with self.assertRaisesRegex(Fault, r'a\.ele: No such file'):
            read(path)
        self.file('a.ele', '# nothing\n\n')
        with self.assertRaisesRegex(Fault, r'a\.ele: it is empty'):
            read(path)
        self.file('a.ele', '1 10 0\n1 1 2 3 4 5 6 1 2 3 4\n')
        self.fault('tetra10: tetrahedra of second order are not taken; save the mesh with tetrahedra of four corners', path)
        self.file('a.ele', '1 4 0\n1 1 2 3 9\n')
        self.fault('tetrahedron 0 (the first is 0) names point 8 that is absent: there are 6 points', path)
        self.file('a.ele', '1 4 0\n1 1 2 3 0\n')
        self.fault('tetrahedron 0 (the first is 0) names a point that is absent: there are 6 points', path)
        self.file('a.node', '4 2 0 0\n1 0 0\n2 0 0\n3 0 0\n4 0 0\n')
        self.fault('its points have 2 coordinates; 3 are needed', path)

    def test_garbage(self) -> None:
        noise = bytes(np.random.default_rng(5).integers(0, 256, 4000, np.uint8))
        for suffix in ('msh', 'vtk', 'vtu', 'mesh', 'meshb', 'node'):
            self.file('g.ele', noise)
            self.fault_with("it can't be read as", self.file(f'g.{suffix}', noise))
            self.fault_with("it can't be read as", self.file(f'g.{suffix}', 'hello\n'))

    def test_cut(self) -> None:
        """Cut anywhere, a file is refused or, where the cut takes no part of the mesh, read as it is."""
        mesh = read(HERE / MSH[0])
        for suffix in ('vtk', 'vtu', 'mesh', 'meshb', 'node'):
            write(HERE / f'cut.{suffix}', mesh)
        names = [*MSH, 'cut.vtk', 'cut.vtu', 'cut.mesh', 'cut.meshb', 'cut.node', 'cut.ele']
        for name in names:
            whole = (HERE / name).read_bytes()
            self.file('c.node', (HERE / 'cut.node').read_bytes())
            self.file('c.ele', (HERE / 'cut.ele').read_bytes())
            for part in (.001, .1, .3, .5, .7, .9, .97):
                with self.subTest(f'{name} {part}'):
                    self.fault_with('', self.file(f'c{pathlib.Path(name).suffix}', whole[:int(len(whole) * part)]))
        text = (HERE / MSH[0]).read_bytes()
        self.fault('it is cut off: $Elements not closed by $EndElements', self.file('d.msh', text[:text.index(b'$EndElements') - 3]))

        self.fault('it is cut off: End-of-file reached before GmfEnd keyword', self.file('d.meshb', (HERE / 'cut.meshb').read_bytes()[:-12]))
        text = (HERE / 'cut.mesh').read_text()
        self.assertIn("the file has no 'End': it may be cut off", write(self.out / 'x.vtk', read(self.file('d.mesh', text.replace('\nEnd\n', '\n')))))

    def test_cells(self) -> None:
        self.fault('it has no tetrahedra', self.file('a.msh', ONE.format(0, '2 2 1 1 1 2 3')))
        self.fault('point 0 (the first is 0) has x = nan', self.file('a.msh', ONE.format('nan', '4 2 1 1 1 2 3 4')))
        self.fault('point 0 (the first is 0) has x = inf', self.file('a.msh', ONE.format('1e999', '4 2 1 1 1 2 3 4')))
        self.fault('tetrahedron 0 (the first is 0) has point 1 twice', self.file('a.msh', ONE.format(0, '4 2 1 1 1 2 3 2')))
        self.fault('an element names a node that is absent', self.file('a.msh', ONE.format(0, '4 2 1 1 1 2 3 9')))
        self.fault('an element names a node that is absent', self.file('a.msh', ONE.format(0, '4 2 1 1 1 2 3 0')))
        self.fault('tetrahedron 0 (the first is 0) names a point that is absent: there are 4 points', self.file('a.msh', ONE.format(0, '4 2 1 1 1 2 3 4').replace('4 0 0 1\n', '6 0 0 1\n')))
        for kind, order in (('tetra10', 'second'), ('tetra20', 'third')):
            with contextlib.redirect_stderr(io.StringIO()):
                meshio.Mesh(np.random.default_rng(1).random((20, 3)), [(kind, np.arange(int(kind[5:]))[None])]).write(self.out / 'b.msh', 'gmsh22')
            self.fault(f'{kind}: tetrahedra of {order} order are not taken; save the mesh with tetrahedra of four corners', self.out / 'b.msh')
        meshio.Mesh(CUBE, [('tetra', np.array([[0, 1, 2, 77]])), ('triangle', np.array([[0, 1, 2]]))]).write(self.out / 'c.vtu')
        self.fault('tetrahedron 0 (the first is 0) names point 77 that is absent: there are 6 points', self.out / 'c.vtu')
        meshio.Mesh(CUBE, [('tetra', TETS), ('triangle', np.array([[0, 1, 2], [0, 1, -5]]))]).write(self.out / 'c.vtu')
        self.fault('triangle 1 (the first is 0) names a point that is absent: there are 6 points', self.out / 'c.vtu')

    def test_flat(self) -> None:
        self.fault('its points have 2 coordinates; 3 are needed', self.file('a.mesh', 'MeshVersionFormatted 2\nDimension 2\nVertices\n3\n0 0 1\n1 0 1\n0 1 1\nTriangles\n1\n1 2 3 1\nEnd\n'))

    def test_partitions(self) -> None:
        with model(0.8) as occ:
            occ.addBox(0, 0, 0, 1, 1, 1)
            occ.synchronize()
            gmsh.model.mesh.generate(3)
            gmsh.model.mesh.partition(2)
            save(self.out / 'a.msh', 4.1, 0)
            save(self.out / 'b.msh', 2.2, 0)
        self.fault('a partitioned mesh of version 4.1 is not taken; save it without partitions', self.out / 'a.msh')
        self.assertEqual(write(self.out / 'c.msh', read(self.out / 'b.msh')), ["The file contains tag data that couldn't be processed"])

    def test_data_of_some(self) -> None:
        """Data that is not for all points or cells: meshio would refuse the file."""
        for version in (2.2, 4.1):
            write(self.out / 'a.msh', Mesh(CUBE, TETS, np.array([1, 2])), format=f'msh{version * 10:.0f}')
            data = '${0}Data\n1\n"{1}"\n1\n0\n3\n0\n1\n1\n1 5\n$End{0}Data\n'
            path = self.file('b.msh', (self.out / 'a.msh').read_text() + data.format('Node', 'heat') + data.format('Element', 'load'))
            self.assertEqual(write(self.out / 'c.msh', read(path)), ['point data heat: it is not for all points, and left out', 'cell data load: it is not for all cells, and left out'])

    def test_names(self) -> None:
        path = self.file('a.msh', ONE.format(0, '4 2 1 1 1 2 3 4').replace('$Nodes', '$PhysicalNames\n2\n2 5 "wall"\n3 1 "wall"\n$EndPhysicalNames\n$Nodes'))
        self.assertEqual(write(self.out / 'b.msh', read(path)), ["the name 'wall' stands for several groups: the last is kept"])

    def test_polygons(self) -> None:
        text = '# vtk DataFile Version {}\nt\nASCII\nDATASET UNSTRUCTURED_GRID\nPOINTS 5 double\n0 0 0 1 0 0 0 1 0 0 0 1 1 1 1\nCELLS 2 10\n4 0 1 2 3\n4 1 2 3 4\nCELL_TYPES 2\n10\n7\nCELL_DATA 2\nSCALARS region int\nLOOKUP_TABLE default\n5\n6\n'
        self.fault('cell data next to polygons is not read from this version; save it as version 5.1', self.file('a.vtk', text.format('3.0')))

    def test_pieces(self) -> None:
        meshio.Mesh(CUBE, [('tetra', TETS)]).write(self.out / 'a.vtu')
        text = (self.out / 'a.vtu').read_text()
        piece = text[text.index('<Piece'):text.index('</Piece>') + 8]
        self.fault('it has more than one piece; a file of one piece is needed', self.file('b.vtu', text.replace(piece, piece + piece)))


LIMITED = '''
import resource, signal, sys
sys.path.insert(0, sys.argv[1])
from cottontuff.mesh import read, write
from cottontuff.faults import Fault
mesh = read(sys.argv[2])
signal.signal(signal.SIGXFSZ, signal.SIG_IGN)
for limit in sys.argv[4:]:
    resource.setrlimit(resource.RLIMIT_FSIZE, (int(limit), -1))
    try:
        write(sys.argv[3], mesh)
    except Fault as fault:
        print(fault)
'''


class Writing(Test):
    def listing(self) -> list[str]:
        return sorted(path.name for path in self.out.iterdir())

    def test_disk_is_full(self) -> None:
        """Every format, by a limit on the size of files: OUT stays, nothing is left beside it."""
        for name in (*MSH, 'a.vtk', 'a.vtu', 'a.mesh', 'a.meshb', 'a.node'):
            given = HERE / name if name.startswith('ball') else HERE / MSH[0]
            path = self.out / name
            write(path, read(given))
            size = path.stat().st_size
            path.write_text('old')
            before = self.listing()
            limits = [0, 10, 5000, size // 2, size - 5000, size - 20, size - 1]
            run = subprocess.run([sys.executable, '-c', LIMITED, ROOT / 'python', given, path, *map(str, limits)], capture_output=True, text=True)
            self.assertEqual((run.stdout, run.stderr), (f'{path}: not written: File too large\n' * len(limits), ''))
            self.assertEqual(path.read_text(), 'old')
            self.assertEqual(self.listing(), before)

    def test_no_space(self) -> None:
        path = self.file('a.vtk', 'old')
        with mock.patch('meshio.write', side_effect=OSError(28, os.strerror(28))), self.assertRaises(Fault) as caught:
            write(path, read(HERE / MSH[0]))
        self.assertEqual(str(caught.exception), f'{path}: not written: No space left on device')

    def test_interrupt(self) -> None:
        for error in (KeyboardInterrupt, SystemExit, ValueError('odd')):
            for name in ('a.vtk', 'a.node'):
                path = self.file(name, 'old')
                before = self.listing()

                def broken(to: pathlib.Path, *_: Any, **__: Any) -> None:
                    pathlib.Path(to).write_text('half')
                    raise error
                with mock.patch('meshio.write', side_effect=broken), self.assertRaises(KeyboardInterrupt if error is KeyboardInterrupt else Fault):
                    write(path, read(HERE / MSH[0]))
                self.assertEqual(path.read_text(), 'old')
                self.assertEqual(self.listing(), before)

    def refused(self, sentence: str, path: pathlib.Path, mesh: Mesh, **options: Any) -> None:
        with self.assertRaises(Fault) as caught:
            write(path, mesh, **options)
        self.assertEqual(str(caught.exception), f'{path}: {sentence}')

    def test_paths(self) -> None:
        mesh = Mesh(CUBE, TETS, np.array([1, 2]))
        self.refused('not written: No such file or directory', self.out / 'no' / 'a.vtk', mesh)
        (self.out / 'd.vtk').mkdir()
        self.refused('not written: it is a folder', self.out / 'd.vtk', mesh)
        os.mkfifo(self.out / 'p.vtk')
        self.refused('not written: it is no regular file', self.out / 'p.vtk', mesh)
        self.refused("the suffix '.xyz' is unknown; those taken are .msh, .vtk, .vtu, .mesh, .meshb, .node, .ele", self.out / 'a.xyz', mesh)
        (self.out / 'to.vtk').write_text('old')
        (self.out / 'link.vtk').symlink_to('to.vtk')
        (self.out / 'to.vtk').chmod(0o640)
        write(self.out / 'link.vtk', mesh)
        self.assertTrue((self.out / 'link.vtk').is_symlink())
        self.assertEqual((self.out / 'to.vtk').stat().st_mode & 0o777, 0o640)
        self.assertEqual(read(self.out / 'to.vtk').regions.tolist(), [1, 2])
        self.assertEqual(self.listing(), ['d.vtk', 'link.vtk', 'p.vtk', 'to.vtk'])

    def test_wrong_meshes(self) -> None:
        path = self.out / 'a.msh'
        self.refused('the mesh to write has no tetrahedra of four corners', path, Mesh(CUBE, TETS[:0], np.zeros(0, np.int64)))
        self.refused('the mesh to write has 2 tetrahedra and regions of shape (1,)', path, Mesh(CUBE, TETS, np.array([1])))
        self.refused('tetrahedron 1 (the first is 0) names point 4 that is absent: there are 4 points', path, Mesh(CUBE[:4], TETS, np.array([1, 1])))
        self.refused('not written: region 5000000000 does not fit into 32 bits', path, Mesh(CUBE, TETS, np.array([1, 5000000000])))
        given = read(HERE / 'two.node')
        self.refused('the origins of the mesh to write are not rows of its file', path, dataclasses.replace(given, origin=np.array([0, 7])))


class Boundary(Test):
    def test_against_a_count(self) -> None:
        mesh = read(HERE / MSH[0])
        count: dict[tuple[int, ...], int] = {}
        for row, region in zip(mesh.tets.tolist(), mesh.regions.tolist()):
            for face in itertools.combinations(sorted(row), 3):
                count[(*face, region)] = count.get((*face, region), 0) + 1
        self.assertEqual(boundary(mesh).tolist(), sorted(list(face) for face, n in count.items() if n == 1))
        self.assertEqual(boundary(mesh).dtype, np.int64)


if __name__ == '__main__':
    unittest.main()
