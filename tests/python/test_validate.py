#!/usr/bin/python3
"""The independent reader finds each kind of fault that is put in by hand, and finds nothing where tetrahedra are exchanged lawfully.

    tests/python/test_validate.py
"""
from __future__ import annotations

import itertools
import pathlib
import subprocess
import sys
import tempfile
import unittest
from typing import Any, Callable, NamedTuple

import meshio
import numpy as np

sys.path.insert(0, str(pathlib.Path(__file__).resolve().parent))
sys.dont_write_bytecode = True  # the checkout stays clean
import validate  # noqa: E402

SIDE = 3
TETRA, TRIANGLE, LINE = 0, 1, 2  # the blocks of the mesh
NAMES = {'left': (1, 3), 'right': (2, 3), 'skin': (10, 2), 'between': (11, 2), 'sheet': (12, 2), 'wire': (13, 1)}
Tet = tuple[int, ...]


class Tets(NamedTuple):
    """Tetrahedra and the region of each."""

    corners: list[Tet]
    regions: list[int]


def number(x: int, y: int, z: int) -> int:
    return (x * (SIDE + 1) + y) * (SIDE + 1) + z


def grid_points() -> np.ndarray:
    """A grid, its points out of line by up to two sixteenths, so that tetrahedra can be exchanged."""
    rows = [(16 * x + (5 * y + 3 * z) % 5 - 2, 16 * y + (7 * x + 2 * z) % 5 - 2, 16 * z + (3 * x + 4 * y) % 5 - 2) for x, y, z in itertools.product(range(SIDE + 1), repeat=3)]
    return np.array(rows) / 16


def grid_tets() -> Tets:
    """Six tetrahedra in each cube, all along the same diagonal, with D above 0; the cubes of the last layer in x are another region."""
    corners, regions = [], []
    for corner in itertools.product(range(SIDE), repeat=3):
        for order in itertools.permutations(range(3)):
            at, path = list(corner), [number(*corner)]
            for axis in order:
                at[axis] += 1
                path.append(number(*at))
            even = order in ((0, 1, 2), (1, 2, 0), (2, 0, 1))
            corners.append(tuple(path) if even else (path[1], path[0], path[2], path[3]))
            regions.append(2 if corner[0] == SIDE - 1 else 1)
    return Tets(corners, regions)


def d(points: np.ndarray, tet: Tet) -> float:
    a, b, c, e = points[list(tet)]
    return float(np.dot(b - a, np.cross(c - a, e - a)))  # exact: few sixteenths


def three_for_two(points: np.ndarray, tets: Tets) -> tuple[Tets, Tet, Tet]:
    """The mesh with three tetrahedra in the place of two neighbours of one region, the face that went, the edge that came."""
    for i, j in itertools.combinations(range(len(tets.corners)), 2):
        face = [v for v in tets.corners[i] if v in tets.corners[j]]
        if tets.regions[i] != tets.regions[j] or len(face) != 3:
            continue
        top, bottom = (next(v for v in tets.corners[k] if v not in face) for k in (i, j))
        if d(points, (*face, top)) < 0:
            face[0], face[1] = face[1], face[0]
        three: list[Tet] = [(face[k], face[(k + 1) % 3], bottom, top) for k in range(3)]
        if all(d(points, tet) > 0 for tet in three):
            kept = [k for k in range(len(tets.corners)) if k not in (i, j)]
            new = Tets([tets.corners[k] for k in kept] + three, [tets.regions[k] for k in kept] + 3 * [tets.regions[i]])
            return new, tuple(face), (bottom, top)
    raise AssertionError('no two neighbours to exchange')


def outer_and_between(tets: Tets) -> tuple[list[Tet], list[Tet]]:
    """The faces of one tetrahedron only, and the faces between two regions."""
    faces: dict[frozenset[int], list[tuple[Tet, int]]] = {}
    for tet, region in zip(*tets):
        for corners in validate.FACES:
            face = tuple(tet[k] for k in corners)
            faces.setdefault(frozenset(face), []).append((face, region))
    skin = [of[0][0] for of in faces.values() if len(of) == 1]
    between = [of[0][0] for of in faces.values() if len(of) == 2 and of[0][1] != of[1][1]]
    return skin, between


POINTS, TWO = grid_points(), grid_tets()
THREE, FACE, EDGE = three_for_two(POINTS, TWO)
SKIN, BETWEEN = outer_and_between(TWO)


def make_mesh(tets: Tets, sheet: list[Tet], wire: list[Tet]) -> meshio.Mesh:
    """The points and these tetrahedra, with tagged skin, faces between the regions, sheet and wire, all of them named."""
    tags = [tets.regions, [10] * len(SKIN) + [11] * len(BETWEEN) + [12] * len(sheet), [13] * len(wire)]
    cells = [('tetra', np.array(tets.corners)), ('triangle', np.array(SKIN + BETWEEN + sheet)), ('line', np.array(wire).reshape(-1, 2).astype(int))]
    data = {key: [np.array(of) for of in tags] for key in ('gmsh:physical', 'gmsh:geometrical')}
    return meshio.Mesh(POINTS.copy(), cells, cell_data=data, field_data={name: np.array(value) for name, value in NAMES.items()})


def with_sheet(tets: Tets = TWO) -> meshio.Mesh:
    """Its sheet is the face that goes where THREE takes the place of TWO; its wire goes round that face and stays."""
    return make_mesh(tets, [FACE], [(FACE[0], FACE[1]), (FACE[1], FACE[2])])


def with_wire(tets: Tets = THREE) -> meshio.Mesh:
    """Its wire is the edge that goes where TWO takes the place of THREE."""
    return make_mesh(tets, [], [EDGE])


def plain(tets: Tets) -> meshio.Mesh:
    """Its sheet and its wire stay where TWO and THREE are exchanged."""
    return make_mesh(tets, BETWEEN[:1], [SKIN[0][:2]])


def set_tets(mesh: meshio.Mesh, tets: np.ndarray, regions: np.ndarray) -> None:
    mesh.cells[TETRA] = meshio.CellBlock('tetra', tets)
    for key in mesh.cell_data:
        mesh.cell_data[key][TETRA] = regions


class Validate(unittest.TestCase):
    def setUp(self) -> None:
        work = tempfile.TemporaryDirectory()
        self.addCleanup(work.cleanup)
        self.folder = pathlib.Path(work.name)

    def write(self, mesh: meshio.Mesh, name: str) -> pathlib.Path:
        path = self.folder / name
        options: dict[str, Any] = {'file_format': 'gmsh22', 'binary': False} if path.suffix == '.msh' else {}
        meshio.write(path, mesh, **options)
        return path

    def wrong(self, before: meshio.Mesh, after: meshio.Mesh, ending: str = '.msh') -> set[str]:
        """The names of the checks that find a fault."""
        paths = self.write(before, 'before' + ending), self.write(after, 'after' + ending)
        by_text = {check.__doc__: check.__name__ for check in validate.CHECKS}
        found = {by_text[what] for what, wrong in validate.checks(*paths) if wrong}
        self.assertEqual(len(found), len(validate.validate(*paths)))
        return found

    def changed(self, change: Callable[[meshio.Mesh], object]) -> set[str]:
        after = with_sheet()
        change(after)
        return self.wrong(with_sheet(), after)

    def test_the_same_file_is_well(self) -> None:
        self.assertEqual(self.changed(lambda mesh: None), set())

    def test_lawful_exchanges_are_well(self) -> None:
        for before, after in ((TWO, THREE), (THREE, TWO)):
            self.assertEqual(self.wrong(plain(before), plain(after)), set())

    def test_order_and_even_turns_are_well(self) -> None:
        def change(mesh: meshio.Mesh) -> None:
            tets, regions = mesh.cells[TETRA].data, mesh.cell_data['gmsh:physical'][TETRA]
            set_tets(mesh, tets[::-1][:, [1, 2, 0, 3]], regions[::-1])

        self.assertEqual(self.changed(change), set())

    def test_point_moved_by_the_least(self) -> None:
        def change(mesh: meshio.Mesh) -> None:
            mesh.points[number(1, 1, 1), 2] = np.nextafter(mesh.points[number(1, 1, 1), 2], 9)

        self.assertEqual(self.changed(change), {'points'})  # inside: the volumes stay the same, exactly

    def test_outer_point_moved_by_the_least(self) -> None:
        def change(mesh: meshio.Mesh) -> None:
            mesh.points[number(0, 1, 1), 0] = np.nextafter(mesh.points[number(0, 1, 1), 0], 9)

        self.assertEqual(self.changed(change), {'points', 'volumes'})

    def test_zero_of_another_sign(self) -> None:
        before, after = with_sheet(), with_sheet()
        at = tuple(np.argwhere(before.points == 0)[0])
        after.points[at] = -0.0
        self.assertEqual(self.wrong(before, after), {'points'})

    def test_point_more(self) -> None:
        def change(mesh: meshio.Mesh) -> None:
            mesh.points = np.concatenate([mesh.points, [[0.5, 0.5, 0.5]]])

        self.assertEqual(self.changed(change), {'points'})

    def test_point_data(self) -> None:
        before, after = with_sheet(), with_sheet()
        before.point_data['heat'] = np.arange(len(POINTS), dtype=float)
        self.assertEqual(self.wrong(before, after), {'point_data'})
        after.point_data['heat'] = before.point_data['heat'] + (np.arange(len(POINTS)) == 5)
        self.assertEqual(self.wrong(before, after), {'point_data'})
        after.point_data['heat'] = before.point_data['heat']
        self.assertEqual(self.wrong(before, after), set())

    def test_tag_of_a_triangle(self) -> None:
        for key in ('gmsh:physical', 'gmsh:geometrical'):

            def change(mesh: meshio.Mesh) -> None:
                mesh.cell_data[key][TRIANGLE][3] += 1

            self.assertEqual(self.changed(change), {'triangles'})

    def test_tag_of_a_line(self) -> None:
        def change(mesh: meshio.Mesh) -> None:
            mesh.cell_data['gmsh:physical'][LINE][0] = 14

        self.assertEqual(self.changed(change), {'lines'})

    def test_triangle_and_line_the_other_way_round(self) -> None:
        for block, check in ((TRIANGLE, 'triangles'), (LINE, 'lines')):

            def change(mesh: meshio.Mesh) -> None:
                mesh.cells[block].data[0, :2] = mesh.cells[block].data[0, 1::-1].copy()

            self.assertEqual(self.changed(change), {check})

    def test_triangle_lost_or_doubled(self) -> None:
        for rows in (slice(1, None), [0, *range(len(with_sheet().cells[TRIANGLE].data))]):

            def change(mesh: meshio.Mesh) -> None:
                mesh.cells[TRIANGLE] = meshio.CellBlock('triangle', mesh.cells[TRIANGLE].data[rows])
                for key in mesh.cell_data:
                    mesh.cell_data[key][TRIANGLE] = mesh.cell_data[key][TRIANGLE][rows]

            self.assertEqual(self.changed(change), {'triangles'})

    def test_other_cell_lost(self) -> None:
        def point(mesh: meshio.Mesh) -> meshio.Mesh:
            mesh.cells.append(meshio.CellBlock('vertex', np.array([[4]])))
            for key in mesh.cell_data:
                mesh.cell_data[key].append(np.array([15]))
            return mesh

        self.assertEqual(self.wrong(point(with_sheet()), with_sheet()), {'other_cells'})
        self.assertEqual(self.wrong(point(with_sheet()), point(with_sheet())), set())

    def test_tetrahedron_lost(self) -> None:
        inner = len(TWO.corners) // 2  # in the middle cube: its faces are those of others too
        cases: list[tuple[int, set[str]]] = [(0, {'tagged_faces'}), (inner, set())]
        for row, more in cases:

            def change(mesh: meshio.Mesh) -> None:
                set_tets(mesh, np.delete(mesh.cells[TETRA].data, row, 0), np.delete(mesh.cell_data['gmsh:physical'][TETRA], row))

            self.assertEqual(self.changed(change), {'boundaries', 'volumes'} | more)

    def test_tetrahedron_twice(self) -> None:
        def change(mesh: meshio.Mesh) -> None:
            rows = [0, *range(len(TWO.corners))]
            set_tets(mesh, mesh.cells[TETRA].data[rows], mesh.cell_data['gmsh:physical'][TETRA][rows])

        self.assertEqual(self.changed(change), {'boundaries', 'volumes', 'doubled_faces'})

    def test_regions_exchanged(self) -> None:
        for keys in (('gmsh:physical',), ('gmsh:geometrical',), ('gmsh:physical', 'gmsh:geometrical')):

            def change(mesh: meshio.Mesh) -> None:
                for key in keys:
                    tags = mesh.cell_data[key][TETRA]
                    tags[0], tags[-1] = tags[-1], tags[0]

            self.assertLessEqual({'boundaries'}, self.changed(change))

    def test_regions_exchanged_in_other_formats(self) -> None:
        for ending, key in (('.mesh', 'medit:ref'), ('.ele', 'tetgen:ref')):
            before, after = (meshio.Mesh(POINTS, [('tetra', np.array(TWO.corners))], cell_data={key: [np.array(TWO.regions)]}) for _ in range(2))
            self.assertEqual(self.wrong(before, after, ending), set())
            tags = after.cell_data[key][TETRA]
            tags[0], tags[-1] = tags[-1], tags[0]
            self.assertLessEqual({'boundaries'}, self.wrong(before, after, ending))

    def test_regions_lost(self) -> None:
        before, after = (meshio.Mesh(POINTS, [('tetra', np.array(TWO.corners))]) for _ in range(2))
        before.cell_data['tetgen:ref'] = [np.array(TWO.regions)]
        self.assertEqual(self.wrong(before, after, '.ele'), {'boundaries', 'volumes'})

    def test_tetrahedron_turned(self) -> None:
        def change(mesh: meshio.Mesh) -> None:
            mesh.cells[TETRA].data[7, :2] = mesh.cells[TETRA].data[7, 1::-1].copy()

        self.assertEqual(self.changed(change), {'upright'})

    def test_all_turned_before_and_after_is_well(self) -> None:
        before, after = plain(TWO), plain(THREE)
        for mesh in (before, after):
            mesh.cells[TETRA] = meshio.CellBlock('tetra', mesh.cells[TETRA].data[:, [1, 0, 2, 3]])
        self.assertEqual(self.wrong(before, after), set())

    def test_face_flipped_over(self) -> None:
        """Three for two where the three don't fit: one of them is on the other side of a face."""

        def change(mesh: meshio.Mesh) -> None:
            tets = mesh.cells[TETRA].data
            i, j = next((i, j) for i, j in itertools.combinations(range(len(tets)), 2) if len({*tets[i], *tets[j]}) == 5 and self.misfit(tets[i], tets[j]))
            kept = [k for k in range(len(tets)) if k not in (i, j)]
            region = mesh.cell_data['gmsh:physical'][TETRA]
            set_tets(mesh, np.concatenate([tets[kept], self.three(tets[i], tets[j])]), np.concatenate([region[kept], 3 * [region[i]]]))

        self.assertLessEqual({'volumes', 'upright', 'boundaries'}, self.changed(change))

    def three(self, one: np.ndarray, two: np.ndarray) -> list[Tet]:
        face = [v for v in one.tolist() if v in two]
        top, bottom = next(v for v in one.tolist() if v not in face), next(v for v in two.tolist() if v not in face)
        if d(POINTS, (*face, top)) < 0:
            face[0], face[1] = face[1], face[0]
        return [(face[k], face[(k + 1) % 3], bottom, top) for k in range(3)]

    def misfit(self, one: np.ndarray, two: np.ndarray) -> bool:
        return any(d(POINTS, tet) < 0 for tet in self.three(one, two))

    def test_flat_tetrahedron(self) -> None:
        def change(mesh: meshio.Mesh) -> None:
            tet = mesh.cells[TETRA].data[0]
            flat = np.array([[tet[0], tet[1], tet[2], tet[2]]])
            set_tets(mesh, np.concatenate([mesh.cells[TETRA].data, flat]), np.append(mesh.cell_data['gmsh:physical'][TETRA], 1))

        self.assertLessEqual({'flat'}, self.changed(change))

    def test_sheet_lost(self) -> None:
        after = with_sheet()
        set_tets(after, np.array(THREE.corners), np.array(THREE.regions))
        self.assertEqual(self.wrong(with_sheet(), after), {'tagged_faces'})

    def test_wire_lost(self) -> None:
        after = with_wire()
        set_tets(after, np.array(TWO.corners), np.array(TWO.regions))
        self.assertEqual(self.wrong(with_wire(), after), {'tagged_edges'})

    def test_sheet_and_wire_that_were_in_no_tetrahedron_are_well(self) -> None:
        """A triangle that was no face and a line that was no edge may be so after."""
        self.assertEqual(self.wrong(make_mesh(THREE, [FACE], []), make_mesh(THREE, [FACE], [])), set())
        self.assertEqual(self.wrong(make_mesh(TWO, [], [EDGE]), make_mesh(TWO, [], [EDGE])), set())

    def test_names_lost_or_changed(self) -> None:
        self.assertEqual(self.changed(lambda mesh: mesh.field_data.pop('sheet')), {'names'})
        self.assertEqual(self.changed(lambda mesh: mesh.field_data.update(sheet=np.array([99, 2]))), {'names'})

    def test_corner_that_is_no_point(self) -> None:
        before, after = (meshio.Mesh(POINTS, [('tetra', np.array(TWO.corners))]) for _ in range(2))
        after.cells[TETRA].data[0, 0] = len(POINTS)
        with self.assertRaises(ValueError):
            self.wrong(before, after, '.ele')

    def test_script(self) -> None:
        one, two = self.write(plain(TWO), 'one.msh'), self.write(with_wire(THREE), 'two.msh')
        for paths, code in (((one, one), 0), ((one, two), 1), ((one,), 2)):
            done = subprocess.run([sys.executable, validate.__file__, *map(str, paths)], capture_output=True, text=True)
            self.assertEqual(done.returncode, code)
            self.assertEqual(len(done.stdout.splitlines()), 0 if code == 2 else len(validate.CHECKS))


if __name__ == '__main__':
    unittest.main()
