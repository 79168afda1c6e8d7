#!/usr/bin/python3
"""A bracket of steel with a bush of brass, meshed by gmsh: two regions, one named surface.

    python3 examples/bracket.py OUT.msh [--size H] [--optimize Q] [--stretch Z]

No edge is longer than about H (0.16). gmsh's Delaunay mesh is saved as it is; with --optimize Q gmsh's own optimizer goes over it first and moves inner points (Mesh.OptimizeThreshold=Q). --stretch Z multiplies all heights by Z. Needs
Debian's gmsh and python3-gmsh; the same version of gmsh makes the same file each time.
"""
import argparse
import sys

import gmsh


def build() -> None:
    """An L with two bolt holes in its foot and a lined hole in its back; groups with names."""
    occ = gmsh.model.occ
    foot, back = occ.addBox(0, 0, 0, 4, 3, 0.5), occ.addBox(0, 0, 0, 0.5, 3, 3)
    solid, _ = occ.fuse([(3, foot)], [(3, back)])
    bolts = [(3, occ.addCylinder(2.5, y, -1, 0, 0, 3, 0.3)) for y in (0.8, 2.2)]
    solid, _ = occ.cut(solid, bolts)
    bush, hole = occ.addCylinder(0, 1.5, 1.9, 0.5, 0, 0, 0.6), occ.addCylinder(-1, 1.5, 1.9, 3, 0, 0, 0.35)
    lining, _ = occ.cut([(3, bush)], [(3, hole)], removeObject=False)
    body, _ = occ.cut(solid, [(3, bush)])
    occ.fragment(body, lining)  # they share the faces between them
    occ.synchronize()
    brass = {tag for _, tag in gmsh.model.getEntitiesInBoundingBox(-0.1, 0.8, 1.2, 0.6, 2.2, 2.6, 3)}
    wall = {tag for _, tag in gmsh.model.getEntitiesInBoundingBox(-0.1, -0.1, -0.1, 0.1, 3.1, 3.1, 2)}
    steel = {tag for _, tag in gmsh.model.getEntities(3)} - brass
    for number, (dimension, tags, name) in enumerate([(3, steel, 'steel'), (3, brass, 'brass'), (2, wall, 'wall')], 1):
        gmsh.model.addPhysicalGroup(dimension, sorted(tags), number)
        gmsh.model.setPhysicalName(dimension, number, name)


def main() -> int:
    parser = argparse.ArgumentParser(description='A bracket meshed by gmsh.')
    parser.add_argument('file', metavar='OUT.msh')
    parser.add_argument('--size', type=float, default=0.16, metavar='H', help='how long an edge may be (default 0.16)')
    parser.add_argument('--optimize', type=float, metavar='Q', help="gmsh's optimizer, for tetrahedra with a gamma below Q")
    parser.add_argument('--stretch', type=float, default=1.0, metavar='Z', help='multiplies all heights')
    given = parser.parse_args()
    gmsh.initialize()
    for option, value in (('General.Terminal', 0), ('General.NumThreads', 1), ('Mesh.Optimize', 0), ('Mesh.MeshSizeMax', given.size), ('Mesh.MeshSizeFromCurvature', 12)):
        gmsh.option.setNumber(option, value)
    build()
    gmsh.model.mesh.generate(3)
    if given.optimize is not None:
        gmsh.option.setNumber('Mesh.OptimizeThreshold', given.optimize)
        gmsh.model.mesh.optimize('')
    if given.stretch != 1:
        tags, xyz, _ = gmsh.model.mesh.getNodes()
        for tag, (x, y, z) in zip(tags, xyz.reshape(-1, 3).tolist()):
            gmsh.model.mesh.setNode(tag, [x, y, z * given.stretch], [])
    gmsh.write(given.file)
    tetrahedra, _ = gmsh.model.mesh.getElementsByType(4)
    print(f'{given.file}: {len(gmsh.model.mesh.getNodes()[0]):,} points, {len(tetrahedra):,} tetrahedra')
    gmsh.finalize()
    return 0


if __name__ == '__main__':
    sys.exit(main())
