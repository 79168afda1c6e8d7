#!/usr/bin/python3
"""A measure of one's own: betters the smallest sine of the dihedral angles.

    python3 examples/own_measure.py IN OUT RECORD

A measure takes corners, an array (n, 4, 3), and gives n numbers up to 1. It must give a tetrahedron the same double wherever it stands in the array: sums, products and roots do, a dot product or an
arctangent of a whole array need not.
"""
import sys

import numpy as np

from cottontuff import read, write
from cottontuff.improve import improve
from cottontuff.record import verify
from cottontuff.report import summarize

BELOW = 0.5  # the sine of 30 degrees, and of 150
EDGES = ((0, 1, 2, 3), (0, 2, 1, 3), (0, 3, 1, 2), (1, 2, 0, 3), (1, 3, 0, 2), (2, 3, 0, 1))  # an edge, and the corners off it


def cross(u: np.ndarray, v: np.ndarray) -> np.ndarray:
    return np.stack([u[:, 1] * v[:, 2] - u[:, 2] * v[:, 1], u[:, 2] * v[:, 0] - u[:, 0] * v[:, 2], u[:, 0] * v[:, 1] - u[:, 1] * v[:, 0]], axis=1)


def length(u: np.ndarray) -> np.ndarray:
    return np.sqrt(u[:, 0] * u[:, 0] + u[:, 1] * u[:, 1] + u[:, 2] * u[:, 2])


def smallest_sine(corners: np.ndarray) -> np.ndarray:
    """The sine at an edge is the edge by D, over the product of twice the areas of its two faces."""
    u, v, w = (corners[:, i] - corners[:, 0] for i in (1, 2, 3))
    n = cross(v, w)
    d = np.abs(u[:, 0] * n[:, 0] + u[:, 1] * n[:, 1] + u[:, 2] * n[:, 2])
    sines = []
    for i, j, k, m in EDGES:
        edge = corners[:, j] - corners[:, i]
        areas = length(cross(edge, corners[:, k] - corners[:, i])) * length(cross(edge, corners[:, m] - corners[:, i]))
        sines.append(np.divide(length(edge) * d, areas, out=np.zeros(len(d)), where=areas > 0))
    return np.minimum.reduce(sines)


def main(source: str, goal: str, record: str) -> None:
    mesh = read(source)
    better = improve(mesh, below=BELOW, measure=smallest_sine, record=record).mesh
    for line in write(goal, better):
        print(line)
    for name, one in (('before', mesh), ('after', better)):
        figures = summarize(one.points, one.tets, smallest_sine)
        print(f'{name}: smallest sine {figures.worst / 1e6:.6f}, angles from {figures.smallest_angle:.2f} to {figures.largest_angle:.2f}, shape from {summarize(one.points, one.tets).worst / 1e6:.6f}')
    said = verify(mesh, better, record, measure=smallest_sine)
    print(f'{said.replacements:,} replacements hold' if said else said.wrong[0])


if __name__ == '__main__':
    if len(sys.argv) != 4:
        sys.exit(__doc__)
    main(*sys.argv[1:])
