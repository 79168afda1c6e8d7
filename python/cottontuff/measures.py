"""Measures of a tetrahedron, in doubles.

A measure takes corners, an array (n, 4, 3), and gives n numbers above 0, the greatest of them 1 for the regular tetrahedron; corners stand in ascending order of their points' numbers, so that
a tetrahedron has one value wherever it is measured. The operations and their order are those of helper/doubles.h: both give the same doubles, bit for bit.
"""
from __future__ import annotations

from typing import Callable, Union

import numpy as np
from numpy.typing import NDArray

Floats = NDArray[np.float64]
Ints = NDArray[np.int64]
Measure = Callable[[Floats], Floats]
MeasureName = Union[str, Measure]
MILLION = 1_000_000


def six_volumes(corners: Floats) -> Floats:
    """D of each four: the determinant of b - a, c - a, d - a, rounded.

    >>> six_volumes(np.array([[[0, 0, 0], [1, 0, 0], [0, 1, 0], [0, 0, 1]]], float))
    array([1.])
    """
    with np.errstate(all='ignore'):
        return _six_volumes(corners)


def _six_volumes(corners: Floats) -> Floats:
    a = corners[:, 0]
    ux, uy, uz = (corners[:, 1] - a).T
    vx, vy, vz = (corners[:, 2] - a).T
    wx, wy, wz = (corners[:, 3] - a).T
    volumes: Floats = ux * (vy * wz - vz * wy) + uy * (vz * wx - vx * wz) + uz * (vx * wy - vy * wx)
    return volumes


PAIRS = ((0, 1), (0, 2), (0, 3), (1, 2), (1, 3), (2, 3))


def squared_edges(corners: Floats) -> list[Floats]:
    """The squared lengths of the six edges, in the order of PAIRS.

    >>> [float(e[0]) for e in squared_edges(np.array([[[0, 0, 0], [1, 0, 0], [0, 1, 0], [0, 0, 1]]], float))]
    [1.0, 1.0, 1.0, 2.0, 2.0, 2.0]
    """
    lengths = []
    with np.errstate(all='ignore'):
        for i, j in PAIRS:
            x, y, z = (corners[:, j] - corners[:, i]).T
            lengths.append(x * x + y * y + z * z)
    return lengths


def shape(corners: Floats) -> Floats:
    """The cube of the mean ratio, document 01's shape number: 432 D^2 / S^3.

    >>> shape(np.array([[[0, 0, 0], [1, 0, 0], [0, 1, 0], [0, 0, 1]]], float)).round(6)
    array([0.592593])
    """
    with np.errstate(all='ignore'):  # what is too large or too small for doubles has no number, and counts as the worst
        d = _six_volumes(corners)
        ab, ac, ad, bc, bd, cd = squared_edges(corners)
        s = ab + ac + ad + bc + bd + cd
        value: Floats = 432 * (d * d) / ((s * s) * s)
    return value


def _area(a: Floats, b: Floats, c: Floats) -> Floats:
    ux, uy, uz = (b - a).T
    vx, vy, vz = (c - a).T
    x = uy * vz - uz * vy
    y = uz * vx - ux * vz
    z = ux * vy - uy * vx
    area: Floats = np.sqrt(x * x + y * y + z * z) / 2
    return area


def gamma(corners: Floats) -> Floats:
    """gmsh's measure: three times the radius of the inscribed sphere by that of the circumscribed one.

    >>> gamma(np.array([[[1, 1, 1], [1, -1, -1], [-1, 1, -1], [-1, -1, 1]]], float)).round(6)
    array([1.])
    """
    a, b, c, d = (corners[:, i] for i in range(4))
    with np.errstate(all='ignore'):
        volume = np.abs(_six_volumes(corners)) / 6
        areas = _area(a, b, c) + _area(a, b, d) + _area(a, c, d) + _area(b, c, d)
        ab, ac, ad, bc, bd, cd = squared_edges(corners)
        x, y, z = np.sqrt(ab * cd), np.sqrt(ac * bd), np.sqrt(ad * bc)
        product = (x + y + z) * (x + y - z) * (x - y + z) * (-x + y + z)  # (24 R V)^2
        value: Floats = np.where(product > 0, 3 * (3 * volume / areas) * 24 * volume / np.sqrt(np.maximum(product, 0)), 0)
    return value


MEASURES: dict[str, Measure] = {'shape': shape, 'gamma': gamma}


def named(measure: MeasureName) -> Measure:
    """The measure of this name, or the function itself.

    >>> named('shape') is shape
    True
    """
    if isinstance(measure, str) and measure not in MEASURES:
        raise ValueError(f"measure: {' or '.join(MEASURES)}, or a function, not {measure!r}")
    return MEASURES[measure] if isinstance(measure, str) else measure


def ascending(points: Floats, tets: Ints) -> Floats:
    """The corners of tetrahedra in ascending order of their numbers, as a measure takes them.

    >>> ascending(np.array([[0., 0, 0], [1, 0, 0], [0, 1, 0], [0, 0, 1]]), np.array([[3, 1, 0, 2]]))[0, 0]
    array([0., 0., 0.])
    """
    corners: Floats = points[np.sort(tets, axis=1)]
    return corners


def quality(points: Floats, tets: Ints, measure: MeasureName = 'shape') -> Floats:
    """The measure of each tetrahedron, whichever way round its corners stand.

    >>> corner = np.array([[0., 0, 0], [1, 0, 0], [0, 1, 0], [0, 0, 1]])
    >>> quality(corner, np.array([[0, 1, 2, 3], [1, 0, 2, 3]])).round(6)
    array([0.592593, 0.592593])
    """
    return named(measure)(ascending(points, tets))


def millionths(values: Floats) -> Ints:
    """The largest whole number not above each value times 1,000,000, but at least 1 and at most 1,000,000: the entries of a table.

    >>> millionths(np.array([0.0, 1e-9, 0.5925929, 1.0000001]))
    array([      1,       1,  592592, 1000000])
    """
    with np.errstate(all='ignore'):
        scaled = np.nan_to_num(values * 1e6, nan=0.0, posinf=0.0, neginf=0.0)
    whole: Ints = np.clip(np.floor(scaled), 1, MILLION).astype(np.int64)
    return whole
