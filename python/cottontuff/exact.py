"""Signs and volumes of doubles, without rounding.

A double is a whole number times a power of two, so the points of a mesh are whole numbers over one power of two, and D is computed in Python's whole numbers. A filter decides most signs before
that: D in doubles, computed from rounded differences, is off by at most (7 + 56 e) e times the permanent, e = 2^-53 (Shewchuk 1997, the first bound of orient3d, whose sums these are), where
the permanent is the same sum with every product taken as positive. What is larger than 16 e times the permanent therefore has the right sign. Where the permanent is 0 every product has a
factor that is exactly 0, as on a wall along an axis, and D is 0. Both need that no product leaves the range of normal doubles: differences that are not 0 lie between 2^-300 and 2^300, else
the sign counts as uncertain.
"""
from __future__ import annotations

from fractions import Fraction

import numpy as np
from numpy.typing import NDArray

from .helper import address, usable
from .measures import Floats, Ints

BOUND = 16 * 2.0**-53
SMALLEST = 2.0**-300
LARGEST = 2.0**300
Whole = list[tuple[int, int, int]]


def whole_numbers(points: Floats) -> tuple[Whole, int]:
    """The points as whole numbers over one number, a power of two.

    >>> whole_numbers(np.array([[0.5, 1.0, 0.25]]))
    ([(2, 4, 1)], 4)
    """
    ratios = [[value.as_integer_ratio() for value in point] for point in points.tolist()]
    over = max((below for point in ratios for _, below in point), default=1)
    return [(x * (over // a), y * (over // b), z * (over // c)) for (x, a), (y, b), (z, c) in ratios], over


def six_volume(points: Whole, four: tuple[int, int, int, int]) -> int:
    """D of a four of whole-number points, exact.

    >>> six_volume([(0, 0, 0), (1, 0, 0), (0, 1, 0), (0, 0, 1)], (0, 1, 2, 3))
    1
    """
    ax, ay, az = points[four[0]]
    bx, by, bz = points[four[1]]
    cx, cy, cz = points[four[2]]
    dx, dy, dz = points[four[3]]
    ux, uy, uz, vx, vy, vz, wx, wy, wz = bx - ax, by - ay, bz - az, cx - ax, cy - ay, cz - az, dx - ax, dy - ay, dz - az
    return ux * (vy * wz - vz * wy) + uy * (vz * wx - vx * wz) + uz * (vx * wy - vy * wx)


def quickly_filtered(points: Floats, fours: Ints) -> tuple[NDArray[np.int8], NDArray[np.bool_]]:
    """The same as `filtered`, by the helper where there is one.

    >>> quickly_filtered(np.array([[0., 0, 0], [1, 0, 0], [0, 1, 0], [0, 0, 1]]), np.array([[0, 1, 2, 3]]))
    (array([1], dtype=int8), array([ True]))
    """
    loaded = usable()
    if loaded is None:
        return filtered(points, fours)
    places, rows = np.ascontiguousarray(points, np.float64), np.ascontiguousarray(fours, np.int64)
    if rows.size and (rows.min() < 0 or rows.max() >= len(places)):  # the helper does not look
        return filtered(points, fours)
    sign, certain = np.zeros(len(rows), np.int8), np.zeros(len(rows), np.bool_)
    loaded.helper_filter(address(places), address(rows), len(rows), address(sign), address(certain))
    return sign, certain


def filtered(points: Floats, fours: Ints) -> tuple[NDArray[np.int8], NDArray[np.bool_]]:
    """The sign of each D as the doubles have it, and whether that is certain.

    >>> wall = np.array([[0, 0, 0], [.1, 0, 0], [0, .1, 0], [.3, .7, 0], [.3, .7, 1e-20]])
    >>> filtered(wall, np.array([[0, 1, 2, 3], [0, 1, 2, 4]]))
    (array([0, 1], dtype=int8), array([ True,  True]))
    """
    a = points[fours[:, 0]]
    with np.errstate(over='ignore', invalid='ignore', under='ignore'):
        edges = np.stack([points[fours[:, i]] - a for i in (1, 2, 3)])
        (ux, uy, uz), (vx, vy, vz), (wx, wy, wz) = (edge.T for edge in edges)
        p, q, r, s, t, o = vy * wz, vz * wy, vz * wx, vx * wz, vx * wy, vy * wx
        volume = ux * (p - q) + uy * (r - s) + uz * (t - o)
        permanent = np.abs(ux) * (np.abs(p) + np.abs(q)) + np.abs(uy) * (np.abs(r) + np.abs(s)) + np.abs(uz) * (np.abs(t) + np.abs(o))
        sizes = np.abs(edges)
        plain = ((sizes == 0) | ((sizes >= SMALLEST) & (sizes <= LARGEST))).all(axis=(0, 2))
        certain = plain & ((np.abs(volume) > BOUND * permanent) | (permanent == 0))
        sign = np.nan_to_num(np.sign(volume)).astype(np.int8)
    return sign, certain


def signs(points: Floats, fours: Ints) -> NDArray[np.int8]:
    """The sign of D of each four, exact: 1, 0 or -1.

    >>> line = np.array([[0, 0, 0], [.1, .1, .3], [.2, .2, .6], [.3, .3, .9], [1, .3, .1]])
    >>> signs(line, np.array([[0, 1, 2, 4], [0, 1, 3, 4]]))
    array([0, 1], dtype=int8)
    """
    return counted_signs(points, fours)[0]


def counted_signs(points: Floats, fours: Ints) -> tuple[NDArray[np.int8], int]:
    """The signs, and how many of them the filter left open.

    >>> counted_signs(np.array([[0, 0, 0], [.1, .1, .3], [.2, .2, .6], [1, .3, .1]]), np.array([[0, 1, 2, 3]]))
    (array([0], dtype=int8), 1)
    """
    sign, certain = quickly_filtered(points, fours)
    doubtful = np.flatnonzero(~certain)
    if len(doubtful):
        used, local = np.unique(fours[doubtful], return_inverse=True)
        whole, _ = whole_numbers(points[used])
        for place, (a, b, c, d) in zip(doubtful.tolist(), local.reshape(-1, 4).tolist()):
            volume = six_volume(whole, (a, b, c, d))
            sign[place] = (volume > 0) - (volume < 0)
    return sign, len(doubtful)


def volume6(points: Floats, tets: Ints) -> Fraction:
    """Six times the volume of tetrahedra, exact, each read in the order that makes its D positive.

    >>> volume6(np.array([[0, 0, 0], [.5, 0, 0], [0, .5, 0], [0, 0, .5]]), np.array([[0, 1, 2, 3], [1, 0, 2, 3]]))
    Fraction(1, 4)
    """
    used, local = np.unique(tets, return_inverse=True)
    whole, over = whole_numbers(points[used])
    total = 0
    for a, b, c, d in local.reshape(-1, 4).tolist():
        total += abs(six_volume(whole, (a, b, c, d)))
    return Fraction(total, over**3)
