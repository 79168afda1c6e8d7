"""Meshes: `read` and `write` files, `quality` and `millionths` of tetrahedra, `boundary` of regions."""
from __future__ import annotations

import numpy as np
from numpy.typing import NDArray

from .measures import Ints, millionths, quality
from .model import Block, Mesh, Source, checked, format_of
from .reading import read
from .writing import write

OPPOSITE = ((1, 2, 3), (0, 2, 3), (0, 1, 3), (0, 1, 2))  # the face opposite each corner
__all__ = ['Block', 'Mesh', 'OPPOSITE', 'Source', 'boundary', 'checked', 'format_of', 'millionths', 'quality', 'read', 'write']


def boundary(mesh: Mesh) -> Ints:
    """The faces of tetrahedra that border on no tetrahedron of the same region: three ascending point numbers and the region, rows sorted.

    >>> corners = np.zeros((5, 3))
    >>> boundary(Mesh(corners, np.array([[0, 1, 2, 3], [4, 1, 2, 3]]), np.array([1, 1])))[:3]
    array([[0, 1, 2, 1],
           [0, 1, 3, 1],
           [0, 2, 3, 1]])
    """
    corners, points = np.sort(mesh.tets, axis=1), len(mesh.points)
    names, region = np.unique(mesh.regions, return_inverse=True)
    if points**3 * len(names) < 2**63:  # a face and its region as one number
        keys = np.sort(np.concatenate([((a * points + b) * points + c) * len(names) + region for a, b, c in (corners[:, list(face)].T for face in OPPOSITE)]))
        keys = keys[_alone(keys[1:] == keys[:-1])]
        keys, place = np.divmod(keys, len(names))
        return np.column_stack([keys // points**2, keys // points % points, keys % points, names[place]])
    rows = np.concatenate([np.column_stack([corners[:, list(face)], mesh.regions]) for face in OPPOSITE])
    rows = rows[np.lexsort(rows.T[::-1])]
    alone: Ints = rows[_alone(np.all(rows[1:] == rows[:-1], axis=1))]
    return alone


def _alone(same: NDArray[np.bool_]) -> NDArray[np.bool_]:
    """Which of several are the same neither as the one before nor as the one behind; same: whether each is as the one before it, from the second on."""
    alone: NDArray[np.bool_] = ~(np.append(same, False) | np.append(False, same))
    return alone
