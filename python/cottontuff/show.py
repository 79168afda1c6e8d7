"""Pictures of a cavity and its filling, and the same as a file for ParaView."""
from __future__ import annotations

import heapq
import io
import os
import pathlib
import textwrap
from typing import Any, NamedTuple

import numpy as np
from numpy.typing import ArrayLike, NDArray

from .faults import Fault
from .files import Path, check_folder, write_beside
from .measures import Floats, Ints, MeasureName, millionths, quality

Rectangle = tuple[float, float, float, float]

SUFFIXES = ('.png', '.svg', '.pdf', '.vtu')
TITLES = {'shape': 'cube of mean ratio', 'gamma': 'gamma, 3 r / R'}
DPI = 110
SHRINK = 0.62        # of a tetrahedron about its own centre
MARGIN = 0.04        # around the cavity, of a panel's width: room for the thick lines
PANEL_WIDTH = 5.4    # inches, as all that follow
HEAD, FOOT, SIDE = 0.62, 0.62, 0.06
WORST_COLOUR = '#d55e00'  # vermilion: far from every colour of viridis, for the colour-blind too
FACES = ((0, 1, 2, 3), (0, 1, 3, 2), (0, 2, 3, 1), (1, 2, 3, 0))  # three corners and the one across
EDGES = ((0, 1), (0, 2), (0, 3), (1, 2), (1, 3), (2, 3))


def measure_title(measure: MeasureName) -> str:
    """What stands on an axis of a measure's values.

    >>> measure_title('shape')
    'cube of mean ratio'
    """
    name = measure if isinstance(measure, str) else getattr(measure, '__name__', 'quality')
    return TITLES.get(name, name)


def new_figure(width: float, height: float) -> Any:
    """An empty figure of matplotlib, in inches; it needs no display and leaves pyplot alone.

    >>> new_figure(7, 4).get_size_inches()
    array([7., 4.])
    """
    try:
        from matplotlib.figure import Figure  # type: ignore[import]
    except ImportError as error:
        raise Fault("pictures need matplotlib, which isn't installed: install python3-matplotlib") from error
    return Figure(figsize=(width, height))


def save_figure(path: Path, figure: Any) -> None:
    """Write a figure in the form that the suffix of `path` names. The same figure gives the same bytes.

    >>> save_figure('cavity.tiffy', new_figure(1, 1))
    Traceback (most recent call last):
    cottontuff.faults.Fault: cavity.tiffy: a picture's name ends in .png, .svg or .pdf
    """
    import matplotlib  # type: ignore[import]
    form = pathlib.Path(path).suffix.lower()[1:]
    if form not in ('png', 'svg', 'pdf'):
        raise Fault(f"{os.fspath(path)}: a picture's name ends in .png, .svg or .pdf")
    undated = {'png': {}, 'svg': {'Date': None}, 'pdf': {'CreationDate': None}}[form]
    made = io.BytesIO()  # in memory: on a full disk matplotlib's PDF fails with other errors than OSError
    with matplotlib.rc_context({'svg.hashsalt': 'cottontuff'}):
        figure.savefig(made, format=form, dpi=DPI, metadata=undated)
    write_beside(path, lambda name: pathlib.Path(name).write_bytes(made.getvalue()))


def boundary_of(tets: ArrayLike) -> Ints:
    """The triangles that belong to one tetrahedron only, corners ascending.

    >>> boundary_of([[0, 1, 2, 3], [1, 2, 3, 4]]).tolist()
    [[0, 1, 2], [0, 1, 3], [0, 2, 3], [1, 2, 4], [1, 3, 4], [2, 3, 4]]
    """
    corners = np.sort(_fours(tets), axis=1)
    faces = np.concatenate([corners[:, face[:3]] for face in FACES])
    found, counts = np.unique(faces, axis=0, return_counts=True)
    once: Ints = found[counts == 1]
    return once


def _fours(tets: ArrayLike | None) -> Ints:
    return np.asarray([] if tets is None else tets, np.int64).reshape(-1, 4)


def camera(points: Floats) -> Floats:
    """A turn (3, 3): points @ turn.T has x across the picture, y up, z towards the viewer. The longest axis lies across, the shortest towards the viewer, but for a tilt that shows depth.

    >>> turn = camera(np.array([[0., 0, 0], [0, 0, 9], [0, 3, 1], [1, 0, 2]]))
    >>> bool(abs(turn[0, 2]) > 0.9), round(float(np.linalg.det(turn)), 6)
    (True, 1.0)
    """
    _, _, axes = np.linalg.svd(points - points.mean(0), full_matrices=True)
    axes = np.array([axis * (1 if axis[np.abs(axis).argmax()] > 0 else -1) for axis in axes])  # svd leaves signs open
    axes[2] = np.cross(axes[0], axes[1])  # a turn, no mirror
    up, side = np.radians(18), np.radians(10)
    tilt = np.array([[1, 0, 0], [0, np.cos(up), -np.sin(up)], [0, np.sin(up), np.cos(up)]])
    swing = np.array([[np.cos(side), 0, np.sin(side)], [0, 1, 0], [-np.sin(side), 0, np.cos(side)]])
    turn: Floats = tilt @ swing @ axes
    return turn


def back_to_front(corners: Floats, tets: ArrayLike) -> list[int]:
    """An order in which tetrahedra can be drawn over each other, the viewer at z = +infinity; corners: (k, 4, 3) of `tets`.

    Of two that share a face, the face's plane tells which is behind; along a ray inside the cavity one follows another through a shared face, so that this orders all that matters there.
    Where it doesn't, depth does.

    >>> p = np.array([[0., 0, 0], [1, 0, 0], [0, 1, 0], [0, 0, 1], [0, 0, -1]])
    >>> back_to_front(p[[[0, 1, 2, 3], [0, 1, 2, 4]]], [[0, 1, 2, 3], [0, 1, 2, 4]])
    [1, 0]
    """
    fours = _fours(tets)
    depth = corners[:, :, 2].mean(1)
    before: list[set[int]] = [set() for _ in fours]  # what is drawn before each
    after: list[set[int]] = [set() for _ in fours]
    for back, front in _shared_faces(corners, fours):
        before[front].add(back)
        after[back].add(front)
    ready = [(depth[i], i) for i in range(len(fours)) if not before[i]]
    heapq.heapify(ready)
    waiting = {i for i in range(len(fours)) if before[i]}
    order: list[int] = []
    while ready or waiting:
        # a ring of tetrahedra each behind the next has no right order: the furthest goes first
        i = heapq.heappop(ready)[1] if ready else min(waiting, key=lambda j: (depth[j], j))
        waiting.discard(i)
        order.append(i)
        for j in after[i] & waiting:
            before[j].discard(i)
            if not before[j]:
                waiting.discard(j)
                heapq.heappush(ready, (depth[j], j))
    return order


def _shared_faces(corners: Floats, fours: Ints) -> list[tuple[int, int]]:
    """Pairs (behind, in front) of tetrahedra on both sides of a face."""
    seen: dict[tuple[int, ...], int] = {}
    pairs = []
    for i, four in enumerate(fours):
        for face in FACES:
            key = tuple(sorted(int(four[k]) for k in face[:3]))
            j = seen.setdefault(key, i)
            if j == i:
                continue
            a, b, c, d = corners[i][list(face)]
            normal = np.cross(b - a, c - a)
            towards = normal[2] * np.dot(normal, d - a)  # above 0: i lies on the viewer's side
            if towards:
                pairs.append((j, i) if towards > 0 else (i, j))
    return pairs


class _View(NamedTuple):
    """What both panels share: points as the camera sees them, the boundary, the limits, the colours."""

    points: Floats
    boundary: Ints
    low: Floats
    high: Floats
    colours: Any


def _polygons(view: _View, tets: Ints, values: Floats) -> tuple[list[Floats], list[Floats]]:
    """Faces as polygons from back to front, and their colours, a little darker where they turn away from the light."""
    corners = view.points[tets]
    centres = corners.mean(1, keepdims=True)
    shrunk = centres + SHRINK * (corners - centres)
    light = np.array([-0.35, 0.55, 0.76])
    shapes, colours = [], []
    for i in back_to_front(corners, tets):
        faces = []
        for face in FACES:
            a, b, c, d = shrunk[i][list(face)]
            normal = np.cross(b - a, c - a)
            normal = normal * (-1 if np.dot(normal, d - a) > 0 else 1) / (np.linalg.norm(normal) or 1)  # outward
            faces.append((float(normal[2]), np.array([a, b, c])[:, :2], 0.86 + 0.14 * max(0.0, float(normal @ light))))
        for _, polygon, bright in sorted(faces, key=lambda f: f[0]):  # those that look away from the viewer first
            shapes.append(polygon)
            colours.append(np.array(view.colours.to_rgba(values[i])) * [bright, bright, bright, 1])
    return shapes, colours


def _wires(view: _View) -> tuple[list[Floats], list[Floats]]:
    """The boundary's edges: those behind, and those with a triangle that looks at the viewer."""
    flat = view.points
    middle = flat[np.unique(view.boundary)].mean(0)
    front: dict[tuple[int, int], bool] = {}
    for a, b, c in view.boundary:
        normal = np.cross(flat[b] - flat[a], flat[c] - flat[a])
        looks = bool(normal[2] * np.dot(normal, flat[a] - middle) >= 0)
        for u, v in ((a, b), (b, c), (a, c)):
            key = (int(min(u, v)), int(max(u, v)))
            front[key] = front.get(key, False) or looks
    edges = {key: flat[list(key)][:, :2] for key in front}
    return [edges[k] for k in edges if not front[k]], [edges[k] for k in edges if front[k]]


def _panel(axes: Any, view: _View, tets: Ints, values: Floats, name: str, remark: str = '') -> None:
    from matplotlib.collections import LineCollection, PolyCollection  # type: ignore[import]
    shapes, colours = _polygons(view, tets, values)
    behind, ahead = _wires(view)
    axes.add_collection(LineCollection(behind, colors='0.75', linewidths=0.8, zorder=1))
    edges = ['0.1' if colour[:3].mean() > 0.3 else '0.75' for colour in colours]  # seen against the face
    axes.add_collection(PolyCollection(shapes, facecolors=colours, edgecolors=edges, linewidths=0.5, joinstyle='round', zorder=2))
    axes.add_collection(LineCollection(ahead, colors='0.35', linewidths=0.7, zorder=3))
    worst = int(values.argmin())
    corners = view.points[tets[worst]]
    thick = corners.mean(0) + SHRINK * (corners - corners.mean(0))
    outline = [thick[list(edge)][:, :2] for edge in EDGES]
    axes.add_collection(LineCollection(outline, colors=WORST_COLOUR, linewidths=2.4, capstyle='round', zorder=4))
    axes.set_xlim(view.low[0], view.high[0])
    axes.set_ylim(view.low[1], view.high[1])
    axes.set_aspect('equal', adjustable='box')
    axes.set_axis_off()
    many = 'tetrahedron' if len(tets) == 1 else 'tetrahedra'
    place = axes.get_position(original=True)
    axes.figure.text(place.x0 + place.width / 2, 1 - HEAD * 0.8 / axes.figure.get_figheight(),
                     f'{name}: {len(tets):,} {many}, worst {_value(float(values[worst]))}{remark}', ha='center', va='center', fontsize=10.5)


def _value(worst: float) -> str:
    return f'{int(millionths(np.array([worst]))[0]) / 1e6:.6f}' if worst >= 2e-6 else f'{worst:.3g}'


def panels(wide: float, high: float, count: int) -> tuple[tuple[float, float], list[Rectangle]]:
    """The figure's size in inches, and each panel's place in it (left, bottom, width, height, as fractions), for a cavity `wide` by `high`: a panel has the cavity's own proportions, within reason.

    >>> size, places = panels(2.0, 1.0, 2)
    >>> size, len(places)
    ((11.04, 3.94), 2)
    """
    tall = min(max(PANEL_WIDTH * high / wide, 0.4 * PANEL_WIDTH), 1.1 * PANEL_WIDTH)
    size = (round(count * (PANEL_WIDTH + 2 * SIDE), 2), round(tall + HEAD + FOOT, 2))
    lefts = [SIDE + k * (PANEL_WIDTH + 2 * SIDE) for k in range(count)]
    return size, [(left / size[0], FOOT / size[1], PANEL_WIDTH / size[0], tall / size[1]) for left in lefts]


def _view(points: Floats, before: Ints, boundary: ArrayLike | None, best: float) -> _View:
    from matplotlib.cm import ScalarMappable  # type: ignore[import]
    from matplotlib.colors import Normalize  # type: ignore[import]
    skin = boundary_of(before) if boundary is None else np.asarray(boundary, np.int64).reshape(-1, 3)
    used = np.unique(np.concatenate([before.ravel(), skin.ravel()]))
    seen = np.zeros_like(points)
    seen[used] = (points[used] - points[used].mean(0)) @ camera(points[used]).T
    low, high = seen[used].min(0), seen[used].max(0)
    room = MARGIN * (high - low)[:2].max()
    top = min(max(np.ceil(10 * best) / 10, 0.1), 1.0)  # a cavity of bad ones has all the colours too
    return _View(seen, skin, low - room, high + room, ScalarMappable(Normalize(0, top), 'viridis'))


def cavity_picture(path: Path, points: Floats, before: ArrayLike, after: ArrayLike | None, *, boundary: ArrayLike | None = None, title: str = '', measure: MeasureName = 'shape') -> None:
    """Draw a cavity before and after, side by side and seen from the same place: tetrahedra apart from each other, coloured by quality, the worst outlined; the cavity's boundary as wires.

    Tetrahedra are shrunk about their own centres: up to scale that is the same as shrinking them less and moving them away from the cavity's centre, and the wires stay where they are.

    >>> import tempfile
    >>> with tempfile.TemporaryDirectory() as folder:
    ...     cavity_picture(folder + '/a.png', np.array([[0., 0, 0], [1, 0, 0], [0, 1, 0], [0, 0, 1]]), [[0, 1, 2, 3]], None)
    ...     os.listdir(folder)
    ['a.png']
    """
    old, new = _fours(before), _fours(after)
    if not len(old):
        raise Fault(f'{os.fspath(path)}: the cavity has no tetrahedra to draw')
    new_figure(1, 1)  # says so if there is no matplotlib
    points = np.asarray(points, np.float64)
    values = [np.nan_to_num(quality(points, tets, measure)) for tets in (old, new)]
    view = _view(points, old, boundary, float(np.concatenate(values).max()))
    wide, high = (view.high - view.low)[:2]
    fillings = [('before', old, values[0]), ('after', new, values[1])][:2 if len(new) else 1]
    size, places = panels(float(wide), float(high), len(fillings))
    figure = new_figure(*size)
    for (name, tets, numbers), place in zip(fillings, places):
        _panel(figure.add_axes(place), view, tets, numbers, name, '' if len(new) else '; no better filling')
    figure.text(0.5, 1 - HEAD * 0.36 / size[1], textwrap.shorten(title, 50 * len(fillings), placeholder=' ...'), ha='center', va='center', fontsize=12, weight='bold', parse_math=False)
    _colour_bar(figure, size, view.colours, measure)
    save_figure(path, figure)


def _colour_bar(figure: Any, size: tuple[float, float], colours: Any, measure: MeasureName) -> None:
    width = min(3.6, 0.45 * size[0]) / size[0]
    axes = figure.add_axes((0.5 - width / 2, 0.36 / size[1], width, 0.12 / size[1]))
    bar = figure.colorbar(colours, cax=axes, orientation='horizontal')
    bar.outline.set_linewidth(0.5)
    axes.tick_params(labelsize=8, length=2, pad=1.5)
    figure.text(0.5 - width / 2 - 0.1 / size[0], 0.42 / size[1], measure_title(measure), ha='right', va='center', fontsize=8.5, parse_math=False)
    figure.text(0.5 + width / 2 + 0.1 / size[0], 0.42 / size[1], 'worst outlined', ha='left', va='center', fontsize=8.5, color=WORST_COLOUR)


def cavity_vtu(path: Path, points: Floats, before: ArrayLike, after: ArrayLike | None, *, measure: MeasureName = 'shape') -> None:
    """Write a cavity before and after as one .vtu: `after` stands beside, 1.2 box widths along x. Each cell has its 'quality', 'after' (0 or 1) and 'number' (its row, from 0).

    >>> import tempfile
    >>> with tempfile.TemporaryDirectory() as folder:
    ...     cavity_vtu(folder + '/a.vtu', np.array([[0., 0, 0], [1, 0, 0], [0, 1, 0], [0, 0, 1]]), [[0, 1, 2, 3]], None)
    ...     os.listdir(folder)
    ['a.vtu']
    """
    try:
        import meshio  # type: ignore[import]
    except ImportError as error:
        raise Fault("a .vtu needs meshio, which isn't installed: install python3-meshio") from error
    old, new = _fours(before), _fours(after)
    if not len(old):
        raise Fault(f'{os.fspath(path)}: the cavity has no tetrahedra to write')
    points = np.asarray(points, np.float64)
    used = np.unique(old)
    box = points[used].max(0) - points[used].min(0)
    aside = np.array([1.2 * (box[0] or box.max()), 0, 0])
    places, cells, values = [], [], []
    start = 0
    for tets, shift in ((old, 0 * aside), (new, aside)):
        names, rows = np.unique(tets, return_inverse=True)
        places.append(points[names] + shift)
        cells.append(rows.reshape(-1, 4) + start)
        values.append(np.nan_to_num(quality(points, tets, measure)))
        start += len(names)
    data: dict[str, list[NDArray[Any]]] = {'quality': [np.concatenate(values)], 'after': [np.repeat([0, 1], [len(old), len(new)])],
                                           'number': [np.concatenate([np.arange(len(old)), np.arange(len(new))])]}
    whole = meshio.Mesh(np.concatenate(places), [('tetra', np.concatenate(cells))], cell_data=data)
    write_beside(path, lambda name: whole.write(name, file_format='vtu'))


def check_picture(path: Path, also: tuple[str, ...] = ()) -> None:
    """Fault where no picture can be written there, said before the work is done.

    >>> check_picture('cavity.gif')
    Traceback (most recent call last):
    cottontuff.faults.Fault: cavity.gif: a picture's name ends in .png, .svg or .pdf
    """
    taken = ('.png', '.svg', '.pdf', *also)
    if pathlib.Path(path).suffix.lower() not in taken:
        raise Fault(f"{os.fspath(path)}: a picture's name ends in {', '.join(taken[:-1])} or {taken[-1]}")
    check_folder(path)


def show(path: Path, points: Floats, before: ArrayLike, after: ArrayLike | None, *, boundary: ArrayLike | None = None, title: str = '', measure: MeasureName = 'shape') -> None:
    """Show a cavity and its filling in the form that the suffix of `path` names.

    >>> show('cavity.gif', np.zeros((4, 3)), [[0, 1, 2, 3]], None)
    Traceback (most recent call last):
    cottontuff.faults.Fault: cavity.gif: a cavity is shown in a file whose name ends in .png, .svg, .pdf or .vtu
    """
    suffix = pathlib.Path(path).suffix.lower()
    if suffix not in SUFFIXES:
        raise Fault(f"{os.fspath(path)}: a cavity is shown in a file whose name ends in {', '.join(SUFFIXES[:-1])} or {SUFFIXES[-1]}")
    if suffix == '.vtu':
        cavity_vtu(path, points, before, after, measure=measure)
    else:
        cavity_picture(path, points, before, after, boundary=boundary, title=title, measure=measure)
