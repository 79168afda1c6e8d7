"""What is said of a mesh: figures, tables, histograms."""
from __future__ import annotations

import dataclasses
import math
import textwrap
from typing import Any, Callable, Iterable, Mapping, Sequence

import numpy as np
from numpy.typing import ArrayLike, NDArray

from .files import Path
from .measures import MILLION, Floats, Ints, MeasureName, millionths, quality
from .mesh import Mesh
from .neighbours import neighbours
from .show import measure_title, new_figure, save_figure

WIDTH = 100   # columns of a text
BAR = 40      # the longest bar of a histogram
LABEL = 16    # columns of the labels below the table of improve_text
HOLD = '\u00a0'  # a no-break space: textwrap leaves it alone
PAIRS_ACROSS = ((0, 1, 2, 3), (0, 2, 1, 3), (0, 3, 1, 2), (1, 2, 0, 3), (1, 3, 0, 2), (2, 3, 0, 1))  # an edge, and the two corners off it
BOTH = "had both: the cavity's own tetrahedra lawful on the rounded points, and every four better than the worst of them with its sign kept"
REFUSALS = {2: 'number of points', 3: 'a coordinate too far', 4: 'two points in one place', 5: 'number of triangles', 6: 'a bad triangle', 7: 'a triangle twice', 8: 'an open boundary',
            11: 'length of the table', 12: 'a bad entry', 13: 'an unmeasured four', 14: 'a short buffer', 15: 'no lawful filling'}


@dataclasses.dataclass(frozen=True)
class Summary:
    """A mesh in ten figures. Qualities are in millionths, rounded down; worst_exact is the worst as a double, for meshes whose worst is below a millionth; angles are dihedral, in degrees."""

    tets: int
    worst: int
    first_percentile: int
    mean: int
    under_100000: int
    under_200000: int
    under_300000: int
    smallest_angle: float
    largest_angle: float
    worst_exact: float
    first_percentile_exact: float = 0.0
    mean_exact: float = 0.0


@dataclasses.dataclass(frozen=True)
class Place:
    """A tetrahedron and where it is: its row in the mesh from 0, quality in millionths, region, centre, the numbers of its corners; exact is the quality as a double."""

    tet: int
    millionths: int
    region: int
    centre: tuple[float, float, float]
    corners: tuple[int, ...]
    exact: float = 0.0


def dihedral_angles(points: Floats, tets: Ints) -> Floats:
    """The six dihedral angles of each tetrahedron in degrees, at the edges 01, 02, 03, 12, 13, 23. A flat one has 0 and 180, and 0 where a face is no triangle.

    >>> dihedral_angles(np.array([[0., 0, 0], [1, 0, 0], [0, 1, 0], [0, 0, 1]]), np.array([[0, 1, 2, 3]])).round(2).tolist()
    [[90.0, 90.0, 90.0, 54.74, 54.74, 54.74]]
    """
    corners = points[tets].astype(np.float64)
    corners = corners - corners[:, :1]
    size = np.abs(corners).max(axis=(1, 2), initial=0.0)
    corners /= np.where(size > 0, size, 1)[:, None, None]  # products neither overflow nor vanish
    volume = np.abs(np.einsum('ij,ij->i', corners[:, 1], np.cross(corners[:, 2], corners[:, 3])))
    angles = np.empty((len(tets), 6))
    for column, (i, j, k, l) in enumerate(PAIRS_ACROSS):
        edge = corners[:, j] - corners[:, i]
        first = np.cross(edge, corners[:, k] - corners[:, i])
        second = np.cross(edge, corners[:, l] - corners[:, i])
        sine = np.sqrt(np.einsum('ij,ij->i', edge, edge)) * volume  # |first x second|, without its cancellation
        angles[:, column] = np.degrees(np.arctan2(sine, np.einsum('ij,ij->i', first, second)))
    return angles


def _qualities(points: Floats, tets: Ints, measure: MeasureName) -> Floats:
    """Qualities with 0 for what has none (corners in one place)."""
    return np.nan_to_num(quality(points, tets, measure), nan=0.0, posinf=0.0, neginf=0.0)


def _summary(values: Floats, angles: Floats) -> Summary:
    if not len(values):
        return Summary(0, 0, 0, 0, 0, 0, 0, 0.0, 0.0, 0.0)
    whole = millionths(values)
    first, second, third = (int((whole < bound).sum()) for bound in (100_000, 200_000, 300_000))
    return Summary(tets=len(whole), worst=int(whole.min()), first_percentile=int(np.percentile(whole, 1)), mean=int(whole.sum()) // len(whole), under_100000=first, under_200000=second,
                   under_300000=third, smallest_angle=float(angles.min()), largest_angle=float(angles.max()), worst_exact=float(values.min()),
                   first_percentile_exact=float(np.percentile(values, 1)), mean_exact=float(values.mean()))


def summarize(points: Floats, tets: Ints, measure: MeasureName = 'shape') -> Summary:
    """The figures of tetrahedra; all of them 0 if there are none.

    >>> summarize(np.array([[0., 0, 0], [1, 0, 0], [0, 1, 0], [0, 0, 1]]), np.array([[0, 1, 2, 3]])).worst
    592592
    """
    return _summary(_qualities(points, tets, measure), dihedral_angles(points, tets))


def by_region(mesh: Mesh, measure: MeasureName = 'shape') -> dict[int, Summary]:
    """The figures of each region, regions ascending.

    >>> corner = np.array([[0., 0, 0], [1, 0, 0], [0, 1, 0], [0, 0, 1], [1, 1, 1]])
    >>> {region: s.worst for region, s in by_region(Mesh(corner, np.array([[0, 1, 2, 3], [1, 2, 3, 4]]), np.array([7, 2]))).items()}
    {2: 1000000, 7: 592592}
    """
    return _by_region(mesh, _qualities(mesh.points, mesh.tets, measure), dihedral_angles(mesh.points, mesh.tets))


def _by_region(mesh: Mesh, values: Floats, angles: Floats) -> dict[int, Summary]:
    order = np.argsort(mesh.regions, kind='stable')
    regions, starts = np.unique(mesh.regions[order], return_index=True)
    return {int(region): _summary(values[rows], angles[rows]) for region, rows in zip(regions, np.split(order, starts[1:]))}


def worst_tets(mesh: Mesh, count: int = 10, measure: MeasureName = 'shape') -> list[Place]:
    """The `count` worst tetrahedra, the worst first; of equals the one that stands first in the mesh.

    >>> corner = np.array([[0., 0, 0], [1, 0, 0], [0, 1, 0], [0, 0, 1], [1, 1, 1]])
    >>> worst_tets(Mesh(corner, np.array([[1, 2, 3, 4], [0, 1, 2, 3]]), np.array([7, 7])), 1)
    [Place(tet=1, millionths=592592, region=7, centre=(0.25, 0.25, 0.25), corners=(0, 1, 2, 3), exact=0.5925925925925926)]
    """
    return _worst_tets(mesh, _qualities(mesh.points, mesh.tets, measure), count)


def _worst_tets(mesh: Mesh, values: Floats, count: int = 10) -> list[Place]:
    rows = np.argsort(values, kind='stable')[:max(count, 0)]
    places = []
    for row, value, whole in zip(rows, values[rows], millionths(values[rows])):
        x, y, z = (float(c) for c in mesh.points[mesh.tets[row]].mean(0))
        places.append(Place(int(row), int(whole), int(mesh.regions[row]), (x, y, z), tuple(int(c) for c in mesh.tets[row]), float(value)))
    return places


def histogram(values: ArrayLike, bars: int = 20) -> list[int]:
    """How many values each of `bars` equal parts of [0, 1] holds; a part holds its lower end, the last one 1 too. By millionths, so that it agrees with a Summary.

    >>> histogram([0.0, 0.3, 0.299, 1.0], 10)
    [1, 0, 1, 1, 0, 0, 0, 0, 0, 1]
    """
    whole = millionths(np.asarray(values, np.float64).ravel())
    return [int(n) for n in np.bincount(np.minimum(whole * bars // MILLION, bars - 1), minlength=bars)]


def _bars(counts: Sequence[int]) -> list[str]:
    """Bars as long as the counts, the longest BAR; what isn't 0 is seen."""
    top = max(max(counts, default=0), 1)
    return ['#' * math.ceil(BAR * n / top) for n in counts]


def _table(rows: Sequence[Sequence[str]], left: Iterable[int] = (0,)) -> list[str]:
    """Rows as lines, columns aligned: those of `left` to the left, the others to the right."""
    lefts = set(left)
    widths = [max(len(row[k]) for row in rows) for k in range(len(rows[0]))]
    return ['  '.join(cell.ljust(w) if k in lefts else cell.rjust(w) for k, (cell, w) in enumerate(zip(row, widths))).rstrip() for row in rows]


def histogram_text(before: ArrayLike, after: ArrayLike | None = None) -> str:
    """Qualities in 20 lines and a head: range, count, bar; with `after` both counts, and the bar is that of `after`.

    >>> print('\\n'.join(histogram_text([0.01, 0.02, 0.07]).splitlines()[:4]))
    quality      tetrahedra
    0.00 - 0.05           2  ########################################
    0.05 - 0.10           1  ####################
    0.10 - 0.15           0
    """
    columns = [histogram(before)] + ([] if after is None else [histogram(after)])
    bars = _bars([n for counts in columns for n in counts])[-20:]  # both on one scale
    head = ['tetrahedra'] if after is None else ['before', 'after']
    rows = [['quality', *head, '']]
    for k in range(20):
        rows.append([f'{k / 20:.2f} - {(k + 1) / 20:.2f}', *(f'{c[k]:,}' for c in columns), bars[k]])
    return '\n'.join(_table(rows, (0, len(rows[0]) - 1))) + '\n'


def _angle_counts(angles: Floats) -> list[int]:
    return [int(n) for n in np.bincount(np.minimum((angles.ravel() // 10).astype(np.int64), 17), minlength=18)]


def angle_histogram_text(points: Floats, tets: Ints) -> str:
    """How many dihedral angles lie in each ten degrees, in two columns, with a head.

    >>> print('\\n'.join(angle_histogram_text(np.array([[0., 0, 0], [1, 0, 0], [0, 1, 0], [0, 0, 1]]), np.array([[0, 1, 2, 3]])).splitlines()[:3]))
    dihedral angles in degrees
      0 -  10  0  |   90 - 100  3
     10 -  20  0  |  100 - 110  0
    """
    counts = _angle_counts(dihedral_angles(points, tets))
    cells = [[f'{10 * k:3} - {10 * k + 10:3}', f'{counts[k]:,}'] for k in range(18)]
    return '\n'.join(['dihedral angles in degrees'] + _table([cells[k] + ['|'] + cells[k + 9] for k in range(9)])) + '\n'


def _fraction(whole: int, digits: int = 6) -> str:
    """Millionths as a fraction, rounded down: 0.2999996 is no 0.3.

    >>> _fraction(299999, 4)
    '0.2999'
    """
    return f'{whole // 10 ** (6 - digits) / 10 ** digits:.{digits}f}'


def _quality(whole: int, exact: float, digits: int = 6) -> str:
    """A quality, in figures that tell bad ones apart."""
    return _fraction(whole, digits) if whole >= 2 * 10 ** (6 - digits) or exact == 0 else f'{exact:.3g}'


def _degrees(angle: float) -> str:
    return f'{angle:.2f}' if angle >= 0.01 or angle == 0 else f'{angle:.0e}'


def region_names(mesh: Mesh) -> dict[int, str]:
    """What the file calls its volumes, by number.

    >>> region_names(Mesh(np.zeros((0, 3)), np.zeros((0, 4), int), np.zeros(0, int), names={'steel': np.array([3, 3]), 'inlet': np.array([9, 2])}))
    {3: 'steel'}
    """
    names: dict[int, str] = {}
    if mesh.source is not None and mesh.source.region != 'gmsh:physical':
        return names  # names are those of physical groups
    for name, value in mesh.names.items():
        pair = np.asarray(value).ravel()
        if len(pair) == 2 and pair.dtype.kind in 'iu' and pair[1] == 3:
            names[int(pair[0])] = str(name)
    return names


def _shortened(text: str, width: int) -> str:
    return text if len(text) <= width else text[:max(width - 3, 1)] + '...'


def _summary_row(s: Summary) -> list[str]:
    return [f'{s.tets:,}', _quality(s.worst, s.worst_exact), _quality(s.first_percentile, s.first_percentile_exact, 4), _quality(s.mean, s.mean_exact, 4), f'{s.under_100000:,}', f'{s.under_200000:,}', f'{s.under_300000:,}',
            _degrees(s.smallest_angle), _degrees(s.largest_angle)]


def _region_lines(mesh: Mesh, values: Floats, angles: Floats) -> list[str]:
    names = region_names(mesh)
    regions = _by_region(mesh, values, angles)
    rows = [['region', 'tetrahedra', 'worst', '1st %', 'mean', '< 0.1', '< 0.2', '< 0.3', 'min angle', 'max angle']]
    rows += [[f'{region} {names.get(region, "")}'.rstrip(), *_summary_row(s)] for region, s in regions.items()]
    if len(regions) != 1:
        rows.append(['total', *_summary_row(_summary(values, angles))])
    room = WIDTH - len(_table([['', *row[1:]] for row in rows])[0])  # what the figures leave for names
    return _table([[_shortened(row[0], max(room, 8)), *row[1:]] for row in rows])


def _coordinates(places: Sequence[Place]) -> list[list[str]]:
    """Centres with five figures of the largest coordinate, so that points stand below each other."""
    largest = max((abs(c) for place in places for c in place.centre), default=0.0)
    digits = 4 - math.floor(math.log10(largest)) if largest > 0 else 0
    form = '.4e' if not -3 <= digits <= 9 else f'.{max(digits, 0)}f'
    return [[f'{c:{form}}' for c in place.centre] for place in places]


def _worst_lines(places: Sequence[Place]) -> list[str]:
    rows = [['number', 'quality', 'region', 'x', 'y', 'z']]
    rows += [[f'{place.tet:,}', _quality(place.millionths, place.exact), str(place.region), *centre] for place, centre in zip(places, _coordinates(places))]
    return _table(rows, ())


def _measure_name(measure: MeasureName) -> str:
    return measure if isinstance(measure, str) else str(getattr(measure, '__name__', 'quality'))


def untouched_text(untouched: Mapping[str, Sequence[int]], most: int = 10) -> str:
    """Which tetrahedra are flat, turned or overlapping, the first of them by number.

    >>> untouched_text({'flat': [7], 'turned': [], 'overlapping': [1, 2, 3]}, 2)
    'flat 1 (number 7), overlapping 3 (numbers 1, 2 and 1 more)'
    """
    said = []
    for kind, rows in untouched.items():
        more = f' and {len(rows) - most:,} more' if len(rows) > most else ''
        numbers = ', '.join(str(row) for row in rows[:most])
        said += [f"{kind} {len(rows):,} (number{'' if len(rows) == 1 else 's'} {numbers}{more})"] if rows else []
    return ', '.join(said)


def measure_text(mesh: Mesh, measure: MeasureName = 'shape') -> str:
    """What a person is told of a mesh: figures of each region, the worst ten and where they are, the histogram.

    >>> corner = np.array([[0., 0, 0], [1, 0, 0], [0, 1, 0], [0, 0, 1], [1, 1, 1]])
    >>> print('\\n'.join(measure_text(Mesh(corner, np.array([[0, 1, 2, 3], [1, 2, 3, 4]]), np.array([1, 1]))).splitlines()[:4]))
    2 tetrahedra, 5 points; quality: cube of mean ratio; angles: dihedral, in degrees
    <BLANKLINE>
    region  tetrahedra     worst   1st %    mean  < 0.1  < 0.2  < 0.3  min angle  max angle
    1                2  0.592592  0.5966  0.7962      0      0      0      54.74      90.00
    """
    values, angles = _qualities(mesh.points, mesh.tets, measure), dihedral_angles(mesh.points, mesh.tets)
    lines = [f'{len(mesh.tets):,} tetrahedra, {len(mesh.points):,} points; quality: {measure_title(measure)}; angles: dihedral, in degrees', '']
    lines += _region_lines(mesh, values, angles) + ['']
    if len(mesh.tets):
        lines += ['worst tetrahedra (numbers from 0) and their centres'] + _worst_lines(_worst_tets(mesh, values)) + ['']
    left = untouched_text(neighbours(mesh).untouched())
    if left:
        lines += textwrap.wrap(f'improve leaves alone: {left}', WIDTH) + ['']
    return '\n'.join(lines) + '\n' + histogram_text(values)


def measure_json(mesh: Mesh, measure: MeasureName = 'shape') -> dict[str, object]:
    """The same as measure_text, as plain data; qualities in millionths, and as doubles where the name says exact.

    >>> corner = np.array([[0., 0, 0], [1, 0, 0], [0, 1, 0], [0, 0, 1]])
    >>> sorted(measure_json(Mesh(corner, np.array([[0, 1, 2, 3]]), np.array([1]))))
    ['angle_histogram', 'histogram', 'measure', 'points', 'regions', 'tetrahedra', 'total', 'untouched', 'worst']
    """
    names = region_names(mesh)
    values, angles = _qualities(mesh.points, mesh.tets, measure), dihedral_angles(mesh.points, mesh.tets)
    return {
        'measure': _measure_name(measure),
        'points': len(mesh.points),
        'tetrahedra': len(mesh.tets),
        'regions': [{'region': region, 'name': names.get(region), **dataclasses.asdict(s)} for region, s in _by_region(mesh, values, angles).items()],
        'total': dataclasses.asdict(_summary(values, angles)),
        'worst': [{**dataclasses.asdict(place), 'centre': list(place.centre), 'corners': list(place.corners)} for place in _worst_tets(mesh, values)],
        'histogram': histogram(values),
        'angle_histogram': _angle_counts(angles),
        'untouched': neighbours(mesh).untouched(),
    }


def _column(summary: Mapping[str, Any]) -> list[str]:
    """One column of before and after; '-' for what isn't there."""
    def text(key: str, form: Callable[[Any], str]) -> str:
        return form(summary[key]) if summary.get(key) is not None else '-'
    worst = text('worst', lambda n: _quality(int(n), float(summary.get('worst_exact', n / MILLION))))
    counts = [text(key, lambda n: f'{int(n):,}') for key in ('under_100000', 'under_200000', 'under_300000')]
    angles = [text(key, lambda a: _degrees(float(a))) for key in ('smallest_angle', 'largest_angle')]
    return [worst, text('first_percentile', lambda n: _quality(int(n), float(summary.get('first_percentile_exact', n / MILLION)))), text('mean', lambda n: _quality(int(n), float(summary.get('mean_exact', n / MILLION)))), *counts, *angles, text('tets', lambda n: f'{int(n):,}')]


def _item(label: str, text: str) -> str:
    """A labelled line; a long one goes on below itself, and isn't broken at a no-break space."""
    return textwrap.fill(text, WIDTH, initial_indent=label.ljust(LABEL), subsequent_indent=' ' * LABEL, break_on_hyphens=False, break_long_words=False).replace(HOLD, ' ')


def _counts(counts: Mapping[Any, Any]) -> str:
    return ', '.join(f'{reason} {int(n):,}' for reason, n in sorted(counts.items(), key=lambda item: (-int(item[1]), str(item[0]))))


def _passes_text(passes: Sequence[Mapping[str, Any]]) -> str:
    if not passes:
        return 'none'
    parts = []
    for k, p in enumerate(passes, 1):
        where = f"part {p['part']}, " if 'part' in p else ''
        worst = _quality(int(p.get('worst', 0)), p.get('worst', 0) / MILLION)
        parts.append(f"{where}{p.get('number', k)}: {p.get('bad', 0):,} bad, {p.get('exchanges', 0):,} exchanged, worst {worst}")
    return f'{len(passes):,} ({"; ".join(parts)})'


def _size_text(sizes: Mapping[Any, Mapping[str, Any]]) -> str:
    keys = sorted(sizes, key=int)  # from a file of JSON they are text
    return ', '.join(f"{key}:{HOLD}{sizes[key].get('exchanges', 0):,}/{sizes[key].get('searches', 0):,}" for key in keys)


def _seconds_text(seconds: Mapping[str, Any]) -> str:
    names = {'kernel': 'kernel', 'growth': 'growth', 'jobs': 'jobs', 'exchange': 'exchanges', 'setup': 'setup', 'check': 'checks', 'read': 'reading', 'write': 'writing'}
    parts = [f'{name}{HOLD}{float(seconds[key]):.2f}' for key, name in names.items() if key in seconds]
    return f"{float(seconds.get('total', 0)):.2f} of processor time" + (f' ({", ".join(parts)})' if parts else '')


def _effort_lines(report: Mapping[str, Any]) -> list[str]:
    """What the work was: passes, searches, seconds."""
    searches = int(report.get('searches', 0))
    lines = [_item('passes', _passes_text(report.get('passes', [])))]
    lines.append(_item('searches', f"{searches:,}, exchanges {report.get('exchanges', 0):,}"))
    if report.get('by_size'):
        lines.append(_item('by points', f"{_size_text(report['by_size'])} (exchanges/searches)"))
    lines.append(_item('seconds', _seconds_text(report.get('seconds', {}))))
    lines.append(_item('given up', _counts(report.get('given_up', {})) or 'none'))
    if report.get('refused'):
        lines.append(_item('refused', _counts({REFUSALS.get(int(n), f'number {n}'): count for n, count in report['refused'].items()})))
    if 'carries_over' in report:
        share = f" ({100 * report['carries_over'] / searches:.1f} %)" if searches else ''
        lines.append(_item('carries over', f"{report['carries_over']:,} of {searches:,} searches{share} {BOTH}"))
    return lines


def _state_lines(report: Mapping[str, Any]) -> list[str]:
    """What is true of the result."""
    kept = report.get('kept', {})
    said = {True: 'yes', False: 'NO', None: 'not checked'}
    lines = []
    if report.get('skipped') or report.get('exact_signs'):
        lines.append(_item('besides', f"{report.get('skipped', 0):,} skipped (nothing near them had changed), {report.get('exact_signs', 0):,} signs by exact arithmetic"))
    left = untouched_text(report.get('untouched_tets', {}))
    if left:
        lines.append(_item('left alone', left))
    points = f", points {said[kept['points']]}" if 'points' in kept else '; no point is moved'
    lines.append(_item('kept', f"boundary {said[kept.get('boundary')]}, volumes {said[kept.get('volume')]}{points}"))
    if report.get('interrupted'):
        lines.append(_item('interrupted', 'the mesh is as far as it had come'))
    return lines


def improve_text(report: Mapping[str, Any]) -> str:
    """What a person is told after improving: before and after side by side, then what was done. Keys that are missing are left out.

    >>> print(improve_text({'before': {'worst': 1234}, 'after': {'worst': 250000}, 'searches': 7, 'exchanges': 2}).splitlines()[1])
    worst           0.001234  0.250000
    """
    labels = ['worst', '1st percentile', 'mean', 'under 0.1', 'under 0.2', 'under 0.3', 'smallest angle', 'largest angle', 'tetrahedra']
    before, after = _column(report.get('before', {})), _column(report.get('after', {}))
    lines = _table([['', 'before', 'after'], *([label, b, a] for label, b, a in zip(labels, before, after))])
    return '\n'.join([*lines, '', *_effort_lines(report), *_state_lines(report)]) + '\n'


def histogram_picture(path: Path, before: ArrayLike, after: ArrayLike | None = None, title: str = '', *, measure: MeasureName = 'shape') -> None:
    """Draw the histogram of qualities: before filled, after as an outline, counts on a logarithmic scale.

    >>> import os, tempfile
    >>> with tempfile.TemporaryDirectory() as folder:
    ...     histogram_picture(folder + '/a.png', [0.1, 0.2, 0.2], [0.3, 0.5])
    ...     os.listdir(folder)
    ['a.png']
    """
    figure = new_figure(7, 4)
    axes = figure.add_subplot()
    edges: NDArray[Any] = np.linspace(0, 1, 51)
    first, second = histogram(before, 50), histogram([] if after is None else after, 50)
    axes.set_ylim(0.7, 1.5 * max(*first, *second, 1))  # a count of 1 is seen
    axes.set_yscale('log', nonpositive='clip')
    axes.stairs(first, edges, fill=True, color='#7fb2dd', label=f'{"tetrahedra" if after is None else "before"}: {sum(first):,}')
    if after is not None:
        axes.stairs(second, edges, color='#b34700', linewidth=1.6, label=f'after: {sum(second):,}')
    axes.set_xlim(0, 1)
    axes.set_xlabel(measure_title(measure), parse_math=False)
    axes.set_ylabel('tetrahedra')
    axes.set_title(textwrap.shorten(title, 40, placeholder=' ...'), loc='left', fontsize=11, parse_math=False)
    axes.yaxis.set_major_formatter('{x:,.0f}')
    axes.yaxis.set_minor_formatter('')
    axes.legend(frameon=False, loc='lower right', bbox_to_anchor=(1, 0.98), ncol=2)  # above the bars, which fill any corner
    axes.spines[['top', 'right']].set_visible(False)
    figure.tight_layout()
    save_figure(path, figure)
