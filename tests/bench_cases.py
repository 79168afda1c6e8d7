#!/usr/bin/env python3
"""Makes the input of crates/bench_cases from the shared bench sessions and meshes (default ../shared/jobs), those with coordinates to 50,000 in slip-05/bench, and sessions of its own for 37 and 38: standard output.
A session with a coordinate of 10,001, which was out of range, has its new answers in slip-05/changed where they changed; it is played too with 50,001 in its place, and the old answers.
Values that the struct of fixed arrays can't hold (qualities of another count than the tetrahedra, a cavity's number above 255) are left out and counted on standard error."""
import functools
import itertools
import operator
import pathlib
import re
import sys


def fields(words):
    return dict(w.split('=', 1) for w in words)


def value(v):
    """The value's fields as the program reads them, or None where the struct has no such value."""
    points, tets, quals = ([x for x in v[k].split(',') if x] for k in ('points', 'tets', 'quals'))
    if len(points) % 3 or len(tets) % 4 or len(quals) != len(tets) // 4 or len(points) > 192 or len(tets) > 1024:
        return None
    if any(int(t) > 255 for t in tets):
        return None
    closed = v['C'] == '-'
    cavity = ('0', '', '') if closed else ('1', v['C'], v['P'])
    if any(int(i) > 255 for i in cavity[1].split(',') if i) or any(int(i) > 63 for i in cavity[2].split(',') if i):
        return None
    return (v['points'], v['tets'], v['quals'], *cavity, v['count'])


def compared(new, before):
    if new == before:
        return 'U'
    if new[:3] == before[:3] and new[6] == before[6]:
        return 'V;' + ';'.join(new[3:6])
    return 'B;' + ';'.join(new)


FRESH = ('', '', '', '0', '', '', '0')


def session(text):
    """The lines of one session, or None where one of its values can't be held."""
    out = ['F']
    now, operation = FRESH, None
    for line in text.splitlines():
        word, *rest = line.split()
        if word == '#':
            continue
        if word == 'fresh':
            now = FRESH
            out.append('F')
        elif word in ('set', '|'):
            new = value(fields(rest))
            if new is None:
                return None
            out.append('S;' + ';'.join(new) if word == 'set' else compared(new, now))
            now = new
        elif word == 'setcount':
            now = (*now[:6], rest[0])
            out.append('N;' + rest[0])
        elif word == '=':
            out.append(f'{operation};{rest[0]}')
        elif word == 'load':
            v = fields(rest)
            operation = f"L;{v['points']};{v['tets']}"
        elif word == 'open':
            operation = f'O;{rest[0]}'
        else:
            operation = {'grow': 'G', 'replace': 'R', 'close': 'C'}[word]
    return out


def told(jobs, path):
    """The stored session with the answers in force, and its twin beyond the range where it has one."""
    text = path.read_text()
    changed = jobs / 'slip-05' / 'changed' / f'bench-{path.name}'
    beyond, far = re.subn(r'\b10001\b', '50001', text)
    return [changed.read_text() if changed.exists() else text] + [beyond] * bool(far)


def mesh_of(path):
    points, tets = [], []
    for line in path.read_text().splitlines():
        kind, *numbers = line.split(',')
        (points if kind == 'P' else tets).extend(numbers[:3] if kind == 'P' else numbers[:4])
    return ','.join(points), ','.join(tets)


def replay(path):
    """A mesh, its script, and the mesh at the end."""
    out = ['F', 'L;' + ';'.join(mesh_of(path)) + ';0']
    for line in path.with_suffix('.script').read_text().splitlines():
        out.append(line.replace(',', ';'))
    out.append('M;' + ';'.join(mesh_of(path.with_suffix('.after'))))
    return out


# ---- 37 and 38, which no shared session meets. Document 01 settles each answer, as the comments say.
# The face 0, 1, 2 with a point on either side: the cavity of both tetrahedra has two fillings, those two, and three round the edge 3, 4.
PAIR = [(60, 0, 0), (0, 60, 0), (0, 0, 60), (5, 5, 5), (35, 35, 35)]
TWO = [(0, 1, 2, 3), (0, 1, 2, 4)]
THREE = [(0, 1, 3, 4), (0, 2, 3, 4), (1, 2, 3, 4)]
# Any four points of the curve are solid. The exclusive or of a four's numbers is 0, so three of them settle the fourth, and two fours share two points at most.
CURVE = [(t, t * t, t * t * t) for t in range(-16, 16)]
APART = [f for f in itertools.combinations(range(len(PAIR), len(PAIR + CURVE)), 4) if functools.reduce(operator.xor, f) == 0]


def quality(points, four):
    a, b, c, d = (points[i] for i in four)
    u, v, w = ([x - y for x, y in zip(p, a)] for p in (b, c, d))
    volume = sum(u[i] * (v[i - 2] * w[i - 1] - v[i - 1] * w[i - 2]) for i in range(3))
    squares = sum((x - y) ** 2 for p, q in itertools.combinations((a, b, c, d), 2) for x, y in zip(p, q))
    shape = 432.0 * (float(volume) * volume) / (float(squares) * squares * squares)
    return min(max(int(shape * 1_000_000), 1), 1_000_000) if volume else 0


def listed(points, tets):
    return ','.join(str(x) for p in points for x in p), ','.join(str(i) for t in tets for i in t)


def replaced(points, rest, number):
    """The cavity of the two is opened and grown to both, for no other tetrahedron shares a face with the first; then replaced."""
    assert all(len(set(TWO[0]) & set(t)) < 3 for t in rest)
    # no 36
    assert min(quality(points, t) for t in THREE) > min(quality(points, t) for t in TWO)
    out = ['F', 'L;' + ';'.join(listed(points, TWO + rest)) + ';0', 'O;0;0', 'V;1;0;0,1,2,3', 'G;0', 'V;1;0,1;0,1,2,3,4', f'R;{number}']
    if number:
        return out + ['U', 'C;0']
    new = rest + THREE
    qualities = ','.join(str(quality(points, t)) for t in new)
    return out + ['B;' + ';'.join((*listed(points, new), qualities, '0;;;1'))]


def made():
    # One more than 256, and 256.
    yield replaced(PAIR + CURVE, APART[:254], 37)
    yield replaced(PAIR + CURVE, APART[:253], 0)
    # Of the points 0, 3, 4 the three tetrahedra have both outward faces, so a tetrahedron outside has one of them too, in whatever order its corners stand; a neighbour on the boundary has none.
    aside = PAIR + [(-20, -19, -20), (60, 60, 0)]
    yield replaced(aside, [(0, 3, 4, 5)], 38)
    yield replaced(aside, [(4, 5, 0, 3)], 38)
    yield replaced(aside, [(0, 1, 4, 6)], 0)


def main():
    jobs = pathlib.Path(sys.argv[1] if len(sys.argv) > 1 else '../shared/jobs')
    left_out = 0
    for path in sorted((jobs / 'bench').glob('*.txt')) + sorted((jobs / 'slip-05' / 'bench').glob('*.txt')):
        for text in told(jobs, path):
            lines = session(text)
            if lines is None:
                left_out += 1
                print(f'left out: {path.name}', file=sys.stderr)
            else:
                print('\n'.join(lines))
    for path in sorted((jobs / 'meshes').glob('*.mesh')):
        print('\n'.join(replay(path)))
    for lines in made():
        print('\n'.join(lines))
    print(f'{left_out} sessions left out', file=sys.stderr)


main()
