"""Edge removal (document 02) in whole numbers, as its sentences and the laws say it: what is removed, what is refused, and the rows, found in two ways. It shares nothing with the library."""
import functools
import itertools

# Bytes of the buffer: 4 numbers for each four of 16 points.
LENT = 7280

FURTHEST = 50000


def cross(p, q):
    """Whether two chords of a convex ring cross: one end of the one lies strictly between the ends of the other, its other end outside."""
    (a, b), (c, d) = p, q
    return a < c < b < d or c < a < d < b


def overlap(s, t):
    return any(cross(p, q) for p in itertools.combinations(s, 2) for q in itertools.combinations(t, 2))


@functools.cache
def rows(k):
    """The triangulations of a ring of k points: of all sublists of k - 2 triples those in which no two overlap."""
    triples = list(itertools.combinations(range(k), 3))
    against = {(s, t): overlap(s, t) for s, t in itertools.combinations(triples, 2)}
    return [row for row in itertools.combinations(triples, k - 2) if not any(against[pair] for pair in itertools.combinations(row, 2))]


@functools.cache
def split_rows(first, last):
    """The same for the positions from first to last, by the triple on the side from first to last and two smaller rings."""
    if last - first < 2:
        return [()]
    found = []
    for apex in range(first + 1, last):
        for left in split_rows(first, apex):
            found += [tuple(sorted(left + ((first, apex, last),) + right)) for right in split_rows(apex, last)]
    return sorted(found)


def minus(p, q):
    return tuple(x - y for x, y in zip(p, q))


def dot(p, q):
    return sum(x * y for x, y in zip(p, q))


def product(p, q):
    return (p[1] * q[2] - p[2] * q[1], p[2] * q[0] - p[0] * q[2], p[0] * q[1] - p[1] * q[0])


def volume(a, b, c, d):
    """Six times the signed volume."""
    return dot(minus(b, a), product(minus(c, a), minus(d, a)))


def turned(points, four):
    """The four in an order that makes its volume positive."""
    a, b, c, d = four
    return four if volume(*(points[p] for p in four)) > 0 else (b, a, c, d)


def is_inside(corners, p):
    """Whether p lies strictly inside the tetrahedron of positive volume."""
    return all(volume(*corners[:i], p, *corners[i + 1 :]) > 0 for i in range(4))


def directions(s, t):
    """The normals of the faces of both, and the products of an edge of one and an edge of the other."""
    for corners in (s, t):
        for a, b, c in itertools.combinations(corners, 3):
            yield product(minus(b, a), minus(c, a))
    for e in itertools.combinations(s, 2):
        for f in itertools.combinations(t, 2):
            yield product(minus(e[1], e[0]), minus(f[1], f[0]))


def are_apart(s, t):
    for n in directions(s, t):
        one, other = [dot(n, p) for p in s], [dot(n, p) for p in t]
        if any(n) and (max(one) <= min(other) or max(other) <= min(one)):
            return True
    return False


def outward(four):
    a, b, c, d = four
    return [(a, c, b), (a, b, d), (a, d, c), (b, c, d)]


def same_turn(t):
    """The triangle with its least number first: turning the numbers round changes nothing."""
    i = t.index(min(t))
    return t[i:] + t[:i]


def reverse(t):
    return same_turn((t[0], t[2], t[1]))


def is_bounded(points, boundary, fours):
    """Law 4: no face of two tetrahedra; each boundary triangle a face; each other face the reverse of one, and that one no boundary triangle."""
    faces = [same_turn(t) for four in fours for t in outward(turned(points, four))]
    return (
        len(set(faces)) == len(faces)
        and boundary <= set(faces)
        and all(t in boundary or (reverse(t) in faces and reverse(t) not in boundary) for t in faces)
    )


def is_lawful(points, boundary, quality, fours):
    """Laws 2 to 6; law 1 is kept by how the list is made, laws 7 and 8 are about what a ring's job has not."""
    corners = [[points[p] for p in turned(points, four)] for four in fours]
    return (
        all(volume(*c) != 0 and quality[four] > 0 for c, four in zip(corners, fours))
        and not any(is_inside(c, p) for c in corners for p in points)
        and is_bounded(points, boundary, fours)
        and all(are_apart(s, t) for s, t in itertools.combinations(corners, 2))
        and set(range(len(points))) == {p for four in fours for p in four}
    )


def refusal(coordinates, a, b, ring, table, lent):
    """The number whose place comes first of those that apply, 0 for none."""
    count = len(coordinates) // 3
    named = [a, b] + ring
    if not 3 <= len(ring) <= 7 or len(set(named)) < len(named) or set(named) != set(range(count)):
        return 25
    points = [tuple(coordinates[i : i + 3]) for i in range(0, 3 * count, 3)]
    fours = list(itertools.combinations(points, 4))
    applies = [
        (2, len(coordinates) % 3 != 0 or not 4 <= count <= 16),
        (3, any(abs(x) > FURTHEST for x in coordinates)),
        (4, len(set(points)) < count),
        (11, len(table) != len(fours)),
        (12, any(not -1 <= v <= 1000000 for v in table)),
        (13, any(v == -1 and volume(*four) != 0 for v, four in zip(table, fours))),
        (14, lent < LENT),
    ]
    return next((number for number, is_so in applies if is_so), 0)


def row_fours(a, b, ring, row):
    """Each triple joined to a and to b, in the order of lists."""
    return sorted(tuple(sorted([ring[i] for i in triple] + [end])) for triple in row for end in (a, b))


def lawful_rows(coordinates, a, b, ring, table):
    """The lawful rows of a ring that is not refused, in order, each as its worst quality and its fours."""
    points = [tuple(coordinates[i : i + 3]) for i in range(0, len(coordinates), 3)]
    quality = dict(zip(itertools.combinations(range(len(points)), 4), table))
    sides = list(zip(ring, ring[1:] + ring[:1]))
    boundary = {same_turn(t) for r, s in sides for t in ((r, s, a), (s, r, b))}
    for row in rows(len(ring)):
        fours = row_fours(a, b, ring, row)
        if is_lawful(points, boundary, quality, fours):
            yield min(quality[four] for four in fours), fours


def remove_edge(coordinates, a, b, ring, table, lent):
    """R,number or F,count,worst,list."""
    number = refusal(coordinates, a, b, ring, table, lent)
    if number:
        return f"R,{number}"
    lawful = list(lawful_rows(coordinates, a, b, ring, table))
    if not lawful:
        return "R,26"
    # max takes the first of equals: the rows are in the table's order.
    worst, fours = max(lawful, key=lambda found: found[0])
    return f"F,{len(fours)},{worst}," + ",".join(str(p) for four in fours for p in four)
