#!/usr/bin/env python3
"""Writes crates/ring_cases/stdin and stdout from a folder of stored rings.

    tests/ring_cases.py [JOBS [OUT]]

JOBS (../shared/jobs) has slip-07/cases.txt, lines NAME;POINTS;A;B;RING;TABLE;BUFFER;RESULT;LATER; slip-07/rows.txt, the rows of the table; and small/case-B.txt.
OUT (crates/ring_cases) gets the two files, of the form that crates/ring_cases/src/main.rt describes: the stored cases and those made here. What is stored is held to tests/ring_rule.py, and
what is made here has the number that its edit asks for. The program is not run.
"""
import collections
import itertools
import sys
from pathlib import Path

sys.dont_write_bytecode = True
from law_cases import in_runs, plain, read_job
from ring_rule import LENT, remove_edge, row_fours, rows, split_rows, volume

ROOT = Path(__file__).resolve().parent.parent

# The numbers that refuse, in the order of their places.
ORDER = [25, 2, 3, 4, 11, 12, 13, 14, 26]

MOST = 4294967295

# A convex ring of twelve in the plane; the rings are made of some of it, in order.
ROUND = [(10, 0), (9, 5), (5, 9), (0, 10), (-5, 9), (-9, 5), (-10, 0), (-9, -5), (-5, -9), (0, -10), (5, -9), (9, -5)]
CORNERS = {2: [0, 5], 3: [0, 4, 8], 4: [0, 3, 6, 10], 5: [0, 2, 5, 7, 10], 6: [0, 2, 4, 6, 8, 10], 7: [0, 2, 3, 5, 7, 8, 10], 8: [0, 1, 3, 4, 6, 7, 9, 10]}

# The ends and the ring by their numbers: in another order than the ring's, from four points on.
NUMBERS = {
    2: (1, 2, [3, 0]),
    3: (3, 4, [0, 1, 2]),
    4: (1, 4, [5, 0, 3, 2]),
    5: (4, 6, [1, 2, 0, 5, 3]),
    6: (0, 7, [4, 2, 6, 1, 5, 3]),
    7: (8, 2, [0, 5, 3, 7, 1, 6, 4]),
    8: (9, 2, [0, 5, 3, 7, 1, 6, 4, 8]),
}
# Numbers by which nothing but law 2 stands against flat fours of the ring's first three points.
STRAIGHT = {3: (1, 3, [2, 0, 4]), 4: (0, 5, [2, 3, 1, 4]), 5: (6, 0, [1, 5, 2, 3, 4]), 6: (6, 2, [0, 4, 1, 3, 7, 5]), 7: (2, 7, [6, 0, 1, 8, 3, 4, 5])}
SIZES = range(3, 8)


class Case(collections.namedtuple("Case", "points a b ring table lent")):
    def line(self, name, result):
        return f"{name};{in_runs(self.points)};{self.a};{self.b};{plain(self.ring)};{in_runs(self.table)};{self.lent};{result}"

    def answer(self):
        return remove_edge(*self)

    def fours(self):
        return itertools.combinations(range(len(self.points) // 3), 4)


def placed(numbers, corners):
    """An edge from below to above a flat ring of these points, all of it tied."""
    a, b, ring = numbers
    places = {a: (1, 0, 30), b: (0, 1, -30)}
    places.update((p, corner + (0,)) for p, corner in zip(ring, corners))
    points = [x for p in sorted(places) for x in places[p]]
    count = len(places)
    return Case(points, a, b, ring, [1] * (count * (count - 1) * (count - 2) * (count - 3) // 24), LENT)


def good(size):
    """Every row is lawful."""
    return placed(NUMBERS[size], [ROUND[corner] for corner in CORNERS[size]])


def wound(size):
    """The ring goes round its first point by five twelfths of a turn a point: where that is more than once round, the one row whose faces fit has tetrahedra that are not apart."""
    return placed(NUMBERS[size], [(0, 0)] + [ROUND[5 * i % 12] for i in range(1, size)])


def straight(size):
    """The second point lies between its neighbours: the fours of the first three are flat, though they have a quality."""
    corners = [(2 * x, 2 * y) for x, y in (ROUND[corner] for corner in CORNERS[size])]
    corners[1] = tuple((p + q) // 2 for p, q in zip(corners[0], corners[2]))
    return placed(STRAIGHT[size], corners)


def at(numbers, i, value):
    """The list with another value at a place."""
    return numbers[:i] + [value] + numbers[i + 1 :]


# An edit for each number, so that any two can be made together.
EDITS = {
    26: lambda c: c._replace(table=[0] * len(c.table)),
    13: lambda c: c._replace(table=[-1] * len(c.table)),
    12: lambda c: c._replace(table=at(c.table, 1, 1000001)),
    11: lambda c: c._replace(table=c.table[:-1]),
    3: lambda c: c._replace(points=at(c.points, 0, 50001)),
    4: lambda c: c._replace(points=c.points[:-3] + c.points[:3]),
    2: lambda c: c._replace(points=c.points + [0]),
    14: lambda c: c._replace(lent=LENT - 1),
    25: lambda c: c._replace(a=c.b),
}


def numbers_and_pairs(size):
    """Every number, and of every two the one whose place comes first."""
    for one, other in itertools.combinations_with_replacement(ORDER, 2):
        case = good(size)
        for number, edit in EDITS.items():
            if number in (one, other):
                case = edit(case)
        yield f"pair-{one}-{other}", case, one


def ends(c):
    """Absent ends, some of which would be the end if they were cut to 8 or 16 bits, and ends that are not apart from the rest."""
    n = len(c.points) // 3
    for a in sorted({n, 255, 256, c.a + 256, c.a + 65536, MOST - 255 + c.a, MOST, c.b, c.ring[0], c.ring[-1]}):
        yield f"a-{a}", c._replace(a=a), 25
    for b in sorted({n, 255, 256, c.b + 256, c.b + 65536, MOST - 255 + c.b, MOST, c.a, c.ring[0], c.ring[-1]}):
        yield f"b-{b}", c._replace(b=b), 25
    yield "ends-256", c._replace(a=256, b=256), 25
    yield "ends-4294967295", c._replace(a=MOST, b=MOST), 25


def odd_rings(c):
    n, ring = len(c.points) // 3, c.ring
    yield "ring-0", c._replace(ring=[]), 25
    yield "ring-1", c._replace(ring=ring[:1]), 25
    yield "ring-2", c._replace(ring=ring[:2]), 25
    yield "ring-8", c._replace(ring=(ring + ring + ring)[:8]), 25
    yield "ring-less", c._replace(ring=ring[:-1]), 25
    yield "ring-closed", c._replace(ring=ring + ring[:1]), 25
    yield "ring-256-more", c._replace(ring=ring + ring[:1] * 256), 25
    yield "ring-repeated", c._replace(ring=at(ring, 1, ring[0])), 25
    yield "ring-repeated-last", c._replace(ring=at(ring, len(ring) - 1, ring[0])), 25
    yield "ring-same", c._replace(ring=ring[:1] * len(ring)), 25
    yield "ring-has-a", c._replace(ring=at(ring, 0, c.a)), 25
    yield "ring-has-b", c._replace(ring=at(ring, len(ring) - 1, c.b)), 25
    yield "ring-absent", c._replace(ring=at(ring, 1, n)), 25
    yield "ring-absent-255", c._replace(ring=at(ring, len(ring) - 1, 255)), 25
    yield "points-less", c._replace(points=c.points[:-3]), 25
    yield "points-more", c._replace(points=c.points + [3, 2, 1]), 25
    yield "points-none", c._replace(points=[]), 25
    yield "coordinate-less", c._replace(points=c.points[:-1]), 25
    yield "nothing", Case([], c.a, c.b, [], [], 0), 25


def odd_lists(c):
    """Numbers 2, 3, 4, 11, 12 and 13, each in several ways, and what is just not refused."""
    points, table = c.points, c.table
    last = len(points) - 1
    yield "coordinates-2-more", c._replace(points=points + [0, 0]), 2
    yield "coordinate-far-more", c._replace(points=points + [50001]), 2
    for x in (-50001, 2**31 - 1, -(2**31)):
        yield f"coordinate-{x}", c._replace(points=at(points, last, x)), 3
    for p, q in ((c.a, c.b), (c.ring[1], c.a), (c.ring[0], c.ring[2])):
        yield f"place-{p}-of-{q}", c._replace(points=points[: 3 * p] + points[3 * q : 3 * q + 3] + points[3 * p + 3 :]), 4
    for length in (0, len(table) + 1, len(table) * (len(c.ring) + 3) // (len(c.ring) - 1)):
        yield f"entries-{length}", c._replace(table=[1] * length), 11
    for entry in (-2, 2**31 - 1, -(2**31)):
        yield f"entry-{entry}", c._replace(table=at(table, len(table) - 1, entry)), 12
    flat = [volume(*(points[3 * p : 3 * p + 3] for p in four)) == 0 for four in c.fours()]
    # Two fours that stand in no row are measured all the same.
    in_row = [(c.a in four) != (c.b in four) for four in c.fours()]
    for i in {flat.index(False), len(flat) - 1 - flat[::-1].index(False), next(i for i, four in enumerate(in_row) if not four and not flat[i])}:
        yield f"unmeasured-{i}", c._replace(table=at(table, i, -1)), 13
    yield "flat-unmeasured", c._replace(table=[-1 if is_flat else 1 for is_flat in flat]), 0


def turns(c):
    """From each position on, which makes another row the first; the other way round with the ends changed; and the two wrong turns."""
    for i in range(len(c.ring)):
        ring = c.ring[i:] + c.ring[:i]
        yield f"turned-{i}", c._replace(ring=ring), 0
        yield f"turned-back-{i}", c._replace(a=c.b, b=c.a, ring=ring[::-1]), 0
    yield "ring-wrong", c._replace(ring=c.ring[::-1]), 26
    yield "ends-wrong", c._replace(a=c.b, b=c.a), 26


def each_row(c):
    """A table for each row, by which it alone is best, and one by which it alone is lawful."""
    for i, row in enumerate(rows(len(c.ring))):
        fours = row_fours(c.a, c.b, c.ring, row)
        listed = plain(p for four in fours for p in four)
        yield f"best-{i}", c._replace(table=[2 if four in fours else 1 for four in c.fours()]), f"F,{len(fours)},2,{listed}"
        yield f"alone-{i}", c._replace(table=[1000000 if four in fours else 0 for four in c.fours()]), f"F,{len(fours)},1000000,{listed}"


def buffers(c):
    for lent in (0, 40, LENT - 1):
        yield f"buffer-{lent}", c._replace(lent=lent), 14
    for lent in (LENT, LENT + 1, 8192):
        yield f"buffer-{lent}", c._replace(lent=lent), 0


def further(size):
    """The cases of a ring size; the last field is a number, 0 for an answer, or all of it."""
    c = good(size)
    far = [{10: 50000, -10: -50000, 30: 50000, -30: -50000}.get(x, x) for x in c.points]
    odd = straight(size)
    flat = [(f"straight-{i}", odd._replace(ring=odd.ring[i:] + odd.ring[:i]), 0 if size > 3 else 26) for i in range(size)]
    parts = flat, numbers_and_pairs(size), ends(c), odd_rings(c), odd_lists(c), turns(c), each_row(c), buffers(c), [("far", c._replace(points=far), 0), ("wound", wound(size), 26 if size > 4 else 0)]
    for name, case, expected in itertools.chain(*parts):
        yield f"made-{size}-{name}", case, expected


def made(jobs):
    points, _, _, _, table = read_job((jobs / "small" / "case-B.txt").read_text())
    yield "case-b", Case(points, 3, 4, [0, 1, 2], table, LENT), "F,2,400000,0,1,2,3,0,1,2,4"
    for size in (2, 8):
        yield f"made-{size}", good(size), 25
    for size in SIZES:
        yield from further(size)


def numbers_in(field):
    """The numbers of a list, where v*n is n times v."""
    runs = [run.partition("*") for run in field.split(",") if run]
    return [int(value) for value, _, n in runs for _ in range(int(n or 1))]


def stored(folder):
    """Every case of cases.txt, with its result."""
    for line in (folder / "cases.txt").read_text().splitlines():
        name, points, a, b, ring, table, lent, result = line.split(";")[:8]
        yield name, Case(numbers_in(points), int(a), int(b), numbers_in(ring), numbers_in(table), int(lent)), result


def wrong_rows(folder):
    """The ring sizes whose rows are not found alike in both ways, or are not those of rows.txt where there is one."""
    listed = collections.defaultdict(list)
    for line in (folder / "rows.txt").read_text().splitlines():
        size, row = line.split(";")
        listed[int(size)].append(tuple(tuple(numbers_in(triple)) for triple in row.split(" ")))
    return [size for size in SIZES if not rows(size) == split_rows(0, size - 1) == listed[size]]


def checked(name, case, expected):
    """The reference's answer, which has to be the expected one as far as that goes."""
    answer = case.answer()
    told = answer if isinstance(expected, str) else 0 if answer[0] == "F" else int(answer[2:])
    if told != expected:
        sys.exit(f"{name}: {answer} and not {expected}")
    return answer


def tally(cases):
    """What the program prints where every case is answered as expected."""
    kinds = collections.Counter(result.split(",")[1] if result[0] == "R" else len(case.ring) for _, case, result in cases)
    answered = [kinds[size] for size in SIZES]
    sizes = ", ".join(f"{n} of {size}" + (" points" if size == 3 else "") for size, n in zip(SIZES, answered))
    refused = ", ".join(f"{kinds[str(number)]} {'refused ' if number == 25 else ''}with {number}" for number in ORDER)
    return f"{len(cases)} cases, 0 unread\n{sum(answered)} answered: {sizes}\n{refused}, 0 with another number\n{len(cases)} agree, 0 differ\n"


def main(jobs, out):
    wrong = wrong_rows(jobs / "slip-07")
    if wrong:
        sys.exit(f"rows of rings of {wrong} differ")
    cases = [(name, case, checked(name, case, expected)) for name, case, expected in itertools.chain(stored(jobs / "slip-07"), made(jobs))]
    names = collections.Counter(name for name, _, _ in cases)
    if len(names) < len(cases):
        sys.exit(f"two cases have one name: {[name for name in names if names[name] > 1]}")
    (out / "stdin").write_text("".join(case.line(name, result) + "\n" for name, case, result in cases))
    (out / "stdout").write_text(tally(cases))
    print(f"{len(cases)} cases")


if __name__ == "__main__":
    given = [Path(argument) for argument in sys.argv[1:]]
    main(*(given + [ROOT.parent / "shared" / "jobs", ROOT / "crates" / "ring_cases"][len(given) :]))
