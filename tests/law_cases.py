#!/usr/bin/env python3
"""Writes crates/law_cases/stdin from a folder of jobs.

    tests/law_cases.py [JOBS [OUT]]

JOBS (../shared/jobs) has small/NAME.txt, a job; small/NAME.out, its printout; judge/cases.txt, lines NAME;LIST;RESULT; and the same of jobs with inner triangles in
slip-01/, with the lists in slip-01/judge.txt; slip-02/judge-lists.txt, lines P;T;E;K;Q;LIST;RESULT about the empty job; and slip-05/, jobs with coordinates to 50,000.
A job that was refused with 3 for a coordinate that is in range by now has its new answer in slip-05/changed or tests/changed; it is asked too with 50,001 in the place of that coordinate, and the old answer.
OUT (crates/law_cases/stdin) has the form that crates/law_cases/src/main.rt describes.
"""
import itertools
import sys
from pathlib import Path

ROOT = Path(__file__).resolve().parent.parent

# What the program has room for, as crates/law_cases/src/answer.rt: numbers of points, triangles, kept edges, inner triangles, table.
ROOM = (2048, 4096, 1024, 4096, 2048)

# The longest line of a job with inner triangles: longer ones are searched by tests/jobs, and would fill the program's input.
LONGEST = 1000

# Laws 5, 6 and 7, which the stored lists do not reach.
FURTHER_LISTS = [
    # Two or three closed boundaries of a tetrahedron each, which overlap: nothing else is wrong with the list.
    ("overlap-1003", "0,1,3,4,0,2,5,6", "L,5"),
    ("overlap-1007", "0,2,4,5,1,2,3,4", "L,5"),
    ("overlap-1018", "0,1,2,3,0,1,4,5", "L,5"),
    ("overlap-1021", "0,1,3,5,0,2,3,4", "L,5"),
    ("overlap-1023", "0,2,3,6,1,2,4,5,1,3,4,6", "L,5"),
    # Fillings of the octahedron: its centre, point 6, lies on the diagonal that they share.
    ("octahedron-centre", "0,2,3,4,0,2,3,5,1,2,3,4,1,2,3,5", "L,6"),
    ("octahedron-centre", "0,1,2,4,0,1,2,5,0,1,3,4,0,1,3,5", "L,6"),
    # Fillings that are lawful but for the kept edge.
    ("case-B-0124-500000-E34", "0,1,2,3,0,1,2,4", "L,7"),
    ("cube-six-E16", "0,1,3,7,0,1,5,7,0,2,3,7,0,2,6,7,0,4,5,7,0,4,6,7", "L,7"),
]

# The empty job, as far as the stored lists do not reach.
EMPTY_LISTS = [
    ";;;;;;W,1000000",
    ";;;;;0,1,2,3;L,1",
    ";;0,1;;;;R,2",
]


class LeftOut(Exception):
    """Why a job is left out."""


def fours(count):
    return itertools.combinations(range(count), 4)


def read_job(text):
    """Points, triangles, kept edges, inner triangles and table of a text that is of the form."""
    lists = {"P": [], "T": [], "E": [], "K": []}
    qualities = {}
    for line in text.splitlines():
        kind, *fields = line.split(",")
        numbers = [int(field) for field in fields]
        if kind != "P" and max(numbers[:4]) > 255:
            raise LeftOut("a point number above 255")
        if kind != "Q":
            lists[kind] += numbers
            continue
        four = tuple(numbers[:4])
        if four in qualities:
            raise LeftOut("a second Q for a four")
        qualities[four] = numbers[4]
    return lists["P"], lists["T"], lists["E"], lists["K"], table_of(len(lists["P"]) // 3, qualities)


def table_of(count, qualities):
    # A count outside the limits is refused before any table is looked at, and over 16 points have a table too long for the program. Q lines without points are not the empty job: a bad
    # Q hands on two entries.
    if not 4 <= count <= 16:
        return [-1, -1] if qualities and count < 4 else []
    table = [qualities.pop(four, -1) for four in fours(count)]
    if qualities:
        raise LeftOut("a Q for an absent four")
    return table


def expected_number(printout):
    """0 where the checker lets the job pass, else the number that it gives."""
    kind, value = printout.split("\n")[0].split(",")[:2]
    if kind == "F" or value == "15":
        return 0
    if value == "1":
        raise LeftOut("refused with 1, by the form of the text")
    return int(value)


def filling(printout):
    """The list that the printout shows, with its worst quality."""
    lines = [line.split(",") for line in printout.splitlines()]
    return ",".join(number for line in lines[1:] for number in line[1:5]), "W," + lines[0][2]


def plain(numbers):
    return ",".join(map(str, numbers))


def in_runs(numbers):
    """As plain, with v*n for n times v."""
    runs = [(value, len(list(run))) for value, run in itertools.groupby(numbers)]
    return ",".join(f"{value}*{n}" if n > 1 else str(value) for value, n in runs)


def job_line(name, job, number):
    if any(len(numbers) > room for numbers, room in zip(job, ROOM)):
        raise LeftOut("longer than the program has room for")
    points, triangles, kept, inner, table = job
    return f"J;{name};{plain(points)};{plain(triangles)};{plain(kept)};{plain(inner)};{in_runs(table)};{number}"


def stored_lists(path, further):
    """The lists of the file and the further ones, by job."""
    lists = {}
    for line in path.read_text().splitlines() + [";".join(case) for case in further]:
        name, numbers, result = line.split(";")
        lists.setdefault(name, []).append((numbers, result))
    return lists


def lines_of(name, text, printout, lists):
    """The job, its lists, and the list that the printout settles: the filling, or for a refused job any. A job without a printout passes: its lists are judged."""
    number = expected_number(printout) if printout else 0
    settled = [("", f"R,{number}")] if number > 0 else []
    if printout.startswith("F"):
        settled = [filling(printout)]
    lists = lists + [case for case in settled if case not in lists]
    return [job_line(name, read_job(text), number)] + [f"L;{numbers};{result}" for numbers, result in lists]


def listed_lines(rows):
    """Jobs that are given by their lists, each with the lists to be judged that follow it."""
    lines = []
    jobs = itertools.groupby((row.split(";") for row in rows), key=lambda fields: fields[:5])
    for i, (job, cases) in enumerate(jobs):
        cases = list(cases)
        kind, value = cases[0][6].split(",")
        numbers = [[int(n) for n in field.split(",") if n] for field in job]
        lines.append(job_line(f"empty-{i}", numbers, int(value) if kind == "R" else 0))
        lines += [f"L;{case[5]};{case[6]}" for case in cases]
    return lines


def edited_lines(text):
    """Jobs that no text states, or that small/ has not: one edit each of a lawful job."""
    points, triangles, kept, inner, table = read_job(text)
    edits = {
        "points-less-one": ((points[:-1], triangles, kept, inner, table), 2),
        "points-least": ((points[:-1] + [-(2**31)], triangles, kept, inner, table), 3),
        "points-greatest": ((points[:-1] + [2**31 - 1], triangles, kept, inner, table), 3),
        "triangles-less-one": ((points, triangles[:-1], kept, inner, table), 5),
        "triangle-255": ((points, triangles[:-1] + [255], kept, inner, table), 6),
        "triangle-twice": ((points, triangles + triangles[:3], kept, inner, table), 7),
        "triangle-turned": ((points, triangles + triangles[1:3] + triangles[:1], kept, inner, table), 7),
        "triangle-reversed": ((points, triangles + triangles[2::-1], kept, inner, table), 7),
        "triangle-less": ((points, triangles[3:], kept, inner, table), 8),
        "kept-odd": ((points, triangles, [0], inner, table), 9),
        "kept-121": ((points, triangles, [0, 1] * 121, inner, table), 9),
        "kept-120": ((points, triangles, [0, 1] * 120, inner, table), 0),
        "kept-255": ((points, triangles, [0, 255], inner, table), 10),
        "inner-one": ((points, triangles, kept, [0], table), 22),
        "inner-less-one": ((points, triangles, kept, [0, 1, 2, 0, 255], []), 22),
        "inner-561": ((points, triangles, kept, [0, 1, 2] * 561, table), 22),
        "inner-560": ((points, triangles, kept, [0, 1, 2] * 560, table), 0),
        "inner-255": ((points, triangles, kept, [0, 1, 255], []), 23),
        "inner-twice": ((points, triangles, kept, [0, 1, 2, 3, 4, 3], table), 23),
        "kept-odd-inner-one": ((points, triangles, [0], [0], table), 9),
        "kept-255-inner-one": ((points, triangles, [0, 255], [0], table), 10),
        "table-empty": ((points, triangles, kept, inner, []), 11),
        "table-less-one": ((points, triangles, kept, inner, table[:-1]), 11),
        "table-one-more": ((points, triangles, kept, inner, table + [1]), 11),
        "entry-below": ((points, triangles, kept, inner, table[:-1] + [-2]), 12),
        "entry-least": ((points, triangles, kept, inner, table[:-1] + [-(2**31)]), 12),
        "entry-above": ((points, triangles, kept, inner, table[:-1] + [1000001]), 12),
    }
    return [job_line(name, job, number) for name, (job, number) in edits.items()]


def changed(out):
    """Where the printout of a job stands that a later request changed, if one did."""
    places = (out.parent.parent / "slip-05" / "changed" / out.name, ROOT / "tests" / "changed" / out.name)
    return next((place for place in places if place.exists()), None)


def beyond(text):
    """The text with 50,001 in the place of each coordinate beyond 10,000."""
    lines = [line.split(",") for line in text.splitlines()]
    far = [[("-50001" if x < "0" else "50001") if abs(int(x)) > 10000 else x for x in line[1:]] if line[0] == "P" else line[1:] for line in lines]
    return "".join(",".join(line[:1] + fields) + "\n" for line, fields in zip(lines, far))


def folder_lines(folder, lists, longest, left_out):
    """The lines of the folder's jobs; their lists are taken out of `lists`."""
    lines = []
    for path in sorted(folder.glob("*.txt")):
        out = path.with_suffix(".out")
        if not out.exists() and path.stem not in lists:
            continue
        try:
            # Texts of any bytes: what is no ASCII is refused with 1.
            text = path.read_bytes().decode("latin-1")
            before = out.read_text() if out.exists() else ""
            now = changed(out)
            found = lines_of(path.stem, text, now.read_text() if now else before, lists.get(path.stem, []))
            if now:
                found += lines_of(path.stem + "-beyond", beyond(text), "R,3\n", [])
            if len(found[0]) > longest and path.stem not in lists:
                raise LeftOut("a longer line than LONGEST")
            lines += found
            lists.pop(path.stem, None)
        except LeftOut as reason:
            left_out.setdefault(str(reason), []).append(path.stem)
    return lines


def main(jobs, out):
    left_out = {}
    lists = stored_lists(jobs / "judge" / "cases.txt", FURTHER_LISTS)
    lines = folder_lines(jobs / "small", lists, 1 << 20, left_out)
    inner_lists = stored_lists(jobs / "slip-01" / "judge.txt", [])
    lines += folder_lines(jobs / "slip-01", inner_lists, LONGEST, left_out)
    lines += folder_lines(jobs / "slip-05", {}, LONGEST, left_out)
    lists.update(inner_lists)
    lines += listed_lines(EMPTY_LISTS + (jobs / "slip-02" / "judge-lists.txt").read_text().splitlines())
    lines += edited_lines((jobs / "small" / "case-B.txt").read_text())
    out.write_text("".join(line + "\n" for line in lines))
    print(f"{sum(line[0] == 'J' for line in lines)} jobs, {sum(line[0] == 'L' for line in lines)} lists")
    for reason, names in sorted(left_out.items()):
        print(f"{len(names)} left out: {reason} ({', '.join(names)})")
    if lists:
        sys.exit("lists of jobs that are left out or absent: " + ", ".join(lists))


if __name__ == "__main__":
    given = [Path(argument) for argument in sys.argv[1:]]
    main(*(given + [ROOT.parent / "shared" / "jobs", ROOT / "crates" / "law_cases" / "stdin"][len(given) :]))
