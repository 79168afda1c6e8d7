#!/usr/bin/env python3
"""Writes crates/trial_cases/stdin and stdout from a folder of jobs.

    tests/trial_cases.py [JOBS [OUT]]

JOBS (../shared/jobs) has slip-04/NAME.txt, a job; slip-04/trials.txt, lines NAME;LIMIT;ANSWER;LIST; and small/case-B.txt.
OUT (crates/trial_cases) gets the two files, of the form that crates/trial_cases/src/main.rt describes. The answers are the stored ones: the program is not run.
"""
import itertools
import sys
from pathlib import Path

sys.dont_write_bytecode = True
from law_cases import ROOM, in_runs, plain, read_job

ROOT = Path(__file__).resolve().parent.parent

# Real cavities whose rows are taken up to a limit, one or two of each size: the gate has room for few, tests/ play them all.
CAVITIES = [
    "step-hxt-n09-t1069",
    "ellipsoid-tetgen-n10-t566",
    "ellipsoid-tetgen-n10-t267",
    "torus-del-n10-t299",
    "sphere-tetgen-n11-t659",
    "gear-del-n12-t1702",
    "bracket-hxt-n12-t210-keep",
    "ellipsoid-del-n12-t864-keep",
    "csg-del-n13-t1344",
    "piston-del-n15-v1380",
    "torus-del-n16-t968",
]

MOST_TRIALS = 2000

# Case B, which counts five trials, and the empty job, which has no open face and so no trial.
B_LIST = "0,1,2,3 0,1,2,4"
CASE_B = [
    "case-b;0;S,0,0,0;",
    "case-b;1;S,1,0,0;",
    f"case-b;2;S,2,2,400000;{B_LIST}",
    f"case-b;4;S,4,2,400000;{B_LIST}",
    "case-b;5;F,5,3,450000;0,1,3,4 0,2,3,4 1,2,3,4",
    "case-b;4294967295;F,5,3,450000;0,1,3,4 0,2,3,4 1,2,3,4",
]
EMPTY = ["empty;0;F,0,0,1000000;", "empty;1;F,0,0,1000000;"]


def corner(name, x, z, inner, refusal):
    """The corner of a cube with these sizes along x and z, its first face so many times an inner triangle: one trial fills it. Or the number that refuses it."""
    triangles = [0, 2, 1, 0, 1, 3, 0, 3, 2, 1, 2, 3]
    job = [0, 0, 0, x, 0, 0, 0, 50000, 0, 0, 0, z], triangles, [], triangles[:3] * inner, [1]
    if refusal:
        return name, job, [f"{name};1;R{refusal},0,0,0;"]
    return name, job, [f"{name};0;S,0,0,0;", f"{name};1;F,1,1,1;0,1,2,3"]


# At the limits of a job, and one beyond.
AT_LIMITS = [
    corner("corner-near", 50000, 50000, 0, 0),
    corner("corner-near-below", -50000, -50000, 0, 0),
    corner("corner-far", 50001, 50000, 0, 3),
    corner("corner-far-below", 50000, -50001, 0, 3),
    corner("corner-560", 1, 1, 560, 0),
    corner("corner-561", 1, 1, 561, 22),
]


def is_cavity(name):
    return not name.startswith(("case-", "random-", "refused-"))


def answer(row):
    """Kind, count, worst quality and list; not the trials."""
    _, _, numbers, fours = row.split(";")
    kind, _, count, worst = numbers.split(",")
    return kind, count, worst, fours


def chosen(rows):
    """Of a small job's rows the first, and those on both sides of a change of the answer."""
    changes = [answer(row) != answer(after) for row, after in zip(rows, rows[1:])]
    return [row for row, before, after in zip(rows, [True] + changes, changes + [False]) if before or after]


def within(rows):
    """Of a cavity's rows those up to the limit."""
    return [row for row in rows if int(row.split(";")[1]) <= MOST_TRIALS]


def job_line(name, job):
    if any(len(numbers) > room for numbers, room in zip(job, ROOM)):
        sys.exit(f"{name} is longer than the program has room for")
    points, triangles, kept, inner, table = job
    return f"J;{name};{plain(points)};{plain(triangles)};{plain(kept)};{plain(inner)};{in_runs(table)}"


def main(jobs, out):
    stored = (jobs / "slip-04" / "trials.txt").read_text().splitlines()
    groups = [(name, list(rows)) for name, rows in itertools.groupby(stored, key=lambda row: row.split(";")[0])]
    played = [("empty", ([], [], [], [], []), EMPTY), ("case-b", read_job((jobs / "small" / "case-B.txt").read_text()), CASE_B)] + AT_LIMITS
    for name, rows in groups:
        rows = within(rows) if name in CAVITIES else [] if is_cavity(name) else chosen(rows)
        if rows:
            played.append((name, read_job((jobs / "slip-04" / f"{name}.txt").read_text()), rows))
    lines = []
    for name, job, rows in played:
        lines += [job_line(name, job)] + ["L;" + row.split(";")[1] for row in rows]
    (out / "stdin").write_text("".join(line + "\n" for line in lines))
    (out / "stdout").write_text("".join(row + "\n" for _, _, rows in played for row in rows))
    print(f"{len(played)} jobs, {sum(len(rows) for _, _, rows in played)} limits")


if __name__ == "__main__":
    given = [Path(argument) for argument in sys.argv[1:]]
    main(*(given + [ROOT.parent / "shared" / "jobs", ROOT / "crates" / "trial_cases"][len(given) :]))
