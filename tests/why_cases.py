#!/usr/bin/env python3
"""Writes crates/why_cases/stdin and stdout from a folder of jobs.

    tests/why_cases.py [JOBS [OUT]]

JOBS (../shared/jobs) has slip-06/NAME.txt, a job; slip-06/why.txt, lines NAME;a,b,c,d;RESULT; and small/case-B.txt.
OUT (crates/why_cases) gets the two files, of the form that crates/why_cases/src/main.rt describes. The answers are the stored ones: the program is not run.
"""
import itertools
import sys
from pathlib import Path

sys.dont_write_bytecode = True
from law_cases import read_job
from trial_cases import job_line

ROOT = Path(__file__).resolve().parent.parent

# No fours of five points: numbers that do not increase, or absent points, some of which would be present if they were cut to 8 or 16 bits.
BAD_FOURS = [
    "0,0,1,2",
    "0,1,1,2",
    "0,1,2,2",
    "3,2,1,0",
    "1,0,2,3",
    "0,2,1,3",
    "0,1,3,2",
    "4,4,4,4",
    "0,1,2,5",
    "2,3,4,5",
    "5,6,7,8",
    "0,1,2,255",
    "0,1,2,256",
    "0,1,2,259",
    "0,1,2,65536",
    "0,1,2,65539",
    "0,1,2,4294967295",
    "256,257,258,259",
    "4294967292,4294967293,4294967294,4294967295",
]

# The fours of case B; and where 0,1,3,4 has the quality of 0,1,2,4, so that the first of its two fillings is the answer.
CASE_B = ["0,1,2,3;W,6,400000", "0,1,2,4;W,6,400000", "0,1,3,4;W,1,0", "0,2,3,4;W,1,0", "1,2,3,4;W,1,0"]
CASE_B_TIED = ["0,1,2,3;W,1,0", "0,1,2,4;W,1,0", "0,1,3,4;W,7,0", "0,2,3,4;W,7,0", "1,2,3,4;W,7,0"]

# Without a lawful filling, and of five points: a bad four is 24 here too.
UNFILLED = "case-b-15-e34"


def bad_rows(fours):
    """Rows of fours that are 24: no stored row has that number."""
    return [f"{four};R,24" for four in fours]


def further(jobs):
    """The empty job, which has no four, and case B."""
    points, triangles, kept, inner, table = read_job((jobs / "small" / "case-B.txt").read_text())
    tied = table[:2] + table[1:2] + table[3:]
    return [
        ("empty", ([], [], [], [], []), bad_rows(["0,1,2,3"] + BAD_FOURS)),
        ("case-b", (points, triangles, kept, inner, table), CASE_B + bad_rows(BAD_FOURS)),
        ("case-b-tied", (points, triangles, kept, inner, tied), CASE_B_TIED),
    ]


def stored(jobs):
    """Every row of why.txt, and of each accepted job the first absent point."""
    rows = [row.split(";", 1) for row in (jobs / "slip-06" / "why.txt").read_text().splitlines()]
    for name, group in itertools.groupby(rows, key=lambda row: row[0]):
        job = read_job((jobs / "slip-06" / f"{name}.txt").read_text())
        answers = [answer for _, answer in group]
        if answers[0].split(";")[1] == "R,15" or ";W," in answers[0]:
            answers += bad_rows(BAD_FOURS if name == UNFILLED else [f"0,1,2,{len(job[0]) // 3}"])
        yield name, job, answers


def main(jobs, out):
    played = further(jobs) + list(stored(jobs))
    lines = []
    for name, job, answers in played:
        lines += [job_line(name, job)] + ["F;" + answer.split(";")[0] for answer in answers]
    (out / "stdin").write_text("".join(line + "\n" for line in lines))
    (out / "stdout").write_text("".join(f"{name};{answer}\n" for name, _, answers in played for answer in answers))
    print(f"{len(played)} jobs, {sum(len(answers) for _, _, answers in played)} fours")


if __name__ == "__main__":
    given = [Path(argument) for argument in sys.argv[1:]]
    main(*(given + [ROOT.parent / "shared" / "jobs", ROOT / "crates" / "why_cases"][len(given) :]))
