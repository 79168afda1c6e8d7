"""One cavity of a mesh: its job, the kernel's answer, and the job as a text for the program `cavity`."""
from __future__ import annotations

import dataclasses
from typing import Sequence, Union

import numpy as np

from . import fast, kernel
from .cavity import Job, Options, fours
from .faults import Fault
from .improve import SIZES, example
from .kernel import Filling, Refusal
from .measures import Ints
from .mesh import Mesh, checked
from .neighbours import KINDS, neighbours


@dataclasses.dataclass(frozen=True)
class Look:
    """A cavity: its tetrahedra as rows of the mesh, its job, and the best filling, or why there is none."""

    tets: list[int]
    job: Job
    answer: Union[Filling, Refusal]

    def betters(self) -> bool:
        """Whether the filling has a greater worst quality than the cavity has.

        >>> look(example(), 0).betters()
        True
        """
        return isinstance(self.answer, Filling) and self.answer.worst > self.job.worst_entry

    def corners(self) -> tuple[Ints, Ints]:
        """The cavity's tetrahedra and the filling's, as numbers of the mesh's points.

        >>> look(example(), 0).corners()[0].tolist()
        [[0, 1, 2, 3], [0, 1, 2, 4]]
        """
        filling = self.answer.tets if isinstance(self.answer, Filling) else np.zeros((0, 4), np.uint8)
        return self.job.points[self.job.own], self.job.points[filling]


def look(mesh: Mesh, tet: int, *, steps: int | None = None, sizes: Sequence[int] = SIZES, options: Options = Options()) -> Look:
    """The cavity that opens with a tetrahedron: grown so many steps, or, where none are named, to the first of the sizes at which `improve` would exchange it, else as far as the last.

    >>> found = look(example(), 0)
    >>> found.answer.worst, len(found.answer.tets), found.job.worst_entry
    (94014, 3, 39551)
    """
    mesh = checked(mesh)
    if not 0 <= tet < len(mesh.tets):
        raise Fault(f'there is no tetrahedron {tet}: they are numbered from 0 to {len(mesh.tets) - 1}')
    of = neighbours(mesh)
    if of.kind[tet]:
        raise Fault(f'tetrahedron {tet} is {KINDS[int(of.kind[tet])]}: it is not touched')
    engine = fast.engine(of, options)
    engine.open(tet)
    found: Look | None = None
    before = 0
    for size in (sizes if steps is None else [min(4 + steps, kernel.MOST_POINTS)]):
        reached = engine.grow(size)
        if reached == before:
            break
        before = reached
        why = engine.prepare() if reached > 0 else 'of over 512 tetrahedra'
        if why is not None:
            raise Fault(f'the cavity of tetrahedron {tet} is {why}')
        job = engine.job()
        found = Look(engine.cavity_tets(), job, kernel.search(job.coordinates, job.triangles, job.full, kept=job.kept, inner=job.inner))
        if found.betters() and job.own_allowed:
            break
    assert found is not None
    return found


def job_text(job: Job) -> str:
    """The job as a text for `cavity`: P, T, E, K lines, and a Q line for each four that is not flat, 0 where it is barred.

    >>> print(job_text(look(example(), 0, steps=0).job).splitlines()[-1])
    Q,0,1,2,3,39551
    """
    rows = [f'P,{x},{y},{z}' for x, y, z in job.coordinates.tolist()]
    for letter, lists in (('T', job.triangles.tolist()), ('E', job.kept.tolist()), ('K', job.inner.tolist())):
        rows += [','.join([letter, *map(str, numbers)]) for numbers in lists]
    rows += [f'Q,{a},{b},{c},{d},{entry}' for (a, b, c, d), entry in zip(fours(len(job.points)).tolist(), job.full.tolist()) if entry >= 0]
    return '\n'.join(rows) + '\n'


def words(found: Look) -> str:
    """The cavity and its answer in words.

    >>> print(words(look(example(), 0)).splitlines()[0])
    a cavity of 5 points and 2 tetrahedra, the worst of quality 0.039551
    """
    job, before = found.job, len(found.tets)
    said = [f'a cavity of {len(job.points)} points and {before} tetrahedr{"on" if before == 1 else "a"}, the worst of quality {job.worst_entry / 1e6:.6f}']
    if not job.own_allowed:
        said.append('rounding to whole numbers turns one of its tetrahedra: improve gives it up')
    said.append('its points: ' + ' '.join(map(str, job.points.tolist())))
    if isinstance(found.answer, Refusal):
        return '\n'.join([*said, f'no filling: number {found.answer}'])
    count = len(found.answer.tets)
    rises = 'better than it is' if found.betters() else 'no better than it is'
    said.append(f'the best filling has {count} tetrahedr{"on" if count == 1 else "a"}, the worst of quality {found.answer.worst / 1e6:.6f}: {rises}')
    entry = dict(zip(map(tuple, fours(len(job.points)).tolist()), job.full.tolist()))
    for local, corners in zip(found.answer.tets.tolist(), found.corners()[1].tolist()):
        said.append(f'  {entry[tuple(local)] / 1e6:.6f}  ' + ' '.join(map(str, corners)))
    return '\n'.join(said)
