"""The command line: improve, measure, cavity, show, verify."""
from __future__ import annotations

import argparse
import json
import multiprocessing
import os
import signal
import sys
import time
from typing import Any, Callable, Sequence

from . import kernel
from .cavity import Options
from .faults import Fault
from .improve import SIZES, Result, improve
from .look import Look, job_text, look, words
from .measures import MEASURES, millionths, quality
from .files import check_folder, write_text
from .mesh import Mesh, format_of, read, write
from .record import verify
from .report import histogram_picture, histogram_text, improve_text, measure_json, measure_text, worst_tets
from .show import check_picture, show
from .version import VERSION

DONE, REFUSED, USAGE, INTERRUPTED = 0, 1, 2, 130


def _sizes(text: str) -> tuple[int, ...]:
    try:
        return tuple(int(part) for part in text.split(','))
    except ValueError:
        raise argparse.ArgumentTypeError(f'{text!r}: numbers parted by commas, as 5,6,8,11,16') from None


def _positive(text: str) -> int:
    if not text.isdecimal() or int(text) < 1:
        raise argparse.ArgumentTypeError(f'{text!r}: a whole number from 1 on')
    return int(text)


def _number(text: str) -> int:
    if not text.isdecimal():
        raise argparse.ArgumentTypeError(f'{text!r}: a whole number from 0 on')
    return int(text)


def parser() -> argparse.ArgumentParser:
    """The parser of the arguments.

    >>> parser().parse_args(['measure', 'part.msh']).file
    'part.msh'
    """
    top = argparse.ArgumentParser(prog='cottontuff', description='Betters tetrahedral meshes without moving or adding points.', epilog='cottontuff COMMAND --help says more; docs/MESHES.md has examples.')
    top.add_argument('--version', action='version', version=f'cottontuff {VERSION}')
    commands = top.add_subparsers(dest='command', required=True, metavar='COMMAND')
    common = argparse.ArgumentParser(add_help=False)
    common.add_argument('file', metavar='IN', help='a mesh: .msh, .vtk, .vtu, .mesh, .node or .ele')
    common.add_argument('--format', help="the format of IN where its suffix does not say it: msh, vtk, vtu, mesh, tetgen")
    common.add_argument('--region', metavar='NAME', help='the cell data that says which region a tetrahedron is of')
    common.add_argument('--measure', choices=list(MEASURES), default='shape', help='shape, the cube of the mean ratio, or gamma, gmsh\'s 3 r/R (default shape)')
    for add in (_add_improve, _add_measure, _add_cavity, _add_show, _add_verify):
        add(commands, common)
    return top


def _add_improve(commands: Any, common: argparse.ArgumentParser) -> None:
    one = commands.add_parser('improve', parents=[common], help='a mesh in, a better mesh out', description='Replaces bad tetrahedra by better ones. No point moves, none is added.')
    one.add_argument('-o', '--output', metavar='OUT', required=True, help='the better mesh; its suffix says the format')
    one.add_argument('--output-format', metavar='FORMAT', help='the format of OUT where its suffix does not say it')
    one.add_argument('--below', type=float, default=0.3, metavar='Q', help='tetrahedra of a quality below Q are opened (default 0.3)')
    one.add_argument('--sizes', type=_sizes, default=SIZES, metavar='N,N,..', help='how many points a cavity has when it is searched (default 5,6,8,11,16)')
    one.add_argument('--table', choices=['millionths', 'rank'], default='millionths', help='rank for meshes stretched so far that millionths are too coarse')
    one.add_argument('--passes', type=_positive, metavar='N', help='at most N passes (default: until one brings nothing)')
    one.add_argument('--limit', type=_positive, metavar='N', help=f'points are rounded to whole numbers from -N to N (default {kernel.FURTHEST:,})')
    one.add_argument('--jobs', type=_positive, default=1, metavar='N', help='processes, each with a part of the mesh (default 1)')
    one.add_argument('--record', metavar='FILE', help='a record of every replacement, which verify replays; packed where it ends in .gz')
    one.add_argument('--report', metavar='FILE', help='what was done, as JSON')
    one.add_argument('--picture', metavar='FILE', help='the histograms before and after, as .png, .svg or .pdf')
    one.add_argument('--force', action='store_true', help='OUT may be IN')
    one.add_argument('--quiet', action='store_true', help='no progress and no summary')
    one.set_defaults(do=do_improve)


def _add_measure(commands: Any, common: argparse.ArgumentParser) -> None:
    one = commands.add_parser('measure', parents=[common], help='counts, qualities, the worst ones, a histogram', description='Measures every tetrahedron.')
    one.add_argument('--json', action='store_true', help='as JSON')
    one.add_argument('--picture', metavar='FILE', help='the histogram, as .png, .svg or .pdf')
    one.set_defaults(do=do_measure)


def _add_cavity(commands: Any, common: argparse.ArgumentParser) -> None:
    one = commands.add_parser('cavity', parents=[common], help='one cavity as a job text, and its answer', description='The cavity that opens with a tetrahedron, as a text for the program cavity.')
    one.add_argument('--tet', type=_number, required=True, metavar='N', help='the tetrahedron, numbered from 0 as measure numbers them')
    one.add_argument('--grow', type=_number, metavar='K', help='grow it K times (default: as far as improve would)')
    one.add_argument('-o', '--output', metavar='FILE', help='the job text (default: standard output, and the answer on standard error)')
    one.set_defaults(do=do_cavity)


def _add_show(commands: Any, common: argparse.ArgumentParser) -> None:
    one = commands.add_parser('show', parents=[common], help='a cavity before and after, as a picture', description='A cavity and its best filling side by side.')
    which = one.add_mutually_exclusive_group(required=True)
    which.add_argument('--tet', type=_number, metavar='N', help='the cavity of tetrahedron N')
    which.add_argument('--worst', type=_positive, metavar='K', help='the cavity of the K-th worst tetrahedron, from 1')
    one.add_argument('--grow', type=_number, metavar='K', help='grow it K times (default: as far as improve would)')
    one.add_argument('-o', '--output', metavar='FILE', required=True, help='.png, .svg, .pdf or .vtu')
    one.set_defaults(do=do_show)


def _add_verify(commands: Any, common: argparse.ArgumentParser) -> None:
    one = commands.add_parser('verify', help='replays every replacement of a record', description='Replays every replacement from IN, and sees that the end is OUT.')
    one.add_argument('file', metavar='IN')
    one.add_argument('output', metavar='OUT')
    one.add_argument('record', metavar='RECORD')
    one.add_argument('--search', action='store_true', help='also ask the search again for each cavity')
    one.add_argument('--format', help='the format of IN where its suffix does not say it')
    one.add_argument('--output-format', metavar='FORMAT', help='the format of OUT where its suffix does not say it')
    one.add_argument('--region', metavar='NAME', help='the cell data that says which region a tetrahedron is of')
    one.set_defaults(do=do_verify)


class Interrupt:
    """Ctrl-C as a flag that all processes see, so that a run ends between two cavities. A second one ends the program: each process counts its own, for a terminal sends one to all of them."""

    def __init__(self) -> None:
        self.flag = multiprocessing.get_context('fork').RawValue('b', 0)
        self.own = 0

    def __enter__(self) -> Callable[[], bool]:
        self.before = signal.signal(signal.SIGINT, self._set)
        return lambda: bool(self.flag.value)

    def _set(self, number: int, frame: object) -> None:
        self.own += 1
        self.flag.value = 1
        if self.own > 1:
            raise KeyboardInterrupt

    def __exit__(self, *_: object) -> None:
        signal.signal(signal.SIGINT, self.before)


def _progress(quiet: bool) -> tuple[Callable[[int, int, float], None] | None, Callable[[], None]]:
    """What shows the progress, none where standard error is no terminal, and what ends it."""
    if quiet or not sys.stderr.isatty():
        return None, lambda: None
    from tqdm import tqdm
    bar = tqdm(unit=' tets', leave=False, bar_format='{desc}{bar} {n_fmt}/{total_fmt}{postfix}')
    seen = {'pass': 0, 'total': 1}

    def show_it(number: int, left: int, worst: float) -> None:
        if number != seen['pass']:
            seen['pass'], seen['total'] = number, max(left, 1)
            bar.reset(total=left)
            bar.set_description(f'pass {number}', refresh=False)
        seen['total'] = max(seen['total'], left)
        bar.total, bar.n = seen['total'], seen['total'] - left
        bar.set_postfix_str(f'{left:,} bad ones left, worst {worst / 1e6:.6f}')

    return show_it, bar.close


def _seconds(call: Callable[[], Any]) -> tuple[Any, float]:
    start = time.process_time()
    return call(), time.process_time() - start


def do_improve(given: argparse.Namespace) -> int:
    """improve IN -o OUT"""
    format_of(given.output, given.output_format)
    for path in (given.output, given.record, given.report):
        if path:
            check_folder(path)
    if not given.force and files_of(given.output) & files_of(given.file):
        raise Fault(f'{given.output}: OUT is IN, which is overwritten only with --force')
    _apart(given.file, given.record, given.report, given.picture)
    _apart(given.output, given.record, given.report, given.picture)
    if given.picture:
        check_picture(given.picture)
    mesh, reading = _seconds(lambda: read(given.file, format=given.format, region=given.region))
    result = _improved(given, mesh)
    lines, writing = _seconds(lambda: write(given.output, result.mesh, format=given.output_format))
    result.report['seconds'].update({'read': reading, 'write': writing})
    result.report.update({'input': given.file, 'output': given.output, 'said': lines})
    for line in lines:
        print(f'cottontuff: {given.output}: {line}', file=sys.stderr)
    if given.report:
        write_text(given.report, json.dumps(result.report, indent=1) + '\n')
    before, after = (quality(one.points, one.tets, given.measure) for one in (mesh, result.mesh))
    if given.picture:
        histogram_picture(given.picture, before, after, os.path.basename(given.file), measure=given.measure)
    if not given.quiet:
        print(improve_text(result.report).rstrip('\n'), histogram_text(before, after), sep='\n\n', end='')
    if result.report['interrupted']:
        print(f'cottontuff: interrupted: {given.output} has what was reached', file=sys.stderr)
        return INTERRUPTED
    return DONE


def _improved(given: argparse.Namespace, mesh: Mesh) -> Result:
    progress, close = _progress(given.quiet)
    try:
        with Interrupt() as stop:
            return improve(
                mesh, below=given.below, sizes=given.sizes, measure=given.measure, table=given.table, passes=given.passes, limit=given.limit, jobs=given.jobs, record=given.record,
                progress=progress, stop=stop,
            )
    finally:
        close()


def files_of(path: str) -> set[str]:
    """The files that a mesh is in: tetgen's has two.

    >>> len(files_of('part.ele')), len(files_of('part.msh'))
    (2, 1)
    """
    stem, suffix = os.path.splitext(path)
    both = [stem + '.node', stem + '.ele'] if suffix in ('.node', '.ele') else [path]
    return {_identity(file) for file in both}


def _identity(path: str) -> str:
    """The same for two names of one file, links of either kind included."""
    try:
        found = os.stat(path)
    except OSError:
        return os.path.realpath(path)
    return f'{found.st_dev}:{found.st_ino}'


def _apart(mesh: str, *others: str | None) -> None:
    """Fault where one file would be written over another, or over the mesh."""
    taken = files_of(mesh)
    for path in others:
        if path and path != '-':
            if _identity(path) in taken:
                raise Fault(f'{path}: it is named twice, or is a mesh that is read or written')
            taken.add(_identity(path))


def do_measure(given: argparse.Namespace) -> int:
    """measure IN"""
    if given.picture:
        check_picture(given.picture)
        _apart(given.file, given.picture)
    mesh = read(given.file, format=given.format, region=given.region)
    print(json.dumps(measure_json(mesh, given.measure), indent=1) if given.json else measure_text(mesh, given.measure))
    if given.picture:
        histogram_picture(given.picture, quality(mesh.points, mesh.tets, given.measure), None, os.path.basename(given.file), measure=given.measure)
    return DONE


def _looked(given: argparse.Namespace, mesh: Mesh, tet: int) -> Look:
    return look(mesh, tet, steps=given.grow, options=Options(given.measure))


def do_cavity(given: argparse.Namespace) -> int:
    """cavity IN --tet N"""
    if given.output:
        check_folder(given.output)
        _apart(given.file, given.output)
    mesh = read(given.file, format=given.format, region=given.region)
    found = _looked(given, mesh, given.tet)
    if given.output:
        write_text(given.output, job_text(found.job))
        print(words(found))
    else:
        print(job_text(found.job), end='')
        sys.stdout.flush()
        print(words(found), file=sys.stderr)
    return DONE


def do_show(given: argparse.Namespace) -> int:
    """show IN --tet N -o FILE"""
    check_picture(given.output, also=('.vtu',))
    _apart(given.file, given.output)
    mesh = read(given.file, format=given.format, region=given.region)
    if given.worst is not None and given.worst > len(mesh.tets):
        raise Fault(f'{given.file}: there is no {given.worst:,}th worst: it has {len(mesh.tets):,} tetrahedra')
    tet = given.tet if given.tet is not None else worst_tets(mesh, given.worst, given.measure)[-1].tet
    found = _looked(given, mesh, tet)
    before, after = found.corners()
    title = f'{os.path.basename(given.file)}, tetrahedron {tet}: a cavity of {len(found.job.points)} points'
    show(given.output, mesh.points, before, after if found.betters() else None, boundary=found.job.points[found.job.triangles], title=title, measure=given.measure)
    print(words(found))
    return DONE


def do_verify(given: argparse.Namespace) -> int:
    """verify IN OUT RECORD"""
    before = read(given.file, format=given.format, region=given.region)
    after = read(given.output, format=given.output_format, region=given.region)
    said, seconds = _seconds(lambda: verify(before, after, given.record, search=given.search))
    for wrong in said.wrong:
        print(f'cottontuff: {given.record}: {wrong}', file=sys.stderr)
    if said.wrong:
        return REFUSED
    worst = [int(millionths(quality(mesh.points, mesh.tets, said.measure)).min()) for mesh in (before, after)]
    also = ', and the search answers each of them' if given.search else ''
    print(f'{said.replacements:,} replacements hold{also}; {said.carries_over:,} of them carry over to the doubles; the end is {given.output}; worst {said.measure} {worst[0]:,} to {worst[1]:,} millionths; {seconds:.2f} s')
    return DONE


def main(arguments: Sequence[str] | None = None) -> int:
    """Runs a command; its exit status: 0 done, 1 refused, 2 usage, 130 interrupted.

    >>> main(['measure', 'nowhere.msh'])
    1
    """
    try:
        given = parser().parse_args(arguments)
        status = int(given.do(given))
        sys.stdout.flush()
        return status
    except SystemExit as end:
        return int(end.code or 0)
    except KeyboardInterrupt:
        return _said('interrupted', INTERRUPTED)
    except ValueError as fault:
        return _said(str(fault), USAGE)
    except Fault as fault:
        return _said(str(fault), REFUSED)
    except MemoryError:
        return _said('the memory does not suffice for this mesh', REFUSED)
    except BrokenPipeError:
        _leave_output()  # the reader of a pipe went away; every file is written by then
        return DONE
    except OSError as fault:
        _leave_output()
        return _said(f'{fault.filename}: {fault.strerror}' if fault.filename else str(fault.strerror or fault), REFUSED)


def _said(sentence: str, status: int) -> int:
    print(f'cottontuff: {sentence}', file=sys.stderr)
    return status


def _leave_output() -> None:
    """Nothing more can be written to standard output, also not when the program ends."""
    os.dup2(os.open(os.devnull, os.O_WRONLY), sys.stdout.fileno())
