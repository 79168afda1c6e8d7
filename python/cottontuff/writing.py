"""Meshes into files, whole or not at all."""
from __future__ import annotations

import contextlib
import os
import pathlib
import secrets
import shutil
import struct
from typing import Any, Callable, Iterator

import numpy as np

from .carrying import Target, check_mesh, current_blocks, target_of
from .faults import Fault
from .files import Path
from .fitting import fit_blocks, fit_names, fit_points
from .model import Array, Block, Mesh, SUFFIXES, Source, partner_of
from .msh41 import save41
from .quiet import GaveUp, quietly, sentence

GMF_END = struct.pack('=iq', 54, 0)  # the last record of .meshb


class _Digits(float):
    """A double that is always written with all its digits."""

    def __format__(self, spec: str) -> str:
        return repr(float(self))


class _Exact(np.ndarray):  # type: ignore[type-arg]
    """Doubles that meshio's writer of .vtu in text, which has twelve digits, writes with all of theirs."""

    def __iter__(self) -> Iterator[Any]:
        return map(_Digits, self.tolist())


def _exact(values: Array) -> Array:
    return values.view(_Exact) if values.dtype.kind == 'f' else values


def _save(path: pathlib.Path, mesh: Mesh, source: Source, blocks: list[Block], target: Target) -> None:
    """The mesh into a new file at the path."""
    import meshio  # type: ignore[import]
    point_data = fit_points(mesh, source, target)
    names = fit_names(mesh, source, target)
    if target.format == 'msh' and target.version == '4.1':
        save41(path, mesh, source, blocks, point_data, names, target)
        return
    cells = [(block.kind, block.corners.astype(np.int32) if path.suffix == '.meshb' else block.corners) for block in blocks]
    cell_data = {name: [block.data[name] for block in blocks] for name in blocks[0].data}
    raw = meshio.Mesh(np.ascontiguousarray(mesh.points, np.float64), cells, point_data=point_data, cell_data=cell_data, field_data=names)
    if target.format == 'msh':
        raw.gmsh_periodic = source.periodic or None
    if target.format == 'vtu' and not target.binary:
        raw.points = _exact(raw.points)
        raw.point_data = {name: _exact(values) for name, values in raw.point_data.items()}
        raw.cell_data = {name: [_exact(part) for part in parts] for name, parts in raw.cell_data.items()}
    writer = {'msh': 'gmsh22', 'mesh': 'medit', 'vtk': 'vtk' if target.version == '5.1' else 'vtk42'}.get(target.format, target.format)
    options = {'binary': target.binary} if target.format in ('msh', 'vtk', 'vtu') else {}
    meshio.write(path, raw, writer, **options)
    if path.suffix == '.meshb' and not path.read_bytes().endswith(GMF_END):
        raise OSError('the last bytes are missing')  # numpy does not tell what it could not write on closing, and here nothing else follows


def _flush(path: pathlib.Path) -> None:
    handle = os.open(path, os.O_RDONLY)
    try:
        os.fsync(handle)
    finally:
        os.close(handle)


def _reason(error: OSError, files: list[pathlib.Path]) -> str:
    """Why the disk refused. numpy keeps it to itself, so that some bytes more are tried."""
    if error.strerror:
        return error.strerror
    try:
        for file in files:
            if file.exists():
                with open(file, 'ab') as stream:
                    stream.write(bytes(1 << 20))
                    stream.flush()
    except OSError as again:
        return again.strerror or sentence(again)
    return sentence(error)


def _replace(path: pathlib.Path, format: str, save: Callable[[pathlib.Path], list[str]]) -> list[str]:
    """What `save` says of writing a file beside, which then takes the place of the one at the path."""
    aim = pathlib.Path(os.path.realpath(path))
    suffix = aim.suffix.lower() if SUFFIXES.get(aim.suffix.lower()) == format else f'.{format}'
    beside = aim.with_name(f'.{aim.stem}.{os.getpid()}.{secrets.token_hex(4)}{suffix}')
    pairs = [(beside, aim)]
    if format == 'tetgen':  # points first: they never move, so that the old .ele fits the new .node
        pairs = sorted([(beside, aim), (partner_of(beside), partner_of(aim))], key=lambda pair: pair[0].suffix == '.ele')
    try:
        for _, file in pairs:
            if file.exists() and not file.is_file():
                raise Fault(f"{path}: not written: it is {'a folder' if file.is_dir() else 'no regular file'}")
        said = save(beside)
        for new, file in pairs:
            _flush(new)
            if file.exists():
                shutil.copymode(file, new)
        for new, file in pairs:
            os.replace(new, file)
        with contextlib.suppress(OSError):  # not every file system flushes folders
            _flush(aim.parent)
    except GaveUp as refusal:
        raise Fault(f'{path}: not written: {refusal}') from refusal
    except OSError as error:
        raise Fault(f'{path}: not written: {_reason(error, [new for new, _ in pairs])}') from error
    finally:
        for new, _ in pairs:
            with contextlib.suppress(OSError):
                os.unlink(new)
    return said


def write(path: Path, mesh: Mesh, *, format: str | None = None) -> list[str]:
    """Writes the mesh, whole or not at all, and returns what could not be carried, a line each.

    All that is no tetrahedron comes out as it came; a tetrahedron keeps its place in the file if `origin` tells it, and a new one stands behind the others of its region, with their cell data if
    that is one value. Version and mode are those of the source if the format is the same.

    >>> import tempfile
    >>> from cottontuff.reading import read
    >>> corner = np.array([[0., 0, 0], [1, 0, 0], [0, 1, 0], [0, 0, 1]])
    >>> with tempfile.TemporaryDirectory() as folder:
    ...     write(folder + '/one.msh', Mesh(corner, np.array([[0, 1, 2, 3]]), np.array([5]), names={'steel': np.array([5, 3])}))
    ...     write(folder + '/one.vtu', read(folder + '/one.msh'))
    []
    ["name 'steel': vtu has no place for it"]
    """
    where = pathlib.Path(path)
    target = target_of(where, mesh.source, format)
    check_mesh(where, mesh)
    source, blocks = current_blocks(mesh, target.lines)
    try:
        blocks = fit_blocks(blocks, source, target)
    except GaveUp as refusal:
        raise Fault(f'{where}: not written: {refusal}') from refusal
    said = _replace(where, target.format, lambda beside: quietly(lambda: _save(beside, mesh, source, blocks, target))[1])
    quiet = ('ASCII files are only meant for debugging', 'Appending zeros to replace the missing')
    return target.lines + [text for text in said if not any(part in text for part in quiet)]
