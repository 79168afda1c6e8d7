"""What every test of the Python package imports first: where things stand, which library and which helper are used.

python/ comes onto sys.path. COTTONTUFF_LIBRARY and COTTONTUFF_HELPER are taken where they are set, and kept so for the processes that a test starts; else the library is target/lib/libcottontuff.so
of this checkout, and the helper is built into target/tests/python.
"""
from __future__ import annotations

import functools
import os
import pathlib
import subprocess
import sys
import unittest

ROOT = pathlib.Path(__file__).resolve().parents[2]
SHARED = ROOT.parent / 'shared'  # stored jobs with their answers; a user's checkout has none
PACKAGE = ROOT / 'python' / 'cottontuff'
BUILT = ROOT / 'target' / 'tests' / 'python'
MESHES = BUILT / 'meshes'
FLAGS = ['-O2', '-Wall', '-Wextra', '-std=c11', '-ffp-contract=off', '-shared', '-fPIC']


def compiled(source: pathlib.Path, to: pathlib.Path) -> pathlib.Path:
    """The shared library of a C file, or of all in a folder, built unless it stands there and is newer. Built beside it and renamed: a process that has the old one open keeps it."""
    files = sorted(source.glob('*.[ch]')) if source.is_dir() else [source]
    if to.exists() and to.stat().st_mtime >= max(file.stat().st_mtime for file in files):
        return to
    to.parent.mkdir(parents=True, exist_ok=True)
    part = to.with_name(f'{to.name}.{os.getpid()}')
    try:
        subprocess.run([os.environ.get('CC', 'cc'), *FLAGS, *(str(file) for file in files if file.suffix == '.c'), '-o', str(part), '-lm'], check=True, capture_output=True, text=True)
    except OSError as fault:
        raise SystemExit(f'{source.name} can\'t be compiled: {fault}') from None
    except subprocess.CalledProcessError as fault:
        raise SystemExit(f'{source.name} can\'t be compiled:\n{fault.stderr}') from None
    os.replace(part, to)
    return to


@functools.lru_cache(maxsize=None)
def mesh_file(name: str) -> pathlib.Path:
    """The file of a test mesh, made at the first call and kept in MESHES. Without gmsh and tetgen the tests that need it are skipped."""
    try:
        import meshes
    except ImportError as fault:
        raise unittest.SkipTest(f'no test meshes can be made: {fault}') from None
    return meshes.make(name, MESHES)


def _prepare() -> None:
    """Sets the path and the two variables."""
    for folder in (ROOT / 'python', pathlib.Path(__file__).resolve().parent):
        if str(folder) not in sys.path:
            sys.path.insert(0, str(folder))
    if not os.environ.get('COTTONTUFF_LIBRARY'):
        library = ROOT / 'target' / 'lib' / 'libcottontuff.so'
        if not library.exists():
            raise SystemExit(f'{library} does not exist: `make` builds it.')
        os.environ['COTTONTUFF_LIBRARY'] = str(library)
    if not os.environ.get('COTTONTUFF_HELPER'):
        os.environ['COTTONTUFF_HELPER'] = str(compiled(ROOT / 'python' / 'helper', BUILT / 'libcottontuff_helper.so'))


_prepare()
