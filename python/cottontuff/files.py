"""Files that are written whole or not at all."""
from __future__ import annotations

import os
import pathlib
from typing import Callable, Union

from .faults import Fault

Path = Union[str, 'os.PathLike[str]']
Writer = Callable[[str], object]


def write_beside(path: Path, write: Writer) -> None:
    """Have `write` make a file beside `path`, then rename it: `path` is either as it was or complete. A failure is a Fault, and leaves nothing behind.

    >>> import tempfile
    >>> with tempfile.TemporaryDirectory() as folder:
    ...     write_beside(folder + '/a.txt', lambda name: open(name, 'w').close())
    ...     os.listdir(folder)
    ['a.txt']
    """
    goal = pathlib.Path(os.path.realpath(path))  # a link stays a link
    draft = goal.with_name(f'.{goal.stem}.{os.getpid()}{goal.suffix}')
    try:
        write(str(draft))
        os.replace(draft, goal)
    except OSError as error:
        raise Fault(f"{os.fspath(path)}: it can't be written: {error.strerror or error}") from error
    finally:
        try:
            draft.unlink()
        except OSError:
            pass  # renamed, or never made


def write_text(path: Path, text: str) -> None:
    """Writes a text, whole or not at all; `-` is standard output.

    >>> write_text('-', 'P,0,0,0\\n')
    P,0,0,0
    """
    if os.fspath(path) == '-':
        print(text, end='', flush=True)
    else:
        write_beside(path, lambda name: pathlib.Path(name).write_text(text))


def check_folder(path: Path) -> None:
    """Fault where nothing can be written at a path, said before the work is done.

    >>> check_folder('nowhere/out.msh')
    Traceback (most recent call last):
    cottontuff.faults.Fault: nowhere/out.msh: the folder nowhere is not there
    """
    folder = pathlib.Path(os.path.realpath(path)).parent
    if not folder.is_dir():
        raise Fault(f'{os.fspath(path)}: the folder {os.path.dirname(os.fspath(path))} is not there')
    if os.path.isdir(path):
        raise Fault(f'{os.fspath(path)}: it is a folder')
    if not os.access(folder, os.W_OK):
        raise Fault(f'{os.fspath(path)}: the folder {os.path.dirname(os.fspath(path)) or "."} takes no new file')
