"""The helper in C, where it was built; every function of it has a plain form in Python."""
from __future__ import annotations

import ctypes
import functools
import os
import pathlib
from typing import Any

from numpy.typing import NDArray

from .faults import Fault

VERSION = 3
_P, _INT, _LONG = ctypes.c_void_p, ctypes.c_int32, ctypes.c_int64
_FUNCTIONS: dict[str, tuple[Any, list[Any]]] = {
    'version': (_INT, []), 'sizes': (_LONG, [_INT]), 'link': (None, [_P]), 'open': (None, [_P, _P, _INT]), 'reopen': (_INT, [_P, _P, _P, _INT, _P, _INT]), 'grow': (_INT, [_P, _P, _INT]),
    'prepare': (_INT, [_P, _P]), 'table': (None, [_P, _P]), 'recheck': (_INT, [_P, _P, _INT]), 'exchange': (_INT, [_P, _P, _P, _INT]), 'find': (None, [_P, _P, _LONG, _P]),
    'filter': (None, [_P, _P, _LONG, _P, _P]), 'volume': (_INT, [_P, _LONG, _P, _LONG, _P, _P]), 'measure': (None, [_P]), 'corners': (None, [_P, _LONG, _P, _P]),
    'beside': (None, [_P, _LONG, _P, _P, _LONG, _INT, _P, _P, _P, _P, _P, _P]), 'rows': (None, [_P, _P, _LONG, _INT, _P, _P, _P]), 'line': (_LONG, [_P, _P, _INT, _INT, _INT, _INT, _INT, _P]),
    'replay': (None, [_P, _P, _P, _P, _P, _LONG, _LONG, _P]),
}


def usable() -> ctypes.CDLL | None:
    """The helper, unless there is none or the plain form is asked for.

    >>> usable() is None or not is_pure()
    True
    """
    return None if is_pure() else helper()


@functools.lru_cache(maxsize=1)
def helper() -> ctypes.CDLL | None:
    """The helper: the file that COTTONTUFF_HELPER names, else the one beside the package; None where there is none.

    >>> helper() is None or helper().helper_version() == VERSION
    True
    """
    named = os.environ.get('COTTONTUFF_HELPER')
    path = named or str(pathlib.Path(__file__).resolve().parent / 'libcottontuff_helper.so')
    if not named and not os.path.exists(path):
        return None
    try:
        loaded = ctypes.CDLL(path)
        if loaded.helper_version() != VERSION:
            raise Fault(f'{path}: this helper is of another version than the package; python/install builds both')
        for name, (answer, arguments) in _FUNCTIONS.items():
            function = getattr(loaded, 'helper_' + name)
            function.restype, function.argtypes = answer, arguments
    except (OSError, AttributeError) as fault:
        raise Fault(f'the helper can\'t be loaded: {fault}') from fault
    return loaded


def is_pure() -> bool:
    """Whether the plain form is asked for.

    >>> is_pure() == (os.environ.get('COTTONTUFF_PURE', '') not in ('', '0'))
    True
    """
    return os.environ.get('COTTONTUFF_PURE', '') not in ('', '0')


def address(array: NDArray[Any]) -> int:
    """Where an array's first entry stands; the array must be held while the address is used.

    >>> import numpy as np
    >>> address(np.zeros(1)) > 0
    True
    """
    return int(array.__array_interface__['data'][0])
