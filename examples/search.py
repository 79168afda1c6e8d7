#!/usr/bin/env python3
"""The search from Python: case B by ctypes over the shared library.
python3 examples/search.py [LIBRARY]     default target/lib/libcottontuff.so, which `make` builds"""
import ctypes
import pathlib
import sys

ANSWER_BYTES = 7280  # 4 for each of 1,820 fours


class Found(ctypes.Structure):
    _fields_ = [('number', ctypes.c_uint32), ('count', ctypes.c_uint32), ('worst', ctypes.c_uint32)]


beside = pathlib.Path(__file__).resolve().parent.parent / 'target/lib/libcottontuff.so'
library = ctypes.CDLL(sys.argv[1] if len(sys.argv) > 1 else str(beside))
library.cottontuff_search_inner.restype = Found
library.cottontuff_search_inner.argtypes = [
    ctypes.POINTER(ctypes.c_int32), ctypes.c_size_t,  # points
    ctypes.POINTER(ctypes.c_uint8), ctypes.c_size_t,  # triangles
    ctypes.POINTER(ctypes.c_uint8), ctypes.c_size_t,  # kept edges
    ctypes.POINTER(ctypes.c_uint8), ctypes.c_size_t,  # inner triangles
    ctypes.POINTER(ctypes.c_int32), ctypes.c_size_t,  # table of qualities
    ctypes.POINTER(ctypes.c_uint8), ctypes.c_size_t,  # answer buffer
]


def search(points, triangles, kept, inner, table):
    """The number of a refusal, or the worst quality and the tetrahedra."""
    answer = (ctypes.c_uint8 * ANSWER_BYTES)()
    lists = (
        (ctypes.c_int32, points), (ctypes.c_uint8, triangles), (ctypes.c_uint8, kept), (ctypes.c_uint8, inner), (ctypes.c_int32, table),
    )
    arguments = [part for kind, values in lists for part in ((kind * len(values))(*values), len(values))]
    found = library.cottontuff_search_inner(*arguments, answer, ANSWER_BYTES)
    if found.number:
        return found.number, 0, []
    return 0, found.worst, [tuple(answer[4 * i:4 * i + 4]) for i in range(found.count)]


number, worst, tetrahedra = search(
    points=[0, 0, 0, 6, 0, 0, 0, 6, 0, 1, 1, 5, 1, 1, -5],
    triangles=[0, 1, 3, 1, 2, 3, 2, 0, 3, 1, 0, 4, 2, 1, 4, 0, 2, 4],
    kept=[],
    inner=[],  # [0, 1, 2] would keep the base as a face
    table=[500000, 400000, 450000, 450000, 460000],
)
print(f'number {number}, worst quality {worst}')
for tetrahedron in tetrahedra:
    print(*tetrahedron)
