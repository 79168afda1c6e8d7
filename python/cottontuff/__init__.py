"""Betters tetrahedral meshes without moving or adding a point, by a kernel whose fillings are proved best.

>>> from cottontuff.improve import example, improve
>>> better = improve(example(), below=0.9)
>>> better.report['after']['worst'] > better.report['before']['worst']
True
"""
from .faults import Fault
from .mesh import Mesh, boundary, read, write
from .selftest import selftest
from .version import VERSION

__all__ = ['Fault', 'Mesh', 'VERSION', 'boundary', 'read', 'selftest', 'write']
