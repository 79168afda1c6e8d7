"""A look at an installation: the kernel answers the worked case, and the helper does what the plain form does."""
from __future__ import annotations

import numpy as np

from . import cavity, fast, kernel
from .helper import helper, is_pure
from .faults import Fault
from .improve import example, improve
from .neighbours import neighbours


def selftest() -> str:
    """Says what works; raises Fault where something does not.

    >>> selftest().startswith('the kernel answers')
    True
    """
    filling = kernel.search(*kernel.case_b())
    if not isinstance(filling, kernel.Filling) or (filling.worst, len(filling.tets)) != (450000, 3):
        raise Fault(f'the kernel answers {filling} to the worked case')
    said = 'the kernel answers the worked case'
    of = neighbours(example())
    loaded = None if is_pure() else helper()
    if loaded is None:
        said += ', without the helper'
    else:
        engine = fast.FastEngine(of, cavity.Options(), loaded)
        engine.open(0)
        engine.grow(5)
        engine.prepare()
        plain = cavity.job(cavity.grown(cavity.Tetrahedra(of, cavity.Options()), 0))
        if not np.array_equal(engine.job().table, plain.table):
            raise Fault('the helper gives another table than the plain form')
        said += ', the helper gives the table of the plain form'
    better = improve(example(), below=0.9)
    if better.report['exchanges'] != 1 or not all(better.report['kept'].values()):
        raise Fault(f'the example is not bettered: {better.report}')
    return said + ', and the example is bettered'
