"""What is said of an input that can't be taken: one sentence, with what is wrong and where."""


class Fault(Exception):
    """An input that can't be taken. Its text is one sentence for the person who gave the input.

    >>> str(Fault('part.msh: it has no tetrahedra'))
    'part.msh: it has no tetrahedra'
    """
