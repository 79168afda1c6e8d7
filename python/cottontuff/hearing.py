"""What meshio's readers of .msh know and don't hand on, or can't take: heard while they read."""
from __future__ import annotations

import contextlib
import dataclasses
from typing import Any, Callable, Iterator

import numpy as np

from .model import Array, Entities


@dataclasses.dataclass
class Overheard:
    """What meshio's reader of .msh finds and does not give on."""

    physical: Entities = dataclasses.field(default_factory=dict)
    bounds: Entities = dataclasses.field(default_factory=dict)
    tags: Array | None = None
    lost: list[str] = dataclasses.field(default_factory=list)


def _hear_entities(found: Overheard, original: Callable[..., Any]) -> Callable[..., Any]:
    """A reader of entities that tells; an entity in no physical group gets group 0, for meshio leaves it out and then refuses its own list as too short."""
    def read_entities(*given: Any) -> Any:
        physical, bounds = original(*given)
        for dim in range(4):
            found.physical.update({(dim, int(tag)): [int(x) for x in groups] for tag, groups in physical[dim].items()})
            found.bounds.update({(dim, int(tag)): [int(x) for x in limits] for tag, limits in bounds[dim].items()})
        if any(found.physical.values()):
            physical = tuple({tag: groups or [0] for tag, groups in of.items()} for of in physical)
        return physical, bounds
    return read_entities


def _hear_nodes(found: Overheard, original: Callable[..., Any], first: int) -> Callable[..., Any]:
    """A reader of nodes that tells their numbers, which periodic nodes need."""
    def read_nodes(*given: Any) -> Any:
        result = original(*given)
        found.tags = np.asarray(result[1]).astype(np.int64) - first
        return result
    return read_nodes


def _hear_names(found: Overheard, original: Callable[..., Any]) -> Callable[..., Any]:
    """A reader of names that tells of a name given to several groups."""
    class Heard(dict):  # type: ignore[type-arg]
        def __setitem__(self, name: str, value: Any) -> None:
            if name in self:
                found.lost.append(f"the name '{name}' stands for several groups: the last is kept")
            dict.__setitem__(self, name, value)

    def read_names(file: Any, into: dict[str, Any]) -> None:
        heard = Heard()
        original(file, heard)
        into.update(heard)
    return read_names


def _hear_data(found: Overheard, original: Callable[..., Any]) -> Callable[..., Any]:
    """A reader of data that leaves out what is not for all points: meshio would refuse the file."""
    def read_data(file: Any, section: str, into: dict[str, Any], *given: Any) -> None:
        heard: dict[str, Any] = {}
        original(file, section, heard, *given)
        for name, values in heard.items():
            if section == 'NodeData' and found.tags is not None and len(values) != len(found.tags):
                found.lost.append(f'point data {name}: it is not for all points, and left out')
            else:
                into[name] = values
    return read_data


def _hear_cell_data(found: Overheard, original: Callable[..., Any]) -> Callable[..., Any]:
    """As `_hear_data`, for cells; meshio 5.0.0 also takes a pair for two cells when it deals the data out."""
    def deal(cells: Any, data: dict[str, Any]) -> Any:
        rows = [block[1] if isinstance(block, tuple) else block for block in cells]
        total = sum(len(block) for block in rows)
        found.lost.extend(f'cell data {name}: it is not for all cells, and left out' for name, values in data.items() if len(values) != total)
        return original(rows, {name: values for name, values in data.items() if len(values) == total})
    return deal


def _hear_order(original: Callable[..., Any]) -> Callable[..., Any]:
    """Node 0, which no file has, would be the last point for meshio."""
    def order(kind: str, nodes: Any) -> Any:
        if np.any(np.asarray(nodes) < 0):
            raise IndexError('node 0 is out of bounds')
        return original(kind, nodes)
    return order


@contextlib.contextmanager
def overhear() -> Iterator[Overheard]:
    """While open, the parts of meshio's .msh readers tell what they find."""
    from meshio.gmsh import _gmsh22, _gmsh41  # type: ignore[import]
    found = Overheard()
    changed: list[tuple[Any, str, Callable[[Any], Any]]] = [
        (_gmsh41, '_read_entities', lambda original: _hear_entities(found, original)),
        (_gmsh41, '_read_nodes', lambda original: _hear_nodes(found, original, 0)),
        (_gmsh22, '_read_nodes', lambda original: _hear_nodes(found, original, 1)),
        (_gmsh22, '_gmsh_to_meshio_order', _hear_order)]
    for module in (_gmsh22, _gmsh41):
        changed += [(module, '_read_physical_names', lambda original: _hear_names(found, original)), (module, '_read_data', lambda original: _hear_data(found, original)),
                    (module, 'cell_data_from_raw', lambda original: _hear_cell_data(found, original))]
    changed = [(module, name, change) for module, name, change in changed if hasattr(module, name)]  # another meshio may name its parts otherwise: then it reads as it does
    before = [(module, name, getattr(module, name)) for module, name, _ in changed]
    try:
        for module, name, change in changed:
            setattr(module, name, change(getattr(module, name)))
        yield found
    finally:
        for module, name, original in before:
            setattr(module, name, original)
