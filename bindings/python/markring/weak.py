"""References that keep nothing alive, and tables whose entries go with their objects."""
from __future__ import annotations

from collections.abc import Callable, Iterable, Iterator, MutableMapping
from typing import Any, Optional, Protocol, Union

from ._space import Cell, Gone, Node, Ref
from .errors import NoField

Freed = Callable[[Ref, int, Any], object]


class Resolves(Protocol):
    """A node, a cell, or a program of a node in a process."""

    def resolve(self, register: int, reference: Ref) -> None:
        """The register gets a reference to the object."""


def upgrade(node: Resolves, register: int, reference: Ref) -> bool:
    """The register gets a reference to the object that this one names, if the object is there.

    Returns False, and leaves the register as it is, if the object is gone, or the next sweep frees it. Raises `NotNow` if the
    node marks and hasn't reached the object.
    """
    try:
        node.resolve(register, reference)
    except NoField:
        return False
    return True


class Table(MutableMapping[Ref, Any]):
    """What a program has for each of some objects of a node, such as an open file, by the objects' references.

    Its entries go with the objects, which it doesn't keep alive. For each that goes, `on_freed` is called, if there is one,
    with the reference, the word and the value.
    """

    def __init__(self, on_freed: Optional[Freed] = None) -> None:
        self._on_freed = on_freed
        self._entries: dict[Ref, Any] = {}

    def _leave(self, gone: Iterable[Gone]) -> int:
        count = 0
        for reference, word in gone:
            if reference in self._entries:
                value = self._entries.pop(reference)
                count += 1
                if self._on_freed is not None:
                    self._on_freed(reference, word, value)
        return count

    def _leave_missing(self, before: Iterable[Ref], live: set[Ref]) -> int:
        # Of what was there before the objects were read.
        return self._leave(Gone(it, 0) for it in sorted(set(before) - live))

    def __getitem__(self, reference: Ref) -> Any:
        return self._entries[reference]

    def __setitem__(self, reference: Ref, value: Any) -> None:
        self._entries[reference] = value

    def __delitem__(self, reference: Ref) -> None:
        del self._entries[reference]

    def __iter__(self) -> Iterator[Ref]:
        return iter(self._entries)

    def __len__(self) -> int:
        return len(self._entries)


class WeakTable(Table):
    """A table whose entries go with the objects of a node or cell: `poll` removes those of what was freed."""

    def __init__(self, node: Union[Node, Cell], on_freed: Optional[Freed] = None) -> None:
        super().__init__(on_freed)
        node.track_freed()
        self._node = node

    def poll(self) -> int:
        """Removes the entries of the objects that are freed for good, in the order in which they were.

        Returns how many. Call it after each `kept` or `save`. (Another table of the node wouldn't hear of these objects.)
        """
        return self._leave(self._node.freed())

    def prune(self) -> int:
        """Removes the entries of the objects that the node doesn't have, by their references, with the word 0.

        Returns how many. For a table that outlived a crash, or a cell's `reopen`: what was freed is listed from the node on that was opened.
        """
        return self._leave_missing(self._entries, {it.reference for it in self._node.objects()})
