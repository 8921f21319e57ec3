"""The answers to `why` and `top`, as text and as objects."""
from __future__ import annotations

from array import array
from dataclasses import dataclass, field
from heapq import nsmallest
from typing import Callable, Iterable, Iterator, NamedTuple, Optional

from .dominators import Walk, dominators, sums
from .graph import Graph, Root
from .images import Ref

# As many steps of a path are printed at each end.
SHOWN = 20
FREES = {
    "cycle": "a cycle frees it",
    "reclaim": "a reclaim of node {} frees it",
    "reclaim young": "a reclaim of node {} frees it, also one of the young",
}


class Step(NamedTuple):
    """An object of a path, and its place that has the next reference."""

    reference: Ref
    is_shared: bool
    age: str
    word: int
    places: int
    bytes: int
    place: Optional[int]

    def __str__(self) -> str:
        kind = ("shared" if self.is_shared else "private") + ("" if self.age == "old" else f", {self.age}")
        parts = [kind, f"word {self.word}", plural(self.places, "place")]
        parts += [plural(self.bytes, "byte")] if self.bytes else []
        place = "" if self.place is None else f", place {self.place}"
        return f"{self.reference} ({', '.join(parts)}){place}"

    def fields(self) -> dict:
        place = {} if self.place is None else {"place": self.place}
        return {
            "reference": str(self.reference), "shared": self.is_shared, "age": self.age, "word": self.word,
            "places": self.places, "bytes": self.bytes, **place,
        }  # fmt: skip


@dataclass
class Why:
    """The answer to `why`: `state` is alive, garbage, dead, or unknown if the object's node isn't given. The path has
    vertices of objects, the last of which is the one that was asked for."""

    graph: Graph
    reference: Ref
    state: str
    path: list[int] = field(default_factory=list)
    root: Optional[Root] = None
    # What frees it; or why it isn't live, or why that is unknown.
    reason: str = ""

    def step(self, at: int) -> Step:
        shared, age = self.graph.kind(self.path[at])
        it, place = self.graph.details(self.path[at]), None
        if at + 1 < len(self.path):
            place = it.places.index(self.graph.ref(self.path[at + 1]))
        return Step(self.graph.ref(self.path[at]), shared, age, it.word, len(it.places), it.length, place)


def plural(count: int, what: str) -> str:
    return f"{count} {what}" if count == 1 else f"{count} {what}s"


def why(graph: Graph, reference: Ref) -> Why:
    """Why an object is alive."""
    node, slot, generation = reference
    if node >= graph.shape.nodes or slot >= graph.shape.slots or not generation:
        return Why(graph, reference, "dead", reason=f"a space of {graph.shape} has no such reference")
    vertex = graph.vertex(reference)
    if vertex == graph.nowhere:
        state = "unknown" if reference.node in graph.missing else "dead"
        return Why(graph, reference, state, reason=why_dead(graph, reference))
    path = graph.path(vertex)
    if path:
        return Why(graph, reference, "alive", path[1:], graph.roots[path[0] - graph.slots])
    reason = graph.freed_by(vertex)
    if graph.missing and reason == "cycle":
        return Why(graph, reference, "unknown", [vertex], reason="nothing that is given leads to it")
    return Why(graph, reference, "garbage", [vertex], reason=reason)


def why_dead(graph: Graph, reference: Ref) -> str:
    """What is in the slot in place of an object."""
    node, slot, _ = reference
    if node in graph.missing:
        return f"node {node} isn't given"
    if slot >= graph.used[node]:
        return f"slot {slot} of node {node} was never used"
    now = graph.generations[graph.base[node] + slot]
    return f"slot {slot} of node {node} has " + (f"{node}.{slot}.{now}" if now else "no object")


def missing_text(missing: list[int]) -> list[str]:
    """What is unknown without these nodes."""
    if not missing:
        return []
    nodes = ", ".join(map(str, missing))
    return [f"node {nodes} isn't given: paths through it are unknown" if len(missing) == 1
            else f"nodes {nodes} aren't given: paths through them are unknown"]  # fmt: skip


def why_lines(it: Why) -> Iterator[str]:
    """The answer as text."""
    if it.state == "dead":
        yield f"{it.reference} isn't live: {it.reason}"
    elif it.state == "unknown":
        yield f"whether {it.step(0) if it.path else it.reference} is alive is unknown: {it.reason}"
    elif it.state == "garbage":
        yield f"nothing leads to {it.step(0)}: {FREES[it.reason].format(it.reference.node)}"
    else:
        yield f"{it.reference} is alive: {plural(len(it.path), 'reference')} from {it.root}"
        cut = len(it.path) - 2 * SHOWN
        for at in range(len(it.path)):
            if cut <= 0 or not SHOWN <= at < SHOWN + cut:
                yield f"  -> {it.step(at)}"
            elif at == SHOWN:
                yield f"  .. {cut} more (--json prints all)"
    if it.state != "dead":
        yield from missing_text(it.graph.missing)


def root_fields(it: Root) -> dict:
    fields = {"kind": it.kind, "node": it.node, "number": it.number}
    if it.kind == "letter":
        fields |= {"label": it.label, "sender": it.other}
    elif it.kind == "message":
        fields |= {"to": it.other, "body": it.body}
    return fields


def why_fields(it: Why) -> dict:
    """The answer as an object."""
    fields = {"reference": str(it.reference), "state": it.state, "missing": it.graph.missing}
    if it.path:
        fields["object"] = it.step(len(it.path) - 1).fields()
    if it.root:
        return fields | {"root": root_fields(it.root), "path": [it.step(at).fields() for at in range(len(it.path))]}
    return fields | {"freed_by" if it.state == "garbage" else "reason": it.reason}


class Row(NamedTuple):
    """A row of `top`: an object, or a root; and how many objects and bytes only it keeps, if anything leads to it."""

    name: str
    fields: dict
    kept: Optional[tuple[int, int]]


class Table:
    """What the objects of a space have, and what each object and each root alone keeps."""

    def __init__(self, graph: Graph) -> None:
        self.graph = graph
        self.bytes, self.places = array("I"), bytearray()
        for image in graph.images.values():
            self.bytes.extend(image.slots.lengths)
            self.places.extend(image.slots.places)
        self.named = array("I", bytes(4 * len(graph.first)))
        for it in graph.target[: graph.first[graph.nowhere]]:
            self.named[it] += 1
        walk = Walk(graph.first, graph.target, graph.top)
        found = dominators(walk)
        is_object = [it < graph.slots for it in walk.vertex]
        lengths = [self.bytes[it] if it < graph.slots else 0 for it in walk.vertex]
        self.number = walk.number
        self.objects, self.lengths = sums(found, array("I", is_object)), sums(found, array("Q", lengths))
        self.live = sum(1 for _ in graph.objects())

    def kept(self, vertex: int) -> Optional[tuple[int, int]]:
        number = self.number[vertex]
        return None if number < 0 else (self.objects[number], self.lengths[number])

    def weight(self, by: str) -> Callable[[int], int]:
        """A key for what vertices keep: first by objects and then by bytes, or the other way round."""

        def key(vertex: int) -> int:
            objects, length = self.kept(vertex) or (0, 0)
            return length << 64 | objects if by == "kept-bytes" else objects << 64 | length

        return key

    def references(self, vertex: int) -> int:
        return self.graph.first[vertex + 1] - self.graph.first[vertex]

    def total(self) -> dict:
        reached = self.objects[0]
        return {
            "kind": "space", "nodes": self.graph.shape.nodes, "missing": self.graph.missing, "objects": self.live,
            "bytes": sum(self.bytes), "unreached": self.live - reached,
        }  # fmt: skip

    def first_objects(self, by: str, limit: int) -> Iterator[Row]:
        """The objects with the most of something."""
        keys = {
            "bytes": self.bytes.__getitem__,
            "places": self.places.__getitem__,
            "in": self.named.__getitem__,
            "out": self.references,
        }
        for it in largest(self.graph.objects(), keys.get(by) or self.weight(by), limit):
            shared, age = self.graph.kind(it)
            fields = {
                "kind": "object", "reference": str(self.graph.ref(it)), "shared": shared, "age": age,
                "places": self.places[it], "bytes": self.bytes[it], "in": self.named[it], "out": self.references(it),
            }  # fmt: skip
            yield Row(fields["reference"], fields, self.kept(it))

    def first_roots(self, by: str, limit: int) -> Iterator[Row]:
        """The roots that alone keep the most."""
        for it in largest(range(self.graph.slots, self.graph.nowhere), self.weight(by), limit):
            root = self.graph.roots[it - self.graph.slots]
            fields = root_fields(root) | {"references": [str(ref) for ref in root.references]}
            yield Row(str(root), fields, self.kept(it))


def largest(vertices: Iterable[int], key: Callable[[int], int], limit: int) -> list[int]:
    """The vertices with the greatest keys; of those with the same key, the first ones."""
    return nsmallest(limit, vertices, lambda it: (-key(it), it))


def table_lines(table: Table, by: str, limit: int) -> Iterator[str]:
    """The answer to `top` as text."""
    total = table.total()
    counted = f"{plural(total['objects'], 'object')} with {plural(total['bytes'], 'byte')}"
    yield f"{counted}; nothing leads to {total['unreached']} of them"
    yield from missing_text(total["missing"])
    columns = ["places", "bytes", "in", "out"]
    objects = table.first_objects(by, limit)
    rows = [[it.name, *(it.fields[name] for name in columns), *(it.kept or "--")] for it in objects]
    yield from aligned([["object", *columns, "keeps", "bytes kept"], *rows])
    rows = [[it.name, ", ".join(it.fields["references"]), *it.kept] for it in table.first_roots(by, limit)]
    if rows:
        yield ""
        yield from aligned([["root", "refers to", "keeps", "bytes kept"], *rows])


def aligned(rows: list[list]) -> Iterator[str]:
    """Rows with the first cell at the left, and the others at the right of their columns."""
    texts = [[str(it) for it in row] for row in rows]
    widths = [max(map(len, column)) for column in zip(*texts)]
    for first, *others in texts:
        yield "  ".join([first.ljust(widths[0]), *(it.rjust(width) for it, width in zip(others, widths[1:]))])


def table_objects(table: Table, by: str, limit: int) -> Iterator[dict]:
    """The same as objects: the space, then objects of it, then roots."""
    yield table.total()
    for it in [*table.first_objects(by, limit), *table.first_roots(by, limit)]:
        kept = it.kept or (None, None)
        yield it.fields | {"kept_objects": kept[0], "kept_bytes": kept[1]}
