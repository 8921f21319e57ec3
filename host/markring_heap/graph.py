"""The objects of a space as a graph over all nodes, with what keeps them alive by itself."""
from __future__ import annotations

from array import array
from typing import Iterator, NamedTuple, Optional

from .images import FETCH, GET, GIVE, KINDS, NODES, POST, PUT, SLOT_BITS, Details, Image, Ref

SLOTS = (1 << SLOT_BITS) - 1
MESSAGES = {GIVE: "give", PUT: "put", GET: "get", POST: "post", FETCH: "fetch"}


class Root(NamedTuple):
    """A register, a letter that waits, or a message in flight, with the references that it has. `node` is that of the
    register or the letter, or the sender of the message; `number` its number there, which counts letters from the
    oldest on."""

    kind: str
    node: int
    number: int
    references: tuple[Ref, ...]
    label: Optional[int] = None
    # The sender of a letter, and the receiver of a message, with its kind.
    other: Optional[int] = None
    body: str = ""

    def __str__(self) -> str:
        if self.kind == "register":
            return f"register {self.number} of node {self.node}"
        if self.kind == "letter":
            return f"letter {self.number} of node {self.node}, with label {self.label} from node {self.other}"
        return f"message {self.number} from node {self.node} to node {self.other}, a {self.body} in flight"


def roots_of(images: dict[int, Image]) -> Iterator[Root]:
    """All roots: registers, then letters, then messages."""
    for node, image in images.items():
        for number, it in enumerate(image.registers):
            if it:
                yield Root("register", node, number, (it,))
    for node, image in images.items():
        for number, letter in enumerate(image.letters):
            if letter.references:
                yield Root("letter", node, number, letter.references, letter.label, letter.sender)
    for node, image in images.items():
        for other, link in image.links.items():
            received = images[other].links[node].received if other in images else link.acknowledged
            for it in link.messages:
                if it.number > received:
                    yield Root("message", node, it.number, it.references, None, other, MESSAGES[it.tag])


class Graph:
    """The slots of all nodes are vertices; then come the roots, then one vertex for the references to objects that
    aren't there, and last one that leads to all roots. Vertex `n` leads to those in `target` from `first[n]` on, up to
    `first[n + 1]`."""

    def __init__(self, images: dict[int, Image]) -> None:
        self.images = images
        self.shape = next(iter(images.values())).shape
        self.missing = [it for it in range(self.shape.nodes) if it not in images]
        self.base, self.used = [0] * NODES, [0] * NODES
        self.generations = array("Q")
        for node, image in images.items():
            self.base[node], self.used[node] = len(self.generations), len(image.slots.tags)
            self.generations.extend(image.slots.generations)
        self.slots = len(self.generations)
        self.roots = list(roots_of(images))
        self.nowhere = self.slots + len(self.roots)
        self.top = self.nowhere + 1
        self.first, self.target = array("I", [0]), array("I")
        for image in images.values():
            self.add_edges(image)
        for root in self.roots:
            self.target.extend(self.vertex(it) for it in root.references)
            self.first.append(len(self.target))
        self.first.append(len(self.target))
        self.target.extend(range(self.slots, self.nowhere))
        self.first.append(len(self.target))

    def add_edges(self, image: Image) -> None:
        slots, before = image.slots, len(self.target)
        base, used, generations, nowhere = self.base, self.used, self.generations, self.nowhere
        append = self.target.append
        for name, generation in zip(slots.named, slots.born):
            slot, node = name & SLOTS, name >> SLOT_BITS
            at = base[node] + slot
            is_live = slot < used[node] and generations[at] == generation
            append(at if is_live else nowhere)
        self.first.extend(array("I", [before + it for it in slots.first[1:]]))

    def vertex(self, ref: Ref) -> int:
        """The object of a reference, or `nowhere` if it isn't there."""
        at = self.base[ref.node] + ref.slot
        is_live = ref.slot < self.used[ref.node] and self.generations[at] == ref.generation
        return at if is_live else self.nowhere

    def place(self, vertex: int) -> tuple[Image, int]:
        """The image and the slot of an object."""
        image = next(it for node, it in self.images.items() if 0 <= vertex - self.base[node] < self.used[node])
        return image, vertex - self.base[image.own]

    def ref(self, vertex: int) -> Ref:
        image, slot = self.place(vertex)
        return Ref(image.own, slot, self.generations[vertex])

    def details(self, vertex: int) -> Details:
        image, slot = self.place(vertex)
        return image.details(slot)

    def kind(self, vertex: int) -> tuple[bool, str]:
        """Whether an object is shared, and its age."""
        image, slot = self.place(vertex)
        return KINDS[image.slots.tags[slot]]

    def objects(self) -> Iterator[int]:
        return (at for at, it in enumerate(self.generations) if it)

    def path(self, goal: int) -> list[int]:
        """A shortest path from a root to an object, both included; or nothing."""
        came = array("i", [-1]) * len(self.first)
        level = range(self.slots, self.nowhere)
        for it in level:
            came[it] = it
        first, target = self.first, self.target
        while len(level) and came[goal] < 0:
            following = []
            for at in level:
                for it in target[first[at] : first[at + 1]]:
                    if came[it] < 0:
                        came[it] = at
                        following.append(it)
            level = following
        if came[goal] < 0:
            return []
        steps = [goal]
        while came[steps[-1]] != steps[-1]:
            steps.append(came[steps[-1]])
        return steps[::-1]

    def is_needed(self, goal: int, only_young: bool) -> bool:
        """Whether the object's node needs it, so that a reclaim doesn't free it; or a reclaim of the young. No root leads
        to the object."""
        image, own = self.place(goal)
        base, end = self.base[image.own], self.base[image.own] + self.used[image.own]
        kept = {tag for tag, (shared, age) in KINDS.items() if shared or only_young and age != "young"}
        tags, seen = image.slots.tags, image.slots.tags.translate(bytes(it in kept for it in range(256)))
        ahead = [at for at, it in enumerate(seen, base) if it]
        while ahead and not seen[own]:
            at = ahead.pop()
            if only_young and KINDS[tags[at - base]][1] == "old":
                continue
            for it in self.target[self.first[at] : self.first[at + 1]]:
                if base <= it < end and not seen[it - base]:
                    seen[it - base] = 1
                    ahead.append(it)
        return bool(seen[own])

    def freed_by(self, goal: int) -> str:
        """What frees an object to which nothing leads."""
        if self.is_needed(goal, False):
            return "cycle"
        return "reclaim" if self.is_needed(goal, True) else "reclaim young"

    def differing(self) -> Iterator[str]:
        """Pairs of nodes whose images can't be of one moment."""
        for node, image in self.images.items():
            for other, link in image.links.items():
                if other in self.images:
                    received = self.images[other].links[node].received
                    if not link.acknowledged <= received <= link.sent:
                        yield f"nodes {node} and {other} aren't of one moment"
