"""A space as plain data, for tests/heap: its images, written by docs/FORMATS.md alone, and the answers to be expected,
each by trying everything."""
from __future__ import annotations

import random
from dataclasses import dataclass, field
from typing import NamedTuple, Optional


class Ref(NamedTuple):
    """A reference."""

    node: int
    slot: int
    generation: int

    def __str__(self) -> str:
        return f"{self.node}.{self.slot}.{self.generation}"


@dataclass
class Thing:
    """An object. In plain spaces its tag is 1, and it has no bytes."""

    places: list[Optional[Ref]]
    word: int = 0
    data: bytes = b""
    tag: int = 1


class Body(NamedTuple):
    """A message: what kind it is, the references that it names, and its place or label."""

    kind: str
    references: list[Optional[Ref]]
    number: int = 0


class Root(NamedTuple):
    """What keeps objects alive by itself: a register, a letter, or a message to `other`."""

    kind: str
    node: int
    number: int
    other: int = -1


@dataclass
class Model:
    """A space. Slots that are used and have no object are free, for the generation in `free`, or retired if it is 0."""

    nodes: int = 2
    registers: int = 4
    slots: int = 8
    # At most, of an object; nothing in a plain space.
    sizes: Optional[tuple[int, int]] = None
    objects: dict[Ref, Thing] = field(default_factory=dict)
    free: dict[tuple[int, int], int] = field(default_factory=dict)
    held: dict[tuple[int, int], Ref] = field(default_factory=dict)
    # By node: of each letter its sender, its label, its references, and its bytes.
    letters: dict[int, list[tuple[int, int, list[Optional[Ref]], bytes]]] = field(default_factory=dict)
    # By sender and receiver: the last message acknowledged, those after it, and the last one received.
    acknowledged: dict[tuple[int, int], int] = field(default_factory=dict)
    sent: dict[tuple[int, int], list[Body]] = field(default_factory=dict)
    received: dict[tuple[int, int], int] = field(default_factory=dict)


# ---- images


def number(size: int, value: int) -> bytes:
    return value.to_bytes(size, "big")


class Writer:
    """Writes images of a version."""

    def __init__(self, model: Model, version: int) -> None:
        self.model, self.version = model, version
        self.generation = 4 if version == 1 else 8

    def reference(self, it: Ref) -> bytes:
        return number(1, it.node) + number(4, it.slot) + number(self.generation, it.generation)

    def optional(self, it: Optional[Ref]) -> bytes:
        return b"\1" + self.reference(it) if it else b"\0"

    def slot(self, node: int, slot: int) -> bytes:
        for ref, it in self.model.objects.items():
            if ref[:2] == (node, slot):
                length = number(4, len(it.data)) + it.data if self.version >= 4 else b""
                head = number(1, it.tag) + number(self.generation, ref.generation) + number(8, 0) + number(8, it.word)
                return head + length + number(1, len(it.places)) + b"".join(map(self.optional, it.places))
        following = self.model.free[node, slot]
        return b"\0" + number(self.generation, following) if following else b"\2"

    def body(self, it: Body) -> bytes:
        tags = {"begin": 1, "token": 2, "mark": 3, "give": 4, "put": 5, "get": 6, "ended": 7, "swept": 8}
        tags |= {"post": 9, "fetch": 10}
        refs, data = it.references, bytes(it.number)
        content = {
            "token": lambda: b"\0" + number(8, 0),
            "mark": lambda: self.reference(it.references[0]),
            "give": lambda: number(4, it.number) + self.optional(it.references[0]),
            "put": lambda: self.reference(it.references[0]) + number(1, it.number) + self.optional(it.references[1]),
            "get": lambda: self.reference(it.references[0]) + number(1, 0) + number(4, it.number),
            "post": lambda: number(4, 7)
            + number(1, len(refs))
            + b"".join(map(self.optional, refs))
            + number(4, len(data))
            + data,
            "fetch": lambda: self.reference(refs[0]) + number(4, 8) + number(4, 0) + number(4, it.number),
        }
        return number(8, 0) + number(1, tags[it.kind]) + content.get(it.kind, bytes)()

    def letter(self, sender: int, label: int, references: list[Optional[Ref]], data: bytes) -> list[bytes]:
        """A letter's parts: one for each reference, or a single one without."""
        references = references or [None]
        head = number(1, sender) + number(4, label)
        more = [
            (number(1, len(references) - 1 - at) + number(4, 0 if at else len(data)) + (b"" if at else data))
            if self.version >= 4
            else b""
            for at in range(len(references))
        ]
        return [head + self.optional(it) + behind for it, behind in zip(references, more)]

    def link(self, node: int, other: int) -> bytes:
        model, link = self.model, (node, other)
        bodies = model.sent.get(link, [])
        head = number(8, model.acknowledged.get(link, 0)) + number(4, len(bodies))
        return head + b"".join(map(self.body, bodies)) + number(8, model.received.get((other, node), 0))

    def image(self, node: int) -> bytes:
        """The image of a node that has joined no cycle."""
        model = self.model
        slots = [it.slot for it in model.objects if it.node == node] + [at for own, at in model.free if own == node]
        used = 1 + max(slots, default=-1)
        others = [it for it in range(model.nodes) if it != node]
        free = [slot for (own, slot), following in model.free.items() if own == node and following]
        letters = model.letters.get(node, [])
        parts = [b"MR", number(1, self.version)]
        parts += [number(1, model.sizes[0]), number(4, model.sizes[1])] if self.version >= 4 else []
        parts += [number(1, model.nodes), number(1, node), number(2, model.registers), number(4, model.slots)]
        parts += [bytes(28), bytes(18), bytes(8 * len(others) if node == 0 else 0)]
        parts += [self.optional(model.held.get((node, it))) for it in range(model.registers)]
        parts += [number(4, used), *(self.slot(node, it) for it in range(used))]
        parts += [number(4, len(free)), *(number(4, it) for it in free), number(4, 0), number(4, 0)]
        waiting = [part for it in letters for part in self.letter(*it)]
        parts += [number(4, len(waiting)), *waiting]
        return b"".join([*parts, *(self.link(node, it) for it in others)])


# ---- what is to be expected


def roots_of(model: Model, given: set[int]) -> dict[Root, list[Ref]]:
    """What these nodes have of roots, in the order of markring-heap, with their references."""
    found = {Root("register", node, at): [it] for (node, at), it in sorted(model.held.items())}
    for node, letters in sorted(model.letters.items()):
        named = [[ref for ref in references if ref] for _, _, references, _ in letters]
        found |= {Root("letter", node, at): references for at, references in enumerate(named) if references}
    for (node, other), bodies in sorted(model.sent.items()):
        before = model.acknowledged.get((node, other), 0)
        received = model.received.get((node, other), 0) if other in given else before
        for at, it in enumerate(bodies, before + 1):
            kinds = "give", "put", "get", "post", "fetch"
            references = [ref for ref in it.references if ref] if it.kind in kinds else []
            if at > received and references:
                found[Root("message", node, at, other)] = references
    return {root: references for root, references in found.items() if root.node in given}


def distances(model: Model, given: set[int], without: Ref | Root | None = None) -> dict[Ref, int]:
    """How many references the shortest path to each object has, if an object or a root weren't there."""
    objects = {ref for ref in model.objects if ref.node in given and ref != without}
    found: dict[Ref, int] = {}
    level = [ref for root, references in roots_of(model, given).items() if root != without for ref in references]
    steps = 0
    while level:
        steps += 1
        level = [ref for ref in dict.fromkeys(level) if ref in objects and ref not in found]
        found |= dict.fromkeys(level, steps)
        level = [it for ref in level for it in model.objects[ref].places if it]
    return found


def needed(model: Model, node: int, only_young: bool) -> set[Ref]:
    """What a node needs, by rounds, as in docs/RULES.md ("Reclaiming")."""
    own = {ref: it for ref, it in model.objects.items() if ref.node == node}
    found = {ref for ref, it in own.items() if it.tag in (1, 6, 7) or only_young and it.tag != 4}
    named = [it for (at, _), it in model.held.items() if at == node]
    named += [it for _, _, references, _ in model.letters.get(node, []) for it in references if it]
    found |= {it for it in named if it in own}
    while True:
        followed = [it for ref, it in own.items() if ref in found and not (only_young and it.tag in (1, 3))]
        more = {ref for it in followed for ref in it.places if ref in own} - found
        if not more:
            return found
        found |= more


# ---- random spaces


def random_model(dice: random.Random) -> Model:
    """A small space, plain or wide, with garbage, empty slots and references to what isn't there."""
    is_wide = dice.random() < 0.6
    model = Model(dice.randrange(2, 5), dice.randrange(1, 4), 12, (5, 9) if is_wide else None)
    for node in range(model.nodes):
        for slot in range(dice.randrange(9)):
            kind = dice.random()
            if kind < 0.8:
                tag = dice.choice([1, 3, 4, 5, 6, 7]) if is_wide else 1
                thing = Thing([], dice.getrandbits(64), dice.randbytes(dice.randrange(10) if is_wide else 0), tag)
                model.objects[Ref(node, slot, dice.randrange(1, 4))] = thing
            else:
                model.free[node, slot] = dice.choice([0, 2, 5])
    refs = list(model.objects)
    refs += [ref._replace(generation=ref.generation + 1) for ref in refs[:2]] + [Ref(0, 11, 1)]

    def any_ref(share: float = 0.6) -> Optional[Ref]:
        return dice.choice(refs) if dice.random() < share else None

    share = dice.choice([0.2, 0.4, 0.6])
    for it in model.objects.values():
        it.places = [any_ref(share) for _ in range(dice.randrange(6))]
    held = [(node, at) for node in range(model.nodes) for at in range(model.registers) if dice.random() < 0.4]
    model.held = {it: dice.choice(refs) for it in held}
    for node in range(model.nodes):
        others = [it for it in range(model.nodes) if it != node]
        for other in others:
            fill_link(model, dice, node, other, any_ref)
        senders = [dice.choice(others) for _ in range(dice.choice([0, 0, 1, 3]))]
        model.letters[node] = [random_letter(dice, it, is_wide, any_ref) for it in senders]
    return model


def random_letter(dice: random.Random, sender: int, is_wide: bool, any_ref) -> tuple[int, int, list[Optional[Ref]], bytes]:
    references = [any_ref() for _ in range(dice.randrange(6) if is_wide else 1)]
    return sender, dice.getrandbits(32), references, dice.randbytes(dice.randrange(10) if is_wide else 0)


def fill_link(model: Model, dice: random.Random, node: int, other: int, any_ref) -> None:
    """Messages, of which some are acknowledged, and some received."""
    bodies = []
    for _ in range(dice.choice([0, 0, 0, 1, 2, 4])):
        kinds = ["give", "put", "get", "mark", "begin", "token", "ended", "swept"]
        kind = dice.choice(kinds + ["post", "fetch"] if model.sizes else kinds)
        first = any_ref(0.7) if kind == "give" else any_ref(1)
        references = {"put": [first, any_ref()], "post": [any_ref() for _ in range(dice.randrange(6))]}
        bodies.append(Body(kind, references.get(kind, [first]), dice.randrange(5)))
    link = node, other
    model.acknowledged[link], model.sent[link] = dice.randrange(4), bodies
    model.received[link] = model.acknowledged[link] + dice.randrange(len(bodies) + 1)
