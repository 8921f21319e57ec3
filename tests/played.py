"""What tests/ends and tests/kills share: the disks of a space as docs/DISK.md and docs/FORMATS.md define them, what the
nodes on them reach, and programs that act at random. And what tests/run and tests/memory share: cases whose saves write
events."""
import random
import re
import subprocess
from dataclasses import dataclass, field
from pathlib import Path
from typing import NamedTuple

PROGRAM = Path(__file__).resolve().parent.parent / "crates/trials/out/trials"
# Registers: the words of the objects in the first two say what a program gave last and accepted last; the others are used
# at random.
GIVEN, TAKEN, OTHERS, REGISTERS = 0, 1, range(2, 6), 6
SLOTS = 64
# More turns than a worker takes in the time that a case has.
TURNS = 1_000_000
# Commands to a node that aren't events.
VERBS = ("save", "take", "until")
# The label of the answers to Gets.
ASKED = (1 << 32) - 1
# The length of the content of each body in a frame, apart from its optional reference; and which bodies have one.
BODIES = {1: 0, 2: 9, 3: 13, 4: 4, 5: 14, 6: 18, 7: 0, 8: 0}
WITH_OPTIONAL = (4, 5)
# The version of images that a log follows.
WITH_LOG = 3
# More letters than wait at a node.
MANY = 100_000
# How many turns of each node it takes at most until nothing is in flight, and a cycle has been swept everywhere.
ROUNDS = 400
IMAGE = re.compile(r"4D52([0-9A-F]{2})+")


class Wrong(Exception):
    """What a space showed that it must not."""


class Ref(NamedTuple):
    """A reference to an object."""

    node: int
    slot: int
    generation: int


class Reader:
    """Reads the parts of an image, one after another."""

    def __init__(self, data: bytes):
        self.data = data
        self.at = 0

    def number(self, count: int) -> int:
        part = self.data[self.at : self.at + count]
        if len(part) < count:
            raise Wrong("an image is too short")
        self.at += count
        return int.from_bytes(part, "big")

    def reference(self) -> Ref:
        return Ref(self.number(1), self.number(4), self.number(8))

    def optional(self) -> Ref | None:
        return self.reference() if self.number(1) else None

    def references(self, count: int) -> list[Ref]:
        found = [self.optional() for _ in range(count)]
        return [it for it in found if it is not None]

    def message(self):
        self.number(8)
        tag = self.number(1)
        self.number(BODIES[tag])
        if tag in WITH_OPTIONAL:
            self.optional()


@dataclass
class Saved:
    """A saved node, as its image says."""

    own: int
    swept: int = 0
    # The references in registers and letters, and those in the places of each object.
    roots: list[Ref] = field(default_factory=list)
    objects: dict[Ref, list[Ref]] = field(default_factory=dict)
    # The number of the last message for each other node, and of the last one received from there.
    sent: dict[int, int] = field(default_factory=dict)
    received: dict[int, int] = field(default_factory=dict)


def read_slots(reader: Reader, node: Saved):
    for slot in range(reader.number(4)):
        kind = reader.number(1)
        if kind == 1:
            generation = reader.number(8)
            reader.number(16)
            node.objects[Ref(node.own, slot, generation)] = reader.references(reader.number(1))
        elif kind == 0:
            reader.number(8)


def read_image(data: bytes) -> Saved:
    """The node that an image of version 2 or 3 describes."""
    reader = Reader(data)
    if reader.number(2) != int.from_bytes(b"MR", "big") or reader.number(1) not in (2, WITH_LOG):
        raise Wrong("a disk has no image of version 2 or 3")
    nodes, own, registers, _slots = (reader.number(it) for it in (1, 1, 2, 4))
    node = Saved(own)
    _cycle, _ended, node.swept, _cursor = (reader.number(it) for it in (8, 8, 8, 4))
    reader.number(17)
    if reader.number(1):
        reader.number(9)
    if own == 0:
        reader.number(8 * (nodes - 1))
    node.roots = reader.references(registers)
    read_slots(reader, node)
    for size in (4, 4, 13):
        reader.number(size * reader.number(4))
    for _ in range(reader.number(4)):
        reader.number(5)
        node.roots += reader.references(1)
    for peer in (it for it in range(nodes) if it != own):
        last, count = reader.number(8), reader.number(4)
        for _ in range(count):
            reader.message()
        node.sent[peer], node.received[peer] = last + count, reader.number(8)
    if reader.at != len(data):
        raise Wrong("an image is too long")
    return node


def part_of(data: bytes, at: int) -> tuple[bytes, int]:
    """An image or a batch with its length before it, and the place of the next byte."""
    start = at + 8
    end = start + int.from_bytes(data[at:start], "big")
    if end > len(data):
        raise Wrong("an area is too short for what it has")
    return data[start:end], end


def log_of(data: bytes, at: int) -> list[bytes]:
    """The batches of the log in an area, from its first gate on."""
    batches = []
    while data[at : at + 1] and data[at] % 2:
        batch, at = part_of(data, at + 1)
        batches.append(batch)
    if at >= len(data):
        raise Wrong("a log has no end")
    return batches


def area_of(folder: Path) -> tuple[bytes, list[bytes]]:
    """The image on the disk in a folder, and the batches of the log behind it."""
    area = "ab"[(folder / "select").read_bytes()[0] % 2]
    data = (folder / area).read_bytes()
    image, end = part_of(data, 0)
    return image, log_of(data, end) if image[2] == WITH_LOG else []


def read_disk(folder: Path) -> Saved:
    """The node on the disk in a folder. If a log follows its image, `trials` performs it, and prints the node's image."""
    image, batches = area_of(folder)
    if batches:
        lines = ["files", f"at {folder.name}", "opens"]
        ran = subprocess.run([PROGRAM], cwd=folder.parent, input="\n".join(lines), capture_output=True, text=True, timeout=60)
        printed = ran.stdout.split()
        if len(printed) != 2 or not IMAGE.fullmatch(printed[1]):
            raise Wrong(f"a node with a log couldn't be read: {ran.stdout!r}")
        image = bytes.fromhex(printed[1])
    return read_image(image)


def check_disks(folder: Path, count: int, cycle: int) -> int:
    """Checks the disks of a space of this many nodes after all have swept this cycle, and nothing is in flight: each reference
    that is reached names an object, and there are no other objects. How many objects there are."""
    nodes = [read_disk(folder / str(node)) for node in range(count)]
    objects = {it: places for node in nodes for it, places in node.objects.items()}
    reached: set[Ref] = set()
    ahead = [it for node in nodes for it in node.roots]
    while ahead:
        reference = ahead.pop()
        if reference not in reached:
            reached.add(reference)
            ahead += objects.get(reference, [])
    waiting = [(a.own, b.own) for a in nodes for b in nodes if a is not b and a.sent[b.own] != b.received[a.own]]
    late = [node.own for node in nodes if node.swept != cycle]
    if reached != objects.keys() or waiting or late:
        missing, left = sorted(reached - objects.keys()), sorted(objects.keys() - reached)
        raise Wrong(f"missing: {missing}, left: {left}, in flight: {waiting}, not swept: {late}")
    return len(objects)


def with_events(case: str) -> str:
    """The commands of a case, with spaces whose saves write events."""
    lines = case.split("\n")
    made = [len(it.split()) > 1 and it.split()[0] in ("fresh", "open") for it in lines]
    return "\n".join(f"{line} events" if makes else line for line, makes in zip(lines, made))


def ask(work: Path, lines: list[str], seconds: float) -> list[str]:
    """What `trials` prints for a case of the subject `ends`."""
    text = "\n".join(["ends", *lines, ""])
    ran = subprocess.run([PROGRAM], cwd=work, input=text, capture_output=True, text=True, timeout=seconds)
    printed = ran.stdout.splitlines()
    if ran.returncode != 0 or ran.stderr:
        raise Wrong(f"status {ran.returncode}, the last lines are {printed[-3:]} {ran.stderr[:200]}")
    return printed


def settled(nodes: int) -> list[str]:
    """Takes turns on one thread, of one node after another, until nothing is in flight and nothing is left to do."""
    return [f"turn {node} 1" for node in range(nodes)] * ROUNDS


def line_for(node: int, command: str) -> str:
    """The line that gives a node this command: its number comes first before an event, and else after the verb."""
    verb, _, rest = command.partition(" ")
    return f"{verb} {node} {rest}".rstrip() if verb in VERBS else f"{node} {command}"


def node_and_command(words: list[str]) -> tuple[int | None, list[str]]:
    """The node that a line is for, if it is for one, and its command."""
    if words[0] in VERBS:
        return int(words[1]), [words[0], *words[2:]]
    return (int(words[0]), words[1:]) if words[0].isdigit() else (None, words)


def step(dice: random.Random, node: int) -> str:
    """What a program may do with the references that it has."""
    a, b, c = dice.choices(OTHERS, k=3)
    place = dice.randrange(2)
    kinds = {
        f"alloc {a} 2": 4,
        f"copy {a} {b}": 2,
        f"drop {a}": 4,
        f"load {a} {b} {place}": 2,
        f"store {b} {place} {c}": 2,
        f"clear {b} {place}": 2,
        f"put {b} {place} {c}": 1,
        f"get {b} {place} {ASKED}": 1,
    }
    return f"{node} {dice.choices(list(kinds), list(kinds.values()))[0]}"
