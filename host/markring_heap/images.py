"""Reads images of nodes: docs/FORMATS.md, "Images"."""
from __future__ import annotations

from array import array
from dataclasses import dataclass, field
from struct import Struct, error
from typing import NamedTuple, Optional

from .reader import Reader

NODES, FIRST_NODES, NUMBER = 64, 16, 1 << 48
# At most: registers and slots of a node; places and bytes of an object.
PLAIN, WIDE = (256, 1 << 20, 8, 0), (65_535, 1 << 24, 255, 1 << 24)
# At most, bytes of a letter; and those that a Fetch may ask for, besides the word.
LETTER, FETCHED = 65_535, 65_527
FREE, RETIRED = 0, 2
# Whether an object is shared, and its age, by the tag of its slot. A plain space has only the first.
KINDS = {
    1: (True, "old"),
    3: (False, "old"),
    4: (False, "young"),
    5: (False, "remembered"),
    6: (True, "young"),
    7: (True, "remembered"),
}
GIVE, PUT, GET, POST, FETCH = 4, 5, 6, 9, 10
# The tags of messages in a plain space, and in a wide one.
TAGS, WIDE_TAGS = range(1, 9), range(1, 11)
# The bits of a slot's number. Those above them are its node's.
SLOT_BITS = 24
LOGGED = (3, 5)


class Shape(NamedTuple):
    """The sizes of a space, and its kind."""

    nodes: int
    registers: int
    slots: int
    places: int
    bytes: int
    is_wide: bool

    def __str__(self) -> str:
        sizes = f"{self.nodes} nodes with {self.registers} registers and {self.slots} slots each"
        return f"{sizes}, {self.places} places and {self.bytes} bytes an object" if self.is_wide else sizes


class Ref(NamedTuple):
    """A reference."""

    node: int
    slot: int
    generation: int

    def __str__(self) -> str:
        return f"{self.node}.{self.slot}.{self.generation}"


class Letter(NamedTuple):
    """A letter that waits."""

    sender: int
    label: int
    references: tuple[Ref, ...]


class Part(NamedTuple):
    """A letter as its image has it, with one reference at most; or a part of one, of which `more` follow."""

    letter: Letter
    more: int


class Message(NamedTuple):
    """A message that carries references: a give, a put, a get, a post or a fetch."""

    number: int
    tag: int
    references: tuple[Ref, ...]


class Link(NamedTuple):
    """The links to another node and from it: the numbers of the last message to it that was acknowledged,
    of the last one sent, and of the last one received from it. And the messages between the first two."""

    acknowledged: int
    sent: int
    received: int
    messages: list[Message]


@dataclass
class Slots:
    """The used slots of a node. The references that objects have are in two arrays, in the order of slots;
    those of slot `n` begin at `first[n]` and end at `first[n + 1]`."""

    tags: bytearray = field(default_factory=bytearray)
    # 0 if there is no object.
    generations: array = field(default_factory=lambda: array("Q"))
    # The position in the image.
    offsets: array = field(default_factory=lambda: array("Q"))
    places: bytearray = field(default_factory=bytearray)
    lengths: array = field(default_factory=lambda: array("I"))
    first: array = field(default_factory=lambda: array("I", [0]))
    # The node and the slot of each reference as one number (SLOT_BITS), and its generation.
    named: array = field(default_factory=lambda: array("I"))
    born: array = field(default_factory=lambda: array("Q"))


class Details(NamedTuple):
    """An object, as its image shows it."""

    word: int
    length: int
    places: list[Optional[Ref]]


@dataclass
class Image:
    """A node's image."""

    name: str
    data: memoryview
    version: int
    shape: Shape
    own: int
    registers: list[Optional[Ref]]
    slots: Slots
    letters: list[Letter]
    links: dict[int, Link]

    def details(self, slot: int) -> Details:
        """The object in a slot."""
        it = ImageReader(self.name, self.data, self.slots.offsets[slot] + 1)
        it.set_layout(self.version)
        it.shape = self.shape
        it.number(it.generation)
        it.number(8)
        word = it.number(8)
        length = it.number(4) if self.shape.is_wide else 0
        it.take(length)
        return Details(word, length, [it.optional() for _ in range(it.number(1))])


class ImageReader(Reader):
    """Reads an image from the front to its end."""

    shape: Shape
    own = cycle = ended = changes = 0
    is_wide = False

    def set_layout(self, version: int) -> None:
        self.is_wide = version >= 4
        self.generation = 4 if version == 1 else 8
        self.reference_at = Struct(">BII" if version == 1 else ">BIQ").unpack_from
        self.object_head = Struct(">IQQ" if version == 1 else ">QQQI" if self.is_wide else ">QQQ")

    def read(self) -> Image:
        """Reads an image; what follows it isn't read."""
        start = self.at
        try:
            version = self.read_start()
            self.read_phases()
            registers = [self.optional() for _ in range(self.shape.registers)]
            slots = self.read_slots()
            self.read_lists(slots)
            letters = self.letters()
            others = [it for it in range(self.shape.nodes) if it != self.own]
            links = {it: self.link() for it in others}
        except (IndexError, error):
            self.fail("the image ends too early")
        if abs(self.earlier) + abs(self.recent) > sum(it.sent + it.received for it in links.values()):
            self.fail("more messages are counted than were sent and received", start)
        return Image(self.name, self.data, version, self.shape, self.own, registers, slots, letters, links)

    def limited(self, size: int, least: int, most: int, what: str) -> int:
        value = self.number(size)
        if not least <= value <= most:
            self.fail(f"{what} is {value}, and not {least} to {most}", self.at - size)
        return value

    def read_start(self) -> int:
        """The version, the shape and the node's own number."""
        if self.take(2) != b"MR":
            self.fail("this isn't the image of a node", self.at - 2)
        version = self.limited(1, 1, 5, "the version")
        self.set_layout(version)
        registers, slots, places, length = WIDE if self.is_wide else PLAIN
        if self.is_wide:
            places = self.number(1)
            length = self.limited(4, 0, length, "the greatest length of bytes")
        nodes = self.limited(1, 2, FIRST_NODES if version == 1 else NODES, "the number of nodes")
        self.own = self.limited(1, 0, nodes - 1, "the node's own number")
        registers = self.limited(2, 1, registers, "the number of registers")
        slots = self.limited(4, 1, slots, "the number of slots")
        self.shape = Shape(nodes, registers, slots, places, length, self.is_wide)
        return version

    def read_phases(self) -> None:
        """The phases, the ring with the token, the reports."""
        start = self.at
        self.cycle, self.ended, swept = self.number(8), self.number(8), self.number(8)
        self.cursor = self.number(4)
        if not swept <= self.ended <= self.cycle <= min(swept + 1, NUMBER):
            self.fail(f"no node has joined cycle {self.cycle}, ended {self.ended} and swept {swept}", start)
        if self.cursor and swept == self.ended:
            self.fail("a node that doesn't sweep has a cursor", self.at - 4)
        self.limited(1, 0, 1, "the node's colour")
        self.earlier, self.recent = (int.from_bytes(self.take(8), "big", signed=True) for _ in range(2))
        if self.limited(1, 0, int(self.ended < self.cycle), "the number of tokens"):
            self.limited(1, 0, 1, "the token's colour")
            self.take(8)
        for _ in range(self.shape.nodes - 1 if self.own == 0 else 0):
            self.limited(8, 0, self.cycle, "the cycle of a report")

    def reference(self) -> Ref:
        it = Ref(*self.reference_at(self.data, self.at))
        if it.node >= self.shape.nodes or it.slot >= self.shape.slots or not it.generation:
            self.fail(f"the space has no reference {it}")
        self.at += 5 + self.generation
        return it

    def optional(self) -> Optional[Ref]:
        return self.reference() if self.limited(1, 0, 1, "the number of references") else None

    def read_slots(self) -> Slots:
        """The slots, of which only those with objects take time."""
        used = self.count(1)
        if max(used, self.cursor) > self.shape.slots or self.cursor > used:
            self.fail(f"{used} of {self.shape.slots} slots are used, and {self.cursor} swept", self.at - 4)
        slots, kinds = Slots(), set(KINDS) if self.is_wide else {1}
        for slot in range(used):
            tag = self.data[self.at]
            slots.offsets.append(self.at)
            slots.tags.append(tag)
            if tag in kinds:
                self.read_object(slots)
            else:
                self.read_empty(slots, tag, slot)
            slots.first.append(len(slots.named))
        return slots

    def read_empty(self, slots: Slots, tag: int, slot: int) -> None:
        """A slot without an object."""
        if tag not in (FREE, RETIRED):
            self.fail(f"slot {slot} has the tag {tag}")
        self.at += 1
        if tag == FREE and self.number(self.generation) < 2:
            self.fail(f"slot {slot} is free, and was never used", self.at - self.generation)
        slots.generations.append(0)
        slots.places.append(0)
        slots.lengths.append(0)

    def read_object(self, slots: Slots) -> None:
        """A slot with an object."""
        data, at, step = self.data, self.at + 1, 6 + self.generation
        nodes, most = self.shape.nodes, self.shape.slots
        head = self.object_head.unpack_from(data, at)
        length = head[3] if self.is_wide else 0
        at += self.object_head.size + length
        count = data[at]
        if not head[0] or head[1] > self.cycle or count > self.shape.places or length > self.shape.bytes:
            sizes = f"generation {head[0]}, mark {head[1]}, {count} places and {length} bytes"
            self.fail(f"the space has no object with {sizes}")
        slots.generations.append(head[0])
        slots.places.append(count)
        slots.lengths.append(length)
        at += 1
        for _ in range(count):
            if data[at] == 0:
                at += 1
                continue
            node, slot, generation = self.reference_at(data, at + 1)
            if data[at] != 1 or node >= nodes or slot >= most or not generation:
                self.fail("this isn't the content of a place", at)
            slots.named.append(node << SLOT_BITS | slot)
            slots.born.append(generation)
            at += step
        self.at = at

    def numbers(self) -> array:
        """Numbers of slots."""
        count = self.count(4)
        return array("I", Struct(f">{count}I").unpack(self.take(4 * count)))

    def read_lists(self, slots: Slots) -> None:
        """The free slots, the grey ones, and what was asked."""
        start = self.at
        if sorted(self.numbers()) != [it for it, tag in enumerate(slots.tags) if tag == FREE]:
            self.fail("the list of free slots has others, or not all", start)
        start = self.at
        grey, skipped = self.numbers(), 1 + self.generation
        for slot in grey:
            if slot >= len(slots.tags) or not slots.generations[slot]:
                self.fail(f"slot {slot} is grey, and has no object", start)
            at = slots.offsets[slot] + skipped
            if int.from_bytes(self.data[at : at + 8], "big") != self.cycle:
                self.fail(f"slot {slot} is grey, and isn't marked", start)
        if len(set(grey)) != len(grey) or grey and self.ended == self.cycle:
            self.fail("a slot is grey twice, or after the end of the cycle's marking", start)
        start = self.at
        asked = [self.reference() for _ in range(self.count(5 + self.generation))]
        if len(set(asked)) != len(asked) or any(it.node == self.own for it in asked):
            self.fail("a reference is asked for twice, or is the node's own", start)

    def other_node(self) -> int:
        node = self.limited(1, 0, self.shape.nodes - 1, "another node")
        if node == self.own:
            self.fail("the node has a letter from itself", self.at - 1)
        return node

    def letters(self) -> list[Letter]:
        start, letters = self.at, []
        parts = [self.part() for _ in range(self.count(11 if self.is_wide else 6))]
        if any(it.more >= len(parts) - at for at, it in enumerate(parts)):
            self.fail("a letter has more references than follow it", start)
        at = 0
        while at < len(parts):
            behind = at + 1 + parts[at].more
            references = [ref for it in parts[at:behind] for ref in it.letter.references]
            letters.append(parts[at].letter._replace(references=tuple(references)))
            at = behind
        return letters

    def part(self) -> Part:
        sender, label, reference = self.other_node(), self.number(4), self.optional()
        more = self.number(1) if self.is_wide else 0
        self.bytes_of_letter() if self.is_wide else None
        return Part(Letter(sender, label, (reference,) if reference else ()), more)

    def bytes_of_letter(self) -> None:
        # (an object's word and bytes may be fetched, whatever a letter of a program may have)
        self.take(self.limited(4, 0, LETTER, "the number of a letter's bytes"))

    def link(self) -> Link:
        acknowledged = self.number(8)
        start = self.at
        count = self.count(9)
        read = (self.message(acknowledged + it) for it in range(1, count + 1))
        messages = [it for it in read if it.references]
        received, sent = self.limited(8, 0, NUMBER, "the last message received"), acknowledged + count
        if sent > NUMBER:
            self.fail(f"{count} messages follow number {acknowledged}", start)
        return Link(acknowledged, sent, received, messages)

    def message(self, number: int) -> Message:
        """A message, without the references that it doesn't carry."""
        self.limited(8, 0, self.cycle, "the stamp of a message")
        tags = WIDE_TAGS if self.is_wide else TAGS
        tag = self.limited(1, tags[0], tags[-1], "the tag of a message")
        references: list[Optional[Ref]] = []
        if tag == 2:
            self.limited(1, 0, 1, "the token's colour")
            self.take(8)
        elif tag == 3:
            self.reference()
        elif tag == GIVE:
            self.take(4)
            references = [self.optional()]
        elif tag == POST:
            self.take(4)
            references = [self.optional() for _ in range(self.number(1))]
            self.bytes_of_letter()
        elif tag == FETCH:
            references = [self.reference()]
            self.take(8)
            self.limited(4, 0, FETCHED, "the number of bytes that are asked for")
        elif tag in (PUT, GET):
            references = [self.reference()]
            if self.number(1) >= self.shape.places:
                self.fail("no object of the space has this place", self.at - 1)
            references += [self.optional() if tag == PUT else None]
            self.take(4 if tag == GET else 0)
        return Message(number, tag, tuple(it for it in references if it))
