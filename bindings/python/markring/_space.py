"""Nodes, spaces, cells and watches."""
from __future__ import annotations

import ctypes
from enum import Enum
from types import TracebackType
from typing import Any, Callable, Iterator, NamedTuple, NoReturn, Optional, Sequence, TypeVar, Union

from . import _library as c
from .errors import Ages, BadArgument, NoField, Refusal, ShortBuffer, check, found

LENGTH, NUMBER = 4, 8
FRAME = 48
WINDOW = 1_920
# As many freed objects are fetched at once.
ROOM = 256
Own = TypeVar("Own", bound="_Handle")


class Ref(NamedTuple):
    """A reference `node.slot.generation`. It names one object, forever, but keeps no object alive."""

    node: int
    slot: int
    generation: int

    def __str__(self) -> str:
        return f"{self.node}.{self.slot}.{self.generation}"

    def _raw(self) -> c.RawRef:
        raw = c.RawRef(*self)
        # (ctypes cuts off what a number has too much.)
        if (raw.node, raw.slot, raw.generation) != self:
            raise BadArgument()
        return raw


class Letter(NamedTuple):
    """A letter: its sender, its label and the first reference in it, if any; how many registers get its content (as many as
    were sent, and at least one), and how many bytes it has."""

    sender: int
    label: int
    reference: Optional[Ref]
    registers: int = 1
    bytes: int = 0


class Freed(NamedTuple):
    """What a sweep did: how many objects were freed, and whether all slots are swept."""

    count: int
    done: bool


class Gone(NamedTuple):
    """An object that was freed: the reference that it had, and its word."""

    reference: Ref
    word: int


class Work(NamedTuple):
    """What the collector's share of a turn did.

    How many early messages were received, which a cell doesn't, and objects scanned; whether the token was passed; how many
    objects the sweep freed, or None if no slots were swept; and whether grey objects are left, or slots to be swept.
    """

    received: int
    scanned: int
    passed: bool
    freed: Optional[int]
    more: bool


class Passed(NamedTuple):
    """The token as a node sent it on: its colour, black or not, and its sum."""

    black: bool
    sum: int


class Again(NamedTuple):
    """Node 0 sent the token around again, since marking may not have ended."""


class Ended(NamedTuple):
    """Node 0 found that the marking of this cycle has ended."""

    cycle: int


class Taken(Enum):
    """What became of a frame."""

    ACKNOWLEDGED = 0
    RECEIVED = 12
    REPEAT = 13
    EARLY = 14


class Image(NamedTuple):
    """A node's image: the bytes to store, and the mark to pass to `kept` or `save` once they are stored."""

    data: bytes
    mark: int


class Batch(NamedTuple):
    """What happened to a node since its last save: the bytes to store, and the mark to pass to `kept` then."""

    data: bytes
    mark: int


class Shape(NamedTuple):
    """The sizes of a space, and its kind. `Shape.plain` and `Shape.wide` make one.

    Nodes: 2 to 64. Registers of a node: 1 to 256, in a wide space to 65,535. Slots: 1 to 1,048,576, in a wide space to
    16,777,216. Places of an object: up to 8, in a wide space up to `places`, 0 to 255. Bytes of an object: none, in a wide
    space up to `bytes`, 0 to 16,777,216.
    """

    nodes: int
    registers: int
    slots: int
    places: int
    bytes: int
    is_wide: bool

    @classmethod
    def plain(cls, nodes: int, registers: int, slots: int) -> Shape:
        """A plain space, whose objects have up to 8 places and no bytes."""
        return cls(nodes, registers, slots, 8, 0, False)

    @classmethod
    def wide(cls, nodes: int, registers: int, slots: int, places: int, bytes: int) -> Shape:
        """A wide space, whose objects have up to this many places and bytes."""
        return cls(nodes, registers, slots, places, bytes, True)

    def _raw(self) -> c.RawShape:
        fields = {**self._asdict(), "wide": int(self.is_wide)}
        del fields["is_wide"]
        raw = c.RawShape(**fields)
        # (ctypes cuts off what a number has too much.)
        if any(getattr(raw, name) != value for name, value in fields.items()):
            raise BadArgument()
        return raw


class State(NamedTuple):
    """A node in numbers. `black` is the node's colour, `places` and `bytes` the most that an object may
    have."""

    nodes: int
    own: int
    black: bool
    has_token: bool
    registers: int
    slots: int
    live: int
    cycle: int
    ended: int
    swept: int
    earlier: int
    recent: int
    grey: int
    letters: int
    places: int
    bytes: int
    is_wide: bool


class Link(NamedTuple):
    """What a node knows of the links between it and another one: the numbers of the last such messages."""

    appended: int
    released: int
    acknowledged: int
    received: int
    received_saved: int


class Age(Enum):
    """Whether an object was made since the last reclaim of its node. A shared one is made old."""

    OLD = 0
    YOUNG = 1
    # young, and an old object may refer to it
    REMEMBERED = 2


class Object(NamedTuple):
    """An object of a node, with how many places and bytes it has, and its age.

    It is marked if it has the mark of the node's cycle, as every new object has, and shared if other nodes may know it.
    """

    reference: Ref
    word: int
    places: int
    bytes: int
    is_marked: bool
    is_shared: bool
    age: Age


def _ref(raw: c.RawRef) -> Optional[Ref]:
    return Ref(raw.node, raw.slot, raw.generation) if raw.generation else None


def _object(raw: c.RawRef) -> Ref:
    return Ref(raw.node, raw.slot, raw.generation)


def _letter(answer: c.RawAnswer) -> Letter:
    return Letter(answer.node, answer.label, _ref(answer.reference), answer.count, answer.number)


def _room(count: int, length: int) -> Any:
    # A buffer for some of this many bytes: if more are asked for, the call is refused anyway.
    return ctypes.create_string_buffer(max(min(count, length), 0))


class _Handle:
    """What owns something in the library, until it is closed."""

    _kind = ""

    def __init__(self) -> None:
        self._at = c.Handle()

    def _status(self, name: str, *words: Any) -> int:
        # Otherwise ctypes would cut off what a number has too much.
        for word, width in zip(words, c.WIDTHS[self._kind][name]):
            if width and not 0 <= word < 1 << width:
                raise BadArgument()
        return c.CALLS[self._kind][name](self._at, *words)  # type: ignore[operator]

    def _call(self, name: str, *words: Any) -> None:
        check(self._status(name, *words))

    def close(self) -> None:
        """Frees it. What isn't saved is lost. Later calls raise `NoHandle`; closing again does nothing."""
        if self._at.at:
            self._call("free")

    def __copy__(self) -> NoReturn:
        raise TypeError("what owns something in the library can't be copied")

    def __enter__(self: Own) -> Own:
        return self

    def __exit__(
        self,
        kind: Optional[type[BaseException]],
        error: Optional[BaseException],
        trace: Optional[TracebackType],
    ) -> None:
        self.close()

    def __del__(self) -> None:
        if getattr(self, "_at", None) is not None:
            self.close()


class _Events(_Handle):
    """What nodes and cells have in common. `register`, `source` and `object` are numbers of registers; `object` is the
    register that refers to the object. An event that is refused changes nothing."""

    def _answer(self, name: str, *words: Any) -> c.RawAnswer:
        answer = c.RawAnswer()
        self._call(name, *words, answer)
        return answer

    def alloc(self, register: int, places: int) -> Ref:
        """Makes a new object with this many empty places. The register gets its reference."""
        return _object(self._answer("alloc", register, places).reference)

    def copy(self, register: int, source: int) -> None:
        """The register gets the reference in `source`."""
        self._answer("copy", register, source)

    def drop(self, register: int) -> None:
        """Empties the register."""
        self._answer("drop", register)

    def load(self, register: int, object: int, place: int) -> Optional[Ref]:
        """The register gets the content of the object's place, which is returned."""
        return _ref(self._answer("load", register, object, place).reference)

    def store(self, object: int, place: int, register: int) -> None:
        """The object's place gets the register's reference."""
        self._answer("store", object, place, register)

    def clear(self, object: int, place: int) -> None:
        """Empties the object's place."""
        self._answer("clear", object, place)

    def word(self, object: int) -> int:
        """The object's word."""
        return self._answer("word", object).number

    def set_word(self, object: int, word: int) -> None:
        """The object gets the word."""
        self._answer("set_word", object, word)

    def bytes_len(self, object: int) -> int:
        """How many bytes the object has."""
        length = c.U32()
        self._call("bytes_length", object, length)
        return length.value

    def read_bytes(self, object: int, offset: int = 0, count: Optional[int] = None) -> bytes:
        """The object's bytes from `offset` on: `count` of them, or all. Raises `NoBytes` if it hasn't that many."""
        length = self.bytes_len(object)
        count = max(length - offset, 0) if count is None else count
        buffer, needed = _room(count, length), c.SIZE()
        self._call("bytes", object, offset, count, buffer, len(buffer), needed)
        return buffer.raw

    def set_bytes(self, object: int, data: bytes) -> None:
        """The object gets these bytes in place of its own. Raises `TooManyBytes`."""
        self._answer("set_bytes", object, data, len(data))

    def patch(self, object: int, offset: int, data: bytes) -> None:
        """Overwrites bytes of the object, from `offset` on. It makes them no longer. Raises `NoBytes`."""
        self._answer("patch", object, offset, data, len(data))

    def give(self, to: int, label: int, register: int) -> int:
        """Sends a letter with the label and the register's content. Returns the message's number."""
        return self._answer("give", to, label, register).number

    def post(self, to: int, label: int, first: int = 0, count: int = 0, data: bytes = b"") -> int:
        """Sends a letter with the label, the contents of `count` registers from `first` on, and these bytes, in a wide
        space. Returns the message's number.

        Raises `TooManyFields` if an object of the space has fewer places than `count`, and `TooManyBytes` if it has fewer
        bytes than these, and above 65,535.
        """
        return self._answer("post", to, label, first, count, data, len(data)).number

    def accept(self, register: int) -> Letter:
        """Removes the oldest letter that waits. The register gets its content.

        If the letter has several references, those that follow the register get the others; raises `NoRegister` if there
        are too few. The letter's bytes are gone then.
        """
        return _letter(self._answer("accept", register))

    def accept_with_bytes(self, register: int) -> tuple[Letter, bytes]:
        """Accepts the oldest letter as `accept` does, and returns its bytes, too."""
        buffer, needed = ctypes.create_string_buffer(self.letter().bytes), c.SIZE()
        answer = self._answer("accept_into", register, buffer, len(buffer), needed)
        return _letter(answer), buffer.raw

    def letter(self) -> Letter:
        """The oldest letter that waits, as `accept` would return it. Raises `NoLetter`."""
        return _letter(self._answer("letter"))

    def letter_bytes(self) -> bytes:
        """The bytes of the oldest letter that waits. Raises `NoLetter`."""
        buffer, needed = ctypes.create_string_buffer(self.letter().bytes), c.SIZE()
        self._call("letter_bytes", buffer, len(buffer), needed)
        return buffer.raw

    def put(self, object: int, place: int, register: int) -> int:
        """Asks the owner of another node's object to put the register's content into the object's place."""
        return self._answer("put", object, place, register).number

    def get(self, object: int, place: int, label: int) -> int:
        """Asks the owner of another node's object for the content of the object's place. It comes in a letter."""
        return self._answer("get", object, place, label).number

    def fetch(self, object: int, label: int, offset: int = 0, count: int = 0) -> int:
        """Asks the owner of another node's object, in a wide space, for its word and `count` of its bytes from `offset` on.

        They come in a letter with this label: the word as 8 bytes, big-endian, and then the bytes. If the object hasn't all
        of these, only the word comes, and if it is gone, no byte. Raises `TooManyBytes` above 65,527.
        """
        return self._answer("fetch", object, label, offset, count).number

    def resolve(self, register: int, reference: Ref) -> None:
        """The register gets a reference to an object of this node that the program kept in a table of its own.

        That is a weak reference: it keeps nothing alive, and never names another object. It leads back to the object while
        that is live and marked. Raises `NoField` if the object was freed, or marking ended without it, so that the next sweep
        frees it; and `NotNow` if the node marks and hasn't reached it: resolve it again when marking has ended.
        """
        self._answer("resolve", register, reference._raw())

    def reclaim(self) -> int:
        """Frees the private objects that nothing needs any more, without the other nodes.

        Returns how many these were. An object of a wide space is private until its node sends a reference
        to it. Raises `NothingToDo` if there is none, as always in a plain space.
        """
        return self._answer("reclaim").count

    def reclaim_young(self) -> int:
        """The same, but only of objects that were made since the last reclaim, of either kind.

        Older objects count as needed, and so does what was stored into one of them since then. Raises
        `NothingToDo` if no object was made since then, as always in a plain space.
        """
        return self._answer("reclaim_young").count

    def begin(self) -> int:
        """Begins the next cycle, and returns its number."""
        return self._answer("begin").number

    def scan(self) -> Ref:
        """Shades the references in the places of a grey object, which is returned."""
        return _object(self._answer("scan").reference)

    def pass_token(self) -> Union[Passed, Again, Ended]:
        """Passes the token on, or decides at node 0 whether marking has ended."""
        answer = self._answer("pass")
        if answer.kind == 8:
            return Passed(bool(answer.colour), answer.sum)
        return Again() if answer.kind == 9 else Ended(answer.number)

    def sweep(self, count: int) -> Freed:
        """Looks at the next `count` used slots, and frees the objects there that aren't marked."""
        answer = self._answer("sweep", count)
        return Freed(answer.count, bool(answer.done))

    def next(self, sender: int) -> None:
        """Receives the message from the sender that was early and is the next one now."""
        self._answer("next", sender)

    def work(self, scans: int, slots: int) -> Work:
        """Does the collector's share of a turn, without what fails with `NothingToDo`.

        It receives the early messages whose turn has come, which a cell doesn't; scans at most `scans` objects; passes the
        token, if that is due; and sweeps `slots` slots, unless these are 0. Raises `WrongNode` of an early message,
        `LinkSpent` and `Memory`, whose `done` is what was done before.
        """
        raw = c.RawWork()
        status = self._status("work", scans, slots, raw)
        freed = raw.freed if raw.swept else None
        done = Work(raw.received, raw.scanned, bool(raw.passed), freed, bool(raw.more))
        try:
            check(status)
        except Refusal as refusal:
            refusal.done = done
            raise
        return done

    def state(self) -> State:
        """The node in numbers."""
        raw = c.RawState()
        self._call("state", raw)
        flags = {"black": bool(raw.colour), "has_token": bool(raw.has_token), "is_wide": bool(raw.wide)}
        return State(**flags, **{it: getattr(raw, it) for it in State._fields if it not in flags})

    def link(self, peer: int) -> Link:
        """The links between the node and the node `peer`."""
        raw = c.RawLink()
        self._call("link", peer, raw)
        return Link(*(getattr(raw, it) for it in Link._fields))

    def register(self, register: int) -> Optional[Ref]:
        """The reference in a register, if any."""
        raw = c.RawRef()
        return _ref(raw) if found(self._status("register", register, raw)) else None

    def slots(self) -> int:
        """How many slots were ever used. All objects of the node are in the slots below that."""
        slots = c.U32()
        self._call("slots", slots)
        return slots.value

    def object(self, slot: int) -> Optional[Object]:
        """The object in a slot, if there is one, also if no register refers to it."""
        raw = c.RawObject()
        if not found(self._status("object", slot, raw)):
            return None
        flags = bool(raw.marked), bool(raw.shared)
        return Object(_object(raw.reference), raw.word, raw.places, raw.bytes, *flags, Age(raw.age))

    def objects(self) -> Iterator[Object]:
        """The objects of the node, in the order of their slots, also those that no register refers to.

        An object that an event makes meanwhile may be left out.
        """
        for slot in range(self.slots()):
            it = self.object(slot)
            if it is not None:
                yield it

    def _of_object(self, name: str, slot: int, *words: Any) -> None:
        # Asks about the object in a slot.
        if not found(self._status(name, slot, *words)):
            raise NoField()

    def places(self, slot: int) -> list[Optional[Ref]]:
        """What the places of the object in a slot hold. Raises `NoField` if there is no object."""
        raw, held = c.RawObject(), []
        self._of_object("object", slot, raw)
        for place in range(raw.places):
            self._of_object("place", slot, place, raw.reference)
            held.append(_ref(raw.reference))
        return held

    def read_bytes_at(self, slot: int, offset: int = 0, count: Optional[int] = None) -> bytes:
        """Bytes of the object in a slot, from `offset` on: `count` of them, or all.

        Raises `NoField` if there is no object, and `NoBytes` if it hasn't that many.
        """
        raw, needed = c.RawObject(), c.SIZE()
        self._of_object("object", slot, raw)
        count = max(raw.bytes - offset, 0) if count is None else count
        buffer = _room(count, raw.bytes)
        self._of_object("bytes_at", slot, offset, count, buffer, len(buffer), needed)
        return buffer.raw

    def track_freed(self, on: bool = True) -> None:
        """Lists the objects that are freed from now on, or drops the list and lists none. See `freed`."""
        self._call("track_freed", int(on))

    def freed(self) -> list[Gone]:
        """The objects that were freed and that no image has which may still be opened, in the order in which they were freed.

        Each is returned once: when an image or a batch is kept that was made after it was freed; of a cell, when it is saved.
        `track_freed` begins it. (A cell's `reopen` drops the list.)
        """
        buffer, count, gone = (c.RawFreed * ROOM)(), ctypes.c_size_t(ROOM), []
        while count.value == ROOM:
            self._call("freed", buffer, ROOM, count)
            gone += [Gone(_object(it.reference), it.word) for it in buffer[: count.value]]
        return gone

    def unsaved(self) -> bool:
        """Whether an event has changed the node since it was last saved."""
        flag = ctypes.c_uint8()
        self._call("unsaved", flag)
        return bool(flag.value)

    def image_size(self) -> int:
        """The number of bytes that the node's image has now."""
        size = ctypes.c_size_t()
        self._call("image_size", size)
        return size.value

    def image(self) -> Image:
        """The node's image, with its mark."""
        buffer, length, mark = self._image_into(ctypes.create_string_buffer(0))
        return Image(buffer.raw[:length], mark)

    def _image_into(self, buffer: Any) -> tuple[Any, int, int]:
        # Writes the image into the buffer, or a larger one. Returns that buffer, the length, and the mark.
        needed, mark = ctypes.c_size_t(), ctypes.c_uint64()
        try:
            self._call("image", buffer, len(buffer), needed, mark)
        except ShortBuffer:
            buffer = ctypes.create_string_buffer(needed.value)
            self._call("image", buffer, len(buffer), needed, mark)
        return buffer, needed.value, mark.value


class Node(_Events):
    """One node of a space, for a caller that moves its frames and stores its images.

    A frame may be lost, repeated and delayed: send the released ones again and again until they are acknowledged. What
    a node sent is released once an image that holds it is kept.
    """

    _kind = "node"

    def __init__(self, nodes: int, registers: int, slots: int, own: int, limit: int = 0) -> None:
        """Makes node `own` of `nodes`, in a plain space. If `limit` isn't 0, `give`, `post`, `put`, `get` and `fetch` raise
        `Congested` while that many messages to the receiver aren't acknowledged."""
        super().__init__()
        self._call("new", nodes, registers, slots, own, limit)

    @classmethod
    def with_shape(cls, shape: Shape, own: int, limit: int = 0) -> Node:
        """A new node `own` of a space of this shape, plain or wide."""
        node = cls.__new__(cls)
        _Handle.__init__(node)
        node._call("make", shape._raw(), own, limit)
        return node

    @classmethod
    def from_image(cls, data: bytes, limit: int = 0) -> Node:
        """The node of an image. All that it sent and received counts as saved."""
        node = cls.__new__(cls)
        _Handle.__init__(node)
        node._call("from_image", data, len(data), limit)
        return node

    @classmethod
    def from_batches(cls, image: bytes, batches: bytes, limit: int = 0) -> Node:
        """The node of an image and of the batches that were stored behind it, one after another.

        It has a log: its next batch may be stored behind these.
        """
        node = cls.__new__(cls)
        _Handle.__init__(node)
        node._call("from_batches", image, len(image), batches, len(batches), limit)
        return node

    def log(self, on: bool = True) -> None:
        """Begins a log of the node's events, or ends it. It is of use from the next image on."""
        self._call("log", int(on))

    def batch_size(self) -> int:
        """The number of bytes of the next batch."""
        size = ctypes.c_size_t()
        self._call("batch_size", size)
        return size.value

    def batch(self) -> Batch:
        """The events since the last image or batch, with a mark. After `NoLog`, take an image."""
        buffer = ctypes.create_string_buffer(self.batch_size())
        needed, mark = ctypes.c_size_t(), ctypes.c_uint64()
        self._call("batch", buffer, len(buffer), needed, mark)
        return Batch(buffer.raw[: needed.value], mark.value)

    def take(self, frame: bytes) -> Taken:
        """Gives the node a frame from another node. After EARLY, call `next` once its turn has come."""
        answer = c.RawAnswer()
        self._call("take", frame, len(frame), answer)
        return Taken(answer.kind)

    def frame_at(self, to: int, place: int) -> Optional[bytes]:
        """The frame of the released message at this place of the window, 0 to 31, if there is one."""
        buffer, needed = ctypes.create_string_buffer(FRAME), ctypes.c_size_t()
        status = self._status("frame_at", to, place, buffer, FRAME, needed)
        if needed.value > FRAME:
            # A letter with references or bytes.
            buffer = ctypes.create_string_buffer(needed.value)
            status = self._status("frame_at", to, place, buffer, len(buffer), needed)
        return buffer.raw[: needed.value] if found(status) else None

    def ack_for(self, sender: int) -> bytes:
        """The acknowledgement to the sender of all its messages that a saved state has received, as a frame."""
        buffer, needed = ctypes.create_string_buffer(FRAME), ctypes.c_size_t()
        self._call("ack_for", sender, buffer, FRAME, needed)
        return buffer.raw[: needed.value]

    def frames(self, to: int, after: int = 0) -> list[tuple[int, bytes]]:
        """The frames in the window whose numbers are above `after`, each with its number, in order."""
        buffer = ctypes.create_string_buffer(WINDOW)
        count, needed = ctypes.c_size_t(), ctypes.c_size_t()
        status = self._status("frames", to, after, buffer, WINDOW, count, needed)
        if needed.value > WINDOW:
            # Letters with references or bytes.
            buffer = ctypes.create_string_buffer(needed.value)
            status = self._status("frames", to, after, buffer, len(buffer), count, needed)
        if not found(status):
            return []
        found_frames, rest = [], buffer.raw
        for _ in range(count.value):
            length, number = int.from_bytes(rest[:LENGTH], "big"), int.from_bytes(rest[LENGTH:][:NUMBER], "big")
            rest = rest[LENGTH + NUMBER :]
            found_frames.append((number, rest[:length]))
            rest = rest[length:]
        return found_frames

    def kept(self, mark: int) -> None:
        """Says that the image or batch with this mark is stored. What it holds counts as saved."""
        self._call("kept", mark)

    def release(self) -> None:
        """Counts everything as saved, though no image is stored: for a space that ends with its process.

        After it, open the node only from an image that was taken later.
        """
        self._call("release")

    def waiting(self, sender: int) -> Optional[int]:
        """The number of the message from the sender that was early and is the next one now, if there is one."""
        number = ctypes.c_uint64()
        return number.value if found(self._status("waiting", sender, number)) else None


class Space(_Handle):
    """A space whose nodes are in threads of one process. It makes cells and watches, which then go to threads."""

    _kind = "space"

    def __init__(self, nodes: int, registers: int, slots: int, watches: int = 0) -> None:
        """Makes a plain space."""
        super().__init__()
        self.nodes = nodes
        self._call("new", nodes, registers, slots, watches)

    @classmethod
    def with_shape(cls, shape: Shape, watches: int = 0) -> Space:
        """A space of this shape, plain or wide."""
        space = cls.__new__(cls)
        _Handle.__init__(space)
        space.nodes = shape.nodes
        space._call("make", shape._raw(), watches)
        return space

    def disk(self, node: int, image: bytes) -> None:
        """Gives the stored image from which a node will continue. Give those of all nodes or of none."""
        self._call("disk", node, image, len(image))

    def open(self) -> list[Cell]:
        """Opens the space, and moves out the cells of all nodes. If that is refused, the space keeps its images."""
        sender, receiver = ctypes.c_uint8(), ctypes.c_uint8()
        try:
            self._call("open", sender, receiver)
        except Ages as refusal:
            refusal.sender, refusal.receiver = sender.value, receiver.value
            raise
        cells = [Cell() for _ in range(self.nodes)]
        for node, cell in enumerate(cells):
            self._call("cell", node, cell._at)
        return cells

    def watch(self) -> Optional[Watch]:
        """A watch, or nothing if the space isn't open or all its watches were moved out."""
        watch = Watch()
        return watch if found(self._status("watch", watch._at)) else None


class Cell(_Events):
    """A node with its place on the wire between the nodes of a space.

    A thread makes these calls over and over: `receive` from each other node; events; `image` and `save`; `send` to each
    other node; and at node 0 `raise_board`. No call waits for another thread.
    """

    _kind = "cell"

    def receive(self, sender: int) -> Optional[Taken]:
        """Receives a frame of the sender, or the message that was early and is next. Nothing if there is neither.

        After `WrongNode`, `OutOfOrder`, `LinkSpent` and `Memory` the frame is lost, and its sender offers it again.
        """
        answer = c.RawAnswer()
        return Taken(answer.kind) if found(self._status("receive", sender, answer)) else None

    def send(self, to: int) -> bool:
        """Sends the next frame, if the mailbox of the receiver is empty, and returns whether it was."""
        sent = ctypes.c_uint8()
        self._call("send", to, sent)
        return bool(sent.value)

    def save(self, mark: int) -> None:
        """Saves the cell, whose image with this mark is stored. No event may happen between the two."""
        self._call("save", mark)

    def reopen(self) -> None:
        """Goes back to the cell as it was last saved. What wasn't saved is lost."""
        self._call("reopen")

    def raise_board(self) -> int:
        """Shows the last ended cycle of the saved node 0 to the watches, and returns its number."""
        cycle = ctypes.c_uint64()
        self._call("raise", cycle)
        return cycle.value


def collect(cells: Sequence[Cell], store: Optional[Callable[[int, bytes], object]] = None) -> None:
    """Collects what is garbage in a space whose programs are all stopped. `cells` are those of all nodes, in order.

    It ends the cycle that is under way and the next one, and saves each cell. What was garbage before, saved or not, is gone
    then, rings of objects across nodes included. `store` stores a node's image safely before it counts as saved; without
    it, images are stored nowhere. If it raises an exception, or a call is refused, what was done before remains done, and
    the call may be repeated. Raises `BadArgument` of other cells.
    """
    handles, done = (c.Handle * len(cells))(*(it._at for it in cells)), ctypes.c_uint8()
    cycle = cells[0].state().cycle + 1 if cells else 0
    buffer = ctypes.create_string_buffer(0)
    while not done.value:
        check(c.CALLS["space"]["collect"](handles, len(cells), cycle, done))  # type: ignore[operator]
        for cell, handle in zip(cells, handles):
            cell._at.at = handle.at
        for node, cell in enumerate(cells):
            if cell.unsaved():
                buffer, length, mark = cell._image_into(buffer)
                if store is not None:
                    store(node, ctypes.string_at(buffer, length))
                cell.save(mark)


class Watch(_Handle):
    """A read-only view of the last cycle whose marking has ended."""

    _kind = "watch"

    def look(self) -> int:
        """The last cycle that node 0 has shown; 0 if there was none."""
        cycle = ctypes.c_uint64()
        self._call("look", cycle)
        return cycle.value
