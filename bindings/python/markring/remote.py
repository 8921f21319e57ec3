"""Programs of nodes that run in processes of their own (markring-node), over NATS.

    with remote.Space("nats://127.0.0.1:4222", "example") as space:
        with space.program(node=0, number=0) as program:
            program.alloc(0, places=1)
            program.give(to=1, label=7, register=0)

A node has up to 64 programs. A program sends its node requests, one after another, each with up to 256 events and
1,000,000 bytes of objects and letters; the node performs them once, whatever is lost or crashes. An answer comes once all that it
shows is stored, so nothing takes it back. `markring.aio` has the same for asyncio. docs/PROCESSES.md has more.

The client is the file that the variable MARKRING_REMOTE_LIBRARY names. Without that variable it is
`libmarkring-remote.so`, found as the package finds `libmarkring.so`. Each space
has a lock, so any thread may use it; calls wait without the interpreter's lock. Times are in seconds.
"""
from __future__ import annotations

import ctypes
import json
import struct
import threading
import weakref
from ctypes import POINTER, byref, c_char_p, c_int, c_int64, c_size_t, c_uint8, c_uint16, c_uint32, c_uint64, c_void_p
from types import TracebackType
from typing import Any, Iterator, NamedTuple, Optional

from . import errors, weak
from ._library import RawAnswer, RawFreed, RawObject, RawRef, function, open_library
from ._space import Age, Gone, Letter, Object, Ref

NAME = "libmarkring-remote.so"
EVENTS = 256
_RESOLVE, _ACCEPT_INTO = 24, 138
# Bytes of objects and letters in one request, or in one answer, at most.
BYTES = 1_000_000
# Bytes of a letter, at most.
LETTER = 65_535
# Objects that were freed, and objects, in one answer, at most.
FREED, OBJECTS = 47_619, 32_768
NOT_DONE, APART = 150, 151
SECONDS = 10.0
LONGEST = 1e9
TEXT = 8192


class Failure(Exception):
    """A request got no answer, or none that fits."""

    status, text = 0, "the request failed"

    def __init__(self) -> None:
        super().__init__(self.text)


class OutOfMemory(Failure, MemoryError):
    """An allocation failed in the client."""

    status, text = 1, "an allocation failed"


class TimedOut(Failure, TimeoutError):
    """No answer came in time. After a request with events, nobody knows yet whether they were performed, or will be:
    call `finish` until that succeeds."""

    status, text = 2, "no answer came in time"


class Superseded(Failure):
    """Another process has opened this program of the node since."""

    status, text = 3, "another process speaks for this program now"


class BadRequest(Failure, ValueError):
    """An argument is out of range."""

    status, text = 4, "an argument is out of range"


class Unfinished(Failure):
    """A request isn't answered yet: call `finish` first."""

    status, text = 5, "a request isn't answered yet"


class NoCarrier(Failure, ConnectionError):
    """The connection to the server can't be made, or the server takes no message as long as the request or its answer
    (its `max_payload` is too small)."""

    status, text = 6, "the connection can't be made, or the server's max_payload is too small"


class Confused(Failure):
    """The node's answer doesn't fit the request: its folder is older than what this program was told, or it belongs to
    another space."""

    status, text = 7, "the node's answer doesn't fit the request"


class NoRegisters(Failure):
    """The program can't have these registers for itself: it was opened before with others or with none, another program
    has one of them, or the node has fewer."""

    status, text = 8, "the program can't have these registers for itself"


class TooLong(Failure, ValueError):
    """A request or its answer would carry more than BYTES bytes of objects and letters. Nothing was sent."""

    status, text = 9, "the request or its answer would carry more than 1,000,000 bytes of objects and letters"


class EarlierNode(Failure):
    """The node is of an earlier version, and knows no bytes of objects or of letters, no `resolve`, or not this request.
    Nothing was performed."""

    status, text = 10, "the node is of an earlier version, and doesn't know what the request asks for"


class TooMany(Failure):
    """The program has as many requests under way as it may (`markring.aio.UNDER_WAY`). Nothing was sent."""

    status, text = 12, "the program has too many requests under way"


class Apart(Failure):
    """A program of the node has registers for itself. What it holds there, others could find by this request, so nobody may
    make it."""

    status, text = 13, "a program of the node has registers for itself, so nobody may look at its objects"


class Lost(Failure):
    """The node doesn't list for the program what was freed since: another process runs the node now, the program left too
    many objects to be asked for, it never called `track_freed`, or meanwhile a program had registers for itself."""

    status, text = 14, "the node doesn't list what it has freed since for this program"


class Closed(Failure):
    """The space or the program was closed."""

    status, text = -1, "the space or the program was closed"


_FAILURES = {it.status: it for it in Failure.__subclasses__()}
# After these, `perform` has sent nothing, or its request is over.
_UNSENT = [it.status for it in (OutOfMemory, BadRequest, Unfinished, TooLong, EarlierNode)]


class RawEvent(ctypes.Structure):
    _fields_ = [
        ("kind", c_uint8),
        ("node", c_uint8),
        ("place", c_uint8),
        ("reg", c_uint16),
        ("source", c_uint16),
        ("object", c_uint16),
        ("label", c_uint32),
        ("count", c_uint32),
        ("word", c_uint64),
    ]


class RawRemoteEvent(ctypes.Structure):
    _fields_ = [("event", RawEvent), ("bytes", c_char_p), ("length", c_size_t)]


class RawResult(ctypes.Structure):
    _fields_ = [("status", c_int), ("answer", RawAnswer)]


class RawPolled(ctypes.Structure):
    _fields_ = [
        ("results", POINTER(RawResult)),
        ("count", c_size_t),
        ("bytes", POINTER(c_uint8)),
        ("length", c_size_t),
        ("is_over", c_uint8),
    ]


class RawFacts(ctypes.Structure):
    _fields_ = [
        ("nodes", c_uint8),
        ("node", c_uint8),
        ("registers", c_uint16),
        ("slots", c_uint32),
        ("last", c_uint64),
    ]


class RawOptions(ctypes.Structure):
    _fields_ = [(it, c_char_p) for it in ("url", "ca", "certificate", "key", "credentials")]


class Event(NamedTuple):
    """An event of a request. The functions below make them; the fields that an event doesn't use are ignored."""

    kind: int
    node: int = 0
    place: int = 0
    register: int = 0
    source: int = 0
    object: int = 0
    label: int = 0
    word: int = 0
    count: int = 0
    data: bytes = b""


def alloc(register: int, places: int) -> Event:
    """Makes a new object with this many empty places. The register gets its reference."""
    return Event(1, register=register, place=places)


def copy(register: int, source: int) -> Event:
    """The register gets the reference in `source`."""
    return Event(2, register=register, source=source)


def drop(register: int) -> Event:
    """Empties the register."""
    return Event(3, register=register)


def load(register: int, object: int, place: int) -> Event:
    """The register gets the content of the object's place."""
    return Event(4, register=register, object=object, place=place)


def store(object: int, place: int, register: int) -> Event:
    """The object's place gets the register's reference."""
    return Event(5, object=object, place=place, register=register)


def clear(object: int, place: int) -> Event:
    """Empties the object's place."""
    return Event(6, object=object, place=place)


def word(object: int) -> Event:
    """Reads the object's word."""
    return Event(7, object=object)


def set_word(object: int, word: int) -> Event:
    """The object gets the word."""
    return Event(8, object=object, word=word)


def set_bytes(object: int, data: bytes) -> Event:
    """The object gets these bytes in place of its own."""
    return Event(18, object=object, data=data)


def patch(object: int, offset: int, data: bytes) -> Event:
    """Overwrites bytes of the object, from `offset` on. It makes them no longer."""
    return Event(19, object=object, count=offset, data=data)


def give(to: int, label: int, register: int) -> Event:
    """Sends a letter with the label and the register's content."""
    return Event(9, node=to, label=label, register=register)


def post(to: int, label: int, first: int = 0, count: int = 0, data: bytes = b"") -> Event:
    """Sends a letter with the label, the contents of `count` registers from `first` on, and these bytes, in a wide
    space."""
    return Event(22, node=to, label=label, register=first, count=count, data=data)


def accept(register: int) -> Event:
    """Removes the oldest letter that waits. The register gets its content, and if it has several references, the
    registers that follow get the others. Its bytes are gone then."""
    return Event(10, register=register)


def accept_with_bytes(register: int, room: int = LETTER) -> Event:
    """The same; its bytes come, too. If it has more than `room`, the event is refused with `ShortBuffer`, and the letter
    stays. The room of all events of a request is at most BYTES."""
    return Event(_ACCEPT_INTO, register=register, count=room)


def put(object: int, place: int, register: int) -> Event:
    """Asks the owner of another node's object to put the register's content into the object's place."""
    return Event(11, object=object, place=place, register=register)


def get(object: int, place: int, label: int) -> Event:
    """Asks the owner of another node's object for the content of the object's place. It comes in a letter."""
    return Event(12, object=object, place=place, label=label)


def fetch(object: int, label: int, offset: int = 0, count: int = 0) -> Event:
    """Asks the owner of another node's object, in a wide space, for its word and `count` of its bytes from `offset` on.
    They come in a letter."""
    return Event(23, object=object, label=label, word=offset, count=count)


def resolve(register: int, reference: Ref) -> Event:
    """The register gets a reference to an object of the node that the program kept in a table of its own, while the object
    is there."""
    return Event(_RESOLVE, register=register, node=reference.node, count=reference.slot, word=reference.generation)


class Result(NamedTuple):
    """What became of one event. `status` is 0, the number of a refusal, NOT_DONE if an event of the same request was
    refused before it, or APART for a `resolve` (see `Apart`). `value` depends on the event: a reference or nothing (`alloc`, `load`), a number (`word`, `give`,
    `post`, `put`, `get`, `fetch`), a letter (`accept`), a letter and its bytes (`accept_with_bytes`), or nothing."""

    status: int
    value: Any = None

    def get(self) -> Any:
        """The value. Raises the refusal if the event was refused."""
        if self.status == NOT_DONE:
            raise NotDone()
        if self.status == APART:
            raise Apart()
        errors.check(self.status)
        return self.value


class NotDone(errors.Refusal):
    """An event of the same request was refused before this one."""

    status, text = NOT_DONE, "an earlier event of the request was refused"


class Since(NamedTuple):
    """A place in the list of what a node has freed for a program: which list, and the last entry that the program has."""

    list: int
    number: int


class Facts(NamedTuple):
    """What a node says of itself and of a program. `last` is the number of the program's last request."""

    nodes: int
    node: int
    registers: int
    slots: int
    last: int


def _reference(raw: Any) -> Optional[Ref]:
    return Ref(raw.node, raw.slot, raw.generation) if raw.generation else None


def _value(answer: RawAnswer) -> Any:
    if answer.kind in (1, 2):
        return _reference(answer.reference)
    if answer.kind in (3, 4):
        return answer.number
    if answer.kind == 5:
        return Letter(answer.node, answer.label, _reference(answer.reference), answer.count, answer.number)
    return None


# RawFreed and RawObject as they are in memory: to read many in this way takes a third of the time.
_FREED, _OBJECT = struct.Struct("=B3xIQQ"), struct.Struct("=B3xIQQIBBBB")
_AGES = list(Age)


def _read(raw: Any, count: int, form: struct.Struct) -> Iterator[tuple[Any, ...]]:
    # The first ones of an array.
    return form.iter_unpack(memoryview(raw).cast("B")[: count * form.size])


class RawSince(ctypes.Structure):
    _fields_ = [("list", c_uint64), ("number", c_uint64)]


def _load() -> ctypes.CDLL:
    library = open_library(ctypes.CDLL, NAME, "MARKRING_REMOTE_LIBRARY", "markring-node")
    at, numbers, to_size = c_void_p, POINTER(c_uint16), POINTER(c_size_t)
    results = POINTER(RawResult)
    calls = {
        "connect": (POINTER(at), POINTER(RawOptions), c_char_p),
        "open": (POINTER(at), at, c_uint8, c_uint8, c_int64, POINTER(RawFacts)),
        "open_apart": (POINTER(at), at, c_uint8, c_uint8, c_uint16, c_uint16, c_int64, POINTER(RawFacts)),
        "last": (at, results, c_size_t, to_size),
        "perform_bytes": (at, POINTER(RawRemoteEvent), c_size_t, results, c_int64),
        "letter_bytes": (at, c_size_t, POINTER(POINTER(c_uint8)), to_size),
        "finish": (at, results, c_int64),
        "read": (at, numbers, c_size_t, results, c_int64),
        "read_bytes": (at, c_uint16, c_uint32, c_uint32, c_char_p, results, c_int64),
        "wait": (at, POINTER(c_uint64), c_int64),
        "send": (at, POINTER(RawRemoteEvent), c_size_t, c_int64),
        "send_read": (at, numbers, c_size_t, c_int64),
        "send_read_bytes": (at, c_uint16, c_uint32, c_uint32, c_int64),
        "send_wait": (at, c_int64),
        "poll": (at, POINTER(RawPolled)),
        "poll_wait": (at, POINTER(c_uint64)),
        "resume": (at, c_int64),
        "fd": (at,),
        "ask": (at, c_uint8, c_char_p, c_char_p, c_size_t, c_int64),
        "track_freed": (at, POINTER(RawSince), POINTER(c_uint8), c_int64),
        "freed": (at, POINTER(RawSince), POINTER(RawFreed), c_size_t, to_size, c_int64),
        "objects": (at, POINTER(c_uint32), POINTER(RawObject), c_size_t, to_size, POINTER(c_uint8), c_int64),
        "places": (at, POINTER(RawRef), POINTER(RawRef), to_size, POINTER(c_int), c_int64),
        "send_track_freed": (at, c_int64),
        "send_freed": (at, POINTER(RawSince), c_size_t, c_int64),
        "send_objects": (at, c_uint32, c_size_t, c_int64),
        "send_places": (at, POINTER(RawRef), c_int64),
    }
    for name, words in calls.items():
        call = function(library, f"markring_remote_{name}")
        call.argtypes, call.restype = words, c_int
    for name in ("disconnect", "close"):
        call = function(library, f"markring_remote_{name}")
        call.argtypes, call.restype = (at,), None
    return library


_LIBRARY = _load()


def _check(status: int) -> None:
    if status:
        raise _FAILURES.get(status, Failure)()


def _fits(number: int, bits: int) -> int:
    # Otherwise ctypes would cut off what a number has too much.
    if not 0 <= number < 1 << bits:
        raise BadRequest()
    return number


def _raw_event(event: Event) -> RawRemoteEvent:
    raw = RawEvent()
    for field, number in zip(("kind", "node", "place", "reg", "source", "object", "label", "word", "count"), event):
        setattr(raw, field, _fits(number, 8 * getattr(RawEvent, field).size))
    data = bytes(memoryview(event.data))
    return RawRemoteEvent(raw, data, len(data))


def _raw_reference(reference: Ref) -> RawRef:
    return RawRef(_fits(reference.node, 8), _fits(reference.slot, 32), _fits(reference.generation, 64))


def _raw_since(since: Optional[Since]) -> RawSince:
    # (no list has the number 0)
    return RawSince(*(_fits(it, 64) for it in since or Since(0, 0)))


def _milliseconds(seconds: float) -> int:
    return int(min(max(0.0, seconds), LONGEST) * 1000)


class Space:
    """A connection to the server of a space. A server that can't be reached is tried again and again."""

    def __init__(
        self,
        url: str,
        name: str,
        ca: Optional[str] = None,
        certificate: Optional[str] = None,
        key: Optional[str] = None,
        credentials: Optional[str] = None,
    ) -> None:
        self.name = name
        self._lock = threading.Lock()
        self._at = c_void_p()
        self._programs: weakref.WeakSet[Program] = weakref.WeakSet()
        words = [it.encode() if it is not None else None for it in (url, ca, certificate, key, credentials)]
        _check(_LIBRARY.markring_remote_connect(byref(self._at), byref(RawOptions(*words)), name.encode()))

    def _handle(self) -> c_void_p:
        if not self._at:
            raise Closed()
        return self._at

    def program(
        self, node: int, number: int, timeout: float = SECONDS, registers: Optional[range] = None
    ) -> Program:
        """Begins to speak for a program of a node. With `registers`, at its first opening, it has these for itself, and can
        use no others."""
        return Program(self, node, number, timeout, registers)

    def ask(self, node: int, word: str, timeout: float = SECONDS) -> Any:
        """Says a word of the operator to a node: `status`, `begin`, `stop` or `forget NUMBER`. After TimedOut the node may
        have done it."""
        text = ctypes.create_string_buffer(TEXT)
        with self._lock:
            at, wait = self._handle(), _milliseconds(timeout)
            _check(_LIBRARY.markring_remote_ask(at, _fits(node, 8), word.encode(), text, len(text), wait))
        return json.loads(text.value)

    def close(self) -> None:
        """Closes the programs, and ends the connection."""
        with self._lock:
            for program in list(self._programs):
                program._free()
            _LIBRARY.markring_remote_disconnect(self._at)
            self._at = c_void_p()

    def __enter__(self) -> Space:
        return self

    def __exit__(
        self,
        kind: Optional[type[BaseException]],
        error: Optional[BaseException],
        trace: Optional[TracebackType],
    ) -> None:
        self.close()


class Program:
    """A program of a node. From its opening on, the node refuses requests of an earlier process that spoke for it.

    Each method of an event is a request with that event alone, which raises its refusal. `perform` takes many.
    """

    def __init__(
        self, space: Space, node: int, number: int, timeout: float = SECONDS, registers: Optional[range] = None
    ) -> None:
        self._space, self._at, self._count = space, c_void_p(), 0
        self.timeout = timeout
        self.since: Optional[Since] = None
        facts = RawFacts()
        numbers, call = (_fits(node, 8), _fits(number, 8)), _LIBRARY.markring_remote_open
        if registers is not None:
            if registers.step != 1 or not registers:
                raise BadRequest()
            numbers += _fits(registers.start, 16), _fits(len(registers), 16)
            call = _LIBRARY.markring_remote_open_apart
        with space._lock:
            _check(call(byref(self._at), space._handle(), *numbers, _milliseconds(timeout), byref(facts)))
            space._programs.add(self)
        self.facts = Facts(*(getattr(facts, it) for it in Facts._fields))

    def last(self) -> list[Result]:
        """The results of the program's last request that was performed before it was opened."""
        raw, count = (RawResult * EVENTS)(), c_size_t()
        with self._space._lock:
            _check(_LIBRARY.markring_remote_last(self._handle(), raw, EVENTS, byref(count)))
            return self._results(raw, count.value)

    def perform(self, events: list[Event], timeout: Optional[float] = None) -> list[Result]:
        """Performs events, in order, up to the first one that is refused."""
        if len(events) > EVENTS:
            raise BadRequest()
        given = (RawRemoteEvent * len(events))(*map(_raw_event, events))
        raw_results = (RawResult * EVENTS)()
        with self._space._lock:
            status = _LIBRARY.markring_remote_perform_bytes(
                self._handle(), given, len(events), raw_results, self._wait(timeout)
            )
            if status not in _UNSENT:
                self._count = len(events)
            _check(status)
            return self._results(raw_results, len(events))

    def finish(self, timeout: Optional[float] = None) -> list[Result]:
        """Asks again for the answer to the request that had none. It is performed once."""
        raw = (RawResult * EVENTS)()
        with self._space._lock:
            _check(_LIBRARY.markring_remote_finish(self._handle(), raw, self._wait(timeout)))
            return self._results(raw, self._count)

    def registers(self, numbers: list[int], timeout: Optional[float] = None) -> list[Optional[Ref]]:
        """What registers hold."""
        raw = (RawResult * EVENTS)()
        if len(numbers) > EVENTS:
            raise BadRequest()
        given = (c_uint16 * len(numbers))(*(_fits(it, 16) for it in numbers))
        with self._space._lock:
            at, count = self._handle(), len(numbers)
            _check(_LIBRARY.markring_remote_read(at, given, count, raw, self._wait(timeout)))
        return [_reference(it.answer.reference) if errors.found(it.status) else None for it in raw[:count]]

    def read_bytes(
        self, object: int, offset: int = 0, count: Optional[int] = None, timeout: Optional[float] = None
    ) -> bytes:
        """The object's bytes from `offset` on: `count` of them, or all. Raises `NoBytes` if it hasn't that many."""
        if count is None:
            count = max(self.bytes_len(object, timeout) - offset, 0)
        return self._read(object, offset, count, timeout)[1]

    def bytes_len(self, object: int, timeout: Optional[float] = None) -> int:
        """How many bytes the object has."""
        return self._read(object, 0, 0, timeout)[0]

    def _read(self, object: int, offset: int, count: int, timeout: Optional[float]) -> tuple[int, bytes]:
        if count > BYTES:
            raise TooLong()
        wanted = _fits(object, 16), _fits(offset, 32), _fits(count, 32)
        buffer, raw = ctypes.create_string_buffer(count), RawResult()
        with self._space._lock:
            at, wait = self._handle(), self._wait(timeout)
            _check(_LIBRARY.markring_remote_read_bytes(at, *wanted, buffer, byref(raw), wait))
        errors.check(raw.status)
        return raw.answer.number, buffer.raw

    def wait(self, timeout: Optional[float] = None) -> int:
        """Waits until a letter waits at the node, and returns how many do. Another program may accept them first."""
        letters = c_uint64()
        with self._space._lock:
            _check(_LIBRARY.markring_remote_wait(self._handle(), byref(letters), self._wait(timeout)))
        return letters.value

    def track_freed(self, timeout: Optional[float] = None) -> bool:
        """Has the node list for the program what it frees from now on, for `freed`. If it does so already, nothing changes.

        Returns whether the list is new: what was freed before isn't in it, so compare a table from before with `objects`.
        """
        since, is_new = RawSince(), c_uint8()
        with self._space._lock:
            at, wait = self._handle(), self._wait(timeout)
            _check(_LIBRARY.markring_remote_track_freed(at, byref(since), byref(is_new), wait))
        self.since = Since(since.list, since.number)
        return bool(is_new.value)

    def freed(self, most: int = FREED, timeout: Optional[float] = None) -> list[Gone]:
        """Objects that were freed behind the place `since`, for good and in the order in which they were; none if there are
        no more yet. `since` moves behind them. The next call says to the node that the program has them: so after a failure
        it returns the same ones. `since` may be stored with what the program keeps, and set in its next process.

        After `Lost`, call `track_freed`, and compare what the program keeps with `objects`.
        """
        room = min(_fits(most, 63), FREED)
        raw, count, since = (RawFreed * room)(), c_size_t(), _raw_since(self.since)
        with self._space._lock:
            at, wait = self._handle(), self._wait(timeout)
            _check(_LIBRARY.markring_remote_freed(at, byref(since), raw, room, byref(count), wait))
        gone = [Gone(Ref(*it[:3]), it[3]) for it in _read(raw, count.value, _FREED)]
        self.since = Since(since.list, since.number)
        return gone

    def objects(self, most: int = OBJECTS, timeout: Optional[float] = None) -> Iterator[Object]:
        """The objects of the node, in the order of their slots, also those that no register refers to.

        It asks for up to `most` at a time. An object that is made or freed meanwhile may be left out.
        """
        room = min(_fits(most, 63), OBJECTS)
        raw, slot, count, is_over = (RawObject * room)(), c_uint32(), c_size_t(), c_uint8(not room)
        while not is_over.value:
            with self._space._lock:
                at, wait = self._handle(), self._wait(timeout)
                words = byref(slot), raw, room, byref(count), byref(is_over), wait
                _check(_LIBRARY.markring_remote_objects(at, *words))
            for it in _read(raw, count.value, _OBJECT):
                yield Object(Ref(*it[:3]), it[3], it[5], it[4], bool(it[6]), bool(it[7]), _AGES[it[8]])

    def places(self, reference: Ref, timeout: Optional[float] = None) -> list[Optional[Ref]]:
        """What the places of an object of the node hold. Raises `NoField` if it is gone."""
        raw, count, status, of = (RawRef * 255)(), c_size_t(), c_int(), _raw_reference(reference)
        with self._space._lock:
            at, wait = self._handle(), self._wait(timeout)
            _check(_LIBRARY.markring_remote_places(at, byref(of), raw, byref(count), byref(status), wait))
        errors.check(status.value)
        return [_reference(it) for it in raw[: count.value]]

    def _results(self, raw: Any, count: int) -> list[Result]:
        # What the events of the last request gave. (A letter of which the node kept no bytes has none here.)
        return [self._result(index, it) for index, it in enumerate(raw[:count])]

    def _result(self, index: int, raw: RawResult) -> Result:
        value = _value(raw.answer) if raw.status == 0 else None
        if isinstance(value, Letter):
            at, length = POINTER(c_uint8)(), c_size_t()
            if not _LIBRARY.markring_remote_letter_bytes(self._at, index, byref(at), byref(length)):
                return Result(raw.status, (value, ctypes.string_at(at, length.value)))
        return Result(raw.status, value)

    def _handle(self) -> c_void_p:
        self._space._handle()
        if not self._at:
            raise Closed()
        return self._at

    def _wait(self, timeout: Optional[float]) -> int:
        return _milliseconds(self.timeout if timeout is None else timeout)

    def _one(self, event: Event) -> Any:
        return self.perform([event])[0].get()

    def alloc(self, register: int, places: int) -> Ref:
        """Makes a new object with this many empty places. The register gets its reference."""
        return self._one(alloc(register, places))

    def copy(self, register: int, source: int) -> None:
        """The register gets the reference in `source`."""
        self._one(copy(register, source))

    def drop(self, register: int) -> None:
        """Empties the register."""
        self._one(drop(register))

    def load(self, register: int, object: int, place: int) -> Optional[Ref]:
        """The register gets the content of the object's place, which is returned."""
        return self._one(load(register, object, place))

    def store(self, object: int, place: int, register: int) -> None:
        """The object's place gets the register's reference."""
        self._one(store(object, place, register))

    def clear(self, object: int, place: int) -> None:
        """Empties the object's place."""
        self._one(clear(object, place))

    def word(self, object: int) -> int:
        """The object's word."""
        return self._one(word(object))

    def set_word(self, object: int, word: int) -> None:
        """The object gets the word."""
        self._one(set_word(object, word))

    def set_bytes(self, object: int, data: bytes) -> None:
        """The object gets these bytes in place of its own."""
        self._one(set_bytes(object, data))

    def patch(self, object: int, offset: int, data: bytes) -> None:
        """Overwrites bytes of the object, from `offset` on. It makes them no longer."""
        self._one(patch(object, offset, data))

    def give(self, to: int, label: int, register: int) -> int:
        """Sends a letter with the label and the register's content. Returns the message's number."""
        return self._one(give(to, label, register))

    def accept(self, register: int) -> Letter:
        """Removes the oldest letter that waits. The register gets its content."""
        return self._one(accept(register))

    def post(self, to: int, label: int, first: int = 0, count: int = 0, data: bytes = b"") -> int:
        """Sends a letter with the label, the contents of `count` registers from `first` on, and these bytes, in a wide
        space. Returns the message's number."""
        return self._one(post(to, label, first, count, data))

    def accept_with_bytes(self, register: int, room: int = LETTER) -> tuple[Letter, bytes]:
        """Accepts the oldest letter as `accept` does, and returns its bytes, too."""
        return self._one(accept_with_bytes(register, room))

    def fetch(self, object: int, label: int, offset: int = 0, count: int = 0) -> int:
        """Asks the owner of another node's object, in a wide space, for its word and `count` of its bytes from `offset`
        on. They come in a letter. Returns the message's number."""
        return self._one(fetch(object, label, offset, count))

    def put(self, object: int, place: int, register: int) -> int:
        """Asks the owner of another node's object to put the register's content into the object's place."""
        return self._one(put(object, place, register))

    def get(self, object: int, place: int, label: int) -> int:
        """Asks the owner of another node's object for the content of the object's place. It comes in a letter."""
        return self._one(get(object, place, label))

    def resolve(self, register: int, reference: Ref) -> None:
        """The register gets a reference to an object of the node that the program kept in a table of its own. Raises `NoField`
        if the object is gone, and `NotNow` if the node marks and hasn't reached it: resolve it again later."""
        self._one(resolve(register, reference))

    def close(self) -> None:
        """Frees the program. The node isn't told."""
        with self._space._lock:
            self._free()

    def _free(self) -> None:
        at, self._at = self._at, c_void_p()
        _LIBRARY.markring_remote_close(at)

    def __enter__(self) -> Program:
        return self

    def __exit__(
        self,
        kind: Optional[type[BaseException]],
        error: Optional[BaseException],
        trace: Optional[TracebackType],
    ) -> None:
        self.close()


class WeakTable(weak.Table):
    """A table whose entries go with the objects of a program's node: `poll` removes those of what was freed.

    (A program has one list of what was freed: another table of it wouldn't hear of these objects.)
    """

    def __init__(self, program: Program, on_freed: Optional[weak.Freed] = None) -> None:
        super().__init__(on_freed)
        program.track_freed()
        self._program, self._is_lost = program, False

    def poll(self) -> int:
        """Removes the entries of the objects that are freed for good, in the order in which they were.

        Returns how many. If the node's list is lost, it compares the table with the node's objects: then the word is 0.
        After a failure, the next call goes on.
        """
        count, gone = 0, [Gone(Ref(0, 0, 0), 0)]
        while gone and not self._is_lost:
            since = self._program.since
            try:
                gone = self._program.freed()
                count += self._leave(gone)
            except Lost:
                self._is_lost = True
            except BaseException:
                self._program.since = since
                raise
        return count + self.prune() if self._is_lost else count

    def prune(self) -> int:
        """Removes the entries of the objects that the node doesn't have, by their references, with the word 0.

        Returns how many. For a table that is older than the program's list.
        """
        self._program.track_freed()
        before = list(self._entries)
        count = self._leave_missing(before, {it.reference for it in self._program.objects()})
        self._is_lost = False
        return count
