"""Nodes with all that runs them, except for how their packets travel: `markring_host.h`, in Python.

It is what `markring-node` is made of, for programs that have their own loop and transport:

    host = Host.open("folder", send)
    while host.ended is None:
        for sender, packet in receive(host.wait()):
            host.packet(sender, packet)
        host.turn()

A host keeps its node in a folder, safe against crashes, or in a PostgreSQL database, whose address
`postgresql://USER@HOST/DATABASE#SPACE/NODE` takes the folder's place (as a `str`; libpq is loaded then). It decides what is
sent when, collects, and answers requests of `markring.remote`. `send(to, packet)` sends a packet, which may be lost. An
example is `examples/host/pair.py`.

While the database can't be reached, a turn waits for it. An exception meanwhile, as of a signal, ends the wait, and the
host if a save was under way.

The library is the file that the variable MARKRING_HOST_LIBRARY names. Without that variable it is `libmarkring-host.so`,
found as the package finds `libmarkring.so`. A host has a lock, so any thread may use it. Times are in seconds.
"""
from __future__ import annotations

import ctypes
import os
import threading
import time
from contextlib import contextmanager
from ctypes import CFUNCTYPE, POINTER, byref, c_bool, c_char, c_char_p, c_int, c_size_t, c_uint8, c_uint16, c_uint32
from ctypes import c_uint64, c_void_p
from enum import IntEnum
from types import TracebackType
from typing import Any, Callable, Iterator, NamedTuple, NoReturn, Optional, Union

from . import _library as c
from . import errors
from ._space import Shape, _Events

NAME = "libmarkring-host.so"
# Packets and requests that one turn should take, at most.
TAKES = 512
# Bytes of the address for an answer, at most.
REPLY = 127
_ID, _LETTERS = 8, 32
Path = Union[str, "os.PathLike[str]"]
Send = Callable[[int, bytes], None]
Answer = Callable[[str, bytes], None]


class FolderError(Exception):
    """A folder or a database can't be used."""

    status, text = 0, "the folder can't be used"

    def __init__(self, text: str = "") -> None:
        super().__init__(text or self.text)


class OutOfMemory(FolderError, MemoryError):
    """An allocation failed."""

    status, text = 1, "an allocation failed"


class Absent(FolderError):
    """There is no such folder, or no node in it or in the database."""

    status, text = 2, "there is no such folder, or no node in it"


class Exists(FolderError):
    """There is such a node already."""

    status, text = 3, "the folder has a node already"


class Locked(FolderError):
    """Another process has the folder, or is at work on the row of the database."""

    status, text = 4, "another process has the folder"


class Damaged(FolderError):
    """What was saved last isn't whole, or has changed since."""

    status, text = 5, "what was saved last is damaged"


class Stale(FolderError):
    """Memory has what the disk hasn't, since a sync failed before. The same may be tried again."""

    status, text = 6, "memory has what the disk hasn't"


class Failed(FolderError):
    """A call of the system failed: `cause` is its errno. Or the database refused. The same may be tried again."""

    status, text = 7, "a call of the system failed"
    cause = 0


class Unknown(FolderError):
    """A sync failed: nobody knows what is on the disk. `cause` is the errno."""

    status, text = 8, "a sync failed"
    cause = 0


class DatabaseError(FolderError):
    """A database can't be used, for a reason that folders don't have."""


class BadAddress(DatabaseError):
    """The address can't be read, or doesn't say which node."""

    status, text = 10, "the address can't be used"


class PasswordShown(DatabaseError):
    """There is a password in the address: write it to a file that PGPASSFILE names."""

    status, text = 11, "there is a password in the address"


class NoLibrary(DatabaseError):
    """PostgreSQL's client library can't be loaded."""

    status, text = 12, "there is no libpq"


class Away(DatabaseError):
    """No server takes a connection now. The same may be tried again."""

    status, text = 13, "no server takes a connection"


class Denied(DatabaseError):
    """The server refuses this user, this database, or what it is asked for."""

    status, text = 14, "the server refuses this user or this database"


class NoSchema(DatabaseError):
    """There is no schema: `make_schema` makes it."""

    status, text = 15, "there is no schema"


class EarlierSchema(DatabaseError):
    """The schema is of an earlier version."""

    status, text = 16, "the schema is of an earlier version"


class LaterSchema(DatabaseError):
    """The schema is of a later version."""

    status, text = 17, "the schema is of a later version"


class ReadOnly(DatabaseError):
    """The server takes no changes: it is a standby, or read-only."""

    status, text = 18, "the server takes no changes"


class Forgetful(DatabaseError):
    """The server forgets what it has committed: synchronous_commit is off."""

    status, text = 19, "the server forgets what it has committed"


class Full(DatabaseError):
    """The server's disk is full."""

    status, text = 20, "the server's disk is full"


class OtherNode(DatabaseError):
    """What is there is another node, or one of another space, than the address names."""

    status, text = 21, "this is another node"


class Missing(DatabaseError):
    """Pieces of the node that have to be there aren't."""

    status, text = 22, "pieces of the node are missing"


_ERRORS = {it.status: it for it in [*FolderError.__subclasses__(), *DatabaseError.__subclasses__()]}
_TAKEN = 9


class End(IntEnum):
    """Why a host has ended."""

    # It was asked to leave, and all is saved.
    LEFT = 1
    # The folder is older than what other nodes have seen of this node, or is used twice; or another process has taken over.
    OLDER = 2
    # A sync failed, or a save in a database was given up: nobody knows what is there.
    UNSURE = 3
    # The node's image is too large to be saved.
    TOO_LARGE = 4
    # The library answered what it never answers.
    BROKEN = 5


class Identity(NamedTuple):
    """What a node is, from its creation on: the space's name, of up to 32 letters, digits, `-` and `_`; the space's id, 8
    random bytes that all its nodes share; the node's number; and the space's shape. `limit` bounds the unacknowledged
    messages of programs to another node, `byte_limit` the bytes of letters to it; 0 for no bound."""

    name: str
    space: bytes
    own: int
    shape: Shape
    limit: int = 0
    byte_limit: int = 0


class Options(NamedTuple):
    """When a node collects, and what it refuses.

    Node 0 begins a cycle `cycle_every` seconds after the last one, and when there are twice as many objects as after that,
    and at least `cycle_objects`. A node reclaims when `reclaim_objects` were made since the last time. 0 is never. `limit`
    and `byte_limit` take the place of the folder's, unless they are None. `trusts_folder`: the folder is the newest one,
    whatever other nodes say.
    """

    cycle_every: float = 0.0
    cycle_objects: int = 0
    reclaim_objects: int = 0
    limit: Optional[int] = None
    byte_limit: Optional[int] = None
    trusts_folder: bool = False


class RawShape(ctypes.Structure):
    _fields_ = [
        ("name", c_char * (_LETTERS + 1)),
        ("space", c_uint8 * _ID),
        ("own", c_uint8),
        ("nodes", c_uint8),
        ("registers", c_uint16),
        ("slots", c_uint32),
        ("limit", c_uint64),
        ("byte_limit", c_uint64),
        ("wide", c_bool),
        ("places", c_uint8),
        ("bytes", c_uint32),
    ]


class RawOptions(ctypes.Structure):
    _fields_ = [
        ("cycle_every", c_uint64),
        ("cycle_objects", c_uint32),
        ("reclaim_objects", c_uint32),
        ("letters_most", c_uint64),
        ("letter_bytes_most", c_size_t),
        ("image_most", c_size_t),
        ("image_tight", c_size_t),
        ("entries_least", c_size_t),
        ("trusts_folder", c_bool),
        ("has_limit", c_bool),
        ("has_byte_limit", c_bool),
        ("limit", c_uint64),
        ("byte_limit", c_uint64),
    ]


class RawValue(ctypes.Structure):
    _fields_ = [
        ("buffer", c_void_p),
        ("length", c_size_t),
        ("room", c_size_t),
        ("is_entry", c_bool),
        ("end", c_size_t),
        ("whole", c_int),
    ]


_PAUSE = CFUNCTYPE(c_bool, c_void_p, c_uint64)
_NOTE = CFUNCTYPE(None, c_void_p, c_bool)


class RawPlaceEvents(ctypes.Structure):
    _fields_ = [("context", c_void_p), ("pause", _PAUSE), ("note", _NOTE)]


_SEND = CFUNCTYPE(None, c_void_p, c_uint8, POINTER(c_uint8), c_size_t)
_ANSWER = CFUNCTYPE(None, c_void_p, c_char_p, POINTER(c_uint8), c_size_t)
_SAVE = CFUNCTYPE(None, c_void_p, POINTER(RawValue))


class RawCalls(ctypes.Structure):
    # (without `rewrite`, the host makes whole values itself)
    _fields_ = [("context", c_void_p), ("send", _SEND), ("answer", _ANSWER), ("save", _SAVE), ("rewrite", c_void_p)]


_COUNTS = (
    "packets_in", "packets_out", "frames_in", "frames_out", "bytes_out", "saves", "failed_saves", "requests",
    "repeated_requests", "refused_requests", "foreign", "malformed", "outdated", "repeats", "resends", "full", "dropped",
    "freed", "reclaimed",
)


class RawCounts(ctypes.Structure):
    _fields_ = [(it, c_uint64) for it in _COUNTS]


def _load() -> ctypes.CDLL:
    library = c.open_library(ctypes.CDLL, NAME, "MARKRING_HOST_LIBRARY", "libmarkring1")
    at, value = c_void_p, POINTER(RawValue)
    calls: dict[str, tuple[Any, ...]] = {
        "place_is_database": (c_bool, c_char_p),
        "place_create": (c_int, POINTER(at), c_char_p, value),
        "place_open": (c_int, POINTER(at), c_char_p, value),
        "place_make_schema": (c_int, POINTER(at), c_char_p),
        "place_listen": (None, at, POINTER(RawPlaceEvents)),
        "place_save": (c_int, at, value),
        "place_renew": (c_int, at),
        "place_wait": (c_uint64, at),
        "place_serves": (c_bool, at),
        "place_number": (c_uint64, at),
        "place_warning": (c_char_p, at),
        "place_text": (c_char_p, at),
        "place_cause": (c_int, at),
        "place_close": (None, at),
        "host_create": (c_int, POINTER(RawShape), value),
        "host_open": (
            c_int, POINTER(at), value, c_uint64, c_uint64, POINTER(RawOptions), POINTER(RawCalls), c_uint64
        ),
        "host_free": (None, at),
        "host_packet": (None, at, c_uint64, c_uint8, c_char_p, c_size_t),
        "host_request": (None, at, c_uint64, c_char_p, c_size_t, c_char_p),
        "host_control": (None, at, c_uint64, c_char_p, c_size_t, c_char_p),
        "host_turn": (None, at, c_uint64),
        "host_saved": (None, at, c_uint64, c_int, c_uint64),
        "host_wait": (c_uint64, at, c_uint64),
        "host_connected": (None, at, c_uint64),
        "host_taken": (None, at),
        "host_unreachable": (None, at, c_uint64, c_bool),
        "host_leave": (None, at),
        "host_ended": (c_int, at),
        "host_reason": (c_char_p, at),
        "host_counted": (POINTER(RawCounts), at),
        "host_node": (POINTER(c.Handle), at),
        "host_wrote": (None, at, c_size_t),
    }
    for name, (result, *words) in calls.items():
        call = c.function(library, f"markring_{name}")
        call.argtypes, call.restype = words, result
    return library


_LIBRARY = _load()
_FREE = ctypes.CDLL(None).free
_FREE.argtypes, _FREE.restype = (c_void_p,), None
# What changes nothing of a node.
_READINGS = frozenset(
    "word bytes_length bytes letter letter_bytes state link register slots object place bytes_at unsaved image_size".split()
)


def _error(status: int, at: Any, is_database: bool) -> FolderError:
    """Why a place can't be used."""
    kind = _ERRORS.get(status, FolderError)
    if is_database:
        return kind(_LIBRARY.markring_place_text(at).decode(errors="replace"))
    error = kind()
    if isinstance(error, (Failed, Unknown)):
        error.cause = _LIBRARY.markring_place_cause(at)
        error.args = (f"{error.text}: {os.strerror(error.cause)}",)
    return error


def _fill(raw: ctypes.Structure, **fields: int) -> None:
    # Otherwise ctypes would cut off what a number has too much.
    for name, number in fields.items():
        setattr(raw, name, number)
        if getattr(raw, name) != number:
            raise errors.BadArgument()


def _raw_shape(it: Identity) -> RawShape:
    raw, name = RawShape(), it.name.encode()
    if not 0 < len(name) <= _LETTERS or not all(bytes([byte]).isalnum() or byte in b"-_" for byte in name):
        raise errors.BadArgument()
    if len(it.space) != _ID:
        raise errors.BadArgument()
    raw.name, raw.space = name, (c_uint8 * _ID)(*it.space)
    shape = it.shape
    _fill(raw, own=it.own, nodes=shape.nodes, registers=shape.registers, slots=shape.slots, limit=it.limit)
    _fill(raw, byte_limit=it.byte_limit, wide=shape.is_wide, places=shape.places, bytes=shape.bytes)
    return raw


def _raw_options(it: Options) -> RawOptions:
    raw = RawOptions()
    _fill(raw, cycle_every=int(it.cycle_every * 1000), cycle_objects=it.cycle_objects, reclaim_objects=it.reclaim_objects)
    _fill(raw, trusts_folder=it.trusts_folder, has_limit=it.limit is not None, limit=it.limit or 0)
    _fill(raw, has_byte_limit=it.byte_limit is not None, byte_limit=it.byte_limit or 0)
    return raw


class LinkedNode(_Events):
    """The node of a host, for programs that are linked to it. What an event did is durable once it was saved, which a later
    turn does."""

    _kind = "node"

    def __init__(self, host: Host, at: c.Handle) -> None:
        self._host, self._at = host, at

    def _status(self, name: str, *words: Any) -> int:
        with self._host._used() as at:
            status = super()._status(name, *words)
            if status == 0 and name not in _READINGS:
                _LIBRARY.markring_host_wrote(at, sum(len(it) for it in words if isinstance(it, bytes)))
        return status

    def close(self) -> None:
        """Does nothing: the node is the host's."""

    def image(self) -> NoReturn:
        """The host takes the images of its node."""
        raise TypeError("the host takes the images of its node")


class Host:
    """A node with all that runs it. What isn't saved when it is closed is lost: see `leave`."""

    def __init__(
        self,
        open_place: Callable[[RawValue], Any],
        send: Send,
        answer: Optional[Answer],
        options: Options,
    ) -> None:
        self._lock, self._is_busy = threading.RLock(), False
        self._at, self._place, self._raised = c_void_p(), c_void_p(), None  # type: Any, Any, Any
        self._send, self._answer = send, answer
        # (the library keeps the functions, so this object does)
        self._calls = RawCalls(None, _SEND(self._on_send), _ANSWER(self._on_answer), _SAVE(self._on_save))
        self._events = RawPlaceEvents(None, _PAUSE(self._on_pause), _NOTE(self._on_note))
        raw, value = _raw_options(options), RawValue()
        try:
            self._place = open_place(value)
            self._open(raw, value)
        finally:
            _FREE(value.buffer)

    @classmethod
    def create(
        cls, folder: Path, identity: Identity, send: Send, answer: Optional[Answer] = None, options: Options = Options()
    ) -> Host:
        """Makes a new node in a new folder or in a database, and runs it. An address may leave out which node."""
        raw = _raw_shape(identity)

        def create_place(value: RawValue) -> Any:
            errors.check(_LIBRARY.markring_host_create(byref(raw), byref(value)))
            return _use_place(_LIBRARY.markring_place_create, folder, byref(value))

        return cls(create_place, send, answer, options)

    @classmethod
    def open(cls, folder: Path, send: Send, answer: Optional[Answer] = None, options: Options = Options()) -> Host:
        """Runs the node that a folder or a database has, from its last save on. One in a database is taken over."""

        def open_place(value: RawValue) -> Any:
            return _use_place(_LIBRARY.markring_place_open, folder, byref(value))

        return cls(open_place, send, answer, options)

    def _open(self, options: RawOptions, value: RawValue) -> None:
        nonce = int.from_bytes(os.urandom(8), "big") | 1
        words = _LIBRARY.markring_place_number(self._place), nonce, byref(options), byref(self._calls), _now()
        status = _LIBRARY.markring_host_open(byref(self._at), byref(value), *words)
        if status:
            _LIBRARY.markring_place_close(self._place)
        errors.check(status)
        _LIBRARY.markring_place_listen(self._place, byref(self._events))
        self.node = LinkedNode(self, _LIBRARY.markring_host_node(self._at).contents)

    # What the library calls. An exception doesn't cross it: the call that led to it raises it.

    def _guard(self, act: Callable[..., None], *words: Any) -> None:
        if self._raised is None:
            try:
                act(*words)
            except BaseException as error:
                self._raised = error

    def _on_send(self, _: Any, to: int, data: Any, length: int) -> None:
        self._guard(self._send, to, ctypes.string_at(data, length))

    def _on_answer(self, _: Any, reply: bytes, data: Any, length: int) -> None:
        if self._answer is not None:
            self._guard(self._answer, reply.decode(errors="replace"), ctypes.string_at(data, length))

    def _on_save(self, _: Any, value: Any) -> None:
        status = _LIBRARY.markring_place_save(self._place, value)
        _LIBRARY.markring_host_saved(self._at, _now(), status, _LIBRARY.markring_place_number(self._place))

    def _on_pause(self, _: Any, milliseconds: int) -> bool:
        try:
            time.sleep(milliseconds / 1000)
        except BaseException as error:
            self._raised = self._raised or error
            return False
        return True

    def _on_note(self, _: Any, is_lost: bool) -> None:
        _LIBRARY.markring_host_unreachable(self._at, _now(), is_lost)

    @contextmanager
    def _used(self) -> Iterator[Any]:
        """The host, for one call. A function that it calls can't use it."""
        with self._lock:
            if not self._at:
                raise errors.NoHandle()
            if self._is_busy:
                raise RuntimeError("the host is in a call")
            self._is_busy = True
            try:
                yield self._at
            finally:
                self._is_busy = False
                raised, self._raised = self._raised, None
            if raised is not None:
                raise raised

    def _call(self, name: str, *words: Any) -> Any:
        with self._used() as at:
            return getattr(_LIBRARY, f"markring_host_{name}")(at, *words)

    def packet(self, sender: int, packet: bytes) -> None:
        """A packet came, from the node that the transport names as its sender."""
        if not 0 <= sender < 256:
            raise errors.BadArgument()
        data = bytes(packet)
        self._call("packet", _now(), sender, data, len(data))

    def request(self, request: bytes, reply: str) -> None:
        """A request of a program came. The answer goes to `reply`, once all that it shows is stored. It is dropped while
        another process could serve the programs of a node in a database."""
        data, address = bytes(request), _address(reply)
        with self._used() as at:
            if _LIBRARY.markring_place_serves(self._place):
                _LIBRARY.markring_host_request(at, _now(), data, len(data), address)

    def control(self, word: str, reply: str) -> None:
        """A word of the operator came: `status`, `begin` or `stop`. The answer is JSON."""
        data = word.encode()
        self._call("control", _now(), data, len(data), _address(reply))

    def turn(self) -> None:
        """Collects, saves if a save is due, answers programs and sends packets. In a database, it also shows each second
        that this process has the node."""
        with self._used() as at:
            if _LIBRARY.markring_place_renew(self._place) == _TAKEN:
                _LIBRARY.markring_host_taken(at)
            if self._raised is None:
                _LIBRARY.markring_host_turn(at, _now())

    def wait(self) -> float:
        """How long the next turn may wait, if nothing comes."""
        with self._used() as at:
            return min(_LIBRARY.markring_host_wait(at, _now()), _LIBRARY.markring_place_wait(self._place)) / 1000

    def warning(self) -> Optional[str]:
        """What an operator should know of the settings of the database's server, if anything."""
        with self._used():
            text = _LIBRARY.markring_place_warning(self._place)
        return text.decode() if text else None

    def connected(self) -> None:
        """The transport has a connection again after it had none: what isn't acknowledged is sent again."""
        self._call("connected", _now())

    def leave(self) -> None:
        """Asks the host to save all and to leave. Take turns until `ended` says that it has."""
        self._call("leave")

    @property
    def ended(self) -> Optional[End]:
        """Why the host has ended, if it has. No call does anything any more then."""
        end = self._call("ended")
        return End(end) if end else None

    @property
    def reason(self) -> str:
        """The same in words for an operator."""
        return self._call("reason").decode(errors="replace")

    def counts(self) -> dict[str, int]:
        """What the host has counted since it was opened."""
        with self._used() as at:
            raw = _LIBRARY.markring_host_counted(at).contents
            return {it: getattr(raw, it) for it in _COUNTS}

    def close(self) -> None:
        """Frees the node and its place. Later calls raise `NoHandle`; closing again does nothing."""
        with self._lock:
            if self._is_busy:
                raise RuntimeError("the host is in a call")
            at, self._at = self._at, c_void_p()
            if at:
                _LIBRARY.markring_host_free(at)
                _LIBRARY.markring_place_close(self._place)

    def __enter__(self) -> Host:
        return self

    def __exit__(
        self,
        kind: Optional[type[BaseException]],
        error: Optional[BaseException],
        trace: Optional[TracebackType],
    ) -> None:
        self.close()

    def __del__(self) -> None:
        if getattr(self, "_at", None):
            self.close()


def _now() -> int:
    return int(time.monotonic() * 1000)


def make_schema(address: str) -> None:
    """Makes the schema for nodes in a database, `postgresql://USER@HOST/DATABASE`, unless it has one of this version."""
    _LIBRARY.markring_place_close(_use_place(_LIBRARY.markring_place_make_schema, address))


def _use_place(call: Any, where: Path, *words: Any) -> Any:
    path, at = os.fsencode(where), c_void_p()
    if b"\0" in path:
        raise errors.BadArgument()
    status = call(byref(at), path, *words)
    if status:
        is_database = _LIBRARY.markring_place_is_database(path) or call is _LIBRARY.markring_place_make_schema
        error = _error(status, at, is_database)
        _LIBRARY.markring_place_close(at)
        raise error
    return at


def _address(reply: str) -> bytes:
    data = reply.encode()
    if len(data) > REPLY or b"\0" in data:
        raise errors.BadArgument()
    return data
