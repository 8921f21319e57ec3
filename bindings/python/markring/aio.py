"""Programs of nodes in processes, for asyncio: each request can be awaited.

    async with aio.Space("nats://127.0.0.1:4222", "example") as space:
        async with await space.program(node=0, number=0) as program:
            await program.alloc(0, places=1)
            one = program.perform([remote.give(to=1, label=7, register=0)])
            other = program.registers([0, 1])
            print(await one, await other)

A call sends its request at once, and returns a future of the answer. So a program's requests are performed in the order of the
calls, each once, and answered in that order; those of other programs are under way at the same time. At most UNDER_WAY of
a program may be, or `TooMany` is raised. The answer to a future that was cancelled is dropped, but the request is performed.

Events and failures are those of `markring.remote`. After TimedOut, NoCarrier and Confused of a request with events, it
stays under way, and those behind it wait: `finish` asks for its answer again. A space is for one event loop.
"""
from __future__ import annotations

import asyncio
import ctypes
import struct
from collections import deque
from ctypes import byref, c_uint16, c_uint64, c_void_p
from dataclasses import dataclass
from functools import partial
from types import TracebackType
from typing import Any, AsyncIterator, Awaitable, Callable, Iterator, Optional

from . import errors, remote, weak
from ._space import Gone, Letter, Object, Ref
from .remote import BYTES, EVENTS, FREED, LETTER, OBJECTS, SECONDS, Event, Facts, Result, Since

# Requests of a program under way, at most.
UNDER_WAY = 64

_LIBRARY = remote._LIBRARY
_PENDING = 11
# What follows the result of an answer: objects that were freed, objects, and contents of places.
_GONE, _OBJECT, _PLACE = struct.Struct(">BIQQ"), struct.Struct(">BIQQIBBBB"), struct.Struct(">BIQ")


@dataclass
class _Request:
    """A request under way: who awaits it, and what becomes of its answer."""

    future: asyncio.Future[Any]
    read: Callable[[remote.RawPolled], Any]


def _settle(future: asyncio.Future[Any], read: Callable[[], Any]) -> None:
    """Gives a future its result or its exception, unless it was cancelled."""
    if future.done():
        return
    try:
        future.set_result(read())
    except Exception as error:
        future.set_exception(error)


class Space:
    """A connection to the server of a space. A server that can't be reached is tried again and again."""

    def __init__(
        self,
        url: str,
        name: str,
        ca: Optional[str] = None,
        certificate: Optional[str] = None,
        key: Optional[str] = None,
        credentials: Optional[str] = None,
    ) -> None:
        self.name = name
        self._connect = partial(remote.Space, url, name, ca, certificate, key, credentials)
        self._space: Optional[remote.Space] = None
        self._programs: set[Program] = set()
        self._calls: set[asyncio.Future[Any]] = set()

    async def connect(self) -> Space:
        """Connects. `async with` does so, too."""
        if self._space is None:
            self._loop = asyncio.get_running_loop()
            self._space = await self._loop.run_in_executor(None, self._connect)
            self._descriptor = _LIBRARY.markring_remote_fd(self._space._at)
            self._loop.add_reader(self._descriptor, self._take)
        return self

    async def program(
        self, node: int, number: int, timeout: float = SECONDS, registers: Optional[range] = None
    ) -> Program:
        """Begins to speak for a program of a node, as `remote.Space.program` does."""
        opening = self._in_thread(_open, self._connected(), node, number, timeout, registers)
        try:
            opened, last = await asyncio.shield(opening)
        except asyncio.CancelledError:
            opening.add_done_callback(_free_opened)
            raise
        self._connected()
        return Program(self, opened, last, timeout)

    async def ask(self, node: int, word: str, timeout: float = SECONDS) -> Any:
        """Says a word of the operator to a node, as `remote.Space.ask` does."""
        return await asyncio.shield(self._in_thread(self._connected().ask, node, word, timeout))

    async def close(self) -> None:
        """Closes the programs, and ends the connection."""
        space, self._space = self._space, None
        if space is None:
            return
        self._loop.remove_reader(self._descriptor)
        if self._calls:
            await asyncio.wait(self._calls)
        for program in list(self._programs):
            program.close()
        await self._loop.run_in_executor(None, space.close)

    def _connected(self) -> remote.Space:
        if self._space is None:
            raise remote.Closed()
        return self._space

    def _in_thread(self, call: Callable[..., Any], *words: Any) -> asyncio.Future[Any]:
        # A call that waits. It goes on if nobody awaits it any more.
        future = self._loop.run_in_executor(None, partial(call, *words))
        self._calls.add(future)
        future.add_done_callback(self._calls.discard)
        return future

    def _take(self) -> None:
        for program in list(self._programs):
            program._take()

    async def __aenter__(self) -> Space:
        return await self.connect()

    async def __aexit__(
        self,
        kind: Optional[type[BaseException]],
        error: Optional[BaseException],
        trace: Optional[TracebackType],
    ) -> None:
        await self.close()


def _open(*words: Any) -> tuple[remote.Program, list[Result]]:
    program = remote.Program(*words)
    return program, program.last()


def _free_opened(opening: asyncio.Future[Any]) -> None:
    if not opening.cancelled() and opening.exception() is None:
        opening.result()[0]._free()


class Program:
    """A program of a node. `Space.program` opens it."""

    def __init__(self, space: Space, opened: remote.Program, last: list[Result], timeout: float) -> None:
        self._space, self._opened, self._loop = space, opened, space._loop
        self._queue: deque[_Request] = deque()
        self._waiting: Optional[asyncio.Future[int]] = None
        self._last = last
        self.since: Optional[Since] = None
        self.facts: Facts = opened.facts
        self.timeout = timeout
        space._programs.add(self)

    def last(self) -> list[Result]:
        """The results of the program's last request that was performed before it was opened."""
        return self._last

    def perform(self, events: list[Event], timeout: Optional[float] = None) -> Awaitable[list[Result]]:
        """Performs events, in order, up to the first one that is refused."""
        return self._perform(events, timeout, self._results)

    def finish(self, timeout: Optional[float] = None) -> Awaitable[list[Result]]:
        """Asks again for the answer to the oldest request, which has failed. It is performed once."""
        self._check_open()
        if not self._queue or not self._queue[0].future.done():
            raise remote.BadRequest()
        remote._check(_LIBRARY.markring_remote_resume(self._at, self._wait(timeout)))
        self._queue[0] = _Request(self._loop.create_future(), self._results)
        return self._queue[0].future

    def registers(self, numbers: list[int], timeout: Optional[float] = None) -> Awaitable[list[Optional[Ref]]]:
        """What registers hold, after the requests before."""
        if len(numbers) > EVENTS:
            raise remote.BadRequest()
        given = (c_uint16 * len(numbers))(*(remote._fits(it, 16) for it in numbers))
        return self._send("send_read", given, len(numbers), timeout=timeout, read=self._references)

    async def read_bytes(
        self, object: int, offset: int = 0, count: Optional[int] = None, timeout: Optional[float] = None
    ) -> bytes:
        """The object's bytes from `offset` on: `count` of them, or all. Raises `NoBytes` if it hasn't that many."""
        if count is None:
            count = max(await self.bytes_len(object, timeout) - offset, 0)
        return (await self._read(object, offset, count, timeout))[1]

    async def bytes_len(self, object: int, timeout: Optional[float] = None) -> int:
        """How many bytes the object has."""
        return (await self._read(object, 0, 0, timeout))[0]

    def wait(self, timeout: Optional[float] = None) -> Awaitable[int]:
        """Waits until a letter waits at the node, and says how many do. Other requests don't wait for it. Another one
        at the same time raises `Unfinished`."""
        self._check_open()
        remote._check(_LIBRARY.markring_remote_send_wait(self._at, self._wait(timeout)))
        self._waiting = self._loop.create_future()
        return self._waiting

    def track_freed(self, timeout: Optional[float] = None) -> Awaitable[bool]:
        """Has the node list for the program what it frees from now on, for `freed`. If it does so already, nothing changes.

        The result is whether the list is new: what was freed before isn't in it, so compare a table from before with
        `objects`.
        """
        return self._send("send_track_freed", timeout=timeout, read=self._tracked)

    def freed(self, most: int = FREED, timeout: Optional[float] = None) -> Awaitable[list[Gone]]:
        """Objects that were freed behind the place `since`, as `remote.Program.freed`. `since` moves with the answer, so await
        one such call before the next."""
        since, room = remote._raw_since(self.since), min(remote._fits(most, 63), FREED)
        return self._send("send_freed", byref(since), room, timeout=timeout, read=self._heard)

    async def objects(self, most: int = OBJECTS, timeout: Optional[float] = None) -> AsyncIterator[Object]:
        """The objects of the node, in the order of their slots, also those that no register refers to.

        It asks for up to `most` at a time. An object that is made or freed meanwhile may be left out.
        """
        room, slot, is_over = min(remote._fits(most, 63), OBJECTS), 0, most == 0
        while not is_over:
            objects, slot, is_over = await self._send("send_objects", slot, room, timeout=timeout, read=self._walked)
            for it in objects:
                yield it

    def places(self, reference: Ref, timeout: Optional[float] = None) -> Awaitable[list[Optional[Ref]]]:
        """What the places of an object of the node hold. Raises `NoField` if it is gone."""
        of = remote._raw_reference(reference)
        return self._send("send_places", byref(of), timeout=timeout, read=self._held)

    def close(self) -> None:
        """Frees the program. The node isn't told. What is awaited raises `Closed`."""
        # (without the lock of `remote`, which a call in a thread may have)
        self._opened._free()
        self._space._programs.discard(self)
        waiting = [self._waiting] if self._waiting is not None else []
        for future in [it.future for it in self._queue] + waiting:
            if not future.done():
                future.set_exception(remote.Closed())
                # (nobody need await it)
                future.exception()
        self._queue.clear()
        self._waiting = None

    @property
    def _at(self) -> c_void_p:
        return self._opened._at

    def _check_open(self) -> None:
        self._space._connected()
        self._opened._handle()

    def _wait(self, timeout: Optional[float]) -> int:
        return remote._milliseconds(self.timeout if timeout is None else timeout)

    def _send(
        self, name: str, *words: Any, timeout: Optional[float], read: Callable[[remote.RawPolled], Any]
    ) -> asyncio.Future[Any]:
        self._check_open()
        call = getattr(_LIBRARY, f"markring_remote_{name}")
        remote._check(call(self._at, *words, self._wait(timeout)))
        self._queue.append(_Request(self._loop.create_future(), read))
        return self._queue[-1].future

    def _perform(
        self, events: list[Event], timeout: Optional[float], read: Callable[[remote.RawPolled], Any]
    ) -> asyncio.Future[Any]:
        if len(events) > EVENTS:
            raise remote.BadRequest()
        given = (remote.RawRemoteEvent * len(events))(*map(remote._raw_event, events))
        return self._send("send", given, len(events), timeout=timeout, read=read)

    def _read(self, object: int, offset: int, count: int, timeout: Optional[float]) -> Awaitable[tuple[int, bytes]]:
        if count > BYTES:
            raise remote.TooLong()
        wanted = remote._fits(object, 16), remote._fits(offset, 32), remote._fits(count, 32)
        return self._send("send_read_bytes", *wanted, timeout=timeout, read=self._found)

    def _take(self) -> None:
        """Takes what answers there are."""
        while self._queue:
            answer = remote.RawPolled()
            status = _LIBRARY.markring_remote_poll(self._at, byref(answer))
            if status == _PENDING:
                break
            request = self._queue.popleft() if answer.is_over else self._queue[0]
            _settle(request.future, partial(self._outcome, status, request, answer))
        if self._waiting is not None:
            letters = c_uint64()
            status = _LIBRARY.markring_remote_poll_wait(self._at, byref(letters))
            if status != _PENDING:
                future, self._waiting = self._waiting, None
                _settle(future, lambda: remote._check(status) or letters.value)

    @staticmethod
    def _outcome(status: int, request: _Request, answer: remote.RawPolled) -> Any:
        remote._check(status)
        return request.read(answer)

    # What an answer says, of events, registers or bytes.

    def _results(self, answer: remote.RawPolled) -> list[Result]:
        return self._opened._results(answer.results, answer.count)

    def _first(self, answer: remote.RawPolled) -> Any:
        return self._results(answer)[0].get()

    @staticmethod
    def _references(answer: remote.RawPolled) -> list[Optional[Ref]]:
        found = answer.results[: answer.count]
        return [remote._reference(it.answer.reference) if errors.found(it.status) else None for it in found]

    @staticmethod
    def _found(answer: remote.RawPolled) -> tuple[int, bytes]:
        errors.check(answer.results[0].status)
        return answer.results[0].answer.number, ctypes.string_at(answer.bytes, answer.length)

    def _move(self, answer: remote.RawPolled) -> None:
        said = answer.results[0].answer
        self.since = Since(said.sum % (1 << 64), said.number)

    def _tracked(self, answer: remote.RawPolled) -> bool:
        self._move(answer)
        return bool(answer.results[0].answer.done)

    @staticmethod
    def _records(answer: remote.RawPolled, form: struct.Struct) -> Iterator[tuple[Any, ...]]:
        return form.iter_unpack(ctypes.string_at(answer.bytes, answer.length) if answer.length else b"")

    def _heard(self, answer: remote.RawPolled) -> list[Gone]:
        gone = [Gone(Ref(*it[:3]), it[3]) for it in self._records(answer, _GONE)]
        self._move(answer)
        return gone

    def _walked(self, answer: remote.RawPolled) -> tuple[list[Object], int, bool]:
        objects = [
            Object(Ref(*it[:3]), it[3], it[5], it[4], bool(it[6]), bool(it[7]), remote._AGES[it[8]])
            for it in self._records(answer, _OBJECT)
        ]
        said = answer.results[0].answer
        return objects, said.label, bool(said.done)

    def _held(self, answer: remote.RawPolled) -> list[Optional[Ref]]:
        errors.check(answer.results[0].status)
        return [Ref(*it) if it[2] else None for it in self._records(answer, _PLACE)]

    # Each of these is a request with one event, which raises its refusal.

    def _one(self, event: Event) -> asyncio.Future[Any]:
        return self._perform([event], None, self._first)

    def alloc(self, register: int, places: int) -> Awaitable[Ref]:
        """Makes a new object with this many empty places. The register gets its reference."""
        return self._one(remote.alloc(register, places))

    def copy(self, register: int, source: int) -> Awaitable[None]:
        """The register gets the reference in `source`."""
        return self._one(remote.copy(register, source))

    def drop(self, register: int) -> Awaitable[None]:
        """Empties the register."""
        return self._one(remote.drop(register))

    def load(self, register: int, object: int, place: int) -> Awaitable[Optional[Ref]]:
        """The register gets the content of the object's place, which is the result."""
        return self._one(remote.load(register, object, place))

    def store(self, object: int, place: int, register: int) -> Awaitable[None]:
        """The object's place gets the register's reference."""
        return self._one(remote.store(object, place, register))

    def clear(self, object: int, place: int) -> Awaitable[None]:
        """Empties the object's place."""
        return self._one(remote.clear(object, place))

    def word(self, object: int) -> Awaitable[int]:
        """The object's word."""
        return self._one(remote.word(object))

    def set_word(self, object: int, word: int) -> Awaitable[None]:
        """The object gets the word."""
        return self._one(remote.set_word(object, word))

    def set_bytes(self, object: int, data: bytes) -> Awaitable[None]:
        """The object gets these bytes in place of its own."""
        return self._one(remote.set_bytes(object, data))

    def patch(self, object: int, offset: int, data: bytes) -> Awaitable[None]:
        """Overwrites bytes of the object, from `offset` on. It makes them no longer."""
        return self._one(remote.patch(object, offset, data))

    def give(self, to: int, label: int, register: int) -> Awaitable[int]:
        """Sends a letter with the label and the register's content. The result is the message's number."""
        return self._one(remote.give(to, label, register))

    def post(self, to: int, label: int, first: int = 0, count: int = 0, data: bytes = b"") -> Awaitable[int]:
        """Sends a letter with the label, the contents of `count` registers from `first` on, and these bytes, in a wide
        space. The result is the message's number."""
        return self._one(remote.post(to, label, first, count, data))

    def accept(self, register: int) -> Awaitable[Letter]:
        """Removes the oldest letter that waits. The register gets its content."""
        return self._one(remote.accept(register))

    def accept_with_bytes(self, register: int, room: int = LETTER) -> Awaitable[tuple[Letter, bytes]]:
        """Accepts the oldest letter as `accept` does. Its bytes come, too."""
        return self._one(remote.accept_with_bytes(register, room))

    def put(self, object: int, place: int, register: int) -> Awaitable[int]:
        """Asks the owner of another node's object to put the register's content into the object's place."""
        return self._one(remote.put(object, place, register))

    def get(self, object: int, place: int, label: int) -> Awaitable[int]:
        """Asks the owner of another node's object for the content of the object's place. It comes in a letter."""
        return self._one(remote.get(object, place, label))

    def fetch(self, object: int, label: int, offset: int = 0, count: int = 0) -> Awaitable[int]:
        """Asks the owner of another node's object, in a wide space, for its word and `count` of its bytes from `offset`
        on. They come in a letter."""
        return self._one(remote.fetch(object, label, offset, count))

    def resolve(self, register: int, reference: Ref) -> Awaitable[None]:
        """The register gets a reference to an object of the node that the program kept in a table of its own. Raises `NoField`
        if the object is gone, and `NotNow` if the node marks and hasn't reached it: resolve it again later."""
        return self._one(remote.resolve(register, reference))

    async def __aenter__(self) -> Program:
        return self

    async def __aexit__(
        self,
        kind: Optional[type[BaseException]],
        error: Optional[BaseException],
        trace: Optional[TracebackType],
    ) -> None:
        self.close()


class WeakTable(weak.Table):
    """A table whose entries go with the objects of a program's node, as `remote.WeakTable`.

    The first `poll` has the node list what it frees. Await one call before the next.
    """

    def __init__(self, program: Program, on_freed: Optional[weak.Freed] = None) -> None:
        super().__init__(on_freed)
        self._program, self._is_lost = program, True

    async def poll(self) -> int:
        """Removes the entries of the objects that are freed for good, in the order in which they were.

        The result is how many. If the node's list is lost, it compares the table with the node's objects: then the word
        is 0. After a failure, the next call goes on.
        """
        count, gone = 0, [Gone(Ref(0, 0, 0), 0)]
        while gone and not self._is_lost:
            since = self._program.since
            try:
                gone = await self._program.freed()
                count += self._leave(gone)
            except remote.Lost:
                self._is_lost = True
            except BaseException:
                self._program.since = since
                raise
        return count + await self.prune() if self._is_lost else count

    async def prune(self) -> int:
        """Removes the entries of the objects that the node doesn't have, by their references, with the word 0.

        The result is how many. For a table that is older than the program's list.
        """
        await self._program.track_freed()
        before = list(self._entries)
        live = {it.reference async for it in self._program.objects()}
        count = self._leave_missing((it for it in before if it in self._entries), live)
        self._is_lost = False
        return count
