"""Reads the folder of a node in a process: docs/FORMATS.md, "Folders of processes"."""
from __future__ import annotations

from dataclasses import dataclass, field
from pathlib import Path
from struct import unpack_from
from typing import NamedTuple, Optional

from .reader import Reader, Unreadable, read_file
from .seals import seal_of

MAGIC, VERSION, FIRST = b"MRS", 2, 1
HEAD, ENTRY, TAIL, MARK = 20, 16, 8, 24
# What a mark begins with. No save has a number of more than 48 bits.
MARKS = b"\xff" * 8 + b"\0\0"
# A value of a later version than the first begins with it; one of the first has a name of at most 32 bytes.
OLDEST, SECOND, THIRD, NAME = 1, 0x82, 0x83, 32
KNOWN, PART, RESULT, SPACE = 24, 16, 43, 8


class Saved(NamedTuple):
    """What was saved of a node: its image, and the batches behind it."""

    name: str
    image: memoryview
    batches: bytes
    # The space's name and id, if the source has them.
    space: Optional[tuple[bytes, bytes]] = None


@dataclass
class Slot:
    """A file of the folder. `number` is that of the last save, a value or an entry behind it; `seal` is its seal."""

    data: memoryview
    is_whole: bool = False
    number: int = 0
    seal: int = 0
    length: int = 0
    # The seal that the value should have.
    base: int = 0
    end: int = 0
    entries: list[tuple[int, int]] = field(default_factory=list)
    # The last save that was whole once.
    synced: int = 0
    name: str = ""

    def seal_at(self, at: int) -> int:
        return int.from_bytes(self.data[at : at + TAIL], "big")


class Found(NamedTuple):
    """An entry that is whole."""

    number: int
    seal: int
    end: int


def entry_at(it: Slot, at: int, before: int) -> Optional[Found]:
    """The entry at this position, if it is whole and the seal before it is this one."""
    if at + ENTRY > len(it.data):
        return None
    length, number = unpack_from(">QQ", it.data, at)
    behind = at + ENTRY + length
    if not length or behind + TAIL > len(it.data):
        return None
    seal = seal_of(it.data[at:behind], before)
    return Found(number, seal, behind + TAIL) if seal == it.seal_at(behind) else None


def read_slot(data: memoryview) -> Slot:
    """Finds out whether a file has a whole value, and which entries are behind it."""
    it = Slot(data)
    if len(data) < HEAD + TAIL:
        return it
    length, number = unpack_from(">QQ", data, 4)
    if HEAD + length + TAIL <= len(data):
        it.length, it.base = length, seal_of(data[: HEAD + length])
        it.is_whole = data[:3] == MAGIC and data[3] in (FIRST, VERSION) and it.base == it.seal_at(HEAD + length)
    if it.is_whole:
        it.number, it.seal, it.end = number, it.base, HEAD + length + TAIL
        found = entry_at(it, it.end, it.seal) if data[3] == VERSION else None
        while found and found.number > it.number:
            it.entries.append((it.end + ENTRY, found.end - TAIL))
            it.number, it.seal, it.end = found
            found = entry_at(it, it.end, it.seal)
    behind = find_behind(it, ENTRY, it.seal) if it.is_whole else find_behind(it, HEAD, 0)
    it.synced = max(find_marks(it), behind)
    return it


def find_marks(it: Slot) -> int:
    """The highest number in the marks behind what is whole, which say that a save was whole."""
    highest, data = 0, bytes(it.data[it.end :])
    at = data.find(MARKS)
    while at >= 0:
        if at + MARK + TAIL <= len(data):
            number, length, seal = unpack_from(">QQQ", data, at + 8)
            if length == it.length if it.is_whole else HEAD + length + TAIL <= len(it.data):
                bases = [it.seal_at(HEAD + length)] + [it.base] * (length == it.length)
                mark = memoryview(data)[at : at + MARK]
                if number > highest and any(seal == seal_of(mark, base) for base in bases):
                    highest = number
        at = data.find(MARKS, at + 1)
    return highest


def find_behind(it: Slot, head: int, before: int) -> int:
    """The number of the value or entry that isn't whole, if a whole entry with the number after it follows; else 0."""
    if it.end + head > len(it.data):
        return 0
    length, number = unpack_from(">QQ", it.data, it.end + head - ENTRY)
    behind = it.end + head + length
    if behind + TAIL > len(it.data) or not length:
        return 0
    found = entry_at(it, behind + TAIL, it.seal_at(behind))
    found = found or entry_at(it, behind + TAIL, seal_of(it.data[it.end : behind], before))
    expected = it.number + 1 if it.is_whole else number
    return expected if found and found.number == expected + 1 else 0


def slots_of(folder: Path) -> list[Slot]:
    """The files of a folder, the one that counts last: the whole one whose last save has the higher number."""
    slots = [read_slot(read_file(folder / it)) for it in "ab"]
    last = max(slots, key=lambda it: (it.is_whole, it.number))
    is_tie = all(it.is_whole for it in slots) and slots[0].number == slots[1].number
    if not last.is_whole or is_tie or any(it.synced > last.number for it in slots):
        raise Unreadable(f"{folder}: the files a and b are damaged: " + "; ".join(map(state_of, "ab", slots)))
    last.name, other = f"{folder}/{'ab'[slots.index(last)]}", slots[slots[0] is last]
    other.name = f"{folder}/{'ab'[slots.index(other)]}"
    return [other, last]


def read_process(folder: Path) -> Saved:
    """The node in a folder."""
    last = slots_of(folder)[-1]
    return read_value(Reader(last.name, last.data[: HEAD + last.length], HEAD), last)


def state_of(name: str, it: Slot) -> str:
    state = f"{name} is whole up to save {it.number}" if it.is_whole else f"{name} isn't whole"
    return f"{state}, and was up to save {it.synced}" if it.synced > it.number else state


def read_value(it: Reader, slot: Slot) -> Saved:
    """A value, with the batches of the entries behind it."""
    first = it.data[it.at] if it.at < len(it.data) else 0
    version = it.number(1) if first in (SECOND, THIRD) else OLDEST
    length = it.number(1)
    if length > NAME:
        it.fail(f"the space has a name of {length} bytes", it.at - 1)
    space = bytes(it.take(length)), bytes(it.take(SPACE))
    it.number(1)
    nodes = it.number(1)
    it.take((16 if version == THIRD else 8) + nodes * KNOWN)
    read_programs(it, version)
    image = it.take(it.number(8))
    it.end("the image")
    batches = b"".join(read_entry(Reader(it.name, slot.data[:end], at), version) for at, end in slot.entries)
    return Saved(it.name, image, batches, space)


def read_programs(it: Reader, version: int) -> None:
    """The line of processes, and the programs with their last results and letters."""
    if version != OLDEST:
        it.take(PART * it.number(2))
    for _ in range(it.number(1)):
        it.take(25 if version == OLDEST else 29)
        it.take(RESULT * it.number(2))
        it.take(it.number(4) if version == THIRD else 0)


def read_entry(it: Reader, version: int) -> memoryview:
    """The batch of an entry."""
    it.take((1 + KNOWN) * it.number(1))
    read_programs(it, version)
    batch = it.take(it.number(8))
    it.end("the batch")
    return batch
