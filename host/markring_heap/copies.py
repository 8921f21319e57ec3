"""Copies of nodes of different moments: their saved states, and a node as one of them left it."""
from __future__ import annotations

import os
import time
from dataclasses import dataclass
from itertools import groupby
from pathlib import Path
from typing import Callable, Iterator, NamedTuple

from .disks import read_disk
from .images import ImageReader, Shape
from .processes import HEAD, TAIL, VERSION, Saved, Slot, read_process, read_value, slots_of
from .reader import Reader, Unreadable

LENGTH = 8
# A copy of a node that runs is read again if it was written meanwhile.
ATTEMPTS, PAUSE = 50, 0.02
FILES = ("select", "a", "b")


class Counts(NamedTuple):
    """For each node: how many of its messages were received, how many were sent to it, how many of these dropped."""

    received: tuple[int, ...]
    sent: tuple[int, ...]
    dropped: tuple[int, ...]


class Logged(NamedTuple):
    """An image, and the batches behind it, each with its length."""

    image: bytes
    batches: list[bytes]


class State(NamedTuple):
    """A saved state of a node. `save` is its number; `write` writes the files of a folder that has it last. It is the node of
    an image after the first `at` batches."""

    save: int
    write: Callable[[Path], None]
    of: Logged
    at: int


@dataclass
class Copy:
    """The copy of a node, with its saved states, the oldest first."""

    name: str
    own: int
    shape: Shape
    # The space's name and id; nothing for a node in threads.
    space: tuple[bytes, bytes] | None
    states: list[State]

    def counts(self, first: int) -> list[Counts]:
        """What the states from this one on count. It takes the time of an image for each."""
        found: list[Counts] = []
        for _, group in groupby(self.states[first:], key=lambda it: id(it.of)):
            states = list(group)
            found += counts_after(self.own, self.shape.nodes, states[0].of, states[0].at, states[-1].at)
        return found


def counts_after(own: int, nodes: int, of: Logged, first: int, last: int) -> Iterator[Counts]:
    """What the node counts after this many batches, up to that many. The library performs the events."""
    from markring import Node

    node = Node.from_batches(of.image, b"".join(of.batches[:first]))
    for batch in [None, *of.batches[first:last]]:
        if batch is not None:
            before, node = node, Node.from_batches(node.image().data, batch)
            before.close()
        links = [None if it == own else node.link(it) for it in range(nodes)]
        yield Counts(
            tuple(it.received if it else 0 for it in links),
            tuple(it.appended if it else 0 for it in links),
            tuple(it.acknowledged if it else 0 for it in links),
        )
    node.close()


def head_of(saved: Saved) -> tuple[int, Shape]:
    """The number of the image's node, and its shape."""
    it = ImageReader(saved.name, saved.image)
    it.read_start()
    return it.own, it.shape


def parts_of(batches: bytes) -> list[bytes]:
    """Batches one after another, each with its length."""
    parts, at = [], 0
    while at < len(batches):
        end = at + LENGTH + int.from_bytes(batches[at : at + LENGTH], "big")
        parts.append(bytes(batches[at:end]))
        at = end
    return parts


def process_states(it: Slot) -> Iterator[State]:
    """The states of a file of markring-node: its value, and that after each entry."""
    saved = read_value(Reader(it.name, it.data[: HEAD + it.length], HEAD), it)
    value = int.from_bytes(it.data[HEAD - LENGTH : HEAD], "big")
    numbers = [int.from_bytes(it.data[at - LENGTH : at], "big") for at, _ in it.entries]
    ends = [HEAD + it.length + TAIL, *(end + TAIL for _, end in it.entries)]
    of = Logged(bytes(saved.image), parts_of(saved.batches))
    for at, (save, end) in enumerate(zip([value, *numbers], ends)):
        yield State(save, slot_writer(it, end), of, at)


def slot_writer(it: Slot, end: int) -> Callable[[Path], None]:
    return lambda folder: write_files(folder, {"a": it.data[:end], "b": b""})


def disk_writer(of: Logged, count: int) -> Callable[[Path], None]:
    """Writes a disk with the image and the first batches, without seals."""

    def write(folder: Path) -> None:
        log = b"".join(b"\1" + it for it in of.batches[:count])
        area = len(of.image).to_bytes(LENGTH, "big") + of.image + log + b"\0"
        write_files(folder, {"select": b"\0", "a": area, "b": b""})

    return write


def write_files(folder: Path, files: dict[str, bytes]) -> None:
    folder.mkdir(mode=0o700, parents=True)
    for name, data in files.items():
        (folder / name).write_bytes(data)


def read_copy(folder: Path) -> Copy:
    """The copy of a node in a folder, of markring-node or of `markring run`."""
    if (folder / "select").exists():
        return disk_copy(folder)
    slots = slots_of(folder)
    last = slots[-1]
    saved = read_value(Reader(last.name, last.data[: HEAD + last.length], HEAD), last)
    own, shape = head_of(saved)
    # The other file has older states, unless an earlier version wrote it. Saves that were made while the value of the last
    # file was written are in both.
    whole = [it for it in slots if it.is_whole and it.data[3] == VERSION]
    states = {state.save: state for it in whole for state in process_states(it)}
    return Copy(str(folder), own, shape, saved.space, [states[it] for it in sorted(states)])


def disk_copy(folder: Path) -> Copy:
    """The copy of a node in threads: its image, and the batches behind that."""
    saved = read_disk(folder)
    own, shape = head_of(saved)
    of = Logged(bytes(saved.image), parts_of(saved.batches))
    states = [State(at, disk_writer(of, at), of, at) for at in range(len(of.batches) + 1)]
    return Copy(str(folder), own, shape, None, states)


def number_in(folder: Path) -> int:
    """The number of the node in a folder. It may be written meanwhile."""
    read = read_disk if (folder / "select").exists() else read_process
    return settled(folder, lambda: head_of(read(folder))[0])


def settled(folder: Path, read: Callable):
    """What is read of a folder that may be written meanwhile."""
    for _ in range(ATTEMPTS):
        try:
            return read()
        except (Unreadable, ValueError) as error:
            last = error
        time.sleep(PAUSE)
    raise Unreadable(f"{folder}: it can't be read while its node runs: {last}")


def copy_files(folder: Path, to: Path) -> None:
    """Copies the files of a folder. What was read is on the disk before the copy counts: a crash of the machine takes
    back none of it."""
    for it in (folder / it for it in FILES if (folder / it).exists()):
        with it.open("rb") as file:
            (to / it.name).write_bytes(file.read())
            os.fsync(file.fileno())


def read_whole(folder: Path) -> None:
    """Fails if the copy of a folder is torn."""
    read_disk(folder) if (folder / "select").exists() else slots_of(folder)


def copy_running(copies: dict[Path, Path]) -> None:
    """Copies folders of nodes that may run, each to a new one. They are copied soon after each other, so that a restore
    goes back little; then those that are torn are copied again."""
    for folder, to in copies.items():
        to.mkdir(mode=0o700, parents=True)
        copy_files(folder, to)
    for folder, to in copies.items():
        try:
            read_whole(to)
        except (Unreadable, ValueError):
            settled(folder, lambda folder=folder, to=to: (copy_files(folder, to), read_whole(to)))
