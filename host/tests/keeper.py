"""A program of node 0 that keeps a file with what it made and what of it is gone, and may be killed at any time.

    keeper.py URL NUMBER FILE SEED

Each request makes an object, whose word is the number of the request, in one of the program's registers, or resolves one
that it made. So objects become garbage. What the node hands out as freed is written with the place behind it, in one write:
the next process goes on there. If the node's list is lost, it compares its table with the node's objects.
"""
import os
import random
import signal
import sys
from pathlib import Path

sys.path.insert(0, str(Path(__file__).resolve().parent))

from space import Patient, errors, remote  # noqa: E402

Ref = remote.Ref
# Of each program, from its first one on.
REGISTERS = 8
ROOM = 20  # entries that are asked for at once


class Wrong(Exception):
    """The node said something that can't be."""


class Keeper:
    """The table of a program, and its file."""

    def __init__(self, url: str, number: int, path: Path) -> None:
        self.made, self.missed, self.listed, self.lists = {}, set(), set(), 0
        since = self.read(path) if path.exists() else None
        self.file = os.open(path, os.O_WRONLY | os.O_APPEND | os.O_CREAT)
        self.space = Patient(url, "test")
        self.program = self.space.program(0, number)
        self.program.since = since
        self.registers = range(number * REGISTERS, (number + 1) * REGISTERS)
        self.last = self.program.facts.last
        if self.last > 0:
            self.note(self.program.last())

    def read(self, path: Path):
        since = None
        for line in path.read_text().splitlines():
            what, first, second = line.split(" ")
            if what == "since":
                since = remote.Since(int(first), int(second))
            elif what == "made":
                self.made[Ref(*map(int, first.split(".")))] = int(second)
            else:
                (self.missed if what == "missed" else self.listed).add(Ref(*map(int, first.split("."))))
        return since

    def write(self, *lines: str) -> None:
        text = "".join(f"{it}\n" for it in lines).encode()
        if os.write(self.file, text) != len(text):
            raise Wrong("a short write")

    @property
    def table(self) -> set:
        return set(self.made) - self.missed - self.listed

    def note(self, results: list) -> None:
        """The last request was performed: if it made an object that isn't known, it is known now."""
        made = results[0].value if results and results[0].status == 0 else None
        if isinstance(made, Ref) and made not in self.made:
            self.write(f"made {made} {self.last}")
            self.made[made] = self.last

    def perform(self, *events) -> list:
        while True:
            try:
                results = self.program.perform(list(events))
                break
            except (remote.TimedOut, remote.Unfinished):
                pass
            try:
                results = self.program.finish()
                break
            except remote.TimedOut:
                pass
        self.last += 1
        self.note(results)
        return results

    def make(self, register: int) -> None:
        self.perform(remote.alloc(register, 0), remote.set_word(register, self.last + 1))

    def resolve(self, register: int, reference) -> None:
        status = self.perform(remote.resolve(register, reference))[0].status
        if status not in (0, errors.NoField.status, errors.NotNow.status):
            raise Wrong(f"a Resolve answers {status}")
        if status == 0 and reference not in self.table:
            raise Wrong(f"{reference} is back")

    def poll(self) -> int:
        """Asks for what was freed. Returns how many entries came."""
        try:
            gone = self.program.freed(ROOM)
        except remote.Lost:
            return self.compare()
        lines = []
        for reference, word in gone:
            if reference in self.made:
                if reference in self.listed or self.made[reference] != word:
                    raise Wrong(f"{reference} comes twice, or its word is {word}")
                lines.append(f"listed {reference} {word}")
                self.listed.add(reference)
        since = self.program.since
        self.write(*lines, f"since {since.list} {since.number}")
        return len(gone)

    def compare(self) -> int:
        self.program.track_freed()
        before, since = self.table, self.program.since
        live = {it.reference for it in self.program.objects(50)}
        if live & (self.missed | self.listed):
            raise Wrong("what is gone is back")
        missing = before - live
        self.missed |= missing
        self.write(*(f"missed {it} 0" for it in missing), f"since {since.list} {since.number}")
        self.lists += 1
        return len(missing)


def main(url: str, number: str, path: str, seed: str) -> int:
    chance, ends = random.Random(int(seed)), []
    signal.signal(signal.SIGTERM, lambda *_: ends.append(1))
    it = Keeper(url, int(number), Path(path))
    while not ends:
        register, table = chance.choice(it.registers), sorted(it.table)
        try:
            if chance.random() < 0.2:
                it.poll()
            elif table and chance.random() < 0.2:
                it.resolve(register, chance.choice(table[-20:]))
            elif chance.random() < 0.1:
                it.perform(remote.give(1, 7, register))
            else:
                it.make(register)
        except remote.TimedOut:
            pass
    return 0


if __name__ == "__main__":
    sys.exit(main(*sys.argv[1:]))
