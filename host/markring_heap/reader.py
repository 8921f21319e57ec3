"""Reads numbers and bytes from a source, and says at which byte something is wrong."""
from __future__ import annotations

from pathlib import Path
from typing import NoReturn


class Unreadable(Exception):
    """Why a source can't be read: its name, at which byte, and what is wrong there."""


class Reader:
    """The bytes of a file, or a part of them, from a position on."""

    def __init__(self, name: str, data: memoryview, at: int = 0) -> None:
        self.name, self.data, self.at = name, data, at

    def fail(self, text: str, at: int | None = None) -> NoReturn:
        raise Unreadable(f"{self.name}: byte {self.at if at is None else at}: {text}")

    def take(self, count: int) -> memoryview:
        """The next bytes."""
        start, self.at = self.at, self.at + count
        if self.at > len(self.data):
            self.fail(f"{count} bytes should follow, and {len(self.data) - start} do", start)
        return self.data[start : self.at]

    def number(self, size: int) -> int:
        return int.from_bytes(self.take(size), "big")

    def count(self, least: int) -> int:
        """How many parts follow, each of which has at least this many bytes."""
        count = self.number(4)
        left = len(self.data) - self.at
        if count > left // least:
            self.fail(f"{count} parts should follow, and only {left} bytes do", self.at - 4)
        return count

    def end(self, what: str) -> None:
        """Fails unless all bytes have been read."""
        if self.at < len(self.data):
            self.fail(f"{len(self.data) - self.at} bytes follow {what}")


def read_file(path: Path) -> memoryview:
    """The bytes of a file."""
    if not path.is_file():
        raise Unreadable(f"{path}: " + ("this isn't a file" if path.exists() else "there is no such file"))
    return memoryview(path.read_bytes())
