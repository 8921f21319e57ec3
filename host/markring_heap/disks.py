"""Reads the folder of a node in threads: docs/DISK.md, "The layout of a disk"."""
from __future__ import annotations

from hashlib import md5
from pathlib import Path

from .images import LOGGED
from .processes import Saved
from .reader import Reader, Unreadable, read_file

HEAD, SEAL = 8, b"markring seal 01"
IMAGE_SEAL, LOG_SEAL = 32, 64
# The first byte of the selector: nothing has a seal, an image has one, or a log has them.
UNSEALED, SEALED, SEALED_LOG = (0, 1), (0xAA, 0x55), (0xCC, 0x33)
OPEN, OPEN_SEALED = 1, 0xFF


def digest_of(*parts: bytes | memoryview) -> bytes:
    return md5(b"".join(parts), usedforsecurity=False).digest()


def read_disk(folder: Path) -> Saved:
    """The node in a folder, by the area that the selector names."""
    selector = read_file(folder / "select")
    if not len(selector):
        raise Unreadable(f"{folder}/select: byte 0: nothing was saved on this disk")
    mark = selector[0]
    if mark not in UNSEALED + SEALED + SEALED_LOG:
        raise Unreadable(f"{folder}/select: byte 0: no save writes {mark}")
    area = folder / "ab"[mark % 2]
    it = Reader(str(area), read_file(area))
    image = it.take(it.number(HEAD))
    digest = digest_of(it.data[: it.at])
    if mark in SEALED and it.data[it.at : it.at + IMAGE_SEAL] != SEAL + digest:
        it.fail("the image doesn't have this seal")
    is_logged = len(image) > 2 and image[2] in LOGGED
    batches = read_log(it, digest, mark in SEALED_LOG) if is_logged or mark in SEALED_LOG else b""
    return Saved(it.name, image, batches if is_logged else b"")


def read_log(it: Reader, digest: bytes, is_sealed: bool) -> bytes:
    """The batches behind an image, each with its length. They are compared with their seals."""
    batches: list[memoryview] = []
    gate = it.number(1)
    while gate % 2:
        start = it.at
        it.take(it.number(HEAD))
        batches.append(it.data[start : it.at])
        if is_sealed and gate not in (OPEN, OPEN_SEALED):
            it.fail(f"no save writes the gate {gate}", start - 1)
        # (a version without seals may have added batches)
        is_sealed = is_sealed and gate == OPEN_SEALED
        digest = digest_of(digest, batches[-1])
        gate = it.number(1)
    if is_sealed:
        if gate:
            it.fail(f"no save writes the gate {gate}", it.at - 1)
        check_log(it, digest)
    return b"".join(batches)


def seal_at(it: Reader, at: int) -> bytes:
    """The seal of a log at this position; nothing if no whole one is there."""
    seal = bytes(it.data[at : at + LOG_SEAL])
    is_whole = len(seal) == LOG_SEAL and seal[:16] == SEAL and seal[48:] == digest_of(seal[16:48])
    return seal if is_whole else b""


def check_log(it: Reader, digest: bytes) -> None:
    """Compares a log with the seal behind its last gate; or, if a save was stopped while it added a batch, with the
    seal behind that batch."""
    seal, found = seal_at(it, it.at), slice(32, 48)
    if not seal:
        behind = it.at + HEAD + int.from_bytes(it.data[it.at : it.at + HEAD], "big")
        if behind < len(it.data) and it.data[behind] == 0:
            seal, found = seal_at(it, behind + 1), slice(16, 32)
    if seal and seal[found] != digest:
        it.fail("the log doesn't have this seal")
