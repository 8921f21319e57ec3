"""Finds the nodes in files and folders, and reads their images."""
from __future__ import annotations

from pathlib import Path
from typing import Iterator, Optional

from .disks import read_disk
from .images import LOGGED, Image, ImageReader
from .processes import Saved, read_process
from .reader import Unreadable, read_file


def folder_reader(path: Path):
    """What reads the folder of a node; nothing if this isn't one."""
    if (path / "select").exists():
        return read_disk
    return read_process if any((path / it).exists() for it in "ab") else None


def saved_in(path: Path) -> Iterator[Saved]:
    """What was saved in a file, in the folder of a node, or in those of all nodes."""
    if not path.is_dir():
        yield Saved(str(path), read_file(path), b"")
        return
    read = folder_reader(path)
    if read:
        yield read(path)
        return
    folders = [path / str(it) for it in range(64) if (path / str(it)).is_dir()]
    if not folders:
        raise Unreadable(f"{path}: this folder has neither the files of a node nor folders 0, 1, ..")
    for it in folders:
        read = folder_reader(it)
        if not read:
            raise Unreadable(f"{it}: this folder doesn't have the files of a node")
        yield read(it)


def image_of(saved: Saved) -> Image:
    """The image of a node, after the events behind it."""
    if saved.batches:
        return replayed(saved.name, saved.image, saved.batches)
    it = ImageReader(saved.name, saved.image)
    image = it.read()
    if image.version in LOGGED and it.at < len(saved.image):
        return replayed(saved.name, saved.image[: it.at], saved.image[it.at :])
    it.end("the image")
    return image


def replayed(name: str, image: memoryview, batches: bytes | memoryview) -> Image:
    """The image of the node to which events lead. The library performs them."""
    try:
        from markring import Node, Refusal
    except ImportError as error:
        why = "events follow the image, and the library, which performs them, can't be used"
        raise Unreadable(f"{name}: {why}: {error}") from None
    try:
        with Node.from_batches(bytes(image), bytes(batches)) as node:
            data = node.image().data
    except Refusal as refusal:
        why = f"byte {len(image)}: the library refuses the image with the events behind it"
        raise Unreadable(f"{name}: {why}: {refusal}") from None
    return ImageReader(name, memoryview(data)).read()


def read_images(paths: list[str]) -> dict[int, Image]:
    """The images of the nodes in these files and folders, by the nodes' numbers."""
    images: dict[int, Image] = {}
    known: Optional[Saved] = None
    for path in paths:
        try:
            for saved in saved_in(Path(path)):
                add_image(images, image_of(saved))
                if known and saved.space and saved.space != known.space:
                    raise Unreadable(f"{saved.name} and {known.name} are of two spaces")
                known = saved if saved.space else known
        except (OSError, ValueError) as error:
            raise Unreadable(f"{path}: {error}") from None
    return dict(sorted(images.items()))


def add_image(images: dict[int, Image], image: Image) -> None:
    for other in images.values():
        if other.shape != image.shape:
            raise Unreadable(f"{image.name} is of {image.shape}; but {other.name} is of {other.shape}")
    if image.own in images:
        raise Unreadable(f"{image.name} and {images[image.own].name} are both node {image.own}")
    images[image.own] = image
