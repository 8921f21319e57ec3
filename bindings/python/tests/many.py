"""Makes 10,000 handles of a kind and gives them up, while the process gets little memory: `many.py KIND HOW`.

If they weren't freed, they would need gigabytes (nodes, spaces and cells, for 64 nodes each), or the allocator would have
more bytes in use at the end than at the beginning (watches too). It prints nothing, and ends with status 0 if all is well.
"""
import ctypes
import gc
import resource
import sys
from typing import Callable, Iterator, Union

from markring import Cell, Node, Shape, Space, Watch, errors

COUNT, NODES, ROOM = 10_000, 64, 64 << 20
Owner = Union[Node, Space, Cell, Watch]


class Allocated(ctypes.Structure):
    """A `struct mallinfo2` of libc."""

    _fields_ = [(f"field{it}", ctypes.c_size_t) for it in range(10)]


def in_use() -> int:
    """How many bytes the allocator of C has given out."""
    gc.collect()
    call = ctypes.CDLL(None).mallinfo2
    call.restype = Allocated
    all_fields = call()
    return all_fields.field4 + all_fields.field7


def nodes() -> Iterator[Owner]:
    """Nodes, by each way to make one."""
    with Node(NODES, 1, 1, 0) as node:
        image = node.image().data
    for _ in range(COUNT // 4):
        yield Node(NODES, 1, 1, 0)
        yield Node.with_shape(Shape.wide(NODES, 1, 1, 0, 0), 0)
        yield Node.from_image(image)
        yield Node.from_batches(image, b"")


def spaces() -> Iterator[Owner]:
    """Spaces that keep their cells: those of the nodes that aren't moved out."""
    for _ in range(COUNT // NODES):
        space = Space(NODES, 1, 1)
        space.disk(0, bytes(100_000))
        yield space


def cells() -> Iterator[Owner]:
    """Cells of many spaces."""
    for _ in range(COUNT // NODES):
        with Space(NODES, 1, 1) as space:
            yield from space.open()


def watches() -> Iterator[Owner]:
    """Watches of many spaces."""
    for _ in range(COUNT // 250):
        with Space(2, 1, 1, 250) as space:
            space.open()
            for _ in range(250):
                watch = space.watch()
                assert watch is not None
                yield watch


def refused() -> Iterator[Owner]:
    """Nodes that are refused, and one in between."""
    for _ in range(COUNT):
        try:
            Node(NODES, 1, 1, NODES)
        except errors.NoNode:
            continue
    yield Node(NODES, 1, 1, 0)


KINDS = {it.__name__: it for it in (nodes, spaces, cells, watches, refused)}


def leave(it: Owner) -> None:
    """Uses the handle as a context manager."""
    with it:
        pass


def nothing(_: Owner) -> None:
    """Leaves it to the interpreter, which drops it."""


HOWS: dict[str, Callable[[Owner], None]] = {"close": lambda it: it.close(), "leave": leave, "drop": nothing}


def run(kind: str, how: str) -> None:
    """Makes them and gives them up."""
    before, kept = in_use(), []
    for handle in KINDS[kind]():
        HOWS[how](handle)
        if how != "drop":
            # (So that only the close can have freed it.)
            kept.append(handle)
    del handle
    more = in_use() - before
    # The list takes 8 bytes for each, and a watch 32.
    assert more < 20 * COUNT, f"{kind}, {how}: {more} bytes more are in use"


if __name__ == "__main__":
    with open("/proc/self/statm", encoding="ascii") as statm:
        size = int(statm.read().split()[0]) * resource.getpagesize()
    resource.setrlimit(resource.RLIMIT_AS, (size + ROOM, resource.RLIM_INFINITY))
    run(*sys.argv[1:])
