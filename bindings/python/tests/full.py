"""A cell whose save gets no memory for its disk: it is closed until it is reopened."""
import ctypes
import mmap
import resource
from typing import Any, Callable

from markring import Cell, Node, Ref, Refusal, Shape, Space, errors

BYTES = 16_777_216
SHAPE = Shape.wide(2, 4, 16, 1, BYTES)


def size() -> int:
    """How many bytes of addresses the process has."""
    with open("/proc/self/statm", encoding="ascii") as statm:
        return int(statm.read().split()[0]) * resource.getpagesize()


def with_room(room: int, call: Callable[[], Any]) -> Any:
    """The class of the refusal of a call that gets this many bytes from the system."""
    resource.setrlimit(resource.RLIMIT_AS, (size() + room, resource.RLIM_INFINITY))
    try:
        call()
    except Refusal as refusal:
        return type(refusal)
    finally:
        resource.setrlimit(resource.RLIMIT_AS, (resource.RLIM_INFINITY, resource.RLIM_INFINITY))
    return None


def must_be(expected: Any, found: Any) -> None:
    """Like assertEqual."""
    assert expected == found, f"{found} instead of {expected}"


def closed(cell: Cell) -> None:
    """All calls of a closed cell that are refused because of that."""
    calls: list[Callable[[], Any]] = [
        lambda: cell.alloc(1, 0),
        lambda: cell.copy(1, 0),
        lambda: cell.drop(0),
        lambda: cell.load(1, 0, 0),
        lambda: cell.store(0, 0, 0),
        lambda: cell.clear(0, 0),
        lambda: cell.word(0),
        lambda: cell.set_word(0, 1),
        lambda: cell.set_bytes(0, b""),
        lambda: cell.patch(0, 0, b""),
        lambda: cell.give(1, 1, 0),
        lambda: cell.accept(0),
        lambda: cell.put(0, 0, 0),
        lambda: cell.get(0, 0, 0),
        lambda: cell.post(1, 1),
        lambda: cell.fetch(0, 1),
        lambda: cell.resolve(0, Ref(0, 0, 1)),
        cell.reclaim,
        cell.reclaim_young,
        cell.begin,
        cell.scan,
        cell.pass_token,
        lambda: cell.sweep(1),
        lambda: cell.next(1),
        lambda: cell.work(0, 0),
        lambda: cell.receive(1),
        lambda: cell.send(1),
        lambda: cell.save(1),
        cell.raise_board,
    ]
    for call in calls:
        must_be(errors.Closed, with_room(BYTES, call))


def main() -> None:
    """Fills a node, and a cell."""
    # Each block of 64 KB or more comes from the system, and goes back to it (M_MMAP_THRESHOLD).
    must_be(1, ctypes.CDLL(None).mallopt(-3, 65_536))
    data = bytes(BYTES)
    node = Node.with_shape(SHAPE, 0)
    node.alloc(0, 0)
    must_be(errors.Memory, with_room(mmap.PAGESIZE, lambda: node.set_bytes(0, data)))
    must_be(0, node.bytes_len(0))
    node.set_bytes(0, data)
    with Space.with_shape(SHAPE) as space:
        cell = space.open()[0]
    cell.alloc(0, 1)
    cell.set_word(0, 5)
    cell.save(cell.image().mark)
    cell.set_word(0, 6)
    cell.set_bytes(0, data)
    mark = cell.image().mark
    # With the least room that the image needs, the disk in memory has too little.
    found = (with_room(part * BYTES // 4, lambda: cell.save(mark)) for part in range(40))
    must_be(errors.Disk, next((it for it in found if it is not errors.Memory), None))
    closed(cell)
    cell.reopen()
    must_be((5, 0), (cell.word(0), cell.bytes_len(0)))


if __name__ == "__main__":
    main()
