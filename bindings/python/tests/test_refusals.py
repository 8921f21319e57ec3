"""Each call is refused with each error that include/markring.h names. What only a lack of memory causes is in full.py."""
import unittest
from typing import Any, Callable, Union

from markring import Cell, Node, Ref, Shape, Space, Taken, errors

from .spelling import spelled

LAST = 1 << 48
Rows = list[tuple[type, Callable[[], Any]]]


def spent(ended: int, grey: bool = False, token: bool = False) -> Node:
    """Node 1 of three in cycle 2, whose links have no number left.

    Register 0 has an object of its own with a reference of node 2 in its place, register 1 has one of node 2.
    """
    far = spelled((1, 1), (1, 2), (4, 3), (8, 5))
    head = spelled((3, 0x4D5202), (1, 3), (1, 1), (2, 3), (4, 16), (8, 2), (8, ended), (8, 1), (4, 0), (1, 0), (8, 0), (8, 0))
    ring = spelled((1, 1), (1, 0), (8, 0)) if token else bytes(1)
    registers = spelled((1, 1), (1, 1), (4, 0), (8, 1)) + far + bytes(1)
    slots = spelled((4, 1), (1, 1), (8, 1), (8, 2), (8, 0), (1, 1)) + far + spelled((4, 0), (4, grey)) + bytes(4 * grey)
    return Node.from_image(head + ring + registers + slots + bytes(8) + spelled((8, LAST), (4, 0), (8, 0)) * 2)


def wide_spent() -> Node:
    """Node 0 of two in a wide space, whose link has no number left. Register 0 has an object of node 1."""
    sizes = spelled((3, 0x4D5204), (1, 1), (4, 1), (1, 2), (1, 0), (2, 1), (4, 1)) + bytes(3 * 8 + 4 + 1 + 8 + 8 + 1 + 8)
    rest = spelled((1, 1), (1, 1), (4, 0), (8, 1)) + bytes(5 * 4) + spelled((8, LAST), (4, 0), (8, 0))
    return Node.from_image(sizes + rest)


def director(cycle: int, sent: int) -> Node:
    """Node 0 of two, which may begin a cycle after this one."""
    head = spelled((3, 0x4D5202), (1, 2), (1, 0), (2, 1), (4, 1), (8, cycle), (8, cycle), (8, cycle), (4, 0))
    rest = spelled((1, 0), (8, 0), (8, 0), (1, 0), (8, cycle), (1, 0), *[(4, 0)] * 5, (8, sent), (4, 0), (8, 0))
    return Node.from_image(head + rest)


def dead() -> Node:
    """A node whose register has a reference to an object that isn't live."""
    head = spelled((3, 0x4D5202), (1, 2), (1, 0), (2, 1), (4, 1), (8, 0), (8, 0), (8, 0), (4, 0))
    rest = spelled((1, 0), (8, 0), (8, 0), (1, 0), (8, 0), (1, 1), (1, 0), (4, 0), (8, 1), *[(4, 0)] * 5)
    return Node.from_image(head + rest + spelled((8, 0), (4, 0), (8, 0)))


def get_frame(number: int) -> bytes:
    """A frame from node 0 to node 1 with a Get of the object 1.0.1."""
    return spelled((1, 0x45), (1, 0), (1, 1), (8, number), (8, 2), (1, 6), (1, 1), (4, 0), (8, 1), (1, 0), (4, 7))


def letter(number: int, sender: int = 0, stamp: int = 2) -> bytes:
    """A frame with a letter without a reference."""
    return spelled((1, 0x45), (1, sender), (1, 1 - sender), (8, number), (8, stamp), (1, 4), (4, 9), (1, 0))


def pair() -> tuple[Node, Node]:
    """Two nodes: register 0 of node 0 has its only object, with a place, and register 1 one of node 1."""
    shape = Shape.plain(2, 3, 1)
    zero, one = Node.with_shape(shape, 0, 3), Node.with_shape(shape, 1)
    zero.alloc(0, 1)
    one.alloc(0, 1)
    one.give(0, 5, 0)
    one.release()
    zero.take(one.frames(0)[0][1])
    zero.accept(1)
    return zero, one


def marking() -> Node:
    """A node that marks, with an object that no register refers to."""
    node = Node(2, 1, 1, 0)
    node.alloc(0, 0)
    node.drop(0)
    node.begin()
    return node


def cells() -> tuple[Cell, Cell]:
    """The same with cells."""
    with Space(2, 3, 1) as space:
        zero, one = space.open()
    zero.alloc(0, 1)
    one.alloc(0, 1)
    one.give(0, 5, 0)
    one.save(one.image().mark)
    one.send(0)
    zero.receive(1)
    zero.accept(1)
    return zero, one


def twice(call: Callable[[], Any]) -> Callable[[], Any]:
    """The call, of which only the second one is refused."""
    return lambda: (call(), call())


def of_events(node: Union[Node, Cell]) -> Rows:
    """The events and the calls that nodes and cells have. There is a register 2, and no register 3."""
    e = errors
    return [
        *[(e.NoRegister, call) for call in with_object(node, 3)],
        *[(e.EmptyRegister, call) for call in with_object(node, 2)],
        *[(e.Remote, call) for call in with_object(node, 1)],
        (e.NoRegister, lambda: node.alloc(3, 9)),
        (e.TooManyFields, lambda: node.alloc(2, 9)),
        (e.ArenaFull, lambda: node.alloc(2, 1)),
        (e.NoRegister, lambda: node.copy(3, 0)),
        (e.EmptyRegister, lambda: node.copy(0, 2)),
        (e.NoRegister, lambda: node.drop(3)),
        (e.EmptyRegister, lambda: node.drop(2)),
        (e.NoField, lambda: node.load(0, 0, 1)),
        (e.NoField, lambda: node.store(0, 1, 0)),
        (e.EmptyRegister, lambda: node.store(0, 0, 2)),
        (e.NoField, lambda: node.clear(0, 1)),
        (e.TooManyBytes, lambda: node.set_bytes(0, b"")),
        (e.NoBytes, lambda: node.patch(0, 0, b"")),
        (e.NoBytes, lambda: node.read_bytes(0, 0, 1)),
        (e.NoBytes, lambda: node.read_bytes(0, 1)),
        (e.NoNode, lambda: node.give(2, 0, 0)),
        (e.SelfSend, lambda: node.give(0, 0, 0)),
        (e.NoRegister, lambda: node.give(1, 0, 3)),
        (e.NoNode, lambda: node.post(2, 0)),
        (e.SelfSend, lambda: node.post(0, 0)),
        (e.NoRegister, lambda: node.post(1, 0, 3, 1)),
        (e.TooManyFields, lambda: node.post(1, 0)),
        (e.NoRegister, lambda: node.accept(3)),
        (e.NoLetter, lambda: node.accept(0)),
        (e.NoLetter, lambda: node.accept_with_bytes(3)),
        (e.NoLetter, node.letter),
        (e.NoLetter, node.letter_bytes),
        (e.NoRegister, lambda: node.put(1, 0, 3)),
        (e.EmptyRegister, lambda: node.put(2, 0, 0)),
        (e.Local, lambda: node.put(0, 0, 0)),
        (e.NoField, lambda: node.put(1, 8, 0)),
        (e.NoRegister, lambda: node.get(3, 0, 0)),
        (e.EmptyRegister, lambda: node.get(2, 0, 0)),
        (e.Local, lambda: node.get(0, 0, 0)),
        (e.NoField, lambda: node.get(1, 8, 0)),
        (e.NoRegister, lambda: node.fetch(3, 0)),
        (e.EmptyRegister, lambda: node.fetch(2, 0)),
        (e.Local, lambda: node.fetch(0, 0)),
        (e.TooManyBytes, lambda: node.fetch(1, 0)),
        (e.NoRegister, lambda: node.resolve(3, Ref(0, 0, 1))),
        (e.Remote, lambda: node.resolve(2, Ref(1, 0, 1))),
        (e.NoField, lambda: node.resolve(2, Ref(0, 0, 2))),
        (e.NothingToDo, node.reclaim),
        (e.NothingToDo, node.reclaim_young),
        (e.CycleRunning, twice(node.begin)),
        (e.NothingToDo, node.pass_token),
        (e.NothingToDo, lambda: node.sweep(1)),
        (e.NothingToDo, twice(node.scan)),
        (e.NoNode, lambda: node.next(2)),
        (e.NothingToDo, lambda: node.next(1)),
        (e.NoNode, lambda: node.link(0)),
        (e.NoRegister, lambda: node.register(3)),
        (e.NoField, lambda: node.places(7)),
        (e.NoField, lambda: node.read_bytes_at(7)),
        (e.NoBytes, lambda: node.read_bytes_at(0, 0, 1)),
        (e.NoBytes, lambda: node.read_bytes_at(0, 1)),
    ]


def with_object(node: Union[Node, Cell], object: int) -> list[Callable[[], Any]]:
    """The calls that read or write the object that a register refers to."""
    return [
        lambda: node.load(0, object, 0),
        lambda: node.store(object, 0, 0),
        lambda: node.clear(object, 0),
        *without_place(node, object),
    ]


def without_place(node: Union[Node, Cell], object: int) -> list[Callable[[], Any]]:
    """Those of them that need no place."""
    return [
        lambda: node.word(object),
        lambda: node.set_word(object, 0),
        lambda: node.bytes_len(object),
        lambda: node.read_bytes(object),
        lambda: node.set_bytes(object, b""),
        lambda: node.patch(object, 0, b""),
    ]


def of_nodes() -> Rows:
    """The other calls of nodes."""
    (zero, one), e = pair(), errors
    image, (_, far) = one.image().data, one.frames(0)[0]
    for label in range(3):
        zero.give(1, label, 2)
    # The letter that waits has two references.
    shape = Shape.wide(2, 2, 1, 2, 1)
    wide, other = Node.with_shape(shape, 0), Node.with_shape(shape, 1)
    other.post(0, 0, 0, 2, b"7")
    other.release()
    wide.take(other.frames(0)[0][1])
    early, forged, worked = spent(1), spent(1), spent(1)
    taken = [early.take(get_frame(2)), early.take(letter(1))]
    mark = spelled((1, 0x45), (1, 0), (1, 1), (8, 2), (8, 2), (1, 3), (1, 2), (4, 0), (8, 1))
    for node in (forged, worked):
        taken += [node.take(mark), node.take(letter(1))]
    assert taken == [Taken.EARLY, Taken.RECEIVED] * 3
    return [
        *[(e.NoField, call) for call in without_place(dead(), 0)],
        (e.BadArgument, lambda: Node(1, 1, 1, 0)),
        (e.NoNode, lambda: Node(2, 1, 1, 2)),
        (e.BadArgument, lambda: Node.with_shape(Shape.plain(1, 1, 1), 0)),
        (e.NoNode, lambda: Node.with_shape(Shape.plain(2, 1, 1), 2)),
        (e.BadImage, lambda: Node.from_image(image[1:])),
        (e.BadImage, lambda: Node.from_batches(image, b"0")),
        (e.BadFrame, lambda: zero.take(far[1:])),
        (e.WrongNode, lambda: one.take(far)),
        (e.OutOfOrder, lambda: zero.take(letter(34, 1, 0))),
        (e.AckBeyond, lambda: zero.take(spelled((1, 0x42), (1, 1), (1, 0), (8, 99)))),
        (e.BadArgument, lambda: zero.frame_at(1, 32)),
        (e.NoNode, lambda: zero.frame_at(0, 0)),
        (e.NoNode, lambda: zero.frames(0)),
        (e.NoNode, lambda: zero.ack_for(2)),
        (e.NoLog, zero.batch_size),
        (e.NoLog, zero.batch),
        (e.WrongMark, lambda: zero.kept(1)),
        (e.NoNode, lambda: zero.waiting(0)),
        (e.NotDirector, one.begin),
        (e.NotNow, lambda: marking().resolve(0, Ref(0, 0, 1))),
        (e.Congested, lambda: zero.give(1, 0, 9)),
        (e.Congested, lambda: zero.put(1, 0, 9)),
        (e.Congested, lambda: zero.get(1, 0, 9)),
        (e.Congested, lambda: zero.post(1, 0, 9, 9)),
        (e.Congested, lambda: zero.fetch(1, 0, 0, 65_528)),
        (e.TooManyBytes, lambda: wide.post(1, 0, data=b"77")),
        (e.NoRegister, lambda: wide.accept(1)),
        (e.NoRegister, lambda: wide.accept_with_bytes(1)),
        *[(e.LinkSpent, call) for call in without_number()],
        (e.CyclesSpent, director(LAST, 0).begin),
        (e.LinkSpent, lambda: early.next(0)),
        (e.WrongNode, lambda: forged.next(0)),
        (e.WrongNode, lambda: worked.work(1, 1)),
    ]


def without_number() -> list[Callable[[], Any]]:
    """Calls at nodes whose links have no number left."""
    grey, marked, wide = spent(1, grey=True), spent(2), wide_spent()
    return [
        lambda: wide.post(1, 0),
        lambda: wide.fetch(0, 0),
        lambda: grey.give(2, 0, 0),
        lambda: grey.put(1, 0, 0),
        lambda: grey.get(1, 0, 0),
        lambda: grey.load(2, 0, 0),
        grey.scan,
        spent(1, token=True).pass_token,
        lambda: marked.sweep(9),
        lambda: grey.work(1, 0),
        lambda: spent(1, token=True).work(0, 0),
        lambda: marked.work(0, 9),
        director(5, LAST).begin,
        lambda: marked.take(get_frame(1)),
    ]


def of_spaces() -> Rows:
    """The calls of spaces and cells."""
    e, (space, bad, ages) = errors, [Space(2, 3, 1) for _ in range(3)]
    with Node(2, 3, 1, 0) as node:
        image = node.image().data
    zero, one = cells()
    ages.disk(0, zero.image().data)
    return [
        (e.BadArgument, lambda: Space(2, 0, 1)),
        (e.BadArgument, lambda: Space.with_shape(Shape.plain(2, 1, 0))),
        (e.NoNode, lambda: space.disk(2, image)),
        (e.WrongDisks, lambda: (bad.disk(1, image), bad.open())),
        (e.BadImage, lambda: (bad.disk(1, image[1:]), bad.open())),
        (e.Ages, ages.open),
        (e.InUse, twice(space.open)),
        (e.InUse, lambda: space.disk(0, image)),
        (e.NoNode, lambda: zero.receive(0)),
        (e.NoNode, lambda: zero.send(2)),
        (e.WrongMark, lambda: zero.save(zero.image().mark + 1)),
        (e.WrongMark, lambda: zero.save(zero.image().mark - 1)),
        (e.NotDirector, one.raise_board),
    ]


class Refusals(unittest.TestCase):
    def must_be(self, rows: Rows) -> None:
        for row, (kind, call) in enumerate(rows):
            with self.subTest(row=row, kind=kind.__name__), self.assertRaises(errors.Refusal) as caught:
                call()
            self.assertIs(type(caught.exception), kind, row)

    def test_events_are_refused_as_documented(self) -> None:
        for node in (pair()[0], cells()[0]):
            self.must_be(of_events(node))

    def test_nodes_refuse_as_documented(self) -> None:
        self.must_be(of_nodes())

    def test_spaces_and_cells_refuse_as_documented(self) -> None:
        self.must_be(of_spaces())

    def test_a_refusal_says_what_it_is(self) -> None:
        for kind in errors.CLASSES.values():
            self.assertEqual(str(kind()), kind.text)
        self.assertEqual(str(errors.NoLog()), "there is no log: take an image")
        self.assertTrue(issubclass(errors.Memory, MemoryError) and issubclass(errors.BadArgument, ValueError))

    def test_each_class_is_tried(self) -> None:
        tried = {kind for kind, _ in of_events(pair()[0]) + of_nodes() + of_spaces()}
        # The first three are in full.py, NoHandle is in test_memory.py; the two others can't happen, or take 64 MB.
        others = {errors.Memory, errors.Disk, errors.Closed, errors.NoHandle, errors.ShortBuffer, errors.ImageTooLarge}
        self.assertEqual(set(errors.CLASSES.values()) - tried, others)


if __name__ == "__main__":
    unittest.main()
