"""Each field of each value that crosses has a number of its own, so that none can show another's.

The images and frames are spelled here as docs/FORMATS.md of the repository says.
"""
import unittest
from typing import NamedTuple

from markring import Age, Batch, Ended, Freed, Image, Letter, Link, Node, Object, Passed, Ref, Shape, Space, State, Taken, Work
from markring import errors

from .spelling import spelled

LABEL, WORD, GENERATION = 0xA1B2C3D4, 0x0102030405060708, 1 << 40
TEXT = b"hello\0world"
# The last message that node 2 has acknowledged.
FAR = 0x060708090A0B


class Phase(NamedTuple):
    """What the images below differ in."""

    ended: int
    black: bool
    has_token: bool
    grey: int


MARKING, WITH_TOKEN, MARKED = Phase(40, True, False, 2), Phase(40, False, True, 0), Phase(41, True, False, 0)


def slots() -> bytes:
    """Four objects: one with places and bytes, one that is shared and remembered, two young ones."""
    first = spelled((4, 5), (1, 3), (8, GENERATION), (8, 41), (8, WORD), (4, 6)) + b"abcdef"
    places = spelled((1, 5), (4, 0), (1, 1), (1, 2), (4, 65_999), (8, 33))
    second = spelled((1, 7), (8, 78), (8, 40), (8, 11), (4, 2), (2, 0), (1, 1), (1, 0))
    free = spelled((1, 0), (8, 90))
    fourth = spelled((1, 4), (8, 79), (8, 41), (8, 13), (4, 0), (1, 0))
    fifth = spelled((1, 4), (8, 80), (8, 40), (8, 14), (4, 0), (1, 0))
    return first + places + second + free + fourth + fifth + spelled((4, 1), (4, 2))


def image(phase: Phase) -> bytes:
    """Node 1 of three in a wide space, in cycle 41."""
    sizes = spelled((3, 0x4D5204), (1, 9), (4, 17), (1, 3), (1, 1), (2, 300), (4, 70_000))
    phases = spelled((8, 41), (8, phase.ended), (8, 40), (4, 0), (1, phase.black), (8, -23), (8, 29))
    # The token is white, and its sum is 1,000.
    token = spelled((1, 1), (1, 0), (8, 1_000)) if phase.has_token else bytes(1)
    registers = bytes(299) + spelled((1, 1), (1, 2), (4, 66_001), (8, 34))
    grey = spelled((4, phase.grey), *[(4, 0), (4, 3)][: phase.grey])
    # A letter of three references, the second of which is nothing, and eleven bytes; then four of none. Each part says how
    # many follow it, and how many bytes it has.
    letters = spelled((4, 7), (1, 2), (4, LABEL), (1, 1), (1, 0), (4, 66_002), (8, 35), (1, 2), (4, 11)) + TEXT
    letters += spelled((1, 2), (4, LABEL), (1, 0), (1, 1), (4, 0))
    letters += spelled((1, 2), (4, LABEL), (1, 1), (1, 2), (4, 66_003), (8, 36), (1, 0), (4, 0))
    letters += spelled((1, 0), (4, 8), (1, 0), (1, 0), (4, 0)) * 4
    # Two letters without a reference wait for node 0.
    links = spelled((8, 50), (4, 2)) + spelled((8, 41), (1, 4), (4, 1), (1, 0)) * 2
    links += spelled((8, 60), (8, FAR), (4, 0), (8, 200))
    return sizes + phases + token + registers + slots() + grey + bytes(4) + letters + links


def frame(number: int) -> bytes:
    """A letter without a reference, from node 0."""
    return spelled((1, 0x45), (1, 0), (1, 1), (8, number), (8, 41), (1, 4), (4, 6), (1, 0))


STATE = State(
    nodes=3,
    own=1,
    black=True,
    has_token=False,
    registers=300,
    slots=70_000,
    live=4,
    cycle=41,
    ended=40,
    swept=40,
    earlier=-23,
    recent=29,
    grey=2,
    letters=7,
    places=9,
    bytes=17,
    is_wide=True,
)
OBJECTS = [
    Object(Ref(1, 0, GENERATION), WORD, 5, 6, True, False, Age.OLD),
    Object(Ref(1, 1, 78), 11, 1, 2, False, True, Age.REMEMBERED),
    None,
    Object(Ref(1, 3, 79), 13, 0, 0, True, False, Age.YOUNG),
    Object(Ref(1, 4, 80), 14, 0, 0, False, False, Age.YOUNG),
    None,
]


class Fields(unittest.TestCase):
    def node(self, phase: Phase) -> Node:
        node = Node.from_image(image(phase))
        self.addCleanup(node.close)
        return node

    def test_a_state_shows_each_number_of_the_image(self) -> None:
        self.assertEqual(self.node(MARKING).state(), STATE)
        self.assertEqual(self.node(WITH_TOKEN).state(), STATE._replace(black=False, has_token=True, grey=0))
        self.assertEqual(self.node(MARKED).state(), STATE._replace(ended=41, grey=0))
        # Node 0 of a plain space becomes white when it sends the token on.
        with Node(5, 7, 11, 0) as plain:
            plain.begin()
            state = plain.state()
        self.assertEqual(state[:10], (5, 0, False, False, 7, 11, 0, 1, 0, 0))
        self.assertEqual(state[10:], (0, 0, 0, 0, 8, 0, False))

    def test_the_fields_have_their_order(self) -> None:
        names = "nodes own black has_token registers slots live cycle ended swept earlier recent grey letters"
        self.assertEqual(" ".join(State._fields), f"{names} places bytes is_wide")
        self.assertEqual(" ".join(Link._fields), "appended released acknowledged received received_saved")
        self.assertEqual(" ".join(Object._fields), "reference word places bytes is_marked is_shared age")
        self.assertEqual(" ".join(Letter._fields), "sender label reference registers bytes")

    def test_an_object_shows_each_number_of_the_image(self) -> None:
        node = self.node(MARKING)
        self.assertEqual([node.object(slot) for slot in range(6)], OBJECTS)
        self.assertEqual(list(node.objects()), [it for it in OBJECTS if it])
        self.assertEqual(node.slots(), 5)
        self.assertEqual(node.places(0), [None] * 4 + [Ref(2, 65_999, 33)])
        self.assertEqual((node.read_bytes_at(0, 2, 3), node.read_bytes_at(0, 4)), (b"cde", b"ef"))
        self.assertEqual((node.register(299), node.register(298)), (Ref(2, 66_001, 34), None))
        # The new object gets the slot and the generation of the free one.
        self.assertEqual(node.alloc(7, 3), Ref(1, 2, 90))

    def test_a_letter_shows_each_number_of_the_image(self) -> None:
        reference = Ref(node=0, slot=66_002, generation=35)
        first = Letter(sender=2, label=LABEL, reference=reference, registers=3, bytes=11)
        second = Letter(sender=0, label=8, reference=None, registers=1, bytes=0)
        for with_bytes in (False, True):
            node = self.node(MARKED)
            self.assertEqual((node.letter(), node.letter_bytes()), (first, TEXT))
            accepted = node.accept_with_bytes(5) if with_bytes else (node.accept(5), TEXT)
            self.assertEqual(accepted, (first, TEXT))
            self.assertEqual([node.register(it) for it in (5, 6, 7)], [reference, None, Ref(2, 66_003, 36)])
            self.assertEqual((node.letter(), node.letter_bytes()), (second, b""))
            self.assertEqual((node.accept(5), node.register(5)), (second, None))
            self.assertEqual(node.accept_with_bytes(7), (second, b""))

    def test_a_letter_and_a_fetch_are_sent_with_each_number(self) -> None:
        head = spelled((1, 0x46), (1, 1), (1, 2), (8, FAR + 1), (8, 41))
        # Nothing, and the reference in register 299.
        far = spelled((1, 2), (4, 66_001), (8, 34))
        content = spelled((4, LABEL), (1, 2), (1, 0), (1, 1)) + far + spelled((4, 11)) + TEXT
        node = self.node(MARKED)
        self.assertEqual(node.post(to=2, label=LABEL, first=298, count=2, data=TEXT), FAR + 1)
        node.release()
        self.assertEqual(node.frames(2, FAR), [(FAR + 1, head + b"\x09" + content)])
        node = self.node(MARKED)
        self.assertEqual(node.fetch(object=299, label=LABEL, offset=0x01020304, count=0x0506), FAR + 1)
        node.release()
        content = far + spelled((4, LABEL), (4, 0x01020304), (4, 0x0506))
        self.assertEqual(node.frames(2, FAR), [(FAR + 1, head + b"\x0a" + content)])

    def test_a_fetch_brings_the_word_and_the_range(self) -> None:
        shape = Shape.wide(2, 4, 16, 2, 40)
        with Node.with_shape(shape, 0) as zero, Node.with_shape(shape, 1) as one:
            zero.alloc(0, 0)
            zero.set_word(0, WORD)
            zero.set_bytes(0, b"0123456789")
            zero.give(1, 1, 0)
            self.flush(zero, one)
            one.accept(3)
            for label, (offset, count, data) in enumerate([(0, 0, b""), (3, 4, b"3456"), (0, 10, b"0123456789"), (4, 7, b"")]):
                one.fetch(3, label, offset, count)
                self.flush(one, zero)
                self.flush(zero, one)
                expected = Letter(0, label, None, 1, 8 + len(data)), spelled((8, WORD)) + data
                self.assertEqual(one.accept_with_bytes(0), expected)

    def flush(self, sender: Node, receiver: Node) -> None:
        own = sender.state().own
        sender.release()
        for _, data in sender.frames(1 - own):
            receiver.take(data)
        receiver.release()
        sender.take(receiver.ack_for(own))

    def test_a_link_shows_each_number_of_its_own(self) -> None:
        node = self.node(MARKED)
        self.assertEqual([node.give(0, 3, 1) for _ in range(3)], [53, 54, 55])
        self.assertEqual([node.take(frame(number)) for number in range(61, 65)], [Taken.RECEIVED] * 4)
        expected = Link(appended=55, released=52, acknowledged=50, received=64, received_saved=60)
        self.assertEqual(node.link(0), expected)
        self.assertEqual(node.link(2), Link(FAR, FAR, FAR, 200, 200))
        self.assertEqual([number for number, _ in node.frames(0)], [51, 52])
        self.assertEqual([number for number, _ in node.frames(0, 51)], [52])
        self.assertEqual(node.frame_at(0, 1), node.frames(0)[1][1])
        self.assertEqual(node.ack_for(0), spelled((1, 0x42), (1, 1), (1, 0), (8, 60)))
        self.assertEqual(node.give(2, 3, 1), FAR + 1)
        node.release()
        self.assertEqual(node.frames(2, FAR)[0][0], FAR + 1)
        self.assertEqual([node.take(frame(66)), node.take(frame(65))], [Taken.EARLY, Taken.RECEIVED])
        self.assertEqual((node.waiting(0), node.waiting(2)), (66, None))

    def test_an_answer_shows_each_number_of_its_own(self) -> None:
        # The token's sum was 1,000, and the node's `earlier` is -23.
        self.assertEqual(self.node(WITH_TOKEN).pass_token(), Passed(black=False, sum=977))
        # Of the slots up to the fourth, the second has an object without the mark of cycle 41.
        node = self.node(MARKED)
        self.assertEqual([node.sweep(4), node.sweep(9)], [Freed(count=1, done=False), Freed(count=1, done=True)])
        self.assertEqual(self.node(MARKED).sweep(5), Freed(count=2, done=True))
        # No root leads to the private objects: an old one and two young ones.
        self.assertEqual((self.node(MARKED).reclaim(), self.node(MARKED).reclaim_young()), (3, 2))

    def test_a_reference_is_resolved_by_all_of_its_numbers(self) -> None:
        # Cycle 41 has marked the objects in the first slot and in the fourth.
        marking, marked = self.node(MARKING), self.node(MARKED)
        kept, white = Ref(1, 0, GENERATION), Ref(1, 1, 78)
        marking.resolve(register=258, reference=kept)
        self.assertEqual((marking.register(258), marking.word(258)), (kept, WORD))
        marking.resolve(0, Ref(1, 3, 79))
        self.assertEqual((marking.register(0), marking.word(0)), (Ref(1, 3, 79), 13))
        for node, reference, kind in (
            (marking, kept._replace(node=2), errors.Remote),
            (marking, kept._replace(slot=1), errors.NoField),
            (marking, kept._replace(slot=1 << 16), errors.NoField),
            (marking, kept._replace(generation=0), errors.NoField),
            (marking, kept._replace(generation=GENERATION + 1), errors.NoField),
            (marking, white, errors.NotNow),
            (marked, white, errors.NoField),
            (marking, kept._replace(node=257), errors.BadArgument),
            (marking, kept._replace(slot=1 << 32), errors.BadArgument),
            (marking, kept._replace(generation=GENERATION + (1 << 64)), errors.BadArgument),
            (marking, kept._replace(slot=-1), errors.BadArgument),
        ):
            with self.subTest(reference), self.assertRaises(kind):
                node.resolve(0, reference)
        self.assertEqual(marking.register(0), Ref(1, 3, 79))

    def take_early(self, node: Node) -> None:
        """Takes two early frames of node 0, and the one that comes before them."""
        self.assertEqual([node.take(frame(it)) for it in (63, 62, 61)], [Taken.EARLY, Taken.EARLY, Taken.RECEIVED])

    def test_work_shows_each_number_of_its_own(self) -> None:
        none = Work(received=0, scanned=0, passed=False, freed=None, more=False)
        # Two objects are grey. Limits are whole numbers.
        grey = self.node(MARKING)
        self.take_early(grey)
        self.assertEqual(grey.work(1, 9), none._replace(received=2, scanned=1, more=True))
        self.assertEqual(grey.work(65_536, 65_536), none._replace(scanned=1))
        self.assertEqual(grey.work(scans=9, slots=9), none)
        self.assertEqual(self.node(MARKING).work(256, 9), none._replace(scanned=2))
        self.assertEqual(self.node(MARKING).work(0, 9), none._replace(more=True))
        self.assertEqual(self.node(WITH_TOKEN).work(9, 9), none._replace(passed=True))
        marked = self.node(MARKED)
        self.assertEqual(marked.work(9, 0), none._replace(more=True))
        self.assertEqual(marked.work(9, 1), none._replace(freed=0, more=True))
        self.assertEqual(marked.work(9, 3), none._replace(freed=1, more=True))
        self.assertEqual(marked.work(9, 256), none._replace(freed=1))
        for slots in (65_536, 2**32 - 1):
            self.assertEqual(self.node(MARKED).work(9, slots), none._replace(freed=2))
        self.assertEqual(" ".join(Work._fields), "received scanned passed freed more")

    def test_work_that_is_refused_shows_what_it_did(self) -> None:
        node = self.node(MARKING)
        # The stamp of the third message is one that no node can have yet.
        late = bytearray(frame(64))
        late[18] = 99
        self.assertEqual(node.take(bytes(late)), Taken.EARLY)
        self.take_early(node)
        with self.assertRaises(errors.WrongNode) as caught:
            node.work(9, 9)
        self.assertEqual(caught.exception.done, Work(received=2, scanned=0, passed=False, freed=None, more=True))
        self.assertEqual(node.work(9, 9).scanned, 2)
        with self.assertRaises(errors.NothingToDo) as other:
            node.scan()
        self.assertIsNone(other.exception.done)

    def test_an_end_and_a_begin_show_their_cycles(self) -> None:
        # Node 0 of two in cycle 5, which it has swept, as the other one.
        swept = spelled((3, 0x4D5202), (1, 2), (1, 0), (2, 1), (4, 1), (8, 5), (8, 5), (8, 5), (4, 0))
        rest = spelled((1, 0), (8, 0), (8, 0), (1, 0), (8, 5), (1, 0), *[(4, 0)] * 5, (8, 0), (4, 0), (8, 0))
        with Node.from_image(swept + rest) as node:
            self.assertEqual(node.begin(), 6)
            # Begin is followed by the token.
            self.assertEqual(node.link(1).appended, 2)
        # The same in cycle 6, with a white token of sum 0.
        marking = spelled((3, 0x4D5202), (1, 2), (1, 0), (2, 1), (4, 1), (8, 6), (8, 5), (8, 5), (4, 0))
        token = spelled((1, 0), (8, 0), (8, 0), (1, 1), (1, 0), (8, 0))
        rest = spelled((8, 5), (1, 0), *[(4, 0)] * 5, (8, 0), (4, 0), (8, 0))
        with Node.from_image(marking + token + rest) as node:
            self.assertEqual(node.pass_token(), Ended(cycle=6))

    def test_a_shape_keeps_each_number(self) -> None:
        shape = Shape.wide(nodes=6, registers=301, slots=70_001, places=10, bytes=18)
        self.assertEqual(shape, Shape(6, 301, 70_001, 10, 18, True))
        self.assertEqual(Shape.plain(nodes=6, registers=33, slots=70), Shape(6, 33, 70, 8, 0, False))
        with Node.with_shape(shape, 4, 2) as node, Space.with_shape(shape) as space:
            cell = space.open()[4]
            for state in (node.state(), cell.state()):
                sizes = state.nodes, state.registers, state.slots, state.places, state.bytes, state.is_wide
                self.assertEqual((sizes, state.own), (tuple(shape), 4))
        with Node(6, 33, 70, 4, 2) as node, Space(6, 33, 70) as space:
            cell = space.open()[4]
            for state in (node.state(), cell.state()):
                self.assertEqual((state.nodes, state.registers, state.slots, state.own), (6, 33, 70, 4))

    def test_an_image_and_a_batch_have_their_marks(self) -> None:
        with Node(2, 1, 1, 0) as node:
            node.log()
            data = node.image().data
            self.assertEqual([node.image() for _ in range(2)], [Image(data=data, mark=2), Image(data=data, mark=3)])
            node.kept(3)
            self.assertEqual(node.batch(), Batch(data=bytes(8), mark=4))

    def test_the_nodes_that_are_apart_are_named_in_their_order(self) -> None:
        """Node 2 has received a letter of node 1 that the image of node 1 hasn't sent."""
        with Space(3, 2, 4) as space, Space(3, 2, 4) as later:
            cells = space.open()
            for node in range(2):
                later.disk(node, cells[node].image().data)
            cells[1].give(2, 9, 0)
            cells[1].save(cells[1].image().mark)
            self.assertEqual([cells[1].send(2), cells[1].send(2)], [True, False])
            self.assertEqual([cells[2].receive(it) for it in (0, 1)], [None, Taken.RECEIVED])
            self.assertTrue(cells[1].send(2))
            later.disk(2, cells[2].image().data)
            with self.assertRaises(errors.Ages) as caught:
                later.open()
            self.assertEqual((caught.exception.sender, caught.exception.receiver), (1, 2))

    def test_a_cell_shows_what_a_node_shows(self) -> None:
        def idle(own: int, to_one: int, from_one: int) -> bytes:
            """Node 0 or 2 of the same space, with what node 1 counts as acknowledged."""
            sizes = spelled((3, 0x4D5204), (1, 9), (4, 17), (1, 3), (1, own), (2, 300), (4, 70_000))
            phases = spelled((8, 40), (8, 40), (8, 40), (4, 0), (1, 0), (8, 0), (8, 0), (1, 0))
            reports = spelled((8, 40), (8, 40)) if own == 0 else b""
            links = [spelled((8, to_one), (4, 0), (8, from_one)), bytes(20)]
            return sizes + phases + reports + bytes(300 + 5 * 4) + b"".join(links if own == 0 else links[::-1])

        with Space.with_shape(Shape.wide(3, 300, 70_000, 9, 17), watches=2) as space:
            for node, stored in enumerate([idle(0, 60, 50), image(MARKING), idle(2, 200, FAR)]):
                space.disk(node, stored)
            zero, one, _two = space.open()
            watches = [space.watch(), space.watch()]
            self.assertIsNone(space.watch())
        self.assertEqual(one.state(), STATE)
        self.assertEqual(one.link(0), Link(52, 52, 50, 60, 60))
        self.assertEqual([one.object(slot) for slot in range(6)], OBJECTS)
        self.assertEqual(zero.raise_board(), 40)
        self.assertEqual([watch.look() for watch in watches if watch], [40, 40])


if __name__ == "__main__":
    unittest.main()
