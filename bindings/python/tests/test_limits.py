"""Each argument at its limit, and one past it, as docs/RULES.md of the repository ("Limits") has them."""
import unittest
from typing import Any, Callable, Optional, Union

from markring import Cell, Letter, Node, Ref, Refusal, Shape, Space, Taken, errors

WIDE = Shape.wide(2, 65_535, 16_777_216, 255, 16_777_216)
# Numbers of registers that differ in a byte each.
REGISTERS = (0, 255, 256, 65_534)
Either = Union[Node, Cell]


def refusal(call: Callable[..., Any], *words: Any) -> Optional[type]:
    """The class of the refusal of a call."""
    try:
        call(*words)
    except Refusal as it:
        return type(it)
    return None


def calls_with_a_register(node: Either, none: int) -> dict[str, Optional[type]]:
    """All calls with a register, given a number past the last."""
    return {
        "alloc": refusal(node.alloc, none, 0),
        "copy to": refusal(node.copy, none, 0),
        "copy from": refusal(node.copy, 0, none),
        "drop": refusal(node.drop, none),
        "load to": refusal(node.load, none, 0, 0),
        "load from": refusal(node.load, 0, none, 0),
        "store to": refusal(node.store, none, 0, 0),
        "store from": refusal(node.store, 0, 0, none),
        "clear": refusal(node.clear, none, 0),
        "word": refusal(node.word, none),
        "set_word": refusal(node.set_word, none, 0),
        "bytes_len": refusal(node.bytes_len, none),
        "read_bytes": refusal(node.read_bytes, none, 0, 0),
        "set_bytes": refusal(node.set_bytes, none, b""),
        "patch": refusal(node.patch, none, 0, b""),
        "give": refusal(node.give, 1, 0, none),
        "post": refusal(node.post, 1, 0, none, 1),
        "accept": refusal(node.accept, none),
        "put to": refusal(node.put, none, 0, 0),
        "put from": refusal(node.put, 0, 0, none),
        "get": refusal(node.get, none, 0, 0),
        "fetch": refusal(node.fetch, none, 0),
        "resolve": refusal(node.resolve, none, Ref(1, 0, 1)),
        "register": refusal(node.register, none),
    }


class Limits(unittest.TestCase):
    def both(self, shape: Shape) -> list[Either]:
        """Node 0 and the cell of node 0 of a space of this shape."""
        node = Node.with_shape(shape, 0)
        self.addCleanup(node.close)
        with Space.with_shape(shape) as space:
            cells = space.open()
        for cell in cells:
            self.addCleanup(cell.close)
        return [node, cells[0]]

    def test_each_call_uses_the_whole_number_of_a_register(self) -> None:
        for node in self.both(WIDE):
            objects = [node.alloc(register, 255) for register in REGISTERS]
            for register in REGISTERS:
                node.set_word(register, register)
            for register, name in zip(REGISTERS, objects):
                self.assertEqual((node.register(register), node.word(register)), (name, register))
                node.copy(300, register)
                self.assertEqual(node.register(300), name)
                node.set_bytes(register, b"0123")
                node.patch(register, 2, b"x")
                self.assertEqual((node.bytes_len(register), node.read_bytes(register, 1)), (4, b"1x3"))
                node.store(300, 0, register)
                self.assertEqual(node.load(301, register, 0), name)
                node.clear(register, 0)
                self.assertIsNone(node.load(register, 300, 0))
                self.assertIsNone(node.register(register))
                node.copy(register, 300)
                node.drop(register)
                self.assertIsNone(node.register(register))
                node.copy(register, 300)
            self.assertEqual([node.register(it) for it in REGISTERS], objects)

    def test_there_is_no_register_past_the_last(self) -> None:
        for shape, none in ((WIDE, 65_535), (Shape.plain(2, 256, 16), 256)):
            for node in self.both(shape):
                node.alloc(0, 1)
                for call, found in calls_with_a_register(node, none).items():
                    self.assertIs(found, errors.NoRegister, call)
                for wrong in (-1, 65_536, 65_536 + 1):
                    for call, found in calls_with_a_register(node, wrong).items():
                        self.assertIs(found, errors.BadArgument, call)
                node.alloc(none - 1, 1)
                node.store(none - 1, 0, 0)
                self.assertEqual(node.load(none - 1, none - 1, 0), node.register(0))

    def test_messages_use_whole_numbers(self) -> None:
        nodes = [Node.with_shape(WIDE, own) for own in range(2)]

        def flush(giver: int) -> None:
            nodes[giver].release()
            for _, frame in nodes[giver].frames(1 - giver):
                self.assertNotEqual(nodes[1 - giver].take(frame), Taken.EARLY)
            nodes[1 - giver].release()
            nodes[giver].take(nodes[1 - giver].ack_for(giver))

        for register, label in zip(REGISTERS, (0, 255, 65_536, 2**32 - 1)):
            name = nodes[0].alloc(register, 255)
            nodes[0].give(1, label, register)
            flush(0)
            self.assertEqual(nodes[1].accept(register), Letter(0, label, name, 1, 0))
            nodes[1].put(register, 254, register)
            nodes[1].get(register, 254, label)
            self.assertIs(refusal(nodes[1].get, register, 255, 0), errors.NoField)
            self.assertIs(refusal(nodes[1].put, register, 255, 0), errors.NoField)
            flush(1)
            self.assertEqual(nodes[0].load(7, register, 254), name)
            flush(0)
            self.assertEqual(nodes[1].accept(9), Letter(0, label, name, 1, 0))
        for node in nodes:
            node.close()

    def test_letters_with_bytes_use_whole_numbers(self) -> None:
        data = bytes(it % 253 for it in range(65_536))
        with Node.with_shape(WIDE, 0) as zero, Node.with_shape(WIDE, 1) as one:
            for register, label in zip(REGISTERS, (0, 255, 65_536, 2**32 - 1)):
                name = zero.alloc(register, 0)
                for length in (0, 1, 255, 256, 65_535):
                    zero.post(1, label, register, 1, data[:length])
                    zero.release()
                    frames = [frame for _, frame in zero.frames(1)]
                    # The head, the label, the two lengths and the reference.
                    self.assertEqual([len(it) for it in frames], [20 + 4 + 5 + 14 + length])
                    self.assertEqual(zero.frame_at(1, 0), frames[0])
                    self.assertEqual(one.take(frames[0]), Taken.RECEIVED)
                    found = one.accept_with_bytes(register)
                    self.assertTrue(found == (Letter(0, label, name, 1, length), data[:length]))
                    self.assertEqual(one.register(register), name)
                    one.release()
                    zero.take(one.ack_for(0))
                one.fetch(register, label, 2**32 - 1, 65_527)
                for count in (65_528, 2**32 - 1):
                    self.assertIs(refusal(one.fetch, register, label, 0, count), errors.TooManyBytes)

    def test_letters_end_at_the_places_and_bytes_of_the_shape(self) -> None:
        shapes = [(WIDE, 255, 65_535), (Shape.wide(2, 300, 16, 254, 65_534), 254, 65_534), (Shape.wide(2, 300, 16, 0, 0), 0, 0)]
        for shape, places, length in shapes:
            for node in self.both(shape):
                self.assertEqual(node.post(1, 0, 0, places, bytes(length)), 1)
                above = errors.BadArgument if places == 255 else errors.TooManyFields
                self.assertIs(refusal(node.post, 1, 0, 0, places + 1, bytes(length + 1)), above)
                self.assertIs(refusal(node.post, 1, 0, 0, 0, bytes(length + 1)), errors.TooManyBytes)
                self.assertEqual(node.post(1, 0, shape.registers), 2)
                self.assertIs(refusal(node.post, 1, 0, shape.registers - 1, 2), errors.NoRegister)
                for words in ((256, 0), (1, -1), (1, 2**32), (1, 0, 2**16), (1, 0, -1), (1, 0, 0, -1)):
                    self.assertIs(refusal(node.post, *words), errors.BadArgument, words)
                for words in ((-1, 0), (2**16, 0), (0, 2**32), (0, 0, -1), (0, 0, 2**32), (0, 0, 0, -1)):
                    self.assertIs(refusal(node.fetch, *words), errors.BadArgument, words)
                for wrong in (-1, 2**16):
                    self.assertIs(refusal(node.accept, wrong), errors.BadArgument)

    def test_a_window_has_the_frames_of_long_letters(self) -> None:
        shape = Shape.wide(2, 300, 16, 255, 70_000)
        texts = [bytes([it % 256]) * it for it in (3, 65_535, 0, 2_000)]
        with Node.with_shape(shape, 0) as zero, Node.with_shape(shape, 1) as one:
            for label, text in enumerate(texts):
                zero.post(1, label, 0, 80 * label, text)
            zero.give(1, 9, 0)
            zero.release()
            frames = zero.frames(1)
            self.assertEqual([number for number, _ in frames], [1, 2, 3, 4, 5])
            self.assertEqual([zero.frame_at(1, it) for it in range(6)], [frame for _, frame in frames] + [None])
            self.assertEqual((zero.frames(1, 2), zero.frames(1, 5)), (frames[2:], []))
            self.assertEqual([one.take(frame) for _, frame in frames], [Taken.RECEIVED] * 5)
            for label, text in enumerate(texts):
                found = one.accept_with_bytes(0)
                self.assertTrue(found == (Letter(0, label, None, max(80 * label, 1), len(text)), text), label)
            one.release()
            zero.take(one.ack_for(0))
            zero.post(1, 7, 0, 0, texts[1])
            zero.release()
            self.assertEqual([number for number, _ in zero.frames(1)], [6])

    def test_places_end_at_that_of_the_shape(self) -> None:
        for shape, most in ((WIDE, 255), (Shape.wide(2, 2, 16, 254, 0), 254), (Shape.plain(2, 2, 16), 8)):
            for node in self.both(shape):
                name = node.alloc(0, most)
                node.store(0, most - 1, 0)
                self.assertEqual(node.places(0), [None] * (most - 1) + [name])
                for call, words in ((node.store, (0, most, 0)), (node.load, (1, 0, most)), (node.clear, (0, most))):
                    self.assertIs(refusal(call, *words), errors.NoField)
                above = errors.BadArgument if most == 255 else errors.TooManyFields
                self.assertIs(refusal(node.alloc, 1, most + 1), above)
                self.assertIs(refusal(node.clear, 0, -1), errors.BadArgument)
                self.assertIs(refusal(node.clear, 0, 256), errors.BadArgument)
                node.clear(0, most - 1)
                self.assertEqual(node.places(0), [None] * most)

    def test_bytes_end_at_those_of_the_shape(self) -> None:
        for shape, most in ((WIDE, 16_777_216), (Shape.wide(2, 2, 16, 0, 65_600), 65_600)):
            for node in self.both(shape):
                data = bytearray(it % 251 for it in range(most))
                node.alloc(0, 0)
                node.set_bytes(0, bytes(data))
                node.patch(0, most - 1, b"\xfc")
                node.patch(0, 65_537, b"\xfd\xfe")
                data[most - 1], data[65_537], data[65_538] = 0xFC, 0xFD, 0xFE
                self.assertEqual(node.bytes_len(0), most)
                self.assertTrue(node.read_bytes(0) == node.read_bytes_at(0) == data)
                self.assertEqual(node.read_bytes_at(0, 65_537, 3), data[65_537:65_540])
                self.assertEqual(node.read_bytes(0, most - 3), data[-3:])
                self.assertEqual((node.read_bytes(0, most), node.read_bytes_at(0, most)), (b"", b""))
                node.patch(0, most, b"")
                for call, words in (
                    (node.read_bytes, (0, most - 1, 2)),
                    (node.read_bytes, (0, 0, 2**32 - 1)),
                    (node.read_bytes_at, (0, most - 1, 2)),
                    (node.read_bytes_at, (0, 0, 2**32 - 1)),
                    (node.patch, (0, most - 1, b"01")),
                    (node.patch, (0, most, b"0")),
                ):
                    self.assertIs(refusal(call, *words), errors.NoBytes)
                self.assertIs(refusal(node.set_bytes, 0, bytes(most + 1)), errors.TooManyBytes)
                for call in (node.read_bytes, node.read_bytes_at):
                    for words in ((0, -1), (0, 2**32), (0, 0, -1), (0, 0, 2**32), (0, 0, 2**60)):
                        self.assertIs(refusal(call, *words), errors.BadArgument, words)

    def test_slots_end_at_those_of_the_shape(self) -> None:
        for node in self.both(Shape.wide(2, 1, 65_540, 1, 1)):
            self.assertTrue(all(node.alloc(0, slot > 1 and slot % 256 == 1).slot == slot for slot in range(65_540)))
            self.assertIs(refusal(node.alloc, 0, 0), errors.ArenaFull)
            self.assertEqual((node.slots(), node.state().live), (65_540, 65_540))
            for slot in (0, 255, 256, 65_535, 65_536, 65_539):
                it = node.object(slot)
                self.assertTrue(it and it.reference.slot == slot)
            # The places of one slot aren't those of the slot with the same low byte or low half.
            self.assertEqual([node.places(it) for it in (65_537, 65_536, 1, 0)], [[None], [], [], []])
            node.set_bytes(0, b"7")
            self.assertEqual((node.read_bytes_at(65_539), node.read_bytes_at(3)), (b"7", b""))
            for slot in (65_540, 2**32 - 1):
                self.assertIsNone(node.object(slot))
                self.assertIs(refusal(node.places, slot), errors.NoField)
                self.assertIs(refusal(node.read_bytes_at, slot), errors.NoField)
            for slot in (-1, 2**32):
                self.assertIs(refusal(node.object, slot), errors.BadArgument)

    def test_words_labels_counts_and_marks_use_whole_numbers(self) -> None:
        for node in self.both(WIDE):
            node.alloc(0, 0)
            for word in (0, 255, 2**32, 2**64 - 1):
                node.set_word(0, word)
                self.assertEqual(node.word(0), word)
            for count in (0, 256, 2**32 - 1):
                self.assertIs(refusal(node.sweep, count), errors.NothingToDo)
            wrong = [(node.set_word, (0, 2**64)), (node.set_word, (0, -1)), (node.sweep, (2**32,)), (node.sweep, (-1,))]
            wrong += [(node.work, (2**32, 0)), (node.work, (-1, 0)), (node.work, (0, 2**32)), (node.work, (0, -1))]
            wrong += [(node.give, (1, 2**32, 0)), (node.give, (1, -1, 0)), (node.give, (256, 0, 0))]
            wrong += [(node.kept if isinstance(node, Node) else node.save, (2**64,))]
            if isinstance(node, Node):
                wrong += [(node.frames, (1, 2**64)), (node.frames, (1, -1)), (node.frame_at, (1, 32))]
            for call, words in wrong:
                self.assertIs(refusal(call, *words), errors.BadArgument, (call, words))

    def test_nodes_end_at_those_of_the_space(self) -> None:
        node, cell = self.both(Shape.plain(64, 1, 1))
        assert isinstance(node, Node) and isinstance(cell, Cell)
        calls: list[Callable[[int], Any]] = [
            lambda it: node.give(it, 0, 0),
            node.link,
            node.frames,
            lambda it: node.frame_at(it, 31),
            node.ack_for,
            node.waiting,
            lambda it: cell.give(it, 0, 0),
            cell.link,
            cell.send,
            cell.receive,
        ]
        for index, call in enumerate(calls):
            found = [refusal(call, it) for it in (1, 63, 64, 255, 256, -1)]
            expected = [None, None, errors.NoNode, errors.NoNode, errors.BadArgument, errors.BadArgument]
            self.assertEqual(found, expected, index)
        self.assertEqual([refusal(node.next, it) for it in (63, 64)], [errors.NothingToDo, errors.NoNode])
        for own, found in ((0, None), (63, None), (64, errors.NoNode), (256, errors.BadArgument)):
            self.assertIs(refusal(Node, 64, 1, 1, own), found)
            self.assertIs(refusal(Node.with_shape, Shape.plain(64, 1, 1), own), found)
        self.assertEqual((node.link(63).appended, node.link(62).appended), (1, 0))

    def test_spaces_end_at_their_nodes_and_watches(self) -> None:
        with Space(64, 1, 1, 255) as space, Node(64, 1, 1, 63) as node:
            found = [refusal(space.disk, it, node.image().data) for it in (63, 64, 256)]
            self.assertEqual(found, [None, errors.NoNode, errors.BadArgument])
            self.assertIsNone(space.watch())
            self.assertEqual([cell.state().own for cell in space.open()], list(range(64)))
            watches = [space.watch() for _ in range(256)]
            self.assertEqual([watch is None for watch in watches], [False] * 255 + [True])
        self.assertIs(refusal(Space, 2, 1, 1, 256), errors.BadArgument)

    def test_sizes_end_at_their_limits(self) -> None:
        bad = errors.BadArgument
        sizes = [(2, 1, 1), (64, 256, 1_048_576)]
        wrong = [(1, 1, 1), (65, 1, 1), (255, 1, 1), (256 + 2, 1, 1), (2, 0, 1), (2, 257, 1), (2, 65_536 + 1, 1)]
        wrong += [(2, 1, 0), (2, 1, 1_048_577), (2, 1, 2**32 + 1), (-1, 1, 1), (2, -1, 1), (2, 1, -1)]
        for each, expected in [(it, None) for it in sizes] + [(it, bad) for it in wrong]:
            self.assertIs(refusal(Node, *each, 1), expected, each)
            self.assertIs(refusal(Space, *each), expected, each)
            self.assertIs(refusal(Node.with_shape, Shape.plain(*each), 1), expected, each)
            self.assertIs(refusal(Space.with_shape, Shape.plain(*each)), expected, each)

    def test_limits_of_messages_are_kept(self) -> None:
        with Node(2, 1, 1, 0) as node:
            image = node.image().data
        shape = Shape.wide(2, 1, 1, 0, 0)
        for limit in (1, 3, 256):
            for node in (
                Node(2, 1, 1, 0, limit),
                Node.with_shape(shape, 0, limit),
                Node.from_image(image, limit),
                Node.from_batches(image, b"", limit),
            ):
                self.assertEqual([node.give(1, 0, 0) for _ in range(limit)], list(range(1, limit + 1)))
                self.assertIs(refusal(node.give, 1, 0, 0), errors.Congested)
                node.close()
        for node in (Node(2, 1, 1, 0), Node(2, 1, 1, 0, 2**64 - 1)):
            self.assertEqual([node.give(1, 0, 0) for _ in range(2_000)], list(range(1, 2_001)))
            node.close()
        for limit in (-1, 2**64):
            self.assertIs(refusal(Node.from_image, image, limit), errors.BadArgument)


if __name__ == "__main__":
    unittest.main()
