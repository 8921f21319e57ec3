"""Events, frames and images of nodes. What is expected comes from docs/RULES.md and docs/FORMATS.md."""
import unittest

from markring import Again, Age, Ended, Freed, Letter, Link, Node, Object, Passed, Ref, Refusal, Shape, Taken, errors


def deliver(giver: Node, own: int, receiver: Node) -> list[Taken]:
    """Saves the node, and sends all its frames to the other one."""
    giver.kept(giver.image().mark)
    taken = [receiver.take(frame) for _, frame in giver.frames(1 - own)]
    giver.take(receiver.ack_for(own))
    return taken


class Nodes(unittest.TestCase):
    def setUp(self) -> None:
        self.zero, self.one = Node(2, 4, 16, 0), Node(2, 4, 16, 1)
        self.addCleanup(self.zero.close)
        self.addCleanup(self.one.close)

    def test_events_answer_as_the_rules_say(self) -> None:
        zero = self.zero
        self.assertEqual(zero.alloc(0, 2), Ref(0, 0, 1))
        self.assertEqual(str(zero.alloc(1, 0)), "0.1.1")
        zero.set_word(0, 2**64 - 1)
        self.assertEqual(zero.word(0), 2**64 - 1)
        zero.store(0, 1, 1)
        self.assertEqual(zero.load(2, 0, 1), Ref(0, 1, 1))
        self.assertIsNone(zero.load(2, 0, 0))
        self.assertIsNone(zero.register(2))
        zero.copy(3, 0)
        self.assertEqual(zero.register(3), Ref(0, 0, 1))
        zero.clear(3, 1)
        self.assertIsNone(zero.load(2, 0, 1))
        zero.drop(3)
        self.assertEqual(zero.give(1, 9, 1), 1)
        state = zero.state()
        self.assertEqual((state.nodes, state.own, state.registers, state.slots), (2, 0, 4, 16))
        self.assertEqual((state.live, state.recent, state.earlier, state.black), (2, 1, 0, False))
        self.assertTrue(zero.unsaved())

    def test_each_refusal_has_a_class(self) -> None:
        zero = self.zero
        expected = [
            (errors.NoRegister, lambda: zero.alloc(4, 9)),
            (errors.TooManyFields, lambda: zero.alloc(0, 9)),
            (errors.EmptyRegister, lambda: zero.word(0)),
            (errors.NoNode, lambda: zero.give(2, 0, 4)),
            (errors.SelfSend, lambda: zero.give(0, 0, 4)),
            (errors.NoLetter, lambda: zero.accept(0)),
            (errors.NothingToDo, zero.scan),
            (errors.NotDirector, self.one.begin),
            (errors.BadFrame, lambda: zero.take(b"")),
            (errors.BadImage, lambda: Node.from_image(b"MR")),
            (errors.BadArgument, lambda: Node(1, 4, 16, 0)),
            (errors.BadArgument, lambda: zero.alloc(1 << 16, 0)),
            (errors.BadArgument, lambda: zero.alloc(-1, 0)),
            (errors.BadArgument, lambda: zero.frame_at(1, 32)),
            (errors.WrongMark, lambda: zero.kept(1)),
        ]
        for kind, call in expected:
            with self.subTest(kind), self.assertRaises(kind) as caught:
                call()
            self.assertIsInstance(caught.exception, Refusal)
            self.assertEqual(caught.exception.status, kind.status)
        self.assertEqual(len(errors.CLASSES), 27 + 9)

    def test_sizes_of_shapes_are_tested(self) -> None:
        plain = Shape.plain

        def wide(nodes: int, registers: int, slots: int, places: int, count: int = 0) -> Shape:
            return Shape.wide(nodes, registers, slots, places, count)

        bad = [plain(2, 257, 1), plain(2, 1, 1_048_577), plain(2, 1, 1)._replace(places=7)]
        bad += [plain(2, 1, 1)._replace(places=9), wide(1, 1, 1, 0), wide(65, 1, 1, 0), wide(2, 0, 1, 0)]
        bad += [wide(2, 65_536, 1, 0), wide(2, 1, 0, 0), wide(2, 1, 16_777_217, 0), wide(2, 1, 1, 256)]
        bad += [wide(2 + 256, 1, 1, 1), wide(2, 1, 1 << 32, 1), wide(2, 1, 1, -1), wide(2, -1, 1, 1)]
        bad += [wide(2, 1, 1, 1, 16_777_217), wide(2, 1, 1, 1, -1), plain(2, 1, 1)._replace(bytes=1)]
        for shape in bad:
            with self.subTest(shape), self.assertRaises(errors.BadArgument):
                Node.with_shape(shape, 0)
        with self.assertRaises(errors.NoNode):
            Node.with_shape(wide(2, 1, 1, 0), 2)
        for shape in (plain(64, 256, 1_048_576), wide(64, 65_535, 16_777_216, 255, 16_777_216), wide(2, 1, 1, 0)):
            with Node.with_shape(shape, 1) as node:
                state = node.state()
                self.assertEqual((state.nodes, state.registers, state.slots), shape[:3])
                self.assertEqual((state.places, state.bytes, state.is_wide), shape[3:])

    def test_objects_of_wide_nodes_have_bytes(self) -> None:
        node = Node.with_shape(Shape.wide(2, 2, 16, 1, 10), 0)
        self.addCleanup(node.close)
        node.alloc(0, 1)
        self.assertEqual((node.bytes_len(0), node.read_bytes(0)), (0, b""))
        node.set_bytes(0, b"0123456789")
        node.patch(0, 3, b"\0\xff")
        self.assertEqual((node.bytes_len(0), node.read_bytes(0)), (10, b"012\0\xff56789"))
        self.assertEqual((node.read_bytes(0, 4), node.read_bytes(0, 4, 2)), (b"\xff56789", b"\xff5"))
        image = node.image()
        again = Node.from_image(image.data)
        self.addCleanup(again.close)
        self.assertEqual(again.read_bytes(0), node.read_bytes(0))
        for kind, call in (
            (errors.TooManyBytes, lambda: node.set_bytes(0, b"01234567890")),
            (errors.NoBytes, lambda: node.patch(0, 9, b"01")),
            (errors.NoBytes, lambda: node.read_bytes(0, 9, 2)),
            (errors.EmptyRegister, lambda: node.set_bytes(1, b"")),
            (errors.NoRegister, lambda: node.read_bytes(2)),
        ):
            self.assertRaises(kind, call)
        self.zero.alloc(0, 0)
        self.assertRaises(errors.TooManyBytes, lambda: self.zero.set_bytes(0, b""))
        self.assertRaises(errors.NoBytes, lambda: self.zero.patch(0, 0, b""))

    def test_all_objects_can_be_looked_at(self) -> None:
        node = Node.with_shape(Shape.wide(2, 2, 16, 3, 10), 0)
        self.addCleanup(node.close)
        self.assertEqual((node.slots(), list(node.objects())), (0, []))
        old = node.alloc(0, 1)
        node.alloc(1, 3)
        self.assertEqual(node.reclaim(), 0)
        node.drop(1)
        young = node.alloc(1, 0)
        node.set_bytes(1, b"any bytes")
        node.set_word(1, 77)
        node.store(0, 0, 1)
        node.give(1, 7, 0)
        # The second object is garbage now. The third one is young, and an old one refers to it.
        expected = [
            Object(old, 0, 1, 0, True, True, Age.OLD),
            Object(Ref(0, 1, 1), 0, 3, 0, True, False, Age.OLD),
            Object(young, 77, 0, 9, True, False, Age.REMEMBERED),
        ]
        self.assertEqual(list(node.objects()), expected)
        self.assertEqual([node.object(slot) for slot in range(4)], [*expected, None])
        self.assertEqual([node.places(slot) for slot in range(3)], [[young], [None] * 3, []])
        self.assertEqual((node.read_bytes_at(2), node.read_bytes_at(2, 4, 3)), (b"any bytes", b"byt"))
        for kind, call in (
            (errors.NoField, lambda: node.places(3)),
            (errors.NoField, lambda: node.read_bytes_at(3)),
            (errors.NoBytes, lambda: node.read_bytes_at(2, 4, 6)),
            (errors.BadArgument, lambda: node.object(-1)),
        ):
            self.assertRaises(kind, call)
        self.assertEqual(node.reclaim(), 1)
        self.assertEqual([it.reference for it in node.objects()], [old, young])
        self.assertEqual(node.slots(), 3)

    def test_wide_nodes_have_more_registers_and_places(self) -> None:
        shape = Shape.wide(2, 65_535, 16_777_216, 255, 16_777_216)
        zero, one = Node.with_shape(shape, 0), Node.with_shape(shape, 1, limit=5)
        self.addCleanup(zero.close)
        self.addCleanup(one.close)
        name = zero.alloc(65_534, 255)
        zero.store(65_534, 254, 65_534)
        self.assertEqual(zero.load(0, 65_534, 254), name)
        for kind, call in (
            (errors.NoRegister, lambda: zero.alloc(65_535, 0)),
            (errors.NoField, lambda: zero.load(0, 65_534, 255)),
            (errors.TooManyFields, lambda: self.zero.alloc(0, 9)),
        ):
            self.assertRaises(kind, call)
        zero.give(1, 7, 65_534)
        self.assertEqual(deliver(zero, 0, one), [Taken.RECEIVED])
        one.accept(65_534)
        self.assertRaises(errors.NoField, lambda: one.get(65_534, 255, 8))
        one.get(65_534, 254, 8)
        one.kept(one.image().mark)
        self.assertEqual(one.frames(0)[0][1][0], 0x46)
        self.assertRaises(errors.WrongNode, lambda: self.zero.take(one.frames(0)[0][1]))
        self.assertEqual(deliver(one, 1, zero), [Taken.RECEIVED])
        self.assertEqual(deliver(zero, 0, one), [Taken.REPEAT, Taken.RECEIVED])
        self.assertEqual(one.accept(0).reference, name)
        with Node.from_image(zero.image().data) as again:
            self.assertEqual(again.state(), zero.state())

    def test_a_closed_node_is_refused(self) -> None:
        with Node(2, 4, 16, 0) as node:
            node.alloc(0, 0)
        node.close()
        with self.assertRaises(errors.NoHandle):
            node.word(0)

    def test_a_letter_crosses(self) -> None:
        self.zero.alloc(0, 0)
        self.zero.give(1, 7, 0)
        self.assertEqual(self.zero.frames(1), [])
        self.assertEqual(deliver(self.zero, 0, self.one), [Taken.RECEIVED])
        self.assertEqual(self.one.accept(2), Letter(0, 7, Ref(0, 0, 1)))
        self.assertEqual(self.one.put(2, 1, 2), 1)
        self.assertEqual(self.one.get(2, 1, 5), 2)
        with self.assertRaises(errors.Remote):
            self.one.word(2)

    def test_frames_are_spelled_as_the_formats_say(self) -> None:
        self.zero.alloc(0, 0)
        self.zero.give(1, 7, 0)
        self.zero.kept(self.zero.image().mark)
        frame = bytes.fromhex("450001 0000000000000001 0000000000000000 04 00000007 01 00 00000000 0000000000000001")
        self.assertEqual(self.zero.frames(1), [(1, frame)])
        self.assertEqual(self.zero.frame_at(1, 0), frame)
        self.assertIsNone(self.zero.frame_at(1, 1))
        self.assertEqual(self.zero.ack_for(1), bytes.fromhex("42 00 01 0000000000000000"))

    def test_early_frames_wait_for_their_turn(self) -> None:
        for label in range(2):
            self.zero.give(1, label, 0)
        self.zero.kept(self.zero.image().mark)
        (_, first), (_, second) = self.zero.frames(1)
        self.assertEqual(self.one.take(second), Taken.EARLY)
        self.assertIsNone(self.one.waiting(0))
        self.assertEqual(self.one.take(first), Taken.RECEIVED)
        self.assertEqual(self.one.waiting(0), 2)
        self.one.next(0)
        self.assertEqual(self.one.take(second), Taken.REPEAT)
        self.assertEqual([self.one.accept(0).label for _ in range(2)], [0, 1])

    def test_kept_releases_what_the_image_holds(self) -> None:
        self.zero.give(1, 1, 0)
        image = self.zero.image()
        self.zero.give(1, 2, 0)
        self.zero.kept(image.mark)
        self.assertEqual(self.zero.link(1), Link(2, 1, 0, 0, 0))
        self.assertTrue(self.zero.unsaved())
        with Node.from_image(image.data) as again:
            self.assertEqual(again.link(1), Link(1, 1, 0, 0, 0))

    def test_batches_lead_on_from_an_image(self) -> None:
        zero = self.zero
        self.assertRaises(errors.NoLog, zero.batch)
        zero.log()
        image = zero.image()
        self.assertRaises(errors.NoLog, zero.batch_size)
        zero.kept(image.mark)
        zero.alloc(0, 1)
        zero.give(1, 7, 0)
        first = zero.batch()
        zero.set_word(0, 5)
        zero.kept(first.mark)
        second = zero.batch()
        self.assertEqual(second.data, bytes([0] * 7 + [11, 8, 0, 0] + [0] * 7 + [5]))
        zero.kept(second.mark)
        with Node.from_batches(image.data, first.data + second.data) as again:
            self.assertEqual((again.word(0), again.link(1)), (5, Link(1, 1, 0, 0, 0)))
            self.assertEqual(again.batch().data, bytes(8))
        self.assertRaises(errors.BadImage, Node.from_batches, image.data, second.data[:-1])
        self.assertRaises(errors.BadImage, Node.from_image, image.data)
        zero.log(False)
        with Node.from_image(zero.image().data) as again:
            self.assertEqual(again.word(0), 5)

    def test_a_release_needs_no_image(self) -> None:
        self.zero.give(1, 1, 0)
        self.assertEqual(self.zero.frames(1), [])
        self.zero.release()
        self.assertFalse(self.zero.unsaved())
        self.assertEqual(self.zero.link(1), Link(1, 1, 0, 0, 0))

    def test_a_limit_bounds_what_is_not_acknowledged(self) -> None:
        with Node(2, 4, 16, 0, limit=1) as node:
            node.give(1, 1, 0)
            with self.assertRaises(errors.Congested):
                node.give(1, 2, 0)

    def test_a_cycle_frees_what_no_program_reaches(self) -> None:
        zero, one = self.zero, self.one
        zero.alloc(0, 0)
        zero.drop(0)
        one.alloc(0, 0)
        self.assertEqual(zero.begin(), 1)
        deliver(zero, 0, one)
        self.assertEqual(one.scan(), Ref(1, 0, 1))
        self.assertEqual(one.pass_token(), Passed(True, 0))
        deliver(one, 1, zero)
        self.assertEqual(zero.pass_token(), Again())
        deliver(zero, 0, one)
        self.assertEqual(one.pass_token(), Passed(False, 0))
        deliver(one, 1, zero)
        self.assertEqual(zero.pass_token(), Ended(1))
        self.assertEqual(zero.sweep(16), Freed(1, True))
        deliver(zero, 0, one)
        self.assertEqual(one.sweep(0), Freed(0, False))
        self.assertEqual(one.sweep(16), Freed(0, True))


if __name__ == "__main__":
    unittest.main()
