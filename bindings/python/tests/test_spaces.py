"""Nodes in threads of one process."""
import threading
import time
import unittest

from markring import Cell, Node, Ref, Shape, Space, Taken, collect, errors

ROUNDS = 30


def turn(cell: Cell, own: int) -> None:
    """One round of a thread of a space of two, without its program."""
    cell.receive(1 - own)
    cell.work(scans=16, slots=16)
    if cell.unsaved():
        cell.save(cell.image().mark)
    cell.send(1 - own)
    if own == 0:
        cell.raise_board()
    # Lets the other thread run.
    time.sleep(0)


class Spaces(unittest.TestCase):
    def test_a_wide_space_opens_on_its_images(self) -> None:
        shape = Shape.wide(2, 300, 2_000_000, 20, 0)
        for wrong in (shape._replace(slots=16_777_217), shape._replace(registers=0), shape._replace(is_wide=False)):
            self.assertRaises(errors.BadArgument, lambda: Space.with_shape(wrong))
        with Space.with_shape(shape) as space:
            cells = space.open()
        cells[0].alloc(299, 20)
        cells[0].store(299, 19, 299)
        images = [cell.image().data for cell in cells]
        with Space.with_shape(shape) as space:
            for node, image in enumerate(images):
                space.disk(node, image)
            again = space.open()
        self.assertEqual([it.reference for it in again[0].objects()], [Ref(0, 0, 1)])
        self.assertEqual((again[0].slots(), again[1].slots()), (1, 0))
        self.assertEqual((again[0].places(0), again[0].read_bytes_at(0)), ([None] * 19 + [Ref(0, 0, 1)], b""))
        self.assertRaises(errors.NoField, again[1].places, 0)
        self.assertEqual(again[0].load(0, 299, 19), Ref(0, 0, 1))
        self.assertEqual((again[1].state().places, again[1].state().is_wide), (20, True))
        with Space.with_shape(shape._replace(places=21)) as space:
            space.disk(0, images[0])
            self.assertRaises(errors.WrongDisks, space.open)
        with Space(2, 4, 16) as space, Node.with_shape(Shape.wide(2, 4, 16, 8, 0), 0) as node:
            space.disk(0, node.image().data)
            self.assertRaises(errors.WrongDisks, space.open)
        for cell in cells + again:
            cell.close()

    def test_letters_cross_while_cycles_run(self) -> None:
        with Space(2, 4, 64, watches=1) as space:
            cells = space.open()
            watch = space.watch()
            self.assertIsNone(space.watch())
        assert watch is not None
        seen: list[list[int]] = [[], []]
        done = threading.Barrier(2)

        def work(own: int) -> None:
            cell = cells[own]
            while len(seen[own]) < ROUNDS or own == 0 and cell.state().live:
                if own == 0 and len(seen[0]) == len(seen[1]) < ROUNDS and not cell.register(0):
                    cell.alloc(0, 0)
                    cell.give(1, len(seen[0]), 0)
                turn(cell, own)
                try:
                    letter = cell.accept(1)
                except errors.NoLetter:
                    if own == 0:
                        self.begin(cell)
                    continue
                seen[own].append(letter.label)
                if own == 1:
                    cell.give(0, letter.label, 1)
                else:
                    cell.drop(0)
                cell.drop(1)
            while own == 1 and cells[0].state().live:
                turn(cell, own)
            done.wait()

        threads = [threading.Thread(target=work, args=(own,)) for own in range(2)]
        for it in threads:
            it.start()
        for it in threads:
            it.join()
        self.assertEqual(seen, [list(range(ROUNDS))] * 2)
        self.assertGreater(watch.look(), 0)
        self.assertEqual([cell.state().live for cell in cells], [0, 0])

    def test_a_collection_frees_a_ring(self) -> None:
        with Space(3, 4, 16) as space:
            cells = space.open()
        stored: dict[int, bytes] = {}
        for node, cell in enumerate(cells):
            cell.alloc(0, 1)
            cell.give((node + 2) % 3, 7, 0)
        collect(cells)
        for cell in cells:
            cell.accept(1)
            cell.store(0, 0, 1)
            cell.drop(1)
        for cell in cells[:2]:
            cell.drop(0)
        collect(cells, stored.__setitem__)
        self.assertEqual([cell.state().live for cell in cells], [1, 1, 1])
        cells[2].drop(0)
        with self.assertRaises(ZeroDivisionError):
            collect(cells, lambda node, image: 1 / 0)
        collect(cells, stored.__setitem__)
        self.assertEqual([(it.state().live, it.unsaved(), it.state().cycle) for it in cells], [(0, False, 3)] * 3)
        with Space(3, 4, 16) as space:
            for node, data in stored.items():
                space.disk(node, data)
            again = space.open()
        self.assertEqual([(it.state().live, it.state().swept) for it in again], [(0, 3)] * 3)
        for wrong in ([], cells[:2], cells[::-1], [*cells[:2], cells[1]]):
            self.assertRaises(errors.BadArgument, collect, wrong)
        cells[1].close()
        self.assertRaises(errors.BadArgument, collect, cells)
        for cell in cells + again:
            cell.close()

    def begin(self, cell: Cell) -> None:
        try:
            cell.begin()
        except errors.CycleRunning:
            pass

    def test_a_space_continues_from_its_images(self) -> None:
        space = Space(2, 4, 16)
        cells = space.open()
        self.assertRaises(errors.InUse, space.open)
        cells[0].alloc(3, 1)
        cells[0].set_word(3, 42)
        images = []
        for cell in cells:
            image = cell.image()
            cell.save(image.mark)
            images.append(image)
        cells[0].set_word(3, 43)
        self.assertRaises(errors.WrongMark, cells[0].save, images[0].mark)
        cells[0].reopen()
        self.assertEqual(cells[0].word(3), 42)

        # Node 1 receives a letter that the stored image of node 0 hasn't sent.
        cells[0].give(1, 1, 3)
        cells[0].save(cells[0].image().mark)
        cells[0].send(1)
        self.assertEqual(cells[1].receive(0), Taken.RECEIVED)
        later = Space(2, 4, 16)
        later.disk(0, images[0].data)
        later.disk(1, cells[1].image().data)
        with self.assertRaises(errors.Ages) as caught:
            later.open()
        self.assertEqual((caught.exception.sender, caught.exception.receiver), (0, 1))

        again = Space(2, 4, 16)
        self.assertRaises(errors.NoNode, again.disk, 2, b"")
        again.disk(0, images[1].data)
        again.disk(1, images[1].data)
        self.assertRaises(errors.WrongDisks, again.open)
        again.disk(0, images[0].data[:-1])
        self.assertRaises(errors.BadImage, again.open)
        again.disk(0, images[0].data)
        zero, one = again.open()
        self.assertEqual(zero.register(3), Ref(0, 0, 1))
        self.assertEqual(zero.word(3), 42)
        zero.give(1, 1, 3)
        zero.save(zero.image().mark)
        self.assertTrue(zero.send(1))
        self.assertEqual(one.receive(0), Taken.RECEIVED)
        self.assertIsNone(one.receive(0))
        self.assertRaises(errors.NotDirector, one.raise_board)
        one.close()
        self.assertRaises(errors.NoHandle, one.state)


if __name__ == "__main__":
    unittest.main()
