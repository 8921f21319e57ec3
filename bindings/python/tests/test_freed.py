"""What was freed: the lists of random programs with crashes, against a model that looks at all objects after each call."""
from __future__ import annotations

import random
import unittest
from dataclasses import dataclass, field
from typing import Optional, Union

from markring import Cell, Gone, Node, Ref, Refusal, Shape, Space, WeakTable, collect, errors

PROGRAMS = 200
STEPS = 150
REGISTERS = 5
SHAPE = Shape.wide(2, REGISTERS, 24, 2, 4)
State = dict[Ref, int]


def state(node: Union[Node, Cell]) -> State:
    """The objects that the node has, with their words."""
    return {it.reference: it.word for it in node.objects()}


@dataclass
class Model:
    """A handle of a node, since it lists what is freed: what it ever had, with the last word, and what it handed out."""

    had: State = field(default_factory=dict)
    handed: list[Gone] = field(default_factory=list)
    # What it had when the last image or batch was made, and of that the part that was there then.
    covered: Optional[tuple[State, State]] = None

    def lost(self, now: State) -> State:
        return {it: word for it, word in self.had.items() if it not in now}


@dataclass
class Life:
    """A node over its crashes: its handle, its model, and what was stored last."""

    node: Node
    logs: bool
    model: Model = field(default_factory=Model)
    image: bytes = b""
    batches: bytes = b""
    mark: int = 0
    stored: Optional[tuple[bytes, bytes]] = None


def change(node: Union[Node, Cell], draw: random.Random) -> None:
    """An event of a program, which may be refused."""
    register, other = draw.randrange(REGISTERS), draw.randrange(REGISTERS)
    calls = [
        lambda: node.alloc(register, 2),
        lambda: node.alloc(register, 1),
        lambda: node.set_word(register, draw.randrange(2**64)),
        lambda: node.store(register, draw.randrange(2), other),
        lambda: node.load(register, other, draw.randrange(2)),
        lambda: node.clear(register, draw.randrange(2)),
        lambda: node.copy(register, other),
        lambda: node.drop(register),
        lambda: node.drop(other),
        node.reclaim,
        node.reclaim_young,
    ]
    try:
        draw.choice(calls)()
    except Refusal:
        pass


class Freed(unittest.TestCase):
    def begin(self, life: Life) -> None:
        """A list begins with what the node has then."""
        life.node.track_freed()
        life.model = Model(had=state(life.node))

    def look(self, life: Life) -> None:
        life.model.had.update(state(life.node))

    def expect(self, life: Life, expected: State) -> None:
        """Takes what is ready. All that was handed out is exactly this."""
        life.model.handed += life.node.freed()
        handed = {it.reference: it.word for it in life.model.handed}
        self.assertEqual(len(handed), len(life.model.handed))
        self.assertEqual(handed, expected)
        self.assertEqual(life.node.freed(), [])

    def save(self, life: Life, draw: random.Random) -> None:
        node, model = life.node, life.model
        before = {it.reference: it.word for it in model.handed}
        try:
            if life.logs and draw.random() < 0.5:
                batch = node.batch()
                life.mark = batch.mark
                life.stored = (life.image, life.batches + batch.data)
            else:
                image = node.image()
                life.mark, life.stored = image.mark, (image.data, b"")
        except errors.NoLog:
            return
        model.covered = model.lost(state(node)), dict(model.had)
        # What isn't kept yet hands out nothing.
        self.expect(life, before)

    def keep(self, life: Life) -> None:
        if life.stored is None:
            self.assertRaises(errors.WrongMark, lambda: life.node.kept(0))
            return
        life.node.kept(life.mark)
        life.image, life.batches = life.stored
        assert life.model.covered is not None
        self.expect(life, life.model.covered[0])

    def crash(self, life: Life) -> None:
        """The node goes on from what was stored last, whether or not that was said."""
        image, batches = life.stored or (life.image, life.batches)
        life.node.close()
        life.node = Node.from_batches(image, batches) if life.logs else Node.from_image(image)
        life.image, life.batches, life.stored = image, batches, None
        self.begin(life)
        self.expect(life, {})

    def program(self, number: int) -> None:
        draw = random.Random(number)
        logs = number % 2 == 1
        life = Life(Node.with_shape(SHAPE, 0), logs)
        life.node.log(logs)
        image = life.node.image()
        life.node.kept(image.mark)
        life.image = image.data
        self.begin(life)
        for _ in range(STEPS):
            chosen = draw.random()
            if chosen < 0.8:
                change(life.node, draw)
            elif chosen < 0.9:
                self.save(life, draw)
            elif chosen < 0.97:
                self.keep(life)
            else:
                self.crash(life)
            self.look(life)
        life.node.release()
        self.expect(life, life.model.lost(state(life.node)))
        life.node.close()

    def test_random_programs_hand_out_what_is_gone(self) -> None:
        for number in range(PROGRAMS):
            with self.subTest(number=number):
                self.program(number)

    def test_a_node_lists_nothing_unless_asked(self) -> None:
        node = Node.with_shape(SHAPE, 0)
        self.addCleanup(node.close)
        node.alloc(0, 0)
        node.drop(0)
        node.reclaim()
        node.kept(node.image().mark)
        self.assertEqual(node.freed(), [])
        node.track_freed()
        lost = node.alloc(0, 0)
        node.set_word(0, 7)
        node.drop(0)
        node.reclaim()
        node.track_freed()
        mark = node.image().mark
        self.assertEqual(node.freed(), [])
        node.kept(mark)
        self.assertEqual(node.freed(), [Gone(lost, 7)])
        node.kept(mark)
        self.assertEqual(node.freed(), [])
        node.alloc(0, 0)
        node.drop(0)
        node.reclaim()
        node.track_freed(False)
        node.kept(node.image().mark)
        self.assertEqual(node.freed(), [])

    def test_sweeps_list_what_they_free(self) -> None:
        zero, one = Node(2, 4, 700, 0), Node(2, 4, 700, 1)
        self.addCleanup(zero.close)
        self.addCleanup(one.close)
        zero.track_freed()
        lost = []
        for number in range(600):
            lost.append(Gone(zero.alloc(0, 0), number))
            zero.set_word(0, number)
        zero.begin()
        while zero.state().swept < 1:
            for own, node, peer in ((0, zero, one), (1, one, zero)):
                node.work(1000, 1000)
                node.kept(node.image().mark)
                for _, frame in node.frames(1 - own):
                    peer.take(frame)
                node.take(peer.ack_for(own))
        self.assertEqual(zero.freed(), lost[:-1])
        self.assertEqual(zero.freed(), [])


class FreedOfCells(unittest.TestCase):
    """The same for a cell. What was saved counts at once, and `reopen` is a crash."""

    def cells(self, shape: Shape) -> list[Cell]:
        space = Space.with_shape(shape)
        self.addCleanup(space.close)
        cells = space.open()
        for cell in cells:
            self.addCleanup(cell.close)
        return cells

    def program(self, number: int) -> None:
        draw = random.Random(number)
        cell = self.cells(SHAPE)[0]
        cell.track_freed()
        had: State = {}
        handed: list[Gone] = []
        expected: list[tuple[Ref, int]] = []
        for _ in range(STEPS):
            chosen, mark = draw.random(), 0
            if chosen < 0.85:
                change(cell, draw)
            elif chosen < 0.95:
                mark = cell.image().mark
                cell.save(mark)
                now = state(cell)
                expected = [(it, word) for it, word in had.items() if it not in now]
            else:
                # What wasn't saved is lost, and the list with it.
                cell.reopen()
                had, handed, expected = {}, [], []
            had.update(state(cell))
            if draw.random() < 0.5 or chosen < 0.85:
                handed += cell.freed()
                self.assertLessEqual(set(handed), {Gone(*it) for it in expected})
        handed += cell.freed()
        self.assertEqual(sorted(handed), sorted(Gone(*it) for it in expected))

    def test_random_programs_hand_out_what_is_gone(self) -> None:
        for number in range(PROGRAMS // 2):
            with self.subTest(number=number):
                self.program(number)

    def test_sweeps_list_what_they_free_and_tables_hear_of_it(self) -> None:
        cells = self.cells(Shape.plain(2, 4, 700))
        told: list[tuple[Ref, int, str]] = []
        table = WeakTable(cells[0], lambda *it: told.append(it))
        expected = []
        for number in range(600):
            reference = cells[0].alloc(0, 0)
            cells[0].set_word(0, number)
            table[reference] = f"file {number}"
            expected.append((reference, number, f"file {number}"))
        collect(cells)
        self.assertEqual(table.poll(), 599)
        self.assertEqual(told, expected[:-1])
        self.assertEqual(list(table), [expected[-1][0]])
        cells[0].track_freed(False)
        cells[0].drop(0)
        collect(cells)
        self.assertEqual((table.poll(), table.prune()), (0, 1))
        self.assertEqual(told[599], (expected[-1][0], 0, "file 599"))

    def test_a_closed_cell_frees_nothing(self) -> None:
        cell = self.cells(SHAPE)[0]
        self.assertEqual(cell.freed(), [])
        cell.close()
        self.assertRaises(errors.NoHandle, cell.track_freed)
        self.assertRaises(errors.NoHandle, cell.freed)


if __name__ == "__main__":
    unittest.main()
