"""Weak references and tables of a node."""
import unittest

import markring
from markring import errors


class Weak(unittest.TestCase):
    def setUp(self) -> None:
        self.node = markring.Node.with_shape(markring.Shape.wide(2, 8, 64, 1, 0), 0)

    def keep(self) -> None:
        self.node.kept(self.node.image().mark)

    def lose(self, *registers: int) -> None:
        for register in registers:
            self.node.drop(register)
        self.node.reclaim()

    def test_upgrade(self) -> None:
        held = self.node.alloc(0, 0)
        lost = self.node.alloc(1, 0)
        self.lose(1)
        self.assertTrue(markring.upgrade(self.node, 2, held))
        self.assertEqual(self.node.register(2), held)
        self.assertFalse(markring.upgrade(self.node, 3, lost))
        self.assertIsNone(self.node.register(3))
        self.assertRaises(errors.Remote, lambda: markring.upgrade(self.node, 3, held._replace(node=1)))

    def test_table(self) -> None:
        left: list[tuple[markring.Ref, int, str]] = []
        table = markring.WeakTable(self.node, lambda *it: left.append(it))
        objects = [self.node.alloc(register, 0) for register in range(4)]
        for register, reference in enumerate(objects):
            self.node.set_word(register, 10 + register)
            table[reference] = f"file {register}"
        del table[objects[3]]
        self.lose(2, 0, 3)
        # A restart could bring them back.
        self.assertEqual((table.poll(), left), (0, []))
        self.keep()
        self.assertEqual(table.poll(), 2)
        self.assertEqual(left, [(objects[0], 10, "file 0"), (objects[2], 12, "file 2")])
        self.assertEqual((dict(table), table.poll()), ({objects[1]: "file 1"}, 0))

    def test_prune(self) -> None:
        left: list[tuple[markring.Ref, int, int]] = []
        first, second = self.node.alloc(0, 0), self.node.alloc(1, 0)
        self.keep()
        image = self.node.image()
        later = self.node.alloc(2, 0)
        self.node = markring.Node.from_image(image.data)
        table = markring.WeakTable(self.node, lambda *it: left.append(it))
        table.update({first: 1, second: 2, later: 3})
        self.assertEqual((table.prune(), left), (1, [(later, 0, 3)]))
        self.assertEqual((list(table), table[second], len(table)), ([first, second], 2, 2))

    def test_without_a_callback(self) -> None:
        table = markring.WeakTable(self.node)
        table[self.node.alloc(0, 0)] = None
        self.lose(0)
        self.keep()
        self.assertEqual((table.poll(), len(table)), (1, 0))


if __name__ == "__main__":
    unittest.main()
