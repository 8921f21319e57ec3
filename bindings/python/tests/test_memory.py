"""Whether handles are freed, and what is refused without memory."""
import copy
import gc
import subprocess
import sys
import unittest
import weakref
from pathlib import Path

from markring import Node, Space, errors

from .many import HOWS, KINDS

SECONDS = 60


def run(module: str, *words: str) -> str:
    """Runs a module of the tests in a process of its own, and returns what it complains of."""
    command = [sys.executable, "-m", f"tests.{module}", *words]
    top = Path(__file__).resolve().parent.parent
    done = subprocess.run(command, cwd=top, capture_output=True, text=True, timeout=SECONDS, check=False)
    return done.stderr or (f"status {done.returncode}" if done.returncode else "")


class Memory(unittest.TestCase):
    def test_10_000_handles_need_little_memory(self) -> None:
        for kind in KINDS:
            for how in HOWS:
                with self.subTest(kind=kind, how=how):
                    self.assertEqual(run("many", kind, how), "")

    def test_a_full_disk_closes_a_cell(self) -> None:
        self.assertEqual(run("full"), "")

    def test_a_closed_handle_is_refused(self) -> None:
        space = Space(2, 1, 1, 1)
        cells, watch = space.open(), space.watch()
        assert watch is not None
        node = Node(2, 1, 1, 0)
        handles = [node, space, *cells, watch]
        for handle in handles:
            handle.close()
            handle.close()
        for call in (node.state, space.open, cells[0].state, cells[1].image_size, watch.look, node.slots):
            self.assertRaises(errors.NoHandle, call)

    def test_a_handle_is_not_copied(self) -> None:
        space = Space(2, 1, 1, 1)
        for handle in (space, *space.open(), space.watch(), Node(2, 1, 1, 0)):
            self.assertRaises(TypeError, copy.copy, handle)
            self.assertRaises((TypeError, ValueError), copy.deepcopy, handle)

    def test_the_interpreter_drops_a_handle_once(self) -> None:
        node = Node(2, 1, 1, 0)
        gone = weakref.ref(node)
        node.close()
        del node
        gc.collect()
        self.assertIsNone(gone())


if __name__ == "__main__":
    unittest.main()
