"""What may break if a caller breaks one of the duties that markring.h lists under "What a caller owes".

Each test first keeps a duty and sees the promise kept, and then breaks that duty alone in the same run.
"""
import unittest
from typing import Optional

from markring import Node, Ref, Taken

WORD, OTHER = 7, 8


def new(own: int) -> Node:
    return Node(2, 4, 16, own)


def give(giver: Node, word: int) -> Ref:
    """Node 0 makes an object with this word, and gives it to node 1."""
    reference = giver.alloc(0, 0)
    giver.set_word(0, word)
    giver.give(1, 0, 0)
    return reference


def send(giver: Node, receiver: Node) -> list[Taken]:
    return [receiver.take(frame) for _, frame in giver.frames(1)]


def word_of(owner: Node, reference: Ref) -> Optional[int]:
    """The word of an object that its owner still has."""
    found = owner.object(reference.slot)
    return found.word if found and found.reference == reference else None


class Duties(unittest.TestCase):
    def setUp(self) -> None:
        self.zero, self.one = new(0), new(1)
        self.addCleanup(self.one.close)

    def opened(self, node: Node) -> Node:
        self.addCleanup(node.close)
        return node

    def held_by_one(self) -> Ref:
        """The reference in the letter that node 1 has received."""
        self.one.accept(0)
        reference = self.one.register(0)
        assert reference is not None
        return reference

    def crash(self, stored: bytes) -> Node:
        """Node 0 goes on from what is stored."""
        self.zero.close()
        return self.opened(Node.from_image(stored))

    def test_a_frame_comes_from_a_handle_of_the_space(self) -> None:
        """If not: a reference names an object that no node of the space ever had."""
        with new(0) as stranger:
            stranger.alloc(1, 0)
            give(stranger, WORD)
            stranger.kept(stranger.image().mark)
            self.assertEqual(send(stranger, self.one), [Taken.RECEIVED])
        self.assertIsNone(word_of(self.zero, self.held_by_one()))
        self.zero.close()

    def goes_on(self, keeps: bool) -> Optional[int]:
        older = self.zero.image()
        self.zero.kept(older.mark)
        give(self.zero, WORD)
        newer = self.zero.image()
        self.zero.kept(newer.mark)
        send(self.zero, self.one)
        zero = self.crash(newer.data if keeps else older.data)
        return word_of(zero, self.held_by_one())

    def test_a_node_goes_on_from_the_last_image(self) -> None:
        self.assertEqual(self.goes_on(keeps=True), WORD)

    def test_an_older_image_lacks_what_was_given_away(self) -> None:
        """A reachable object is gone."""
        self.assertIsNone(self.goes_on(keeps=False))

    def stores_first(self, keeps: bool) -> Optional[int]:
        stored = self.zero.image()
        self.zero.kept(stored.mark)
        give(self.zero, WORD)
        taken = self.zero.image()
        if keeps:
            stored = taken
        self.zero.kept(taken.mark)
        send(self.zero, self.one)
        zero = self.crash(stored.data)
        return word_of(zero, self.held_by_one())

    def test_an_image_is_kept_once_it_is_stored(self) -> None:
        self.assertEqual(self.stores_first(keeps=True), WORD)

    def test_an_image_that_was_kept_too_early_is_missed(self) -> None:
        """A reachable object is gone."""
        self.assertIsNone(self.stores_first(keeps=False))

    def holds(self, keeps: bool) -> tuple[list[Taken], Optional[int]]:
        image = self.zero.image()
        self.zero.kept(image.mark)
        first = self.zero
        second = first if keeps else self.opened(Node.from_image(image.data))
        for node, word in ((first, WORD), (second, OTHER)):
            give(node, word)
            node.kept(node.image().mark)
        send(first, self.one)
        last = send(second, self.one)
        held = word_of(second, self.held_by_one())
        first.close()
        return last, held

    def test_a_node_has_one_holder(self) -> None:
        self.assertEqual(self.holds(keeps=True), ([Taken.REPEAT, Taken.REPEAT], WORD))

    def test_of_two_holders_one_loses_its_letter(self) -> None:
        """A letter is lost, and a reference names another object."""
        self.assertEqual(self.holds(keeps=False), ([Taken.REPEAT], OTHER))

    def is_made(self, keeps: bool) -> list[Taken]:
        give(self.zero, WORD)
        image = self.zero.image()
        self.zero.kept(image.mark)
        send(self.zero, self.one)
        self.zero.close()
        zero = self.opened(Node.from_image(image.data) if keeps else new(0))
        give(zero, OTHER)
        zero.kept(zero.image().mark)
        return send(zero, self.one)

    def test_a_node_is_made_once(self) -> None:
        self.assertEqual(self.is_made(keeps=True), [Taken.REPEAT, Taken.RECEIVED])

    def test_the_letter_of_a_node_that_was_made_again_is_lost(self) -> None:
        """It has the number of one that was received."""
        self.assertEqual(self.is_made(keeps=False), [Taken.REPEAT])

    def stores_in_order(self, keeps: bool) -> Optional[int]:
        images = [self.zero.image()]
        give(self.zero, WORD)
        images.append(self.zero.image())
        self.zero.kept(images[1].mark)
        send(self.zero, self.one)
        zero = self.crash(images[1 if keeps else 0].data)
        return word_of(zero, self.held_by_one())

    def test_images_are_stored_in_order(self) -> None:
        self.assertEqual(self.stores_in_order(keeps=True), WORD)

    def test_an_image_that_is_stored_over_a_later_one_lacks_what_was_given_away(self) -> None:
        """A reachable object is gone."""
        self.assertIsNone(self.stores_in_order(keeps=False))


if __name__ == "__main__":
    unittest.main()
