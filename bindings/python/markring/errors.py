"""Refusals: why a call was refused. Each has a class of its own, below `Refusal`."""
from __future__ import annotations

from typing import TYPE_CHECKING, Optional

if TYPE_CHECKING:
    from ._space import Work


class Refusal(Exception):
    """A call was refused. It changed nothing, unless its documentation says otherwise.

    `done` is what `work` had done, if that was refused.
    """

    status: int = 0
    text: str = "the call was refused"
    done: Optional[Work] = None

    def __init__(self) -> None:
        super().__init__(self.text)


class Memory(Refusal, MemoryError):
    """An allocation failed."""

    status, text = 1, "out of memory"


class ArenaFull(Refusal):
    """The node has no free slot and no fresh one."""

    status, text = 2, "the node has no slot left"


class NoRegister(Refusal):
    """There is no register with that number."""

    status, text = 3, "there is no such register"


class EmptyRegister(Refusal):
    """The register is empty, but a reference is needed."""

    status, text = 4, "the register is empty"


class Remote(Refusal):
    """The object is on another node."""

    status, text = 5, "the object is on another node"


class Local(Refusal):
    """The object is on this node."""

    status, text = 6, "the object is on this node"


class NoNode(Refusal):
    """There is no node with that number, or it isn't another node."""

    status, text = 7, "there is no such node"


class NoLetter(Refusal):
    """No letter waits."""

    status, text = 8, "no letter waits"


class NoField(Refusal):
    """The object has no such place, or no object can have it, or the object isn't live."""

    status, text = 9, "the object has no such place"


class TooManyFields(Refusal):
    """The object would have more places than the space allows, or the letter more references."""

    status, text = 10, "the object would have too many places"


class SelfSend(Refusal):
    """The letter is for the node itself."""

    status, text = 11, "the letter is for the node itself"


class LinkSpent(Refusal):
    """The link has no number left for the message."""

    status, text = 12, "the link has no number left"


class CyclesSpent(Refusal):
    """No cycle number is left."""

    status, text = 13, "no cycle number is left"


class NotDirector(Refusal):
    """Only node 0 may do this."""

    status, text = 14, "only node 0 may do this"


class CycleRunning(Refusal):
    """The last cycle isn't swept and reported everywhere."""

    status, text = 15, "the last cycle isn't swept everywhere"


class NothingToDo(Refusal):
    """There is nothing for this step to do."""

    status, text = 16, "there is nothing to do"


class OutOfOrder(Refusal):
    """The message is more than a window past the last one received."""

    status, text = 17, "the message is beyond the window"


class AckBeyond(Refusal):
    """The acknowledged message was never released."""

    status, text = 18, "the acknowledged message was never released"


class BadFrame(Refusal):
    """The bytes don't spell a frame."""

    status, text = 19, "the bytes aren't a frame"


class WrongNode(Refusal):
    """The frame isn't for this node, this space or this moment."""

    status, text = 20, "the frame isn't for this node, this space or this moment"


class BadImage(Refusal):
    """The bytes don't spell a saved node."""

    status, text = 21, "the bytes aren't an image"


class ImageTooLarge(Refusal):
    """The image would exceed 67,108,864 bytes. In a wide space there is no limit."""

    status, text = 22, "the image would be too large"


class Disk(Refusal):
    """A cell's disk failed."""

    status, text = 23, "the cell's disk failed"


class Closed(Refusal):
    """A cell's disk or a reopening failed, and no reopening has succeeded since."""

    status, text = 24, "the cell is closed"


class TooManyBytes(Refusal):
    """An object or a letter would have more bytes than the space allows; in a plain space, any."""

    status, text = 25, "the object would have too many bytes"


class NoBytes(Refusal):
    """The object doesn't have all of these bytes."""

    status, text = 26, "the object doesn't have these bytes"


class NotNow(Refusal):
    """The object isn't marked yet, and its node marks: try again once marking has ended."""

    status, text = 27, "the object isn't marked yet"


class NoHandle(Refusal):
    """The node, space, cell or watch was closed."""

    status, text = 101, "the object was closed"


class InUse(Refusal):
    """The space is open already."""

    status, text = 102, "the space is open already"


class ShortBuffer(Refusal):
    """The buffer is too short. (The package always passes one that is long enough.)"""

    status, text = 103, "the buffer is too short"


class BadArgument(Refusal, ValueError):
    """An argument is out of range."""

    status, text = 104, "an argument is out of range"


class WrongDisks(Refusal):
    """An image is of another node or of a space of another shape."""

    status, text = 105, "an image is of another node or another space"


class WrongMark(Refusal):
    """The mark isn't that of the last image or batch."""

    status, text = 106, "the mark isn't that of the last image or batch"


class Congested(Refusal):
    """As many messages on the link as the node's limit allows aren't acknowledged."""

    status, text = 107, "the link is congested"


class Ages(Refusal):
    """The images of two nodes aren't of one moment.

    The receiver has received messages that the sender hasn't sent, or lacks some that the sender has dropped.
    """

    status, text = 109, "the images of two nodes aren't of one moment"
    sender: int = 0
    receiver: int = 0


class NoLog(Refusal):
    """There is no log of the events since the last image or batch, or that isn't kept yet: take an image."""

    status, text = 110, "there is no log: take an image"


OK = 0
NOTHING = 108
CLASSES: dict[int, type[Refusal]] = {it.status: it for it in Refusal.__subclasses__()}


def check(status: int) -> None:
    """Raises the refusal with this status, if it is one."""
    if status != OK:
        raise CLASSES[status]()


def found(status: int) -> bool:
    """As `check`, but returns whether there is anything."""
    if status == NOTHING:
        return False
    check(status)
    return True
