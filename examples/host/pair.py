"""Two nodes in two processes, which exchange packets over Unix sockets: each has its own loop, and the host does the rest.
Node 1 gets an object of node 0 and drops it; a cycle frees it.

    python3 pair.py FOLDER FOLDER

If a process crashes, start it again on its folder: `Host.open` in place of `Host.create`.
"""
import contextlib
import socket
import subprocess
import sys

from markring import Shape, errors
from markring.host import Host, Identity, Options

LABEL, PACKET, LONGEST = 7, 1 << 16, 1.0


class Member:
    """A node, and its end of the sockets. An empty packet of the other node says that it has left."""

    def __init__(self, own: int, folders: list[str]) -> None:
        self.own, self.is_over = own, False
        self.socket = socket.socket(socket.AF_UNIX, socket.SOCK_DGRAM)
        self.socket.bind(f"{folders[own]}.socket")
        self.sender, self.other = socket.socket(socket.AF_UNIX, socket.SOCK_DGRAM), f"{folders[1 - own]}.socket"
        self.sender.setblocking(False)
        # A real space has a random id.
        identity = Identity("pair", bytes(8), own, Shape.plain(nodes=2, registers=4, slots=16))
        self.host = Host.create(folders[own], identity, self.send, options=Options(cycle_every=0.1))

    def send(self, to: int, packet: bytes) -> None:
        """Sends to the other node. A packet that finds no room in its socket is lost, and sent again."""
        with contextlib.suppress(OSError):
            self.sender.sendto(packet, self.other)

    def go_round(self) -> None:
        """One round of the loop: waits for a packet, as long as the host may wait, and takes a turn."""
        self.socket.settimeout(min(self.host.wait(), LONGEST))
        with contextlib.suppress(socket.timeout, BlockingIOError):
            packet = self.socket.recv(PACKET)
            if packet:
                self.host.packet(1 - self.own, packet)
            self.is_over = not packet
        self.host.turn()

    def leave(self) -> None:
        """Saves all, and says so."""
        self.host.leave()
        while self.host.ended is None:
            self.go_round()
        print(f"node {self.own}: {self.host.reason}", flush=True)


# The programs, which call their node between two turns.


def give_and_wait(it: Member) -> None:
    it.host.node.alloc(0, places=0)
    it.host.node.give(1, LABEL, 0)
    it.host.node.drop(0)
    while it.host.node.state().live > 0:
        it.go_round()
    print("node 0: it is gone", flush=True)
    it.leave()
    it.sender.setblocking(True)
    it.sender.sendto(b"", it.other)


def accept(it: Member):
    while True:
        try:
            return it.host.node.accept(0)
        except errors.NoLetter:
            it.go_round()


def accept_and_drop(it: Member) -> None:
    letter = accept(it)
    print(f"node 1: an object of node {letter.reference.node}, with label {letter.label}", flush=True)
    it.host.node.drop(0)
    while not it.is_over:
        it.go_round()
    it.leave()


def main() -> int:
    folders = sys.argv[1:3]
    if len(folders) < 2:
        print("usage: pair.py FOLDER FOLDER", file=sys.stderr)
        return 2
    if sys.argv[3:]:
        accept_and_drop(Member(1, folders))
        return 0
    it = Member(0, folders)
    with subprocess.Popen([sys.executable, __file__, *folders, "1"]) as other:
        give_and_wait(it)
    return other.returncode


if __name__ == "__main__":
    sys.exit(main())
