"""A ring of two objects on two nodes. Once no program holds it, one cycle frees both."""
from markring import Node

nodes = [Node(nodes=2, registers=4, slots=16, own=own) for own in range(2)]

def turn(own):
    """Collects, saves the node, and moves its frames to the other one."""
    node, peer = nodes[own], nodes[1 - own]
    work = node.work(scans=16, slots=16)
    if work.freed:
        print(f"node {own} freed {work.freed}")
    node.kept(node.image().mark)  # A real program stores the image first.
    for _, frame in node.frames(to=1 - own):
        peer.take(frame)
    node.take(peer.ack_for(own))

for own, node in enumerate(nodes):
    node.alloc(0, places=1)
    node.give(to=1 - own, label=7, register=0)
    turn(own)
for node in nodes:
    node.accept(1)  # Register 1 gets the other node's object.
    node.store(object=0, place=0, register=1)
    node.drop(0)
    node.drop(1)
nodes[0].begin()
while any(node.state().live for node in nodes):
    turn(0), turn(1)
print("none is left")
