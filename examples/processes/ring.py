"""A ring of four objects, one on each of four nodes in processes of their own. examples/processes/run starts the nodes.

    ring.py URL-OF-PROGRAMS URL-OF-OPERATORS
"""
import sys
import time

from markring import remote

NODES = 4


def objects(operator: remote.Space) -> list[int]:
    return [operator.ask(node, "status")["live"] for node in range(NODES)]


with remote.Space(sys.argv[1], "ring") as space, remote.Space(sys.argv[2], "ring") as operator:
    programs = [space.program(node, number=0) for node in range(NODES)]
    # Each program makes an object with one place, and sends its reference to the node before.
    for node, program in enumerate(programs):
        program.alloc(0, places=1)
        program.give(to=(node - 1) % NODES, label=1, register=0)
    # Each puts what comes into the place of its object, and drops both.
    for program in programs:
        program.wait()
        program.accept(1)
        program.store(object=0, place=0, register=1)
        program.drop(0)
        program.drop(1)
    print(f"objects of the nodes: {objects(operator)}; each refers to the next, and no program holds any")
    began = time.monotonic()
    operator.ask(0, "begin")
    while any(objects(operator)):
        time.sleep(0.001)
    print(f"a cycle later: {objects(operator)}, after {1000 * (time.monotonic() - began):.0f} ms")
    for program in programs:
        program.close()
