"""What each vertex of a graph alone leads to: its subtree in the tree of dominators (Lengauer and Tarjan)."""
from __future__ import annotations

from array import array

NONE = -1


class Walk:
    """A search of a graph from a vertex, depth first. Vertices are numbered in the order in which it reaches them."""

    def __init__(self, first: array, target: array, root: int) -> None:
        size = len(first) - 1
        # The number of each vertex. By number: the vertex, and the number from which it was reached.
        self.number = array("i", [NONE]) * size
        self.vertex = array("i")
        self.parent = array("i")
        # The other edges to each number: the first one, by number; and of each its source and the next one.
        self.head = array("i")
        self.source = array("i")
        self.next = array("i")
        self.follow(first, target, root)

    def follow(self, first: array, target: array, root: int) -> None:
        number, vertex, parent, head = self.number, self.vertex, self.parent, self.head
        source, following = self.source, self.next
        ahead, origins = [root], [NONE]
        while ahead:
            at, origin = ahead.pop(), origins.pop()
            own = number[at]
            if own >= 0:
                following.append(head[own])
                head[own] = len(source)
                source.append(origin)
                continue
            own = number[at] = len(vertex)
            vertex.append(at)
            parent.append(origin)
            head.append(NONE)
            edges = target[first[at] : first[at + 1]]
            ahead.extend(edges)
            origins.extend([own] * len(edges))


def dominators(walk: Walk) -> array:
    """The immediate dominator of each number; that of the root is -1."""
    count = len(walk.vertex)
    parent, head, source, following = walk.parent, walk.head, walk.source, walk.next
    # The forest of numbers that were looked at, with the number of the least semidominator on the way up.
    up, label, semi = parent[:], array("i", range(count)), array("i", range(count))
    bucket, behind = array("i", [NONE]) * count, array("i", [NONE]) * count
    found = parent[:]
    for at in range(count - 1, 0, -1):
        above = least = parent[at]
        edge = head[at]
        while edge >= 0:
            origin = source[edge]
            if origin > at:
                origin = semi[label[origin] if up[origin] <= at else best(up, label, semi, origin, at + 1)]
            if origin < least:
                least = origin
            edge = following[edge]
        semi[at] = least
        if least != above:
            behind[at] = bucket[least]
            bucket[least] = at
        waiting = bucket[above]
        bucket[above] = NONE
        while waiting >= 0:
            lowest = best(up, label, semi, waiting, at)
            found[waiting] = lowest if semi[lowest] < above else above
            waiting = behind[waiting]
    for at in range(1, count):
        if found[at] != semi[at]:
            found[at] = found[found[at]]
    return found


def best(up: array, label: array, semi: array, at: int, least: int) -> int:
    """The number with the least semidominator on the way up from this one, among those from `least` on. The way gets
    shorter for the next time."""
    way = []
    above = up[at]
    while above >= least:
        way.append(at)
        at, above = above, up[above]
    for it in reversed(way):
        if semi[label[at]] < semi[label[it]]:
            label[it] = label[at]
        up[it] = up[at]
        at = it
    return label[at]


def sums(found: array, values: array) -> array:
    """For each number the sum of the values in its subtree."""
    total = values[:]
    for at in range(len(found) - 1, 0, -1):
        total[found[at]] += total[at]
    return total
