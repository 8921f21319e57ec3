"""binary-trees of the Benchmarks Game for CPython: trees.py DEPTH."""
import sys


class Tree:
    __slots__ = ("left", "right")

    def __init__(self, depth):
        self.left = Tree(depth - 1) if depth else None
        self.right = Tree(depth - 1) if depth else None

    def check(self):
        return 1 + self.left.check() + self.right.check() if self.left else 1


def main():
    depth = int(sys.argv[1])
    print(f"stretch tree of depth {depth + 1}\t check: {Tree(depth + 1).check()}")
    long_lived = Tree(depth)
    for d in range(4, depth + 1, 2):
        trees = 1 << (depth - d + 4)
        total = sum(Tree(d).check() for _ in range(trees))
        print(f"{trees}\t trees of depth {d}\t check: {total}")
    print(f"long lived tree of depth {depth}\t check: {long_lived.check()}")


main()
