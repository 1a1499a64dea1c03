#!/usr/bin/env python3
"""Writes a script that builds an expression of MINI without names by `refine`, level by level.

usage: trees.py NODES

At the top are concatenations of negated comparisons, below them balanced sums. Every node is put by one command, so the script
has NODES + 1 lines, and no command is refused.
"""

import sys
from collections import deque


def operator(kind, depth):
    """The operator of a node of the kind, and the kinds of its slots."""
    if kind == "int":
        return "plus", ["int", "int"]
    if depth < 4:
        return "cat", ["bool", "bool"]
    return ("not", ["bool"]) if depth == 4 else ("eq", ["int", "int"])


def main():
    nodes = int(sys.argv[1])
    print("new Exp")
    waiting = deque([("", "bool", 0)])
    made = 0
    while waiting:
        path, kind, depth = waiting.popleft()
        made += 1
        # as many nodes as still wait become leaves
        if made + len(waiting) >= nodes:
            print(f"refine {path or '/'} " + ("num 1" if kind == "int" else "tru"))
            continue
        op, slots = operator(kind, depth)
        print(f"refine {path or '/'} {op}")
        for number, slot in enumerate(slots):
            waiting.append((f"{path}/{number}", slot, depth + 1))


main()
