"""Walks as a program of the robot says, and prints the places where it turns, and where it ends. From the top of the repository:

./psg tree examples/gallery/robot.psg Program examples/square.txt | python3 examples/turtle.py
"""
import json
import math
import operator
import sys

CALCULATE = {"plus": operator.add, "times": operator.mul, "per": operator.truediv}
place, heading = 0, 0


def value(node, known):
    """What an expression is; `known` has a call for the path of each declaration."""
    parts = node["children"]
    match node["operator"]:
        case "num":
            return int(node["literals"][0])
        case "name":
            return known[node["names"][0]["declared"]]()
        case "task":
            return lambda given: run(parts[1], known | {it["path"]: given[at] for at, it in enumerate(parts[0]["children"])})
        case "metre" | "degree" | "second":
            return value(parts[0], known)
        case name:
            return CALCULATE[name](*(value(it, known) for it in parts))


def tell():
    print(f"({round(place.real, 1) + 0.0:.1f}, {round(place.imag, 1) + 0.0:.1f})")


def run(steps, known):
    """Takes the steps of a list, one after the other."""
    global place, heading
    known = dict(known)
    for step in steps["children"]:
        if step["operator"] == "let":
            known[step["path"]] = lambda step=step: value(step["children"][0], known)
    for step in steps["children"]:
        parts = step["children"]
        match step["operator"]:
            case "drive":
                place += value(parts[0], known) * complex(math.cos(heading), math.sin(heading))
            case "turn":
                tell()
                heading += math.radians(value(parts[0], known))
            case "repeat":
                for _ in range(int(step["literals"][0])):
                    run(parts[0], known)
            case "do":
                known[step["names"][0]["declared"]]()([lambda it=it: value(it, known) for it in parts[0]["children"]])


program = json.load(sys.stdin)
run(program["tree"]["children"][0], {})
tell()
