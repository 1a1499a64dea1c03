#!/usr/bin/env python3
"""Drives a framed live session with 2,000 commands, as a front end does: each command is sent when the reply to the one
before was read by its number of lines. The replies are those that `edit` writes for a script of the same lines. Every
seventh line is an empty one, which has no reply. tests/live calls it with the program."""
import subprocess
import sys
import tempfile

program = sys.argv[1]
definition = "examples/mini.psg"
lines = []
while len(lines) < 2000:
    for case in ("structure", "typed", "versions", "menus", "relation", "range"):
        with open(f"examples/mini-{case}.script") as script:
            lines += [line for line in script.read().splitlines() if line.split()[:1] not in ([], ["keep"], ["fetch"])]
lines = lines[:2000]
with tempfile.NamedTemporaryFile("w", suffix=".script") as script:
    script.write("".join(line + "\n" for line in lines))
    script.flush()
    wanted = subprocess.run([program, "edit", definition, script.name], stdout=subprocess.PIPE, check=True).stdout

session = subprocess.Popen([program, "live", "--framed", definition], stdin=subprocess.PIPE, stdout=subprocess.PIPE)
replies = []
for number, line in enumerate(lines):
    if number % 7 == 0:
        session.stdin.write(b"\n")
    session.stdin.write(line.encode() + b"\n")
    session.stdin.flush()
    count = session.stdout.readline()
    if not count[:-1].isdigit() or count != b"%d\n" % int(count):
        sys.exit(print(f"framed: line {number}, {line}: no number of lines, but {count!r}") or 1)
    replies += [session.stdout.readline() for _ in range(int(count))]
session.stdin.close()
rest = session.stdout.read()
status = session.wait()
if b"".join(replies) != wanted:
    sys.exit(print("framed: the replies are not those of edit") or 1)
if rest or status != 0:
    sys.exit(print(f"framed: {rest!r} is left, and the status is {status}") or 1)
