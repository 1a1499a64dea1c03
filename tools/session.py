"""A session of psg for the tools that ask a program: it goes by the frames of `live --framed`."""
import os
import subprocess
import sys

PROGRAM = os.environ.get("PSG") or os.path.join(os.path.dirname(os.path.dirname(os.path.realpath(__file__))), "psg")
QUIET = dict(os.environ, PSG_EXPLAIN="no")


def run(*words):
    """Runs psg on the words, and returns what it writes and its status."""
    ended = subprocess.run([PROGRAM, *words], stdout=subprocess.PIPE, env=QUIET)
    return ended.stdout, ended.returncode


class Session:
    """An editor of the language that the file defines. It is closed where `with` ends."""

    def __init__(self, definition):
        self.process = subprocess.Popen(
            [PROGRAM, "live", "--framed", definition], stdin=subprocess.PIPE, stdout=subprocess.PIPE, stderr=subprocess.DEVNULL, env=QUIET
        )

    def __enter__(self):
        return self

    def __exit__(self, *_):
        self.process.stdin.close()
        self.process.wait()

    def ask(self, command):
        """Returns the lines of the reply."""
        try:
            self.process.stdin.write(command.encode() + b"\n")
            self.process.stdin.flush()
        except BrokenPipeError:
            pass
        count = self.process.stdout.readline()
        if not count:
            sys.exit(f"psg: the editor has ended at: {command}")
        return [self.process.stdout.readline().decode().rstrip("\n") for _ in range(int(count))]
