"""Plays keys on the editor on the screen without a terminal, and compares each picture with what the plain editor says of the same
program.

The pieces of the input are messages of a socket, so each is one read, and nothing here waits for a time. After each of them the editor
is told the size of the screen twice, so that it draws all anew: what it drew before must be the same.
"""
import os
import re
import select
import socket
import subprocess

from terminal import Terminal, width

KEYS = {"enter": "\r", "tab": "\t", "backtab": "\x1b[Z", "escape": "\x1b", "backspace": "\x7f", "delete": "\x1b[3~", "insert": "\x1b[2~",
        "up": "\x1b[A", "down": "\x1b[B", "right": "\x1b[C", "left": "\x1b[D", "home": "\x1b[H", "end": "\x1b[F",
        "pageup": "\x1b[5~", "pagedown": "\x1b[6~", "f5": "\x1b[15~"}
LETTERS = {("own", False, False): " ", ("cyan", False, False): "n", ("green", False, False): "l", ("yellow", True, False): "p",
           ("red", False, True): "w", ("red", True, True): "b"}
ERASE = "\x1b[2J"
# each text of the editor ends with one of these
ENDS = ("\x1b[?25h", "\x1b[?25l", "\x1b[?2004h", "\x1b[?1049l")


class Wrong(Exception):
    """What is not as it must be, in words."""


class Step:
    """What is read before a picture is looked at, in one read or more. `size` is the size of the screen that it tells; without any
    bytes it is the beginning."""

    def __init__(self, *pieces, size=None):
        self.pieces, self.size = pieces, size
        # all is drawn from nothing
        self.redraws = not pieces or size is not None or any(b"\x0c" in it for it in pieces)


def bytes_of(word):
    """The bytes of each key that the word is."""
    if word[0] in "'\"" and len(word) > 1:
        return [c.encode() for c in plain_text(word[1:-1])]
    if word in KEYS:
        return [KEYS[word].encode()]
    if re.fullmatch("ctrl-[a-z]", word):
        return [bytes([ord(word[-1]) - 96])]
    if len(word) == 1:
        return [word.encode()]
    raise ValueError(f"no key: {word}")


def plain_text(text):
    """The text with the character for each `\\u{CODE}`."""
    return re.sub(r"\\u\{([0-9a-f]+)\}", lambda it: chr(int(it[1], 16)), text)


def size_key(size):
    return b"\x1b[%d;%dR" % size


def input_of(size, steps):
    """What is read: after each step the size of the screen twice."""
    pieces = []
    for step in steps:
        size = step.size or size
        pieces += [*step.pieces, size_key(size), size_key(size)]
    return pieces


def session(program, words, folder, size, steps):
    """Runs the editor on the steps, in the folder, and returns its status and the texts that it wrote, one for each picture."""
    ours, its = socket.socketpair(socket.AF_UNIX, socket.SOCK_SEQPACKET)
    editor = subprocess.Popen([program, *words], cwd=folder, stdin=its, stdout=subprocess.PIPE)
    its.close()
    waiting, written = input_of(size, steps), bytearray()
    while True:
        ready, free, _ = select.select([editor.stdout], [ours] if waiting else [], [], 600)
        if ready:
            piece = os.read(editor.stdout.fileno(), 1 << 16)
            if not piece:
                break
            written += piece
        elif free:
            try:
                ours.send(waiting.pop(0))
            except (BrokenPipeError, ConnectionResetError):
                waiting = []
            if not waiting:
                ours.shutdown(socket.SHUT_WR)
        else:
            editor.kill()
            editor.wait()
            raise Wrong("no answer within ten minutes")
    ends = "|".join(map(re.escape, ENDS))
    return editor.wait(), re.findall(f".*?(?:{ends}|$)", written.decode(), re.S)[:-1]


def seen_in(written, size, steps):
    """Yields the picture after each step. Each must be the one that is drawn from nothing."""
    terminal, left = Terminal(*size), list(written)

    def feed_until_erased():
        while left and ERASE not in left[0]:
            terminal.feed(left.pop(0))

    for step in steps:
        if step.redraws:
            feed_until_erased()
        if step.size:
            terminal.resize(*step.size)
        if left:
            terminal.feed(left.pop(0))
        feed_until_erased()
        if not left:
            raise Wrong("the editor ended")
        picture = terminal.picture()
        if None in picture.cells:
            raise Wrong(f"it isn't known what is shown in row {picture.cells.index(None) // picture.cols + 1}")
        terminal.feed(left.pop(0))
        feed_until_erased()
        if picture != terminal.picture():
            raise Wrong("drawn from nothing it is another picture" + difference(picture, terminal.picture()))
        yield picture
        if left:
            terminal.feed(left.pop(0))
    while left:
        terminal.feed(left.pop(0))
    if terminal.other or terminal.pasting or not terminal.cursor:
        raise Wrong("the editor doesn't end with the first screen and its cursor")


def difference(one, other):
    for row in range(one.rows):
        if one.cells_of(row) != other.cells_of(row):
            return f": row {row + 1} was {one.text_of(row)!r}, and is {other.text_of(row)!r}"
    return f": the cursor was {one.cursor}, and is {other.cursor}"


# the lines of a picture


def letter(style):
    color, bold, under, turned = style
    found = LETTERS.get((color, bold, under))
    if found is None:
        raise Wrong(f"nothing that the editor shows has the style {style}")
    return ("#" if found == " " else found.upper()) if turned else found


def letters_of(picture, row):
    cells = picture.cells_of(row)
    return "".join(letter(cells[at if it[0] else at - 1][1]) for at, it in enumerate(cells)).rstrip(" ")


def lines_of(picture):
    lines, empty = [], 0
    for row in range(picture.rows):
        text, letters = picture.text_of(row), letters_of(picture, row)
        if not text and not letters:
            empty += 1
            continue
        lines += [f"* {empty}"] * (empty > 0) + ["|" + text] + [":" + letters] * (letters != "")
        empty = 0
    lines += [f"* {empty}"] * (empty > 0)
    if picture.cursor is not None:
        lines.append(f"cursor {picture.cursor % picture.cols + 1} {picture.cursor // picture.cols + 1}")
    return lines


# the plain editor


class Place:
    """The chosen place of a picture, and what the plain editor says of it."""

    def __init__(self, plain, picture):
        found = re.match(r"(/[0-9/]*)  ", picture.text_of(picture.rows - 3))
        if not found:
            raise Wrong("no path is shown")
        self.path = found[1]
        front, _, last = self.path.rpartition("/")
        self.front, self.last = front or "/", int(last or 0)
        self.plain = plain
        self.node, self.above = self.bytes_at(self.path), self.bytes_at(self.front)

    def bytes_at(self, path):
        """The bytes of the node at the path, or None where there is none."""
        found = re.match(r"at \S+ .*?(\d+) (\d+)$", self.plain.ask(f"goto {path}")[0])
        return found and (int(found[1]), int(found[2]))

    def bytes_in(self, text):
        """The bytes of the place: those of the node, or of the `...` of a list."""
        if self.node:
            return self.node
        if not self.above or "\n".join(text).encode()[self.above[1] - 3 : self.above[1]] != b"...":
            raise Wrong(f"nothing is at {self.path}")
        return self.above[1] - 3, self.above[1]

    def meanings(self):
        return self.plain.ask(f"relation {self.path}")

    def offers(self):
        """What may be put there; an element of a list is no such place."""
        for question in (f"menu {self.path}", f"menu {self.front} {self.last}"):
            reply = self.plain.ask(question)[0]
            if not reply.startswith("refused"):
                return reply
        return None


def styled_bytes(text, start, end):
    """For each line its characters, each with whether its byte is one of these."""
    lines, byte = [], 0
    for line in text:
        row = []
        for c in line:
            row.append((c, start <= byte < end or byte == start))
            byte += len(c.encode())
        lines.append(row)
        byte += 1
    return lines


def window_of(row, left, cols):
    """The columns that a window shows of a line: for each its text, and whether it is chosen."""
    found, column = [], 0
    for c, chosen in row:
        size = width(c)
        if not size:
            # what has no column is with the character before it, and what is left out of pictures is nowhere
            if size == 0 and found and found[-1][0]:
                found[-1] = (found[-1][0] + c, found[-1][1])
            continue
        if left <= column and column + size <= left + cols:
            found += [(c, chosen)] + [("", chosen)] * (size - 1)
        else:
            found += [(" ", chosen)] * max(0, min(column + size, left + cols) - max(column, left))
        column += size
    return found + [(" ", False)] * (cols - len(found))


def shown_rows(picture):
    """The rows of the program: for each column its text, and whether it is reversed."""
    rows = []
    for row in range(1, picture.rows - 4):
        cells = picture.cells_of(row)
        rows.append([(it[0], cells[at if it[0] else at - 1][1][3]) for at, it in enumerate(cells)])
    return rows


def is_window(found, lines, cols):
    """Says whether the rows are a window of the lines, and nothing after the last one."""
    empty = window_of([], 0, cols)
    widest = max((sum(width(c) or 0 for c, _ in it) for it in lines), default=0)
    for left in range(max(1, widest)):
        wanted = [window_of(it, left, cols) for it in lines]
        for top in range(len(wanted)):
            window = wanted[top : top + len(found)]
            if found == window + [empty] * (len(found) - len(window)):
                return True
    return False


def is_page(picture):
    """Says whether a page, or that the window is too small, is shown in place of the program."""
    return picture.rows < 6 or picture.cols < 20 or picture.text_of(picture.rows - 2).startswith("up and down sc")


def judge(picture, plain):
    """Compares a picture with what the plain editor says of its program: the text, the mark, the chosen place, and what it can mean
    and what may be put there where the program is not wrong."""
    if is_page(picture):
        return
    *text, mark = plain.ask("show")
    if not picture.text_of(0).endswith(mark.split()[0]):
        raise Wrong(f"the mark is {mark}, and the first row {picture.text_of(0)!r}")
    place = Place(plain, picture)
    start, end = place.bytes_in(text)
    if not is_window(shown_rows(picture), styled_bytes(text, start, end), picture.cols):
        raise Wrong("\n  ".join([f"wanted a window with the bytes {start} to {end} of", *text, "and there is"]))
    if mark == "ok":
        judge_meanings(picture, place)
        judge_offers(picture, place)
        if any(it[1] and it[1][2] for it in picture.cells):
            raise Wrong("a place is marked as wrong in a program that is not")


def judge_meanings(picture, place):
    where = picture.text_of(picture.rows - 3)
    if "   value " not in where:
        return
    rows = place.meanings()
    wanted = "value " + " or ".join(rows[:3] + [".."] * (len(rows) > 3))
    found = where[where.index("   value ") + 3 :]
    if found != wanted and not (len(where) == picture.cols and wanted.startswith(found)):
        raise Wrong(f"wanted {wanted!r} in {where!r}")


def judge_offers(picture, place):
    found = picture.text_of(picture.rows - 2)
    if not found.startswith("Enter:"):
        return
    offers = place.offers()
    wanted = "Enter: " + ("nothing fits" if offers == "none" else str(offers))
    if found != wanted[: picture.cols].rstrip(" "):
        raise Wrong(f"wanted {wanted!r}, and there is {found!r}")
