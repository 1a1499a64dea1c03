"""A small terminal, as strict as the one that the editor on the screen is proved for (psg_canvas, Terminal.antt): it knows
the orders of that editor and no other one, and shows nothing where real terminals differ."""
import re
import unicodedata

ORDER = re.compile("\x1b\\[(?:(?P<row>\\d+);(?P<col>\\d+)H|(?P<erase>2J)|0(?P<style>(?:;\\d+)*)m"
                   "|\\?(?P<mode>1049|25|2004)(?P<on>[hl]))")

# the codes of a style, in the order in which the editor writes them
STYLE = re.compile("(?P<bold>;1)?(?P<under>;4)?(?P<reversed>;7)?(?:;3(?P<color>[1-6]))?")

# characters that turn the direction of writing, and those that change how wide the ones beside them are
LEFT_OUT = {0x61C, *range(0x200D, 0x2010), *range(0x202A, 0x202F), *range(0x2066, 0x206A), *range(0xFE00, 0xFE10)}

PLAIN = ("own", False, False, False)


class Fault(Exception):
    """What is written is no order, or is one after which the terminal would not know what it shows."""


def width(c):
    """The columns of a character, or None where no cell has it."""
    if ord(c) in LEFT_OUT or unicodedata.category(c) in ("Cc", "Cs", "Co", "Zl", "Zp"):
        return None
    if unicodedata.category(c) in ("Mn", "Me", "Cf"):
        return 0
    return 2 if unicodedata.east_asian_width(c) in "WF" else 1


def style_of(codes):
    found = STYLE.fullmatch(codes)
    if not found:
        raise Fault(f"no style of the editor: {codes!r}")
    color = ("own", "red", "green", "yellow", "blue", "magenta", "cyan")[int(found["color"] or 0)]
    return (color, bool(found["bold"]), bool(found["under"]), bool(found["reversed"]))


class Terminal:
    """`cells` has for each column a text and a style, ("", None) for the second column of a wide character, and None where it
    isn't known what is shown. `place` and `style` are None where they aren't known."""

    def __init__(self, rows, cols):
        self.rows, self.cols = rows, cols
        self.cells = [None] * (rows * cols)
        self.place = self.style = None
        self.cursor, self.other, self.pasting = True, False, False
        # how often all was erased
        self.erased = 0

    def resize(self, rows, cols):
        """The screen has another size, and it isn't known what it shows."""
        self.rows, self.cols = rows, cols
        self.cells = [None] * (rows * cols)
        self.place = None

    def feed(self, text):
        """Obeys the orders of a text; `Fault` where something is none."""
        at = 0
        while at < len(text):
            found = ORDER.match(text, at)
            if found:
                self.obey(found)
                at = found.end()
            else:
                self.put(text[at])
                at += 1

    def obey(self, order):
        if order["row"]:
            row, col = int(order["row"]), int(order["col"])
            if not (1 <= row <= self.rows and 1 <= col <= self.cols):
                raise Fault(f"a move outside of the screen: {order[0]!r}")
            self.place = (row - 1) * self.cols + col - 1
        elif order["erase"]:
            if self.style != PLAIN:
                raise Fault("an erasure in a style that is not known to be plain")
            self.cells = [(" ", PLAIN)] * (self.rows * self.cols)
            self.erased += 1
        elif order["mode"] == "1049":
            self.other = order["on"] == "h"
            self.resize(self.rows, self.cols)
        elif order["mode"] == "25":
            self.cursor = order["on"] == "h"
        elif order["mode"] == "2004":
            self.pasting = order["on"] == "h"
        else:
            self.style = style_of(order["style"])

    def put(self, c):
        size = width(c)
        if size is None:
            raise Fault(f"a character that no cell has: {c!r}")
        if size == 0:
            self.join(c)
            return
        if self.place is None or self.style is None:
            raise Fault(f"{c!r} at a place or in a style that isn't known")
        if self.place % self.cols + size > self.cols:
            raise Fault(f"{c!r} goes past the end of its row")
        if self.cells[self.place] == ("", None):
            raise Fault(f"{c!r} is written into a wide character")
        end = self.place + size
        self.cells[self.place : end] = [(c, self.style)] + [("", None)] * (size - 1)
        # the rest of a character that was overwritten in part
        if end < len(self.cells) and self.cells[end] == ("", None):
            self.cells[end] = None
        self.place = end if end % self.cols else None
        self.last = end - size

    def join(self, mark):
        if getattr(self, "last", None) is None:
            raise Fault(f"the mark {mark!r} has no character before it")
        text, style = self.cells[self.last]
        self.cells[self.last] = (text + mark, style)

    def picture(self):
        """All that is seen."""
        return Picture(self.rows, self.cols, tuple(self.cells), self.place if self.cursor else None)


class Picture:
    """What a terminal showed; two are equal where all that is seen is the same."""

    def __init__(self, rows, cols, cells, cursor):
        self.rows, self.cols, self.cells, self.cursor = rows, cols, cells, cursor

    def __eq__(self, other):
        return vars(self) == vars(other)

    def cells_of(self, row):
        return self.cells[row * self.cols : (row + 1) * self.cols]

    def text_of(self, row):
        """The text of a row, without the spaces at its end."""
        return "".join(it[0] for it in self.cells_of(row)).rstrip(" ")
