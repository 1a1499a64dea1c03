"""Reads the lines of a definition of which check has found no fault, for the tools that say more of it.

A variable of a term is its text, as "?T"; another term is a tuple of its constructor and its arguments. A specimen is a tuple: ("op",
OPERATOR, PARTS), ("list", ELEMENTS, REST) with a hole place or None as rest, ("hole", KIND, TERM), ("name", NAME), or ("word", TEXT)
for a number or a text in quotes.
"""
import re

PARTS = re.compile(r'"(?:[^"\\]|\\.)*"|[?$]?[A-Za-z0-9_]+|[][:=(),|@]')
MARKS = {"space", "tight", "line", "in", "out"}
FORMS = {"prefix", "postfix", "infix", "infixl", "infixr"}

# the characters of which runs are symbols
SYMBOLS = "+*/%<>=!&|^~:.@#$-"


class Item:
    """An item of an operator: its kind is word, slot, refers, declares, number or text."""

    def __init__(self, kind, name="", space=""):
        self.kind = kind
        self.name = name
        self.space = space

    def is_name(self):
        return self.kind in ("refers", "declares")


class Operator:
    def __init__(self, name, phylum):
        self.name = name
        self.phylum = phylum
        self.scope = False
        self.form = ""
        self.level = 10
        self.items = []
        self.rows = []

    def slots(self):
        return [it.name for it in self.items if it.kind == "slot"]

    def least(self, place):
        """The least level of the trees in the slot that is the item at the place."""
        is_own = self.items[place].name == self.phylum
        if not is_own or not self.form or place not in (0, len(self.items) - 1):
            return 0
        further = {"infixl": place > 0, "infixr": place == 0, "infix": True}
        return self.level + (1 if further.get(self.form) else 0)


class List:
    def __init__(self, name, element, separator, is_open):
        self.name = name
        self.element = element
        self.separator = separator
        self.is_open = is_open
        self.nils = []
        self.cells = []


class Hole:
    """A hole line, with its cases: pairs of a term and a specimen."""

    def __init__(self, kind, term):
        self.kind = kind
        self.term = term
        self.cases = []


class Words:
    """The parts of a line, from left to right."""

    def __init__(self, line):
        self.parts = PARTS.findall(line)
        self.at = 0

    def next(self):
        self.at += 1
        return self.parts[self.at - 1]

    def peek(self):
        return self.parts[self.at] if self.at < len(self.parts) else ""

    def take(self, part):
        """Whether the part is there; it is passed over then."""
        found = self.peek() == part
        self.at += found
        return found

    def term(self):
        head = self.next()
        if head.startswith("?"):
            return head
        arguments = []
        if self.take("("):
            arguments.append(self.term())
            while self.take(","):
                arguments.append(self.term())
            self.take(")")
        return (head, *arguments)

    def specimen(self):
        if self.take("["):
            return self.list_specimen()
        head = self.next()
        if head.startswith("$"):
            return "name", head[1:]
        if head[0] in '"0123456789':
            return "word", head
        if head == "hole" and self.peek() == "(" and self.parts[self.at + 1][0].isupper():
            self.at += 1
            kind = self.next()
            self.take(",")
            term = self.term()
            self.take(")")
            return "hole", kind, term
        parts = []
        if self.take("("):
            parts.append(self.specimen())
            while self.take(","):
                parts.append(self.specimen())
            self.take(")")
        return "op", head, parts

    def list_specimen(self):
        elements, rest = [], None
        if self.peek() not in ("]", "|"):
            elements.append(self.specimen())
            while self.take(","):
                elements.append(self.specimen())
        if self.take("|"):
            rest = self.specimen()
        self.take("]")
        return "list", elements, rest


class Definition:
    def __init__(self, path):
        self.sorts = {}
        self.phyla = {}
        self.operators = {}
        self.lists = {}
        self.holes = []
        self.declares = []
        self.spaces = {}
        self.comment = ""
        for line in open(path, encoding="utf-8"):
            words = Words(line.rstrip("\r\n"))
            read = getattr(self, f"read_{words.peek()}", None)
            if read and not line.startswith("#"):
                words.next()
                read(words)

    def without_comments(self, text):
        """The text with a space for each byte of a comment, so that each other byte keeps its place."""
        if not self.comment:
            return text
        parts = re.compile('"(?:[^"\\\\\n]|\\\\.)*"|(?<![%s])%s[^\n]*' % (re.escape(SYMBOLS), re.escape(self.comment)))
        return parts.sub(lambda it: it[0] if it[0][0] == '"' else " " * len(it[0].encode()), text)

    def read_comment(self, words):
        self.comment = unquoted(words.next())

    def read_sort(self, words):
        name = words.next()
        words.take("=")
        self.sorts[name] = []
        while words.peek():
            constructor, arguments = words.next(), []
            if words.take("("):
                arguments.append(words.next())
                while words.take(","):
                    arguments.append(words.next())
                words.take(")")
            self.sorts[name].append((constructor, arguments))

    def read_entity(self, words):
        self.spaces[""] = words.next()

    def read_space(self, words):
        name = words.next()
        words.take(":")
        self.spaces[name] = words.next()

    def read_phylum(self, words):
        name = words.next()
        words.take(":")
        sort = words.next()
        self.phyla[name] = (sort, words.peek() == "bracketed")

    def read_list(self, words):
        name = words.next()
        words.take(":")
        words.next()
        words.take("of")
        element, separator = words.next(), words.next()
        words.next()
        self.lists[name] = List(name, element, unquoted(separator), words.peek() == "unfinished")

    def read_op(self, words):
        name = words.next()
        words.take(":")
        op = self.operators[name] = Operator(name, words.next())
        op.scope = words.take("scope")
        if words.peek() in FORMS:
            op.form = words.next()
            op.level = int(words.next())
        words.take("=")
        while words.peek():
            self.read_item(op, words)

    def read_item(self, op, words):
        word = words.next()
        if word in MARKS:
            return
        if word.startswith('"'):
            op.items.append(Item("word", unquoted(word)))
        elif word[0].isupper():
            op.items.append(Item("slot", word))
        else:
            op.items.append(Item(word, "", words.next() if words.take("@") else ""))

    def read_row(self, words):
        terms = [words.term()]
        words.take(":")
        while words.peek():
            terms.append(words.term())
        list(self.operators.values())[-1].rows.append(terms)

    def read_nil(self, words):
        self.lists[words.next()].nils.append(words.term())

    def read_cell(self, words):
        cells = self.lists[words.next()].cells
        value = words.term()
        words.take(":")
        cells.append((value, words.term(), words.term()))

    def read_hole(self, words):
        hole = Hole(words.next(), words.term())
        if words.take("by"):
            hole.cases.append((hole.term, words.specimen()))
        self.holes.append(hole)

    def read_case(self, words):
        term = words.term()
        words.take("by")
        self.holes[-1].cases.append((term, words.specimen()))

    def read_declare(self, words):
        space = words.next() if words.take("@") else ""
        name = words.next()
        entity = words.term()
        words.take(":")
        value = words.term()
        words.take("by")
        self.declares.append((space, name, entity, value, words.specimen()))

    def rows_of(self, kind):
        return [it.term for it in self.holes if it.kind == kind]

    def declaring(self):
        """The phyla and lists that declare."""
        found = set()
        while True:
            more = {
                op.phylum
                for op in self.operators.values()
                if not op.scope and any(it.kind == "declares" or it.name in found and it.kind == "slot" for it in op.items)
            }
            more |= {it.name for it in self.lists.values() if it.element in more | found}
            if more <= found:
                return found
            found |= more


def unquoted(word):
    return re.sub(r"\\(.)", r"\1", word[1:-1])


# ---- terms


def text_of(term):
    if isinstance(term, str):
        return term
    return term[0] + (f"({','.join(map(text_of, term[1:]))})" if len(term) > 1 else "")


def renamed(term, mark):
    return f"{term}{mark}" if isinstance(term, str) else (term[0], *(renamed(it, mark) for it in term[1:]))


def put_in(term, known):
    """The term with its variables put in; `known` has no circles."""
    while isinstance(term, str) and term in known:
        term = known[term]
    return term if isinstance(term, str) else (term[0], *(put_in(it, known) for it in term[1:]))


def occurs(variable, term, known):
    term = put_in(term, known)
    return term == variable or not isinstance(term, str) and any(occurs(variable, it, known) for it in term[1:])


def unify(one, other, known):
    """What is known after the two terms are made one, or None."""
    one, other = put_in(one, known), put_in(other, known)
    if one == other:
        return known
    if isinstance(one, str):
        return None if occurs(one, other, known) else {**known, one: other}
    if isinstance(other, str):
        return unify(other, one, known)
    if one[0] != other[0] or len(one) != len(other):
        return None
    for left, right in zip(one[1:], other[1:]):
        known = unify(left, right, known)
        if known is None:
            return None
    return known


def match(pattern, term, known):
    """What the variables of the pattern are where the term is an instance of it, or None."""
    if isinstance(pattern, str):
        if pattern in known:
            return known if known[pattern] == term else None
        return {**known, pattern: term}
    if isinstance(term, str) or pattern[0] != term[0] or len(pattern) != len(term):
        return None
    for left, right in zip(pattern[1:], term[1:]):
        known = match(left, right, known)
        if known is None:
            return None
    return known


def shown(term):
    """The text of the term with its variables named in order: ?1, ?2."""
    names = {}

    def named(it):
        if isinstance(it, str):
            return names.setdefault(it, f"?{len(names) + 1}")
        return (it[0], *(named(part) for part in it[1:]))

    return text_of(named(term))
