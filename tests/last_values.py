"""The last value within each limit of psg, and the first one past it: `tests/hostile values` plays them.

`definitions` yields a name, the text of a definition, and the status and the output of `check`. `sessions` yields a name, the
definition, the lines of a script, and the replies. `files` has files of the greatest length. Each expected value is from the
papers' tables or counted by hand, as the comment beside it says.
"""
MANY = 340282366920938463463374607431768211456


def repeated(text, count, between=" "):
    return between.join([text] * count)


def nested(name, depth, inner):
    """Returns `inner` in so many calls of `name`."""
    return f"{name}(" * depth + inner + ")" * depth


def boxes(sizes):
    """Returns a language of one placeholder with so many values: each is a box of 64 lines of 128 constructors, less one where
    the size is 8,192 and not 8,193. A box is 1 constructor and its lines."""
    rows = []
    for number, size in enumerate(sizes):
        lines = [f"r({repeated('a', 127, ',')})"] * 64
        if size == 8192:
            lines[number] = f"q({repeated('a', 126, ',')})"
        box = f"x({','.join(lines)})"
        rows += [f'op o{number} : P = "o{number}"', f"row {box}", f"hole P {box} by o{number}"]
    return "\n".join(["psg 1", "sort Bit = a b", f"sort Line = r({repeated('Bit', 127, ',')}) q({repeated('Bit', 126, ',')})",
                      f"sort Box = x({repeated('Line', 64, ',')}) y", "phylum P : Box", *rows]) + "\n"


def large(size):
    """Returns a language with one value of 16,384 or 16,385 constructors: a box of 128 lines of 128."""
    lines = [f"r({repeated('a', 127, ',')})"] * 128
    if size == 16384:
        lines[5] = f"q({repeated('a', 126, ',')})"
    box = f"x({','.join(lines)})"
    return "\n".join(["psg 1", "sort Bit = a b", f"sort Line = r({repeated('Bit', 127, ',')}) q({repeated('Bit', 126, ',')})",
                      f"sort Box = x({repeated('Line', 128, ',')}) y", "phylum P : Box", 'op o : P = "o"', f"row {box}",
                      f"hole P {box} by o"]) + "\n"


# Numbers in unary: f adds ten to a value, g one.
DEEP = f"""psg 1
sort N = z s(N)
phylum E : N
op f : E prefix 5 = "f" E
row {nested('s', 10, '?T')} : ?T
op g : E prefix 5 = "g" E
row s(?T) : ?T
op o : E = "o"
row z
hole E ?T
case z by o
case s(?T) by g(hole(E,?T))
"""

TEXTS = """psg 1
sort Unit = ok
phylum Exp : Unit
list Exps : Unit of Exp "," inline fixed
op str : Exp = text
row ok
nil Exps ok
cell Exps ok : ok ok
hole Exp ok by str("")
hole Exps ok by []
"""


def one_operator(word):
    return f'psg 1\nsort S = s\nphylum P : S\nop o : P = "{word}"\nrow s\nhole P s by o\n'


def named(name):
    return f'psg 1\nsort S = s\nphylum {name} : S\nop o : {name} = "o"\nrow s\nhole {name} s by o\n'


def terms(depth):
    """Returns a language with a term that is so deep."""
    term = nested("f", depth - 1, "z")
    return f'psg 1\nsort N = z f(N)\nphylum E : N\nop o : E = "o"\nrow {term}\nhole E {term} by o\n'


def specimens(depth):
    """Returns a language with a specimen that is so deep."""
    return f"""psg 1
sort S = s
phylum E : S
op o : E = "o"
row s
op g : E prefix 5 = "g" E
row s : s
hole E s by {nested('g', depth - 1, 'o')}
"""


def definitions():
    accepted = (0, "accepted\n")
    yield "a word of 255 bytes", one_operator("w" * 255), accepted
    yield "a word of 256 bytes", one_operator("w" * 256), (1, "line 4 code 8\n")
    yield "a name of 64 bytes", named("N" * 64), accepted
    yield "a name of 65 bytes", named("N" * 65), (1, "line 3 code 2\n")
    yield "a term 32 deep", terms(32), accepted
    yield "a term 33 deep", terms(33), (1, "line 5 code 11\n")
    yield "a specimen 32 deep", specimens(32), accepted
    yield "a specimen 33 deep", specimens(33), (1, "line 8 code 11\n")
    yield "a value of 16,384 constructors", large(16384), accepted
    # the specimen's own step has the value
    yield "a value of 16,385 constructors", large(16385), (1, "refused Large hole 0 case 0\n")
    for number, answer in ((MANY - 1, accepted), (MANY, (1, "line 6 code 2\n"))):
        text = f'psg 1\nsort S = s\nphylum P : S\nop o : P = number\nrow s\nhole P s by o({number})\n'
        yield f"a specimen with the number {number}", text, answer
    for length, answer in ((4096, accepted), (4097, (1, "line 6 code 2\n"))):
        text = f'psg 1\nsort S = s\nphylum P : S\nop o : P = text\nrow s\nhole P s by o("{"t" * length}")\n'
        yield f"a specimen with a text of {length} bytes", text, answer
    for level, answer in ((1, accepted), (9, accepted), (0, (1, "line 6 code 2\n")), (10, (1, "line 6 code 2\n"))):
        text = f'psg 1\nsort S = s\nphylum P : S\nop o : P = "o"\nrow s\nop n : P prefix {level} = "n" P\nrow s : s\nhole P s by o\n'
        yield f"the level {level}", text, answer


def balanced(leaves):
    """Returns a tree of `both` over the leaves, as flat as can be."""
    if len(leaves) == 1:
        return leaves[0]
    middle = len(leaves) // 2
    return f"both {balanced(leaves[:middle])} {balanced(leaves[middle:])} end"


def weighing(counts):
    """Returns a program of heavy.psg: so many leaves with a value in 4, 3, 2, 1 and 0 operators `copies`.

    A leaf with d of them weighs 1 for itself and 1, 11, 111 .. for its values: 2, 13, 124, 1235 or 12346. Each leaf but one
    has an operator `both` above it, which weighs 1."""
    leaves = []
    for depth, count in zip((4, 3, 2, 1, 0), counts):
        leaves += [f"leaf {'copies ' * depth}bare {'end ' * depth}end"] * count
    return balanced(leaves)


def printed(size):
    """Returns the text of the program that `gen` makes for a number, on one line."""
    declared = "; ".join(f"var v{i} : int" for i in range(size))
    assigned = "; ".join(f"v{i} := v{i} + {i}" for i in range(size))
    return f"begin {declared} do while ?Exp do ... od; {assigned}; ... end"


def statements(count):
    """Returns statements of so many nodes with the list: loops of 5 nodes, and one of 1 to 5 where some are left."""
    loops, left = divmod(count - 1, 5)
    rest = {0: [], 1: ["skip"], 2: ["skip", "skip"], 3: ["while true do od"], 4: ["while true do skip od"]}[left]
    return repeated("while true do skip ; skip od", loops, " ; ") + "".join(f" ; {it}" for it in rest)


def kept_texts(last):
    """Returns the list of 63 texts of 4,092 letters and one of `last`."""
    return ", ".join([f'"{"a" * 4092}"'] * 63 + [f'"{"a" * last}"'])


def typed(heavy, pairs):
    mini = None
    yield "words", mini, ["new Exp", f"over / {'w' * 255}", f"over / {'w' * 256}", f"refine / ref {'w' * 255}", "cut /",
                          f"refine / ref {'w' * 255}", "cut /", f"refine / ref {'w' * 256}", f"over / ?{'w' * 255}",
                          f"over / ?{'w' * 256}"], \
        ["ok", "ok", "refused 13", "refused 3", "ok", "ok", "ok", "refused 6", "refused 14", "refused 13"]
    yield "numbers", mini, ["new Exp", f"over / {MANY - 1}", f"over / {MANY}", "cut /", f"refine / num {MANY}",
                            f"refine / num {'0' * 300}{MANY - 1}", "show"], \
        ["ok", "ok", "refused 13", "ok", "refused 6", "ok", str(MANY - 1), "ok"]
    yield "texts", TEXTS, ["new Exps", f'over / "{"t" * 4096}"', f'over / "{"t" * 4097}"', 'over / "\\"',
                           'over / "' + '\\"' * 4096 + '"', 'over / "' + '\\"' * 4097 + '"'], \
        ["ok", "ok", "refused 13", "refused 13", "ok", "refused 13"]
    yield "elements", mini, ["new Stats", f"over / {repeated('skip', 4096, ' ; ')}", f"over / {repeated('skip', 4097, ' ; ')}",
                             "insert / 4096 skip", "remove / 0", "insert / 4095 skip", "insert / 0 skip"], \
        ["ok", "ok", "refused 8", "refused 8", "ok", "ok", "refused 8"]
    yield "20,000 nodes", mini, ["new Stats", f"over / {statements(20000)}", "insert / 0 skip", f"over / {statements(20001)}",
                                 f"over / {statements(19999)}", "insert / 0 skip", "insert / 0 skip"], \
        ["ok", "ok", "refused 8", "refused 8", "ok", "ok", "refused 8"]
    yield "depth", mini, ["new Exp", f"over / x{'[0]' * 199}", f"over / x{'[0]' * 200}",
                          f"over / {'(' * 400}x{')' * 400}", f"over / {'(' * 401}x{')' * 401}",
                          f"over / x{'[0]' * 198}", "save f /", "over / 1 + 1", "cut /0", "paste /0 f", f"over / x{'[0]' * 199}",
                          "save f /", "over / 1 + 1", "cut /0", "paste /0 f"], \
        ["ok", "ok", "refused 9", "ok", "refused 9", "ok", "saved f", "ok", "ok", "ok", "ok", "saved f", "ok", "ok",
         "refused 9"]
    yield "sum of weights, by the papers' row", mini, ["new Stat", f"over / {printed(1409)}", f"over / {printed(1410)}"], \
        ["ok", "ok", "refused 11"]
    # with one more for each of the k leaves the sums are 3, 14, 125, 1236 and 12347 for a leaf, less 1 for all:
    # 323 * 12347 + 9 * 1236 + 6 * 125 + 2 * 14 + 6 * 3 - 1 = 4,000,000, and with 1 * 14 + 11 * 3 it is 4,000,001
    yield "a sum of weights of 4,000,000", heavy, ["new Both", f"over / {weighing((323, 9, 6, 2, 6))}",
                                                   f"over / {weighing((323, 9, 6, 1, 11))}"], ["ok", "ok", "refused 11"]
    yield "pairs", pairs, ["new Exp", *(f"over / {'d ( ' * n}?Exp{' )' * n}" for n in (13, 14, 60, 199))], \
        ["ok", "ok", "refused 10", "refused 10", "refused 10"]
    yield "a relation of 16,384", boxes((8192, 8192)), ["new P"], ["ok"]
    yield "a relation of 16,385", boxes((8192, 8193)), ["new P"], ["refused 10"]
    # 99 times ten, nine times one, and one: 1,000
    yield "terms 1,000 deep", DEEP, ["new E", f"over / {'f ' * 99}{'g ' * 9}o", f"over / {'f ' * 99}{'g ' * 10}o",
                                     f"over / {'f ' * 99}{'g ' * 9}?E", f"over / {'f ' * 99}{'g ' * 10}?E"], \
        ["ok", "ok", "refused 10", "ok", "refused 10"]


def shelves():
    mini = None
    saves = [f"save n{i} /" for i in range(64)]
    saved = [f"saved n{i}" for i in range(64)]
    yield "64 saved trees", mini, ["new Exp", *saves, "save m /", "save n5 /", "fetch kept", "save n63 /"], \
        ["ok", *saved, "refused 23", "saved n5", "refused 18", "saved n63"]
    yield "33 undone", mini, ["new Exp", *["over / 1"] * 40, *["undo"] * 33, "refine / tru", "redo", *["redo"] * 32], \
        ["ok"] * 41 + ["ok"] * 32 + ["refused 15", "refused 3", "ok"] + ["ok"] * 31 + ["refused 16"]
    yield "names of commands", mini, ["new Exp", f"save {'n' * 64} /", f"save {'n' * 65} /", f"new {'N' * 64}", f"new {'N' * 65}",
                                      f"refine / {'n' * 64}", f"refine / {'n' * 65}"], \
        ["ok", f"saved {'n' * 64}", "refused 1", "refused 4", "refused 1", "refused 4", "refused 1"]
    yield "numbers of commands", mini, ["new Exp", "over / 1 + 2", "goto /4294967295", "goto /4294967296", "goto /00",
                                        "insert / 4294967295 num 1", "insert / 4294967296 num 1", "range 5 5",
                                        "range 6 6", "range 0 4294967295 1", "range 0 4294967296 1", "screen 0 0 200 1",
                                        "screen 0 0 201 1", "screen 0 0 1 400", "screen 0 0 1 401",
                                        "screen 4294967295 4294967295 1 1", "screen 4294967296 0 1 1"], \
        ["ok", "ok", "refused 2", "refused 1", "refused 1", "refused 7", "refused 1", "ok", "refused 20", "refused 20",
         "refused 1", "1", *[""] * 199, "refused 1", "1 + 2", "refused 1", "", "refused 1"]
    # the head line has 18 bytes; each of 63 texts has 4,096 bytes with its quotes, its comma and the space behind it; then
    # the last text with its quotes, and a line feed
    for last, reply in ((4075, "kept f"), (4076, "refused 8")):
        yield f"a kept fragment with a last text of {last}", TEXTS, \
            ["new Exps", f"over / {kept_texts(last)}", "save f /", "keep f out"], ["ok", "ok", "saved f", reply]


def shared(same):
    """Yields sessions over PAIRS with an operator `same`, whose arguments have one value. `d` doubles a value: d(x) is a pair of
    twice x, so a value that is doubled n times has 2^n times what the innermost one has, and 2^n - 1 pairs."""
    def doubled(times, inner):
        return "d(" * times + inner + ")" * times

    def lopsided(times, inner):
        return "p(" * times + inner + ",u)" * times

    # 6,143 constructors: 4,095 and 2,047 and the pair
    inner = f"p({doubled(11, 'u')},{doubled(10, 'u')})"
    # On the left 6,143 and 13 times 2; on the right 2^13 variables and 2^13 - 1 pairs. The first argument of the outermost pair
    # is a pair on the left and so is the right one, but its second one is the unit on the left and a pair on the right.
    yield "arguments that differ, with 50 million constructors in between", same, \
        ["new Exp", f"over / same({lopsided(13, inner)},{doubled(13, '?Exp')})"], ["ok", "wrong /"]
    # the variable is the unit: 4,095 constructors on both sides
    yield "arguments that agree", same, \
        ["new Exp", f"over / same({doubled(11, 'u')},{doubled(11, '?Exp')})", f"relation /1{'/0' * 11}"], ["ok", "ok", "unit"]
    # the innermost pair on the right is of two equal variables, and that on the left is of the unit and a pair
    yield "arguments that differ at the leaves alone", same, \
        ["new Exp", f"over / same({doubled(10, 'p(u,d(u))')},{doubled(11, '?Exp')})"], ["ok", "wrong /"]


def sessions(heavy, pairs):
    yield from typed(heavy, pairs)
    yield from shelves()


def fragment(length):
    """Returns a kept fragment of so many bytes, most of them blanks."""
    head = "fragment 2 f Exp\n1"
    return head + " " * (length - len(head))


def filled(text, length):
    return text + "\n" * (length - len(text.encode()))
