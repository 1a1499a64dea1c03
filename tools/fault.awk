# Says where in its line a fault of a definition is, as far as the program's report does not: the column at which a line has
# none of the forms (code 2), the name that no line declares (code 5), and what is in front of the first line (code 3).
#
#   awk -v wanted=LINE -v code=CODE -f tools/fault.awk DEF DEF    writes one line of words, or nothing
#
# tools/explain calls it. Columns count bytes from 1. The file is read twice: first for its names, then for the line.

function fail(what) {
    if (want == "") { want = what; where = at }
    return 0
}

# Takes the line apart: kind[K], word[K] and column[K] of each part, K from 1 to count.
function scan(text,   sign, rest, size) {
    count = 0
    place = 1
    while (place <= length(text)) {
        rest = substr(text, place)
        sign = substr(rest, 1, 1)
        if (sign == " ") { place++; continue }
        if (match(rest, /^[A-Z][A-Za-z0-9_]*/)) put("large")
        else if (match(rest, /^[a-z][A-Za-z0-9_]*/)) put("small")
        else if (match(rest, /^[?][A-Za-z0-9]+/)) put("variable")
        else if (match(rest, /^[$][a-z0-9]+/)) put("dollar")
        else if (match(rest, /^[0-9]+/)) put("number")
        else if (match(rest, /^"([^"\\]|\\["\\n])*"/)) put("quoted")
        else { RLENGTH = 1; put(index("[]:=(),|@", sign) ? sign : "bad") }
    }
}

function put(what) {
    count++
    kind[count] = what
    column[count] = place
    word[count] = substr(text_of_line, place, RLENGTH)
    place += RLENGTH
}

function is(what) {
    return at <= count && kind[at] == what
}

function is_word(what) {
    return at <= count && kind[at] == "small" && word[at] == what
}

function take(what, said) {
    if (!is(what)) return fail(said)
    at++
    return 1
}

# A name that refers to what a line of one of these classes declares.
function refer(what, classes, said) {
    if (!is(what)) return fail(said)
    referred++
    at_name[referred] = word[at]
    at_column[referred] = column[at]
    at_classes[referred] = classes
    at++
    return 1
}

function sort_name() { return refer("large", "sort", "the name of a sort, with a capital letter,") }
function list_name() { return refer("large", "list", "the name of a list, with a capital letter,") }
function kind_name() { return refer("large", "phylum list", "the name of a phylum or of a list, with a capital letter,") }

function term() {
    if (is("variable")) { at++; return 1 }
    if (!refer("small", "constructor", "a term: a constructor, with a small letter, or a variable such as ?T,")) return 0
    if (!is("(")) return 1
    at++
    do {
        if (!term()) return 0
        if (is(")")) { at++; return 1 }
    } while (take(",", "a comma or a closing bracket"))
    return 0
}

function hole_term() {
    if (!is_word("hole")) return fail("hole(KIND,term)")
    at++
    return take("(", "an opening bracket") && kind_name() && take(",", "a comma") && term() && take(")", "a closing bracket")
}

function specimen() {
    if (is("[")) return specimen_list()
    if (is_word("hole") && kind[at + 1] == "(" && kind[at + 2] == "large") return hole_term()
    if (!refer("small", "operator", "a specimen: an operator, with a small letter, or a list in [ ],")) return 0
    if (!is("(")) return 1
    at++
    do {
        if (!part()) return 0
        if (is(")")) { at++; return 1 }
    } while (take(",", "a comma or a closing bracket"))
    return 0
}

function part() {
    if (is("number") && is_large(word[at])) return fail("a number below 2^128")
    if (is("dollar") || is("number") || is("quoted")) { at++; return 1 }
    if (is("small") || is("[")) return specimen()
    return fail("a part: a specimen, a name such as $a, a number or a text in quotes,")
}

# Whether the digits are those of a number of 2^128 or more.
function is_large(digits) {
    sub(/^0+/, "", digits)
    return length(digits) > 39 || length(digits) == 39 && digits "x" >= "340282366920938463463374607431768211456x"
}

function specimen_list() {
    at++
    if (is("]")) { at++; return 1 }
    if (!is("|")) {
        do {
            if (!specimen()) return 0
        } while (is(",") && ++at)
    }
    if (is("|")) { at++; if (!hole_term()) return 0 }
    return take("]", "a comma, | or a closing bracket ]")
}

function by_specimen() {
    if (!is_word("by")) return fail("by, and a specimen,")
    at++
    return specimen()
}

# In version 2 a declare line names its space, and an item may.
function space_name(needed) {
    if (version != 2 || !needed && !is("@")) return 1
    if (!take("@", "@, and the name of a space,")) return 0
    return refer("small", "space", "the name of a space, with a small letter,")
}

function item() {
    if (is("quoted")) { at++; return 1 }
    if (is("large")) return kind_name()
    if (is("small") && index(" refers declares number text space tight line in out ", " " word[at] " ")) {
        at++
        return word[at - 1] == "refers" || word[at - 1] == "declares" ? space_name(0) : 1
    }
    return fail("an item: \"word\", a phylum or list, refers, declares, number, text, space, tight, line, in or out,")
}

function constructor() {
    if (!take("small", "a constructor, with a small letter,")) return 0
    if (!is("(")) return 1
    at++
    do {
        if (!sort_name()) return 0
        if (is(")")) { at++; return 1 }
    } while (take(",", "a comma or a closing bracket"))
    return 0
}

function level() {
    if (!(is("small") && index(" prefix postfix infix infixl infixr ", " " word[at] " "))) return 1
    at++
    if (is("number") && word[at] ~ /^[1-9]$/) { at++; return 1 }
    return fail("a level from 1 to 9")
}

function operator() {
    if (!(take("small", "the name of an operator, with a small letter,") && take(":", "a colon") \
        && refer("large", "phylum", "the name of a phylum, with a capital letter,"))) return 0
    if (is_word("scope")) at++
    if (!level()) return 0
    if (!is("=")) return fail(is("small") ? "scope, a level such as infixl 4, or =" : "=")
    at++
    do {
        if (!item()) return 0
    } while (at <= count)
    return 1
}

function list() {
    if (!(take("large", "the name of a list, with a capital letter,") && take(":", "a colon") && sort_name())) return 0
    if (!is_word("of")) return fail("of, and a phylum,")
    at++
    if (!(refer("large", "phylum", "the name of a phylum, with a capital letter,") && take("quoted", "a separator in quotes"))) return 0
    if (!is_word("lines") && !is_word("inline")) return fail("lines or inline")
    at++
    if (!is_word("unfinished") && !is_word("fixed")) return fail("unfinished or fixed")
    at++
    return 1
}

function cells() {
    return list_name() && term() && take(":", "a colon") && term() && term()
}

function row() {
    if (!term()) return 0
    if (at > count) return 1
    if (!take(":", "a colon, and a term for each part,")) return 0
    do {
        if (!term()) return 0
    } while (at <= count)
    return 1
}

function hole() {
    if (!(kind_name() && term())) return 0
    if (at > count) return 1
    return by_specimen()
}

function declaring() {
    return space_name(1) && list_name() && term() && take(":", "a colon") && term() && by_specimen()
}

function sorts() {
    if (!(take("large", "the name of a sort, with a capital letter,") && take("=", "="))) return 0
    do {
        if (!constructor()) return 0
    } while (at <= count)
    return 1
}

function phyla() {
    if (!(take("large", "the name of a phylum, with a capital letter,") && take(":", "a colon") && sort_name())) return 0
    if (is_word("bracketed")) at++
    return 1
}

function spaces() {
    return take("small", "the name of a space, with a small letter,") && take(":", "a colon") && sort_name()
}

# Whether the line has its form; else want and where say what is missing.
function has_form(   key, whole) {
    key = kind[1] == "small" ? word[1] : ""
    at = 2
    if (key == "entity" && version == 2) { at = 1; return fail("in version 2 a space line, as space name : SORT,") }
    if (key == "space" && version == 1) { at = 1; return fail("in version 1 an entity line, as entity SORT,") }
    if (key == "comment" && third) return fail("one token in quotes, as comment \"//\",")
    if (key == "sort") whole = sorts()
    else if (key == "entity") whole = sort_name()
    else if (key == "space") whole = spaces()
    else if (key == "phylum") whole = phyla()
    else if (key == "list") whole = list()
    else if (key == "op") whole = operator()
    else if (key == "row") whole = row()
    else if (key == "nil") whole = list_name() && term()
    else if (key == "cell") whole = cells()
    else if (key == "hole") whole = hole()
    else if (key == "case") whole = term() && by_specimen()
    else if (key == "declare") whole = declaring()
    else { at = 1; return fail("the first word of a line: sort, " (version == 2 ? "space" : "entity") ", phylum, list, op, row, nil, cell, hole, case or declare,") }
    if (whole && at <= count) return fail("the end of the line")
    return whole
}

# How many letters have to be changed, added or left out to turn one name into the other.
function distance(one, other,   i, j, cost, best, line_above, line_here) {
    for (j = 0; j <= length(other); j++) line_above[j] = j
    for (i = 1; i <= length(one); i++) {
        line_here[0] = i
        for (j = 1; j <= length(other); j++) {
            cost = tolower(substr(one, i, 1)) != tolower(substr(other, j, 1))
            best = line_above[j - 1] + cost
            if (line_above[j] + 1 < best) best = line_above[j] + 1
            if (line_here[j - 1] + 1 < best) best = line_here[j - 1] + 1
            line_here[j] = best
        }
        for (j = 0; j <= length(other); j++) line_above[j] = line_here[j]
    }
    return line_above[length(other)]
}

# A name of one of the classes that is written nearly like it, or nothing.
function like(name, classes,   key, parts, near, far, best) {
    best = 3
    near = ""
    for (key in declared) {
        split(key, parts, SUBSEP)
        if (!index(" " classes " ", " " parts[1] " ")) continue
        far = distance(name, parts[2])
        if (far < best && far < length(name) || far == best && near != "" && parts[2] < near) { best = far; near = parts[2] }
    }
    return near
}

function other_class(name,   all, number, i) {
    number = split("sort space phylum list constructor operator", all, " ")
    for (i = 1; i <= number; i++) if ((all[i], name) in declared) return all[i]
    return ""
}

function a(thing) {
    return (thing ~ /^[aeio]/ ? "an " : "a ") thing
}

# Of the names that the line refers to, the first that no line declares as what is wanted there.
function tell_unknown(   i, j, all, number, found, said, other, near) {
    for (i = 1; i <= referred; i++) {
        number = split(at_classes[i], all, " ")
        found = 0
        for (j = 1; j <= number; j++) if ((all[j], at_name[i]) in declared) found = 1
        if (found) continue
        said = at_classes[i]
        sub(/ /, " or ", said)
        other = other_class(at_name[i])
        near = like(at_name[i], at_classes[i])
        print "  column " at_column[i] ": " at_name[i] " is no " said (other == "" ? "" : ", but " a(other)) (near == "" ? "" : "; perhaps " near)
        return
    }
}

function tell_form() {
    if (match(text_of_line, /\r/)) print "  column " RSTART ": a carriage return that does not end the line"
    else if (match(text_of_line, /\t/)) print "  column " RSTART ": a tab; parts of a line are separated by spaces"
    else if (text_of_line ~ /^ /) print "  column 1: the line begins with a space"
    else if (text_of_line ~ / $/) print "  column " length(text_of_line) ": the line ends with a space"
    else if (word[1] == "row" && !seen_operator) print "  column 1: a row belongs to an op line above it, and there is none"
    else if (word[1] == "case" && !open_hole) print "  column 1: a case belongs to a hole line above it that has no by, and there is none"
    else if (!has_form()) print "  column " (where > count ? length(text_of_line) + 1 ": the line ends, and " : column[where] ": ") want " is wanted"
}

{ sub(/\r$/, ""); text_of_line = $0 }

# what each line declares
NR == FNR {
    if (FNR == 1) { third = $0 ~ /^psg +3$/; version = third || $0 ~ /^psg +2$/ ? 2 : 1 }
    if ($0 ~ /^#/ || $0 ~ /^$/) next
    scan($0)
    if (kind[2] == "large" || kind[2] == "small") {
        if (word[1] == "sort" || word[1] == "phylum" || word[1] == "list" || word[1] == "space") declared[word[1], word[2]] = 1
        if (word[1] == "op") declared["operator", word[2]] = 1
    }
    if (word[1] == "sort") {
        depth = 0
        for (i = 4; i <= count; i++) {
            if (kind[i] == "(") depth++
            else if (kind[i] == ")") depth--
            else if (depth == 0 && kind[i] == "small") declared["constructor", word[i]] = 1
        }
    }
    next
}

FNR < wanted && /^op / { seen_operator = 1 }
FNR < wanted && /^hole / { open_hole = $0 !~ / by / }
FNR == wanted {
    if (code == 3) {
        if (substr($0, 1, 3) == "\357\273\277") print "  the file begins with a byte order mark, three bytes that most editors do not show; save it without"
        else if ($0 ~ /^[ \t]/) print "  column 1: the line begins with a " ($0 ~ /^\t/ ? "tab" : "space")
        else if ($0 ~ /[ \t]$/) print "  column " length($0) ": the line ends with a " ($0 ~ /\t$/ ? "tab" : "space")
        exit
    }
    scan($0)
    want = ""
    referred = 0
    if (code == 2) tell_form()
    else if (has_form() && code == 5) tell_unknown()
    exit
}
