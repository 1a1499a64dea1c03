# Says which placeholders of a text are of a phylum whose operators declare: no text has such a placeholder.
#
#   awk -f tools/declaring.awk DEF TEXT    writes one line of words, or nothing
#
# A phylum declares if one of its operators is no scope operator and has an item declares, or one of a phylum or list that
# declares; a list declares if the phylum of its elements does.
{ sub(/\r$/, "") }
FNR == 1 { file++ }
file == 1 && /^list / {
    line = $0
    sub(/^list */, "", line)
    gsub(/"([^"\\]|\\.)*"/, "", line)
    name = line
    sub(/[ :].*/, "", name)
    sub(/.* of */, "", line)
    sub(/ .*/, "", line)
    above[line] = above[line] " " name
}
file == 1 && /^op / {
    line = $0
    head = line
    sub(/=.*/, "", head)
    sub(/^[^=]*=/, "", line)
    gsub(/"([^"\\]|\\.)*"/, "", line)
    phylum = head
    sub(/^[^:]*: */, "", phylum)
    sub(/ .*/, "", phylum)
    if (head ~ / scope /) next
    count = split(line, items, " +")
    for (i = 1; i <= count; i++) {
        if (items[i] ~ /^declares/) begin[++begun] = phylum
        else if (items[i] ~ /^[A-Z]/) above[items[i]] = above[items[i]] " " phylum
    }
}
# All that a declaring phylum is a part of declares too.
function spread(kind,   all, count, i) {
    if (kind in declares) return
    declares[kind] = 1
    count = split(above[kind], all, " ")
    for (i = 1; i <= count; i++) spread(all[i])
}
file == 2 {
    for (i = 1; i <= begun; i++) spread(begin[i])
    gsub(/"([^"\\]|\\.)*"/, "")
    while (match($0, /[?][A-Z][A-Za-z0-9_]*/)) {
        name = substr($0, RSTART + 1, RLENGTH - 1)
        $0 = substr($0, RSTART + RLENGTH)
        if (!(name in declares)) continue
        print "  ?" name " is in no text, since a placeholder of " name " would not say which names it declares; leave it out, or write ..."
        exit
    }
}
