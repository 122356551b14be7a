# Compares the tables and lists of a page with the answers that are expected, `NAME answer` to a line of the first file. In each row of a table and
# each item of a list that names cases, the numbers in bold must be the refusals of those cases, no more and no less. An item is a line that begins
# with `- ` and the indented lines after it. Status 1 where any differs.

# the matches of a pattern in a text, cut by so many characters at each end, as keys of a list
function collect(text, pattern, cut, found) {
    split("", found)
    while (match(text, pattern)) {
        found[substr(text, RSTART + cut, RLENGTH - 2 * cut)] = 1
        text = substr(text, RSTART + RLENGTH)
    }
}

# the first key of a that b does not have, or nothing
function missing(a, b, key) {
    for (key in a)
        if (!(key in b))
            return key
    return ""
}

# a row, or an item whose last line was read
function compare(text, at,    cases, bold, refusals, name, named) {
    collect(text, "`[a-z0-9]*-[a-z0-9-]*`", 1, cases)
    collect(text, "[*][*][0-9]+[*][*]", 2, bold)
    split("", refusals)
    named = 0
    for (name in cases) {
        named = 1
        if (refusal[name])
            refusals[refusal[name]] = 1
    }
    compared += named
    if (named && missing(bold, refusals) missing(refusals, bold) != "") {
        print FILENAME ":" at ": the numbers in bold are not those of the cases: " missing(bold, refusals) missing(refusals, bold)
        wrong = 1
    }
}

FNR == NR { refusal[$1] = $2 == "refused" ? $3 : 0; next }
item != "" && /^ / { item = item " " $0; next }
item != "" { compare(item, first); item = "" }
/^- / { item = $0; first = FNR }
/^\|/ { compare($0, FNR) }
END {
    if (item != "")
        compare(item, first)
    if (compared == 0)
        print FILENAME ": no row and no item names a case"
    exit wrong || compared == 0
}
