# Compares two files of answers, `NAME answer` to a line: what is expected, then what was said. Prints each case that differs; status 1 where any
# does.

# whether what was said is what is expected: the same words, or of `accepted written|other row X Y Z CLOCK note ..` as much as is asked
function agrees(expected, said) {
    if (expected == said)
        return 1
    if (expected == "accepted")
        return said ~ /^accepted /
    if (expected ~ /^accepted written/)
        return said ~ /^accepted written /
    if (expected ~ /^accepted row /)
        return said ~ /^accepted / && index(said, substr(expected, 9) " note ") == index(said, " row ")
    if (expected ~ /^accepted note /)
        return said ~ /^accepted / && substr(said, index(said, " note ")) == substr(expected, 9)
    return 0
}

{ name = $1; sub(/^[^ ]* /, "") }
FNR == NR { expected[name] = $0; cases++; next }
!(name in expected) { print name ": answered, and not expected"; wrong = 1; next }
{
    answered++
    if (!agrees(expected[name], $0)) {
        print name ": expected " expected[name] ", the library says " $0
        wrong = 1
    }
}
END {
    if (answered != cases)
        print cases - answered " cases have no answer"
    exit wrong || answered != cases
}
