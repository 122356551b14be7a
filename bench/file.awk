# A file in mode P for the counts of this folder: `awk -v epochs=96 -v satellites=32 -f file.awk`. It begins on 2013-04-03 and its epochs, 1440 at
# most, are spread over the day by whole minutes; every place, clock and exponent is known, rows have all their 80 columns, and flags stand in some
# of them. Its satellites, 999 at most, are 99 of each letter in turn. Its canonical form is the file with the trailing blanks of each line cut.
# `-v comments=9` says how many comments it has (else 4); `-v front=1` ends it after them; `-v descending=1` has each identifier lower than the one
# before it; `-v repeating=1` has the first again as the last, which is refused.
function random(below) {
    seed = (seed * 16807) % 2147483647
    return seed % below
}

function coordinate(size) {
    return sprintf("%14.6f", (random(2 * size * 1000) - size * 1000) / 1000 + random(1000) / 1000000)
}

function letter(c, times) { return random(times) ? " " : c }

function identifier(k) {
    if (repeating && k == satellites) k = 1
    if (descending) return sprintf("%s%02d", substr("SRLJIGEDCBA", int((k - 1) / 99) + 1, 1), 99 - (k - 1) % 99)
    return sprintf("%s%02d", substr("GRECJISLABD", int((k - 1) / 99) + 1, 1), (k - 1) % 99 + 1)
}

# lines of 17 slots, at least five
function slots(symbol, count, exponents, j, i, k) {
    for (j = 0; j < 5 || 17 * j < satellites; j++) {
        printf "%-3s%3s   ", symbol, (j == 0 && count ? satellites : "")
        for (i = 0; i < 17; i++) {
            k = 17 * j + i
            printf "%3s", (k < satellites ? (exponents ? 2 + random(9) : identifier(k + 1)) : 0)
        }
        printf "\n"
    }
}

BEGIN {
    seed = 20130403
    if (comments == "") comments = 4
    minutes = int(1440 / epochs)
    printf "#dP2013  4  3  0  0  0.00000000 %7d ORBIT WGS84 BCT PORT\n", epochs
    printf "## 1734 259200.00000000 %5d.00000000 56385 0.0000000000000\n", 60 * minutes
    slots("+", 1, 0)
    slots("++", 0, 1)
    print "%c " (satellites > 99 ? "M" : substr(identifier(1), 1, 1)) "  cc GPS ccc cccc cccc cccc cccc ccccc ccccc ccccc ccccc"
    print "%c cc cc ccc ccc cccc cccc cccc cccc ccccc ccccc ccccc ccccc"
    print "%f  1.2500000  1.025000000  0.00000000000  0.000000000000000"
    print "%f  0.0000000  0.000000000  0.00000000000  0.000000000000000"
    for (j = 0; j < 2; j++) print "%i    0    0    0    0      0      0      0      0         0"
    for (j = 0; j < comments; j++) print "/* PLACES AND CLOCKS MADE BY A GENERATOR FOR COUNTING INSTRUCTIONS"
    if (front) exit
    for (e = 0; e < epochs; e++) {
        printf "*  2013  4  3 %2d %2d  0.00000000\n", int(e * minutes / 60), e * minutes % 60
        for (k = 1; k <= satellites; k++) {
            printf "P%s%s%s%s%s", identifier(k), coordinate(26000), coordinate(26000), coordinate(26000), coordinate(800)
            printf " %2d %2d %2d %3d", random(20), random(20), random(20), random(250)
            printf " %s%s  %s%s\n", letter("E", 40), letter("P", 2), letter("M", 40), letter("P", 2)
        }
    }
    print "EOF"
}
