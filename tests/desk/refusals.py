"""Files that are refused, each with what the desk tool says of it: worked out by hand from 01 and from asks 2, 3, 6 and 9 of 02, which tell the
column, how an absent clock may be spelt, how many satellites there may be, and what is otherwise in SP3-c."""
import gzip
import importlib.util

from expected import BOTH_READ, LONG_COMMENT, ROOT, WORDS


def load_make():
    spec = importlib.util.spec_from_file_location("make", ROOT / "samples/make.py")
    module = importlib.util.module_from_spec(spec)
    spec.loader.exec_module(module)
    return module


make = load_make()
MOST = make.MOST_SATELLITES
PAPER = make.paper_lines()
WHOLE = make.joined(PAPER)


def as_content(content):
    return content if isinstance(content, bytes) else make.joined(content)


def as_c(content):
    """A file of SP3-d with the letter of SP3-c."""
    content = as_content(content)
    assert content.startswith(b"#d")
    return b"#c" + content[2:]


def put(lines, line, first, text):
    """Lines with other text from a column of a line on, both counted from 1."""
    old = lines[line - 1]
    return lines[: line - 1] + [old[: first - 1].ljust(first - 1) + text + old[first - 1 + len(text) :]] + lines[line:]


def changed(line, first, text):
    """The paper's lines with other text there."""
    return put(PAPER, line, first, text)


def with_line(line, text):
    """The paper's lines with another in place of one."""
    return PAPER[: line - 1] + [text] + PAPER[line:]


def with_clock(lines, line, clock):
    """Lines with another clock in a row; the line ends as its spelling does where nothing comes after."""
    return lines[: line - 1] + [make.respelt(lines[line - 1], clock)] + lines[line:]


def after_row(*lines):
    """The paper's lines with others after the row."""
    return PAPER[:24] + list(lines) + PAPER[24:]


def many():
    """The lines of a file of 20 satellites, G01 to G20: three of them stand in line 4."""
    names = [f"G{k:02}" for k in range(1, 21)]
    rows = [[[make.Row((k, 1, 1), 0)] for k in range(1, 21)] for _ in range(2)]
    return make.file_lines(make.Model("P", make.datetime.datetime(2013, 4, 3, 23, 45), 900, names, [1] * 20, ["TWENTY", "", "", ""], rows))


def crowd_model(count, mode="P", epochs=1):
    """By a rule: so many satellites, 99 of each letter in turn; every seventh place and every eleventh clock absent."""
    kinds = 2 if mode == "V" else 1
    rows = [[[crowd_row(k + epoch + kind) for kind in range(kinds)] for k in range(count)] for epoch in range(epochs)]
    names, accuracies = make.identifiers("GRECJISLABD", count), [k % 100 for k in range(count)]
    return make.Model(mode, make.datetime.datetime(2013, 4, 3, 23, 45), 900, names, accuracies, ["BY RULE", "", "", ""], rows)


def crowd_row(number):
    return make.Row(None if number % 7 == 3 else (number * 7_919 - 10**6, number, -number), None if number % 11 == 5 else 5 * number - 3_000)


def crowd(count):
    """The lines of such a file in mode P with one epoch. Of 999 satellites the `+ ` lines are 3 to 61, the `++` lines 62 to 120, the rows 132 to
    1130."""
    return make.file_lines(crowd_model(count))


def moving():
    """The lines of samples/velocity.sp3: G01, E11 and E12 in mode V, with an EP or EV after each row; 23, 36 and 49 are the epochs."""
    return make.file_lines(make.velocity())


def last_night():
    """The lines of a file whose second epoch, line 25, would stand after the last date."""
    rows = [[[make.Row((1, 1, 1), 0)]] for _ in range(2)]
    model = make.Model("P", make.datetime.datetime(2099, 12, 31, 23, 59, 30), 30, ["G07"], [1], ["", "", "", ""], rows)
    return put(make.file_lines(model), 25, 4, "2099 12 31 23 59 30.00000000")


# ---- Number, line and column ----


def damaged():
    """Each of the refusals 1 to 11."""
    return [(WHOLE[:-1], 1, 25, 0), (WHOLE[:700], 1, WHOLE[:700].count(b"\n") + 1, 0), (changed(19, 4, "\a"), 2, 19, 4),
            (WHOLE.replace(b"\n", b"\r\n"), 2, 1, 61), (changed(19, 4, "X" * 78), 3, 19, 81), (PAPER[:21] + PAPER[22:], 4, 22, 0),
            (changed(1, 46, "x"), 5, 1, 46), (changed(16, 4, "  0.0000001"), 5, 16, 4), (changed(1, 3, "v"), 6, 1, 3),
            (changed(13, 10, "gps"), 6, 13, 10), (changed(24, 19, "       .500000"), 6, 24, 19), (changed(1, 33, "      0"), 7, 1, 33),
            (changed(3, 4, "000"), 7, 3, 4), (changed(2, 40, "56386"), 8, 2, 0), (changed(23, 18, "15"), 9, 23, 0),
            (changed(24, 2, "G08"), 10, 24, 0), (WHOLE + b" ", 11, 26, 0), (WHOLE + WHOLE, 11, 26, 0)]


def dated():
    """Dates and times in line 1 and in an epoch line: column 4 for year, month and day; 8 and 11 are unused columns."""
    cases = []
    for line in (1, 23):
        cases += [(changed(line, 4, "20x3x 4"), 5, line, 8), (changed(line, 9, "13 "), 7, line, 4), (changed(line, 9, "13  3 24"), 7, line, 4),
                  (changed(line, 12, "3 "), 6, line, 4), (changed(line, 9, "13  3 2x"), 6, line, 15), (changed(line, 11, "x"), 5, line, 11),
                  (changed(line, 14, "x"), 5, line, 14), (changed(line, 15, "24"), 7, line, 15), (changed(line, 21, "60.00000000"), 7, line, 21),
                  (changed(line, 12, "31 24"), 7, line, 4), (changed(line, 4, "1980  1  5"), 7, line, 4)]
    return cases


def columned():
    """A column for each number that has one; the lowest number, then the leftmost column; a field past the end of a short line."""
    ones = "1000000.000000"
    flagged, names = put(moving(), 26, 75, "E"), "G00" + "G 2" + "".join(f"G{k:02}" for k in range(3, 18))
    return [*dated(), (changed(24, 5, "  5000.0000001"), 6, 24, 5), (changed(19, 4, "\t"), 2, 19, 4),
            (put(changed(24, 40, "\x7f"), 24, 9, "\x7f"), 2, 24, 9), (put(changed(24, 200, "\x7f"), 24, 300, "x"), 2, 24, 200),
            (put(changed(24, 5, "x"), 24, 128, "\x7f"), 2, 24, 128), (with_line(19, "/*".ljust(81)), 3, 19, 81),
            (with_line(19, "/*".ljust(300, "x")), 3, 19, 81), (changed(24, 61, "x        x"), 5, 24, 61), (changed(3, 63, "x"), 5, 3, 63),
            (changed(13, 58, "x"), 5, 13, 56), (changed(3, 4, " 17   " + names), 6, 3, 13), (changed(24, 2, "G00"), 7, 24, 2),
            (changed(24, 2, "G 7"), 6, 24, 2), (put(changed(24, 47, ones), 24, 5, ones), 7, 24, 5), (put(changed(24, 47, ones), 24, 5, "x"), 6, 24, 5),
            (changed(24, 75, "e"), 6, 24, 75), (flagged, 5, 26, 75), (changed(13, 4, "Gx"), 6, 13, 4), (with_line(24, "PG07"), 6, 24, 5),
            (with_line(24, "P"), 6, 24, 2), (with_line(1, "#d"), 6, 1, 3), (with_line(1, "#dP"), 6, 1, 4), (with_line(3, "+"), 6, 3, 4),
            (with_line(13, "%c"), 5, 13, 7), (with_line(23, "*"), 6, 23, 4), (changed(25, 80, "x"), 5, 25, 80),
            (after_row("EPx"), 5, 25, 3), (after_row("EP  55"), 6, 25, 5), (after_row("EP".ljust(27) + "99999999"), 7, 25, 28)]


def clocked():
    """Clocks that are neither a number nor absent, in a P row, line 24, and in a V row, line 30: a blank fraction after a minus or after another
    number than six nines; a fraction of digits and blanks; no point, or one in another column; nothing. From a million on a clock is outside its
    bounds. A blank fraction of x, y or z is malformed; an unused column is told before a malformed clock."""
    malformed = ("-999999.      ", "-999999.", " 999998.      ", "0999998.", "1000000.      ", "9999999.      ", "      0.      ", "  99999.      ",
                 " 999999.00000 ", " 999999.00000", " 999999.     0", " 999999.9     ", " 999999. 99999", " 999999       ", " 999999",
                 "999999.       ", "  999999.00000", "999999 .      ", " 99 999.      ", "+999999.      ", "       .      ", "              ", "")
    rows = ((PAPER, 24), (moving(), 30))
    cases = [(with_clock(lines, line, clock), 6, line, 47) for lines, line in rows for clock in malformed]
    cases += [(with_clock(lines, line, "1000000.000000"), 7, line, 47) for lines, line in rows]
    cases += [(changed(24, first, " 999999.      "), 6, 24, first) for first in (5, 19, 33)]
    cases += [(with_clock(PAPER, 24, clock), 5, 24, 61) for clock in (" 999999.      x", " 999999.     0x")]
    return cases + [(with_clock(PAPER, 24, " 999999.       1"), 6, 24, 62), (with_clock(changed(24, 2, "G08"), 24, " 999999."), 10, 24, 0)]


def crowded():
    """The number of satellites has three columns: 1000 reaches into an unused one, to the right or to the left, and 000 are none. A slot within the
    number that holds `  0` is malformed, with 999 in a file of one satellite as in one of 998; with 256 in a file of 255 a `+ ` line is due."""
    return [(changed(3, 4, "1000"), 5, 3, 7), (changed(3, 3, "1000"), 5, 3, 3), (changed(3, 4, "000"), 7, 3, 4), (changed(3, 4, "999"), 6, 3, 13),
            (put(crowd(255), 3, 4, "256"), 4, 18, 0), (put(crowd(MOST - 1), 3, 4, "999"), 6, 61, 46), (put(crowd(MOST), 3, 4, "1000"), 5, 3, 7)]


def older():
    """In SP3-c: 86 satellites and more, and none, but a malformed slot before that; a sixth `+ ` line; a comment line of 61 characters, blanks too,
    and one out of place; a fifth comment, and three; other lines of 81; a line of the other version; no last LF; another number outside its bounds
    than that of the satellites."""
    long, blanks = "/* " + "X" * 58, "/*".ljust(61)
    counted = [(crowd(86), 7, 3, 4), (crowd(MOST), 7, 3, 4), (changed(3, 4, "000"), 7, 3, 4), (put(crowd(86), 3, 13, "G 2"), 6, 3, 13),
               (put(crowd(86), 3, 4, " 85"), 4, 8, 0), (changed(3, 4, " 86"), 6, 3, 13)]
    worded = [(with_line(19, long), 3, 19, 61), (with_line(22, blanks), 3, 22, 61), (with_line(19, "/*".ljust(300, "x")), 3, 19, 61),
              (PAPER[:22] + [long] + PAPER[22:], 3, 23, 61), (PAPER[:22] + ["/*"] + PAPER[22:], 4, 23, 0), (PAPER[:21] + PAPER[22:], 4, 22, 0),
              (after_row(long), 3, 25, 61), (after_row(long[:60]), 4, 25, 0), (PAPER[:1] + [long] + PAPER[1:], 3, 2, 61),
              (put(with_line(19, long), 19, 70, "\t"), 2, 19, 70)]
    others = [(changed(1, 3, "v"), 6, 1, 3), (with_line(3, PAPER[2].ljust(81)), 3, 3, 81), (changed(24, 81, " "), 3, 24, 81),
              (PAPER[:1] + PAPER, 4, 2, 0), (WHOLE[:-1], 1, 25, 0), (WHOLE + WHOLE, 11, 26, 0), (changed(1, 9, "13 "), 7, 1, 4),
              (changed(23, 9, "13 "), 7, 23, 4), (changed(3, 10, "G00"), 7, 3, 10)]
    return [(as_c(content), *refusal) for content, *refusal in [*counted, *worded, *others]]


# ---- What a refusal comes from ----


def hinted():
    """Files that are refused for something plain, each with number, line, column and what is said after the words."""
    crlf = "the line ends in CR LF: tr -d '\\r' < FILE | sp3 check -"
    packed, follows = "compressed: zcat FILE | sp3 check -", "another file follows: sp3 divide FILE"
    return [(gzip.compress(WHOLE, mtime=0), 2, 1, 1, packed), (b"\x1f\x8b", 1, 1, 0, packed), (b"\x1f\x9d\x90\n", 2, 1, 1, packed),
            (WHOLE.replace(b"\n", b"\r\n"), 2, 1, 61, crlf), (WHOLE.replace(b"ROW\n", b"ROW\r\n"), 2, 19, 11, crlf), (b"\r\n", 2, 1, 1, crlf),
            *((WHOLE.replace(b"#d", b"#" + letter), 4, 1, 0, f"this is SP3-{letter.decode()}; {BOTH_READ}") for letter in (b"a", b"b")),
            (as_c(crowd(86)), 7, 3, 4, "a file in SP3-c has 1 to 85 satellites"), (as_c(WHOLE) + WHOLE, 11, 26, 0, follows),
            (WHOLE + as_c(WHOLE), 11, 26, 0, follows), (WHOLE + WHOLE, 11, 26, 0, follows), (WHOLE + b"#", 11, 26, 0, follows)]


def unhinted():
    """Files that are refused with the same numbers for something else; of 4 it is said what was due."""
    first, texts = f"`#c` or `#d` is due; {BOTH_READ}", ((b"\rROW\n", 8), (b"\tROW\r\n", 8), (b"ROW\r\r\n", 11))
    return [(b"\x1f", 1, 1, 0, None), (b"\x1f\x8c\n", 2, 1, 1, None), (b"#" + gzip.compress(WHOLE, mtime=0)[:2] + b"\n", 2, 1, 2, None),
            *((WHOLE.replace(b"ROW\n", text), 2, 19, column, None) for text, column in texts), (b"\r", 1, 1, 0, None),
            *((WHOLE.replace(b"#d", mark), 4, 1, 0, first) for mark in (b"#e", b"#C", b"#D", b"# ", b"##", b"%c")),
            *((content, 4, 1, 0, first) for content in (b"#\n", b"\n", PAPER[1:], [f"/* {'x' * 58}"] + PAPER)),
            (WHOLE.replace(b"\n##", b"\n#c", 1), 4, 2, 0, "`##` is due"), (WHOLE.replace(b"#dP", b"#cP\x80"), 2, 1, 4, None),
            (WHOLE + b"\n#d", 11, 26, 0, None), (WHOLE + b"+", 11, 26, 0, None)]


def disagreeing():
    """Each cause of 8, with its line: line 2; a slot after the last satellite, in the first and in a further line of either kind; an identifier that
    repeats, in the first line, in a further one, after the one before, the last of 999; the file type, also of 100 satellites, which one letter does
    not have. A slot is said before an identifier that repeats."""
    start, file_type = "line 2 disagrees with the start", "the file type disagrees with the identifiers"
    slot, repeated = "a slot after the last satellite is not `  0`", "an identifier repeats"
    twenty, most = many(), crowd(MOST)
    return [(changed(2, 4, "1735"), 2, start), (changed(2, 14, "1"), 2, start), (changed(2, 40, "56386"), 2, start),
            (changed(2, 60, "2"), 2, start), (changed(3, 13, "G08"), 3, slot), (changed(3, 13, "G07"), 3, slot), (changed(3, 13, "000"), 3, slot),
            (changed(4, 10, "  1"), 4, slot), (changed(7, 58, "   "), 7, slot), (changed(8, 13, "  1"), 8, slot), (changed(9, 10, "  x"), 9, slot),
            (put(twenty, 4, 19, "G21"), 4, slot), (put(twenty, 4, 19, "G01"), 4, slot), (put(twenty, 9, 19, "000"), 9, slot),
            (put(twenty, 3, 13, "G01"), 3, repeated), (put(twenty, 3, 58, "G16"), 3, repeated), (put(twenty, 4, 10, "G17"), 4, repeated),
            (put(twenty, 4, 16, "G18"), 4, repeated), (put(twenty, 4, 16, "G18G21"), 4, slot), (changed(13, 4, "R "), 13, file_type),
            (put(moving(), 13, 4, "G "), 13, file_type), (put(crowd(100), 15, 4, "G "), 15, file_type),
            (put(crowd(256), 18, 10, "G01"), 18, repeated), (put(most, 61, 46, "G01"), 61, repeated), (put(most, 61, 46, "D08"), 61, repeated),
            (put(most, 61, 49, "D10"), 61, slot), (put(most, 120, 49, "  1"), 120, slot)]


def elsewhere():
    """Epochs at a wrong instant (9) and rows of another satellite (10), with the line, what stands there and what is due; in mode V too."""
    night, late = "2013-04-03 23:45:00.00000000", "2013-04-04 00:15:00.00000000"
    return [(changed(23, 18, "15"), 9, 23, "2013-04-03 00:15:00.00000000", "2013-04-03 00:00:00.00000000"),
            (changed(23, 21, "00.00000001"), 9, 23, "2013-04-03 00:00:00.00000001", "2013-04-03 00:00:00.00000000"),
            (put(many(), 44, 18, "15"), 9, 44, late, "2013-04-04 00:00:00.00000000"),
            (put(many(), 44, 4, "2013 04 03 23 45  0.00000000"), 9, 44, night, "2013-04-04 00:00:00.00000000"),
            (put(moving(), 36, 4, "2023 12 31 23 45"), 9, 36, "2023-12-31 23:45:00.00000000", "2024-01-01 00:00:00.00000000"),
            (last_night(), 9, 25, "2099-12-31 23:59:30.00000000", "an instant past the last date"),
            (changed(24, 2, "G08"), 10, 24, "G08", "G07"), (put(many(), 25, 2, "G03"), 10, 25, "G03", "G02"),
            (put(many(), 45, 2, "G20"), 10, 45, "G20", "G01"), (put(moving(), 28, 2, "E12"), 10, 28, "E12", "E11"),
            (put(moving(), 30, 2, "E12"), 10, 30, "E12", "E11"), (put(moving(), 39, 2, "E11"), 10, 39, "E11", "G01"),
            (put(crowd(256), 301, 2, "E59"), 10, 301, "E59", "E58"), (put(crowd(MOST), 1130, 2, "D10"), 10, 1130, "D10", "D09")]


def misplaced():
    """Lines of a kind that may not stand there, with how the one begins that is due, and one that may stand before it."""
    twenty, moved, most = many(), moving(), crowd(MOST)
    return [(PAPER[:1] + PAPER[2:], 2, "##", ""), (with_line(3, ""), 3, "+ ", ""), (PAPER[:5] + PAPER[7:], 6, "+ ", ""),
            (PAPER[:7] + PAPER[8:], 12, "++", ""), (changed(8, 2, " "), 8, "++", ""), (changed(13, 2, "C"), 13, "%c", ""),
            (PAPER[:13] + PAPER[14:], 14, "%c", ""), (changed(15, 2, "F"), 15, "%f", ""), (changed(17, 2, "f"), 17, "%i", ""),
            (PAPER[:21] + PAPER[22:], 22, "/*", ""), (PAPER[:22] + PAPER[23:], 23, "* ", "/*"), (with_line(23, "EOF"), 23, "* ", "/*"),
            (PAPER[:23] + PAPER[24:], 24, "PG07", ""), (after_row("EP", "EP"), 26, "EOF", ""), (after_row(PAPER[22]), 25, "EOF", "EP"),
            (twenty[:24] + twenty[43:], 25, "PG02", "EP"), (twenty[:43] + ["EOF"], 44, "* ", "EP"), (twenty[:43] + ["EP", "EOF"], 45, "* ", ""),
            (moved[:25] + moved[26:], 26, "VG01", ""), (moved[:24] + moved[26:], 25, "VG01", "EP"), (moved[:26] + moved[35:], 27, "PE11", "EV"),
            (moved[:27] + moved[35:], 28, "PE11", ""), (moved[:34] + ["EOF"], 35, "* ", "EV"), (moved[:60] + [moved[48]], 61, "EOF", "EV"),
            (crowd(256)[:17] + crowd(256)[18:], 18, "+ ", ""), (most[:61] + [PAPER[3]] + most[61:], 62, "++", ""),
            (most[:1129] + ["EOF"], 1130, "PD09", "EP"), (as_c(PAPER[:22] + ["/*"] + PAPER[22:]), 23, "* ", ""),
            (as_c(PAPER[:22] + PAPER[23:]), 23, "* ", ""), (as_c(PAPER[:21] + PAPER[22:]), 22, "/*", ""), (as_c(PAPER[:1] + PAPER), 2, "##", ""),
            (as_c(put(crowd(86), 3, 4, " 85")), 8, "++", ""), (as_c(after_row("/*")), 25, "EOF", "EP")]


def causes():
    """All of these with number, line, column and what is said in words."""
    cases = [(*case[:4], WORDS[case[1]] + (f" ({case[4]})" if case[4] else "")) for case in [*hinted(), *unhinted()]]
    cases += [(as_c(with_line(19, "/* " + "X" * 58)), 3, 19, 61, LONG_COMMENT), (as_c(with_line(3, PAPER[2].ljust(81))), 3, 3, 81, WORDS[3])]
    cases += [(content, 8, line, 0, cause) for content, line, cause in disagreeing()]
    cases += [(content, number, line, 0, f"{WORDS[number]} ({here} stands here, {due} is due)") for content, number, line, here, due in elsewhere()]
    for content, line, due, may in misplaced():
        before = f", `{may}` may stand before it" if may else ""
        cases.append((content, 4, line, 0, f"{WORDS[4]} (`{due}` is due{before})"))
    return cases


# ---- The line that is shown ----


def pictured():
    """Files with the number, and with what is shown after the line that says the refusal."""
    xs, row = "x" * 300, "     -0.500000      0.000000 999999.999999"
    cases = [(changed(24, 5, "  5000.0000001"), 6, [f"PG07  5000.0000001{row}", "    ^"]), (with_line(24, "PG07"), 6, ["PG07", "    ^"]),
             (with_line(24, "P"), 6, ["P", " ^"]), (changed(24, 2, "G00"), 7, [f"PG00   5000.000001{row}", " ^"]),
             (with_clock(PAPER, 24, " 999999.     0"), 6, [f"PG07   5000.000001{row[:28]} 999999.     0", " " * 46 + "^"]),
             (with_clock(PAPER, 24, "-999999."), 6, [f"PG07   5000.000001{row[:28]}-999999.", " " * 46 + "^"]),
             (changed(19, 4, "\t"), 2, ["/* ?NE ROW", "   ^"]), (WHOLE.replace(b"ONE", b"\x1b[31m\xc3\x89\0"), 2, ["/* ?[31m??? ROW", "   ^"]),
             (WHOLE.replace(b"\n", b"\r\n"), 2, [PAPER[0] + "?", " " * 60 + "^"]),
             (changed(24, 61, "x        x"), 5, [f"PG07   5000.000001{row}x        x", " " * 60 + "^"]),
             (changed(13, 58, "x"), 5, ["%c G  cc GPS ccc cccc cccc cccc cccc ccccc ccccc ccccc ccxcc", " " * 55 + "^"]),
             # long lines: whole up to 100 characters, then the first 100, or those around a byte further on
             (with_line(19, "/* " + xs[:78]), 3, ["/* " + xs[:78], " " * 80 + "^"]),
             (with_line(19, "/* " + xs[:97]), 3, ["/* " + xs[:97], " " * 80 + "^"]),
             (with_line(19, "/* " + xs[:98]), 3, ["/* " + xs[:97] + "..", " " * 80 + "^"]),
             (with_line(19, "/* " + xs[:297]), 3, ["/* " + xs[:97] + "..", " " * 80 + "^"]),
             (with_line(19, "/* " + xs[:96] + "\x7f"), 2, ["/* " + xs[:96] + "?", " " * 99 + "^"]),
             (with_line(19, "/* " + xs[:97] + "\x7f"), 2, [".." + xs[:80] + "?", " " * 82 + "^"]),
             (with_line(19, "/* " + xs[:124] + "\x7f" + xs[:72]), 2, [".." + xs[:80] + "?" + xs[:19] + "..", " " * 82 + "^"]),
             (with_line(19, "/* " + xs[:196] + "\x7f" + xs[:19]), 2, [".." + xs[:80] + "?" + xs[:19], " " * 82 + "^"]),
             (with_line(19, "/* " + xs[:196] + "\x7f" + xs[:100]), 2, [".." + xs[:80] + "?" + xs[:19] + "..", " " * 82 + "^"]),
             (as_c(with_line(19, "/* " + xs[:58])), 3, ["/* " + xs[:58], " " * 60 + "^"]),
             (as_c(with_line(19, "/* " + xs[:297])), 3, ["/* " + xs[:97] + "..", " " * 60 + "^"]),
             # no column; no line
             (WHOLE[:-1], 1, ["EOF"]), (WHOLE[:-4], 1, []), (PAPER[:10], 1, []), (WHOLE[:3], 1, ["#dP"]), (xs.encode(), 1, [xs[:100] + ".."]),
             (with_line(24, ""), 4, [""]), (changed(23, 18, "15"), 9, ["*  2013  4  3  0 15  0.00000000"]), (WHOLE + b" ", 11, [" "]),
             (WHOLE + b"\n\n", 11, [""]), (WHOLE + b"\0\xff", 11, ["??"]), (WHOLE + xs.encode() + b"\n", 11, [xs[:100] + ".."])]
    return [(content, number, ["    " + line for line in lines]) for content, number, lines in cases]
