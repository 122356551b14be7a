#!/usr/bin/env python3
"""The stored input and the expected output of the program `cases_fields`.

    tests/fields.py stdin     the spellings of fields, one to a line
    tests/fields.py stdout    what the program must print
    tests/fields.py check     compares both with the files of crates/cases_fields, and its clocks with those worked out by hand

Written from the papers (documents/01-scope.md, and request 3 of 02-change-requests.md for clocks) alone: dates by Python's
datetime, fields by regular expressions, numbers as Python's whole numbers of any size. It shares no code with the library.
"""
import datetime
import itertools
import random
import re
import sys
from pathlib import Path

FIRST, LAST = datetime.date(1980, 1, 6), datetime.date(2099, 12, 31)
MJD_ZERO = datetime.date(1858, 11, 17)
SECOND, WIDEST, LARGEST = 10**8, 18, 999_999_999_999
PRIME = 1_000_000_007


def date(year, month, day):
    """A date (year, month, day) gives MJD, week and seconds of week, or 7."""
    try:
        d = datetime.date(year, month, day)
    except (ValueError, OverflowError):
        return [7]
    if not FIRST <= d <= LAST:
        return [7]
    since = (d - FIRST).days
    return [0, (d - MJD_ZERO).days, since // 7, since % 7 * 86400]


# Fourteen columns with six places, and what a clock reads as there, by hand: absent by its six nines, present, malformed, too large.
NINES = [0, 0, 999_999_999_999]
CLOCKS = [
    (" 999999.      ", NINES), (" 999999.000000", NINES), (" 999999.999998", NINES), (" 999999.999999", NINES),
    ("0999999.123456", NINES), ("0999999.      ", NINES), ("0999999.999999", NINES),
    (" 999998.999999", [0, 0, 999_998_999_999]), ("0999998.000000", [0, 0, 999_998_000_000]),
    ("-999999.000000", [0, 1, 999_999_000_000]), ("-999999.999999", [0, 1, 999_999_999_999]),
    ("     -0.500000", [0, 1, 500_000]), ("     -0.000000", [0, 0, 0]), ("      0.999999", [0, 0, 999_999]),
    (" 099999.900000", [0, 0, 99_999_900_000]), ("  99999.999999", [0, 0, 99_999_999_999]),
    ("-999999.      ", [6]), (" 999999.00000 ", [6]), (" 999999.     0", [6]), (" 999998.      ", [6]), ("1000000.      ", [6]),
    (" 999999       ", [6]), ("              ", [6]), ("999999.       ", [6]), (" 999999. 00000", [6]), (" 999999.9     ", [6]),
    ("-999998.      ", [6]), ("- 99999.000000", [6]), ("9 99999.      ", [6]), ("       .      ", [6]), (" 999999,      ", [6]),
    ("+999999.000000", [6]), (" 999999.00x000", [6]), (" 99999 .      ", [6]), ("       .999999", [6]), ("9999990.      ", [6]),
    ("1000000.000000", [0, 0, 1_000_000_000_000]), ("9999999.000000", [0, 0, 9_999_999_000_000]),
]


def absent(places, s):
    """Request 3: no minus, a whole part of the value 999999, and after the point all places digits or all of them blank."""
    found = re.fullmatch(r" *([0-9]+)\.([0-9]{%d}| {%d})" % (places, places), s)
    return found is not None and int(found.group(1)) == 999_999


def field(kind, places, s):
    """What a field reads as: [6], [0] for unknown, or 0 and its values (a sign, where there is one, then the magnitude)."""
    if len(s) > WIDEST:
        return [6]
    if kind == "E" and s.strip(" ") == "":
        return [0]
    if kind == "C" and absent(places, s):
        return [0, 0, int("999999" + "9" * places)]
    minus = "-?" if kind in "SDC" else ""
    end = r"\.([0-9]{%d})" % places if kind in "UDC" else "()"
    found = re.fullmatch(" *(%s)([0-9]+)%s" % (minus, end), s)
    if not found:
        return [6]
    magnitude = int(found.group(2) + found.group(3))
    if kind in "WE":
        return [0, magnitude]
    return [0, 1 if found.group(1) == "-" and magnitude > 0 else 0, magnitude]


def shown(kind, places, answer, width):
    """The canonical text in so many columns that held a mark each, or the marks where it does not fit."""
    text = None
    if answer == [0]:
        text = " " * width
    elif answer[0] == 0:
        digits = str(answer[-1])
        if kind in "UDC":
            digits = digits.zfill(places + 1)
            digits = digits[: len(digits) - places] + "." + digits[len(digits) - places :]
        text = ("-" if kind in "SDC" and answer[1] else "") + digits
    if text is None or width > WIDEST or len(text) > width:
        return " |" + "#" * width + "|"
    return " |" + text.rjust(width) + "|"


def spelt(line):
    kind, places, s = line[0], int(line[1:3]), line[3:]
    answer = field(kind, places, s)
    out = " ".join(map(str, answer))
    if answer[0] == 0 or kind == "E":
        for width in (len(s), max(len(s) - 1, 0)):
            if width <= 20:
                out += shown(kind, places, answer, width)
    if answer[0] == 0 and kind in "UDC":
        out += " 7" if answer[2] > LARGEST else " " + " ".join(map(str, answer))
    return out


def spellings():
    """Every text of up to three columns over bytes that matter, and longer ones, well-formed, damaged and odd."""
    lines = []
    for width in range(4):
        for text in map("".join, itertools.product(" -.07:", repeat=width)):
            lines += ["W00" + text, "S00" + text, "E00" + text]
            lines += ["%s%02d%s" % (kind, places, text) for kind, places in (("D", 0), ("D", 1), ("U", 1))]
    lines += ["D06     -0.500000", "D06     -0.000000", "D061000000.000000", "D06       .500000", "D06    -00.500000"]
    lines += ["D06 999999.999999", "D06-999999.999999", "D06 000000.000000", "U06     -0.500000", "D06     +0.500000", "D06    - 0.500000"]
    lines += ["D06     -0.50000 ", "D06     -0.5000 0", "D06    -0.5000000", "D06   --0.500000", "D06-", "D06.", "D06              ", "D06     1e5.000000"]
    lines += ["U15000.000000000000000", "U1599.999999999999999", "U15 0.000000000000000", "U17.00000000000000000", "U160.0000000000000000", "U17123456789012345678"]
    lines += ["W00" + "9" * n for n in (17, 18, 19, 20, 21, 1000)] + ["W00" + " " * n for n in (18, 19, 20, 1000)]
    lines += ["S00-" + "9" * n for n in (17, 18)] + ["E00" + " " * n for n in (18, 19, 20, 21)] + ["E0099", "E00999", "E00 99", "E0009 ", "E00 9 9"]
    lines += [kind + "06" + " " * 991 + "0.500000" for kind in "UD"] + ["S00" + "-".rjust(999) + "1", "E00" + " " * 1000, "E00" + "1".rjust(1000)]
    lines += ["W00" + c + "7" for c in "+-./:;\t\r\x00\x7f\x80\xff"] + ["W007" + c for c in "+-./:;\t\r\x00\x7f\x80\xff"]
    lines += ["D99" + "1" * 18, "D18" + "1" * 18, "D17." + "1" * 17, "D1711." + "1" * 17, "D161." + "1" * 16, "D16-1." + "1" * 15]
    dice = random.Random(20160221)
    for _ in range(700):
        kind, places, width = dice.choice("WSEUDD"), dice.choice((0, 1, 6, 6, 7, 8, 9, 13)), dice.choice((2, 3, 7, 10, 12, 14, 14, 14, 18))
        digits = "".join(dice.choice("0123456789") for _ in range(dice.randint(1, width)))
        if kind in "UD" and places < width:
            digits = digits[: max(width - places - 1, 1)] + "." + "".join(dice.choice("0123456789") for _ in range(places))
        text = ("-" if kind in "SD" and dice.random() < 0.4 else "") + digits
        text = text.rjust(width)[-width:]
        if dice.random() < 0.3:
            at = dice.randrange(len(text))
            text = text[:at] + dice.choice(" -.0123456789:AeE+,") + text[at + 1 :]
        lines.append("%s%02d%s" % (kind, places, text))
    return lines + clock_spellings()


def clock_spellings():
    """Clocks: those by hand (as decimals too), and what stands around six nines in every width, with other places, damaged and odd."""
    lines = [kind + "06" + text for text, _ in CLOCKS for kind in "CDU"]
    for text in map("".join, itertools.product(" -.9", repeat=3)):
        lines += ["C00" + text, "C01" + text] + ["C02" + front + "999999" + text for front in ("", "0", "-")]
    for text in (" 999999.000000", " 999999.      "):
        lines += ["C06" + text[:at] + c + text[at + 1 :] for at in range(14) for c in " -.089:"]
    lines += ["C06" + " 999999.      "[:width] for width in range(14)] + ["C06" + "0999999.123456"[at:] for at in range(1, 14)]
    for places in (0, 1, 6, 9, 11):
        for width in range(places + 1, WIDEST + 3):
            for whole, fraction in (("999999", "0"), ("999999", " "), ("0999999", "7"), ("-999999", "9"), ("999998", " ")):
                lines.append("C%02d%s" % (places, (whole.rjust(width - places - 1) + "." + fraction * places)[-width:]))
        lines += ["C%02d%s." % (places, "999999".zfill(WIDEST - places - 1)) + "0" * (places - 1) + end for end in (" ", "", "0")]
    lines += ["C06" + " 999999.      ".rjust(width) for width in (19, 20, 1000)] + ["C99" + "9" * 18, "C17." + "9" * 17, "C12999999." + " " * 11]
    return lines + random_clocks(random.Random(20160221), 500)


def random_clocks(dice, count):
    """Mostly six nines, or one digit away from them; digits or blanks after the point; some with a byte changed."""
    lines = []
    for _ in range(count):
        places = dice.choice((0, 1, 6, 6, 6, 6, 9, 11))
        width = max(dice.choice((7, 8, 14, 14, 14, 18)), places + 2)
        whole = dice.choice(("999999", "999999", "999999", "0999999", "00999999", "999998", "1000000", "99999", str(dice.randrange(10**7))))
        whole = dice.choice(("", "", "", "", "-", "+")) + whole
        fraction = dice.choice((" " * places, " " * places, "".join(dice.choice("0123456789") for _ in range(places))))
        text = (whole + "." + fraction).rjust(width)[-width:]
        if dice.random() < 0.3:
            at = dice.randrange(len(text))
            text = text[:at] + dice.choice(" -.0189:") + text[at + 1 :]
        lines.append("C%02d%s" % (places, text))
    return lines


def mixed(total, *numbers):
    for n in numbers:
        total = (31 * total + n) % PRIME
    return total


def year_sum(year):
    total = 0
    for month in range(14):
        for day in range(33):
            total = mixed(total, *date(year, month, day))
    return total


def every_day():
    total, day = mixed(0, 7), FIRST
    while day <= LAST:
        answer = date(day.year, day.month, day.day)
        mjd = answer[1]
        time = (mjd % 24) * 3600 * SECOND + (mjd % 60) * 60 * SECOND + 59 * SECOND + mjd
        total = mixed(total, 0, day.year, day.month, day.day, *answer)
        total = mixed(total, 0, mjd * 86400 * SECOND + time, 0, answer[2], answer[3] * SECOND + time)
        day += datetime.timedelta(days=1)
    return mixed(total, 7)


def agrees(f, s):
    """0, or 8: 108 F and 125 S differ by less than 108."""
    return 0 if abs(108 * f - 125 * s) < 108 else 8


def every_second():
    total = 0
    for second in range(86401):
        s = second * SECOND + second
        total = mixed(total, s // (86400 * SECOND), s // (3600 * SECOND) % 24, s // (60 * SECOND) % 60, s % (60 * SECOND))
        if s >= 86400 * SECOND:
            total = mixed(total, 7)
            continue
        f, rest = divmod(125 * s, 108)
        f += 1 if 2 * rest >= 108 else 0
        least = max(f - 2, 0)
        total = mixed(total, 0, f, *(agrees(g, s) for g in range(least, least + 5)))
    return total


def table_number(text):
    answer = field("D", 6, text)
    return [7] if answer[0] == 0 and answer[2] > LARGEST else answer


def output(lines):
    far = 2**64 - 1
    named = [("case 1: ", date(2013, 4, 3)), ("case 2: ", date(2012, 10, 1)), ("case 3: ", date(1980, 1, 6)), ("case 4: ", date(2000, 2, 29))]
    named += [("case 5: ", date(2001, 2, 29)), ("case 6: ", table_number("     -0.500000")), ("case 7: ", table_number("     -0.000000"))]
    named += [("case 8: ", table_number("1000000.000000")), ("case 9: ", table_number("       .500000"))]
    named += [("case 11: ", [agrees(f, SECOND) for f in (115740740, 115740741, 115740742)])]
    named += [("far year: ", date(far, 1, 1)), ("far month: ", date(2013, far, 1)), ("far day: ", date(2013, 4, far))]
    named += [("day before: ", date(1980, 1, 5)), ("last day: ", date(2099, 12, 31)), ("day after: ", date(2100, 1, 1))]
    out = [name + " ".join(map(str, answer)) for name, answer in named]
    out += ["year %d: %d" % (year, year_sum(year)) for year in range(1979, 2101)]
    out += ["days: %d" % every_day(), "seconds: %d" % every_second()]
    out += [spelt(line) for line in lines]
    return "".join(line + "\n" for line in out)


def main():
    what = sys.argv[1] if len(sys.argv) == 2 else ""
    lines = spellings()
    texts = {"stdin": "".join(line + "\n" for line in lines), "stdout": output(lines)}
    if what in texts:
        sys.stdout.buffer.write(texts[what].encode("latin-1"))
    elif what == "check":
        crate = Path(__file__).resolve().parent.parent / "crates/cases_fields"
        differing = [name for name, text in texts.items() if (crate / name).read_bytes() != text.encode("latin-1")]
        for name in differing:
            print("crates/cases_fields/%s is not what tests/fields.py makes" % name, file=sys.stderr)
        misread = [text for text, answer in CLOCKS if field("C", 6, text) != answer]
        for text in misread:
            print("tests/fields.py reads the clock |%s| otherwise than by hand" % text, file=sys.stderr)
        sys.exit(1 if differing or misread else 0)
    else:
        sys.exit(__doc__)


main()
