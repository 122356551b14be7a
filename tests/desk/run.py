#!/usr/bin/env python3
"""Tests of the desk tool; tests/desk.sh builds what is needed and calls this:

    run.py FOLDER

FOLDER has `tool/sp3`, the tool; `failing`, the tool with tests/desk/failing.c in it; and the oracles `files`, `forms` and `divide`. Files are made
in FOLDER. Prints how many tests passed; at the first difference prints what was expected and what came, and ends with 1.
"""
import contextlib
import errno
import gzip
import os
import pathlib
import re
import signal
import subprocess
import sys
import threading

import expected
import refusals
from expected import ROOT, of_model, refused
from refusals import MOST, PAPER, after_row, as_c, as_content, changed, crowd_model, make, moving, with_clock, with_line

SEED = 20130403
GENERATED = 80
PAPER_TABLE = """\
mode          P
start         2013-04-03 00:00:00.00000000
epochs        1
interval      900.00000000 s
data used     ORBIT
coordinates   WGS84
orbit type    BCT
agency        PORT
file type     G
time system   GPS
place base    1.2500000
clock base    1.025000000
satellites    1
satellite 0   G07 accuracy exponent 0
comments      4
comment 0     ONE ROW
comment 1
comment 2
comment 3
P rows        x y z in mm, clock in ps
sx sy sz sc   exponents of the standard deviations of x y z clock; - is unknown, > is too large
flags         E clock event, P clock predicted, M maneuver, P orbit predicted; . is not set
row  epoch date       time              sat              x              y              z          clock sx sy sz  sc flags
P        0 2013-04-03 00:00:00.00000000 G07     5000000001        -500000              0         absent  -  -  -   - ....
rows known 1 absent 0, clocks known 0 absent 1
"""
PAPER_ROW = "epoch 0 2013-04-03 00:00:00.00000000\nsatellite 0 G07\nplace 5000000001 -500000 0 mm\nclock absent\n"
PAPER_TALLY = "rows known 1 absent 0, clocks known 0 absent 1"
NOTE_UNITS = """\
EP notes      of the P row before: x-sdev y-sdev z-sdev in mm, clock-sdev in ps
x-sdev ..     standard deviations of x y z clock; - is unknown, > is too large
xy xz ..      correlation coefficients, c is the clock; - is unknown
"""
NOTE_TITLE = """\
note epoch date       time              sat         x-sdev         y-sdev         z-sdev     clock-sdev         xy         xz         xc\
         yz         yc         zc
"""
USAGE = """\
usage: sp3 COMMAND ARGUMENTS

  sp3 check   FILE..          judge each file: what an accepted one holds, or why it is refused
  sp3 rewrite [--as c|d] FILE write a file's canonical form, in its own version or as SP3-c or SP3-d
  sp3 table   FILE            show the header, every row and its EP or EV; absent as a word
  sp3 row     FILE EPOCH SAT  show a satellite's place and clock at an epoch; SAT is G07 or a number
  sp3 comment FILE K          write the text of a comment
  sp3 divide  FILE            tell where each file begins in a stretch of files laid end to end
  sp3 date    Y M D           tell MJD, GPS week and seconds of week of a date

FILE, in SP3-c or SP3-d, may be - for standard input; a name that begins with - comes after --.
Epochs, satellites and comments are counted from 0. Results, for check the refusals too, go to
standard output, messages to standard error.
Status: 0 accepted, 1 refused, 2 wrong arguments or an input or output that fails.
"""
COMMANDS = ("check", "rewrite", "table", "row", "comment", "divide", "date")
BAD = make.joined(changed(23, 18, "15"))


def as_bytes(text):
    return text.encode("latin-1") if isinstance(text, str) else text


class Desk:
    """The tool under test, and how many tests it has passed."""

    def __init__(self, folder):
        self.folder, self.passed = folder, 0
        self.tool = [str(folder / "tool/sp3")]
        self.oracles = expected.Oracles(folder)

    def file(self, name, content):
        """A file of this content in the folder that the tool is run in; its name."""
        (self.folder / name).write_bytes(as_content(content))
        return name

    def run(self, words, stdin=b"", tool=None, **how):
        given = {"input": stdin} if isinstance(stdin, bytes) else {"stdin": stdin}
        options = {"stdout": subprocess.PIPE, "stderr": subprocess.PIPE, "cwd": self.folder, **given, **how}
        done = subprocess.run([*(tool or self.tool), *words], **options)
        return done.returncode, done.stdout or b"", done.stderr or b""

    def expect(self, words, status, out="", err="", **how):
        """The tool ends with this status and prints exactly this."""
        came = self.run(words, **how)
        wanted = (status, as_bytes(out), as_bytes(err))
        if came != wanted:
            self.differ(words, wanted, came)
        self.passed += 1

    def expect_refused(self, words, message, **how):
        """The tool says this of a file that is refused: `check` as a result, any other command as a message."""
        self.expect(words, 1, *((message, "") if words[0] == "check" else ("", message)), **how)

    def differ(self, words, wanted, came):
        print(f"desk: a difference at test {self.passed + 1}: sp3 {' '.join(repr(word) for word in words)}")
        for part, want, come in zip(("status", "standard output", "standard error"), wanted, came):
            if want != come:
                shown = [text if isinstance(text, int) else text[:3000].decode("latin-1") for text in (want, come)]
                print(f"---- expected {part}:\n{shown[0]}\n---- came:\n{shown[1]}")
        print(f"the files are those of {self.folder}")
        sys.exit(1)


# ---- What 01 says ----


def paper_checked(name, notes):
    """What `check` says of the paper's file with so many notes."""
    told = ": accepted, SP3-d, mode P, start 2013-04-03 00:00:00.00000000, epochs 1, interval 900.00000000 s, satellites 1, time system GPS, "
    return f"{name}{told}{PAPER_TALLY}, notes {notes}\n"


def test_paper(desk):
    """The paper's own file: its answers are written here as 01 has them."""
    name = desk.file("paper.sp3", make.joined(PAPER))
    desk.expect(["check", name], 0, paper_checked(name, "EP 0 EV 0"))
    odd = desk.file("odd.sp3", [line.replace("     -0.500000", "    -00.500000") for line in PAPER])
    desk.expect(["rewrite", odd], 0, make.joined(PAPER))
    desk.expect(["table", odd], 0, PAPER_TABLE)
    for words in (("0", "G07"), ("0", "0"), ("000", "00")):
        desk.expect(["row", name, *words], 0, PAPER_ROW)
    for k, text in enumerate(["ONE ROW", "", "", ""]):
        desk.expect(["comment", name, str(k)], 0, text + "\n")
    desk.expect(["divide", name], 0, "file 0 first byte 0 length 1215\nnothing is left: files 1, bytes 1215\n")


def test_dates(desk):
    """Cases 1 to 5 of 01, both bounds, and the days beside them."""
    for date, mjd, week, seconds in ((("2013", "4", "3"), 56385, 1734, 259200), (("2012", "10", "01"), 56201, 1708, 86400),
                                     (("1980", "1", "6"), 44244, 0, 0), (("2000", "2", "29"), 51603, 1051, 172800),
                                     (("2099", "12", "31"), 88068, 6260, 345600)):
        desk.expect(["date", *date], 0, f"MJD {mjd}, GPS week {week}, seconds of week {seconds}\n")
    for date in (("2001", "2", "29"), ("1980", "1", "5"), ("2100", "1", "1"), ("2013", "0", "1"), ("2013", "13", "1"), ("2013", "4", "31"),
                 ("2013", "4", "0"), ("18446744073709551615", "18446744073709551615", "18446744073709551615")):
        desk.expect(["date", *date], 1, "", f"{' '.join(date)}: refused 7: {expected.WORDS[7]}\n")


def no_bytes(name):
    """What is said of an input without bytes."""
    return f"sp3: {name}: it has no bytes\n"


def about(name):
    """Every command about one file."""
    return [["check", name], ["rewrite", name], ["table", name], ["row", name, "0", "G07"], ["comment", name, "0"]]


def test_damaged(desk):
    """Each of the refusals 1 to 11, by each command; then the columns, clocks that are none, numbers of satellites, and what is refused in SP3-c. The
    refusals 1 to 11 are the same there, but that a comment line that is too long is so in column 61."""
    assert {number for _, number, _, _ in refusals.damaged()} == set(range(1, 12))
    for content, *refusal in refusals.damaged():
        content = as_content(content)
        name = desk.file("damaged.sp3", content)
        for words in [*about(name), ["row", name, "9", "0"]]:
            desk.expect_refused(words, refused(name, *refusal, content))
        expect_refusal(desk, content, refusal)
        expect_refusal(desk, as_c(content), [3, 19, 61] if refusal[0] == 3 else refusal)
    for content, *refusal in [*refusals.columned(), *refusals.clocked(), *refusals.crowded(), *refusals.older()]:
        expect_refusal(desk, as_content(content), refusal)


def expect_refusal(desk, content, refusal, message=None):
    """The refusal of these bytes is said, with this message after their name where one is given: as a result, as a message, and by `divide` also of
    a rest after another file. Number, line and column are those of the independent implementation, and the message the one by rule."""
    said = refused("", *refusal, content)
    assert desk.oracles.judged(content)[0] == tuple(refusal), (refusal, content[:400])
    assert message in (None, said), (message, said)
    name, first = desk.file("refused.sp3", content), make.joined(PAPER)
    for words in (["check", name], ["comment", name, "0"]):
        desk.expect_refused(words, name + said)
    if refusal[0] != 11:
        desk.expect(["divide", name], 1, "", f"{name}: from byte 0{said}")
        desk.expect(["divide", "-"], 1, expected.divide([len(first)], 1), f"standard input: from byte {len(first)}{said}", stdin=first + content)


def test_causes(desk):
    """A refusal whose cause is plain says it, after the words; 4, 8, 9 and 10 say what was due."""
    for content, number, line, column, text in refusals.causes():
        content = as_content(content)
        at = f": refused {number} line {line}{f' column {column}' if column else ''}: "
        expect_refusal(desk, content, [number, line, column], at + text + "\n" + expected.shown(content, line, column))


def test_pictures(desk):
    """The line that was refused, and a caret under the column."""
    for content, number, lines in refusals.pictured():
        content = as_content(content)
        refusal = desk.oracles.judged(content)[0]
        message = refused("", *refusal, content).split("\n")[0] + "\n" + "".join(line + "\n" for line in lines)
        assert refusal[0] == number, (number, refusal, lines)
        expect_refusal(desk, content, refusal, message)


def test_edges(desk):
    """Files on the accepted side of a bound: 80 characters, a coordinate of zero beside others, both parts absent."""
    desk.expect(["comment", desk.file("long.sp3", changed(19, 4, "X" * 77)), "0"], 0, "X" * 77 + "\n")
    zero = desk.file("zero.sp3", changed(24, 5, "      0.000000      0.000000     -0.000001      0.000000"))
    desk.expect(["row", zero, "0", "G07"], 0, "epoch 0 2013-04-03 00:00:00.00000000\nsatellite 0 G07\nplace 0 0 -1 mm\nclock 0 ps\n")
    none = desk.file("none.sp3", changed(24, 5, "     -0.000000      0.000000      0.000000-999999.999999"))
    desk.expect(["row", none, "0", "0"], 0, "epoch 0 2013-04-03 00:00:00.00000000\nsatellite 0 G07\nplace absent\nclock -999999999999 ps\n")
    name = desk.file("paper.sp3", make.joined(PAPER))
    for epoch, satellite in (("1", "0"), ("0", "1"), ("1", "G07"), ("18446744073709551615", "0"), ("0", "18446744073709551615")):
        desk.expect(["row", name, epoch, satellite], 1, "", refused(f"{name}: epoch {epoch}, satellite {satellite}", 13))
    for satellite in ("G08", "Z99"):
        desk.expect(["row", name, "0", satellite], 1, "", refused(f"{name}: satellite {satellite}", 13))
    for k in ("4", "18446744073709551615"):
        desk.expect(["comment", name, k], 1, "", refused(f"{name}: comment {k}", 13))


def clocks():
    """Clocks as they are spelt from column 47 on, each with its number; None is absent. The short ones end their lines."""
    absent = (" 999999.999999", " 999999.000000", " 999999.999998", " 999999.123456", "0999999.123456", "0999999.000000", " 999999.      ",
              "0999999.      ", " 999999.", "0999999.", " 999999.   ")
    known = ((" 999998.999999", 999_998_999_999), ("0999998.000000", 999_998_000_000), ("-999999.000000", -999_999_000_000),
             ("-999999.999999", -999_999_999_999), ("-999999.123456", -999_999_123_456), (" 099999.000000", 99_999_000_000), ("     -0.000000", 0))
    return [*((spelt, None) for spelt in absent), *known]


def with_number(text, number):
    """What is told of the paper's file, with this number for its absent clock."""
    return text if number is None else text.replace("         absent", f"{number:15}").replace("clocks known 0 absent 1", "clocks known 1 absent 0")


def test_clocks(desk):
    """An absent clock is told and written as the paper's own, however it is spelt; a clock beside the nines is told as its number."""
    for spelt, number in clocks():
        content, table = make.joined(with_clock(PAPER, 24, spelt)), with_number(PAPER_TABLE, number)
        name, shown = desk.file("clock.sp3", content), "absent" if number is None else f"{number} ps"
        assert expected.table(desk.oracles.judged(content)[1]) == table, spelt
        desk.expect(["check", name], 0, with_number(paper_checked(name, "EP 0 EV 0"), number))
        desk.expect(["table", name], 0, table)
        desk.expect(["row", name, "0", "G07"], 0, PAPER_ROW.replace("clock absent", f"clock {shown}"))
        desk.expect(["rewrite", name], 0, make.joined(PAPER if number is None else with_clock(PAPER, 24, make.fixed(number, 6, 14))))
        desk.expect(["divide", "-"], 0, expected.divide([len(content), 1215]), stdin=content + make.joined(PAPER))


def test_clocks_before_exponents(desk):
    """The same where exponents and flags stand after the clock."""
    after, shown = " 18 99    219 EP  MP", "18  >  - 219 EPMP"
    for spelt, number in clocks():
        name = desk.file("clock.sp3", with_clock(PAPER, 24, spelt.ljust(14) + after))
        form = with_clock(PAPER, 24, make.fixed(make.ABSENT_CLOCK if number is None else number, 6, 14) + after)
        desk.expect(["table", name], 0, with_number(PAPER_TABLE, number).replace(" -  -  -   - ....", shown))
        desk.expect(["rewrite", name], 0, make.joined(form))


def test_rates(desk):
    """The same of the rate in a V row, line 30 of samples/velocity.sp3; `check` counts the clocks of P rows alone."""
    for spelt, number in clocks():
        model = make.velocity()
        model.rows[0][1][1].clock = number
        content, held = make.joined(with_clock(moving(), 30, spelt)), of_model(model)
        name = desk.file("rate.sp3", content)
        assert expected.table(desk.oracles.judged(content)[1]) == expected.table(held), spelt
        desk.expect(["check", name], 0, expected.check(name, of_model(make.velocity())))
        desk.expect(["table", name], 0, expected.table(held))
        desk.expect(["rewrite", name], 0, make.joined(make.file_lines(model)))


def test_nines_in_places(desk):
    """Six nines in x, y or z are a coordinate."""
    for first, place in ((5, "999999000000 -500000 0"), (19, "5000000001 999999000000 0"), (33, "5000000001 -500000 999999000000")):
        lines = changed(24, first, " 999999.000000")
        name = desk.file("nines.sp3", lines)
        desk.expect(["row", name, "0", "0"], 0, PAPER_ROW.replace("5000000001 -500000 0", place))
        desk.expect(["rewrite", name], 0, make.joined(lines))


def ep_line(*fields):
    """An EP of these fields, as they are written."""
    return "EP  " + " ".join(f"{field:>{width}}" for field, width in zip(fields, (4, 4, 4, 7, 8, 8, 8, 8, 8, 8)))


def noted():
    """EP lines, each with its canonical form and what is shown of its fields."""
    unknown = "- - - - - - - - - -"
    example = "EP    55   55   55     222  1234567 -1234567  5999999      -30       21 -1230000"
    return [(example, example, "55 55 55 222 0.1234567 -0.1234567 0.5999999 -0.0000030 0.0000021 -0.1230000"), ("EP", "EP", unknown),
            ("EP".ljust(80), "EP", unknown), ("EP  9999 9999 9999 9999999", "EP  9999 9999 9999 9999999", "> > > > - - - - - -"),
            (ep_line("0055", "9998", "1000", "0009999"), "EP    55 9998 1000    9999", "55 9998 1000 9999 - - - - - -"),
            (ep_line("0", "", "00", "9999998", "-0", "-0000000", "09999999", "-9999999", "", "-1"),
             ep_line("0", "", "0", "9999998", "0", "0", "9999999", "-9999999", "", "-1"),
             "0 - 0 9999998 0.0000000 0.0000000 0.9999999 -0.9999999 - -0.0000001")]


def noted_table(shown):
    """What `table` shows of the paper's file with one EP."""
    columns = "".join(f"{text:>{15 if k < 4 else 11}}" for k, text in enumerate(shown.split()))
    line = f"EP       0 2013-04-03 00:00:00.00000000 G07{columns}\n"
    first, title, row = PAPER_TABLE.partition("row  epoch")[0], *PAPER_TABLE.splitlines(True)[-3:-1]
    return f"{first}{NOTE_UNITS}{title}{NOTE_TITLE}{row}{line}{PAPER_TALLY}, notes EP 1 EV 0\n"


def test_notes(desk):
    """An EP after the row of the paper's file: full, of nothing, too large, with leading zeros, minus zero; then such as are refused."""
    for line, form, shown in noted():
        content = make.joined(after_row(line))
        name, held = desk.file("noted.sp3", content), desk.oracles.judged(content)[1]
        assert expected.table(held) == noted_table(shown) and expected.check(name, held) == paper_checked(name, "EP 1 EV 0")
        desk.expect(["check", name], 0, paper_checked(name, "EP 1 EV 0"))
        desk.expect(["table", name], 0, noted_table(shown))
        desk.expect(["rewrite", name], 0, make.joined(after_row(form)))
        desk.expect(["row", name, "0", "G07"], 0, expected.row(paper_held(desk), 0, 0))
    for line, number, column in (("EPx", 5, 3), (ep_line("55") + "1", 5, 9), ("EP  55", 6, 5), (ep_line("-1"), 6, 5),
                                 (ep_line(*[""] * 4, "99999999"), 7, 28), (ep_line(*[""] * 4, "10000000", *[""] * 4, "+1"), 6, 73), ("EV", 4, 0)):
        expect_refusal(desk, make.joined(after_row(line)), [number, 25, column])
    expect_refusal(desk, make.joined(after_row("EP", "EP")), [4, 26, 0])


# ---- What samples/make.py and the oracles know ----


def noted_only(letters):
    """The sample with notes in mode V, with those after the rows of these letters alone."""
    model = make.correlations()
    for rows in (rows for satellites in model.rows for rows in satellites):
        for letter, row in zip("PV", rows):
            row.note = row.note if letter in letters else None
    return model


def test_moving_notes(desk):
    """Mode V: EP and EV, each alone, none. Where there is none, nothing is shown of notes."""
    for letters, notes in (("PV", "EP 5 EV 4"), ("P", "EP 5 EV 0"), ("V", "EP 0 EV 4"), ("", "EP 0 EV 0")):
        model = noted_only(letters)
        content, held = make.joined(make.file_lines(model)), of_model(model)
        name, checked, table = desk.file("moving.sp3", content), expected.check("moving.sp3", held), expected.table(held)
        assert checked.endswith(f", clocks known 6 absent 0, notes {notes}\n") and ("note" in table) == (letters != "")
        assert table == expected.table(desk.oracles.judged(content)[1])
        desk.expect(["check", name], 0, checked)
        desk.expect(["table", name], 0, table)
        desk.expect(["rewrite", name], 0, content)


def test_samples(desk):
    """The stored samples, by the numbers that they were made from; one that is refused, which README.md shows; one with every spelling of an absent
    clock, which the canonical form writes in one way."""
    late = str(ROOT / "samples/late.sp3")
    desk.expect(["check", late], 1, refused(late, 9, 23, 0, make.samples()["late.sp3"]))
    models, files = {"day.sp3": make.day(), "velocity.sp3": make.velocity(), "correlations.sp3": make.correlations()}, make.season_files()
    models |= {"six-nines.sp3": make.six_nines(), "combined.sp3": make.combined(), "station.sp3": make.station()}
    for sample, model in models.items():
        name, held, form = str(ROOT / "samples" / sample), of_model(model), make.joined(make.file_lines(model))
        desk.expect(["check", name], 0, expected.check(name, held))
        desk.expect(["table", name], 0, expected.table(held))
        desk.expect(["rewrite", name], 0, form)
        for k, text in enumerate(held.comments):
            desk.expect(["comment", name, str(k)], 0, text + "\n")
        for epoch, k in ((0, 0), (min(1, held.epochs - 1), 1), (held.epochs - 1, len(held.satellites) - 1)):
            for satellite in (str(k), held.satellites[k][0]):
                desk.expect(["row", name, str(epoch), satellite], 0, expected.row(held, epoch, k))
    day, season, held = str(ROOT / "samples/day.sp3"), str(ROOT / "samples/season.sp3"), of_model(make.day())
    for epoch in (12, 29, 30, 47, 48, 95):
        for k in (3, 10, 14, 18):
            desk.expect(["row", day, str(epoch), f"G{k + 1:02}"], 0, expected.row(held, epoch, k))
    desk.expect(["divide", season], 0, expected.divide([len(file) for file in files]))
    desk.expect(["check", season], 1, refused(season, 11, files[0].count(b"\n") + 1, 0, b"".join(files)))
    for k, (file, model) in enumerate(zip(files, make.season())):
        desk.expect(["check", desk.file("part.sp3", file)], 0, expected.check("part.sp3", of_model(model)))
        desk.expect(["rewrite", "part.sp3"], 0, make.joined(make.file_lines(model)))


def test_crowds(desk):
    """Files of many satellites, up to as many as there can be; the 17 slots of their last lines all taken, or one, or some."""
    crowds = [(count, "P", 1) for count in (255, 256, 272, 273, 986, 987, MOST - 1, MOST)]
    for count, mode, epochs in [*crowds, (256, "P", 2), (256, "V", 1), (MOST, "V", 2)]:
        model = crowd_model(count, mode, epochs)
        content, held = make.joined(make.file_lines(model)), of_model(model)
        name, (last, _), paper = desk.file("crowd.sp3", content), held.satellites[-1], make.joined(PAPER)
        assert expected.table(desk.oracles.judged(content)[1]) == expected.table(held)
        assert desk.oracles.form(content) == content
        desk.expect(["check", name], 0, expected.check(name, held))
        desk.expect(["table", name], 0, expected.table(held))
        desk.expect(["rewrite", name], 0, content)
        for satellite in (last, str(count - 1)):
            desk.expect(["row", name, str(epochs - 1), satellite], 0, expected.row(held, epochs - 1, count - 1))
        desk.expect(["row", name, "0", str(count)], 1, "", refused(f"{name}: epoch 0, satellite {count}", 13))
        desk.expect(["row", name, "0", "Z99"], 1, "", refused(f"{name}: satellite Z99", 13))
        desk.expect(["divide", "-"], 0, expected.divide([len(content), 1215, len(content)]), stdin=content + paper + content)


# ---- Both versions ----


def short_models():
    """Models within the bounds of SP3-c, and at them: 85 satellites, comment lines of 60 characters."""
    full = crowd_model(85)
    full.comments = ["X" * 57] * 4
    return [make.velocity(), crowd_model(1), crowd_model(84, "V", 2), full]


def outside_models():
    """Models outside them: 86 satellites; five comments, the last of them empty; a comment line of 61 characters; all of these."""
    many, five, long, every = crowd_model(86), crowd_model(85), crowd_model(85), crowd_model(86)
    five.comments, long.comments, every.comments = [""] * 5, ["", "", "", "X" * 58], ["X" * 58] * 5
    return [many, five, long, every, make.day(), make.correlations(), make.combined()]


def test_versions(desk):
    """A file in SP3-c is told as such and answered for like the same in SP3-d; it is rewritten in its own version, and in the one that is asked for.
    Both versions lie mixed in a stretch."""
    for model in short_models():
        newer, held = make.joined(make.file_lines(model)), of_model(model, "c")
        content, last = as_c(newer), len(held.satellites) - 1
        name, paper = desk.file("older.sp3", content), make.joined(PAPER)
        assert expected.check(name, desk.oracles.judged(content)[1]) == expected.check(name, held)
        assert desk.oracles.form(content) == desk.oracles.form(newer, "c") == content and desk.oracles.form(content, "d") == newer
        desk.expect(["check", name], 0, expected.check(name, held))
        desk.expect(["table", name], 0, expected.table(of_model(model)))
        desk.expect(["row", name, "0", str(last)], 0, expected.row(held, 0, last))
        desk.expect(["comment", name, "3"], 0, held.comments[3] + "\n")
        for words, form in (([], content), (["--as", "c"], content), (["--as", "d"], newer), (["--as", "c", "--as", "d"], newer)):
            desk.expect(["rewrite", *words, name], 0, form)
        for words, form in (([], newer), (["--as", "c"], content), (["--as", "d"], newer)):
            desk.expect(["rewrite", "-", *words], 0, form, stdin=newer)
        for files in ((content, paper, content), (paper, content, as_c(paper)), (newer, content)):
            desk.expect(["divide", "-"], 0, expected.divide([len(file) for file in files]), stdin=b"".join(files))
    expect_refusal(desk, as_c(make.joined(PAPER)) + make.joined(PAPER), [11, 26, 0])


def test_spellings(desk):
    """A file in SP3-c that is no canonical form: rewritten in each version it is that form there, and the second byte alone differs."""
    odd = as_c(put_all(PAPER))
    name, form = desk.file("odd.sp3", odd), make.joined(PAPER)
    desk.expect(["rewrite", name], 0, as_c(form))
    desk.expect(["rewrite", "--as", "c", name], 0, as_c(form))
    desk.expect(["rewrite", "--as", "d", name], 0, form)


def put_all(lines):
    """The paper's lines with blanks at the end of each, as many as may stand, and with zeros before numbers."""
    spelt = [line.replace("     -0.500000", "    -00.500000").replace("+    1", "+  001") for line in lines]
    return [line.ljust(60 if line.startswith("/*") else 80) for line in spelt]


def test_outside(desk):
    """A table that SP3-c cannot hold is refused there with 17, and nothing is printed; in SP3-d it is written."""
    for model in outside_models():
        content = make.joined(make.file_lines(model))
        name, said = desk.file("wide.sp3", content), f": refused 17 line 0: {expected.WORDS[17]} ({expected.BOUNDS_OF_C})\n"
        assert desk.oracles.form(content, "c") == 17
        desk.expect(["rewrite", "--as", "c", name], 1, "", name + said)
        desk.expect(["rewrite", "--as", "c", "-"], 1, "", "standard input" + said, stdin=content)
        desk.expect(["rewrite", "--as", "d", name], 0, content)
        desk.expect(["rewrite", name], 0, content)
    # a file's own refusal comes first
    wrong = make.joined(with_line(24, "PG07"))
    for words, file in ((["--as", "c"], wrong), (["--as", "d"], as_c(wrong))):
        desk.expect(["rewrite", *words, "-"], 1, "", refused("standard input", 6, 24, 5, file), stdin=file)


def test_generated(desk):
    """Generated files of both versions, right and damaged, as the independent implementation answers for them."""
    for file, asked in desk.oracles.cases(SEED, GENERATED):
        name = desk.file("made.sp3", file)
        if not file:
            desk.expect(["check", name], 2, "", no_bytes(name))
            continue
        refusal, held, answers = desk.oracles.judged(file, asked)
        if held is None:
            for words in (["check", name], ["table", name], ["rewrite", name], ["comment", name, str(asked[0])]):
                desk.expect_refused(words, refused(name, *refusal, file))
        else:
            desk.expect(["check", name], 0, expected.check(name, held))
            desk.expect(["table", name], 0, expected.table(held))
            desk.expect(["rewrite", name], 0, desk.oracles.form(file))
            expect_forms(desk, name, file)
            expect_answers(desk, name, held, asked, answers)
        refusal, rest, lengths = desk.oracles.division(file)
        err = refused(f"{name}: from byte {rest}", *refusal, file[rest:]) if refusal[0] else ""
        desk.expect(["divide", name], 1 if err else 0, expected.divide(lengths, rest if err else None), err)


def expect_forms(desk, name, file):
    """An accepted file rewritten in each version."""
    outside = f"{name}: refused 17 line 0: {expected.WORDS[17]} ({expected.BOUNDS_OF_C})\n"
    for version in "cd":
        form = desk.oracles.form(file, version)
        desk.expect(["rewrite", "--as", version, name], *((1, "", outside) if form == 17 else (0, form)))


def expect_answers(desk, name, held, asked, answers):
    """The questions about an accepted file."""
    k, epoch, satellite, code = asked
    if answers["comment"][1] == "0":
        desk.expect(["comment", name, str(k)], 0, held.comments[k] + "\n")
    else:
        desk.expect(["comment", name, str(k)], 1, "", refused(f"{name}: comment {k}", 13))
    if answers["row"][1] == "0":
        desk.expect(["row", name, str(epoch), str(satellite)], 0, expected.row(held, epoch, satellite))
    else:
        desk.expect(["row", name, str(epoch), str(satellite)], 1, "", refused(f"{name}: epoch {epoch}, satellite {satellite}", 13))
    text = chr(code // 100 % 0x110000) + f"{code % 100:02}"
    if answers["satellite"][1] == "0":
        desk.expect(["row", name, "0", text], 0, expected.row(held, 0, int(answers["satellite"][4])))
    elif re.fullmatch("[A-Z](0[1-9]|[1-9][0-9])", text):
        desk.expect(["row", name, "0", text], 1, "", refused(f"{name}: satellite {text}", 13))


def large_model():
    """By a rule: 1,042 epochs of 120 satellites, ten megabytes, every seventh place and every eleventh clock absent, a note after each 13th."""
    identifiers = [f"{letter}{k:02}" for letter in "GR" for k in range(1, 61)]
    rows = []
    for epoch in range(1042):
        numbers = [epoch * 120 + k for k in range(120)]
        rows.append([[make.Row(None if n % 7 == 0 else (n * 7_919 - 10**9, n - 50_000, -n * 104_729), None if n % 11 == 0 else 5 * n - 300_000,
                               (n % 98, None if n % 5 == 0 else 99, n % 13, n % 1000), "EPMP" if n % 3 else "  M ",
                               None if n % 13 else make.Note((n % 10_000, None, 9999, 9 * n), (-n, n, None, 0, None, 70 * n)))] for n in numbers])
    return make.Model("P", make.datetime.datetime(2000, 2, 28, 20, 0, 30), 30, identifiers, [k % 100 for k in range(120)], ["BY RULE"] * 5, rows)


def test_large(desk):
    """Ten megabytes, from a file and from a pipe."""
    model = large_model()
    held, content = of_model(model), make.joined(make.file_lines(model))
    assert len(content) > 10_000_000
    name = desk.file("large.sp3", content)
    desk.expect(["check", name], 0, expected.check(name, held))
    desk.expect(["check", "-"], 0, expected.check("standard input", held), stdin=content)
    desk.expect(["table", name], 0, expected.table(held))
    desk.expect(["rewrite", "-"], 0, content, stdin=content)
    desk.expect(["row", name, "1041", "R60"], 0, expected.row(held, 1041, 119))
    desk.expect(["divide", "-"], 1, expected.divide([len(content)] * 2, 1),
                refused(f"standard input: from byte {2 * len(content)}", 1, 1, 0, b"#"), stdin=content + content + b"#")
    many = make.joined(PAPER) * 5000
    desk.expect(["divide", "-"], 0, expected.divide([1215] * 5000), stdin=many)
    (desk.folder / name).unlink()


# ---- Arguments, inputs, outputs ----


def test_usage(desk):
    """Help, and arguments that are of no use."""
    for words in (["--help"], ["-h"], ["help"], ["help", "row"], *([command, "--help"] for command in COMMANDS), ["row", "x", "-h"], ["help", "--"]):
        desk.expect(words, 0, USAGE)
    for words in ([], ["--"]):
        desk.expect(words, 2, "", USAGE)
    for word in ("chek", "", "-", "Check", "check "):
        desk.expect([word, "paper.sp3"], 2, "", f"sp3: {word}: no such command\n" + USAGE)
    for words in (["--", "--help"], ["--", "-h", "x"]):
        desk.expect(words, 2, "", f"sp3: {words[1]}: no such command\n" + USAGE)
    for words in (["-x"], ["check", "--all", "paper.sp3"], ["row", "paper.sp3", "-1", "G07"], ["date", "2013", "4", "-3"], ["check", "-9", "--help"]):
        option = next(word for word in words if word[0] == "-")
        desk.expect(words, 2, "", f"sp3: {option}: no such option; a name that begins with - comes after --\n")
    for words in (["--as"], ["rewrite", "--as"], ["rewrite", "paper.sp3", "--as", "C"], ["rewrite", "--as", "paper.sp3"],
                  ["rewrite", "--as", "", "x"], ["rewrite", "--as", "cd", "paper.sp3"], ["rewrite", "--as", "--help"]):
        desk.expect(words, 2, "", "sp3: --as: c or d must come after it\n")
    for words in (["check", "--as", "c", "paper.sp3"], ["--as", "d", "divide", "paper.sp3"], ["table", "paper.sp3", "--as", "d"]):
        desk.expect(words, 2, "", "sp3: --as: for rewrite alone\n")
    desk.expect(["rewrite", "--as", "c", "--help"], 0, USAGE)
    desk.expect(["rewrite", "--as=c", "paper.sp3"], 2, "", "sp3: --as=c: no such option; a name that begins with - comes after --\n")
    for command, arguments, counts in (("check", "FILE..", (0,)), ("rewrite", "[--as c|d] FILE", (0, 2)), ("table", "FILE", (0, 2)),
                                       ("row", "FILE EPOCH SAT", (0, 1, 2, 4)), ("comment", "FILE K", (0, 1, 3)), ("divide", "FILE", (0, 2)),
                                       ("date", "Y M D", (0, 1, 2, 4))):
        for count in counts:
            desk.expect([command, *["1"] * count], 2, "", f"sp3: the arguments of {command} are: {arguments}\n")


def test_numbers(desk):
    """Arguments that are no numbers, and satellites that are none."""
    no_number = "not a number from 0 to 18446744073709551615\n"
    no_satellite = "neither an identifier such as G07 nor a number from 0 to 18446744073709551615\n"
    for word in ("x", "-1", "+1", "1x", "", " 1", "1 ", "0x1", "1.0", "1e3", "99999999999999999999", "18446744073709551616", "\xb2"):
        desk.expect(["row", "--", "paper.sp3", word, "G07"], 2, "", f"sp3: EPOCH '{word}': {no_number}".encode())
        desk.expect(["comment", "--", "paper.sp3", word], 2, "", f"sp3: K '{word}': {no_number}".encode())
        desk.expect(["row", "--", "paper.sp3", "0", word], 2, "", f"sp3: SAT '{word}': {no_satellite}".encode())
        for k, part in enumerate("YMD"):
            words = ["2013", "4", "3"]
            words[k] = word
            desk.expect(["date", "--", *words], 2, "", f"sp3: {part} '{word}': {no_number}".encode())
    for word in ("g07", "G 7", "G7", "G007", "07G", "GG7", "G0", "7G0", "G00"):
        desk.expect(["row", "paper.sp3", "0", word], 2, "", f"sp3: SAT '{word}': {no_satellite}")


def unreadable(desk, name):
    """What to run the tool with so that nobody may read a file: as root another user."""
    os.chmod(desk.folder / name, 0)
    return {"user": 65534} if os.getuid() == 0 else {}


def test_inputs(desk):
    """Files that cannot be read, and names that are unusual."""
    paper, whole = desk.file("paper.sp3", make.joined(PAPER)), make.joined(PAPER)
    (desk.folder / "folder").mkdir()
    closed = desk.file("closed.sp3", whole)
    as_other = unreadable(desk, closed)
    for name, reason, how in (("missing.sp3", errno.ENOENT, {}), ("folder", errno.EISDIR, {}), (".", errno.EISDIR, {}),
                              (closed, errno.EACCES, as_other), (f"{paper}/x", errno.ENOTDIR, {}), ("x" * 300, errno.ENAMETOOLONG, {})):
        for words in [*about(name), ["divide", name]]:
            desk.expect(words, 2, "", f"sp3: {name}: {os.strerror(reason)}\n", **how)
    for words in [*about(""), ["divide", ""]]:
        desk.expect(words, 2, "", "sp3: FILE '': the name is empty\n")
    for words in (["check", "-"], ["rewrite", "-"], ["divide", "-"]):
        desk.expect(words, 2, "", f"sp3: standard input: {os.strerror(errno.EBADF)}\n", stdin=None, preexec_fn=lambda: os.close(0))
    for name in ("/dev/null", desk.file("empty.sp3", b"")):
        for words in [*about(name), ["divide", name]]:
            desk.expect(words, 2, "", no_bytes(name))
    # a file that says it has no bytes and has some
    version = pathlib.Path("/proc/version").read_bytes()
    desk.expect(["check", "/proc/version"], 1, refused("/proc/version", *desk.oracles.judged(version)[0], version))
    for name in ("-odd", "a b.sp3", "100%s%n.sp3", "\u00fc.sp3"):
        (desk.folder / name).write_bytes(whole)
        desk.expect(["check", "--", name], 0, expected.check(name, paper_held(desk)).encode())
        desk.expect(["comment", "--", name, "9"], 1, "", refused(f"{name}: comment 9", 13).encode())


def paper_held(desk):
    return desk.oracles.judged(make.joined(PAPER))[1]


@contextlib.contextmanager
def fed(pipe, content):
    """A named pipe into which somebody writes this once."""
    writer = threading.Thread(target=pipe.write_bytes, args=(content,))
    writer.start()
    yield
    writer.join()


def test_pipes(desk):
    """Standard input, named pipes, many files."""
    whole, held = make.joined(PAPER), paper_held(desk)
    day = (ROOT / "samples/day.sp3").read_bytes()
    accepted = expected.check("standard input", held)
    desk.expect(["check", "-"], 0, accepted, stdin=whole)
    desk.expect(["rewrite", "-"], 0, day, stdin=day)
    desk.expect(["table", "-"], 0, PAPER_TABLE, stdin=whole)
    desk.expect(["row", "-", "0", "G07"], 0, expected.row(held, 0, 0), stdin=whole)
    desk.expect(["comment", "-", "0"], 0, "ONE ROW\n", stdin=whole)
    desk.expect(["divide", "-"], 0, expected.divide([1215] * 3), stdin=whole * 3)
    desk.expect(["check", "-", "-"], 2, accepted, no_bytes("standard input"), stdin=whole)
    os.mkfifo(desk.folder / "pipe")
    for content, words, out in ((whole, ["check", "pipe"], expected.check("pipe", held)), (day, ["rewrite", "pipe"], day),
                                (whole, ["table", "pipe"], PAPER_TABLE), (whole, ["row", "pipe", "0", "G07"], expected.row(held, 0, 0)),
                                (whole, ["comment", "pipe", "0"], "ONE ROW\n"), (whole * 3, ["divide", "pipe"], expected.divide([1215] * 3))):
        with fed(desk.folder / "pipe", content):
            desk.expect(words, 0, out)
    with fed(desk.folder / "pipe", b""):
        desk.expect(["check", "pipe"], 2, "", no_bytes("pipe"))
    packed = gzip.compress(whole, mtime=0)
    with fed(desk.folder / "pipe", packed):
        desk.expect(["check", "pipe"], 1, refused("pipe", 2, 1, 1, packed))
    desk.expect(["check", "/dev/stdin"], 0, expected.check("/dev/stdin", held), stdin=whole)


def test_many(desk):
    """All files are judged; the gravest status is given; results and messages come in order."""
    paper, bad, held = desk.file("paper.sp3", make.joined(PAPER)), desk.file("bad.sp3", BAD), paper_held(desk)
    good, wrong = expected.check(paper, held), refused(bad, 9, 23, 0, BAD)
    missing = f"sp3: missing: {os.strerror(errno.ENOENT)}\n"
    desk.expect(["check", *[paper] * 300], 0, good * 300)
    desk.expect(["check", bad, paper, bad, paper], 1, (wrong + good) * 2)
    desk.expect(["check", paper, "missing", bad, paper], 2, good + wrong + good, missing)
    desk.expect(["check", bad, "missing"], 2, wrong, missing)
    desk.expect(["check", "missing", bad], 2, wrong, missing)
    desk.expect(["check", paper, "--", bad, paper, "missing", paper], 2, good + wrong + good + missing + good, stderr=subprocess.STDOUT)
    desk.expect(["divide", "-"], 1, expected.divide([1215], 1) + refused("standard input: from byte 1215", 9, 23, 0, BAD),
                stdin=make.joined(PAPER) + BAD, stderr=subprocess.STDOUT)


def test_outputs(desk):
    """Outputs that cannot be written: said, with status 2, whatever the files are. A pipe that nobody reads any more ends the tool without a word."""
    day, paper, bad = str(ROOT / "samples/day.sp3"), "paper.sp3", "bad.sp3"
    for words in [*about(paper), *about(day), ["divide", paper], ["date", "2013", "4", "3"], ["--help"], ["check", paper, paper]]:
        with open("/dev/full", "wb") as full:
            desk.expect(words, 2, "", f"sp3: standard output: {os.strerror(errno.ENOSPC)}\n", stdout=full)
        desk.expect(words, 2, "", f"sp3: standard output: {os.strerror(errno.EBADF)}\n", stdout=None, preexec_fn=lambda: os.close(1))
        source, sink = os.pipe()
        os.close(source)
        for ignored in (False, True):
            desk.expect(words, -signal.SIGPIPE, stdout=sink, restore_signals=not ignored)
        os.close(sink)
    with open("/dev/full", "wb") as full:
        missing = f"sp3: missing: {os.strerror(errno.ENOENT)}\n"
        failed = f"sp3: standard output: {os.strerror(errno.ENOSPC)}\n"
        desk.expect(["check", paper, bad, "missing"], 2, "", missing + failed, stdout=full)
        desk.expect(["check", bad], 2, "", failed, stdout=full)
        desk.expect(["table", bad], 1, "", refused(bad, 9, 23, 0, BAD), stdout=full)
    desk.expect(["check", bad], 2, "", f"sp3: standard output: {os.strerror(errno.EBADF)}\n", stdout=None, preexec_fn=lambda: os.close(1))
    desk.expect(["table", bad], 1, "", refused(bad, 9, 23, 0, BAD), stdout=None, preexec_fn=lambda: os.close(1))
    for words, status, out in ((["check", paper], 0, expected.check(paper, paper_held(desk))), (["check", bad], 1, refused(bad, 9, 23, 0, BAD)),
                               (["table", bad], 1, ""), (["check", "missing"], 2, "")):
        desk.expect(words, status, out, stderr=None, preexec_fn=lambda: os.close(2))


def test_failing(desk):
    """Reads that are interrupted or short go on; memory that is not there is said, and nothing is printed."""
    emulator = os.environ.get("X86_EMULATOR")
    tool = ([emulator] if emulator else []) + [str(desk.folder / "failing")]
    day = str(ROOT / "samples/day.sp3")
    content = pathlib.Path(day).read_bytes()
    slow = {"tool": tool, "env": {**os.environ, "SP3_SHORT": "1"}}
    desk.expect(["check", day], 0, expected.check(day, of_model(make.day())), **slow)
    desk.expect(["rewrite", "-"], 0, content, stdin=content, **slow)
    for words, out in ((["check", "-"], expected.check("standard input", of_model(make.day()))), (["rewrite", "-"], content),
                       (["table", "-"], expected.table(of_model(make.day()))), (["row", "-", "0", "0"], expected.row(of_model(make.day()), 0, 0)),
                       (["comment", "-", "3"], "\n"), (["divide", "-"], expected.divide([len(content)]))):
        expect_without_memory(desk, words, out, content, tool)


def expect_without_memory(desk, words, out, content, tool):
    """The first, the second and each later call for memory fails, until there is none that fails and the results are right."""
    for number in range(1, 40):
        how = {"stdin": content, "tool": tool, "env": {**os.environ, "SP3_NO_MEMORY": str(number)}}
        if desk.run(words, **how)[0] == 0:
            break
        desk.expect(words, 2, "", "sp3: standard input: there is not enough memory for it\n", **how)
    desk.expect(words, 0, out, **how)
    # the input takes memory three times, as it is longer than a pipe seems to be
    if number <= 3:
        desk.differ(words, (4, b"or more calls for memory", b""), (number, b"", b""))


def main():
    desk = Desk(pathlib.Path(sys.argv[1]).resolve())
    for test in (test_paper, test_dates, test_damaged, test_causes, test_pictures, test_edges, test_clocks, test_clocks_before_exponents,
                 test_rates, test_nines_in_places, test_notes, test_moving_notes, test_samples, test_crowds, test_versions, test_spellings,
                 test_outside, test_generated, test_usage, test_numbers, test_inputs, test_pipes, test_many, test_outputs, test_failing, test_large):
        test(desk)
    print(f"desk: {desk.passed} tests passed")


if __name__ == "__main__":
    main()
