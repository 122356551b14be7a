#!/usr/bin/env python3
"""Makes the sample files of this folder, from 01, 02 and the SP3-d document alone; every byte is the same on every machine.

    python3 samples/make.py          writes them
    python3 samples/make.py check    compares the stored files with what it makes; ends with 1 at a difference

paper.sp3 is the file that 01 prints, and late.sp3 the same with its epoch a quarter of an hour late, which is refused with 9 at line 23. The others
are made up: circles of 26,560 km at 55 degrees around a turning Earth, in Earth-fixed coordinates. velocity.sp3 and correlations.sp3 have EP and EV
records, the second of every kind. six-nines.sp3 has absent clocks and rates in every spelling, beside clocks at their ends. combined.sp3 has as many
satellites as a file can have. station.sp3 is in SP3-c, for an older station. six-nines.sp3 and the second file of season.sp3 are no canonical forms.
`tests/desk/run.py` takes the numbers of the files from here, to know what the desk tool must print.
"""
import datetime
import decimal
import pathlib
import sys
from decimal import Decimal

FOLDER = pathlib.Path(__file__).resolve().parent
DAY = 86400
GPS_ZERO = 44244
ABSENT_CLOCK = 999_999_999_999
MOST_SATELLITES = 999
decimal.getcontext().prec = 45

PI = Decimal("3.14159265358979323846264338327950288419716939937510")
RADIUS = 26_560_000_000  # mm
ORBIT = 43_082  # seconds
EARTH = 86_164  # seconds


class Note:
    """An EP or EV record: four deviations and six correlations in 10^-7; None for a blank one."""

    def __init__(self, deviations=(None,) * 4, correlations=(None,) * 6):
        self.deviations, self.correlations = deviations, correlations


class Row:
    """A P or V row: three numbers or None, a number or None, four exponents (None for a blank one), four flags as letters or blanks; the record
    directly after it, or None."""

    def __init__(self, place, clock, exponents=(None, None, None, None), flags="    ", note=None):
        self.place, self.clock, self.exponents, self.flags, self.note = place, clock, exponents, flags, note


class Model:
    """What a file holds, and the letter of its version. `rows[epoch][satellite]` is a list of one Row, of a P and a V row in mode V; times in
    seconds."""

    def __init__(self, mode, start, interval, satellites, accuracies, comments, rows, texts=("ORBIT", "IGS20", "FIT", "MADE"), version="d"):
        self.mode, self.start, self.interval, self.texts, self.version = mode, start, interval, texts, version
        self.satellites, self.accuracies, self.comments, self.rows = satellites, accuracies, comments, rows

    def instant(self, epoch):
        return self.start + datetime.timedelta(seconds=self.interval * epoch)


def sine_and_cosine(turns):
    """Of an angle given in turns, by their series."""
    angle = 2 * PI * (turns % 1)
    sine, cosine, term = Decimal(0), Decimal(0), Decimal(1)
    for k in range(1, 80):
        if k % 2:
            cosine += term
        else:
            sine += term
        term = term * angle / k * (1 if k % 2 else -1)
    return sine, cosine


def whole(number):
    return int(number.to_integral_value(decimal.ROUND_HALF_EVEN))


def circle(satellite, seconds):
    """Place in mm and velocity in 10^-4 mm/s of a satellite, counted from 0, so many seconds after the start."""
    plane, slot = satellite % 6, satellite // 6
    along = Decimal(slot) / 6 + Decimal(plane) / 37 + Decimal(seconds) / ORBIT
    node = Decimal(7 * plane + 1) / 43 - Decimal(seconds) / EARTH
    (si, ci), (su, cu), (sn, cn) = sine_and_cosine(Decimal(55) / 360), sine_and_cosine(along), sine_and_cosine(node)
    unit = (cn * cu - sn * su * ci, sn * cu + cn * su * ci, su * si)
    by_along = (-cn * su - sn * cu * ci, -sn * su + cn * cu * ci, cu * si)
    by_node = (-sn * cu - cn * su * ci, cn * cu - sn * su * ci, Decimal(0))
    speeds = (2 * PI * (a / ORBIT - n / EARTH) for a, n in zip(by_along, by_node))
    return tuple(whole(RADIUS * c) for c in unit), tuple(whole(RADIUS * 10_000 * v) for v in speeds)


def clock(satellite, seconds):
    """Clock in ps and rate in 10^-16 s/s."""
    rate = satellite * 7919 % 2001 - 1000  # in 10^-14 s/s
    return (satellite * 104_729_113 % 1_400_000_001) - 700_000_000 + rate * seconds // 100, rate * 100


# ---- The files ----


def day():
    """A day of 96 epochs and 32 satellites: some withdrawn for a part of it or all of it, some clocks missing, exponents and flags here and there."""
    satellites = [f"G{k:02}" for k in range(1, 33)]
    rows = [[[day_row(epoch, k)] for k in range(32)] for epoch in range(96)]
    accuracies = [0 if name == "G11" else 2 + k % 4 for k, name in enumerate(satellites)]
    comments = ["MADE UP: NO SATELLITE WAS OBSERVED FOR THIS FILE. THE ORBITS ARE CIRCLES.",
                "G11 IS WITHDRAWN ALL DAY, G04 AND G28 FOR A PART OF IT.",
                "G15 HAS NO CLOCK. G05 MANEUVERS. THE LAST TWO HOURS ARE PREDICTED.", ""]
    return Model("P", datetime.datetime(2024, 2, 29), 900, satellites, accuracies, comments, rows)


def day_row(epoch, k):
    name = k + 1
    withdrawn = name == 11 or (name == 4 and 30 <= epoch < 48) or (name == 28 and epoch >= 80)
    if withdrawn:
        return Row(None, None)
    time = clock(k, 900 * epoch)[0]
    if name == 19 and epoch == 12:
        return Row(None, time)
    if name == 15 or (name == 2 and 5 <= epoch < 10):
        time = None
    exponents = (5 + (k + epoch) % 7, 4 + (3 * k + epoch) % 8, 6 + (5 * k + epoch) % 6, None if time is None else 80 + (k * 11 + epoch) % 50)
    if name == 8:
        exponents = (None, None, None, None)
    if name == 31 and 20 <= epoch < 23:
        exponents = (99, 99, 99, 999)
    flags = ["E" if name == 22 and epoch == 60 else " ", "P" if epoch >= 88 else " ", "M" if name == 5 and 40 <= epoch < 44 else " ",
             "P" if epoch >= 88 else " "]
    return Row(circle(k, 900 * epoch)[0], time, exponents, "".join(flags))


def velocity():
    """Three epochs over a midnight in mode V, the second satellite without a place at the second epoch, the third without a velocity at all."""
    rows = [[velocity_rows(epoch, k) for k in range(3)] for epoch in range(3)]
    comments = ["MADE UP: CIRCLES AGAIN, WITH VELOCITIES", "E11 HAS NO PLACE AT THE SECOND EPOCH", "E12 HAS NO VELOCITY", ""]
    return Model("V", datetime.datetime(2023, 12, 31, 23, 45), 900, ["G01", "E11", "E12"], [5, 6, 0], comments, rows)


def velocity_rows(epoch, k):
    place, speed = circle(k, 900 * epoch)
    time, rate = clock(k, 900 * epoch)
    if (epoch, k) == (1, 1):
        place = None
    first = Row(place, time, (18, 18, 18, 219), "    " if epoch < 2 else " P P", EXAMPLE)
    second = Row(None if k == 2 else speed, None if k == 2 else rate, (14, 99, None, 191) if k == 0 else (None,) * 4, note=EXAMPLE)
    return [first, second]


# the EP and the EV of Example 2 of the SP3-d document
EXAMPLE = Note((55, 55, 55, 222), (1234567, -1234567, 5999999, -30, 21, -1230000))
EXAMPLE_V = Note((22, 22, 22, 111), (1234567,) * 6)

# of each epoch and satellite the record after P and the one after V: full; without the clock; of nothing; too large; correlations alone, at their
# ends; zeros and a deviation of 1000, which is no mark; deviations alone, after a row without a place
NOTES = [
    [(EXAMPLE, EXAMPLE_V), (Note((7, 8, 9, None), (120000, -450000, None, 30, None, None)), None), (Note(), Note())],
    [
        (Note((9999, 9999, 9999, 9999999)), Note((None,) * 4, (9999999, -9999999, None, -1, 1, None))),
        (None, Note((0, 1000, 0, 0), (0, 0, None, 0, None, -7))),
        (Note((1, None, 9998, 9999998)), None),
    ],
]


def correlations():
    """Two epochs in mode V with an EP or EV record after most rows, of every kind; the third satellite has no place at the second epoch."""
    rows = [[correlated_rows(epoch, k) for k in range(3)] for epoch in range(2)]
    comments = ["MADE UP: CIRCLES WITH VELOCITIES AND CORRELATION RECORDS", "G02: NO CLOCK CORRELATIONS. E11: EP AND EV OF WHICH NOTHING IS KNOWN.",
                "SECOND EPOCH: G01 TOO LARGE TO BE SHOWN, G02 NO EP, E11 WITHDRAWN", ""]
    return Model("V", datetime.datetime(2024, 2, 28, 23, 45), 900, ["G01", "G02", "E11"], [5, 6, 0], comments, rows)


def correlated_rows(epoch, k):
    place, speed = circle(k, 900 * epoch)
    time, rate = clock(k, 900 * epoch)
    withdrawn = (epoch, k) == (1, 2)
    first, second = NOTES[epoch][k]
    return [Row(None if withdrawn else place, time, (18, 18, 18, 219), note=first), Row(None if withdrawn else speed, rate, note=second)]


# the clocks and rates of six-nines.sp3 in file order, that is P and V of each satellite in turn: how each is spelt from column 47 on, and its number,
# None for an absent one; ` 999999.` ends its line
SPELT = [
    [((" 999999.000000", None), (" 999999.000000", None)), ((" 999999.      ", None), (" 999999.      ", None)),
     ((" 999999.", None), (" 999999.", None)), (("0999999.123456", None), ("0999999.123456", None))],
    [(("-999999.000000", -999_999_000_000), ("     -0.100000", -100_000)), ((" 999998.999999", 999_998_999_999), (" 999999.999999", None)),
     (("    512.345678", 512_345_678), ("-999999.999999", -999_999_999_999)), ((" 999999.      ", None), ("0999998.000000", 999_998_000_000))],
]


def six_nines():
    """Two epochs in mode V of a centre that writes six nines where it has no clock; the last P row has exponents and flags after them."""
    rows = [[six_nines_rows(epoch, k) for k in range(4)] for epoch in range(2)]
    comments = ["MADE UP: CIRCLES WITH VELOCITIES, BY A CENTRE THAT WRITES SIX NINES", "FIRST EPOCH: NO CLOCK AND NO RATE, SPELT IN FOUR WAYS",
                "SECOND EPOCH: -999999.000000 OF G01 AND 999998.999999 OF G02 ARE CLOCKS", ""]
    return Model("V", datetime.datetime(2024, 6, 30, 23, 45), 900, ["G01", "G02", "E11", "E12"], [5, 5, 6, 0], comments, rows)


def six_nines_rows(epoch, k):
    place, speed = circle(k, 900 * epoch)
    (_, time), (_, rate) = SPELT[epoch][k]
    last = (epoch, k) == (1, 3)
    return [Row(place, time, (18, 18, 18, None) if last else (None,) * 4, " P P" if last else "    "), Row(speed, rate)]


def identifiers(letters, count):
    """So many identifiers, 99 of each letter in turn."""
    return [f"{letter}{number:02}" for letter in letters for number in range(1, 100)][:count]


def combined():
    """One epoch of as many satellites as a file can have: 99 of each of the eight systems that the SP3-d document names, and the other 207 of three
    letters that no system has."""
    names = identifiers("GRECJISLABD", MOST_SATELLITES)
    rows = [[[combined_row(k, name)] for k, name in enumerate(names)]]
    accuracies = [0 if is_withdrawn(k) else 2 + k % 11 for k in range(len(names))]
    comments = ["MADE UP: BROADCAST ORBITS OF ALL SYSTEMS COMBINED. THE ORBITS ARE CIRCLES.",
                "999 SATELLITES, THE MOST THAT A FILE CAN HAVE, IN 59 LINES OF EACH KIND.",
                "EVERY 37TH FROM G11 ON IS WITHDRAWN. EVERY 111TH FROM G06 ON HAS NO PLACE,",
                "EVERY 50TH FROM G21 ON NO CLOCK. A, B AND D, OF NO SYSTEM, ARE PREDICTED."]
    return Model("P", datetime.datetime(2024, 6, 30, 12), 900, names, accuracies, comments, rows, ("BRDC", "WGS84", "BCT", "MADE"))


def is_withdrawn(k):
    return k % 37 == 10


def combined_row(k, name):
    if is_withdrawn(k):
        return Row(None, None)
    place = None if k % 111 == 5 else circle(k, 90 * k)[0]
    time = None if k % 50 == 20 else clock(k, 0)[0]
    exponents = (4 + k % 9, 4 + k % 7, 5 + k % 8, None if time is None else 80 + k % 50)
    predicted = "P" if name[0] in "ABD" else " "
    flags = ("E" if k % 250 == 7 else " ") + predicted + ("M" if k % 200 == 3 else " ") + predicted
    return Row(place, time, exponents, flags)


def station():
    """Eight epochs over a midnight of six satellites, in SP3-c; the longest comment line has its 60 characters. One satellite is withdrawn for a
    part, another has no clock."""
    names = ["G01", "G04", "G07", "G20", "R05", "R24"]
    rows = [[[station_row(epoch, k)] for k in range(len(names))] for epoch in range(8)]
    comments = ["MADE UP: FOR AN OLDER STATION, IN SP3-C. ORBITS: CIRCLES.", "G04 IS WITHDRAWN FROM 00:00 TO 00:30. R24 HAS NO CLOCK.",
                "THE LAST TWO EPOCHS ARE PREDICTED.", ""]
    return Model("P", datetime.datetime(2024, 10, 31, 23, 15), 900, names, [3, 4, 3, 5, 6, 0], comments, rows, version="c")


def station_row(epoch, k):
    if k == 1 and 3 <= epoch < 6:
        return Row(None, None)
    time = None if k == 5 else clock(k, 900 * epoch)[0]
    predicted = "P" if epoch >= 6 else " "
    return Row(circle(k, 900 * epoch)[0], time, (7 + k, 6 + epoch % 3, 8, None if time is None else 90 + k), f" {predicted} {predicted}")


def season():
    """Three small files for one stretch; the second has its lines filled up with blanks."""
    starts = [datetime.datetime(2024, 3, 31, 23, 59, 30), datetime.datetime(2024, 6, 30), datetime.datetime(2024, 9, 30, 12)]
    models = []
    for number, start in enumerate(starts):
        rows = [[[Row(circle(k + number, 30 * epoch)[0], clock(k, 30 * epoch)[0])] for k in range(2 + number)] for epoch in range(2)]
        names = [f"G{k + 1:02}" for k in range(2 + number)]
        comments = [f"MADE UP: FILE {number} OF THREE", "", "", ""]
        models.append(Model("P", start, 30, names, [0] * len(names), comments, rows))
    return models


# ---- Their lines ----


def fixed(number, places, width):
    """A whole number of 10^-places in so many columns."""
    sign = "-" if number < 0 else ""
    units, rest = divmod(abs(number), 10**places)
    return f"{sign}{units}.{rest:0{places}}".rjust(width)


def date_and_time(moment):
    return f"{moment.year:4} {moment.month:2} {moment.day:2} {moment.hour:2} {moment.minute:2} {fixed(moment.second * 10**8, 8, 11)}"


def first_lines(model):
    mjd = model.start.toordinal() - datetime.date(1980, 1, 6).toordinal() + GPS_ZERO
    time = model.start.hour * 3600 + model.start.minute * 60 + model.start.second
    week, days = divmod(mjd - GPS_ZERO, 7)
    fraction = (2 * time * 10**13 + DAY) // (2 * DAY)
    data, coordinates, orbit, agency = model.texts
    return [f"#{model.version}{model.mode}{date_and_time(model.start)} {len(model.rows):7} {data:5} {coordinates:5} {orbit:3} {agency:4}",
            f"## {week:4} {fixed((days * DAY + time) * 10**8, 8, 15)} {fixed(model.interval * 10**8, 8, 14)} {mjd:5} {fixed(fraction, 13, 15)}"]


def slots(symbol, count, words):
    """`+ ` or `++` lines: 17 slots each, at least five of them."""
    lines = max(5, -(-len(words) // 17))
    filled = words + ["  0"] * (17 * lines - len(words))
    return [f"{symbol} {count if k == 0 else '':>3}   " + "".join(filled[17 * k : 17 * k + 17]) for k in range(lines)]


def header_lines(model):
    letters = {name[0] for name in model.satellites}
    file_type = letters.pop() if len(letters) == 1 else "M"
    rest = "cccc cccc cccc cccc ccccc ccccc ccccc ccccc"
    return (first_lines(model) + slots("+ ", len(model.satellites), model.satellites) + slots("++", "", [f"{a:3}" for a in model.accuracies])
            + [f"%c {file_type}  cc GPS ccc {rest}", f"%c cc cc ccc ccc {rest}"]
            + ["%f  1.2500000  1.025000000  0.00000000000  0.000000000000000", "%f  0.0000000  0.000000000  0.00000000000  0.000000000000000"]
            + ["%i    0    0    0    0      0      0      0      0         0"] * 2 + [f"/* {text}".rstrip() for text in model.comments])


def row_line(letter, name, row):
    numbers = list(row.place or (0, 0, 0)) + [ABSENT_CLOCK if row.clock is None else row.clock]
    exponents = ["".rjust(width) if e is None else f"{e:{width}}" for e, width in zip(row.exponents, (2, 2, 2, 3))]
    flags = f"{row.flags[:2]}  {row.flags[2:]}"
    return f"{letter}{name}{''.join(fixed(number, 6, 14) for number in numbers)} {' '.join(exponents)} {flags}".rstrip()


def note_line(letter, note):
    fields = zip([*note.deviations, *note.correlations], (4, 4, 4, 7, 8, 8, 8, 8, 8, 8))
    return f"E{letter}  {' '.join(''.rjust(width) if number is None else f'{number:{width}}' for number, width in fields)}".rstrip()


def file_lines(model):
    lines = header_lines(model)
    for epoch, satellites in enumerate(model.rows):
        lines.append(f"*  {date_and_time(model.instant(epoch))}")
        for name, rows in zip(model.satellites, satellites):
            for letter, row in zip("PV", rows):
                lines.append(row_line(letter, name, row))
                if row.note is not None:
                    lines.append(note_line(letter, row.note))
    return lines + ["EOF"]


def paper_lines():
    """What 01 prints, with the lines that it says are equal to others."""
    zeros, ones = "  0" * 17, "cccc cccc cccc cccc ccccc ccccc ccccc ccccc"
    return (["#dP2013  4  3  0  0  0.00000000       1 ORBIT WGS84 BCT PORT", "## 1734 259200.00000000   900.00000000 56385 0.0000000000000"]
            + ["+    1   G07" + zeros[3:]] + [f"+        {zeros}"] * 4 + [f"++       {zeros}"] * 5
            + [f"%c G  cc GPS ccc {ones}", f"%c cc cc ccc ccc {ones}"]
            + ["%f  1.2500000  1.025000000  0.00000000000  0.000000000000000", "%f  0.0000000  0.000000000  0.00000000000  0.000000000000000"]
            + ["%i    0    0    0    0      0      0      0      0         0"] * 2 + ["/* ONE ROW", "/*", "/*", "/*"]
            + ["*  2013  4  3  0  0  0.00000000", "PG07   5000.000001     -0.500000      0.000000 999999.999999", "EOF"])


def joined(lines):
    return "".join(line + "\n" for line in lines).encode("ascii")


def season_files():
    return [joined([line.ljust(80) for line in file_lines(model)] if k == 1 else file_lines(model)) for k, model in enumerate(season())]


def respelt(line, clock):
    """A row with its clock as it is spelt; where nothing comes after the clock the line ends as the spelling does."""
    return line[:46] + clock + line[60:]


def six_nines_lines():
    """The file as the centre sent it."""
    clocks = iter([clock for epoch in SPELT for rows in epoch for clock, _ in rows])
    return [respelt(line, next(clocks)) if line[0] in "PV" else line for line in file_lines(six_nines())]


def late_lines():
    """The paper's file whose only epoch does not stand at the start."""
    return [line.replace(" 0  0  0.0", " 0 15  0.0") if line.startswith("* ") else line for line in paper_lines()]


def samples():
    return {"paper.sp3": joined(paper_lines()), "late.sp3": joined(late_lines()), "day.sp3": joined(file_lines(day())),
            "velocity.sp3": joined(file_lines(velocity())), "correlations.sp3": joined(file_lines(correlations())),
            "six-nines.sp3": joined(six_nines_lines()), "combined.sp3": joined(file_lines(combined())), "station.sp3": joined(file_lines(station())),
            "season.sp3": b"".join(season_files())}


def main(words):
    if words not in ([], ["check"]):
        sys.exit("usage: make.py [check]")
    for name, made in samples().items():
        path = FOLDER / name
        if not words:
            path.write_bytes(made)
        elif not path.is_file() or path.read_bytes() != made:
            print(f"samples/{name} is not what samples/make.py makes", file=sys.stderr)
            sys.exit(1)


if __name__ == "__main__":
    main(sys.argv[1:])
