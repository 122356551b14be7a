"""What the desk tool must print, from what a file holds. What a file holds is known from samples/make.py, from a rule, or from the independent Rust
implementation (`Oracles`); never from the tool or the library."""
import datetime
import pathlib
import re
import subprocess

ROOT = pathlib.Path(__file__).resolve().parents[2]
MJD_ZERO = datetime.date(1858, 11, 17).toordinal()
SECOND = 10**8
DAY = 86400 * SECOND


def words():
    """The refusals in words, out of the table in include/sp3.h; what is said there of line and column is left out, of 13 the first half, of 3 the
    second, which is said of comment lines in SP3-c alone."""
    header = (ROOT / "include/sp3.h").read_text()
    listed = dict(re.findall(r"^ \* +(\d+)  (.*)$", header, re.M))
    said = {int(number): re.sub(r" \(.*\)$|; column: .*$", "", text) for number, text in listed.items()}
    said[13] = said[13].split(", or ")[1]
    said[3], comment = said[3].split(", or ")
    assert sorted(said) == [*range(14), 17]
    return said, re.sub(" (more than .*)", r" has \1 characters", comment)


WORDS, LONG_COMMENT = words()
# 02, ask 9: "at most 85 satellites, .., exactly four comments, comment lines of at most 60 characters"
BOUNDS_OF_C = "at most 85 satellites, 4 comments, comment lines of 60 characters"
BOTH_READ = "SP3-c and SP3-d are read"
LARGE = "large"


# ---- What is said of a refusal ----


def hint(content, number, line, column):
    """What the bytes that were refused make plain; nothing where they do not."""
    if re.match(rb"\x1f[\x8b\x9d]", content):
        return "compressed: zcat FILE | sp3 check -"
    text = content.split(b"\n")[line - 1]
    older = re.match(rb"#([ab])", text)
    if number == 2 and re.fullmatch(rb"[ -~]*\r", text):
        return "the line ends in CR LF: tr -d '\\r' < FILE | sp3 check -"
    if number == 4 and line == 1:
        return (f"this is SP3-{older[1].decode()}; " if older else "`#c` or `#d` is due; ") + BOTH_READ
    if (number, line, column) == (7, 3, 4) and content.startswith(b"#c"):
        return "a file in SP3-c has 1 to 85 satellites"
    return "another file follows: sp3 divide FILE" if number == 11 and text.startswith(b"#") else ""


def slots_in(lines):
    """The slots of the `+ ` lines as far as they have come: those of the satellites, and those after the last."""
    slots = [f"{line[first : first + 3]:3}" for line in lines if line.startswith("+ ") for first in range(9, 60, 3)]
    n = int(lines[2][3:6])
    return slots[:n], slots[n:]


def satellites_in(lines):
    """The identifiers of the satellites, as far as the `+ ` lines have come."""
    return slots_in(lines)[0]


def opening(lines):
    """How the lines up to the fourth comment begin; how many there are follows from n in the third."""
    slots = max(5, -(-int(lines[2][3:6]) // 17)) if len(lines) > 2 else 1
    return ["#", "##", *["+ "] * slots, *["++"] * slots, "%c", "%c", "%f", "%f", "%i", "%i", *["/*"] * 4]


def due(lines):
    """How the line after these must begin by rules 1 to 10 of 01, and how another that may stand before it; nothing where none may."""
    first = opening(lines)
    if len(lines) < len(first):
        return first[len(lines)], ""
    epochs = [k for k, line in enumerate(lines) if line.startswith("* ")]
    if not epochs:
        return "* ", "" if lines[0].startswith("#c") else "/*"
    rows = [letter + name for name in satellites_in(lines) for letter in ("PV" if lines[0][2] == "V" else "P")]
    passed = sum(line[0] in "PV" for line in lines[epochs[-1] :])
    note = "E" + lines[-1][0] if lines[-1][0] in "PV" else ""
    if passed < len(rows):
        return rows[passed], note
    return "* " if len(epochs) < int(lines[0][32:39]) else "EOF", note


def instant_in(line):
    """The instant in columns 4 to 31, in 10^-8 s since MJD 0."""
    date = datetime.date(int(line[3:7]), int(line[8:10]), int(line[11:13]))
    minutes = 60 * int(line[14:16]) + int(line[17:19])
    return (date.toordinal() - MJD_ZERO) * DAY + minutes * 60 * SECOND + int(line[20:31].replace(".", ""))


def instants(before, line):
    """The instant of an epoch and the one that was due, rule 8 of 01; dates end with 2099."""
    epoch = sum(text.startswith("* ") for text in before)
    at = instant_in(before[0]) + epoch * int(before[1][24:38].replace(".", ""))
    last = (datetime.date(2100, 1, 1).toordinal() - MJD_ZERO) * DAY
    return f"{moment(instant_in(line))} stands here, {moment(at) if at < last else 'an instant past the last date'} is due"


def disagreement(lines):
    """Which of the four causes of 8 it is in the last of these lines."""
    start, slot, repeated, file_type = re.split(", (?:or )?", WORDS[8])
    after = slots_in(lines)[1] if len(lines) > 2 else []
    right = all(text == "  0" for text in after)
    return {"##": start, "+ ": repeated if right else slot, "++": slot, "%c": f"{file_type} with the identifiers"}[lines[-1][:2]]


def cause(content, number, line, column):
    """A refusal of bytes in words; in parentheses what they make plain, or what stands in the line and what was due."""
    plain = hint(content, number, line, column)
    *before, text = content.decode("latin-1").split("\n")[:line]
    if number == 8:
        return disagreement([*before, text])
    if number == 4 and not plain:
        must, may = due(before)
        plain = f"`{must}` is due" + (f", `{may}` may stand before it" if may else "")
    if number == 9:
        plain = instants(before, text)
    if number == 10:
        plain = f"{text[1:4]} stands here, {due(before)[0][1:]} is due"
    return (LONG_COMMENT if (number, column) == (3, 61) else WORDS[number]) + (f" ({plain})" if plain else "")


def shown(content, line, column):
    """The line where the bytes have it, and a caret under the column. 100 columns are shown: the first, or 80 before the one at fault and 19 after
    it; `..` stands for the others, `?` for a byte outside 32 to 126. Both stand four blanks further in than a line of the report."""
    lines = content.split(b"\n")
    if line > len(lines) or (line == len(lines) and not lines[-1]):
        return ""
    text = re.sub("[^ -~]", "?", lines[line - 1].decode("latin-1"))
    first = 0 if column <= 100 else column - 81
    window = (".." if first else "") + text[first : first + 100] + (".." if text[first + 100 :] else "")
    return f"    {window}\n" + (" " * (4 + (column - 1 if not first else 82)) + "^\n" if column else "")


def refused(subject, number, line=0, column=0, content=b""):
    """What is said of a refusal; of bytes that were refused also what it comes from, and the line."""
    at = f"{subject}: refused {number} line {line}{f' column {column}' if column else ''}: "
    return at + (cause(content, number, line, column) + "\n" + shown(content, line, column) if content else WORDS[number] + "\n")


class Held:
    """What an accepted file holds. A row is a tuple: letter, epoch, satellite, place or None, clock or None, exponents and flags as shown, note or
    None. A note is its four deviations and six correlations: whole numbers, None for an unknown one, LARGE for one that is too large. Its version is
    a letter."""

    def __init__(self, version, mode, start8, epochs, interval8, texts, file_type, time, bases, satellites, comments, rows):
        self.version, self.mode, self.start8, self.epochs, self.interval8, self.texts = version, mode, start8, epochs, interval8, texts
        self.file_type, self.time, self.bases = file_type, time, bases
        self.satellites, self.comments, self.rows = satellites, comments, rows


def shown_exponent(exponent, large):
    return "-" if exponent is None else ">" if exponent == large else str(exponent)


def note_of_model(note):
    """The numbers of a record of samples/make.py."""
    return [LARGE if number == large else number for number, large in zip(note.deviations, (9999, 9999, 9999, 9999999))] + list(note.correlations)


def of_model(model, version=None):
    """What a file of samples/make.py holds, in its own version or in this one."""
    start8 = (model.start.toordinal() - MJD_ZERO) * DAY + (model.start.hour * 3600 + model.start.minute * 60 + model.start.second) * SECOND
    letters = {name[0] for name in model.satellites}
    rows = []
    for epoch, satellites in enumerate(model.rows):
        for k, parts in enumerate(satellites):
            for letter, row in zip("PV", parts):
                exponents = [shown_exponent(e, large) for e, large in zip(row.exponents, (99, 99, 99, 999))]
                note = None if row.note is None else note_of_model(row.note)
                rows.append((letter, epoch, k, row.place, row.clock, exponents, row.flags.replace(" ", "."), note))
    file_type = letters.pop() if len(letters) == 1 else "M"
    return Held(version or model.version, model.mode, start8, len(model.rows), model.interval * SECOND, model.texts, file_type, "GPS",
                (12_500_000, 1_025_000_000), list(zip(model.satellites, model.accuracies)), model.comments, rows)


# ---- The texts ----


def fixed(number, places):
    sign = "-" if number < 0 else ""
    units, rest = divmod(abs(number), 10**places)
    return f"{sign}{units}.{rest:0{places}}" if places else f"{sign}{units}"


def moment(instant8):
    days, rest = divmod(instant8, DAY)
    minutes, seconds8 = divmod(rest, 60 * SECOND)
    return f"{datetime.date.fromordinal(days + MJD_ZERO)} {minutes // 60:02}:{minutes % 60:02}:{fixed(seconds8, 8):0>11}"


def has_notes(held):
    return any(row[7] is not None for row in held.rows)


def tally(held, with_notes):
    rows = [row for row in held.rows if row[0] == "P"]
    absent = [sum(row[part] is None for row in rows) for part in (3, 4)]
    noted = [sum(row[0] == letter and row[7] is not None for row in held.rows) for letter in "PV"]
    notes = ", notes EP {} EV {}".format(*noted) if with_notes else ""
    return f"rows known {len(rows) - absent[0]} absent {absent[0]}, clocks known {len(rows) - absent[1]} absent {absent[1]}{notes}\n"


def check(name, held):
    return (f"{name}: accepted, SP3-{held.version}, mode {held.mode}, start {moment(held.start8)}, epochs {held.epochs}, "
            f"interval {fixed(held.interval8, 8)} s, satellites {len(held.satellites)}, time system {held.time}, {tally(held, True)}")


def labelled(label, text):
    return f"{label:13} {text}".rstrip() + "\n"


def heading(held):
    lines = [labelled("mode", held.mode), labelled("start", moment(held.start8)), labelled("epochs", held.epochs)]
    lines.append(labelled("interval", fixed(held.interval8, 8) + " s"))
    lines += [labelled(*pair) for pair in zip(("data used", "coordinates", "orbit type", "agency"), held.texts)]
    lines += [labelled("file type", held.file_type), labelled("time system", held.time)]
    lines += [labelled("place base", fixed(held.bases[0], 7)), labelled("clock base", fixed(held.bases[1], 9))]
    lines.append(labelled("satellites", len(held.satellites)))
    lines += [labelled(f"satellite {k}", f"{name} accuracy exponent {a}") for k, (name, a) in enumerate(held.satellites)]
    lines.append(labelled("comments", len(held.comments)))
    lines += [labelled(f"comment {k}", text) for k, text in enumerate(held.comments)]
    lines.append(labelled("P rows", "x y z in mm, clock in ps"))
    if held.mode == "V":
        lines.append(labelled("V rows", "x y z in mm/s, clock in ps/s"))
    lines.append(labelled("sx sy sz sc", "exponents of the standard deviations of x y z clock; - is unknown, > is too large"))
    lines.append(labelled("flags", "E clock event, P clock predicted, M maneuver, P orbit predicted; . is not set"))
    titles = f"row  epoch date       time              sat{'x':>15}{'y':>15}{'z':>15}{'clock':>15} sx sy sz  sc flags\n"
    if has_notes(held):
        lines += note_units(held.mode)
        titles += f"note epoch date       time              sat{'x-sdev':>15}{'y-sdev':>15}{'z-sdev':>15}{'clock-sdev':>15}"
        titles += "".join(f"{pair:>11}" for pair in ("xy", "xz", "xc", "yz", "yc", "zc")) + "\n"
    return "".join(lines) + titles


def note_units(mode):
    lines = [labelled("EP notes", "of the P row before: x-sdev y-sdev z-sdev in mm, clock-sdev in ps")]
    if mode == "V":
        lines.append(labelled("EV notes", "of the V row before: x-sdev y-sdev z-sdev in mm/s, clock-sdev in ps/s"))
    return lines + [labelled("x-sdev ..", "standard deviations of x y z clock; - is unknown, > is too large"),
                    labelled("xy xz ..", "correlation coefficients, c is the clock; - is unknown")]


def row_line(held, row):
    """The line of a row, and after it the one of its note."""
    letter, epoch, k, place, clock, exponents, flags, note = row
    places = 4 if letter == "V" else 0
    numbers = ["absent"] * 3 if place is None else [fixed(number, places) for number in place]
    numbers.append("absent" if clock is None else fixed(clock, places))
    columns = "".join(f"{number:>15}" for number in numbers) + "".join(f"{e:>3}" for e in exponents[:3]) + f"{exponents[3]:>4}"
    whose = f"{epoch:6} {moment(held.start8 + epoch * held.interval8)} {held.satellites[k][0]}"
    return f"{letter}   {whose}{columns} {flags}\n" + ("" if note is None else f"E{letter}  {whose}{note_columns(note, places)}\n")


def note_columns(note, places):
    shapes = [(15, places)] * 4 + [(11, 7)] * 6
    shown = [{None: "-", LARGE: ">"}.get(number) or fixed(number, digits) for number, (_, digits) in zip(note, shapes)]
    return "".join(f"{text:>{width}}" for text, (width, _) in zip(shown, shapes))


def table(held):
    return heading(held) + "".join(row_line(held, row) for row in held.rows) + tally(held, has_notes(held))


def row(held, epoch, k):
    place, clock = next(r[3:5] for r in held.rows if r[:3] == ("P", epoch, k))
    shown = "absent" if place is None else "{} {} {} mm".format(*place)
    return (f"epoch {epoch} {moment(held.start8 + epoch * held.interval8)}\nsatellite {k} {held.satellites[k][0]}\n"
            f"place {shown}\nclock {'absent' if clock is None else f'{clock} ps'}\n")


def divide(lengths, rest=None):
    """The lines for these files, and the last one where nothing is left."""
    lines = [f"file {k} first byte {sum(lengths[:k])} length {length}\n" for k, length in enumerate(lengths)]
    return "".join(lines) + (f"nothing is left: files {len(lengths)}, bytes {sum(lengths)}\n" if rest is None else "")


# ---- The independent implementation ----


class Oracles:
    """The programs of tests/files.rs, tests/forms.rs and tests/divide.rs, compiled into a folder."""

    def __init__(self, folder):
        self.folder = folder

    def ask(self, name, *words, batch=b""):
        return subprocess.run([self.folder / name, *words], input=batch, stdout=subprocess.PIPE, check=True).stdout

    def cases(self, seed, count):
        """Generated files, right and damaged, each with a comment, an epoch, a satellite and an identifier that are asked for."""
        batch, cases = self.ask("files", "generate", str(seed), str(count)), []
        while batch:
            line, batch = batch.split(b"\n", 1)
            numbers = [int(word) for word in line.split()]
            cases.append((batch[: numbers[0]], numbers[5:]))
            batch = batch[numbers[0] :]
        return cases

    def judged(self, file, asked=(0, 0, 0, 0)):
        """The refusal, its line and its column, what the file holds where there is none, and the answers by their first word."""
        rooms = [1000, 1000, 100_000, 2_000_000]
        batch = " ".join(str(n) for n in [len(file), *rooms, *asked]).encode() + b"\n" + file
        lines = self.ask("files", "answer", batch=batch).decode("latin-1").split("\n")
        answers = {line.split(" ", 1)[0]: line.split(" ") for line in lines[:3] + lines[-8:] if line}
        refusal = tuple(int(word) for word in answers["whole"][1:4])
        return refusal, None if refusal[0] else of_answer(lines), answers

    def form(self, file, version=None):
        """The canonical form of an accepted file in its own version or in this one; 17 where it has none."""
        letter = version.encode()[0] if version else file[1]
        answer = self.ask("forms", "answer", batch=b"2 %d 1000000 %d\n" % (letter, len(file)) + file)
        _, read, write, rest = answer.split(b"\n", 3)
        number, length = (int(word) for word in write.split()[1:])
        assert read.startswith(b"read 0 ") and number in (0, 17), (read, write)
        return number or rest[:length]

    def division(self, stretch):
        """The refusal, its line and its column, the byte where the rest begins, and the lengths."""
        lines = self.ask("divide", "answer", batch=b"1000 0 0 0 %d\n" % len(stretch) + stretch).decode().split("\n")
        *refusal, count, rest = (int(word) for word in lines[1].split()[1:])
        lengths = [int(text.split()[1]) for text in lines[2 : 2 + count]]
        return refusal, rest, lengths


def of_answer(lines):
    """What a file holds, out of an answer of tests/files.rs to a reading that was accepted."""
    at = next(k for k, line in enumerate(lines) if line.startswith("mode "))
    head = dict(line.split(" ", 1) for line in lines[at : at + 9])
    count = int(head["satellites"])
    satellites = [tuple(line.split(" ")) for line in lines[at + 9 : at + 9 + count]]
    at += 9 + count
    comments = [line[1:-1] for line in lines[at + 1 : at + 1 + int(lines[at].split()[1])]]
    at += 1 + len(comments)
    names = {name: k for k, (name, _) in enumerate(satellites)}
    rows = []
    while not lines[at].startswith("rows "):
        rows.append(of_row(lines[at].split(" "), names))
        at += 1
    texts = [head["texts"][first:last] for first, last in ((1, 6), (7, 12), (13, 16), (17, 21))]
    version = next(line for line in lines if line.startswith("whole ")).split("|")[1]
    return Held(version, head["mode"], int(head["start8"]), int(head["epochs"]), int(head["interval8"]), texts, head["type"], head["time"],
                [int(word) for word in head["bases"].split()], satellites, comments, rows)


def of_row(parts, names):
    letter, epoch, name, rest = parts[0], int(parts[1]), parts[2], parts[3:]
    place = None if rest[0] == "absent" else tuple(int(word) for word in rest[:3])
    clock, *others = rest[1:] if place is None else rest[3:]
    exponents = [{"unknown": "-", "large": ">"}.get(word, word) for word in others[:4]]
    return letter, epoch, names[name], place, None if clock == "absent" else int(clock), exponents, others[4], of_note(others[5:])


def of_note(words):
    """The ten numbers after the word `note`; None where there is no word."""
    assert not words or (words[0] == "note" and len(words) == 11), words
    return [{"unknown": None, "large": LARGE}[word] if word.isalpha() else int(word) for word in words[1:]] or None
