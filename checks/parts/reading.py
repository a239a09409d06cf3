"""Reads the files of an accepted publication apart from the program, for the fitter of cross-checks/.

Kernels by NAIF's Kernel Required Reading, observations as docs/FILES.md describes them. What has to be refused is not
looked for, as only files that were taken come here. Bytes are letters of Latin-1.
"""
import csv
import io
import re
from dataclasses import dataclass, field
from datetime import date
from fractions import Fraction
from math import floor

from ends import TOP  # first: it names the folder of the next ones
from codes import cds_time, cuc, cuc_time
from common import PICO, Clock, coefficients, decimal, kernel_text
from fitter import published
from leap import tdt
from publications import Observation, Publication, Settings

__all__ = ["Document", "block", "canonical", "document", "publication"]
FIRST_WORD = re.compile(r"[ \t]*([^\s(),=']+)[ \t]*(=?)")
VALUE = re.compile(r"'(?:[^']|'')*'|[(),]|[^\s,()']+")
NUMBER = re.compile(r"([+-]?)(\d*)\.?(\d*)(?:[EeDd]([+-]?\d+))?")
DATE = re.compile(
    r"@(\d{4})-(\d\d)-(\d\d)|@(\d{4})-([A-Za-z]{3})-(\d\d?)|@(\d\d?)-([A-Za-z]{3})-(\d{4})|@(\d{4})-(\d{3})"
)
MONTHS = "JAN FEB MAR APR MAY JUN JUL AUG SEP OCT NOV DEC".split()
J2000 = date(2000, 1, 1)


@dataclass
class Document:
    """The text lines before the first block; and the blocks, each with items (name, sign, values) and text lines."""

    head: list = field(default_factory=list)
    blocks: list = field(default_factory=list)


def number(word):
    """A number of a kernel, exactly."""
    sign, whole, part, exponent = NUMBER.fullmatch(word).groups()
    digits = int(whole + part)
    if not digits:
        return Fraction(0)
    value = Fraction(digits, 10 ** len(part)) * Fraction(10) ** int(exponent or 0)
    return -value if sign == "-" else value


def value(word):
    return word if word[0] in "@'" else number(word)


class Data:
    """The items of data lines, from one line to the next."""

    def __init__(self):
        self.items, self.due = [], None  # what the last item waits for: a value or `(`, or the `)` of its vector

    def take(self, line):
        at = 0
        if not self.due:
            found = FIRST_WORD.match(line)
            if not found:
                return  # white space alone
            name, at = found[1], found.end()
            if found[2] and name.endswith("+") and line[found.end(1)] == "=":
                self.items.append((name[:-1], "+=", []))
            elif found[2]:
                self.items.append((name, "=", []))
            else:  # a blank before `+=`
                at = line.index("+=", found.end(1)) + 2
                self.items.append((name, "+=", []))
            self.due = "value"
        for word in VALUE.findall(line[at:]):
            if word == "(":
                self.due = ")"
            elif word == ")":
                self.due = None
            elif word != ",":
                self.items[-1][2].append(value(word))
                self.due = None if self.due == "value" else self.due


def document(text):
    read, data, within = Document(), None, False
    lines = text.split("\n")
    for line in lines[:-1] if not lines[-1] else lines:
        line = line.rstrip("\r")
        marker = line.strip(" \t")
        if marker == "\\begindata" and not within:
            data, within = Data(), True
            read.blocks.append((data.items, []))
        elif marker in ("\\begindata", "\\begintext"):
            within = marker == "\\begindata"
        elif within:
            data.take(line)
        else:
            (read.blocks[-1][1] if read.blocks else read.head).append(line)
    return read


def spelled(one):
    return one if isinstance(one, str) else decimal(one)


def item_text(name, sign, values):
    words = [spelled(one) for one in values]
    if len(words) == 1 and len(f"{name} {sign} {words[0]}") <= 132:
        return f"{name} {sign} {words[0]}\n"
    width = 1 if any(isinstance(one, str) for one in values) else 3
    rows = [" ".join(words[at : at + width]) + "\n" for at in range(0, len(words), width)]
    return f"{name} {sign} (\n{''.join(rows)})\n"


def canonical(read):
    """The canonical text of a document."""
    parts = [line + "\n" for line in read.head]
    for items, lines in read.blocks:
        parts += ["\\begindata\n", *(item_text(*one) for one in items), "\\begintext\n"]
        parts += [line + "\n" for line in lines]
    return "".join(parts)


def calendar(word):
    """The seconds past J2000 of a calendar time, in days of 86,400 s."""
    ymd = DATE.match(word)
    year, month, day, *_ = [part for part in ymd.groups() if part] + [None]
    if day and len(day) == 4:
        year, day = day, year
    if day is None:
        days = (date(int(year), 1, 1) - J2000).days + int(month) - 1
    else:
        month = int(month) if month.isdigit() else MONTHS.index(month.upper()) + 1
        days = (date(int(year), month, int(day)) - J2000).days
    clock = re.fullmatch(r"(?:[-/Tt:](\d\d):(\d\d)(?::(\d\d(?:\.\d+)?))?)?", word[ymd.end() :])
    hours, minutes, left = (Fraction(part or 0) for part in clock.groups())
    return days * 86400 - 43200 + hours * 3600 + minutes * 60 + left


def pool(read):
    variables = {}
    for items, _ in read.blocks:
        for name, sign, values in items:
            variables[name] = values if sign == "=" else variables.get(name, []) + values
    return variables


def clock_of(variables, sc):
    """The clock, and its triples."""
    whole = lambda name: [int(one) for one in variables[f"{name}_{sc}"]]
    partitions = list(zip(whole("SCLK_PARTITION_START"), whole("SCLK_PARTITION_END")))
    clock = Clock(sc, whole("SCLK01_MODULI"), whole("SCLK01_OFFSETS"), whole("SCLK01_OUTPUT_DELIM")[0], partitions)
    values = variables[f"SCLK01_COEFFICIENTS_{sc}"]
    triples = [(int(values[at]), values[at + 1], values[at + 2]) for at in range(0, len(values), 3)]
    return clock, [(ticks, calendar(time) if isinstance(time, str) else time, rate) for ticks, time, rate in triples]


def encoded(clock, part, count):
    """The encoded tick of a count of a partition, or of the first one that has it."""
    passed = 0
    for place, (start, end) in enumerate(clock.partitions, 1):
        if (part is None or part == place) and start <= count <= end:
            return passed + count - start
        passed += end - start
    raise ValueError("no partition has it")


def tick_of(clock, word):
    if word.startswith("tick:"):
        return int(word[5:])
    part, slash, rest = word.rpartition("/")
    if word.startswith("cuc:"):
        part, _, rest = word[4:].rpartition("/")
        return encoded(clock, int(part) if part else None, cuc(bytes.fromhex(rest))[1])
    fields = [int(digits) for digits in re.findall(r"\d+", rest)]
    count, weight = 0, 1
    fields += clock.offsets[len(fields) :]
    for modulus, offset, digits in reversed(list(zip(clock.moduli, clock.offsets, fields))):
        count, weight = count + (digits - offset) * weight, weight * modulus
    return encoded(clock, int(part) if slash else None, count)


def time_of(word):
    """Picoseconds past J2000."""
    kind, _, rest = word.partition(":")
    if kind == "tdt":
        return int(number(rest) * PICO)
    if kind != "utc":
        return {"cuc": cuc_time, "cds": cds_time}[kind](bytes.fromhex(rest))
    day, clock = rest.split("T")
    parts = [int(part) for part in day.split("-")]
    day = date(*parts) if len(parts) == 3 else date.fromordinal(date(parts[0], 1, 1).toordinal() + parts[1] - 1)
    hours, minutes, left = clock.rstrip("Z").split(":")
    seconds = int(hours) * 3600 + int(minutes) * 60 + int(left[:2])
    return tdt(day, seconds) + floor(Fraction("0" + left[2:]) * PICO if left[2:] else 0)


def observations(clock, text):
    rows = [row for row in csv.reader(io.StringIO(text.removeprefix("\xef\xbb\xbf"), newline="")) if row]
    read = []
    for record, (name, reading, time, delay) in enumerate(rows[1:], 2):
        read.append(Observation(name, tick_of(clock, reading), time_of(time) - int(delay) * 1000, record))
    return read


def publication(read, text, sc, options):
    """What is published: the clock and the triples of a document, the observations of a text, and the settings."""
    clock, old = clock_of(pool(read), sc)
    return Publication(clock, old, Settings(**options), observations(clock, text))


def block(asked):
    """The block that has to be written behind the canonical text of the old kernel; or the line of the refusal."""
    text, fit = published(asked)
    return text.removeprefix(kernel_text(asked.clock, asked.old)) if fit else text
