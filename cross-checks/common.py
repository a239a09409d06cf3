"""What the checks share: exact decimals, clocks, kernel texts, observation files, and calls of the program.

Times are exact: fractions of seconds past J2000, terrestrial dynamical time, or whole picoseconds where a name says so.
"""
import os
import subprocess
import sys
import tempfile
import time
from concurrent.futures import ThreadPoolExecutor
from dataclasses import dataclass
from fractions import Fraction
from pathlib import Path

HERE = Path(__file__).resolve().parent
LEAP_SECONDS = HERE.parent / "examples" / "leapseconds.tls"
PICO = 10**12  # picoseconds of a second
DELIMITERS = ".:-, "  # of the codes 1 to 5
FILES = ("kernel", "obs", "leap", "new")  # the options whose value is a file


class Difference(Exception):
    """The program and a check do not agree."""


def decimal(value):
    """The plain decimals of a fraction that has finitely many, without zeros at the end."""
    value = Fraction(value)
    places = next(s for s in range(60) if 10**s % value.denominator == 0)
    units = abs(value.numerator) * 10**places // value.denominator
    whole, part = divmod(units, 10**places)
    return ("-" if value < 0 else "") + (f"{whole}.{part:0{places}}" if places else f"{whole}")


def seconds(picoseconds):
    """Seconds with twelve decimals."""
    whole, part = divmod(abs(picoseconds), PICO)
    return f"{'-' if picoseconds < 0 else ''}{whole}.{part:012}"


@dataclass
class Clock:
    """A clock of type 1: moduli and offsets of its fields, the code of its delimiter, and its partitions (start, end)."""

    number: int
    moduli: list
    offsets: list
    delimiter: int
    partitions: list

    @property
    def per_count(self):
        """Ticks of a most significant count."""
        product = 1
        for modulus in self.moduli[1:]:
            product *= modulus
        return product

    @property
    def total(self):
        return sum(end - start for start, end in self.partitions)

    def place(self, tick):
        """The number of the partition of an encoded tick, and the clock's own count there."""
        number, passed = 1, 0
        for start, end in self.partitions[:-1]:
            if tick < passed + end - start:
                break
            number, passed = number + 1, passed + end - start
        return number, tick - passed + self.partitions[number - 1][0]

    def partition(self, tick):
        return self.place(tick)[0]

    def text(self, tick):
        """The padded clock string of an encoded tick."""
        number, count = self.place(tick)
        fields = []
        for modulus, offset in reversed(list(zip(self.moduli[1:], self.offsets[1:]))):
            count, digit = divmod(count, modulus)
            fields.insert(0, digit + offset)
        fields.insert(0, count + self.offsets[0])
        widths = [len(str(m + o - 1)) for m, o in zip(self.moduli, self.offsets)]
        return f"{number}/" + DELIMITERS[self.delimiter - 1].join(f"{f:0{w}}" for f, w in zip(fields, widths))


def item(name, sign, values):
    """One variable in the canonical layout: a single value on its line, others three a line."""
    if len(values) == 1:
        return f"{name} {sign} {values[0]}\n"
    rows = (" ".join(values[i : i + 3]) for i in range(0, len(values), 3))
    return f"{name} {sign} (\n" + "".join(row + "\n" for row in rows) + ")\n"


def coefficients(clock, sign, triples):
    values = [decimal(number) for triple in triples for number in triple]
    return item(f"SCLK01_COEFFICIENTS_{clock.number}", sign, values)


def kernel_text(clock, triples):
    """A clock kernel in the canonical layout. A triple is ticks, time, and seconds per most significant count."""
    n, starts, ends = clock.number, *zip(*clock.partitions)
    items = [
        ("SCLK_KERNEL_ID", ["@2024-01-01"]),
        (f"SCLK_DATA_TYPE_{n}", [1]),
        (f"SCLK01_TIME_SYSTEM_{n}", [2]),
        (f"SCLK01_N_FIELDS_{n}", [len(clock.moduli)]),
        (f"SCLK01_MODULI_{n}", clock.moduli),
        (f"SCLK01_OFFSETS_{n}", clock.offsets),
        (f"SCLK01_OUTPUT_DELIM_{n}", [clock.delimiter]),
        (f"SCLK_PARTITION_START_{n}", starts),
        (f"SCLK_PARTITION_END_{n}", ends),
    ]
    data = "".join(item(name, "=", [str(value) for value in values]) for name, values in items)
    return "KPL/SCLK\n\\begindata\n" + data + coefficients(clock, "=", triples) + "\\begintext\n"


def observation_text(records):
    """An observation file of records (id, clock word, time word, delay in nanoseconds)."""
    return "id,clock,time,delay\n" + "".join(",".join(map(str, record)) + "\n" for record in records)


def table(text):
    """The rows of a residual table, each a list of its eight fields; the table may stand at the end of a kernel."""
    lines = text.split("\n")
    at = max(n for n, line in enumerate(lines) if line.startswith("residuals;"))
    return [line.split(";") for line in lines[at + 1 : -1]]


@dataclass
class Answer:
    status: int
    out: str
    note: str  # the first line of standard error
    told: str  # what stands after it
    words: list
    options: dict

    def done(self):
        """The answer itself, where the program did what was asked."""
        if self.status:
            self.differs("is refused: " + self.note)
        return self

    def differs(self, what):
        """Ends the check, and keeps the files of this call."""
        folder = Path(tempfile.mkdtemp(prefix="cross-check-"))
        write_files(folder, self.options)
        (folder / "answer").write_text(self.out + self.note)
        raise Difference(f"{what}\n  in {folder}: station {' '.join(self.words)}")


def write_files(folder, options):
    """Writes the files that are given as text, and answers the words of all options."""
    words = []
    for name, value in options.items():
        if name in FILES and isinstance(value, str):
            (folder / name).write_text(value, newline="")
            value = name
        words.append(f"--{name.replace('_', '-')}={value}")
    return words


class Program:
    def __init__(self, path):
        self.path = os.path.abspath(path)

    def call(self, command, **options):
        """One call. A file is given as its text, or as its path."""
        with tempfile.TemporaryDirectory() as folder:
            words = [command] + write_files(Path(folder), options)
            ran = subprocess.run([self.path] + words, cwd=folder, stdin=subprocess.DEVNULL, capture_output=True)
        note, _, told = ran.stderr.decode("latin-1").partition("\n")
        return Answer(ran.returncode, ran.stdout.decode("latin-1"), note, told, words, options)

    def calls(self, asked):
        """Many calls of (command, options) at once, answered in order."""
        with ThreadPoolExecutor(os.cpu_count()) as pool:
            return list(pool.map(lambda one: self.call(one[0], **one[1]), asked))


def built():
    """The station beside this folder. ./station looks for newer sources in each call, so it is called once, and may build."""
    words = [HERE.parent / "station", "normal", f"--kernel={HERE.parent / 'examples' / 'orbiter.tsc'}"]
    if subprocess.run(words, stdin=subprocess.DEVNULL, stdout=subprocess.DEVNULL).returncode != 0:
        sys.exit("the station does not run")
    return HERE.parent / "crates" / "station" / "out" / "station"


def main(check):
    """Runs a check against the program that is named, or against the station, and prints its counts."""
    name = Path(sys.argv[0]).stem
    begun = time.monotonic()
    try:
        counts = check(Program(sys.argv[1] if len(sys.argv) > 1 else built()))
    except Difference as difference:
        sys.exit(f"{name}: {difference}")
    print(f"{name}: {counts}, {time.monotonic() - begun:.1f} s")
