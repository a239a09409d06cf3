"""Mutated kernels, leap seconds, observation files and words, by fixed seeds: how runs on them end.

Each run must end within seconds, by no signal, with a status and a line that docs/REFUSALS.md lists, and write nothing
where it is refused. `normal` must write what an independent reader makes of the mutated kernel. A publication that is
accepted must be, to the byte, that of the fitter of cross-checks/ for what was read, and `audit` must say yes to it. A
mutated new kernel to which `audit` says yes must be that publication, whatever its ID and its layout.
"""
import copy
import os
import random
import re
import shutil
import signal
import sys
import tempfile
import time
from collections import Counter
from multiprocessing import Pool
from pathlib import Path

import reading
import texts
from ends import TOP, End
from mutation import mutated, options_changed, words_changed
from publications import publications
from refusals import Documented, is_documented

BATCH = 500  # mutants that one process makes at a time
HANG = 20  # seconds
MOST = 2**26  # bytes that are read of what a run wrote
KINDS = {"k": 42, "o": 42, "n": 6, "l": 6, "words": 4}  # what is mutated, and how often
COMMANDS = ("publish", "residuals", "normal", "convert", "invert", "excerpt", "least", "audit", "plot")
WEIGHTS = {
    "k": (48, 8, 28, 4, 4, 4, 4, 0, 4),
    "o": (66, 24, 0, 0, 0, 0, 10, 0, 10),
    "n": (0, 0, 0, 0, 0, 0, 0, 2, 1),
    "l": (30, 26, 0, 16, 16, 0, 6, 6, 2),
    "words": (34, 16, 8, 11, 11, 10, 5, 5, 5),
}
READINGS = ("1/5", "tick:5", "114189959168", "1/0001742400.32768", "cuc:2e001cfde04000")
RANGES = (["--from=5", "--to=300"], ["--from=256", "--to=4096"], ["--from=0", "--to=124452904960"], ["--from=9", "--to=8"])
TIMES = ("tdt:5", "tdt:759081669.5", "utc:2024-01-22T23:46:40.25", "tdt:-1")


class Bases:
    """What is mutated: kernels with observations that fit them, and options."""

    def __init__(self):
        examples = TOP / "examples"
        read = lambda name: (examples / name).read_bytes()
        self.leap = read("leapseconds.tls")
        small, old = texts.SMALL.encode(), texts.OLD.encode()
        steps = "".join(f"s{n},{256 * n // 256}:{n % 256},tdt:{n}.00{n % 9},{n}\n" for n in range(1, 60))
        self.passes = [
            (read("orbiter.tsc"), read("pass-021.csv"), 99, {}),
            (read("orbiter.tsc"), read("pass-022.csv"), 99, dict(tol_ns=30000, id="2024-01-23/02:00:00")),
            (read("pass-022.published"), read("pass-022.csv"), 99, dict(tol_ns=30000)),
            (read("lander.tsc"), (texts.HEADER + "a,1/0000950400:25000,tdt:191916545.684,0\n").encode(), 98, {}),
            (old, texts.PASS.encode(), 99, {}),
            (small, (texts.HEADER + steps).encode(), 99, dict(tol_ns=5000000, reject=3)),
            (texts.TWO_LIVES.encode(), (texts.HEADER + "a,1/5,tdt:5,0\nb,2/0:0,tdt:4000,0\n").encode(), 99, {}),
        ]
        for case in publications(3, 60):
            _, options = case.asked()
            kernel, seen, sc = options.pop("kernel").encode(), options.pop("obs").encode(), options.pop("sc")
            self.passes.append((kernel, seen, sc, options))
        self.published = {}

    def new(self, kernel, seen, sc, options):
        """What is published of a pass; where it is refused, the line of that."""
        key = kernel, seen
        if key not in self.published:
            read = reading.document(kernel.decode("latin-1"))
            added = reading.block(reading.publication(read, seen.decode("latin-1"), sc, options))
            self.published[key] = (reading.canonical(read) + added).encode("latin-1")
        return self.published[key]


def option_words(options, *without):
    return [f"--{name.replace('_', '-')}={value}" for name, value in options.items() if name not in without]


def without_id(text):
    """A text without the ID of its last block."""
    at = text.rindex("\\begindata\n")
    return text[:at] + re.sub(r"^SCLK_KERNEL_ID = .*\n", "", text[at:], count=1, flags=re.MULTILINE)


class Mutant:
    """The files and the words of one run."""

    def __init__(self, bases, seed, number):
        rng = random.Random(f"{seed} {number}")
        kernel, seen, self.sc, options = rng.choice(bases.passes)
        other = rng.choice(bases.passes)[rng.randrange(2)]
        self.files = {"k": kernel, "o": seen, "l": bases.leap, "n": bases.new(kernel, seen, self.sc, options)}
        self.options = options if rng.random() < 0.03 else options_changed(rng, options)
        self.kind = rng.choices(list(KINDS), KINDS.values())[0]
        if self.kind != "words":
            self.files[self.kind] = mutated(rng, self.files[self.kind], other)
        self.command = rng.choices(COMMANDS, WEIGHTS[self.kind])[0]
        self.words = [self.command, *self.asked(rng)]
        if self.kind == "words":
            self.words = words_changed(rng, self.words)

    def asked(self, rng):
        words = ["--kernel=k"]
        if self.command not in ("normal", "excerpt"):
            words += [f"--sc={self.sc}", "--leap=l"]
        if self.command in ("publish", "residuals", "least", "audit", "plot"):
            words.append("--obs=o")
        if self.command == "publish":
            words += option_words(self.options)
        if self.command == "audit":
            words += ["--new=n", *option_words(self.options, "id")]
        if self.command == "plot":
            words.append("--new=n")
        if self.command == "excerpt":
            words += [f"--sc={self.sc}", *rng.choice(RANGES), *rng.choice([[], ["--over=n"]])]
        if self.command == "convert":
            words.append("--clock=" + rng.choice(READINGS))
        if self.command == "invert":
            words.append("--time=" + rng.choice(TIMES))
        return words

    def judge(self, end, documented):
        """What is wrong with the end of the run, or None."""
        if not is_documented(documented, end):
            return "it ends in a way that is not documented"
        if end.status or self.kind in ("l", "words") or self.command not in ("normal", "publish", "audit"):
            return None
        said = end.out.decode("latin-1")
        wanted = self.wanted()
        if self.command == "audit":
            said, wanted = without_id(reading.canonical(reading.document(self.text("n")))), without_id(wanted)
        return None if said == wanted else "it writes or takes something else than:\n" + wanted[-3000:]

    def wanted(self):
        """The canonical text of the kernel; after it, where that is asked for, the block of its publication."""
        read = reading.document(self.text("k"))
        text = reading.canonical(read)
        if self.command == "normal":
            return text
        return text + reading.block(reading.publication(read, self.text("o"), self.sc, self.options))

    def text(self, name):
        return self.files[name].decode("latin-1")

    def audit(self, published):
        """The audit of what this run published, by the same options."""
        audit = copy.copy(self)
        audit.files = dict(self.files, n=published)
        named = ["--kernel=k", "--obs=o", "--new=n", "--leap=l", f"--sc={self.sc}"]
        audit.words = ["audit", *named, *option_words(self.options, "id")]
        return audit


class Runner:
    """Runs the program in a folder of its own, with as little work for each run as can be."""

    def __init__(self, path):
        self.path, room = path, "/dev/shm" if os.access("/dev/shm", os.W_OK) else None
        self.folder = tempfile.mkdtemp(prefix="mutants-", dir=room)
        self.null = os.open("/dev/null", os.O_RDONLY)
        self.streams = [os.open(f"{self.folder}/{name}", os.O_RDWR | os.O_CREAT) for name in ("out", "notes")]

    def run(self, mutant):
        os.chdir(self.folder)
        for name, data in mutant.files.items():
            with open(name, "wb") as file:
                file.write(data)
        for stream in self.streams:
            os.ftruncate(stream, 0)
            os.lseek(stream, 0, os.SEEK_SET)
        duplicates = [(os.POSIX_SPAWN_DUP2, stream, at) for at, stream in enumerate([self.null, *self.streams])]
        child = os.posix_spawn(self.path, [self.path, *mutant.words], os.environ, file_actions=duplicates)
        signal.signal(signal.SIGALRM, lambda *_: os.kill(child, signal.SIGKILL))
        signal.alarm(HANG)
        _, status = os.waitpid(child, 0)
        hangs = signal.alarm(0) == 0
        out, notes = (os.pread(stream, MOST, 0) for stream in self.streams)
        return End(None if hangs else os.waitstatus_to_exitcode(status), out, notes, mutant.words)

    def close(self):
        os.chdir("/")
        for stream in [self.null, *self.streams]:
            os.close(stream)
        shutil.rmtree(self.folder)


def kept(mutant, number, end, what):
    """Keeps the files of a run, and tells of it."""
    folder = Path(tempfile.mkdtemp(prefix=f"mutant-{number}-"))
    for name, data in mutant.files.items():
        (folder / name).write_bytes(data)
    (folder / "answer").write_bytes(end.out + end.notes)
    return f"mutant {number}: {end.told()}; {what}\n    in {folder}: station {' '.join(mutant.words)}"


def batch(asked):
    """Runs the mutants of some numbers; answers how often each command ended with each status, and what failed."""
    path, seed, numbers = asked
    bases, documented, runner = Bases(), Documented(), Runner(path)
    ends, failures = Counter(), []
    for number in numbers:
        mutant = Mutant(bases, seed, number)
        end = runner.run(mutant)
        try:
            what = mutant.judge(end, documented)
            if not what and mutant.command == "publish" and end.status == 0 and mutant.kind != "words":
                audit = mutant.audit(end.out)
                verdict = runner.run(audit)
                ends[audit.words[0], verdict.status] += 1
                what = None if verdict.out == b"yes\n" else f"its audit ends otherwise: {verdict.told()}"
        except (ArithmeticError, AssertionError, AttributeError, LookupError, TypeError, ValueError) as fault:
            what = f"what it took cannot be read: {fault!r}"
        if what:
            failures.append(kept(mutant, number, end, what))
        ends[mutant.command, end.status] += 1
    runner.close()
    return ends, failures


def check(program, seed, count, first=0):
    """Runs mutants, and prints how they ended; whether all went well."""
    starts = range(first, first + count, BATCH)
    asked = [(program.path, seed, range(at, min(at + BATCH, first + count))) for at in starts]
    ends, failed, begun = Counter(), 0, time.monotonic()
    with Pool(os.cpu_count()) as pool:
        for number, (said, failures) in enumerate(pool.imap_unordered(batch, asked), 1):
            ends, failed = ends + said, failed + len(failures)
            for failure in failures:
                print("FAILED:", failure, flush=True)
            if number % 100 == 0:
                print(f"mutants: {number * BATCH} of {count}, {time.monotonic() - begun:.0f} s", file=sys.stderr)
    statuses = Counter()
    for (_, status), times in ends.items():
        statuses[str(status)] += times
    told = ", ".join(f"{times} with {status}" for status, times in sorted(statuses.items()))
    print(f"mutants: {count} of seed {seed} and their audits ended, {told}")
    compared = f"{ends['publish', 0]} publications and {ends['normal', 0]} canonical texts compared, {ends['audit', 0]} audited"
    print(f"mutants: {compared}, {failed} failed, {time.monotonic() - begun:.1f} s", flush=True)
    return failed == 0
