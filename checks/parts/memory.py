"""Runs with little memory, and how much of it the commands take for the largest files."""
import resource
import subprocess
import sys
from itertools import product
from string import ascii_letters, digits

import texts
from ends import MIB
from faults import COMMANDS
from sizes import filled, kernel_of, partitioned, records
from texts import HEADER, LIMIT, PARTITIONS, RECORDS, SMALL, TRIPLES

LEAST, FIRST = 2 * MIB, 4 * MIB  # bytes of address space of the first run, on small files and on large ones
STEP = 16 * 1024
MOST = 4096 * MIB
NOT_LOADED = 127
STACK = 256 * 1024  # bytes, a thirtieth of what is usual
FLOOR = 10_000_000  # bytes
PROSE = "A comment line of a kernel, of a usual length, with nothing special in it at all.\n"
MEASURE = """
import os, resource, sys
status = os.waitpid(os.posix_spawn(sys.argv[1], sys.argv[1:], os.environ), 0)[1]
used = resource.getrusage(resource.RUSAGE_CHILDREN).ru_maxrss
print(os.waitstatus_to_exitcode(status), used, file=sys.stderr)
"""


def walk():
    """Observations of a clock that wanders so that some thousand new triples are needed."""
    state, off, rows = 1, 0, []
    for number in range(1, RECORDS + 1):
        state = (state * 1664525 + 1013904223) % 2**32
        off += state % 200001 - 100000
        whole, part = divmod(100 * number * 10**9 + off, 10**9)
        rows.append(f"s{number},tick:{25600 * number},tdt:{whole}.{part:09d},0\n")
    return HEADER + "".join(rows)


def variables(size):
    """As many variables as have room, with the shortest names."""
    lines, length = [], 0
    for width in range(1, 5):
        for letters in product(ascii_letters + digits, repeat=width):
            lines.append("".join(letters) + "=1\n")
            length += width + 3
            if length > size:
                return "".join(lines[:-1])


def largest():
    """The kernels and the observations that take most, by name."""
    data = SMALL.removesuffix("\\begintext\n")
    room = LIMIT - len(data) - 20
    triple = "    2.2118400000000E+07    8.6400000100000E+04    1.0000000010000E+00\n"
    vector = lambda line: data + "X = (\n" + line * ((room - 10) // len(line)) + ")\n\\begintext\n"
    many = [f"{256 * k} {k} 1" for k in range(TRIPLES)]
    return {
        "prose": filled(SMALL, PROSE, LIMIT),
        "lines `x`": filled(SMALL, "x\n", LIMIT),
        "triples of another variable": vector(triple),
        "a vector of `1`": vector("1 1 1\n"),
        "a vector of texts": vector("'' ''\n"),
        "variables": data + variables(room) + "\\begintext\n",
        "items of one variable": data + "A+=1\n" * (room // 5) + "\\begintext\n",
        "50,000 triples": kernel_of(many),
        "9,999 partitions": partitioned(PARTITIONS, 100_000_000),
        "small": SMALL,
    }


def greatest_memory(program, words, folder):
    """The status, and the greatest resident memory of a run in bytes; below FLOOR it is the measuring process's own."""
    measured_by = [sys.executable, "-I", "-S", "-c", MEASURE]
    streams = dict(stdout=subprocess.DEVNULL, stderr=subprocess.PIPE, text=True)
    ran = subprocess.run([*measured_by, program.path, *words], cwd=folder, **streams)
    status, kilobytes = ran.stderr.split()[-2:]
    return int(status), int(kilobytes) * 1024


def measured(report):
    """Prints a table in Markdown: each command on the largest files."""
    kernels = largest()
    seen = {
        "100,000 records": records(RECORDS),
        "100,000 records, many new triples": walk(),
        "empty lines": filled(HEADER, "\n", LIMIT),
        "a record of 16 million fields": HEADER + "," * (LIMIT - len(HEADER)),
        "the header": HEADER,
    }
    print("| Command | Kernel | Observations | Files, MB | Status | Greatest resident memory, MB | Times the files |")
    print("|---|---|---|---|---|---|---|")
    for kernel, text in kernels.items():
        report.write(k=text)
        for words in ("normal --kernel=k", "convert --kernel=k --sc=99 --clock=1/5"):
            row(report, words, (kernel, ""), len(text))
        report.write(o=HEADER)
        for command in ("residuals", "publish"):
            row(report, f"{command} --kernel=k --obs=o --sc=99", (kernel, "the header"), len(text))
    report.write(k=SMALL)
    for name, text in seen.items():
        report.write(o=text)
        for command in ("residuals", "publish"):
            row(report, f"{command} --kernel=k --obs=o --sc=99", ("small", name), len(SMALL) + len(text))


def row(report, words, files, size):
    status, memory = greatest_memory(report.program, words.split(), report.folder)
    told = (f"{memory / 1e6:.0f}", f"{memory / size:.1f}") if memory > FLOOR else ("below 10", "")
    figures = f"{size / 1e6:.1f}", status, *told
    print("|", " | ".join(map(str, (f"`{words.split()[0]}`", *files, *figures))), "|", flush=True)


def in_steps(first, step):
    """Sizes from the first one on, each greater by what `step` says of it."""
    while first < MOST:
        yield first
        first += step(first)


def spaces(report, name, words, sizes):
    """Runs in address spaces of these sizes until one is done. Each before ends with 9 and nothing written.

    In the least ones the host cannot load the program, and ends it with a status of its own.
    """
    wanted, begun = report.run(words).out, False
    for size in sizes:
        end = report.run(words, limits=[(resource.RLIMIT_AS, size)])
        if end.status == 0:
            return report.is_done(f"{name} in {size} bytes", end, wanted)
        begun = begun or end.status != NOT_LOADED
        if begun and not report.is_refused(f"{name} in {size} bytes", end, "refused;9;Memory"):
            return False
    return report.check(f"{name} is done in the end", False, end)


def little_stack(report):
    for name, (words, _) in COMMANDS.items():
        end = report.run(words, limits=[(resource.RLIMIT_STACK, STACK)])
        report.is_done(f"{name} with a stack of {STACK} bytes", end, report.run(words).out)


def check(report):
    """Small steps on small files, greater ones on many records, and twice as much each time for many variables."""
    report.write(**texts.FILES)
    for name, (words, _) in COMMANDS.items():
        spaces(report, name, words, in_steps(LEAST, lambda size: STEP))
    little_stack(report)
    report.write(k=SMALL, o=walk())
    for command in ("publish", "residuals"):
        words = f"{command} --kernel=k --obs=o --sc=99"
        spaces(report, f"{command} of {RECORDS} records", words, in_steps(FIRST, lambda size: size // 8))
    report.write(k=largest()["variables"])
    for words in ("normal --kernel=k", "convert --kernel=k --sc=99 --clock=1/5"):
        spaces(report, f"{words.split()[0]} of the most variables", words, in_steps(FIRST, lambda size: size))
