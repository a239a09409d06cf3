"""Runs of the built program, how each of them ends, and what is said of those that end otherwise than is wanted."""
import os
import resource
import signal
import subprocess
import sys
import tempfile
from dataclasses import dataclass
from pathlib import Path

TOP = Path(__file__).resolve().parents[2]
sys.path.insert(0, str(TOP / "cross-checks"))

SECONDS = 120  # a run that takes longer hangs
MIB = 2**20


@dataclass
class End:
    """How a run ended: its status (below 0 the signal, None where it hung), and the bytes that it wrote."""

    status: int
    out: bytes
    notes: bytes
    words: list

    @property
    def line(self):
        """The first line on standard error."""
        return self.notes.partition(b"\n")[0].decode("latin-1")

    def told(self):
        if self.status is None:
            return f"no end within {SECONDS} s"
        ending = signal.Signals(-self.status).name if self.status < 0 else f"status {self.status}"
        return f"{ending}, {len(self.out)} bytes written, and said {self.line!r}"


class Program:
    def __init__(self, path):
        self.path = os.path.abspath(path)

    def run(self, words, folder=None, limits=(), before=None, under=(), **streams):
        """One run in a folder, alone or under the words of another program.

        Limits are pairs of a resource and its bytes; `before` is called in the new process.
        """

        def prepare():
            for what, limit in limits:
                resource.setrlimit(what, (limit, limit))
            if before:
                before()

        said = dict(stdin=subprocess.DEVNULL, stdout=subprocess.PIPE, stderr=subprocess.PIPE) | streams
        prepared = prepare if limits or before else None
        process = subprocess.Popen([*under, self.path, *words], cwd=folder, preexec_fn=prepared, **said)
        try:
            out, notes = process.communicate(timeout=SECONDS)
            return End(process.returncode, out or b"", notes or b"", words)
        except subprocess.TimeoutExpired:
            process.kill()
            out, notes = process.communicate()
            return End(None, out or b"", notes or b"", words)


class Report:
    """Counts what passed, and prints what failed, what was left out, and at the end the counts."""

    def __init__(self, name, program):
        self.name, self.program = name, program
        self.passed, self.failed, self.left_out = 0, 0, 0
        self.room = tempfile.TemporaryDirectory(prefix="hostile-")
        self.folder = Path(self.room.name)

    def write(self, **files):
        """Writes files of the folder in which the runs are."""
        for name, data in files.items():
            (self.folder / name).write_bytes(data.encode("latin-1") if isinstance(data, str) else data)

    def run(self, words, **how):
        return self.program.run(words.split() if isinstance(words, str) else words, folder=self.folder, **how)

    def check(self, what, holds, end):
        if holds:
            self.passed += 1
        else:
            self.failed += 1
            words = " ".join(end.words)[:300]
            print(f"FAILED: {what}\n    {self.name}: station {words}\n    {end.told()}", flush=True)
        return holds

    def is_refused(self, what, end, line, written=b""):
        """The line with its status, and nothing written, or only what is said."""
        status = int(line.split(";")[1])
        return self.check(f"{what}: {line}", (end.status, end.line, end.out) == (status, line, written), end)

    def is_done(self, what, end, out):
        """Status 0 with this output, and nothing on standard error."""
        return self.check(f"{what}: done", (end.status, end.out, end.notes) == (0, out, b""), end)

    def leave_out(self, what, why):
        self.left_out += 1
        print(f"left out: {what}: {why}")

    def close(self):
        self.room.cleanup()
        return self.failed == 0
