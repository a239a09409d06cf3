"""Faults and cuts at every place of a run: how far it comes, and what it says.

A host's file cannot be made to fail at its third read, nor a stream to take ten bytes a time. What is nearest is done:
files that fail when they are opened or read, a limit on the size of what is written (both in faults.py), and, where
strace is, calls of the host that are made to fail one after the other.
"""
import shutil

import texts
from texts import HEADER, SMALL


def cut_kernels(report):
    """The first bytes of a kernel, for each number of them. Its last line may be missing, or lack its line feed."""
    report.write(o=HEADER)
    length = len(SMALL)
    whole = (length, length - 1, length - 11, length - 12)
    for count in range(length + 1):
        report.write(k=SMALL[:count])
        end = report.run("residuals --kernel=k --obs=o --sc=99")
        if count in whole:
            report.is_done(f"the first {count} bytes of a kernel", end, b"residuals;0\n")
        elif length - 10 <= count <= length - 2:
            report.is_refused(f"the first {count} bytes of a kernel", end, "refused;4;Grammar;19;NoAssign")
        else:
            report.check(f"the first {count} bytes of a kernel: 4", end.status == 4 and not end.out, end)


def cut_observations(report):
    """A record may lack its line feed; any other cut leaves a header or a record that is none, or a shorter delay."""
    report.write(**texts.FILES)
    rows = texts.PUBLISHED.count(b"\nd")
    for count in range(len(texts.PASS) + 1):
        report.write(o=texts.PASS[:count])
        end = report.run("residuals --leap=l --kernel=k --obs=o --sc=99")
        told = f"the first {count} bytes of observations"
        if count in (len(texts.PASS), len(texts.PASS) - 1):
            report.check(f"{told}: done", end.status == 0 and end.out.count(b"\n") == rows + 1, end)
        elif count < len(HEADER) - 1:
            report.is_refused(told, end, "refused;5;Header")
        else:
            report.check(f"{told}: 0 or 5", end.status == 0 or end.status == 5 and not end.out, end)


def cut_leap_seconds(report):
    report.write(**texts.FILES)
    for count in range(0, len(texts.LEAP), 7):
        report.write(l=texts.LEAP[:count])
        end = report.run("convert --leap=l --kernel=k --sc=99 --clock=1/5")
        holds = end.status == 0 or end.status == 3 and not end.out
        report.check(f"the first {count} bytes of leap seconds: 0 or 3", holds, end)


def failing_calls(report):
    """The calls by which files are opened and read fail: 7, with the file that it is about, and nothing written."""
    report.write(**texts.FILES)
    words = "publish --leap={0}/l --kernel={0}/k --obs={0}/o --sc=99".format(report.folder)
    for call, fault in (("openat", "EMFILE"), ("openat", "EIO"), ("read", "EIO"), ("read", "EISDIR")):
        for name, kind in {"l": "Leap", "k": "Kernel", "o": "Observations"}.items():
            end = report.run(words, under=traced(report.folder / name, call, fault, "1"))
            report.is_refused(f"{call} of {name} fails with {fault}", end, f"refused;7;{kind}")
    for number in (2, 3):
        report.write(k=SMALL + "x\n" * 300_000)
        end = report.run("normal --kernel=k", under=traced(report.folder / "k", "read", "EIO", number))
        report.is_refused(f"read {number} of a kernel fails", end, "refused;7;Kernel")


def failing_writes(report):
    """The calls by which the answer is written fail in turn: 8, and what was written is its beginning."""
    report.write(k=SMALL + "x\n" * 300_000)
    wanted = (report.folder / "k").read_bytes()
    for fault in ("ENOSPC", "EIO", "EPIPE", "EDQUOT"):
        for number in (1, 2, 3):
            under = traced(report.folder / "out", "write", fault, f"{number}+")
            with open(report.folder / "out", "wb+") as out:
                end = report.run("normal --kernel=k", stdout=out, under=under)
                out.seek(0)
                end.out = out.read()
            if end.status == 0:
                report.is_done(f"an answer in fewer than {number} writes", end, wanted)
                continue
            prefix = wanted.startswith(end.out) and end.out != wanted
            holds = (end.status, end.line) == (8, "refused;8;Write") and prefix
            report.check(f"write {number} fails with {fault}", holds, end)


def traced(path, call, fault, when):
    """The words of strace that make this call fail on a file."""
    return ["strace", "-qq", "-o", "trace", "-P", path, "-e", f"inject={call}:error={fault}:when={when}"]


def check(report):
    cut_kernels(report)
    cut_observations(report)
    cut_leap_seconds(report)
    if shutil.which("strace"):
        failing_calls(report)
        failing_writes(report)
    else:
        report.leave_out("calls of the host that fail one after the other", "there is no strace here")
