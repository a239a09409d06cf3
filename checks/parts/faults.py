"""Streams and files of a host that fail: full disks, closed pipes, what cannot be read, what comes in pieces."""
import contextlib
import fcntl
import os
import resource
import shutil
import signal
import socket
import stat
import subprocess
import threading

import texts
from ends import Program

NOBODY = 65534
COMMANDS = {  # each command, and what it writes by the files of texts.py where that is known
    "publish": (texts.PUBLISH, texts.PUBLISHED),
    "normal": ("normal --kernel=k", texts.PUBLISHED[: texts.PUBLISHED.index(b"\\begintext") + len(b"\\begintext\n")]),
    "residuals": ("residuals --leap=l --kernel=k --obs=o --sc=99", None),
    "convert": ("convert --kernel=k --sc=99 --clock=1/5", b"1/0000000005.000;1280;5.000000000000;-\n"),
    "invert": ("invert --kernel=k --sc=99 --time=tdt:5", b"1/0000000005.000;1280;5.000000000000\n"),
    "sample": ("sample --seed=0 --count=2", b"sample;0;2;0;71066000;0\n"),
    "excerpt": ("excerpt --kernel=k --over=k --sc=99 --from=0 --to=600", None),
    "audit": (texts.AUDIT, b"yes\n"),
    "least": ("least --leap=l --kernel=k --obs=o --sc=99", None),
    "plot": ("plot --leap=l --kernel=k --obs=o --sc=99 --new=k", None),
    "help": ("help", None),
    "version": ("--version", None),
}
REFUSED = ("publish --kernel=k --obs=o --sc=99", "refused;6;TimeFalls;2")  # of the kernel TWO_LIVES
LARGE = texts.SMALL + "x\n" * 500_000  # more than a pipe holds


def done_runs(report):
    report.write(**texts.FILES)
    for name, (words, out) in COMMANDS.items():
        end = report.run(words)
        report.is_done(name, end, end.out if out is None else out)


def full_disks(report):
    report.write(**texts.FILES)
    with open("/dev/full", "wb") as full:
        for name, (words, _) in COMMANDS.items():
            report.is_refused(f"{name} to a full disk", report.run(words, stdout=full), "refused;8;Write")
            end = report.run(words, stdout=full, stderr=full)
            report.check(f"{name}, and the notes to a full disk too", end.status == 8, end)
            end = report.run(words, stderr=full)
            report.check(f"{name} with notes to a full disk", end.status == 0 and end.out, end)


def refusals_without_notes(report):
    """Where the line of a refusal cannot be written, the status stays, and nothing is written in its place."""
    report.write(k=texts.TWO_LIVES, o=texts.HEADER + "a,2/0:0,tdt:3900,0\n")
    words, line = REFUSED
    report.is_refused("no publication", report.run(words), line)
    with open("/dev/full", "wb") as full:
        end = report.run(words, stderr=full)
        report.check("no publication, notes to a full disk", (end.status, end.out) == (6, b""), end)
    end = report.run(words, stderr=broken_pipe())
    report.check("no publication, nobody reads the notes", (end.status, end.out) == (6, b""), end)
    end = report.run(words, before=lambda: os.close(2))
    report.check("no publication, standard error is closed", (end.status, end.out, end.notes) == (6, b"", b""), end)


def broken_pipe():
    """The end of a pipe into which is written, and nobody reads."""
    reading, writing = os.pipe()
    os.close(reading)
    return os.fdopen(writing, "wb")


def closed_outputs(report):
    report.write(**texts.FILES)
    for name, (words, _) in COMMANDS.items():
        with broken_pipe() as pipe:
            report.is_refused(f"{name}, nobody reads", report.run(words, stdout=pipe), "refused;8;Write")
        end = report.run(words, before=lambda: os.close(1))
        report.is_refused(f"{name}, standard output is closed", end, "refused;8;Write")
        end = report.run(words, before=lambda: [os.close(at) for at in (0, 1, 2)])
        report.check(f"{name}, all streams are closed", (end.status, end.out, end.notes) == (8, b"", b""), end)
    for name, data in texts.FILES.items():
        untouched = (report.folder / name).read_bytes()
        report.check(f"file {name} is as it was", untouched == (data.encode() if isinstance(data, str) else data), end)


def cut_outputs(report):
    """A reader that goes away after some bytes, and a pipe that does not wait."""
    report.write(k=LARGE)
    command = f"{report.program.path} normal --kernel=k"
    for amount in (1, 100, 70_000, 900_000):
        script = f"set -o pipefail; {{ {command} 2>notes; echo $? >status; }} | head -c {amount} >head"
        subprocess.run(["bash", "-c", script], cwd=report.folder)
        status, said, head = (report.folder / name for name in ("status", "notes", "head"))
        end = report.run("normal --kernel=k")
        ended = status.read_text().strip(), said.read_text().partition("\n")[0], head.read_bytes()
        wanted = "8", "refused;8;Write", LARGE.encode()[:amount]
        report.check(f"the reader goes away after {amount} bytes, {ended[:2]}", ended == wanted, end)
    reading, writing = os.pipe()
    fcntl.fcntl(writing, fcntl.F_SETFL, os.O_NONBLOCK)
    with os.fdopen(reading, "rb") as pipe:
        end = report.run("normal --kernel=k", stdout=writing)
        os.close(writing)
        end.out = pipe.read()
    holds = (end.status, end.line) == (8, "refused;8;Write") and LARGE.encode().startswith(end.out)
    report.check("a pipe that does not wait", holds, end)


def no_files(report):
    """Names of what is no file, or none that can be read. The file that is asked for first is named."""
    room = report.folder
    report.write(**texts.FILES)
    (room / "folder").mkdir()
    os.symlink("loop", room / "loop")
    os.symlink("nowhere", room / "dangling")
    with contextlib.suppress(OSError), socket.socket(socket.AF_UNIX) as listener:
        listener.bind(str(room / "socket"))  # a long path is refused, and then nothing is there
    names = {
        "missing": "nothing there", "folder": "a folder", "loop": "a link to itself", "dangling": "a link to nothing",
        "socket": "a socket", "k/x": "a file as a folder", "x" * 300: "a long name", "x/" * 3000: "a long path",
        "/proc/self/mem": "what fails when it is read", "-": "a dash",
    }
    files = {"leap": "l", "kernel": "k", "obs": "o"}
    for name, what in names.items():
        for option, kind in (("leap", "Leap"), ("kernel", "Kernel"), ("obs", "Observations")):
            given = [f"--{other}={name if other == option else right}" for other, right in files.items()]
            end = report.run(["publish", *given, "--sc=99"])
            report.is_refused(f"{option}: {what}", end, f"refused;7;{kind}")
        end = report.run(["audit", "--leap=l", "--kernel=k", "--obs=o", "--sc=99", f"--new={name}"])
        report.is_refused(f"new: {what}", end, "refused;7;New")
        end = report.run(["publish", f"--leap={name}", f"--kernel={name}", f"--obs={name}", "--sc=99"])
        report.is_refused(f"all three: {what}", end, "refused;7;Leap")


def no_permission(report):
    """For root, whom no permission binds, the run is nobody's, of a copy of the program that nobody can reach."""
    room, program, become = report.folder, report.program, None
    report.write(**texts.FILES)
    if os.geteuid() == 0:
        become = lambda: (os.setgroups([]), os.setgid(NOBODY), os.setuid(NOBODY))
        room.chmod(0o755)
        program = Program(shutil.copy(program.path, room / "program"))
    run = lambda: program.run(texts.PUBLISH.split(), folder=room, before=become)
    try:
        report.is_done("files that may only be read", run(), texts.PUBLISHED)
    except (PermissionError, subprocess.SubprocessError):
        return report.leave_out("files without permission", f"the program cannot be run as nobody in {room}")
    for name, kind in (("l", "Leap"), ("k", "Kernel"), ("o", "Observations")):
        (room / name).chmod(0)
        report.is_refused(f"no permission to read {name}", run(), f"refused;7;{kind}")
        (room / name).chmod(stat.S_IRUSR | stat.S_IRGRP | stat.S_IROTH)


def fed(room, name, data, piece):
    """A FIFO in place of a file; a thread writes into it, some bytes at a time."""
    path = room / name
    path.unlink(missing_ok=True)
    os.mkfifo(path)

    def feed():
        try:
            with open(path, "wb", buffering=0) as pipe:
                for at in range(0, len(data), piece):
                    pipe.write(data[at : at + piece])
        except BrokenPipeError:
            pass  # enough was read

    thread = threading.Thread(target=feed, daemon=True)
    thread.start()
    return thread


def pieces(report):
    """Files that come in pieces of some bytes, up to their end."""
    for piece in (1, 2, 3, 7, 4096):
        for name, data in texts.FILES.items():
            report.write(**texts.FILES)
            fed(report.folder, name, data.encode() if isinstance(data, str) else data, piece)
            words, wanted = (texts.AUDIT, b"yes\n") if name == "n" else (texts.PUBLISH, texts.PUBLISHED)
            report.is_done(f"{name} in pieces of {piece}", report.run(words), wanted)
            (report.folder / name).unlink()
    fed(report.folder, "k", b"", 1)
    report.is_done("a kernel from which nothing comes", report.run("normal --kernel=k"), b"")
    feeder = fed(report.folder, "k", b"x\n" * 10_000_000, 65_536)
    report.is_refused("a kernel that does not end in time", report.run("normal --kernel=k"), "refused;4;TooLong")
    feeder.join()
    (report.folder / "k").unlink()
    for name, kind in (("l", 3), ("k", 4), ("o", 5), ("n", 12)):
        report.write(**texts.FILES)
        (report.folder / name).unlink()
        os.symlink("/dev/zero", report.folder / name)
        words = texts.AUDIT if name == "n" else texts.PUBLISH
        report.is_refused(f"zeros without end as {name}", report.run(words), f"refused;{kind};TooLong")
        (report.folder / name).unlink()
    report.write(**(texts.FILES | dict(k="")))
    report.is_done("an empty kernel", report.run("normal --kernel=k"), b"")
    os.symlink("/dev/null", report.folder / "null")
    report.is_done("/dev/null", report.run("normal --kernel=null"), b"")


def growing(report):
    """A kernel to which lines are added, and one that is cut, while it is read."""
    begun = texts.SMALL.encode()
    for shrinks in (False, True):
        report.write(k=begun + b"x\n" * 4_000_000)
        ended = threading.Event()

        def change():
            with open(report.folder / "k", "r+b", buffering=0) as file:
                size = file.seek(0, os.SEEK_END)
                while not ended.is_set() and 0 < size < 4 * texts.LIMIT:
                    size += -50_000 if shrinks else file.write(b"x\n" * 20_000)
                    if shrinks:
                        file.truncate(max(size, 0))

        thread = threading.Thread(target=change)
        thread.start()
        for number in range(20):
            end = report.run("normal --kernel=k")
            told = f"a kernel that {'is cut' if shrinks else 'grows'}, run {number + 1}"
            if end.status == 4:
                line = "refused;4;Grammar;" if shrinks else "refused;4;TooLong"
                report.check(told, end.line.startswith(line) and not end.out, end)
            else:
                rest = end.out.removeprefix(begun)
                whole = shrinks or rest == b"x\n" * (len(rest) // 2)
                report.check(told, end.status == 0 and not end.notes and whole, end)
        ended.set()
        thread.join()


def file_size(report):
    """A limit on the size of what is written, with its signal ignored; not ignored it ends any program."""
    report.write(**texts.FILES)
    whole = len(texts.PUBLISHED)
    for limit in [0, 1, 10, 20, *range(100, whole, 97), whole - 1]:
        with open(report.folder / "out", "wb+") as out:
            ignore = lambda: signal.signal(signal.SIGXFSZ, signal.SIG_IGN)
            end = report.run(texts.PUBLISH, stdout=out, limits=[(resource.RLIMIT_FSIZE, limit)], before=ignore)
            out.seek(0)
            end.out = out.read()
        report.is_refused(f"files of at most {limit} bytes", end, "refused;8;Write", texts.PUBLISHED[:limit])
    with open(report.folder / "out", "wb+") as out:
        end = report.run(texts.PUBLISH, stdout=out, limits=[(resource.RLIMIT_FSIZE, whole)])
        out.seek(0)
        end.out = out.read()
    report.is_done("files of just as many bytes", end, texts.PUBLISHED)
    with open(report.folder / "out", "wb+") as out:
        end = report.run(texts.PUBLISH, stdout=out, limits=[(resource.RLIMIT_FSIZE, 100)])
    report.check("the signal of a file size limit, which is not ignored", end.status == -signal.SIGXFSZ, end)


PARTS = (
    done_runs,
    full_disks,
    refusals_without_notes,
    closed_outputs,
    cut_outputs,
    no_files,
    no_permission,
    pieces,
    growing,
    file_size,
)


def check(report):
    for part in PARTS:
        part(report)
