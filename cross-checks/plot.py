#!/usr/bin/env -S python3 -B
"""Pictures of random publications, in every byte, and by a second kernel too; each is well-formed XML.

Where a mark, a line, a step or a label stands is computed here from docs/PLOT.md, in whole numbers and fractions, and so are
the residuals. Each picture, and each of examples/, is read as XML, by xmllint too where it is installed. The first ones are
rendered to PNG by the first renderer that is installed.
"""
import shutil
import subprocess
import sys
import tempfile
from math import floor
from pathlib import Path
from xml.parsers import expat

from common import PICO, main
from headline import Kernel, triples
from publications import publications

SPAN = 10**23  # after all times
MICRO = 86_400_000_000  # picoseconds of a millionth of a day
OPENING = (
    '<svg xmlns="http://www.w3.org/2000/svg" version="1.1" width="1240" height="{0}" viewBox="0 0 1240 {0}" '
    'font-family="sans-serif" font-size="12" fill="#333333">\n<style>@media(prefers-color-scheme:dark){{svg{{fill:#d8dce0}}'
    ".page{{fill:#15181b}}.frame{{stroke:#70767c}}.band{{fill:#1d3226}}.grid{{stroke:#33383d}}.inside{{fill:#7fb2ff}}"
    ".outside,.value{{fill:#ff6b7d}}.rate{{stroke:#c58af0}}.triple,.partition{{stroke:#f0a050}}.number{{fill:#f0a050}}}}"
    '</style>\n<rect class="page" fill="#ffffff" width="1240" height="{0}"/>\n'
)


def rounded(wanted):
    unit = 1
    while True:
        for factor in (1, 2, 5):
            if wanted <= factor * unit:
                return factor * unit
        unit *= 10


def fixed(places, units):
    sign, size = ("-" if units < 0 else ""), abs(units)
    whole = f"{sign}{size // 10**places}"
    return whole + (f".{size % 10**places:0{places}d}" if places else "")


def escaped(text):
    names = {'"': "&quot;", "&": "&amp;", "'": "&apos;", "<": "&lt;", ">": "&gt;"}
    return "".join(names.get(c, c if 32 <= ord(c) <= 126 else "?") for c in text)


def label(step, value):
    return fixed(0, value // 10**6) if step % 10**6 == 0 else fixed(6, value)


def step_for(tolerance, worst):
    return rounded((max(tolerance, min(worst, 4 * tolerance)) + 4) // 5)


def rise(reach, tolerance, value):
    scaled = lambda v: v * 20000 // reach
    if value > tolerance:
        return max(scaled(value), scaled(tolerance) + 1) if value <= reach else 20500
    if value < -tolerance:
        return min(scaled(value), scaled(-tolerance) - 1) if value >= -reach else -20500
    return scaled(value)


class Axes:
    """A panel: its days, the place of its line of 0, the step of its values and the tolerance."""

    def __init__(self, left, day, zero, step, tolerance):
        self.begin, self.wide, self.zero, self.step, self.tolerance = left * MICRO, 10 * day * MICRO, zero, step, tolerance

    def across(self, time):
        return 12000 + (min(max(time, self.begin), self.begin + self.wide) - self.begin) * 100000 // self.wide

    def down(self, value):
        return fixed(2, 100 * self.zero - rise(5 * self.step, self.tolerance, value))

    def ground(self):
        top, lines = self.zero - 205, "m100-410".join(["v410"] * 9)
        yield f'<rect class="frame" fill="none" stroke="#8a9096" x="120" width="1000" height="410" y="{top}"/>\n'
        yield f'<path class="grid" stroke="#e3e6e8" d="M220 {top}{lines}"/>\n'
        for k in range(11):
            y = self.zero + 200 - 40 * k
            yield f'<path class="grid" stroke="#c8ccd0" d="M120 {y}H1120"/>\n<text x="112" y="{y}" dy="4" '
            yield f'text-anchor="end">{label(self.step, (k - 5) * self.step)}</text>\n'

    def lines(self, pieces):
        following = 0
        for number, start, _, begins, _ in pieces:
            at = self.across(start)
            if self.begin <= start <= self.begin + self.wide and (begins or following <= at):
                style = 'partition" stroke-width="2.5' if begins else 'triple" stroke-dasharray="4 3'
                yield f'<path stroke="#b85c00" class="{style}" d="M{fixed(2, at)} {self.zero - 205}v410"/>\n'
                yield f'<text class="number" fill="#b85c00" text-anchor="middle" x="{fixed(2, at)}" y="{self.zero - 210}">'
                yield f"{number}</text>\n"
                following = at + 2400


def residuals(name, left, day, zero, tolerance, points, pieces):
    """points: (id, clock text, time, residual); pieces: (number, from, to, begins a partition, drift)."""
    worst = max(points, key=lambda p: abs(p[3]), default=None)  # the first of equal ones
    axes = Axes(left, day, zero, step_for(tolerance, abs(worst[3]) if worst else 0), tolerance)
    reach = 5 * axes.step
    top, bottom = tolerance * 20000 // reach, -tolerance * 20000 // reach
    yield f'<rect class="band" fill="#e3f1e8" x="120" width="1000" y="{fixed(2, 100 * zero - top)}" '
    yield f'height="{fixed(2, top - bottom)}"/>\n'
    yield from axes.ground()
    outside = sum(abs(p[3]) > tolerance for p in points)
    yield f'<text x="120" y="{zero - 228}">Residuals by {name} in microseconds: {outside} of {len(points)} outside '
    yield fixed(6, tolerance) + (f", the worst {fixed(6, worst[3])} of {escaped(worst[0])}" if worst else "") + "</text>\n"
    yield from axes.lines(pieces)
    for name, clock, time, value in points:
        style = 'inside" fill="#1d4f91' if abs(value) <= tolerance else 'outside" fill="#c00020'
        x, y = fixed(2, axes.across(time)), axes.down(value)
        yield f'<circle class="{style}" cx="{x}" cy="{y}" r="2.5"><title>{escaped(name)} {escaped(clock)} '
        yield f"{fixed(6, value)} us</title></circle>\n"
        if abs(value) > reach:
            yield f'<text class="value" fill="#c00020" x="{x}" y="{y}" dx="6" dy="4">{fixed(6, value)}</text>\n'


def rates(left, day, zero, pieces):
    begin, end = left * MICRO, (left + 10 * day) * MICRO
    met = [p for p in pieces if p[1] <= end and begin <= p[2]]
    step = step_for(min(max((abs(p[4]) for p in met), default=0), 10**17), 0)
    axes = Axes(left, day, zero, step, 5 * step)
    yield from axes.ground()
    yield f'<text x="120" y="{zero - 228}">Rates of --kernel in parts of 10^9 from that of triple 1, '
    yield "over days of TDT past J2000</text>\n"
    yield from axes.lines(pieces)
    for number, start, to, _, drift in met:
        yield f'<path class="rate" fill="none" stroke="#6b2d90" stroke-width="2" d="M{fixed(2, axes.across(start))} '
        yield f'{axes.down(drift)}H{fixed(2, axes.across(to))}"><title>triple {number}: {fixed(6, drift)}</title></path>\n'


def picture(title, foot, tolerance, panel, newer=None):
    """A panel is its points and its pieces."""
    points, pieces = panel
    times, lower = [p[2] for p in points] or [0], 460 if newer else 0
    first, last = min(times) // MICRO, max(times) // MICRO
    day = rounded((last - first) // 9 + 1)
    left = first - first % day
    out = [OPENING.format(1030 + lower), f'<text x="120" y="26" font-size="18">{escaped(title)}</text>\n']
    span = f", days {fixed(6, first)} to {fixed(6, last)}" if points else ""
    out.append(f'<text x="120" y="46">{len(points)} observations{span}</text>\n')
    out += residuals("--kernel", left, day, 300, tolerance, points, pieces)
    if newer:
        out += residuals("--new", left, day, 760, tolerance, *newer)
    out += rates(left, day, 760 + lower, pieces)
    for k in range(11):
        out.append(f'<text x="{120 + 100 * k}" y="{985 + lower}" text-anchor="middle">{label(day, left + k * day)}</text>\n')
    out.append(f'<text x="120" font-size="11" y="{1012 + lower}">{escaped(foot)}</text>\n</svg>\n')
    return "".join(out)


def panel(clock, found, observations):
    """The points of the observations by these triples, and their pieces."""
    kernel, starts = Kernel(clock, found), [floor(one[1] * PICO) for one in found]
    points = [(one.name, clock.text(one.tick), one.time, one.time - floor(kernel.time(one.tick) * PICO)) for one in observations]
    parts = [clock.partition(one[0]) for one in found]
    pieces = [
        (n + 1, starts[n], (starts + [SPAN])[n + 1], n > 0 and parts[n - 1] < parts[n], floor((one[2] / found[0][2] - 1) * 10**15))
        for n, one in enumerate(found)
    ]
    return points, pieces


VERSION = "station 0.9.0 plot"
OPTIONS = ("kernel", "obs", "sc", "tol_ns", "new")


def wanted(case, options, newer):
    foot = "".join(f" --{o.replace('_', '-')}={o if o in ('kernel', 'obs', 'new') else options[o]}" for o in OPTIONS if o in options)
    first = panel(case.clock, case.old, case.observations)
    second = panel(case.clock, newer, case.observations) if newer else None
    title = f"Clock residuals, spacecraft {case.clock.number}"
    return picture(title, VERSION + foot, case.settings.tol_ns * 1000, first, second)


def ends_well(words):
    try:
        return not subprocess.run(words, stdin=subprocess.DEVNULL, capture_output=True, timeout=120).returncode
    except (OSError, subprocess.TimeoutExpired):
        return False


class Reader:
    """Reads pictures as XML, by Python and by xmllint, and renders the first ones, by the tools that are installed."""

    RENDERED = 5
    RENDERERS = {
        "rsvg-convert": ("--output={png}", "{svg}"),
        "inkscape": ("--export-type=png", "--export-filename={png}", "{svg}"),
        "magick": ("{svg}", "{png}"),
        "convert": ("{svg}", "{png}"),
    }

    def __init__(self):
        self.lint = shutil.which("xmllint")
        self.renderer = next((tool for tool in self.RENDERERS if ends_well([tool, "--version"])), None)
        self.rendered = 0

    def fault(self, picture):
        """What is wrong with a picture, in bytes; None where nothing is."""
        try:
            expat.ParserCreate().Parse(picture, True)
        except expat.ExpatError as error:
            return f"it is not well-formed: {error}"
        with tempfile.TemporaryDirectory() as room:
            svg, png = Path(room) / "picture.svg", Path(room) / "picture.png"
            svg.write_bytes(picture)
            if self.lint and not ends_well([self.lint, "--noout", str(svg)]):
                return "xmllint does not read it"
            if self.renderer and self.rendered < self.RENDERED:
                self.rendered += 1
                words = [word.format(svg=svg, png=png) for word in self.RENDERERS[self.renderer]]
                if not ends_well([self.renderer, *words]) or not png.read_bytes().startswith(b"\x89PNG"):
                    return f"{self.renderer} does not render it"
        return None

    def told(self):
        lint = "read by xmllint" if self.lint else "xmllint is not installed"
        tools = f"{self.rendered} rendered by {self.renderer}" if self.renderer else "no renderer is installed: none rendered"
        return f"{lint}, {tools}"


def read_examples(reader):
    for path in sorted((Path(__file__).resolve().parent.parent / "examples").glob("*.svg")):
        fault = reader.fault(path.read_bytes())
        if fault:
            sys.exit(f"{path}: {fault}")


def check(program):
    reader, cases, marks, both = Reader(), publications(1, 120), 0, 0
    read_examples(reader)
    published = program.calls(case.asked() for case in cases)
    asked = []
    for case, kernel in zip(cases, published):
        options = {o: v for o, v in case.asked()[1].items() if o in OPTIONS}
        if not kernel.status:
            options["new"] = kernel.out
        asked.append(("plot", options))
    for case, (_, options), answer in zip(cases, asked, program.calls(asked)):
        early = next((one for one in case.observations if one.tick < case.old[0][0]), None)
        if early:
            if (answer.status, answer.out) != (5, "") or answer.note != f"refused;5;Range;{early.number};BeforeFirst":
                answer.differs("is not refused")
            continue
        newer = triples(options["new"], case.clock.number) if "new" in options else None
        if answer.done().out != wanted(case, options, newer):
            answer.differs("another picture is wanted:\n" + wanted(case, options, newer))
        fault = reader.fault(answer.out.encode("latin-1"))
        if fault:
            answer.differs(fault)
        marks += len(case.observations) * (2 if newer else 1)
        both += bool(newer)
    return f"{len(cases)} pictures, {both} of them by two kernels, {marks} marks; {reader.told()}"


def sample():
    """A picture without files, as crates/sk_plot/src/tests.rt has it: printed by `plot.py sample`."""
    day = 86_400 * PICO
    points = [("a<b", "1/0:0", 8766 * day, 200 * 10**6), ("c", "1/1:0", 8766 * day + 3600 * PICO, 5140 * 10**6)]
    pieces = [(1, 8764 * day, 8766 * day + 1800 * PICO, False, 0), (2, 8766 * day + 1800 * PICO, SPAN, True, 37 * 10**6)]
    newer = [("a<b", "1/0:0", 8766 * day, -100 * 10**6), ("c", "1/1:0", 8766 * day + 3600 * PICO, -201 * 10**6)], pieces[:1]
    yield picture("A & B", 'foot "1"', 200 * 10**6, (points, pieces))
    yield picture("A & B", 'foot "1"', 200 * 10**6, (points, pieces), newer)


if __name__ == "__main__":
    if sys.argv[1:] == ["sample"]:
        sys.stdout.write("".join(sample()))
    else:
        main(check)
