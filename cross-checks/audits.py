#!/usr/bin/env -S python3 -B
"""Audits of publications that were changed in one place: each verdict against one that is found apart.

A kernel is accepted where it is the old one and one block, in any layout: at most one ID, the new triples of the rules, and
their residual table. The triples and the table are those of the fitter beside this file; the block, its items and what may be
written otherwise are known from how the text was made.
"""
import random
import re
from dataclasses import dataclass, replace
from fractions import Fraction

from common import PICO, coefficients, item, kernel_text, main, observation_text
from fitter import Fit, Refused, published
from publications import publications

CASES, CHANGES = 300, 8  # publications, and changes of each


@dataclass(frozen=True)
class New:
    """A new kernel as it is made: the old text, and what stands in the block after it."""

    old: str
    items: tuple
    triples: tuple  # what the items claim, or None where they are not the items of a publication
    lines: tuple
    stands: bool = True
    spelled: str = None  # the text, where it is another than that of the parts

    def text(self):
        parts = ("\\begindata\n", *self.items, "\\begintext\n", *self.lines)
        return self.spelled or self.old + "".join(parts)


def as_published(case, fit):
    """What the rules write."""
    triples, name = tuple(fit.triples()), case.settings.id
    items = [item("SCLK_KERNEL_ID", "=", ["@" + name])] if name else []
    items += [coefficients(case.clock, "+=", triples)] if triples else []
    rows = [";".join(map(str, row)) + "\n" for row in fit.rows()]
    lines = (f"residuals;{len(case.observations)}\n", *rows)
    return New(kernel_text(case.clock, case.old), tuple(items), triples, lines)


def has_bad_settings(case):
    early = any(seen.tick < case.old[0][0] for seen in case.observations)
    try:
        Fit(case)
    except Refused:
        return True
    return early


def verdict(case, new):
    """The first fault of a new kernel, in the order in which they are judged; or `yes`."""
    if has_bad_settings(case):
        return "Settings"
    if not new.stands:
        return "Standing"
    if new.triples is None:
        return "Items"
    try:
        wanted = as_published(case, Fit(case).run())
    except Refused:
        return "Chain"
    if wanted.triples != new.triples:
        return "Chain"
    pairs = list(zip(wanted.lines, new.lines))
    differing = next((at for at, (one, other) in enumerate(pairs, 1) if one != other), None)
    if differing is None and len(wanted.lines) != len(new.lines):
        differing = len(pairs) + 1
    return f"Table;{differing}" if differing else "yes"


# ---- changes; each answers the new kernel, and the settings by which it is audited


def layout(rng, case, new):
    """The same document in another text: blanks, ends of lines, and how numbers are spelled."""
    data = "".join(new.items).replace(" ", rng.choice([" ", "  ", " \t"])).replace("\n", rng.choice(["\n", "\n\n", "\r\n"]))
    data = re.sub(r"(?<=\s)(-?\d+(?:\.\d+)?)(?=\s)", lambda found: found[0] + rng.choice(["", "E0", "d+00"]), data)
    lines = "".join(new.lines).replace("\n", rng.choice(["\n", "\r\n"]))
    return replace(new, spelled=new.old + " \\begindata\t\n" + data + "\\begintext\n" + lines), case.settings


def other_id(rng, case, new):
    sign, value, good = rng.choice(
        [("=", "@2031-12-31", True), ("=", "@1999-JAN-01/12:00:00", True), ("=", "'text'", False), ("+=", "@2031-12-31", False),
         ("=", "17", False), ("=", "(\n@2031-12-31\n@2032-12-31\n)", False)]
    )
    rest = tuple(one for one in new.items if "KERNEL_ID" not in one)
    items = (item("SCLK_KERNEL_ID", sign, [value]), *rest)
    return replace(new, items=items, triples=new.triples if good else None), case.settings


def without_id(rng, case, new):
    return replace(new, items=tuple(one for one in new.items if "KERNEL_ID" not in one)), case.settings


def other_number(rng, case, new):
    if not new.triples:
        return new, case.settings
    at, triples = rng.randrange(len(new.triples)), list(new.triples)
    ticks, time, rate = triples[at]
    by = rng.choice([-1, 1])
    triples[at] = rng.choice(
        [(ticks + by, time, rate), (ticks, time + Fraction(by, PICO), rate), (ticks, time, rate + by * case.settings.step)]
    )
    return claiming(case, new, triples), case.settings


def claiming(case, new, triples):
    items = [one for one in new.items if "KERNEL_ID" in one]
    items += [coefficients(case.clock, "+=", triples)] if triples else []
    return replace(new, items=tuple(items), triples=tuple(triples))


def other_triples(rng, case, new):
    triples = list(new.triples)
    if triples and rng.random() < 0.7:
        triples.pop(rng.choice([0, len(triples) // 2, -1]))
    else:
        triples.append(triples[-1] if triples else (case.old[-1][0] + 1, case.old[-1][1] + 1, case.old[-1][2]))
    return claiming(case, new, triples), case.settings


def other_items(rng, case, new):
    if not new.triples:
        return replace(new, items=(*new.items, "FURTHER = 1\n"), triples=None), case.settings
    made, number = coefficients(case.clock, "+=", new.triples), case.clock.number
    words = made.split("(\n")[1].removesuffix(")\n").split()
    name = f"SCLK01_COEFFICIENTS_{number}"
    wrong = rng.choice(
        [
            made.replace("+=", "="),
            made.replace(name, f"SCLK01_COEFFICIENTS_{number + 1}"),
            item(name, "+=", words[:-1]),
            item(name, "+=", [words[0], "@2001-01-01", *words[2:]]),
            made + made,
            made + "FURTHER = 'x'\n",
        ]
    )
    return replace(new, items=(wrong,), triples=None), case.settings


def other_table(rng, case, new):
    lines, at = list(new.lines), rng.choice([0, rng.randrange(len(new.lines)), len(new.lines) - 1])
    kind = rng.randrange(5)
    if kind == 0:
        lines.pop(at)
    elif kind == 1:
        lines.append(rng.choice(["\n", lines[-1]]))
    elif kind == 2:
        lines.insert(at, lines[at])
    else:
        letter = rng.randrange(len(lines[at]) - 1)
        lines[at] = lines[at][:letter] + rng.choice("07;x ") + lines[at][letter + 1 :]
    return replace(new, lines=tuple(lines)), case.settings


def other_old(rng, case, new):
    """The old document is another one, or the block is missing, or stands twice."""
    kind = rng.randrange(4)
    if kind == 0:
        return replace(new, old="a comment\n" + new.old, stands=False), case.settings
    if kind == 1:
        ticks, time, rate = case.old[0]
        other = [(ticks, time - Fraction(1, PICO), rate), *case.old[1:]]
        return replace(new, old=kernel_text(case.clock, other), stands=False), case.settings
    twice = new.text() + new.text().removeprefix(new.old)
    return replace(new, spelled=twice if kind == 2 else new.old, stands=False), case.settings


def other_settings(rng, case, new):
    by = rng.choice(
        [
            dict(tol_ns=max(1, case.settings.tol_ns + rng.choice([-1, 1, case.settings.tol_ns]))),
            dict(rate_decimals=max(1, case.settings.rate_decimals - 1)),
            dict(band_ppm=max(1, case.settings.band_ppm // 2)),
            dict(slip_ns=rng.choice([0, 60000000000])),
            dict(hold=rng.choice([case.old[-1][0], case.old[-1][0] + 1, case.clock.total, 0])),
            dict(reject=rng.choice([0, 1, 3])),
        ]
    )
    return new, replace(case.settings, **by)


def untouched(rng, case, new):
    return new, case.settings


KINDS = [untouched, layout, other_id, without_id, other_number, other_triples, other_items, other_table, other_old, other_settings]


def audits(rng, case):
    """The words of some audits, and the verdicts that they must come to."""
    made = as_published(case, Fit(case).run())
    assert made.text() == published(case)[0]
    for change in [untouched] + rng.sample(KINDS[1:], CHANGES):
        new, settings = change(rng, case, made)
        judged = replace(case, settings=settings)
        options = {name: value for name, value in settings.options().items() if name != "id"}
        asked = dict(kernel=kernel_text(case.clock, case.old), obs=observation_text(case.words), sc=case.clock.number)
        yield ("audit", dict(asked, new=new.text(), **options)), verdict(judged, new), change.__name__


def check(program):
    rng, asked = random.Random(5), []
    for case in publications(5, CASES):
        if published(case)[1]:
            asked += audits(rng, case)
    counts = {}
    for (_, wanted, kind), answer in zip(asked, program.calls(words for words, _, _ in asked)):
        said = answer.out.strip() if answer.status == 0 else answer.note.removeprefix("refused;11;")
        if said != wanted:
            answer.differs(f"{kind}: wanted {wanted}, said {answer.status} {answer.out}{answer.note}")
        name = wanted.partition(";")[0]
        counts[name] = counts.get(name, 0) + 1
    return ", ".join(f"{counts[name]} {name}" for name in sorted(counts))


if __name__ == "__main__":
    main(check)
