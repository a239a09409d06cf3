#!/usr/bin/env -S python3 -B
"""Samples of 300 seeds and settings: the files are made and published here, and the line of each, or its refusal, is compared.

The generator and the line are written down again from docs/SAMPLE.md; the fitter is the one of `fitter.py`. The same files are
given to `publish` too, whose table and new triples must say what the line says.
"""
import random
from fractions import Fraction

from common import PICO, Clock, kernel_text, main, observation_text, seconds, table
from fitter import Refused, Fit
from publications import Observation, Publication, Settings

CLOCK = Clock(99, [2**32, 256], [0, 0], 2, [(0, 2**40 - 1)])
KERNEL = [(0, Fraction(0), Fraction(1))]


def walk(seed, count):
    """How late each observation is, in nanoseconds."""
    drawn, late = seed, 0
    for _ in range(count):
        drawn = (drawn * 1664525 + 1013904223) % 2**32
        late += drawn % 200001 - 100000
        yield late


def sample(seed, count, settings):
    """The publication of a sample, and the records of its observation file."""
    publication = Publication(CLOCK, KERNEL, settings)
    for k, late in enumerate(walk(seed, count), 1):
        time = (100 * 10**9 * k + late) * 1000
        publication.observations.append(Observation(f"s{k}", 25600 * k, time, k + 1))
        publication.words.append((f"s{k}", f"tick:{25600 * k}", "tdt:" + seconds(time)[:-3], 0))
    return publication


def line(seed, count, settings):
    """The line of a sample, or its refusal."""
    try:
        fit = Fit(sample(seed, count, settings)).run()
    except Refused as refused:
        return f"refused;6;{refused}\n"
    greatest = max(abs(row[4]) for row in fit.rows())
    ticks = (KERNEL + fit.triples())[-1][0]
    return f"sample;{seed};{count};{len(fit.triples())};{greatest};{ticks}\n"


def cases():
    rng = random.Random(3)
    for _ in range(300):
        seed = rng.choice([0, 1, 5, 2**31, 2**32 - 1, rng.randrange(2**32)])
        tolerance = rng.choice([1, 50000, 150000, 200000, 500000, 1000000, 1000000, 20000000])
        settings = Settings(tolerance, rng.choice([1, 6, 9, 12, 12, 15]), rng.choice([1, 10, 1000, 1000, 100000]))
        yield seed, rng.choice([1, 2, 3, 40, 100, 300]), settings


def as_published(answer, seed, count):
    """The line that the output of `publish` says; no more than the old triple and its rows is known of it."""
    rows = table(answer.out)
    added = answer.out[len(kernel_text(CLOCK, KERNEL)) :].split("residuals;")[0].split()
    numbers = added[added.index("+=") + 1 :] if "+=" in added else []
    ticks = [word for word in numbers if word not in "()" and word != "\\begintext"][::3]
    greatest = max(abs(int(row[4])) for row in rows)
    return f"sample;{seed};{count};{len(ticks)};{greatest};{(['0'] + ticks)[-1]}\n"


def check(program):
    asked = list(cases())
    names = ("tol_ns", "rate_decimals", "band_ppm")
    options = [{name: getattr(settings, name) for name in names} for _, _, settings in asked]
    told = program.calls(("sample", dict(seed=seed, count=count, **given)) for (seed, count, _), given in zip(asked, options))
    published = program.calls(sample(*case).asked() for case in asked)
    refused = 0
    for (seed, count, settings), answer, other in zip(asked, told, published):
        wanted = line(seed, count, settings)
        said = answer.out if answer.status == 0 else answer.note + "\n"
        if said != wanted:
            answer.differs(f"wanted: {wanted}said:   {said}")
        refused += wanted.startswith("refused")
        again = as_published(other, seed, count) if other.status == 0 else other.note + "\n"
        if again != wanted:
            other.differs(f"sample: {wanted}publish: {again}")
    return f"{len(asked) - refused} samples, {refused} refusals, and `publish` of the same files"


if __name__ == "__main__":
    main(check)
