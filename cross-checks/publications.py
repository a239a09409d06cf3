"""Random publications: a clock, its kernel, the observations of some passes, and the settings. Equal seeds give equal ones."""
import random
from dataclasses import dataclass, field
from fractions import Fraction
from math import floor

from common import PICO, Clock, decimal, kernel_text, observation_text, seconds

SHAPES = [  # moduli, offsets, and the seconds of a most significant count
    ([4294967296, 256], [0, 0], 1),
    ([4294967296, 65536], [0, 0], 1),
    ([100000, 60, 1000], [7, 1, 0], 60),
    ([65536, 91, 10, 8], [0, 0, 1, 0], Fraction("60.6666666")),
    ([1099511627776], [0], Fraction("0.25")),
    ([999, 3], [1, 1], 1),
    ([1000, 2, 3, 4, 5, 6, 7, 2, 2, 2], [1, 0, 0, 0, 9, 0, 0, 0, 0, 0], 990),
    ([2097152, 65536, 65536], [0, 0, 0], 1),
]
JOINS = [0] * 8 + [1, 10**9, -1, -(10**5), -(10**8) - 1, -(10**9) + 1]  # by how many picoseconds old triples do not join


@dataclass
class Observation:
    name: str
    tick: int
    time: int  # picoseconds past J2000
    number: int  # of its record


@dataclass
class Settings:
    tol_ns: int = 1000000
    rate_decimals: int = 12
    band_ppm: int = 1000
    slip_ns: int = 1000000
    hold: int = None
    reject: int = 0
    id: str = None

    def options(self):
        """The options that say it; what is as the program's own defaults is left out."""
        return {name: value for name, value in vars(self).items() if value != getattr(Settings(), name)}

    @property
    def tolerance(self):
        return Fraction(self.tol_ns, 10**9)

    @property
    def step(self):
        """The least step of a new rate."""
        return Fraction(1, 10**self.rate_decimals)


@dataclass
class Publication:
    clock: Clock
    old: list  # triples: ticks, time, seconds per most significant count
    settings: Settings
    observations: list = field(default_factory=list)
    words: list = field(default_factory=list)  # the records of the observation file

    def asked(self):
        """The command, and its options."""
        kernel, observations = kernel_text(self.clock, self.old), observation_text(self.words)
        return "publish", dict(kernel=kernel, obs=observations, sc=self.clock.number, **self.settings.options())

    def falls(self):
        """Whether time falls at a join of the old kernel."""
        joins = zip(self.old, self.old[1:])
        return any(one[1] + one[2] * (other[0] - one[0]) / self.clock.per_count > other[1] for one, other in joins)


def passes(rng, clock, step, even):
    """Ticks of passes in each partition, whose ends are set after the last one; whole steps, or anything."""
    ticks, passed = [], 0
    for place in range(rng.choice([1, 1, 2, 3])):
        start = rng.choice([0, rng.randrange(2**30), 2**51])
        count = 0 if place and rng.random() < 0.3 else 1 + rng.randrange(step)
        for _ in range(rng.choice([1, 2, 5, 10, 20, 30, 30])):
            ticks.append(passed + count)
            count += step * rng.choice([1, 2, 5]) if even else 1 + rng.randrange(rng.choice([1, 2, 4]) * step)
        clock.partitions.append((start, start + count))
        passed += count
    return ticks


def old_triples(rng, last, epoch, nominal, per_count, band):
    """Up to four triples, of which the last one has the given ticks."""
    spots = sorted({rng.randrange(last) for _ in range(rng.choice([0, 0, 1, 3]))} | {last}) if last else [0]
    triples, time = [], epoch
    for ticks in spots:
        if triples:
            before, rate = triples[-1][0], triples[-1][2]
            time += rate * (ticks - before) / per_count
            time = Fraction(floor(time * PICO), PICO) + Fraction(rng.choice(JOINS), PICO)
        fine = Fraction(1, 10 ** rng.choice([3, 6, 9, 12, 15]))
        triples.append((ticks, time, nominal + round(nominal * Fraction(rng.uniform(-band, band)) / fine) * fine))
    return triples


def hold(rng, clock, last, ticks):
    """Seldom one; mostly after the last triple, at times at a tick that is none."""
    if rng.random() < 0.8:
        return None
    good = rng.choice([last, last + 1, rng.choice([tick for tick in ticks if tick >= last][:9] or [last])])
    return max(0, rng.choice([good] * 9 + [last - 1, clock.total, clock.total + 1]))


def settings_for(rng, spacing, ten):
    """Tolerances that a band of rates can serve where observations are so many seconds apart, or the defaults."""
    band_ppm = round(ten(0, 4.5))
    tol_ns = min(max(round(spacing * band_ppm * 1000 * ten(-2.5, 0)), 1), 6 * 10**10)
    tol_ns, band_ppm = rng.choice([(tol_ns, band_ppm)] * 9 + [(1000000, 1000)])
    decimals = rng.choice([rng.randint(1, 4)] + [6, 7] * (band_ppm > 9) + [9, 9, 10, 11, 12, 12, 12, 15] * 2)
    made = Settings(tol_ns, decimals, band_ppm)
    made.slip_ns = rng.choice([1000000] * 9 + [0, 100000, 60000000000])
    made.reject = rng.choice([0, 0, 1, 2, 5])
    made.id = rng.choice([None, None, "2024-01-23", "2024-01-23/02:00:00"])
    return made


def attempt(rng):
    """A publication, or None where its numbers are too large. In even ones much falls on the very end of what is allowed."""
    even, (moduli, offsets, nominal) = rng.random() < 0.25, rng.choice(SHAPES)
    clock = Clock(rng.choice([99, 7, 123456]), moduli, offsets, rng.randint(1, 5), [])
    ten = (lambda *ends: 10 ** round(rng.uniform(*ends))) if even else (lambda *ends: 10 ** rng.uniform(*ends))
    spacing = ten(0.5, 5)
    settings = settings_for(rng, spacing, ten)
    ticks = passes(rng, clock, max(1, round(spacing * clock.per_count / nominal)), even)
    last = max(0, ticks[rng.randrange(1 + len(ticks) // 2)] + rng.choice([0, 0, -1, -2]))
    settings.hold = hold(rng, clock, last, ticks)
    epoch = Fraction(rng.randrange(-8 * 10**20, 8 * 10**20), PICO)
    old = old_triples(rng, last, epoch, nominal, clock.per_count, 0 if even else settings.band_ppm / 4e6)
    made = Publication(clock, old, settings)
    observe(rng, made, [tick for tick in ticks if tick >= old[0][0] or rng.random() < 0.01], even)
    fits = max(clock.total, *(end for _, end in clock.partitions)) < 2**53 and all(a[1] < b[1] for a, b in zip(old, old[1:]))
    return made if fits else None


def observe(rng, made, ticks, even):
    """The clock's true rate wanders inside the band, its time leaps where a partition begins, and readings have noise."""
    clock, settings, (tick, time, rate) = made.clock, made.settings, made.old[-1]
    tolerance, noise = settings.tol_ns * 1000, 0 if even else rng.choice([0, 0.3, 0.6, 0.9])
    time, true, part = time * PICO, rate, clock.partition(tick)
    for number, now in enumerate(ticks, 2):
        if now > tick:
            time, tick = time + true * (now - tick) * PICO / clock.per_count, now
            if rng.random() < 0.2:
                true = rate * (1 + Fraction(round(rng.uniform(-5e5, 5e5) * settings.band_ppm), 10**12))
            if clock.partition(now) > part:
                part, time = clock.partition(now), time + tolerance * rng.choice([-1, 0, 1, 2, 1000, 1000])
        error = rng.choice([-1, 1]) * tolerance if rng.random() < 0.1 else rng.uniform(-noise, noise) * tolerance
        error += rng.choice([-1, 0, 0, 0, 1]) if even else 0
        if rng.random() < (0.05 if settings.reject else 0.003):
            error += rng.choice([-1, 1]) * tolerance * 10 ** rng.uniform(0.3, 4)
        there = time if now >= tick else time + true * (now - tick) * PICO / clock.per_count
        seen, delay = floor(there + Fraction(error)), rng.choice([0, rng.randrange(10**10)])
        word = rng.choice([f"tick:{now}", clock.text(now).replace(",", ":")])
        made.observations.append(Observation(f"r{number}", now, seen, number))
        made.words.append((f"r{number}", word, f"tdt:{rng.choice([seconds, exact])(seen + delay * 1000)}", delay))


def exact(picoseconds):
    return decimal(Fraction(picoseconds, PICO))


def publications(seed, count):
    rng, made = random.Random(seed), []
    while len(made) < count:
        if one := attempt(rng):
            made.append(one)
    return made
