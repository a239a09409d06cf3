#!/usr/bin/env -S python3 -B
"""What the station promises of a published kernel, looked for from outside in random publications; nothing is fitted here.

Every old triple stands. Each new observation that was not dropped lies within the tolerance. Every new rate is allowed. Time
falls only at joins where it fell before. A new triple begins only where the partition changes, or where no rate allowed from
the ended anchor meets its observations and the next one.
"""
import re
from fractions import Fraction

from common import PICO, main, table
from publications import publications


def triples(text, number):
    """The triples that a kernel text says: the last `=` and each `+=` after it."""
    found, data = [], False
    for line in text.split("\n"):
        if line in ("\\begindata", "\\begintext"):
            data, name = line == "\\begindata", None
        elif data and (begun := re.match(r"(\S+) (\+?=) ", line)):
            name, rest = begun[1], line[begun.end() :]
            if name == f"SCLK01_COEFFICIENTS_{number}":
                found = [] if begun[2] == "=" else found
                found += [Fraction(word) for word in rest.strip("()").split()]
        elif data and name == f"SCLK01_COEFFICIENTS_{number}":
            found += [Fraction(word) for word in line.strip("()").split()]
    return [tuple(found[at : at + 3]) for at in range(0, len(found), 3)]


class Kernel:
    def __init__(self, clock, triples):
        self.clock, self.triples = clock, triples

    def time(self, tick, place=None):
        """By the triple that has begun, or by the one at a place."""
        place = max(n for n, one in enumerate(self.triples) if one[0] <= tick) if place is None else place
        ticks, time, rate = self.triples[place]
        return time + rate * Fraction(tick - ticks) / self.clock.per_count

    def falls(self):
        return {at for at in range(len(self.triples) - 1) if self.time(self.triples[at + 1][0], at) > self.triples[at + 1][1]}


def some_rate(publication, anchor, observations, only=None):
    """Whether an allowed rate comes within the tolerance of all observations from an anchor."""
    settings, clock = publication.settings, publication.clock
    rate, part = publication.old[-1][2], Fraction(settings.band_ppm, 10**6)
    lows, highs = [rate * (1 - part)], [rate * (1 + part), Fraction(1000)]
    if only:
        lows, highs = [only], [only]
    for seen in observations:
        run = Fraction(seen.tick - anchor[0]) / clock.per_count
        above = Fraction(seen.time, PICO) + settings.tolerance - anchor[1]
        below = above - 2 * settings.tolerance
        if run:
            lows.append(below / run)
            highs.append(above / run)
        elif below > 0 or above < 0:
            return False
    if only:
        return max(lows) <= min(highs)
    steps = max(lows) / settings.step  # the least whole step that is not below it must not be above the least high
    return -(-steps.numerator // steps.denominator) * settings.step <= min(highs)


def new_of(publication):
    """The observations that a publication may fit: later than the hold, and than the tick after the last triple."""
    clock, last = publication.clock, publication.old[-1][0]
    hold = last + 1 if publication.settings.hold is None else max(publication.settings.hold, last + 1)
    later = clock.partition(last)
    return [seen for seen in publication.observations if seen.tick > hold or clock.partition(seen.tick) > later]


def maximal(publication, kernel, kept):
    """The number of the first new triple that begins too early, or None."""
    clock, first = publication.clock, len(publication.old) - 1
    for place in range(first, len(kernel.triples) - 1):
        anchor, following = kernel.triples[place], kernel.triples[place + 1]
        part, then = clock.partition(int(anchor[0])), clock.partition(int(following[0]))
        begins_there = place > first and clock.partition(int(anchor[0])) > clock.partition(int(kernel.triples[place - 1][0]))
        own = [seen for seen in kept if seen.tick > anchor[0] or begins_there and seen.tick == anchor[0]]
        own = [seen for seen in own if clock.partition(seen.tick) == part and (then > part or seen.tick <= following[0])]
        rest = [seen for seen in kept if seen.tick > (own[-1].tick if own else anchor[0])]
        if not rest:
            return place + 2
        same = clock.partition(rest[0].tick) == part
        if same and some_rate(publication, anchor, own + rest[:1], anchor[2] if place == first else None):
            return place + 2
    return None


def judge(publication, answer):
    """Ends the check where the answer breaks the headline, and counts new triples and kept observations."""
    clock, settings, old = publication.clock, publication.settings, publication.old
    before, after = Kernel(clock, old), Kernel(clock, triples(answer.out, clock.number))
    if after.triples[: len(old)] != old:
        answer.differs("an old triple does not stand")
    if not after.falls() <= before.falls():
        answer.differs("time falls where it did not")
    dropped = {row[0] for row in table(answer.out) if row[6] == "dropped"}
    kept = [seen for seen in new_of(publication) if seen.name not in dropped]
    if len(dropped) > settings.reject or not dropped <= {seen.name for seen in new_of(publication)}:
        answer.differs("too much is dropped")
    for seen in kept:
        if abs(after.time(seen.tick) - Fraction(seen.time, PICO)) > settings.tolerance:
            answer.differs(f"{seen.name} is not within the tolerance")
    for ticks, _, rate in after.triples[len(old) :]:
        far = abs(rate - old[-1][2]) > old[-1][2] * settings.band_ppm / 10**6
        if far or rate % settings.step or not 0 < rate <= 1000:
            answer.differs(f"the rate {float(rate)} at {ticks} is not allowed")
    if early := maximal(publication, after, kept):
        answer.differs(f"triple {early} begins too early")
    return len(after.triples) - len(old), len(kept)


def check(program):
    cases = publications(1, 1000)
    answers = zip(cases, program.calls(case.asked() for case in cases))
    judged = [judge(case, answer) for case, answer in answers if answer.status == 0]
    return f"{len(judged)} kernels, {sum(new for new, _ in judged)} new triples, {sum(kept for _, kept in judged)} observations"


if __name__ == "__main__":
    main(check)
