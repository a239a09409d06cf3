#!/usr/bin/env -S python3 -B
"""A fitter of its own: 1,000 random publications, each compared in every byte that it adds to the kernel, or in its refusal.

The rules, in whole numbers and fractions. A segment is a line from an anchor, and the list of observations that it covers; the
first one is the kernel's last triple. A segment goes on as long as one rate of the band meets all that it covers and the next
one. Then the next one begins: its anchor is where the line before was left, or the first observation of a later partition, and
never before the line.
"""
from dataclasses import dataclass, field
from fractions import Fraction
from math import ceil, floor

from common import PICO, coefficients, item, kernel_text, main, seconds
from publications import publications


class Refused(Exception):
    """Why there is no publication: the end of the line that says so, and a sentence that must stand after it."""

    def __init__(self, line, sentence=""):
        super().__init__(line)
        self.sentence = sentence


@dataclass
class Segment:
    ticks: int
    time: Fraction
    part: int
    least: Fraction  # the least and the greatest allowed rate that meets what is covered, in steps; of the first segment
    greatest: Fraction  # both are its own rate, which may be no whole number of steps
    covered: list = field(default_factory=list)
    end: str = "last"

    def rate(self, step):
        """The middle one, in whole steps."""
        return self.least * step if self.least == self.greatest else (self.least + self.greatest) // 2 * step


def rounded_up(time):
    return Fraction(ceil(time * PICO), PICO)


class Fit:
    def __init__(self, publication):
        self.clock, self.old, self.settings = publication.clock, publication.old, publication.settings
        self.observations, self.dropped = publication.observations, set()
        last, total, hold = self.old[-1][0], self.clock.total, self.settings.hold
        hold = last if hold is None else hold
        if hold < last or hold > total or self.clock.partition(hold) != self.clock.partition(last):
            raise Refused("BadHold")
        for join, (one, other) in enumerate(zip(self.old, self.old[1:]), 1):
            fall = self.line(one, other[0]) - other[1]
            if fall > Fraction(self.settings.slip_ns, 10**9):
                raise Refused(f"OldFalls;{join};{ceil(fall * 10**9)}")
        self.band = self.allowed(self.old[-1][2])
        self.seam = max(hold, last + 1)
        self.segments = [Segment(last, self.old[-1][1], self.clock.partition(last), *[self.old[-1][2] / self.settings.step] * 2)]

    def line(self, triple, tick):
        return triple[1] + triple[2] * (tick - triple[0]) / self.clock.per_count

    def allowed(self, rate):
        """The least and the greatest rate of the band, in steps."""
        of, step = Fraction(self.settings.band_ppm, 10**6), self.settings.step
        least, greatest = ceil(rate * (1 - of) / step), min(floor(rate * (1 + of) / step), floor(1000 / step))
        if least > greatest:
            raise Refused("BandEmpty")
        return least, greatest

    def limits(self, ticks, time, seen):
        """The least and the greatest rate of the band that meets an observation, one step outside where none is left."""
        lowest, highest = self.band
        low, high = (Fraction(seen.time, PICO) - time + side * self.settings.tolerance for side in (-1, 1))
        if seen.tick == ticks:
            return lowest if low <= 0 else highest + 1, highest if high >= 0 else lowest - 1
        steps = Fraction(self.clock.per_count, seen.tick - ticks) / self.settings.step
        return min(max(ceil(low * steps), lowest), highest + 1), max(min(floor(high * steps), highest), lowest - 1)

    def is_new(self, seen):
        return self.clock.partition(seen.tick) > self.segments[0].part or seen.tick > self.seam

    def run(self):
        self.new = [seen for seen in self.observations if self.is_new(seen)]
        for seen in self.new:
            now = self.segments[-1]
            there = self.line((now.ticks, now.time, now.rate(self.settings.step)), seen.tick)
            if self.clock.partition(seen.tick) != now.part:
                self.later(now, there, seen)
            elif not self.goes_on(now, there, seen):
                self.begins(now, seen)
        return self

    def later(self, now, there, seen):
        """A later partition: the anchor is its first observation, or the line before where that is later."""
        if there > Fraction(seen.time, PICO) + self.settings.tolerance:
            raise Refused(f"TimeFalls;{seen.number}")
        now.end, time = "partition", max(Fraction(seen.time, PICO), rounded_up(there))
        self.segments.append(Segment(seen.tick, time, self.clock.partition(seen.tick), *self.band, [seen]))

    def goes_on(self, now, there, seen):
        if now is self.segments[0]:
            fits = abs(there - Fraction(seen.time, PICO)) <= self.settings.tolerance
        else:
            low, high = self.limits(now.ticks, now.time, seen)
            low, high = max(low, now.least), min(high, now.greatest)
            if fits := low <= high:
                now.least, now.greatest = low, high
        if fits:
            now.covered.append(seen)
        return fits

    def begins(self, now, seen):
        """The same partition: the anchor is where the line before is left, if some rate meets the observation from there."""
        left = now.covered[-1].tick if now.covered else self.seam
        time = rounded_up(self.line((now.ticks, now.time, now.rate(self.settings.step)), left))
        low, high = self.limits(left, time, seen)
        if low <= high:
            now.end = "fixed" if now is self.segments[0] else self.blocked(now, seen)
            self.segments.append(Segment(left, time, now.part, low, high, [seen]))
        elif len(self.dropped) < self.settings.reject:
            self.dropped.add(seen.number)
        else:
            raise Refused(f"NoRate;{seen.number}", self.missed(now, seen))

    def pair(self, now, seen):
        """The first observation that asks for the greatest least rate, and the first that leaves the least greatest one."""
        asked = [(one, *self.limits(now.ticks, now.time, one)) for one in now.covered + [seen]]
        return max(asked, key=lambda one: one[1])[0], min(asked, key=lambda one: one[2])[0]

    def blocked(self, now, seen):
        low, high = self.pair(now, seen)
        return f"blocked:{low.number}:{high.number}"

    def missed(self, now, seen):
        """Why the line could not go on: the records that bar it, and how far from it they lie."""
        if now is self.segments[0]:
            return f"the record lies {self.away(now, seen)} that line."
        low, high = self.pair(now, seen)
        bars = f"too small at record {low.number} ({self.away(now, low)} the line) or too large at record"
        return f"Each allowed rate is {bars} {high.number} ({self.away(now, high)} it)."

    def away(self, now, seen):
        """How far from a line an observation lies, in microseconds; the line is floored to the picosecond."""
        there = floor(self.line((now.ticks, now.time, now.rate(self.settings.step)), seen.tick) * PICO)
        whole, part = divmod(abs(seen.time - there), 10**6)
        return f"{whole}.{part:06} us {'before' if seen.time < there else 'after'}"

    def triples(self):
        return [(one.ticks, one.time, one.rate(self.settings.step)) for one in self.segments[1:]]

    def rows(self):
        """The residual table: the time of each observation by the new kernel, floored, and what became of it."""
        kernel, new = self.old + self.triples(), {seen.number for seen in self.new}
        ends = {one.covered[-1].number: one.end for one in self.segments if one.covered}
        for seen in self.observations:
            over = [place for place, triple in enumerate(kernel, 1) if triple[0] <= seen.tick]
            if not over:
                raise Refused(f"Range;{seen.number};BeforeFirst")
            time = floor(self.line(kernel[over[-1] - 1], seen.tick) * PICO)
            mark = "dropped" if seen.number in self.dropped else "new" if seen.number in new else "old"
            times = seconds(seen.time), seconds(time), seen.time - time
            yield [seen.name, self.clock.text(seen.tick), *times, over[-1], mark, ends.get(seen.number, "")]


def published(publication):
    """The kernel that a publication must write, and the number of its new triples; or its refusal."""
    try:
        fit = Fit(publication).run()
        rows = "".join(";".join(map(str, row)) + "\n" for row in fit.rows())
    except Refused as refused:
        return f"refused;{5 if str(refused).startswith('Range') else 6};{refused}", None
    data = item("SCLK_KERNEL_ID", "=", ["@" + publication.settings.id]) if publication.settings.id else ""
    data += coefficients(publication.clock, "+=", fit.triples()) if fit.triples() else ""
    rows = f"residuals;{len(publication.observations)}\n" + rows
    return kernel_text(publication.clock, publication.old) + "\\begindata\n" + data + "\\begintext\n" + rows, fit


def sentence(publication):
    """What must stand after the line that refuses a publication."""
    try:
        Fit(publication).run()
    except Refused as refused:
        return refused.sentence
    return ""


def check(program):
    cases, fits, refusals = publications(1, 1000), [], []
    for case, answer in zip(cases, program.calls(case.asked() for case in cases)):
        wanted, fit = published(case)
        if (answer.out if fit else answer.note) != wanted:
            answer.differs("wanted:\n" + wanted + "said:\n" + answer.out + answer.note)
        if not fit and sentence(case) not in answer.told:
            answer.differs("wanted:\n" + sentence(case) + "\nsaid:\n" + answer.told)
        (fits if fit else refusals).append(fit or wanted)
    return f"{len(fits)} publications with {sum(len(fit.segments) - 1 for fit in fits)} new triples, {len(refusals)} refusals"


if __name__ == "__main__":
    main(check)
