#!/usr/bin/env -S python3 -B
"""The fewest lines that meet the observations of random publications, by all pairs of observations.

One line is within the tolerance of some observations exactly where no pair of them needs a steeper line than another pair
leaves. What a pair needs is the slope to its later time moved down by twice the tolerance; what it leaves is the slope to that
time moved up as far. A run ends before the first observation with which this fails, or which is in another partition. Such runs,
one after another, are the fewest: so no publication that takes all observations has fewer lines either.
"""
from fractions import Fraction

from common import PICO, main, table
from headline import triples
from publications import publications


def slopes(earlier, later, moved):
    """The slope from each to the later one, whose time moves by so many picoseconds, and the numbers of the two records."""
    for one in earlier:
        yield Fraction(later.time - one.time + moved, later.tick - one.tick), one.number, later.number


def longest(clock, seen, twice):
    """How many observations the first run has, and why it ends."""
    need, room = [], []  # the steepest slope that a pair needs, and the flattest that one leaves; of equal ones the first
    for count in range(1, len(seen)):
        if clock.partition(seen[count].tick) != clock.partition(seen[0].tick):
            return count, "partition"
        need = [max(need + list(slopes(seen[:count], seen[count], -twice)), key=lambda pair: pair[0])]
        room = [min(room + list(slopes(seen[:count], seen[count], twice)), key=lambda pair: pair[0])]
        if need[0][0] > room[0][0]:
            return count, "bent:" + ":".join(map(str, need[0][1:] + room[0][1:]))
    return len(seen), "last"


def runs(publication):
    """The first and the last observation of each run, and why it ends."""
    seen, twice = publication.observations, int(2 * publication.settings.tolerance * PICO)
    while seen:
        count, end = longest(publication.clock, seen, twice)
        yield seen[0].name, seen[count - 1].name, end
        seen = seen[count:]


def check(program):
    cases, ends, fitted = publications(1, 200), [], 0
    asked = [case.asked()[1] for case in cases]
    told, published = program.calls(("least", options) for options in asked), program.calls(("publish", options) for options in asked)
    for case, answer, kernel in zip(cases, told, published):
        wanted = list(runs(case))
        if answer.done().out != f"least;{len(wanted)}\n" + "".join(";".join(run) + "\n" for run in wanted):
            answer.differs(f"wanted {wanted}, said:\n{answer.out}")
        if not kernel.status and all(row[6] == "new" for row in table(kernel.out)):
            fitted += 1
            if 1 + len(triples(kernel.out, case.clock.number)) - len(case.old) < len(wanted):
                kernel.differs(f"has fewer lines than {len(wanted)}")
        ends += [end.partition(":")[0] for _, _, end in wanted]
    return f"{len(ends)} lines, {ends.count('bent')} of them bent and {ends.count('partition')} of a partition, {fitted} publications"


if __name__ == "__main__":
    main(check)
