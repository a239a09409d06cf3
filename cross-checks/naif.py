#!/usr/bin/env -S python3 -B
"""A reader of clock kernels in double precision, by NAIF's Kernel and SCLK Required Reading, on kernels that the station wrote.

Where SCLK Required Reading says "ephemeris time" this stays in terrestrial time, the kernel's own system (2). At, beside and
between the triples of each kernel: the times are the same within 2e-7 s, the width of two doubles; the clock strings are the
same letters; and strings, ticks and times go back to where they came from.
"""
import random
import re
from math import floor

from common import main, observation_text, table
from publications import publications

NEAR = 2e-7  # seconds


class Pool(dict):
    """The kernel pool: `=` sets a variable, `+=` adds to it. Data lines have at most 132 characters."""

    def __init__(self, text):
        data, words = False, []
        if not text.startswith("KPL/SCLK\n"):
            raise ValueError("not an SCLK text kernel")
        for line in text.split("\n"):
            if line.strip() in ("\\begindata", "\\begintext"):
                data = line.strip() == "\\begindata"
            elif data:
                if len(line) > 132:
                    raise ValueError("a data line is too long")
                words += re.findall(r"\+=|=|[(),]|'[^']*'|[^\s=(),']+", line)
        for at, word in enumerate(words):
            if word in ("=", "+="):
                name, end = words[at - 1], words.index(")", at) if words[at + 1] == "(" else at + 2
                values = [self.value(one) for one in words[at + 1 : end] if one not in "(,"]
                self[name] = values if word == "=" else self.get(name, []) + values

    @staticmethod
    def value(word):
        return word if word[0] in "@'" else float(re.sub("[dD]", "e", word))


class Sclk:
    """A clock of type 1, by the names of the toolkit's calls."""

    def __init__(self, text, number):
        pool = Pool(text)
        get = lambda name: pool[f"{name}_{number}"]
        self.moduli, self.offsets = get("SCLK01_MODULI"), get("SCLK01_OFFSETS")
        self.starts, self.ends = get("SCLK_PARTITION_START"), get("SCLK_PARTITION_END")
        self.mark = " .:-, "[int(get("SCLK01_OUTPUT_DELIM")[0])]
        values = get("SCLK01_COEFFICIENTS")
        self.records = [values[at : at + 3] for at in range(0, len(values), 3)]
        assert get("SCLK_DATA_TYPE") == [1] and get("SCLK01_TIME_SYSTEM") == [2] and get("SCLK01_N_FIELDS") == [len(self.moduli)]
        self.weights = [1.0]  # ticks of a count of each field
        for modulus in reversed(self.moduli[1:]):
            self.weights.insert(0, self.weights[0] * modulus)
        self.totals = [0.0]  # ticks before each partition, and after the last one
        for start, end in zip(self.starts, self.ends):
            self.totals.append(self.totals[-1] + end - start)

    def scencd(self, string):
        """The encoded ticks of a clock string; without a partition it belongs to the first one that has it."""
        part, _, rest = string.rpartition("/")
        fields = [float(word) for word in re.split(r"[.:,\- ]+", rest)]
        ticks = sum((field - offset) * weight for field, offset, weight in zip(fields, self.offsets, self.weights))
        spans = list(zip(self.starts, self.ends))
        place = int(part) - 1 if part else next(n for n, (start, end) in enumerate(spans) if start <= ticks <= end)
        assert self.starts[place] <= ticks <= self.ends[place]
        return ticks - self.starts[place] + self.totals[place]

    def scdecd(self, sclkdp):
        """The clock string of encoded ticks."""
        place = max(n for n, total in enumerate(self.totals[:-1]) if total <= sclkdp)
        ticks, words = sclkdp - self.totals[place] + self.starts[place], []
        for modulus, offset, weight in zip(self.moduli, self.offsets, self.weights):
            field, ticks = divmod(ticks, weight)
            words.append(f"{int(field + offset):0{len(str(int(modulus + offset - 1)))}}")
        return f"{place + 1}/" + self.mark.join(words)

    def record(self, sclkdp):
        return max(record for record in self.records if record[0] <= sclkdp)

    def sct2e(self, sclkdp):
        ticks, time, rate = self.record(sclkdp)
        return time + rate / self.weights[0] * (sclkdp - ticks)

    def sce2c(self, time):
        place = max(n for n, record in enumerate(self.records) if record[1] <= time)
        ticks, begun, rate = self.records[place]
        sclkdp = ticks + (time - begun) * self.weights[0] / rate
        return min(sclkdp, self.records[place + 1][0]) if place + 1 < len(self.records) else sclkdp


def chosen(rng, sclk, total):
    """Ticks at and beside each triple and each end of a partition, and some between."""
    marks = [floor(record[0]) for record in sclk.records] + [floor(end) for end in sclk.totals[1:]]
    first, last = marks[0], marks[len(sclk.records) - 1]
    ticks = {mark + step for mark in marks for step in (-1, 0, 1)} | {rng.randint(first, 2 * last + 1000) for _ in range(20)}
    return sorted(tick for tick in ticks if first <= tick <= total)


def compare(program, case, kernel, rng):
    """The ticks of one kernel; answers how many, and the greatest difference of times."""
    sclk, number = Sclk(kernel, case.clock.number), case.clock.number
    ticks = chosen(rng, sclk, case.clock.total)
    asked = observation_text((f"t{tick}", f"tick:{tick}", "tdt:0", 0) for tick in ticks)
    answer, worst = program.call("residuals", kernel=kernel, obs=asked, sc=number).done(), 0
    for tick, row in zip(ticks, table(answer.out), strict=True):
        off = abs(sclk.sct2e(tick) - float(row[3]))
        back = abs(sclk.sce2c(float(row[3])) - tick) * sclk.record(tick)[2] / sclk.weights[0]
        if row[1] != sclk.scdecd(tick) or sclk.scencd(row[1]) != tick or off > NEAR or (back > NEAR and not case.falls()):
            answer.differs(f"tick {tick}: {sclk.scdecd(tick)}, off by {off} s, back by {back} s")
        worst = max(worst, off)
    words = [rng.choice(ticks) for _ in range(3)]
    asked = [("convert", dict(kernel=kernel, sc=number, clock=sclk.scdecd(tick))) for tick in words]
    for tick, answer in zip(words, program.calls(asked)):
        text, encoded, time, _ = answer.done().out.strip().split(";")
        if (text, int(encoded)) != (sclk.scdecd(tick), tick) or abs(float(time) - sclk.sct2e(tick)) > NEAR:
            answer.differs(f"wanted {sclk.scdecd(tick)}, {tick}")
    return len(ticks) + len(words), worst


def check(program):
    rng, counts, worst = random.Random(1), [], 0
    cases = publications(77, 120)
    answers = zip(cases, program.calls(case.asked() for case in cases))
    for case, answer in answers:
        if answer.status == 0:
            count, off = compare(program, case, answer.out, rng)
            counts, worst = counts + [count], max(worst, off)
    return f"{len(counts)} kernels, {sum(counts)} ticks and strings, times within {worst:.1e} s"


if __name__ == "__main__":
    main(check)
