#!/usr/bin/env -S python3 -B
"""A decoder of time codes, after CCSDS 301.0-B-4: section 3.2 (CUC) and section 3.3 (CDS).

3,000 random codes as times of observations, 1,000 CUC codes as readings of the clock, and codes that must be refused. The
decoder takes a code apart bit by bit, as text; what the station narrows (fraction octets, epochs) is said where it is.
"""
import random
from datetime import date, timedelta
from fractions import Fraction
from math import floor

from common import LEAP_SECONDS, PICO, Clock, kernel_text, main, observation_text, seconds, table
from leap import LONG_DAYS, TDT_LESS_TAI, tdt

EPOCH = date(1958, 1, 1)
FIRST_DAY, LAST_DAY = (date(1972, 1, 1) - EPOCH).days, (date(2285, 1, 1) - EPOCH).days
REACH = 9 * 10**9 * PICO  # the station takes no times beyond
LONG = sorted((day - EPOCH).days for day in LONG_DAYS)


def bits(octet):
    return f"{octet:08b}"


def cuc(code):
    """Fraction octets, and the number that the T-field spells, of a CUC code."""
    first, rest = bits(code[0]), code[1:]
    assert first[1:4] in ("001", "010")
    basic, parts = int(first[4:6], 2) + 1, int(first[6:], 2)
    if first[0] == "1":
        second, rest = bits(rest[0]), rest[1:]
        assert second[0] == "0"
        basic, parts = basic + int(second[1:3], 2), parts + int(second[3:6], 2)
    assert len(rest) == basic + parts
    return parts, int(rest.hex(), 16)


def cuc_time(code):
    """Picoseconds past J2000: seconds of TAI from 1958 on, floored."""
    parts, number = cuc(code)
    tai = Fraction(number, 256**parts) - ((date(2000, 1, 1) - EPOCH).days * 86400 + 43200)
    return floor(tai * PICO) + TDT_LESS_TAI


def cds_time(code):
    """Picoseconds past J2000: days from 1958 on and milliseconds of a day of UTC."""
    field, rest = bits(code[0]), code[1:].hex()
    assert field[:5] == "01000"
    day, rest = (rest[:4], rest[4:]) if field[5] == "0" else (rest[:6], rest[6:])
    milli, sub = int(rest[:8], 16), rest[8:]
    unit = {"00": 0, "01": 10**6, "10": 1}[field[6:]]
    part = int(sub, 16) * unit if sub else 0
    return tdt(EPOCH + timedelta(int(day, 16)), 0) + milli * 10**9 + part


def random_cuc(rng, most, epoch=1, parts=None):
    """A CUC code of fewer than so many seconds: up to 7 basic octets, up to 6 of a fraction (the standard has up to 10)."""
    second = rng.random() < 0.6 or (parts or 0) > 3
    extra = rng.randrange(4) if second else 0
    basic = rng.randint(1, 4)
    parts = rng.randint(0, 6 if second else 3) if parts is None else parts
    inner = rng.randint(0, min(3, parts)) if second else parts
    field = [(second << 7) | (epoch << 4) | (basic - 1) << 2 | inner]
    if second:
        field.append(extra << 5 | (parts - inner) << 2 | rng.randrange(4))
    width = basic + extra
    number = rng.randrange(min(256**width, most)) * 256**parts + rng.randrange(256**parts)
    return bytes(field) + number.to_bytes(width + parts, "big")


def random_cds(rng):
    """A CDS code with the epoch 1958, of a day that the leap seconds reach; at times inside second 60."""
    wide, sub = rng.randrange(2), rng.randrange(3)
    day = rng.choice([rng.randint(FIRST_DAY, LAST_DAY if wide else 65535), rng.choice(LONG)])
    milli = rng.randrange(86400000 + 1000 * (day in LONG))
    milli = rng.randint(86400000, 86400999) if day in LONG and rng.random() < 0.5 else milli
    field = 0b01000000 | wide << 2 | sub
    below = [b"", rng.randrange(1000).to_bytes(2, "big"), rng.randrange(10**9).to_bytes(4, "big")][sub]
    return bytes([field]) + day.to_bytes(2 + wide, "big") + milli.to_bytes(4, "big") + below


def times(program, kernel, count):
    rng, records, wanted = random.Random(301), [], []
    while len(records) < count:
        kind = rng.choice(["cuc", "cds"])
        code = random_cuc(rng, 10325419200) if kind == "cuc" else random_cds(rng)
        delay = rng.choice([0, rng.randrange(10**10), rng.randrange(10**14)])
        seen = {"cuc": cuc_time, "cds": cds_time}[kind](code) - delay * 1000
        if abs(seen) <= REACH:
            wanted.append(seen)
            records.append((f"c{len(records)}", f"tick:{len(records)}", f"{kind}:{code.hex()}", delay))
    answer = program.call("residuals", kernel=kernel, leap=LEAP_SECONDS, obs=observation_text(records), sc=99).done()
    for record, seen, row in zip(records, wanted, table(answer.out), strict=True):
        if row[2] != seconds(seen):
            answer.differs(f"{record[2]} less {record[3]} ns is {seconds(seen)}, and not {row[2]}")
    return len(records)


def readings(program, parts, count):
    """CUC codes of either epoch as readings of a clock with that many fraction octets."""
    rng = random.Random(parts)
    counts, fields = 2**48 >> 8 * parts, 2 if parts else 1
    clock = Clock(99, [counts, 256**parts][:fields], [0, 0][:fields], 1, [(0, 2**48 - 1)])
    codes = {}
    while len(codes) < count:
        code = random_cuc(rng, counts, epoch=rng.choice([1, 2]), parts=parts)
        codes[cuc(code)[1]] = code
    words = [rng.choice(["cuc:", "cuc:1/"]) + code.hex() for _, code in sorted(codes.items())]
    records = [(f"c{n}", word, f"tdt:{n}", 0) for n, word in enumerate(words)]
    answer = program.call("residuals", kernel=kernel_text(clock, [(0, 0, 1)]), obs=observation_text(records), sc=99).done()
    for record, tick, row in zip(records, sorted(codes), table(answer.out), strict=True):
        if row[1] != clock.text(tick):
            answer.differs(f"{record[1]} is {clock.text(tick)}, and not {row[1]}")
    return len(codes)


EDGES = {  # why a code is none, or why the station does not take it as a time; the last ones are taken
    "Hex": ["cuc:1", "cuc:1g", "cds:4"],
    "Cuc;Empty": ["cuc:"],
    "Cuc;NotCuc": ["cuc:3e000000000000", "cuc:4e000000000000"],
    "Cuc;ThirdOctet": ["cuc:9f9c00000000"],
    "Cuc;FractionWidth": ["cuc:9f1000000000000000000000", "cuc:9f1c"],
    "Cuc;Length": ["cuc:1e0000000000", "cuc:1e00000000000000", "cuc:9e", "cuc:9e0c000000000000", "cuc:ae000000000000000000"],
    "CucAgencyEpoch": ["cuc:2e000000000000"],
    "Cds;Empty": ["cds:"],
    "Cds;NotCds": ["cds:50157000000000"],
    "Cds;Extension": ["cds:c0157000000000"],
    "Cds;AgencyEpoch": ["cds:48157000000000"],
    "Cds;Reserved": ["cds:43157000000000"],
    "Cds;Length": ["cds:401570000000", "cds:44157000000000"],
    "Cds;SubRange": ["cds:4115700000000003e8", "cds:421570000000003b9aca00"],
    None: ["cds:411570000000000000", "cds:421570000000003b9ac9ff", "cds:40542d05265c00", "cds:40542d05265fe7"],
}


def edges(program, kernel):
    """One call for each code, as a refusal names the first bad record."""
    asked = [(reason, code) for reason, codes in EDGES.items() for code in codes]
    files = dict(kernel=kernel, leap=LEAP_SECONDS, sc=99)
    calls = [("residuals", dict(files, obs=observation_text([("c", "tick:0", code, 0)]))) for _, code in asked]
    for (reason, code), answer in zip(asked, program.calls(calls)):
        wanted = f"refused;5;Record;2;CodeRefused;{reason}" if reason else ""
        if answer.note != wanted:
            answer.differs(f"{code}: wanted {wanted or 'a table'}, and not {answer.note or 'a table'}")
    return len(asked)


def check(program):
    kernel = kernel_text(Clock(99, [2**32, 256], [0, 0], 1, [(0, 2**40 - 1)]), [(0, 0, 1)])
    decoded = times(program, kernel, 3000)
    read = sum(readings(program, parts, 200) for parts in range(5))
    return f"{decoded} codes as times, {read} as readings, {edges(program, kernel)} at the edge of what is taken"


if __name__ == "__main__":
    main(check)
