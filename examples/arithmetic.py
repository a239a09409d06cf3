#!/usr/bin/env python3
"""What the examples must write, by exact fractions and apart from the station.

    arithmetic.py

prints each number that the expected files hold, under the name of its file. It reads no kernel and no observations:
the coefficients, and what each record says, are written out here as a person reads them. examples/TOUR.md tells what
the commands are.
"""
import datetime
import math
from fractions import Fraction

COUNT = 65536  # ticks of a count, which is a second by the clock's own idea
TRIPLES = [  # ticks, TDT in seconds past J2000, seconds a count
    (0, Fraction("757339269.184"), Fraction("1")),
    (56623104000, Fraction("758203269.1842"), Fraction("1.0000000002")),
    (113246208000, Fraction("759067269.18438"), Fraction("1.00000000018")),
]
TDT_LESS_TAI = Fraction("32.184")
TAI_LESS_UTC = 37  # from 2017-01-01 on
J2000 = datetime.datetime(2000, 1, 1, 12)


def picoseconds(seconds):
    """Floored."""
    return seconds.numerator * 10**12 // seconds.denominator


def time_of(tick):
    """The number of the last triple that has begun, and the time of the tick by it, in picoseconds."""
    number = max(n for n, triple in enumerate(TRIPLES, 1) if triple[0] <= tick)
    ticks, time, rate = TRIPLES[number - 1]
    return number, picoseconds(time + rate * Fraction(tick - ticks, COUNT))


def tick(count, part):
    return count * COUNT + part


def clock_text(encoded):
    return "1/%010d.%05d" % divmod(encoded, COUNT)


def decimals(units):
    return "%d.%012d" % divmod(units, 10**12)


def utc_text(units):
    """Code A of a time; none of the examples falls on a leap second."""
    whole, part = divmod(units - picoseconds(TDT_LESS_TAI + TAI_LESS_UTC), 10**12)
    return (J2000 + datetime.timedelta(seconds=whole)).strftime("%Y-%m-%dT%H:%M:%S") + ".%012dZ" % part


def of_utc(day, seconds):
    """The time of the second of a day, in UTC."""
    midnight = datetime.datetime.combine(day, datetime.time()) - J2000
    return picoseconds(midnight.days * 86400 + midnight.seconds + seconds + TAI_LESS_UTC + TDT_LESS_TAI)


def of_tai(count):
    """The time of a count of seconds from 1958-01-01 TAI."""
    return picoseconds(count - 1325419200 + TDT_LESS_TAI)


def of_tdt(seconds):
    return picoseconds(Fraction(seconds))


# id, tick, time, delay in nanoseconds
PASS_021 = [
    ("dss14-021-0412", 114189959168, of_tdt("759081670.934406"), 1250000000),
    ("dss14-021-0642", 114779751424, of_tdt("759090670.45075"), 1250700000),
    ("dss43-022-1105", 121484148735, of_tdt("759192971.440675"), 1256300000),
]
PASS_022 = [
    # 2024-01-22, 23:00:01.513834
    ("dss24-022-2300", tick(1897200, 16384), of_utc(datetime.date(2024, 1, 22), 82801 + Fraction("0.513834")), 1263400000),
    # coarse 001cf9f8, fine a000; day 22 of 2024, 23:30:01.8890998
    ("dss24-022-2330", tick(0x1CF9F8, 0xA000), of_utc(datetime.date(2024, 1, 22), 84601 + Fraction("0.8890998")), 1263700000),
    # day 5e40 from 1958-01-01, millisecond 001b7c30, microsecond 02ec
    ("dss54-023-0030", 124688793600, of_utc(datetime.date(1958, 1, 1) + datetime.timedelta(days=0x5E40), Fraction(0x1B7C30 * 1000 + 0x2EC, 10**6)), 1264300000),
    # coarse 7c416e36 and fine 63d749 of 1 / 2^24 s
    ("dss54-023-0100", tick(1904400, 8192), of_tai(0x7C416E36 + Fraction(0x63D749, 2**24)), 1264600000),
]


def table(records):
    print("residuals;%d" % len(records))
    for name, encoded, sent, delay in records:
        number, time = time_of(encoded)
        observed = sent - delay * 1000
        print(name, clock_text(encoded), decimals(observed), decimals(time), observed - time, number, "old;", sep=";")


def steps(anchor, step, sight, slack):
    """The rate, in steps, of the line from the anchor that passes the sight so many picoseconds above."""
    _, encoded, observed, _ = sight
    return (observed + slack - anchor[1] * 10**12) * COUNT / ((encoded - anchor[0]) * step * 10**12)


def rates(anchor, step, sights, tolerance):
    """The least and the greatest rate that stays within the tolerance of the sights, in steps."""
    least = max(math.ceil(steps(anchor, step, sight, -tolerance)) for sight in sights)
    greatest = min(math.floor(steps(anchor, step, sight, tolerance)) for sight in sights)
    return least, greatest


def published(records, tolerance, step):
    """The block that a publication adds where the old last triple is left after an observation and one new triple is within the
    tolerance of all that follow, as here."""
    sights = [(name, encoded, sent - delay * 1000, number) for number, (name, encoded, sent, delay) in enumerate(records, 2)]
    within = [abs(time_of(encoded)[1] - observed) <= tolerance for _, encoded, observed, _ in sights]
    left = within.index(False) - 1
    ticks, time, rate = TRIPLES[-1]
    there = (time + rate * Fraction(sights[left][1] - ticks, COUNT)) * 10**12
    anchor = (sights[left][1], Fraction(math.ceil(there), 10**12))
    least, greatest = rates(anchor, step, sights[left + 1 :], tolerance)
    assert least <= greatest
    TRIPLES.append((*anchor, (least + greatest) // 2 * step))
    ends = {left: "fixed", len(sights) - 1: "last"}
    print(*map(plain, TRIPLES[-1]))
    print("residuals;%d" % len(sights))
    for place, (name, encoded, observed, _) in enumerate(sights):
        number, time = time_of(encoded)
        print(name, clock_text(encoded), decimals(observed), decimals(time), observed - time, number, "new", ends.get(place, ""), sep=";")


def slopes(sights, slack):
    """The slope of each pair of sights if its later time moves by so many picoseconds, and the numbers of the two records. A pair
    with an earlier later sight comes first."""
    return [(Fraction(b[3] - a[3] + slack, b[2] - a[2]), a[0], b[0]) for place, b in enumerate(sights) for a in sights[:place]]


def least(records, tolerance):
    """The longest runs of observations that one line is within the tolerance of, in one partition as here: of no run is the
    greatest slope that a pair needs above the least one that a pair has room for."""
    sights = [(number, name, encoded, sent - delay * 1000) for number, (name, encoded, sent, delay) in enumerate(records, 2)]
    runs = []
    while sights:
        count, end = len(sights), "last"
        for past in range(2, len(sights) + 1):
            need = max(slopes(sights[:past], -2 * tolerance), key=lambda pair: pair[0])
            room = min(slopes(sights[:past], 2 * tolerance), key=lambda pair: pair[0])
            if room[0] < need[0]:
                count, end = past - 1, "bent:%d:%d:%d:%d" % (*need[1:], *room[1:])
                break
        runs.append((sights[0][1], sights[count - 1][1], end))
        del sights[:count]
    print("least;%d" % len(runs))
    for run in runs:
        print(*run, sep=";")


def plain(number):
    """The decimals of the number, without zeros at the end."""
    places = next(s for s in range(19) if (Fraction(number) * 10**s).denominator == 1)
    whole, part = divmod(int(number * 10**places), 10**places)
    return "%d.%0*d" % (whole, places, part) if places else "%d" % whole


def line(encoded, utc_of):
    time = time_of(encoded)[1]
    print(clock_text(encoded), encoded, decimals(time), utc_of(time), sep=";")


def dated(year, day, hour, minute, second):
    """A calendar time of TDT: days of 86400 s from 2000-01-01 12:00 on."""
    days = (datetime.date(year, 1, 1) - datetime.date(2000, 1, 1)).days + day - 1
    return days * 86400 - 43200 + hour * 3600 + minute * 60 + Fraction(second)


LANDER_COUNT = 50000
LANDER = [  # 2006-01-19 and day 29 of 2006
    (0, dated(2006, 19, 18, 9, "5.184"), Fraction("1")),
    (43200000000, dated(2006, 29, 18, 9, "5.184"), Fraction("1.0000000002")),
]


def lander_line(count, part):
    encoded = count * LANDER_COUNT + part
    ticks, time, rate = [triple for triple in LANDER if triple[0] <= encoded][-1]
    units = picoseconds(time + rate * Fraction(encoded - ticks, LANDER_COUNT))
    print("1/%010d:%05d" % (count, part), encoded, decimals(units), "-", sep=";")


print("pass-021.residuals")
table(PASS_021)
print("pass-022.residuals")
table(PASS_022)
print("reading.converted")
line(tick(1742400, 32768), lambda time: "-")
print("shutter.converted")
line(tick(0x1CFDE0, 0x4000), utc_text)
print("lander.converted")
lander_line(950400, 25000)
print("pass-022.least")
least(PASS_022, 20000 * 1000)
print("pass-022.published, after orbiter.canonical")
published(PASS_022, 30000 * 1000, Fraction(1, 10**12))
