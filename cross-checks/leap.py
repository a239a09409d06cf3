#!/usr/bin/env -S python3 -B
"""UTC to terrestrial time and back, on 2,151 instants, against the dates of IERS Bulletin C.

The second source is the list of the days that ended with second 60; the table that the program reads is that of the examples.
Each month from 1972 to 2030 is asked on its first day at 0 h, on the 15th at noon and in its last second, and each second 60.
"""
from datetime import date, timedelta

from common import LEAP_SECONDS, PICO, Clock, kernel_text, main, observation_text, seconds, table

JUNE, DECEMBER = (6, 30), (12, 31)
LONG_DAYS = {  # 27 of them; TAI - UTC was 10 s on 1972-01-01
    *(date(year, *JUNE) for year in (1972, 1981, 1982, 1983, 1985, 1992, 1993, 1994, 1997, 2012, 2015)),
    *(date(year, *DECEMBER) for year in (*range(1972, 1980), 1987, 1989, 1990, 1995, 1998, 2005, 2008, 2016)),
}
J2000 = date(2000, 1, 1)  # noon, terrestrial time
TDT_LESS_TAI = 32184 * PICO // 1000


def tdt(day, second):
    """Picoseconds past J2000 of a second of a day in UTC; second 60 is 86400."""
    tai_less_utc = 10 + sum(long < day for long in LONG_DAYS)
    return ((day - J2000).days * 86400 - 43200 + second + tai_less_utc) * PICO + TDT_LESS_TAI


def code_a(day, second):
    minute, left = divmod(min(second, 86399), 60)
    return f"{day}T{minute // 60:02}:{minute % 60:02}:{left + second // 86400:02}"


def instants():
    for month in range(1972 * 12, 2031 * 12):
        first, following = (date(n // 12, n % 12 + 1, 1) for n in (month, month + 1))
        last = following - timedelta(1)
        yield from ((first, 0), (first.replace(day=15), 43200), (last, 86399))
        if last in LONG_DAYS:
            yield last, 86400


def check(program):
    asked = list(instants())
    epoch = tdt(*asked[0])
    clock = Clock(99, [10**10, 4], [0, 0], 2, [(0, 10**11)])  # quarters of a second of terrestrial time from 1972 on
    kernel = kernel_text(clock, [(0, seconds(epoch), 1)])
    ticks = [4 * (tdt(*one) - epoch) // PICO for one in asked]
    records = [(f"u{n}", f"tick:{n}", f"utc:{code_a(*one)}Z", 0) for n, one in enumerate(asked)]
    answer = program.call("residuals", kernel=kernel, obs=observation_text(records), leap=LEAP_SECONDS, sc=99).done()
    for one, row in zip(asked, table(answer.out), strict=True):
        if row[2] != seconds(tdt(*one)):
            answer.differs(f"{code_a(*one)} is {seconds(tdt(*one))}, and not {row[2]}")
    back = [("convert", dict(kernel=kernel, leap=LEAP_SECONDS, sc=99, clock=f"tick:{tick}")) for tick in ticks]
    for one, answer in zip(asked, program.calls(back)):
        said, wanted = answer.done().out.strip().split(";"), [seconds(tdt(*one)), code_a(*one) + "." + 12 * "0" + "Z"]
        if said[2:] != wanted:
            answer.differs(f"wanted {wanted}, and not {said[2:]}")
    return f"{len(asked)} instants to terrestrial time and back, {sum(second == 86400 for _, second in asked)} of them second 60"


if __name__ == "__main__":
    main(check)
