"""The largest files that are taken, and those that are one more: bytes, records, triples, partitions."""
import texts
from texts import HEADER, LIMIT, PARTITIONS, RECORDS, SMALL, TRIPLES

COEFFICIENTS = "SCLK01_COEFFICIENTS_99 = (\n0 0 1\n)\n"


def filled(start, line, size):
    """A text of just as many bytes: the start, and then lines, the last of which begins with as much as is missing."""
    missing = size - len(start) - len(line)
    return start + line * (missing // len(line)) + line[:1] * (missing % len(line)) + line


def kernel_of(triples):
    return SMALL.replace(COEFFICIENTS, "SCLK01_COEFFICIENTS_99 = (\n" + "".join(f"{one}\n" for one in triples) + ")\n")


def partitioned(count, ticks):
    """The small kernel with so many partitions of so many ticks each."""
    kernel = SMALL.replace("START_99 = 0\n", "START_99 = (\n" + "0\n" * count + ")\n")
    return kernel.replace("END_99 = 1099511627775\n", "END_99 = (\n" + f"{ticks}\n" * count + ")\n")


def records(count):
    return HEADER + "".join(f"r,tick:{number},tdt:0,0\n" for number in range(1, count + 1))


def taken_or_refused(report, told, end, out, line):
    """The largest is done with this output; one more, for which there is none, is refused with this line."""
    report.is_done(told, end, out) if out else report.is_refused(told, end, line)


def bytes_of_files(report):
    report.write(**texts.FILES)
    for size in (LIMIT, LIMIT + 1):
        kernel = filled(SMALL, "x\n", size)
        report.write(large=kernel)
        end = report.run("normal --kernel=large")
        told = f"a kernel of {size} bytes"
        taken_or_refused(report, told, end, size == LIMIT and kernel.encode(), "refused;4;TooLong")
        report.write(large=filled(texts.PASS, "\n", size))
        end = report.run("publish --leap=l --kernel=k --obs=large --sc=99")
        told = f"observations of {size} bytes"
        taken_or_refused(report, told, end, size == LIMIT and texts.PUBLISHED, "refused;5;TooLong")
        report.write(large=filled(texts.LEAP.decode(), "x\n", size))
        end = report.run("publish --leap=large --kernel=k --obs=o --sc=99")
        told = f"leap seconds of {size} bytes"
        taken_or_refused(report, told, end, size == LIMIT and texts.PUBLISHED, "refused;3;TooLong")


def published_grows(report):
    """What is published may be longer than a file may be; it is then refused when it is read."""
    report.write(k=filled(SMALL, "x\n", LIMIT), o=HEADER + "a,tick:256000,tdt:1000.002,0\n")
    end = report.run("publish --kernel=k --obs=o --sc=99")
    report.check("published upon the longest kernel", end.status == 0 and len(end.out) > LIMIT and not end.notes, end)
    report.write(k=end.out)
    report.is_refused("and read again", report.run("normal --kernel=k"), "refused;4;TooLong")


def records_of_observations(report):
    """What the small kernel says of a tick is its 256th part of a second; each was observed at 0."""
    report.write(k=SMALL)
    row = "r;1/{0:010}:{1:03};0.000000000000;{2};-{3};1;old;\n"
    pico = 10**12 // 256
    for count in (RECORDS, RECORDS + 1):
        report.write(o=records(count))
        end = report.run("residuals --kernel=k --obs=o --sc=99")
        if count == RECORDS:
            wanted = f"residuals;{count}\n" + "".join(
                row.format(tick // 256, tick % 256, f"{tick * pico // 10**12}.{tick * pico % 10**12:012}", tick * pico)
                for tick in range(1, count + 1)
            )
            report.is_done(f"{count} records", end, wanted.encode())
        else:
            report.is_refused(f"{count} records", end, "refused;5;TooMany")
    report.write(o=records(RECORDS + 1).replace(f"tick:{RECORDS + 1},tdt:0,0", "nonsense"))
    end = report.run("residuals --kernel=k --obs=o --sc=99")
    report.is_refused("one record more, of two fields", end, f"refused;5;Record;{RECORDS + 2};FieldCount")


def line_of_all(report):
    """One new triple that covers as many records as a file may have; each lies 0.000001953125 s after its line."""
    seconds = lambda tenths: f"{tenths // 10}.{tenths % 10}"
    asked = (f"r,tick:{256000 * k},tdt:{seconds(10005 * k)},0\n" for k in range(1, RECORDS + 1))
    report.write(k=SMALL, o=HEADER + "".join(asked))
    end = report.run("publish --kernel=k --obs=o --sc=99")
    rows = []
    for k in range(1, RECORDS + 1):
        units = 10005 * k * 10**11  # picoseconds
        observed, line = ("{}.{:012}".format(*divmod(one, 10**12)) for one in (units, units - 1953125))
        rows.append(f"r;1/{1000 * k:010}:000;{observed};{line};1953125;2;new;{'last' * (k == RECORDS)}\n")
    block = f"\\begindata\nSCLK01_COEFFICIENTS_99 += (\n1 0.00390625 1.0005\n)\n\\begintext\nresiduals;{RECORDS}\n"
    report.is_done(f"{RECORDS} records published", end, (SMALL + block + "".join(rows)).encode())


def triples_of_kernels(report):
    """As many triples as may be, one more, and one more by a publication."""
    triples = [f"{256 * k} {k} 1" for k in range(TRIPLES + 1)]
    report.write(most=kernel_of(triples[:-1]), more=kernel_of(triples), o=HEADER)
    words = "residuals --kernel={} --obs=o --sc=99"
    report.is_done(f"{TRIPLES} triples", report.run(words.format("most")), b"residuals;0\n")
    report.is_refused(f"{TRIPLES + 1} triples", report.run(words.format("more")), "refused;4;Triples;TooMany")
    report.write(o=HEADER + "a,tick:25600000,tdt:100000.002,0\n")
    end = report.run("publish --kernel=most --obs=o --sc=99")
    report.is_refused(f"{TRIPLES} triples and a new one", end, "refused;6;TooMany")
    report.write(most=kernel_of(triples[: TRIPLES - 1]))
    end = report.run("publish --kernel=most --obs=o --sc=99")
    report.check(f"{TRIPLES - 1} triples and a new one: done", end.status == 0 and not end.notes, end)


def partitions_of_clocks(report):
    """As many partitions as may be, of 100 ticks each, and one more."""
    for count in (PARTITIONS, PARTITIONS + 1):
        report.write(k=partitioned(count, 100))
        end = report.run(f"convert --kernel=k --sc=99 --clock={PARTITIONS}/0:100")
        told = f"{count} partitions"
        if count == PARTITIONS:
            tick = 100 * PARTITIONS
            pico = tick * 10**12 // 256
            wanted = f"{PARTITIONS}/0000000000:100;{tick};{pico // 10**12}.{pico % 10**12:012};-\n"
            report.is_done(told, end, wanted.encode())
        else:
            report.is_refused(told, end, "refused;4;Clock;BadPartitions")


def check(report):
    bytes_of_files(report)
    published_grows(report)
    records_of_observations(report)
    line_of_all(report)
    triples_of_kernels(report)
    partitions_of_clocks(report)
