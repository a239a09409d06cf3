"""How files, options and words are mutated: bytes, numbers, lines, and words that are hostile to some form."""
import re

HOSTILE = """
0 1 -1 +1 1. .1 . - + -0 00 1e0 1E+38 1E-38 1e39 1e-39 1D10 1e 1e+ 1e99999999999999999999 0e99999999999999999999
0.00000000000000000000000000000000000001 170141183460469231731687303715884105727 170141183460469231731687303715884105728
9007199254740991 9007199254740992 4294967296 4294967297 9000000000 9000000001 10000000000 -10000000000.000000000001
1000 1000.1 1e-15 1e-18 1e-19 16777216 99999999999999999999999999999999999999999
@ @x @2000-001 @2000-JAN-1 @29-FEB-2023 @2399-12-31T23:59:59 @1600-01-01 @2000-01-01T12:00:60
( ) , ,, () (, = += =+ 'x' '' ''' ' \\begindata \\begintext " "" ; \\ --
tick: tick:0 tick:1099511627776 tick:99999999999999999 1/ 0/1 9999/1 10000/1 2/0:0 1/0.0 1/0.0.0 0:0:0 / :
cuc: cuc:1 cuc:1e000000000000 cuc:2e001cfde04000 cuc:9e04 cuc:9999/1d00 cds: cds:403bec02932e00 cds:43 cds:41
tdt: tdt:0 tdt:1e-12 tdt:1e-13 tdt:9000000000 tdt:9000000000.000000000001
utc: utc:2016-12-31T23:59:60 utc:2016-366T23:59:60.5Z utc:2015-12-31T23:59:60 utc:0001-01-01T00:00:00
""".split()
HOSTILE += ["\t", "\r", "\n", "\r\n", "\0", "\x80", "\xff", "\xef\xbb\xbf", "\x1a", "\x7f"]
HOSTILE += [" " * 200, "9" * 200, "x" * 5000, "\n" * 300, "0" * 140, "'" * 90]
WORDS = """
--kernel=k --obs=o --leap=l --sc=99 --sc 99 --sc=-99 --sc=0 --clock=1/5 --time=tdt:5 --hold=0 --reject=1 --reject=100001
--tol-ns=0 --tol-ns=60000000000 --band-ppm=100000 --rate-decimals=1 --rate-decimals=16 --slip-ns=0 --id=2024-01-23 --id=
--help -h -V --version help -- - = --kernel --kernel= publish normal frob --kernel=missing --obs=.
""".split()
WORDS += ["", " ", "\n", "--id=x y", "\u00e9", "\udcff", "x" * 5000]
NUMBER = re.compile(rb"[0-9]+")


def word_of(rng):
    return rng.choice(HOSTILE).encode("latin-1")


def numbers_changed(rng, data):
    """One number changed a little, so that much of what comes is still accepted."""
    found = list(NUMBER.finditer(data))
    if not found:
        return data
    one = rng.choice(found)
    digits = bytearray(one[0])
    kind = rng.randrange(4)
    if kind == 0:
        digits[rng.randrange(len(digits))] = rng.randrange(48, 58)
    elif kind == 1:
        digits = bytearray(str(max(0, int(digits[:30]) + rng.choice([-1, 1]))).encode())
    elif kind == 2:
        digits.insert(rng.randrange(len(digits) + 1), rng.randrange(48, 58))
    else:
        digits = bytearray(word_of(rng))
    return data[: one.start()] + bytes(digits) + data[one.end() :]


def lines_changed(rng, data):
    lines = data.split(b"\n")
    at, to = rng.randrange(len(lines)), rng.randrange(len(lines))
    kind = rng.randrange(5)
    if kind == 0:
        del lines[at]
    elif kind == 1:
        lines.insert(to, lines[at])
    elif kind == 2:
        lines[at], lines[to] = lines[to], lines[at]
    elif kind == 3:
        lines[at] = lines[at] + rng.choice([b"\r", b" ", b"\t", b",", b")", b" ! x", word_of(rng)])
    else:
        lines[at] = rng.choice([b" ", b"\t", b"  "]) + lines[at]
    return b"\n".join(lines)


def bytes_changed(rng, data, other):
    at, width = rng.randrange(len(data) + 1), rng.choice([1, 1, 1, 2, 3, 8, 20, 100])
    kind = rng.randrange(7)
    if kind == 0:
        return data[:at] + bytes([rng.randrange(256)]) + data[at + 1 :]
    if kind == 1:
        return data[:at] + data[at + width :]
    if kind == 2:
        return data[:at] + data[at : at + width] * rng.choice([2, 2, 3, 50]) + data[at + width :]
    if kind == 3:
        return data[:at] + word_of(rng) + data[at:]
    if kind == 4:
        return data[:at] + bytes([rng.choice(b"0123456789.+-eEdD@'(),=\\ \t\r\n/:;\"")]) + data[at + rng.randrange(2) :]
    if kind == 5:
        return rng.choice([data[:at], data[at:], data.replace(b"\n", b"\r\n"), data + data])
    start = rng.randrange(len(other) + 1)
    return data[:at] + other[start : start + rng.choice([5, 50, 500])] + data[at:]


def mutated(rng, data, other):
    for _ in range(rng.choice([1, 1, 1, 2, 2, 3, 5])):
        kind = rng.random()
        if kind < 0.45:
            data = numbers_changed(rng, data)
        elif kind < 0.65:
            data = lines_changed(rng, data)
        else:
            data = bytes_changed(rng, data, other)
    return data[:100_000]


def options_changed(rng, options):
    """The options of `publish`, half the time one or two of them others than they were."""
    if rng.random() < 0.5:
        return options
    further = {
        "tol_ns": [1, 1000, 30000, 10**6, 10**9, 6 * 10**10],
        "band_ppm": [1, 50, 1000, 100000],
        "rate_decimals": [1, 3, 6, 9, 12, 15],
        "slip_ns": [0, 10**6, 6 * 10**10],
        "reject": [0, 1, 3, 100000],
        "hold": [0, 1, 300, 10**6, 124452904960],
    }
    return options | {name: rng.choice(further[name]) for name in rng.sample(sorted(further), rng.randint(1, 2))}


def words_changed(rng, words):
    words = list(words)
    for _ in range(rng.choice([1, 1, 2, 4])):
        at = rng.randrange(len(words) + 1)
        words[at : at + rng.randrange(2)] = rng.sample(WORDS, rng.randrange(3))
    return words
