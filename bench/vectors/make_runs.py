"""Writes the stored runs: crates/tariffs/{stdin,stdout} and crates/tariffs_runs/{stdin,stdout}, by the plain model."""
import os
import struct
import sys

sys.path.insert(0, os.path.dirname(__file__))
from model import LAST, Tables, blank, decode, encode, set_event, set_row

CRATES = os.path.join(os.path.dirname(__file__), "..", "..", "crates")
ALL_MONTHS, ALL_WEEKDAYS, ALL_DATES = 8190, 254, 4294967294


def every_day(plan):
    return (ALL_MONTHS, ALL_WEEKDAYS, ALL_DATES, plan)


def sample():
    """Two tariffs a day, and a third on 25 December."""
    c = blank()
    c[0], c[1] = 46800, 1
    set_row(c, 1, *every_day(1))
    set_row(c, 2, 4096, 254, 33554432, 2)
    set_event(c, 1, 1, 6, 0, 1)
    set_event(c, 1, 2, 22, 0, 2)
    set_event(c, 2, 1, 0, 0, 3)
    return c


def around(*seconds):
    return [t for s in seconds for t in (s - 1, s, s + 1) if 0 <= t <= LAST]


SPRING, AUTUMN = 1711846800, 1729990800
SAMPLE_SECONDS = [SPRING - 1, SPRING, AUTUMN - 1, AUTUMN, 1735081199, 1735081200, 1735167600, 0, LAST]


def runs():
    out = []

    def run(cells, seconds, tail=b""):
        out.append(encode(cells) + b"".join(struct.pack(">I", s) for s in seconds) + tail)

    # the sample, with a second cut short; then no seconds; then a cut image, and nothing at all
    run(sample(), SAMPLE_SECONDS, b"\x12\x34\x56")
    run(sample(), [])
    out.append(encode(sample())[:836])
    out.append(b"")
    # zones at both ends and past them, the flag 0, 1 and 2
    for zone in (0, 86400, 86401, 4294967295, 43200, 61200, 43201):
        for flag in (0, 1, 2):
            c = sample()
            c[0], c[1] = zone, flag
            run(c, [0, 1, 43199, 43200, 43201, 86399, 86400] + around(SPRING, AUTUMN) + [LAST - 1, LAST])
    # stray mask bits are ignored; a plan of 0 or 17 does not count
    c = sample()
    set_row(c, 1, 8190 | 1 | 0xE000, 255, LAST, 1)
    set_row(c, 3, 1 | 0xE000, 254, ALL_DATES, 2)
    set_row(c, 4, 2, 1, ALL_DATES, 2)
    set_row(c, 5, 2, 254, 1, 2)
    set_row(c, 6, 2, 254, ALL_DATES, 0)
    set_row(c, 7, 2, 254, ALL_DATES, 17)
    run(c, [1704067200 + 43200 * k for k in range(0, 90, 7)] + around(1735081200))
    # hour 24, minute 60 and tariff 0 do not count; of equal minutes the lowest number
    c = sample()
    set_event(c, 1, 3, 24, 0, 9)
    set_event(c, 1, 4, 12, 60, 9)
    set_event(c, 1, 5, 13, 0, 0)
    set_event(c, 1, 6, 14, 30, 40)
    set_event(c, 1, 7, 14, 30, 41)
    set_event(c, 1, 12, 23, 59, 255)
    run(c, [1718000000 + 1801 * k for k in range(60)] + around(1718022600, 1718056740))
    # no row at all
    c = blank()
    c[0] = 43200
    run(c, [0, 1, 86399, 86400, LAST])
    # one event a week: seven days back and eight
    c = blank()
    c[0], c[1] = 46800, 1
    set_row(c, 1, ALL_MONTHS, 2, ALL_DATES, 1)
    set_row(c, 2, ALL_MONTHS, 4, ALL_DATES, 3)
    set_event(c, 1, 1, 8, 15, 5)
    run(c, [1718000000 + 21600 * k for k in range(64)])
    # eight days back: only on some dates
    c = blank()
    c[0] = 43200
    set_row(c, 1, ALL_MONTHS, ALL_WEEKDAYS, 1 << 3, 2)
    set_row(c, 2, ALL_MONTHS, ALL_WEEKDAYS, 1 << 10 | 1 << 11 | 1 << 12, 3)
    set_event(c, 2, 7, 23, 0, 77)
    run(c, [1717200000 + 43200 * k for k in range(40)])
    # events inside the skipped hour and the repeated one
    for zone in (43200, 46800, 50400):
        c = blank()
        c[0], c[1] = zone, 1
        set_row(c, 1, *every_day(16))
        for e, (h, m) in enumerate([(0, 0), (0, 59), (1, 0), (1, 30), (2, 0), (2, 30), (2, 59), (3, 0), (3, 30), (4, 0)]):
            set_event(c, 16, e + 1, h, m, 10 + e)
        run(c, [SPRING - 7200 + 600 * k for k in range(24)] + [AUTUMN - 7200 + 600 * k for k in range(30)] + around(SPRING, AUTUMN))
    # a change at midnight: the repeated hour crosses it
    c = sample()
    c[0] = 82800 - 3600
    run(c, around(SPRING, AUTUMN) + [AUTUMN - 3600 + 300 * k for k in range(30)])
    # fewest months, then dates, then weekdays, then the lowest number
    c = blank()
    c[0] = 43200
    set_row(c, 1, ALL_MONTHS, 254, 1 << 21, 1)
    set_row(c, 2, 1 << 6, 254, ALL_DATES, 2)
    set_row(c, 3, 1 << 6, 254, 1 << 22 | 1 << 23, 3)
    set_row(c, 4, 1 << 6, 2, 1 << 23 | 1 << 24, 4)
    set_row(c, 5, 1 << 6, 2, 1 << 23 | 1 << 30, 5)
    set_row(c, 32, 1 << 6, 2, 1 << 23, 6)
    for p in range(1, 7):
        set_event(c, p, p, p, 0, 100 + p)
    run(c, [1718841600 + 43200 * k for k in range(14)])
    # the last days before the last second, and the first ones
    c = sample()
    c[0] = 86400
    run(c, around(LAST) + [LAST - 40000 * k for k in range(8)] + [0, 1, 2, 86400])
    c = sample()
    c[0] = 0
    run(c, around(LAST) + [LAST - 40000 * k for k in range(8)] + [0, 1, 2, 21599, 21600, 43199, 43200])
    return out


def lines(data):
    if len(data) < 837:
        return "short\n"
    tables = Tables(decode(data[:837]))
    whole = (len(data) - 837) // 4
    seconds = struct.unpack(">%dI" % whole, data[837 : 837 + 4 * whole])
    return "".join(" ".join(map(str, tables.look(s))) + "\n" for s in seconds)


def write(crate, name, data):
    with open(os.path.join(CRATES, crate, name), "wb") as f:
        f.write(data)


if __name__ == "__main__":
    data = encode(sample()) + b"".join(struct.pack(">I", s) for s in SAMPLE_SECONDS)
    write("tariffs", "stdin", data)
    write("tariffs", "stdout", lines(data).encode())
    all_runs = runs()
    write("tariffs_runs", "stdin", b"".join(struct.pack(">I", len(r)) + r for r in all_runs))
    write("tariffs_runs", "stdout", "".join("run %d\n%s" % (k, lines(r)) for k, r in enumerate(all_runs)).encode())
    print(len(all_runs), "runs")
