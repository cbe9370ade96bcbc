"""Writes the summer-time vectors: crates/summer_vectors/{stdin,stdout}, from the time zone database through zoneinfo."""
import datetime
import os
import zoneinfo

CRATE = os.path.join(os.path.dirname(__file__), "..", "..", "crates", "summer_vectors")
LAST = 4294967295
ZONES = [
    ("europe", "Europe/Berlin", 3600, 1996),
    ("europe", "Europe/London", 0, 1996),
    ("europe", "Europe/Helsinki", 7200, 1996),
    ("america", "America/New_York", -18000, 2007),
    ("america", "America/Denver", -25200, 2007),
    ("america", "America/Los_Angeles", -28800, 2007),
]


def summer(zone, second):
    return zone.dst(datetime.datetime.fromtimestamp(second, zone)) != datetime.timedelta(0)


def changes(zone, first, last):
    """All seconds at which the zone's answer differs from that of the second before, by days and then by halves."""
    found = []
    for day in range(first, last, 86400):
        low, high = day, min(day + 86400, last)
        if summer(zone, low) != summer(zone, high):
            while high - low > 1:
                mid = (low + high) // 2
                low, high = (mid, high) if summer(zone, mid) == summer(zone, low) else (low, mid)
            found.append(high)
    return found


questions, answers = [], []
for law, name, offset, year in ZONES:
    zone = zoneinfo.ZoneInfo(name)
    first = int(datetime.datetime(year, 1, 1, tzinfo=datetime.timezone.utc).timestamp())
    ends = changes(zone, first, LAST)
    for at, end in enumerate(ends):
        for second in (end - 1, end):
            later = [e for e in ends[at : at + 2] if e > second]
            questions.append("%s %d %d" % (law, offset, second))
            answers.append("%d %s" % (summer(zone, second), later[0] if later else "none"))
for name, rows in (("stdin", questions), ("stdout", answers)):
    with open(os.path.join(CRATE, name), "w") as f:
        f.write("".join(r + "\n" for r in rows))
print(len(questions), "vectors")
