"""A plain model of the look, for making test vectors: Python's own calendar, no part of the crates."""
import datetime

LAST = 4294967295
ROWS, PLANS, EVENTS = 32, 16, 12
EPOCH = datetime.date(1970, 1, 1)


def widths():
    row = [2, 1, 4, 1]
    return [4, 1] + row * ROWS + [1, 1, 1] * (PLANS * EVENTS)


def encode(cells):
    return b"".join(v.to_bytes(w, "big") for v, w in zip(cells, widths()))


def decode(image):
    cells, at = [], 0
    for w in widths():
        cells.append(int.from_bytes(image[at : at + w], "big"))
        at += w
    return cells


def blank():
    return [0] * 706


def set_row(cells, r, months, weekdays, dates, plan):
    at = 2 + 4 * (r - 1)
    cells[at : at + 4] = [months, weekdays, dates, plan]


def set_event(cells, p, e, hour, minute, tariff):
    at = 130 + 36 * (p - 1) + 3 * (e - 1)
    cells[at : at + 3] = [hour, minute, tariff]


def sundays(year, month):
    day = datetime.date(year, month, 1)
    found = []
    while day.month == month:
        if day.weekday() == 6:
            found.append((day - EPOCH).days)
        day += datetime.timedelta(days=1)
    return found


EUROPE = [(sundays(y, 3)[-1] * 86400 + 3600, sundays(y, 10)[-1] * 86400 + 3600) for y in range(1970, 2107)]
AMERICA = [(sundays(y, 3)[1] * 86400 + 7200, sundays(y, 11)[0] * 86400 + 3600) for y in range(1970, 2107)]


def in_force(law, offset, second):
    if law == "none":
        return False
    if not -43200 <= offset <= 43200:
        offset = 0
    t, years = (second, EUROPE) if law == "europe" else (second + offset, AMERICA)
    return any(a <= t < b for a, b in years)


def changes(law, offset):
    if law == "none":
        return []
    if not -43200 <= offset <= 43200:
        offset = 0
    shift, years = (0, EUROPE) if law == "europe" else (-offset, AMERICA)
    ends = sorted(e + shift for pair in years for e in pair)
    return [e for e in ends if 0 < e <= LAST]


def mask(v, low, high):
    return [n for n in range(low, high + 1) if v >> n & 1]


class Tables:
    def __init__(self, cells, law="europe"):
        self.cells, self.law = cells, law
        self.offset = cells[0] - 43200 if cells[0] <= 86400 else 0
        self.summer = cells[1] == 1
        self.ends = changes(law, self.offset)

    def local(self, s):
        return s + self.offset + (3600 if self.summer and in_force(self.law, self.offset, s) else 0)

    def row_of(self, day):
        date = EPOCH + datetime.timedelta(days=day)
        best = None
        for r in range(1, ROWS + 1):
            m, w, d, p = self.cells[2 + 4 * (r - 1) : 6 + 4 * (r - 1)]
            ms, ws, ds = mask(m, 1, 12), mask(w, 1, 7), mask(d, 1, 31)
            if not (ms and ws and ds and 1 <= p <= 16):
                continue
            if date.month in ms and (date.isoweekday() % 7 + 1) in ws and date.day in ds:
                rank = (len(ms), len(ds), len(ws), r, p)
                if best is None or rank < best:
                    best = rank
        return (0, 0) if best is None else best[3:]

    def events(self, plan):
        found = []
        for e in range(1, EVENTS + 1) if plan else []:
            h, m, t = self.cells[130 + 36 * (plan - 1) + 3 * (e - 1) :][:3]
            if h <= 23 and m <= 59 and t >= 1:
                found.append((h * 60 + m, e, t))
        return found

    @staticmethod
    def latest(events):
        return max(events, key=lambda x: (x[0], -x[1])) if events else None

    def held(self, day, time):
        plan = self.row_of(day)[1]
        found = self.latest([e for e in self.events(plan) if e[0] * 60 <= time])
        if found:
            return plan, found[1], 0, found[2]
        for back in range(1, 8):
            plan = self.row_of(day - back)[1]
            found = self.latest(self.events(plan))
            if found:
                return plan, found[1], back, found[2]
        return 0, 0, 0, 0

    def boundary(self, s):
        day, time = divmod(self.local(s), 86400)
        if time == 0 or any(e[0] * 60 == time for e in self.events(self.row_of(day)[1])):
            return True
        return self.summer and s >= 1 and in_force(self.law, self.offset, s) != in_force(self.law, self.offset, s - 1)

    def last(self, s):
        """The second before the next boundary, found among the whole minutes and the changes of the rule ahead."""
        ahead = [e for e in self.ends if e > s][:1] if self.summer else []
        # minutes of local time begin where the second plus the offset is a multiple of 60, summer or not
        step = s + 1 + (-(s + 1 + self.offset)) % 60
        limit = ahead[0] if ahead else LAST + 1
        day, time = divmod(self.local(s), 86400)
        starts = {e[0] * 60 for e in self.events(self.row_of(day)[1])} | {86400}
        while step < limit and step <= LAST:
            if time + (step - s) in starts:
                return step - 1
            step += 60
        return limit - 1 if limit <= LAST else LAST

    def look(self, s):
        local = self.local(s)
        day, time = divmod(local, 86400)
        row, plan = self.row_of(day)
        return (local, row, plan) + self.held(day, time) + (self.last(s),)
