"""A plain model of a meter's life, for making test vectors: edits, checks, work orders, a counter under a vouching layer."""
from model import LAST, Tables, decode, widths

WORDS = {1: "no time", 2: "time not taken", 3: "no cell", 4: "bad value", 5: "edit open", 6: "no edit", 7: "edit full", 8: "inconsistent", 9: "not checked", 10: "bad order"}
VOUCHED = 395 * 86400


class Refused(Exception):
    def __init__(self, number, rule=None, cell=None):
        self.number, self.rule, self.cell = number, rule, cell

    def __str__(self):
        more = "" if self.rule is None else " (rule %d, cell %d)" % (self.rule, self.cell)
        return "%d %s%s" % (self.number, WORDS[self.number], more)


def bits(first, last):
    return sum(1 << n for n in range(first, last + 1))


def in_range(c, v):
    if c == 0:
        return v <= 86400
    if c == 1:
        return v <= 1
    if c < 130:
        return [v | bits(1, 12) == bits(1, 12), v | bits(1, 7) == bits(1, 7), v | bits(1, 31) == bits(1, 31), v <= 16][(c - 2) % 4]
    return [v <= 23, v <= 59, v <= 255][(c - 130) % 3]


def first_fault(cells):
    for c, v in enumerate(cells):
        if not in_range(c, v):
            return 1, c
    rows = [cells[2 + 4 * r : 6 + 4 * r] for r in range(32)]
    for r, row in enumerate(rows):
        if any(row) and not all(row):
            return 2, 2 + 4 * r
    tables = Tables(cells, "none")
    for r, row in enumerate(rows):
        if row[3] and not tables.events(row[3]):
            return 3, 2 + 4 * r
    for p in range(1, 17):
        seen = set()
        for minute, e, _ in tables.events(p):
            if minute in seen:
                return 4, 130 + 36 * (p - 1) + 3 * (e - 1)
            seen.add(minute)
    return None


class Meter:
    def __init__(self, image):
        self.cells, self.time, self.left, self.edit, self.marked = decode(image), None, VOUCHED, None, False

    def set(self, s):
        self.time, self.left = s, VOUCHED

    def passing(self, n):
        if self.time is None:
            return
        self.left -= n
        self.time = self.time + n if self.left >= 0 and self.time + n <= LAST else None

    def look(self):
        if self.time is None:
            raise Refused(1)
        return " ".join(map(str, Tables(self.cells).look(self.time)))

    def get(self, c):
        if c >= len(self.cells):
            raise Refused(3)
        return str(self.cells[c])

    def open(self):
        if self.edit is not None:
            raise Refused(5)
        self.edit, self.marked = {}, False

    def need_edit(self):
        if self.edit is None:
            raise Refused(6)

    def put(self, c, v):
        self.need_edit()
        if c >= len(self.cells):
            raise Refused(3)
        if not in_range(c, v):
            raise Refused(4)
        if c not in self.edit and len(self.edit) >= 64:
            raise Refused(7)
        self.edit[c], self.marked = v, False

    def after(self):
        return [self.edit.get(c, v) for c, v in enumerate(self.cells)]

    def check(self):
        self.need_edit()
        fault = first_fault(self.after())
        if fault:
            raise Refused(8, *fault)
        self.marked = True

    def commit(self):
        self.need_edit()
        cells, marked = self.after(), self.marked
        self.edit = None
        if not marked:
            raise Refused(9)
        self.cells = cells

    def discard(self):
        self.need_edit()
        self.edit = None

    def form(self, order):
        at, commands = 0, []
        while at < len(order):
            b = order[at]
            size = 7 if b == 0x10 else 1
            known = b in (0x01, 0x10, 0x20, 0x30, 0x40) and at + size <= len(order)
            if not known or (b == 0x01) != (at == 0) or (b in (0x30, 0x40) and at + 1 != len(order)):
                return None, at
            commands.append((at, b, order[at + 1 : at + size]))
            at += size
        if not commands or commands[-1][1] not in (0x30, 0x40):
            return None, len(order)
        return commands, None

    def run(self, order):
        commands, place = self.form(order)
        if commands is None:
            return "refused 10 bad order at place %d" % place
        for at, b, data in commands:
            try:
                if b == 0x10:
                    self.put(int.from_bytes(data[:2], "big"), int.from_bytes(data[2:], "big"))
                else:
                    {0x01: self.open, 0x20: self.check, 0x30: self.commit, 0x40: self.discard}[b]()
            except Refused as why:
                if at > 0:
                    self.edit = None
                return "refused %s at place %d" % (why, at)
        return "done"

    def answer(self, line):
        name, *words = line.split()
        try:
            if name == "run":
                return self.run(bytes.fromhex(words[0]) if words else b"")
            calls = {"set": self.set, "pass": self.passing, "look": self.look, "get": self.get, "open": self.open, "put": self.put}
            calls.update(check=self.check, commit=self.commit, discard=self.discard, clear=self.discard)
            return calls[name](*map(int, words)) or "done"
        except Refused as why:
            return "refused %s" % why


def audit(image, text):
    meter = Meter(image)
    out = ["%s: %s" % (line, meter.answer(line)) for line in text.splitlines() if line.split()]
    try:
        look = meter.look()
    except Refused as why:
        look = "refused %s" % why
    return "\n".join(out + ["meter: " + look, "reader: " + look, "agree"]) + "\n"
