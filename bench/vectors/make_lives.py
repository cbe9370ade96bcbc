"""Writes the stored lives: crates/audit/{stdin,stdout} and crates/audit_runs/{stdin,stdout}, by the plain model."""
import os
import random
import struct
import sys

sys.path.insert(0, os.path.dirname(__file__))
from make_runs import CRATES, SPRING, sample, write
from meter import audit
from model import LAST, encode

IMAGE = encode(sample())

# a day of a meter: looks over a summer change, an edit made by hand, one by a work order, and refusals in between
DAY = """look
set %d
look
pass 1
look
get 2
get 706
put 2 0
open
open
put 706 1
put 2 1
put 136 14
put 137 30
put 138 40
commit
open
put 136 14
put 137 30
put 138 40
check
commit
pass 3600
look
run 0140
run 0130
run 011000
run
run 01 
run 0110000100000000202030
run 01100001000000002030
look
open
run 0140
put 133 6
check
clear
clear
discard
set 4294967295
look
pass 1
look
set 0
pass 34128000
look
pass 1
look
""" % (SPRING - 1)


def put(c, v):
    return b"\x10" + struct.pack(">HI", c, v)


def random_life(rng):
    cells = [0, 1, 2, 3, 4, 5, 9, 130, 131, 132, 133, 134, 135, 166, 168, 705, 706, 65535]
    values = [0, 1, 2, 6, 22, 23, 24, 59, 60, 255, 256, 254, 8190, 8191, 4294967294, LAST, 46800, 86400, 86401]
    lines = []

    def number():
        return rng.choice([rng.randrange(2**32), rng.choice(values), SPRING - rng.randrange(3)])

    def order():
        body = b"".join(rng.choice([put(rng.choice(cells), rng.choice(values)), b"\x20"]) for _ in range(rng.randrange(4)))
        whole = b"\x01" + body + rng.choice([b"\x30", b"\x20\x30", b"\x40"])
        kind = rng.randrange(4)
        if kind == 0:
            return whole[: rng.randrange(len(whole) + 1)]
        if kind == 1:
            at = rng.randrange(len(whole))
            return whole[:at] + bytes([rng.randrange(256)]) + whole[at + 1 :]
        return whole

    for _ in range(rng.randrange(1, 60)):
        name = rng.choice(["look", "set", "pass", "get", "open", "put", "put", "put", "check", "commit", "discard", "clear", "run", "run"])
        if name in ("set", "pass"):
            lines.append("%s %d" % (name, number() if name == "set" else rng.choice([0, 1, 3600, 86400, rng.randrange(40000000), number()])))
        elif name == "get":
            lines.append("get %d" % rng.choice(cells))
        elif name == "put":
            lines.append("put %d %d" % (rng.choice(cells), rng.choice(values)))
        elif name == "run":
            lines.append(("run " + order().hex()).strip())
        else:
            lines.append(name)
    return "\n".join(lines) + "\n"


def full_edit():
    """64 cells fit, a 65th does not, and a value for one of them still does."""
    puts = ["put %d 1" % (130 + k) for k in range(64)]
    return "\n".join(["open"] + puts + ["put 200 1", "put 130 2", "check", "discard"]) + "\n"


# lives with a line that is no call, and its number; blank lines count
UNREADABLE = {
    "look\nset 5\nput 1\nlook\n": 3,
    "look\nlook 1": 2,
    "set": 1,
    "set 4294967296": 1,
    "open\n\nput 1\n": 3,
    "run 014": 1,
    "run 01 40": 1,
    "run 01g0": 1,
    "pass -1": 1,
    "put 1 2 3": 1,
    "Look": 1,
}


def runs():
    rng = random.Random(20261117)
    yield IMAGE + DAY.encode()
    yield IMAGE + full_edit().encode()
    for text in UNREADABLE:
        yield IMAGE + text.encode()
    yield IMAGE[:836]
    yield IMAGE
    for _ in range(60):
        yield IMAGE + random_life(rng).encode()


def expected(data):
    if len(data) < 837:
        return "short\n"
    text = data[837:].decode()
    if text in UNREADABLE:
        return "line %d cannot be read\n" % UNREADABLE[text]
    return audit(data[:837], text)


DAY = DAY.replace("run 01 \n", "run 01\n")
write("audit", "stdin", IMAGE + DAY.encode())
write("audit", "stdout", audit(IMAGE, DAY).encode())
all_runs = list(runs())
write("audit_runs", "stdin", b"".join(struct.pack(">I", len(r)) + r for r in all_runs))
write("audit_runs", "stdout", "".join("run %d\n%s" % (k, expected(r)) for k, r in enumerate(all_runs)).encode())
print(len(all_runs), "lives")
