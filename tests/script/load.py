"""Long inputs and outputs, whose answers repeat; and a long one at random."""
import random

from program import Case, lines
from table import APART, RECORDS

# from one free range, 65536 to 131071, back to it, by way of none
ROUND = ["a 4096 0", "f 65536 4096", "a 65537 0", "r 70000 100 16", "f 65536 65536", "f 131071 2", "bad", "l"]
ROUND_ANSWERS = ["ok 65536", "ok", "no 3", "ok", "ok", "no 4", "bad", "list 1 65536", "65536 131071"]

ROUNDS = 125000
MOST_SECONDS = 2
MOST_SECONDS_EMULATED = 60


def million():
    given = lines(["f 65536 65536"]) + lines(ROUND) * ROUNDS
    return Case("a million lines", given, b"ok\n" + lines(ROUND_ANSWERS) * ROUNDS)


def listings():
    table = [f"list {RECORDS} {4096 * RECORDS}"] + [f"{8192 * k} {8192 * k + 4095}" for k in range(1, RECORDS + 1)]
    return Case(f"a thousand listings of {RECORDS} ranges", lines(APART + ["l"] * 1000), lines(["ok"] * RECORDS + table * 1000))


def mixed_million():
    """A million lines at random over some fifty free ranges, without their answers."""
    rng, held, out = random.Random(24), [], ["f 1073741824 67108864"]
    while len(out) < 1000000:
        if len(held) > 40 and rng.random() < 0.5:
            start = held.pop(rng.randrange(len(held)))
            out.append(f"f {start} 4096")
        elif rng.random() < 0.8:
            held.append(1073741824 + 8192 * rng.randrange(200))
            out.append(f"r {held[-1]} 4096 12")
        else:
            out.append(rng.choice((f"a {4096 * rng.randrange(1, 40)} {rng.choice((0, 12, 14))}", f"f {1073741824 + 4096 * rng.randrange(16384)} {4096 * rng.randrange(1, 40)}")))
    return [lines(out)]
