"""Random scripts, whose answers the plain model of document 01 gives."""
import random

from model import play
from program import Case
from table import RECORDS

SCRIPTS = 20
LINES = 4000


def line(rng):
    start, size, order = rng.randrange(64) * 1024, rng.choice((1, 512, 1024, 4096, 5000)), rng.choice((0, 0, 10, 12, 13, 64))
    free = f"f {start} {size}"
    return rng.choice((free, free, f"a {size} {order}", f"r {start} {size} {order}", "l", "", f"f 0{size} 1"))


def cases():
    for seed in range(SCRIPTS):
        rng = random.Random(seed)
        text = "\n".join(line(rng) for _ in range(LINES))
        yield Case(f"random script, seed {seed}", text.encode(), play(text, RECORDS).encode())
