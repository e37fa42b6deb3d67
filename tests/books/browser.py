"""A page in a real browser: as it looks, and as it is printed."""
import os
import re
import shutil
import subprocess
import tempfile
import zlib
from collections import Counter
from pathlib import Path

NAMES = ("chromium", "chromium-browser", "google-chrome")


def found():
    return next(filter(None, map(shutil.which, NAMES)), None)


def _browse(words, address):
    """By a browser of its own, with a home that goes."""
    with tempfile.TemporaryDirectory() as home:
        words = [found(), "--headless", "--no-sandbox", "--disable-gpu", "--disable-dev-shm-usage", "--hide-scrollbars", f"--user-data-dir={home}", *words, address]
        subprocess.run(words, stdout=subprocess.DEVNULL, stderr=subprocess.DEVNULL, timeout=120, env={**os.environ, "HOME": home})


def looked_at(address, wide, tall):
    """Width, height and the colours with how many points have each."""
    with tempfile.TemporaryDirectory() as folder:
        shot = Path(folder) / "shot.png"
        _browse([f"--window-size={wide},{tall}", f"--screenshot={shot}"], address)
        return colours(shot.read_bytes())


def printed(address):
    """The sheets: width and height of each, in points."""
    with tempfile.TemporaryDirectory() as folder:
        sheets = Path(folder) / "page.pdf"
        _browse(["--no-pdf-header-footer", f"--print-to-pdf={sheets}"], address)
        return [tuple(map(float, box)) for box in re.findall(rb"/MediaBox\s*\[0 0 ([\d.]+) ([\d.]+)\]", sheets.read_bytes())]


def colours(png):
    """Of a picture with eight bits for each of three or four channels."""
    wide, tall = (int.from_bytes(png[at : at + 4], "big") for at in (16, 20))
    step = {2: 3, 6: 4}[png[25]]
    rows = zlib.decompress(b"".join(_chunks(png)))
    count, above = Counter(), bytearray(step * wide)
    for at in range(0, len(rows), step * wide + 1):
        above = _plain(rows[at], rows[at + 1 : at + 1 + step * wide], above, step)
        count.update(zip(*(above[channel::step] for channel in range(3))))
    return wide, tall, count


def _chunks(png):
    at = 8
    while at < len(png):
        size, kind = int.from_bytes(png[at : at + 4], "big"), png[at + 4 : at + 8]
        if kind == b"IDAT":
            yield png[at + 8 : at + 8 + size]
        at += 12 + size


def _plain(kind, row, above, step):
    """A row without its filter."""
    if kind == 0:
        return bytearray(row)
    row = bytearray(row)
    for at in range(len(row)):
        left = row[at - step] if at >= step else 0
        up, corner = above[at], above[at - step] if at >= step else 0
        row[at] = (row[at] + (left, up, (left + up) // 2, _nearest(left, up, corner))[kind - 1]) & 255
    return row


def _nearest(left, up, corner):
    guess = left + up - corner
    return min((abs(guess - left), 0, left), (abs(guess - up), 1, up), (abs(guess - corner), 2, corner))[2]
