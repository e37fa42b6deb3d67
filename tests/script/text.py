"""Lines that are no calls, and the ways in which an input can be cut into lines and chunks."""
from program import Case, calls, lines
from table import ANSWERS, SCRIPT

BAD = {
    "empty": [b""],
    "spaces": [b" l", b"l ", b" ", b"f 1  2", b"f  1 2", b"f 1 2 ", b" f 1 2", b"a  1 0"],
    "other bytes": [b"f\t1 2", b"l\r", b"l\x00", b"\x00", b"f 1\x002", b"f 1 \xc3\xa9", b"\xff", b"f 1 2\x7f", b"l\x0b"],
    "signs and zeros": [b"f +1 2", b"f -0 2", b"f 00 2", b"f 01 2", b"a 1 00", b"a 1 -1", b"f 1e3 2", b"f 0x1 2", b"f 1.0 2", b"f 1, 2"],
    "numbers of fields": [b"f", b"f 1", b"f 1 2 3", b"a", b"a 1", b"a 1 2 3", b"r 1 2", b"r 1 2 3 4", b"l 1", b"l 1 2"],
    "letters": [b"F 1 2", b"A 1 0", b"R 1 2 0", b"L", b"x 1 2", b"ff 1 2", b"free 1 2", b"ll", b"1 2"],
    "2^64 or more": [b"f 18446744073709551616 1", b"f 1 18446744073709551616", b"a 1 18446744073709551616", b"f 99999999999999999999 1", b"f 184467440737095516150 1"],
}

HELD = b"f 65536 65536\n"
LISTED = b"list 1 65536\n65536 131071\n"
CHUNK = 65536


def bad_lines():
    for name, given in BAD.items():
        yield Case(f"bad: {name}", HELD + b"".join(line + b"\n" for line in given) + b"l\n", b"ok\n" + b"bad\n" * len(given) + LISTED)
    for size in (65, 79, 80, 81, 82, 160, 65535, 65536, 65537, 1000000):
        yield Case(f"bad: {size} bytes", HELD + b"1" * size + b"\nl\n", b"ok\nbad\n" + LISTED)
        yield Case(f"bad: {size} bytes that end in a call", HELD + b"x" * (size - 8) + b"f 0 4096\n" + b"l\n", b"ok\nbad\n" + LISTED)
    yield Case("bad: a long last line", b"x" * 200000, b"bad\n")


def good_lines():
    yield calls("a lone 0", "f 0 1|f 1 0|a 0 0", "ok|no 4|no 4")
    yield calls("numbers of 2^64-1", "a 1 18446744073709551615|r 18446744073709551615 18446744073709551615 18446744073709551615", "no 4|no 4")


def endings():
    yield Case("empty input", b"", b"")
    yield Case("a newline alone", b"\n", b"bad\n")
    yield Case("two newlines", b"\n\n", b"bad\nbad\n")
    yield Case("an empty line between", b"l\n\nl\n", b"list 0 0\nbad\nlist 0 0\n")
    yield Case("no last newline", b"f 5 1\na 1 0", b"ok\nok 5\n")
    yield Case("one line, no newline", b"l", b"list 0 0\n")
    yield Case("a bad last line, no newline", b"l\nx", b"list 0 0\nbad\n")
    yield Case("CRLF", lines(SCRIPT).replace(b"\n", b"\r\n"), b"bad\n" * len(SCRIPT))
    yield Case("a carriage return alone", b"l\rl\r", b"bad\n")


def padding(size):
    """Bad lines of `size` bytes in all, and their number."""
    count, last = divmod(size, 64)
    text = (b"x" * 63 + b"\n") * count + (b"x" * (last - 1) + b"\n" if last else b"")
    return text, count + (1 if last else 0)


def boundaries():
    script, answers = lines(SCRIPT), lines(ANSWERS)
    for shift in range(len(script) + 2):
        text, count = padding(CHUNK - shift)
        yield Case(f"a chunk's end {shift} bytes into the script", text + script, b"bad\n" * count + answers)
    for size in range(CHUNK - 3, CHUNK + 4):
        yield Case(f"a first line of {size} bytes", b"z" * size + b"\nl\n", b"bad\nlist 0 0\n")
        yield Case(f"{size} bytes and a call on one line", b"z" * size + b"f 0 1\nl\n", b"bad\nlist 0 0\n")
        yield Case(f"a last line of {size} bytes", b"z" * size, b"bad\n")
    text, count = padding(2 * CHUNK)
    yield Case("an input of two whole chunks", text, b"bad\n" * count)


def cases():
    for group in (bad_lines, good_lines, endings, boundaries):
        yield from group()
