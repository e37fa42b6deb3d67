"""A million lines, and more pieces than fit on a screen: in bounded time and memory, without a word on standard error."""
import os
import subprocess

from ground import RUN, Folder

LINES = 1000000
MOST_SECONDS = 60  # of processor time, which a busy machine makes longer
MOST_MEGABYTES = 48
ROUND = b"a 4096 0\nf 65536 4096\nr 70000 100 12\nf 69632 4096\na 65537 0\nf 131071 2\nbad\nl\n"
BYTES_AND_END = 2 + 3 + 1 + 1 + 2  # an empty line and the head, three pieces, their sum, an empty line, two sentences
LAST = b"The books close: by the vouchers, byte by byte and in the listing 65536 bytes are free, in 1 range.\n"


def measured(file, out):
    """The status, what is said, the seconds of processor time and the megabytes."""
    with open(out, "wb") as printed, open(f"{out}.said", "w+b") as said:
        running = subprocess.Popen([RUN, "books", file], stdout=printed, stderr=said)
        _, status, used = os.wait4(running.pid, 0)
        running.returncode = os.waitstatus_to_exitcode(status)
        said.seek(0)
        return running.returncode, said.read(), used.ru_utime + used.ru_stime, used.ru_maxrss / 1024


def cases(words, is_few=False):
    rounds = LINES // 8 // (100 if is_few else 1)
    with Folder() as folder:
        file, out = folder.write("calls", b"f 65536 65536\n" + ROUND * rounds), folder / "out"
        status, said, seconds, megabytes = measured(file, out)
        print(f"-- {8 * rounds + 1} lines: {seconds:.1f} s of processor time, {megabytes:.0f} MB")
        printed = out.read_bytes()
        rows = printed.count(b"\n")
        is_right = status == 1 and not said and printed.endswith(LAST) and rows == 1 + 1 + rounds * (8 + 3) + BYTES_AND_END
        yield "every line has its row", None if is_right else f"status {status}, {said!r}, {rows} rows, {printed[-300:]!r}"
        yield "in seconds", None if seconds < MOST_SECONDS else f"it took {seconds:.1f} s"
        yield "memory does not grow with the lines", None if megabytes < MOST_MEGABYTES else f"{megabytes:.0f} MB"
        taken = folder.write("calls", b"f 0 100000\n" + b"a 1 0\n" * (100000 if not is_few else 1000))
        status, said, seconds, megabytes = measured(taken, out)
        yield "a piece for each line", None if status == 0 and not said and seconds < MOST_SECONDS else f"{status}, {said!r}, {seconds:.1f} s"
