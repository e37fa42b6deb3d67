"""How the program ends where it cannot read or write: it says so, and what it wrote is the beginning of what was due."""
import fcntl
import os
import re
import subprocess
import tempfile
import time

from program import ROOT, built, from_file, lines, shown

RUN = os.path.join(ROOT, "run")
CALLS = os.path.join(ROOT, "crates", "script", "stdin")
UNREAD = "standard input cannot be read"
UNWRITTEN = "the answers cannot be written"

# a line of the shell, and what is said
SILENT_ONCE = [
    (f"'{RUN}' '{CALLS}' >/dev/full", UNWRITTEN),
    (f"'{RUN}' <'{ROOT}'", UNREAD),
    (f"'{RUN}' <&-", UNREAD),
    (f"'{RUN}' - <&-", UNREAD),
    (f"'{RUN}' '{CALLS}' >&-", UNWRITTEN),
    (f"'{RUN}' '{CALLS}' <&- >&-", UNWRITTEN),
]

# sixty ranges that stay apart, and one that grows by a byte after each listing
OFFERS = [f"f {8192 * k} 4096" for k in range(1, 61)]
LISTINGS = [line for k in range(40000) for line in ("l", f"f {1048576 + k} 1")]
LAST = b"\nlist 61 285760\n"


def said_so(name, ended, what):
    """Status 1, and one line on standard error; what is wrong, or nothing."""
    if ended.returncode == 1 and re.fullmatch(rf"run: {what}\b.*\n", ended.stderr.decode()):
        return None
    return f"{name}\n  expected: status 1, and `run: {what}: ..`\n  got:      status {ended.returncode}, {ended.stderr.decode()!r}"


def said():
    for line, what in SILENT_ONCE:
        ended = subprocess.run(["bash", "-c", line], stdin=subprocess.DEVNULL, stdout=subprocess.DEVNULL, stderr=subprocess.PIPE)
        yield said_so(line, ended, what)
    with open("/dev/full", "wb") as full:
        ended = subprocess.run([RUN], input=b"l\n" * 100000, stdout=full, stderr=subprocess.PIPE)
    yield said_so("100000 listings to a full device", ended, UNWRITTEN)


def first_line():
    """Whoever has read enough is no failure."""
    words = f"'{RUN}' | head -n 1; exit ${{PIPESTATUS[0]}}"
    ended = subprocess.run(["bash", "-c", words], input=b"l\n" * 100000, capture_output=True)
    if ended.stdout == b"list 0 0\n" and not ended.stderr and ended.returncode == 141:
        return None
    return f"./run | head -n 1\n  got:      {shown(ended.stdout)}, {ended.stderr!r}, status {ended.returncode}"


def into_a_full_pipe(given):
    """What reaches a reader that takes its time at first, by a pipe that does not block; the status; what is said."""
    reading, writing = os.pipe()
    fcntl.fcntl(writing, fcntl.F_SETFL, os.O_NONBLOCK)
    with tempfile.TemporaryFile() as held, tempfile.TemporaryFile() as errors:
        held.write(given)
        held.seek(0)
        running = subprocess.Popen([RUN], stdin=held, stdout=writing, stderr=errors)
        os.close(writing)
        got = b""
        for _ in range(20):
            time.sleep(0.02)
            got += os.read(reading, 65536)
        with open(reading, "rb") as pipe:
            got += pipe.read()
        status = running.wait()
        errors.seek(0)
        return got, status, errors.read().decode()


def full_pipe():
    given = lines(OFFERS + LISTINGS + ["l"])
    due, _ = from_file(given, [RUN])
    got, status, said_then = into_a_full_pipe(given)
    is_whole = got == due and status == 0 and not said_then
    is_part = due.startswith(got) and status == 1 and re.fullmatch(rf"run: {UNWRITTEN}\b.*\n", said_then)
    if LAST in due and (is_whole or is_part):
        return None
    right = len(os.path.commonprefix([got, due]))
    return (
        f"a pipe that does not block, and is full for a moment\n"
        f"  expected: all of {len(due)} bytes, or the first ones of them with status 1 and `run: {UNWRITTEN}: ..`\n"
        f"  got:      {len(got)} bytes, of which the first {right} are right, status {status}, {said_then!r}"
    )


def interrupted():
    """A signal that interrupts a call, and a call that moves a part, lose nothing."""
    program, source = built(), os.path.join(os.path.dirname(__file__), "interrupted.c")
    given, expected = open(CALLS, "rb").read(), open(os.path.join(os.path.dirname(CALLS), "stdout"), "rb").read()
    with tempfile.TemporaryDirectory() as folder:
        library = os.path.join(folder, "interrupted.so")
        subprocess.run(["gcc", "-shared", "-fPIC", "-O1", source, "-o", library, "-ldl"], check=True)
        ended = subprocess.run([program], input=given, env={**os.environ, "LD_PRELOAD": library}, capture_output=True)
    if ended.stdout == expected and not ended.stderr and ended.returncode == 0:
        return None
    return f"interrupted calls\n  expected: {shown(expected)}\n  got:      {shown(ended.stdout)}, {ended.stderr!r}"


def failures():
    """Each failure, or nothing for what is as it must be."""
    yield from said()
    yield first_line()
    yield full_pipe()
    yield interrupted()
