"""Runs the script program on an input, and holds what it prints to what is expected."""
import glob
import os
import platform
import subprocess
import tempfile

ROOT = os.path.realpath(os.path.join(os.path.dirname(__file__), "..", ".."))
PROGRAM = [os.path.join(ROOT, "tools", "program"), "script"]
EMULATED = [PROGRAM[0], "--emulated", *PROGRAM[1:]]


class Case:
    """An input and its whole output, both bytes."""

    def __init__(self, name, given, expected):
        self.name, self.given, self.expected = name, given, expected


def calls(name, script, answers):
    """A case from one line of calls and one of answers, parted by `|`; an answer line may be an item of its own."""
    return Case(name, lines(script.split("|")), lines(answers.split("|")))


def lines(texts):
    return "".join(text + "\n" for text in texts).encode()


def build():
    return subprocess.run(PROGRAM, stdin=subprocess.DEVNULL).returncode == 0


def built():
    """The file of the program of this machine."""
    return glob.glob(os.path.join(ROOT, "target", "run", f"script.{platform.machine()}.*"))[0]


def _ended(given, command, **more):
    with tempfile.TemporaryFile() as held:
        held.write(given)
        held.seek(0)
        return subprocess.run(command, stdin=held, stdout=subprocess.PIPE, stderr=subprocess.PIPE, **more)


def from_file(given, command=PROGRAM, **more):
    """The output and the exit status, with the input in a file, so that a read takes as much as it asks for."""
    ended = _ended(given, command, **more)
    return ended.stdout, ended.returncode


def directly(given):
    """The same of the program's own file, without the command around it, which asks at each call whether a crate has changed. A word on
    standard error is a failure: the program has no other status."""
    ended = _ended(given, [built()])
    return ended.stdout, ended.returncode or int(bool(ended.stderr))


def byte_by_byte(given):
    """The same through a pipe that is fed one byte at a time."""
    running = subprocess.Popen(PROGRAM, stdin=subprocess.PIPE, stdout=subprocess.PIPE)
    for byte in given:
        running.stdin.write(bytes([byte]))
        running.stdin.flush()
    running.stdin.close()
    got = running.stdout.read()
    return got, running.wait()


def shown(text, most=600):
    return repr(text) if len(text) <= most else f"{text[:most]!r}.. ({len(text)} bytes)"


def told(name, given, expected, got, status):
    """What is wrong with a run, or nothing."""
    if got == expected and status == 0:
        return None
    return f"{name}\n  input:    {shown(given)}\n  expected: {shown(expected)}\n  got:      {shown(got)} (status {status})"
