"""How a program's end becomes the command's, and that no command ends in silence. The program stands in for every one of the project."""
import os
import signal
import subprocess
import time

from scratch import MACHINE, OBEY, PROJECT, Scratch, like, write

FAILS = "echo yes; echo 'failed: the answers cannot be written: No space left on device' >&2"
FAILED = "run: the answers cannot be written: No space left on device\n"
DENIED = like(r".*Bad file descriptor.*run: no\n")

# what the program does; the command; its status, its output and what it says
PROGRAMS = [
    ("ends well", "echo yes", "./run calls", 0, "yes\n", ""),
    ("says that it failed", FAILS, "./run calls", 1, "yes\n", FAILED),
    ("says so without a newline", "printf 'failed: it is late' >&2", "./run calls", 1, "", "run: it is late\n"),
    ("says so by another command", FAILS, "tools/program script <calls", 1, "yes\n", FAILED.replace("run", "script")),
    ("says so, standard error closed", FAILS, "./run calls 2>&-", 1, "yes\n", ""),
    ("says so, standard error full", FAILS, "./run calls 2>/dev/full", 1, "yes\n", ""),
    ("says so, nobody reads standard error", FAILS, "exec 3>&1; { ./run calls 2>&1 >&3; echo $? >&3; } | sleep 0; wait", 0, "yes\n1\n", ""),
    ("says something else", "echo so >&2; echo yes", "./run calls", 0, "yes\n", "so\n"),
    ("ends with a status", "exit 3", "./run calls", 3, "", "run: the program script ended with status 3\n"),
    ("ends by a signal", "kill -SEGV $$", "./run calls", 139, "", "run: the program script was ended by signal 11, SEGV\n"),
    ("writes to whoever reads a line", "while echo yes; do :; done", "./run calls | head -n 1", 0, "yes\n", ""),
    ("writes to a closed output", "echo yes || echo 'failed: no' >&2", "./run calls >&-", 1, "", DENIED),
]

# each must say something and end with another status than 0, where its output is full, and where it is closed
PRINTING = ["./run --help", "./run --version", "./run example", "./test", ".ci/run", "tools/archives", "tools/archives --where", "tools/kit-folder"]


def programs():
    with Scratch(OBEY) as scratch:
        scratch.build()
        for what, does, command, *wanted in PROGRAMS:
            (scratch.root / "calls").write_text(does + "\n")
            yield f"a program that {what}", scratch.shell(command).problem(*wanted)


def closed_input():
    """What this program does cannot come from its input."""
    with Scratch("#!/usr/bin/env bash\ncat || echo 'failed: no' >&2\n") as scratch:
        scratch.build()
        wrong = scratch.shell("./run - <&-").problem(1, "", DENIED)
        return "a program that reads a closed input", wrong


def is_alive(process):
    """One that has ended, and that nobody has asked about yet, is not."""
    try:
        with open(f"/proc/{process}/stat") as about:
            return about.read().rpartition(")")[2].split()[0] != "Z"
    except FileNotFoundError:
        return False


def ended_with_its_command():
    with Scratch(OBEY) as scratch:
        scratch.build()
        (scratch.root / "calls").write_text("echo $$; exec sleep 60\n")
        running = scratch.start(["./run", "calls"], stdout=subprocess.PIPE)
        program = int(running.process.stdout.readline())
        running.process.send_signal(signal.SIGTERM)
        end = time.monotonic() + 5
        while is_alive(program) and time.monotonic() < end:
            time.sleep(0.05)
        survived = is_alive(program)
        if survived:
            os.kill(program, signal.SIGKILL)
        running.end()
    return "a command that is ended ends its program", "the program was still there five seconds later" if survived else None


def made_for_the_machine():
    """On Arm gcc links a program; where it cannot, the emulator runs the kit's, and where it fails, that is said."""
    with Scratch() as scratch:
        gcc, run = scratch.kit / "bin" / "gcc", ["./run", "crates.txt"]
        yield "a program that is emulated", scratch.shell("tools/program --emulated script <crates.txt").problem(0, "ok\nok\n", None)
        write(gcc, "#!/bin/sh\necho crt1.o\n", 0o755)
        yield "a gcc without a C library", scratch.run(run).problem(0, "ok\nok\n", "")
        write(gcc, '#!/bin/sh\n[ "$1" != -print-file-name=crt1.o ] || exec echo /crt1.o\nexit 1\n', 0o755)
        if MACHINE == "aarch64":
            yield "a gcc that fails", scratch.run(run).problem(1, "", like(r".*run: script could not be made for Arm; the compiler's words stand above\n"))


def full_and_closed():
    with Scratch() as scratch:
        scratch.build()
        for command in PRINTING:
            for output in ("/dev/full", "&-"):
                yield f"{command} >{output}", scratch.shell(f"{command} >{output}").problem(1, "", like(r".+\n"))


# what `rt ci` says; how ./test ends, and its last line
JUDGED = [
    ("all of it", "rt: ok; handles allowed: none; must-fail edits: 3 refused; every proof and must-fail edit was done in this run\n4 passed, 0 failed\n", 0, "5 passed, 0 failed"),
    ("an edit that is bad", "rt: ok; handles allowed: none; must-fail edits: 3 refused, 2 bad; every proof and must-fail edit was done in this run\n4 passed, 0 failed\n", 1, "5 passed, 1 failed"),
    ("a crate that is not proved", "rt: FAILED: low\n3 passed, 1 failed\n", 1, "4 passed, 1 failed"),
    ("no count", "rt: the disk is full\n", 1, "1 passed, 1 failed"),
]


def gate_judged():
    with Scratch() as scratch:
        for what, says, status, last in JUDGED:
            (scratch.root / "ci.said").write_text(says)
            ended = scratch.run(["./test"])
            wrong = ended.problem(status, None, None) or (None if ended.out.endswith(f"\n{last}\n") else repr(ended.out[-200:]))
            yield f"./test where rt ci tells of {what}", wrong


def begun():
    """Every command, a later one too, begins as the others do."""
    places = ["run", "test", *(f"{folder}/*" for folder in (".ci", "tools", "bench")), "tests/*/suite", "tests/rust/arm/*"]
    for place in places:
        for path in sorted(PROJECT.glob(place)):
            if path.is_file() and os.access(path, os.X_OK):
                text = path.read_text("utf-8")
                is_right = "python3" in text.split("\n")[0] or '/begin.sh" || exit 1\n' in text
                yield f"{path.relative_to(PROJECT)} begins with tools/begin.sh", None if is_right else "it does not"


def cases():
    yield from programs()
    yield closed_input()
    yield ended_with_its_command()
    yield from made_for_the_machine()
    yield from full_and_closed()
    yield from gate_judged()
    yield from begun()
