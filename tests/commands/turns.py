"""One command at a time builds; the others wait, say for whom, and find what it has made. Nothing is made twice."""
import os
import shutil
import subprocess

import scratch as standing
from scratch import ANSWER, Scratch, like, until

CHECKED = ["begins: check script", "begins: build script"]
LIBRARY = [f"begins: {word} {crate}" for crate in standing.LIBRARY for word in ("check", "build")]
RUN = ["./run", "crates.txt"]
ANSWERED = (0, "ok\nok\n")


def waits(command, process):
    """What a command says that waits for this one; it may say more then."""
    return like(rf"run: waits for `{command}` \(process {process}\)\n.*")


def different(got, wanted):
    return None if got == wanted else f"wanted: {wanted}\n  got:    {got}"


def first(problems):
    return next(filter(None, problems), None)


def is_waiting(running):
    return "waits for" in running.said_so_far()


def built_together(scratch):
    with scratch.busy():
        both = [scratch.start(RUN) for _ in range(2)]
        until(lambda: any(map(is_waiting, both)))
    ended = [each.end() for each in both]
    yield "two commands with a build due both answer", first(each.problem(*ANSWERED, None) for each in ended)
    yield "they build once", different(scratch.asked(), CHECKED)
    builder, other = both if "building" in ended[0].said else both[::-1]
    said = waits("tools/program --as run script", builder.process.pid)
    yield "one of them waits, and says for whom", other.end().problem(*ANSWERED, said)


def different_together(scratch):
    scratch.write_program(ANSWER + "# another\n")
    running = [scratch.start(words) for words in (["tools/archives"], RUN, ["tools/locked", "rt", "ci"])]
    ended = [each.end() for each in running]
    asked = scratch.asked()
    yield "three different commands end well", first(each.problem(0, None, None) for each in ended)
    yield "no two of them build at once", different([line for line in asked if "twice" in line], [])
    yield "each of them builds", different(sorted(asked), sorted([*CHECKED, *LIBRARY, "begins: ci"]))


def target_removed(scratch):
    """A lock in target/ would be gone."""
    with scratch.busy():
        gate = scratch.start(["tools/locked", "rt", "ci"])
        until(lambda: scratch.asked(is_over=False))
        shutil.rmtree(scratch.root / "target")
        running = scratch.start(RUN)
        until(lambda: is_waiting(running) or running.process.poll() is not None)
    gate.end()
    yield "a command waits for rt ci, though target/ is gone", running.end().problem(*ANSWERED, waits(".*rt ci", gate.process.pid))
    yield "it builds after it", different(scratch.asked(), ["begins: ci", *CHECKED])


def waiting(scratch):
    """A holder that ends with its input."""
    handed = {"nothing": "", "a descriptor of something else": "CINGHJALOFA_LOCK=0", "a descriptor without the lock": "exec 8<.; CINGHJALOFA_LOCK=8"}
    for what, settings in handed.items():
        scratch.write_program(ANSWER + f"# with {what}\n")
        holder = scratch.start(["tools/locked", "cat"], stdin=subprocess.PIPE)
        until(lambda: (scratch.root / "target").exists() and _name(holder) == b"cat")
        running = scratch.start(["bash", "-c", f"{settings} ./run crates.txt"])
        until(lambda: is_waiting(running) or running.process.poll() is not None)
        holder.end()
        yield f"a command waits that is handed {what}", running.end().problem(*ANSWERED, waits("cat", holder.process.pid))
    scratch.build()


def _name(running):
    with open(f"/proc/{running.process.pid}/cmdline", "rb") as words:
        return words.read().split(b"\0")[0]


def ready(scratch):
    holder = scratch.start(["tools/locked", "cat"], stdin=subprocess.PIPE)
    until(lambda: _name(holder) == b"cat")
    yield "a command with nothing to build waits for nobody", scratch.run(RUN).problem(*ANSWERED, "")
    holder.end()


def handed_on(scratch):
    ended = scratch.run(["tools/locked", "tools/archives"])
    yield "a tool that a holder calls does not wait for it", ended.problem(0, None, None)
    calls = "import subprocess, sys; sys.exit(subprocess.run(['tools/archives']).returncode)"  # closes what it inherits
    ended = scratch.run(["tools/locked", "python3", "-c", calls])
    said = like(r"archives: its caller, process \d+, builds and has not handed on the lock, descriptor \d+\n")
    yield "where the lock is not handed on, that is said", ended.problem(1, "", said)


def unchanged(scratch):
    archive = scratch.root / scratch.run(["tools/archives", "--where", "aarch64"]).out.strip()
    scratch.run(["tools/archives"])
    scratch.asked()
    line = "the library is of the files of now, for each kind of machine: nothing is to be done\n"
    wrong = scratch.run(["tools/archives"]).problem(0, line, "") or different(scratch.asked(), [])
    yield "tools/archives does nothing where nothing has changed, and says so", wrong
    changes = {
        "an archive is damaged": (lambda: archive.write_bytes(b""), []),  # the modules are kept
        "a file has changed": (lambda: scratch.write_program("# new\n"), LIBRARY),
    }
    for what, (change, asked) in changes.items():
        change()
        wrong = scratch.run(["tools/archives"]).problem(0, None, None) or different(scratch.asked(), asked)
        yield f"tools/archives makes them again where {what}", wrong


def known_by_its_text(scratch):
    scratch.write_program(ANSWER)
    scratch.build()
    scratch.write_program(ANSWER.replace("ok", "another"))
    os.utime(scratch.root / "crates" / "script" / "src" / "main.rt", (0, 0))
    wrong = scratch.run(RUN).problem(0, "another\nanother\n", None)
    yield "a program is built again where its text has changed and its date is old", wrong


def tested_together(scratch):
    scratch.asked()
    with scratch.busy():
        both = [scratch.start(["./test"]) for _ in range(2)]
        until(lambda: any(map(is_waiting, both)))
    ended = [each.end() for each in both]
    waited = [each for each in ended if "test: waits for" in each.said]
    wrong = first(each.problem(0, None, None) for each in ended) or different(scratch.asked(), ["begins: ci"] * 2)
    yield "two ./test run one after the other", wrong or different(len(waited), 1)


GROUPS = (built_together, different_together, target_removed, waiting, ready, handed_on, unchanged, known_by_its_text, tested_together)


def cases():
    with Scratch() as scratch:
        for group in GROUPS:
            yield from group(scratch)
