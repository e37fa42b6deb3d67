"""Where the commands stand: called by a link, with CDPATH, from another folder; and where they find no place to build in."""
import os
import pwd
import re

from scratch import CRATES, Scratch, like, run, write

NOBODY = 65534
MADE = "nothing is to be done\n"
TESTED = "2 passed, 0 failed\n"

# a command with its words; its status, the end of what it prints, and what it says
COMMANDS = [
    ("run", ["{root}/crates.txt"], 0, "ok\nok\n", ""),
    ("tools/archives", [], 0, MADE, ""),
    ("tools/bench", ["--unknown"], 2, "", like(r".*usage: tools/bench.*")),
    ("tools/install", ["--unknown"], 2, "", like(r".*usage: tools/install.*")),
    ("tools/kit-folder", [], 0, "{kit}\n", ""),
    ("tools/locked", ["cat", "crates.txt"], 0, CRATES, ""),
    ("tools/program", ["script"], 0, "", ""),
    ("tools/release", ["--unknown"], 2, "", like(r".*usage: tools/release.*")),
    ("tools/setup", [], 0, "", None),
    ("test", [], 0, TESTED, None),
    (".ci/run", [], 0, TESTED, None),
]


def by_any_path(scratch):
    """CDPATH names a folder that has what the commands look for."""
    links, trap, project = scratch.above / "links", scratch.above / "trap", scratch.root.name
    for folder in ("tools", ".ci", "crates"):
        write(trap / project / folder / "begin.sh", "echo in the trap\n")
    links.mkdir()
    scratch.build()
    scratch.run(["tools/archives"])
    for command, words, status, printed, said in COMMANDS:
        words = [word.format(root=scratch.root) for word in words]
        link = links / command.replace("/", "-")
        link.symlink_to(scratch.root / command)
        ways = {
            "by a link, from another folder": ([link, *words], {"cwd": "/"}),
            "by a path from another folder": ([os.path.relpath(scratch.root / command, links), *words], {"cwd": links}),
            "with CDPATH": ([f"{project}/{command}", *words], {"cwd": scratch.above, "settings": {"CDPATH": str(trap)}}),
        }
        for way, (line, more) in ways.items():
            ended = scratch.run(line, **more)
            ends_well = ended.out.endswith(printed.format(kit=scratch.kit))
            yield f"{command} {way}", ended.problem(status, None, said) or (None if ends_well else repr(ended.out))


def another_user():
    """Whoever is not root is another user already."""
    return {"user": NOBODY, "group": NOBODY, "extra_groups": []} if os.geteuid() == 0 else {}


def name_of(user):
    return pwd.getpwuid(user.get("user", os.geteuid())).pw_name


def shut_target(scratch):
    user, target = another_user(), scratch.root / "target"
    target.mkdir()
    target.chmod(0o555)
    said = f"run: {target} cannot be written: Permission denied\n"
    yield "a target/ that cannot be written", scratch.run(["./run", "crates.txt"], **user).problem(1, "", said)
    target.chmod(0o777)
    write(target / "stamp" / "rules", "", 0o444)
    said = like(rf"run: {re.escape(str(target))}/stamp\S* cannot be written: it belongs to \S+, and this is {name_of(user)}\n")
    yield "a part of target/ that cannot be written", scratch.run(["./run", "crates.txt"], **user).problem(1, "", said)
    yield "then nothing is built", None if not scratch.asked() else "it is"
    target.chmod(0o755)
    (target / "stamp" / "rules").unlink()
    scratch.build()
    scratch.run(["tools/archives"])
    target.chmod(0o555)
    yield "a program that is built needs no place", scratch.run(["./run", "crates.txt"], **user).problem(0, "ok\nok\n", "")
    ended = scratch.run(["tools/archives"], **user)
    yield "nor do archives that are made", None if ended.out.endswith(MADE) else ended.problem(0, MADE, "")


def able_to_mount(folder):
    """The words before a command that may mount there; nothing where there is no way."""
    for words in (["unshare", "-m"], ["unshare", "-r", "-m"]):
        if run([*words, "mount", "-t", "tmpfs", "none", folder]).status == 0:
            return words
    return None


def mounted_noexec():
    """A folder of this machine in which files can be written and not run; nothing where there is none."""
    with open("/proc/mounts") as mounts:
        rows = [line.split() for line in mounts]
    able = [row[1] for row in rows if "noexec" in row[3].split(",") and "rw" in row[3].split(",") and row[2] == "tmpfs"]
    return next((folder for folder in able if os.access(folder, os.W_OK)), None)


def shut_temporary(scratch):
    """TMPDIR does not let programs run, or is not there."""
    folder = scratch.above / "noexec"
    folder.mkdir()
    before, found = able_to_mount(folder), mounted_noexec()
    what = "a TMPDIR in which no program can be run"
    said = "run: no program can be run in {}, the folder for temporary files (mounted noexec?); TMPDIR may name another\n"
    if before:
        mounting = 'mount -t tmpfs -o noexec none "$0" && TMPDIR=$0 exec ./run crates.txt'
        yield what, scratch.run([*before, "sh", "-c", mounting, folder]).problem(1, "", said.format(folder))
    elif found:
        yield what, scratch.run(["./run", "crates.txt"], settings={"TMPDIR": found}).problem(1, "", said.format(found))
    else:
        print(f"*** NOT TRIED: {what}: nothing can be mounted here, and no folder is mounted so ***")
    said = like(r"run: no file can be made in /nowhere, the folder for temporary files: .*\n")
    yield "a TMPDIR that is not there", scratch.run(["./run", "crates.txt"], settings={"TMPDIR": "/nowhere"}).problem(1, "", said)
    yield "then nothing is built", None if not scratch.asked() else "it is"


def cases():
    with Scratch() as scratch:
        yield from by_any_path(scratch)
    with Scratch() as scratch:
        yield from shut_target(scratch)
    with Scratch() as scratch:
        yield from shut_temporary(scratch)
