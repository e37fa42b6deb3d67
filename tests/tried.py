"""What the kit says of mistakes, each tried alone. The edits stand in a copy of the crates, those of a file that makes several one by one: the kit keeps
what it has found, so that in the copy it tries only what it has not tried before.
"""
import os
import re
import shutil
import subprocess
import tempfile
from pathlib import Path

VERDICT = re.compile(r"^rt: must-fail (\w+)/(\S+\.edit): (.*)$", re.M)
REFUSED = "refused, as it must be"
NO_FACT = "(only "  # a proof that names what the edit has taken away, or a limit of the prover


def make_copy(project, root, found):
    """The crates below `root`, with an edit for each of these mistakes and no others."""
    shutil.copytree(project / "crates", root / "crates", ignore=shutil.ignore_patterns("must-fail", "out"))
    for name in ("crates.txt", "HANDLES"):
        if (project / name).exists():
            shutil.copy(project / name, root)
    (root / ".git").mkdir()  # it is the top of a repository
    for mistake in found:
        folder = root / "crates" / mistake.crate / "must-fail"
        folder.mkdir(exist_ok=True)
        if mistake.is_alone:
            shutil.copy(mistake.file, folder / mistake.edit)
        else:
            (folder / mistake.edit).write_text(mistake.text(), "utf-8")


def asked(project, word, found):
    """What rt says, asked by this word for the crates of the mistakes."""
    crates = sorted({mistake.crate for mistake in found})
    settings = {name: value for name, value in os.environ.items() if name != "CI"}  # under CI `rt ci` takes no names
    with tempfile.TemporaryDirectory(prefix="edits-") as folder:
        root = Path(folder)
        make_copy(project, root, found)
        ran = subprocess.run(["rt", word, *crates], cwd=root, env=settings, stdin=subprocess.DEVNULL, stdout=subprocess.PIPE, stderr=subprocess.STDOUT)
    return ran.stdout.decode("utf-8", "replace")


def problem(said):
    """What is wrong with a mistake of which rt has said this, or None."""
    if said is None:
        return "it was not tried"
    if not said.startswith(REFUSED):
        return said
    return f"it is refused for no fact: {said}" if NO_FACT in said else None


def judged(project, word, found):
    """Of each of these mistakes, what is wrong with its refusal, or None; and all that rt has said."""
    log = asked(project, word, found)
    said = {(crate, edit): text for crate, edit, text in VERDICT.findall(log)}
    return {mistake: problem(said.get((mistake.crate, mistake.edit))) for mistake in found}, log
