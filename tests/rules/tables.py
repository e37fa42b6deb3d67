"""The tables of the rules, and the script's example, are those of tests/cases.txt; copies that are not so must be noticed, and tables
that say something else than the rules must be refused."""
import shutil
import subprocess
import tempfile
from pathlib import Path

COPIED = ("tests/cases.txt", "tests/cases.py", "tests/holders.txt", "tests/holders.py", "tools/cases", "crates/rules/specs", "crates/holder_rules/specs", "crates/script/stdin", "crates/script/stdout")
TABLE, LEDGER, TRIALS, EXAMPLE = "tests/cases.txt", "crates/rules/specs/Ledger.antt", "crates/rules/specs/Trials.antt", "crates/script/stdout"

# what is wrong then; the file; what stands there once; what stands there instead; what must be said
OLD = [
    ("another answer in the table", TABLE, "\na 65536 0 = 65536\n", "\na 65536 0 = -3\n", f"{LEDGER} is old"),
    ("the same, of the example", TABLE, "\na 65536 0 = 65536\n", "\na 65536 0 = -3\n", f"{EXAMPLE} is old"),
    ("another call in the table", TABLE, "\nr 65536 65536 0 = -3\n", "\nr 65536 65536 1 = -3\n", "crates/script/stdin is old"),
    ("another name of a case", TABLE, "\ncase a single byte\n", "\ncase one byte\n", f"{TRIALS} is old"),
    ("another record in the table", TABLE, "\nchain 1 4096 8191 | ", "\nchain 2 4096 8191 | ", "cases.txt:"),
    ("another answer in the ledger", LEDGER, "at 81920 ∷", "at 81921 ∷", f"{LEDGER} is old"),
    ("a case less in the trials", TRIALS, "    ∷ trial 1 (f 8192 8192 ∷ f 65536 1 ∷ [])", "    -- ∷ trial 1 (f 8192 8192 ∷ f 65536 1 ∷ [])", f"{TRIALS} is old"),
    ("another answer in the example", EXAMPLE, "ok 81920\n", "ok 81921\n", f"{EXAMPLE} is old"),
    ("a number that is none", TABLE, "\npool 256\n", "\npool 25x\n", "is no number"),
    ("a call without its answer", TABLE, "\nr 65536 65536 0 = -3\n", "\nr 65536 65536 0\n", "no call and its answer"),
    ("two cases of one name", TABLE, "\ncase one byte past the top\n", "\ncase the script\n", "two cases have this name"),
    ("an address that no call answers", TABLE, "\nr 65536 65536 0 = -3\n", "\nr 65536 65536 0 = 65536\n", "no call answers so"),
    ("a book without its order by size", TABLE, "\nshelf 3 1 2 0\n", "\n", "chain and shelf stand together"),
    ("a case without its book", TABLE, "\nchain 0 65536 65536\nshelf 0\n", "\n", "no case without its book"),
    ("a range on no shelf", TABLE, "\nshelf 3 1 2 0\n", "\nshelf 3 1 2\n", "is not on the shelf"),
]

# what the table then says; what stands there once; what stands there instead
UNTRUE = [
    ("the last range is kept", "\na 65536 0 = 65536\n", "\na 65536 0 = -3\n"),
    ("another address", "\na 8192 12 = 36864\n", "\na 8192 12 = 36865\n"),
    ("another refusal", "\nr 9223372036854775807 8193 0 = -3\n", "\nr 9223372036854775807 8193 0 = -4\n"),
    ("another listing", "\nlist 1 2 | 131071 131072\nchain", "\nlist 1 2 | 131070 131071\nchain"),
    ("another record", "\nchain 0 0 0 | 1 4096 12287\nshelf 0 1\n", "\nchain 1 0 0 | 0 4096 12287\nshelf 1 0\n"),
    ("another order by size", "\nshelf 3 1 2 0\n", "\nshelf 1 3 2 0\n"),
    ("a record more", "\nrecords 1\nf 4096 12288 = 0\na 4096 13 = -1\n", "\nrecords 2\nf 4096 12288 = 0\na 4096 13 = -1\n"),
]


class Copy:
    """What the tables are made of, in a folder of its own."""

    def __init__(self, project):
        self.project = project

    def __enter__(self):
        self.held = tempfile.TemporaryDirectory()
        self.folder = Path(self.held.name)
        for name in COPIED:
            (self.folder / name).parent.mkdir(parents=True, exist_ok=True)
            (shutil.copytree if (self.project / name).is_dir() else shutil.copy)(self.project / name, self.folder / name)
        return self

    def __exit__(self, *_):
        self.held.cleanup()

    def edit(self, name, old, new):
        text = (self.folder / name).read_text("utf-8")
        if text.count(old) != 1:
            raise SystemExit(f"tests/rules/tables.py: {name} has no one place to break, {old!r}")
        (self.folder / name).write_text(text.replace(old, new), "utf-8")


def said(folder, *words):
    """What tools/cases says."""
    ran = subprocess.run([folder / "tools" / "cases", *words], stderr=subprocess.PIPE, text=True)
    return ran.stderr.splitlines() or ([f"tools/cases ended with {ran.returncode}"] if ran.returncode else [])


def problems(project):
    """What is old; and, where nothing is, the broken copies that nothing was said about."""
    found = said(project, "--check")
    yield from found
    for what, name, old, new, word in () if found else OLD:
        with Copy(project) as copy:
            copy.edit(name, old, new)
            if not any(word in line for line in said(copy.folder, "--check")):
                yield f"broken on purpose and NOT noticed: {what} ({name})"


def untrue(project):
    """Tables that the rules must refuse: what each says, and the two files made of it."""
    for what, old, new in UNTRUE:
        with Copy(project) as copy:
            copy.edit(TABLE, old, new)
            said(copy.folder)
            yield what, {("specs", Path(name).stem): (copy.folder / name).read_text("utf-8") for name in (LEDGER, TRIALS)}
