"""Pages broken on purpose, each of which must be noticed: the suite can fail."""
import re
import shutil
import tempfile
from pathlib import Path

import figures
from statics import CONTRACTS, GUIDE, problems

# what is wrong then; the page; the first place of this pattern; what stands there instead; what a problem must speak of
BROKEN = [
    ("a block of an unknown kind", GUIDE, r"```sh\n", "```console\n", "of kind console"),
    ("a block of no kind", GUIDE, r"```text\n", "```\n", "of kind (none)"),
    ("a command in an indented block", GUIDE, r"\n# Licence\n", "\n# Licence\n\n    rt prove\n", "write this block between"),
    ("a command in the text that no block runs", GUIDE, r"\n# Licence\n", "\n# Licence\n\n`rt prove all`\n", "`rt prove all`"),
    ("an answer that closes no books", GUIDE, r"\nok (\d+)\n", r"\nok 1\1\n", "this row should be"),
    ("a wrong row in the books", GUIDE, r"(\n\d+ to \d+ +line \d+, f +yes +)(\d+)", r"\g<1>1\2", "this row should be"),
    ("a voucher that is missing from the books", GUIDE, r"\n   2  a .*", "", "rows, and 8 follow"),
    ("a wrong number of lines to read", GUIDE, r"(\n\| `base` \| )(\d+)", r"\g<1>1\2", "lines, so write"),
    ("a list that is read after another", GUIDE, r"(\n\| `script` \| \d+ \| )`base`", r"\1`images`", "script is read after base"),
    ("a list that there is not", GUIDE, r"\n\| `journal` \|", "\n| `journals` |", "do not both have a list journals"),
    ("a folder that is not there", GUIDE, r"(\ncrates/.*\n  )", r"\1no_", "the map names crates/no_"),
    ("a crate without a place in the map", GUIDE, r"(\ncrates/.*\n).*\n", r"\1", "does not name crates/"),
    ("a link to nothing", GUIDE, r"\(#", "(#no-", "the link leads to #no-"),
    ("a tool that is not there", GUIDE, r"`tools/", "`tools/no-", "`tools/no-"),
    ("an edit that is not there", CONTRACTS, r"\n- `(\w+)/", r"\n- `\1/no_", "makes the mistake no_"),
    ("an edit with another line", CONTRACTS, r"(\n- `\w+/\w+`, .*: `)", r"\1no ", "changes its line to"),
    ("a contract with another text", CONTRACTS, r"(```rattle\n.*\n *)ensures", r"\1promises", "has no such lines"),
    ("a public call that no sentence determines", CONTRACTS, r", `check_state::is_sound`", "", "check_state::is_sound is public"),
    ("a call below a sentence of another form", CONTRACTS, r"(\| `listing` \| )", r"\1`batch::serve_list`, ", "batch::serve_list is not of the form of listing"),
    ("a sentence that nothing states", CONTRACTS, r"\| `image-read` \|", "| `image-red` |", "image-red is no sentence"),
    ("a `requires` that is not said", CONTRACTS, r"`batch::serve_list_in` on", "a call on", "batch::serve_list_in has a `requires`"),
    ("a call with one wrong program", CONTRACTS, r"(Ruled out:\n\n- .*\n)(?:- .*\n)+", r"\1", "fewer than two"),
]


def unnoticed(project, texts, take_apart):
    """The broken pages that nothing was said about, or that could not be broken."""
    for what, name, old, new, word in BROKEN:
        text, count = re.subn(old, new, texts[name], count=1)
        if count == 0:
            yield f"tests/guide/broken.py: {what}: {name} has no place to break, {old}"
            continue
        pages = {each: take_apart(each, text if each == name else texts[each]) for each in texts}
        if not any(word in problem for problem in problems(project, pages)):
            yield f"broken on purpose and NOT noticed: {what} ({name})"


# what is wrong then; the file; what stands there; what stands there instead; what a problem must speak of
MISDRAWN = [
    ("a crate that is named and never imported", "crates.txt", "\nrules_laws: rules\n", "\nrules_laws: rules linked_lists\n", "rules_laws names linked_lists"),
    ("a crate that is imported and not named", "crates.txt", "\nrules_engine: rules rules_laws\n", "\nrules_engine: rules\n", "rules_engine does not name rules_laws"),
    ("other words of a crate", "crates.txt", "\n# the free ranges by address\n", "\n# the ranges\n", "docs/ARCHITECTURE.md is old"),
    ("another title of a family", "crates.txt", "\n## doors\n", "\n## ports\n", "README.md is old"),
    ("an old picture", "docs/layers.svg", ">pool_chain<", ">pool_chains<", "docs/layers.svg is old"),
]
DRAWN = ["crates", "crates.txt", "docs", "tools", "README.md"]


def undrawn(project):
    """The misdrawn copies that nothing was said about."""
    with tempfile.TemporaryDirectory() as folder:
        copy = Path(folder)
        for name in DRAWN:
            (shutil.copytree if (project / name).is_dir() else shutil.copy)(project / name, copy / name)
        for what, name, old, new, word in MISDRAWN:
            text = (project / name).read_text("utf-8")
            if text.count(old) != 1:
                yield f"tests/guide/broken.py: {what}: {name} has no one place to break, {old!r}"
                continue
            (copy / name).write_text(text.replace(old, new), "utf-8")
            if not any(word in problem for problem in figures.layers(copy)):
                yield f"broken on purpose and NOT noticed: {what} ({name})"
            (copy / name).write_text(text, "utf-8")
