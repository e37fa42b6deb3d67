"""Why two results that a contract allows coincide: docs/CONTRACTS.md has every public call in a table of the sentences that show it, or in one of
exemptions; each contract is of the form that its sentence speaks of; and a call with a `requires` is named where the page says that none has one."""
import re

from contracts import entries, public
from pages import SPAN

SENTENCES, EXEMPT, PARTS = ("sentence", "calls"), ("call", "what its contract leaves open, and why"), ("call", "promise", "ruled out")
UMBRELLA = "memory_allocator"  # all that a client takes
STATED = "crates/promises/specs/Determined.antt"
FUNCTION = r"\n *(?:pub )?fn {}(?:<[^\n]*?>)?\((.*?)\)([^(){{}}]*?)\n *((?:requires|ensures) .*?)\n *\{{\n"
EQUATION = re.compile(r"ensures (?:\w+ )?\{ (?:(result)|(\w+)\.new|is (\w+)) ≡ ")
WHOLE = re.compile(r"ensures (?:\w+ )?\{ turns_eleven \(λ a a'\. a' ≡ ")  # of the eleven fields
HEAD = re.compile(r"(?:\{|λ [as] [as]'\.) (\w\w+) ")
LENT = {"Judges": "Judged", "ServedIn": "Served", "AnswersIn": "Answers", "HolderSaysIn": "HolderSays", "RepliesIn": "Replies"}  # the same of lent fields


def sentences(project):
    """The sentences, each with what it says."""
    text = (project / STATED).read_text("utf-8")
    return dict(re.findall(r"\n  pub ([\w-]+) : (.*)", text[text.index("\npub record EachDetermined"):]))


def contract(project, crate, name):
    """Parameters, what is returned, and the clauses of a function."""
    for path in sorted((project / "crates" / crate / "src").glob("*.rt")):
        found = re.search(FUNCTION.format(name), "\n" + path.read_text("utf-8"), re.S)
        if found:
            return found.groups()
    return None


def _is_equation(parameters, returned, clauses):
    found, lent = EQUATION.search(clauses), parameters.count("&mut ")
    if not found:
        return bool(WHOLE.search(clauses)) and "->" not in returned
    result, *held = found.groups()
    return (bool(result) and lent == 0) or (any(held) and lent == 1 and "->" not in returned)


def fits(sentence, said, parameters, returned, clauses):
    """Whether the contract is of the form that the sentence speaks of."""
    if sentence == "equation":
        return _is_equation(parameters, returned, clauses)
    return any(re.search(rf"[ .]{LENT.get(head, head)} ", said) for head in HEAD.findall(clauses[clauses.index("ensures"):]))


def called(project, page):
    """The public calls: those with an entry, the exported ones, those that a client takes, whatever else the crates of the entries give, and the parts of the program."""
    own = [(entry.crate, entry.call.split("::")[-1]) for entry in entries(page) if entry.crate]
    yield from own
    yield from ((crate, name) for crate in {crate for crate, _ in own} for name in public(project, crate))
    for path in (project / "crates").glob("*_c/src/*.rt"):
        yield from ((path.parts[-3].removesuffix("_c"), name) for name in re.findall(r'^pub extern "C" fn (\w+)', path.read_text("utf-8"), re.M))
    umbrella = (project / "crates" / UMBRELLA / "src/lib.rt").read_text("utf-8")
    yield from re.findall(r"^pub use (\w+)::([a-z]\w*);", umbrella, re.M)
    for _, (cell, *_) in page.table(*PARTS):
        for names, crate in re.findall(r"(.*?) in `crates/(\w+)`", cell):
            yield from ((crate, name) for name in SPAN.findall(names))


def _shown(project, page):
    """Line, crate and name of each call of the two tables, with its sentence, or none."""
    for line, (sentence, calls, *_) in page.table(*SENTENCES):
        yield from ((line, *span.split("::"), sentence.strip("`")) for span in SPAN.findall(calls))
    for line, (call, *_) in page.table(*EXEMPT):
        yield from ((line, *span.split("::"), None) for span in SPAN.findall(call))


def held(project, page):
    """What is wrong with the tables, and with what is said of `requires`."""
    stated, shown, first = sentences(project), list(_shown(project, page)), next(entries(page)).line
    said = {span for line, span in page.spans() if line < first}
    for line, crate, name, sentence in shown:
        found = contract(project, crate, name)
        if not found:
            yield f"{page.name}:{line}: crates/{crate}/src has no {name} with a contract"
        elif sentence and sentence not in stated:
            yield f"{page.name}:{line}: {sentence} is no sentence of {STATED}"
        elif sentence and not fits(sentence, stated[sentence], *found):
            yield f"{page.name}:{line}: the contract of {crate}::{name} is not of the form of {sentence}"
        if found and "requires" in found[2] and not name.endswith("unchecked") and not {name, f"{crate}::{name}"} & said:
            yield f"{page.name}: {crate}::{name} has a `requires`, and is not named above the first entry"
    for crate, name in sorted(set(called(project, page)) - {(crate, name) for _, crate, name, _ in shown}):
        yield f"{page.name}: {crate}::{name} is public, and no sentence is said to determine it, nor a reason why none does"
