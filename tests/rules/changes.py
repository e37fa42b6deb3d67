"""Changes of the rules, one word of one line at a time, or one line of a call left out; and those of them that are no mistakes."""
import re
from dataclasses import dataclass

WORD = re.compile(r"[A-Za-z][\w'-]*|\d+|[^\s\w]+|\s+")
HEADS = re.compile(r"\s*(abbrev|unfoldable|pub|use|--|Free :|Allocate :|Reserve :)")
REFUSES = re.compile(r"(\s+\(?)refuse .* b$")
OTHERS = {
    "leb": ["ltb"], "ltb": ["leb"], "eqb": ["leb"], "&&": ["||"], "||": ["&&"], "true": ["false"], "false": ["true"],
    "start": ["last"], "last": ["start"], "number": ["start"], "chain": ["shelf"], "shelf": ["chain"],
    "up": ["down"], "down": ["up"], "put": ["remove"], "remove": ["put"], "lower": ["upper"], "upper": ["lower"],
    "start_of": ["size"], "size": ["start_of"], "splits": ["meets"], "meets": ["contains"], "contains": ["meets"],
    "a": ["t"], "t": ["a"], "l": ["u"], "u": ["l"], "r": ["q"], "q": ["r"], "s": ["z"], "z": ["s"],
    "i": ["0"], "j": ["0"], "n": ["0"], "k": ["0"], "o": ["0"], "x": ["0"], "b": ["empty"], "top": ["0"],
    "+": ["-"], "-": ["+"], "*": ["+"], "/": ["*"], "suc": [""],
}  # fmt: skip

# A book's chain and shelf have the same ranges, so that what asks no order asks either. No two ranges overlap, so that they have one
# order by first and by last bytes. A number that is at most 0 is 0.
SAME = {
    ("start_of r = r.start", "start_of r = r.last"),
    ("total b = sum b.chain", "total b = sum b.shelf"),
    ("unused n b = lowest n 0 b.chain", "unused n b = lowest n 0 b.shelf"),
    ("free_at b x = any (holds x) b.chain", "free_at b x = any (holds x) b.shelf"),
    ("lower a b = find (λ r. eqb (suc r.last) a) b.chain", "lower a b = find (λ r. eqb (suc r.last) a) b.shelf"),
    ("upper t b = find (λ r. eqb r.start t) b.chain", "upper t b = find (λ r. eqb r.start t) b.shelf"),
    ("refuse (eqb z 0) 4 b", "refuse (leb z 0) 4 b"),
    ("(refuse (not (any (λ r. fits (fit z o r)) b.shelf)) 3 b", "(refuse (not (any (λ r. fits (fit z o r)) b.chain)) 3 b"),
    (
        "(reserve_from n (down o s) (up o (s + z)) b (find (contains (down o s) (up o (s + z))) b.chain))))))",
        "(reserve_from n (down o s) (up o (s + z)) b (find (contains (down o s) (up o (s + z))) b.shelf))))))",
    ),
    ("(refuse (any (meets s (s + z)) b.chain) 4 b", "(refuse (any (meets s (s + z)) b.shelf) 4 b"),
    (
        "covers v x = eqb v.number 0 && (leb (from v.call v.address) x && ltb x (past v.call v.address))",
        "covers v x = leb v.number 0 && (leb (from v.call v.address) x && ltb x (past v.call v.address))",
    ),
}

# Of one definition alone: in no book does a range fit that has more bytes than all of them, and that none fits is 3 too.
SAME_IN = {
    ("allocate", "(refuse (ltb (total b) z) 3 b", "(refuse false 0 b"),
}
DEFINED = re.compile(r"(\w+) .*=")


@dataclass
class Change:
    line: int
    definition: str
    old: str
    new: str
    text: str

    @property
    def is_same(self):
        """Whether no call can show it."""
        return (self.old, self.new) in SAME or (self.definition, self.old, self.new) in SAME_IN


def _others(word):
    if not word.isdigit():
        return OTHERS.get(word, [])
    return [str(int(word) + 1)] + ([str(int(word) - 1)] if int(word) else [])


def _of_line(line):
    """The line with one word changed, or with its refusal left out."""
    left_out = REFUSES.match(line)
    if left_out:
        yield f"{left_out[1]}refuse false 0 b"
    begins = line.find(" = ") + 3 if " = " in line else 0
    for word in WORD.finditer(line):
        if word.start() >= begins:
            for other in _others(word.group()):
                yield line[: word.start()] + other + line[word.end() :]


def _some(found, most):
    """As many as are asked for, from all along the line."""
    if most is None or len(found) <= most:
        return found
    return [found[at * len(found) // most] for at in range(most)]


def changes(text, most):
    lines = text.split("\n")
    definition = ""
    for at, line in enumerate(lines):
        if not line.strip() or HEADS.match(line):
            continue
        begun = DEFINED.match(line)
        definition = begun[1] if begun else definition
        for new in _some(list(_of_line(line)), most):
            yield Change(at + 1, definition, line.strip(), new.strip(), "\n".join(lines[:at] + [new] + lines[at + 1 :]))
