"""Journals: made here byte by byte, as their layout says; whole ones, faulty ones, and ones whose answers are wrong."""
from ground import Folder, answered, held_to, run, without

KINDS = {"f": 1, "a": 2, "r": 3}


def block(call, answer):
    letter, *numbers = call.split()
    body = bytes([KINDS[letter]]) + b"".join(int(number).to_bytes(8, "big") for number in numbers) + answer.to_bytes(8, "big", signed=True)
    return len(body).to_bytes(2, "big") + body


def journal(*pairs):
    return b"\x01" + b"".join(block(call, answer) for call, answer in pairs)


def signed(answer):
    """The number of an answer as it is printed."""
    word, _, number = answer.partition(" ")
    return -int(number) if word == "no" else int(number or 0)


CALLS = ["f 65536 65536", "a 4096 0", "a 8192 14", "f 65536 4096", "f 65536 4096", "r 100000 100 12", "a 1 64", "f 9223372036854771712 4096"]
NIL = bytes(24)

# the bytes of a journal, and what is said of it: that of the first trouble, by its index
FAULTY = {
    "one byte of a length": (b"\x01\x00", "block 0 is cut off"),
    "a length of 0": (b"\x01\x00\x00", "block 0 has a length that no call has, 0"),
    "a length alone": (b"\x01\x00\x19", "block 0 is cut off"),
    "an unknown call, cut off": (b"\x01\x00\x19\x09", "block 0 is cut off"),
    "an unknown call": (b"\x01\x00\x19\x09" + NIL, "block 0 has an unknown call, 9"),
    "a length of another call": (b"\x01\x00\x19\x03" + NIL, "block 0 has a length that is not its call's, 25"),
    "the same, cut off": (b"\x01\x00\x21\x01" + NIL, "block 0 is cut off"),
    "a length past all": (b"\x01\xff\xff\x01" + NIL, "block 0 has a length that no call has, 65535"),
    "a byte too many": (journal(("f 5 1", 0)) + b"\x00", "block 1 is cut off"),
    "two journals in one": (journal(("f 5 1", 0)) * 2, "block 1 has a length that no call has, 256"),
}

REPLAYED = "Whether the recorded answers are the allocator's own, the books do not show: ./run audit FILE does.\n"
ELSEWHERE = [("f 0 8", 0), ("a 4 0", 4)]  # the allocator answers 0

# blocks with answers, the status, and what is printed besides
JUDGED = [
    ("nothing but the version", [], 0, r"block .*There is no call in it\.\nThe books close: by the vouchers and byte by byte 0 bytes are free\.\n"),
    ("an answer that is not the allocator's", ELSEWHERE, 0, r".*The books close: by the vouchers and byte by byte 4 bytes are free, in 1 range\.\n"),
    ("all of memory", [("f 0 9223372036854775808", 0)], 0, r".*9223372036854775808 bytes are free, in 1 range\.\n"),
    ("a byte freed twice", [("f 7 2", 0), ("f 8 3", 0)], 2, r".*NOT RIGHT: accepted, though byte 8 was free already, since block 0\n.*do NOT close, first at block 1\..*"),
    ("a byte handed out twice", [("f 0 8", 0), ("a 4 0", 0), ("a 4 0", 3)], 2, r".*NOT RIGHT: accepted, though byte 3 was taken, since block 1\n.*"),
    ("an answer that no call gets", [("f 0 8", 1)], 2, r".*NOT RIGHT: no such call is answered so\n.*first at block 0.*"),
    ("another one", [("a 8 0", -5)], 2, r".*NOT RIGHT: no such call is answered so\n.*"),
    ("a damaged book", [("f 0 8", 0), ("a 8 0", -2)], 1, r".*no 2: the book itself is damaged.*The books close.*"),
    ("a refusal that nothing explains", [("f 0 8", 0), ("a 8 0", -3)], 1, r".*no 3: the vouchers do not show why\n.*The books close.*"),
]


def not_shown(folder):
    """Books that close over an answer which the audit finds."""
    file, page = folder.write("journal", journal(*ELSEWHERE)), folder / "page"
    run("audit", file)  # the first one says that it is built
    yield held_to("the audit finds it", run("audit", file), 1, r"differs 1\n", "")
    run("books", file, "--html", page)
    yield "the page says so too", None if REPLAYED.strip().replace("'", "&#x27;") in page.read_text("utf-8") else "it does not"
    ended = run("books", folder.write("calls", "f 0 8|a 4 0"))
    yield held_to("of calls nothing of the kind is said", ended, 0, r".*The books close: [^\n]*\n", "")


def cases(words, is_few=False):
    with Folder() as folder:
        answers = answered(words, CALLS)
        file = folder.write("journal", journal(*((call, signed(answer)) for call, answer in zip(CALLS, answers))))
        recorded, played = run("books", file), run("books", folder.write("calls", "|".join(CALLS)))
        rows = [[row.split()[1:-1] for row in ended.out.split("\n\n")[0].split("\n")[1:] if row[:6].strip().isdigit()] for ended in (recorded, played)]
        is_right = rows[0] == rows[1] and len(rows[0]) == len(CALLS) and recorded.status == played.status == 1
        yield "the same vouchers as of its calls", None if is_right else f"{recorded.out}\n{played.out}"
        for name, (given, sentence) in FAULTY.items():
            ended = run("books", folder.write("journal", given))
            out = rf".*\nThe books do NOT close: the journal is faulty, {sentence}\. Free bytes are, so far, .*\n"
            yield held_to(name, without(REPLAYED, ended), 2, out, "")
        for version in (0, 2, 27):
            ended = run("books", folder.write("journal", bytes([version]) + journal(("f 5 1", 0))[1:]))
            said = rf"run: .*/journal begins with the byte {version}: it is no text, and no journal of this version, which begins with 1\n"
            yield held_to(f"a journal of version {version}", ended, 2, "", said)
        for name, blocks, status, out in JUDGED:
            ended = run("books", folder.write("journal", journal(*blocks)))
            yield held_to(name, without(REPLAYED, ended), status, out, "")
        yield from not_shown(folder)
