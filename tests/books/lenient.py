"""What is read leniently, by these commands alone; what is not; and that it is said."""
from ground import Folder, books, run

OFFER = "The books close: by the vouchers, byte by byte and in the listing 16 bytes are free, in 1 range."

# the bytes of a file, what is said of it, by a few words; all of them are an offer of the bytes 16 to 31
READ = {
    "as it is": (b"f 16 16\n", []),
    "without a last line end": (b"f 16 16", []),
    "carriage returns": (b"f 16 16\r\n", ["a carriage return at the end is left out (line 1)"]),
    "a byte-order mark": (b"\xef\xbb\xbff 16 16\n", ["a byte-order mark at the beginning is left out (line 1)"]),
    "tabs": (b"f\t16\t16\n", ["tabs, or more spaces than one, are taken as one space"]),
    "spaces": (b"  f 16   16 \n", ["tabs, or more spaces than one, are taken as one space"]),
    "a comment": (b"f 16 16 # the first\n", ["what follows a # is left out (line 1)"]),
    "comments alone": (b"# a\n#b\nf 16 16\n", ["what follows a # is left out (2 lines, the first is line 1)"]),
    "empty lines": (b"\n \t\nf 16 16\n\n", ["a line with nothing in it is passed over (3 lines, the first is line 1)"]),
    "hexadecimal": (b"f 0x10 0X0010\n", ["hexadecimal numbers are taken as such (line 1)"]),
    "all of it": (
        b"\xef\xbb\xbf# begin\r\nf\t0x10 16 # so\r\n",
        ["byte-order mark", "carriage return at the end is left out (2 lines", "tabs", "what follows a #", "hexadecimal"],
    ),
    "a long comment": (b"f 16 16 #" + b"x" * 200000 + b"\n", ["what follows a #"]),
}

# lines that stay bad
BAD = [
    b"f 16, 16", b"f 16 1_6", b"f 016 16", b"f +16 16", b"f 16 16;", b"F 16 16", b"f 16 16.0", b"f 0x 16", b"f 0x1g 16", b"f 16\x0b16", b"f 16\xa016",
    b"f 16 16\r\r", b"f 1e1 16", b"x" * 5000, b"f 16 16 " + b"\x00", b"f 16 " + b"1" * 100, b"\xff\xfff 16 16", b"l\rl",
]


def cases(words, is_few=False):
    with Folder() as folder:
        for name, (given, sayings) in READ.items():
            ended = run("books", folder.write("calls", given))
            said = [line for line in ended.out.split("\n") if line.startswith("Read differently: ")]
            is_right = ended.status == 0 and OFFER in ended.out and len(said) == len(sayings) and all(map(has, said, sayings))
            yield name, None if is_right else f"it ends with {ended.status}, prints {ended.out!r} and says {ended.said!r}"
        ended = run("books", folder.write("calls", "\ufefff 16 16\n".encode("utf-16-le")))
        yield "UTF-16", None if ended.status == 2 and "is written in UTF-16" in ended.said else f"{ended}"
        held = folder.write("calls", b"holders\no 16 16\n")
        for asked in (["books", held], ["check", held, folder.write("answers", b"ok\n")]):
            ended = run(*asked)
            is_refused = ended.status == 2 and not ended.out and "the forms of the register" in ended.said
            yield f"the register's forms, {asked[0]}", None if is_refused else f"{ended}"
    for line in BAD:
        desk, entries, _ = books(words, line + b"\nl\n")
        is_bad = entries[0].answer.kind == "bad" and entries[0].reason and desk.first_fault is None and desk.book.total == 0
        yield f"{line[:40]!r} stays bad", None if is_bad else f"it is {entries[0]}"
    yield "the program alone stays strict", None if run("-", given=b"f\t16 16\nf 0x10 16\n").out == "bad\nbad\n" else "it is not"


def has(line, words):
    return words in line
