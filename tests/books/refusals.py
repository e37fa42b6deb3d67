"""The sentence of each refusal and of each bad line, and the line that explains it: by hand, from the rules and the calls before."""
from ground import RECORDS, Folder, books, held_to, run

APART = "|".join(f"f {8192 * k} 4096" for k in range(1, RECORDS + 1))
FULL = f"the book has {RECORDS} free ranges, since line {RECORDS}, and no room for one more"

# calls, the line that is refused, its answer, and the sentence
SENTENCES = [
    ("f 65536 65536|a 4096 0|a 8192 14|f 65536 4096|f 65536 4096", 5, "no 4", "65536 to 69631 are free already, since line 4"),
    ("f 0 10|f 9 1", 2, "no 4", "byte 9 is free already, since line 1"),
    ("f 0 10|f 20 10|f 8 14", 3, "no 4", "bytes 8 and 9 are free already, since line 1; bytes 20 and 21 are free already, since line 2"),
    ("f 0 9|f 10 1|f 12 1|f 14 1|f 0 20", 5, "no 4",
     "0 to 8 are free already, since line 1; byte 10 is free already, since line 2; byte 12 is free already, since line 3; and more"),
    ("f 0 0", 1, "no 4", "SIZE is 0"),
    ("a 0 0", 1, "no 4", "SIZE is 0"),
    ("a 1 64", 1, "no 4", "ORDER is 64, and the highest is 63"),
    ("f 9223372036854775807 2", 1, "no 4", "its bytes pass the last address, 9223372036854775807"),
    ("f 0 18446744073709551615", 1, "no 4", "its bytes pass the last address, 9223372036854775807"),
    ("f 0 10|a 4 0|r 3 4 0", 3, "no 4", "byte 3 is taken, since line 2"),
    ("f 4 10|r 3 4 0", 2, "no 4", "byte 3 was never offered"),
    ("f 0 10|r 8 4 0", 2, "no 4", "bytes 10 and 11 were never offered"),
    ("a 1 0", 1, "no 3", "1 byte is wanted, and 0 are free"),
    ("f 0 10|a 3 0|a 8 0", 3, "no 3", "8 bytes are wanted, and 7 are free, since line 2"),
    ("f 0 10|r 4 1 4", 2, "no 3", "0 to 15 are 16 bytes, and 10 are free, since line 1"),
    ("f 0 4|f 8 6|a 7 0", 3, "no 3", "no free range has 7 bytes in one piece; the longest, in 8 to 13, has 6"),
    ("f 1 6|f 9 7|a 8 2", 3, "no 3", "no free range has 8 bytes from a multiple of 4 on; the longest, in 9 to 15, has 4"),
    ("f 1 2|a 2 2", 2, "no 3", "no free range has a byte from a multiple of 4 on"),
    (APART + f"|f {8192 * (RECORDS + 1)} 4096", RECORDS + 1, "no 1", FULL),
    (APART + "|r 8192 1 0|r 9216 1024 0", RECORDS + 2, "no 1", FULL),
    ("f 4096, 4096", 1, "bad", "a comma; numbers are parted by a space and have no points or commas in them"),
    ("g 1 2", 1, "bad", "a call begins with f, a, r or l"),
    ("F 1 2", 1, "bad", "letters are small: f, not F"),
    ("L", 1, "bad", "letters are small: l, not L"),
    ("f 1", 1, "bad", "f takes 2 numbers, and here is 1"),
    ("f", 1, "bad", "f takes 2 numbers, and here are none"),
    ("l 1", 1, "bad", "l takes no numbers, and here is 1"),
    ("f 1 2 3", 1, "bad", "f takes 2 numbers, and here are 3"),
    ("f 01 2", 1, "bad", "01 begins with a 0"),
    ("f -1 2", 1, "bad", "-1 is no number"),
    ("f 1.5 2", 1, "bad", "1.5 is no number"),
    ("f 18446744073709551616 1", 1, "bad", "18446744073709551616 is 2^64 or more"),
    ("f 0x10000000000000000 1", 1, "bad", "0x10000000000000000 is no number"),
]


def cases(words, is_few=False):
    for calls, number, answer, sentence in SENTENCES:
        _, entries, _ = books(words, calls.replace("|", "\n").encode() + b"\n")
        entry = entries[number - 1]
        told = (f"{entry.answer.kind} {entry.answer.value or ''}".strip(), entry.reason)
        yield f"{answer}: {sentence}", None if told == (answer, sentence) else f"it says {told}"
    with Folder() as folder:
        ended = run("books", folder.write("calls", "f 0 10|f 9 1"))
        yield held_to("the sentence below its row", ended, 1, r".*\n +2  f 9 1 .*\n +no 4: byte 9 is free already, since line 1\n.*", "")
        ended = run("books", "--hex", folder.write("calls", "f 65536 65536|f 65536 4096"))
        yield held_to("in hexadecimal", ended, 1, r".* 1  f 0x10000 65536 .*\n +no 4: 0x10000 to 0x10fff are free already, since line 1\n.*\n0x10000 to 0x1ffff .*", "")
