"""The commands by their words, and how each ends: 0 closes, nothing refused; 1 refused or bad; 2 does not close, or cannot be read or written."""
import sys

from books import books
from check import check
from output import Output, Unwritten, said
from reading import Unreadable
from turns import Unanswered
from words import counted

CLOSES, FAILED, INTERRUPTED, ENOUGH = 0, 2, 130, 141

USAGE = """usage: ./run books FILE [--hex] [--html OUT] [--svg OUT]
       ./run check CALLS ANSWERS [--hex]
FILE has calls, one a line, or is a journal; - is standard input."""


class Misused(Exception):
    pass


OPTIONS = {"books": ("--hex", "--html", "--svg"), "check": ("--hex",)}


class Options:
    """`files` and what else was asked for."""

    def __init__(self, command, words):
        self.files, self.is_hex, self.pages = [], False, {}
        words = iter(words)
        for word in words:
            if word == "--":
                self.files += words
            elif word.startswith("-") and word != "-" and word not in OPTIONS[command]:
                raise Misused(f"{command} has no option {word}")
            elif word == "--hex":
                self.is_hex = True
            elif word in ("--html", "--svg"):
                self.pages[word] = next(words, "")
                if self.pages[word] in ("", "-") or self.pages[word].startswith("--"):
                    raise Misused(f"{word} wants the name of a file (one that begins with -- is named as ./--..)")
            else:
                self.files.append(word)


def main(arguments):
    sys.stdout.reconfigure(errors="backslashreplace")  # the name of a file may be any bytes
    out = Output(sys.stdout)
    try:
        return asked(arguments, out)
    except BrokenPipeError:
        return ENOUGH
    except KeyboardInterrupt:
        return INTERRUPTED
    except Exception as error:  # no end is without a sentence
        out.rescue()
        said(f"run: {in_words(error)}")
        return FAILED


def in_words(error):
    if isinstance(error, Misused):
        return f"{error}\n{USAGE}"
    if isinstance(error, (Unreadable, Unwritten, Unanswered)):
        return str(error)
    if isinstance(error, OSError):
        return f"{error.strerror}{f': {error.filename}' if error.filename else ''}"
    return f"a mistake of this command itself: {type(error).__name__}: {error}"


def asked(arguments, out):
    command, *rest = arguments
    if rest and rest[0] in ("-h", "--help"):
        out.write(USAGE + "\n")
        return out.end(CLOSES)
    options = Options(command, rest)
    wanted = 1 if command == "books" else 2
    if len(options.files) != wanted:
        raise Misused(f"{command} takes {counted(wanted, 'file')}, and here {'is' if len(options.files) == 1 else 'are'} {len(options.files) or 'none'}")
    return out.end(books(options, out) if command == "books" else check(options, out))
