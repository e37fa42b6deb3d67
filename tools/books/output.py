"""What is written, and that it was: a full disk is said, and whoever closes the pipe has seen enough."""
import errno
import sys

TOGETHER = 500


class Unwritten(Exception):
    pass


class Output:
    """Texts are gathered, and written some hundred at a time."""

    def __init__(self, stream):
        self.stream, self.texts = stream, []

    def write(self, text):
        self.texts.append(text)
        if len(self.texts) == TOGETHER:
            self.flush()

    def flush(self):
        try:
            self.stream.write("".join(self.texts))
            self.stream.flush()
        except OSError as error:
            raise _unwritten("standard output", error) from None
        self.texts.clear()

    def end(self, status):
        self.flush()
        return status

    def rescue(self):
        """What was gathered before something failed, if it can be written."""
        try:
            self.flush()
        except (OSError, Unwritten):
            pass


def _unwritten(what, error):
    return error if error.errno == errno.EPIPE else Unwritten(f"{what} cannot be written: {error.strerror}")


def write_file(name, texts):
    try:
        with open(name, "w", encoding="utf-8", errors="replace") as file:
            for text in texts:
                file.write(text)
    except OSError as error:
        raise Unwritten(f"{name} cannot be written: {error.strerror}") from None


def said(text):
    """On standard error, if anybody can read it."""
    try:
        sys.stderr.write(text + "\n")
        sys.stderr.flush()
    except OSError:
        pass
