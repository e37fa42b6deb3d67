"""How far a long run is, on standard error, at a terminal alone."""
import sys
import time

EVERY = 4096  # lines, before somebody looks at a clock
EVERY_SECONDS = 0.5


class Progress:
    def __init__(self, stream=sys.stderr):
        self.stream = stream if stream and stream.isatty() else None
        self.due = time.monotonic() + EVERY_SECONDS
        self.is_shown = False
        self.what = "read"

    def at(self, count):
        if self.stream and time.monotonic() >= self.due:
            self.due = time.monotonic() + EVERY_SECONDS
            self.is_shown = True
            self._write(f"\rrun: {count} lines {self.what}\x1b[K")

    def end(self):
        """Leaves no trace of it."""
        if self.is_shown:
            self.is_shown = False
            self._write("\r\x1b[K")

    def _write(self, text):
        try:
            self.stream.write(text)
            self.stream.flush()
        except OSError:
            self.stream = None
