"""How far a long work is, on standard error: one line that is rewritten on a terminal, else a line now and then."""
import sys
import time

from tools.places import as_called

# How often it is told, in seconds, on a terminal and elsewhere; nothing is told of a work that ends before.
OFTEN, SELDOM = 0.5, 10.0


class Telling:
    """A line that is rewritten on a terminal, and elsewhere a line now and then, or none."""

    def __init__(self, head="", is_elsewhere=True, often=OFTEN):
        stream = sys.stderr
        self.is_terminal = stream is not None and not stream.closed and stream.isatty()
        self.is_told = self.is_terminal or stream is not None and is_elsewhere
        self.head, self.wide, self.often = as_called(head), 0, often if self.is_terminal else SELDOM
        self.began = self.last = time.monotonic()

    def is_due(self):
        """Whether something is to be told now."""
        return self.is_told and time.monotonic() >= self.last + self.often

    def tell(self, words):
        """Tells words in the place of those before; the caller has asked whether it is due."""
        self.last, told = time.monotonic(), self.head + words
        self.write("\r" + told.ljust(self.wide) if self.is_terminal else told + "\n")
        self.wide = len(told)

    def end(self):
        """Leaves the line empty for what is told next."""
        if self.is_terminal and self.wide:
            self.write("\r" + self.wide * " " + "\r")
            self.wide = 0

    def write(self, told):
        try:
            sys.stderr.write(told)
            sys.stderr.flush()
        except (OSError, ValueError):
            self.is_told = False
