"""Signals that ask to stop. A command imports this first of all, so it takes in nothing that takes time."""
import _signal
import time
from posix import _exit

STOPPING = (_signal.SIGINT, _signal.SIGTERM, _signal.SIGHUP)
# Signals that come within so many seconds are one: `timeout` sends two.
APART = 1


def leave(number, frame):
    """Ends the process as its end would, so that what it started is ended too."""
    raise SystemExit(128 + number)


def leave_at_once(number, frame):
    """Ends the process while it has started nothing: what is read in then may say much of an exception."""
    _exit(128 + number)


def end_by_signals(ending=leave):
    """From now on a signal to stop ends what was started here too, quietly; also one that waited until now."""
    for number in STOPPING:
        _signal.signal(number, ending)
    _signal.pthread_sigmask(_signal.SIG_UNBLOCK, STOPPING)


class Signals:
    """Signals to stop end the command, quietly, until its work begins. From then on it is kept that one came: nothing
    is broken off by it, and who works asks for it. With `ends_again` a later one ends the command all the same."""

    def __init__(self):
        self.came, self.came_again, self.first, self.ends_again = False, False, None, False
        end_by_signals(leave_at_once)

    def work(self, ends_again=False):
        """The work begins."""
        self.ends_again = ends_again
        for number in STOPPING:
            _signal.signal(number, self.keep)

    def keep(self, number, frame):
        now = time.monotonic()
        self.first = now if self.first is None else self.first
        self.came, self.came_again = True, now - self.first >= APART
        if self.came_again and self.ends_again:
            leave(number, frame)


class Patience:
    """Signals that count only once some seconds are over."""

    def __init__(self, signals, seconds):
        self.signals, self.from_then = signals, time.monotonic() + seconds

    @property
    def came(self):
        return self.signals.came and time.monotonic() >= self.from_then
