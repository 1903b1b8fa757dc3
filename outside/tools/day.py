"""The folder of a plan by days: texts and pages of one day come into place together, and those of before stay whole."""
import ctypes
import errno
import os
import shutil

from tools.standing import INSTANCE, TEXTS, TREES, Folder
from tools.tool import Refused, reason_of

# The day that stands, and the one before; within the folder of a command at work the day that it makes, the day that
# goes into place, which day that is, and what stood where two can't be exchanged at once.
NOW, BEFORE = "now", "before"
DAY, NEXT, TURN, WAS = "day", "next", "turn", "was"
# Pages, and folders within, of a day.
TIMETABLE, REPORT, SHEETS = "timetable.csv", "report.html", "drivers.html"
CHANGES, LEFT_OUT = "changes.csv", "left_out.csv"
SERVED, FEWEST = "served", "fewest"
# What earlier versions had in the folder itself.
OLD = (*TEXTS, *TREES.values(), TIMETABLE, REPORT, SHEETS, SERVED, FEWEST)
# The call of Linux that exchanges two folders, and its words.
_HERE, _EXCHANGE = -100, 2
try:
    _RENAME = ctypes.CDLL(None, use_errno=True).renameat2
except (AttributeError, OSError):
    _RENAME = None


def exchange(first, second, spare):
    """Exchanges two folders, at once where the system has that; else by a third path that is free."""
    if _RENAME is not None and not _RENAME(_HERE, os.fsencode(first), _HERE, os.fsencode(second), _EXCHANGE):
        return
    if _RENAME is not None and ctypes.get_errno() not in (errno.EINVAL, errno.ENOSYS, errno.EPERM):
        raise OSError(ctypes.get_errno(), os.strerror(ctypes.get_errno()))
    os.rename(second, spare)
    os.rename(first, second)
    os.rename(spare, first)


def copied(source, target):
    """Copies a file: by a link where that is possible, since texts are replaced and never written over."""
    try:
        os.link(source, target)
    except OSError:
        shutil.copy2(source, target)
    return target


def passed_over(place, names):
    """What isn't copied of a folder: what is at work, and folders without texts."""
    def is_bare(path):
        return os.path.isdir(path) and all(name.startswith(".") for name in os.listdir(path))
    return [name for name in names if name.startswith(".") or is_bare(os.path.join(place, name))]


def copy(source, target, by=copied):
    """Copies the texts of a day, without what is at work in it."""
    if os.path.isdir(source):
        shutil.copytree(source, target, copy_function=by, ignore=passed_over, dirs_exist_ok=True)
    else:
        by(source, target)


def removed(path):
    """Takes a file or a folder away."""
    if os.path.isdir(path):
        shutil.rmtree(path, ignore_errors=True)
    else:
        os.remove(path)


def files_of(path):
    """What each file of a folder holds, by its path within."""
    found = {}
    for place, _, names in os.walk(path):
        for name in names:
            with open(os.path.join(place, name), "rb") as file:
                found[os.path.relpath(os.path.join(place, name), path)] = file.read()
    return found


def text_in(path, name):
    """What a text of a day holds, or None."""
    try:
        with open(os.path.join(path, name), "rb") as file:
            return file.read()
    except OSError:
        return None


class Day(Folder):
    """A folder in which a day is made beside the one that stands, until it comes into place by one rename."""

    def __init__(self, path):
        super().__init__(path)
        self.path, self.origin, self.texts = os.path.join(self.work, DAY), None, {}
        try:
            os.mkdir(self.path)
            self.take_old()
        except OSError as fault:
            raise Refused("%s: %s" % (path, reason_of(fault)))

    def in_top(self, name):
        return os.path.join(self.top, name)

    def clear(self):
        """What a killed command left goes once the work has begun with it; its last step is done."""
        now = self.in_top(NOW)
        for path in self.killed():
            turn, came = text_in(path, TURN), os.path.join(path, NEXT)
            if not os.path.exists(now) and os.path.isdir(os.path.join(path, WAS)):
                os.rename(os.path.join(path, WAS), now)
            elif turn and os.path.isdir(came) and turn.split() == self.turn_of(now, came):
                self.keep(came, path)

    def turn_of(self, now, before):
        """Which folders are the day that stands and the one that stood."""
        return [b"%d" % os.stat(path).st_ino for path in (now, before) if os.path.exists(path)]

    def keep(self, came, work):
        """Keeps a day as the one before."""
        before = self.in_top(BEFORE)
        if os.path.isdir(before):
            exchange(came, before, os.path.join(work, WAS))
        else:
            os.rename(came, before)

    def take_old(self):
        """Takes what an earlier version left in the folder itself as the day that stands."""
        there = [name for name in OLD if os.path.exists(self.in_top(name))]
        if INSTANCE not in there or os.path.exists(self.in_top(NOW)):
            return
        made = os.path.join(self.work, NEXT)
        os.mkdir(made)
        for name in there:
            copy(self.in_top(name), os.path.join(made, name))
        os.rename(made, self.in_top(NOW))
        for name in there:
            removed(self.in_top(name))

    def days(self):
        """The days that the work may begin with, the ones that a killed command made first."""
        found = [os.path.join(path, DAY) for path in self.killed() if path != self.work]
        return [path for path in (*found, self.in_top(NOW), self.in_top(BEFORE)) if os.path.isdir(path)]

    def seed(self, texts, known):
        """Begins with a day of the same instance, which one of its texts by their names says; else with the texts of
        that one of which most customers of today are known. The killed commands' days go."""
        self.texts, days = texts, self.days()
        kept = [day for day in days if os.path.dirname(day) == self.top]
        self.origin = next(filter(self.is_same, days), None) or max(kept, key=known, default=None)
        is_same = self.origin is not None and self.is_same(self.origin)
        # By which a day is known comes last: one whose copy was killed is none. Who writes into a text of one day by
        # hand doesn't write into the other.
        for name in sorted(os.listdir(self.origin), key=texts.__contains__) if self.origin else ():
            if is_same and not name.startswith(".") or name in TEXTS:
                copy(os.path.join(self.origin, name), self.at(name), shutil.copy2)
        for path in self.killed():
            if path != self.work:
                shutil.rmtree(path, ignore_errors=True)

    def is_same(self, day):
        """Whether a day is of today's instance."""
        return any(text_in(day, name) == text for name, text in self.texts.items())

    def before(self):
        """Where the day stands that is the one before once this one is in place, or None: the last one, unless it is
        this one, or this one's plan was taken from the one before it."""
        now, before = self.in_top(NOW), self.in_top(BEFORE)
        is_kept = not os.path.isdir(now) or self.is_same(now) or self.origin == before and not self.is_same(before)
        return (before if os.path.isdir(before) else None) if is_kept else now

    def publish(self):
        """Brings the day into place, where it isn't the one that stands; what stood before is kept."""
        now, made = self.in_top(NOW), os.path.join(self.work, NEXT)
        try:
            shutil.rmtree(made, ignore_errors=True)
            copy(self.path, made)
            if not os.path.isdir(now):
                os.rename(made, now)
            elif files_of(made) != files_of(now):
                self.turn(now, made)
        except OSError as fault:
            raise Refused("%s: %s" % (self.top, reason_of(fault)))

    def turn(self, now, made):
        """Exchanges the day that stands for the one that is made."""
        is_kept = self.before() == now
        # A command that is killed behind the exchange leaves the rest to the next one.
        if is_kept:
            self.put_beside(TURN, b" ".join(self.turn_of(made, now)))
        exchange(made, now, os.path.join(self.work, WAS))
        if is_kept:
            self.keep(made, self.work)
            os.remove(self.beside(TURN))
