"""The parts of a round: what each machine is given, how they run, and what came of each."""
import os
import re
import shutil
import time

from tools.batch_columns import Column
from tools.batching import DONE, SHARED, lay_out
from tools.engines import PATIENCE, started
from tools.foreign import LARGEST_LOG, content, is_own_folder, is_plain, put
from tools.standing import INSTANCE
from tools.tool import make_folder, spelled

# What all parts of a round share, beside what steps of a batch do: the tree, the plan to begin with, and how many
# seconds a part may take.
TREE, START, LIMIT = "tree.txt", "start.txt", "limit"
# The statuses of `timeout` where time was over.
TOO_LONG = (124, 137)
# How often the parts are looked at, in seconds.
OFTEN = 0.2
# How far a run came, and what its children took of the processors, by the last line of `times` in a shell.
PERCENT = re.compile(rb"vrptw: ([0-9]{1,2}|100) % of the turns")
TIME = rb"([0-9]{1,9})m([0-9]{1,2}(?:\.[0-9]{1,9})?)s"
TIMES = re.compile(TIME + rb" " + TIME + rb"\n\Z")


class Part:
    """What came of a part: its texts as they stand in a folder, the status of the program or None, the seconds that it
    took, how many percent of its turns it made, or None, and the seconds of processors."""

    def __init__(self, folder):
        self.folder = folder
        done = DONE.match(self.content("done.txt"))
        self.status, self.seconds = (int(done[1]), int(done[2]) / 1000) if done else (None, None)
        errors = self.content("errors.txt")
        percents, times = PERCENT.findall(errors), TIMES.search(errors)
        self.percent = int(percents[-1]) if percents else None
        self.spent = sum(60 * int(times[at]) + float(times[at + 1]) for at in (1, 3)) if times else 0.0

    def path(self, name):
        return os.path.join(self.folder, name)

    def content(self, name):
        """What a file in its folder holds; nothing where the folder is a link."""
        return content(self.path(name), LARGEST_LOG) if is_own_folder(self.folder) else b""

    def has_answer(self):
        """Whether the program said that it came to something."""
        return self.status in (0, 1) and is_plain(self.path("certificate.txt"))

    def fault(self):
        """Why it came to nothing, in one line."""
        if self.status is None:
            return "it didn't end in time, or its machine was lost"
        if self.status in TOO_LONG:
            return "it took too long"
        lines = self.content("errors.txt").decode(errors="replace").split("\n")
        said = [line for line in lines if line.startswith("vrptw: ") and "of the turns" not in line]
        return spelled(said[0]) if said else "its program ended with status %d" % self.status

    def is_out_of_work(self):
        """Whether it ended before its turns were made, since no leaf of it was open any more."""
        return self.has_answer() and (self.percent or 0) < 100


class Round:
    """The parts of a round in a folder, by a number that no other round there has."""

    def __init__(self, into, number, count):
        self.into = into
        self.names = ["r%d@%d" % (number, place) for place in range(1, count + 1)]

    def lay_out(self, program, texts, words, limit):
        """Puts what the parts need into the folder in the place of what was there: the texts by their names, the words
        of each part, and the limit in seconds."""
        shutil.rmtree(self.into, ignore_errors=True)
        columns = [Column(str(place), own) for place, own in enumerate(words, 1)]
        lay_out(self.into, columns, program)
        for name, text in texts.items():
            put(os.path.join(self.into, name), text)
        put(os.path.join(self.into, LIMIT), b"%d\n" % limit)
        for name in self.names:
            make_folder(os.path.join(self.into, name))
            put(os.path.join(self.into, name, INSTANCE), texts[INSTANCE])

    def run(self, given, is_over):
        """Runs the parts until all have ended, or it is over; those that are at work then are ended."""
        engine, _ = started(self.into, self.names, given, SHARED + (TREE, START, LIMIT), False)
        while engine.is_running() and not is_over():
            time.sleep(OFTEN)
        engine.stop()
        until = time.monotonic() + PATIENCE
        while engine.is_running() and time.monotonic() < until:
            time.sleep(OFTEN)

    def parts(self):
        return [Part(os.path.join(self.into, name)) for name in self.names]
