"""The rounds of a proof: a row for each in a table that stays, its line, and how many turns the next one has."""
import csv
import io
from dataclasses import astuple, dataclass, fields
from statistics import median

from reference.texts import shown, tenths
from tools.batch_table import in_columns, part, percent, tenths_of
from tools.drawing import plural
from vrptw import GROWTH, MOST_TURNS

TABLE = "rounds.csv"
HEADING = ("round", "parts", "came", "at work", "turns", "leaves", "cost", "bound", "gap", "seconds", "hours")


@dataclass
class Row:
    """A round: how many parts were dealt out (0 is one run of this machine), how many answered, how many of all parts
    may have more to do; turns of each worker; leaves, cost and bound as they stand behind it, the latter two as words;
    the seconds since the first round began, without those between two calls, and the processor seconds of all
    rounds."""
    number: int
    parts: int
    came: int
    at_work: int
    turns: int
    leaves: int
    cost: str
    bound: str
    seconds: float
    spent: float

    def gap(self):
        """The gap in percent of the cost, or None."""
        cost = tenths_of(self.cost or None)
        return None if cost is None else part(max(0, cost - tenths(self.bound.encode())), cost)

    def cells(self):
        parts = ["here", "", ""] if not self.parts else [str(self.parts), str(self.came), str(self.at_work)]
        return [str(self.number), *parts, str(self.turns), str(self.leaves), self.cost, self.bound, percent(self.gap()),
                "%.1f" % self.seconds, hours(self.spent)]

    def line(self):
        """The line of a round."""
        parts = "one run here" if not self.parts else "%d of %s, %d still at work" % (
            self.came, plural(self.parts, "part"), self.at_work)
        told = [parts, plural(self.leaves, "leaf").replace("leafs", "leaves")]
        told += ["cost %s" % self.cost if self.cost else "no plan", "bound %s" % self.bound]
        told += ["gap %s" % percent(self.gap())] if self.cost else []
        return "round %d: %s" % (self.number, ", ".join(told + ["%s processor hours" % hours(self.spent)]))


def hours(seconds):
    return "%.4f" % (seconds / 3600)


class Rounds:
    """The rows of all rounds in a folder, those of earlier calls first."""

    def __init__(self, folder):
        self.folder, self.rows = folder, []
        text = folder.held(TABLE)
        if text is not None:
            try:
                self.rows = [Row(*(field.type(row[place]) for place, field in enumerate(fields(Row))))
                             for row in list(csv.reader(io.StringIO(text.decode())))[1:]]
            except (ValueError, IndexError, csv.Error):
                # A table that isn't ours: the rounds are counted anew.
                self.rows = []

    def last(self, name):
        """What the last row has, or 0."""
        return getattr(self.rows[-1], name) if self.rows else 0

    def add(self, row):
        """Adds a row, and keeps it."""
        self.rows.append(row)
        found = io.StringIO()
        csv.writer(found, lineterminator="\n").writerows(
            [[field.name for field in fields(Row)], *map(astuple, self.rows)])
        self.folder.put(TABLE, found.getvalue().encode())

    def table(self):
        """The rows as lines."""
        return in_columns([list(HEADING), *(row.cells() for row in self.rows)], False) if self.rows else []


class Pace:
    """How many turns a round has, so that it takes so many seconds: at most some times as many as the one before."""
    # The part of the time that a round may take by the slowest of its parts; it is ended behind some times the time.
    SLOWEST = 2

    def __init__(self, turns):
        self.turns, self.usual, self.slowest = max(1, turns), None, None

    def next(self, seconds, left, least=1):
        """The turns of the next round, at least so many; None where they would take longer than the time left."""
        if self.usual is None:
            return max(self.turns, least)
        turns = int(min(seconds / self.usual, self.SLOWEST * seconds / self.slowest, GROWTH * self.turns))
        turns = min(max(turns, least), MOST_TURNS)
        return turns if turns * self.usual <= left else None

    def note(self, turns, each):
        """Takes in the seconds of a turn in each part of a round; none of a round that came to nothing."""
        self.turns = turns if each else max(1, turns // GROWTH)
        if each:
            self.usual, self.slowest = median(each), max(each)


def leaves_of(text):
    """How many leaves the tree of a certificate has."""
    return text.count(b"\nP ")


def told_cost(cost):
    return "" if cost is None else shown(cost)
