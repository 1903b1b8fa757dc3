"""The numbers of a table: times of the day, what an empty field stands for, and shifts over midnight."""
from fractions import Fraction

from tools.clock_times import DAY, length_of, minutes_of, read_lengths, read_windows
from tools.table import decimal, degrees
from tools.tool import Cell, quoted

WHATS = {"x": "x, a number", "y": "y, a number", "demand": "a demand, a number", "lat": "degrees, a number",
         "lon": "degrees, a number", "ready": "a ready time, as 06:30 or a number",
         "due": "a due date, as 06:30 or a number", "service": "a service time, as 0:10 or a number of minutes"}
WINDOW, TIMES, PLACE = ["ready", "due"], ("ready", "due", "service"), ["x", "y"]


class Values:
    """The fields of each row by their columns, with the line, as words that know their numbers. What is wrong with them
    is kept as faults. Notes tell what stands for empty fields."""

    def __init__(self, table, quantities, faults):
        self.table, self.text, self.faults, self.notes = table, table.text, faults, []
        self.quantities, self.is_projected = quantities, "lat" in table.columns
        # By their lines the columns for whose empty fields others stand.
        self.filled = {}
        self.rows = [(line, self.row(line, fields)) for line, fields in table.rows]
        self.is_clock = self.times()
        self.fill()
        self.judge_numbers()
        self.over_midnight()

    def row(self, line, fields):
        """The cells of a row, without a number where none was read."""
        found = {}
        for column in self.table.columns:
            field = found[column] = Cell(self.table.field(fields, column), None)
            sure = length_of if column == "service" else minutes_of
            if not field or column in TIMES and sure(field) is not None:
                continue
            with self.faults.kept(line, column):
                found[column] = (degrees if column in ("lat", "lon") else decimal)(self.table, line, field)
        return found

    def cells(self, columns):
        return [row[column] for _, row in self.rows for column in columns]

    def times(self):
        """Reads the times of all rows; answers whether windows are times of the day. Without windows the day is that of
        the horizon."""
        def fields(columns):
            return [(line, column, row[column]) for line, row in self.rows for column in columns if column in row]
        as_numbers = self.quantities.as_numbers
        if WINDOW[0] in self.table.columns:
            is_clock, notes = read_windows(fields(WINDOW), self.faults, self.is_projected, as_numbers)
        else:
            is_clock, notes = self.quantities.is_clock, []
            for _, row in self.rows:
                for column in WINDOW:
                    word = self.quantities.end_of_day(column)
                    row[column] = Cell(word, Fraction(word))
        is_told = is_clock and WINDOW[0] in self.table.columns
        self.notes += notes + read_lengths(fields(["service"]), self.faults, is_told, as_numbers)
        return is_clock

    def fill(self):
        """Puts the depot's window in the place of an empty one, and 0 in that of an empty demand."""
        depot, none = self.rows[0][1], Cell("", Fraction(0))
        for line, row in self.rows:
            usual = {"demand": none, **({"service": none} if row is depot else {
                column: Cell(depot[column], depot[column].value) for column in WINDOW})}
            self.filled[line] = {column for column in usual if not row[column]}
            row.update({column: usual[column] for column in self.filled[line]})
        first = next((line for line, columns in self.filled.items() if columns & set(WINDOW)), None)
        if first and depot["ready"].value is not None:
            self.notes.append("an empty field of a window is the depot's (line %d)" % first)

    def judge_numbers(self):
        """Keeps each field that is no number as a fault; what an empty one has of the depot is told there."""
        for line, row in self.rows:
            for column in WHATS:
                if column in row and row[column].value is None and column not in self.filled[line]:
                    self.faults.add(line, column, quoted(row[column]), WHATS[column])

    def over_midnight(self):
        """Times after midnight are those of the next day where the depot's window ends before it begins."""
        depot = self.rows[0][1]
        is_of_day = depot["ready"].is_clock and depot["due"].is_clock
        if not is_of_day or None in [cell.value for cell in self.cells(WINDOW)]:
            return
        opens, shuts, twice = depot["ready"].value, depot["due"].value, []
        if shuts >= opens or max(opens, shuts) >= DAY:
            return
        for line, row in self.rows:
            ready, due = row["ready"].value, row["due"].value
            due += DAY if due < ready else 0
            days = DAY if due < opens else 0
            row["ready"], row["due"] = Cell(row["ready"], ready + days), Cell(row["due"], due + days)
            hours, taken = (opens, shuts + DAY), (ready + days, due + days)
            if any(is_lost((ready + other, due + other), hours, taken) for other in (-DAY, 0, DAY)):
                twice.append(line)
        self.notes.append("the depot's window goes over midnight, from %s to %s, so times before it are of the next day"
                          % (depot["ready"], depot["due"]))
        if twice:
            self.notes.append("windows that the depot's hours meet on both days are those of the first day alone: %d, "
                              "the first in line %d" % (len(twice), twice[0]))


def is_lost(window, hours, taken):
    """Whether a part of a window lies in the depot's hours and not in the window that is taken."""
    first, last = max(window[0], hours[0]), min(window[1], hours[1])
    return first <= last and not taken[0] <= first <= last <= taken[1]
