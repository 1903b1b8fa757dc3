"""A table of customers, as spreadsheets write it: a heading line, the depot, and the customers."""
import csv
from itertools import islice

from tools.clock_times import minutes_of
from tools.csv_limits import judge_rows
from tools.csv_scales import fitting
from tools.csv_values import PLACE, TIMES, WINDOW, Values
from tools.doubts import doubts
from tools.globe import laid_out
from tools.headings import FIRST_LINES, KEPT as KEPT_HEADINGS, NAMED, SEPARATORS, Headings, heading_line, plain
from tools.layouts import Read, judge_count
from tools.names import COLUMNS as KEPT
from tools.names import Names, clean, named
from tools.noting import OVER, Note
from tools.priorities import judge_priorities
from tools.rule_words import noted_rules
from tools.sheet_faults import Faults
from tools.table import DECIMAL_COMMA, Table, beginning
from tools.tool import Found, listed, number, quoted
from tools.totals import without_total
from tools.units import Units

COLUMNS = ["x", "y", "demand", "ready", "due", "service"]
DEGREES = ["lat", "lon"]


class Sheet:
    """The heading of a table: its line, what it calls our columns, and which of these are wanted. Places may be
    degrees, and with a horizon a table may do without windows."""

    def __init__(self, text, quantities):
        self.text, self.renamed = text, quantities.renamed
        self.separator, lines = beginning(text)
        self.line, self.told = heading_line(lines, self.renamed)
        self.titles = [line for line, _ in lines if line < self.line]
        self.headings = max((Headings(plain(self.told, one), self.renamed) for one in self.separator or SEPARATORS),
                            key=lambda found: len(found.names() & {*COLUMNS, *DEGREES, *NAMED}))
        there = self.headings.names() | set(self.headings.doubled)
        place = DEGREES if not there & set(PLACE) and there >= set(DEGREES) else PLACE
        window = [] if quantities.horizon is not None and not there & set(WINDOW) else WINDOW
        self.columns = [*place, "demand", *window, "service"]
        self.headings.keep(self.columns)

    def judge(self):
        """Refuses a heading that lacks one of the columns, or has several words for one."""
        there, wanted = self.headings.names(), "a heading line with %s once each" % ",".join(self.columns)
        for theirs, ours in self.renamed.items():
            if theirs not in self.headings.there:
                self.text.refuse(self.line, "no column %s" % quoted(theirs),
                                 "the one of --column %s=%s" % (ours, theirs))
        for ours, may in self.headings.doubled.items():
            self.text.refuse(self.line, "%s, each of which may be %s" % (", ".join(map(quoted, may)), ours),
                             "one of them, as by --column %s=%s" % (ours, may[0]))
        missing = [column for column in self.columns if column not in there]
        if missing and len(missing) < len(self.columns):
            self.text.refuse(self.line, "no column %s%s" % (", ".join(map(quoted, missing)), self.unknown()),
                             wanted + ", or %s" % " ".join("--column %s=%s" % (column, self.likely(column))
                                                           for column in missing))

    def unknown(self):
        """The headings that aren't known, as a part of a sentence."""
        found = self.headings.unknown()
        return ", and headings that aren't known: %s" % listed([quoted(one) for one in found]) if found else ""

    def likely(self, column):
        """An unknown heading below which there are numbers or times, as the column has them."""
        separator = self.separator or max(SEPARATORS, key=self.told.count)
        rows = list(islice(csv.reader(self.text.lines[self.line:self.line + FIRST_LINES], delimiter=separator), 3))
        for place, heading in enumerate(plain(self.told, separator)):
            fields = [row[place].strip() for row in rows if place < len(row) and row[place].strip()]
            is_one = minutes_of if column in WINDOW else lambda field: number(field.replace(",", "."))
            if heading in self.headings.unknown() and fields and all(is_one(field) is not None for field in fields):
                return heading
        return "HEADING"

    def notes(self, table):
        """What is noted of lines above, and of words for columns."""
        found = ["lines above the heading are passed over: %s" % listed(self.titles)] if self.titles else []
        pairs = ["%s as %s" % (quoted(told), ours) for told, ours in zip(table.told, table.heading)
                 if ours != told.lower() and told.lower() not in self.renamed]
        found += ["headings are read so: %s" % ", ".join(pairs)] if pairs else []
        return [Note(told, OVER) for told in found]


def noted_numbers(table, is_clock):
    """What is noted of numbers that are spelled with a comma, with the first of each, and of times of the day."""
    told = [column for column in COLUMNS + DEGREES if not (is_clock and column in TIMES)]
    comma = next(((field, line) for line, fields in table.rows for column in told
                  for field in [table.field(fields, column)] if DECIMAL_COMMA.match(field)), None)
    if comma:
        yield Note("the comma of numbers such as %s (line %d) parts decimals" % comma, OVER)
    if is_clock and table.columns[0] in PLACE:
        yield Note("times are minutes of the day since midnight: a unit of time is a minute, and a unit of distance is "
                   "driven in one", OVER)


def names_in(text, table, quantities):
    """The column of the names, and the names by their rows with what more the table says; None where there is none."""
    column = next((column for column in NAMED if column in table.heading), None)
    if column is None and quantities.needs_names:
        text.refuse(table.line, "no column %s" % " or ".join(quoted(one) for one in NAMED), "one for --names")
    taken = set(table.columns) | {column}
    others = [place for place, one in enumerate(table.heading) if one not in taken and (
        one or any(fields[place] for _, fields in table.rows))] if quantities.keeps_names else []
    degrees = [table.heading.index(one) for one in DEGREES
               if one in table.columns] if quantities.keeps_names else []
    loads = quantities.counted.words() if quantities.counted else []
    if column is None and not others + degrees + loads:
        return None, None
    names = [named(table.field(fields, column), number) for number, (_, fields) in enumerate(table.rows)]
    headings = [clean(table.heading[other]) + (" there" if table.heading[other] in KEPT else "") for other in others]
    further = [[clean(fields[other]) for other in others] + [fields[place].replace(",", ".") for place in degrees]
               for _, fields in table.rows]
    further = [own + loads[number:number + 1] for number, own in enumerate(further)]
    return column, Names(names, headings + DEGREES[:len(degrees)] + ["demand"] * bool(loads), further)


def noted_columns(table, column, quantities):
    """What is noted of columns that are passed over, and of those that nobody reads."""
    used = {*table.columns, *KEPT_HEADINGS, *DEGREES}
    notes = noted_rules([told for told, one in zip(table.told, table.heading) if told and one not in used])
    others = [quoted(one) for one in table.heading if one in KEPT_HEADINGS]
    if not quantities.keeps_names and others:
        notes.append(Note("these columns are passed over: %s%s" % (
            listed(others), " (--names FILE keeps the names of %s)" % quoted(column) if column else ""), OVER))
    return notes


def told_names(table):
    """What each row is called where something is wrong in it."""
    column = next((column for column in NAMED if column in table.heading), None)
    found = {line: clean(table.field(fields, column)) for line, fields in table.rows + table.odd
             if column is None or table.heading.index(column) < len(fields)}
    if table.rows:
        first = table.rows[0][0]
        found[first] = ", ".join(word for word in (found[first], "the depot") if word)
    return found


def opened(text, quantities):
    """The table below its heading, and the faults that are found in it."""
    sheet = Sheet(text, quantities)
    if sheet.told:
        sheet.judge()
    table = Table(text, sheet.columns, sheet.headings.found, (sheet.line, sheet.told))
    if set(WINDOW) <= set(table.columns):
        quantities.refuse_horizon(table.line)
    table.notes = sheet.notes(table) + table.notes + without_total(table)
    judge_count(text, [line for line, _ in table.rows][1:])
    faults = Faults(table, told_names(table))
    for line, fields in table.odd:
        faults.add(line, None, *table.width(fields))
    if not table.rows or table.odd and table.odd[0][0] < table.rows[0][0]:
        # Which row is the depot's isn't known then.
        faults.refuse()
        text.at_end("the depot's row")
    return table, faults


def read(text, quantities):
    """An instance without name, fleet and capacity."""
    table, faults = opened(text, quantities)
    values = Values(table, quantities, faults)
    judge_priorities(table, faults)
    notes = laid_out(values, quantities) if DEGREES[0] in table.columns else []
    judge_rows(values, quantities)
    faults.refuse()
    notes += doubts(values) + fitting(values, quantities)
    faults.refuse()
    nodes = {Found(number, line): quantities.row([(line, row[column]) for column in COLUMNS])
             for number, (line, row) in enumerate(values.rows)}
    column, names = names_in(text, table, quantities)
    units = Units(quantities.scale, int(values.is_clock), demands=quantities.demand_scale)
    units = units.but(speed=quantities.speed, detour=quantities.detour) if quantities.is_projected else units.but(
        off=quantities.off)
    if quantities.counted:
        units = units.but(demands=10 ** quantities.counted.digits(), capacity=quantities.counted.whole)
    return Read(None, None, None, nodes, 0, noted_columns(table, column, quantities) + table.notes
                + list(noted_numbers(table, values.is_clock)) + values.notes + notes, names, units, True,
                ";" if table.parted_by == ";" else ",")


def write(problem):
    return "\n".join([",".join(COLUMNS)] + [",".join(str(value) for value in row) for row in problem.rows] + [""])
