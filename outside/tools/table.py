"""Tables with a heading line, as spreadsheets write them: fields are separated by commas, semicolons, tabs or bars."""
import csv
import re

from tools.headings import SEPARATORS, plain
from tools.noting import OVER, Note
from tools.tool import Cell, listed, number, quoted

# The line by which a spreadsheet is told what separates; the blank of a tab at its end is lost.
TOLD_SEPARATOR = re.compile(r'"?sep=(.?)"?\Z', re.I)
DECIMAL_COMMA = re.compile(r"([+-]?[0-9]*),([0-9]+)\Z")
# A point that may part thousands, where spreadsheets part fields by semicolons and decimals by commas.
THOUSANDS_POINT = re.compile(r"[+-]?[1-9][0-9]{0,2}\.[0-9]{3}\Z")


def beginning(text):
    """What a first line says of the separator, or None, and the filled lines behind it with their numbers."""
    lines = list(text.filled())
    found = TOLD_SEPARATOR.match(lines[0][1]) if lines else None
    if not found:
        return None, lines
    separator = found[1] or "\t"
    if separator not in SEPARATORS:
        text.refuse(lines[0][0], quoted(lines[0][1]), "sep= and a comma, a semicolon, a tab or a bar")
    return separator, lines[1:]


class Table:
    """The rows below a heading line that has the columns, each with the line in which it begins, and those that have
    another width; notes say what of it is passed over. Headings may have other names there, by a table of those names
    with ours. The heading line is the first one, or another one that is given with its number."""

    def __init__(self, text, columns, renamed=None, heading=None):
        self.text, self.columns, self.renamed, self.notes = text, columns, renamed or {}, []
        separator, lines = beginning(text)
        self.line, told = heading or (lines[0] if lines else (text.last(), ""))
        self.parted_by = separator or self.separator(told)
        rows = list(self.records(self.parted_by))
        self.told = rows[0][1] if rows else []
        self.there = [field.lower() for field in self.told]
        self.heading = [self.ours(field) for field in self.there]
        self.judge_heading(told)
        self.rows = [row for row in rows[1:] if len(row[1]) == len(self.heading)]
        self.odd = [row for row in rows[1:] if len(row[1]) != len(self.heading)]

    def ours(self, field):
        """Our name for a heading."""
        return self.renamed.get(field, field)

    def heading_of(self, column):
        """The heading there of a column of ours."""
        return self.told[self.heading.index(column)]

    def field(self, fields, column):
        """The field of a row, blank where there is no such column."""
        return fields[self.heading.index(column)] if column in self.heading else ""

    def judge_widths(self):
        """Refuses the first row of another width."""
        for line, fields in self.odd:
            self.text.refuse(line, *self.width(fields))

    def width(self, fields):
        """What is met and wanted of a row of another width."""
        return "a row of %d fields" % len(fields), "%d, as the heading line has" % len(self.heading)

    def separator(self, told):
        """What separates: that is taken which finds most of the columns."""
        if not told:
            self.text.at_end("a heading line with %s" % ",".join(self.columns))
        return max(SEPARATORS, key=lambda one: len(set(self.columns) & set(map(self.ours, plain(told, one)))))

    def records(self, separator):
        """The fields of each row from the heading on that isn't blank, with the line in which it begins."""
        above, commented = self.line - 1, []
        lines = csv.reader((line + "\n" for line in self.text.lines[above:]), delimiter=separator, strict=True)
        while True:
            begins = above + lines.line_num + 1
            try:
                fields = [field.strip() for field in next(lines)]
            except StopIteration:
                break
            except csv.Error as fault:
                self.text.refuse(begins, str(fault), "a row of a table")
            if any(fields) and not fields[0].startswith("#"):
                yield begins, fields
            elif any(fields[1:]):
                commented.append(begins)
        if commented:
            self.notes.append(Note("these lines begin with # and are passed over: %s" % listed(commented), OVER))

    def judge_heading(self, told):
        """Refuses a heading line without one of the columns, or with one twice."""
        wanted = "a heading line with %s once each" % ",".join(self.columns)
        missing = [column for column in self.columns if column not in self.heading]
        if len(missing) == len(self.columns):
            self.text.refuse(self.line, quoted(told), wanted)
        if missing:
            self.text.refuse(self.line, "no column %s" % ", ".join(quoted(column) for column in missing), wanted)
        for column in self.columns:
            if self.heading.count(column) != 1:
                self.text.refuse(self.line, "two columns %s" % column, wanted)


def decimal(table, line, field):
    """A field as a number, whose decimals may stand behind a comma; one that may part thousands is refused, and so is
    a point where decimals stand behind commas."""
    found = DECIMAL_COMMA.match(field)
    is_comma = found and len(found[2]) == 3 and found[1].lstrip("+-").lstrip("0")
    if is_comma or table.parted_by == ";" and THOUSANDS_POINT.match(field):
        table.text.refuse(line, "%s, whose %s may part thousands or decimals" % (
            quoted(field), "comma" if is_comma else "point"), "a number without it, or with another count of decimals")
    return Cell(field, number(found[1] + "." + found[2] if found else field))


def degrees(table, line, field):
    """A field as degrees, whose decimals may stand behind a comma or a point: no thousands are among them."""
    return Cell(field, number(field.replace(",", ".") if DECIMAL_COMMA.match(field) else field))
