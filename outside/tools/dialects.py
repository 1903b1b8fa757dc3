"""How a table for a spreadsheet is spelled: what parts its fields and its decimals, and the mark in front of it."""
import csv
import io
from collections import namedtuple

from tools.tool import number

Dialect = namedtuple("Dialect", "separator point mark")
PLAIN, GERMAN = "plain", "excel-de"
DIALECTS = {PLAIN: Dialect(",", ".", ""), GERMAN: Dialect(";", ",", "\ufeff")}


def dialect_of(names):
    """The dialect of the sheet that came in, as its table of names has it."""
    return DIALECTS[GERMAN if names is not None and names.separator == ";" else PLAIN]


def spelled(tables, dialect):
    """The text of tables with an empty line between them, each as its rows and how many of its first columns may have
    numbers."""
    found = io.StringIO()
    writer = csv.writer(found, delimiter=dialect.separator, lineterminator="\n")
    for place, (rows, columns) in enumerate(tables):
        writer.writerows(([[]] if place else []) + [
            [word.replace(".", dialect.point) if number(word) is not None else word for word in row[:columns]]
            + row[columns:] for row in rows])
    return dialect.mark + found.getvalue()
