"""The vehicles of a day as their table has them: what each is called, who drives it, and what it begins with."""
from collections import namedtuple

from tools.names import clean
from tools.table import Table
from tools.tool import Refused, Text, told_path

Vehicle = namedtuple("Vehicle", "name driver start")
# Other headings of theirs.
RENAMED = {"vehicle": "name", "van": "name", "fahrzeug": "name", "véhicule": "name", "fahrer": "driver",
           "fahrerin": "driver", "conducteur": "driver", "chauffeur": "driver", "beginn": "start", "début": "start"}


def vehicles_of(path, count):
    """The vehicles of so many routes, in order; None without a file. Without columns `driver` or `start` these are
    blank."""
    if path is None:
        return None
    table = Table(Text(path, takes_others=True), ["name"], RENAMED)
    table.judge_widths()
    found = [Vehicle(*(clean(table.field(fields, column)) for column in Vehicle._fields)) for _, fields in table.rows]
    if len(found) < count:
        raise Refused("%s: met %d vehicles, wanted one for each of the %d routes" % (
            told_path(path), len(found), count))
    return found
