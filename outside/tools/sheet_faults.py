"""What is wrong in a table, all of it told at once, as it stands there."""
from contextlib import contextmanager

from tools.tool import Misread, RefusedAll, quoted

# So many faults are told, and then how many more there are.
MOST = 20


class Faults:
    """The faults of a table by line and column; each is told with the heading there and the customer's name."""

    def __init__(self, table, names):
        self.table, self.names, self.found = table, names, {}

    def add(self, line, column, met, wanted, is_last=False):
        """Keeps a fault, and of a field the first one. Those that others may have led to are told last."""
        self.found.setdefault((line, column), (met, wanted, is_last))

    def has(self, line, columns):
        """Whether one of the fields is at fault."""
        return any((line, column) in self.found for column in columns)

    @contextmanager
    def kept(self, line, column=None):
        """Keeps what is refused within."""
        try:
            yield
        except Misread as fault:
            self.add(line, column, fault.met, fault.wanted)

    def told(self, line, column, met, wanted):
        """A fault in one line; behind the field, which is in quotes, the heading there and whose row it is."""
        place = ' in %s' % quoted(self.table.heading_of(column)) if column else ""
        place += " of %s" % self.names[line] if self.names.get(line) else ""
        field, sign, remark = met.partition('", ')
        met = field + '"' + place + ", " + remark if sign else met + place
        return "%s: line %d: met %s, wanted %s" % (self.table.text.path, line, met, wanted)

    def refuse(self):
        """Refuses the table where something is wrong."""
        if not self.found:
            return
        ordered = sorted(self.found.items(), key=lambda pair: (pair[1][2], pair[0][0]))
        told = [self.told(*place, met, wanted) for place, (met, wanted, _) in ordered]
        more = len(told) - MOST
        raise RefusedAll(told[:MOST] + (["%s: and %d faults more" % (self.table.text.path, more)] if more > 0 else []))
