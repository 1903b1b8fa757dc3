"""Which of several customers of one name a line of a table means: by its number, its address or another column of the
table of names, or the begin of service, which lies in the window of one of them."""
import re
from fractions import Fraction

from tools.headings import meaning_of
from tools.names import ADDRESS, clean
from tools.tool import number

MOMENT = re.compile(r"([0-9]{1,4}):([0-5][0-9])(?: \+([0-9]{1,3}))?\Z")
BEGIN = "begin"
DAY = 24 * 60


class Alike:
    """What a heading line has by which customers of one name are parted."""

    def __init__(self, instance, names, headings):
        self.instance, self.names = instance, names
        self.there = [" ".join(heading.lower().split()) for heading in headings]
        own = [heading.lower() for heading in names.headings]
        # Pairs of a column there and one of the table of names.
        self.columns = [(place, own.index(heading)) for place, told in enumerate(self.there)
                        for heading in [told if told in own else meaning_of(told) or ""]
                        if heading in own and own.count(heading) == 1 and (heading == ADDRESS or heading == told)]
        self.begin = self.there.index(BEGIN) if BEGIN in self.there else None

    def parted(self, fields, customers):
        """Of customers those that a line may mean; what fits nobody tells nothing."""
        for place, own in self.columns:
            field = clean(fields[place]) if place < len(fields) else ""
            customers = [i for i in customers if field and self.names.further[i][own] == field] or customers
        begin = self.moment(fields[self.begin]) if self.begin is not None and self.begin < len(fields) else None
        return [i for i in customers if self.holds(i, begin)] or customers

    def moment(self, field):
        """A moment in tenths of the instance, as it is shown; None of what is none."""
        units, found = self.names.units, MOMENT.match(field)
        if units.clock:
            return None if found is None else 10 * units.scale * (
                60 * int(found[1]) + int(found[2]) + DAY * int(found[3] or 0))
        told = number(field.replace(",", "."))
        return None if told is None else Fraction(10 * units.scale * told)

    def holds(self, i, begin):
        """Whether service at a customer may begin then."""
        floor = self.names.units.floor
        return begin is not None and floor(self.instance.ready(i)) <= begin <= floor(self.instance.due(i))
