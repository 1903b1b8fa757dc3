"""What stands for a customer in another solver's text: a number there, or with a table of names its name."""
import re

from tools.names import clean
from tools.tool import Found, listed, quoted

STOP = re.compile(r"[0-9]{1,9}\Z")
ARROW = re.compile(r"\s*(?:->|\u2192)\s*")
# What OR-Tools prints behind a stop.
BEHIND = re.compile(r"\s+[A-Za-z_]+\([^()]*\)")


class Numbering:
    """The numbers of the first and the last customer, those of the depot at the ends of a route, and a hint."""

    def __init__(self, first, last, depots=(), hint="", names=None):
        self.first, self.last, self.depots, self.hint, self.names = first, last, depots, hint, names

    def told(self):
        ends = " or ".join(str(depot) for depot in self.depots)
        ends = ends and ", and at the ends the depot %s" % ends
        return "each customer of %d to %d once%s%s" % (self.first, self.last, ends, self.hint)

    def called(self, there):
        """A customer's number there, and its name where there are names."""
        return "%d" % there if self.names is None else "%d, %s," % (there, quoted(self.names[there - self.first + 1]))

    def there(self, number):
        """The number there of one of ours."""
        return number - 1 + self.first if number else self.depots[0]


def numbering_of(count, from_zero, names):
    """That of another solver: the depot may be 0, where no customer is, or stand behind the last customer."""
    if from_zero:
        return Numbering(0, count - 1, (count,), "", names)
    return Numbering(1, count, (0, count + 1), " (counted from 0: --from-zero)", names)


def numbering_of_lkh(count, names):
    """LKH counts places from 1, the depot's."""
    return Numbering(2, count + 1, (1,), "", names)


class Naming:
    """Reads stops as numbers there. With names a name counts before a number; numbers count beside them unless a name
    is the number of another customer."""

    def __init__(self, text, numbering):
        self.text, self.numbering, self.numbers = text, numbering, {}
        for number, name in enumerate(numbering.names or ()):
            self.numbers.setdefault(name, []).append(number)
        self.takes_numbers = not any(STOP.match(name) and int(name) != numbers[0]
                                     for name, numbers in self.numbers.items())

    def is_name(self, word):
        return clean(word) in self.numbers

    def stop(self, line, word):
        """The number there of a stop that is told by this word."""
        if self.is_name(word):
            numbers = self.numbers[clean(word)]
            if len(numbers) > 1:
                where = getattr(self.numbering.names, "address", lambda number: "")
                told = ["%d (%s)" % (number, where(number)) if where(number) else number for number in numbers]
                self.text.refuse(line, "%s, the name of %s" % (quoted(word), listed(told)), "one of one customer")
            return Found(self.numbering.there(numbers[0]), line)
        if self.takes_numbers and STOP.match(word):
            return Found(int(word), line)
        self.text.refuse(line, quoted(word), "a customer's number%s" % (
            "" if not self.numbers else " or name" if self.takes_numbers else ", a name of the table"))

    def stops(self, line, told):
        """The stops of a route, parted by arrows, commas or blanks."""
        if ARROW.search(told):
            words = [word if self.is_name(word) else BEHIND.sub("", word) for word in ARROW.split(told.strip())]
        elif "," in told:
            words = [word.strip() for word in told.strip(", ").split(",")]
            words = [part for word in words for part in ([word] if self.is_name(word) else word.split())]
        else:
            words = self.joined(told.split())
        return [self.stop(line, word) for word in words]

    def joined(self, words):
        """The words, of which those that follow one another make the longest names."""
        found, at = [], 0
        while at < len(words):
            end = next((end for end in range(len(words), at + 1, -1) if self.is_name(" ".join(words[at:end]))), at + 1)
            found.append(" ".join(words[at:end]))
            at = end
        return found
