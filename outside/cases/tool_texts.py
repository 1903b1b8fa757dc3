"""Texts as lines that know what they are, so that it is known which line is wrong, however many stand before it."""
import re


class Line:
    """What a line is, its text, the row of the instance that it tells, and its section, key or separator."""

    def __init__(self, role, text, row=0, part=None, order=None):
        self.role, self.text, self.row, self.part, self.order = role, text, row, part, order

    def words(self):
        if not self.order:
            return self.text.split()
        # A separator within quotes is part of a field.
        return re.split(r'%s(?=(?:[^"]*"[^"]*")*[^"]*\Z)' % re.escape(self.part), self.text)

    def put(self, words):
        self.text = (self.part if self.order else " ").join(words)


def found_as(random, value):
    """A whole number as files have it."""
    return random.choice(["%d", "%d", "%d.00", "%d.0", "+%d", "0%d", "%d.", "%de0"]) % value


def worded(line, place, word):
    """Puts a word in a place of a line; answers the line."""
    words = line.words()
    words[place] = word
    line.put(words)
    return line


def field_of(line, column):
    """Where a column stands in a line of a table."""
    return line.order.index(column)


def pick(random, lines, role):
    return random.choice([line for line in lines if line.role == role])


def without(lines, role, part):
    lines[:] = [line for line in lines if line.role != role or line.part != part]


def with_blanks(random, lines):
    """The lines with blank ones and comments put in, not before the first."""
    lines = list(lines)
    for _ in range(random.choice([0, 0, 1, 4])):
        lines.insert(random.randint(1, len(lines)), Line("blank", random.choice(["", "  ", "\t", "# a comment", "#"])))
    return lines


def joined(random, lines):
    """The text, with any ends of lines, and now and then a byte order mark."""
    ends = random.choice(["\n", "\n", "\r\n"])
    mark = random.choice(["", "", "\ufeff"])
    return (mark + "".join(line.text + ends for line in lines)).encode(errors="surrogateescape")


def number_of(lines, wrong):
    """The number of the wrong line, that of the last one where none is known."""
    return lines.index(wrong) + 1 if wrong is not None else len(lines)
