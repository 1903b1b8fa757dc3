"""One run of `convert` on a table whose times are spelled in several ways: what is read is what was meant, and is
noted; where ways are mixed, each field that may be read in two of them is refused with both."""
import os
import re

from judges.judging_layouts import demand_notes, tool
from judges.kind import Kind, tools_by
from judges.running import demand, got, put
from reference.instances import read

DAY = 24 * 60
# The line of the depot, below the heading.
FIRST_LINE = 2
HEADINGS = ("ready", "due")
FAULT = re.compile(r'line ([0-9]+): met "(.*?)" in "(.*?)".*?, which may be (.*?), wanted ')
ORDINARY = ("hours", "part", "digits")
# How services are spelled, those beside times of the day alone at last.
LENGTHS = [["number"], ["colon"], ["word"], ["colon", "number"], ["part"], ["quarter"]]


def spelled(random, minutes, way, sign):
    """A time of the day in a way of spelling."""
    hours, rest = divmod(minutes, 60)
    if way == "colon":
        whole = ["%02dh" % hours, "%d Uhr" % hours] if not rest else []
        return random.choice([form % (hours, rest) for form in ("%d:%02d", "%02d:%02d", "%dh%02d", "%d.%02d Uhr")]
                             + whole)
    if way == "hours":
        return "%d" % hours if not rest and random.randrange(2) else "%d%s%02d" % (hours, sign, rest)
    if way == "part":
        return ("%.*f" % (random.randint(9, 15), minutes / DAY)).replace(".", sign)
    if way == "lost":
        return ("%d%s%02d" % (hours, sign, rest)).rstrip("0").rstrip(sign)
    return "%02d%02d" % (hours, rest) if way == "digits" else "%d" % minutes


def length_spelled(minutes, way, sign):
    """A length of time in a way of spelling."""
    if way in ("part", "quarter"):
        return ("%.12f" % (minutes / DAY) if way == "part" else "%g" % (minutes / 60)).replace(".", sign)
    return {"number": "%d", "word": "%d min"}[way] % minutes if way != "colon" else "%d:%02d" % divmod(minutes, 60)


def may_be(word, way):
    """Whether a word without a colon may be read in a way, which is what the whole column has to share."""
    if way == "hours":
        found = re.match(r"([0-9]{1,2})([.,][0-5][0-9])?\Z", word)
        return bool(found) and int(found[1]) <= 24
    if way == "part":
        return 0 < float(word.replace(",", ".")) <= 1
    found = re.match(r"([0-9]{1,2})([0-5][0-9])\Z", word)
    return bool(found) and int(found[1]) <= 24


class Column:
    """What is drawn: windows in minutes, the ways by which they are spelled, and the words."""

    def __init__(self, random):
        self.random, self.has_degrees, self.sign = random, random.randrange(2) == 0, random.choice(".,")
        ways = random.choice([["colon"], ["hours"], ["part"], ["number"], ["colon", "hours"], ["colon", "part"],
                              ["colon", "number"], ["hours", "part"], ["hours", "lost"], ["colon", "lost"],
                              ["colon", "hours", "part"], ["colon", "hours", "number"], ["lost"], ["digits"],
                              ["colon", "digits"]])
        self.opens, self.shuts = random.randint(4 * 60, 9 * 60), random.randint(16 * 60, 22 * 60)
        self.windows = [(self.opens, self.shuts)] + [self.window() for _ in range(random.randint(1, 8))]
        self.words = [tuple(spelled(random, at, random.choice(ways), self.sign) for at in window) if window
                      else ("", "") for window in self.windows]
        self.draw_lengths(random.choice(LENGTHS if ways == ["colon"] else LENGTHS[:4]))
        fields = [word for pair in self.words for word in pair if word]
        self.unsure = [word for word in fields if ":" not in word and not re.search("[a-zA-Z]", word)]
        self.has_colon = len(self.unsure) < len(fields)

    def draw_lengths(self, ways):
        """Services of 15 to 45 minutes and how they are spelled."""
        self.length_ways = ways
        self.lengths = [0] + [self.random.choice([15, 20, 30, 45] if ways != ["quarter"] else [15, 30, 45])
                              for _ in self.windows[1:]]
        self.length_words = [""] + [length_spelled(own, self.random.choice(ways), self.sign)
                                    for own in self.lengths[1:]]

    def window(self):
        """A window in steps of five minutes within the depot's, now and then none."""
        if self.random.randrange(5) == 0:
            return None
        first = 5 * self.random.randint(self.opens // 5 + 1, self.shuts // 5 - 2)
        return first, 5 * self.random.randint(first // 5 + 1, self.shuts // 5)

    def text(self):
        """The table, whose places are whole, or within a few kilometres."""
        lines = ["%s;demand;ready;due;service" % ("lat;lon" if self.has_degrees else "x;y")]
        for i, pair in enumerate(self.words):
            place = "52.%02d;13.%02d" % (50 + i, 40 + i) if self.has_degrees else "%d;%d" % (i, i)
            lines.append("%s;%d;%s;%s;%s" % (place, min(i, 1), *pair, self.length_words[i]))
        return ("\n".join(lines) + "\n").encode()

    def shared(self):
        """The ways by which all words without a colon may be read; digits need a 0 in front of one."""
        has_zeros = any(word[0] == "0" for word in self.unsure) and all(len(word) == 4 for word in self.unsure)
        return [way for way in ORDINARY if all(may_be(word, way) for word in self.unsure)
                and (way != "digits" or has_zeros)]

    def is_plain(self):
        """Whether all are numbers of minutes, as far as anybody can see."""
        return not self.has_colon and all(word.isdigit() and int(word) > 24 and word[0] != "0" for word in self.unsure)


def is_of_units(column, errors):
    """Whether times beside numbers of a map's own units are taken as numbers, which is told."""
    return not column.has_degrees and not column.has_colon and (
        " are taken as numbers" in errors or ", which is before " in errors) and len(column.shared()) == 0


def demand_lengths(column, faults):
    """Each service that is told may be hours or minutes, one of which was meant; there are others with a colon, or all
    are parts of an hour."""
    has_colon = any(":" in word for word in column.length_words)
    for line, word, _, may in faults:
        i = int(line) - FIRST_LINE
        demand(column.length_words[i] == word and (has_colon and word.isdigit() and int(word) <= 24
                                                   or column.length_ways == ["quarter"]), "%r is told" % word)
        demand("%d minutes" % column.lengths[i] in may or "00:%02d hours" % column.lengths[i] in may,
               "%s is told as %s, and %d was meant" % (word, may, column.lengths[i]))


def demand_refused(column, errors):
    """Each field that is told may be read in two ways, one of which is what was meant; and no way is shared by all."""
    faults = FAULT.findall(errors)
    demand_lengths(column, [fault for fault in faults if fault[2] == "service"])
    demand(len(faults) == min(20, errors.count(": met ")) and faults, "other faults: %r" % errors)
    faults = [fault for fault in faults if fault[2] != "service"]
    if faults:
        demand_windows(column, faults, errors)


def demand_windows(column, faults, errors):
    """The same of windows, of which no way of reading is shared by all."""
    demand(column.unsure and not column.is_plain() and len(column.shared()) != 1, "all may be read: %r, %r" % (
        column.words, errors))
    for line, word, heading, may in faults:
        at = int(line) - FIRST_LINE, HEADINGS.index(heading)
        meant = column.windows[at[0]][at[1]]
        demand(column.words[at[0]][at[1]] == word and word in column.unsure, "another field: %r" % errors)
        demand(("%02d:%02d" % divmod(meant, 60) in may or "number %d" % meant in may) and " or the number " in may,
               "%s is told as %s, and %d was meant" % (word, may, meant))


def demand_believed(column, instance, errors):
    """All windows are those that were meant; what has no colon and is taken as a time of the day is noted."""
    one = (instance.due(0) - instance.ready(0)) // (column.shuts - column.opens)
    demand(one in (10, 100, 1000), "%r: the day is %d to %d" % (column.words, instance.ready(0), instance.due(0)))
    for i, window in enumerate(column.windows):
        right = tuple(one * at for at in window or column.windows[0])
        demand(instance.rows[i][5] == one * column.lengths[i], "%r is read as %d, and %d was meant" % (
            column.length_words[i], instance.rows[i][5] // one, column.lengths[i]))
        demand(instance.rows[i][3:5] == right, "%r is read as %r, and %r was meant: %r" % (
            column.words[i], instance.rows[i][3:5], right, errors))
    small = [word for word in column.length_words if word.isdigit() and int(word) <= 24]
    demand(not small or all(":" not in word for word in column.length_words), "%r is read" % column.length_words)
    is_told = " are taken as " in errors or " beside times of the day are minutes" in errors
    demand(is_told or not column.unsure or column.is_plain(), "%r is read in silence: %r" % (column.words, errors))


def judge_readings(folder, random):
    """A table in one way of spelling times, or in several."""
    column = Column(random)
    source, target = os.path.join(folder, "table.csv"), os.path.join(folder, "instance.txt")
    put(source, column.text())
    out, errors, status = tool("convert", source, target, "--vehicles", "9", "--capacity", "9",
                               *(["--speed", "40"] if column.has_degrees else []))
    demand(out == b"", "convert: %r" % out)
    if is_of_units(column, errors):
        return "numbers"
    if status:
        demand(status == 1 and got(target) is None, "convert: status %d" % status)
        demand_refused(column, errors)
        return "refused"
    demand_notes("convert", errors)
    demand_believed(column, read(got(target)), errors)
    return "read"


KINDS = {
    "readings": Kind("a table with times in several spellings, by convert: read as meant and noted, or refused", 30,
                     tools_by(judge_readings)),
}
