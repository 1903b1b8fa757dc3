"""What the tools have in common: files in and out, numbers, notes, and the one line of a refusal."""
import argparse
import errno
import os
import re
import shutil
import sys
from codecs import BOM_UTF8, BOM_UTF16_BE, BOM_UTF16_LE
from fractions import Fraction

from tools.places import as_called

NUMBER = re.compile(r"[+-]?([0-9]{1,30}(\.[0-9]{0,30})?|\.[0-9]{1,30})([eE][+-]?[0-9]{1,2})?\Z")
# How much is shown of a word, and of what a program of others said.
MOST_SHOWN, MOST_SAID = 40, 300
# The path of standard input and output, and what the former is called.
STREAM, INPUT = "-", "standard input"
# Standard output, which may go to a file that is written, too.
OUTPUT = "/dev/stdout"


# Of a disk without room, of who may have no more of it, and of a file that may grow no more.
FULL = (errno.ENOSPC, errno.EDQUOT, errno.EFBIG)


class Refused(Exception):
    """Why a tool doesn't do what was asked, in one line."""

    def lines(self):
        """The lines that tell it."""
        return [" ".join(str(self).split("\n"))]


class Misread(Refused):
    """What was met in a line of a text, and what was wanted."""

    def __init__(self, path, line, met, wanted):
        super().__init__("%s: line %d: met %s, wanted %s" % (path, line, met, wanted))
        self.met, self.wanted = met, wanted


class RefusedAll(Refused):
    """All that is wrong, a line each."""

    def __init__(self, told):
        super().__init__("\n".join(told))

    def lines(self):
        return str(self).split("\n")


class Found(int):
    """A whole number that knows the line in which it was met."""

    def __new__(cls, value, line):
        found = super().__new__(cls, value)
        found.line = line
        return found


class Cell(str):
    """A word as it stands in a table, with the number that it spells there, or None, and whether that is a time of the
    day."""

    is_clock = False

    def __new__(cls, word, value):
        found = super().__new__(cls, word)
        found.value = value
        return found


def quoted(word):
    """A word between quotes, as it stands where it can be printed; of a long one the beginning."""
    return '"%s"' % spelled(word, MOST_SHOWN)


def spelled(word, most=MOST_SAID):
    """A word as it stands where it can be printed; of a long one the beginning."""
    cut = word if len(word) <= most else word[:most] + "..."
    return "".join(sign if sign.isprintable() and sign != "\\" else sign.encode("unicode_escape").decode()
                   for sign in cut)


def listed(numbers, most=12):
    """Numbers or words side by side; of many the first ones, and how many more there are."""
    told = ", ".join(str(number) for number in numbers[:most])
    return told if len(numbers) <= most else "%s and %d more" % (told, len(numbers) - most)


def bare(value):
    """A number without needless digits."""
    return "%d" % value if value == int(value) else "%g" % value


def number(word):
    """The exact value of a number with or without decimals, or None."""
    return Fraction(word) if NUMBER.match(word) else None


def told_path(path):
    return INPUT if path == STREAM else path


def content(path):
    """What a file holds, or standard input, which can be read once."""
    if path == STREAM and (sys.stdin is None or sys.stdin.closed):
        raise Refused("%s: met a closed one, or it for a second file, wanted it open and once" % INPUT)
    try:
        with sys.stdin.buffer if path == STREAM else open(path, "rb") as file:
            return file.read()
    except (OSError, ValueError) as fault:
        raise Refused("%s: %s" % (told_path(path), reason_of(fault)))


# What is noted at the end of a tool, beside what its work answers.
REMEMBERED = []


def remember(note):
    """Keeps a note that is told once at the end."""
    if note not in REMEMBERED:
        REMEMBERED.append(note)


# What files of spreadsheets begin with: .xlsx and .ods, and .xls.
WORKBOOKS = (b"PK\x03\x04", b"\xd0\xcf\x11\xe0\xa1\xb1\x1a\xe1")


class Text:
    """A file's lines, counted from 1. A byte order mark goes, and each kind of line end is one. One that takes others
    may be in UTF-16 or Latin-1 too, as spreadsheets write tables, and that is noted. What was read before may be handed
    in."""

    def __init__(self, path, takes_others=False, held=None):
        self.path, self.held = told_path(path), content(path) if held is None else held
        if takes_others and self.held.startswith(WORKBOOKS):
            raise Refused("%s: met a workbook, wanted its sheet saved as CSV: in Excel by File, Save As, CSV UTF-8" % (
                self.path))
        begin = len(BOM_UTF8) if self.held.startswith(BOM_UTF8) else 0
        try:
            whole = self.utf_16() if takes_others else None
            whole = self.held[begin:].decode() if whole is None else whole
        except UnicodeDecodeError as fault:
            at = begin + fault.start
            if not takes_others:
                self.refuse(self.line_of(at), "the byte 0x%02X" % self.held[at], "UTF-8")
            whole = self.latin_1(self.line_of(at))
        self.lines = whole.replace("\r\n", "\n").replace("\r", "\n").split("\n")

    def utf_16(self):
        """The text where it begins with the mark of UTF-16, else None."""
        if not self.held.startswith((BOM_UTF16_LE, BOM_UTF16_BE)):
            return None
        try:
            whole = self.held.decode("utf-16")
        except UnicodeDecodeError:
            self.refuse(1, "the mark of UTF-16 before another text", "UTF-8")
        remember("%s is read as UTF-16" % self.path)
        return whole

    def latin_1(self, line):
        """The text as Windows and older spreadsheets write it, with the line that isn't in UTF-8."""
        try:
            whole, name = self.held.decode("cp1252"), "Windows-1252, which is Latin-1 with some signs more"
        except UnicodeDecodeError:
            whole, name = self.held.decode("latin-1"), "Latin-1"
        remember("%s isn't in UTF-8 (line %d), and is read as %s" % (self.path, line, name))
        return whole

    def line_of(self, offset):
        return len(re.findall(rb"\r\n|\r|\n", self.held[:offset])) + 1

    def refuse(self, line, met, wanted):
        raise Misread(self.path, line, met, wanted)

    def last(self):
        """The number of the last line."""
        return max(1, len(self.lines) - (not self.lines[-1]))

    def at_end(self, wanted, met="the end"):
        """Refuses a text that ends where something else is wanted."""
        self.refuse(self.last(), met, wanted)

    def filled(self):
        """The lines that are neither blank nor a comment, which begins with #, with their numbers."""
        for place, line in enumerate(self.lines, 1):
            if line.strip() and not line.strip().startswith("#"):
                yield place, line.strip()

    def whole(self, line, word, what, low, high, scale=1, hint=""):
        """A whole number within limits once it is multiplied by the scale; the hint is what makes it whole."""
        value = word.value if isinstance(word, Cell) else number(word)
        if value is None:
            self.refuse(line, quoted(word), "%s, a number" % what)
        met = quoted(word) if scale == 1 else "%s times %d" % (quoted(word), scale)
        if (value * scale).denominator != 1:
            self.refuse(line, met, "%s, a whole number%s" % (what, hint))
        if not low <= value * scale <= high:
            self.refuse(line, met, "%s of %d to %d" % (what, low, high))
        return Found(int(value * scale), line)


def reason_of(fault):
    """Why a file wasn't read or written."""
    return getattr(fault, "strerror", None) or fault


def put(path, text):
    """Writes a file; where that fails, what stood there before may be lost."""
    try:
        with open(path, "w", encoding="utf-8", newline="") as file:
            file.write(text)
    except (OSError, ValueError) as fault:
        raise Refused("%s: %s" % (path, reason_of(fault)))


def make_folder(path):
    """Makes a folder, and those above it, where it isn't there."""
    try:
        os.makedirs(path, exist_ok=True)
    except OSError as fault:
        raise Refused("%s: %s" % (path, reason_of(fault)))


def put_all(texts):
    """Writes several files, or none where one of them can't be opened; texts by their paths. Answers what is for
    standard output."""
    texts, made = dict(texts), []
    streamed = texts.pop(STREAM, "")
    try:
        for path in texts:
            is_new = not os.path.lexists(path)
            open(path, "ab").close()
            made += [path] if is_new else []
    except (OSError, ValueError) as fault:
        for other in made:
            os.remove(other)
        raise Refused("%s: %s" % (path, reason_of(fault)))
    for path, text in texts.items():
        put(path, text)
    return streamed


def refuse_same(first, second, met="the file that is read"):
    """An output is no input, and no other output; an option's may be None. The streams are two."""
    if None in (first, second) or first == STREAM and met == "the file that is read":
        return
    paths, is_same = [first, second], os.path.abspath(first) == os.path.abspath(second)
    if STREAM in (first, second) and met != "the file that is read" and os.path.isfile(OUTPUT):
        paths = [OUTPUT if path == STREAM else path for path in paths]
    if is_same or all(map(os.path.exists, paths)) and os.path.samefile(*paths):
        raise Refused("%s: met %s, wanted another one to write" % (second, met))


def path_of(tool):
    """What a tool is called: one that doesn't stand in outside says its folder."""
    return tool if "/" in tool else as_called("outside/" + tool)


class Words(argparse.ArgumentParser):
    """The words of a tool, whose help is what its file says at the top; wrong words are told in one line."""

    def __init__(self, tool, told):
        super().__init__(prog=path_of(tool), description=told.strip(), allow_abbrev=False,
                         formatter_class=argparse.RawDescriptionHelpFormatter)

    def format_help(self):
        return as_called(super().format_help())

    def error(self, message):
        self.exit(2, "%s: words: %s\n" % (self.prog, " ".join(message.split())))


def count(low, high):
    """The reader of an option's whole number."""
    def read(word):
        if not re.match(r"[0-9]{1,9}\Z", word) or not low <= int(word) <= high:
            raise argparse.ArgumentTypeError("met %s, wanted a whole number of %d to %d" % (quoted(word), low, high))
        return int(word)
    return read


def told(line):
    """A line on standard error, where that is open."""
    if sys.stderr is not None:
        print(as_called(line), file=sys.stderr)


def printed(text):
    """Writes a text on standard output."""
    try:
        if text and sys.stdout is None:
            raise Refused("standard output: met a closed one, wanted an open one")
        if text:
            sys.stdout.reconfigure(encoding="utf-8")
            sys.stdout.write(text)
            sys.stdout.flush()
    except OSError as fault:
        # What is still held back can't be written at the end either.
        os.dup2(os.open(os.devnull, os.O_WRONLY), 1)
        raise Refused("standard output: %s" % reason_of(fault))


def printed_file(path):
    """Writes what a file holds on standard output, a piece at a time."""
    try:
        if sys.stdout is None:
            raise Refused("standard output: met a closed one, wanted an open one")
        with open(path, "rb") as file:
            shutil.copyfileobj(file, sys.stdout.buffer, 1 << 20)
        sys.stdout.flush()
    except OSError as fault:
        # What is still held back can't be written at the end either.
        os.dup2(os.open(os.devnull, os.O_WRONLY), 1)
        raise Refused("standard output: %s" % reason_of(fault))


def end_with(tool, lines):
    """Ends with lines on standard error, and the status 1."""
    for line in lines:
        told("%s: %s" % (path_of(tool), line))
    sys.exit(1)


def run(tool, work):
    """Does the work, which answers the text for standard output, what is noted, and perhaps a status; a refusal is one
    line on standard error, or a line for each fault of a table, and the status 1. So is a disk that is full."""
    try:
        text, notes, *status = work()
        printed(text)
    except Refused as refused:
        end_with(tool, refused.lines())
    except OSError as fault:
        # Where no file at all can be written, Python finds no folder for its own, and names none.
        if fault.errno not in FULL and (fault.errno != errno.ENOENT or fault.filename):
            raise
        end_with(tool, ["%s: %s" % (fault.filename or "a file beside", reason_of(fault))])
    for note in REMEMBERED + notes:
        told("%s: note: %s" % (path_of(tool), note))
    sys.exit(status[0] if status else 0)
