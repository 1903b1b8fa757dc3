"""The columns of a batch: sets of options, each with its seeds, and how they are kept in its folder."""
import os
import re
import shlex
from argparse import ArgumentTypeError

from tools.judged import ran
from tools.tool import Refused, content, quoted
from vrptw import SETS

OPTIONS = "options"
WORD = re.compile(r"--[a-z]+(=[0-9]{1,12})?\Z|[0-9]{1,12}\Z")
# The name of a set, which stands before its options.
LABEL = re.compile(r"([A-Za-z0-9][A-Za-z0-9_-]{0,19}):\Z")
# What stands between an instance's name and a column's in the name of a step: no name of an instance has it.
BETWEEN = "@"
# A name as folders and tables have it.
NAME = re.compile(r"[A-Za-z0-9_][A-Za-z0-9_.-]*\Z")
# The option of a step that works in rounds: the program doesn't know it, nor what goes with it.
SECONDS, NOT_BESIDE = "--seconds", ("--turns", "--close")
MOST_SEEDS, MOST_JOBS = 1000, 10_000


def name_of(word):
    """The name of a word as folders and tables have it."""
    name = re.sub(r"[^A-Za-z0-9_.-]", "_", word)
    return name if name[:1].isalnum() else "_" + name


class Column:
    """A column: its label, which is empty where it is the only one, and the options of its steps."""

    def __init__(self, label, words):
        self.label, self.words = label, words

    def line(self):
        """The line by which the folder keeps it."""
        return " ".join(([self.label + ":"] if self.label else []) + self.words) + "\n"

    def step(self, name):
        """The name of the step of an instance."""
        return name + (BETWEEN + self.label if self.label else "")


def column_of(line):
    """The column of a line."""
    first, *rest = line.split() or [""]
    found = LABEL.match(first.replace(".", ""))
    return Column(first[:-1], rest) if found else Column("", line.split())


def words(text):
    """The reader of an option that takes words, as one."""
    try:
        return shlex.split(text)
    except ValueError as fault:
        raise ArgumentTypeError(str(fault))


def joined(given, options):
    """The words, of which one behind an option that takes any word belongs to it, though it begins as an option."""
    found, rest = [], list(given)
    while rest:
        word = rest.pop(0)
        found.append("%s=%s" % (word, rest.pop(0)) if word in options and rest else word)
    return found


def seeds_of(word):
    """The seeds that a word tells, as 1,2,7 or 1-4, or None."""
    found = []
    for part in word.split(","):
        ends = re.match(r"([0-9]{1,9})(?:-([0-9]{1,9}))?\Z", part)
        if not ends or len(found) > MOST_SEEDS or int(ends[2] or ends[1]) - int(ends[1]) not in range(MOST_SEEDS):
            return None
        found += range(int(ends[1]), int(ends[2] or ends[1]) + 1)
    return found if len(set(found)) == len(found) <= MOST_SEEDS else None


def with_sets(words):
    """The words, with how many sets of customers may have prices where they don't say it."""
    return words if any(word.split("=")[0] == "--sets" for word in words) else ["--sets", str(SETS), *words]


def columns_of(sets, seeds):
    """A column for each set of options and each seed; sets without a name are named by their places. Raises
    `ValueError` with what is wrong."""
    found = []
    for place, words in enumerate(sets or [[]], 1):
        named = LABEL.match(words[0]) if words else None
        label = named[1] if named else str(place) if len(sets) > 1 else ""
        rest = words[1:] if named else words
        if seeds and any(word.split("=")[0] == "--seed" for word in rest):
            raise ValueError("met --seed beside --seeds, wanted one of them")
        for seed in seeds or [None]:
            parts = ([label] if label else []) + ([] if seed is None else ["s%d" % seed])
            found.append(Column(".".join(parts), with_sets(rest) + ([] if seed is None else ["--seed", str(seed)])))
    labels = [column.label for column in found]
    twice = next((label for label in labels if labels.count(label) > 1), None)
    if twice is not None:
        raise ValueError("met the set %s again, wanted each name once" % twice)
    return found


def refuse_words(program, columns):
    """Why the options of the columns aren't taken, in one line, or None. With equal paths the program does nothing
    else."""
    for column in columns:
        wrong = [word for word in column.words if not WORD.match(word)]
        if wrong:
            return "met %s, wanted options of solve with numbers" % quoted(wrong[0])
        words, names = without_seconds(column.words), [word.split("=")[0] for word in column.words]
        if words is None:
            return "met --seconds without a number from 1 on, wanted so many seconds"
        beside = [name for name in names if name in NOT_BESIDE]
        if SECONDS in names and beside:
            return "met %s beside --seconds, wanted one of them" % beside[0]
        came = ran([program, "solve", "-", "-", "-", *words])
        if came.status == 2:
            return came.fault.split("\n")[0]
    return None


def without_seconds(words):
    """The words without --seconds and its number; None where that isn't one."""
    words = [part for word in words for part in word.split("=")]
    if SECONDS not in words:
        return words
    at = words.index(SECONDS)
    number = words[at + 1:at + 2]
    return words[:at] + words[at + 2:] if number and number[0].isdigit() and int(number[0]) else None


def kept_columns(into):
    """The columns that a folder keeps; None where it keeps none."""
    path = os.path.join(into, OPTIONS)
    if not os.path.exists(path):
        return None
    found = [column_of(line) for line in content(path).decode(errors="replace").split("\n")[:-1]]
    for line, column in enumerate(found, 1):
        wrong = next((word for word in column.words if not WORD.match(word)), None)
        if wrong is not None:
            raise Refused("%s: line %d: met %s, wanted options of solve with numbers" % (path, line, quoted(wrong)))
    return found


def joined_columns(into, given):
    """The columns of a folder with those that are given, which may be None: then those that it keeps. A name that is
    kept with other options is refused, and so are columns with names beside one without."""
    kept = kept_columns(into)
    if given is None or kept is None:
        return given or kept or [Column("", [])]
    path, by_label = os.path.join(into, OPTIONS), {column.label: column for column in kept}
    for column in given:
        other = by_label.get(column.label)
        if other is None and ("" in by_label or not column.label):
            other = kept[0]
        if other is not None and other.line() != column.line():
            raise Refused("%s: line %d: met %s, wanted %s, or another folder by --into" % (
                path, kept.index(other) + 1, quoted(other.line()[:-1]), quoted(column.line()[:-1])))
    return kept + [column for column in given if column.label not in by_label]
