"""Instances, as texts and as objects."""
from __future__ import annotations

import functools
import operator
import os
import re
from dataclasses import dataclass
from math import isqrt
from typing import Any, Iterable, Optional, Sequence, Union

from .faults import BadInstance, Fault

# A text: the path of its file, or its bytes.
Text = Union[str, "os.PathLike[str]", bytes]
# An instance that is given: a text, or as an object.
Given = Union[Text, "Instance"]

# How many words stand before the rows of an instance, which of them is the capacity, and how many a row has.
HEAD, CAPACITY, ROW = 18, 5, 7
COLUMNS = ("x", "y", "demand", "ready time", "due date", "service time")


def held_bytes(text: Text, kind: type[Fault]) -> bytes:
    """The bytes of a text, or of the file that it names. Raises `OSError` where that can't be read."""
    if isinstance(text, bytes):
        return text
    if not isinstance(text, (str, os.PathLike)):
        raise kind("%s: met %.40r, wanted the path of its file, or its bytes" % (kind.what, text))
    if "\n" in os.fspath(text):
        raise kind("%s: met a text as str, which is read as a path, wanted its bytes: text.encode()" % kind.what)
    with open(text, "rb") as file:
        return file.read()


def whole(value: Any, scale: int = 1) -> Optional[int]:
    """So many times a number, by its decimals; None where that isn't whole."""
    try:
        return operator.index(value) * scale
    except TypeError:
        # Not above: it warns within a subinterpreter.
        from fractions import Fraction
    try:
        exact = Fraction(str(value)) * scale
    except (ValueError, ZeroDivisionError):
        return None
    return exact.numerator if exact.denominator == 1 else None


def whole_row(place: str, names: Sequence[str], values: Iterable[Any], scale: int) -> tuple[int, ...]:
    """Numbers of an instance, of which those that measure places and times are scaled."""
    given = list(values)
    if len(given) != len(names):
        raise BadInstance("instance: %s: met %d numbers, wanted %s" % (place, len(given), ", ".join(names)))
    found = [whole(value, 1 if name in ("demand", "vehicles", "capacity") else scale)
             for name, value in zip(names, given)]
    for name, value, number in zip(names, given, found):
        if number is None or number < 0:
            raise BadInstance("instance: %s: met %.40s as %s, wanted a whole number from 0 on%s" % (
                place, value, name, "" if scale == 1 else " by a scale of %d" % scale))
    return tuple(number or 0 for number in found)


@dataclass(frozen=True)
class Instance:
    """An instance. Row 0 is the depot, row i customer i: x, y, demand, ready time, due date and service time. What the
    program can't hold it refuses itself."""

    name: str
    vehicles: int
    capacity: int
    rows: tuple[tuple[int, ...], ...]

    @classmethod
    def from_rows(cls, rows: Iterable[Iterable[Any]], vehicles: Any, capacity: Any, name: str = "instance", *,
                  scale: int = 1) -> Instance:
        """From lists or arrays; places and times are multiplied by the scale. Raises `BadInstance` for what isn't
        whole then."""
        if not re.match(r"[!-~]{1,32}\Z", name):
            raise BadInstance("instance: met the name %.60r, wanted 1 to 32 signs of ASCII without blanks" % name)
        fleet, room = whole_row("fleet", ("vehicles", "capacity"), (vehicles, capacity), 1)
        return cls(name, fleet, room, tuple(
            whole_row("row %d" % i, COLUMNS, row, scale) for i, row in enumerate(rows)))

    @classmethod
    def from_file(cls, text: Text) -> Instance:
        """From a file, or from its bytes. Raises `BadInstance` where numbers are lacking."""
        held = held_bytes(text, BadInstance)
        head, rows = held.split()[:HEAD], rows_of(held)
        for place, row in enumerate(rows):
            if len(row) < ROW or not all(map(bytes.isdigit, row)) or int(row[0]) != place:
                raise BadInstance("instance: row %d: met %.60r, wanted that number and six more" % (
                    place, b" ".join(row).decode("latin-1")))
        if len(rows) < 2 or not all(map(bytes.isdigit, head[CAPACITY - 1:CAPACITY + 1])):
            raise BadInstance("instance: met %.60r, wanted the layout of docs/formats.md" % held.decode("latin-1"))
        return cls(head[0].decode("latin-1"), int(head[CAPACITY - 1]), int(head[CAPACITY]), tuple(
            tuple(map(int, row[1:])) for row in rows))

    @property
    def text(self) -> bytes:
        """The text that the program reads."""
        return ("%s\nVEHICLE\nNUMBER CAPACITY\n%d %d\nCUSTOMER\nCUST NO. XCOORD. YCOORD. DEMAND READY TIME DUE DATE "
                "SERVICE TIME\n" % (self.name, self.vehicles, self.capacity) + "".join(
                    "%d %d %d %d %d %d %d\n" % (i, *row) for i, row in enumerate(self.rows))).encode()

    @property
    def customers(self) -> range:
        """The customers' numbers."""
        return range(1, len(self.rows))

    def distance(self, i: int, j: int) -> float:
        """How far it is between two customers, or the depot (0), in units: truncated to a tenth."""
        return self.tenths[0][i][j] / 10

    @functools.cached_property
    def tenths(self) -> tuple[list[list[int]], list[tuple[int, ...]]]:
        """The lengths of all arcs, and the rows with their times, in tenths."""
        arcs = [[isqrt(100 * ((a[0] - b[0]) ** 2 + (a[1] - b[1]) ** 2)) for b in self.rows] for a in self.rows]
        return arcs, [(*row[:3], *(10 * moment for moment in row[3:])) for row in self.rows]


def instance_bytes(instance: Given) -> bytes:
    """The text of an instance in any form."""
    return instance.text if isinstance(instance, Instance) else held_bytes(instance, BadInstance)


def rows_of(instance: bytes) -> list[list[bytes]]:
    """The rows of an instance, as words; what is wrong with them is left to the program."""
    words = instance.split()[HEAD:]
    return [words[at:at + ROW] for at in range(0, len(words), ROW)]


def instance_text(rows: Iterable[Iterable[Any]], vehicles: Any, capacity: Any, name: str = "instance", *,
                  scale: int = 1) -> bytes:
    """The text of `Instance.from_rows`."""
    return Instance.from_rows(rows, vehicles, capacity, name, scale=scale).text
