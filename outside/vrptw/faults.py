"""What the program refuses or fails at, as exceptions."""
from __future__ import annotations

from typing import Optional


class Fault(Exception):
    """The program refused what it was given, or failed, or this module refused it before. `line` says why, as
    docs/formats.md lists it, and `status` is the program's, which the kinds below have; None where the program couldn't
    be started."""

    what = "program"
    usual: Optional[int] = None

    def __init__(self, line: str, status: Optional[int] = None) -> None:
        super().__init__(line, status)
        self.line, self.status = line, self.usual if status is None else status

    def __str__(self) -> str:
        return self.line


class BadOptions(Fault, ValueError):
    """An option that the program doesn't take, or an argument in a wrong place."""
    what, usual = "options", 2


class BadInstance(Fault):
    """What is given is no instance."""
    what, usual = "instance", 3


class OutOfMemory(Fault):
    """Memory or a thread was refused."""
    usual = 4


class BadPlan(Fault, IndexError):
    """What is given is no plan of the instance."""
    what, usual = "plan", 5


class BadCertificate(Fault):
    """What is given is no certificate of the instance."""
    what, usual = "certificate", 5


class FileFault(Fault):
    """The program can't open, read or write a file."""
    usual = 6


class Limit(Fault):
    """A limit of labels, leaves, customers or pairs."""
    usual = 7


class Stopped(Fault):
    """A signal ended the program: the status is its number below 0."""


KINDS = {kind.usual: kind for kind in (BadOptions, BadInstance, OutOfMemory, FileFault, Limit)}
