"""What is known of an instance, as an object: the answer of a work, how far a work is, and the program's line."""
from __future__ import annotations

import re
from dataclasses import dataclass, field
from typing import Any, Mapping, Optional, TypeVar

VERDICT = re.compile(r"(BEST|GAP|OPEN|BOUND|NO PLAN)(?: ([0-9.]+))?(?: ([0-9.]+))?\Z")


def in_units(tenths: Optional[int]) -> Optional[float]:
    return None if tenths is None else tenths / 10


def in_tenths(word: Optional[str]) -> Optional[int]:
    """The tenths of a number as the program writes it, with one decimal."""
    return None if word is None else int(word.replace(".", ""))


Own = TypeVar("Own", bound="Told")


class Told:
    """What has a cost and a bound in tenths or None, and can be told as an object of JSON."""

    cost_tenths: Optional[int]
    bound_tenths: Optional[int]

    @property
    def cost(self) -> Optional[float]:
        """The cost in units; None without a plan."""
        return in_units(self.cost_tenths)

    @property
    def bound(self) -> Optional[float]:
        """What every plan costs at least, in units; None where there is none."""
        return in_units(self.bound_tenths)

    def to_dict(self) -> dict[str, Any]:
        """An object of JSON, with cost and bound in units, too."""
        return {**vars(self), "cost": self.cost, "bound": self.bound}

    @classmethod
    def from_dict(cls: type[Own], told: Mapping[str, Any]) -> Own:
        """What was told so; other names are passed over."""
        return cls(**{name: told[name] for name in cls.__annotations__})


@dataclass(frozen=True)
class Progress(Told):
    """How far a work is: the percent of its time, or of its turns without `seconds`, cost of the best plan so far (None
    before there is one), highest bound so far, and the seconds since it began. Only the cost ever falls."""

    percent: int
    cost_tenths: Optional[int]
    bound_tenths: Optional[int]
    seconds: float


@dataclass(frozen=True)
class Answer(Told):
    """What is known of an instance.

    `kind` is BEST (no plan is cheaper), GAP (a plan and a bound), OPEN (a bound; no plan was found), BOUND (a bound;
    `check` was given no plan) or NO PLAN (there is none). `routes` has a list of customers for each vehicle that
    drives, in the order of the stops, or is None without a plan, as `has_plan` tells. `plan` and `certificate` are the
    texts of docs/formats.md; `plan` is empty without one."""

    kind: str
    routes: Optional[list[list[int]]]
    cost_tenths: Optional[int]
    bound_tenths: Optional[int]
    plan: bytes = field(default=b"", repr=False)
    certificate: bytes = field(default=b"", repr=False)

    @property
    def has_plan(self) -> bool:
        """Whether there is a plan here."""
        return bool(self.plan)

    @property
    def is_best(self) -> bool:
        """Whether no plan is cheaper than this one, which is shown."""
        return self.kind == "BEST"

    @property
    def gap(self) -> Optional[float]:
        """The difference of cost and bound as a part of the cost; None without a plan."""
        if self.cost_tenths is None or self.bound_tenths is None:
            return None
        return (self.cost_tenths - self.bound_tenths) / self.cost_tenths if self.cost_tenths else 0.0

    def to_dict(self) -> dict[str, Any]:
        """The same, with the texts as str."""
        return {**super().to_dict(), "plan": self.plan.decode("latin-1"),
                "certificate": self.certificate.decode("latin-1")}

    @classmethod
    def from_dict(cls, told: Mapping[str, Any]) -> Answer:
        """What was told so."""
        return super().from_dict({**told, **{name: told[name].encode("latin-1") for name in ("plan", "certificate")}})


def verdict_of(line: str) -> tuple[Optional[str], Optional[int], Optional[int]]:
    """Kind, cost and bound of a line of the program, the numbers in tenths; all None where it is none."""
    found = VERDICT.match(line.rstrip("\n"))
    if not found:
        return None, None, None
    kind, first, second = found[1], in_tenths(found[2]), in_tenths(found[3])
    return {"BEST": (kind, first, first), "GAP": (kind, first, second)}.get(kind, (kind, None, first))
