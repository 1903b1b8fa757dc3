"""The check of certificates and plans, whoever made them, and the answers and faults of a run."""
from __future__ import annotations

import operator
import os
import re
import signal
from typing import Optional, SupportsIndex, Union

from .answers import Answer, verdict_of
from .faults import KINDS, BadCertificate, BadOptions, BadPlan, Fault, Stopped
from .instances import Given, Text, held_bytes, instance_bytes, rows_of
from .plans import ROUTE, Routes, plan_bytes
from .running import Ran, program_here, run_check

# A certificate, whose tree a work goes on from: a text, or an answer.
Tree = Union[Text, Answer]

# The lines of faults that are about a plan, among those with the status of plans and certificates.
OF_PLAN = re.compile(r"vrptw: (solution|plan|check: CostDiffers)\b")
# The options with whole numbers, their least and greatest ones.
LIMITS = {"turns": (1, 1_000_000), "searchers": (1, 32), "bounders": (1, 32), "seed": (0, 2 ** 32 - 1),
           "neighbours": (0, 15), "labels": (1, 10 ** 8), "sets": (0, 1000), "rows": (0, 1000), "gap": (0, 1000),
           "leaves": (1, 100_000), "states": (1, 50_000_000)}


def zero_certificate(instance: bytes) -> bytes:
    """The certificate of prices 0, whose bound is 0."""
    count = len(rows_of(instance)) - 1
    name = (instance.split() or [b""])[0]
    return b"VRPTW-CERT 1\nINSTANCE %s\nCUSTOMERS %d\nNEIGHBOURS 8\nBOUND 0.0\nTREE\nP%s\nEND\n" % (
        name, count, b" 0" * count)


def fault_of(ran: Ran) -> Fault:
    """The fault in which a run ended."""
    if ran.status is not None and ran.status < 0:
        return Stopped(ran.fault or "the program was ended by %s" % signal.Signals(-ran.status).name, ran.status)
    of_text = BadPlan if OF_PLAN.match(ran.fault) else BadCertificate
    kind = of_text if ran.status == of_text.usual else KINDS.get(ran.status, Fault)
    return kind(ran.fault or "the program ended with status %s" % ran.status, ran.status)


def answer_of(ran: Ran, plan: bytes, certificate: bytes) -> Answer:
    """The answer of a run that ended. Raises `Fault` where it ended in one."""
    kind, cost, bound = verdict_of(ran.line)
    if kind is None or ran.status not in (0, 1):
        raise fault_of(ran)
    routes = [[int(word) for word in found.split()] for found in ROUTE.findall(plan)] if plan else None
    return Answer(kind, routes, cost, bound, plan, certificate)


def judge_place(certificate: object) -> None:
    """Refuses a plan in the place of a certificate."""
    is_text = isinstance(certificate, (str, bytes, os.PathLike))
    if not is_text or held_bytes(certificate, BadCertificate).startswith(b"Route #"):  # type: ignore[arg-type]
        raise BadOptions("certificate: met a plan in its place, wanted check(instance, plan=..)")


def check(instance: Given, certificate: Optional[Tree] = None, plan: Optional[Routes] = None, *,
          states: Optional[int] = None, program: Optional[str] = None) -> Answer:
    """Judges a certificate, a plan, or both, whoever made them. Without a certificate the bound is 0. Raises a `Fault`
    that tells the first thing that is wrong where a text isn't right; `schedule` tells all that is wrong with a plan.
    An answer in the place of the certificate is judged with its plan. `states` limits the check of a leaf (1 to
    50,000,000)."""
    limit = whole_option("states", states)
    if isinstance(certificate, Answer):
        plan = certificate if plan is None and certificate.has_plan else plan
        certificate = certificate.certificate
    elif certificate is not None:
        judge_place(certificate)
    text = instance_bytes(instance)
    proof = zero_certificate(text) if certificate is None else held_bytes(certificate, BadCertificate)
    routes = None if plan is None else plan_bytes(text, plan)
    return answer_of(run_check(program or program_here(), text, proof, routes, limit), routes or b"", proof)


def whole_option(name: str, value: Optional[SupportsIndex]) -> Optional[int]:
    """The whole number of an option. Raises `BadOptions` for another one."""
    if value is None:
        return None
    low, high = LIMITS[name]
    number = operator.index(value) if hasattr(value, "__index__") else low - 1
    if not low <= number <= high:
        raise BadOptions("%s: met %.40r, wanted a whole number of %d to %d%s" % (
            name, value, low, high, ": tenths of a percent" if name == "gap" else ""))
    return number
