"""Calls of the library's `solve`, from bytes to two texts in memory, in which one allocation is refused.

Threads meet as they like, so that a call has many right answers: each is judged by the texts that it left."""
import json
import re

from judges.refusing import instance_text
from judges.running import Disagreement, demand
from judges.solving import judge_plan, least
from reference import checking
from reference.instances import read
from reference.texts import TextFault, read_certificate, read_solution, shown

# By the call's name, how many customers its instance has.
SIZES = {"solve_two": 2, "solve_three": 3, "solve_from": 3}
ANSWERED = "answered"
WORDS = {"Best": "BEST", "Gap": "GAP", "NoPlan": "NO PLAN", "Open": "BOUND"}
ANSWER = re.compile(r'^(?:Ok (\w+)(?: \{ (.*) \})?|(\w+)) ("[^"]*") ("[^"]*")$')


def is_whole(reader, text):
    try:
        reader(text)
        return True
    except TextFault as fault:
        demand(str(fault).startswith("Truncated"), "a text that isn't a beginning: %s, %r" % (fault, text))
        return False


def judge_device(solution, certificate):
    """The first sink holds a beginning and the second nothing, or the first all and the second a beginning."""
    if not is_whole(read_solution, solution):
        demand(certificate == b"", "a second text beside a beginning of the first: %r" % certificate)
    else:
        demand(not is_whole(read_certificate, certificate), "both texts are whole at Device")


def judge_answer(size, line):
    """One call's line. Answers its fault, or None where it has an answer whose texts are right."""
    found = ANSWER.match(line)
    demand(found is not None, "solve: %r" % line)
    kind, numbers, fault, solution, certificate = found.groups()
    solution, certificate = json.loads(solution).encode(), json.loads(certificate).encode()
    if fault is None:
        told = [WORDS[kind]] + [shown(int(count)) for count in re.findall(r"count: (\d+)", numbers or "")]
        text = instance_text(size)
        checked = checking.check(text, certificate, solution or None, least)[0]
        demand(checked == " ".join(told) + "\n", "solve: %r, reference: %r" % (line, checked))
        judge_plan(read(text), solution)
    elif fault == "Device":
        judge_device(solution, certificate)
    else:
        demand(fault in ("Memory", "NoThread"), "solve: %r" % line)
        demand((solution, certificate) == (b"", b""), "texts beside a refusal: %r" % line)
    return fault


def judge_solved(name, lines, refused, told):
    """Both calls' lines. Answers what came of the call that was refused, if one was."""
    try:
        faults = [fault for fault in (judge_answer(SIZES[name], line) for line in lines) if fault is not None]
    except Disagreement as found:
        raise Disagreement("%s\n  %s" % (told, found))
    demand(len(faults) <= refused, "%s: more faults than refusals" % told)
    return faults[0] if faults else ANSWERED
