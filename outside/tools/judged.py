"""Runs of the program, by the module for Python: what can't be started is refused in a tool's line."""
import os

from reference.texts import tenths
from tools.certified import refuse_bound
from tools.tool import Refused, told_path
from vrptw import Fault, Run, program_here, run_check


def add_program(words):
    """Adds the option that names the program."""
    words.add_argument("--program", metavar="PATH", help="the program; else that of here")


def program_of(given):
    """The program of the option, or that of here; one that can't be run is refused."""
    try:
        return demand_program(program_here() if given.program is None else given.program)
    except Fault as fault:
        raise Refused(fault.line)


def demand_program(path):
    """The path of a program, which is refused where it can't be run."""
    if not os.path.isfile(path) or not os.access(path, os.X_OK):
        raise Refused("%s: met no program, wanted one that can be run" % path)
    return path


def ran(words, is_over=lambda: False, tell=None):
    """What came of a run of the program by its words, which is ended once it is over."""
    try:
        return Run(words).ended(is_over, tell)
    except Fault as fault:
        raise Refused(fault.line)


def judged(program, instance, certificate, plan=None):
    """The line of the check of texts, and what it says on standard error; a plan may be left out."""
    try:
        came = run_check(program, instance, certificate, plan)
    except Fault as fault:
        raise Refused(fault.line)
    return came.line, came.fault


def demand_verdict(line, fault, path):
    """Refuses a certificate that the check doesn't take, with its file."""
    words = fault.split(" ")
    if words[:3] == ["vrptw:", "check:", "BoundDiffers"]:
        refuse_bound(path, *(tenths(word.encode()) for word in words[3:5]))
    if not line:
        raise Refused("%s: vrptw check says: %s" % (told_path(path), fault))
