"""The kinds of all modules, the programs that they judge, and one run of a kind."""
import random as randomness
import traceback
from importlib import import_module

from judges.running import Disagreement
from reference import bounding
from reference.instances import Fault
from reference.texts import TextFault

# The modules of judges/ that have kinds, in the order of the help: solver, check and library, sets, tools, all else.
MODULES = """
judging judging_refusals devices calling refusing solving closing judging_starts judging_met judging_fleets judging_trees
judging_bytes
judging_sets judging_made_sets judging_rows
judging_layouts judging_tables judging_times judging_visits judging_roundings judging_nights judging_readings
judging_doubts judging_objects judging_carried judging_names judging_plans judging_printouts judging_departures
judging_moved judging_globe judging_claims judging_printed judging_unused judging_loads
judging_reports judging_served judging_partial judging_folders judging_fewest judging_module judging_schedules
judging_rounds judging_breaks judging_batches judging_forged judging_proofs judging_joins judging_literature judging_faults
judging_options judging_package
launching tutorial judging_many
""".split()


def collected():
    """The kinds of all modules; no two have the same name."""
    found = [kind for module in MODULES for kind in import_module("judges." + module).KINDS.items()]
    if len(dict(found)) < len(found):
        raise ValueError("two kinds have the same name")
    return dict(found)


KINDS = collected()


def told_kinds():
    """A line for each kind, as the help has them."""
    return "\n".join("  %-18s%s%s" % (name, kind.meaning, "; once" if kind.is_fixed else "")
                     for name, kind in KINDS.items())


class Programs:
    """The paths of what is judged, and of the library that refuses allocations or holds threads."""

    def __init__(self, program, instruments, library):
        self.program, self.instruments, self.library = program, instruments, library


def judge(programs, folder, seed, kind):
    """One run by its seed: whether both agree, and what came of it or what doesn't agree."""
    random = randomness.Random("%d %s" % (seed, kind))
    try:
        return True, KINDS[kind].judge(programs, folder, random, seed)
    except (Disagreement, TextFault, Fault) as found:
        return False, str(found)
    except bounding.TooLong:
        return True, "left out, too many routes or labels"
    except Exception as found:
        return False, "the judge failed: %s" % "".join(
            traceback.format_exception(type(found), found, found.__traceback__)[-3:])
