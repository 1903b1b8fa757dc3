"""Solves vehicle routing with time windows from Python, by the program vrptw: for Python 3.9 or later on x86-64 Linux.

Example:

    import vrptw
    answer = vrptw.solve("instance.txt", seconds=10)
    print(answer.kind, answer.cost, answer.routes)

`solve` answers the best plan and the highest bound that it finds, `Solving` is the same as a thing that can be
cancelled, `check` judges texts by code that the solver doesn't use, and `schedule` tells when vehicles are where. This
folder needs nothing but the standard library and the program: the one that the launcher of the repository or of the
package runs, one named `vrptw` in the folder, the released file beside the folder, `vrptw` on the path, or the one that
`program` names. So a copy of the folder works anywhere.

Costs, bounds and times are exact tenths of a unit of the instance. `cost_tenths` has them as whole numbers, and `cost`
is the nearest float, which prints and compares as the decimal does. Customers are numbered from 1; the depot's 0 may
stand at the ends of a route that is given, and stands in none that is answered.
"""
from .answers import Answer, Progress, verdict_of
from .checking import Tree, check
from .faults import (BadCertificate, BadInstance, BadOptions, BadPlan, Fault, FileFault, Limit, OutOfMemory,
                     Stopped)
from .instances import Given, Instance, Text, instance_text
from .plans import Plan, Reason, Route, Routes, Stop, leaving, plan_text, schedule, walked
from .rounds import (GROWTH, LONG_DAY, MOST_TURNS, NEIGHBOURS, PART, SETS, Schedule, has_long_days, neighbours_for,
                     neighbours_of, serves)
from .running import Memory, Ran, Run, end_with_parent, program_here, run_check
from .solving import Solving, solve
from .version import __version__

__all__ = ["Answer", "BadCertificate", "BadInstance", "BadOptions", "BadPlan", "Fault", "FileFault", "Given",
           "Instance", "Limit", "OutOfMemory", "Plan", "Progress", "Reason", "Route", "Routes", "Solving", "Stop",
           "Stopped", "Text", "Tree", "__version__", "check", "instance_text", "plan_text", "program_here", "schedule",
           "solve"]
