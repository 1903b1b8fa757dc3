"""The steps of a batch: an instance, a column, a folder, a command that can be run again; and what is known of each."""
import os
import re
import shutil
from collections import namedtuple

from reference.instances import read
from reference.set_texts import read_either
from reference.texts import TextFault, read_solution, shown
from tools.batch_columns import BETWEEN, NAME, OPTIONS, name_of
from tools.foreign import LARGEST, LARGEST_LOG, content, drop, is_own_folder, is_plain, make_own_folder, put
from tools.judged import judged
from tools.known import sum_of
from tools.places import OUTSIDE
from tools.plans import of_ours
from tools.tool import Refused, Text, content as read_file, listed, make_folder, spelled

# The file of a step that has its instance.
INSTANCE = "instance.txt"
# What all steps share.
SHARED = ("program", "step", OPTIONS)
# What a step leaves, in the order in which it is brought back: the last one says that it is done.
ANSWERS = ("plan.txt", "certificate.txt", "line.txt", "errors.txt", "done.txt")
DONE = re.compile(rb"([0-9]{1,3}) ([0-9]{1,12}) (\S{1,255})(?: ([0-9]{1,12}))?\n\Z")
VERDICT = re.compile(r"(BEST|GAP|BOUND|NO PLAN)( [0-9.]+)?( [0-9.]+)?\Z")
# What the machine said of a step, as far as it says something.
MACHINE_LOG = "log.txt"
# The names of the steps that an engine runs, a line each.
LIST = "steps.txt"
# Where earlier versions kept in a step's folder what the check said.
CHECKED = "checked.txt"
# The state of a step of which nothing else is known.
NOT_DONE = "not done"


class Outcome:
    """What is known of a step that is done: status is a verdict, or why there is none."""

    def __init__(self, status, cost=None, bound=None, leaves=None, vehicles=None):
        self.status, self.cost, self.bound, self.leaves, self.vehicles = status, cost, bound, leaves, vehicles
        self.seconds, self.met, self.machine = None, None, ""

    def is_answer(self):
        return self.bound is not None


class Step:
    """An instance of a batch in a column, and its folder; the state is what is known as long as it isn't done."""

    def __init__(self, source, into, instance, column):
        self.source, self.held, self.count = source.path, source.held, source.count
        self.instance, self.column, self.name = instance, column, column.step(instance)
        self.folder, self.outcome, self.state = os.path.join(into, self.name), None, NOT_DONE

    def path(self, name):
        return os.path.join(self.folder, name)

    def content(self, name, most=LARGEST_LOG):
        """What a file in its folder holds; nothing where the folder is a link."""
        return content(self.path(name), most) if is_own_folder(self.folder) else b""

    def prepare(self):
        """Puts the instance into its folder. Answers whether another text was solved there before; that goes."""
        is_other = is_plain(self.path(INSTANCE)) and not self.is_of_this()
        make_own_folder(self.folder)
        if not self.is_of_this():
            self.clear()
            put(self.path(INSTANCE), self.held)
        end = self.path(ANSWERS[-1])
        if os.path.lexists(end) and os.path.getsize(end) and not self.is_done():
            # The step would else leave it at that.
            drop(end)
        return is_other

    def clear(self):
        """Takes away what was done, what says so first."""
        self.outcome = None
        for name in ANSWERS[::-1] + (CHECKED, MACHINE_LOG):
            drop(self.path(name))

    def is_of_this(self):
        """Whether the text in the folder is the one that is given."""
        return is_plain(self.path(INSTANCE), len(self.held)) and self.content(INSTANCE) == self.held

    def done(self):
        """What the step says of its end, or None."""
        return DONE.match(self.content(ANSWERS[-1]))

    def is_done(self):
        return self.done() is not None

    def judge(self, program, known):
        """Finds out what came of the step. The texts are checked here, by the program here and the instance as it was
        given; a check that is known isn't made again."""
        done = self.done()
        if done is None:
            # It was taken away meanwhile.
            return
        status, milliseconds, machine, met = done.groups()
        if int(status) > 1:
            said = self.content("errors.txt").split(b"\n")[0].decode(errors="replace")
            self.outcome = Outcome("failed: %s" % (spelled(said) or "status %d" % int(status)))
        else:
            self.outcome = self.checked(program, known)
        self.outcome.seconds, self.outcome.machine = int(milliseconds) / 1000, name_of(machine.decode(errors="replace"))
        if self.outcome.cost is not None and met is not None and int(met) <= int(milliseconds):
            self.outcome.met = int(met) / 1000

    def checked(self, program, known):
        certificate, plan = self.content("certificate.txt", LARGEST), self.content("plan.txt", LARGEST)
        line, fault = self.verdict(program, known, certificate, plan)
        found = VERDICT.match(line)
        try:
            bound = read_either(certificate).bound if found else None
            routes, cost = read_solution(plan) if found and plan else ((), None)
        except TextFault as told:
            found, fault = None, str(told)
        if not found:
            return Outcome("wrong: %s" % spelled(fault.split("\n")[0]))
        return Outcome({"BOUND": "OPEN"}.get(found[1], found[1]), None if cost is None else shown(cost), shown(bound),
                       certificate.count(b"\nP "), len(routes) or None)

    def verdict(self, program, known, certificate, plan):
        """What the check says of the texts, as it is known, or found out; and its fault."""
        texts = (self.held, certificate, plan)
        line, fault = known.verdict(texts), ""
        if line is None:
            line, fault = judged(program, self.held, certificate, plan or None)
            known.note(texts, line)
        return line, fault


class Unread(Step):
    """The step of a file that is no instance: its row tells why, and nothing runs. Its text is put into its folder,
    where --status finds it."""

    def __init__(self, source, into, instance, column):
        super().__init__(source, into, instance, column)
        self.outcome = Outcome("no instance: %s" % source.fault)

    def prepare(self):
        outcome = self.outcome
        if self.held is not None:
            make_own_folder(self.folder)
            self.clear()
            put(self.path(INSTANCE), self.held)
        self.outcome = outcome
        return False

    def is_of_this(self):
        return True

    def is_done(self):
        return False


# A file that should be an instance: its bytes, or None where they can't be read, how many customers it has, and why it
# is none, or None.
Source = namedtuple("Source", "path held count fault")


def source_of(path, held=None):
    """What stands in a file, or what is held of it."""
    try:
        text = Text(path, held=held)
        return Source(path, text.held, of_ours(text, read, "an instance").count, None)
    except Refused as fault:
        if held is None and os.path.isfile(path) and os.access(path, os.R_OK):
            held = read_file(path)
        return Source(path, held, "", str(fault).removeprefix(path + ": "))


def sources_of(paths):
    """The files of instances: those that are named, and those of folders that end in .txt."""
    found = []
    for path in paths:
        if os.path.isdir(path):
            inner = [os.path.join(path, name) for name in sorted(os.listdir(path)) if name.endswith(".txt")]
            found += [source_of(one) for one in inner if not os.path.isdir(one)]
        else:
            # A path without a file is a wrong word.
            found.append(source_of(path) if os.path.lexists(path) else Text(path))
    if not found:
        raise Refused("%s: met no instance, wanted files that vrptw reads" % paths[0])
    return found


def steps_of(paths, into, columns):
    """A step for each instance, named after its file, and each column."""
    steps, taken = [], {}
    for source in sources_of(paths):
        name = name_of(os.path.splitext(os.path.basename(source.path))[0])
        if name in taken:
            raise Refused("%s: met the name %s again, after %s, wanted each name once" % (
                source.path, name, taken[name]))
        taken[name] = source.path
        steps += [(Unread if source.fault else Step)(source, into, name, column) for column in columns]
    return steps


def standing_source(paths, given):
    """The instance that stands at one of these paths: the one with the sum of what was given, where that is known."""
    found = [(path, content(path)) for path in paths if is_plain(path)]
    for path, held in found:
        if given in (None, sum_of(held)):
            return source_of(path, held)
    return Source(paths[0], None, "", "met another text than was given" if found else "met none, wanted what was given")


def standing_steps(into, columns, known):
    """The steps that stand in a folder, by the instances as they were given here, or as the folder has them; and a note
    of the latter."""
    if not os.path.isdir(into):
        raise Refused("%s: met no folder, wanted that of a batch" % into)
    folders = [name for name in sorted(os.listdir(into)) if is_own_folder(os.path.join(into, name))]
    names = filter(NAME.match, dict.fromkeys(folder.partition(BETWEEN)[0] for folder in folders))
    sources = {}
    for name in names:
        paths = [os.path.join(into, column.step(name), INSTANCE) for column in columns if column.step(name) in folders]
        if name in known.given and paths or any(map(is_plain, paths)):
            sources[name] = standing_source(paths, known.given.get(name))
    if not sources:
        raise Refused("%s: met no step, wanted the folder of a batch" % into)
    others = [name for name in sources if name not in known.given]
    return [(Unread if source.fault else Step)(source, into, name, column)
            for name, source in sources.items() for column in columns], [
        "these instances weren't given on this machine, and are taken as %s has them: %s" % (
            into, listed(others))] if others else []


def lay_out(into, columns, program):
    """Puts what all steps share into a folder."""
    make_folder(into)
    put(os.path.join(into, OPTIONS), "".join(column.line() for column in columns).encode())
    for name, source in (("program", program), ("step", os.path.join(OUTSIDE, "tools", "step"))):
        put(os.path.join(into, name), read_file(source))
        os.chmod(os.path.join(into, name), 0o755)


def prepared(steps, into, columns, program, known):
    """Lays out the folder of a batch; answers what is noted."""
    lay_out(into, columns, program)
    for step in steps:
        if step.held is not None:
            known.give(step.instance, step.held)
    changed = dict.fromkeys(step.source for step in steps if step.prepare())
    return ["%s has another text than before, and is solved anew" % path for path in changed]


def found_tool(name, package):
    """Refuses where a program of others isn't there."""
    if shutil.which(name) is None:
        raise Refused("%s: met no such program, wanted it (Debian's package %s)" % (name, package))
