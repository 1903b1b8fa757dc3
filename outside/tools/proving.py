"""One instance closed by many machines: a tree, of which each machine has a part in each round, and what came of them
as one tree."""
import os
import resource
import time

from reference.set_texts import MOST_ROWS, MOST_SETS
from reference.texts import TextFault, read_solution, shown
from tools.foreign import content
from tools.joined import TooMany
from tools.judged import judged
from tools.parting import START, TREE, Round
from tools.planning import Planner
from tools.proving_rounds import Pace, Row, Rounds, leaves_of, told_cost
from tools.respelling import certificate
from tools.slurm import cancel
from tools.standing import CERTIFICATE, INSTANCE, PLAN
from tools.tool import Refused, told
from tools.tree_texts import TreeText
from tools.whole import Gathering
from vrptw import verdict_of

# The folder of the round at work, and that in which its certificate is made.
PARTS, JOINED = "parts", "joined"
# A part that takes so many times the time of a round loses its work; so do parts that haven't come some seconds later,
# in which machines begin and bring what they found.
LONGEST, SLACK = 3, 30
# How many leaves a part has at least, before parts are dealt out, and the shortest round as a part of the longest.
LEAVES, SHORTEST = 8, 8
# After so many rounds of which no part came the work ends.
MOST_LOST = 3
# Before its first turn a part checks the tree and prices its leaves: so many times as long as the check here. A round
# is so many times longer than that, at least.
BEFORE, LONGER = 4, 4
# A turn takes about as long as the check of so many leaves.
TURN = 10
# The part of the time left that a round may be thought to take.
PART = 0.7
# Seeds of rounds lie so far apart, so that no part of another round has the same.
SEEDS = 1000


def processors_here():
    return os.cpu_count() or 1


def searchers_here():
    """How many searchers a run of this machine alone has."""
    return min(32, max(1, processors_here() // 4))


def bounders_here():
    """How many bounders it has: the other processors."""
    return min(32, max(1, processors_here() - searchers_here()))


class Prover(Planner):
    """A planner that closes its instance by rounds of parts."""

    def __init__(self, folder, instance, given, signals, tell):
        folder.put_instance(instance.held)
        super().__init__(folder, instance, (instance.held, None), given, signals, tell)
        self.rounds = Rounds(folder)
        self.pace, self.seconds = Pace(self.rounds.last("turns")), given.round
        # How many parts may have more to do; None where none were dealt out yet.
        self.at_work, self.leaves, self.least, self.lost = None, 0, 1, 0
        # The seconds that a part takes before its first turn.
        self.until = self.spent = self.before = 0.0

    def begin(self, until):
        """Takes in what stands, which has to be right."""
        self.until = until
        if self.given.engine == "slurm":
            # What an earlier call left that was killed.
            cancel(self.folder.at(PARTS))
        began = time.monotonic()
        self.stand(until)
        if self.notes:
            raise Refused("%s; wanted texts of this instance, or another DIR" % self.notes[0])
        if self.bound is not None:
            self.leaves = leaves_of(self.folder.held(CERTIFICATE))
            self.before = BEFORE * (time.monotonic() - began)
        if not self.rounds.rows and not self.is_for_here():
            self.pace = Pace(self.first_turns())

    def first_turns(self):
        """The turns of a first round that goes on from a tree: one for each leaf of a part, since rounds of few turns
        would price the tree anew each time. Where the time left is short, as many as may end in it."""
        each = TURN * self.before / BEFORE / self.leaves
        left = PART * (self.until - time.monotonic()) - self.before
        return int(max(1, min(self.leaves // self.given.parts, left / each)))

    def is_over(self):
        return self.signals.came or time.monotonic() >= self.until

    def is_higher(self, bound):
        """A tree of the same bound has more leaves closed."""
        return self.bound is None or bound >= self.bound

    def tree_of(self, neighbours):
        """A run goes on from the tree that stands, which says how many neighbours there are."""
        return CERTIFICATE if self.bound is not None else None

    def leaves_out(self, neighbours):
        """Without the tree nothing is gone on from."""
        return False

    def keep_tree(self, neighbours, text):
        """The tree that stands is the only one."""

    def prove(self):
        """Makes rounds until no plan is cheaper, or it is over."""
        while not self.is_done() and not self.is_over() and not self.is_unread:
            left, is_here = PART * (self.until - time.monotonic()), self.is_for_here()
            seconds = self.seconds / 4 if is_here and self.at_work is not None else self.seconds
            seconds, left = max(seconds, LONGER * self.before) - self.before, left - self.before
            turns = self.pace.next(min(seconds, left), left, self.least if is_here else 1)
            if turns is None:
                return
            began, spent, leaves = time.monotonic(), self.spent, self.leaves
            found = self.work_here(turns) if is_here else self.deal(turns)
            if found is not None:
                self.add_row(turns, *found, time.monotonic() - began, self.spent - spent)
            # A run that came to no further leaf is followed by a longer one, whatever that takes.
            self.least = 2 * turns if is_here and self.leaves <= leaves else 1

    def is_for_here(self):
        """Whether the next round is one run of all processors of this machine: there are too few leaves for parts, or
        too few parts have more to do."""
        if self.bound is None or self.leaves < LEAVES * self.given.parts:
            return True
        if self.at_work is None or self.at_work == self.given.parts:
            return False
        return self.at_work * (self.given.bounders or 1) < bounders_here()

    def add_row(self, turns, parts, came, at_work, seconds, spent):
        """Keeps and tells what stands behind a round."""
        self.leaves = leaves_of(self.folder.held(CERTIFICATE))
        row = Row(self.rounds.last("number") + 1, parts, came, at_work, turns, self.leaves, told_cost(self.cost),
                  shown(self.bound), round(self.rounds.last("seconds") + seconds, 3),
                  round(self.rounds.last("spent") + spent, 3))
        self.rounds.add(row)
        told("outside/prove: " + row.line())

    def work_here(self, turns):
        """A round of one run here. Answers what its row has of parts, or None where nothing came."""
        began = time.monotonic()
        before = resource.getrusage(resource.RUSAGE_CHILDREN)
        bound, fault = self.round(turns, self.counts_of_neighbours()[0], self.seed(), self.until)
        after = resource.getrusage(resource.RUSAGE_CHILDREN)
        self.spent += after.ru_utime + after.ru_stime - before.ru_utime - before.ru_stime
        if fault:
            raise Refused(fault)
        if bound is None:
            return None
        self.pace.note(turns, [self.at_turns(time.monotonic() - began) / turns])
        self.at_work = None
        return 0, 0, 0

    def at_turns(self, seconds):
        """The part of the seconds of a run in which it made turns."""
        return max(seconds / LONGER, seconds - self.before)

    def seed(self):
        return self.given.seed + SEEDS * (self.rounds.last("number") + 1)

    def part_options(self, turns, place):
        """The options of a part. All together list no more sets and rows than a certificate holds."""
        given, parts, tree = self.given, self.given.parts, TreeText(self.folder.at(CERTIFICATE))
        listed, listed_rows = len(tree.sets), len(tree.rows or ())
        sets = min(given.sets, listed + (MOST_SETS - listed) // parts)
        options = ["--tree", "../" + TREE, "--part", "%d/%d" % (place, parts), "--turns", str(turns),
                   "--sets", str(sets), "--searchers", str(given.searchers or 1), "--bounders", str(given.bounders or 1),
                   "--seed", str((self.seed() + place) % 2 ** 32)]
        options += ["--labels", str(given.labels)] if given.labels else []
        if given.rows is not None:
            options += ["--rows", str(min(given.rows, listed_rows + (MOST_ROWS - listed_rows) // parts))]
        return options + (["--start", "../" + START] if self.cost is not None else []) + ["--progress"]

    def deal(self, turns):
        """A round of parts. Answers what its row has of them, or None where it was broken off."""
        count, limit = self.given.parts, LONGEST * max(1, round(max(self.seconds, LONGER * self.before)))
        waves = -(-count // self.given.jobs) if self.given.engine == "here" else 1
        found = Round(self.folder.at(PARTS), self.rounds.last("number") + 1, count)
        plan = self.folder.held(PLAN) if self.cost is not None else b""
        texts = {INSTANCE: self.instance.held, TREE: self.folder.held(CERTIFICATE), START: plan}
        found.lay_out(self.given.program, texts, [self.part_options(turns, place + 1) for place in range(count)], limit)
        until = time.monotonic() + waves * limit + SLACK
        found.run(self.given, lambda: self.is_over() or time.monotonic() >= until)
        parts = found.parts()
        answers = [part for part in parts if part.has_answer()]
        self.tell_failed(parts)
        if self.signals.came and not answers:
            return None
        self.spent += sum(part.spent for part in parts)
        self.pace.note(turns, [100 * self.at_turns(part.seconds) / part.percent / turns for part in parts
                               if part.seconds and part.percent])
        came = self.take_parts(answers)
        if self.signals.came_again and not came:
            told("outside/prove: note: signals came, and the work of all parts is lost")
            return None
        self.at_work = count - sum(part.is_out_of_work() for part in parts)
        self.choose_seconds()
        self.lost = 0 if came else self.lost + 1
        if self.lost == MOST_LOST and not self.is_over():
            raise Refused("%d rounds came to nothing; what stands in %s is kept" % (self.lost, self.folder.path))
        return count, came, self.at_work

    def tell_failed(self, parts):
        """Tells how many parts came to nothing, and what the first of them said, or that a signal broke them off."""
        failed = [part for part in parts if not part.has_answer()]
        if failed and self.signals.came:
            told("outside/prove: note: a signal came, and the work of %d of %d parts is lost" % (
                len(failed), len(parts)))
        elif failed:
            told("outside/prove: note: %d of %d parts came to nothing: %s" % (
                len(failed), len(parts), failed[0].fault()))

    def choose_seconds(self):
        """The next round is shorter where most parts ended before it was over, so that leaves are soon dealt out
        anew."""
        if 2 * self.at_work < self.given.parts:
            self.seconds = max(self.seconds / 2, self.given.round / SHORTEST, 1)
        else:
            self.seconds = min(2 * self.seconds, self.given.round)

    def take_parts(self, parts):
        """Brings the best plan of all and the joined tree into place. Answers how many parts were taken. It is broken
        off by a second signal only."""
        self.take_plan(parts)
        plan = self.folder.held(PLAN) if self.cost is not None else None
        gathering = Gathering(self.given.program, self.instance, self.folder.at(CERTIFICATE), self.bound, plan,
                              self.cost, self.folder.beside(JOINED), lambda: self.signals.came_again)
        began = time.monotonic()
        try:
            path, bound, taken = gathering.gathered([part.path(CERTIFICATE) for part in parts])
        except TooMany as fault:
            raise Refused("%s; what stands in %s is kept" % (fault, self.folder.path))
        self.before = BEFORE * (time.monotonic() - began)
        if path is None:
            return 0
        os.replace(path, self.folder.beside(CERTIFICATE))
        self.take(None, bound)
        return len(taken)

    def take_plan(self, parts):
        """Brings the cheapest plan of parts into place, where it is cheaper than the one that stands."""
        found = []
        for part in parts:
            text = content(part.path(PLAN))
            try:
                found += [(read_solution(text)[1], text)] if text else []
            except TextFault:
                # The check of the whole says nothing of it: it is this part's loss.
                continue
        for cost, text in sorted(found):
            if self.cost is not None and cost >= self.cost:
                return
            line, _ = judged(self.given.program, self.instance.held, certificate(self.instance).encode(), text)
            if verdict_of(line)[1] == cost:
                self.folder.put(PLAN, text)
                self.cost, self.vehicles = cost, text.count(b"\nRoute #") + 1
                self.judge()
