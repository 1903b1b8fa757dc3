"""A work at an instance: one run of the program, or rounds for so many seconds."""
from __future__ import annotations

import threading
import time
from dataclasses import replace
from functools import partial
from typing import Callable, Mapping, Optional, SupportsFloat, SupportsIndex

from .answers import Answer, Progress
from .checking import Tree, answer_of, check, whole_option, zero_certificate
from .faults import BadCertificate, BadOptions, Fault
from .instances import Given, held_bytes, instance_bytes
from .met import Met
from .plans import Routes, plan_bytes
from .rounds import SETS, Schedule, neighbours_for, neighbours_of, serves
from .running import Memory, Run, program_here


def words_of(given: Mapping[str, Optional[int]]) -> list[str]:
    """Options that are given, as words."""
    return [word for name, value in given.items() if value is not None for word in ("--" + name, str(value))]


def merged(best: Answer, came: Answer) -> Answer:
    """The cheaper plan and the higher bound of two answers, each with its text."""
    plan = best if came.cost_tenths is None or (
        best.cost_tenths is not None and best.cost_tenths <= came.cost_tenths) else came
    proof = best if (best.bound_tenths or 0) >= (came.bound_tenths or 0) else came
    kind = "OPEN" if plan.cost_tenths is None else "BEST" if plan.cost_tenths == proof.bound_tenths else "GAP"
    return Answer(kind, plan.routes, plan.cost_tenths, proof.bound_tenths, plan.plan, proof.certificate)


class Solving:
    """A work at an instance, which `run` does. `cancel` ends it from a callback, another thread or a signal handler.

    The options are those of `vrptw solve`, whose defaults count where they are None, but for 200 sets, and 12
    neighbours where a vehicle holds 20 customers or more in a day; docs/formats.md has their limits.
    With `seconds` it works in rounds of growing turns for at most so long, each from the best plan so far, and keeps
    the cheapest plan and the highest bound, as `outside/plan` does; `turns` can't be given then. Else one run is made.
    It ends sooner where no plan is cheaper, or at a gap of at most `gap` tenths of a percent of the cost. The answer
    never costs more than `start`, and its bound is never below that of `tree`, whose count of neighbours is that of
    each run; rounds go on from the tree of the round before with so many, once it serves. In the thread of `run`
    `on_progress` is called, at most a hundred times a run, and `on_plan` with the routes and the cost of each plan that
    is cheaper than all before, within some tenths of a second."""

    def __init__(self, instance: Given, *, seconds: Optional[float] = None, turns: Optional[int] = None,
                 searchers: Optional[int] = None, bounders: Optional[int] = None, seed: Optional[int] = None,
                 neighbours: Optional[int] = None, labels: Optional[int] = None, sets: Optional[int] = None,
                 rows: Optional[int] = None, gap: Optional[int] = None, close: bool = False,
                 leaves: Optional[int] = None, start: Optional[Routes] = None, tree: Optional[Tree] = None,
                 on_progress: Optional[Callable[[Progress], None]] = None,
                 on_plan: Optional[Callable[[list[list[int]], float], None]] = None,
                 program: Optional[str] = None) -> None:
        self.turns, self.seed, self.neighbours, self.gap = (whole_option(name, value) for name, value in (
            ("turns", turns), ("seed", seed), ("neighbours", neighbours), ("gap", gap)))
        self.options = words_of({name: whole_option(name, value) for name, value in (
            ("searchers", searchers), ("bounders", bounders), ("labels", labels),
            ("sets", SETS if sets is None else sets), ("rows", rows), ("gap", gap), ("leaves", leaves))})
        self.options += ["--close"] if close else []
        if seconds is not None and not (isinstance(seconds, SupportsFloat) and float(seconds) > 0):
            raise BadOptions("seconds: met %.40r, wanted a number above 0" % seconds)
        if seconds is not None and (turns is not None or close):
            raise BadOptions("met seconds beside turns or close, wanted one of them")
        if tree is not None and (neighbours is not None or close):
            raise BadOptions("met a tree beside neighbours or close, wanted one of them")
        self.seconds = None if seconds is None else float(seconds)
        self.instance = instance_bytes(instance)
        self.start = None if start is None else plan_bytes(self.instance, start)
        self.tree = tree.certificate if isinstance(tree, Answer) else None if tree is None else held_bytes(
            tree, BadCertificate)
        if self.tree is not None:
            self.neighbours = neighbours_of(self.tree)
        elif neighbours is None and seconds is None and not close:
            self.neighbours = neighbours_for(self.instance)[0]
        # By counts of neighbours.
        self.trees = {} if self.tree is None else {self.neighbours: self.tree}
        self.on_progress, self.on_plan, self.program = on_progress, on_plan, program or program_here()
        self.cancelled = threading.Event()
        self.best: Optional[Answer] = None
        # The cheapest plan that a run has met.
        self.met: Optional[Answer] = None
        self.began = self.until = 0.0
        self.percent = 0

    def cancel(self) -> None:
        """Ends the run at work within some tenths of a second. `run` then answers what stands: the cheapest plan that
        a run has met or ended with, and the highest bound of those that ended, else that of the tree as `check` judges
        it, else 0."""
        self.cancelled.set()

    def run(self) -> Answer:
        """Does the work, and answers what it came to. Raises `Fault` where the program refuses or fails before
        anything stands."""
        self.began, self.best, self.met, self.percent = time.monotonic(), None, None, 0
        self.until = float("inf") if self.seconds is None else self.began + self.seconds
        if self.seconds is not None:
            self.make_rounds()
        elif not self.cancelled.is_set():
            self.take(self.round(self.turns, self.neighbours, self.seed))
        return self.standing()

    def standing(self) -> Answer:
        """What stands: of the rounds that have ended, and the cheapest plan that one has met."""
        came = self.best or self.from_start()
        return came if self.met is None else merged(came, self.met)

    def from_start(self) -> Answer:
        """What stands before a run has ended."""
        if self.start is None and self.tree is None:
            return Answer("OPEN", None, None, 0, b"", zero_certificate(self.instance))
        came = check(self.instance, self.tree, self.start, program=self.program)
        return replace(came, kind="OPEN") if came.kind == "BOUND" else came

    def is_over(self) -> bool:
        """Whether the run at work is to end."""
        return self.cancelled.is_set() or time.monotonic() >= self.until

    def is_done(self) -> bool:
        """Whether nothing more is to be found, or as much as was asked for."""
        best = self.best
        if best is None or best.kind != "GAP" or not self.gap:
            return best is not None and best.kind in ("BEST", "NO PLAN")
        cost, bound = best.cost_tenths or 0, best.bound_tenths or 0
        return 1000 * (cost - bound) <= self.gap * cost

    def make_rounds(self) -> None:
        """Makes rounds until nothing is left to find, or the time is over."""
        is_set = self.neighbours is not None or self.tree is not None
        rounds, number = Schedule((self.neighbours,) if is_set else neighbours_for(self.instance)), 0
        first = 1 if self.seed is None else self.seed
        while not (self.is_done() or self.is_over()):
            chosen = rounds.next(self.until - time.monotonic())
            if chosen is None:
                return
            began = time.monotonic()
            try:
                came = self.round(*chosen, (first + number) % 2 ** 32)
            except Fault:
                if self.trees.pop(chosen[1], self.tree) is not self.tree:
                    # Its leaves took more labels than before, say.
                    continue
                if not rounds.drop(chosen[1]):
                    if self.best is None:
                        raise
                    return
                continue
            number += 1
            if came is None:
                return
            self.take(came)
            if serves(came.certificate, self.instance):
                self.trees[chosen[1]] = came.certificate
            rounds.note(*chosen, time.monotonic() - began, came.bound_tenths or 0)

    def round(self, turns: Optional[int], neighbours: Optional[int], seed: Optional[int]) -> Optional[Answer]:
        """One run of the program; None where it was broken off."""
        tree = self.trees.get(neighbours)
        given = {"turns": turns, "neighbours": neighbours if tree is None else None, "seed": seed}
        plan = self.start if self.met is None else self.met.plan
        with Memory() as memory:
            paths, met = [memory.put(text) for text in (self.instance, b"", b"")], Met(memory)
            words = [self.program, "solve", *paths, "--plans", met.path, *self.options]
            words += words_of(given)
            words += [] if plan is None else ["--start", memory.put(plan)]
            words += [] if tree is None else ["--tree", memory.put(tree)]
            words += ["--progress"] if self.on_progress else []
            is_told = self.on_progress is not None or self.on_plan is not None
            ran = Run(words, memory=memory).ended(self.is_over, partial(self.look, met) if is_told else None)
            self.meet(met)
            return None if ran.status is None else answer_of(ran, *(memory.held(path) for path in paths[1:]))

    def look(self, met: Met, came: Optional[Progress]) -> None:
        """Tells of plans that were met, and what a line of progress says."""
        self.meet(met)
        self.tell(came)

    def meet(self, met: Met) -> None:
        """Takes in the plans that a run has met."""
        for plan in met.next_ones():
            self.note(plan)

    def note(self, came: Answer) -> None:
        """Keeps a plan that is cheaper than all before, and tells of it."""
        if came.cost_tenths is None or came.routes is None:
            return
        if self.met is not None and (self.met.cost_tenths or 0) <= came.cost_tenths:
            return
        self.met = came
        if self.on_plan is not None:
            self.on_plan([list(route) for route in came.routes], came.cost_tenths / 10)

    def tell(self, came: Optional[Progress]) -> None:
        """Tells what a line of progress says, beside what stands."""
        if came is None or self.on_progress is None:
            return
        seconds, known = time.monotonic() - self.began, [one for one in (came, self.best, self.met) if one]
        self.percent = max(self.percent, came.percent if self.seconds is None else min(
            100, int(100 * seconds / self.seconds)))
        self.on_progress(Progress(
            self.percent, min((one.cost_tenths for one in known if one.cost_tenths is not None), default=None),
            max((one.bound_tenths for one in known if one.bound_tenths is not None), default=None), seconds))

    def take(self, came: Optional[Answer]) -> None:
        """Keeps the cheaper plan and the higher bound, each with its text."""
        if came is None:
            return
        self.note(came)
        self.best = came if self.best is None or came.kind == "NO PLAN" else merged(self.best, came)


def solve(instance: Given, *, seconds: Optional[float] = None, turns: Optional[int] = None,
          searchers: Optional[int] = None, bounders: Optional[int] = None, seed: Optional[int] = None,
          neighbours: Optional[int] = None, labels: Optional[int] = None, sets: Optional[int] = None,
          rows: Optional[int] = None, gap: Optional[int] = None, close: bool = False, leaves: Optional[int] = None,
          start: Optional[Routes] = None, tree: Optional[Tree] = None,
          on_progress: Optional[Callable[[Progress], None]] = None,
          on_plan: Optional[Callable[[list[list[int]], float], None]] = None, program: Optional[str] = None) -> Answer:
    """Solves an instance: what `Solving` with these options comes to."""
    return Solving(instance, seconds=seconds, turns=turns, searchers=searchers, bounders=bounders, seed=seed,
                   neighbours=neighbours, labels=labels, sets=sets, rows=rows, gap=gap, close=close, leaves=leaves,
                   start=start, tree=tree, on_progress=on_progress, on_plan=on_plan, program=program).run()
