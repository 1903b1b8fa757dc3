"""The parts of a round as one certificate: what the check takes of them, and which of them it doesn't take."""
import os
from argparse import Namespace
from concurrent.futures import ThreadPoolExecutor

from reference.pricing import MOST_LABELS
from reference.texts import MOST_LEAVES
from tools.foreign import put
from tools.joined import Joined, TooMany, made, texts_of
from tools.joining import Joining
from tools.judged import ran
from tools.tool import Refused
from vrptw import verdict_of


class Whole(Joined):
    """A tree joined with parts. What one part alone has changed at a leaf is taken as it is: no leaf of a text lies
    below its bound, so the joined bound is no lower than that of the lowest text. Pairs of leaves are made one only
    where there would else be too many."""
    takes_changes = True

    def __init__(self, instance, given, folder, is_over):
        super().__init__(instance, given, folder)
        self.asks = is_over

    def is_pruned(self):
        return super().is_pruned() and self.joining.leaves > MOST_LEAVES

    def is_over(self):
        return self.asks()


class Gathering:
    """A tree, its bound, a plan or None with its cost, and a folder in which the joined text is made."""

    def __init__(self, program, instance, tree, bound, plan, cost, folder, is_over):
        self.program, self.instance, self.tree, self.bound = program, instance, tree, bound
        self.plan, self.cost, self.folder, self.is_over = plan, cost, folder, is_over
        os.makedirs(folder, exist_ok=True)
        put(os.path.join(folder, "instance"), instance.held)

    def joined(self, paths):
        """Makes the text of the tree and of parts by their paths. Answers its path, and the bound that the check finds;
        None for both where it isn't right, is lower than that of the tree, or was broken off."""
        given = Namespace(tree=self.tree, parts=paths, check=True, solution=self.plan, bound=None, prune=self.cost,
                          jobs=None, labels=MOST_LABELS, program=self.program)
        whole, is_whole = None, False
        try:
            whole = Whole(self.instance, given, self.folder, self.is_over)
            whole.put_texts(self.plan)
            kind, _, bound = verdict_of(made(whole)[1])
            is_whole = True
        except TooMany:
            raise
        except Refused:
            return None, None
        finally:
            if whole is not None:
                whole.end(is_whole)
        bound = self.instance.ceiling() + 1 if kind == "NO PLAN" else bound
        return (None, None) if bound < self.bound else (whole.path("certificate"), bound)

    def is_right(self, path):
        """Whether one part by itself grew from the tree, and the check takes it with a bound that is no lower."""
        try:
            for _ in Joining(texts_of(self.instance, [self.tree, path]), None, True).pieces():
                pass
            came = ran([self.program, "check", os.path.join(self.folder, "instance"), path], self.is_over)
        except Refused:
            return False
        kind, _, bound = verdict_of(came.line)
        return kind == "NO PLAN" or bound is not None and bound >= self.bound

    def gathered(self, paths):
        """What `joined` answers of all parts, or where that isn't right, of those that are right by themselves; and
        which parts these are."""
        found = self.joined(paths)
        if found[0] is not None or self.is_over() or not paths:
            return *found, paths
        with ThreadPoolExecutor(os.cpu_count()) as pool:
            paths = [path for path, is_right in zip(paths, pool.map(self.is_right, paths)) if is_right]
        return *(self.joined(paths) if paths else (None, None)), paths
