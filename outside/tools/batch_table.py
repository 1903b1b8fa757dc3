"""The table of a batch, as text and as CSV, beside best known costs where some are given."""
import csv
import io
import re
from collections import Counter

from reference.texts import shown, tenths
from tools.batch_columns import name_of
from tools.tool import Refused, listed, quoted

COLUMNS = ("instance", "customers", "cost", "vehicles", "bound", "gap", "leaves", "seconds", "met at", "status")
# Before the last of them, where best known costs are given: the cost, and how far above it that of here is.
BEST_COLUMNS = ("best known", "above")


# A line of best known costs: a name, perhaps that of a file, and a number.
BEST = re.compile(r"(.*?[^\s,])(?:\.txt)?[\s,]+([^\s,]+)\Z", re.I)


def tenths_of(word):
    return None if word is None else tenths(word.encode())


def part(more, whole):
    """A difference in percent of the whole, or None."""
    return None if more is None else 100 * more / whole if whole else 0.0


def percent(value):
    return "" if value is None else "%.2f %%" % value


def gap(outcome):
    """The gap in percent of the cost, or None."""
    cost, bound = tenths_of(outcome.cost), tenths_of(outcome.bound)
    return None if cost is None or bound is None else part(cost - bound, cost)


def bound_of(outcome):
    """The bound, which tells nothing where there is no plan."""
    return "" if outcome.bound is None or outcome.status == "NO PLAN" else outcome.bound


def best_known(text):
    """Costs in tenths by the names of instances: a name and a cost in each line, with blanks or a comma between. Names
    may be those of the files."""
    found = {}
    for line, told in text.filled():
        parts = BEST.match(told.strip())
        cost = tenths(parts[2].encode()) if parts else None
        if not cost:
            text.refuse(line, quoted(told), "a name and a cost above 0 with one decimal, as c1_25 339.8")
        name = name_of(parts[1])
        if name in found:
            text.refuse(line, "the name %s again" % quoted(name), "each name once")
        found[name] = cost
    return found


def unmatched(steps, best):
    """A note of the names that no instance has."""
    names = {step.instance for step in steps}
    lacks = [name for name in best if name not in names]
    return ["--best has names of no instance here: %s" % listed(lacks)] if lacks else []


def above(step, best):
    """How many tenths a step's cost is above the best known one, or None."""
    outcome = step.outcome
    if outcome is None or outcome.cost is None or step.instance not in best:
        return None
    return tenths_of(outcome.cost) - best[step.instance]


def above_part(step, best):
    """The same in percent, or None."""
    return part(above(step, best), best.get(step.instance))


def compared(steps, best):
    """How many of the best known costs were met, and how many plans are cheaper."""
    found = [above(step, best) for step in steps if step.instance in best]
    met, better = sum(more == 0 for more in found), sum(more is not None and more < 0 for more in found)
    return "%d best known costs: %d met, %d better" % (len(found), met, better)


def too_low(steps, best):
    """Notes of best known costs that no plan of the instance has."""
    return ["no plan of %s costs %s, which --best has: each costs at least %s" % (
        step.name, shown(best[step.instance]), step.outcome.bound) for step in steps
            if step.instance in best and step.outcome and step.outcome.bound is not None
            and best[step.instance] < tenths_of(step.outcome.bound)]


def demand_agreement(steps, into, kept):
    """Refuses a plan below a bound of the same instance, or where there is none: one of both verdicts is false."""
    for group in by_instance(steps):
        answers = [step for step in group if step.outcome is not None and step.outcome.is_answer()]
        cheapest = min((step for step in answers if step.outcome.cost is not None),
                       key=lambda step: tenths_of(step.outcome.cost), default=None)
        highest = max(answers, key=lambda step: tenths_of(step.outcome.bound), default=None)
        if cheapest is not None and tenths_of(cheapest.outcome.cost) < tenths_of(highest.outcome.bound):
            raise Refused("%s: met a plan of %s at %s, and in %s a bound of %s, wanted none below a bound; one of both "
                          "verdicts is false: without %s all is checked again" % (
                              into, cheapest.name, cheapest.outcome.cost, highest.name, highest.outcome.bound, kept))


def counted_of(number):
    """A count as a word; nothing where it isn't known."""
    return "" if number is None else str(number)


def status(step):
    """The verdict, or what is known in its place."""
    return step.state if step.outcome is None else step.outcome.status


def seconds(number):
    """Seconds as a word; nothing where they aren't known."""
    return "" if number is None else "%.1f" % number


def cells(step, best):
    """What is known of a step, as words; of one that isn't done its state alone."""
    outcome = step.outcome
    found = [""] * 7 if outcome is None else [
        outcome.cost or "", counted_of(outcome.vehicles), bound_of(outcome), percent(gap(outcome)),
        counted_of(outcome.leaves), seconds(outcome.seconds), seconds(outcome.met)]
    if best is not None:
        known = best.get(step.instance)
        found += ["" if known is None else shown(known), percent(above_part(step, best))]
    return [step.instance, str(step.count), *found, status(step)]


def table(steps, best):
    """The rows of one column, with the heading."""
    more = () if best is None else BEST_COLUMNS
    return [[*COLUMNS[:-1], *more, COLUMNS[-1]]] + [cells(step, best) for step in steps]


def by_instance(steps):
    """Lists of the steps of each instance, in the order of the columns."""
    found = {}
    for step in steps:
        found.setdefault(step.instance, []).append(step)
    return list(found.values())


def side_by_side(steps, best):
    """The rows of several columns: cost and gap of each, then the least cost, the highest bound and their gap."""
    labels = [step.column.label for step in by_instance(steps)[0]]
    rows = [["instance", "customers"] + ([] if best is None else ["best known"]) + [
        word for label in labels for word in (label, "gap")] + ["least", "bound", "gap"]]
    for group in by_instance(steps):
        known = None if best is None else best.get(group[0].instance)
        row = [group[0].instance, str(group[0].count)] + (
            [] if best is None else ["" if known is None else shown(known)])
        for step in group:
            outcome = step.outcome
            has_plan = outcome is not None and outcome.cost is not None
            row += [outcome.cost, percent(gap(outcome))] if has_plan else [status(step).split(":")[0], ""]
        found = [step.outcome for step in group if step.outcome is not None]
        cost = min((tenths_of(outcome.cost) for outcome in found if outcome.cost is not None), default=None)
        bound = max((tenths_of(bound_of(outcome)) for outcome in found if bound_of(outcome)), default=None)
        both = cost is not None and bound is not None
        rows.append(row + ["" if cost is None else shown(cost), "" if bound is None else shown(bound),
                           percent(part(cost - bound, cost) if both else None)])
    return rows


def counted(steps):
    """How many steps have which verdict or state."""
    kinds = Counter(status(step).split(":")[0] for step in steps)
    return ", ".join("%d %s" % (count, kind) for kind, count in sorted(kinds.items()))


def mean(values):
    """The mean of what is known, in percent, or None."""
    found = [value for value in values if value is not None]
    return sum(found) / len(found) if found else None


def column_line(label, steps, best):
    """What came of a column, in a line: verdicts, the mean gap, the seconds, and how far it is above the best known."""
    done = [step.outcome for step in steps if step.outcome is not None]
    told = ["%s (%s): %s" % (label, " ".join(steps[0].column.words) or "defaults", counted(steps))]
    gaps = mean(map(gap, done))
    told += ["mean gap %s" % percent(gaps)] if gaps is not None else []
    told += ["%.1f s" % sum(outcome.seconds or 0 for outcome in done)] if done else []
    if best is not None:
        more = mean(above_part(step, best) for step in steps)
        told += [compared(steps, best)] + (["%s above in the mean" % percent(more)] if more is not None else [])
    return ", ".join(told)


def in_columns(rows, is_last_left):
    """Rows of words as lines: the first column left, the others right, but perhaps for the last one."""
    wide = [max(len(row[place]) for row in rows) for place in range(len(rows[0]))]
    ends = [*wide[1:-1], 0 if is_last_left else wide[-1]]
    return ["  ".join([first.ljust(wide[0]), *map(str.rjust, rest, ends)]).rstrip() for first, *rest in rows]


def aligned(steps, best=None):
    """The name left, the numbers right, and below how many have which verdict: of several columns a line each."""
    is_one = not steps[0].column.label
    lines = in_columns(table(steps, best) if is_one else side_by_side(steps, best), is_one)
    if is_one:
        lines += ["%d instances: %s" % (len(steps), counted(steps))] + (
            [] if best is None else [compared(steps, best)])
    else:
        lines += [column_line(group[0].column.label, group, best) for group in zip(*by_instance(steps))]
    return "\n".join(lines) + "\n"


def value(number):
    """A number for a program: at most six decimals."""
    return "" if number is None else ("%.6f" % number).rstrip("0").rstrip(".")


def separated(steps, best=None):
    """A row for each step, with numbers alone where numbers stand; gap and above are in percent."""
    more = () if best is None else BEST_COLUMNS
    rows = [["instance", "set", *COLUMNS[1:-1], *more, COLUMNS[-1], "machine"]]
    for step in steps:
        outcome, known = step.outcome, (best or {}).get(step.instance)
        row = [step.instance, step.column.label, step.count] + ([""] * 7 if outcome is None else [
            outcome.cost or "", counted_of(outcome.vehicles), bound_of(outcome), value(gap(outcome)),
            counted_of(outcome.leaves), value(outcome.seconds), value(outcome.met)])
        if best is not None:
            row += ["" if known is None else shown(known), value(above_part(step, best))]
        rows.append(row + [status(step), outcome.machine if outcome else ""])
    found = io.StringIO()
    csv.writer(found, lineterminator="\n").writerows(rows)
    return found.getvalue()
