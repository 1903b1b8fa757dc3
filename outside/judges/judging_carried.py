"""One run of `carry`: what it prints is a plan of the changed instance, by the reference, and who is gone or new is
told; what didn't change stays."""
import os
import re

from cases.random_texts import customer_words, instance_words, laid_out
from cases.spelled_cases import partition
from judges.judging_layouts import demand_notes, text_of, tool
from judges.judging_tables import plan_text
from judges.kind import Kind, tools_by
from judges.running import demand, put
from reference.instances import Instance, is_plan, plan_cost, read
from reference.texts import read_solution
from tools.names import table_of

FITS_NOWHERE = re.compile(r"outside/carry: customer \S+ of the changed instance fits into no route\n\Z")


def changed(random, instance):
    """The instance with some customers gone, new or changed, and perhaps another fleet or capacity; and the numbers
    before of its customers, None of new ones."""
    day = max(60, instance.due(0) // 10)
    kept = [i for i in range(1, instance.count + 1) if random.randrange(5)]
    rows, before = [instance.rows[0]], [0]
    for i in kept + random.randint(0 if kept else 1, 3) * [None]:
        row = instance.rows[i] if i else tuple(
            max(0, at + random.randint(-3, 3)) for at in random.choice(instance.rows)[:2])
        if i is None or random.randrange(4) == 0:
            demand_word, *times = customer_words(random, random.randrange(4) > 0, 3, day, instance.capacity)
            row = (*row[:2], int(demand_word), *(10 * int(word) for word in times))
        rows.append(row)
        before.append(i)
    places = [0] + random.sample(range(1, len(rows)), len(rows) - 1)
    return Instance(b"changed", random.choice([instance.fleet, 8, 8, 8, 1]), random.choice(
        [instance.capacity, instance.capacity, instance.capacity, 2]), [rows[at] for at in places]), [
            before[at] for at in places]


def demand_told(errors, words, right):
    """A note tells these names, in any order, or none does."""
    found = re.search(r"note: %s: (.*)\n" % words, errors)
    told = sorted(found[1].split(", ")) if found else []
    demand(told == sorted(right), "%s: %r, and %r is right" % (words, told, right))


def judge_carried(folder, random):
    """A plan of a random instance, taken to a changed one by names."""
    instance = read(laid_out(random, instance_words(random, random.randint(1, 8))))
    routes, is_same = partition(random, instance), random.randrange(6) == 0
    after, before = (instance, list(range(instance.count + 1))) if is_same else changed(random, instance)
    names = ["n%d" % i for i in range(instance.count + 1)]
    own = [names[i] if i is not None else "new%d" % at for at, i in enumerate(before)]
    texts = {"a.txt": text_of(instance), "b.txt": text_of(after), "plan.txt": plan_text(instance, routes),
             "a.csv": table_of(names).encode(), "b.csv": table_of(own).encode()}
    for name, text in texts.items():
        put(os.path.join(folder, name), text)
    path = {name: os.path.join(folder, name) for name in texts}
    out, errors, status = tool("carry", path["a.txt"], path["plan.txt"], path["b.txt"], "--names", path["a.csv"],
                               "--changed-names", path["b.csv"])
    if status:
        demand((out, status) == (b"", 1) and FITS_NOWHERE.match(errors), "carry: status %d, %r" % (status, errors))
        demand(not (is_same and is_plan(instance, routes)), "a plan of the same instance is refused")
        return "refused"
    demand_notes("carry", errors)
    found, cost = read_solution(out)
    demand(is_plan(after, found) and cost == plan_cost(after, found), "%r at %d is no plan" % (found, cost))
    demand(not (is_same and is_plan(instance, routes)) or sorted(found) == sorted(routes), "%r isn't %r" % (
        found, routes))
    demand_told(errors, "customers that are gone", [names[i] for i in range(1, instance.count + 1) if i not in before])
    demand_told(errors, "new customers", [name for name, i in zip(own, before) if i is None])
    return "the same" if is_same else "a plan"


KINDS = {
    "carried": Kind("a plan taken to a changed instance, by carry: a plan of that, at its cost, and who is gone or new",
                    30, tools_by(judge_carried)),
}
