"""A certificate with the values of its leaves, found anew by some processes."""
from reference.needs import need
from reference.pricing import MOST_LABELS, Pricing, leaves
from reference.set_texts import FIRST_SET
from reference.texts import shown
from tools.plans import certificate_in, certificate_of, demand_plan, plan_of
from tools.stopping import end_by_signals
from tools.telling import Telling
from tools.tool import Refused, Text, content, told_path
from tools.tree_texts import Leaf, TreeText
from tools.valuing import Valuer, Valuers, value_of


def of_instance(instance, path):
    """The certificate of a file; one of another instance is refused, and one that tells of a set a need that it doesn't
    have."""
    certificate = certificate_of(path)
    demand_head(instance, certificate, path)
    return certificate


def demand_head(instance, certificate, path):
    """Refuses a certificate of another instance, or with a need that a set doesn't have."""
    if (certificate.name, certificate.count) != (instance.name, instance.count):
        raise Refused("%s: line 2: met a certificate of another instance, wanted %s with %d customers"
                      % (told_path(path), instance.name.decode(), instance.count))
    for line, one in enumerate(certificate.sets, FIRST_SET):
        if one.need > 1 and one.need > need(instance, one.customers):
            raise Refused("%s: line %d: met a need of %d (NeedTooGreat), wanted at most %d"
                          % (told_path(path), line, one.need, need(instance, one.customers)))


def refuse_bound(path, bound, least):
    raise Refused("%s: line 5: met a bound of %s, wanted that of the tree, %s"
                  % (told_path(path), shown(bound), shown(least)))


def found_value(leaf):
    """The value of a leaf, by the process at work."""
    return Valuers.here.value(*leaf)


def values_of(instance, certificate, jobs, head, most_labels=MOST_LABELS):
    """The values of the leaves in preorder, None where a leaf has too many labels; it is told how far that is."""
    pricing = Pricing(instance, certificate.neighbours, certificate.version, most_labels)
    count = sum(1 for _ in leaves(instance.count, certificate.tree))
    end_by_signals()
    tasks = leaves(instance.count, certificate.tree)
    return all_values(Valuers(pricing, jobs, count), found_value, tasks, count, Telling(head))


def all_values(valuers, work, tasks, count, telling):
    """The values of so many leaves, as processes find them."""
    found, is_whole = [], False
    try:
        for value in valuers.answers(work, tasks):
            found.append(value)
            if telling.is_due():
                telling.tell("%d of %d leaves" % (len(found), count))
        is_whole = True
    finally:
        valuers.end(is_whole)
    telling.end()
    return found


def certified(instance, path, jobs=None, head="", most_labels=MOST_LABELS):
    """The certificate, and the values of its leaves. One of another instance is refused, and one whose bound isn't its
    tree's."""
    certificate = of_instance(instance, path)
    values = values_of(instance, certificate, jobs, head, most_labels)
    demand_bound(instance, certificate.bound, values, path)
    return certificate, values


def demand_bound(instance, bound, values, path):
    """Refuses a bound that isn't that of the tree, as far as the values of its leaves were found."""
    least = min([value for value in values if value is not None] + [instance.ceiling() + 1])
    if least < bound or least > bound and None not in values:
        refuse_bound(path, bound, least)


def rechecked(instance, path, jobs, telling, most_labels=MOST_LABELS):
    """The bound of a certificate, and the values of its leaves, as `certified` answers and refuses them. Of the tree no
    more is held than its text."""
    held = content(path)
    try:
        text = TreeText(path, held)
        count = sum(isinstance(node, Leaf) for node in text.rest())
    except Refused:
        # The reader of whole trees says what is wrong.
        certificate_in(Text(path, held=held))
        raise
    demand_head(instance, text, path)
    end_by_signals()
    valuers = Valuers(Valuer(Pricing(instance, text.neighbours, text.version, most_labels), text.sets, text.rows or ()),
                      jobs, count)
    values = all_values(valuers, value_of, TreeText(path, held).tasks(), count, telling)
    demand_bound(instance, text.bound, values, path)
    return text.bound, values


def cost_of(instance, path):
    """The cost of a solution, which has to be a plan of the instance."""
    routes, cost = plan_of(instance, path)
    demand_plan(instance, routes, path)
    return cost


def verdict(instance, bound, cost):
    """The line of a bound and the cost of a plan, or None."""
    if cost is None:
        return "NO PLAN" if bound == instance.ceiling() + 1 else "BOUND %s" % shown(bound)
    return "BEST %s" % shown(cost) if cost == bound else "GAP %s %s" % (shown(cost), shown(bound))


def lacking(values):
    """What is said of leaves without a value, if there are some."""
    if None not in values:
        return None
    return "%d of %d leaves have too many labels, and their values weren't found" % (values.count(None), len(values))
