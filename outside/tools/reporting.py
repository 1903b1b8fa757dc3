"""A report of a plan as one page: what was asked and answered, the vehicles, the pictures, the timetable, the check."""
import os
import shlex
from html import escape

from reference.texts import shown
from tools import drawing_tree
from tools.apart import apart_of
from tools.drawing import HEAD, colour, dash, is_hollow, plural
from tools.drawing_map import Frame, drawn_map
from tools.drawing_times import AXIS, FIGURES, LANES, Scale, drawn_bars
from tools.loads import as_there
from tools.places import as_called
from tools.reasons import proofs_of
from tools.reporting_page import SCRIPT, SHELL, STYLE
from tools.timing import EARLY, LATE, cells, leaving, percent, shares, stops, sums_shown, total
from tools.units import units_of

WIDE = 1000
# What is said of when vehicles leave.
LEAVING = {LATE: "Each vehicle leaves as late as it may without being back later than it has to be.",
           EARLY: "All vehicles leave when the depot opens."}
# Of whose plans a bound is where a fleet is as small as does.
FEW = " with so few"
# What stands below a picture that a narrow screen cuts.
PUSHED = '<p class="note push">The bars go on to the right: push them sideways.</p>'
# What the tables say of a stop.
STOP_COLUMNS = ("arrival", "wait", "begin", "end", "load", "slack")


class Report:
    """What is reported, which the caller checked: routes and cost are None where there is no plan, the certificate
    where there is none, and the values of its leaves where its tree isn't drawn; and when vehicles leave."""

    def __init__(self, instance, names, routes, cost, certificate, values, paths, depart=LATE):
        self.instance, self.names, self.depart = as_there(instance, names), names, depart
        self.routes, self.cost = routes, cost
        self.certificate, self.values, self.paths = certificate, values, paths
        self.bound = certificate.bound if certificate else None
        self.units, self.apart = units_of(names), apart_of(instance, names)
        # Where there is no plan: lines that say why, who is left out, and the report of the others' plan.
        self.why, self.left_out, self.served, self.folder, self.whom = [], None, None, "", "all"
        # What changed from the day before.
        self.changes = None
        # What is known of fewer vehicles, in a sentence.
        self.fewest = ""

    def name(self, i):
        """The name of a place beside its number, which is blank where it has none."""
        if self.names and self.names[i] != str(i):
            return self.names[i]
        return "" if i else "depot"

    def place(self, i):
        """A place's name and its address, as far as they are known."""
        return ", ".join(word for word in (self.name(i), self.names.address(i) if self.names else "") if word)

    def distance(self, tenths):
        """A distance with its measure."""
        return "%s %s" % (self.units.distance(tenths), self.units.measure())

    def whose(self):
        """Of what the plans are that a bound is of, where that isn't plain."""
        return " of %s" % self.apart.called if self.apart else ""

    def off(self):
        """What stands behind the cost: of what kilometres are made, and by how much it is off."""
        off = self.apart.told_off(self.routes) if self.apart else ""
        told = "; ".join(word for word in (self.units.made_of(), off) if word)
        return " (%s)" % told if told else ""

    def verdict(self):
        """The line that the check prints, or None without a certificate."""
        if self.certificate is None:
            return None
        if self.cost is None:
            return "NO PLAN" if self.bound == self.instance.ceiling() + 1 else "BOUND %s" % shown(self.bound)
        return "BEST %s" % shown(self.cost) if self.cost == self.bound else "GAP %s %s" % (
            shown(self.cost), shown(self.bound))

    def sums(self):
        """The sums of each route, as they are shown."""
        return [sums_shown(self.instance, route, self.units, self.depart) for route in self.routes]


def asked(report):
    instance = report.instance
    return ("The task: serve %s from %s with at most %s of capacity %s, each customer once and within its window, and "
            "drive as little as possible." % (
                plural(instance.count, "customer"), report.name(0) if report.name(0) != "depot" else "the depot",
                plural(instance.fleet, "vehicle"), report.units.load(instance.capacity)))


def why_not(instance, certificate, names, where="", proofs=None):
    """Lines that say why there is no plan, in names: what plain arithmetic tells, which may be known already, or else
    that the certificate shows it; none where neither does."""
    found = proofs_of(instance, names) if proofs is None else proofs
    if found or certificate is None or certificate.bound <= instance.ceiling():
        return [reason.told for reason in found]
    paths = [shlex.quote(os.path.join(where, name)) for name in ("instance.txt", "certificate.txt")]
    return [as_called("it is proved that not all can be served, and ./vrptw check %s %s shows it" % tuple(paths))]


def claim(report):
    """What the certificate shows, as a part of a sentence."""
    kind = report.verdict().split()[0]
    if kind == "GAP":
        return "no plan%s costs less than %s, so the cheapest one saves at most %s %% of this cost" % (
            report.whose(), report.distance(report.bound), percent(report.cost - report.bound, report.cost))
    return {"BEST": "no plan%s is cheaper than this one", "NO": "there is no plan%s that serves all customers",
            "BOUND": "every plan%%s costs at least %s" % report.distance(report.bound)}[kind] % report.whose()


def answer(report):
    """What was answered, in sentences, of which each is true of what was checked."""
    found = []
    if report.cost is not None:
        found.append("%s %s, at a cost of %s of distance%s." % (
            "1 vehicle serves" if len(report.routes) == 1 else "%d vehicles serve" % len(report.routes), report.whom,
            report.distance(report.cost), report.off()))
    elif report.verdict() != "NO PLAN":
        found.append("No plan was found.")
    found += [escape(report.fewest)] if report.fewest else []
    if report.certificate is None:
        return " ".join(found + ["Whether a cheaper plan exists isn't said: no certificate was given."])
    told = claim(report)
    found.append("%s, and anybody can check that with <code>%s</code>." % (
        escape(told[0].upper() + told[1:]), escape(check_command(report))))
    if report.apart and report.verdict() != "NO PLAN":
        found.append(escape(report.apart.told(report.routes, report.bound, FEW if report.fewest else "")))
    return " ".join(filter(None, found))


def check_command(report):
    """The words of the check, with the names of the files."""
    names = [shlex.quote(report.folder + os.path.basename(path)) for path in report.paths]
    return "%s %s %s%s" % (as_called("./vrptw check"), names[0], names[1],
                           "" if report.cost is None else " --solution " + names[2])


def figures(report):
    """Pairs of a word and a figure."""
    instance, units = report.instance, report.units
    demand = sum(instance.demand(i) for i in range(1, instance.count + 1))
    yield "customers", "%d" % instance.count
    if report.cost is not None:
        told = shares(instance, report.sums(), units)
        yield "vehicles", "%d of %d (%s %%)" % (told.vehicles, told.fleet, told.fleet_percent)
        yield "cost (distance%s)" % (", km" if units.speed else ""), units.distance(report.cost)
    yield "demand", "%s, and a vehicle holds %s" % (units.load(demand), units.load(instance.capacity))
    if report.cost is not None:
        yield "load of the vehicles", told.load_percent + " %"
        yield from times_of_all(report, told)


def figures_of_proof(report):
    """Pairs of a word and a figure of what is proved, as people read costs."""
    if report.verdict() != "NO PLAN":
        yield "every plan%s costs at least (the bound)" % report.whose(), report.distance(report.bound)
    if report.cost is not None:
        gap = report.cost - report.bound
        yield "the cheapest one%s may save (the gap)" % report.whose(), "%s (%s %%)" % (
            report.distance(gap), percent(gap, report.cost))
    yield "leaves of the certificate's tree", "%d" % leaves_of(report.certificate.tree)


def times_of_all(report, told):
    """Pairs of a word and a time: those of all vehicles together, and the longest one."""
    whole, span = total(report.sums()), report.units.span
    for word in ("driving", "service", "waiting", "duration"):
        yield "%s of all" % word, span(getattr(whole, word))
    yield "longest duration", span(told.longest_duration)


def leaves_of(tree):
    """How many leaves a tree has."""
    count, rest = 0, [tree]
    while rest:
        node = rest.pop()
        count += node[0] == "P"
        rest += node[2:] if node[0] == "S" else []
    return count


def sample(number):
    """The line and the spot by which a route is known."""
    hue = colour(number)
    return ('<svg viewBox="0 0 44 12" width="44" height="12"><path d="M1 6h30" stroke="%s" stroke-width="2.6" '
            'fill="none"%s/><circle cx="37" cy="6" r="4.2" fill="%s" stroke="%s" stroke-width="1.6"/></svg>' % (
                hue, dash(number), "white" if is_hollow(number) else hue, hue))


def row(cells, tag="td", whats=()):
    """The cells of a row; on a narrow screen what they are stands before them."""
    marks = [' data-what="%s"' % what if what else "" for what in whats] or len(cells) * [""]
    return "".join("<%s%s>%s</%s>" % (tag, mark, cell, tag) for mark, cell in zip(marks, cells))


def vehicles(report):
    """The table of the vehicles: loads, distances and times."""
    instance, units, rows = report.instance, report.units, []
    heading = ["", "vehicle", "stops", "load", "distance", "leaves at", "back at", "driving", "service", "waiting",
               "duration"]
    for number, (route, found) in enumerate(zip(report.routes, report.sums())):
        part, whole = units.share(found.load, instance.capacity)
        filled = '<div class="load"><i style="width:%d%%"></i><b>%s of %s</b></div>' % (
            100 * part // whole, units.load(found.load), units.load(instance.capacity))
        rows.append('<tr class="route" data-route="%d" tabindex="0">%s</tr>' % (number, row([
            sample(number), number + 1, len(route), filled, units.distance(found.distance),
            units.moment(found.leaves), units.moment(found.back),
            *map(units.span, (found.driving, found.service, found.waiting, found.duration))], "td", heading)))
    return ('<table class="figures"><thead><tr>%s</tr></thead><tbody>%s</tbody></table>'
            '<p class="note">%s A duration goes from leaving to the return.</p>' % (
                row(heading, "th"), "".join(rows), LEAVING[report.depart]))


def timetable(report):
    """The stops of each route, with the return."""
    parts, moment = [], report.units.moment
    for number, route in enumerate(report.routes):
        rows = ['<tr><th colspan="8">%s vehicle %d, leaves at %s</th></tr>' % (
            sample(number), number + 1, moment(leaving(report.instance, route, report.depart)))]
        for stop in stops(report.instance, route, report.depart):
            told = [stop.stop or "", escape(report.place(stop.stop)), *cells(stop, report.units)[1:]]
            rows.append("<tr>%s</tr>" % row(told, "td", ("", "", *STOP_COLUMNS)))
        parts.append('<tbody class="route" data-route="%d">%s</tbody>' % (number, "".join(rows)))
    return '<table class="times"><thead><tr>%s</tr></thead>%s</table>' % (
        row(["stop", "", *STOP_COLUMNS], "th"), "".join(parts))


def picture(kind, width, height, drawn, told):
    return ('<div class="picture %s"><svg xmlns="http://www.w3.org/2000/svg" viewBox="0 0 %d %d" role="img" '
            'font-family="sans-serif" style="max-width:%dpx" aria-label="%s">%s</svg></div>' % (
                kind, width, height, width, escape(told), "".join(drawn)))


def map_of(report):
    frame = Frame(report.instance)
    drawn = ['<g transform="translate(0 -%d)">' % HEAD]
    drawn += drawn_map(frame, report.instance, report.routes, report.names, report.depart) + ["</g>"]
    return picture("map", frame.width, frame.height - HEAD, drawn, "map of the routes")


def bars_of(report):
    scale, count = Scale(report.instance, report.routes, 0, WIDE, report.depart), len(report.routes)
    high = min(max(620 / count, LANES[0]), LANES[1])
    drawn = drawn_bars(scale, report.instance, report.routes, report.names, 26, high)
    height = round(26 + high * count + AXIS)
    return picture("bars", scale.right + FIGURES, height, drawn, "bars of the routes over time") + PUSHED


def tree_of(report):
    lines = drawing_tree.picture(report.instance.name.decode(), report.certificate.tree, report.values, report.bound,
                                 report.cost, report.units.distance)
    return '<div class="picture tree">%s</div>' % "".join(lines)


def checks(report):
    """How anybody checks the answer, with the line that comes."""
    if report.certificate is None:
        return as_called("<p>The plan is judged by <code>./vrptw check</code> with any certificate of the instance; "
                         "<code>./vrptw solve</code> writes one.</p>")
    again = check_command(report).replace(as_called("./vrptw check"), as_called("outside/recheck"), 1).replace(
        " --solution", "")
    return ('<table class="pairs">%s</table>'
            "<p>Who has these files can check the answer:</p><pre>$ %s\n%s\n$ %s\n%s</pre>"
            "<p><code>%s</code> says: %s%s</p><p>The first command is a program that is proved to say this line only "
            "where it is true; the second is plain Python that shares nothing with it.</p>" % (
                "".join("<tr>%s</tr>" % row(pair) for pair in figures_of_proof(report)),
                escape(check_command(report)), report.verdict(), escape(again), report.verdict(), report.verdict(),
                meaning(report), counted(report)))


def counted(report):
    """What the numbers of the line are here, where it counts in other units."""
    if report.units.is_plain or report.verdict() == "NO PLAN":
        return ""
    numbers = [] if report.cost is None else [report.cost]
    numbers += [report.bound] if report.bound != report.cost else []
    return " It counts in units of the instance: %s." % " and ".join(
        "%s are %s" % (shown(one), report.distance(one)) for one in numbers)


def meaning(report):
    kind = report.verdict().split()[0]
    plan = "the plan serves each customer once within capacity, windows and fleet at "
    return {"BEST": plan + "this cost, and no plan%s is cheaper.",
            "GAP": plan + "the first number, and every plan%s costs at least the second one.",
            "BOUND": "every plan%s costs at least this number.", "NO": "there is no plan%s."}[kind] % report.whose()


def in_units(report):
    """What is said of the times and distances."""
    units = report.units
    if units.clock:
        return "Times are of the day, cut to minutes; distances are in %s." % (
            "km" if units.speed else "units of the table")
    return "Times and distances are in units of the %s." % ("instance" if units.is_plain else "table")


def sections(report):
    """Pairs of a heading and what stands below it."""
    yield "In figures", '<table class="pairs">%s</table>' % "".join(
        "<tr>%s</tr>" % row(pair) for pair in figures(report))
    if report.why:
        yield "Why there is no plan", "<ul>%s</ul>" % "".join("<li>%s</li>" % escape(line) for line in report.why)
    if report.left_out is not None:
        yield "Left out", left_out(report.left_out)
    if report.changes is not None:
        yield "Changes", changes(report.changes)
    if report.served is not None:
        yield "A plan of the others", "<p>%s</p>" % answer(report.served)
        yield from plan_sections(report.served)
    yield from plan_sections(report)
    yield "How to check", checks(report)
    if report.cost is not None and report.values is not None:
        yield "The certificate's tree", tree_of(report) + (
            '<p class="note">Each leaf holds a part of all plans: those that use the arcs of full lines above it, and '
            'none of the broken ones. None of them is cheaper than the value of the leaf, so the least value is the '
            'bound.</p>')


def words_table(heading, rows):
    """A table of words; a column in which nothing stands is left out, and on a narrow screen each row is a card."""
    kept = [place for place in range(len(heading)) if heading[place] == "" or any(one[place] for one in rows)]
    whats = [heading[place] for place in kept]
    told = "".join("<tr>%s</tr>" % row([escape(one[place]) for place in kept], "td", ["", *whats[1:]]) for one in rows)
    return '<table class="words"><thead><tr>%s</tr></thead><tbody>%s</tbody></table>' % (row(whats, "th"), told)


def left_out(found):
    """The table of those that are left out, and what would do."""
    heading = ("customer", "demand", "from", "until", "why", "would do")
    advice = ('<p>What would do: %s.</p><p class="note">What would do was tried: a plan was found with it.</p>' % (
        escape(", or ".join(found.advice))) if found.advice else "")
    return words_table(heading, [one[1:] for one in found.rows]) + advice


def changes(found):
    """The tables of what changed from the day before."""
    heading = ("customer", "what changed", "vehicle before", "vehicle", "begin before", "begin",
               "address")
    return "%s%s<p class=\"note\">%s</p>" % (
        words_table(heading, found.rows()), words_table(("", "before", "now"), found.sums()),
        "The day before is in the folder before. Vehicles are numbered so that most customers keep the number of before; "
        "earlier or later are told from ten minutes on.")


def plan_sections(report):
    """The sections of a plan, where there is one."""
    if report.cost is not None:
        yield "Vehicles", vehicles(report)
        yield "Map", map_of(report)
        yield "Over time", bars_of(report)
        yield "Timetable", timetable(report) + (
            '<p class="note">%s Slack is how much later service could begin before the due date.</p>' % in_units(
                report))


def page(report):
    """The page, whose text is well-formed as XML too."""
    name = escape(report.instance.name.decode())
    body = "".join('<section id="%s"><h2>%s</h2>%s</section>' % (
        heading.lower().replace(" ", "-").replace("'", ""), escape(heading), told)
        for heading, told in sections(report))
    return SHELL % {"name": name, "style": STYLE, "script": SCRIPT, "asked": escape(asked(report)),
                    "answer": answer(report), "body": body}
