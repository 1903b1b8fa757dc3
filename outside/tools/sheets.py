"""The drivers' sheets: a page for each vehicle, to be printed or read on a phone."""
from collections import namedtuple
from html import escape

from tools.apart import apart_of
from tools.loads import as_there
from tools.sheet_words import ENGLISH, WORDS
from tools.timing import LATE, as_shown, stops, sums_shown
from tools.units import units_of

STYLE = """
:root { color-scheme: light; }
* { box-sizing: border-box; }
body { font: 16px/1.45 system-ui, sans-serif; color: #1b1b1b; background: #fff; max-width: 60rem; margin: 0 auto;
  padding: 1rem; overflow-wrap: break-word; }
nav a { display: inline-block; border: 1px solid #999; border-radius: .3rem; padding: .3rem .7rem;
  margin: 0 .3rem .4rem 0; color: inherit; text-decoration: none; }
section { margin-bottom: 3rem; }
h1 { font-size: 1.35rem; margin: .8rem 0 .2rem; }
.whole { margin: 0 0 .7rem; color: #444; }
table { border-collapse: collapse; width: 100%; font-variant-numeric: tabular-nums; }
thead { display: table-header-group; }
th { text-align: left; font-weight: normal; color: #555; border-bottom: 2px solid #888; padding: .2rem .5rem; }
td { border-bottom: 1px solid #ccc; padding: .45rem .5rem; vertical-align: top; }
td.number { text-align: right; white-space: nowrap; }
th.number { text-align: right; }
th { vertical-align: bottom; overflow-wrap: normal; }
td.who { min-width: 9.5rem; overflow-wrap: anywhere; }
td.time { white-space: nowrap; }
.who b { display: block; }
.who i { display: block; font-style: normal; color: #444; }
.late { white-space: normal; color: #444; display: block; font-size: .9em; }
.what { color: #444; }
tr { break-inside: avoid; }
.depot, .depot td { background: #f3f3f3; }
td.tick, th.tick { text-align: center; }
.box { display: inline-block; width: 1.1em; height: 1.1em; border: 1.5px solid #444; border-radius: .15em; }
.loading { columns: 16rem auto; color: #333; margin-top: .2rem; }
.sign { margin-top: 2.2rem; border-top: 1px solid #444; width: 18rem; max-width: 100%; color: #555; }
@media screen and (max-width: 640px) {
  body { padding: .6rem; }
  thead { display: none; }
  table, tbody, tr, td { display: block; width: 100%; }
  tr { border: 1px solid #bbb; border-radius: .4rem; margin: 0 0 .6rem; padding: .4rem .6rem; }
  td, td.who { border: 0; padding: .1rem 0; min-width: 0; }
  td.number, td.time, td.tick { text-align: left; white-space: normal; }
  td[data-what]::before { content: attr(data-what) ": "; color: #555; }
  .depot td.time::before { content: none; }
  td:empty { display: none; }
}
@media print {
  body { max-width: none; padding: 0; font-size: 9.5pt; line-height: 1.2; }
  .many { font-size: 7.5pt; line-height: 1.15; }
  h1 { font-size: 1.1rem; margin: 0; }
  p, .whole { margin: .15rem 0; }
  th, td { padding: .1rem .25rem; }
  td.who { min-width: 0; width: 45%; }
  .who b, .who i, .late, .loading li { display: inline; }
  .who i::before, .late::before, .loading li + li::before { content: ", "; }
  .loading { columns: auto; padding: 0; margin: 0; }
  .sign { margin-top: 1.2rem; }
  nav { display: none; }
  section { break-after: page; margin: 0; }
  section:last-of-type { break-after: auto; }
  * { print-color-adjust: exact; -webkit-print-color-adjust: exact; }
}
"""

SHELL = """<!DOCTYPE html>
<html lang="%(lang)s" xmlns="http://www.w3.org/1999/xhtml">
<head>
<meta charset="utf-8"/>
<meta name="viewport" content="width=device-width, initial-scale=1"/>
<meta http-equiv="Content-Security-Policy" content="default-src 'none'; style-src 'unsafe-inline'"/>
<title>%(title)s</title>
<style>%(style)s</style>
</head>
<body>
<nav>%(links)s</nav>
%(sheets)s
</body>
</html>
"""

COLUMNS = (("", "number"), ("stop", "who"), ("window", "time"), ("arrival", "time"), ("service", "time"),
           ("departure", "time"), ("hand over", "number"), ("left", "number"), ("done", "tick"))
# A sheet of more stops is printed in smaller letters, so that it goes on one page as far as it fits.
MANY = 15
BOX = '<span class="box"></span>'
# What stands on the sheets beside the plan: a title, a date, the vehicles by their order, and the language.
Extras = namedtuple("Extras", "title date vehicles language", defaults=("", "", None, ENGLISH))


class Sheets:
    """What the sheets of a plan are made of."""

    def __init__(self, instance, names, routes, depart, extras):
        self.instance, self.names, self.routes, self.units = as_there(instance, names), names, routes, units_of(names)
        self.depart, self.extras, self.words = depart, extras, WORDS[extras.language]
        self.apart = apart_of(instance, names)

    def say(self, word, *parts):
        return self.words[word].format(*parts)

    def name(self, i):
        """What a place is called."""
        name = self.say("customer", i) if i else self.say("depot")
        return name if self.names is None or self.names[i] == str(i) else self.names[i]

    def who(self, i):
        """Name, address and remarks of a place."""
        more = [] if self.names is None else [self.names.address(i)] + [
            "%s: %s" % pair for pair in self.names.remarks(i)]
        return "<b>%s</b>%s" % (escape(self.name(i)), "".join("<i>%s</i>" % escape(line) for line in more if line))

    def window(self, i):
        return self.say("from to", *map(self.units.moment, (self.instance.ready(i), self.instance.due(i))))

    def measure(self):
        return self.units.measure() if self.units.speed is not None else self.say("units")


def row(sheets, cells, kind=""):
    """A row of a table, whose cells know what they are; on a phone that stands before them."""
    found = "".join('<td class="%s"%s>%s</td>' % (
        kind_of, ' data-what="%s"' % escape(sheets.say(word)) if kind_of != "who" and word else "", cell)
        for (word, kind_of), cell in zip(COLUMNS, cells))
    return "<tr%s>%s</tr>" % (' class="%s"' % kind if kind else "", found)


def depot_row(sheets, what, moment, left):
    """A row of the depot, with what the vehicle does there and when."""
    told = '<span class="what">%s</span> %s' % (escape(sheets.say(what)), moment)
    return row(sheets, ["", sheets.who(0), "", told, "", "", "", sheets.units.load(left), ""], "depot")


def arrival(sheets, stop):
    """When a vehicle is there, and when it begins where it waits."""
    moment = sheets.units.moment
    return moment(stop.arrival) + ('<span class="late">%s</span>' % sheets.say("begins", moment(stop.begin))
                                   if stop.wait else "")


def stop_row(sheets, place, stop, whole):
    """A row of a stop: who, when, how long, what is handed over and what is left then, and a box to tick."""
    instance, units = sheets.instance, sheets.units
    demand = instance.demand(stop.stop)
    return row(sheets, [
        place, sheets.who(stop.stop), sheets.window(stop.stop), arrival(sheets, stop),
        units.span(stop.end - stop.begin), units.moment(stop.end),
        units.load(demand) if demand >= units.visits else sheets.say("visit"), units.load(whole - stop.load), BOX])


def heading(sheets, number):
    """What the vehicle is called, who drives it, and of what day the sheet is."""
    extras, told = sheets.extras, sheets.say("vehicle", number)
    vehicle = extras.vehicles[number - 1] if extras.vehicles else None
    if vehicle and vehicle.name:
        told += ": " + vehicle.name
    above = ", ".join(word for word in (extras.title, extras.date) if word)
    below = [sheets.say(word, part) for word, part in (
        ("driver", vehicle.driver), ("start", vehicle.start)) if part] if vehicle else []
    return "%s<h1>%s</h1>%s" % ('<p class="whole">%s</p>' % escape(above) if above else "", escape(told),
                                '<p class="whole">%s</p>' % escape(", ".join(below)) if below else "")


def loading(sheets, route):
    """What is loaded in which order: what is handed over last stands deepest."""
    units, demand = sheets.units, sheets.instance.demand
    found = ["<li>%s: %s</li>" % (escape(sheets.name(i)), units.load(demand(i)))
             for i in reversed(route) if demand(i) >= units.visits]
    return "<p>%s</p><ol class=\"loading\">%s</ol>" % (
        escape(sheets.say("loading")), "".join(found)) if len(found) > 1 else ""


def told_whole(sheets, route, sums):
    """The sums of a route in a sentence."""
    units, off = sheets.units, sheets.apart.off([route]) if sheets.apart else None
    within = "" if off is None else sheets.say("within", sheets.apart.cut(off, True), sheets.measure())
    count = sheets.say("one stop") if len(route) == 1 else sheets.say("stops", len(route))
    return sheets.say("whole", sheets.instance.name.decode(), count, units.load(sums.load),
                      units.distance(sums.distance), sheets.measure(), within, units.moment(sums.leaves),
                      units.moment(sums.back), *map(units.span, (sums.driving, sums.service, sums.waiting)))


def sheet(sheets, number, route):
    """The sheet of a vehicle."""
    instance, units = sheets.instance, sheets.units
    found = [as_shown(stop, units) for stop in stops(instance, route, sheets.depart)]
    sums = sums_shown(instance, route, units, sheets.depart)
    rows = [depot_row(sheets, "leaves", units.moment(sums.leaves), sums.load)]
    rows += [stop_row(sheets, place, stop, sums.load) for place, stop in enumerate(found[:-1], 1)]
    rows.append(depot_row(sheets, "back", units.moment(sums.back), 0))
    head = "".join('<th class="%s">%s</th>' % (kind, escape(sheets.say(word)) if word else "")
                   for word, kind in COLUMNS)
    return ('<section id="vehicle-%d"%s>%s<p class="whole">%s</p>'
            '<table><thead><tr>%s</tr></thead><tbody>%s</tbody></table>%s<p class="sign">%s</p></section>' % (
                number, ' class="many"' * (len(route) > MANY), heading(sheets, number),
                escape(told_whole(sheets, route, sums)), head, "".join(rows),
                loading(sheets, route), escape(sheets.say("sign"))))


def page(instance, names, routes, depart=LATE, extras=Extras()):
    """The page of all sheets, whose text is well-formed as XML too."""
    sheets = Sheets(instance, names, routes, depart, extras)
    links = " ".join('<a href="#vehicle-%d">%d</a>' % (number, number) for number in range(1, len(routes) + 1))
    return SHELL % {"title": escape(sheets.say("title", extras.title or instance.name.decode())),
                    "lang": extras.language, "style": STYLE, "links": links, "sheets": "\n".join(
                        sheet(sheets, number, route) for number, route in enumerate(routes, 1))}
