"""Plans as OR-Tools, VROOM, LKH and others print them, by numbers or by names, whole and with one thing wrong in a
known line."""
import json

from cases.tool_texts import Line

NAMES = ["Café %d", "School %d", "No. %d", "%d b", "O'Neill %d", 'the "%d"', "Łódź-%d"]


class Stops(Line):
    """A line of stops, whose text is made of their words."""

    def __init__(self, words, form, spell):
        super().__init__("route", "")
        self.stops, self.form, self.spell = list(words), form, spell
        self.again()

    def again(self):
        """Makes the text anew."""
        self.text = self.form([self.spell(word) for word in self.stops])


class Plan:
    """What is told: routes by our numbers, the word of each place, a cost, and by which spelling."""

    def __init__(self, random, routes, words, cost, kind):
        self.random, self.routes, self.words, self.cost, self.kind = random, routes, words, cost, kind
        self.count = len(words) - 1

    def word(self, i):
        """What stands for a customer; LKH counts places from 1, the depot's."""
        return str(i + 1) if self.kind in (lkh, tour) else self.words[i]

    def closed(self, route):
        """The words of a route from the depot and back."""
        return [self.words[i] for i in [0] + route + [0]]

    def told(self, form):
        return [] if self.cost is None else [Line("cost", form % self.cost)]


def arrows(plan):
    """`Route 1: 0 -> 1 -> 0`, with or without what stands before the colon."""
    form = plan.random.choice(["Route %d: %s", "Route #%d : %s", "vehicle %d: %s", "Tour %d: %s", "%s"])
    between = plan.random.choice([" -> ", "->", " \u2192 "])

    def formed(number):
        return lambda words: form % (number, between.join(words)) if "%d" in form else between.join(words)
    lines = [Stops(plan.closed(route), formed(number), str) for number, route in enumerate(plan.routes, 1)]
    return lines + plan.told("Cost: %s")


def or_tools(plan):
    """What the examples of OR-Tools print."""
    behind = plan.random.choice(["", " Load(%d)", " Time(%d,9)", " Load(%d) Time(0, 4)"])
    foot = plan.random.choice([["Load of the route: 15"], ["Distance of the route: 1552m", "Load of the route: 15"],
                               ["Time of the route: 18min"], []])

    def formed(words):
        return " " + " ->  ".join(word + (behind % place if behind else "") for place, word in enumerate(words))
    lines = plan.told("Objective: %s") if plan.random.randrange(2) else plan.told("Objective: %s miles")
    for number, route in enumerate(plan.routes):
        lines += [Line("around", "Route for vehicle %d:" % number), Stops(plan.closed(route), formed, str)]
        lines += [Line("around", told) for told in foot]
    return lines + [Line("around", plan.random.choice(["Total distance of all routes: 6208m",
                                                       "Total time of all routes: 71min"]))]


def bare(plan):
    """A route a line, of numbers alone."""
    between, ends = plan.random.choice([" ", ", ", ","]), plan.random.randrange(2)

    def words(route):
        return plan.closed(route)[0 if ends else 1:None if ends else -1]
    return [Stops(words(route), between.join, str) for route in plan.routes] + plan.told("Cost %s")


def spelled_in(random):
    """How a list has a word: a number as it is, a name in quotes of Python or JSON."""
    quote = random.choice([repr, json.dumps, lambda word: json.dumps(word, ensure_ascii=False)])
    return lambda word: word if word.lstrip("-").replace(".", "").isalnum() and word.isascii() else quote(word)


def python(plan):
    """A list of lists or of tuples."""
    opening, closing = plan.random.choice(["()", "[]"])
    spell = spelled_in(plan.random)
    lines = [Line("open", plan.random.choice("[("))]
    lines += [Stops(plan.closed(route)[1:-1], lambda words: "%s%s%s," % (opening, ", ".join(words), closing), spell)
              for route in plan.routes]
    return plan.told("Cost: %s") + lines + [Line("close", "]" if lines[0].text == "[" else ")")]


def objects(plan):
    """An object with routes as lists, or as objects, or with a route under each number."""
    kind = plan.random.randrange(3)
    spell, number = spelled_in(plan.random), iter(range(len(plan.routes)))
    form = {0: "[%s],", 1: '{"load": 5, "stops": [%s]},'}.get(kind)

    def formed(place):
        head = '"%d": [%%s],' % place if kind == 2 else form
        return lambda words: head.replace("%s", ", ".join(words))
    lines = [Stops(plan.closed(route)[1:-1], formed(next(number)), spell) for route in plan.routes]
    if kind == 2:
        return plan.told("Cost: %s") + [Line("open", "{"), *lines, Line("close", "}")]
    return [Line("open", "{"), *plan.told('"cost": %s,'), Line("open", '"routes": ['), *lines, Line("close", "]}")]


def vroom(plan):
    """What VROOM answers."""
    lines = [Line("open", '{"code":0,"summary":{'), *plan.told('"cost":%s,'),
             Line("open", '"unassigned":0},"unassigned":[],"routes":[')]
    for number, route in enumerate(plan.routes):
        lines.append(Line("open", '{"vehicle":%d,"cost":7,"steps":[{"type":"start","load":[5],"arrival":0},' % number))
        lines += [Stops([plan.words[i]], lambda words: '{"type":"job","id":%s,"service":0},' % words[0],
                        spelled_in(plan.random)) for i in route]
        lines += [Line("around", '{"type":"break","id":1,"service":9},')] * plan.random.randrange(2)
        lines.append(Line("close", '{"type":"end"}]}' + ("," if number < len(plan.routes) - 1 else "")))
    return lines + [Line("close", "]}")]


def lkh(plan):
    """LKH's solution: places are counted from 1, the depot's."""
    lines = [Line("cost", "X, Cost: 0_%s" % plan.cost)] if plan.cost is not None else []
    lines.append(Line("head", "The tours traveled by the %d salesmen are:" % len(plan.routes)))
    for route in plan.routes:
        form = plan.random.choice(["%%s (#%d)  Cost: 7", "%%s (%d)", "%%s (%d)  Cost: 0_9"]) % (len(route) + 1)
        lines.append(Stops([str(i + 1) for i in [0] + route + [0]],
                           lambda words, form=form: form % " ".join(words), str))
    return lines


def tour(plan):
    """LKH's tour through all places: the depot and its copies behind the last customer part the routes."""
    places = []
    for number, route in enumerate(plan.routes):
        places += [str(plan.count + 1 + number) if number else "1"] + [str(i + 1) for i in route]
    begin = plan.random.randrange(len(places))
    places = places[begin:] + places[:begin]
    lines = [Line("key", "NAME : x.tour"), Line("key", "TYPE : TOUR"),
             Line("key", "DIMENSION : %d" % (plan.count + len(plan.routes)))]
    if plan.cost is not None:
        lines.insert(1, Line("cost", "COMMENT : Length = %s" % plan.cost))
    lines += [Line("key", "TOUR_SECTION")] + [Stops([place], "".join, str) for place in places]
    rotate(plan, int(places[0]))
    return lines + plan.random.choice([[Line("end", "-1"), Line("end", "EOF")], [Line("end", "-1")], []])


def rotate(plan, first):
    """Puts the routes in the order in which a tour that begins at another place comes to them."""
    if 2 <= first <= plan.count + 1:
        at = next(number for number, route in enumerate(plan.routes) if first - 1 in route)
    else:
        at = 0 if first == 1 else first - plan.count - 1
    plan.routes = plan.routes[at:] + plan.routes[:at]


# The spellings that have names in them, and the others.
NAMED = (arrows, or_tools, python, objects)
NUMBERED = (bare, vroom, lkh, tour)
# Those with a line for each stop.
SINGLE = (vroom, tour)


def wrong_stop(random, lines, plan):
    line = random.choice([line for line in lines if line.role == "route"])
    line.stops[random.randrange(len(line.stops))] = random.choice(["x", "1.5", "99999", "a b"])
    line.again()
    return line


def twice(random, lines, plan):
    """The first customer again, in the last line of stops or in a line behind it."""
    last, word = [line for line in lines if line.role == "route"][-1], plan.word(plan.routes[0][0])
    if plan.kind in SINGLE:
        lines.insert(lines.index(last) + 1, Stops([word], last.form, last.spell))
        return lines[lines.index(last) + 1]
    last.stops.insert(1, word)
    last.again()
    return last


def missing(random, lines, plan):
    """The last customer in no route: told at the end."""
    word = plan.word(plan.count)
    line = next(line for line in lines if line.role == "route" and word in line.stops)
    line.stops.remove(word)
    if plan.kind in SINGLE:
        lines.remove(line)
    else:
        line.again()


def stray(random, lines, plan):
    lines.append(Line("stray", random.choice(["hello", "Routes 5 5", "Route 1 2 3", "]", "Route #x: 1"])))
    return lines[-1]


def second_cost(random, lines, plan):
    if plan.kind is tour and lines[-1].role != "end":
        lines.append(Line("end", "-1"))
    if plan.cost is None:
        lines.append(Line("cost", "Cost 5"))
    lines.append(Line("cost", "Objective: 5"))
    return lines[-1]


CHANGES = [wrong_stop, wrong_stop, twice, missing, stray, second_cost]
