"""One run of `report`: the page, and where there is a browser what answers to the pointer on it."""
import os
import re
import shutil
from xml.etree import ElementTree

from cases.random_texts import certificate_of, solution_of, tree_of
from judges.judging_layouts import tool
from judges.judging_plans import NAMES, drawn, text_of
from judges.kind import Kind, program_by
from judges.running import demand, got, put, run, run_check, shown as as_text, solve
from reference import bounding, checking
from reference.instances import plan_cost
from reference.texts import read_certificate, read_solution, shown
from tools.names import clean, table_of

BROWSER = next((path for path in map(shutil.which, ("chromium", "chromium-browser", "google-chrome")) if path), None)
# What would bring something from elsewhere.
ELSEWHERE = re.compile(r"\b(?:src|href|srcset|action)\s*=|url\(|@import|\bfetch\b|XMLHttpRequest|import\(")
# Puts a pointer on a route of the map and off it, clicks it twice, and tells in the title how many parts are lit.
TRIAL = """<script>
var told = [], spot = document.querySelector('.map g.route[data-route="0"] circle');
function count(where) { return document.querySelectorAll(where).length; }
function fire(part, kind) { part.dispatchEvent(new MouseEvent(kind, {bubbles: true})); }
var places = ['.map g.lit', '.bars g.lit', 'tr.lit', 'tbody.lit', '.lit', 'body.one'];
function tell() { told.push(places.map(count).join(' ')); }
fire(spot, 'mouseover'); tell();
fire(document.body, 'mouseover'); tell();
fire(document.querySelector('.bars g.route[data-route="0"] rect'), 'click'); tell();
fire(document.body, 'mouseover'); tell();
document.dispatchEvent(new KeyboardEvent('keydown', {key: 'Escape'})); tell();
document.title = told.join(', ');
</script></body>"""
# On a telephone: tells in the title how many pixels the page and its tables are too wide, how many pictures are without
# a word that they go on, and how much of the map is seen after a click that zooms in, and after one that shows all.
NARROW = """<script>
function over(part) { return Math.max(0, part.scrollWidth - part.clientWidth); }
function all(where) { return Array.from(document.querySelectorAll(where)); }
function seen() { return document.querySelector('.map svg').viewBox.baseVal.width; }
var buttons = document.querySelectorAll('.zoom button'), whole = seen(), told = [
  over(document.documentElement), Math.max.apply(null, all('section table, .map').map(over).concat([0])),
  all('.bars').filter(function (part) {
    return over(part) > 0 ? getComputedStyle(part.nextElementSibling).display === 'none' : false; }).length];
buttons[0].click(); told.push(whole > seen());
buttons[2].click(); told.push(whole === seen());
document.title = told.join(' ');
</script></body>"""
TREE = '<section id="the-certificates-tree">'
LIT, UNLIT = "3 1 1 1 6 1", "0 0 0 0 0 0"


def words_of(element):
    return "".join(element.itertext())


def certified(random, instance, path):
    """Writes a certificate with the bound of its tree."""
    lines = certificate_of(random, instance, tree_of(random, instance))
    found = read_certificate(text_of(lines))
    least = bounding.least_by_routes if found.neighbours >= 8 else bounding.least_by_labels
    bound = checking.tree_bound(instance, found, least)
    put(path, text_of(lines[:4] + ["BOUND " + shown(bound)] + lines[5:]))


def judge_page(page, instance, routes, names, timetable):
    """The page is XML and needs nothing from elsewhere; it has each route in each place, and the whole timetable."""
    demand(not ELSEWHERE.search(page), "the page needs something from elsewhere")
    root = ElementTree.fromstring(page.encode())
    parts = {}
    for element in root.iter():
        if "route" in element.get("class", "").split():
            key = (element.tag.split("}")[1], int(element.get("data-route")))
            parts[key] = parts.get(key, 0) + 1
    right = {(tag, number): count for number in range(len(routes))
             for tag, count in (("g", 4), ("tr", 1), ("tbody", 1))}
    demand(parts == right, "routes: %r" % parts)
    table = next(element for element in root.iter() if element.get("class") == "times")
    found = [[words_of(cell) for cell in row] for row in table.iter() if row.tag.endswith("}tr")]
    right = [[row[1] if row[1] != "0" else "", clean(names[int(row[1])]) if names else "" if row[1] != "0" else "depot",
              *row[2:8]] for row in timetable]
    demand([row for row in found[1:] if len(row) > 1] == [
        [cell if place != 1 or cell != row[0] else "" for place, cell in enumerate(row)] for row in right],
        "timetable: %r, and %r is right" % (found, right))


def judge_pointer(folder, page):
    """What answers to the pointer in a browser, and how the page fits a telephone."""
    told = titled(folder, page.replace("</body>", TRIAL))
    right = ", ".join([LIT, UNLIT, LIT, LIT, UNLIT])
    demand(told == right, "the browser: %r, and %r is right" % (told, right))
    told = titled(folder, page.replace("</body>", NARROW), "--window-size=390,800")
    demand(told == "0 0 0 true true", "on a telephone: %r" % told)


def titled(folder, page, *options):
    """The title of a page once a browser has read it."""
    path = os.path.join(folder, "trial.html")
    put(path, page.encode())
    out, _, status = run([BROWSER, "--headless", "--no-sandbox", "--disable-gpu", "--user-data-dir=%s/profile" % folder,
                          *options, "--dump-dom", "file://" + path])
    shutil.rmtree(os.path.join(folder, "profile"), ignore_errors=True)
    title = re.search("<title>(.*?)</title>", as_text(out))
    demand(status == 0 and title, "the browser: status %d" % status)
    return title[1]


def texts_of(program, folder, random, instance, text, routes):
    """Puts a plan and a certificate into the folder, the program's or drawn ones; answers the routes, None where the
    plan is empty."""
    plan, certificate = (os.path.join(folder, name) for name in ("solution", "certificate"))
    if random.randrange(2):
        solve(program, folder, text, ["--turns", "2", "--searchers", "1", "--bounders", "1"])
        return read_solution(got(plan))[0] if got(plan) else None
    certified(random, instance, certificate)
    is_empty = random.randrange(5) == 0
    put(plan, b"" if is_empty else text_of(solution_of(routes, plan_cost(instance, routes))))
    return None if is_empty else routes


def judge_report(program, folder, random):
    """A page of a random plan, with a certificate or none, with names or none: what it says is what the check says."""
    instance, text, path, routes = drawn(folder, random, 6)
    plan, certificate, table, target = (os.path.join(folder, name) for name in (
        "solution", "certificate", "names", "page.html"))
    routes, has_certificate = texts_of(program, folder, random, instance, text, routes), random.randrange(3) > 0
    is_empty = routes is None
    names = [random.choice(NAMES) or (str(i) if i else "depot") for i in range(instance.count + 1)]
    names = names if random.randrange(2) else None
    put(table, table_of(names or []).encode())
    has_tree = has_certificate and random.randrange(2) == 0
    words = [path, plan, *([certificate] if has_certificate else []), "-o", target,
             *(["--names", table] if names else []), *(["--tree"] if has_tree else [])]
    out, errors, status = tool("report", *words)
    if is_empty and not has_certificate or not is_empty and checking.plan_defect(instance, routes):
        demand((out, status, got(target)) == (b"", 1, None) and errors.count("\n") == 1, "no plan: %r" % errors)
        return "refused"
    demand((out, errors, status) == (b"", "", 0), "report: status %d, %r" % (status, errors))
    page = got(target).decode()
    line, _, _ = run_check(program, folder, text, got(certificate), None if is_empty else got(plan))
    kind = line.split()[0]
    told = {"BEST": "No plan is cheaper than this one, and anybody can check", "GAP": "No plan costs less than ",
            "NO": "There is no plan that serves all", "BOUND": "No plan was found. Every plan costs at least "}
    demand(not has_certificate or "\n" + line in page and told[kind] in page, "%s isn't told" % line)
    demand(all(words not in page for other, words in told.items() if other != kind or not has_certificate), "too much")
    if is_empty:
        return "without a plan"
    stops = tool("timetable", path, plan, "--csv")[0].decode().split("\n\n")[0].splitlines()[1:]
    demand((TREE in page) == has_tree, "the tree, asked for: %s" % has_tree)
    judge_page(page, instance, routes, names, [row.split(",") for row in stops])
    if BROWSER:
        judge_pointer(folder, page)
    return "%s%s" % (kind if has_certificate else "no certificate", ", in a browser" if BROWSER else "")


KINDS = {
    "reports": Kind("the page of report: complete, by itself, and by chromium what answers the pointer", 6,
                    program_by(judge_report)),
}
