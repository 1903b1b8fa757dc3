"""One run of `sheets` on vehicles with as many stops as a van makes in a day, printed by chromium: a page for each."""
import os
import re

from judges.judging_layouts import text_of, tool
from judges.judging_reports import BROWSER
from judges.judging_tables import plan_text
from judges.kind import Kind, tools_by
from judges.running import demand, got, put, run
from reference.instances import Instance, read
from tools.names import table_of
from tools.units import Units

# A page in a PDF, which isn't the list of all.
PAGE = re.compile(rb"/Type\s*/Page\b")
STREETS = ("Lange Straße %d, 12345 Berlin", "%d rue de la République, 69002 Lyon", "Mill Lane %d")
NOTES = ("", "", "ring twice", "030 1234567", "Hintereingang, Tor 3")


def drawn(random):
    """An instance whose vehicles serve up to 22 stops, the routes, and names with addresses and remarks."""
    sizes = [random.choice([random.randint(1, 22), random.randint(12, 16), 22]) for _ in range(random.randint(1, 4))]
    count, at, routes = sum(sizes), 1, []
    for size in sizes:
        routes.append(list(range(at, at + size)))
        at += size
    rows = [(random.randint(0, 60), random.randint(0, 60), random.randint(1, 9) if i else 0, 0, 100_000, 50 if i else 0)
            for i in range(count + 1)]
    names = ["Customer %d, North" % i if i else "Depot" for i in range(count + 1)]
    further = [[random.choice(STREETS) % i if i else "", random.choice(NOTES) if i else ""] for i in range(count + 1)]
    return Instance(b"Monday", len(sizes), 300, rows), routes, table_of(
        names, ["address", "note"], further, Units(scale=10, clock=1))


def judge_printed(folder, random):
    """The sheets of a drawn plan, as a browser prints them."""
    if not BROWSER:
        return "no browser"
    instance, routes, names = drawn(random)
    path, plan, table, page, printed = (os.path.join(folder, name) for name in (
        "i.txt", "p.txt", "n.csv", "page.html", "page.pdf"))
    put(path, text_of(instance))
    put(plan, plan_text(read(got(path)), routes))
    put(table, names.encode())
    language = random.choice(["en", "de", "fr"])
    _, errors, status = tool("sheets", path, plan, "--names", table, "-o", page, "--lang", language)
    demand((errors, status) == ("", 0), "sheets: status %d, %r" % (status, errors))
    run([BROWSER, "--headless", "--no-sandbox", "--disable-gpu", "--user-data-dir=%s/profile" % folder,
         "--print-to-pdf=" + printed, "file://" + page])
    pages = len(PAGE.findall(got(printed) or b""))
    demand(pages == len(routes), "%d pages for vehicles of %s stops" % (pages, [len(route) for route in routes]))
    return "%d pages" % pages


KINDS = {
    "printed": Kind("the drivers' sheets, printed by chromium: a page for each vehicle of up to 22 stops", 6,
                    tools_by(judge_printed)),
}
