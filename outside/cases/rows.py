"""Rows of the program's check that were computed by hand: texts, and the line and the status that are right."""

DEPOT = "0 0 0 0 0 1000 0\n"


def instance_text(fleet, capacity, depot, customers):
    """An instance named T in the usual layout."""
    return ("T\nVEHICLE\nNUMBER CAPACITY\n%d %d\nCUSTOMER\nCUST NO. XCOORD. YCOORD. DEMAND READY TIME DUE DATE SERVICE "
            "TIME\n%s%s" % (fleet, capacity, depot, customers))


LINE = "1 3 4 1 0 1000 0\n2 6 8 1 0 1000 0\n"
THREE = "1 100 1 1 0 1000 0\n2 100 2 1 0 1000 0\n3 100 0 1 0 1000 0\n"
IN_LINE = "1 1 0 1 0 1000 0\n2 2 0 1 0 1000 0\n3 3 0 1 0 1000 0\n"
MANY = "".join("%d 3 4 1 0 1000 0\n" % number for number in range(1, 401))

INSTANCES = {
    "one": instance_text(1, 1, DEPOT, "1 3 4 1 0 1000 0\n"),
    "due 4": instance_text(1, 1, DEPOT, "1 3 4 1 0 4 0\n"),
    "due 5": instance_text(1, 1, DEPOT, "1 3 4 1 0 5 0\n"),
    "few": instance_text(1, 1, DEPOT, LINE),
    "apart": instance_text(2, 1, DEPOT, LINE),
    "together": instance_text(2, 2, DEPOT, LINE),
    "still": instance_text(2, 2, DEPOT, "1 0 0 1 0 1000 0\n2 0 0 1 0 1000 0\n"),
    "room": instance_text(1, 3, DEPOT, IN_LINE),
    "wide": instance_text(1, 4, DEPOT, IN_LINE),
    "near": instance_text(1, 3, DEPOT, "1 30 40 1 0 1000 0\n2 33 44 1 0 1000 0\n"),
    "alike": instance_text(1, 3, DEPOT, "1 110 1 1 0 1000 0\n2 110 0 1 0 1000 0\n3 100 0 1 0 1000 0\n"),
    "three": instance_text(2, 2, "0 0 1 0 0 1000 0\n", THREE),
    "many": instance_text(400, 1, DEPOT, MANY),
}

# alike: as in set_rows.py, with 100,000 more for customer 2 in the place of the set's price.
#
# The instance, the certificate's version, customers, neighbours, bound and tree, the solution (none where it is empty)
# and the line that is printed. A semicolon is a line feed.
TABLE = """
one|1|1|8|10.0|P 100000;|Route #1: 1;Cost 10.0;|BEST 10.0
one|1|1|8|0.0|P 0;|Route #1: 1;Cost 10.0;|GAP 10.0 0.0
one|1|1|8|10.0|P 99001;||BOUND 10.0
one|1|1|8|9.9|P 99000;|Route #1: 1;Cost 10.0;|GAP 10.0 9.9
one|1|1|8|10.0|S 0 1;P 100000;P 101000;||BOUND 10.0
one|1|1|8|10.1|P 100000;||vrptw: check: BoundDiffers 10.1 10.0
one|1|1|8|9.9|P 100000;||vrptw: check: BoundDiffers 9.9 10.0
one|1|1|8|10.0|P 0;||vrptw: check: BoundDiffers 10.0 0.0
one|2|1|8|10.0|P 0;|Route #1: 1;Cost 10.0;|BEST 10.0
one|1|2|8|10.0|P 100000 0;||vrptw: check: OtherSize
one|1|1|16|10.0|P 100000;||vrptw: certificate: BadLine line 4
one|1|1|8|10|P 100000;||vrptw: certificate: BadLine line 5
one|1|1|8|10.0|P 007;||vrptw: certificate: BadLine line 7
one|1|1|8|10.0|P 1000000000001;||vrptw: certificate: PriceRange line 7
one|1|1|8|10.0|S 0 2;||vrptw: certificate: BadArc line 7
one|1|1|8|10.0|S 0 1;S 0 1;||vrptw: certificate: ArcDecided line 8
one|1|1|8|10.0|S 0 1;P 0;||vrptw: certificate: BadLine line 9
due 4|1|1|8|10.1|P 101000;||NO PLAN
due 4|1|1|8|0.0|P 0;||BOUND 0.0
due 5|1|1|8|10.0|P 100000;|Route #1: 1;Cost 10.0;|BEST 10.0
few|1|2|8|40.1|P 401000 401000;||NO PLAN
apart|1|2|8|19.9|S 0 1;P 100000 301000;P 401000 0;||BOUND 19.9
apart|1|2|8|40.1|S 0 1;P 100000 301000;P 401000 0;||vrptw: check: BoundDiffers 40.1 19.9
apart|1|2|8|30.0|S 0 1;P 100000 200000;P 401000 0;|Route #1: 2;Route #2: 1;Cost 30.0;|BEST 30.0
alike|2|3|1|130.0|P 0 1100000 100000;|Route #1: 3 2 1;Cost 221.0;|GAP 221.0 130.0
three|1|3|8|302.0|P 1000000 1010000 1010000;||BOUND 302.0
three|1|3|8|401.0|S 1 2;P 0 2010000 2000000;S 2 1;P 0 2010000 2000000;P 1990000 2000000 20000;|Route #1: 2 1;Route #2: 3;Cost 401.0;|BEST 401.0
three|2|3|8|401.0|P 10000 20000 20000;||BOUND 401.0
three|1|3|8|401.0|P 10000 20000 20000;||vrptw: check: BoundDiffers 401.0 5.0
near|1|2|0|10.0|P 0 1100000;||BOUND 10.0
near|1|2|1|110.0|P 0 1100000;|Route #1: 1 2;Cost 110.0;|BEST 110.0
together|1|2|8|20.0|P 100000 100000;|Route #1: 1 2;Cost 20.0;|BEST 20.0
together|1|2|8|20.0|P 100000 100000;|Route #1: 1 1 2;Cost 20.0;|vrptw: plan: Twice
together|1|2|8|20.0|P 100000 100000;|Route #1: 1;Cost 10.0;|vrptw: plan: Missing
together|1|2|8|20.0|P 100000 100000;|Route #1: 3;Cost 10.0;|vrptw: plan: UnknownCustomer
together|1|2|8|20.0|P 100000 100000;|Route #1:;Cost 20.0;|vrptw: solution: BadLine line 1
together|1|2|8|20.0|P 100000 100000;|Route #2: 1 2;Cost 20.0;|vrptw: solution: BadLine line 1
together|1|2|8|20.0|P 100000 100000;|Route #1: 1 2;Cost 20.0|vrptw: solution: Truncated
together|1|2|8|20.0|P 100000 100000;|Route #1: 1 2;Cost 20.1;|vrptw: check: CostDiffers 20.1 20.0
"""


def certificate_text(version, customers, neighbours, bound, tree):
    return ("VRPTW-CERT %s\nINSTANCE T\nCUSTOMERS %s\nNEIGHBOURS %s\nBOUND %s\nTREE\n%sEND\n"
            % (version, customers, neighbours, bound, tree))


def texts_of(line):
    """A name, the three texts, further words and the line of a row of the table."""
    name, version, customers, neighbours, bound, tree, solution, said = line.split("|")
    certificate = certificate_text(version, customers, neighbours, bound, tree.replace(";", "\n"))
    return line, INSTANCES[name], certificate, solution.replace(";", "\n"), [], said


def four_hundred(version, customers, said):
    """A route for each of 400 customers, and prices at the cost of each."""
    solution = "".join("Route #%d: %d\n" % (number, number) for number in range(1, 401)) + "Cost 4000.0\n"
    certificate = certificate_text(version, customers, 8, "4000.0", "P" + customers * " 100000" + "\n")
    return "%d customers, version %d" % (customers, version), INSTANCES["many"], certificate, solution, [], said


def pairs(name, customers, bound, price, states, said):
    """Customers in one vehicle, with this price for each."""
    certificate = certificate_text(1, customers, 8, bound, "P" + customers * (" %d" % price) + "\n")
    return "%d pairs, %s" % (states, name), INSTANCES[name], certificate, "", ["--states", str(states)], said


# On the line of two each route has a reduced cost of 0 or more, which doesn't lower the bound, and the floors say so of
# each customer's first pair: none is kept. At the depot the first route leaves the bound at 0.0. On the line of three
# so few pairs stand that there are no floors over load, with room for three and for four alike. Twelve do: after 1, 2
# and 3, after each two of them and after all, by the last one.
PAIRS = [pairs("together", 2, "20.0", 100000, 4, "BOUND 20.0"), pairs("together", 2, "20.0", 100000, 1, "BOUND 20.0"),
         pairs("still", 2, "0.0", 0, 1, "BOUND 0.0"), pairs("room", 3, "6.0", 100000, 12, "BOUND 6.0"),
         pairs("room", 3, "6.0", 100000, 11, "vrptw: limit: StateLimit"),
         pairs("wide", 3, "6.0", 100000, 12, "BOUND 6.0"), pairs("wide", 3, "6.0", 100000, 11, "vrptw: limit: StateLimit")]

ROWS = ([texts_of(line) for line in TABLE.strip().split("\n")]
        + PAIRS
        + [four_hundred(1, 400, "BEST 4000.0"), four_hundred(2, 400, "BEST 4000.0"),
           four_hundred(1, 401, "vrptw: certificate: BadLine line 3")])


def status_of(said):
    """The status that goes with a line."""
    if said.startswith("vrptw"):
        return 7 if said.startswith("vrptw: limit") else 5
    return 0 if said.startswith(("BEST", "NO PLAN")) else 1
