"""Certificates with sets that were worked out by hand: what recheck says of them, and what the reader does. And some
that outside/set_prices found, which stand beside."""
import os

from cases.rows import DEPOT, INSTANCES, instance_text

# apart: customers at 50 and 100 tenths, one in a vehicle, so both need two, and alone they cost 100 and 200. Prices of
# 0 and 100,000, and of 100,000 for both as a set, leave 100,000 - 100,000 and 200,000 - 100,000 - 100,000: 0 at the
# least. The value is 100,000 and twice 100,000, or once where the need that is told is 1.
#
# three: three demands of 1 in vehicles of 2 need two. By docs/formats.md each route costs at least 1,980,000 more than
# its customers' prices of 10,000, 20,000 and 20,000, and it enters the set of all once. With 1,980,000 for that at
# least 0 is left, and the value is 50,000 and twice 1,980,000.
#
# slow: three customers 50 tenths from the depot, each due at 200, with a service of 100. In any order service begins at
# 50, 150 and 250, so two are served by one vehicle, which holds all three, and three aren't. Each route costs 100, and
# with 100,000 for the set has 0. With 60,000 it has 40,000: twice 60,000 and one route's 40,000 are 160,000. With
# 150,000 it has -50,000: twice 150,000 less 50,000 for each of three vehicles are 150,000. By prices of customers, one
# route and a half is all: 50,000 for each of three.
#
# eleven: slow with as many. Ten of them need two vehicles, by time, and of more time tells nothing. Without prices the
# value is the 100 of one route, which all demands need.
#
# shut: two customers 50 tenths from the depot, each with a service of 100. Alone they are back at 200, and both at 300,
# when the depot has closed at 250. wait: service begins at 300 at the earliest, takes 200, and is due at 400. In both
# one route serves one, at 100, and with 100,000 for both as a set 0 is left.
#
# over: customers 2 and 3 stand at the depot, where service begins at 200, and 4 at (2,12), where it does at 320. The
# arc there is the root of 14,800, which is 121 (121 * 121 is 14,641, and 122 * 122 is 14,884): 321 is late. Over
# customer 1 at (1,6) it takes the root of 3,700 twice, which is 60 (3,600, and 61 * 61 is 3,721): 320 is in time. So
# 2, 3 and 4 need one vehicle, though by arcs no order of them is in time. The route 2 3 1 4 costs 60 + 60 + 121.
#
# room: customers at 10, 20 and 30 tenths on a line, one vehicle for all. With 20,000 for customer 2 and 30,000 for 1
# and 3 as a set, the route 1 2 3 enters it twice, and has 60,000 - 20,000 - 60,000 = -20,000. 1 has 20,000 - 30,000,
# 1 2 has 40,000 - 50,000, and no other less: the value is 50,000 - 20,000. With 30,000 for 1 and 2 as a set alone, the
# route 1 enters it once and has -10,000, 1 2 enters it once and has 40,000 - 30,000, 1 3 2 enters it twice and has
# 60,000 - 60,000: the value is 30,000 - 10,000.
#
# alike: the depot and three customers at 1,100, 1,100 and 1,000 tenths from it, one vehicle for all. 3 is 100 from 2,
# and from 1 the root of 10,100, which is 100, too (101 * 101 is 10,201). So the one neighbour of 3 is 1, by its number;
# by exact distances it were 2. 1 and 2 are 10 apart, each the neighbour of the other. So 2 3 2 is relaxed: it costs
# 2,400, has the price 1,000,000 twice and 100,000 for 3, and enters the set of 1 and 2 twice, at 100,000 each time:
# 2,400,000 - 2,000,000 - 100,000 - 200,000 = 100,000. No other has less: 3 2 3 has 2,200,000 - 1,000,000 - 200,000 -
# 100,000 = 900,000, and 1 3 1 isn't relaxed. The value is 1,100,000, 100,000 for the one entry needed, and 100,000 for
# the one route that all demands need: 1,300,000. By version 1's rule it were 1,200,000, without the last; by exact
# distances 2,100,000, with 3 2 3 in the place of 2 3 2. 3 2 1 costs 1,000 + 100 + 10 + 1,100.
BY_HAND = {
    "alike": INSTANCES["alike"],
    "apart": INSTANCES["apart"],
    "three": INSTANCES["three"],
    "slow": instance_text(3, 3, DEPOT, "".join("%d 3 4 1 0 20 10\n" % number for number in (1, 2, 3))),
    "eleven": instance_text(11, 11, DEPOT, "".join("%d 3 4 1 0 20 10\n" % number for number in range(1, 12))),
    "shut": instance_text(2, 2, "0 0 0 0 0 25 0\n", "1 3 4 1 0 25 10\n2 3 4 1 0 25 10\n"),
    "wait": instance_text(2, 2, DEPOT, "1 3 4 1 30 40 20\n2 3 4 1 30 40 20\n"),
    "over": instance_text(1, 4, DEPOT, "1 1 6 1 0 1000 0\n2 0 0 1 20 20 0\n3 0 0 1 20 20 0\n4 2 12 1 32 32 0\n"),
    "room": INSTANCES["room"],
}
# The instance, the bound, the sets and the tree, the solution (none where it is empty), and the line that is printed,
# or that of the certificate which is refused and what is said of it. A semicolon is a line feed.
TABLE = """
alike|130.0|S 1 1 2;TREE;P 0 1000000 100000;M 1 100000;|Route #1: 3 2 1;Cost 221.0;|GAP 221.0 130.0
apart|30.0|S 2 1 2;TREE;P 0 100000;M 1 100000;|Route #1: 1;Route #2: 2;Cost 30.0;|BEST 30.0
apart|30.0|S 2 1 2;TREE;P 100000 200000;M;||BOUND 30.0
apart|20.0|S 1 1 2;TREE;P 0 100000;M 1 100000;|Route #1: 1;Route #2: 2;Cost 30.0;|GAP 30.0 20.0
apart|30.0|S 1 1 2;TREE;P 0 100000;M 1 100000;||line 5: met a bound of 30.0, wanted that of the tree, 20.0
apart|30.1|S 2 1 2;TREE;P 0 100000;M 1 100000;||line 5: met a bound of 30.1, wanted that of the tree, 30.0
apart|40.0|S 3 1 2;TREE;P 0 100000;M 1 100000;||line 6: met a need of 3 (NeedTooGreat), wanted at most 2
apart|30.0|S 2 1 2;S 4000000 1 2;TREE;P 0 0;M;||line 7: met a need of 4000000 (NeedTooGreat), wanted at most 2
three|401.0|S 2 1 2 3;TREE;P 10000 20000 20000;M 1 1980000;|Route #1: 2 1;Route #2: 3;Cost 401.0;|BEST 401.0
three|401.0|S 3 1 2 3;TREE;P 10000 20000 20000;M 1 1980000;||line 6: met a need of 3 (NeedTooGreat), wanted at most 2
slow|20.0|S 2 1 2 3;TREE;P 0 0 0;M 1 100000;|Route #1: 3 1;Route #2: 2;Cost 20.0;|BEST 20.0
slow|16.0|S 2 1 2 3;TREE;P 0 0 0;M 1 60000;||BOUND 16.0
slow|15.0|S 2 1 2 3;TREE;P 0 0 0;M 1 150000;||BOUND 15.0
slow|15.0|S 2 1 2 3;TREE;P 50000 50000 50000;M;||BOUND 15.0
slow|15.0|S 1 1 3;S 2 2 3;TREE;P 50000 50000 50000;M;||line 7: met a need of 2 (NeedTooGreat), wanted at most 1
slow|20.0|S 3 1 2 3;TREE;P 0 0 0;M 1 100000;||line 6: met a need of 3 (NeedTooGreat), wanted at most 2
eleven|10.0|S 2 1 2 3 4 5 6 7 8 9 10;TREE;P 0 0 0 0 0 0 0 0 0 0 0;M;||BOUND 10.0
eleven|10.0|S 2 1 2 3 4 5 6 7 8 9 10 11;TREE;P 0 0 0 0 0 0 0 0 0 0 0;M;||line 6: met a need of 2 (NeedTooGreat), \
wanted at most 1
shut|20.0|S 2 1 2;TREE;P 0 0;M 1 100000;|Route #1: 2;Route #2: 1;Cost 20.0;|BEST 20.0
wait|20.0|S 2 1 2;TREE;P 0 0;M 1 100000;|Route #1: 1;Route #2: 2;Cost 20.0;|BEST 20.0
over|0.0|S 1 2 3 4;TREE;P 0 0 0 0;M;|Route #1: 2 3 1 4;Cost 24.1;|GAP 24.1 0.0
over|0.0|S 2 2 3 4;TREE;P 0 0 0 0;M;||line 6: met a need of 2 (NeedTooGreat), wanted at most 1
room|3.0|S 1 1 3;TREE;P 0 20000 0;M 1 30000;|Route #1: 1 2 3;Cost 6.0;|GAP 6.0 3.0
room|2.0|S 1 1 2;TREE;P 0 0 0;M 1 30000;||BOUND 2.0
room|2.0|S 1 1 2;P 0 0 0;||line 7: met "P 0 0 0" (BadLine), wanted a certificate with sets of \
docs/formats.md
"""

HEAD = "VRPTW-SETS 1;INSTANCE T;CUSTOMERS 3;NEIGHBOURS 8;BOUND 0.0;"
# Behind the lines of HEAD, and what the reader says; nothing is said of a text that is written again. A tilde is a
# carriage return.
SPELLED = """
TREE;P 0 0 0;M;END;|
S 1 1 2;S 4000000 1 2 3;TREE;P 0 0 0;M 1 1 2 999999999999;END;|
S 1 1 2;S 1 1 2;TREE;P 0 0 0;M 2 7;END;|
S 1 1 2;TREE;S 0 1;P 0 0 0;M 1 5;S 1 0;P -1 0 0;M;P 0 0 0;M 1 7;END;|
S 1 1 2|Truncated
S 1 1 2;|Truncated
S 1 1;TREE;P 0 0 0;M;END;|BadLine line 6
S;TREE;P 0 0 0;M;END;|BadLine line 6
S 1 1 02;|BadLine line 6
S 1 -1 2;|BadLine line 6
S 1 1  2;|BadLine line 6
S 1 1 2 ;|BadLine line 6
S 1 1 2~;|BadLine line 6
P 0 0 0;|BadLine line 6
TREE ;|BadLine line 6
END;|BadLine line 6
S 0 1 2;|NeedRange line 6
S 4000001 1 2;|NeedRange line 6
S 99999999999999999999999999 1 2;|NeedRange line 6
S 0 2 1;|NeedRange line 6
S 1 2 1;|BadSet line 6
S 1 1 1;|BadSet line 6
S 1 0 1;|BadSet line 6
S 1 1 4;|BadSet line 6
S 1 1 99999999999999999999999999;|BadSet line 6
S 1 1 2;S 1 1 3 2;|BadSet line 7
TREE;P 0 0 0;END;|BadLine line 8
TREE;P 0 0 0;P 0 0 0;|BadLine line 8
TREE;P 0 0 0;M 1 5;|BadSet line 8
TREE;P 0 0;M;|BadLine line 7
TREE;P 0 0 0 M;|BadLine line 7
TREE;M;|BadLine line 7
S 1 1 2;TREE;P 0 0 0;M 1;|BadLine line 9
S 1 1 2;TREE;P 0 0 0;M 1 -5;|BadLine line 9
S 1 1 2;TREE;P 0 0 0;M 1 05;|BadLine line 9
S 1 1 2;TREE;P 0 0 0;M 1 5 ;|BadLine line 9
S 1 1 2;TREE;P 0 0 0;M 1 5~;|BadLine line 9
S 1 1 2;TREE;P 0 0 0;M 0 5;|BadSet line 9
S 1 1 2;TREE;P 0 0 0;M 2 5;|BadSet line 9
S 1 1 2;TREE;P 0 0 0;M 1 5 1 5;|BadSet line 9
S 1 1 2;S 1 1 3;TREE;P 0 0 0;M 2 5 1 5;|BadSet line 10
S 1 1 2;TREE;P 0 0 0;M 2 0;|BadSet line 9
S 1 1 2;TREE;P 0 0 0;M 1 0;|PriceRange line 9
S 1 1 2;TREE;P 0 0 0;M 1 1000000000001;|PriceRange line 9
S 1 1 2;TREE;P 0 0 -1;M 1 1000000000000;|PriceRange line 9
S 1 1 2;S 1 1 3;TREE;P 0 0 0;M 1 500000000000 2 500000000001;|PriceRange line 10
S 1 1 2;S 1 1 3;TREE;P 0 1 0;M 1 500000000000 2 499999999999;END;|
S 1 1 2;TREE;P 0 0 1000000000001;M 1 5;|PriceRange line 8
S 1 1 2;TREE;S 0 4;|BadArc line 8
S 1 1 2;TREE;S 0 1;P 0 0 0;M 1 5;S 0 1;|ArcDecided line 11
S 1 1 2;TREE;P 0 0 0;M 1 5;M 1 5;|BadLine line 10
S 1 1 2;TREE;P 0 0 0;M 1 5;END; |Extra
S 1 1 2;TREE;P 0 0 0;M 1 5;END|Truncated
"""
# By HEAD's first word or another one.
FIRSTS = [("VRPTW-SETS 2", "BadLine line 1"), ("VRPTW-SETS 1 ", "BadLine line 1"), ("VRPTW-SETS 1\r", "BadLine line 1"),
          ("VRPTW-CERT 2", "BadLine line 6")]


def certificate_text(count, neighbours, bound, rest):
    """A certificate with the lines of a row, and so many neighbours."""
    return ("VRPTW-SETS 1\nINSTANCE T\nCUSTOMERS %d\nNEIGHBOURS %d\nBOUND %s\n%sEND\n"
            % (count, neighbours, bound, rest.replace(";", "\n")))


def checked(line):
    """An instance, a certificate and a solution, and what recheck says of them."""
    name, bound, rest, solution, said = line.split("|")
    instance = BY_HAND[name]
    certificate = certificate_text(instance.count("\n") - 7, 1 if name == "alike" else 8, bound, rest)
    return "check", instance, certificate, solution.replace(";", "\n"), said


def read_rows():
    """Texts, and what the reader says of them."""
    for line in SPELLED.strip().split("\n"):
        rest, said = line.split("|")
        yield "read", (HEAD + rest).replace(";", "\n").replace("~", "\r"), said
    for first, said in FIRSTS:
        yield "read", first + (HEAD + "S 1 1 2;TREE;P 0 0 0;M;END;").replace(";", "\n")[12:], said
    for many, said in ((1000, ""), (1001, "TooManySets line 1006")):
        yield "read", (HEAD + many * "S 1 1 2;" + "TREE;P 0 0 0;M 1 1;END;").replace(";", "\n"), said


# What set_prices found for files of bench/instances, with the best plans known; and trees that bench/as_rust closed
# by an earlier form of `bench/as_rust bound`.
FOUND = {"c1_25": "GAP 339.8 339.7", "rc1_25": "BEST 489.8", "c1_50": "GAP 679.8 676.7", "rc1_50": "GAP 908.1 906.5",
         "r1_50": "GAP 1109.2 1098.8", "c1_50_closed": "BEST 679.8", "rc1_50_closed": "BEST 908.1"}


def found(name):
    """An instance of bench, the certificate and the plan that are kept, and what recheck says of them."""
    here, texts = os.path.dirname(os.path.realpath(__file__)), []
    file_of = name.replace("_closed", "")
    for path in ("../../bench/instances/%s.txt" % file_of, "with_sets/%s.certificate" % name,
                 "with_sets/%s.plan" % file_of):
        with open(os.path.join(here, path), encoding="ascii") as file:
            texts.append(file.read())
    return ("check", *texts, FOUND[name])


SET_ROWS = [checked(line) for line in TABLE.strip().split("\n")] + list(read_rows()) + [found(name) for name in FOUND]
