"""Certificates with rows that were worked out by hand, and one of 25 customers: what recheck says of them, and what the
reader does."""
import os

from cases.rows import DEPOT, instance_text

# trio: three customers at one place, 50 tenths from the depot, and vehicles that hold two. Each route costs 100, alone
# or as a pair. With 50,000 for each customer a pair has 0: one route and a half, 150. With 100,000 for each and 100,000
# for the row of all three one alone has 100,000 - 100,000, and a pair, which is charged once, 100,000 - 200,000 +
# 100,000: 0 at the least, and the value is 300,000 - 100,000. With 60,000 for the row a pair has -40,000: 300,000 -
# 60,000 less 40,000 for each of two vehicles. With 200,000 it has 100,000, one alone 0: 300,000 - 200,000. Two routes
# serve all: 200.
BY_HAND = {
    "trio": instance_text(2, 2, DEPOT, "".join("%d 3 4 1 0 1000 0\n" % number for number in (1, 2, 3))),
    "trio3": instance_text(3, 2, DEPOT, "".join("%d 3 4 1 0 1000 0\n" % number for number in (1, 2, 3))),
}
# The instance, the bound, the lists and the tree, the solution (none where it is empty), and the line that is printed,
# or that of the certificate which is refused and what is said of it. A semicolon is a line feed.
TABLE = """
trio|15.0|TREE;P 50000 50000 50000;M;Q;||BOUND 15.0
trio|20.0|R 1 2 3;TREE;P 100000 100000 100000;M;Q 1 100000;|Route #1: 1 2;Route #2: 3;Cost 20.0;|BEST 20.0
trio|16.0|R 1 2 3;TREE;P 100000 100000 100000;M;Q 1 60000;||BOUND 16.0
trio3|12.0|R 1 2 3;TREE;P 100000 100000 100000;M;Q 1 60000;||BOUND 12.0
trio|10.0|R 1 2 3;TREE;P 100000 100000 100000;M;Q 1 200000;||BOUND 10.0
trio|20.0|R 1 2 3;TREE;P 100000 100000 100000;M;Q;||line 5: met a bound of 20.0, wanted that of the tree, 10.0
trio|30.0|R 1 2 3;TREE;P 100000 100000 100000;M;Q 1 100000;||line 5: met a bound of 30.0, wanted that of the tree, 20.0
trio|20.0|S 2 1 2 3;R 1 2 3;TREE;P 0 0 0;M 1 100000;Q;|Route #1: 1 2;Route #2: 3;Cost 20.0;|BEST 20.0
"""
# What a text has behind its head, and the reader's fault; none where it is read.
READ = """
R 1 2 3;TREE;P 0 0 0;M;Q;END;|
R 1 2 3;TREE;P 0 0 0;M;Q 1 1;END;|
TREE;P 0 0 0;M;Q;END;|
TREE;P 0 0 0;M;END;|BadLine line 9
TREE;P 0 0 0;Q;END;|BadLine line 8
R 1 2 3;R 1 2 3;TREE;P 0 0 0;M;Q;END;|BadRow line 7
R 1 3 2;TREE;P 0 0 0;M;Q;END;|BadRow line 6
R 0 1 2;TREE;P 0 0 0;M;Q;END;|BadRow line 6
R 1 2 4;TREE;P 0 0 0;M;Q;END;|BadRow line 6
R 1 2;TREE;P 0 0 0;M;Q;END;|BadLine line 6
R 1 2 3;S 2 1 2;TREE;P 0 0 0;M;Q;END;|BadLine line 7
R 1 2 3;TREE;P 0 0 0;M;Q 2 1;END;|BadRow line 10
R 1 2 3;TREE;P 0 0 0;M;Q 1 0;END;|PriceRange line 10
R 1 2 3;TREE;P 0 0 0;M;Q 1 1000000000001;END;|PriceRange line 10
R 1 2 3;TREE;P 1 0 0;M;Q 1 1000000000000;END;|PriceRange line 10
R 1 2 3;TREE;P 0 0 0;M;Q 1 1000000000000;END;|
R 1 2 3;TREE;P 0 0 0;M;Q 1 5 1 5;END;|BadRow line 10
R 1 2 3;TREE;P 0 0 0;M;Q 1;END;|BadLine line 10
"""


HERE = os.path.dirname(os.path.realpath(__file__))


def alone():
    """A file of 25 customers whose root nine rows close alone, without a set: it comes to 471.5 by no row."""
    texts = []
    for path in ("../../bench/instances/rc2_25.txt", "with_rows/rc2_25.certificate", "with_rows/rc2_25.plan"):
        with open(os.path.join(HERE, path), encoding="ascii") as file:
            texts.append(file.read())
    return ("recheck", *texts, "BEST 472.5")


def texts():
    """The kind of each row, its texts, and what is said."""
    found = [alone()]
    for line in TABLE.strip().split("\n"):
        name, bound, body, solution, said = line.split("|")
        found.append(("recheck", BY_HAND[name], text_of(name, bound, body + "END;"), solution.replace(";", "\n"), said))
    for line in READ.strip().split("\n"):
        body, said = line.split("|")
        found.append(("read", text_of("trio", "0.0", body), said))
    return found


def text_of(name, bound, body):
    head = BY_HAND[name].split("\n", 1)[0]
    return "VRPTW-ROWS 1\nINSTANCE %s\nCUSTOMERS 3\nNEIGHBOURS 8\nBOUND %s\n%s" % (head, bound, body.replace(";", "\n"))


ROW_ROWS = texts()
