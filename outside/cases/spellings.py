"""Certificates and plans that were made by hand, and what the readers say of them: a fault, or the same text again."""

HEAD = "VRPTW-CERT 1;INSTANCE T;CUSTOMERS 1;NEIGHBOURS 8;BOUND 10.0;TREE;"
CERTIFICATE = HEAD + "P 100000;END;"
SOLUTION = "Route #1: 1;Cost 10.0;"

# Behind the lines of HEAD, and what is said; nothing is said of a text that is written again. A semicolon is a line
# feed, and a tilde a carriage return.
TREES = """
P 007;END;|BadLine line 7
P +5;END;|BadLine line 7
P -0;END;|BadLine line 7
P 1 2;END;|BadLine line 7
P;END;|BadLine line 7
P  1;END;|BadLine line 7
P 1 ;END;|BadLine line 7
P 1~;END;|BadLine line 7
END;|BadLine line 7
S 0 1 0;END;|BadLine line 7
S 0 1;P 0;END;|BadLine line 9
P 0;P 0;END;|BadLine line 8
P 1000000000001;END;|PriceRange line 7
P -1000000000001;END;|PriceRange line 7
P 99999999999999999999999999;END;|PriceRange line 7
S 1 1;END;|BadArc line 7
S 0 2;END;|BadArc line 7
S 0 1;S 0 1;END;|ArcDecided line 8
S 0 1;P 0;S 0 1;END;|ArcDecided line 9
P 0;END|Truncated
P 0|Truncated
P 0;END; |Extra
P 100000;END;|
P -1000000000000;END;|
P 1000000000000;END;|
S 0 1;P 100000;S 1 0;P 101000;P -1;END;|
"""

HEADS = """
|Truncated
VRPTW-CERT 3|Truncated
VRPTW-CERT 3;|BadLine line 1
VRPTW-CERT 2;INSTANCE ;|BadLine line 2
VRPTW-CERT 2;INSTANCE 123456789012345678901234567890123;|BadLine line 2
VRPTW-CERT 2;INSTANCE T;CUSTOMERS 0;|BadLine line 3
VRPTW-CERT 2;INSTANCE T;CUSTOMERS 1;NEIGHBOURS 16;|BadLine line 4
VRPTW-CERT 2;INSTANCE T;CUSTOMERS 1;NEIGHBOURS 15;BOUND 10;|BadLine line 5
VRPTW-CERT 2;INSTANCE T;CUSTOMERS 1;NEIGHBOURS 0;BOUND 10.0;P 0;|BadLine line 6
"""

SOLUTIONS = """
|Truncated
Route #1: 1 2;Cost 20.0|Truncated
Route #1: 1 2;|Truncated
Cost 20.0;|BadLine line 1
Route #1:;Cost 20.0;|BadLine line 1
Route #2: 1 2;Cost 20.0;|BadLine line 1
Route #1: 1;Route #1: 2;Cost 20.0;|BadLine line 2
Route #1: 0;Cost 20.0;|BadLine line 1
Route #1: 10000;Cost 20.0;|BadLine line 1
Route #1: 01;Cost 20.0;|BadLine line 1
Route #1:  1;Cost 20.0;|BadLine line 1
Route #1: 1 ;Cost 20.0;|BadLine line 1
Route #1: 1~;Cost 20.0;|BadLine line 1
Route #1: 1;Cost 20;|BadLine line 2
Route #1: 1;Cost 020.0;|BadLine line 2
Route #1: 1;Cost 20.0 20.0;|BadLine line 2
Route #1: 1;Cost 20.0;;|Extra
Route #1: 1;Cost 20.0; |Extra
Route #1: 1 2;Cost 20.0;|
Route #1: 1 1 2;Cost 20.0;|
Route #1: 9999;Route #2: 1;Cost 0.1;|
"""


def rows_of(what, table, head=""):
    """What the text is, the text, and what is said of it."""
    for line in table.strip("\n").split("\n"):
        text, said = (head + line).split("|")
        yield what, text.replace(";", "\n").replace("~", "\r"), said


def spoiled(what, text):
    """Each proper front of a text, which is cut off; and of a certificate each line with a carriage return."""
    text = text.replace(";", "\n")
    for size in range(len(text)):
        yield what, text[:size], "Truncated"
    if what == "certificate":
        lines = text.split("\n")
        for number in range(1, len(lines)):
            yield what, "\n".join(lines[:number]) + "\r\n" + "\n".join(lines[number:]), "BadLine line %d" % number


SPELLINGS = [*rows_of("certificate", TREES, HEAD), *rows_of("certificate", HEADS), *rows_of("solution", SOLUTIONS),
             *spoiled("certificate", CERTIFICATE), *spoiled("solution", SOLUTION)]
