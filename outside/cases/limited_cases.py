"""The tools by limits of a shell: rows by hand, with a part of the one line that each of them says."""
from cases.option_cases import rows

# A limit of the shell, words, and a part of the one line: a file that may grow no more stands for a full disk, and a
# table of 20,000 customers in degrees is refused in some seconds of a processor.
LIMITED = """
-f 0|plan i.txt --into d|/instance.txt: File too large
-f 1|plan i.txt --into d --program fakes/full|.txt: File too large
-f 1|fewest i.txt --into d --program fakes/full|d/2.plan: File too large
-f 1|prove i.txt --into d --program fakes/full|d/plan.txt: File too large
-f 0|join i.txt grown.txt one.txt --check|: No usable temporary directory found
-f 0|batch i.txt --into d|: File too large
-f 0|report i.txt p.txt k.txt -o r.html|: File too large
-f 0|sheets i.txt p.txt -o s.html|s.html: File too large
-f 0|convert t.csv o.txt --vehicles 5 --capacity 7|o.txt: File too large
-t 20|convert many.csv o.txt --vehicles 5 --capacity 7 --speed 30|many.csv: line 403: met customer 401, wanted at most 400
-t 20|plan many.csv --into d --vehicles 5 --capacity 7 --speed 30|many.csv: line 403: met customer 401, wanted at most 400
"""
MANY = "lat,lon,demand,ready,due,service\n52,13,0,0,1000,0\n" + "".join(
    "52.%05d,13.%05d,1,0,1000,0\n" % (i, 7 * i % 99_991) for i in range(20_000))
LIMITED_ROWS = [("limited", words, limit, part) for limit, words, part in rows(LIMITED)]
