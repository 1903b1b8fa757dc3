"""Calls of the module for Python, by hand: what is raised, with its kind, its status and a part of its line; programs
that run it elsewhere than in a main thread; and what is answered where a form is new."""
from cases.tool_faults import FILES

# Two customers, as text, and a plan of both.
TEXT, PLAN = FILES["i.txt"].encode(), FILES["p.txt"].encode()
# A program that a signal ends, one that fails, and one that tells that memory was refused.
PROGRAMS = {"killed": "kill -9 $$", "failing": "echo no >&2; exit 99",
            "memory": "echo vrptw: memory >&2; exit 4", "full": "echo vrptw: file >&2; exit 6"}
# The call, the class, the status, and a part of the line. i.txt and p.txt are the texts, PROOF is a certificate of the
# bound 0, W has the rows, and Index makes a number that only knows its index.
RAISED = """
solve(TEXT, gap=0.01)|BadOptions|2|gap: met 0.01, wanted a whole number of 0 to 1000: tenths of a percent
solve(TEXT, turns=5.0)|BadOptions|2|turns: met 5.0, wanted a whole number of 1 to 1000000
solve(TEXT, turns="5")|BadOptions|2|turns: met '5', wanted a whole number
solve(TEXT, turns=0)|BadOptions|2|turns: met 0, wanted a whole number of 1 to 1000000
solve(TEXT, seed=-1)|BadOptions|2|seed: met -1, wanted a whole number of 0 to 4294967295
solve(TEXT, seed=-1, seconds=1)|BadOptions|2|seed: met -1, wanted a whole number of 0 to 4294967295
solve(TEXT, seed=2 ** 32, seconds=1)|BadOptions|2|seed: met 4294967296, wanted a whole number of 0 to 4294967295
solve(TEXT, searchers=33)|BadOptions|2|searchers: met 33, wanted a whole number of 1 to 32
solve(TEXT, neighbours=16)|BadOptions|2|neighbours: met 16, wanted a whole number of 0 to 15
solve(TEXT, seconds=-1)|BadOptions|2|seconds: met -1, wanted a number above 0
solve(TEXT, seconds=0)|BadOptions|2|seconds: met 0, wanted a number above 0
solve(TEXT, seconds=float("nan"))|BadOptions|2|seconds: met nan, wanted a number above 0
solve(TEXT, seconds="5")|BadOptions|2|seconds: met '5', wanted a number above 0
solve(TEXT, seconds=1, turns=1)|BadOptions|2|met seconds beside turns or close, wanted one of them
solve(TEXT, tree=PROOF, neighbours=8)|BadOptions|2|met a tree beside neighbours or close, wanted one of them
check(TEXT, states=0)|BadOptions|2|states: met 0, wanted a whole number of 1 to 50000000
check(TEXT, [[1, 2]])|BadOptions|2|certificate: met a plan in its place, wanted check(instance, plan=..)
check(TEXT, PLAN)|BadOptions|2|certificate: met a plan in its place, wanted check(instance, plan=..)
check(TEXT, "p.txt")|BadOptions|2|certificate: met a plan in its place, wanted check(instance, plan=..)
check(TEXT, schedule(TEXT, [[1, 2]]))|BadOptions|2|certificate: met a plan in its place, wanted check(instance, plan=..)
schedule(TEXT, [[1, 2]], depart="now")|BadOptions|2|depart: met 'now', wanted late or early
solve(TEXT.decode())|BadInstance|3|instance: met a text as str, which is read as a path, wanted its bytes: text.encode()
solve(7)|BadInstance|3|instance: met 7, wanted the path of its file, or its bytes
solve(b"x y")|BadInstance|3|vrptw: instance: BadWord line 1
Instance.from_file(b"x y")|BadInstance|3|instance: met 'x y', wanted the layout of docs/formats.md
Instance.from_file("bad.txt")|BadInstance|3|instance: row 1: met '1 3 4 x 0 1000 0', wanted that number and six more
instance_text([W[0], (3, 4.5, 1, 0, 1000, 0)], 2, 2)|BadInstance|3|instance: row 1: met 4.5 as y, wanted a whole number
instance_text([W[0], (3, 4, 1.5, 0, 9, 0)], 2, 2, scale=2)|BadInstance|3|row 1: met 1.5 as demand, wanted a whole number
instance_text([W[0], (3, 4.5, 1, 0, 9, 0)], 2, 2, scale=3)|BadInstance|3|row 1: met 4.5 as y, wanted a whole number \
from 0 on by a scale of 3
instance_text([W[0], (3, -4, 1, 0, 9, 0)], 2, 2)|BadInstance|3|row 1: met -4 as y, wanted a whole number from 0 on
instance_text([W[0], (3, float("inf"), 1, 0, 9, 0)], 2, 2)|BadInstance|3|row 1: met inf as y, wanted a whole number
instance_text([W[0], (3, 4, 1, 0, 9)], 2, 2)|BadInstance|3|instance: row 1: met 5 numbers, wanted x, y, demand
instance_text(W, 2.5, 2)|BadInstance|3|instance: fleet: met 2.5 as vehicles, wanted a whole number from 0 on
instance_text(W, 2, 2, "a b")|BadInstance|3|instance: met the name 'a b', wanted 1 to 32 signs of ASCII without blanks
solve(TEXT, start=[[1], [99]])|BadPlan|5|plan: route 2: met customer 99, wanted 1 to 2
check(TEXT, plan=[[1], [], [-1]])|BadPlan|5|plan: route 3: met customer -1, wanted 1 to 2
check(TEXT, plan=[[1, 0, 2]])|BadPlan|5|plan: route 1: met customer 0, wanted 1 to 2
check(TEXT, plan=[1, 2])|BadPlan|5|plan: route 1: met 1, wanted the numbers of customers
check(TEXT, plan=[[1.0, 2]])|BadPlan|5|plan: route 1: met [1.0, 2], wanted the numbers of customers
check(TEXT, plan=PLAN.decode())|BadPlan|5|plan: met a text as str, which is read as a path, wanted its bytes
check(TEXT, plan=Answer("OPEN", None, None, 0))|BadPlan|5|plan: met an answer without one (OPEN), wanted one
check(TEXT, plan=[[1]])|BadPlan|5|vrptw: plan: Missing
check(TEXT, plan=PLAN.replace(b"20.0", b"20.1"))|BadPlan|5|vrptw: check: CostDiffers 20.1 20.0
solve(TEXT, start=b"x\\n")|BadPlan|5|vrptw: solution: BadLine line 1
solve(TEXT, tree=b"x\\n")|BadCertificate|5|vrptw: certificate: BadLine line 1
check(TEXT, PROOF.replace(b"INSTANCE T", b"INSTANCE U"))|BadCertificate|5|vrptw: check: OtherName
check(TEXT, PROOF.replace(b"BOUND 0.0", b"BOUND 0.1"))|BadCertificate|5|vrptw: check: BoundDiffers 0.1 0.0
check(TEXT, PROOF.decode())|BadCertificate|5|certificate: met a text as str, which is read as a path, wanted its bytes
solve(TEXT, labels=1)|Limit|7|vrptw: limit: LabelLimit
solve(TEXT, program="killed")|Stopped|-9|the program was ended by SIGKILL
solve(TEXT, program="memory")|OutOfMemory|4|vrptw: memory
solve(TEXT, program="full")|FileFault|6|vrptw: file
solve(TEXT, program="failing")|Fault|99|no
solve(TEXT, program=os.devnull)|Fault|None|/dev/null: Permission denied
"""
# What is raised is also one of these, as it was before there were kinds.
ALSO = {"BadOptions": ValueError, "BadPlan": IndexError}
# What holds, as the program and the module have it.
HOLDS = """
check(TEXT, plan=[[0, 1, 2, 0], [], [0], [0, 0]]).routes == [[1, 2]]
check(TEXT, plan=((Index(1),), [Index(2)])).routes == [[1], [2]]
check(TEXT, plan=iter([iter([1, 2])])).plan == PLAN
check(TEXT, PROOF, PLAN) == check(TEXT, Answer("GAP", [[1, 2]], 200, 0, PLAN, PROOF)) != check(TEXT, PROOF)
check(Instance.from_file("i.txt"), plan="p.txt").has_plan and not check(TEXT).has_plan
solve(TEXT, seed=Index(3), turns=Index(2), start=schedule(TEXT, [[1, 2]])).is_best
solve(TEXT, seconds=Index(30) and 30.0, seed=0).cost == 20.0
instance_text(W, Index(2), 2.0, "T") == TEXT == Instance.from_rows(W, 2, 2, "T").text == Instance.from_file(TEXT).text
instance_text([(0, 0, 0, 0, 9.9, 0), (0.3, "0.4", 1, 0, 5, 0)], 1, 1, scale=10).endswith(b" 99 0\\n1 3 4 1 0 50 0\\n")
Instance.from_file(TEXT).distance(1, 2) == 5.0 and list(Instance.from_file(TEXT).customers) == [1, 2]
plan_text(TEXT, [[0, 1, 2, 0], []]) == PLAN == plan_text(Instance.from_file(TEXT), schedule(TEXT, PLAN))
str(Fault("a", 3)) == "a" and isinstance(Limit("a"), Fault) and Limit("a").status == 7
"""
# Programs, and what they print. {path} and {program} stand for the instance and the program.
PRINTS = [("""
import concurrent.futures, vrptw
if __name__ == "__main__":
    with concurrent.futures.ProcessPoolExecutor(2) as pool:
        works = [pool.submit(vrptw.solve, text, program={program!r}) for text in ({path!r}, b"x", {path!r})]
        for work in works:
            try:
                print(work.result().cost)
            except vrptw.BadInstance as fault:
                print(fault.status, fault)
""", "20.0\n3 vrptw: instance: Truncated\n20.0\n"), ("""
import _testcapi
print(_testcapi.run_in_subinterp('''
import sys
sys.path.insert(0, {outside!r})
import vrptw
print(vrptw.solve({path!r}, program={program!r}, seconds=30).cost)
print(vrptw.Instance.from_rows([(0, 0.5, 0, 0, 9, 0), (1, 1, 1, 0, 9, 0)], 1, 1, scale=2).rows[0][1], flush=True)
'''))
""", "20.0\n1\n0\n"), ("""
import threading, vrptw
work = threading.Thread(target=lambda: print(vrptw.solve({path!r}, program={program!r}).cost))
work.start()
work.join()
""", "20.0\n")]


def rows(table):
    return [line.split("|") for line in table.strip().split("\n")]


CALLS = ([("raised", *row) for row in rows(RAISED)] + [("holds", *row) for row in rows(HOLDS)]
         + [("prints", *row) for row in PRINTS])
