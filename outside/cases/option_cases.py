"""The tools with each of their options: rows by hand, with what comes of right values, and the line of wrong ones."""
import os
import shlex
import sys

from cases.tool_faults import FILES

# What stands for programs of others, in this folder before those that are there. sbatch does the jobs of an array at
# once, and parallel the steps of its list, so that the options of a batch work where neither is installed. killing is
# our program, each part of which is killed, and full one that can't write its files.
FAKES = {
    "sbatch": '''echo "$*" >asked.txt
for word; do case $before in --array) last=${word#1-} ;; esac; before=$word; done
for task in $(seq "${last%%%*}"); do
  SLURM_ARRAY_JOB_ID=7 SLURM_ARRAY_TASK_ID=$task sh "$before" >"slurm_7_$task.txt" 2>&1
done
echo 7''',
    "squeue": "exit 0",
    "parallel": '''echo "$*" >asked.txt
for list; do :; done
while read -r name; do ./step "$name"; done <"$list"''',
    "rsync": "exit 0",
    "ssh": '''case "$*" in *nowhere*) echo "ssh: connect to host nowhere port 22: Connection refused" >&2; exit 255 ;; esac''',
    "full": 'case "$*" in solve*) echo "vrptw: file" >&2; exit 6 ;; esac',
    "killing": '''case "$*" in solve*--part*) kill -9 $$ ;; esac
exec %s/vrptw "$@"''' % shlex.quote(os.path.dirname(os.path.dirname(os.path.dirname(os.path.realpath(__file__))))),
}
# All that a trial of an engine finds. It would install packages and take minutes, so --install is judged by what it
# asks of apt-get, and by its refusal.
FEW = {"apt-get": "exit 1", "python3": 'exec %s "$@"' % shlex.quote(sys.executable)}
# A certificate with sets of i.txt. By hand: less the prices the route 1 has 100,000 - 50,000 - 50,000, the route 2
# 200,000 - 100,000 - 50,000, and each of both 200,000 - 150,000 - 50,000: 0 at the least. The value is 150,000 and
# 50,000.
SETS = ("VRPTW-SETS 1\nINSTANCE T\nCUSTOMERS 2\nNEIGHBOURS 8\nBOUND 20.0\nS 1 1 2\nTREE\nP 50000 100000\n"
        "M 1 50000\nEND\n")
# One of both.txt, whose only vehicle serves one of two customers in time, at 10.0. Both need two, and at 30.1 for each
# the value is 60.2 less 20.1.
NO_PLAN = ("VRPTW-SETS 1\nINSTANCE T\nCUSTOMERS 2\nNEIGHBOURS 8\nBOUND 40.1\nS 2 1 2\nTREE\nP 0 0\nM 1 301000\n"
           "END\n")
# Certificates of i.txt that are joined. By hand: where the arc from 1 to 2 is used, each route costs 200,000 grains
# less the prices of both, and the value is 20.0 at prices of 0 and at 50,000 and 100,000. Where it isn't used, the
# route 1 costs 100,000 at prices of 0, and no route less than 50,000 at the others: the values are 10.0 and 20.0.
CUT = "VRPTW-CERT 2\nINSTANCE T\nCUSTOMERS 2\nNEIGHBOURS 8\n"
# Four customers in a line, each of whom takes a vehicle: the only plan costs 10 + 20 + 30 + 40 units. By hand: at
# prices of 0 four routes cost at least 10.0 each, wherever the first customer may have one alone. So the tree of eight
# leaves has a bound of 40.0.
FOUR = FILES["i.txt"].replace("2 2", "4 1").rstrip("\n") + "\n3 9 12 1 0 1000 0\n4 12 16 1 0 1000 0\n"
EIGHT = ("VRPTW-CERT 2\nINSTANCE T\nCUSTOMERS 4\nNEIGHBOURS 8\nBOUND 40.0\nTREE\nS 1 2\nS 2 1\n"
         + 2 * "S 1 3\nP 0 0 0 0\nP 0 0 0 0\n" + "S 2 1\n" + 2 * "S 1 3\nP 0 0 0 0\nP 0 0 0 0\n" + "END\n")
# Files beside those of tool_faults. By hand: the plan of both customers costs 5 + 5 + 10 units, and one alone 5 or 10.
# Three folders have the certificate with sets in the place of the program's: of a plan, of few vehicles and of a batch.
MORE = {
    "sets.txt": SETS,
    "none_sets.txt": NO_PLAN,
    "held/instance.txt": FILES["i.txt"], "held/plan.txt": FILES["p.txt"], "held/certificate.txt": SETS,
    "few_held/1.certificate": SETS,
    "many/options": "--turns 2\n", "many/i/instance.txt": FILES["i.txt"], "many/i/plan.txt": FILES["p.txt"],
    "many/i/certificate.txt": SETS, "many/i/line.txt": "BEST 20.0\n", "many/i/errors.txt": "",
    "many/i/done.txt": "0 12 here\n",
    # A customer whose window opens at 100: who leaves at 95.0 doesn't wait.
    "waits.txt": FILES["i.txt"].replace("3 4 1 0", "3 4 1 100"),
    # Both customers in vehicles that hold twenty of them in a day.
    "long.txt": FILES["i.txt"].replace("2 2", "2 20"),
    "four.txt": FOUR,
    "open/instance.txt": FOUR, "open/certificate.txt": EIGHT,
    "open/plan.txt": "Route #1: 1\nRoute #2: 2\nRoute #3: 3\nRoute #4: 4\nCost 100.0\n",
    "wrong/instance.txt": FOUR, "wrong/certificate.txt": EIGHT.replace("40.0", "40.1"),
    "theirs/C101.TXT": FILES["i.txt"],
    "his/c101.2.txt": FILES["i.txt"], "his/C1_2_1.TXT": FILES["i.txt"],
    "spoilt/empty.txt": "", "spoilt/i.txt": FILES["i.txt"],
    "best.txt": "i 20.0\n",
    "more_best.txt": "b 1, 7.0\ni.txt 20.0\n",
    "two_machines": "localhost\n4/ssh -p 2222 anna@nowhere\n",
    "published.txt": "C101 2 20.0 hand\n",
    "machines": "localhost\n",
    "semicolons.csv": "number;name\n0;depot\n1;a.5\n2;1.5\n",
    "german.csv": FILES["t.csv"].replace("due", "bis"),
    # Three customers for whom a vehicle of 2 has no room: by their priorities the one of 2 is served.
    "short.csv": "name,x,y,demand,ready,due,service,priority\ndepot,0,0,,0,1000,,\nA,3,4,1,0,1000,0,1\n"
                 "B,6,8,1,0,1000,0,\nC,9,12,2,0,1000,0,5\n",
    "rank.csv": "name,x,y,demand,ready,due,service,rank\ndepot,0,0,,0,1000,,\nA,3,4,1,0,1000,0,1\n"
                "B,6,8,1,0,1000,0,\nC,9,12,2,0,1000,0,5\n",
    # A customer 20 minutes away who is due ten minutes after the depot opens.
    "late.csv": "name,x,y,demand,ready,due,service\ndepot,0,0,,06:00,10:00,\nA,3,4,1,06:00,09:00,5\n"
                "B,12,16,1,06:00,06:10,5\n",
    "list.txt": "[[0, 1]]\n",
    "vans.csv": "name,driver\nVan A,Ann\n",
    "no_vans.csv": "name,driver\n",
    "globe.csv": "number,name,lat,lon\n0,depot,52.5,13.5\n1,a,52.5,13.25\n2,b,52.25,13.25\n",
    "nowhere.csv": "number,name,lat,lon\n0,depot,52.5,13.5\n1,a,52.5,181\n2,b,52.25,13.25\n",
    # One customer with a vehicle and one without; one that nobody knows; and the number of another one.
    "moved.csv": "vehicle,name\nAnna,a\n,b\n",
    "nobody.csv": "vehicle,name\nAnna,a\nAnna,c\n",
    "beside.csv": "vehicle,name,stop\nAnna,a,2\n",
    # Two customers of one name, and the second of them alone. By hand: its way is 10.0 there and 10.0 back.
    "twins.csv": "number,name,address\n0,depot,\n1,a,Weg 1\n2,a,Weg 2\n",
    "second.csv": "number,name,address\n0,depot,\n1,a,Weg 2\n",
    "second.txt": FILES["i.txt"].replace("1 3 4 1 0 1000 0\n2 6 8", "1 6 8"),
    "own.csv": "route,stop,name\n1,2,a\n1,1,a\n1,0,depot\n",
    "doors.csv": "route,name,address\n1,a,Weg 2\n1,a,Weg 1\n",
    "alike.csv": "route,name\n1,a\n1,a\n",
    "grown.txt": CUT + "BOUND 10.0\nTREE\nS 1 2\nP 0 0\nP 0 0\nEND\n",
    "one.txt": CUT + "BOUND 20.0\nTREE\nS 1 2\nP 0 0\nS 2 1\nP 50000 100000\nP 50000 100000\nEND\n",
    "better.txt": CUT + "BOUND 20.0\nTREE\nS 1 2\nP 50000 100000\nP 50000 100000\nEND\n",
    "swapped.txt": CUT + "BOUND 10.0\nTREE\nS 2 1\nP 0 0\nP 0 0\nEND\n",
    "tree.txt": "VRPTW-CERT 2\nINSTANCE T\nCUSTOMERS 2\nNEIGHBOURS 8\nBOUND 0.0\nTREE\nS 1 2\nP 0 0\nP 0 0\nEND\n",
}
# The words of calls, the status of the last one, and what it promises: a file that isn't empty, or behind a colon what
# stands in it; - is standard output, and -- is standard error. {program} stands for the program that is judged.
RIGHT = """
batch i.txt --into r --options "--turns 2" --jobs 1|0|r/table.csv: i,,2,20.0,1,20.0,0,1, & -: 1 BEST
batch i.txt --into r --options "few: --turns 1" --options "more: --turns 2"|0|r/i@few/plan.txt & r/i@more/plan.txt
batch i.txt --into r --options "--turns 1" --seeds 1,2|0|r/options: s2: --sets 200 --turns 1 --seed 2 & r/i@s1/plan.txt
batch i.txt --into r --engine here|0|r/i/plan.txt: Cost 20.0
batch i.txt --into r --engine parallel --sshloginfile machines|0|r/i/plan.txt: Cost 20.0 & r/asked.txt: /machines --
batch i.txt --into r --engine slurm --slurm-options "--mem=0 --time 1" --jobs 3 --wait|0|r/asked.txt: --array 1-1%3 & \
r/asked.txt: --mem=0 --time 1 job_0.sh & -: 1 BEST
batch i.txt --into r --engine parallel --sshloginfile two_machines|0|-: machine anna@nowhere (line 2) isn't used: ssh: \
connect to host nowhere port 22: Connection refused & r/engine.txt: machine anna@nowhere & r/machines: localhost & \
r/asked.txt: --retries 1 & -: 1 BEST
batch bad.txt i.txt --into r|1|-: no instance: line 8: met "1 3 4 x & r/i/plan.txt: Cost 20.0 & \
r/table.csv: bad,,,,,,,,,,"no instance: line 8: & -: 1 BEST, 1 no instance
batch spoilt --into r|1|-: no instance: line 1: met "" (Truncated) & r/i/plan.txt: Cost 20.0 & -: 2 instances: 1 BEST
batch i.txt --into r --best best.txt|0|-: 1 best known costs: 1 met
batch i.txt --into r --best more_best.txt|0|-: 1 best known costs: 1 met & --: --best has names of no instance here: b_1
batch i.txt --into r ; batch i.txt --into r --status|0|-: 1 BEST
batch i.txt --into r ; batch --status r|0|-: 1 BEST & -: 20.0         1   20.0
batch i.txt --into r --program {program}|0|-: 1 BEST
batch i.txt --into many --status|0|-: 1 BEST
batch i.txt --into many|0|many/i/certificate.txt: VRPTW-SETS 1 & -: 1 BEST
carry i.txt p.txt i.txt --names names.csv --changed-names names.csv|0|-: Route #1: 1 2
carry i.txt p.txt second.txt --names twins.csv --changed-names second.csv|0|-: Cost 20.0 & --: customers that are \
gone: a (Weg 1)
convert i.txt o.vrp --to vrplib|0|o.vrp: DIMENSION : 3
convert i.txt - --to solomon|0|-: CUST NO.
convert t.csv o.txt --from csv --vehicles 5 --capacity 7 --name Monday|0|o.txt: Monday & o.txt: 5 7
convert t.csv o.txt --vehicles 5 --capacity 7 --name ""|0|o.txt: 5 7
convert t.csv o.txt --vehicles 5 --capacity 12.5|0|o.txt: 5 1 & --: loads are counted in other units, so they fit exactly
convert t.csv o.txt --vehicles 5 --capacity 7 --scale 3|0|o.txt: 1 9 12 1 0 3000 0
convert c.vrp o.txt --horizon 9 --vehicles 2|0|o.txt: 1 3 4 1 0 9 0
convert plain.csv o.txt --horizon 06:00-18:00 --vehicles 2 --capacity 5|0|o.txt: 1 0 4 1 360 1080 0
convert geo.csv o.txt --vehicles 5 --capacity 5 --speed 60 --detour 2|0|o.txt: VEHICLE
convert german.csv o.txt --vehicles 5 --capacity 5 --column due=bis|0|o.txt: 1 3 4 1 0 1000 0
convert end.csv o.txt --column due=end --vehicles 5 --capacity 5 --names n.csv|0|n.csv: 1,c
convert point.csv o.txt --vehicles 5 --capacity 5 --times-as-numbers|0|o.txt: 1 10 10 1 63 180 20
draw waits.txt p.txt --times --depart late|0|-: Driving to customer 1: 95.0 to 100.0
draw waits.txt p.txt --times --depart early|0|-: Driving to customer 1: 0.0 to 5.0
draw i.txt p.txt --names names.csv|0|-: </svg>
draw i.txt p.txt --names globe.csv --geojson|0|-: "LineString"
draw i.txt p.txt --names globe.csv --gpx|0|-: <rtept lat="52.5" lon="13.25"><name>a</name>
draw i.txt p.txt --times|0|-: </svg>
draw i.txt p.txt --tree k.txt|0|-: </svg>
draw i.txt p.txt --tree sets.txt --names names.csv|0|-: Leaf 1 has the value 20.0,
fewest i.txt --into f --seconds 30 --searchers 1 --bounders 1 --labels 1000 --neighbours 4 --sets 3 --rows 3 --seed 3|0|-: FEWEST 1 BEST
fewest i.txt --into f --seconds 30 --program {program} ; fewest i.txt --into f --check|0|-: FEWEST 1 BEST 20.0
fewest i.txt --into few_held --seconds 30|0|few_held/1.certificate: VRPTW-SETS 1 & -: FEWEST 1 BEST 20.0
fewest i.txt --into few_held --check|1|-: FEWEST 1 OPEN
report i.txt p.txt k.txt --fewest few_held -o r.html|0|r.html: </html>
join i.txt grown.txt one.txt --check --solution p.txt|0|-: S 2 1 & --: vrptw check says: BEST 20.0
join i.txt grown.txt better.txt swapped.txt --check|1|--: swapped.txt: line 7: met "S 2 1", wanted "S 1 2", as in line 7
join i.txt one.txt grown.txt|1|--: grown.txt: line 9: met a leaf, wanted "S 2 1", as in line 9 of one.txt
join i.txt grown.txt better.txt --jobs 1 --labels 1000 --program {program}|0|-: BOUND 20.0
join i.txt grown.txt better.txt one.txt --bound 20.0 --check|0|-: S 2 1 & --: vrptw check says: BOUND 20.0
join i.txt grown.txt one.txt grown.txt --prune 20.0|0|-: BOUND 20.0 & --: leaves: 1 in place of 3
judge i.txt p.txt --best p.txt -o o.txt|0|-: as far as the best plan & o.txt: Route #1: 1 2
judge i.txt moved.csv --names names.csv|3|-: not served: b
judge i.txt own.csv --names twins.csv -o o.txt|0|o.txt: Route #1: 2 1
judge i.txt doors.csv --names twins.csv -o o.txt|0|o.txt: Route #1: 2 1
judge i.txt p.txt --output o.txt|0|o.txt: Cost 20.0
judge waits.txt p.txt --depart early|0|-: 0.0  115.0
judge waits.txt p.txt --depart late|0|-: 95.0  115.0
outside/workshop/large_trees i.txt --minutes 0.06 --turns 2,default --jobs 1 --seed 5 --solver {program}|0|\
-: 2 certificates, & -: , 0 disagreements
outside/workshop/large_trees i.txt --minutes 0.02 --turns 2 --jobs 1 --program {program}|0|\
-: 1 certificates, & -: , 0 disagreements
plan t.csv --into d --seconds 30 --vehicles 2 --capacity 5 --from csv --name Monday --scale 3|0|\
d/now/instance.txt: Monday & d/now/instance.txt: 1 9 12 1 0 3000 0 & d/now/report.html: </html>
plan plain.csv --into d --horizon 06:00-18:00 --vehicles 2 --capacity 5 --seconds 30|0|d/now/timetable.csv: 06:0
plan geo.csv --into d --vehicles 5 --capacity 5 --speed 60 --detour 2 --seconds 30|0|d/now/plan.txt: Route #1: 1
plan point.csv --into d --vehicles 2 --capacity 5 --times-as-numbers --seconds 30|0|d/now/instance.txt: 1 10 10 1 63 180 20
plan i.txt --into d --drivers --lang de --seconds 30|0|d/now/drivers.html: Fahrzeug 1
plan waits.txt --into d --depart early --seconds 30|0|d/now/report.html: All vehicles leave when the depot opens.
plan german.csv --into d --column due=bis --vehicles 2 --capacity 5 --seconds 30|0|d/now/plan.txt: Cost 10.0
plan i.txt --into d --names names.csv --fewest --drivers --seconds 30|0|d/now/drivers.html: </html> & d/now/fewest/1.plan & \
d/now/names.csv: 2,b & -: No plan does without a vehicle.
plan i.txt --into d --searchers 1 --bounders 1 --labels 1000 --neighbours 4 --sets 3 --rows 3 --seed 3 --gap 5 --seconds 30|0|\
d/now/plan.txt: Cost 20.0
plan i.txt --into d --seconds 30 --program {program}|0|-: 20.0
plan i.txt --into held --seconds 30|0|held/now/certificate.txt: VRPTW-SETS 1 & -: 20.0
prove i.txt --into d --neighbours 4 --seconds 60|0|-: BEST 20.0 & d/plan.txt: Cost 20.0 & d/gap.svg: </svg> & \
d/certificate.txt: NEIGHBOURS 4 & d/rounds.csv: 1,0,0,0,1, & --: outside/prove: round 1: one run here,
prove i.txt --into d ; prove i.txt --into d --seconds 9|0|-: 1       here
prove i.txt --into held|0|-: BEST 20.0 & held/certificate.txt: VRPTW-SETS 1
prove long.txt --into long|0|-: BEST 20.0 & long/certificate.txt: NEIGHBOURS 12
plan short.csv --into d --vehicles 1 --capacity 2 --seconds 30|1|d/now/served/names.csv: 1,C,5 & -: Left out: 2 customers. & \
-: A, 1, 0.0 to 1000.0: it takes 1, and every vehicle is full & \
-: What would do: 2 vehicles, or vehicles that hold 4. & d/now/left_out.csv: name,demand,ready,due,reason,would_do & d/now/report.html: <section id="left-out">
plan late.csv --into d --vehicles 2 --capacity 5 --seconds 30|1|-: What would do: B until 06:20. & d/now/served/names.csv: 1,A
plan i.txt --into d --seconds 30 ; plan four.txt --into d --seconds 30|0|d/before/report.html: </html> & \
d/now/changes.csv: customer 3,new,,3, & d/now/report.html: <section id="changes">
plan rank.csv --into d --column priority=rank --vehicles 1 --capacity 2 --seconds 30|1|d/now/served/names.csv: 1,C,5
plan long.txt --into long_days|0|long_days/now/certificate.txt: NEIGHBOURS 12
prove four.txt --into open --engine here --parts 1 --jobs 1 --round 20 --searchers 1 --bounders 1 --labels 1000 \
--sets 3 --rows 3 --seed 3 --program {program}|0|-: BEST 100.0 & --: outside/prove: round 1: 1 of 1 part, & open/gap.svg: </svg>
prove four.txt --into open --engine parallel --sshloginfile machines --parts 1 --program {program}|0|\
-: BEST 100.0 & --: round 1: 1 of 1 part,
prove four.txt --into open --engine slurm --slurm-options "--mem=0 --time 1" --parts 1 --program {program}|0|\
-: BEST 100.0 & --: round 1: 1 of 1 part,
prove four.txt --into open --parts 1 --round 1 --program fakes/killing|1|open/certificate.txt: BOUND 40.0 & \
--: 1 of 1 parts came to nothing: & --: 3 rounds came to nothing
recheck i.txt k.txt p.txt --jobs 1 --labels 1000|0|-: GAP 20.0 0.0
recheck i.txt sets.txt p.txt --jobs 1 --labels 1000|0|-: BEST 20.0
recheck i.txt one.txt p.txt --progress|0|-: BEST 20.0
report i.txt p.txt k.txt --tree --jobs 1 -o r.html|0|r.html: <section id="the-certificates-tree">
report i.txt p.txt k.txt --tree --names names.csv --output r.html|0|r.html: <section id="the-certificates-tree">
fewest i.txt --into f --seconds 30 ; report i.txt p.txt k.txt --fewest f -o r.html|0|\
r.html: No plan does without a vehicle.
report waits.txt p.txt --depart early|0|-: All vehicles leave when the depot opens.
report i.txt p.txt k.txt --program {program}|0|-: </html>
report i.txt p.txt sets.txt -o r.html|0|r.html: </html>
report i.txt p.txt sets.txt --tree --jobs 1|0|-: <section id="the-certificates-tree">
report both.txt empty.txt none_sets.txt -o r.html|0|r.html: </html>
respell i.txt list.txt --from-zero|0|-: Route #1: 1 2
respell i.txt named.txt --names names.csv --certificate c.txt|0|c.txt: BOUND 0.0 & -: Cost 20.0
respell i.txt p.txt --scale 2|0|-: Cost 20.0
run --minutes 0.03 --kinds medium --jobs 1 --program {program}|0|-: medium: & -: , 0 disagreements
run --runs 1 --seed 7 --kinds medium --jobs 1|0|-: 1 runs, 0 disagreements
run --instruments {program} --kinds manual|0|-: 1 runs, 0 disagreements
outside/workshop/completions --into c|0|c/vrptw: complete -F _vrptw vrptw & c/_vrptw: #compdef & c/vrptw.fish: -l sets
outside/workshop/set_maker i.txt --sets 3 --leaves 2 --neighbours 4 --seed 5 >made.txt ; recheck i.txt made.txt|0|\
made.txt: NEIGHBOURS 4
set_prices small.txt c.txt two.txt --rounds 3 --neighbours 4 --seed 5 ; recheck small.txt c.txt two.txt|0|\
-: BEST 30.0 & c.txt: NEIGHBOURS 4
set_prices i.txt - --rounds 0|0|-: VRPTW-SETS 1
sheets i.txt p.txt --names names.csv -o s.html|0|s.html: </html>
sheets waits.txt p.txt|0|-: Leaves at 95.0, back at 115.0
sheets i.txt p.txt --lang fr --title "The round" --date "1 May"|0|-: <p class="whole">The round, 1 May</p> & -: retour à
sheets i.txt p.txt --vehicles-csv vans.csv|0|-: <h1>Vehicle 1: Van A</h1><p class="whole">Driver: Ann</p>
sheets waits.txt p.txt --depart early|0|-: Leaves at 0.0, back at 115.0
sheets i.txt p.txt --output s.html|0|s.html: </html>
timetable i.txt p.txt --csv|0|-: 1,1,5.0,0.0,5.0,5.0,1,
timetable waits.txt p.txt --csv|0|-: 1,20.0,20.0,0.0,20.0,0.0,95.0,115.0,2
timetable waits.txt p.txt --csv --depart early|0|-: 1,20.0,115.0,95.0,20.0,0.0,0.0,115.0,2
timetable i.txt p.txt --csv --dialect excel-de|0|-: 1;1;5,0;0,0;5,0;5,0;1;
timetable i.txt p.txt --csv --dialect plain --names semicolons.csv|0|-: 1,1,5.0,0.0,5.0,5.0,1,
timetable i.txt p.txt --csv --names semicolons.csv|0|-: 1;2;10,0;0,0;10,0;10,0;2;990,0;1.5
timetable i.txt p.txt --json --names names.csv|0|-: "name": "a"
why both.txt none.txt --names names.csv|0|-: the certificate proves it
why both.txt none_sets.txt --names names.csv|0|-: the certificate proves it
outside/workshop/try_parallel --install --program {program}|1|\
-: installs parallel rsync openssh-client openssh-server by apt-get
outside/workshop/try_slurm --install --program {program}|1|-: installs munge slurmctld slurmd slurm-client by apt-get
bench/contracts HEAD set_needs|0|-: 3 of 3 contracts of HEAD stand word for word
bench/leaves tree.txt 3|0|-: P 0 0
bench/leaves k.txt 4 >many.txt ; recheck i.txt many.txt|0|-: BOUND 0.0
bench/leaves sets.txt 4 >many.txt ; recheck i.txt many.txt p.txt|0|-: BEST 20.0
bench/leaves sets.txt 4 >many.txt ; bench/leaves many.txt 1|0|-: M 1 50000
bench/leaves none.txt 3 >many.txt ; bench/leaves many.txt 1|0|-: P 301000 301000
bench/make_instances made ; bench/make_instances made --check|0|made/c1_25.txt: c1-25-7025
bench/make_instances theirs --check|1|-: c1_25.txt isn't what is made
bench/make_instances --other RC1-1-5|0|-: rc1-1-5
bench/make_instances --other RC1-5-5 --open 100|0|-: rc1-5-5-open100
bench/solomon theirs --into l --customers 1,2 --options "--turns 2" --jobs 1 --published published.txt|0|-: met & \
l/literature.csv: C101,2,20.0,hand,20.0,1,20.0,0,
bench/solomon his --into l --customers 2,25 --options "--turns 2"|0|l/literature.csv: C101,2,,,20.0,1,20.0, & \
l/literature.csv: C1_2_1,2,,,20.0,1,20.0,
bench/solomon theirs --into l --program {program} --customers 2 --options --close|0|l/literature.csv: C101,2,
"""
# The words with one wrong value, its option, the status and a part of the one line.
WRONG = """
batch i.txt --into p.txt|--into|1|p.txt: File exists
batch i.txt --into r --options "--turns x"|--options|2|met "x"
batch i.txt --into r --options "'"|--options|2|No closing quotation
batch i.txt --into r --seeds 3-1|--seeds|2|met "3-1"
batch i.txt --into r --engine there|--engine|2|invalid choice: 'there'
batch i.txt --into r --jobs 0|--jobs|2|met "0"
batch i.txt --into r --engine parallel --sshloginfile nowhere|--sshloginfile|1|nowhere: No such file
batch i.txt --into r --engine slurm --slurm-options "'"|--slurm-options|2|No closing quotation
batch i.txt --into r --best nowhere|--best|1|nowhere: No such file
batch --status nowhere|--status|1|nowhere: met no folder, wanted that of --into
batch i.txt --into r --program nowhere|--program|1|nowhere: met no program
carry i.txt p.txt i.txt --names nowhere|--names|1|nowhere: No such file
carry i.txt p.txt i.txt --changed-names names2.csv|--changed-names|1|names2.csv: line 3: met no name of number 2
convert i.txt o.txt --to xml|--to|2|invalid choice: 'xml'
convert i.txt o.vrp --from xml|--from|2|invalid choice: 'xml'
convert t.csv o.txt --capacity 5 --vehicles 1001|--vehicles|2|met "1001"
convert t.csv o.txt --vehicles 5 --capacity 0|--capacity|2|met "0"
convert t.csv o.txt --vehicles 5 --capacity 5 --scale 0.5|--scale|2|met "0.5"
convert plain.csv o.txt --vehicles 5 --capacity 5 --horizon 25:77|--horizon|2|met "25:77"
convert geo.csv o.txt --vehicles 5 --capacity 5 --speed 0|--speed|2|met "0"
convert geo.csv o.txt --vehicles 5 --capacity 5 --speed 30 --detour x|--detour|2|met "x"
convert t.csv o.txt --vehicles 5 --capacity 5 --column until=due|--column|2|met "until=due"
convert end.csv o.txt --column due=end --vehicles 5 --capacity 5 --names nowhere/n.csv|--names|1|nowhere/n.csv: No such
draw i.txt p.txt --gpx||1|--names: met no lat and lon of depot, wanted those of all places
draw i.txt p.txt --names nowhere.csv --geojson||1|nowhere.csv: met no lat and lon of a, wanted those of all places
draw i.txt p.txt --gpx --times||2|argument --times: not allowed with argument --gpx
draw i.txt p.txt --times --depart never|--depart|2|invalid choice: 'never'
draw i.txt p.txt --names names2.csv|--names|1|names2.csv: line 3: met no name of number 2
draw i.txt p.txt --tree p.txt|--tree|1|p.txt: line 1: met
fewest i.txt --into p.txt|--into|1|p.txt: File exists
fewest i.txt --into f --seconds 0|--seconds|2|met "0"
fewest i.txt --into f --searchers 33|--searchers|2|met "33"
fewest i.txt --into f --bounders 0|--bounders|2|met "0"
fewest i.txt --into f --labels x|--labels|2|met "x"
fewest i.txt --into f --sets x|--sets|2|met "x"
fewest i.txt --into f --rows x|--rows|2|met "x"
fewest i.txt --into f --neighbours 16|--neighbours|2|met "16"
fewest i.txt --into f --seed -1|--seed|2|
fewest i.txt --into f --program nowhere|--program|1|nowhere: met no program
join i.txt grown.txt one.txt --solution p.txt|--solution|2|--solution goes with --check
join i.txt grown.txt one.txt --check --solution cost.txt|--solution|1|vrptw check says: vrptw: check: CostDiffers
join i.txt grown.txt one.txt --bound 20|--bound|2|met "20", wanted a number as 679.8
join i.txt grown.txt one.txt --bound 20.1 --check|--bound|1|vrptw check says: vrptw: check: BoundDiffers 20.1 20.0
join i.txt grown.txt one.txt --prune 20|--prune|2|met "20"
join i.txt grown.txt one.txt --jobs 0|--jobs|2|met "0"
join i.txt grown.txt one.txt --labels 0|--labels|2|met "0"
join i.txt grown.txt one.txt --program nowhere|--program|1|nowhere: met no program
judge i.txt moved.csv --names names.csv -o o.txt||1|moved.csv: met a plan that doesn't serve each customer once
judge i.txt nobody.csv --names names.csv||1|nobody.csv: line 3: met "c", wanted a customer's number or name
judge i.txt beside.csv --names names.csv||1|beside.csv: line 2: met "a" beside "2", wanted name and
judge i.txt alike.csv --names twins.csv||1|alike.csv: line 2: met "a", the name of 1 (Weg 1), 2 (Weg 2), wanted one
judge i.txt p.txt --best cost.txt|--best|1|cost.txt: line 2: met a cost of 20.1
judge i.txt p.txt -o p.txt|--output|1|p.txt: met the file that is read
judge i.txt p.txt --names names2.csv|--names|1|names2.csv: line 3: met no name of number 2
judge i.txt p.txt --depart never|--depart|2|invalid choice: 'never'
outside/workshop/large_trees i.txt --minutes x|--minutes|2|met "x"
outside/workshop/large_trees i.txt --minutes 0|--minutes|2|met "0"
outside/workshop/large_trees i.txt --turns 5,x|--turns|2|met "5,x"
outside/workshop/large_trees i.txt --jobs 0|--jobs|2|met "0"
outside/workshop/large_trees i.txt --seed x|--seed|2|met "x"
outside/workshop/large_trees i.txt --program nowhere|--program|1|nowhere: met no program
outside/workshop/large_trees i.txt --solver folder|--solver|1|folder: met no program
plan t.csv --into p.txt --vehicles 2 --capacity 5|--into|1|p.txt: File exists
plan t.csv --into d --vehicles 2 --capacity 5 --seconds x|--seconds|2|met "x"
plan t.csv --into d --vehicles 0 --capacity 5|--vehicles|2|met "0"
plan t.csv --into d --vehicles 2 --capacity x|--capacity|2|met "x"
plan t.csv --into d --vehicles 2 --capacity 5 --from vrplib|--from|1|t.csv: line 1: met
plan t.csv --into d --vehicles 2 --capacity 5 --scale 0|--scale|2|met "0"
plan plain.csv --into d --vehicles 2 --capacity 5 --horizon 0|--horizon|2|met "0"
plan geo.csv --into d --vehicles 2 --capacity 5 --speed -1|--speed|2|
plan geo.csv --into d --vehicles 2 --capacity 5 --speed 30 --detour 0|--detour|2|met "0"
plan t.csv --into d --vehicles 2 --capacity 5 --column due|--column|2|met "due"
plan i.txt --into d --names names3.csv|--names|1|names3.csv: line 4: met "3"
plan i.txt --into d --lang it|--lang|2|invalid choice: 'it'
plan i.txt --into d --depart never|--depart|2|invalid choice: 'never'
plan i.txt --into d --searchers 0|--searchers|2|met "0"
plan i.txt --into d --bounders 33|--bounders|2|met "33"
plan i.txt --into d --labels 0|--labels|2|met "0"
plan i.txt --into d --sets 1001|--sets|2|met "1001"
plan i.txt --into d --rows 1001|--rows|2|met "1001"
plan i.txt --into d --neighbours x|--neighbours|2|met "x"
plan i.txt --into d --seed x|--seed|2|met "x"
plan i.txt --into d --gap 1001|--gap|2|met "1001"
plan i.txt --into d --program folder|--program|1|folder: met no program
prove i.txt --into p.txt|--into|1|p.txt: File exists
bench/make_instances --other X1-5-5|--other|2|met "X1-5-5"
bench/make_instances --other RC1-5-5 --open 101|--open|2|met "101"
prove four.txt --into held||1|held/instance.txt: met another instance, wanted the same, or another DIR
prove four.txt --into wrong||1|wrong/certificate.txt isn't gone on from: vrptw: check: BoundDiffers 40.1 40.0; wanted
prove i.txt --into d --parts 501|--parts|2|met "501"
prove i.txt --into d --engine slurm|--engine|2|--parts N goes with --engine slurm
prove i.txt --into d --round 0|--round|2|met "0"
prove i.txt --into d --seconds x|--seconds|2|met "x"
prove i.txt --into d --jobs 0|--jobs|2|met "0"
prove i.txt --into d --parts 2 --engine parallel --sshloginfile nowhere|--sshloginfile|1|nowhere: No such file
prove i.txt --into d --slurm-options "'"|--slurm-options|2|No closing quotation
prove i.txt --into d --searchers 33|--searchers|2|met "33"
prove i.txt --into d --bounders 0|--bounders|2|met "0"
prove i.txt --into d --labels x|--labels|2|met "x"
prove i.txt --into d --neighbours 16|--neighbours|2|met "16"
prove i.txt --into d --sets 1001|--sets|2|met "1001"
prove i.txt --into d --rows 1001|--rows|2|met "1001"
prove i.txt --into d --seed -1|--seed|2|
prove i.txt --into d --program nowhere|--program|1|nowhere: met no program
recheck i.txt k.txt --jobs 0|--jobs|2|met "0"
recheck i.txt k.txt --labels 0|--labels|2|met "0"
recheck i.txt k.txt --labels 1|--labels|1|k.txt: 1 of 1 leaves have too many labels
report i.txt p.txt k.txt -o nowhere/r.html|--output|1|nowhere/r.html: No such file
report i.txt p.txt --depart never|--depart|2|invalid choice: 'never'
report i.txt p.txt k.txt --names nowhere -o r.html|--names|1|nowhere: No such file
report i.txt p.txt k.txt --fewest p.txt -o r.html|--fewest|1|p.txt: met no folder
report i.txt p.txt k.txt --tree --jobs x -o r.html|--jobs|2|met "x"
report i.txt p.txt k.txt --program nowhere -o r.html|--program|1|nowhere: met no program
respell i.txt p.txt --names nowhere|--names|1|nowhere: No such file
respell i.txt p.txt --certificate nowhere/c|--certificate|1|nowhere/c: No such file
respell i.txt p.txt --scale 0|--scale|2|met "0"
run --kinds manual --minutes -1|--minutes|2|
run --kinds manual --minutes x|--minutes|2|met "x"
run --kinds manual --runs 0|--runs|2|met "0"
run --kinds manual --seed x|--seed|2|met "x"
run --kinds manual --jobs 0|--jobs|2|met "0"
run --kinds manual --program nowhere|--program|1|nowhere: met no program
run --kinds turns --instruments nowhere|--instruments|1|nowhere: met no program
run --kinds manual,none|--kinds|2|no such kind: none
outside/workshop/completions --into p.txt|--into|1|p.txt: File exists
outside/workshop/set_maker i.txt --sets 1001|--sets|2|met "1001"
outside/workshop/set_maker i.txt --leaves 0|--leaves|2|met "0"
outside/workshop/set_maker i.txt --leaves 65||1|i.txt: met 65 leaves, wanted at most 64 by its arcs
outside/workshop/set_maker i.txt --neighbours 16|--neighbours|2|met "16"
outside/workshop/set_maker i.txt --seed x|--seed|2|met "x"
set_prices i.txt c.txt --rounds x|--rounds|2|met "x"
set_prices i.txt c.txt --neighbours 16|--neighbours|2|met "16"
set_prices i.txt c.txt --seed -1|--seed|2|
set_prices i.txt i.txt||1|i.txt: met the file that is read
set_prices i.txt p.txt p.txt||1|p.txt: met the file that is read
set_prices i.txt c.txt cost.txt||1|cost.txt: line 2: met a cost of 20.1
set_prices i.txt nowhere/c.txt||1|nowhere/c.txt: No such file
sheets i.txt p.txt --lang it|--lang|2|invalid choice: 'it'
sheets i.txt p.txt --vehicles-csv no_vans.csv|--vehicles-csv|1|no_vans.csv: met 0 vehicles, wanted one for each of the 1
sheets i.txt p.txt --depart never|--depart|2|invalid choice: 'never'
sheets i.txt p.txt -o i.txt|--output|1|i.txt: met the file that is read
sheets i.txt p.txt --names p.txt -o s.html|--names|1|p.txt: line 1: met
timetable i.txt p.txt --csv --dialect german|--dialect|2|invalid choice: 'german'
timetable i.txt p.txt --dialect plain||2|--dialect goes with --csv
timetable i.txt p.txt --depart never|--depart|2|invalid choice: 'never'
timetable i.txt p.txt --names nowhere|--names|1|nowhere: No such file
why both.txt none.txt --names names2.csv|--names|1|names2.csv: line 3: met no name of number 2
bench/contracts nowhere||1|git: fatal: Not a valid object name nowhere
bench/contracts HEAD nowhere||1|HEAD: met no contract there
bench/leaves tree.txt 0||2|met "0"
bench/leaves tree.txt 5||1|tree.txt: met 2 arcs between its customers, wanted more for 5 leaves
bench/leaves p.txt 5||1|p.txt: line 1: met
bench/solomon theirs --into p.txt|--into|1|p.txt/instances: Not a directory
bench/solomon theirs --into l --customers 0|--customers|2|met "0"
bench/solomon theirs --into l --options "--turns x"|--options|2|met "x"
bench/solomon theirs --into l --jobs 0|--jobs|2|met "0"
bench/solomon theirs --into l --published p.txt|--published|1|p.txt: line 1: met
bench/solomon theirs --into l --program nowhere|--program|1|nowhere: met no program
outside/workshop/try_parallel --program nowhere|--program|1|nowhere: met no program
outside/workshop/try_slurm --program nowhere|--program|1|nowhere: met no program
outside/workshop/try_parallel||1|isn't there; --install has apt-get install parallel rsync openssh-client openssh-server
outside/workshop/try_parallel --instal||2|unrecognized
outside/workshop/try_slurm||1|isn't there; --install has apt-get install munge slurmctld slurmd slurm-client
"""
# Options that take every value, with the reason.
ANY = {"--name": "what ours can't hold becomes what it can, and that is noted",
       "--title": "it stands on the sheets as it is", "--date": "it stands on the sheets as it is"}


def rows(table):
    return [[part.strip() for part in line.split("|")] for line in table.strip().split("\n")]


OPTION_ROWS = [("right", *row) for row in rows(RIGHT)] + [("wrong", *row) for row in rows(WRONG)]
