"""The tools with files that fail, and with wrong words: rows that were made by hand, and what is said of each."""

INSTANCE = ("T\nVEHICLE\nNUMBER CAPACITY\n2 2\nCUSTOMER\n"
            "CUST NO. XCOORD. YCOORD. DEMAND READY TIME DUE DATE SERVICE TIME\n"
            "0 0 0 0 0 1000 0\n1 3 4 1 0 1000 0\n2 6 8 1 0 1000 0\n")
FILES = {
    "i.txt": INSTANCE,
    "other.txt": INSTANCE.replace("T\n", "U\n", 1),
    "late.txt": INSTANCE.replace("2 6 8 1 0 1000 0", "2 6 8 1 0 1 0"),
    "bad.txt": INSTANCE.replace("1 3 4 1", "1 3 4 x"),
    "few.txt": INSTANCE.replace("2 2\nC", "1 2\nC"),
    "small.txt": INSTANCE.replace("2 2\nC", "2 1\nC"),
    "heavy.txt": INSTANCE.replace("3 4 1", "3 4 3").replace("6 8 1", "6 8 2"),
    "shut.txt": INSTANCE.replace("0 1000 0\n1", "0 15 0\n1"),
    "over.txt": INSTANCE.replace("3 4 1 0", "1 5 1 0").replace("6 8 1 0 1000", "2 10 1 0 10"),
    "both.txt": INSTANCE.replace("2 2\nC", "1 2\nC").replace("0 0 0", "0 10 10").replace(
        "3 4 1 0 1000", "13 14 1 0 5").replace("6 8 1 0 1000", "7 6 1 0 5"),
    "two.txt": "Route #1: 1\nRoute #2: 2\nCost 30.0\n",
    "p.txt": "Route #1: 1 2\nCost 20.0\n",
    "cost.txt": "Route #1: 1 2\nCost 20.1\n",
    "lacks.txt": "Route #1: 1\nCost 10.0\n",
    "unknown.txt": "Route #1: 1\nRoute #2: 3\nCost 10.0\n",
    "twice.txt": "Route #1: 1\nRoute #2: 2 1\nCost 30.0\n",
    "form.txt": "Route #1: 1 2\nCost 20\n",
    "k.txt": "VRPTW-CERT 1\nINSTANCE T\nCUSTOMERS 2\nNEIGHBOURS 8\nBOUND 0.0\nTREE\nP 0 0\nEND\n",
    "high.txt": "VRPTW-CERT 1\nINSTANCE T\nCUSTOMERS 2\nNEIGHBOURS 8\nBOUND 0.1\nTREE\nP 0 0\nEND\n",
    "none.txt": "VRPTW-CERT 2\nINSTANCE T\nCUSTOMERS 2\nNEIGHBOURS 8\nBOUND 40.1\nTREE\nP 301000 301000\nEND\n",
    "worse.txt": "VRPTW-CERT 1\nINSTANCE T\nCUSTOMERS 2\nNEIGHBOURS 8\nBOUND 0.0\nTREE\nP 0 0 0\nEND\n",
    "digits.txt": ("VRPTW-CERT 1\nINSTANCE T\nCUSTOMERS 2\nNEIGHBOURS 8\nBOUND 0.0\nTREE\nP 0 %s\nEND\n"
                   % (5000 * "9")),
    "t.csv": "x,y,demand,ready,due,service\n0,0,0,0,1000,0\n3,4,1,0,1000,0\n",
    "half.csv": "x,y,demand,ready,due,service\n0,0,0,0,1000,0\n3.5,4,1,0,1000,0\n",
    "end.csv": "name,x,y,demand,ready,end,service\nd,0,0,0,0,1000,0\nc,3,4,1,0,1000,0\n",
    "plain.csv": "x;y;demand;service\n0;0;0;0\n-3;4;1;0\n",
    "sep.csv": "sep=;\nx;y;demand;ready;due;service\n0;0;0;6:00;18:00;0\n1,000;4;1;6:00;7:00;0\n",
    "day.csv": "sep=;\nx;y;demand;ready;due;service\n0;0;0;6:00;18:00;0\n1,0;4;1;6:00;7:61;0\n",
    "geo.csv": "lat,lon,demand,ready,due,service\n52,13,0,0,1000,0\n52.1,13,1,0,1000,0\n",
    "far.csv": "lat,lon,demand,ready,due,service\n52,13,0,0,1000,0\n91,13,1,0,1000,0\n",
    "visits.csv": "x,y,demand,ready,due,service\n0,0,0,0,1000,0\n3,4,0,0,1000,0\n3,4,,0,1000,0\n3,5,1,0,1000,0\n",
    "point.csv": "x;y;demand;ready;due;service\n0;0;0;06.00;18.00;0\n1;1;1;06.30;;2\n",
    "quarters.csv": "x;y;demand;ready;due;service\n0;0;0;0,25;0,50;0\n1;1;1;0,30;0,40;2\n",
    "untidy.csv": "Tour;;;;;\nKunde;x;y;Menge;von;bis;Dauer;Fach\nA;0;0;;6:00;18:00;;\nB;1;1;2;7:00;8;0:10;k\n"
                  "B;1;2;3;390;8:00;x;k\n;;;5;;;;\n",
    "moment.csv": "x;y;demand;ready;due;service\n0;0;0;6:00;18:00;0\n3;4;1;6:30:20;6:30:20;5\n",
    "below.csv": "x,y,demand,ready,due,service\n0,0,0,0,1000,0\n9999.5,0,1,0,1000,-0.4\n",
    "full.csv": "name,x,y,demand,ready,due,service\nD,0,0,,0,1000,\nA,10,0,40,0,1000,5\nB,10,5,,0,1000,5\n",
    "units.csv": "# vrptw units: scale=x\nnumber,name\n0,depot\n1,a\n2,b\n",
    "names.csv": "number,name\n0,depot\n1,a\n2,b\n",
    "names2.csv": "number,name\n0,depot\n1,a\n",
    "names3.csv": "number,name\n0,depot\n1,a\n3,b\n",
    "cr.txt": "Route #1: 1 2\r\nCost 20.0\r\n",
    "mac.txt": "Route #1: 1 2\rCost 20.0\r",
    "cut.txt": "Route #1: 1 2\nCost 20.0",
    "crk.txt": "VRPTW-CERT 1\nINSTANCE T\nCUSTOMERS 2\r\nNEIGHBOURS 8\nBOUND 0.0\nTREE\nP 0 0\nEND\n",
    "same.csv": "number,name\n0,depot\n1,a\n2,a\n",
    "other.csv": "number,name\n0,1\n1,2\n2,3\n",
    "named.txt": "Route 1: depot -> a -> b -> depot\n",
    "twins.txt": "Route 1: depot -> a -> depot\n",
    "json.txt": '{"code":0,\n"summary":{"cost":20},\n"unassigned":[]}\n',
    "pickup.txt": '{"routes":[{"steps":[{"type":"job","id":1},\n{"type":"pickup","id":2}]}]}\n',
    "or.txt": "Route for vehicle 0:\nLoad of the route: 5\n",
    "lkh.txt": "T, Cost: 0_20\nThe tours traveled by the 1 salesmen are:\n1 2 3 4 1 (#4)  Cost: 20\n",
    "c.vrp": "NAME : c\nTYPE : CVRP\nDIMENSION : 2\nCAPACITY : 9\nEDGE_WEIGHT_TYPE : EUC_2D\nNODE_COORD_SECTION\n"
             "1 0 0\n2 3 4\nDEMAND_SECTION\n1 0\n2 1\nDEPOT_SECTION\n1\n-1\nEOF\n",
    # By hand: 10,000 parts of 30000.1 have 3.00001 each, so the demands take 3334 of them (10002.03334, 2.00334 more)
    # and 6667: 10001 together.
    "heavy.csv": "x,y,demand,ready,due,service\n0,0,0,0,1000,0\n3,4,10000.03,0,1000,0\n3,5,20000.07,0,1000,0\n",
    "rules.csv": "Kunde,x,y,Menge,von,bis,Dauer,Abholung,Fahrer-Nr,Farbe\nA,0,0,,0,1000,,,,\n"
                 "B,3,4,1,0,1000,0,1,7,rot\n",
    "book.xlsx": "PK\x03\x04\x14", "book.csv": "PK\x03\x04\x14",
    "empty.csv": "", "empty.vrp": "", "empty.txt": "",
}
# The words, the file that is at fault, its line, and a part of what is said; without a line that part is all.
REFUSED = """
batch nowhere --into r|nowhere|0|No such file or directory
batch i.txt folder/../i.txt --into r|folder/../i.txt|0|met the name i again, after i.txt, wanted each name once
batch folder --into r|folder|0|met no instance, wanted files that vrptw reads
batch i.txt --into p.txt|p.txt|0|File exists
batch i.txt --into r --program nowhere|nowhere|0|met no program, wanted one that can be run
batch i.txt --into r --best nowhere|nowhere|0|No such file or directory
batch i.txt --into r --best p.txt|p.txt|1|met "Route #1: 1 2", wanted a name and a cost above 0 with one decimal
batch i.txt --into nowhere --status|nowhere|0|met no folder, wanted that of --into
batch --status nowhere|nowhere|0|met no folder, wanted that of --into
batch --status folder|folder|0|met no step, wanted the folder of a batch
batch i.txt --into r --engine parallel --sshloginfile nowhere|nowhere|0|No such file or directory
fewest nowhere.txt --into r|nowhere.txt|0|No such file or directory
fewest bad.txt --into r|bad.txt|8|BadNumber
fewest i.txt --into p.txt|p.txt|0|File exists
fewest i.txt --into nowhere --check|nowhere|0|met no folder, wanted that of --into
fewest i.txt --into r --program nowhere|nowhere|0|met no program, wanted one that can be run
plan nowhere.csv --into r --vehicles 5 --capacity 5|nowhere.csv|0|No such file or directory
plan bad.txt --into r|bad.txt|8|"x"
plan i.txt --into p.txt|p.txt|0|File exists
plan i.txt --into r --program nowhere|nowhere|0|met no program, wanted one that can be run
plan t.csv --into r --capacity 5|t.csv|3|--vehicles
plan geo.csv --into r --vehicles 5 --capacity 5|geo.csv|1|met degrees without a speed, wanted --speed N, in km/h
convert geo.csv o.txt --vehicles 5 --capacity 5|geo.csv|1|met degrees without a speed
convert far.csv o.txt --vehicles 5 --capacity 5 --speed 30|far.csv|3|met "91" in "lat", wanted lat of -90 to 90
convert heavy.csv o.txt --vehicles 1 --capacity 30000.1|heavy.csv|4|demands that 1 vehicle holds, and don't fit once they
convert i.txt o.vrp --capacity 12.5|--capacity|0|met 12.5, wanted a whole number of 1 to 10000 here
convert moment.csv o.txt --vehicles 5 --capacity 5|moment.csv|3|no moment times 100 is whole
convert below.csv o.txt --vehicles 5 --capacity 5|below.csv|3|met "-0.4" in "service", wanted a service time of 0 to 1000000
convert t.csv o.txt --vehicles 5 --capacity 5 --speed 30|t.csv|0|met --speed and no lat and lon, wanted both or none
convert i.txt o.vrp --detour 1.2|i.txt|0|met --detour and no lat and lon, wanted both or none
convert t.csv o.txt --vehicles 5 --capacity 5 --column due=bis|t.csv|1|met no column "bis", wanted the one of --column
timetable i.txt p.txt --names units.csv|units.csv|1|met "scale=x", wanted scale, clock, speed, demands, visits, detour, off, capacity as
convert nowhere.csv o.txt|nowhere.csv|0|No such file or directory
convert folder o.txt --from csv|folder|0|Is a directory
convert book.xlsx o.txt --vehicles 5 --capacity 5|book.xlsx|0|met a workbook, wanted its sheet saved as CSV: in Excel by File, Save As, CSV UTF-8
plan book.xlsx --into r --vehicles 5 --capacity 5|book.xlsx|0|met a workbook, wanted its sheet saved as CSV: in Excel by File, Save As, CSV UTF-8
convert book.csv o.txt --vehicles 5 --capacity 5|book.csv|0|met a workbook, wanted its sheet saved as CSV: in Excel by File, Save As, CSV UTF-8
timetable i.txt p.txt --names book.xlsx|book.xlsx|0|met a workbook, wanted its sheet saved as CSV: in Excel by File, Save As, CSV UTF-8
convert empty.csv o.txt|empty.csv|1|the end
convert empty.vrp o.txt|empty.vrp|1|the end
convert empty.txt o.txt|empty.txt|1|the end
convert bad.txt o.vrp|bad.txt|8|"x"
convert i.txt nowhere/o.vrp|nowhere/o.vrp|0|No such file or directory
convert i.txt folder --to csv|folder|0|Is a directory
convert i.txt i.txt|i.txt|0|met the file that is read, wanted another one to write
convert i.txt link.txt|link.txt|0|met the file that is read, wanted another one to write
convert i.txt /dev/full --to csv|/dev/full|0|No space left on device
convert i.xml o.txt|i.xml|0|met the ending ".xml", wanted .txt, .vrp, .csv, .json, or a layout by --from
convert i.txt o|o|0|met the ending "", wanted .txt, .vrp, .csv, .json, or a layout by --to
convert t.csv o.txt --capacity 5|t.csv|3|--vehicles
convert t.csv o.txt --vehicles 5|t.csv|3|--capacity
convert half.csv o.txt --vehicles 5 --capacity 5 --scale 3|half.csv|3|met "3.5" in "x", wanted x, a whole number by --scale 3
convert i.txt o.vrp --scale 1001|i.txt|7|times 1001
convert end.csv o.txt --vehicles 5 --capacity 5|end.csv|1|met no column "due", and headings that aren't known: "end", wanted
convert plain.csv o.txt --vehicles 5 --capacity 5|plain.csv|1|met no column "ready", "due", wanted
convert plain.csv o.txt --vehicles 5 --capacity 5 --horizon 10001 --scale 100|plain.csv|2|met "10001" by --horizon of the depot, wanted at most 10000
convert t.csv o.txt --vehicles 5 --capacity 5 --horizon 5|t.csv|1|met windows, and --horizon, wanted one of both
convert i.txt o.txt --horizon 5|i.txt|7|met windows, and --horizon, wanted one of both
convert quarters.csv o.txt --vehicles 5 --capacity 5|quarters.csv|2|\
met "0,25" in "ready" of the depot, which may be 00:25, 06:00 or the number 0.25, wanted
convert untidy.csv o.txt --vehicles 5 --capacity 5|untidy.csv|4|\
met "8" in "bis" of B, which may be 08:00 or the number 8, wanted all in one spelling
convert untidy.csv o.txt --vehicles 5 --capacity 5|untidy.csv|5|met "x" in "Dauer" of B, wanted a service time, as 0:10 or
convert sep.csv o.txt --vehicles 5 --capacity 5|sep.csv|4|met "1,000" in "x", whose comma may part thousands or decimals,
convert day.csv o.txt --vehicles 5 --capacity 5|day.csv|4|"7:61"
convert t.csv o.txt --vehicles 5 --capacity 5 --names n.csv|t.csv|1|met no column "name" or "customer", wanted
convert end.csv end.csv|end.csv|0|met the file that is read, wanted another one to write
convert i.txt o.vrp --names i.txt|i.txt|0|met the file that is read, wanted another one to write
convert i.txt o.vrp --names o.vrp|o.vrp|0|met the file of the instance, wanted another one to write
convert i.txt o.vrp --names nowhere/n.csv|nowhere/n.csv|0|No such file or directory
convert i.txt nowhere/o.vrp --names n.csv|nowhere/o.vrp|0|No such file or directory
convert c.vrp o.txt --vehicles 5|c.vrp|2|met TYPE : CVRP without TIME_WINDOW_SECTION, wanted
convert c.vrp o.txt --horizon 5|c.vrp|15|--vehicles
timetable i.txt p.txt --names names2.csv|names2.csv|3|no name of number 2
timetable i.txt p.txt --names names3.csv|names3.csv|4|"3"
draw i.txt p.txt --names t.csv|t.csv|1|"x,y,demand
draw i.txt p.txt --names nowhere|nowhere|0|No such file or directory
respell nowhere.txt p.txt|nowhere.txt|0|No such file or directory
respell i.txt nowhere.txt|nowhere.txt|0|No such file or directory
respell bad.txt p.txt|bad.txt|8|BadNumber
respell t.csv p.txt|t.csv|1|met a table, wanted an instance: convert it first
why t.csv|t.csv|1|met a table, wanted an instance: convert it first (outside/convert t.csv instance.txt), or use
fewest t.csv --into r|t.csv|1|met a table, wanted an instance: convert it first
draw t.csv p.txt|t.csv|1|met a table, wanted an instance: convert it first
respell i.txt lacks.txt|lacks.txt|2|no customer 2
respell i.txt unknown.txt|unknown.txt|3|no customer 2
respell i.txt twice.txt|twice.txt|2|customer 1 again, after line 1
respell i.txt twice.txt --from-zero|twice.txt|2|customer 1 again, after line 1
respell i.txt p.txt --from-zero|p.txt|2|no customer 0
respell i.txt empty.txt|empty.txt|1|a route
respell i.txt named.txt|named.txt|1|met "depot", wanted a customer's number
respell i.txt twins.txt --names same.csv|twins.txt|1|met "a", the name of 1, 2, wanted one of one customer
respell i.txt named.txt --names other.csv|named.txt|1|met "depot", wanted a customer's number, a name of the table
respell i.txt json.txt|json.txt|1|no list "routes"
respell i.txt pickup.txt|pickup.txt|2|a step that is no job
respell i.txt or.txt|or.txt|2|met "Load of the route: 5", wanted the route of the vehicle above
respell i.txt lkh.txt|lkh.txt|3|met "4", wanted each customer of 2 to 3 once, and at the ends the depot 1
respell i.txt p.txt --names names2.csv|names2.csv|3|no name of number 2
respell i.txt p.txt --certificate i.txt|i.txt|0|met the file that is read, wanted another one to write
respell i.txt p.txt --certificate p.txt|p.txt|0|met the file that is read, wanted another one to write
respell i.txt p.txt --certificate /dev/stdout >>empty.txt|/dev/stdout|0|\
met the stream of the plan, wanted another one to write
respell i.txt p.txt --certificate empty.txt >>empty.txt|empty.txt|0|\
met the stream of the plan, wanted another one to write
convert i.txt empty.txt --names - >>empty.txt|-|0|met the file of the instance, wanted another one to write
respell i.txt p.txt --certificate nowhere/c|nowhere/c|0|No such file or directory
timetable i.txt cost.txt|cost.txt|2|20.1
timetable i.txt lacks.txt|lacks.txt|2|no customer 2
timetable i.txt unknown.txt|unknown.txt|2|"3"
timetable i.txt form.txt|form.txt|2|BadLine
timetable i.txt twice.txt|twice.txt|2|customer 1 again
timetable i.txt mac.txt|mac.txt|1|met "Route #1: 1 2" with a carriage return behind it (BadLine), wanted lines that
recheck i.txt crk.txt|crk.txt|3|carriage return
timetable i.txt empty.txt|empty.txt|1|met an empty file, wanted a plan (solve leaves the file empty after NO PLAN, OPEN
draw i.txt empty.txt|empty.txt|1|an empty file
recheck i.txt k.txt empty.txt|empty.txt|1|an empty file
recheck i.txt empty.txt|empty.txt|1|wanted a certificate (solve leaves the file empty after each fault)
timetable i.txt - < cost.txt|standard input|2|20.1
timetable bad.txt -|bad.txt|8|BadNumber
timetable - - < i.txt|standard input|0|met a closed one, or it for a second file, wanted it open and once
timetable i.txt - <&-|standard input|0|met a closed one, or it for a second file, wanted it open and once
draw small.txt - < p.txt|standard input|1|met a route with a load of 2
recheck other.txt - < k.txt|standard input|2|another instance
convert - o.txt --from csv --vehicles 5 --capacity 5 < end.csv|standard input|1|met no column "due", and headings that aren't known: "end", wanted
convert - o.txt < i.txt|-|0|met the ending "", wanted .txt, .vrp, .csv, .json, or a layout by --from
convert i.txt - --to csv --names -|-|0|met the file of the instance, wanted another one to write
respell i.txt - --certificate - < p.txt|-|0|met the stream of the plan, wanted another one to write
timetable folder p.txt|folder|0|Is a directory
draw i.txt cost.txt|cost.txt|2|20.1
draw late.txt p.txt|p.txt|1|met a route that comes too late: to customer 2 at 10.0, which is due at 1.0,
draw few.txt two.txt|two.txt|2|met one route more than the 1 vehicles,
draw small.txt p.txt|p.txt|1|met a route with a load of 2, and a vehicle holds 1,
draw other.txt p.txt --tree k.txt|k.txt|2|another instance
draw i.txt p.txt --tree worse.txt|worse.txt|7|BadLine
draw i.txt p.txt --tree nowhere|nowhere|0|No such file or directory
sheets i.txt cost.txt -o s.html|cost.txt|2|20.1
sheets small.txt p.txt -o s.html|p.txt|1|met a route with a load of 2, and a vehicle holds 1,
sheets i.txt p.txt -o p.txt|p.txt|0|met the file that is read, wanted another one to write
report i.txt p.txt k.txt -o r.html --program nowhere|nowhere|0|met no program, wanted one that can be run
report i.txt cost.txt -o r.html|cost.txt|2|20.1
report small.txt p.txt -o r.html|p.txt|1|met a route with a load of 2, and a vehicle holds 1,
report i.txt empty.txt -o r.html|empty.txt|1|an empty file
report i.txt p.txt high.txt -o r.html|high.txt|5|met a bound of 0.1, wanted that of the tree, 0.0
report i.txt empty.txt high.txt -o r.html|high.txt|5|met a bound of 0.1
report i.txt p.txt k.txt --fewest nowhere -o r.html|nowhere|0|met no folder, wanted that of --into
report other.txt p.txt k.txt -o r.html|k.txt|2|another instance
report i.txt p.txt --names names2.csv -o r.html|names2.csv|3|no name of number 2
report i.txt p.txt -o p.txt|p.txt|0|met the file that is read, wanted another one to write
report i.txt p.txt -o nowhere/r.html|nowhere/r.html|0|No such file or directory
recheck other.txt k.txt|k.txt|2|another instance
recheck i.txt high.txt|high.txt|5|met a bound of 0.1, wanted that of the tree, 0.0
recheck i.txt worse.txt p.txt|worse.txt|7|BadLine
recheck i.txt digits.txt|digits.txt|7|PriceRange
recheck i.txt k.txt cost.txt|cost.txt|2|20.1
recheck few.txt k.txt two.txt|two.txt|2|met one route more than the 1 vehicles,
recheck i.txt nowhere|nowhere|0|No such file or directory
join i.txt k.txt nowhere|nowhere|0|No such file or directory
join other.txt k.txt k.txt|k.txt|2|another instance
join i.txt k.txt none.txt|none.txt|1|met "VRPTW-CERT 2", wanted "VRPTW-CERT 1", as k.txt has
join i.txt k.txt worse.txt|worse.txt|7|BadLine
join i.txt k.txt crk.txt|crk.txt|3|carriage return
join i.txt empty.txt k.txt|empty.txt|1|an empty file
join i.txt - - < k.txt|standard input|0|met a closed one, or it for a second file, wanted it open and once
why nowhere.txt|nowhere.txt|0|No such file or directory
why bad.txt|bad.txt|8|BadNumber
why heavy.txt nowhere|nowhere|0|No such file or directory
why other.txt k.txt|k.txt|2|another instance
why late.txt high.txt|high.txt|5|met a bound of 0.1, wanted that of the tree, 0.0
"""
# What is read, and noted with these words.
NOTED = """
timetable i.txt cr.txt|cr.txt: lines end in a carriage return and a line feed
timetable i.txt cut.txt|cut.txt: the last line has no line feed
draw i.txt cr.txt|cr.txt: lines end in a carriage return and a line feed
recheck i.txt k.txt cr.txt|cr.txt: lines end in a carriage return and a line feed
carry i.txt cut.txt other.txt|cut.txt: the last line has no line feed
report i.txt cr.txt k.txt|cr.txt: lines end in a carriage return and a line feed
convert point.csv - --to ours --vehicles 5 --capacity 5|times such as "06.00" (line 2) are taken as times of the day, here 06:00
convert half.csv - --to ours --vehicles 5 --capacity 5|multiplied by 10, the least power of ten
convert - - --from csv --to ours --vehicles 5 --capacity 5 < half.csv|multiplied by 10, the least power of ten
convert visits.csv - --to ours --vehicles 5 --capacity 3333|loads are counted in other units, so they fit exactly where they did
convert heavy.csv - --to ours --vehicles 2 --capacity 30000.1|10000 of it: each load counts up to 2
convert rules.csv - --to ours --vehicles 5 --capacity 5|note: not used: Abholung, Fahrer-Nr, Farbe
convert rules.csv - --to ours --vehicles 5 --capacity 5|"Abholung" sounds like a rule (pickup), and the plan doesn't keep
convert rules.csv - --to ours --vehicles 5 --capacity 5|"Fahrer-Nr" sounds like a rule (driver), and the plan doesn't keep
"""
# Wrong words, with a part of the one line that tells them; the status is 2.
WORDS = """
convert|required: FROM, TO
plan i.txt|required: --into
fewest i.txt|required: --into
fewest --into r|required: INSTANCE
fewest i.txt --into r --seconds 0|met "0"
plan i.txt --into r --seconds 0|met "0"
plan i.txt --into r --turns 5|unrecognized
convert t.csv o.txt --column due|met "due", wanted OURS=THEIRS
convert t.csv o.txt --column due=a --column due=b|met "due=b" again
convert t.csv o.txt --horizon 25:77|met "25:77"
convert t.csv o.txt --speed 0|met "0", wanted a number of 0.001 to 1000
convert t.csv o.txt --speed 33.3333333|met "33.3333333", wanted a number of 0.001 to 1000, of at most 6 decimals
sheets i.txt|required: SOLUTION
report i.txt p.txt --tree|--tree goes with a certificate
recheck i.txt k.txt --jobs 0|met "0"
batch i.txt|required: --into
batch --into r|required: FOLDER
batch i.txt --into r --options "--turns x"|met "x", wanted options of solve with numbers
batch i.txt --into r --options "--turns 0"|0 is not in 1..=1000000
batch i.txt --into r --options --veh|--veh
batch i.txt --into r --options "--turns 2 --seconds 3"|met --turns beside --seconds, wanted one of them
batch i.txt --into r --options --seconds|met --seconds without a number from 1 on
batch i.txt --into r --options "--seconds=0"|met --seconds without a number from 1 on
batch i.txt --into r --options "a: --turns 2" --options "a: --turns 3"|met the set a again, wanted each name once
batch i.txt --into r --options "a: b: --turns 2"|met "b:", wanted options of solve with numbers
batch i.txt --into r --options "--seed 3" --seeds 1,2|met --seed beside --seeds, wanted one of them
batch i.txt --into r --seeds 1,2,1|met "1,2,1", wanted seeds as 1,2,7 or 1-5, each once
batch i.txt --into r --seeds 3-1|met "3-1"
batch i.txt --into r --engine parallel|go together
batch i.txt --into r --wait|go with --engine slurm
batch i.txt --into r --jobs 0|met "0"
convert i.txt|required: TO
convert i.txt o.vrp x|unrecognized
convert i.txt o.vrp --veh 5|unrecognized
convert i.txt o.vrp --vehicles 0|met "0", wanted a whole number of 1 to 1000
convert i.txt o.vrp --vehicles 1001|met "1001"
convert i.txt o.vrp --capacity x|met "x"
convert i.txt o.vrp --scale 0.5|met "0.5"
convert i.txt o.vrp --to xml|invalid choice
convert i.txt o.vrp --horizon 0|met "0", wanted a whole number of 1 to 1000000
respell i.txt|required: SOLUTION
timetable i.txt p.txt --cvs|unrecognized
timetable i.txt p.txt --csv --json|not allowed
draw i.txt p.txt --times --tree k.txt|not allowed
recheck i.txt|required: CERTIFICATE
report i.txt|required: SOLUTION
why|required: INSTANCE
why i.txt k.txt p.txt|unrecognized
"""
# What `why` prints, with its status. The customer of over.txt that is due at 10.0 is at 10.1 from the depot, and at 5.0
# and 5.0 by the other one. In both.txt two customers are due at once, and there is one vehicle: a route of one of them
# costs 10.0, so at prices of 30.1 the only leaf has the value 60.2 less 20.1, and the ceiling is 40.0.
# What comes on standard output. In full.csv one vehicle is full with A and drives by B: 10.0 to A, 5.0 from there to B,
# and back 11.1, the root of 125 cut to a tenth. With one stop without demand a demand of 40 becomes 80, and a capacity
# of 40 becomes 81; with the two of visits.csv a demand of 1 becomes 3, and a capacity of 3332 becomes 9998. In half.csv
# the way is the root of 28.25, cut to a hundredth: 5.31, and so is the way back.
HEAD = "VEHICLE\nNUMBER CAPACITY\n%s\nCUSTOMER\nCUST NO. XCOORD. YCOORD. DEMAND READY TIME DUE DATE SERVICE TIME\n"
DRIVES = "1 vehicle serves all 2 customers and drives 26.1 units, and no plan is shorter.\n"
PRINTED = [
    ("convert full.csv - --to ours --vehicles 1 --capacity 40",
     "full\n" + HEAD % "1 81" + "0 0 0 0 0 1000 0\n1 10 0 80 0 1000 5\n2 10 5 1 0 1000 5\n"),
    ("convert visits.csv - --to ours --vehicles 5 --capacity 3332",
     "visits\n" + HEAD % "5 9998" + "0 0 0 0 0 1000 0\n1 3 4 1 0 1000 0\n2 3 4 1 0 1000 0\n3 3 5 3 0 1000 0\n"),
    ("plan full.csv --into r --vehicles 1 --capacity 40 --seconds 30", DRIVES),
    ("plan full.csv --into r --vehicles 2 --capacity 40 --seconds 30", DRIVES),
    ("plan half.csv --into r --vehicles 1 --capacity 5 --names names2.csv --seconds 30",
     "1 vehicle serves all 1 customer and drives 10.62 units, and no plan is shorter.\n"),
]
NONE = "no such reason; the certificate has the proof, if there is no plan"
LATE = "customer 2 can't be served alone: met a service that begins at 10.0, wanted by %s; over other customers it " \
       "can't either: met 10.0, wanted by %s"
WHY = [
    ("i.txt", 1, [NONE]),
    ("small.txt", 1, [NONE]),
    ("both.txt", 1, [NONE]),
    ("both.txt none.txt", 0, ["the certificate proves it, by its only leaf"]),
    ("i.txt k.txt", 1, ["no such reason, and the certificate proves none: met a bound of 0.0, wanted one above 40.0"]),
    ("late.txt", 0, [LATE % ("1.0", "1.0")]),
    ("late.txt k.txt", 0, [LATE % ("1.0", "1.0")]),
    ("shut.txt", 0, [LATE % ("5.0", "5.0")]),
    ("over.txt", 1, ["customer 2 can't be served alone: met a service that begins at 10.1, wanted by 10.0; over other "
                     "customers it may be, so this proves nothing: met 10.0, wanted by 10.0", NONE]),
    ("heavy.txt", 0, ["customer 1 can't be served: met a demand of 3, wanted at most 2, which a vehicle holds",
                      "the fleet can't serve all: met a demand of 5, wanted at most 4, which 2 vehicles hold"]),
]
TOOLS = ("batch", "plan", "fewest", "convert", "carry", "respell", "timetable", "draw", "report", "sheets", "recheck",
         "join", "why", "workshop/completions", "workshop/manual", "workshop/set_maker", "set_prices")
# With standard output on a full device or closed.
PRINTING = ("convert i.txt - --to csv", "convert - - --from csv --to ours --vehicles 2 --capacity 2 --name T < t.csv",
            "respell i.txt p.txt", "timetable - p.txt < i.txt", "timetable i.txt p.txt", "timetable i.txt p.txt --json",
            "draw i.txt p.txt",
            "recheck i.txt k.txt", "join i.txt k.txt k.txt", "report i.txt p.txt k.txt", "why late.txt")


def rows(table):
    return [line.split("|") for line in table.strip().split("\n")]


FAULTS = ([("refused", *row) for row in rows(REFUSED)] + [("words", *row) for row in rows(WORDS)]
          + [("noted", *row) for row in rows(NOTED)] + [("why", *row) for row in WHY]
          + [("printed", *row) for row in PRINTED]
          + [("help", tool) for tool in TOOLS]
          + [("full", words) for words in PRINTING]
          + [("closed", words) for words in PRINTING])
