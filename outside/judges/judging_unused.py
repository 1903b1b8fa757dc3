"""One run of `convert` on a sheet in one of six languages with columns that nobody reads: these are named once, known
ones never, and each that sounds like a rule has a warning; the names have all of them."""
import csv
import os
import re

from judges.judging_doubts import LANGUAGES, Sheet
from judges.judging_layouts import demand_notes, tool
from judges.kind import Kind, tools_by
from judges.running import demand, got, put

# What a rule is called, and a heading for it in each language.
RULES = {
    "vehicle": ("Vehicle", "Fahrzeug", "Véhicule", "Vehículo", "Voertuig", "Veicolo"),
    "driver": ("Driver", "Fahrer", "Chauffeur", "Conductor", "Bestuurder", "Autista"),
    "skill": ("Skills", "Qualifikation", "Compétence", "Habilidad", "Vaardigheid", "Competenza"),
    "pickup": ("Pickup", "Abholung", "Ramassage", "Recogida", "Ophalen", "Ritiro"),
    "break": ("Lunch break", "Mittagspause", "Pause", "Descanso", "Pauze", "Pausa pranzo"),
    "second window": ("From 2", "von 2", "Ouverture 2", "Desde 2", "Tot 2", "Dalle 2"),
    "volume": ("Volume [m3]", "Volumen", "Poids (kg)", "Peso", "Gewicht", "Volume"),
}
ORDER = ("English", "German", "French", "Spanish", "Dutch", "Italian")
# What is no rule in any of them.
OTHERS = ("Telefon", "Note", "E-Mail", "Colour", "Kundennr.", "Région", "7", "a & b", "Tarif <1>")
SOUNDS = re.compile(r'^outside/convert: note: "(.*)" sounds like a rule \((.*)\), and the plan doesn\'t keep it: (.+)$',
                    re.M)
UNUSED = re.compile(r"^outside/convert: note: not used: (.*)$", re.M)


def judge_unused(folder, random):
    """A sheet with columns more."""
    sheet = Sheet(random)
    language = random.choice([ORDER.index(sheet.language), random.randrange(6)])
    rules = {RULES[rule][language]: rule for rule in random.sample(list(RULES), random.choice([0, 1, 1, 2, 7]))}
    more = [*rules, *random.sample(OTHERS, random.choice([0, 0, 1, 3]))]
    random.shuffle(more)
    known = list(LANGUAGES[sheet.language])
    fields = [[*own, *("%s%d" % (random.choice(["", "x"]), i) for i in range(len(more)))] for own in sheet.rows]
    heading = [*known, *(random.choice([one, one.upper(), one.lower()]) for one in more)]
    order = random.sample(range(len(heading)), len(heading))
    source, target, names = (os.path.join(folder, name) for name in ("t.csv", "i.txt", "n.csv"))
    put(source, "".join(";".join(row[place] for place in order) + "\n" for row in [heading, *fields]).encode())
    keeps = random.randrange(2) == 0
    out, errors, status = tool("convert", source, target, "--vehicles", "20", "--capacity", "90", "--speed", "200",
                               *(["--names", names] if keeps else []))
    demand((out, status) == (b"", 0), "convert: status %d, %r" % (status, errors))
    demand_notes("convert", errors)
    right = [heading[place] for place in order if place >= len(known)]
    demand(UNUSED.findall(errors) == ([", ".join(right)] if right else []), "%r isn't %r" % (errors, right))
    told = [(one, rule) for one, rule, _ in SOUNDS.findall(errors)]
    spelled = {one.lower(): rule for one, rule in rules.items()}
    wanted = [(one, spelled[one.lower()]) for one in right if one.lower() in spelled]
    demand(told == wanted, "%r, and %r sound like rules" % (told, wanted))
    over = "".join(line for line in errors.splitlines() if "passed over" in line)
    demand(all('"%s"' % one not in over for one in right), "named twice: %r" % errors)
    if keeps:
        there = next(csv.reader([line for line in got(names).decode().splitlines() if not line.startswith("#")],
                                delimiter=";"))
        demand([one for one in there[2:] if one not in ("lat", "lon")] == [one.lower() for one in right], "%r" % there)
    return "%d of %d like rules" % (len(wanted), len(right))


KINDS = {
    "unused": Kind("a sheet in one of six languages with columns that nobody reads, by convert: each is named once", 30,
                   tools_by(judge_unused)),
}
