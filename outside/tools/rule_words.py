"""Columns of a table that sound like a rule, by words in six languages: what isn't kept, and what can be done today."""
import re

from tools.headings import meaning_of, without_measure
from tools.noting import DOUBT, Note
from tools.tool import quoted

# Of each rule the words for it in English, German, French, Spanish, Italian and Dutch; what is said of it.
RULES = {
    "vehicle": ("vehicle, van, truck, fahrzeug, wagen, lkw, véhicule, vehicule, camion, camionnette, vehículo, "
                "vehiculo, camión, furgoneta, veicolo, furgone, voertuig, bestelwagen, vrachtwagen",
                "any vehicle may serve anybody; customers of certain vehicles go into a table of their own"),
    "driver": ("driver, fahrer, fahrerin, chauffeur, conducteur, conductor, autista, conducente, bestuurder",
               "any driver may serve anybody; customers of certain drivers go into a table of their own, and "
               "`outside/sheets --vehicles-csv` puts drivers to vehicles afterwards"),
    "skill": ("skill, skills, requirement, requirements, equipment, qualifikation, fähigkeit, anforderung, "
              "ausstattung, compétence, competence, équipement, equipement, exigence, habilidad, competencia, "
              "requisito, equipo, competenza, abilità, attrezzatura, vaardigheid, vereiste, uitrusting",
              "all vehicles are equal; customers with one requirement go into a table of their own"),
    "pickup": ("pickup, pick-up, pick up, collection, collect, return, returns, abholung, abholen, rücknahme, leergut, "
               "ramassage, collecte, enlèvement, enlevement, retour, retours, reprise, recogida, devolución, "
               "devolucion, ritiro, reso, resi, ophalen, ophaling, afhalen",
               "all is handed over; where all is fetched, that may be the demand, and where both happen their sum, "
               "which is on the safe side"),
    "break": ("break, breaks, lunch, lunch break, pause, pausen, mittagspause, pause déjeuner, descanso, almuerzo, "
              "pausa, pausa pranzo, pauze, lunchpauze",
              "nobody has a break; the depot may close so much earlier, or a service take so much longer"),
    "second window": ("second window, window 2, zweites fenster, zeitfenster 2, deuxième créneau, créneau 2, "
                      "segunda ventana, ventana 2, seconda finestra, finestra 2, tweede venster, tijdvenster 2, "
                      "ready 2, due 2",
                      "a customer has one window; the one that suits most customers may be taken, or both be tried"),
    "volume": ("volume, weight, pallets, volumen, gewicht, paletten, poids, palettes, peso, palets, pallet, m3, m³, "
               "cbm, kg",
               "a vehicle holds one kind of load; the one that fills it first may be the demand, or of each customer "
               "the greater part of a vehicle in thousandths, with a capacity of 1000"),
}
MEANING = {word.strip(): rule for rule, (words, _) in RULES.items() for word in words.split(",")}
# What may stand behind such a word, and the number of a second window.
BEHIND = re.compile(r"[\s_.-]+(?:no|nr|number|id|type|typ|name|required)\.?\Z")
SECOND = re.compile(r"[\s_.-]*2\Z")


def rule_of(heading):
    """The rule that a heading sounds like, or None."""
    own = without_measure(heading).replace("_", " ")
    base = SECOND.sub("", own)
    if base != own and meaning_of(base) in ("ready", "due"):
        return "second window"
    return MEANING.get(own) or MEANING.get(BEHIND.sub("", own))


def noted_rules(unused):
    """What is noted of headings that nobody reads: all in a line, and in one of its own what sounds like a rule."""
    if not unused:
        return []
    found = [Note("not used: %s" % ", ".join(quoted(one)[1:-1] for one in unused), DOUBT)]
    return found + [Note('%s sounds like a rule (%s), and the plan doesn\'t keep it: %s' % (
        quoted(one), rule_of(one), RULES[rule_of(one)][1]), DOUBT) for one in unused if rule_of(one)]
