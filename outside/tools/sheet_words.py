"""The words of the drivers' sheets in the languages that they are written in."""

ENGLISH, GERMAN, FRENCH = "en", "de", "fr"
# How a window is told, and a sentence on each vehicle; {} stand for names, moments and lengths of time.
WORDS = {
    ENGLISH: {
        "title": "{}: drivers' sheets", "vehicle": "Vehicle {}", "customer": "customer {}", "depot": "depot",
        "stop": "stop", "one stop": "1 stop", "stops": "{} stops", "window": "window", "from to": "{} to {}",
        "arrival": "arrival", "begins": "begins at {}", "service": "service", "departure": "departure",
        "hand over": "hand over", "left": "left in vehicle", "done": "done", "visit": "a visit",
        "leaves": "leaves at", "back": "back at", "units": "units", "driver": "Driver: {}", "start": "Start: {}",
        "within": " (within {} {})",
        "whole": "{}: {}, {} to hand over, {} {}{}. Leaves at {}, back at {}: {} of driving, {} of service, {} of "
                 "waiting.",
        "loading": "Load in this order, the last stop first:", "sign": "Signature",
    },
    GERMAN: {
        "title": "{}: Fahrblätter", "vehicle": "Fahrzeug {}", "customer": "Kunde {}", "depot": "Depot",
        "stop": "Halt", "one stop": "1 Halt", "stops": "{} Halte", "window": "Zeitfenster", "from to": "{} bis {}",
        "arrival": "Ankunft", "begins": "Beginn um {}", "service": "Dauer", "departure": "Abfahrt",
        "hand over": "abzugeben", "left": "bleibt im Wagen", "done": "erledigt", "visit": "ein Besuch",
        "leaves": "Abfahrt um", "back": "zurück um", "units": "Einheiten", "driver": "Fahrer: {}", "start": "Beginn: {}",
        "within": " (auf {} {} genau)",
        "whole": "{}: {}, {} abzugeben, {} {}{}. Abfahrt um {}, zurück um {}: {} Fahrt, {} bei Kunden, {} Warten.",
        "loading": "In dieser Reihenfolge laden, der letzte Halt zuerst:", "sign": "Unterschrift",
    },
    FRENCH: {
        "title": "{} : feuilles de route", "vehicle": "Véhicule {}", "customer": "client {}", "depot": "dépôt",
        "stop": "arrêt", "one stop": "1 arrêt", "stops": "{} arrêts", "window": "créneau", "from to": "{} à {}",
        "arrival": "arrivée", "begins": "début à {}", "service": "durée", "departure": "départ",
        "hand over": "à livrer", "left": "reste à bord", "done": "fait", "visit": "une visite",
        "leaves": "départ à", "back": "retour à", "units": "unités", "driver": "Conducteur : {}", "start": "Début : {}",
        "within": " (à {} {} près)",
        "whole": "{} : {}, {} à livrer, {} {}{}. Départ à {}, retour à {} : {} de conduite, {} chez les clients, {} "
                 "d'attente.",
        "loading": "Charger dans cet ordre, le dernier arrêt d'abord :", "sign": "Signature",
    },
}
LANGUAGES = tuple(WORDS)
