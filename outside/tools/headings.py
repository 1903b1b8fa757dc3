"""What the columns of a table are called in six languages, and in which line its heading stands."""
import re
import unicodedata

# Our names of columns. The first one of the two for names that is there has them.
NAMED = ("name", "customer")
OURS = (*NAMED, "address", "priority", "x", "y", "lat", "lon", "demand", "ready", "due", "service")
# Those that the tools are told by, and of which nothing is solved.
KEPT = (*NAMED, "address", "priority")
# Words for each of them in English, German, French, Spanish, Dutch and Italian.
WORDS = {
    "name": "client, kunde, kundenname, firma, nom, nombre, cliente, naam, klant, nome",
    "address": "street, adresse, anschrift, straße, rue, dirección, direccion, calle, adres, straat, indirizzo, "
               "via",
    "priority": "priorität, vorrang, priorité, priorite, prioridad, prioriteit, voorrang, priorità, priorita",
    "x": "x-coordinate, rechtswert, easting",
    "y": "y-coordinate, hochwert, northing",
    "lat": "latitude, breite, breitengrad, latitud, breedtegraad, latitudine",
    "lon": "longitude, lng, long, länge, längengrad, longitud, lengtegraad, longitudine",
    "demand": "quantity, amount, load, menge, bedarf, nachfrage, ladung, demande, quantité, quantite, demanda, "
              "cantidad, carga, hoeveelheid, vraag, lading, domanda, quantità, quantita, carico",
    "ready": "from, earliest, open, opens, von, ab, frühestens, öffnet, de, dès, ouverture, au plus tôt, desde, "
             "apertura, van, vanaf, opent, da, dalle",
    "due": "to, until, latest, close, closes, bis, spätestens, schließt, à, jusqu'à, fermeture, au plus tard, hasta, "
           "cierre, tot, sluit, alle, fino a, chiusura",
    "service": "service time, duration, unloading, dauer, standzeit, servicezeit, entladezeit, durée, duree, "
               "temps de service, duración, duracion, servicio, duur, servicetijd, lostijd, durata, servizio",
}
MEANING = {word.strip(): ours for ours, words in WORDS.items() for word in words.split(",")}
# Headings of numbers that a customer or an order keeps, without blanks and signs: a word alone, or whose number it is
# beside a word for a number, which alone may be that of a house.
ALONE = ("order auftrag bestellung commande pedido bestelling ordine id ref reference referenz référence referencia "
         "referentie riferimento").split()
WHOSE = ("order customer client account job shipment delivery auftrag auftrags bestell bestellungs kunden kd "
         "lieferschein sendungs commande commandes pedido cliente klant klanten bestelling zending ordine").split()
COUNTED = "number no nr num id code ref nummer numéro numero número código codigo codice".split()
NUMBERED = re.compile("%(alone)s|(%(whose)s)(%(counted)s)|(%(counted)s|n)(de|del|di|d)?(%(whose)s)" % {
    "alone": "|".join(ALONE), "whose": "|".join(WHOSE), "counted": "|".join(COUNTED)})
# What a heading may say of its measure, as in "Menge (kg)".
MEASURE = re.compile(r"\s*[(\[][^()\[\]]*[)\]]\s*\Z")
# How many of our columns make a heading line of one that has others above it, and in how many lines it is looked for.
FEW, FIRST_LINES = 3, 10
SEPARATORS = ",;\t|"


def plain(told, separator):
    """The fields of a heading line, as far as its separator is to be found."""
    return [field.strip(' "').lower() for field in told.split(separator)]


def without_measure(heading):
    """A heading in small letters, without what it says of its measure."""
    return MEASURE.sub("", " ".join(heading.lower().split()))


def known(told, renamed):
    """How many of a line's fields are headings that are known, by the separator that finds most of them."""
    return max(len({renamed.get(field) or meaning_of(field) for field in plain(told, one)} - {None})
               for one in SEPARATORS)


def meaning_of(heading):
    """Our name for a heading, or None."""
    own = without_measure(heading)
    return own if own in OURS else MEANING.get(own)


def is_number(heading):
    """Whether a heading says that its column has the numbers of customers or orders."""
    told = unicodedata.normalize("NFKC", without_measure(heading))
    return NUMBERED.fullmatch("".join(filter(str.isalnum, told))) is not None


def heading_line(lines, renamed):
    """Of lines with their numbers the heading: the first one that has some of our columns, or else the first one."""
    first = []
    for pair in lines:
        first.append(pair)
        if known(pair[1], renamed) >= FEW:
            return pair
        if len(first) == FIRST_LINES:
            break
    return first[0] if first else (1, "")


class Headings:
    """Our names for the headings of a table: those that an option gives, our own, and words for them. Of several that
    may be a name or an address the first one is, and of those that may be another column none is."""

    def __init__(self, there, renamed):
        self.there, self.renamed, self.doubled = there, renamed, {}
        self.found = {field: renamed[field] for field in there if field in renamed}
        taken = set(self.found.values()) | {field for field in there if field in OURS}
        for ours in OURS:
            may = [field for field in there if field not in self.found and field not in OURS
                   and meaning_of(field) == ours] if ours not in taken else []
            if len(may) == 1 or may and ours in KEPT:
                self.found[may[0]] = ours
            elif may:
                self.doubled[ours] = may

    def keep(self, columns):
        """Leaves words alone whose columns aren't wanted."""
        self.found = {field: ours for field, ours in self.found.items()
                      if field in self.renamed or ours in {*columns, *KEPT}}
        self.doubled = {ours: may for ours, may in self.doubled.items() if ours in columns}

    def ours(self, field):
        return self.found.get(field, field)

    def names(self):
        """Our names of all columns that are there."""
        return {self.ours(field) for field in self.there}

    def unknown(self):
        """The headings that mean none of our columns."""
        return [field for field in self.there if field and self.ours(field) not in OURS]
