"""Lists and objects as Python and JSON spell them, each value with its line, and the routes that they are."""
import ast
import json
import re

from tools.tool import quoted

TOKEN = re.compile(r"""\s*([\[\](){},:]|"(?:[^"\\]|\\.)*"|'(?:[^'\\]|\\.)*'|[^\s\[\](){},:'"]+|['"])""")
CLOSING = {"[": "]", "(": ")", "{": "}"}
# Lists in lists of objects, with some to spare.
DEEPEST = 12
# What a route's customers stand under, in an object.
STOPS = ("steps", "stops", "customers", "nodes", "visits", "route")
COSTS = ("cost", "objective")


class Value:
    """A list, an object or a word, with its line; the parts of an object are pairs of a key and a value."""

    def __init__(self, line, kind, parts=(), word=None):
        self.line, self.kind, self.parts, self.word = line, kind, parts, word

    def get(self, keys):
        """The value of an object under one of the keys, or None."""
        return next((value for key, value in self.parts if key.lower() in keys), None) if self.kind == "{" else None


class Reader:
    """Values from lines of a text, which may go on in the lines that follow."""

    def __init__(self, text, lines):
        self.text, self.lines, self.tokens = text, lines, []

    def enter(self, line, told):
        self.tokens = [(line, token) for token in TOKEN.findall(told)]

    def next(self):
        """The next token; another line where this one ends."""
        while not self.tokens:
            line, told = next(self.lines, (None, None))
            if line is None:
                self.text.at_end("a bracket that closes")
            self.enter(line, told)
        return self.tokens.pop(0)

    def values(self, line, told):
        """The values that begin in this line, one behind the other."""
        self.enter(line, told)
        while self.tokens:
            line, token = self.tokens.pop(0)
            if token in CLOSING:
                yield self.bracket(line, token, 1)
            elif token != ",":
                self.text.refuse(line, quoted(token), "a bracket that opens")

    def bracket(self, line, opening, depth):
        """A list or an object, whose bracket was read."""
        parts, key = [], None
        if depth > DEEPEST:
            self.text.refuse(line, "a bracket within %d others" % (depth - 1), "lists of routes")
        while True:
            at, token = self.next()
            if token == CLOSING[opening] and key is None:
                return Value(line, "{" if opening == "{" else "[", parts)
            if token in "])}:" or token == "," and key is not None:
                self.text.refuse(at, quoted(token), "a value")
            if token == ",":
                continue
            value = self.bracket(at, token, depth + 1) if token in CLOSING else self.word(at, token)
            if opening != "{":
                parts.append(value)
            elif key is None:
                key = self.key(value)
            else:
                parts.append((key, value))
                key = None

    def key(self, value):
        """A key as its word, and behind it the colon."""
        at, token = self.next()
        if value.kind != "word" or token != ":":
            self.text.refuse(at, quoted(token), "a key and a colon")
        return value.word

    def word(self, line, token):
        if token[0] not in "'\"":
            return Value(line, "word", word=token)
        try:
            return Value(line, "word", word=json.loads(token) if token[0] == '"' else ast.literal_eval(token))
        except (ValueError, SyntaxError):
            self.text.refuse(line, quoted(token), "a quote that closes, or a word that is spelled rightly in it")


class Routes:
    """The routes of a value as lists of words with their lines, and its cost as a word with its line, or None."""

    def __init__(self, text, value):
        self.text, self.cost, self.is_object = text, None, value.kind == "{"
        self.routes = self.of_object(value) if self.is_object else self.of_list(value)

    def of_list(self, value):
        """A list of words is a route, and one of lists or objects has routes."""
        words = [part for part in value.parts if part.kind == "word"]
        if words and len(words) < len(value.parts):
            self.text.refuse(words[0].line, "numbers beside lists", "lists alone, or numbers alone")
        return [self.stops(part) for part in value.parts] if value.parts and not words else [self.stops(value)]

    def of_object(self, value):
        """An object has its routes under that word, or is made of lists that are routes."""
        self.cost = value.get(COSTS) or (value.get(("summary",)) or value).get(COSTS)
        if self.cost is not None and self.cost.kind != "word":
            self.text.refuse(self.cost.line, "a list as a cost", "a number")
        routes = value.get(("routes",))
        if routes is None and value.parts and all(part.kind == "[" for _, part in value.parts):
            return [self.stops(part) for _, part in value.parts]
        if routes is None or routes.kind == "word":
            self.text.refuse(value.line, 'no list "routes"', "one in this object")
        return self.of_list(routes) if routes.kind == "[" else [self.stops(part) for _, part in routes.parts]

    def stops(self, value):
        """The words of a route: a list, or what stands in an object under a known key."""
        within = value.get(STOPS) if value.kind == "{" else value
        if within is None or within.kind != "[":
            self.text.refuse(value.line, "a route without a list", "a list, or one under %s" % ", ".join(STOPS))
        found = [self.stop(part) for part in within.parts]
        return [(stop.line, stop.word) for stop in found if stop is not None]

    def stop(self, value):
        """The word of a stop; of a step of VROOM's its number, where it is a job."""
        if value.kind == "[":
            self.text.refuse(value.line, "a list within a route", "a customer")
        if value.kind == "word":
            return value
        kind, number = value.get(("type",)), value.get(("id",)) or value.get(("job",))
        if kind is not None and kind.word in ("start", "end", "break"):
            return None
        if number is None or number.kind != "word" or kind is not None and kind.word != "job":
            self.text.refuse(value.line, "a step that is no job", 'steps of the type "job" with an id')
        return number
