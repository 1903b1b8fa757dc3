"""What a document cites (links, paths, names, options, rows), what it shows of a file, or a wrong body replaces, and
whether it stands there."""
import glob
import os
import re

DOCUMENTS = ("*.md", "docs/*.md", "docs/*/*.md", "bench/README.md", "bench/instances/README.md", "outside/README.md",
             "outside/*/README.md", "release/README.md", "examples/README.md")

# What a document cites and the sources don't have, with the reason.
EXCEPTIONS = {
    "http_server": "a crate of the toolchain",
    "routes.svg": "what outside/draw writes",
    "gap.svg": "what outside/prove writes",
    "--allow-holes": "an option of the toolchain's rt",
    "CRATE::MODULE::NAME": "how the toolchain names a function",
}
# Patterns of such, with the reason.
EXCEPTED = {
    r"(.*/)?out/.*": "made by builds and runs",
    r"/dev/.*": "the system's",
    r"(c|r|rc)[12](_\d+)?": "the files and classes of docs/lab/measures.md, most of which aren't in the repository",
    r"(?=.*\d)[0-9a-f]{7}": "commits",
    r"(libc|os)::.*": "C functions, as the toolchain names them",
    r"K/N|[0-9]+/[0-9]+": "parts of the open leaves of a tree",
    r"\./plan|(instance|plan|certificate|yesterday|today|start|tree(_[0-9]+)?|part_[12])\.txt": "a user's own files",
}

# Where files stand that a document names without a folder: what it is about.
HOMES = {
    "docs/definitions.md": ("crates/solomon_reader/specs", "crates/rows/data"),
    "docs/lab/runs.md": ("outside",),
    "outside/README.md": ("outside/reference", "outside/tools", "outside/cases", "outside/judges"),
    "outside/judges/README.md": ("outside",),
    "CONTRIBUTING.md": ("crates/rows/data",),
}

ROWS = "docs/definitions.md"
SUFFIXES = (".rt", ".antt", ".md", ".edit", ".py", ".txt", ".c", ".sh", ".svg")
# The sources, in whose words names are looked for: all but documents, and this program with its exceptions.
SOURCES = ("crates/*/src", "crates/*/specs", "crates/*/proofs", "bench", "outside", "wrong_bodies", "release/make",
           "release/*.sh", "vrptw", "check", "crates.txt")
OWN = ("outside/judges/citing.py", "outside/workshop/cited")
# The wrong bodies; the second part of such a path is the crate.
EDITS = ("wrong_bodies/*/*.edit", "crates/*/must-fail/*.edit")

# What stands in a path for any name.
ANY = re.compile(r"\b(CRATE|MODULE|FUNCTION|NAME)\b")
SPAN = re.compile(r"`([^`]+)`")
# The fence of what a document shows of a file, and the line that stands for what it leaves out.
SHOWN = re.compile(r"```\w+ (\S+/\S+)$")
LEFT_OUT = "..."
LINK = re.compile(r"\]\(([^)\s]+)\)")
BRACES = re.compile(r"(\S*)\{([^}]*)\}")
NAME = re.compile(r"[A-Za-z_]\w+$")
SCOPED = re.compile(r"\w+(::\w+)+$")
OPTION = re.compile(r"--[a-z][a-z-]*")
# What a source declares: by a keyword, as a field or a variant, in a list of what it hands on, or in a definition.
DECLARED = (re.compile(r"\b(?:fn|struct|enum|trait|type|mod|const|record) (\w+)"),
            re.compile(r"\bpub (\w+)"),
            re.compile(r"^ +(?:pub(?:\(crate\))? )?(\w+)(?:,|\(| \{|:)", re.M))
CLAUSE = re.compile(r"\bensures (\w+) \{")
HANDED_ON = re.compile(r"\bpub use ([^;]+);")
TYPES = re.compile(r"\b(?:struct|enum|trait|type|mod) (\w+)")
# An identifier by its look: with an underscore, or with two capitals that each begin a word.
CODE_LIKE = re.compile(r"\w*[a-z0-9]_\w+$|[A-Z][a-z0-9]+[A-Z]\w*$")
# A part of a line that tells a row, with a star where a law proves it.
ROW = re.compile(r"\bRows?(\*?): ")
TITLES = re.compile(r'((?:"[^"]+"(?:, | and )?)+) in `([^`]+)`')
TEST = re.compile(r"`(\w+)` in `([^`]+\.rt)`")


class Sources:
    """The repository in this folder: the words of its sources, what each crate declares, and where each type is."""

    def __init__(self, top):
        self.top = top
        self.crates = {os.path.basename(path) for path in glob.glob(top + "/crates/*")}
        self.words, self.declared_in, self.clauses_in, self.homes_of = set(), {}, {}, {}
        for pattern in SOURCES:
            for path in glob.glob(os.path.join(top, pattern)):
                self.add_all(path)

    def add_all(self, path):
        if os.path.isfile(path):
            self.add(path)
        for folder, _, names in os.walk(path):
            for name in names:
                if not name.endswith((".pyc", ".md")):
                    self.add(os.path.join(folder, name))

    def add(self, path):
        """Takes in the words of a file, and what it declares."""
        place = os.path.relpath(path, self.top).split(os.sep)
        if "/".join(place) in OWN:
            return
        text = read(path)
        self.words.update(re.findall(r"\w+", text))
        if place[0] != "crates" or len(place) < 4 or place[2] == "proofs":
            return
        declared = self.declared_in.setdefault(place[1], set())
        for pattern in DECLARED:
            declared.update(pattern.findall(text))
        self.clauses_in.setdefault(place[1], set()).update(CLAUSE.findall(text))
        for names in HANDED_ON.findall(text):
            declared.update(re.findall(r"\w+", names))
        for name in TYPES.findall(text) if place[2] == "src" else ():
            self.homes_of.setdefault(name, set()).add(place[1])

    def has_name(self, name, crate):
        """Whether a crate declares the parts of a name: the one that is said, or one that the first part belongs to. A
        name of one part may be a clause's, and where no crate is said it has to stand somewhere."""
        parts = name.split("::")
        if len(parts) == 1 and (crate is None or name in self.clauses_in.get(crate, ())):
            return name in self.words or name in self.crates
        first = parts[0]
        homes = [crate] if crate else [first] if first in self.crates else self.homes_of.get(first, ())
        return any(all(part in self.declared_in.get(home, ()) for part in parts if part != home) for home in homes)

    def has_path(self, path, bases):
        return any(glob.glob(os.path.join(self.top, base, path)) for base in bases)


def read(path):
    with open(path, encoding="utf-8", errors="replace") as file:
        return file.read()


def expanded(text):
    """The text with each `a{b, c}` written out as `ab ac`."""
    return BRACES.sub(lambda m: " ".join(m[1] + part.strip() for part in m[2].split(",")), text)


def is_excepted(word):
    return word in EXCEPTIONS or any(re.fullmatch(pattern, word) for pattern in EXCEPTED)


def is_path(word):
    return "/" in word or word.endswith(SUFFIXES)


def cited_in(span):
    """What a text in backticks cites: pairs of a kind and a word."""
    words = expanded(span).split()
    for word in words:
        word = word.strip("()[],;:").rstrip(".")
        if word.startswith("--"):
            for option in OPTION.findall(word):
                yield "option", option
        elif SCOPED.match(word):
            yield "name", word
        elif is_path(word):
            yield "path", word
        elif NAME.match(word) and (len(words) == 1 or CODE_LIKE.match(word)):
            yield "name", word


class Document:
    """One document, and what of its citations isn't found."""

    def __init__(self, sources, path):
        self.sources, self.path = sources, path
        self.folder = os.path.dirname(path)
        self.counts = {"link": 0, "path": 0, "name": 0, "option": 0, "row": 0, "example": 0}
        self.lacks = []
        self.line, self.crate = 0, None

    def judge(self):
        is_fenced, lines = False, read(os.path.join(self.sources.top, self.path)).split("\n")
        for self.line, text in enumerate(lines, 1):
            if text.startswith("```"):
                is_fenced = not is_fenced
                if is_fenced and SHOWN.match(text):
                    self.judge_shown(SHOWN.match(text)[1], lines[self.line:lines.index("```", self.line)])
            elif is_fenced or text.startswith("    "):
                self.judge_code(text)
            else:
                self.judge_line(text)

    def count(self, kind, word, is_found):
        self.counts[kind] += 1
        if not is_found:
            self.lacks.append("%s:%d: %s %s" % (self.path, self.line, kind, word))

    def judge_shown(self, file, lines):
        """What is shown of a file stands there, in that order, each part in whole lines."""
        path = os.path.join(self.sources.top, file)
        text, at = "\n" + (read(path) if os.path.isfile(path) else ""), 0
        for part in "\n".join(lines).split("\n%s\n" % LEFT_OUT):
            at = text.find("\n%s\n" % part, at)
            if at < 0:
                break
            at += len(part) + 1
        self.count("example", "of " + file, at >= 0)

    def judge_code(self, text):
        """Commands and sketches: names with a scope, and paths that begin at the top of the repository."""
        for word in text.replace("(", " ").replace(")", " ").split():
            word = word.strip(",;:")
            if SCOPED.match(word):
                self.judge_name(word, None)
            elif "/" in word and os.path.exists(os.path.join(self.sources.top, word.split("/")[0])):
                self.judge_path(word, ("", self.folder, "crates/*"))

    def judge_line(self, text):
        for target in LINK.findall(text):
            if not re.match(r"[a-z]+:|#", target):
                self.count("link", target, self.sources.has_path(target.split("#")[0], (self.folder,)))
        cells = text.split("|") if text.startswith("|") else []
        self.enter(cells)
        bases = self.bases(text)
        for place, cell in enumerate(cells or [text]):
            # In a table of crates the last column has names of the crate that the first one says.
            crate = self.crate if cells and place == len(cells) - 2 else None
            for span in SPAN.findall(cell):
                self.judge_span(span, crate, bases)
        if self.path == ROWS:
            self.judge_rows(text)

    def enter(self, cells):
        """Takes note of the crate that the row of a table is about; an empty first cell goes on with it."""
        first = cells[1].strip() if len(cells) > 3 else "none"
        if first:
            name = first.strip("`")
            self.crate = name if name in self.sources.crates and self.path == "docs/theorems.md" else None

    def bases(self, text):
        """The folders that a path of this line may begin in: those that the line names, and those of the crates that
        it names, are among them."""
        bases = ["", self.folder, "crates", "crates/*", *HOMES.get(self.path, ())]
        for span in SPAN.findall(text):
            for word in expanded(span).split():
                if word in self.sources.crates:
                    bases.append("crates/%s/src" % word)
                if "/" in word:
                    word = ANY.sub("*", word)
                    bases.append(word if self.sources.has_path(word + "/.", ("",)) else os.path.dirname(word))
                    bases.append(os.path.join("crates/*", word))
        return bases

    def judge_span(self, span, crate, bases):
        for kind, word in cited_in(span):
            if kind == "path":
                self.judge_path(word, bases)
            elif kind == "name":
                self.judge_name(word, crate)
            else:
                parts = re.findall(r"\w+", word)
                is_known = all(part in self.sources.words for part in parts)
                self.count(kind, word, is_known or is_excepted(word))

    def judge_path(self, path, bases):
        self.count("path", path, is_excepted(path) or self.sources.has_path(ANY.sub("*", path), bases))

    def judge_name(self, name, crate):
        is_beside = self.sources.has_path(name, (self.folder,))
        self.count("name", name, is_beside or is_excepted(name) or self.sources.has_name(name, crate))

    def judge_rows(self, text):
        """Each row says where it stands, unless a law proves it, and stands there."""
        marks = list(ROW.finditer(text))
        ends = [mark.start() for mark in marks[1:]] + [len(text)]
        for mark, end in zip(marks, ends):
            part = text[mark.end():end]
            if not mark[1] and not TITLES.search(part) and not TEST.search(part):
                self.count("row", "without a place: %s" % part[:60], False)
        for titles, file in TITLES.findall(text):
            for title in re.findall(r'"([^"]+)"', titles):
                self.count("row", '"%s" in %s' % (title, file), self.has_row(title, file))
        for name, file in TEST.findall(text):
            self.count("row", "%s in %s" % (name, file), self.has_row(name, file))

    def has_row(self, title, file):
        """Whether a script has the title, a file of tests the test, or another file the words."""
        for base in ("", *HOMES.get(self.path, ())):
            path = os.path.join(self.sources.top, base, file)
            if os.path.isfile(path):
                content = read(path)
                if file.endswith(".rt"):
                    return re.search(r"#\[test\]\s+fn %s\b" % re.escape(title), content) is not None
                if file.endswith(".txt"):
                    return re.search(r"^##? %s$" % re.escape(title), content, re.M) is not None
                return title in content
        return False


def documents(sources):
    """All documents that there are, looked through."""
    judged = []
    for pattern in DOCUMENTS:
        for path in sorted(glob.glob(os.path.join(sources.top, pattern))):
            document = Document(sources, os.path.relpath(path, sources.top))
            document.judge()
            judged.append(document)
    return judged


def replacements(text):
    """The pairs of a wrong body: line of the old text, file, old and new text; what a pair lacks is empty."""
    file, old, line = "", "", 0
    for number, said in enumerate(text.split("\n"), 1):
        if said.startswith("file: "):
            file = said[len("file: "):].strip()
        elif said.startswith("old: "):
            old, line = said[len("old: "):], number
        elif said.startswith("new:"):
            yield line or number, file, old, said[len("new:"):].removeprefix(" ")
            old, line = "", 0


def misplaced(top):
    """How many texts the wrong bodies replace, pair by pair in turn, and a line for each not once in its file then."""
    count, lacks = 0, []
    for path in sorted(path for pattern in EDITS for path in glob.glob(os.path.join(top, pattern))):
        told, texts = os.path.relpath(path, top), {}
        for line, file, old, new in replacements(read(path)):
            place = "/".join(("crates", told.split(os.sep)[1], file))
            here = os.path.join(top, place)
            text = texts[place] if place in texts else read(here) if os.path.isfile(here) else ""
            count, times = count + 1, text.count(old) if old else 0
            texts[place] = text.replace(old, new) if old else text
            if times != 1:
                lacks.append("%s:%d: old text stands %d times in %s" % (told, line, times, place))
    return count, lacks
