"""The completions of the program for bash, zsh and fish, from what its help says."""
import re

from tools.manual import SUBCOMMANDS, Help

# The files in docs/completions, by the names under which shells look for them.
BASH, ZSH, FISH = "vrptw", "_vrptw", "vrptw.fish"
NAME = re.compile(r"(?:^|(?<= ))-{1,2}[a-z-]+", re.I)
# How the help of a word begins that is the path of a file.
FILE = "The file "
HEAD = "# Completions of vrptw for %s; outside/workshop/completions makes them of its help."

BASH_TEXT = r"""_vrptw() {
  local current=${COMP_WORDS[COMP_CWORD]} before=${COMP_WORDS[COMP_CWORD - 1]} words=
  # A word with = comes in three.
  if [ "$current" = = ]; then
    current=
  elif [ "$before" = = ]; then
    before=${COMP_WORDS[COMP_CWORD - 2]}
  fi
  COMPREPLY=()
  case $COMP_CWORD:${COMP_WORDS[1]}:$before in
    1:*) words="@first@" ;;
@cases@
  esac
  if [ -n "$words" ]; then
    mapfile -t COMPREPLY < <(compgen -W "$words" -- "$current")
  else
    compopt -o filenames 2>/dev/null
    mapfile -t COMPREPLY < <(compgen -f -- "$current")
  fi
}
complete -F _vrptw vrptw
"""

ZSH_TEXT = r"""_vrptw() {
  local curcontext=$curcontext state line
  _arguments -C @whole@ \
    '1:command:((@commands@))' \
    '*::word:->words'
  [[ $state = words ]] || return 0
  case $line[1] in
@cases@
    help) _values command @names@ ;;
  esac
}
if [ "$funcstack[1]" = _vrptw ]; then _vrptw "$@"; else compdef _vrptw vrptw; fi
"""


class Entry:
    """An argument or an option of the help: its names, none for an argument, what it takes, and what is told of it."""

    def __init__(self, words, meaning):
        self.names, self.meaning = NAME.findall(words), meaning
        value = re.search(r"<(\w+)>", words)
        self.value = value[1].lower() if value else None
        self.is_file = meaning.startswith(FILE)


def entries_of(told):
    return [Entry(words, meaning) for words, meaning in told.entries]


class Told:
    """What the help says: the program's entries, and of each command its line and its entries."""

    def __init__(self, program):
        self.whole, self.commands = entries_of(Help(program)), {}
        for name in SUBCOMMANDS:
            told = Help(program, [name])
            self.commands[name] = (told.about, entries_of(told))


def options(entries):
    return [entry for entry in entries if entry.names]


def names(entries):
    return [name for entry in options(entries) for name in entry.names]


def for_bash(told):
    cases = []
    for command, (_, entries) in told.commands.items():
        for is_file, does in ((True, ""), (False, " return")):
            found = [name for entry in options(entries) if entry.value and entry.is_file == is_file
                     for name in entry.names]
            if found:
                cases.append("    *:%s:%s)%s ;;" % (command, " | *:%s:".join(found) % ((command,) * (len(found) - 1)),
                                                    does))
        cases.append('    *:%s:*) [[ $current != -* ]] || words="%s" ;;' % (command, " ".join(names(entries))))
    cases.append('    *:help:*) words="%s" ;;' % " ".join(told.commands))
    first = " ".join([*told.commands, "help", *names(told.whole)])
    return HEAD % "bash" + "\n" + BASH_TEXT.replace("@first@", first).replace("@cases@", "\n".join(cases))


def quoted(word):
    """A word between single quotes."""
    return "'%s'" % word.replace("'", "'\\''")


def zsh_told(text):
    return re.sub(r"([\\\[\]:])", r"\\\1", text)


def zsh_entry(entry, place):
    """The words of zsh for an entry, which an argument has by its place."""
    files = "_files" if entry.is_file else ""
    if not entry.names:
        return quoted("%d:%s:%s" % (place, entry.value, files))
    value = "" if entry.value is None else ":%s:%s" % (entry.value, files)
    equals = "=" if entry.value else ""
    others = "(%s)" % " ".join(entry.names) if len(entry.names) > 1 else ""
    found = [others + name + equals + "[%s]%s" % (zsh_told(entry.meaning), value) for name in entry.names]
    return " ".join(quoted(word) for word in found)


def zsh_entries(entries):
    arguments = [entry for entry in entries if not entry.names]
    return [zsh_entry(entry, arguments.index(entry) + 1 if entry in arguments else 0) for entry in entries]


def for_zsh(told):
    cases = ["    %s)\n      _arguments \\\n        %s\n      ;;" % (name, " \\\n        ".join(zsh_entries(entries)))
             for name, (_, entries) in told.commands.items()]
    commands = " ".join('%s\\:"%s"' % (name, zsh_told(about).replace("'", "'\\''"))
                        for name, (about, _) in told.commands.items())
    text = ZSH_TEXT.replace("@whole@", " ".join(zsh_entries(told.whole))).replace("@commands@", commands)
    return "#compdef vrptw\n" + HEAD % "zsh" + "\n" + text.replace("@cases@", "\n".join(cases)).replace(
        "@names@", " ".join(told.commands))


def fish_entry(entry, when):
    """The line of fish for an option."""
    words = ["complete -c vrptw -n %s" % quoted(when)]
    words += ["-%s %s" % (("l", name[2:]) if name.startswith("--") else ("s", name[1:])) for name in entry.names]
    words += [] if entry.value is None else ["-rF" if entry.is_file else "-x"]
    return " ".join(words + ["-d " + quoted(entry.meaning)])


def for_fish(told):
    lines = [HEAD % "fish"] + [fish_entry(entry, "__fish_use_subcommand") for entry in options(told.whole)]
    for name, (about, entries) in told.commands.items():
        lines.append("complete -c vrptw -n __fish_use_subcommand -f -a %s -d %s" % (name, quoted(about)))
        lines += [fish_entry(entry, "__fish_seen_subcommand_from " + name) for entry in options(entries)]
    return "\n".join(lines) + "\n"


def completions(program):
    """The three texts, by the names of their files."""
    told = Told(program)
    return {BASH: for_bash(told), ZSH: for_zsh(told), FISH: for_fish(told)}
