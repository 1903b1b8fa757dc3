"""What a kind of runs is, and how its judge is called. A module has its kinds in KINDS, by their names."""


class Kind:
    """A kind: its line, how many runs a round has, or all rounds together where it draws nothing (`is_fixed`), and
    whether it needs the program of instruments or the library that refuses allocations or holds threads (`refuses`).
    Its judge takes the programs, a folder, the random source and the run's number; it answers what came of the run, or
    raises a disagreement. The runs of a round are so many that each kind has some seconds of it."""

    def __init__(self, meaning, runs, judge, is_fixed=False, of_library=False, refuses=False):
        self.meaning, self.runs, self.judge, self.is_fixed = meaning, runs, judge, is_fixed
        self.of_library, self.refuses = of_library, refuses


def program_by(judge, *further):
    """The kind's judge by one of the program alone."""
    return lambda programs, folder, random, seed: judge(programs.program, folder, random, *further)


def number_by(judge):
    """The kind's judge by one that takes the program and the number of a row."""
    return lambda programs, folder, random, seed: judge(programs.program, folder, seed)


def tools_by(judge):
    """The kind's judge by one of the tools."""
    return lambda programs, folder, random, seed: judge(folder, random)
