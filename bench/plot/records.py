"""Recorded files: the lines at their head, and their rows."""

import csv
import math
from pathlib import Path

# The groups by what they are, for colours and tables.
FAMILIES = [
    ("practice", ["practice"]),
    ("random", ["four-kinds", "loose", "tight", "any-people"]),
    ("accident", ["contradiction", "fifth-shop", "eleven-benches", "last-part"]),
    ("hard", ["hard"]),
]

# The library's time for the same question: crew for the first plan, spare with cap 0 for existence.
LIBRARY_FOR = {"first": "crew_ns", "exists": "exists_ns"}

# What is set against the library's time, reading included: SAT4J is warm, and its wall time is reading and solving; the
# others print their CPU time.
TIME_OF = {"minisat": "own_ns", "clingo": "own_ns", "sat4j": "wall_ns"}


class Record:
    def __init__(self, path):
        lines = Path(path).read_text().splitlines()
        heads = [line[2:] for line in lines if line.startswith("# ")]
        self.facts = dict(line.split(": ", 1) for line in heads if ": " in line)
        self.rows = list(csv.DictReader(line for line in lines if not line.startswith("#")))

    def groups(self):
        """The names of the groups, in the order of the file."""
        return list(dict.fromkeys(row["group"] for row in self.rows))

    def of(self, **wanted):
        return [row for row in self.rows if all(row[name] == value for name, value in wanted.items())]

    def origin(self, command=True):
        """Where, when and, if its command is still there, how, in a line."""
        known = [self.facts[name] for name in ("machine", "date") if name in self.facts]
        if command and "command" in self.facts:
            known.append(f"`{self.facts['command']}`")
        return "; ".join(known)


def family(group):
    """A group that is in none is a family of its own."""
    for name, starts in FAMILIES:
        if any(group == start or group.startswith(start + "-") for start in starts):
            return name
    return group


def number(row, column):
    """One that is missing was late: worse than all others, so that no figure looks better."""
    return float(row[column]) if row[column] else math.inf


def micros(row, column):
    """A time in microseconds, late where it is missing."""
    return number(row, column) / 1000


def at(times, share):
    """The time that this share of the times does not exceed."""
    ordered = sorted(times)
    return ordered[max(math.ceil(len(ordered) * share), 1) - 1]


def median(times):
    return at(times, 0.5)


def practice_rules(group):
    """The number of rules of a group of practice sheets of full size."""
    start, _, rules = group.rpartition("-")
    return int(rules) if start == "practice" and rules.isdigit() else None
