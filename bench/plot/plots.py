"""The plots: times against the number of rules, and the library against each other search."""

from records import FAMILIES, LIBRARY_FOR, TIME_OF, family, median, micros, practice_rules
from svg import Linear, Log, Plot

OURS, THEIRS = "#1b6ca8", "#d1495b"
COLOURS = dict(zip([name for name, _ in FAMILIES], ["#1b6ca8", "#e09f1f", "#3c8d5a", "#d1495b"]))

SAID = {"minisat": "MiniSat, its CPU time", "clingo": "clingo, its CPU time", "sat4j": "SAT4J, warm"}


def over_rules(record, title, ours, theirs):
    """Median and worst for each number of rules, the library's and the hand-written search's."""
    groups = [group for group in record.groups() if practice_rules(group) is not None]
    if not groups:
        return None
    figures = [("median", median), ("worst", max)]
    drawn = []
    for column, name, colour in ((ours, "library", OURS), (theirs, "by hand", THEIRS)):
        for word, figure in figures:
            points = [
                (practice_rules(group), figure([micros(row, column) for row in record.of(group=group)]))
                for group in groups
            ]
            drawn.append((f"{name}, {word}", points, colour, word == "worst"))
    times = [y for _, points, _, _ in drawn for _, y in points]
    rules = [x for _, points, _, _ in drawn for x, _ in points]
    plot = Plot(title, "rules", "time", Linear(rules), Log(times))
    for name, points, colour, dashed in drawn:
        plot.line(name, points, colour, dashed)
    return plot.svg()


def scatter(title, y_name, sets, start=None):
    """Points of several sets, each with a name, a colour and whether it is hollow."""
    known = [point for _, points, _, _ in sets for point in points]
    if not known:
        return None
    heights = [y for _, y in known] + ([start] if start else [])
    plot = Plot(title, "library", y_name, Log([x for x, _ in known]), Log(heights))
    plot.equal("as long")
    if start:
        plot.level("its start", start)
    for name, points, colour, hollow in sets:
        plot.points(name, points, colour, hollow)
    return plot.svg()


def by_family(rows, column, ours="crew_ns", said="", hollow=False):
    sets = []
    for name, _ in FAMILIES:
        own = [row for row in rows if family(row["group"]) == name]
        points = [(micros(row, ours), micros(row, column)) for row in own]
        sets.append((name + said, points, COLOURS[name], hollow))
    return sets


def against_hand(record):
    return scatter("Crew against the hand-written search", "by hand, first plan", by_family(record.rows, "first_ns"))


def against_peer(record, solver):
    column = TIME_OF[solver]
    sets = []
    for question, said, hollow in (("exists", ", any plan", False), ("first", ", first plan", True)):
        sets += by_family(record.of(solver=solver, question=question), column, LIBRARY_FOR[question], said, hollow)
    starts = [micros(row, column) for row in record.of(group="start", solver=solver, question="exists")]
    start = median(starts) if starts else None
    return scatter(f"The library against {SAID[solver].split(',')[0]}", SAID[solver], sets, start)
