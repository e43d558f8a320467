"""Markdown tables. Times are in microseconds; they and their ratios have two significant digits."""

import math

from records import LIBRARY_FOR, TIME_OF, at, family, median, micros, number, practice_rules


def digits(value):
    """Two significant digits: more would not be the same in another run."""
    exponent = int(f"{value:.1e}".split("e")[1])
    return f"{round(value, 1 - exponent):,.{max(1 - exponent, 0)}f}"


def time(value):
    return "late" if math.isinf(value) else digits(value)


def count(value):
    return "late" if math.isinf(value) else f"{value:,.0f}"


def ratio(ours, theirs):
    return "-" if math.isinf(ours) or math.isinf(theirs) or theirs == 0 else digits(ours / theirs)


def table(heading, rows):
    lines = [heading, ["---"] * len(heading)] + rows
    return "".join("| " + " | ".join(line) + " |\n" for line in lines)


def column(rows, name):
    return [micros(row, name) for row in rows]


def numbers(rows, name):
    return [number(row, name) for row in rows]


def with_plan(rows):
    return [row for row in rows if row["plan"] == "yes"]


def by_plan(name, rows):
    """The sheets that have a plan, and those that have none."""
    return [(f"{name}, with a plan", with_plan(rows)), (f"{name}, none", [row for row in rows if row["plan"] == "no"])]


def measured(rows, name):
    """The cells of a group: crew beside the first plan and any plan by hand, then the spare counts."""
    crew, first, anyone = (column(rows, of) for of in ("crew_ns", "first_ns", "any_ns"))
    spare, hand = column(rows, "spare_ns"), column(rows, "hand_spare_ns")
    late = sum(map(math.isinf, crew + spare))
    return [
        name, str(len(rows)), str(len(with_plan(rows))),
        time(median(crew)), time(at(crew, 0.99)), time(max(crew)),
        time(median(first)), time(max(first)), time(median(anyone)), time(max(anyone)),
        ratio(median(crew), median(first)),
        time(median(spare)), time(max(spare)), time(median(hand)), time(max(hand)), str(late),
    ]


def measured_table(title, named):
    heading = [
        title, "sheets", "with a plan", "crew median", "p99", "worst", "hand, first: median", "worst",
        "hand, any: median", "worst", "ratio of medians, crew to first", "spare (cap 3) median", "worst",
        "hand median", "worst", "library late",
    ]
    return table(heading, [measured(rows, name) for name, rows in named if rows])


def by_rules(record, rows=None):
    """The practice sheets of full size for each number of rules, with its name; then all of them. Of these rows, or of all."""
    rows = record.rows if rows is None else rows
    groups = [group for group in record.groups() if practice_rules(group) is not None]
    every = [row for row in rows if practice_rules(row["group"]) is not None]
    each = [(str(practice_rules(group)), [row for row in rows if row["group"] == group]) for group in groups]
    return [*each, ("all of these", every)]


def any_size(record):
    return "any size", record.of(group="practice-range")


def practice(record):
    *numbers, every = by_rules(record)
    between = [row for row in record.rows if practice_rules(row["group"]) in range(4, 15)]
    return measured_table("rules", [*numbers, ("4 to 14", between), every, any_size(record), *by_plan("4 to 14", between)])


def others(record):
    groups = [group for group in record.groups() if family(group) != "practice"]
    return measured_table("sheets of", [(group, record.of(group=group)) for group in groups])


def peers(record):
    """A row for each solver, question and family. The ratio is that of library to own, and to wall for SAT4J."""
    heading = [
        "sheets of", "solver", "asked for", "sheets", "library median", "worst", "wall median", "worst", "own median",
        "worst", "ratio of medians", "late", "different",
    ]
    lines = []
    keys = list(dict.fromkeys((row["solver"], row["question"]) for row in record.rows))
    families = list(dict.fromkeys(map(family, record.groups())))
    for solver, question in keys:
        asked = record.of(solver=solver, question=question)
        for name in families:
            rows = [row for row in asked if family(row["group"]) == name]
            if not rows:
                continue
            ours, wall, own = (column(rows, name) for name in (LIBRARY_FOR[question], "wall_ns", "own_ns"))
            lines.append([
                name, solver, "first plan" if question == "first" else "any plan", str(len(rows)),
                time(median(ours)), time(max(ours)), time(median(wall)), time(max(wall)),
                time(median(own)), time(max(own)), ratio(median(ours), median(column(rows, TIME_OF[solver]))),
                str(sum(map(math.isinf, own))), str(sum(row["agrees"] == "no" for row in rows)),
            ])
    return table(heading, lines)


def slower_than(record, times=10):
    """Sheets on which a call of the library takes so many times as long as a solver: its wall time, its start included."""
    lines = []
    for row in record.rows:
        crew, exists, wall = (micros(row, name) for name in ("crew_ns", "exists_ns", "wall_ns"))
        if not math.isinf(wall) and max(crew, exists) > times * wall:
            asked = "first plan" if row["question"] == "first" else "any plan"
            lines.append([row["group"], row["sheet"], row["solver"], asked, time(wall), time(crew), time(exists)])
    if not lines:
        return f"None takes {times} times as long as a solver.\n"
    return table(["sheets of", "sheet", "solver", "asked for", "wall", "crew", "spare, cap 0"], lines)


def walk(record):
    """The spare count with kept plans, beside the same walk without them: searches and times of each; then the spare call."""
    heading = ["rules", "sheets with a plan"]
    for name in ("kept", "without"):
        heading += [f"{name}, searches: median", "p99", "worst", f"{name}, time: median", "p99", "worst", "late"]
    lines = []
    for name, rows in by_rules(record):
        line = [name, str(len(rows))]
        for of in ("kept", "without"):
            searches, times = numbers(rows, f"{of}_searches"), column(rows, f"{of}_ns")
            line += [count(value) for value in (median(searches), at(searches, 0.99), max(searches))]
            line += [time(value) for value in (median(times), at(times, 0.99), max(times))]
            line.append(str(sum(map(math.isinf, times))))
        spare = column(rows, "spare_ns")
        different = sum(row["differences"] != "" for row in rows)
        lines.append([*line, time(median(spare)), time(max(spare)), str(different)])
    return table([*heading, "spare call median", "worst", "different"], lines)


def mean_ratio(ours, theirs):
    """The geometric mean of the ratios, as far as both have ended."""
    logs = [math.log(one / other) for one, other in zip(ours, theirs) if not math.isinf(one + other)]
    return digits(math.exp(sum(logs) / len(logs))) if logs else "-"


def patterns(record):
    """Both calls of the whole library beside those of the one without its search over people."""
    heading = ["rules", "sheets", "with a plan"]
    for call in ("crew", "spare (cap 3)"):
        heading += [f"{call}, whole: median", "worst", "patterns alone: median", "worst", "ratio"]
    *numbers, every = by_rules(record)
    lines = []
    for name, rows in [*numbers, every, *by_plan(*every), any_size(record), ("hard", record.of(group="hard"))]:
        line = [name, str(len(rows)), str(len(with_plan(rows)))]
        for call in ("crew", "spare"):
            whole, alone = column(rows, f"{call}_ns"), column(rows, f"other_{call}_ns")
            line += [time(value) for value in (median(whole), max(whole), median(alone), max(alone))]
            line.append(mean_ratio(whole, alone))
        lines.append(line)
    return table(heading, lines)


def each(row, name):
    """The times of single signings, which stand in one field."""
    return [float(time) / 1000 for time in row[name].split()]


def ratios(pairs):
    """Median, p90 and worst of what is set beside another call on the same sheet."""
    if not pairs:
        return ["-"] * 3
    found = [one / other for one, other in pairs]
    return [digits(value) for value in (median(found), at(found, 0.9), max(found))]


def signings(rows, name):
    """How many signings, their times, and their ratios to the existence question."""
    pairs = [(time, micros(row, "exists_ns")) for row in rows for time in each(row, name)]
    times = [one for one, _ in pairs]
    return [str(len(pairs)), *([time(median(times)), time(max(times))] if times else ["-"] * 2), *ratios(pairs)]


def sign(record):
    """Openings beside the crew call, signings beside the question whether a plan exists, and whole jobs."""
    heading = ["rules", "jobs", "crew median", "opening median", "worst", "ratio to crew: median", "p90", "worst"]
    heading.append("existence median")
    for name in ("granted", "refused"):
        heading += [name, "median", "worst", "ratio to existence: median", "p90", "worst"]
    *numbers, (name, every) = by_rules(record)
    orders = [(f"{name}, {word}", record.of(order=order)) for word, order in
              (("along the chain", "chain"), ("in random order", "random"))]
    lines = []
    for name, rows in [*numbers, (name, every), *orders]:
        opening, crew = column(rows, "open_ns"), column(rows, "crew_ns")
        whole = [micros(row, "open_ns") + sum(each(row, "granted_ns") + each(row, "refused_ns")) for row in rows]
        lines.append([
            name, str(len(rows)), time(median(crew)), time(median(opening)), time(max(opening)),
            *ratios(list(zip(opening, crew))), time(median(column(rows, "exists_ns"))),
            *signings(rows, "granted_ns"), *signings(rows, "refused_ns"), time(median(whole)), time(max(whole)),
        ])
    return table([*heading, "whole job median", "worst"], lines)


def ended(ours, theirs):
    """The pairs of which neither was late."""
    return [(one, other) for one, other in zip(ours, theirs) if not math.isinf(one + other)]


def told(pairs):
    """The pairs of which the clock has told both times: now and then it shows none."""
    return [(one, other) for one, other in pairs if one > 0 and other > 0]


def beyond(rows, call):
    """What is left of the calls beyond their reading; late where one of the two was."""
    whole, reading = column(rows, f"{call}_ns"), column(rows, f"{call}_reading_ns")
    return [math.inf if math.isinf(one + other) else one - other for one, other in zip(whole, reading)]


def left(pairs):
    """The ratios of differences, that of their sums, and how many are not positive. Such a one is less than the clock can tell:
    in the ratio of its sheet it is taken for a nanosecond, in the sums it keeps its sign."""
    least = 0.001
    sums = [sum(side) for side in zip(*pairs)]
    of_sums = digits(sums[0] / sums[1]) if sums and sums[1] > 0 else "-"
    unclear = sum(value <= 0 for pair in pairs for value in pair)
    return [*ratios([(max(one, least), max(other, least)) for one, other in pairs]), of_sums, str(unclear)]


def skipped(record):
    """Both calls on sheets with skipped steps, beside those on the same sheets without these steps: whole, their reading, and
    what is left beyond that."""
    heading = ["rules", "sheets", "with a plan", "rules left: median"]
    for call in ("crew", "spare (cap 3)"):
        heading += [f"{call}: median", "worst", "without: median", "worst", "ratio: median", "p90", "worst"]
        heading += [f"{call}, reading: median", "without: median"]
        heading += ["ratio beyond reading: median", "p90", "worst", "of sums", "unclear"]
    *numbered, every = by_rules(record)
    lines = []
    for name, rows in [*numbered, every, *by_plan(*every), any_size(record)]:
        if not rows:
            continue
        line = [name, str(len(rows)), str(len(with_plan(rows))), count(median(numbers(rows, "rules_left")))]
        for call in ("crew", "spare"):
            marked, short = column(rows, f"{call}_ns"), column(rows, f"short_{call}_ns")
            line += [time(value) for value in (median(marked), max(marked), median(short), max(short))]
            line += ratios(ended(marked, short))
            line += [time(median(column(rows, f"{of}_reading_ns"))) for of in (call, f"short_{call}")]
            line += left(ended(beyond(rows, call), beyond(rows, f"short_{call}")))
        lines.append(line)
    return table(heading, lines)


def against_hand(record, head, named):
    """Both calls beside the hand-written search on the same sheets: a line for each part, name and rows."""
    heading = [*head, "sheets", "with a plan"]
    for call in ("crew", "spare (cap 3)"):
        heading += [f"{call}: median", "worst", "by hand: median", "worst", "ratio: median", "p90", "worst"]
    lines = []
    for part, name, rows in named:
        if not rows:
            continue
        line = [part, name, str(len(rows)), str(len(with_plan(rows)))]
        for ours, theirs in (("crew_ns", "first_ns"), ("spare_ns", "hand_spare_ns")):
            one, other = column(rows, ours), column(rows, theirs)
            line += [time(value) for value in (median(one), max(one), median(other), max(other))]
            line += ratios(told(ended(one, other)))
        lines.append(line)
    late = sum(math.isinf(micros(row, name)) for row in record.rows for name in ("crew_ns", "spare_ns"))
    untold = sum(micros(row, name) == 0 for row in record.rows for name in ("crew_ns", "first_ns", "spare_ns", "hand_spare_ns"))
    return table(heading, lines) + f"\nLate calls of the library: {late}. Times that the clock did not show: {untold}; such a pair has no ratio.\n"


LEVELS = {"1": "shops", "2": "shops, benches", "3": "shops, benches, pairs"}


def levels(record):
    """Practice sheets with each number of class levels."""
    named = []
    for number, word in LEVELS.items():
        *numbered, every = by_rules(record, record.of(class_levels=number))
        named += [(word, name, rows) for name, rows in [*numbered, every, *by_plan(*every)]]
    return against_hand(record, ["class levels", "rules"], named)


PARTS = {"mixed": "kind 5 among the others", "spread": "steps to be spread", "nested": "over shops as well"}


def loads(record):
    """Sheets with rules of kind 5, by what they are; of those of a part the group is named by what follows the part's name."""
    named = []
    for part, word in PARTS.items():
        rows = record.of(part=part)
        groups = dict.fromkeys(row["group"] for row in rows)
        of_groups = [(group.removeprefix(f"{part}-"), record.of(part=part, group=group)) for group in groups]
        every = ("all of these", rows)
        named += [(word, name, rows) for name, rows in [*of_groups, every, *by_plan(*every)]]
    every = ("all of these", record.rows)
    named += [("all", name, rows) for name, rows in [every, *by_plan(*every)]]
    return against_hand(record, ["sheets with", "rules, or what is asked"], named)


def trial(record):
    """The crew by trial for each number of steps: plans tried, times, ratios to the crew call and to the brute force by hand."""
    heading = ["steps", "plans", "plan", "sheets", "tried: median", "most", "by trial median", "worst", "crew median"]
    for name in ("crew", "hand"):
        heading += [f"ratio to {name}: median", "p90", "worst"]
    lines = []
    for steps in dict.fromkeys(row["steps"] for row in record.rows):
        for plan, word in (("yes", "a plan"), ("no", "none")):
            rows = record.of(steps=steps, plan=plan)
            if not rows:
                continue
            every = int(rows[0]["people"]) ** int(steps)
            tried, times, crew = numbers(rows, "tried"), column(rows, "by_trial_ns"), column(rows, "crew_ns")
            speed = [plans / one for plans, one in zip(tried, times)]
            lines.append([
                steps, f"{every:,}", word, str(len(rows)), count(median(tried)), count(max(tried)),
                time(median(times)), time(max(times)), time(median(crew)), *ratios(list(zip(times, crew))),
                *ratios(list(zip(times, column(rows, "hand_ns")))), digits(median(speed)),
            ])
    return table([*heading, "plans tried a second, millions"], lines)
