"""Tables and plots from recorded files.

usage: python3 bench/plot [--measured CSV] [--peers CSV] [--sign CSV] [--skipped CSV] [--levels CSV] [--loads CSV]
                          [--trial CSV] [--patterns CSV] [--walk CSV] [--plots DIR] [--into FILE]
  --measured  from 'bench measure', bench/recorded/measured.csv unless given
  --peers     from 'bench peers', bench/recorded/peers.csv unless given
  --sign      from 'bench sign', bench/recorded/sign.csv unless given
  --skipped   from 'bench skipped', bench/recorded/skipped.csv unless given
  --levels    from 'bench levels', bench/recorded/levels.csv unless given
  --loads     from 'bench loads', bench/recorded/loads.csv unless given
  --trial     from 'bench trial', bench/recorded/trial.csv unless given
  --patterns  from 'bench beside' with the library of bench/patterns, bench/recorded/patterns.csv unless given
  --walk      of an earlier build that counted its searches, bench/recorded/walk.csv unless given
  --plots     where the plots go, docs/plots unless given
  --into      a text that has a line '<!-- NAME -->' before and '<!-- end NAME -->' after the place of a table; without it
              the tables are printed. The names are practice, others, sign, skipped, levels, loads, trial, peers, slower,
              patterns, walk
A file that is missing is left out.
"""

import argparse
import re
import sys
from pathlib import Path

sys.dont_write_bytecode = True

import plots
import tables
from records import TIME_OF, Record

ROOT = Path(__file__).resolve().parents[2]


def arguments():
    parser = argparse.ArgumentParser(description="Tables and plots from recorded files.")
    parser.add_argument("--measured", type=Path, default=ROOT / "bench/recorded/measured.csv")
    parser.add_argument("--peers", type=Path, default=ROOT / "bench/recorded/peers.csv")
    parser.add_argument("--sign", type=Path, default=ROOT / "bench/recorded/sign.csv")
    parser.add_argument("--skipped", type=Path, default=ROOT / "bench/recorded/skipped.csv")
    parser.add_argument("--levels", type=Path, default=ROOT / "bench/recorded/levels.csv")
    parser.add_argument("--loads", type=Path, default=ROOT / "bench/recorded/loads.csv")
    parser.add_argument("--trial", type=Path, default=ROOT / "bench/recorded/trial.csv")
    parser.add_argument("--patterns", type=Path, default=ROOT / "bench/recorded/patterns.csv")
    parser.add_argument("--walk", type=Path, default=ROOT / "bench/recorded/walk.csv")
    parser.add_argument("--plots", type=Path, default=ROOT / "docs/plots")
    parser.add_argument("--into", type=Path)
    return parser.parse_args()


def record(path):
    if path.exists():
        return Record(path)
    print(f"{path} is missing: left out", file=sys.stderr)
    return None


def made(measured, peers, sign, skipped, levels, loads, trial, patterns, walk):
    """Tables by name and plots by file."""
    named, drawn = {}, {}
    if measured:
        named["practice"] = f"{measured.origin()}\n\n{tables.practice(measured)}"
        named["others"] = f"{measured.origin()}\n\n{tables.others(measured)}"
        title = "practice sheets of 12 steps and 64 people"
        drawn["crew.svg"] = plots.over_rules(measured, f"Crew, {title}", "crew_ns", "first_ns")
        drawn["spare.svg"] = plots.over_rules(measured, f"Spare count, cap 3, {title}", "spare_ns", "hand_spare_ns")
        drawn["against-hand.svg"] = plots.against_hand(measured)
    if peers:
        named["peers"] = f"{peers.origin()}\n\n{tables.peers(peers)}"
        named["slower"] = tables.slower_than(peers)
        for solver in TIME_OF:
            drawn[f"against-{solver}.svg"] = plots.against_peer(peers, solver)
    if sign:
        named["sign"] = f"{sign.origin()}\n\n{tables.sign(sign)}"
    if skipped:
        named["skipped"] = f"{skipped.origin()}\n\n{tables.skipped(skipped)}"
    if levels:
        named["levels"] = f"{levels.origin()}\n\n{tables.levels(levels)}"
    if loads:
        named["loads"] = f"{loads.origin()}\n\n{tables.loads(loads)}"
    if trial:
        named["trial"] = f"{trial.origin()}\n\n{tables.trial(trial)}"
    if patterns:
        named["patterns"] = f"{patterns.origin()}\n\n{tables.patterns(patterns)}"
    if walk:
        # The command of this record is no longer there.
        named["walk"] = f"{walk.origin(command=False)}\n\n{tables.walk(walk)}"
    return named, drawn


def put(text, name, table):
    """The text with the table in its place."""
    begin, end = f"<!-- {name} -->", f"<!-- end {name} -->"
    place = re.compile(re.escape(begin) + ".*?" + re.escape(end), re.DOTALL)
    if not place.search(text):
        print(f"there is no place for the table '{name}'", file=sys.stderr)
    return place.sub(lambda _: f"{begin}\n{table}{end}", text)


def main():
    given = arguments()
    planned = (given.measured, given.peers, given.sign, given.skipped, given.levels, given.loads, given.trial)
    named, drawn = made(*map(record, (*planned, given.patterns, given.walk)))
    given.plots.mkdir(parents=True, exist_ok=True)
    for file, svg in drawn.items():
        if svg:
            (given.plots / file).write_text(svg)
    if not given.into:
        for name, table in named.items():
            print(f"## {name}\n\n{table}")
        return
    text = given.into.read_text()
    for name, table in named.items():
        text = put(text, name, table)
    given.into.write_text(text)


main()
