#!/usr/bin/env python3
# SPDX-License-Identifier: Apache-2.0 OR MIT
"""Makes the plots of docs/PERFORMANCE.md, and its table of goals, of bench/data, and tries whether they are up to date.

    python3 bench/plot.py            compares each with the data
    python3 bench/plot.py --write    makes them anew

What was measured anew is written into bench/data by hand, from what a script of bench/ printed:

    figures.csv    all figures, a line each: script, what, measured, goal, met (yes or no), date, beside (other work or
                   nothing), shown (yes, if the page is to have it though the goal is met); a line without a goal isn't
                   in the page's tables
    serving.csv    requests a second by connections
    growth.csv     µs a command by how many entries there are
    stores.csv     a journal beside a database
    gate.csv       processor minutes of the gate, by crate
    openings.csv, retries.csv, plans.csv, assignments.csv    what else the scripts printed
    looks.csv      what plans look at, as valgrind counted it on an unoptimised build of cr_match

Needs only Python 3. Ends with status 0 if all are up to date.
"""

import csv
import sys

from lib.places import TOP
from lib.svg import Picture

DATA, PICTURES, PAGE = TOP / "bench/data", TOP / "docs/pictures", TOP / "docs/PERFORMANCE.md"
BEGIN, END = "<!-- written by bench/plot.py --write -->\n", "<!-- end -->"
COLOURS = {"confd": "#1f4e79", "nginx": "#38761d", "Flask": "#c55a11", "SQLite": "#7f7f7f", "journal": "#1f4e79",
           "database": "#6fa8dc", "proofs": "#1f4e79", "tests": "#6fa8dc", "edits": "#c55a11", "builds": "#38761d",
           "runs": "#7f7f7f"}  # fmt: skip
WIDTH, HEIGHT = 330, 210


def rows(name):
    with open(DATA / name, encoding="utf-8", newline="") as file:
        return list(csv.DictReader(file))


def nice(most):
    """A round number that is no less, whose quarter is round too, for the end of an axis."""
    step = 10 ** (len(str(int(most))) - 1)
    return next(step * part for part in (1, 1.2, 1.6, 2, 2.4, 3.2, 4, 6, 8, 10) if step * part >= most)


def said(value):
    return f"{value:,.0f}" if value >= 10 else f"{value:.1f}".removesuffix(".0")


def axes(picture, left, top, title, most):
    """A panel's frame, its title, and four lines across."""
    picture.text(left, top - 12, title, 12, bold=True)
    for part in range(5):
        y = top + HEIGHT * (1 - part / 4)
        picture.line([(left, y), (left + WIDTH, y)], "#dddddd")
        picture.text(left - 6, y + 4, said(most * part / 4), 9, "end")


def legend(picture, names, left, y):
    for place, name in enumerate(names):
        picture.box(left + place * 110, y - 9, 12, 12, COLOURS[name], round_by=2)
        picture.text(left + place * 110 + 18, y + 1, name, 11)


def lines(title, panels, below):
    """Panels side by side: each a title, the words along its x axis, and the values of each series there."""
    picture = Picture(60 + len(panels) * (WIDTH + 70), HEIGHT + 120, title)
    picture.text(10, 22, title, 14, bold=True)
    most = nice(max(value for _, _, series in panels for values in series.values() for value in values))
    for place, (name, along, series) in enumerate(panels):
        left, top = 60 + place * (WIDTH + 70), 66
        axes(picture, left, top, name, most)
        across = [left + 20 + (WIDTH - 40) * spot / (len(along) - 1) for spot in range(len(along))]
        for x, word in zip(across, along):
            picture.text(x, top + HEIGHT + 16, word, 10, "middle")
        for label, values in series.items():
            points = [(x, top + HEIGHT * (1 - value / most)) for x, value in zip(across, values)]
            picture.line(points, COLOURS[label], 2)
            for (x, y), value in zip(points, values):
                picture.box(x - 3, y - 3, 6, 6, COLOURS[label], round_by=3, note=f"{label}: {said(value)}")
    names = list(panels[0][2])
    legend(picture, names, 60, HEIGHT + 108)
    picture.text(60 + len(names) * 110 + 20, HEIGHT + 109, below, 10)
    return picture.bytes()


def by(name, key):
    """The lines of a file, by one of its columns, in the order in which its values come."""
    found = {}
    for row in rows(name):
        found.setdefault(row[key], []).append(row)
    return found


def serving():
    panels = [(load, [row["connections"] for row in found],
               {name: [float(row[name]) for row in found] for name in ("confd", "nginx", "Flask")})
              for load, found in by("serving.csv", "load").items()]
    return lines("Requests a second, by connections", panels, "connections along the bottom; medians")


def growth():
    panels = [(command, [f"{int(row['entries']):,}" for row in found],
               {name: [float(row[name]) for row in found] for name in ("confd", "SQLite")})
              for command, found in by("growth.csv", "command").items()]
    return lines("µs a command, by how many entries there are", panels,
                 "SQLite has rows only: no HTTP, authentication or judgement")


def stores():
    found = rows("stores.csv")
    picture = Picture(60 + len(found) * 300, HEIGHT + 120, "A journal beside a database")
    picture.text(10, 22, "A journal beside a database", 14, bold=True)
    for place, row in enumerate(found):
        left, top = 30 + place * 300, 66
        values = {name: float(row[name]) for name in ("journal", "database")}
        most = max(values.values())
        picture.text(left, top - 12, f"{row['what']}, {row['unit']}", 11, bold=True)
        for spot, (name, value) in enumerate(values.items()):
            high, x = (HEIGHT - 20) * value / most, left + 20 + spot * 80
            picture.box(x, top + HEIGHT - high, 60, high, COLOURS[name], round_by=2)
            picture.text(x + 30, top + HEIGHT - high - 5, said(value) if value >= 10 else f"{value:.2f}", 11, "middle")
    legend(picture, ("journal", "database"), 50, HEIGHT + 108)
    return picture.bytes()


def gate():
    kinds = ("proofs", "tests", "edits", "builds", "runs")
    found = [(row["crate"], [float(row[kind] or 0) for kind in kinds]) for row in rows("gate.csv")]
    found.sort(key=lambda row: -sum(row[1]))
    most, wide = max(sum(values) for _, values in found), 560
    picture = Picture(820, 70 + 20 * len(found) + 30, "Processor minutes of the gate, by crate")
    picture.text(10, 22, "Processor minutes of the gate, by crate", 14, bold=True)
    for place, (crate, values) in enumerate(found):
        y, x = 42 + 20 * place, 170
        picture.text(162, y + 12, crate, 11, "end")
        for kind, value in zip(kinds, values):
            picture.box(x, y, wide * value / most, 15, COLOURS[kind], note=f"{kind}: {said(value)}")
            x += wide * value / most
        picture.text(x + 6, y + 12, f"{sum(values):.1f}", 10)
    legend(picture, kinds, 170, 62 + 20 * len(found))
    return picture.bytes()


def goals():
    """What the page has of goals: a line for each that is missed or to be shown, and how many are met, by script."""
    found = [row for row in rows("figures.csv") if row["goal"]]
    table = ["|what|measured|goal|met|script, day|", "|---|---|---|---|---|"]
    for row in found:
        if row["met"] != "yes" or row["shown"]:
            met = {"yes": "yes", "no": "**no**"}.get(row["met"], "not measured")
            by = f"`bench/{row['script']}`, {row['date']}"
            table.append("|" + "|".join((row["what"], row["measured"], row["goal"], met, by)) + "|")
    counts = {name: [row["met"] for row in found if row["script"] == name] for name in {row["script"] for row in found}}
    table += ["", "|goals of|met|of|", "|---|---|---|"]
    table += [f"|`bench/{name}`|{met.count('yes')}|{len(met)}|" for name, met in sorted(counts.items())]
    table.append(f"|all|{sum(row['met'] == 'yes' for row in found)}|{len(found)}|")
    return "\n".join([*table, ""])


def main():
    writes, wrong = sys.argv[1:] == ["--write"], []
    for name, plot in (("serving", serving), ("growth", growth), ("stores", stores), ("gate", gate)):
        file, due = PICTURES / f"{name}.svg", plot()
        if writes:
            file.write_bytes(due)
        elif not file.exists() or file.read_bytes() != due:
            wrong.append(f"docs/pictures/{file.name}")
    before, begin, rest = PAGE.read_text().partition(BEGIN)
    old, end, after = rest.partition(END)
    if not begin or not end:
        sys.exit(f"{PAGE.name} has no block between {BEGIN.strip()} and {END}")
    if writes:
        PAGE.write_text(before + begin + goals() + end + after)
    elif old != goals():
        wrong.append("docs/PERFORMANCE.md")
    for name in wrong:
        print(f"{name} is of other data: python3 bench/plot.py --write")
    print(f"4 plots and a table, {len(wrong)} out of date")
    return 1 if wrong else 0


if __name__ == "__main__":
    sys.exit(main())
