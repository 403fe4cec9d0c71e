#!/usr/bin/env python3
"""Draws what cuts over time leave: a strip for each table that `cut-firmware --table TABLE` wrote.

usage: examples/firmware/draw.py TABLE .. > cuts.svg

Each strip has the cuts of a run from left to right, by their ticks: green where the firmware found all that it had acknowledged, else in the
colour of what was wrong; where second cuts were tried, by the first of these that is wrong. Below it a mark stands where an operation was
acknowledged, behind it how many cuts are wrong."""
import csv
import itertools
import os
import sys

HERE = os.path.dirname(os.path.abspath(__file__))
for folder in ("../../python", "../python"):
    sys.path.insert(0, os.path.join(HERE, folder))
sys.dont_write_bytecode = True
from pcm import drawing  # noqa: E402

LEFT, RIGHT, ROW, TOP = 250, 880, 24, 56
TITLE = "A power cut at each moment of a run, from left to right: what the firmware finds behind it"
RIGHT_FILL = drawing.PALE_GREEN
# Kinds of what is wrong have these in turn, and the last one where they are more.
FILLS = (drawing.RED, drawing.ORANGE, drawing.PURPLE, drawing.BLUE, drawing.INK)


def kind_of(rows):
    """What is wrong behind a cut, or behind one within the boot behind it; None where nothing is."""
    return next((row["verdict"].partition(":")[0] for row in rows if row["verdict"] != "ok"), None)


def cuts_of(rows):
    """The cuts of a table: of each its tick, how many operations were acknowledged, and what is wrong."""
    found = []
    for _, behind in itertools.groupby((row for row in rows if row["cut"] != "-"), lambda row: row["cut"].partition(".")[0]):
        behind = list(behind)
        first = next((row for row in behind if "." not in row["cut"]), behind[0])
        found.append((int(first["tick"]), first["acked"], kind_of(behind)))
    return found


def draw_strip(p, y, name, cuts, fills):
    """A run."""
    ticks = [tick for tick, _, _ in cuts]
    edges = ticks + [2 * ticks[-1] - ticks[-2] if len(ticks) > 1 else ticks[-1] + 1]
    scale = (RIGHT - LEFT) / max(edges[-1] - edges[0], 1)
    p.text(14, y + 12, name, 12, "start")
    p.text(RIGHT + 8, y + 12, f"{sum(kind is not None for _, _, kind in cuts)} of {len(cuts)}", 11, "start", drawing.SOFT)
    begin = 0
    for at in range(1, len(cuts) + 1):
        if at == len(cuts) or cuts[at][2] != cuts[begin][2]:
            p.rectangle(LEFT + (edges[begin] - edges[0]) * scale, y, max((edges[at] - edges[begin]) * scale, 0.7), 14, fills[cuts[begin][2]])
            begin = at
    for at in range(1, len(cuts)):
        if cuts[at][1] != cuts[at - 1][1]:
            p.rectangle(LEFT + (ticks[at] - edges[0]) * scale, y + 14, 1, 4, drawing.RULE)


def draw_key(p, fills):
    """What the colours mean."""
    x = LEFT
    for kind, fill in fills.items():
        words = "all that was acknowledged" if kind is None else kind
        p.rectangle(x, 36, 10, 10, fill)
        p.text(x + 15, 45, words, 11, "start", drawing.SOFT)
        x += 30 + drawing.width_of(words, 11)


def picture(tables):
    """The picture of tables, each with its name."""
    strips = [(name, cuts_of(rows)) for name, rows in tables]
    kinds = list(dict.fromkeys(kind for _, cuts in strips for _, _, kind in cuts if kind is not None))
    fills = {None: RIGHT_FILL, **dict(itertools.zip_longest(kinds, FILLS[: len(kinds)], fillvalue=FILLS[-1]))}
    bottom = TOP + ROW * len(strips)
    p = drawing.Picture(960, bottom + 34, TITLE)
    p.text(14, 24, TITLE, 13, "start", bold=True)
    draw_key(p, fills)
    for number, (name, cuts) in enumerate(strips):
        if cuts:
            draw_strip(p, TOP + ROW * number, name, cuts, fills)
    p.text(LEFT, bottom + 14, "marks below a strip: an operation is acknowledged", 11, "start", drawing.SOFT)
    return p.drawn()


def read(path):
    """A table's rows."""
    try:
        with open(path, newline="", encoding="ascii") as file:
            rows = list(csv.DictReader(file))
    except (OSError, UnicodeDecodeError) as why:
        sys.exit(f"draw.py: {path}: {getattr(why, 'strerror', None) or 'it is no table'}")
    if not rows or not all(row.get("verdict") and row.get("tick", "").isdecimal() for row in rows):
        sys.exit(f"draw.py: {path}: it is no table that cut-firmware writes")
    return rows


def main(paths):
    """The picture of these tables, on standard output."""
    if not paths or paths[0] in ("-h", "--help"):
        sys.stdout.write(__doc__ + "\n")
        return 0 if paths else 2
    sys.stdout.write(picture([(os.path.splitext(os.path.basename(path))[0], read(path)) for path in paths]))
    return 0


if __name__ == "__main__":
    sys.exit(main(sys.argv[1:]))
