#!/usr/bin/env python3
"""Draws the pictures of README.md and docs/ into this folder: docs/pictures/draw.py [--check]

With --check it draws nothing, and names those that aren't as it would draw them; docs/check calls it so. Needs Python 3 alone. To look at
one: rsvg-convert -w 860 module.svg > module.png (Debian's librsvg2-bin)."""
import pathlib
import sys

sys.dont_write_bytecode = True
HERE = pathlib.Path(__file__).resolve().parent
sys.path.insert(0, str(HERE.parent.parent / "python"))
from pcm.drawing import BLUE, GREEN, GRID, ORANGE, PALE, PALE_BLUE, PALE_GREEN, PALE_ORANGE, PALE_RED, PAPER, RED, RULE, SOFT, INK, Picture


class Drawing(Picture):
    """A picture of this folder, by its name."""

    def __init__(self, name, width, height, title):
        super().__init__(width, height, title)
        self.name = name

    def file(self):
        return HERE / f"{self.name}.svg"


def row_of_lines(p, x, y, count, fill, gap=None, side=22):
    """Array lines side by side; the gap is empty and dashed."""
    for number in range(count):
        p.box(x + number * (side + 3), y, side, side, PAPER if number == gap else fill, dashed=number == gap, round_=2)


def module():
    p = Drawing("module", 860, 470, "A module: a randomiser spreads lines over banks; each bank has a queue, registers, a remap table, and array lines")
    p.named(10, 62, 116, 48, "rows of a trace\nR, W, M, C", PALE)
    p.named(146, 62, 106, 48, "randomiser\n(by the seed)", PALE)
    p.arrow((126, 86), (146, 86))
    p.arrow((252, 86), (286, 86))
    for shift in (16, 8):
        p.box(286 + shift, 34 - shift, 552, 420, PAPER)
    p.box(286, 34, 552, 420, PAPER)
    p.text(300, 56, "a bank (a module has 1 to 16)", 14, "start", bold=True)

    p.box(300, 68, 330, 168, PALE_GREEN, dashed=True)
    p.text(312, 86, "in protected memory: survives a power cut", 12, "start", GREEN, bold=True)
    p.text(312, 110, "write queue", 13, "start")
    for number in range(6):
        p.box(420 + number * 32, 96, 28, 20, PAPER if number > 2 else PALE_BLUE, round_=2)
    p.text(434, 110, "head", 9)
    p.text(312, 140, "registers of each region", 13, "start")
    for number, words in enumerate(("Start", "Gap", "counter")):
        p.named(486 + number * 44, 126, 41 if number < 2 else 50, 20, words, PAPER, 10)
    p.text(312, 170, "remap table", 13, "start")
    p.named(420, 156, 150, 20, "worn slot → spare", PAPER, 11)
    p.text(312, 200, "mark", 13, "start")
    p.named(420, 186, 150, 20, "exhausted", PAPER, 11)
    p.text(312, 225, "(--registers array: the last three stand in control lines)", 10, "start", SOFT)

    p.box(646, 68, 178, 168, PALE_RED, dashed=True)
    p.text(658, 86, "gone at a power cut", 12, "start", RED, bold=True)
    p.named(660, 100, 150, 44, "reads that wait,\nwith the queue's bytes", PAPER, 11)
    p.named(660, 154, 150, 66, "the line write\nin progress:\nits phase and rounds", PAPER, 11)

    p.text(300, 262, "the bank's array lines: cells, which keep what they hold", 12, "start", BLUE, bold=True)
    for region, top in ((0, 274), (1, 318)):
        row_of_lines(p, 300, top, 9, PALE_BLUE, 8 if region == 0 else 3)
        p.text(535, top + 16, f"region {region}: N lines in N + 1 slots; dashed: its gap", 11, "start", SOFT)
    row_of_lines(p, 300, 362, 4, PALE_ORANGE)
    p.text(535, 378, "spares, for slots whose line is worn", 11, "start", SOFT)
    for number in range(7):
        p.box(300 + number * 25, 406, 22, 22, PALE_GREEN, dashed=True, round_=2)
    p.text(535, 415, "control lines, with --registers array alone:", 11, "start", SOFT)
    p.text(535, 431, "one for each region, each spare, and the mark", 11, "start", SOFT)

    p.text(16, 150, "A line of 64 or 128 bytes\nis one array line: its data\ncells, and check cells for\nerror-correcting pointers.", 12, "start", SOFT)
    p.text(16, 240, "Each bank does one action\nat a time: a sense for a\nread or to begin a write, or\none pulse and one sense.", 12, "start", SOFT)
    return p


def cut():
    p = Drawing("cut", 860, 330, "The worked example: a write whose pulse is torn by a power cut at tick 7, begins anew and is stored at tick 22")
    x = lambda tick: 130 + tick * 23 if tick <= 25 else 130 + (25 + (tick - 99) * 0.62 + 2) * 23
    left, bottom = 118, 270
    for tick in (0, 5, 7, 12, 15, 22, 100, 105):
        p.line([(x(tick), 40), (x(tick), bottom)], GRID, width=1)
        p.text(x(tick), bottom + 18, str(tick), 12, colour=SOFT)
    p.line([(130, bottom), (x(25) - 14, bottom)], RULE)
    p.line([(x(100) - 14, bottom), (848, bottom)], RULE)
    p.text((x(25) + x(100)) / 2 - 14, bottom + 4, "· · ·", 13, colour=SOFT)
    p.text(left - 104, bottom + 18, "tick", 12, "start", SOFT)

    p.text(14, 30, "trace rows", 13, "start", bold=True)
    for tick, words in ((0, "1: W line 0"), (7, "2: C, the power goes"), (100, "3: R line 0")):
        p.text(x(tick) + 2, 30, words, 12, "start", RED if tick == 7 else INK)
    p.line([(x(7), 36), (x(7), bottom)], RED, dashed=True, width=1.8)

    p.text(14, 84, "the bank", 13, "start", bold=True)
    p.text(14, 100, "does", 13, "start", bold=True)
    p.named(x(0), 64, x(5) - x(0), 40, "begin:\na sense", PALE, 12)
    p.named(x(5), 64, x(7) - x(5), 40, "torn", PALE_RED, 12)
    p.line([(x(7), 57), (x(15), 57)], RED, dashed=True)
    p.text(x(15) + 6, 60, "the iteration would have ended here", 10, "start", colour=SOFT)
    p.named(x(7), 64, x(12) - x(7), 40, "begin anew:\na sense", PALE, 12)
    p.named(x(12), 64, x(22) - x(12), 40, "iteration: one pulse of the cells\nthat are still wrong, one sense", PALE_BLUE, 12)
    p.named(x(100), 64, x(105) - x(100), 40, "serve:\na sense", PALE, 12)

    p.text(14, 152, "the queue", 13, "start", bold=True)
    p.text(14, 168, "(protected)", 12, "start", SOFT)
    p.named(x(0), 136, x(22) - x(0), 34, "ff..ff of line 0 stands here, over the cut, until it is stored", PALE_GREEN, 12)

    p.text(14, 216, "cells of", 13, "start", bold=True)
    p.text(14, 232, "array line 90", 13, "start", bold=True)
    p.named(x(0), 200, x(7) - x(0), 34, "00..00", PAPER, 12)
    p.named(x(7), 200, x(22) - x(7), 34, "some have changed, some have not", PALE_RED, 12)
    p.named(x(22), 200, 848 - x(22), 34, "ff..ff", PALE_BLUE, 12)

    p.text(14, 318, "answers", 13, "start", bold=True)
    p.text(x(0), 318, "row 1: stored at 22 in array line 90", 12, "start")
    p.text(430, 318, "row 2: cut at 7", 12, "start", RED)
    p.text(848, 318, "row 3: read at 105: ff..ff", 12, "end")
    return p


def write():
    p = Drawing("write", 860, 500, "The life of a write: refused, merged or accepted; then begun, pulsed and sensed until it is stored; torn by a cut or cancelled by a read it begins anew")
    p.named(20, 20, 150, 40, "a write arrives", PALE)
    asks = ((100, "is the bank exhausted?", "worn: refused", PALE_RED), (180, "does an entry of its line wait,\nother than the head in flight?", "merged: the entry takes its\nbytes; the older write is done", PALE_GREEN), (270, "is the queue full?", "full: refused", PALE_RED))
    last = 60
    for y, question, answer, fill in asks:
        height = 56 if "\n" in question else 44
        p.arrow((95, last), (95, y))
        p.named(20, y, 220, height, question, PAPER, 12)
        p.arrow((240, y + height / 2), (290, y + height / 2))
        p.text(265, y + height / 2 - 6, "yes", 11, colour=SOFT)
        p.named(290, y, 190, height, answer, fill, 12)
        p.text(108, y + height + 16, "no", 11, colour=SOFT)
        last = y + height
    p.arrow((95, last), (95, 366))
    p.named(20, 366, 220, 44, "accepted: waits in the queue,\nwhich survives power cuts", PALE_GREEN, 12)
    p.text(310, 440, "once it is the head, no gap move is due,\nand no read of its line waits", 11, "middle", SOFT)
    p.line([(130, 410), (130, 484), (506, 484), (506, 56)], SOFT)
    p.arrow((506, 56), (540, 56))

    p.text(840, 22, "a cut, or a read of its line, drops it; it begins anew", 11, "end", SOFT)
    p.named(540, 32, 300, 52, "begin: sense its array line;\nbytes not given are taken from there", PALE, 12)
    p.arrow((690, 84), (690, 130))
    p.text(682, 112, "not yet its bytes", 11, "end", SOFT)
    p.named(540, 130, 300, 48, "iteration: pulse the cells that differ,\nthen sense the line", PALE_BLUE, 12)
    p.line([(840, 142), (852, 142), (852, 166), (842, 166)], SOFT, head=True)
    p.text(846, 122, "again, 160 (208) at most", 10, "end", SOFT)
    for x, words in ((586, "it has\nits bytes"), (690, "it is\nbroken off"), (794, "a cell\ncan't be set")):
        p.arrow((x - 20, 178), (x - 20, 226))
        p.text(x - 14, 194, words, 10, "start", SOFT)
    p.named(540, 226, 96, 86, "stored:\nleaves the\nqueue; its\nregion counts\none more", PALE_GREEN, 11)
    p.named(642, 226, 96, 86, "torn by a cut,\nor cancelled\nby a read (four\ntimes at most):\nit still waits", PALE_RED, 11)
    p.named(744, 226, 96, 86, "worn: more\nstuck cells than\npointers, or a\nswitch is stuck", PALE_ORANGE, 11)
    p.line([(690, 312), (690, 334), (524, 334)], SOFT)
    p.named(642, 386, 96, 62, "a spare takes\nthe slot;\nbegin anew", PALE_ORANGE, 11)
    p.named(744, 386, 96, 62, "no spare left:\nthe bank is\nexhausted", PALE_RED, 11)
    p.line([(776, 312), (776, 352), (690, 352)], SOFT)
    p.arrow((690, 352), (690, 386))
    p.arrow((806, 312), (806, 386))
    p.line([(642, 417), (524, 417), (524, 70)], SOFT)
    p.arrow((524, 70), (540, 70))
    p.text(840, 468, "what was accepted stays in the queue", 11, "end", SOFT)
    return p


def policies():
    p = Drawing("policies", 860, 318, "The same write and read under the three policies: paused, plain and cancelled")
    x = lambda tick: 116 + tick * 7.3
    bottom = 262
    for tick in (0, 7, 12, 20, 85, 90, 97):
        p.line([(x(tick), 40), (x(tick), bottom)], GRID, width=1)
        p.text(x(tick), bottom + 16, str(tick), 11, colour=SOFT)
    p.line([(x(0), bottom), (x(100), bottom)], RULE)
    p.text(14, bottom + 16, "tick", 12, "start", SOFT)
    p.text(14, 28, "trace rows", 13, "start", bold=True)
    p.text(x(0), 28, "W line 0", 12, "start")
    p.text(x(7) + 4, 28, "R line 1", 12, "start", ORANGE)
    p.line([(x(7), 34), (x(7), bottom)], ORANGE, dashed=True, width=1.6)

    def act(top, begin, end, words, fill):
        p.named(x(begin), top, x(end) - x(begin), 34, words, fill, 10)

    def iterations(top, begin, end):
        for tick in range(begin, end, 10):
            act(top, tick, tick + 10, "pulse, sense" if tick + 10 <= end else "", PALE_BLUE)

    rows = ((50, "pause", "the read is served between two iterations"), (122, "plain", "the write goes on to its end first"), (194, "cancel", "the read tears the pulse; the write begins anew"))
    for top, name, told in rows:
        p.text(14, top + 16, name, 13, "start", bold=True)
        act(top, 0, 5, "sense", PALE)
        p.text(x(100) + 2, top + 50, told, 11, "end", SOFT)
    iterations(50, 5, 15)
    act(50, 15, 20, "serve", PALE_ORANGE)
    iterations(50, 20, 90)
    p.text(x(8), 100, "read 20, stored 90", 11, "start")
    iterations(122, 5, 85)
    act(122, 85, 90, "serve", PALE_ORANGE)
    p.text(x(8), 172, "read 90, stored 85", 11, "start")
    act(194, 5, 7, "", PALE_RED)
    act(194, 7, 12, "serve", PALE_ORANGE)
    act(194, 12, 17, "sense", PALE)
    iterations(194, 17, 97)
    p.text(x(8), 244, "read 12, stored 97", 11, "start")
    p.text(430, 306, "Some of its cells miss seven times, so the write takes eight iterations. Red: a pulse that is torn.", 11, colour=SOFT)
    return p


def cells():
    p = Drawing("cells", 860, 372, "The cells of an array line of 64 bytes: data cells, six pointers with their replacement cells, the cell full, and three unused cells")
    p.text(14, 30, "512 data cells", 13, "start", bold=True)
    stuck = 11
    for number in range(32):
        p.box(14 + number * 25, 42, 22, 22, PALE_RED if number == stuck else PALE_BLUE, round_=2)
    p.text(14 + 32 * 25 + 4, 58, "· ·", 13, "start", SOFT)
    p.text(14 + stuck * 25 + 11, 57, "x", 11, colour=RED, bold=True)
    p.text(14 + 11, 57, "0", 10, colour=SOFT)
    p.text(14 + stuck * 25 + 40, 90, "data cell x is stuck at the wrong bit", 12, "start", RED)

    p.text(68, 134, "64 check cells", 13, "start", bold=True)
    for number in range(6):
        left = 14 + number * 118
        p.named(left, 146, 84, 26, f"pointer {number}", PALE_ORANGE if number == 0 else PALE if number < 5 else PALE_GREEN, 11)
        p.named(left + 84, 146, 28, 26, "r", PALE_ORANGE if number == 0 else PALE, 11)
    p.named(722, 146, 34, 26, "full", PALE_GREEN, 11)
    for number in range(3):
        p.box(762 + number * 25, 146, 22, 26, PAPER, dashed=True, round_=2)
    p.text(798, 192, "unused", 11, colour=SOFT)
    p.line([(56, 146), (56, 108), (14 + stuck * 25 + 11, 108)], ORANGE, width=1.6)
    p.line([(14 + stuck * 25 + 11, 108), (14 + stuck * 25 + 11, 66)], ORANGE, width=1.6, head=True)
    p.text(14, 192, "nine cells with the number x,", 11, "start", SOFT)
    p.text(14, 208, "and a replacement cell r that stands for bit x", 11, "start", SOFT)

    p.text(14, 252, "pointer 5, cell by cell", 13, "start", bold=True)
    for number in range(10):
        fill = PALE_GREEN if number < 5 else PALE
        p.named(14 + number * 60, 264, 56, 28, f"m{number}" if number < 5 else "r" if number == 9 else "", fill, 11)
    p.line([(646, 172), (646, 240), (560, 240), (560, 262)], RULE, dashed=True)
    p.named(640, 264, 56, 28, "full", PALE_GREEN, 11)
    p.text(14, 314, "activity cells: while full is 0, as many pointers are active as these begin with ones, so none to five", 12, "start", GREEN)
    p.text(14, 332, "full is 1: all six are active, and these five cells hold the low digits of pointer 5's number", 12, "start", GREEN)
    p.text(14, 358, "Where two active pointers have one number, the later one counts: so a replacement cell that sticks is replaced in its turn.", 11, "start", SOFT)
    return p


def stay():
    lines, places = 4, 5
    p = Drawing("stay", 860, 300, "Where each of four lines stands over a full turn of twenty gap moves: line 0 stays at each of five places for four moves")
    place = lambda line, moves: (line + (moves + line) // lines) % places
    left, top, width, height = 92, 58, 36, 32
    p.text(14, 30, "gap moves", 12, "start", SOFT)
    for moves in range(lines * places):
        p.text(left + moves * width + width / 2, 30, str(moves), 10, colour=SOFT)
        for line in range(lines):
            fill = PALE_BLUE if line == 0 else PALE
            p.named(left + moves * width, top + place(line, moves) * height, width, height, str(line), fill, 11)
        p.box(left + moves * width, top + (lines - moves % places) * height, width, height, PAPER, dashed=True, round_=2)
    for at in range(places):
        p.text(14, top + at * height + 20, f"place {at}", 12, "start", SOFT)
    for number in range(places):
        begin = left + number * lines * width
        p.line([(begin + 2, 44), (begin + lines * width - 2, 44)], BLUE, width=2)
    p.text(left + 2, 240, "one stay of line 0: N moves, so N * psi stores of its region", 12, "start", BLUE)
    p.text(left + 2, 260, "a turn: N + 1 stays, so N * (N + 1) * psi stores, after which all is as at first", 12, "start")
    p.text(left + 2, 284, "Here N is 4; dashed: the gap. A column is psi stores, and the move behind them.", 11, "start", SOFT)
    return p


def turn():
    lines, places = 4, 5
    p = Drawing("turn", 860, 330, "Start-Gap with four lines in five places: five gap moves, after which the gap is back and each line stands one place further")
    place = lambda line, moves: (line + (moves + line) // lines) % places
    for moves in range(6):
        x = 104 + moves * 126
        p.text(x + 44, 26, f"after {moves} moves" if moves != 1 else "after 1 move", 12, bold=True)
        p.text(x + 44, 44, f"Start {moves // places}, Gap {lines - moves % places}", 12, colour=SOFT)
        held = {place(line, moves): line for line in range(lines)}
        for at in range(places):
            y = 60 + at * 44
            if at in held:
                p.named(x, y, 88, 36, f"line {held[at]}", PALE_BLUE)
            else:
                p.named(x, y, 88, 36, "gap", PAPER, 12, dashed=True)
        if moves < 5:
            gap = lines - moves % places
            source = gap - 1 if gap else lines
            p.arrow((x + 88, 78 + source * 44), (x + 126, 78 + gap * 44), colour=ORANGE)
    for at in range(places):
        p.text(18, 83 + at * 44, f"place {at}", 12, "start", SOFT)
    p.text(430, 304, "Each gap move copies the line at the next lower place into the gap, or, with the gap at place 0, that of place N to place 0.", 12, colour=SOFT)
    p.text(430, 322, "After N + 1 moves each line stands one place further; after N (N + 1) moves all is as at first.", 12, colour=SOFT)
    return p


def registers():
    p = Drawing("registers", 860, 450, "What survives a power cut with guarded registers, and with registers in the array")
    for left, title in ((10, "--registers guarded (the default)"), (438, "--registers array")):
        p.box(left, 10, 412, 430, PAPER)
        p.text(left + 14, 34, title, 14, "start", bold=True)
    p.box(24, 48, 384, 176, PALE_GREEN, dashed=True)
    p.text(36, 68, "protected memory", 12, "start", GREEN, bold=True)
    p.named(36, 80, 360, 28, "the write queue", PAPER, 12)
    p.named(36, 114, 360, 28, "Start, Gap and counter of each region", PAPER, 12)
    p.named(36, 148, 360, 28, "the remap table, with the spares used", PAPER, 12)
    p.named(36, 182, 360, 28, "the mark: exhausted", PAPER, 12)
    p.box(452, 48, 384, 176, PALE_GREEN, dashed=True)
    p.text(464, 68, "protected memory", 12, "start", GREEN, bold=True)
    p.named(464, 80, 360, 28, "the write queue", PAPER, 12)
    p.named(464, 114, 360, 44, "one change: an item and its new values,\nuntil its control line is written", PAPER, 12)
    p.named(464, 164, 360, 44, "the mark: halted\n(the control line of the change is worn)", PAPER, 12)

    for left in (24, 452):
        p.text(left + 2, 250, "array lines of the bank: cells", 12, "start", BLUE, bold=True)
        row_of_lines(p, left, 262, 9, PALE_BLUE, 8)
        p.text(left + 236, 278, "slots", 12, "start", SOFT)
        row_of_lines(p, left, 292, 3, PALE_ORANGE)
        p.text(left + 236, 308, "spares", 12, "start", SOFT)
    x = 452
    for words in ("region 0", "region 1", "spare 0", "spare 1", "spare 2", "mark"):
        p.named(x, 326, 61, 40, words, PALE_GREEN, 10, dashed=True)
        x += 64
    p.text(452, 384, "control lines: Start, N − Gap, counter of a region; the slot", 11, "start", SOFT)
    p.text(452, 400, "(plus 1) that a spare replaced; 1 where the bank is exhausted", 11, "start", SOFT)
    p.arrow((824, 140), (846, 140), (846, 346), (836, 346), colour=GREEN)
    p.text(24, 346, "After a cut: the kept state is there.", 12, "start")
    p.text(24, 364, "The next work follows from it.", 12, "start")
    p.text(452, 426, "After a cut: each control line is sensed; the change counts for its item.", 11, "start")
    return p


def torn():
    """Drawn from what examples/image/cells prints of the torn store of examples/off, which the gate compares with a run."""
    p = Drawing("torn", 860, 268, "The cells of a torn store: before the pulse, as a cut within it leaves them, and the bytes that stand in the queue")
    rows = (HERE.parents[1] / "examples" / "off" / "torn_store.cells").read_text().splitlines()
    stands = bytes.fromhex(next(row.split(",")[2] for row in rows if row.startswith("3,")))
    bits = [byte >> bit & 1 for byte in stands for bit in range(8)]
    left, shown = 168, 26

    def row_of_cells(top, words, told, values, fills):
        p.text(14, top + 10, words, 13, "start", bold=True)
        p.text(14, top + 26, told, 11, "start", SOFT)
        for number in range(shown):
            p.named(left + number * 25, top, 22, 26, str(values[number]), fills[number], 11)
        p.text(left + shown * 25 + 4, top + 17, "· ·", 13, "start", SOFT)

    for number in range(0, shown, 5):
        p.text(left + number * 25 + 11, 26, str(number), 10, colour=SOFT)
    p.text(14, 26, "data cell", 11, "start", SOFT)
    row_of_cells(38, "before", "tick 5: the pulse begins", [0] * shown, [PAPER] * shown)
    row_of_cells(92, "behind the cut", "tick 7: it is torn", bits, [PALE_BLUE if bit else PALE_RED for bit in bits])
    row_of_cells(146, "in the queue", "protected", [1] * shown, [PALE_GREEN] * shown)
    p.text(14, 214, f"Blue: {sum(bits)} of {len(bits)} cells have changed. Red: {len(bits) - sum(bits)} have not, and are wrong. Which ones a tear changes is up to the array.", 12, "start")
    p.text(14, 234, f"The array line stands for {stands[:1].hex()}..{stands[-1:].hex()}, neither its old bytes nor its new ones. The queue still has the whole write,", 12, "start")
    p.text(14, 252, "so the line's newest bytes are ff..ff. Where the power comes back, the write begins anew, and pulses the red cells alone.", 12, "start")
    return p


def main():
    pictures = [draw() for draw in (module, cut, torn, write, policies, cells, stay, turn, registers)]
    if "--check" not in sys.argv:
        for picture in pictures:
            picture.file().write_text(picture.drawn())
        return 0
    stale = [it.name for it in pictures if not it.file().is_file() or it.file().read_text() != it.drawn()]
    stale += sorted({it.stem for it in HERE.glob("*.svg")} - {it.name for it in pictures})
    for name in stale:
        print(f"docs/pictures/{name}.svg isn't what draw.py draws")
    return int(bool(stale))


if __name__ == "__main__":
    sys.exit(main())
