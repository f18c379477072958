#!/usr/bin/env python3
"""Draws the pictures of docs/ as SVG, 800 points wide, beside this file: parts, write, ring, crash.

    make.py            writes them
    make.py --check    writes nothing, and fails where one isn't what this draws
"""

import math
import sys
from pathlib import Path
from xml.sax.saxutils import escape

WIDTH = 800
INK, QUIET, LINE = "#1b2733", "#5b6b7a", "#8797a5"
PAPER, PANEL = "#ffffff", "#f4f6f8"
BLUE, GREEN, AMBER, ROSE, VIOLET, GREY = "#d6e6f7", "#d3ecd6", "#fbe6b8", "#f6d3d0", "#e4d9f3", "#e3e7eb"


class Picture:
    def __init__(self, height, title):
        self.height = height
        self.parts = [
            f'<svg xmlns="http://www.w3.org/2000/svg" viewBox="0 0 {WIDTH} {height}" width="{WIDTH}" height="{height}"'
            ' font-family="DejaVu Sans, Verdana, sans-serif" font-size="13">',
            f"<title>{escape(title)}</title>",
            f'<defs><marker id="tip" viewBox="0 0 10 10" refX="9" refY="5" markerWidth="7" markerHeight="7" orient="auto">'
            f'<path d="M0 0L10 5L0 10z" fill="{INK}"/></marker>'
            f'<pattern id="either" width="8" height="8" patternUnits="userSpaceOnUse" patternTransform="rotate(45)">'
            f'<rect width="8" height="8" fill="#d3dae0"/><rect width="4" height="8" fill="#bfe3c3"/></pattern></defs>',
            f'<rect width="{WIDTH}" height="{height}" fill="{PAPER}"/>',
        ]

    def text(self, x, y, words, size=13, anchor="start", fill=INK, bold=False, mono=False):
        weight = ' font-weight="bold"' if bold else ""
        family = ' font-family="DejaVu Sans Mono, monospace"' if mono else ""
        self.parts.append(
            f'<text x="{x:g}" y="{y:g}" font-size="{size}" text-anchor="{anchor}" fill="{fill}"{weight}{family}>{escape(words)}</text>'
        )

    def lines(self, x, y, rows, step=17, **how):
        for i, row in enumerate(rows):
            self.text(x, y + i * step, row, **how)

    def box(self, x, y, w, h, fill=PANEL, stroke=LINE, dashed=False, radius=5, wide=1):
        dash = ' stroke-dasharray="5 4"' if dashed else ""
        self.parts.append(
            f'<rect x="{x:g}" y="{y:g}" width="{w:g}" height="{h:g}" rx="{radius}" fill="{fill}" stroke="{stroke}" stroke-width="{wide}"{dash}/>'
        )

    def cell(self, x, y, w, h, words, fill=PANEL, size=12, mono=False, bold=False):
        rows = words.split("\n")
        self.box(x, y, w, h, fill)
        top = y + h / 2 - (len(rows) - 1) * (size + 3) / 2 + size * 0.36
        self.lines(x + w / 2, top, rows, step=size + 3, size=size, anchor="middle", mono=mono, bold=bold)

    def arrow(self, *points, dashed=False, tip=True, stroke=INK):
        path = "M" + "L".join(f"{x:g} {y:g}" for x, y in points)
        dash = ' stroke-dasharray="5 4"' if dashed else ""
        end = ' marker-end="url(#tip)"' if tip else ""
        self.parts.append(f'<path d="{path}" fill="none" stroke="{stroke}" stroke-width="1.4"{dash}{end}/>')

    def path(self, d, fill, stroke=LINE):
        self.parts.append(f'<path d="{d}" fill="{fill}" stroke="{stroke}"/>')

    def svg(self):
        return "\n".join([*self.parts, "</svg>", ""])


def parts():
    p = Picture(536, "The parts of NVCache: a program's threads, the mount that they share, the log and the files")
    p.box(20, 16, 760, 92)
    p.text(34, 37, "the program", bold=True)
    p.text(766, 37, "up to 8 threads; each calls by its pass, and writes in its workspace", size=12, anchor="end", fill=QUIET)
    for i, name in enumerate(("thread 0", "thread 1", "..", "thread 7")):
        p.cell(34 + i * 140, 50, 128, 44, f"{name}\npass, workspace" if name != ".." else name, BLUE)
    p.cell(612, 50, 154, 44, "worker\npass; runs the cleaner", AMBER)

    p.box(20, 150, 760, 158)
    p.text(34, 171, "the mount, in memory", bold=True)
    p.text(766, 171, "gone after a crash: the log and the files say all that counts", size=12, anchor="end", fill=QUIET)
    p.text(34, 197, "words", size=12, fill=QUIET)
    for x, w, name in (
        (112, 158, "STOP ORDER HEAD TAIL"),
        (278, 178, "SIZE LENGTH STORE\nof each file"),
        (464, 112, "ENTRY\nof each slot"),
        (584, 182, "PAGE CLEANUP DIRTY\nof each page"),
    ):
        p.cell(x, 184, w, 40, name, GREY, size=11, mono=False)
    p.text(34, 247, "cells keep", size=12, fill=QUIET)
    for x, w, name in ((278, 178, "the file's store"), (464, 112, "the entry's part"), (584, 182, "the page's buffer, or none")):
        p.cell(x, 232, w, 26, name, VIOLET, size=11)
    p.text(34, 285, "A pass that takes a word's lock holds what the cell keeps, until it gives it back; nobody else", size=12)
    p.text(34, 301, "reaches it meanwhile. Each step is one atomic operation on one word.", size=12)

    p.box(20, 360, 370, 120)
    p.text(34, 381, "the log: persistent memory, or DIR/region", bold=True)
    p.cell(34, 394, 88, 40, "part 0\nheader", GREEN)
    for i, name in enumerate(("part 1", "part 2", "..", "part N")):
        p.cell(130 + i * 62, 394, 56, 40, name + ("\nentry" if name != ".." else ""), GREEN)
    p.lines(34, 455, ("the header says names and the persistent tail;", "an entry holds one page's piece of a write"), step=16, size=12, fill=QUIET)

    p.box(410, 360, 370, 120)
    p.text(424, 381, "the files: a disk with a page cache, DIR/files", bold=True)
    for i, name in enumerate(("store of file 0", "store of file 1", "..")):
        p.cell(424 + i * 122, 394, 114 if name != ".." else 96, 40, name, GREEN)
    p.lines(424, 455, ("behind the log until it is carried over;", "a sync makes durable what reads give"), step=16, size=12, fill=QUIET)

    p.arrow((98, 108), (98, 146))
    p.text(108, 132, "pwrite, pread, fsync: a call is one step after another", size=12)
    p.arrow((690, 108), (690, 146))
    p.text(700, 132, "a batch", size=12)
    p.arrow((98, 308), (98, 356))
    p.lines(108, 328, ("a write: its entries, and then the", "commit word that makes all count"), step=16, size=12)
    p.arrow((560, 360), (560, 312))
    p.lines(570, 328, ("a read that has no buffer: the", "page, and its entries over it"), step=16, size=12)
    p.arrow((205, 480), (205, 506), (595, 506), (595, 484))
    p.text(400, 524, "the worker: pieces to the stores, a sync of these, and then the persistent tail past them", size=12, anchor="middle")
    return p


def write():
    p = Picture(520, "A write's life: its steps, the locks that it holds, its device calls, and when it is durable")
    columns = (
        ("PAGE ..", "take", BLUE),
        ("LENGTH", "load", GREY),
        ("STOP\nORDER", "load", GREY),
        ("HEAD\nTAIL", "load", GREY),
        ("HEAD", "draw", AMBER),
        ("ENTRY ..", "seize", BLUE),
        ("device\ncalls", "", GREEN),
        ("DIRTY ..", "pledge", GREY),
        ("ENTRY ..", "ready", BLUE),
        ("ORDER", "place", AMBER),
        ("LENGTH", "grow", GREY),
        ("PAGE ..", "give", BLUE),
    )
    left, step = 24, 63
    at = lambda i: left + i * step
    p.text(24, 30, "a write of one or more pages, step by step", bold=True)
    p.text(776, 30, "each step is one atomic operation on one word", size=12, anchor="end", fill=QUIET)
    for i, (word, act, fill) in enumerate(columns):
        p.cell(at(i), 46, step - 5, 42, word, fill, size=11)
        p.text(at(i) + (step - 5) / 2, 103, act, size=11, anchor="middle", fill=QUIET)

    p.arrow((at(6), 92), (at(6), 290), dashed=True, tip=False, stroke=LINE)
    p.arrow((at(7) - 5, 92), (at(7) - 5, 290), dashed=True, tip=False, stroke=LINE)

    def bar(row, begin, end, name, fill, dashed=False):
        y = 122 + row * 30
        p.box(at(begin), y, (end - begin) * step - 5, 22, fill, dashed=dashed)
        p.text(at(begin) + 8, y + 15.5, name, size=11)

    bar(0, 0, 12, "holds PAGE of each page that it touches: no other call reads or writes them", BLUE)
    bar(1, 2, 12, "holds SIZE of its file, where it reaches past LENGTH: one growing write of a file", BLUE, dashed=True)
    bar(2, 5, 9, "holds its ENTRYs, and writes their parts", BLUE)
    bar(3, 0, 5, "may be refused: busy, stopped, spent, again, raced", ROSE)
    bar(3, 5, 10, "in flight: kept or lost as a whole by a failure", AMBER)
    bar(3, 10, 12, "has its place", GREEN)
    bar(4, 7, 12, "durable: each image has it whole", GREEN)
    p.text(at(0), 257, "at a device fault: set STOP, break its entries, give all back", size=11)

    p.arrow((at(6), 290), (at(6) - 330, 312), tip=False, stroke=LINE)
    p.arrow((at(7) - 5, 290), (776, 312), tip=False, stroke=LINE)
    p.box(24, 312, 752, 192)
    p.text(38, 333, "the device calls of a group of two entries, by commit_group", bold=True)
    calls = (
        ("store_line\nflush", "data of\nthe leader", GREEN, 80),
        ("store\nwords 1 to 5", "its fields", GREEN, 96),
        ("flush", "line 0", GREEN, 56),
        ("fence", "", AMBER, 56),
        ("store_line\nflush", "data of\nthe follower", GREEN, 80),
        ("store\nwords 1 to 5", "its fields", GREEN, 96),
        ("flush", "line 0", GREEN, 56),
        ("fence", "", AMBER, 56),
        ("store\nword 0", "", ROSE, 58),
        ("flush", "", ROSE, 46),
        ("fence", "", AMBER, 46),
    )
    x = 36
    for name, below, fill, w in calls:
        p.cell(x, 346, w - 4, 40, name, fill, size=11)
        p.lines(x + (w - 4) / 2, 402, below.split("\n"), step=14, size=11, anchor="middle", fill=QUIET)
        x += w
    p.text(38, 440, "in no image yet: no number of the group has a commit word that counts", size=12)
    p.arrow((36, 424), (608, 424), tip=False, stroke=LINE)
    p.arrow((612, 424), (712, 424), tip=False, stroke=LINE)
    p.text(662, 440, "old or new", size=12, anchor="middle")
    p.text(740, 429, "there", size=12, anchor="middle", bold=True)
    p.text(38, 466, "Over a folder a fence is a sync of the part's file, and a flush notes the line; over persistent memory", size=12, fill=QUIET)
    p.text(38, 483, "a flush is CLWB and a fence SFENCE. With d lines of data a piece takes 2d + 7 calls, and the commit 3.", size=12, fill=QUIET)
    return p


def ring():
    p = Picture(560, "The ring of log entries: HEAD, TAIL, the persistent tail, and the kinds of entries")
    slots, first = 16, 20
    kinds = {20: "freed", 21: "cleaned", 22: "ready", 23: "ready", 24: "held", 25: "ready", 26: "filling", 27: "filling", 28: "filling", 29: "drawn"}
    fills = {"free": PAPER, "freed": PAPER, "drawn": GREY, "filling": BLUE, "ready": GREEN, "held": AMBER, "cleaned": VIOLET, "broken": ROSE}
    cx, cy, outer, inner = 262, 292, 200, 118
    turn = 2 * math.pi / slots
    angle = lambda number: -math.pi / 2 + (number - first) * turn
    spot = lambda radius, a: (cx + radius * math.cos(a), cy + radius * math.sin(a))
    for number in range(first, first + slots):
        kind = kinds.get(number, "free")
        a, b = angle(number), angle(number + 1)
        (x0, y0), (x1, y1), (x2, y2), (x3, y3) = spot(outer, a), spot(outer, b), spot(inner, b), spot(inner, a)
        p.path(
            f"M{x0:.1f} {y0:.1f}A{outer} {outer} 0 0 1 {x1:.1f} {y1:.1f}L{x2:.1f} {y2:.1f}A{inner} {inner} 0 0 0 {x3:.1f} {y3:.1f}Z",
            fills[kind],
        )
        tx, ty = spot((outer + inner) / 2, (a + b) / 2)
        taken = number < 30
        p.text(tx, ty + (0 if taken else 4), str(number), size=13, anchor="middle", bold=taken, fill=INK if taken else QUIET)
        if taken:
            p.text(tx, ty + 14, kind if kind != "freed" else "free", size=10, anchor="middle")
    for begin, end, name in ((22, 24, "group"), (26, 29, "group of 3")):
        a, b = angle(begin) + 0.05, angle(end) - 0.05
        (x0, y0), (x1, y1) = spot(inner - 8, a), spot(inner - 8, b)
        p.path(f"M{x0:.1f} {y0:.1f}A{inner - 8} {inner - 8} 0 0 1 {x1:.1f} {y1:.1f}", "none", INK)
        tx, ty = spot(inner - 34, (a + b) / 2)
        p.text(tx, ty + 4, name, size=11, anchor="middle")
    p.lines(cx, cy - 8, ("numbers only grow:", "s stands in part", "1 + s mod N"), step=17, size=12, anchor="middle", fill=QUIET)
    for number, name, where in ((20, "TAIL = 20", "middle"), (22, "persistent tail = 22", "start"), (30, "HEAD = 30", "end")):
        a = angle(number)
        p.arrow(spot(outer + 34, a), spot(outer + 4, a))
        x, y = spot(outer + 42, a)
        p.text(x, y + (-2 if where == "middle" else 4), name, size=13, anchor=where, bold=True)
    p.text(24, 28, "a log of 16 entries, in the middle of a batch", bold=True)

    x = 520
    p.text(x, 186, "what an entry may be", bold=True)
    rows = (
        ("free", "no number has it, or it was freed"),
        ("drawn", "by a write; its word is free still"),
        ("filling", "a write has seized it"),
        ("ready", "its write is committed"),
        ("held", "a read or a cleaner reads its piece"),
        ("cleaned", "its piece is in the file's store"),
        ("broken", "a fault ended its write; STOP is 1"),
    )
    for i, (kind, says) in enumerate(rows):
        y = 198 + i * 27
        p.cell(x, y, 64, 21, kind, fills[kind], size=11)
        p.text(x + 72, y + 15, says, size=11)
    p.text(x, 410, "who moves what", bold=True)
    p.lines(
        x,
        430,
        (
            "HEAD: a write, as it draws its numbers",
            "persistent tail: a cleaner, behind the",
            "  sync of the stores, in the header",
            "TAIL: the cleaner, behind the frees",
            "An image's log begins at its header's tail;",
            "TAIL is never above that one.",
        ),
        step=18,
        size=12,
    )
    return p


def crash():
    p = Picture(470, "What a power failure leaves at three moments of a group's commit")
    p.text(24, 30, "a power failure at three moments of the commit of a group of two entries", bold=True)
    moments = (
        ("1", "among the pieces", "the leader's part is fenced,\nthe follower's isn't yet", ("old", "new", "new", "old", "either", "either")),
        ("2", "before the last fence", "the commit word is stored\nand maybe flushed", ("either", "new", "new", "old", "new", "new")),
        ("3", "behind the last fence", "the call goes on to\nits place and its answer", ("new", "new", "new", "old", "new", "new")),
    )
    fills = {"old": GREY, "new": GREEN, "either": "url(#either)"}
    names = ("word 0: commit", "words 1 to 5", "lines of data")
    for i, (number, title, says, states) in enumerate(moments):
        x = 132 + i * 220
        p.text(x + 100, 58, f"{number}. {title}", size=13, anchor="middle", bold=True)
        p.lines(x + 100, 76, says.split("\n"), step=15, size=11, anchor="middle", fill=QUIET)
        for j, state in enumerate(states):
            y = 108 + j * 30 + (18 if j > 2 else 0)
            p.cell(x, y, 200, 26, {"old": "old", "new": "new", "either": "old or new"}[state], fills[state], size=12)
    for part, y in (("leader", 108), ("follower", 216)):
        for j, name in enumerate(names):
            p.text(24, y + 17 + j * 30, name, size=11)
        p.text(24, y - 4, part, size=12, bold=True)
    outcomes = (
        (GREY, ("in no image a commit word", "counts: the write is lost,", "and nothing of it is there")),
        ("url(#either)", ("an image with the old word", "lost the write, one with the", "new one has it whole")),
        (GREEN, ("each image has the write,", "whole: it is durable, and", "may be answered")),
    )
    p.text(24, 352, "recovery", size=12, bold=True)
    for i, (fill, rows) in enumerate(outcomes):
        x = 132 + i * 220
        p.arrow((x + 100, 312), (x + 100, 330))
        p.box(x, 334, 200, 70, PAPER)
        p.box(x, 334, 8, 70, fill, radius=2)
        p.lines(x + 18, 356, rows, step=17, size=12)
    p.lines(
        24,
        430,
        (
            "Each word holds any one of the values that it had since the last durable one, whichever the others hold. A follower's",
            "commit word is never stored: the leader's alone makes the group count, so there is no moment with a part of it.",
        ),
        step=18,
        size=12,
        fill=QUIET,
    )
    return p


def main():
    folder = Path(__file__).parent
    wanted = {f"{draw.__name__}.svg": draw().svg() for draw in (parts, write, ring, crash)}
    if sys.argv[1:] == ["--check"]:
        old = [name for name, svg in wanted.items() if not (folder / name).is_file() or (folder / name).read_text() != svg]
        for name in old:
            print(f"docs/pictures/{name} isn't what make.py draws")
        sys.exit(bool(old))
    for name, svg in wanted.items():
        (folder / name).write_text(svg)


if __name__ == "__main__":
    main()
