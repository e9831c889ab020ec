#!/usr/bin/env python3
"""Draws what a terminal shows as an SVG: tmux capture-pane -e -p | drawn.py COLUMNS LINES TITLE.

It reads the attributes that a terminal of 256 colours gives: bold, underlined, reversed, and the colours of text and ground. Each run of
cells that look alike is one text, stretched to the width of its cells, so that the columns stand whatever font draws it.
"""
import itertools
import re
import sys
from typing import NamedTuple
from xml.sax.saxutils import escape

WIDTH, HEIGHT, MARGIN = 9, 19, 10
INK, PAPER = "#1f2328", "#ffffff"
COLOURS = ("#000000", "#b3261e", "#1a7f37", "#8a5a00", "#0b57d0", "#8250df", "#0a7a8a", "#6e7781",
           "#57606a", "#cf222e", "#2da44e", "#bf8700", "#218bff", "#a475f9", "#3192aa", "#eaeef2")
ATTRIBUTES = re.compile(r"\x1b\[([\d;:]*)m|\x1b[()]\w|[\x0e\x0f]")


class Look(NamedTuple):
    ink: str = INK
    paper: str = PAPER
    is_bold: bool = False
    is_underlined: bool = False
    is_reversed: bool = False

    def colours(self):
        return (self.paper, self.ink) if self.is_reversed else (self.ink, self.paper)


def colour(number):
    """The colour of a number: one of the sixteen, of the cube behind them, or a grey."""
    if number < 16:
        return COLOURS[number]
    if number < 232:
        levels = (0, 95, 135, 175, 215, 255)
        return "#" + "".join(f"{levels[(number - 16) // it % 6]:02x}" for it in (36, 6, 1))
    return "#" + f"{8 + 10 * (number - 232):02x}" * 3


def changed(look, codes):
    """A look behind these codes of attributes."""
    codes = iter(codes or [0])
    for code in codes:
        if code == 0:
            look = Look()
        elif code in (1, 4, 7):
            look = look._replace(**{{1: "is_bold", 4: "is_underlined", 7: "is_reversed"}[code]: True})
        elif code in (22, 24, 27):
            look = look._replace(**{{22: "is_bold", 24: "is_underlined", 27: "is_reversed"}[code]: False})
        elif code in (38, 48) and next(codes, None) == 5:
            look = look._replace(**{"ink" if code == 38 else "paper": colour(next(codes, 0))})
        elif code in (39, 49):
            look = look._replace(**{"ink": INK} if code == 39 else {"paper": PAPER})
        elif code // 10 in (3, 9):
            look = look._replace(ink=colour(code % 10 + (8 if code >= 90 else 0)))
        elif code // 10 in (4, 10):
            look = look._replace(paper=colour(code % 10 + (8 if code >= 100 else 0)))
    return look


def cells(line, look):
    """The cells of a line, each a character with its look, and the look behind it."""
    found, at = [], 0
    for it in itertools.chain(ATTRIBUTES.finditer(line), [None]):
        found += [(char, look) for char in line[at:it.start() if it else len(line)]]
        if it:
            at = it.end()
            look = changed(look, [int(code) for code in re.split("[;:]", it[1]) if code]) if it[1] is not None else look
    return found, look


def drawn(row, column, text, look):
    """A run of cells that look alike."""
    x, y, width = MARGIN + column * WIDTH, MARGIN + row * HEIGHT, len(text) * WIDTH
    ink, paper = look.colours()
    ground = f'<rect x="{x}" y="{y}" width="{width}" height="{HEIGHT}" fill="{paper}"/>' if paper != PAPER else ""
    line = f'<path d="M{x} {y + HEIGHT - 3}h{width}" stroke="{ink}"/>' if look.is_underlined else ""
    bold = ' font-weight="bold"' if look.is_bold else ""
    said = f'<text x="{x}" y="{y + HEIGHT - 5}" textLength="{width}" fill="{ink}"{bold}>{escape(text)}</text>' if text.strip() else ""
    return ground + said + line


def main(columns, lines, title):
    width, height = columns * WIDTH + 2 * MARGIN, lines * HEIGHT + 2 * MARGIN
    print(f'<svg xmlns="http://www.w3.org/2000/svg" width="{width}" height="{height}" viewBox="0 0 {width} {height}" role="img">')
    print(f"<title>{escape(title)}</title>")
    print(f'<rect width="{width}" height="{height}" rx="6" fill="{PAPER}" stroke="#d0d7de"/>')
    print('<g font-family="ui-monospace, DejaVu Sans Mono, Menlo, Consolas, monospace" font-size="15" xml:space="preserve" stroke-width="1">')
    look = Look()
    for row, line in enumerate(sys.stdin.read().split("\n")[:lines]):
        found, look = cells(line, look)
        column = 0
        for it, run in itertools.groupby(found, key=lambda cell: cell[1]):
            text = "".join(char for char, _ in run)
            print(drawn(row, column, text, it), end="")
            column += len(text)
        print()
    print("</g>\n</svg>")


if __name__ == "__main__":
    main(int(sys.argv[1]), int(sys.argv[2]), sys.argv[3])
