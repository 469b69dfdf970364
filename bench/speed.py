#!/usr/bin/env python3
"""Writes the table of instructions beside another program (bench/RESULTS.md), and draws it (docs/speed.svg).

usage: bench/speed.py [--before FILE] [PICTURE]

What is told stands in bench/results.tsv and, of the other program, in bench/other.tsv, which `bench/compare --write` makes of
the kinds of work in bench/kinds. What a kind is, is said by the first line of its file. With --before, a file as
bench/results.tsv was at another time, a ring stands in the picture where the ratio was then. The table goes to standard output.
"""
import argparse
import ast
import math
import os
import sys

HERE = os.path.dirname(os.path.realpath(__file__))
# Of the picture, in its units: the width of the names, of the plot and of the values, and the height of a row.
NAMES, PLOT, VALUES, ROW, TOP = 600, 430, 60, 20, 78


class Work:
    """A kind of work that both programs did: what it is, its size, and what it cost each."""

    def __init__(self, name, ours, theirs, before):
        with open(os.path.join(HERE, "kinds", f"{name}.py"), encoding="utf-8") as file:
            tree = ast.parse(file.read())
        self.words = ast.get_docstring(tree).rstrip(".")
        self.size = next(node.value.value for node in tree.body if isinstance(node, ast.Assign))
        self.theirs, self.ours = theirs[2], ours[2]
        self.ratio, self.before = ours[2] / theirs[2], before and before[2] / theirs[2]
        self.growth = [math.log(costs[2] / costs[0], 4) for costs in (theirs, ours)]
        self.memory = ours[3] / theirs[3] if len(ours) > 3 and len(theirs) > 3 else None

    def row(self):
        """Its row of the table."""
        cells = [self.words, f"{self.size:,}", f"{self.theirs / 1e6:,.1f}", f"{self.ours / 1e6:,.1f}", shown(self.ratio),
                 ", ".join(f"{growth:.2f}" for growth in self.growth), "-" if self.memory is None else shown(self.memory)]
        return "| " + " | ".join(cell.replace("|", "\\|") for cell in cells) + " |"


def shown(ratio):
    """A ratio with two digits, or three from 10 on."""
    return f"{ratio:.2f}" if ratio < 9.995 else f"{ratio:.1f}"


def mean(ratios):
    """The geometric mean."""
    return math.exp(sum(map(math.log, ratios)) / len(ratios))


def counted(path):
    """By kind, the counts of a file of results."""
    with open(path, encoding="utf-8") as file:
        rows = [line.split() for line in file if line.strip() and not line.startswith("#")]
    return {row[0]: list(map(int, row[1:])) for row in rows}


def works_of(before):
    """The kinds of work that both programs did, in the order of their ratios."""
    ours, theirs = (counted(os.path.join(HERE, name)) for name in ("results.tsv", "other.tsv"))
    earlier = counted(before) if before else {}
    works = [Work(name, ours[name], theirs[name], earlier.get(name)) for name in ours if name in theirs]
    return sorted(works, key=lambda work: work.ratio)


def table(works):
    """The lines of the table, and those that sum it up."""
    yield "| Work | N | Other program | `cuestore` | Ratio | Growth | Memory |"
    yield "|---|---|---|---|---|---|---|"
    yield from (work.row() for work in works)
    ratios, memory = [work.ratio for work in works], [work.memory for work in works if work.memory is not None]
    yield ""
    yield (f"Ratio: mean {mean(ratios):.2f}, worst {max(ratios):.2f}, {sum(ratio <= 1 for ratio in ratios)} of {len(ratios)} "
           f"at most 1.0, {sum(ratio <= 2 for ratio in ratios)} at most 2.0")
    yield f"Growth: {max(work.growth[1] for work in works):.2f} at most"
    if memory:
        yield f"Memory: mean {mean(memory):.2f}, worst {max(memory):.2f}"


class Axis:
    """A logarithmic axis from one power of two to another, between which all ratios lie."""

    def __init__(self, ratios):
        self.least = min(math.floor(math.log2(min(ratios))), -1)
        self.most = max(math.ceil(math.log2(max(ratios))), 1)

    def across(self, ratio):
        """Where a ratio stands in the picture, from the left."""
        return NAMES + PLOT * (math.log2(ratio) - self.least) / (self.most - self.least)

    def lines(self, bottom):
        """A line for each power of two, of which that at 1.0 is marked."""
        for power in range(self.least, self.most + 1):
            x = self.across(2.0 ** power)
            style = 'stroke="#222" stroke-width="1.6"' if power == 0 else 'stroke="#d8dce3"'
            yield f'<line x1="{x:.1f}" y1="{TOP - 6}" x2="{x:.1f}" y2="{bottom}" {style}/>'
            words, weight = ("1.0", 'font-weight="bold" ') if power == 0 else (f"{2.0 ** power:g}", "")
            yield text(x, TOP - 12, words, f'{weight}text-anchor="middle" fill="#444"')


def text(x, y, words, rest=""):
    """A text of the picture."""
    words = words.replace("`", "").replace("&", "&amp;").replace("<", "&lt;")
    return f'<text x="{x:.1f}" y="{y:.1f}" {rest}>{words}</text>'


def bar(axis, work, y):
    """A kind's name, its bar from 1.0 on, its ratio, and a ring where the ratio was before."""
    start, end = axis.across(1.0), axis.across(work.ratio)
    colour = "#3a8f4d" if work.ratio <= 1 else "#3b78b5" if work.ratio <= 2 else "#c8641b"
    yield text(NAMES - 26, y + 13, work.words, 'text-anchor="end" fill="#222" font-size="11"')
    yield (f'<rect x="{min(start, end):.1f}" y="{y + 3}" width="{max(abs(end - start), 1):.1f}" height="{ROW - 6}" '
           f'fill="{colour}"/>')
    if work.before is not None:
        yield (f'<circle cx="{axis.across(work.before):.1f}" cy="{y + ROW / 2}" r="4" fill="#ffffff" fill-opacity="0.85" '
               'stroke="#555" stroke-width="1.4"/>')
    yield text(NAMES + PLOT + VALUES - 6, y + 13, shown(work.ratio), 'text-anchor="end" fill="#222"')


def picture(works):
    """The lines of the picture."""
    axis = Axis([work.ratio for work in works] + [work.before for work in works if work.before is not None])
    bottom = TOP + ROW * len(works)
    width, height = NAMES + PLOT + VALUES, bottom + 16
    yield (f'<svg xmlns="http://www.w3.org/2000/svg" viewBox="0 0 {width} {height}" '
           'font-family="DejaVu Sans, Helvetica, Arial, sans-serif" font-size="12">')
    yield "<title>Instructions of cuestore for each instruction of an unverified program with the same words</title>"
    yield f'<rect width="{width}" height="{height}" fill="#ffffff"/>'
    yield text(20, 24, "Instructions of cuestore for each of an unverified program with the same words; less is better",
               'font-size="15" font-weight="bold" fill="#222"')
    yield from legend(20, 45)
    yield from axis.lines(bottom)
    for k, work in enumerate(works):
        yield from bar(axis, work, TOP + ROW * k)
    yield "</svg>"


def legend(x, y):
    """What the colours and the rings mean."""
    for colour, words, width in (("#3a8f4d", "at most 1.0", 108), ("#3b78b5", "at most 2.0", 108), ("#c8641b", "above 2.0", 98)):
        yield f'<rect x="{x}" y="{y - 10}" width="12" height="12" fill="{colour}"/>'
        yield text(x + 18, y, words, 'fill="#444"')
        x += width
    yield f'<circle cx="{x + 6}" cy="{y - 4}" r="4" fill="#ffffff" stroke="#555" stroke-width="1.4"/>'
    yield text(x + 18, y, "when it was counted before", 'fill="#444"')


def main():
    parser = argparse.ArgumentParser(description=__doc__, formatter_class=argparse.RawDescriptionHelpFormatter)
    parser.add_argument("--before", metavar="FILE")
    parser.add_argument("picture", nargs="?", metavar="PICTURE")
    asked = parser.parse_args()
    works = works_of(asked.before)
    print("\n".join(table(works)))
    if asked.picture:
        with open(asked.picture, "w", encoding="utf-8") as file:
            file.write("\n".join(picture(works)) + "\n")
    return 0


if __name__ == "__main__":
    sys.exit(main())
