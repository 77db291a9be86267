"""A picture of a log's losses: losses.py LOG [OUT.svg]. Exit status: 0 answered, 1 refused.

Writes an SVG to standard output, or to the file OUT.svg: for each module and for the tool a bar of availability, operational, rate and quality loss
and OEE, with the five figures beside it. Or prints the refusal in words and leaves the file alone.
"""

import dataclasses
import sys

import tool_log
from reading import places, read

# The parts of a bar: name, colour, and the colour of letters on it. Each colour is lighter than the one before, so that they differ in grey too.
PARTS = (
    ("availability", "#22223b", "white"),
    ("operational", "#17508f", "white"),
    ("rate", "#c8552b", "black"),
    ("quality", "#e6a532", "black"),
    ("OEE", "#ebe7cf", "black"),
)
FRAME = "#22223b"
TITLE = "Losses and OEE as shares of total time"

# A bar is 10,000 units wide, and each part as many as it has ten-thousandths. 50 units are 3 pixels.
BAR = 1200
COLUMNS = [11500 + 1700 * i for i in range(len(PARTS))]
HEAD, ROW = 1150, 400
WIDTH = COLUMNS[-1] + 1700


def text(x, y, words, more=""):
    return f'<text x="{x}" y="{y}"{more}>{words}</text>'


def rectangle(x, y, width, height, colour):
    return f'<rect x="{x}" y="{y}" width="{width}" height="{height}" fill="{colour}"/>'


def frame(x, y, width, height):
    """What is drawn on it covers it but for a rim: a gap would show."""
    return rectangle(x - 20, y - 20, width + 40, height + 40, FRAME)


def heading():
    """The title, and above each column of figures the part that it is of."""
    lines = [text(BAR, 450, TITLE, ' font-size="280"'), text(BAR - 200, HEAD - 130, "module", ' text-anchor="end"')]
    for x, (part, colour, _) in zip(COLUMNS, PARTS):
        lines += [frame(x, HEAD - 290, 200, 200), rectangle(x, HEAD - 290, 200, 200, colour), text(x + 300, HEAD - 130, part)]
    return lines


def bar(y, figures):
    """The parts, one behind the other. A part of 0 is left out, and so is a name that might not fit its part."""
    lines, x = [], BAR
    for (part, colour, letters), figure in zip(PARTS, figures):
        if figure:
            name = text(x + 80, y + 220, part, f' fill="{letters}"') if figure >= 200 + 120 * len(part) else ""
            lines.append(f"<g><title>{part} {places(figure)}</title>{rectangle(x, y, figure, 300, colour)}{name}</g>")
        x += figure
    return lines


def row(y, name, losses):
    """The name, the bar and the five figures, which are read aloud in one sentence."""
    figures = dataclasses.astuple(losses)
    said = ", ".join(f"{part} {places(figure)}" for (part, _, _), figure in zip(PARTS, figures))
    return [
        f'<g role="img" aria-label="{name}: {said}">',
        text(BAR - 200, y + 220, name.split()[-1], ' text-anchor="end"'),
        frame(BAR, y, 10000, 300),
        *bar(y, figures),
        *(text(x + 300, y + 220, places(figure)) for x, figure in zip(COLUMNS, figures)),
        "</g>",
    ]


def picture(modules, tool):
    """The SVG of the modules' losses and of the tool's."""
    under = HEAD + ROW * len(modules) + 100
    height = under + ROW + 200
    lines = [
        f'<svg xmlns="http://www.w3.org/2000/svg" width="{WIDTH * 3 // 50}" height="{height * 3 // 50}" viewBox="0 0 {WIDTH} {height}" '
        f'role="group" aria-label="{TITLE}" font-family="sans-serif" font-size="200" shape-rendering="crispEdges">',
        f"<title>{TITLE}</title>",
        rectangle(0, 0, WIDTH, height, "white"),
        *heading(),
    ]
    for m, losses in enumerate(modules):
        lines += row(HEAD + ROW * m, f"module {m}", losses)
    lines += [*row(under, "tool", tool), "</svg>"]
    return "".join(line + "\n" for line in lines)


def main():
    log = read(sys.argv[1], tool_log.LONGEST_LOG)
    try:
        modules = [tool_log.module_losses(log, m) for m in range(tool_log.module_count(log))]
    except tool_log.Refused as refused:
        print(refused)
        return 1
    drawn = picture(modules, tool_log.tool_losses(log))
    if len(sys.argv) > 2:
        with open(sys.argv[2], "w", encoding="utf-8", newline="\n") as f:
            f.write(drawn)
    else:
        print(drawn, end="")
    return 0


if __name__ == "__main__":
    sys.exit(main())
