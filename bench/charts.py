#!/usr/bin/env python3
"""Draws the charts of bench/README.md, by the figures of the tables in the pages.

    bench/charts.py                # writes bench/time.svg and bench/key_bytes.svg
    bench/charts.py --check        # writes nothing, and has status 1 if one of them is not what it would write

A chart has a group of bars for each kind of text, and a bar for each figure of it. The first number of a cell is how long the bar is;
a second one is the longest key. A new row or column of a table is a new bar or group. Each bar has its name and its figure beside it, so
no colour has to be told from another. The charts can be read on a light and on a dark page. The last line says how many are up to date.
"""
import dataclasses
import html
import os
import re
import sys

TOP = os.path.dirname(os.path.dirname(os.path.realpath(__file__)))
WIDTH, LEFT, RIGHT, TOP_OF_BARS, BAR, STEP = 770, 160, 190, 72, 14, 20
# The kinds of lines whose keys are drawn: those of marks would leave no room for the others.
SHOWN = "latin", "ascii", "german", "mixed"
STYLE = """\
text { font: 13px system-ui, sans-serif; fill: #1f2328 }
.head { font-weight: 600 }
.bar { fill: #0969da }
.pale { fill: #0969da; fill-opacity: 0.45 }
.line { stroke: #1f2328 }
.mark { stroke: #1f2328; stroke-dasharray: 4 3 }
@media (prefers-color-scheme: dark) {
text { fill: #e6edf3 }
.bar, .pale { fill: #58a6ff }
.line, .mark { stroke: #e6edf3 }
}"""


@dataclasses.dataclass
class Bar:
    """A figure: its name, how long its bar is, and what is written beside it."""

    name: str
    size: float
    text: str


@dataclasses.dataclass
class Chart:
    """A chart: its title, what its figures are, its groups with their bars, and where a line is drawn for what."""

    title: str
    figures: str
    groups: dict[str, list[Bar]]
    mark: tuple[float, str] | None = None


def table_after(page, heading):
    """The first table after a heading of a page: its rows, each a list of cells."""
    with open(f"{TOP}/{page}", encoding="utf-8") as file:
        _, found, after = file.read().partition(f"\n{heading}\n")
    if not found:
        sys.exit(f"{page} has no heading {heading}")
    table = re.search(r"^\|.*\n\|[-:| ]+\n((?:\|.*\n)+)", after, re.M)
    if not table or re.search(r"^#", after[:table.start()], re.M):
        sys.exit(f"{page} has no table under {heading}")
    head = table[0].split("\n", 1)[0]
    return [[cell.strip().replace("`", "") for cell in line.strip("|").split("|")] for line in (head, *table[1].splitlines())]


def bar_of(name, cell, unit):
    """The bar of a cell that is not empty."""
    numbers = cell.split(", ")
    if len(numbers) > 2 or not all(re.fullmatch(r"\d[\d,]*(\.\d+)?", it) for it in numbers):
        sys.exit(f"{name}: {cell} is not a number, or two with a comma and a space between them")
    longest = f", longest {numbers[1]}" if len(numbers) > 1 else ""
    return Bar(name, float(numbers[0].replace(",", "")), f"{numbers[0]}{unit}{longest}")


def time_chart():
    """The processor time beside ICU4C. The kinds of text are the columns of its table."""
    head, *rows = table_after("bench/README.md", "### Time")
    groups = {kind: [bar_of(row[0], row[at], "") for row in rows if row[at]] for at, kind in enumerate(head) if at > 0}
    return Chart("Time beside ICU4C", "processor time of uca divided by that of ICU4C, by kind of text; less is faster",
                 groups, (1, "ICU4C = 1"))


def key_chart():
    """The bytes of keys. The kinds of text are the rows of its table under shifted."""
    head, *rows = table_after("bench/README.md", "### Bytes a key")
    groups = {row[0]: [bar_of(name, cell, " bytes") for name, cell in zip(head[2:], row[2:])] for row in rows if row[1] == "shifted" and row[0] in SHOWN}
    return Chart("Bytes a key, shifted", "mean bytes of a key, of its compact key, and of the key of ICU4C; less is smaller", groups)


def described(chart):
    """The figures of a chart as a text."""
    groups = [f"{kind}: " + "; ".join(f"{bar.name} {bar.text}" for bar in bars) for kind, bars in chart.groups.items()]
    return f"{chart.figures[:1].upper()}{chart.figures[1:]}. " + ". ".join(groups) + "."


def text(x, y, written, more=""):
    """A text that begins, ends or has its middle there."""
    return f'<text x="{x:.1f}" y="{y}"{more}>{html.escape(written, quote=False)}</text>'


def upright(kind, x, top, end):
    """An upright line."""
    return f'<line class="{kind}" x1="{x:.1f}" y1="{top}" x2="{x:.1f}" y2="{end}"/>'


def bar_lines(bar, y, scale, kind):
    """The name of a bar, the bar, and its figure."""
    wide = bar.size * scale
    return [text(LEFT - 8, y + BAR - 3, bar.name, ' text-anchor="end"'),
            f'<rect class="{kind}" x="{LEFT}" y="{y}" width="{wide:.1f}" height="{BAR}"/>',
            text(LEFT + wide + 6, y + BAR - 3, bar.text)]


def drawn(chart):
    """The bars of a chart, and how high it is."""
    most = max(bar.size for bars in chart.groups.values() for bar in bars)
    scale = (WIDTH - LEFT - RIGHT) / max(most, chart.mark[0] if chart.mark else 0)
    lines, y = [text(8, 22, chart.title, ' class="head"'), text(8, 42, chart.figures)], TOP_OF_BARS
    for kind, bars in chart.groups.items():
        lines.append(text(8, y + 6, kind, ' class="head"'))
        y += STEP - 4
        for at, bar in enumerate(bars):
            lines += bar_lines(bar, y, scale, "bar" if at % 2 == 0 else "pale")
            y += STEP
        lines.append(upright("line", LEFT, y - STEP * len(bars) - 3, y - 3))
        y += 12
    if chart.mark:
        x = LEFT + chart.mark[0] * scale
        lines += [upright("mark", x, TOP_OF_BARS, y - 12), text(x, TOP_OF_BARS - 6, chart.mark[1], ' text-anchor="middle"')]
    return lines, y


def svg_of(chart):
    """The chart as the text of a file."""
    lines, high = drawn(chart)
    return "\n".join([
        f'<svg xmlns="http://www.w3.org/2000/svg" width="{WIDTH}" height="{high}" viewBox="0 0 {WIDTH} {high}" role="img" aria-labelledby="title desc">',
        f'<title id="title">{html.escape(chart.title, quote=False)}</title>',
        f'<desc id="desc">{html.escape(described(chart), quote=False)}</desc>',
        f"<style>\n{STYLE}\n</style>", *lines, "</svg>\n"])


def text_of(path):
    """What a file has, or nothing if there is no such file."""
    if not os.path.exists(path):
        return ""
    with open(path, encoding="utf-8") as file:
        return file.read()


def main(checks):
    passed = failed = 0
    for name, chart in (("time.svg", time_chart()), ("key_bytes.svg", key_chart())):
        path, wanted = f"{TOP}/bench/{name}", svg_of(chart)
        if not checks:
            with open(path, "w", encoding="utf-8") as file:
                file.write(wanted)
        if text_of(path) == wanted:
            passed += 1
        else:
            failed += 1
            print(f"bench/{name} is not up to date: run bench/charts.py")
    print(f"{passed} passed, {failed} failed")
    return 1 if failed else 0


if __name__ == "__main__":
    if sys.argv[1:] not in ([], ["--check"]):
        sys.exit(__doc__)
    sys.exit(main(sys.argv[1:] == ["--check"]))
