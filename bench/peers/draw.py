#!/usr/bin/env python3
"""Draws the table that bench/peers.sh prints: a small plot for each family, the seconds of each tool by number of credentials,
both by powers of ten. In light or dark as the reader's browser is set.

  bench/peers/draw.py < docs/FIGURES.md > docs/pictures/peers.svg"""
import math
import re
import sys

# of each tool its line on light paper, on dark paper, and how it is dashed
LINES = {
    "rtsearch": ("#1d4ed8", "#7db2ff", ""),
    "native": ("#4b5563", "#b6c2cf", "1 2"),
    "SWI-Prolog": ("#b45309", "#f5b553", "5 3"),
    "SQLite": ("#047857", "#4fd1a1", "2 3"),
    "clingo": ("#be185d", "#f78fc0", "8 3 2 3"),
    "PyPy": ("#6d28d9", "#c4a7ff", "8 3"),
}
WIDTH, HEIGHT, LEFT, TOP, ACROSS = 250, 170, 46, 26, 3
SECONDS, SIZES = (0.003, 30), (8000, 64000)


def read_table(text):
    """The tools, and of each family the points of each tool: the number of credentials, and the seconds, where it came to an end."""
    table = re.search(r"^(\| Milliseconds.*\n)\|.*\n((?:\|.*\n)*)", text, flags=re.M)
    tools, families = cells_of(table[1])[3:], {}
    for family, size, _, *cells in map(cells_of, table[2].splitlines()):
        points = families.setdefault(family, [[] for _ in tools])
        for place, cell in enumerate(cells):
            milliseconds = re.match(r"[0-9]+", cell)
            if milliseconds:
                points[place].append((int(size), max(int(milliseconds[0]) / 1000, SECONDS[0])))
    return tools, families


def cells_of(line):
    return [cell.strip() for cell in line.strip().strip("|").split("|")]


def along(value, bounds, length):
    low, high = (math.log(bound) for bound in bounds)
    return (math.log(value) - low) / (high - low) * length


def spot(x, y, point):
    inner = WIDTH - LEFT - 12, HEIGHT - TOP - 30
    return x + LEFT + along(point[0], SIZES, inner[0]), y + HEIGHT - 30 - along(point[1], SECONDS, inner[1])


def draw_family(name, points, x, y):
    yield f'<text class="name" x="{x + LEFT}" y="{y + 16}">{name}</text>'
    for seconds in (0.01, 0.1, 1, 10):
        (left, at), (right, _) = spot(x, y, (SIZES[0], seconds)), spot(x, y, (SIZES[1], seconds))
        yield f'<path class="grid" d="M{left:.1f} {at:.1f}H{right:.1f}"/><text class="tick" x="{left - 5:.1f}" y="{at + 4:.1f}" text-anchor="end">{seconds:g} s</text>'
    for size in (10000, 50000):
        at, foot = spot(x, y, (size, SECONDS[0]))
        yield f'<text class="tick" x="{at:.1f}" y="{foot + 14:.1f}" text-anchor="middle">{size:,}</text>'
    for place, tool in enumerate(points):
        spots = [spot(x, y, point) for point in tool]
        if spots:
            yield f'<path class="t{place}" d="M{"L".join(f"{a:.1f} {b:.1f}" for a, b in spots)}"/>'
            yield from (f'<circle class="t{place}" cx="{a:.1f}" cy="{b:.1f}" r="2.5"/>' for a, b in spots)


def draw_legend(tools, y):
    for place, tool in enumerate(tools):
        x = LEFT + (ACROSS * WIDTH - LEFT) // len(tools) * place
        yield f'<path class="t{place}" d="M{x} {y}h30"/><text class="tick" x="{x + 36}" y="{y + 4}">{tool}</text>'


def style_of(tools):
    lights, darks, dashes = zip(*(LINES[tool] for tool in tools))

    def rules(paper, ink, soft, grid, colours):
        yield f".paper{{fill:{paper}}} text{{fill:{ink}}} .tick{{fill:{soft}}} .grid{{stroke:{grid}}}"
        yield from (f"path.t{place}{{stroke:{colour}}} circle.t{place}{{fill:{colour}}}" for place, colour in enumerate(colours))

    yield "text{font:11px 'DejaVu Sans',Verdana,sans-serif} .name{font-weight:bold;font-size:12px} .tick{font-size:10px}"
    yield "path{fill:none;stroke-width:1.8} .grid{stroke-width:1}"
    yield from (f"path.t{place}{{stroke-dasharray:{dash}}}" for place, dash in enumerate(dashes) if dash)
    yield from rules("#ffffff", "#111827", "#4b5563", "#e2e8f0", lights)
    yield "@media (prefers-color-scheme: dark){"
    yield from rules("#0d1117", "#e6edf3", "#b6c2cf", "#263040", darks)
    yield "}"


def main():
    tools, families = read_table(sys.stdin.read())
    rows = -(-len(families) // ACROSS)
    width, height = ACROSS * WIDTH, rows * HEIGHT + 34
    print(f'<svg xmlns="http://www.w3.org/2000/svg" width="{width}" height="{height}" viewBox="0 0 {width} {height}" role="img">')
    print(f"<title>Seconds by number of credentials, for {len(families)} families and {len(tools)} tools</title>")
    print("\n".join(["<style>", *style_of(tools), "</style>", '<rect class="paper" width="100%" height="100%"/>']))
    for place, (name, points) in enumerate(families.items()):
        print("\n".join(draw_family(name, points, place % ACROSS * WIDTH, place // ACROSS * HEIGHT)))
    print("\n".join(draw_legend(tools, rows * HEIGHT + 14)))
    print("</svg>")


main()
