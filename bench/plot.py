"""Draws `docs/speed.svg` from the figures of SPEED, `bench/figures.tsv`. It needs nothing besides Python.

Above: the nanoseconds of a `get`, and the mean nanoseconds of an `insert` while a map is filled. Below: the geometric
mean of the ratios to the times of vecmap-rs, and those of the least and of the greatest ratios. It is over all rows but
those of the three kinds in which vecmap-rs partly does other work.

    python3 bench/plot.py docs/speed.svg bench/figures.tsv
"""
import math
import re
import statistics
import sys

# The name of each contender, with its colour.
CONTENDERS = {
    "this library": "#0072b2",
    "vecmap-rs 0.3.1": "#d55e00",
    "the kit's indexmap": "#e69f00",
    "linear-map 1.2": "#009e73",
    "indexmap 1.9": "#cc79a7",
}
OURS, ORIGINAL, KIT, *CRATES = CONTENDERS
# The rows whose times are drawn, with their titles.
ROWS = {
    "get hit": "get of a present u64 key",
    "insert new": "insert of a new u64 key: mean of filling a map to n",
}
# The rows of these kinds, by the beginnings of their names: equality, set operations, documents and commands.
OTHER_WORK = re.compile(r"(set )?[!=]=|set (is_|diff|inter|union|symm|[&\\^-])|document|1000|run")
GREY, FAINT = "#444444", "#dddddd"
WIDTH, HEIGHT = 900, 700


def read(name):
    """Returns the numbers of the cells, by contender, row and size.

    Those of a ratio are the median, the ratio of the least times, the least and the greatest ratio, and the nanoseconds
    of the contender and of the original.
    """
    tables = {}
    with open(name, encoding="utf-8") as file:
        for line in file:
            head, row, size, cell = line.rstrip("\n").split("\t")
            numbers = [float(x) for x in re.findall(r"\d+(?:\.\d+)?", cell)]
            tables.setdefault(head.split(" : ")[0], {}).setdefault(row, {})[int(size)] = numbers
    return tables


def times(tables, row):
    """Returns the nanoseconds of a row by size, for each contender."""
    ours, kits, others = tables["vecmap"][row], tables.get(KIT, {}).get(row, {}), tables["nanoseconds"]
    found = {
        OURS: {n: cell[4] for n, cell in ours.items()},
        ORIGINAL: {n: cell[5] for n, cell in ours.items()},
        KIT: {n: cell[4] for n, cell in kits.items()},
        **{who: {n: cell[0] for n, cell in others.get(f"{row}, {who}", {}).items()} for who in CRATES},
    }
    return {who: cells for who, cells in found.items() if cells}


def text(x, y, words, anchor="middle", size=12, colour=GREY):
    """Returns a text."""
    return f'<text x="{x:.1f}" y="{y:.1f}" text-anchor="{anchor}" font-size="{size}" fill="{colour}">{words}</text>'


def line(points, colour, width=2.0):
    """Returns a line through points."""
    path = " ".join(f"{x:.1f},{y:.1f}" for x, y in points)
    return f'<polyline points="{path}" fill="none" stroke="{colour}" stroke-width="{width}"/>'


def dots(points, colour):
    """Returns a dot at each point."""
    return [f'<circle cx="{x:.1f}" cy="{y:.1f}" r="3" fill="{colour}"/>' for x, y in points]


class Axes:
    """A rectangle with a logarithmic axis of sizes, and an axis of values."""

    def __init__(self, box, sizes, values, scale):
        """Takes the rectangle, the sizes, the least and the greatest value, and the scale of the values."""
        self.left, self.top, self.right, self.bottom = box
        self.sizes, self.values, self.scale = sizes, values, scale

    def x(self, size):
        """Returns where a size is."""
        least, most = math.log2(self.sizes[0]) - 0.4, math.log2(self.sizes[-1]) + 0.4
        return self.left + (math.log2(size) - least) / (most - least) * (self.right - self.left)

    def y(self, value):
        """Returns where a value is."""
        low, at, high = (self.scale(it) for it in (self.values[0], value, self.values[1]))
        return self.bottom - (at - low) / (high - low) * (self.bottom - self.top)

    def points(self, found):
        """Returns where the values by size are."""
        return [(self.x(size), self.y(value)) for size, value in found.items()]

    def frame(self, title, unit, ticks):
        """Returns the axes with their names."""
        made = [text((self.left + self.right) / 2, self.top - 12, title, size=14)]
        for tick in ticks:
            made.append(line([(self.left, self.y(tick)), (self.right, self.y(tick))], FAINT, 0.8))
            made.append(text(self.left - 6, self.y(tick) + 4, f"{tick:g}", "end"))
        made += [text(self.x(size), self.bottom + 17, size) for size in self.sizes]
        made.append(line([(self.left, self.top), (self.left, self.bottom), (self.right, self.bottom)], GREY, 1))
        made.append(text((self.left + self.right) / 2, self.bottom + 34, "entries (n)"))
        x, y = self.left - 36, (self.top + self.bottom) / 2
        return [*made, f'<g transform="rotate(-90 {x} {y})">{text(x, y, unit)}</g>']


def draw_times(box, found, title):
    """Draws the nanoseconds of one row, a line for each contender."""
    values = [value for row in found.values() for value in row.values()]
    sizes, least, most = sorted(found[OURS]), min(values) * 0.85, max(values) * 1.4
    ticks = [n * 10**e for e in range(4) for n in (1, 2, 5) if least <= n * 10**e <= most]
    axes = Axes(box, sizes, (least, most), math.log)
    made = axes.frame(title, "nanoseconds per call", ticks)
    for who, row in reversed(found.items()):
        points = axes.points(row)
        made += [line(points, CONTENDERS[who]), *dots(points, CONTENDERS[who])]
    return made


def draw_means(box, ratios):
    """Draws the geometric means of the medians, and between those of the least and of the greatest ratios."""
    sizes = sorted({size for row in ratios.values() for size in row})
    columns = {size: [row[size] for row in ratios.values() if size in row] for size in sizes}
    mean, least, most = (
        {size: statistics.geometric_mean(cell[at] for cell in column) for size, column in columns.items()}
        for at in (0, 2, 3)
    )
    kinds = "all without equality, set operations, documents, commands"
    title = f"geometric mean of the ratios of {len(ratios)} rows: {kinds}"
    axes = Axes(box, sizes, (0, max(1.2, max(most.values()) * 1.1)), lambda it: it)
    band = axes.points(least) + axes.points(most)[::-1]
    path = " ".join(f"{x:.1f},{y:.1f}" for x, y in band)
    made = [f'<polygon points="{path}" fill="{CONTENDERS[OURS]}" fill-opacity="0.15"/>']
    made += axes.frame(title, "time compared with vecmap-rs", [0, 0.2, 0.4, 0.6, 0.8, 1.0, 1.2])
    made.append(line([(axes.left, axes.y(1)), (axes.right, axes.y(1))], CONTENDERS[ORIGINAL]))
    made.append(text(axes.right - 4, axes.y(1) - 6, f"{ORIGINAL} = 1", "end", colour=CONTENDERS[ORIGINAL]))
    points = axes.points(mean)
    made += [line(points, CONTENDERS[OURS]), *dots(points, CONTENDERS[OURS])]
    made += [text(x, y + (17 if value < 1 else -8), f"{value:.2f}") for (x, y), value in zip(points, mean.values())]
    words = "this library; shaded: between the least and the greatest ratio over the orders of the functions"
    return [*made, text(axes.left + 8, axes.bottom - 10, words, "start", colour=CONTENDERS[OURS])]


def legend(y):
    """Returns the names of the contenders in one line."""
    made, x = [], 40
    for who, colour in CONTENDERS.items():
        made += [line([(x, y - 4), (x + 24, y - 4)], colour), *dots([(x + 12, y - 4)], colour)]
        made.append(text(x + 30, y, who, "start", 13))
        x += 60 + 8 * len(who)
    return made


def main():
    """Draws the picture into the file that the first argument names, from the figures in the second."""
    tables = read(sys.argv[2])
    made = legend(26)
    for left, (row, title) in zip((60, 510), ROWS.items()):
        made += draw_times((left, 75, left + 375, 345), times(tables, row), title)
    ratios = {row: cells for row, cells in tables["vecmap"].items() if not OTHER_WORK.match(row)}
    made += draw_means((60, 430, 885, 620), ratios)
    words = "Intel Xeon, family 6, model 167, 2.7 GHz. Nanoseconds: the least of the samples, median over the orders."
    made.append(text(60, HEIGHT - 14, words, "start"))
    head = f'<svg xmlns="http://www.w3.org/2000/svg" viewBox="0 0 {WIDTH} {HEIGHT}" font-family="sans-serif">'
    ground = f'<rect width="{WIDTH}" height="{HEIGHT}" fill="white"/>'
    with open(sys.argv[1], "w", encoding="utf-8") as file:
        file.write("\n".join([head, ground, *made, "</svg>"]) + "\n")


main()
