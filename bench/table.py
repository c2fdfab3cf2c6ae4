#!/usr/bin/env python3
"""Makes the tables of the benchmark.

- `table.py RUN..` prints those of some runs, one for each order of the functions.
- `table.py --rows` prints those of all rows of the figures, `bench/figures.tsv`.
- `table.py --full RUN..` prints figures: a cell has the median, the ratio of the least times, the least and greatest
  ratio of a run, and the medians of the least nanoseconds of an operation, of the contender and of the original.
- `table.py --write FILE` takes the figures from such a file, of two other crates the nanoseconds alone, or from lines that
  `instructions.py` prints. With or without FILE it writes the tables of docs/SPEED.md.
- `table.py` compares docs/SPEED.md with the figures: its tables, and the sentence on the spread of the ratios.

A run has the times of this library and of others. A cell has the median of the ratios to the original over the runs.
It is bold if it is above 1.05, and the ratio of the least times is, too: the least time of the contender in all runs,
divided by the least of the original. The last line has the geometric mean of each size. A row of tight loops has a
star: at some size, one run's ratio is at least twice another's. If there are figures of an earlier state of this
library, or of the kit's indexmap, a last table compares this library with it, in the rows that both have: a cell has
the median ratio of this library divided by that of the other, and the same of the least times.
"""

import collections
import os
import re
import statistics
import sys

sys.path.append(os.path.join(os.path.dirname(os.path.abspath(__file__)), "../.ci"))

from rattle import WRITES, end, read, table, table_rows, write  # noqa: E402

MOST = 1.05
# A cell counts as faster if its ratio is below this in each order, and as slower if it is above MOST in each.
LESS = 0.95
# The least ratio that a table shows.
LEAST = 0.0001
FIGURES = "bench/figures.tsv"
SPEED = "docs/SPEED.md"
BLOCK = re.compile(r"(?:^\|.*\n)+", re.M)
# This library, the kit's indexmap, and this library at sizes that are timed only to compare both.
OURS, KIT, BESIDE_KIT = "vecmap", "the kit's indexmap", "vecmap, other sizes"
OTHERS, COUNTS = "nanoseconds", "instructions"
# What each contender is compared with, if it is not the original.
COMPARED_WITH = {"the kit's Vec": "Rust's Vec"}
# What this library is compared with besides the original, with the names of this library in these rows.
BESIDES = {"before": (OURS, "vecmap, many entries"), KIT: (OURS, BESIDE_KIT)}
# The rows of two other crates that are kept.
ROWS_OF_OTHERS = ("get hit", "insert new", "String get_str hit")
CRATES = ("linear-map 1.2", "indexmap 1.9")
SIZES_OF_OTHERS = [2, 8, 32, 128, 512]
SIZES_OF_COUNTS = [8, 128]
# The kinds of rows, with what the names of their rows begin with. The means of the last three are of little use.
KINDS = {
    "lookups": r"(?!document).*\bget|(set )?contains",
    "insertions, entries": r"(?!document|.*remove|.*swap_).*(insert|entry|count )",
    "removals": r".*(remove|swap_)|pop",
    "`retain`, `drain`, `split_off`": r"(set )?(retain|drain|split_off)",
    "from vectors, clones": r".*From<Vec>|from_iter|vecmap!|(set )?(extend|append|clone)",
    "iteration": r"(set )?iter|keys|values",
    "sorts, binary searches": r"(set )?(sort|binary|partition)",
    "equality": r"(set )?[!=]=",
    "set operations": r"set (is_|diff|inter|union|symm|[&\\^-])",
    "documents, commands": r"document|1000|run",
}
# The rows whose nanoseconds the page has.
TIMED = {
    "get hit": "`get`, present",
    "get miss": "`get`, absent",
    "insert new": "`insert` of a new key",
    "remove+insert": "`remove` and `insert`",
    "String get_str hit": "`get_str`, present",
}
# The rows in which the page compares kinds of keys with the kit's indexmap.
CROSSINGS = {
    "numbers": ["get hit", "get miss", "insert new", "insert reserved", ""],
    "texts": ["String get_str hit", "String get_str miss", "String insert new", "", ""],
    "enums": ["header get hit", "", "header insert new", "", "header remove+insert"],
}
CALLS_COMPARED = ["`get`, present", "`get`, absent", "`insert`", "`insert` with capacity", "`remove` and `insert`"]
# The ratios of a row at one size, and the nanoseconds of an operation. Of two other crates, those are the first number.
Cell = collections.namedtuple("Cell", "median leasts least greatest ours theirs", defaults=[0] * 5)


def is_above(cell):
    """Returns whether a cell is above MOST by its median and by its least times."""
    return round(min(cell.median, cell.leasts), 2) > MOST


def ratio(number):
    """Returns a ratio as a text."""
    return f"{number:.2f}" if number >= 0.01 else f"{number:.4f}"


def bold(text, cell):
    """Returns a text, in bold letters if its cell is above MOST."""
    return f"**{text}**" if is_above(cell) else text


def short(cell):
    """Returns the median of a cell, in bold letters if the cell is above MOST."""
    return bold(ratio(cell.median), cell)


def full(cell):
    """Returns both ratios of a cell, its range and its nanoseconds."""
    digits = 1 if cell.theirs < 1000 else 0
    median, leasts, least, greatest = map(ratio, cell[:4])
    return f"{median} {leasts} [{least}..{greatest}] {cell.ours:.{digits}f}:{cell.theirs:.{digits}f}"


def mean(cells):
    """Returns the geometric mean of some ratios as a text, which is empty if there are none."""
    return f"{statistics.geometric_mean(cells):.2f}" if cells else ""


def sizes_of(rows):
    """Returns the sizes of a table, in order."""
    return sorted({n for cells in rows.values() for n in cells})


def cells_of(rows):
    """Returns all cells of a table."""
    return [cell for cells in rows.values() for cell in cells.values()]


def lines_of(rows, shown):
    """Returns the lines of a table: of each row its name and its cells, which are empty at sizes that it lacks."""
    return [[row, *(shown(cells[n]) if n in cells else "" for n in sizes_of(rows))] for row, cells in rows.items()]


def ratio_table(head, rows):
    """Returns a table of medians, with the geometric mean of each column."""
    lines = [[head, *sizes_of(rows)], *lines_of(rows, short)]
    for line, cells in zip(lines[1:], rows.values()):
        line[0] += " \\*" * any(cell.greatest >= 2 * cell.least for cell in cells.values())
    columns = ([cells[n].median for cells in rows.values() if n in cells] for n in sizes_of(rows))
    return table([*lines, ["geometric mean", *map(mean, columns)]])


def read_run(name):
    """Returns the lines of a run: for (contender, row, size), the original's time, the contender's, and the ratio.

    A number below LEAST becomes LEAST, so that no table has a zero.
    """
    with open(name, encoding="utf-8") as file:
        lines = [line.rstrip("\n").split("\t") for line in file]
    return {(who, row, int(size)): [max(float(x), LEAST) for x in rest] for row, size, who, *rest in lines}


def cell_of(times):
    """Returns the cell of the times of some runs."""
    theirs, ours, ratios = zip(*times)
    leasts, (median, *nanoseconds) = max(min(ours) / min(theirs), LEAST), map(statistics.median, (ratios, ours, theirs))
    return Cell(median, leasts, min(ratios), max(ratios), *nanoseconds)


def tables_of(runs):
    """Returns the cells of some runs, by contender, row and size."""
    tables = {}
    for who, row, n in dict.fromkeys(key for run in runs for key in run):
        cell = cell_of([run[who, row, n] for run in runs if (who, row, n) in run])
        tables.setdefault(who, {}).setdefault(row.replace("|", "\\|"), {})[n] = cell
    return tables


def read_figures():
    """Returns the cells of the figures, by contender, row and size."""
    tables = collections.defaultdict(dict)
    for head, row, size, cell in (line.split("\t") for line in read(FIGURES).splitlines()):
        numbers = map(float, re.findall(r"\d+(?:\.\d+)?", cell))
        tables[head.split(" : ")[0]].setdefault(row, {})[int(size)] = Cell(*numbers)
    return tables


def compared(tables, other):
    """Returns the rows that this library and another contender have, with the ratios of both."""
    made = collections.defaultdict(dict)
    for row, cells in (it for who in BESIDES[other] for it in tables.get(who, {}).items()):
        for n in cells.keys() & tables[other].get(row, {}).keys():
            beside = tables[other][row][n]
            made[row][n] = Cell(cells[n].median / beside.median, cells[n].leasts / beside.leasts)
    return made


def comparison(tables, other):
    """Returns what compares this library with another contender, in the rows that both have."""
    made = compared(tables, other)
    cells, both = cells_of(made), lambda cell: bold(f"{cell.median:.2f} {cell.leasts:.2f}", cell)
    faster, slower = sum(max(cell[:2]) < 1 / MOST for cell in cells), sum(map(is_above, cells))
    columns = ([cells[n] for cells in made.values() if n in cells] for n in sizes_of(made))
    means = [f"{mean([it.median for it in column])} {mean([it.leasts for it in column])}" for column in columns]
    lines = [[f"vecmap : {other}", *sizes_of(made)], *lines_of(made, both), ["geometric mean", *means]]
    said = f"Of {len(cells)} cells, {faster} take at least 5 % less than {other} by both ratios, and {slower} more."
    return f"{said}\n\n{table(lines)}"


def print_tables(tables, is_full):
    """Prints some tables."""
    for who, rows in tables.items():
        head = f"{who} : {COMPARED_WITH.get(who, 'vecmap-rs')}"
        whole = table([[head, *sizes_of(rows)], *lines_of(rows, full)]) if is_full else ratio_table(head, rows)
        print("\n" + whole, end="")
    for other in [] if is_full else filter(tables.__contains__, BESIDES):
        print("\n" + comparison(tables, other), end="")


# The page.


def take(path):
    """Makes the tables of a file the figures. Of two other crates, it takes the nanoseconds of some rows."""
    made, figures = collections.defaultdict(list), collections.defaultdict(list)
    for block in BLOCK.findall(read(path)):
        [head, *sizes], _, *rows = table_rows(block)
        made[head] = [[head, row, n, cell] for row, *cells in rows for n, cell in zip(sizes, cells) if cell]
    for crate in CRATES:
        for _, row, n, cell in made[f"{crate.split()[0]} : vecmap-rs"]:
            if row in ROWS_OF_OTHERS and int(n) in SIZES_OF_OTHERS:
                made[OTHERS].append([OTHERS, f"{row}, {crate}", n, re.search(r" ([\d.]+):", cell)[1]])
    made[COUNTS] = [line.split("\t") for line in read(path).splitlines() if line.startswith(f"{COUNTS}\t")]
    for line in read(FIGURES).splitlines():
        figures[line.split("\t")[0]].append(line.split("\t"))
    lines = [line for head, kept in figures.items() for line in made[head] or kept]
    write(FIGURES, "".join("\t".join(line) + "\n" for line in lines))


def kind_table(rows):
    """Returns the table of the means of each kind, and of how many cells are slower or faster in each order."""
    sizes = sizes_of(rows)
    kinds = {kind: [rows[row] for row in rows if re.match(pattern, row)] for kind, pattern in KINDS.items()}
    kinds |= {"all": [*rows.values()], "all but the last three": [it for kind in [*KINDS][:-3] for it in kinds[kind]]}
    lines = [["kind", *sizes, "slower", "faster"]]
    for kind, found in kinds.items():
        means = (mean([cells[n].median for cells in found if n in cells]) for n in sizes)
        cells = [cell for row in found for cell in row.values()]
        slower, faster = sum(it.least > MOST for it in cells), sum(it.greatest < LESS for it in cells)
        lines.append([kind, *means, f"{slower}/{len(cells)}", f"{faster}/{len(cells)}"])
    return table(lines)


def time_table(tables):
    """Returns the table of nanoseconds: of this library, of the original, and of the kit's indexmap if it is timed."""
    lines = [["nanoseconds", *SIZES_OF_OTHERS]]
    for row, words in TIMED.items():
        kit = tables[KIT].get(row, {})
        times = ([*tables[OURS][row][n][-2:], *(it.ours for it in [kit.get(n)] if it)] for n in SIZES_OF_OTHERS)
        lines.append([words, *(":".join(f"{it:.{int(it < 100)}f}" for it in found) for found in times)])
    return table(lines)


def counts(tables):
    """Returns the sentence on instructions: of this library, and of the original."""
    cells = ((row, (it[n][:2] for n in SIZES_OF_COUNTS)) for row, it in tables[COUNTS].items())
    return "; ".join(f"{row} " + ", ".join(f"{a:.0f}:{b:.0f}" for a, b in found) for row, found in cells) + "."


def crossing_table(tables):
    """Returns the table of the sizes from which on this library is slower than the kit's indexmap at each size."""
    first, ratios = {"": ""}, compared(tables, KIT)
    for row, n in ((row, n) for row in ratios for n in sorted(ratios[row])):
        first[row] = (first.get(row) or n) if is_above(ratios[row][n]) else ""
    lines = ([keys, *(first[row] for row in rows)] for keys, rows in CROSSINGS.items())
    return table([["keys", *CALLS_COMPARED], *lines])


def page_of(text, tables):
    """Returns the page with the tables of the figures."""
    made = (kind_table(tables[OURS]), time_table(tables), crossing_table(tables))
    heads = {it.split("|")[1]: it for it in made}
    return BLOCK.sub(lambda block: heads.get(block[0].split("|")[1], block[0]), text)


def check():
    """Compares the page with the figures, after it has taken those of the named file."""
    for path in sys.argv[2:]:
        take(path)
    tables, text = read_figures(), read(SPEED)
    rows, made = tables[OURS], page_of(text, tables)
    if WRITES:
        write(SPEED, made)
    kinds = {row: sum(bool(re.match(it, row)) for it in KINDS.values()) for row in rows}
    faults = [f"speed: `{row}` is of {number} kinds, and not of one" for row, number in kinds.items() if number != 1]
    spreads = sorted(cell.greatest / cell.least for cell in cells_of(rows))
    half, most = (f"{spreads[len(spreads) * it // 10]:.2f}" for it in (5, 9))
    sentences = counts(tables), f"is at most {half} times the least, in nine of ten at most {most} times."
    faults += [f"{SPEED} lacks: {it}" for it in sentences if it not in " ".join(text.split())]
    faults += [f"{SPEED}: its tables are not those of the figures (`bench/table.py --write`)"] * (made != read(SPEED))
    return faults, f"speed: {len(rows)} rows of {len(KINDS)} kinds"


if sys.argv[1:2] in ([], ["--write"]):
    sys.argv[2:] = map(os.path.abspath, sys.argv[2:])
    end(check)
if sys.argv[1] == "--rows":
    os.chdir(os.path.join(os.path.dirname(os.path.abspath(__file__)), ".."))
    figures = read_figures()
    del figures[OTHERS], figures[COUNTS]
    print_tables(figures, False)
else:
    is_full = sys.argv[1] == "--full"
    print_tables(tables_of([read_run(name) for name in sys.argv[1 + is_full :]]), is_full)
