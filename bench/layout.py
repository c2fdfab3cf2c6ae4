"""Writes a linker script for each order of the functions.

    python3 bench/layout.py MAP FOLDER ORDER..

A processor fetches and keeps code in blocks of 32 and 64 bytes, and a tight loop may take twice as long by its place in
one. A linker puts functions at multiples of 16. Here the functions in Rattle begin at one of the four places in 64
bytes, and so do the functions in Rust: of eight orders from a multiple of eight on, each side has each place twice, and
no two orders have the same two places. The functions are shuffled, too.

MAP is the linker's map of the program, and `FOLDER/ORDER.ld` becomes the script of an order, a number.
"""
import random
import re
import sys

# A section of a map: its file, with the archive that the file is in, and its name.
SECTION = re.compile(r"(\S+):\((\.text\..+)\)$")


def sections_of(name):
    """Returns the sections with functions: whether each is in Rattle, the archive that it is in, and its name."""
    with open(name, encoding="utf-8") as file:
        found = dict.fromkeys(match.groups() for match in map(SECTION.search, map(str.rstrip, file)) if match)
    for path, section in found:
        archive = re.search(r"([^/]+\.a)\(", path)
        yield archive is not None, archive[1] if archive else None, section


def script(sections, order):
    """Returns the linker script of an order."""
    starts = {True: 16 * (order % 4), False: 16 * ((order + order // 4) % 4)}
    lines = []
    for is_rattle, archive, section in random.Random(order).sample(sections, len(sections)):
        name = re.sub(r"[][*]", "?", section)
        lines.append(f'. = ALIGN(64) + {starts[is_rattle]}; *{archive + ":*" if archive else ""}("{name}")')
    return "SECTIONS {\n.text.shuffled : ALIGN(64) {\n" + "\n".join(lines) + "\n}\n} INSERT BEFORE .text;\n"


def main():
    name, folder, *orders = sys.argv[1:]
    sections = list(sections_of(name))
    for order in orders:
        with open(f"{folder}/{order}.ld", "w", encoding="utf-8") as file:
            file.write(script(sections, int(order)))


main()
