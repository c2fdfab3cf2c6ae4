#!/usr/bin/env python3
"""Counts the instructions of an operation by valgrind, which no address changes: instructions.py PROGRAM [SIZE..]

PROGRAM is the `time` that `bench/run` puts into RESULTS. A line of the output has a row, a size, and the instructions
of this library, of vecmap-rs and of an earlier state, if there is one, without those of the clones that the row makes.
`bench/table.py --write` takes these lines. It needs valgrind.
"""
import os
import re
import subprocess
import sys

ROWS = ["get hit", "get miss", "insert new", "insert present", "entry present", "remove+insert", "retain half"]
ROWS += ["drain half", "split_off half", "From<Vec> distinct", "iter", "set contains"]
LIBRARIES = ["vecmap", "vecmap-rs", "before"]


def total(program, library, row, size, rounds):
    """Returns the instructions of a run, and what it prints on a round, which is nothing if there is no such loop."""
    settings = {**os.environ, "COUNTED": library, "ROUNDS": str(rounds), "SIZES": str(size), "KIT_SIZES": ""}
    command = ["valgrind", "--tool=callgrind", "--callgrind-out-file=/dev/null", program, row]
    ran = subprocess.run(command, capture_output=True, text=True, env=settings, check=True)
    return int(re.search(r"Collected : (\d+)", ran.stderr)[1]), ran.stdout.strip()


def instructions(program, library, row, size):
    """Returns the instructions of an operation, or `None` if there is no such loop."""
    rounds = max(8, 1024 // size)
    (few, said), (many, _) = (total(program, library, row, size, it * rounds) for it in (1, 2))
    if not said:
        return None
    # A round of the row of a clone has as many operations as a round of a row that clones.
    steps, *clones = said.split("\t")
    made = int(clones[0]) * instructions(program, library, clones[1], size) if clones else 0
    return (many - few) / (rounds * int(steps)) - made


for name in ROWS:
    for n in map(int, sys.argv[2:] or [2, 8, 32, 128]):
        counts = (instructions(sys.argv[1], it, name, n) for it in LIBRARIES)
        found = ":".join(f"{it:.1f}" for it in counts if it is not None)
        print("instructions", name, n, found, sep="\t", flush=True)
