"""What the scripts share. The items of a source are read by `laws_for.py`, which users get without this folder."""

import collections
import functools
import glob
import os
import pathlib
import re
import subprocess
import sys

TOP = pathlib.Path(__file__).resolve().parent.parent
sys.path.append(f"{TOP}/crates/vecmap")

from laws_for import closing, items  # noqa: E402, F401

# The sources, the files of definitions and of proofs, and the programs that pages speak of.
TEXTS = ("crates/**/*.rt", "crates/**/*.antt", "docs/crates/**/*.txt")
LIBRARIES = ["vecmap_base", "vecmap_map", "vecmap_set", "vecmap"]
LAWS = "vecmap_laws"
# The crates whose definitions users can meet.
DEFINED = [*LIBRARIES, LAWS]
WRITES = sys.argv[1:2] == ["--write"]
# The repository in which a script is to make a crate, if it is run with `make FOLDER`.
FOLDER = os.path.abspath(sys.argv[2]) if sys.argv[1:2] == ["make"] else ""
# The comment of a definition, its indentation, its name, and the rest: lines up to an empty one.
FORM = r"((?:^ *-- .*\n)*)^( *)(?:%s)(?!mod |use )([\w']+) .*\n(?:.*\S.*(?:\n|\Z))*"
PUBLIC = re.compile(FORM % r"abbrev pub |(?:unfoldable )?pub (?:record |data |ruleset )?", re.MULTILINE)
ANY = re.compile(FORM % r"(?:(?:abbrev|unfoldable|pub|record|data) )*(?!(?:abbrev|module|pub|where) )", re.MULTILINE)
NAME = re.compile(r"[A-Za-z_][\w']*")
# An import or an export: the words before it, and its paths.
GROUP = r"\{(?:[^{}]|\{(?:[^{}]|\{[^{}]*\})*\})*\}"
USE = re.compile(rf"^ *((?:pub |ghost )?(?:use|mod) )((?:[^;{{\n]|{GROUP})*);?$", re.MULTILINE)
# A part of an import: a path, or names in braces behind one.
PARTS = re.compile(r"([^\s,{}](?:[^,{}\n]*))(?:\{((?:[^{}]|\{(?:[^{}]|\{[^{}]*\})*\})*)\})?")
# The head of an `impl`: its parameters, which may have bounds with parameters, the trait if there is one, and the type.
IMPL = re.compile(r"impl(?:<(?:->|[^<>]|<[^<>]*>)*>)? (?:(.*) for )?(.*?)(?: where.*)?")
# A definition: its line, its name, the lines of its comment, and its text, which begins with the modules that it is in.
Definition = collections.namedtuple("Definition", "line name comment text")
# A block of code: the line that opens it, the words there, its lines, those of the comment right above it, and the path
# of a user's file, if the first line of these has one.
Block = collections.namedtuple("Block", "line mark lines above file")
BLOCK = re.compile(r"^(?:<!-- ((?:(?!-->)(?:.|\n))*?)\s*-->\n)?```(.*)\n((?:.*\n)*?)```$", re.MULTILINE)
# The words that begin a line of the script that is no row, but sets the collections up.
SET_UP = "map repeats set spare other swap again clones_fail".split()
# A heading of the script: its part, its text, the comments below it, its other lines, and which of these are rows.
Heading = collections.namedtuple("Heading", "part text notes lines rows")


def end(check):
    """Runs the check that it decorates at the top of the repository, prints the faults and the last line, and exits."""
    os.chdir(TOP)
    faults, last = check()
    print(*faults, last, sep="\n")
    sys.exit(bool(faults))


def table_rows(text):
    """Returns the cells of each row of the tables of a text. The first two rows of a table are its head and a line."""
    rows = (re.split(r"(?<!\\)\|", line)[1:-1] for line in text.splitlines() if line.startswith("|"))
    return [[cell.strip() for cell in row] for row in rows]


def table(rows):
    """Returns a table of some rows, the first of which is its head."""
    first, *rest = ("| " + " | ".join(map(str, row)) + " |\n" for row in rows)
    return first.replace("|  |", "| |") + "|---" * len(rows[0]) + "|\n" + "".join(rest)


def read(path):
    """Returns the text of a file. A file that is not there has none."""
    return pathlib.Path(path).read_text("utf-8") if os.path.isfile(path) else ""


def write(path, text):
    pathlib.Path(path).parent.mkdir(parents=True, exist_ok=True)
    pathlib.Path(path).write_text(text, "utf-8")


def run(command, folder="."):
    """Runs a command of the shell in a folder. Returns the run, with all that it printed."""
    return subprocess.run(command, cwd=folder, shell=True, text=True, stdout=subprocess.PIPE, stderr=subprocess.STDOUT)


@functools.cache
def kit():
    return os.path.dirname(run("rt doc").stdout) + "/rattle"


def write_crate(folder, name, needs, texts):
    """Writes the files of a crate into a repository, those that only list modules, and the line of `crates.txt`."""
    paths = "\n".join(sorted(texts))
    modules = lambda part, line: "".join(map(line.format, re.findall(rf"^{part}/(\w+)\.\w+$", paths, re.MULTILINE)))
    made = {"specs/Lib.antt": modules("specs", "pub mod {}\n"), "proofs/Lib.antt": modules("proofs", "mod {}\n")}
    if "src/main.rt" not in texts:
        made["src/lib.rt"] = ("#![tactic(auto)]\n\n" + modules("src", "pub mod {};\n")).strip() + "\n"
    for path, text in {**made, **texts}.items():
        write(f"{folder}/crates/{name}/{path}", text)
    kept = [it for it in read(f"{folder}/crates.txt").splitlines() if not it.startswith(f"{name}:")]
    write(f"{folder}/crates.txt", "\n".join([*kept, f"{name}: {' '.join(needs)}", ""]))


def files(*patterns):
    """Returns the files that some patterns name, in order, without what a check has made."""
    found = (path for pattern in patterns for path in sorted(glob.glob(pattern, recursive=True)))
    return [path for path in found if "/out/" not in f"/{path}"]


@functools.cache
def pages():
    """Returns the pages. Those of `.ci` are none."""
    return files("**/*.md")


def sources(*crates):
    return files(*(f"crates/{crate}/src/**/*.rt" for crate in crates or "*"))


def specs(crate):
    """Returns the files of the definitions of a crate. Those in `formers/` are for the kit, which looks for them."""
    return [it for it in files(f"crates/{crate}/specs/**/*.antt") if "/formers" not in it]


@functools.cache
def definitions(path, also_private=False):
    """Returns the public definitions of a file, or all, each below the heads of the modules that it is in."""
    text, made = read(path), []
    for found in (ANY if also_private else PUBLIC).finditer(text):
        comment, indent, name = found.groups()
        start, heads, depth = found.start(2), [], len(indent)
        for space, head in reversed(re.findall("^( *)(module .*)", text[:start], re.MULTILINE)):
            if len(space) < depth:
                heads, depth = [space + head, *heads], len(space)
        lines = [line.strip()[3:] for line in comment.splitlines()]
        whole = "\n".join([*heads, text[start : found.end()].rstrip("\n")])
        made.append(Definition(text.count("\n", 0, start), name, lines, whole))
    return made


def paths(text):
    """Yields the paths that an import has, also in braces."""
    for place, group in PARTS.findall(text):
        yield from (place + it for it in paths(group)) if group else [place]


def imports(path):
    """Yields what a file imports or exports: the words before it, and its path."""
    yield from ((words, it) for words, text in USE.findall(read(path)) for it in paths(text))


def crate_of(path):
    return path.split("/")[1]


def functions(*paths):
    return [it for path in paths for it in items(path) if it.kind == "fn"]


def opening(path):
    """Returns the comment at the head of a file, on one line."""
    found = re.match(r"(?:(?://!|--).*\n)*", read(path))
    return " ".join(re.sub(r"^(?://!|--) ?", "", line) for line in found[0].splitlines())


def trait_and_type(item):
    """Returns the trait, if any, and the type of an item's `impl`, without lifetimes, or the trait that it is in."""
    head = item.text if item.kind == "impl" else item.impl
    if not head.startswith("impl"):
        return "", "".join(re.findall(r"trait (\w+)", head))
    head = re.sub(r"'\w+(?:, | )?|\b(?:fmt|sealed)::", "", head)
    return IMPL.fullmatch(re.sub(r"(?<!impl)<(?:_|, )*>", "", head)).groups("")


def owner_of(item):
    """Returns the name of the type or trait that an item is in, or nothing."""
    return trait_and_type(item)[1].split("<")[0]


def blocks(path):
    """Yields the blocks of code of a page, or of the doc comments of a source."""
    text = re.sub(r"^ *//[/!] ?", "", read(path), flags=re.MULTILINE) if path.endswith(".rt") else read(path)
    for found in BLOCK.finditer(text):
        above, lines = (found[1] or "").splitlines(), found[3].splitlines()
        file = re.fullmatch(r"(?:(?://|--|#) )?(crates[./]\S+)", [*above, *lines, ""][0])
        yield Block(text.count("\n", 0, found.start(2)) + 1, found[2], lines, above, file and file[1])


def calls_of(row):
    """Returns the names of the calls of a row; those that an entry has begin with `entry:`."""
    names, *args = re.split("->|[|]", row)[0].split()
    return [f"entry:{it}" for it in ("entry", *args[1:4])] if names == "entry" else names.split("/")


def name_in_rows(function):
    """Returns the name by which rows call a function."""
    return f"entry:{function.name}" if "/entry" in function.path else function.name


@functools.cache
def headings():
    """Returns the headings of the script, in order. An empty line ends the rows of one."""
    part, found = "", []
    for block in read("crates/vecmap_script/stdin").split("\n\n"):
        part = [part, *re.findall(r"^# =+ (\w+)", block, re.MULTILINE)][-1]
        text, *notes = [*re.findall(r"^# (?!=)(.*)", block, re.MULTILINE), ""]
        lines = [line for line in block.splitlines() if not line.startswith("#")]
        rows = [line for line in lines if line and line.split(" ")[0] not in SET_UP]
        if part and (text or lines):
            found.append(Heading(part, text, notes[:-1], lines, rows))
    return found
