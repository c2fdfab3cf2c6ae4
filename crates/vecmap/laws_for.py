#!/usr/bin/env python3
"""Prints the clauses of laws that have some words of a goal, the shortest first: `laws_for.py lookup put`.

A word that ends in `*` is the beginning of one. Without words, each law is printed with the first sentence of its
comment. A law is a public function of `vecmap_laws`, or of a module `laws` that `vecmap` passes on. It is printed by
the path by which code calls it. `rt lemma` finds lemmas, which only a file of proofs can cite.

A source is read by the form that `rt fmt` gives to it: an item ends at the first brace with the indentation of its
first line. The scripts of the repository read sources by this file, too.
"""

import collections
import functools
import pathlib
import re
import signal
import sys

CRATES = pathlib.Path(__file__).resolve().parent.parent
SOURCES = sorted(CRATES.glob("*/src/**/*.rt"))
PUBLIC_USE = re.compile(r"^pub use ([\w:]+?)(?:::\{([^}]*)\})?;", re.MULTILINE)
# The comments and attributes of an item, its first words, and the rest: lines up to one that ends a statement or has
# an empty body, or that opens a block, which ends at a brace with the indentation of the item.
ITEM = re.compile(
    r"(?P<comment>(?:^ *(?://|#\[).*\n)*)"
    r"^(?P<indent> *)(?P<scope>pub(?:\(\w+\))? )?(?:const |unsafe )*"
    r"(?P<kind>fn|impl|struct|enum|trait|type|macro_rules!)(?=[ <]) ?(?P<name>\w*)"
    r"(?:.*(?<![{;])(?<!\{\})\n)*?"
    r"(?:.*(?:;|\{\})|.*\{\n(?:.*\n)*?(?P=indent)\})$",
    re.MULTILINE,
)
CLAUSE = re.compile(r"(requires|ensures)\*? (?:(\w+) )?\{")
MEMBER = re.compile(r"^    ghost (\w+) = \{", re.MULTILINE)
# A brace, or what may have one that counts for nothing.
BRACE = re.compile(r"//.*|\"(?:[^\"\\]|\\.)*\"|'(?:[^'\\]|\\.)'|[{}]")
# A clause of a contract. A ghost member of an impl is one, too.
Clause = collections.namedtuple("Clause", "kind label formula")


class Item(collections.namedtuple("Item", "path line kind name is_public impl members comment text")):
    """A function, an impl, a type or a macro of a source.

    Its `impl` is the head of the impl or trait that it is in, and its `members` are the lines from there to the item.
    The `text` of an impl or a trait is its head, and its `members` are the whole.
    """

    def head(self):
        """Returns the signature with its clauses."""
        return re.split(r"\n *\{\n|\n\{\}|\{\n", self.text, maxsplit=1)[0]

    def signature(self):
        """Returns the signature without clauses."""
        return re.split(r"\b(?:requires|ensures)\b", re.sub(r"//.*", "", self.head()))[0]

    def doc(self):
        """Returns the doc comment."""
        return "\n".join(re.findall(r"^ */// ?(.*)", self.comment, re.MULTILINE))

    def is_call(self):
        """Returns whether others can call the function: it is public, or a method of a trait."""
        return self.is_public or " for " in self.impl or self.impl.startswith("pub trait")

    def is_test(self):
        """Returns whether the item is a test."""
        return "#[test]" in self.comment

    def clauses(self):
        """Returns the clauses of a function's contract, and the ghost members of its impl that stand before it."""
        head = re.sub(r"//.*", "", self.head())
        made = [Clause(found[1], found[2] or "", braced(head, found.end())) for found in CLAUSE.finditer(head)]
        ghosts = MEMBER.finditer(self.members)
        return made + [Clause("ghost", found[1], braced(self.members, found.end())) for found in ghosts]


def closing(text, at=0):
    """Returns the place behind the brace that closes the one before a place."""
    depth = 1
    for found in BRACE.finditer(text, at):
        depth += {"{": 1, "}": -1}.get(found[0], 0)
        if depth == 0:
            return found.end()
    raise ValueError(f"a brace is open: {text[at : at + 80]}")


def braced(text, at):
    """Returns a text from a place behind a brace to the brace that closes it, on one line."""
    return " ".join(text[at : closing(text, at) - 1].split())


def items(path):
    """Yields the items of a source, in order, and those of impls and of traits."""
    text, owner, start, at = pathlib.Path(path).read_text("utf-8"), "", 0, 0
    while found := ITEM.search(text, at):
        comment, indent, scope, kind, name = found.groups()
        first = found.start("indent")
        whole, members = text[first : found.end()], text[start:first] if indent else ""
        at = found.end() if kind == "fn" else text.index("\n", first)
        if indent and kind != "fn":
            continue
        if kind in ("impl", "trait"):
            start, members = first, whole
            whole = owner = " ".join(whole.split("{")[0].split())
        line = text.count("\n", 0, first) + 1
        yield Item(path, line, kind, name, scope == "pub ", owner if indent else "", members, comment, whole)


def module_of(path):
    """Returns the path of the module that a source is."""
    crate, _, *names = path.relative_to(CRATES).with_suffix("").parts
    return "::".join([crate] if names == ["lib"] else [crate, *names])


@functools.cache
def modules():
    """Returns the modules of all crates, each by its path with its text."""
    return {module_of(path): path.read_text("utf-8") for path in SOURCES}


@functools.cache
def passed_on():
    """Returns by each path that a module passes on the module, and the name that it has there."""
    found = {}
    for home, text in modules().items():
        for path, group in PUBLIC_USE.findall(text):
            for item in (f"{path}::{it.strip()}" for it in group.split(",") if it.strip()) if group else [path]:
                whole, _, alias = item.removeprefix("self::").partition(" as ")
                first, _, rest = whole.partition("::")
                whole = f"{home.split('::')[0]}::{rest}" if first == "crate" else whole
                whole = whole if first in modules() or first == "crate" else f"{home}::{whole}"
                found.setdefault(whole, []).append((home, alias or whole.rsplit("::", 1)[1]))
    return found


@functools.cache
def public_paths(item):
    """Returns the paths by which other crates may name a module, or an item that is public in its module."""
    module, _, name = item.rpartition("::")
    if not module:
        return [item]
    is_private = item in modules() and not re.search(rf"^pub mod {name};", modules()[module], re.MULTILINE)
    found = [] if is_private else [f"{path}::{name}" for path in public_paths(module)]
    found += [path for home, alias in passed_on().get(item, []) for path in public_paths(f"{home}::{alias}")]
    return sorted(set(found))


def laws():
    """Yields the laws, each with the paths by which callers may name it."""
    for path in (it for it in SOURCES if re.search(r"\b(?:vecmap_)?laws\b", module_of(it))):
        for law in (it for it in items(path) if it.kind == "fn" and it.is_public and not it.impl):
            paths = public_paths(f"{module_of(path)}::{law.name}")
            if paths and paths[0].split("::")[0] in ("vecmap", "vecmap_laws"):
                yield law, paths


def about(law):
    """Returns the first sentence of the comment of a law."""
    return " ".join(law.doc().split()).split(". ")[0].rstrip(".") + "."


def main(words):
    """Prints the laws, or the clauses that have some words."""
    tests = [re.compile(re.escape(it).replace(r"\*", ".*")) for it in words]
    if not words:
        print(*(f"{paths[0]}\n    {about(law)}" for law, paths in laws()), sep="\n")
        return
    found = []
    for law, paths in laws():
        for _, label, text in (it for it in law.clauses() if it.kind == "ensures"):
            names = set(re.findall(r"[\w']+|[^\w\s(){}\[\].,;]+", text))
            if all(any(map(test.fullmatch, names)) for test in tests):
                found.append((len(text), f"{paths[0]}  {label}\n    {text}"))
    print(*(text for _, text in sorted(found)), f"{len(found)} clauses", sep="\n")
    if "vecmap_laws" not in modules():
        print("vecmap_laws, which has most laws, is not here: `./add-to FOLDER vecmap_laws` copies it")


if __name__ == "__main__":
    signal.signal(signal.SIGPIPE, signal.SIG_DFL)  # So that `head` may close the pipe.
    main(sys.argv[1:])
