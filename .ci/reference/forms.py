"""Makes the Rust forms of sources and of definitions, which rustdoc reads.

A form has as many lines as its source, so that the numbers of lines stay. Contracts are in doc comments, bodies are
`loop {}`, and each definition of `specs/` is a constant with its comment and its text.
"""

import os
import re

from rattle import LAWS, LIBRARIES, closing, crate_of, definitions, functions, items, opening, owner_of, read, sources
from rattle import table_rows
import laws_for
from reference.contracts import Block
from reference.names import OF_KIT, module_of

GHOST = re.compile(r"(?:^ +//(?!/).*\n)*^ +ghost (?!use)\w+(?: = |: )\{", re.MULTILINE)
# Where the contract of a function begins: at a clause, with comments above it.
CONTRACT = re.compile(r"^(?=(?: *//.*\n)* *(?:requires|ensures)\b)", re.MULTILINE)
MODULES = re.compile(r"(?:^(?:pub )?mod \w+;\n)+", re.MULTILINE)
PASSED_ON = re.compile(r"^pub use Rattle\.(\w+)\.specs\.(\w+)(?: as (\w+))?$", re.MULTILINE)
# Words and signs by which a search finds calls and guides, too.
ALSO = {"VecMap::new": "HashMap IndexMap", "VecSet::new": "HashSet IndexSet", "VecSet::union": "|"}
ALSO |= dict.fromkeys(("VecMap::iter", "VecSet::iter"), "rev backwards loop for")
ALSO |= dict.fromkeys(("VecMap::as_slice", "VecSet::as_slice"), "compare == eq order")
ALSO |= dict.fromkeys(("VecMap::drain", "VecSet::drain"), "leak forget")
ALSO |= dict.fromkeys(("VecMap::index", "VecSet::index"), "precondition")
ALSO |= {f"&VecSet::{it}": "precondition" for it in ("bitand", "bitor", "bitxor", "sub")}
ALSO |= dict.fromkeys(("VecMap::insert", "VecSet::insert"), "push add")
ALSO |= {"calling": "error fail loop query deduplicate", "proving": "loop closure callable invariant law import"}
ALSO |= {"proved": "panic leak trusted premise", "contracts": "≡ λ label result requires", "changelog": "version"}
ALSO |= {"differences": "serde no_std panic Default ==", "porting": "IndexMap rev", "questions": "after"}
# The definitions of std, by their paths, as constants.
CONSTANTS = {}


def blank(text):
    return "\n" * text.count("\n")


def doc(text):
    """Returns an attribute with a doc comment, on one line."""
    words = text.replace("\\", "\\\\").replace('"', '\\"').replace("\n", "\\n")
    return f'#[doc = "{words}"] ' if text else ""


def found_by(name, *words):
    """Returns attributes by which a search finds a call or a guide by some words, too."""
    return "".join(f'#[doc(alias = "{it}")] ' for it in sorted({*words, *ALSO.get(name, "").split()}))


def aliases(item):
    """Returns attributes by which a search finds a call of a library: words of its purposes, and its goals."""
    if not (item.is_call() and crate_of(item.path) in LIBRARIES):
        return ""
    which = table_rows(read("crates/vecmap/CALLING.md").partition("\n## Which call\n")[2].partition("\n## ")[0])
    found = {word for told, calls, *_ in which if f"`{item.name}`" in calls for word in re.findall(r"[a-z]{5,}", told)}
    for label in (it.label for it in item.clauses() if it.kind == "requires"):
        found |= {"precondition", f"{item.name}-requires"}
        found |= {label, f"{item.name}-requires-clause-{label}"} if label else set()
    return found_by(f"{owner_of(item)}::{item.name}", *found - {item.name})


def contract_of(item, text, given):
    """Returns an attribute with a contract, which may be empty. Pages name it by its type or its module."""
    title = re.sub(r"^impl(?:<.*?>)? (?=[A-Z])| where.*", "", item.text)
    if item.kind != "impl":
        home = item.path.split("/")[3].removesuffix(".rt") if crate_of(item.path) == LAWS else ""
        title = "::".join(filter(None, [home, owner_of(item), item.name]))
    told = re.sub(r"\[(`.*?`)\]", r"\1", laws_for.about(item)) if item.is_public else ""
    block = Block(item.path, item.line, title, text, given, told=told)
    return doc(("\n# Contract\n" if text.strip() else "") + block.mark)


def function_form(item):
    """Returns the lines of a function without its contract and body. Without a comment it has no contract, either."""
    head = re.sub(r"\s*(?:\{\}|;)\Z", "", item.head())
    signature, contract = [*CONTRACT.split(head, maxsplit=1), ""][:2]
    is_shown = item.is_call() and (item.doc() or contract and " for " in item.impl)
    about = aliases(item) + (contract_of(item, contract, signature) if is_shown else "")
    made = f"{about}{signature.strip()} {';' if item.text.endswith(';') else '{ loop {} }'}"
    return made + blank(item.text).removeprefix(blank(made))


def block_form(item):
    """Returns the lines of an impl, a trait or a struct without its ghost members, which are its contract."""
    text, ghosts = item.members or item.text, ""
    while found := GHOST.search(text):
        ghost = text[found.start() : closing(text, found.end()) + 1]
        text, ghosts = text.replace(ghost, blank(ghost), 1), f"{ghosts}{ghost}\n"
    about = doc(opening(item.path)) if item.kind == "impl" and " for " not in item.text else ""
    return about + (contract_of(item, ghosts, text) if ghosts else "") + text


def with_topics(path):
    """Returns the text of a source. In a list of calls by topic at its head, calls and types are links."""
    text, kind = read(path), "".join(re.findall("^crates/vecmap/src/(map|set).rt$", path))
    head = re.match("(?://!.*\n)*", text)[0] if kind else ""
    calls = {it.name: f"(Vec{kind.title()}::{it.name})" for it in functions(*sources(f"vecmap_{kind}")) if it.is_call()}
    types = dict.fromkeys(re.findall(r"\b[A-Z]\w+", text.removeprefix(head)), "")
    link = lambda it: f"[{it[0]}]{calls.get(it[1], types.get(it[1]))}" if it[1] in {*calls, *types} else it[0]
    return re.sub(r"`(\w+)`", link, head) + text.removeprefix(head)


def rust_of(path):
    crate, lines = crate_of(path), with_topics(path).split("\n")
    for item in (it for it in items(path) if it.kind in ("fn", "impl", "trait", "struct")):
        made = (function_form if item.kind == "fn" else block_form)(item).split("\n")
        lines[item.line - 1 : item.line - 1 + len(made)] = made
    topics = read(f"crates/vecmap/src/{crate.removeprefix('vecmap_')}.rt")
    by_topic = lambda it: (topics.find(f"`{it.split()[-1][:-1]}.rt`"), it)
    text = MODULES.sub(lambda it: "".join(sorted(it[0].splitlines(True), key=by_topic)), "\n".join(lines))
    stem = "" if module_of(path) == crate else f"{os.path.basename(path)[:-3]}/"
    text = re.sub(r"^(pub(?:\(\w+\))? )?mod (\w+);", rf'#[path = "{stem}\2.rt"] \1mod \2;', text, flags=re.MULTILINE)
    text = re.sub(r"^(?=pub use vecmap)", "#[doc(inline)] ", text, flags=re.MULTILINE)
    text = re.sub(r"^ *#!?\[tactic\(.*\)\]$|^ *ghost use [^;]*;", lambda it: blank(it[0]), text, flags=re.MULTILINE)
    return re.sub(r"^#(\[derive.*\])$", lambda it: doc(f"\n\nIt is `#{it[1]}`."), text, flags=re.MULTILINE)


def constant(path, found, own, place):
    """Returns a definition as a constant, with its comment, its text, and how to import it."""
    name, words = own.rpartition("::")[2], [it for it in found.comment if not it.startswith("Example: ")]
    if not words and (path[0] == "/" or re.search(rf"^ *pub {found.name} ", found.text, re.MULTILINE)):
        words = ["A definition of std." if path[0] == "/" else "A fact on a definition."]
    examples = [f"*Example:* {it[9:]}" for it in found.comment if it not in words]
    text = Block(path, found.line + 1, name, found.text, own=own).mark
    use = f"```text\nghost use Rattle.{place.replace('::', '.')}.{{{name}}};\n```"
    about = [*words[-1:], *words[:-1], *examples, text, use] if words else []  # A lint of rustdoc names it.
    return doc("\n\n".join(about)) + f"pub const r#{name}: () = ();"


def definition_form(path):
    """Returns the Rust form of a file of definitions. A line without one passes a module on, names one, or is empty."""
    module = module_of(path)
    passed = PASSED_ON.findall(read("crates/vecmap/specs/Lib.antt"))
    places = {f"{home}::specs::{name}": f"vecmap::specs::{alias or name}" for home, name, alias in passed}
    text = PASSED_ON.sub(lambda it: f"pub use {it[1]}::specs::{it[2]} as {it[3] or it[2]};", read(path))
    text = re.sub(r"^pub mod ([A-Z]\w*)$", r'#[path = "\1.antt"] \g<0>;', text, flags=re.MULTILINE)
    lines = [it if it.startswith(("pub use", "#[path")) and it[-1] == ";" else "" for it in text.split("\n")]
    for it in definitions(path):
        lines[it.line] = constant(path, it, f"{module}::{it.name}", places.get(module, module))
    return f"#!{doc(opening(path) or 'The definitions that contracts name.')[1:]}" + "\n".join(lines)


def definitions_of_std(within="std::"):
    """Returns the definitions of std that contracts name, and those that these name, as modules of Rust."""
    while ahead := [it for it in OF_KIT if it not in CONSTANTS]:
        CONSTANTS.update((it, constant(*OF_KIT[it], it, it.rpartition("::")[0])) for it in ahead)
    made = ""
    for name in sorted({it.removeprefix(within).split("::")[0] for it in CONSTANTS if it.startswith(within)}):
        below = definitions_of_std(f"{within}{name}::")
        made += CONSTANTS.get(within + name, "") + "\n"
        made += f"/// Definitions of std.\npub mod {name} {{\n{below}}}\n" if below else ""
    return made
