"""Finds where names in contracts and definitions lead: to a definition, a type, or a row of the page on contracts."""

import functools
import re

from rattle import DEFINED, crate_of, definitions, imports, items, kit, read, sources, table_rows

# The place that the logic has for a type of a program, or for its variants.
DECLARED = re.compile(r"Rattle\.(\w+)\.specs\.declared\.(?:[a-z_]+\.)*([A-Z]\w*)(\.TheVariants)?")
# By the path of each definition of the kit that has a page: its file, and itself; and the path by its file and names.
OF_KIT, FIRST = {}, {}


def module_of(path):
    """Returns the module of a source or of a file of definitions, by the path that Rust has for it."""
    path = re.sub(r"^/.*/(?:std\w*|core)/specs/", "std/specs/", path)
    return re.sub(r"^crates/|/src(?=/)|(/[lL]ib)?\.(rt|antt)$", "", path).replace("/", "::")


@functools.cache
def rows(of_labels=False):
    """Returns what the page on contracts says of each sign, word and member of a trait, as `.eq`, or of each label."""
    _, _, signs, labels = read(".ci/reference/contracts.md").split("\n# ")
    made = {}
    for first, told, *_ in table_rows(labels if of_labels else signs)[2:]:
        names = re.findall(r"`([^`]+)`", first.replace("\\", ""))
        each = re.split(r"; (?![^(]*\))", told)
        made |= dict(zip(names, each * len(names) if len(each) == 1 else each, strict=True))
    return made


@functools.cache
def fixed():
    """Returns where the words of the logic lead, and the members of traits, such as `.equivalent` of `Q.equivalent`."""
    found = {it: f"contracts#{it}" for it in rows()}
    for trait in (it for path in sources(*DEFINED) for it in items(path) if it.kind == "trait"):
        names = re.findall(r"^    (?:ghost|type) (\w+)", trait.members, re.MULTILINE)
        found |= {f".{it}": f"{crate_of(trait.path)}::{trait.name}" for it in names}
    return found


def imported(path):
    """Yields what a file imports: the name there, the place that it is from, and its name there."""
    text = read(path)
    for _, it in imports(path):
        module, _, alias = it.partition(" as ")
        place, _, name = module.rpartition(".")
        yield alias or name, place, name
        if alias:  # Of a module, as in `entries.lookup`.
            yield from ((f"{alias}.{it}", module, it) for it in re.findall(rf"\b{alias}\.([A-Za-z]\w*)", text))


@functools.cache
def names_in(path):
    """Returns where each name of a file leads: a path, or a place of the logic and the name there."""
    text, place = read(path), f"Rattle.{module_of(path).replace('::', '.')}"
    found = fixed() | {it: fixed().get(f".{it}", "") for it in re.findall(r"^    ghost (\w+): \{", text, re.MULTILINE)}
    found |= dict.fromkeys(re.findall(r"^ *([\w'-]+) : .*≡", text, re.MULTILINE), "")
    found |= {it.name: (place, it.name) for it in definitions(path)}
    return found | {alias: (place, name) for alias, place, name in imported(path)}


@functools.cache
def path_of(place, name):
    """Returns the path of a definition, a type or a variant by its place in the logic, or nothing if it has no page."""
    place = re.sub(r"^Rattle\.(core|std_\w+)\.", "Rattle.std.", place)
    if found := DECLARED.fullmatch(place):
        crate, owner, is_variant = found.groups()
        if crate == "std" and name in fixed() or not is_variant and name != owner:
            return fixed().get(name) or fixed().get(f".{name}", "")
        return f"{crate}::{owner}::{name}" if is_variant else f"{crate}::{owner}"
    crate, _, rest = place.removeprefix("Rattle.").partition(".")
    path, otherwise = f"{crate}.{rest}.{name}".replace(".", "::"), fixed().get(name, "")
    if crate in DEFINED:
        return path if re.match(r"specs\.(?!contracts)", rest) else otherwise
    found = look_up(place, name)
    key = found and (found[0], found[1].name, name)
    if found and path.startswith("std::specs::"):
        OF_KIT[FIRST.setdefault(key, path)] = found
    return FIRST.get(key, otherwise)


@functools.cache
def look_up(place, name):
    """Returns the file and the definition that a place of the kit has under a name, or passes on, or nothing."""
    first, _, rest = place.partition(".")
    home = {"lib": f"{kit()}/logic/Lib", "mathlib": f"{kit()}/antt/port/mathlib/src"}.get(first, "")
    if found := re.fullmatch(r"Rattle\.(\w+)\.specs\.([^.]*)(.*)", place):
        home, rest = f"{kit()}/{found[1]}/specs", found[2] + found[3]
        if moved := re.search(rf"^pub use (Rattle\.[\w.]+\.{found[2]})$", read(f"{home}/Lib.antt"), re.MULTILINE):
            return look_up(moved[1] + found[3], name)
    path = f"{home}/{rest.replace('.', '/')}.antt"
    if own := [it for it in definitions(path) if it.name == name]:
        return path, own[0]
    return next((look_up(it, its) for alias, it, its in imported(path) if alias == name), None)


@functools.cache
def definition(path):
    """Returns the sentence on a definition, its text, and its file, or nothing thrice."""
    home, _, name = path.rpartition("::")
    file = f"crates/{home.replace('::', '/')}.antt"
    own = ((file, it) for it in definitions(file) if it.name == name)
    file, found = OF_KIT.get(path) or next(own, ("", None))
    return ("".join(found.comment[-1:]), found.text, file) if found else ("", "", "")
