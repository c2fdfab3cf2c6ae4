"""Writes contracts and definitions as HTML, in which each name is a link, and keeps them as blocks.

A doc comment has `<div class="contract">NUMBER</div>` in place of a block, where `site.py` puts the HTML. A link has
the path of its target, such as `@vecmap_base::specs::Pairs::put`, which `site.py` makes relative. Above a clause stands
what it says, if the clause read aloud is not all: the sentence of its definition with the arguments put in, or, of the
first clause of a call, that of its comment. Below a clause on a record are its fields, which are folded but for a few.
"""

import html
import itertools
import re
import textwrap

from rattle import NAME
from laws_for import CLAUSE, braced, closing
from reference.names import definition, names_in, path_of, rows

# What begins a line: a clause with its label, a field, or a member. No name there is a link.
OPENING = re.compile(r" *(?:(requires\*?|ensures\*?|ghost|pub) (?:(\w+)(?= \{| :|:| =))?)?")
TOKEN = re.compile(
    r"(?P<comment>//.*|--.*)|(?P<sign>[^\w\s(){}\[\].,;:'\"]+)|(?<![\w.'])[A-Za-z_][\w'-]*(?:\.[A-Za-z_][\w']*)*"
)
# The names that a text binds, after `λ` and before `:`, which lead nowhere. Then those of fields.
BOUND = re.compile(r"λ ([\w' ]+)\.|[({]([\w' ]+) :")
GIVEN = re.compile(r"^([^=:→]*?) =(?= |$)|[{;] ?([\w']+) =(?= )|^ *(?:pub )?([\w' -]+) :", re.MULTILINE)
# A field of a record, or a comment above some. Then one that says what a whole value is.
FIELD = re.compile(r"^ *(?:pub ([\w']+) : (.*)|(--.*))$", re.MULTILINE)
WHOLE = re.compile(r"([\w']+)[\w.]* ≡ [^→]*")
# The comment above the clauses that follow from others.
FOLLOWS = "What follows for lookups, lengths and indices."
OWN_WORDS = "_ Self self result where abbrev pub data record module".split()
# A word of a formula, or what stands in parentheses.
WORD = re.compile(r"\((?:[^()]|\((?:[^()]|\([^()]*\))*\))*\)|[^\s()]+")
FAULTS, BLOCKS = [], []


def bound_in(text, form):
    """Returns the names that a text has in places of a form."""
    found = form.findall(re.sub(r"\{\w+ = (\w+)\}", r"\1", text))
    return {it for part in found for it in re.findall(r"[\w'-]+", " ".join(part))}


def bare(text):
    """Returns a formula without parentheses around the whole."""
    return text[1:-1] if text[:1] == "(" and WORD.fullmatch(text) else text


def split(formula, sign):
    """Returns the parts of a formula between the places of a sign that are in no parentheses."""
    parts = itertools.groupby(WORD.findall(formula), sign.__eq__)
    return [bare(" ".join(words)) for is_sign, words in parts if not is_sign]


def parameters(name, text):
    """Returns the names of the explicit parameters of a definition, or the patterns that it has in their place."""
    heads = " ".join(it for it in text.splitlines() if re.match(r" *(?:module|pub record) ", it))
    left = re.search(rf"^ *{re.escape(name)} (.*?) =(?: |$)", text, re.MULTILINE)
    found = [it for group in re.findall(r"\(([\w' ]+) :", heads) for it in group.split()]
    return found + WORD.findall(re.sub(r"\{[^}]*\}", "", left[1] if left else ""))


def sentence(formula, about):
    """Returns the sentence of a definition with the arguments of a formula in it, or nothing."""
    name, *arguments = WORD.findall(formula)
    told, text, _ = about(name)
    names = parameters(name, text)
    is_phrase = re.match(r"`|that |What |[Tt]he same\b|[Ww]here |The capacity after ", told)
    if is_phrase or len(names) != len(arguments):
        return ""
    given = dict(zip(names, map(bare, arguments)))
    if query := re.fullmatch(r"(?:Q\.equivalent|has_text) ([\w.]+)", given.get("test", "")):
        told = told.replace("passes the test", f"matches `{query[1]}`")
    within = lambda it: re.sub(r"[a-z]\w*", lambda word: given.get(word[0], word[0]), it[0])
    put = lambda it: within(it) if it[0][0] == "`" else f"`{given[it[0]]}`" if it[0] in given else it[0]
    said = re.sub(r"`[^`]*`|(?<![\w'])[b-z](?![\w'])", put, told).rstrip(".")
    lists = [it for it in arguments if re.fullmatch(r"[\w.]+\.(?:entries|elements)", it)]
    said += f" in `{lists[0]}`" if len(lists) == 1 and not {lists[0], ","} & {*re.split("(,)|`", said)} else ""
    unsaid = [it for it in map(bare, arguments) if " " in it and "." not in it and it not in said]
    is_said = not unsaid and (not lists or any(it in said for it in lists))
    return said if is_said and not re.search(r"λ|\b[B-Z]\b", said) else ""


def said(formula, about):
    """Returns what a formula says in words, or nothing. `about` returns the sentence and the text of a definition."""
    lower = lambda text: text[:1].lower() + text[1:]
    if found := re.fullmatch(r"(?:If|On)(\w+) result (\(.*\))", formula):
        name, inner = re.fullmatch(r"(?:λ (\w+)\. )?(.*)", bare(found[2])).groups()
        form = f"`{found[1]}({name})`" if name else f"`{found[1]}`"
        rest = said(inner, about)
        return rest and ("If the result is " if "Some" in form else "On ") + f"{form}, {lower(rest)}"
    *premises, last = split(formula, "→")
    if premises:
        *conditions, last = parts = [said(it, about) for it in [*(it for it in premises if " : " not in it), last]]
        if not all(parts) or len({*parts}) < len(parts) or ". " in "".join(conditions):
            return ""
        return f"If {' and '.join(map(lower, conditions))}, then {lower(last)}" if conditions else last
    left, *right = split(formula, "≡")
    if len(right) == 1 and not re.search("[λ×⊎]", formula):
        value = sentence(right[0], about)
        value = lower(value) if value.startswith("The ") else f"`{right[0]}`"
        return f"{'The result' if left == 'result' else f'`{left}`'} is {value}"
    return "The call returns `Ok`" if formula == "IsOk result" else sentence(bare(formula.removeprefix("sem 𝓛 ")), about)


def inner(formula):
    """Returns what a formula says without its premises, and of the value that a result has."""
    if found := re.fullmatch(r"(?:If|On)\w+ \S+ (\(.*\))", formula):
        return inner(re.sub(r"^λ \w+\. ", "", bare(found[1])))
    *premises, last = split(formula, "→")
    return inner(last) if premises else formula


def put_in(text, given):
    """Returns a text with arguments in place of parameters. A variable that an argument names, too, gets a `'`."""
    bound, named = bound_in(text, BOUND), {*NAME.findall(" ".join(given.values()))}
    put = lambda it: it + "'" * (it in named) if it in bound else given.get(it, it)
    return re.sub(r"(?<![\w.'])[A-Za-z_][\w']*", lambda it: put(it[0]), text)


def whole(fields):
    """Returns the lines of fields, and of records in fields, that say what a whole value is."""
    return [it for is_whole, line, below in fields for it in whole(below) or ([line] if is_whole else [])]


def details(fields):
    """Returns the fields of a record, folded but for those that say what a whole value is, or for the first."""
    first = next(((line, below) for _, line, below in fields if line[:2] != "--"), ("", []))
    shown = whole(fields) or [line for _, line, _ in first[1][:1]] or [first[0]]
    rest = "".join(f"<div>{line}</div>{details(below)}" for _, line, below in fields if line not in shown)
    rest, lines = re.sub(' title="[^"]*"', "", rest), "\n".join(shown)  # Titles would make a page half as large again.
    return f"<details><summary>{lines}</summary>{rest}</details>" if rest else f"<div>{lines}</div>" * bool(fields)


class Names:
    """The names and the signs of a text, in HTML. A name is a link to where the file that has the text leads it."""

    def __init__(self, path, where, text, given="", leads=(), own=""):
        self.where, self.own, self.leads, self.named = where, own, {**names_in(path), **dict(leads)}, set()
        self.bound = bound_in(text, BOUND)
        self.known = {*NAME.findall(given), *self.bound, *bound_in(text, GIVEN), *OWN_WORDS}

    def target(self, name):
        """Returns where a name leads. One that the text binds leads nowhere."""
        found = "" if name in self.bound else self.leads.get(name, "")
        return path_of(*found) if isinstance(found, tuple) else found

    def name(self, whole):
        """Returns a name in HTML. Of `K.Eq.laws.refl`, as much is a link as leads somewhere."""
        parts = whole.split(".")
        ends = range(len(parts), 1, -1) if re.fullmatch("[A-Z]|Self", parts[0]) else ()
        keys = {whole: whole, **{".".join(parts[:end]): f".{parts[end - 1]}" for end in ends}, parts[0]: parts[0]}
        word = next((it for it, key in keys.items() if key in self.leads), "")
        path = self.target(keys.get(word, ""))
        is_letter = not ends and re.fullmatch(r"[A-Za-z][\d'₀-₉]*", parts[0])
        if not path and not word and parts[0] not in ({"Self"} if ends else self.known) and not is_letter:
            FAULTS.append(f"{self.where}: `{whole}` leads nowhere")
        if not path or path == self.own:
            return whole
        self.named.add(path)
        told = definition(path)[0] or rows().get(path.removeprefix("contracts#"), "")
        return f'<a href="@{path}" title="{html.escape(told)}">{word}</a>{whole[len(word) :]}'

    def token(self, found):
        """Returns a name, a sign or a comment in HTML."""
        if not found["comment"] and not found["sign"]:
            return self.name(found[0])
        if found["sign"] and found[0].strip("◌") not in rows():
            FAULTS.append(f"{self.where}: contracts.md has no `{found[0]}`")
        return html.escape(found[0], quote=False)

    def line(self, line):
        """Returns a line in HTML, in which a label has a place of its own, and leads to its meaning."""
        opening = OPENING.match(line)
        rest, label = TOKEN.sub(self.token, line[opening.end() :]), opening[2]
        if not label or opening[1] == "ghost":
            return opening[0] + rest
        meaning = html.escape(rows(True).get(label, "").replace("`", ""))
        place = f"requires-{label}" if opening[1] == "requires" else label
        target = f' href="@contracts#{label}" title="{meaning}"' if meaning else ""
        return f'{opening[0][: -len(label)]}<a class="label" id="@{place}"{target}>{label}</a>{rest}'

    def fields(self, formula, above="", shared={}):
        """Returns of each field of a record if it says what a whole value is, its line, and its own fields."""
        name, *arguments = WORD.findall(inner(formula)) or [""]
        path, found = self.target(name), []
        _, text, file = definition(path)
        _, is_record, own = text.partition(f"pub record {name} ")
        names = parameters(name, text) if is_record and path[:5] != "std::" else []
        if unsaid := len(names) - len(arguments):  # Within a module its parameters are not written.
            arguments = [*map(shared.get, names[:unsaid]), *arguments]
        if names and len(names) == len(arguments) and None not in arguments:
            given = dict(zip(names, arguments))
            leads = {it: self.leads[it] for it in NAME.findall(formula) if it in self.leads}
            names = Names(file, self.where, text, " ".join([formula, *self.known]), leads)
            for label, told, comment in FIELD.findall(own):
                line = comment or f"{above}{label} : {TOKEN.sub(names.token, put_in(told, given))}"
                is_whole = bool(match := WHOLE.fullmatch(told)) and match[1] in given
                below = names.fields(put_in(told, given), f"{above}{label}.", given) if told else []
                found.append((is_whole, line, below))
        return found

    def block(self, text, told=""):
        """Returns a text in HTML. Above a clause is what it says, and below it are the fields of its record."""
        text = textwrap.dedent(text).strip("\n")
        made = [self.line(it) for it in text.splitlines()]
        for clause in CLAUSE.finditer(text):
            formula, is_first = braced(text, clause.end()), text.find("ensures") in range(*clause.span())
            words = said(formula, lambda it: definition(self.target(it)))
            if not words or words == said(formula, lambda _: ("", "", "")):  # The clause read aloud says as much.
                words = told if is_first else ""
            words = re.sub("`(.*?)`", r"<code>\1</code>", html.escape(words[:1].upper() + words[1:], quote=False))
            first, last = (text.count("\n", 0, it) for it in (clause.start(), closing(text, clause.end())))
            made[first] = f'<span class="said">{words.rstrip(".")}.</span>\n' * bool(words) + made[first]
            if below := details(self.fields(formula)):
                made[last] += f'</pre><div class="fields">{below}</div><pre>'
        return f"<pre>{chr(10).join(made)}</pre>" if text else ""


class Block:
    """A contract, or a definition with its own path: its HTML, the paths that it names, and its place on the site."""

    def __init__(self, path, line, title, text, given="", own="", told=""):
        self.path, self.title, self.own, self.where = path, title, own, f"{path}:{line}: {title}"
        self.place, self.mark = "", f'\n<div class="contract">{len(BLOCKS)}</div>\n'
        names, (first, _, folded) = Names(path, self.where, text, given, (), own), text.partition(f"// {FOLLOWS}\n")
        self.names, self.html = names.named, names.block(first, told)
        if folded:
            self.html += f'<details class="follows"><summary>{FOLLOWS}</summary>{names.block(folded)}</details>'
        BLOCKS.append(self)
