"""Makes the site by rustdoc from the Rust forms, writes contracts and true sources to it, and checks it."""

import html
import itertools
import os
import re
import shutil
import tempfile

from rattle import DEFINED, files, read, run, sources, specs, write
from reference.contracts import BLOCKS, FAULTS
from reference.forms import definition_form, definitions_of_std, doc, found_by, rust_of
from reference.names import rows

HERE = os.path.dirname(os.path.abspath(__file__))
# The crate that stands for std.
STD = "rattle_std"
FLAGS = "-Ldependency=. --edition=2021 -Zunstable-options '-Zcrate-attr=feature(allocator_api, lazy_type_alias)'"
# The lints of rustdoc that must find nothing.
DENIED = "-Dmissing_docs -Drustdoc::broken_intra_doc_links -Drustdoc::invalid_html_tags"
# The place of a call or an impl on a page, or of a contract.
PLACE = re.compile(r' id="((?:ty)?method\.[^"]+|impl-[^"]+)"|<div class="contract">(\d+)</div>')
# Where the files that guides lead to are on the site, if they have no page of their own.
COPIED = {}
# What rustdoc calls the definitions.
CONSTANT = re.compile(r'(?<=[>"])Constant(?=s?[ <"])')


def build(crate, work, out):
    """Makes what the crates above need of a crate, and its pages."""
    version = re.search(r"Version \d+", read("CHANGELOG.md"))[0].lower()
    version += ", " + run("git rev-parse --short=8 HEAD 2>/dev/null").stdout.strip()
    below = [f"std=lib{STD}", *(f"{it}=lib{it}" for it in itertools.takewhile(crate.__ne__, DEFINED))]
    externs = " ".join(f"--extern={it}.rmeta" for it in below if crate != STD)
    pages = f"rustdoc --extend-css='{HERE}/reference.css' --crate-version='{version}' -o{out} "
    pages += DENIED if crate != STD else "-Arustdoc::all"
    for command in ("rustc --crate-type=lib --emit=metadata -Awarnings", pages):
        of_crate = f"--crate-name={crate} -Cmetadata={crate} {crate}/lib.rt"
        ran = run(f"RUSTC_BOOTSTRAP=1 {command} {FLAGS} {externs} {of_crate}", work)
        if ran.returncode:
            raise SystemExit(f"{ran.stdout}reference: {crate} has the faults above")


def linked(page, guides):
    """Returns the text of a guide, in which links lead to places on the site. Files elsewhere are copied, as texts."""

    def link(found):
        path, sign, anchor = found[2].partition("#")
        path = os.path.relpath(os.path.join(os.path.dirname(page), path)) if path else page
        form, place = path.removeprefix("crates/").replace("/src/", "/"), ""
        if path in guides:
            place = f"vecmap/{guides[path]}/index.html{sign}{anchor}"
        elif form.split("/")[0] in DEFINED and "/proofs/" not in form:
            place = f"src/{form}.html" if "/" in form else f"{form}/index.html"
        elif os.path.isfile(path):
            COPIED[path] = place = f"files/{path.removesuffix('.txt')}.txt"
        return f"[{found[1]}](../../{place})" if place else found[1]

    text = re.sub(r"!\[[^\]]*\]\([^)]*\)\n*", "", read(page)).removeprefix("# ")
    return re.sub(r"\[([^\]]*)\]\((?!\w+:)([^)\s]+)\)", link, text).replace("```rust", "```text")


def own_pages():
    """Returns the modules whose pages are texts: how to read a contract, the guides, and what scripts list."""
    place = lambda row: re.sub(r"`(\.?\w+)`", r'<span id="\1"></span>\g<0>', row[0])
    pages = {
        "contracts": re.sub(r"^\|.*?(?= \|)", place, read(f"{HERE}/contracts.md"), flags=re.MULTILINE),
        "mutants": "Mutants, and what rejects each.\n\n[Only tests](../decisions/index.html#mutants-that-only-tests-"
        f"reject) reject some.\n\n{run('.ci/edits list').stdout}",
        "questions": "What a caller asks after a call, and what is proved.\n\n[PROVING](../proving/index.html#calls-"
        f"and-questions) says what a name or a number means.\n\n{run('.ci/questions list').stdout}",
    }
    guides = files("crates/vecmap/*.md", "docs/*.md", "CHANGELOG.md")
    guides = {path: os.path.basename(path)[:-3].lower() for path in guides}
    pages |= {name: linked(path, guides) for path, name in guides.items()}
    about = {name: f"{found_by(name)}{doc(text)}#[allow(rustdoc::all)]" for name, text in pages.items()}
    return " ".join(f"{it} pub mod {name} {{}}" for name, it in about.items())


def write_forms(work):
    """Writes the Rust forms of all crates. Returns the path of each source by that of its form."""
    paths = (path for crate in DEFINED for path in [*sources(crate), *specs(crate)])
    made = {path.removeprefix("crates/").replace("/src/", "/"): path for path in paths}
    for form, path in made.items():
        text = (definition_form if "/specs/" in path else rust_of)(path)
        if form == "vecmap/lib.rt":  # The guide is below the comment, and the pages are on the last line.
            at = re.match(r"(?://!.*\n)*", text).end()
            text = f"{text[:at]}#!{doc(read(f'{HERE}/front.md'))[1:]}{text[at:].rstrip()}{own_pages()}\n"
        write(f"{work}/{form}", text + '#[path = "specs/Lib.antt"] pub mod specs;\n' * form.endswith("/lib.rt"))
    write(f"{work}/{STD}/lib.rt", read(f"{HERE}/std.rs") + definitions_of_std())
    return made


def true_source(page, path):
    lines = html.escape(read(path), quote=False).splitlines()
    lines = (re.sub(r"^( *(?://|--).*)", r'<span class="comment">\1</span>', it) for it in lines)
    lines = (f"<a href=#{at} id={at} data-nosnippet>{at}</a>{it}\n" for at, it in enumerate(lines, 1))
    return re.sub(r'(?<=<pre class="rust"><code>).*?(?=</code></pre>)', lambda _: "".join(lines), page, flags=re.DOTALL)


class Pages:
    """The pages of the site, by their paths, and where they lead."""

    def __init__(self, out):
        self.texts = {os.path.relpath(it, out): read(it) for it in files(f"{out}/**/*.html")}
        self.targets = {f"contracts#{it}": f"vecmap/contracts/index.html#{it}" for it in {*rows(), *rows(True)}}
        by_crate = lambda it: (not it.startswith("vecmap/"), it.count("/"), it)
        for page in sorted(self.texts, key=by_crate):  # The first page that has a type or a contract is its place.
            if found := re.fullmatch(r"(\w+)/.*\b(?:struct|enum|trait|type)\.(\w+)\.html", page):
                self.targets.setdefault(f"{found[1]}::{found[2]}".replace(STD, "std"), page)
            place = page
            for found in PLACE.finditer(self.texts[page]):
                place = f"{page}#{found[1]}" if found[1] else place
                if found[2]:
                    BLOCKS[int(found[2])].place = BLOCKS[int(found[2])].place or place
        self.targets |= {it.own: it.place for it in BLOCKS if it.own and it.place}

    def target(self, path):
        """Returns the page and the place of a path. A type of Rust is sought in Rust's documentation."""
        if path in self.targets or "::specs::" in path:
            return self.targets.get(path, path)
        crate, name, *variant = path.split("::")
        elsewhere = f"https://doc.rust-lang.org/std/?search={name}" if crate == "std" else path
        return "#variant.".join([self.targets.get(f"{crate}::{name}", elsewhere), *variant])

    def fill(self, page):
        """Returns the text of a page with its contracts, and below a definition what names it."""
        text, place, own = self.texts[page], "", ""
        relative = lambda target: target if "://" in target else os.path.relpath(target, os.path.dirname(page))
        for mark, anchor, number in ((it[0], it[1], it[2]) for it in PLACE.finditer(text)):
            if anchor:
                place = f"{anchor}."
            else:
                own, made = BLOCKS[int(number)].own, BLOCKS[int(number)].html.replace('id="@', f'id="{place}')
                made = re.sub(r'href="@([^"]*)', lambda it: f'href="{relative(self.target(it[1]))}', made)
                text = text.replace(mark, f'<div class="contract">{made}</div>' if made else "", 1)
        how = f'<a class="how" href="{relative("vecmap/contracts/index.html")}">how to read it</a>'
        text = re.sub(r'(<h\d id="contract(?:-\d+)?">.*?)(?=</h\d>)', rf"\1 {how}", text)
        named = {"Calls": "", "Laws": "", "Definitions": ""}
        for it in (it for it in BLOCKS if it.place and own in it.names):
            kind = "Definitions" if it.own else "Laws" if re.search("[/_]laws[/.]", it.path) else "Calls"
            named[kind] += f'<li><a href="{relative(it.place)}"><code>{html.escape(it.title)}</code></a></li>'
        made = "".join(f'<h3>{kind}</h3><ul class="named-in">{some}</ul>' for kind, some in named.items() if some)
        made = f'<h2 class="section-header">Named in</h2>{made}' if made else ""
        return CONSTANT.sub("Definition", text).replace("</section></div></main>", f"{made}</section></div></main>")


def link_faults(texts, out):
    places = {page: {html.unescape(it) for it in re.findall(r' id="?([^" >]+)', text)} for page, text in texts.items()}
    for page, text in texts.items():
        for target in dict.fromkeys(re.findall(r' (?:href|src)="?(?!\w+:(?!:))([^" >]+)', text)):
            path, _, anchor = html.unescape(target).partition("#")
            file = os.path.normpath(os.path.join(os.path.dirname(page), path.split("?")[0])) if path else page
            names = {anchor, *re.findall(r"^\d+(?=-\d+$)", anchor)}
            if not os.path.exists(f"{out}/{file}") or anchor and file in places and not names & places[file]:
                yield f"reference: {page} has the link {target}, which leads nowhere"


def make(work, out):
    """Makes the forms in one folder and the site in another. Returns the faults."""
    forms = write_forms(work)
    build(STD, work, out)
    for crate in DEFINED:
        index = shutil.copytree(f"{out}/search.index", f"{work}/{crate}.index")
        build(crate, work, out)
        if crate in ("vecmap_map", "vecmap_set"):  # A search finds what `vecmap` passes on there alone.
            shutil.rmtree(f"{out}/search.index")
            shutil.move(index, f"{out}/search.index")
    write(f"{out}/index.html", '<meta http-equiv="refresh" content="0; url=vecmap/index.html">')
    for path, place in COPIED.items():
        write(f"{out}/{place}", read(path))
    pages = Pages(out)
    texts = {page: pages.fill(page) for page in pages.texts}
    texts |= {f"src/{form}.html": true_source(texts[f"src/{form}.html"], path) for form, path in forms.items()}
    for page, text in texts.items():
        write(f"{out}/{page}", text)
    for page in files(f"{out}/static.files/[ms]*.js"):
        write(page, CONSTANT.sub("Definition", read(page)).replace('type","constant"', 'type","definition"'))
    for page in files(f"{out}/static.files/search-*.js"):  # Names in their own case first; of equal ones those of maps.
        text = read(page).replace("if(isMixedCase){a=", "{a=")
        text = text.replace("foundElems===0?(async function*(){})()", "foundElems===0?innerRunNameQuery(currentCrate)")
        rank = "Number(!!{0}i.traitParent)-2*['VecSet','VecMap'].indexOf({0}i.parent?.name)"
        sides = "".join(f"{it}={rank.format(it * 2)};" for it in "ab")
        write(page, text.replace("a=Number(aai.ty);", f"{sides}if(a!==b){{return a-b;}}a=Number(aai.ty);"))
    # Nobody else can name the trait `Predicate`.
    lost = [f"{it.where} is not on the site" for it in BLOCKS if not it.place and not it.title.startswith("Predicate")]
    asked = run(f"node '{HERE}/search.js' {out}").stdout.splitlines() if shutil.which("node") else []
    return [*FAULTS, *lost, *asked, *link_faults(texts, out)]


def check(folder):
    """Makes the site in a folder, which must not be there."""
    with tempfile.TemporaryDirectory() as work:
        faults = make(f"{work}/forms", f"{work}/site")
        if not faults:
            shutil.copytree(f"{work}/site", folder, ignore=shutil.ignore_patterns(".lock"))
    return faults, f"reference: {len(faults)} faults" if faults else f"Open {folder}/index.html"
