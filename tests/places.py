"""Checks that what the documents name is there.

In docs/proofs.md a table's row is about the crate that it names first, as `crate::call`. In the last cell of such a row,
`proofs/..` and `specs/..` must be files or folders of that crate. A bare name there must be a lemma file of it or of a
crate that the cell names. Each law, a function without parameters, must be there.

In each Markdown file, a name in backquotes that begins with a folder of the clone must be a file or a folder, where
`{a,b}` stands for a and for b, and `*` for any name; after a colon, a line of the file. A name `NAME.rt` must be a source
of some crate. A link within the clone must lead to a file or a folder, and to a heading of it.

In docs/architecture.md the table of crates must name for each crate the kit's libraries that crates.txt has. The words
that 'Where to change what' searches for must be words of the sources.

tools/reference must print each spec file, with a comment, and each call with a sentence.
"""

import glob
import os
import re
import subprocess

from checking import TOP, Check

PROOFS = "docs/proofs.md"
ARCHITECTURE = "docs/architecture.md"
DOCUMENTS = ("*.md", "docs/*.md", "examples/*.md", "bench/*.md")
FOLDERS = ("crates/", "docs/", "tests/", "tools/", "bench/", "examples/", "page/", "releasing/")
QUOTED = re.compile(r"`([^`\n]+)`")
CHANGES = "## Where to change what"
SOURCES = ("crates/*/src/**/*.rt", "crates/*/specs/**/*.antt")
LINK = re.compile(r"\]\(([^)\s]*)\)")


def read(path):
    with open(path, encoding="utf-8") as file:
        return file.read()


def places_like(pattern, top):
    """The files and folders of a clone that a pattern matches."""
    return [os.path.relpath(it, top) for it in glob.glob(os.path.join(glob.escape(top), pattern), recursive=True)]


def crates_of(top):
    """The crates that crates.txt lists, each with the libraries that it uses."""
    lines = [line.partition("#")[0].partition(":") for line in read(f"{top}/crates.txt").split("\n")]
    return {left.split()[0]: right.split() for left, colon, right in lines if colon}


def cells_of(line):
    """The cells of a table's row; none of another line."""
    return line[2:-2].split(" | ") if line.startswith("| ") and line.endswith(" |") else []


def rows_of_proofs(text, crates):
    """Each row of docs/proofs.md that is about a crate: its line, that crate, and its last cell."""
    for number, line in enumerate(text.split("\n"), 1):
        cells = cells_of(line)
        named = re.search(r"`(\w+)::", " ".join(cells[:-1]))
        if named and named[1] in crates:
            yield number, named[1], cells[-1]


def places_of_cell(crate, cell, crates):
    """Each name of a cell with the places of which one must be there."""
    named = [crate, *(it for it in QUOTED.findall(cell) if it in crates)]
    for name in QUOTED.findall(cell):
        if name.startswith(("proofs/", "specs/")):
            yield name, [f"crates/{crate}/{name}"]
        elif re.fullmatch(r"[A-Z]\w*", name):
            yield name, [f"crates/{it}/proofs/**/{name}.antt" for it in named]


def missing_laws(text, top):
    """What docs/proofs.md lacks of each law, which is empty if nothing is lacking. Worked rows have one row for all."""
    for place in sorted(it for it in places_like(SOURCES[0], top) if os.path.basename(it) != "rows.rt"):
        for law in re.findall(r"^pub fn (\w+)\(\)$", read(f"{top}/{place}"), re.M):
            yield "" if re.search(rf"\b{law}`", text) else f"lacks the law {law} of {place}"


def spelled_out(name):
    """The names that a name with `{a,b}` stands for."""
    choice = re.search(r"\{([^{}]*)\}", name)
    if not choice:
        return [name]
    front, after = name[: choice.start()], name[choice.end() :]
    return [it for word in choice[1].split(",") for it in spelled_out(front + word + after)]


def quoted_places(text):
    """Each place in backquotes that begins with a folder of the clone, without the words after it, and its line."""
    for number, line in enumerate(text.split("\n"), 1):
        for name in QUOTED.findall(line):
            if name.startswith(FOLDERS):
                yield from ((number, place) for place in spelled_out(name.split()[0]))


def is_there(place, top):
    """Whether there is a file or a folder, and in the file the line that a place names after a colon."""
    path, _, line = place.partition(":")
    return any(not line or line in read(f"{top}/{it}").split("\n") for it in places_like(path, top))


def quoted_sources(text):
    """Each bare `NAME.rt` in backquotes, and its line."""
    for number, line in enumerate(text.split("\n"), 1):
        yield from ((number, name) for name in QUOTED.findall(line) if re.fullmatch(r"\w+\.rt", name))


def wrong_kit_list(line, crates):
    """What is wrong with the kit's libraries in a row of the table of crates; None of a line that is no such row."""
    cells = cells_of(line)
    crate = cells[0].strip("`") if len(cells) == 4 else None
    if crate not in crates:
        return None
    told = sorted(it for it in QUOTED.findall(cells[2]) if it not in crates)
    used = sorted(it for it in crates[crate] if it not in crates)
    return "" if told == used else f"says that {crate} uses {told} of the kit, and crates.txt says {used}"


def searched_words(text):
    """Each word that 'Where to change what' searches for, and its line."""
    before, _, after = text.partition(f"\n{CHANGES}\n")
    for number, line in enumerate(after.partition("\n## ")[0].split("\n"), before.count("\n") + 3):
        yield from ((number, word) for word in QUOTED.findall(" ".join(cells_of(line)[1:2])))


def anchors_of(text):
    """The anchors of a document's headings."""
    for heading in re.findall(r"^#+ (.*)$", re.sub(r"^```.*?^```$", "", text, flags=re.M | re.S), re.M):
        yield re.sub(r"[^\w\- ]", "", re.sub(r"\[([^]]*)\]\([^)]*\)", r"\1", heading).lower()).replace(" ", "-")


def wrong_links(document, text, top):
    """Each link of a document within the clone: its line, and what is wrong with it, which is empty if nothing is."""
    for number, line in enumerate(text.split("\n"), 1):
        for link in LINK.findall(line):
            if re.match(r"\w+:", link):
                continue
            place, _, anchor = link.partition("#")
            path = os.path.normpath(os.path.join(top, os.path.dirname(document), place)) if place else f"{top}/{document}"
            if not os.path.exists(path):
                yield number, f"links to {link}, but there is no {os.path.relpath(path, top)}"
            else:
                yield number, f"links to {link}, which has no such heading" if anchor and anchor not in anchors_of(read(path)) else ""


def missing_reference(top):
    """Each spec file and each call: what tools/reference lacks of it, which is empty if nothing is."""
    tool = os.path.join(top, "tools/reference")
    definitions, contracts = (subprocess.run([tool, it], stdout=subprocess.PIPE, text=True, check=True).stdout for it in
                              ("definitions", "contracts"))
    with_comment = set(re.findall(r"^(crates/\S+)\n  \S", definitions, re.M))
    for place in sorted(it for it in places_like(SOURCES[1], top) if os.path.basename(it) != "Lib.antt"):
        yield "" if place in with_comment else f"prints no comment of {place}"
    for call, about in re.findall(r"^    (\w+::\S+): (.*)$", contracts, re.M):
        yield f"prints no sentence about {call}" if about == "-" else ""


def looked_at(top):
    """Whatever is looked at: its document, its line, and what is wrong with it, which is empty if nothing is."""
    crates = crates_of(top)
    texts = {document: read(f"{top}/{document}") for it in DOCUMENTS for document in sorted(places_like(it, top))}
    sources = {os.path.basename(place) for place in places_like(SOURCES[0], top)}
    for number, crate, cell in rows_of_proofs(texts[PROOFS], crates):
        for name, places in places_of_cell(crate, cell, crates):
            there = any(places_like(place, top) for place in places)
            yield PROOFS, number, "" if there else f"names {name}, but there is no {' nor '.join(places)}"
    for wrong in missing_laws(texts[PROOFS], top):
        yield PROOFS, 1, wrong
    for document, text in texts.items():
        for number, place in quoted_places(text):
            yield document, number, "" if is_there(place, top) else f"names {place}, which isn't there"
        for number, name in quoted_sources(text):
            yield document, number, "" if name in sources else f"names {name}, which no crate has"
        for number, wrong in wrong_links(document, text, top):
            yield document, number, wrong
    for number, line in enumerate(texts[ARCHITECTURE].split("\n"), 1):
        wrong = wrong_kit_list(line, crates)
        if wrong is not None:
            yield ARCHITECTURE, number, wrong
    words = {word for pattern in SOURCES for it in places_like(pattern, top) for word in re.findall(r"\w+", read(f"{top}/{it}"))}
    for number, word in searched_words(texts[ARCHITECTURE]):
        yield ARCHITECTURE, number, "" if word in words else f"searches for {word}, which no source has"
    for wrong in missing_reference(top):
        yield "tools/reference", 1, wrong


def checks(_):
    for document, number, wrong in looked_at(TOP):
        place = f"{document}:{number}"
        yield Check(f"places -k {place}", lambda: [f"FAILED: {place} {wrong}" if wrong else ""])
