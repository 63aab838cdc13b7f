"""Holds the manual pages to what mandoc asks of them, if mandoc is there. That of the program has each fault and each message
of the tables in docs/formats.md, and the value of each option in the form that help shows. That of the library has the
functions and the statuses of its header. Those of the tools are made by tools/manual_pages."""

import re
import shutil

from checking import TOP, Room, checks_of, lines_with, parts_of
from library_header import declared_functions, declared_statuses, read_header, type_of

TOOLS = [f"cgrlist-{name}.1" for name in ("check", "compare", "from-ionrc", "latest", "report", "timeline", "timetable")]
# Pages that aren't installed aren't found, and the version stands in .Os, where mandoc wants none in a system's own.
NO_FAULT = " referenced manual not found: | explicitly specified: Os "


def read(name):
    with open(f"{TOP}/docs/{name}", encoding="utf-8") as file:
        return file.read()


def of_the_program(room):
    if shutil.which("mandoc"):
        yield "mandoc has nothing to say", "", lambda: lines_with(
            f"^(?!.*({NO_FAULT}))", room.run("mandoc -T lint docs/cgrlist.1 docs/cgrlist.3", [f"{room.path}/{name}" for name in TOOLS]).out)
    else:
        print("manual: mandoc is left out, it is not here")
    page, formats = read("cgrlist.1"), read("formats.md")
    cells = parts_of(r"^\| (`[A-Z][a-z][A-Za-z]+`(?:, `[A-Z][A-Za-z]+`)*)", formats)
    messages = re.findall(r"^\| `cgrlist: .*", formats, re.M)
    for what, names, least in (
        ("fault", set(re.findall("[A-Z][A-Za-z]+", cells)), 21),
        ("message", {it for it in re.findall("cgrlist: [^`]+", "\n".join(messages)) if not re.search("REASON|FAULT", it)}, 9),
    ):
        yield f"there are {what}s", least, lambda: min(len(names), least)
        yield f"each {what} has its place", [], lambda: [it for it in sorted(names) if not re.search(rf"\b{re.escape(it)}\b", page)]


def in_page(form):
    """The form of a value in the program's help, as the page has it."""
    return re.sub(r"^([a-z]+),\1\.\.$", r"\1 , Ns Ar ...", form.lower())


def of_the_options(_):
    """The page of the program names values as the table of words does."""
    page, words = read("cgrlist.1"), re.findall(r'name: "(.*)",\s+form: "(.*)"', read("../crates/commands/src/words/table.rt"))
    entries = re.split(r"^\.It ", page.partition(".Ss Options")[2].partition(".Sh ")[0], flags=re.M)
    yield "there are words with values", 10, lambda: min(len(words), 10)
    for name, form in words:
        value = rf"\bAr {re.escape(in_page(form))}(?! , Ns)( ,|$)"
        yield f"the options have --{name} {form}", [], lambda: [] if any(
            f"Fl -{name} Ar " in it and re.search(value, it, re.M) for it in entries) else [it for it in entries if f"Fl -{name}" in it]
    named = set(re.findall(r"\bFl -([a-z-]+) Ar ([a-z]+(?: , Ns Ar \.\.\.)?)", page))
    yield "each option has one value in all places", sorted(name for name, _ in words), lambda: sorted(name for name, _ in named)


def of_the_library(room):
    """Its page has the functions and the statuses of the header."""
    page, functions = read("cgrlist.3"), declared_functions(read_header())
    shown = re.sub(r"\.Fo (\w+)\n((?:\.Fa .*\n)+)\.Fc", lambda it: ".Fn " + it[1] + it[2].replace("\n.Fa", "")[3:].rstrip(), page)
    synopsis = shown.partition(".Sh DESCRIPTION")[0]
    for name, (taken, kind) in functions.items():
        macros = re.search(rf"^\.Ft (.*)\n\.Fn {name} (.*)$", synopsis, re.M)
        given = [] if not macros or macros[2] == "void" else re.findall('"([^"]*)"', macros[2])
        yield f"the synopsis has {name}", (kind, taken), lambda: (macros and macros[1], [type_of(it) for it in given])
    statuses = [f"CGRLIST_{it}" for it in declared_statuses(read_header())]
    yield "each status has its place", [], lambda: [
        it for it in statuses if not re.search(rf"\b{it}\b|^\.It Dv CGRLIST_{it.split('_')[1]}_\.\.\.$", page, re.M)]


def of_the_tools(room):
    for name in TOOLS:
        page = room.read(name)
        lines = "\n".join(line for line in page.splitlines() if '.\\"' not in line)
        yield f"{name} names installed commands", "", parts_of, r"(?:tools/|\.\.?/)[a-z_]+", lines
        yield (f"{name} has what is asked of a page", "NAME\nSYNOPSIS\nDESCRIPTION\nEXIT STATUS\nEXAMPLES\nSEE ALSO",
               parts_of, r"^\.Sh (NAME|SYNOPSIS|DESCRIPTION|EXIT STATUS|EXAMPLES|SEE ALSO)$", page)
        options = re.findall(r'^\.It Ic "(-[^ "]+)', page, re.M)
        yield f"{name} explains each option once", sorted(set(options)), lambda: sorted(options)


def checks(_):
    room = Room()
    room.run("tools/manual_pages", [room.path])
    return checks_of("manual", room, [of_the_program, of_the_options, of_the_library, of_the_tools])
