"""Tests the C library, which library/build makes; with --library, that of another folder.

    header      the header compiles as C and C++ without a warning, and declares what the sources of the crate state: the
                exports with their types, the statuses, the limits, and each struct with its layout
    answers     what the program prints, and what follows from the listing of all routes: tests/library_answers.py
    refusals    each status, and that nothing has changed after it: tests/library_refusals.py
    nulls       NULL in place of plans, listings, buffers and outputs
    threads     calls with a const plan in several threads, also under helgrind and the compiler's sanitizer of threads
    closed      the use of what was closed, which the library for debugging notices
    memory      each allocation refused in turn
    growing     ranges that are added one by one, and wait for their place
    fuzzed      drawn calls with drawn plans and texts, by seeds; under valgrind, and under the compiler's sanitizers
    examples    the programs of examples/, in C and in Rust
    wrapped     the wrappers for C++, Rust and Python

tests/library/calls.c makes the calls that a text names; its comment says how. This needs a C compiler.
"""

import os
import re
import shutil

import library_header as header
from checking import TOP, VERSION, Room, checks_of, unlike
from library_answers import drawn_plans, larger_plans
from library_refusals import LISTED, REFUSED, names, refusals, rows_of, texts
from trial import Broken

ABI = header.abi()
SHARED = f"libcgrlist.so.{ABI}"
FUZZED = {"plain": 1000, "valgrind": 15, "sanitizers": 200}  # plans of each run
WARNINGS = "-Wall -Wextra -Wpedantic -Wshadow -Wconversion -Werror"
SANITIZERS = "-fsanitize=address,undefined -fno-sanitize-recover=all"


def has(*commands):
    return all(map(shutil.which, commands))


class Calling(Room):
    """The library, and a program that calls it."""

    def __init__(self, asked):
        super().__init__()
        self.program = asked.program("cgrlist")
        self.folder = os.path.realpath(asked.programs.get("library") or self.built())
        self.header = header.read_header()
        self.names = {str(value): name for name, value in header.declared_statuses(self.header).items()}
        self.calling = self.compiled("calls", "calls.c")

    def built(self):
        ran = self.run("library/build")
        if ran.status:
            raise Broken(f"there is no library: {ran.err}")
        return f"{TOP}/library/out"

    def compiled(self, name, source, further="", compiler="cc", library="libcgrlist.a"):
        """The path of a program that is compiled of a source of tests/library, with the static library."""
        words = f"{compiler} -std=c11 -D_GNU_SOURCE -g -O1 -Wall -Wextra -Wpedantic -Ilibrary {further} -o"
        archive = [f"{self.folder}/{library}"]
        ran = self.run(words, [f"{self.path}/{name}", f"tests/library/{source}"], archive)
        assert not ran.all(), ran.all()
        return f"{self.path}/{name}"

    def transcript(self, calls, *words):
        """What the calls of a text return, with the names of the statuses."""
        ran = self.run([self.calling, *words], given=calls, at=self.path)
        named = re.sub(r"^status (\d+)$", lambda it: self.names.get(it[1], it[0]), ran.out, flags=re.M)
        named = re.sub(r"^(refused.*: )CGRLIST_FAULT_(\w+)$", lambda it: it[1] + header.word_of(it[2]), named, flags=re.M)
        return named + ran.err + (f"ended with {ran.status}\n" if ran.status else "")

    def answers(self, calls, *words):
        """What each call returns, in a list, without the calls themselves."""
        parts = re.split(r"^> .*\n", self.transcript("".join(f"{it}\n" for it in calls), *words), flags=re.M)
        return parts[1:]

    def asked(self, command, **files):
        """What a command of the program prints. Each further name is an option for a file, and its text."""
        words = [word for name, text in files.items() for word in (f"--{name}", self.file(name, text))]
        ran = self.run([self.program], command, words, at=self.path)
        return ran.out if ran.status in (0, 1) else ran.all()


# ---- The header -------------------------------------------------------------------------------------------------


def the_header(room):
    text, source = room.header, header.read_sources()
    room.file("it.c", '#include "cgrlist.h"\nint main(void) { return 0; }\n')
    shutil.copy(f"{room.path}/it.c", f"{room.path}/it.cpp")
    for compiler, standards, name in (("gcc", "c99 c11 c17", "it.c"), ("clang", "c99 c11 c17", "it.c"),
                                      ("g++", "c++11 c++17 c++20", "it.cpp"), ("clang++", "c++11 c++17 c++20", "it.cpp")):
        for standard in standards.split() if has(compiler) else ():
            yield f"{compiler} takes the header as {standard}", "", lambda: room.run(
                f"{compiler} -std={standard} {WARNINGS} -fsyntax-only -I{TOP}/library {name}", at=room.path).all()
    inner = header.read_header(header.PROVED)
    declared, stated = header.declared_functions(inner), header.stated_functions(source)
    pairs = header.pairs_of_structs(declared, stated)
    yield "each struct of an export is one of the headers", [], lambda: sorted(
        f"{rust}: {', '.join(sorted(c))}" for rust, c in pairs.items() if len(c) != 1)
    yield "the exports are what proved.h declares", declared, header.named_as_in_c, stated, pairs
    statuses = {name: value for name, value in header.declared_statuses(text).items() if name not in header.OUTER}
    yield "the statuses are the header's", statuses, lambda: {
        name: value for name, value in header.stated_statuses(source).items() if name not in header.INNER}
    limits = header.stated_limits()
    yield "the limits are the header's", header.declared_limits(text), lambda: {
        name: limits.get(name) for name in header.declared_limits(text)}
    structs = {next(iter(c)): header.stated_structs(source).get(rust) for rust, c in pairs.items()}
    structs[header.HANDLE] = header.stated_handle(source)
    wanted = {name: members for name, members in header.declared_structs(text + inner).items() if name != header.REQUEST}
    yield "each struct has the members of the header", wanted, lambda: structs
    yield "each struct has the layout of Rust's", "", lambda: room.run(
        f"cc -std=c11 -fsyntax-only -I{TOP}/library", [room.file("layouts.c", header.assertions(wanted))]).all()
    shims = header.functions_of(f"{TOP}/library/shims.c")
    yield "each shim has at most 13 lines", {}, lambda: {name: lines for name, lines in shims.items() if lines > 13}


def the_libraries(room):
    names = sorted(header.declared_functions(room.header))
    shared = f"{room.folder}/{SHARED}"
    yield "the shared library has the functions of the header and no others", names, lambda: sorted(
        re.findall(rf" T (\w+)@@CGRLIST_{ABI}$", room.run("nm -D --defined-only", [shared]).out, re.M))
    yield "the static library, too", names, lambda: sorted(
        re.findall(r" [A-Z] (\w+)$", room.run("nm -g --defined-only", [f"{room.folder}/libcgrlist.a"]).out, re.M))
    yield "the shared library has its name", SHARED, lambda: re.findall(
        r"soname: \[(.*)\]|$", room.run("readelf -d", [shared]).out)[0]
    yield "it is one with the link's", os.stat(shared).st_ino, lambda: os.stat(f"{room.folder}/libcgrlist.so").st_ino
    room.file("v.c", '#include "cgrlist.h"\n#include <stdio.h>\nint main(void) { '
              'printf("%s %d\\n", cgrlist_version(), cgrlist_abi() == CGRLIST_ABI); return 0; }\n')
    ran = room.run(f"cc -I{TOP}/library v.c -o v", [f"-L{room.folder}", f"-Wl,-rpath,{room.folder}", "-lcgrlist"], at=room.path)
    yield "a program links to it", "", ran.all
    yield "the versions are one", f"{VERSION} 1\n", lambda: room.run(["./v"], at=room.path).out
    if has("c++"):
        room.file("v.cpp", room.read("v.c"))
        ran = room.run(f"c++ -I{TOP}/library v.cpp -o v++", [f"{room.folder}/libcgrlist.a"], at=room.path)
        yield "a program in C++ links to the static one", ("", f"{VERSION} 1\n"), lambda: (
            ran.all(), room.run(["./v++"], at=room.path).out)


# ---- Memory, and drawn calls ------------------------------------------------------------------------------------


def refused_memory(room):
    relay = f"{TOP}/examples/relay.txt 31 1 1893458700"
    wrapped = "-Wl,--wrap=malloc,--wrap=realloc"
    refuse = room.compiled("refuse", "refuse.c", wrapped)
    calls = ("read", "new", "best", "first", "open", "load", "next", "text", "plan text", "canonical text", "copy", "verify",
             "add contact", "add range", "add in turn", "delete contact", "delete range", "renumber", "add contacts", "add ranges",
             "nodes", "prepare", "best each", "delete number", "place", "back", "loaded next", "loaded back", "loaded text",
             "contact at", "range at", "greatest")
    ran = room.run([refuse], relay)
    yield "nothing is lost", "", lambda: ran.err
    for call in calls:
        yield f"each allocation of {call} refused", f"{call}: good", lambda: re.sub(
            "[0-9]+ refused", "good", "".join(re.findall(f"^{call}: .*$", ran.out, re.M)))
    for call in ("read", "first", "open", "load", "next", "plan text", "canonical text", "copy", "add in turn", "renumber",
                 "add contacts", "nodes", "prepare", "loaded next", "loaded back", "loaded text"):
        yield f"{call} takes memory", "", lambda: unlike(r"[1-9]\d*", "".join(re.findall(rf"^{call}: (\d+) refused$", ran.out, re.M)))
    for call in ("place", "back", "contact at", "range at", "greatest"):
        yield f"{call} does not allocate", [f"{call}: 0 refused"], lambda: re.findall(f"^{call}: .*$", ran.out, re.M)
    if has("valgrind"):
        yield "no memory leaks", "", lambda: room.run("valgrind -q --leak-check=full --error-exitcode=7", [refuse], relay).err


def nulls(room):
    program, relay = room.compiled("nulls", "nulls.c"), f"{TOP}/examples/relay.txt"
    yield "what may be NULL", "done", lambda: room.run([program, relay]).all()
    if has("valgrind"):
        yield "no memory leaks where nothing is wanted", "", lambda: room.run(
            "valgrind -q --leak-check=full --error-exitcode=7", [program, relay]).err


def threads(room):
    program, relay = room.compiled("threads", "threads.c", "-pthread"), f"{TOP}/examples/relay.txt"
    yield "calls in several threads", "200 of 200", lambda: room.run([program, relay]).all()
    if has("valgrind"):
        yield "no two of them race", "", lambda: room.run("valgrind -q --tool=helgrind --error-exitcode=7", [program, relay]).err
    for compiler in filter(has, ("gcc", "clang")):
        try:
            checked = room.compiled(f"threads-{compiler}", "threads.c", "-pthread -fsanitize=thread", compiler)
        except AssertionError:
            print(f"note: {compiler} has no sanitizer of threads")
            continue
        yield f"no two of them race, by {compiler}", "200 of 200", lambda: room.run([checked, relay]).all()


def growing(room):
    program = room.compiled("growing", "growing.c")
    for seed in (1, 2, 3):
        yield f"ranges that wait for their place, by seed {seed}", "3000 of 3000 additions, all plans", lambda: re.sub(
            r"(\d+) of \1 plans", "all plans", room.run([program, str(seed)]).all())


def closed(room):
    if not os.path.exists(f"{room.folder}/libcgrlist-debug.a"):
        print("note: this library has none for debugging")
        return
    program = room.compiled("closed", "closed.c", library="libcgrlist-debug.a")
    yield "nothing is used after it was closed", "done", lambda: room.run([program]).all()
    for what, wanted in (("plan", "cgrlist_plan_counts: it was closed before\n"), ("twice", "cgrlist_plan_close: it was closed before\n"),
                         ("listing", "cgrlist_listing_back: it was closed before\n"),
                         ("copied", "cgrlist_plan_counts: it is a copy, or none of the library's\n"),
                         ("copied-listing", "cgrlist_listing_place: it is a copy, or none of the library's\n")):
        yield f"use after it was closed: {what}", wanted, lambda: room.run([program, what]).err


def fuzzed(room):
    fuzz = room.compiled("fuzz", "fuzz.c")
    yield "drawn calls", "status 0", lambda: ended(room.run([fuzz, str(FUZZED["plain"]), "1"]))
    if has("valgrind"):
        yield "drawn calls under valgrind", "status 0", lambda: ended(
            room.run("valgrind -q --leak-check=full --error-exitcode=7", [fuzz, str(FUZZED["valgrind"]), "2"]))
    for compiler in filter(has, ("gcc", "clang")):
        try:
            checked = room.compiled(f"fuzz-{compiler}", "fuzz.c", SANITIZERS, compiler)
        except AssertionError:
            print(f"note: {compiler} has no sanitizers")
            continue
        yield f"drawn calls under the sanitizers of {compiler}", "status 0", lambda: ended(
            room.run([checked, str(FUZZED["sanitizers"]), "3"]))
    if has("valgrind"):
        calls = "".join(f"{it[0]}\n" for table in (REFUSED, LISTED) for it in rows_of(table))
        yield "the refused calls under valgrind", "", lambda: room.run(
            "valgrind -q --leak-check=full --error-exitcode=7", [room.calling, "--kept"],
            given=f"plan_read a.txt\n{calls}plan_close\n", at=room.path).err


def ended(ran):
    return f"{ran.err}status {ran.status}"


# ---- Examples ---------------------------------------------------------------------------------------------------

# The first two routes of examples/README.md, the second of which takes another first contact: 02:47:22 and 06:27:22.
ASKED = "31 1 1893458700"
ROUTER = """\
to node 22 first, there at 1893466042, over 4 11 2
contact 4 is lost
to node 21 first, there at 1893479242, over 5 12 2"""
RENEWED = """
with new numbers:
to node 21 first, there at 1893479242, over 4 10 2"""


def examples(room):
    """The programs of examples/, by pkg-config and by rustc alone."""
    os.makedirs(f"{room.path}/pkgconfig", exist_ok=True)
    room.file("pkgconfig/cgrlist.pc", f"""Name: cgrlist
Description: a test
Version: 1
Cflags: -I{TOP}/library
Libs: -L{room.folder} -lcgrlist
""")
    words = [f"{TOP}/examples/relay.txt", *ASKED.split()]
    further = {"LD_LIBRARY_PATH": room.folder, "PKG_CONFIG_PATH": f"{room.path}/pkgconfig"}
    if has("pkg-config"):
        made = f"cc -Wall -Wextra {TOP}/examples/router.c $(pkg-config --cflags --libs cgrlist) -o router"
        yield "examples/router.c is compiled", "", lambda: room.run("sh -c", [made], at=room.path, **further).all()
        yield "examples/router.c answers", ROUTER + RENEWED, lambda: room.run(["./router", *words], at=room.path, **further).all()
        if has("valgrind"):
            yield "examples/router.c leaks nothing", "", lambda: room.run(
                "valgrind -q --leak-check=full --error-exitcode=7 ./router", words, at=room.path, **further).err
    with open(f"{TOP}/docs/cgrlist.3", encoding="ascii") as file:
        page = file.read()
    shown = re.search(r"^\.Bd -literal.*\n((?:.*\n)*?)\.Ed$", page, re.M)[1].replace(r"\e", "\\")
    ran = room.run(f"cc -Wall -Wextra -I{TOP}/library", [room.file("page.c", shown), f"{room.folder}/libcgrlist.a"], "-o page", at=room.path)
    yield "the manual page's program is compiled", "", ran.all
    yield "it prints what the page says", re.search(r"^\.Ql (.*) \.$", page, re.M)[1], lambda: room.run(["./page"], at=room.path).all()
    if has("rustc"):
        yield "examples/router.rs is compiled", "", lambda: room.run(
            "rustc --edition 2024 -O", [f"{TOP}/examples/router.rs", "-L", room.folder, "-o", "router-rs"], at=room.path).all()
        yield "examples/router.rs answers", ROUTER, lambda: room.run(["./router-rs", *words], at=room.path, **further).all()


# What wrapped.cpp, wrapped.rs and wrapped.py ask over relay.txt: the best route and the first two; the hops and the fault of a part
# of it; its first contact is lost; the best route then, and the third of a listing that was open before, with a page back; the
# plan's texts and copy; a renumbered copy, its nodes, and the best routes to three destinations; records added to the copy; two session
# texts; an empty plan; a session text of the plan before, an array with a bad record, and a bad line.
WRAPPED = """\
1893466042 1893464400 22 4 11 2
1893466042 1893464400 22 4 11 2
1893479242 1893467940 21 5 12 2
2 CGRLIST_FAULT_WRONG_END
4
1893479242 1893467940 21 5 12 2
1893479242 1893474720 21 6 12 2
12
1 21 19 14 6 1228
15 1 6 1893479242 21 3 16 17
16 15
10
1 0
CGRLIST_SESSION_OTHER_PLAN 0
CGRLIST_EMPTY_WINDOW 1
CGRLIST_LINE_UNKNOWN_COMMAND 1"""


def wrapped(room):
    """The wrappers for C++, Rust and Python say the same."""
    relay, further = f"{TOP}/examples/relay.txt", {"LD_LIBRARY_PATH": room.folder}
    for compiler in filter(has, ("g++", "clang++")):
        words = f"{compiler} -std=c++17 {WARNINGS} -I{TOP}/library {TOP}/tests/library/wrapped.cpp -L{room.folder} -lcgrlist -o {compiler}-wrapped"
        yield f"{compiler} takes cgrlist.hpp", "", lambda: room.run(words, at=room.path).all()
        yield f"cgrlist.hpp, by {compiler}", WRAPPED, lambda: room.run([f"./{compiler}-wrapped", relay], at=room.path, **further).all()
    if has("cargo"):
        folder = f"{room.path}/rust"
        shutil.copytree(f"{TOP}/library/rust", folder)
        yield "cargo takes library/rust", "", lambda: room.run(
            "cargo build --offline --quiet --example wrapped", at=folder, CGRLIST_LIB_DIR=room.folder, RUSTFLAGS="-D warnings").all()
        yield "library/rust", WRAPPED, lambda: room.run([f"{folder}/target/debug/examples/wrapped", relay], **further).all()
    shutil.copy(f"{TOP}/tools/cgrlist/libcgrlist.py", room.path)
    shutil.copy(f"{TOP}/tests/library/wrapped.py", room.path)
    yield "libcgrlist.py alone", WRAPPED, lambda: room.run(
        ["python3", "wrapped.py", f"{room.folder}/{SHARED}", relay], at=room.path).all()


def checks(asked):
    if not has("cc"):
        print("note: library is left out, since there is no cc")
        return ()
    if asked.trials and not asked.programs.get("library"):
        print("note: library is left out, since a trial compiles no library; --library names the folder of one")
        return ()
    return checks_of("library", Calling(asked), [
        the_header, the_libraries, refusals, texts, names, nulls, threads, growing, closed, drawn_plans, refused_memory, fuzzed, examples, wrapped, larger_plans])
