"""Tries tools/mutations over a crate of a few lines, with a prover that is a script and looks only at words of the source."""

import os
import re
import shutil
import sys

from checking import TOP, Room, checks_of, script_of

sys.path.insert(0, f"{TOP}/tools")

# A function is proved unless its body has `wrong`, `gone` or `untried`, or it is the first one and the law before it is wrong.
# With `gone` its proof file names what isn't there, with `untried` its goals weren't tried, and with `false` beside these values
# are known at which a goal is false. The crate doesn't compile if it has `unknown`, or both `one` and `other`. Each run is noted with the functions that it is asked for, and the
# number of those that are changed in all.
PROVER = """\
#!/usr/bin/env python3
import os, re, sys
with open("src/lib.rt") as file:
    text = file.read()
if "law wrong" in text:
    text = text.replace("right 1 }", "wrong }")
functions = re.findall(r"fn (\\w+)\\(\\) { (.*) }", text)
words = " ".join(body for _, body in functions).split()
only = [name for word, name in zip(sys.argv, sys.argv[1:]) if word == "--only"]
with open("NOTES", "a") as notes:
    notes.write(f"{' '.join(only) or 'compiles'} {len(functions) - words.count('right')}\\n")
os.makedirs(sys.argv[sys.argv.index("--incremental") + 1], exist_ok=True)
if "unknown" in words or {"one", "other"} <= {*words}:
    sys.exit("src/lib.rt:1:1: error[unknown-name]: cannot find value `unknown` in this scope")
told = {}
for name, body in functions:
    if name in only:
        if "gone" in body:
            print(f"./proofs/{name}/Answers.antt:3:1: error: `goal`: module `Goals` has no `old` that can be named\\n  from here")
            print(f"./proofs/{name}/Answers.antt:9:1: error: `low`, which was not admitted, was not checked")
        if "false" in body:
            print("note: src/lib.rt:1:1: the facts known there allow values at which this goal is false")
        lacks = {"wrong": "not proved", "gone": "not proved", "untried": "no proof: it calls low::other"}
        told[name] = next((it for word, it in lacks.items() if word in body), "proved")
        if "untried" in body:
            print("note: src/lib.rt:1:1: `search` has not tried the goals")
        print(f"fn low::{name}: {told[name]}")
print(f"only={len(told)} proved={[*told.values()].count('proved')}")
"""
LIBRARY, MUTATIONS = "clone/crates/base/src", "clone/crates/low/mutations.txt"
UNKNOWN = "src/lib.rt:1:1: error[unknown-name]: cannot find value `unknown` in this scope"


class Tried(Room):
    """A clone with a crate over a library, and the prover."""

    def __init__(self):
        super().__init__()
        for folder in ("bin", "clone/tools", "clone/crates/low/src", "clone/docs", LIBRARY):
            os.makedirs(f"{self.path}/{folder}")
        for tool in ("mutations", "refusals.py"):
            shutil.copy(f"{TOP}/tools/{tool}", f"{self.path}/clone/tools")
        self.file("clone/crates.txt", "low: base\nbase:\n")
        self.stub("bin/rt", "#!/bin/sh\n")
        self.stub("bin/rattle", PROVER.replace("NOTES", f"{self.path}/notes"))

    def try_them(self, *bodies):
        """What is said of mutations m1, m2 .., which give functions f1, f2 .. other bodies, and what the prover ran."""
        return self.try_edits(*(f"old: {{ right {place} }}\nnew: {{ {body} }}\n" for place, body in enumerate(bodies, 1)))

    def try_edits(self, *texts):
        """What is said of mutations with these texts, in order of the alphabet; and what the prover ran."""
        places = range(1, len(texts) + 1)
        self.file("clone/crates/low/src/lib.rt", "law right\n" + "".join(f"fn f{it}() {{ right {it} }}\n" for it in places))
        self.forget()
        self.file(MUTATIONS, "\n".join(f"m{it}\nfile: src/lib.rt\n{text}" for it, text in zip(places, texts)))
        return self.tried()

    def forget(self):
        """Forgets what this machine noted."""
        shutil.rmtree(f"{self.path}/cache", ignore_errors=True)

    def tried(self, *words):
        """What is said of the mutations, and what the prover ran."""
        self.file("notes")
        places = {"PATH": f"{self.path}/bin:{os.environ['PATH']}", "XDG_CACHE_HOME": f"{self.path}/cache"}
        ran = self.run(f"{self.path}/clone/tools/mutations --jobs 1 low", [*words], **places)
        told = re.sub("^mutations: |low/|^low: ", "", "\n".join(sorted(ran.all().splitlines())), flags=re.M)
        return told, ", ".join(self.read("notes").splitlines())


def refused(*places):
    return [f"m{it}: refused; low::f{it}: not proved" for it in places]


def asked(changed, *places):
    """How a check is noted."""
    return " ".join([*(f"f{it}" for it in places), str(changed)])


def trials(room):
    """Of each: what is told, what the prover ran, and the bodies."""
    wrong, unknown, alone = ["wrong"], ["unknown"], f"FAILED: m1: DOESN'T COMPILE; {UNKNOWN}"
    two = "f1 f2 0, f1 f2 2"
    for title, told, ran, bodies in (
        ("those of different functions share a check", [*refused(1, 2), "2 passed, 0 failed"], two, wrong * 2),
        ("those that a check doesn't refuse are tried again",
         ["FAILED: m2: NOT REFUSED", *refused(1, 3), "2 passed, 1 failed", "status 1"], "f1 f2 f3 0, f1 f2 f3 3, f2 1",
         ["wrong", "fine", "wrong"]),
        ("one that doesn't compile is found by halves, and the others share a check",
         [alone.replace("m1", "m6"), *refused(1, 2, 3, 4, 5, 7, 8), "7 passed, 1 failed", "status 1"],
         f"{asked(0, *range(1, 9))}, {asked(8, *range(1, 9))}, compiles 4, compiles 4, compiles 2, compiles 1, compiles 1, \
compiles 2, {asked(7, 1, 2, 3, 4, 5, 7, 8)}", [*wrong * 5, *unknown, *wrong * 2]),
        ("none compiles", [alone, alone.replace("m1", "m2"), "0 passed, 2 failed", "status 1"],
         f"{two}, compiles 1, compiles 1", unknown * 2),
        ("one alone that doesn't compile", [alone, "0 passed, 1 failed", "status 1"], "f1 0, f1 1", unknown),
        ("those that compile only apart are tried apart", [*refused(1, 2), "2 passed, 0 failed"],
         f"{two}, compiles 1, compiles 1, f1 1, f2 1", ["one wrong", "other wrong"]),
        ("one that is refused by a name alone",
         ["FAILED: m1: REFUSED BY A NAME ALONE; `goal`: module `Goals` has no `old` that can be named from here",
          *refused(2), "1 passed, 1 failed", "status 1"], f"{two}, f1 1", ["gone", "wrong"]),
        ("and one that has a false goal, too", [*refused(1), "1 passed, 0 failed"], "f1 0, f1 1", ["gone false"]),
        ("one whose goals weren't tried", ["FAILED: m1: UNDECIDED; its goals weren't tried", "0 passed, 1 failed", "status 1"],
         "f1 0, f1 1", ["untried"]),
    ):
        yield title, ("\n".join(told), ran), room.try_them, *bodies
    law = "old: law right\nnew: law wrong\n"
    one = "\n".join([*refused(1), "1 passed, 0 failed"])
    yield "one outside of functions says what fails", (one, "f1 0, f1 1"), room.try_edits, f"{law}fails: f1\n"
    yield ("or counts by the functions that it changes, too", (one, "f1 0, f1 1"),
           room.try_edits, f"{law}old: {{ right 1 }}\nnew: {{ wrong }}\n")
    yield ("and isn't refused if something else fails",
           ("FAILED: m1: NOT REFUSED\nm2: refused; low::f2: not proved\n1 passed, 1 failed\nstatus 1", "f2 0, f2 1, f2 1"),
           room.try_edits, f"{law}fails: f2\n", "old: { right 2 }\nnew: { wrong }\n")
    for title, told, text in (
        ("one that says nothing of functions", "it changes no function, and has no line 'fails: FUNCTION'", law),
        ("one whose text isn't there", "its text stands 0 times in src/lib.rt: law left", "old: law left\nnew: law wrong\n"),
    ):
        yield title, f"FAILED: m1: {told}", lambda: room.try_edits(text)[0].splitlines()[0]
    room.try_them("wrong")
    good = room.read(MUTATIONS)
    for title, told, text in (
        ("a name that another one has", "m1: another one has this name", good),
        ("a paragraph without a name", "file: src/lib.rt: this is no name", good.partition("\n")[2]),
    ):
        room.file(MUTATIONS, f"{good}\n\n{text}")
        yield title, f"FAILED: {told}\n{refused(1)[0]}\n1 passed, 1 failed\nstatus 1", lambda: room.tried("--anew")[0]


def what_was_refused_before(room):
    """Two of three mutations are refused; what changes then, and what is tried again."""
    room.try_them("wrong", "fine", "wrong")
    source, counts = room.read("clone/crates/low/src/lib.rt"), "2 passed, 1 failed\nstatus 1"
    whole = "f1 f2 f3 0, f1 f2 f3 3, f2 1"
    for title, ran, name, text in (
        ("only the others are tried again", "f2 0, f2 1", "notes", ""),
        ("all over another source", whole, "clone/crates/low/src/lib.rt", f"// a comment\n{source}"),
        ("all over another library", whole, f"{LIBRARY}/lib.rt", "fn more() {}\n"),
        ("one that is another", "f1 f2 0, f1 f2 2, f2 1", MUTATIONS,
         room.read(MUTATIONS).replace("old: { right 1 }\nnew: { wrong }\n", "old: right 1 }\nnew: wrong }\n")),
        ("none that is about something else now", "f2 0, f2 1", MUTATIONS,
         room.read(MUTATIONS).replace("old: { right 1 }\nnew: { wrong }\n", "about: it\nold: right 1 }\nnew: wrong }\n")),
    ):
        room.file(name, text)
        told, found = room.tried()
        yield title, (ran, counts), lambda: (found, told[-len(counts) :])
    yield "that is told", 1, lambda: room.tried()[0].count("2 were refused before over the same files")
    yield "all if it is asked", whole, lambda: room.tried("--anew")[1]


def what_the_gate_tries(room):
    """Which of four mutations are tried."""
    room.try_edits(*(f"about: {about}\n{gate}old: {{ right {it} }}\nnew: {{ wrong }}\n" for it, about, gate in (
        (1, "low::B::last", "gate: yes\n"), (2, "low::x", ""), (3, "a promise", "gate: yes\n"), (4, "low::B::first", "gate: yes\n"))))
    for title, ran, *words in (
        ("those that say so", "f1 f3 f4 0, f1 f3 f4 3", "--gate"),
        ("and have a word in their names", "f3 0, f3 1", "--gate", "--only", "3"),
        ("another, if it isn't asked for those of the gate", "f2 0, f2 1", "--only", "2"),
    ):
        yield title, ran, lambda: room.tried("--anew", *words)[1]
    head = "| About | Mutations |\n|---|---|\n"
    tables = (f"{head}| a promise | of `low`: m3 |\n\n{head}| `low::B`: `first`, `last` | of `low`: m4, m1 |\n\n"
              f"{head}| `low`: `x` | of `low`: m2 |")
    yield "the tables of what they are about", tables, lambda: room.run(f"{room.path}/clone/tools/mutations --tables").all()


def what_is_recorded(room):
    """Two of three mutations are refused, and the repository's record has them."""
    bodies = {1: "wrong", 2: "fine", 3: "wrong"}
    room.try_edits(*(f"about: it\ngate: yes\nold: {{ right {it} }}\nnew: {{ {body} }}\n" for it, body in bodies.items()))
    record = "clone/crates/low/mutations_refused"
    room.tried("--record")
    yield "their names", ["m1", "m3"], lambda: [it.split()[1] for it in room.read(record).splitlines()]
    room.forget()
    yield "they aren't tried again", "f2 0, f2 1", lambda: room.tried()[1]
    yield "but by the gate, where it is the crate's turn", "f1 f2 f3 0, f1 f2 f3 3, f2 1", lambda: room.tried("--gate")[1]
    room.forget()
    room.file("clone/crates/low/src/lib.rt", f"// a comment\n{room.read('clone/crates/low/src/lib.rt')}")
    yield "over another source all are", "f1 f2 f3 0, f1 f2 f3 3, f2 1", lambda: room.tried()[1]


def what_applies(_):
    """Each text that a mutation of this repository changes stands once in its file, and each mutation changes something."""
    tool = script_of("tools/mutations")
    for crate in tool.with_mutations():
        yield crate, [], lambda: [why for name, text in tool.mutations_of(crate) for why in faults(tool, crate, name, text)]


def faults(tool, crate, name, text):
    """Why a mutation of a crate doesn't apply."""
    texts, changes = {}, [*tool.changes_of(text)]
    try:
        for it in changes:
            source = texts.get(it.file) or tool.read(f"{TOP}/crates/{crate}/{it.file}")
            tool.place_of(source, it)
            texts[it.file] = source.replace(it.old, it.new)
    except (tool.BadEdit, OSError) as why:
        return [f"{name}: {why}"]
    return [] if changes else [f"{name}: it changes nothing"]


def checks(_):
    return checks_of("mutations", Tried(), [trials, what_was_refused_before, what_the_gate_tries, what_is_recorded, what_applies])
