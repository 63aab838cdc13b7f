"""Refuses each request for memory of whole runs in turn, also those for the words of the command line.

A shared library that is loaded before the C library refuses one request, and counts them. Such a run ends as ever, if it
does without that memory, or says that there is no memory: with status 6, nothing on standard output, and no file of a
session. Only `many` and `follow` may have printed whole answers before that. The requests are also counted for a session
text whose second part can't follow: further parts make none. This needs a C compiler.
"""

import os
import re
import shutil
import subprocess

from checking import TOP, Room, checks_of

REFUSING = f"{TOP}/tests/data/refusing.c"
REQUEST = f"--plan {TOP}/examples/relay.txt --from 31 --to 1 --at 2030/01/01-00:45:00"
# Of each run: its title, and its words. `new` is a file that isn't there yet; the others are made at first.
RUNS = [
    ("first", f"first {REQUEST} --count 2"),
    ("first with limits", f"first {REQUEST} --count 2 --margin-ppm 5 --max-hops 4 --avoid 21,22"),
    ("first that keeps a session", f"first {REQUEST} --count 3 --session-out new"),
    ("next", f"next --plan {TOP}/examples/relay.txt --session session --count 4"),
    ("next that keeps a session", f"next --plan {TOP}/examples/relay.txt --session session --count 4 --session-out new"),
    ("verify", f"verify --plan {TOP}/examples/relay.txt --session session"),
    ("check", f"check --plan {TOP}/examples/relay.txt"),
    ("explain", f"explain {REQUEST} --contacts 5,13,1"),
    ("many", f"many --plan {TOP}/examples/relay.txt --requests requests --count 2"),
    ("follow", f"follow --plan {TOP}/examples/relay.txt --lists lists"),
    ("help", "first --help"),
    ("a word that isn't known", "first --from 1 --nowhere 2"),
    ("a value that is refused", f"first {REQUEST} --count many"),
    ("a plan that isn't there", "check --plan nowhere.txt"),
]
NO_MEMORY = (6, "cgrlist: no memory\n")


class Refusing(Room):
    def __init__(self, program):
        super().__init__()
        self.program = program
        self.file("requests", "31 1 2030/01/01-00:45:00\n32 1 2030/01/01-00:00:00\n")
        self.file("lists", "5,13,1 31 1 2030/01/01-00:45:00\n1,3 31 1 2030/01/01-00:45:00\n")
        subprocess.run(["cc", "-O1", "-shared", "-fPIC", "-o", f"{self.path}/refusing.so", REFUSING], check=True)
        ran = self.run(program, f"first {REQUEST} --count 1 --session-out session", at=self.path)
        assert ran.status == 0, ran.all()

    def ended(self, words, refused=0):
        """How a run ended in which one request for memory was refused: how it ran, and the session that it left."""
        new = f"{self.path}/new"
        if os.path.exists(new):
            os.remove(new)
        further = {"LD_PRELOAD": f"{self.path}/refusing.so", "REFUSED": str(refused), "REQUESTS": f"{self.path}/count"}
        ran = self.run(self.program, words, at=self.path, **further)
        return ran, self.read("new") if os.path.exists(new) else None

    def faults(self, words):
        """The refused requests after which a run ended in another way, and how; and what never came."""
        ever, session = self.ended(words)
        fronts = {"", *(ever.out[: it.start()] for it in re.finditer("^(request|list) ", ever.out, re.M))}
        met = 0
        for number in range(1, int(self.read("count")) + 1):
            ran, left = self.ended(words, number)
            if (ran.status, ran.err) == NO_MEMORY and ran.out in fronts and left is None:
                met += 1
            elif (ran, left) != (ever, session):
                yield f"request {number}: {ran.all()}"
        if not met:
            yield f"of {number} requests none was missed"

    def requests(self, parts):
        """The status of a run that verifies a session whose second part can't follow, and its requests for memory."""
        head = self.read("session").partition("emitted ")[0]
        stray = "".join(f"part {number} / - / -\n" for number in range(10000, 10000 + parts - 1))
        self.file("stray", f"{head}emitted 0\nlast -\nparts {parts}\npart - / - / -\n{stray}end\n")
        ran, _ = self.ended(f"verify --plan {TOP}/examples/relay.txt --session stray")
        return ran.status, int(self.read("count"))


def each_request(room):
    for title, words in RUNS:
        yield title, "", lambda: "\n".join(room.faults(words))


def stray_parts(room):
    few = room.requests(1000)
    yield "1000 parts that can't follow", 1, lambda: few[0]
    yield "10000 take no more requests than 1000", few, lambda: room.requests(10000)


def checks(asked):
    if asked.trials or not shutil.which("cc"):
        print("note: memory is left out, since " + ("a trial has an allocator of its own" if asked.trials else "there is no cc"))
        return ()
    return checks_of("memory", Refusing(asked.program("cgrlist")), [each_request, stray_parts])
