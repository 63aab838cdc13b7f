"""What a release is compiled from: proves the crates, in a folder that has no others, and compiles them.

First `rt ci` proves the program, and all crates below it and the library; kit 13f takes over what it has proved before. After
an `rt ci` of the whole clone, as in ./test, its libraries serve instead. Then the prover proves the program's own crate once
more, and the library's, and compiles each. What was compiled is kept in the crates' `out`, with a record of its sources, and
serves again while these are the same.
"""

import hashlib
import json
import os
import re
import shutil
import subprocess
import sys
import tempfile

from .files import TOP, Failed, put, said_by

PARTS = ("src", "specs", "proofs")  # the folders of a crate that a check reads
HERE, ARM = "x86_64-unknown-linux-gnu", "aarch64-unknown-linux-gnu"
LOG = f"{TOP}/crates/cgrlist/out/release.log"
MADE = {"cgrlist": "cgrlist.o", "libcgrlist": "liblibcgrlist.a"}  # of each crate, what the prover's compiler makes
TRUSTED_IN_ONE_RUN = ("incremental=trusted", "batches=trusted", "crate-checked=trusted")


def read(path):
    with open(path, "rb") as file:
        return file.read()


def sum_of(path):
    return hashlib.sha256(read(path)).hexdigest()


# ---- Crates and kit ---------------------------------------------------------------------------------------------


def uses_of():
    """For each crate, its line of crates.txt, and the libraries that it uses."""
    lines = [line for line in read(f"{TOP}/crates.txt").decode().splitlines() if line and line[0] != "#"]
    return {line.split(":")[0].split()[0]: (line, line.partition(":")[2].split()) for line in lines}


def below(crate):
    """The crates below a crate, each after those that it uses."""
    uses = uses_of()
    own = [it for it in uses[crate][1] if it in uses]
    return list(dict.fromkeys([*(low for it in own for low in below(it)), *own]))


def proved_by_ci():
    """The program's crate, and all that are below it or the library."""
    return [*dict.fromkeys([*below("libcgrlist"), *below("cgrlist"), "cgrlist"])]


def sources_of(crate):
    found = [f"{at}/{name}" for part in PARTS for at, _, names in os.walk(f"{TOP}/crates/{crate}/{part}") for name in names]
    return sorted(found)


def sum_of_sources(crate):
    """The sum of what sha256sum prints of a crate's sources."""
    lines = [f"{sum_of(it)}  {os.path.relpath(it, TOP)}\n" for it in sources_of(crate)]
    return hashlib.sha256("".join(lines).encode()).hexdigest()


class Kit:
    """The prover, its compiler, its linker, and its C code."""

    def __init__(self):
        rt = shutil.which("rt")
        if not rt:
            raise Failed("there is no command rt, which proves and compiles the crates")
        self.folder = os.path.dirname(os.path.dirname(os.path.realpath(rt)))
        self.version = said_by("rt", "version").strip()
        self.archives = [f"{self.folder}/c/{it}" for it in ("libos_c.a", "liblibc_c.a")]

    def words(self, crate, target, room):
        """The command that proves and compiles a crate, over the libraries in a folder."""
        uses = uses_of()

        def library(name):
            own = f"{room}/crates/{name}/out/rlib/{name}.rlib"
            return own if name in uses else f"{self.folder}/rlibs/{name}.rlib"

        root = "main" if os.path.exists(f"{TOP}/crates/{crate}/src/main.rt") else "lib"
        words = [f"{self.folder}/bin/rattle", "build", "--crate-name", crate, f"src/{root}.rt"]
        for name in dict.fromkeys(["std", *uses[crate][1]]):
            words += ["--extern", f"{name}={library(name)}"]
        for name in ["std", *below(crate)]:
            words += ["-L", f"dependency={os.path.dirname(library(name))}"]
        words += ["--antt-project", f"{self.folder}/rattle/logic/antt-project.json", "--logic-built", f"{self.folder}/logic_built"]
        words += ["--jobs", str(min(os.cpu_count(), 2)), "--links", f"{crate}=", "--target", target, "--backend", "llvm"]
        words += ["--crate-type", "staticlib"] * (root == "lib")
        return [*words, "--toolchain", f"{self.folder}/toolchain", "-o", f"{room}/{MADE[crate]}"]


# ---- Runs -------------------------------------------------------------------------------------------------------


def run(words, folder):
    """Runs a command, and returns what it printed, which goes to the log as it comes. A release that is stopped stops it by one
    signal: by a second one, as a terminal would send it, rt would leave what it started.
    """
    os.makedirs(os.path.dirname(LOG), exist_ok=True)
    with open(LOG, "ab+") as log:
        before = log.tell()
        how = {"stdin": subprocess.DEVNULL, "stdout": log, "stderr": subprocess.STDOUT, "start_new_session": True}
        with subprocess.Popen(words, cwd=folder, **how) as running:
            try:
                running.wait()
            except KeyboardInterrupt:
                running.terminate()
                running.wait()
                raise
        log.seek(before)
        said = log.read().decode(errors="replace")
    if running.returncode:
        last = "\n".join(said.splitlines()[-20:])
        raise Failed(f"{last}\n{os.path.basename(words[0])} failed; {LOG} has all that it said")
    return said


def copy_crate(crate, room):
    """Copies what a check reads of a crate, and what its program is run on."""
    folder = f"{TOP}/crates/{crate}"
    for name in (*PARTS, "data"):
        if os.path.isdir(f"{folder}/{name}"):
            shutil.copytree(f"{folder}/{name}", f"{room}/crates/{crate}/{name}")
    for name in ("args", "stdin", "stdout", "status"):
        if os.path.isfile(f"{folder}/{name}"):
            shutil.copy(f"{folder}/{name}", f"{room}/crates/{crate}")


def take_proved(room):
    """Copies the crates and the libraries that `rt ci` has left in this clone into a folder. A source that is newer stops it."""
    for crate in proved_by_ci():
        copy_crate(crate, room)
        made = f"{TOP}/crates/{crate}/out/{'cgrlist' if crate == 'cgrlist' else 'rlib'}"
        newer = ["find", *(it for it in sources_of(crate) if os.path.exists(it)), "-newer", made, "-print", "-quit"]
        if not os.path.exists(made) or said_by(*newer):
            raise Failed(f"`rt ci` hasn't proved crates/{crate} as it stands")
        if crate != "cgrlist":
            shutil.copytree(made, f"{room}/crates/{crate}/out/rlib")


def prove(room):
    """Proves crates in a folder, as a repository of its own."""
    uses = uses_of()
    for crate in proved_by_ci():
        copy_crate(crate, room)
    shutil.copy(f"{TOP}/HANDLES", room)
    with open(f"{room}/crates.txt", "w", encoding="utf-8") as file:
        file.writelines(f"{uses[it][0]}\n" for it in proved_by_ci())
    said_by("git", "init", "--quiet", room)
    run(["rt", "ci"], room)


def said_of(said):
    """What the prover said of a crate: its verdict, without what was taken in that run alone, and the axioms that it reaches."""
    verdict = re.findall(r"^logic=proved .*$", said, re.M)
    if not verdict:
        raise Failed(f"the prover gave no verdict; {LOG} has all that it said")
    words = [it for it in verdict[-1].split() if it not in TRUSTED_IN_ONE_RUN]
    return {"verdict": " ".join(words), "axioms": sorted(set(re.findall(r"^axioms .*$", said, re.M)))}


def functions_in(rlib):
    """The number of functions of a proved library: those of its file, but for closures and declarations, as its verdict counts."""
    names = [it[0] for it in json.loads(read(f"{rlib}/toolchain/mir.json"))]
    return sum("::fn::" not in it and not it.endswith("+decl") and "++none::" not in it for it in names)


class Compiled:
    """What is compiled of a crate for a target, and the record of it."""

    def __init__(self, kit, crate, target=HERE):
        self.kit, self.crate, self.target = kit, crate, target
        folder = f"{TOP}/crates/{crate}/out" + ("" if target == HERE else f"/{target}")
        self.path, self.file = f"{folder}/{MADE[crate]}", f"{folder}/compiled.json"

    def sum(self):
        """The sum of all that it is compiled of."""
        crates = [(uses_of()[it][0], sum_of_sources(it)) for it in [*below(self.crate), self.crate]]
        return hashlib.sha256(repr((self.kit.version, self.target, crates)).encode()).hexdigest()

    def record(self):
        """The record, if it is one of the sources as they stand."""
        try:
            record = json.loads(read(self.file))
            is_current = record["sources"] == self.sum() and record["made"] == sum_of(self.path)
        except (OSError, ValueError, KeyError):
            is_current = False
        return record if is_current else None

    def write_record(self, sources, said, top):
        """Notes what was compiled over the libraries in a folder, and what the prover said."""
        functions = {it: functions_in(f"{top}/crates/{it}/out/rlib/{it}.rlib") for it in below(self.crate)}
        with open(self.file, "w", encoding="utf-8") as file:
            json.dump({"sources": sources, "made": sum_of(self.path), "functions": functions, **said_of(said)}, file, indent=1)

    def adopt(self):
        """Takes over what library/build had compiled of these sources, if it did."""
        folder = os.path.dirname(self.path)
        places = [f"{TOP}/crates.txt", *(f"{TOP}/crates/{it}/{part}" for it in [*below(self.crate), self.crate] for part in PARTS)]
        newer = ["find", *filter(os.path.exists, places), "-newer", self.path, "-print", "-quit"]
        try:
            is_made = read(f"{folder}/library.prover").decode().strip() == self.kit.version and os.path.exists(self.path)
            if is_made and not said_by(*newer):
                self.write_record(self.sum(), read(f"{folder}/library.log").decode(errors="replace"), TOP)
        except (OSError, Failed):
            pass  # then it is compiled

    def compile(self, room):
        """Proves the crate in a folder in which those below it are proved, compiles it, and keeps both."""
        before = self.sum()
        if not os.path.exists(f"{room}/crates/{self.crate}"):
            copy_crate(self.crate, room)
        said = run(self.kit.words(self.crate, self.target, room), f"{room}/crates/{self.crate}")
        if self.sum() != before:
            raise Failed("the sources were changed meanwhile")
        put(f"{room}/{MADE[self.crate]}", f"{self.path}.new")
        os.replace(f"{self.path}.new", self.path)
        self.write_record(before, said, room)

    def tell_library_build(self):
        """Leaves what library/build looks at to see that the archive is proved: the prover, and an archive newer than sources."""
        with open(f"{os.path.dirname(self.path)}/library.prover", "w", encoding="utf-8") as file:
            file.write(f"{self.kit.version}\n")
        os.utime(self.path)


def compile_all(kit, targets, is_proved=False):
    """Compiles what isn't compiled yet: the program, and the library for each target. `is_proved` says that an `rt ci` of this
    clone has just passed."""
    program, *libraries = wanted = [Compiled(kit, "cgrlist"), *(Compiled(kit, "libcgrlist", it) for it in targets)]
    if not libraries[0].record():
        libraries[0].adopt()
    lacking = [it for it in wanted if not it.record()]
    if lacking:
        os.makedirs(os.path.dirname(LOG), exist_ok=True)
        open(LOG, "w", encoding="utf-8").close()
        print(f"release: proving and compiling {', '.join(f'{it.crate} for {it.target}' for it in lacking)}; the log is {LOG}", file=sys.stderr)
        with tempfile.TemporaryDirectory() as room:
            (take_proved if is_proved else prove)(room)
            for it in lacking:
                it.compile(room)
            if program in lacking and not is_proved:
                leave_program(room)
    libraries[0].tell_library_build()
    return wanted


def leave_program(room):
    """Leaves the program that `rt ci` built in the clone, as ./cgrlist --prove does."""
    out = f"{TOP}/crates/cgrlist/out"
    shutil.copy(f"{room}/crates/cgrlist/out/cgrlist", f"{out}/cgrlist.new")
    os.replace(f"{out}/cgrlist.new", f"{out}/cgrlist")
    with open(f"{out}/proved", "w", encoding="utf-8") as file:
        file.write(f"{sum_of(f'{out}/cgrlist')}  cgrlist\n")
