"""What the parts of tests/run share: checks with names, the rows that are asked for, and how a failure is told."""

import inspect
import os
import pty
import re
import runpy
import shlex
import subprocess
import sys
import tempfile
import unittest
from dataclasses import dataclass, field
from functools import partial
from importlib.machinery import SourceFileLoader
from importlib.util import module_from_spec, spec_from_loader
from itertools import zip_longest
from typing import NamedTuple

from trial import TOP, Broken, compiled

VERSION = runpy.run_path(f"{TOP}/tools/cgrlist/version.py")["VERSION"]

SHOWN = 10  # failures that are shown of one name
SEEN = "shown already"  # a failure that is counted alone
SECONDS = 600
MOST_SEEN = 300  # characters that are shown of a value


@dataclass
class Asked:
    """What is asked of a part."""

    rows: list = field(default_factory=list)  # FILE or FILE:LINE
    seed: int = None
    text: str = ""  # what a check's name or title must have
    trials: str = ""  # the folder for programs that are compiled without a proof, or nothing
    programs: dict = field(default_factory=dict)  # paths by their crates

    def program(self, crate):
        """The program of a crate. If none is given, it is the one that this clone built, or one for a trial."""
        if self.trials and not self.programs.get(crate):
            self.programs[crate] = compiled(crate, self.trials)
        path = os.path.realpath(self.programs.get(crate) or f"{TOP}/crates/{crate}/out/{crate}")
        if not os.access(path, os.X_OK):
            raise Broken(f"there is no program {path}: build it, or use --trial")
        return path

    def paths(self, known):
        """Those of the known files that are asked for."""
        names = {row.partition(":")[0] for row in self.rows}
        by_name = {os.path.basename(path).removesuffix(".txt"): path for path in known}
        for name in sorted(names - by_name.keys()):
            raise Broken(f"there is no file of rows {name}: there are {', '.join(sorted(by_name))}")
        return [path for name, path in by_name.items() if not names or name in names]

    def chosen(self, units):
        """Those of some units, each with the number of its first line, all of one file, that are asked for: for each
        line, the last unit that doesn't begin below it."""
        units = sorted(units, key=lambda unit: unit[0].number)
        lines = [row.partition(":") for row in self.rows]
        names = {name for name, _, line in lines if not line}
        wanted = [(name, int(line)) for name, _, line in lines if line.isdigit()]
        for place, unit in enumerate(units):
            path = unit[0].path
            name = os.path.basename(path).removesuffix(".txt")
            following = units[place + 1][0].number if place + 1 < len(units) else sys.maxsize
            if not self.rows or name in names or any(it == name and unit[0].number <= line < following for it, line in wanted):
                yield unit


class Check(unittest.TestCase):
    """Checks that are made together. The name is the words after `tests/run` that make them alone."""

    def __init__(self, name, act, about=""):
        super().__init__("make")
        self.name, self.act, self.about = name, act, about
        self.passed = self.failed = 0

    def id(self):
        return self.name

    __str__ = id

    def make(self):
        """`act` gives a text for each check: how it failed, or nothing if it passed."""
        for told in self.act():
            if not told:
                self.passed += 1
                continue
            with self.subTest():
                self.fail(told)


class Tally(unittest.TestResult):
    """Counts checks, and tells of those that failed."""

    def __init__(self, further):
        super().__init__()
        self.passed = self.failed = 0
        self.further = further  # words after a check's name

    def addSubTest(self, test, subtest, err):
        self.tell(test, str(err[1]))

    def stopTest(self, test):
        self.passed += test.passed
        self.failed += test.failed

    def addError(self, test, err):
        is_known = isinstance(err[1], (Broken, OSError))
        self.tell(test, f"FAILED: {err[1]}" if is_known else f"FAILED: {self._exc_info_to_string(err, test)}")

    addFailure = addError

    def tell(self, test, told):
        test.failed += 1
        if test.failed <= SHOWN and told != SEEN:
            print(f"{told}\nalone: tests/run {test.id()}{self.further}", flush=True)


# ---- Checks of commands -----------------------------------------------------------------------------------------


class Ran(NamedTuple):
    """How a command ended."""

    status: int
    out: str
    err: str

    def all(self):
        """What it printed, its messages, and its status if that isn't 0."""
        return f"{self.out}{self.err}{f'status {self.status}' if self.status else ''}".rstrip("\n")


class Room:
    """A folder for the files of some checks, and the commands that these run from the top of the clone."""

    def __init__(self):
        self.scratch = tempfile.TemporaryDirectory()
        self.path = self.scratch.name

    def file(self, name, text="", mode=0o644):
        """The path of a new file with this text."""
        path = f"{self.path}/{name}"
        with open(path, "wb") as file:
            file.write(text if isinstance(text, bytes) else text.encode())
        os.chmod(path, mode)
        return path

    def stub(self, name, text):
        """The path of a new command."""
        return self.file(name, text, 0o755)

    def read(self, name):
        with open(f"{self.path}/{name}", encoding="utf-8", errors="replace", newline="") as file:
            return file.read()

    def run(self, *words, given="", at=TOP, out=subprocess.PIPE, **further):
        """Runs words, which a text may hold with blanks between, with a text on standard input and further variables."""
        words = [it for word in words for it in (shlex.split(word) if isinstance(word, str) else word)]
        how = {"cwd": at, "env": {**os.environ, **further}, "input": given.encode(), "stdout": out, "stderr": subprocess.PIPE}
        ran = subprocess.run(words, timeout=SECONDS, **how)
        return Ran(ran.returncode, *((it or b"").decode(errors="replace") for it in (ran.stdout, ran.stderr)))

    def on_a_terminal(self, words, name, at=TOP, **further):
        """What words print on a terminal of their own, which also goes to a file as it comes."""
        own, terminal = pty.openpty()
        how = {"cwd": at, "env": {**os.environ, **further}, "stdin": subprocess.DEVNULL, "stdout": terminal, "stderr": terminal}
        with subprocess.Popen(words, **how), open(f"{self.path}/{name}", "wb", buffering=0) as file:
            os.close(terminal)
            try:
                while file.write(os.read(own, 4096)):
                    pass
            except OSError:
                pass  # nothing has the terminal open any more
        os.close(own)
        return self.read(name)


def compared(title, wanted, act, given):
    """How what a check found isn't what it wanted, which is empty if it is."""
    found = act(*given)
    yield "" if found == wanted else f"FAILED: {title}: wanted\n{wanted}\nfound\n{found}{seen(act, given) if found is False else ''}"


def seen(act, given):
    """What a check was given, and the values that its function takes from around it: all that False says nothing of."""
    around = inspect.getclosurevars(act).nonlocals if inspect.isfunction(act) else {}
    told = [*map(repr, given), *(f"{name} = {value!r}" for name, value in around.items() if not callable(value))]
    return "".join(f"\nof {it[:MOST_SEEN]}" for it in told)


def script_of(path):
    """A script of the repository, such as page/build, as a module of Python."""
    loader = SourceFileLoader(os.path.basename(path), f"{TOP}/{path}")
    script = module_from_spec(spec_from_loader(loader.name, loader))
    loader.exec_module(script)
    return script


def checks_of(part, room, sections):
    """The checks of some sections. Each gives for a check its title, what is wanted, what finds it, and what that is given."""
    with room.scratch:
        for section in sections:
            for title, wanted, act, *given in section(room):
                yield Check(f"{part} -k {shlex.quote(title)}", partial(compared, title, wanted, act, given), title)


# What a tool tells each ten seconds of how far it is, as it may on a busy machine.
PROGRESS = r"^\w+: (\d+ routes of \d+ looked at|\d+ of \d+ (requests are answered|contacts are lost)|told up to |.*for \d+ s$).*\n?"


def without_progress(text):
    """A text without the lines that tell how far a tool is."""
    return re.sub(PROGRESS, "", text, flags=re.M)


def parts_of(pattern, text):
    """What a pattern finds in a text, a line each."""
    return "\n".join(re.findall(pattern, text, re.M))


def found_in(part, text):
    """A part, if a text contains it; or else the text."""
    return part if part in text else text


def differing(found, wanted):
    """What differs of two sequences, a line for each place; empty if nothing does."""
    pairs = enumerate(zip_longest(found, wanted, fillvalue="nothing"), 1)
    return "\n".join(f"at {place} {one!r}, wanted {other!r}" for place, (one, other) in pairs if one != other)


def unlike(pattern, text):
    """A text that isn't like a pattern, with the pattern; empty if it is."""
    return "" if re.fullmatch(pattern, text) else f"{text!r}, wanted one like {pattern!r}"


def lines_with(pattern, text):
    """The lines in which a pattern is found."""
    return "\n".join(line for line in text.splitlines() if re.search(pattern, line))


def last_of(text):
    """The last line."""
    return text.rstrip("\n").rpartition("\n")[2]
