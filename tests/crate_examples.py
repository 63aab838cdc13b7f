"""Compiles and runs the examples in the comments of the crates, in fences marked `ignore`, without a proof.

Each is the body of a test in a further crate, which `rt try --test` compiles beside a copy of the crates. A table says what
an example takes for granted, such as a plan, and what holds after it. One is also tried with a false answer, and must fail.
"""

import functools
import glob
import os
import re
import shutil
import textwrap

from checking import TOP, Broken, Room, checks_of, parts_of

CRATES = "sabr_model sabr_plan sabr_index sabr_search sabr_frontier sabr_session commands"
# The module of `steps` that examples use, of which the further crate gets a copy.
FAILING = "crates/steps/src/failing"
# The module whose example is for readers of its own crate is public in the copy.
PLAN_LIBRARY, PRIVATE, PUBLIC = "crates/sabr_plan/src/lib.rt", "\nmod gathering;\n", "\npub mod gathering;\n"

# What the examples use, and a call that allocates.
HEAD = """\
//! The examples of the crates.

use commands::{Status, run_first};
use crate::failing::{End, LimitedWriter, PieceReader, Ration};
use sabr_frontier::Session;
use sabr_index::Index;
use sabr_model::{HopFault, Plan, Request, follow};
use sabr_plan::gathering::{GatheredContacts, GatheredRanges, gathered_plan};
use sabr_plan::{digest, parse_plan, parse_time};
use sabr_search::Settled;
use sabr_session::{write_report, write_session};
use std::alloc::{AllocError, Allocator};
use std::test::Fail;

fn load<A: Allocator>(alloc: A) -> Result<(), AllocError> {
    let mut list = Vec::new(alloc);
    list.push(7)?;
    Ok(())
}

"""
ROUTES_OF_A = [
    "1 delivery 2030/01/01-00:00:15 hops 2 entry 2 until 2030/01/01-00:01:40 contacts 1 4",
    "2 delivery 2030/01/01-00:00:25 hops 2 entry 2 until 2030/01/01-00:01:00 contacts 1 2",
    "3 delivery 2030/01/01-00:01:30 hops 1 entry 3 until 2030/01/01-00:01:30 contacts 3",
]


def literal_of(lines):
    """Lines as a literal of bytes."""
    text = r"\n".join([*lines, ""])
    return f'b"{text}".as_slice()'


def plan_a():
    with open(f"{TOP}/examples/a.txt", encoding="utf-8") as file:
        return literal_of(file.read().splitlines())


# Of each example: its file, what it takes for granted, and what holds after it beside its own assertions.
EXAMPLES = {
    "crates/sabr_model/src/lib.rt": ("", ""),
    "crates/sabr_plan/src/lib.rt": ("", ""),
    "crates/sabr_plan/src/gathering.rt": ("", ""),
    "crates/sabr_index/src/lib.rt": ("", ""),
    "crates/sabr_frontier/src/lib.rt": (
        """\
        let mut plan = Plan::new(rt.alloc());
        for start in 1893456000..1893456006 {
            plan.add_contact(1, 2, start, 1893456100, 1000)?;
        }
        plan.add_range(1, 2, 1893456000, 1893457000, 10)?;
        let request = Request::new(1, 2, 1893456000, 0)?;
        """,
        """\
        assert_eq!(rt; first.len(), 3);
        assert_eq!(rt; next.len(), 3);
        """,
    ),
    "crates/sabr_session/src/lib.rt": (
        f"""\
        let alloc = rt.alloc();
        let plan = parse_plan(alloc, {plan_a()})?;
        let request = Request::new(1, 3, 1893456000, 0)?;
        let mut out = LimitedWriter::new(alloc, 4096, 4096);
        let mut saved = LimitedWriter::new(alloc, 4096, 4096);
        """,
        f"""\
        assert_eq!(rt; out.held(), {literal_of([*ROUTES_OF_A, "end"])});
        assert!(rt; saved.held().starts_with({literal_of(["cgr-session 2"])}));
        """,
    ),
    "crates/commands/src/lib.rt": (
        f"""\
        let alloc = rt.alloc();
        let mut plan = PieceReader::new({plan_a()}, 4096, End::Ended);
        let request = Request::new(1, 3, 1893456000, 0)?;
        let mut out = LimitedWriter::new(alloc, 4096, 4096);
        let mut session = LimitedWriter::new(alloc, 4096, 4096);
        let mut err = LimitedWriter::new(alloc, 4096, 4096);
        """,
        f"""\
        assert_eq!(rt; status, Status::Done);
        assert_eq!(rt; out.held(), {literal_of([*ROUTES_OF_A[:2], "more"])});
        assert!(rt; session.held().is_empty());
        assert!(rt; err.held().is_empty());
        """,
    ),
    "crates/steps/src/failing.rt": ("", ""),
}
# The example that is also tried with a false answer in place of the true one.
FALSIFIED, TRUE, FALSE = "crates/sabr_model/src/lib.rt", "Ok(1893456010)", "Ok(1893456011)"
FAILURE = f"FAILED\n    assertion `left == right` failed\n      left: {TRUE}\n     right: {FALSE}"


def examples():
    """Each example in the comments of the crates, after its file."""
    for path in glob.glob(f"{TOP}/crates/*/src/**/*.rt", recursive=True):
        with open(path, encoding="utf-8") as file:
            text = file.read()
        for it in re.finditer(r"^ *(//[/!]) ```ignore\n(.*?)^ *\1 ```$", text, re.M | re.S):
            yield os.path.relpath(path, TOP), re.sub(r"^ *//[/!] ?", "", it[2], flags=re.M)


def replaced(text, old, new, place):
    """A text with another in place of one that stands in it once."""
    if text.count(old) != 1:
        raise Broken(f"{place} should have this once:\n{old.strip()}")
    return text.replace(old, new)


def module_of(path):
    """The name of the module for the example of a file."""
    return re.sub(r"\W", "_", path.removeprefix("crates/").removesuffix(".rt"))


def test_of(path, example):
    """The text of a module that tests an example."""
    before, after = map(textwrap.dedent, EXAMPLES.get(path, ("", "")))
    body = textwrap.indent(f"{before}{example}{after}Ok(())\n", "    ")
    return f"//! {path}\n\nuse super::*;\n\n#[test]\nfn example(rt: HostRuntime) -> Result<(), Fail> {{\n{body}}}\n"


class Tried(Room):
    """A copy of the crates, and a crate of tests."""

    @functools.cached_property
    def said(self):
        """What `rt try --test` prints."""
        shutil.copytree(f"{TOP}/crates", f"{self.path}/crates", ignore=shutil.ignore_patterns("out"))
        self.file(PLAN_LIBRARY, replaced(self.read(PLAN_LIBRARY), PRIVATE, PUBLIC, PLAN_LIBRARY))
        with open(f"{TOP}/crates.txt", encoding="utf-8") as file:
            self.file("crates.txt", f"{file.read()}crate_examples: {CRATES}\n")
        found = dict(examples())
        falsified = replaced(found[FALSIFIED], TRUE, FALSE, FALSIFIED)
        modules = {"falsified": test_of(FALSIFIED, falsified), **{module_of(it): test_of(it, found[it]) for it in found}}
        crate = "crates/crate_examples"
        os.makedirs(f"{self.path}/{crate}/src/tests")
        shutil.copy(f"{TOP}/{FAILING}.rt", f"{self.path}/{crate}/src")
        shutil.copytree(f"{TOP}/{FAILING}", f"{self.path}/{crate}/src/failing")
        self.file(f"{crate}/src/lib.rt", "//! Tests alone.\n#![tactic(auto)]\n\n#[cfg(test)]\nmod failing;\n#[cfg(test)]\nmod tests;\n")
        self.file(f"{crate}/src/tests.rt", HEAD + "".join(f"mod {name};\n" for name in modules))
        for name, text in modules.items():
            self.file(f"{crate}/src/tests/{name}.rt", text)
        return self.run("rt try --test", at=f"{self.path}/{crate}").all()

    def ended(self, module):
        """How a module's test ended, and why; all that was printed, if it didn't run."""
        found = re.search(rf"^test tests::{module}::example \.\.\. (.*(\n .*)*)", self.said, re.M)
        return found[1] if found else self.said


def rows(room):
    yield "each example stands in the table", sorted(EXAMPLES), lambda: sorted(path for path, _ in examples())
    for path in EXAMPLES:
        yield f"the example of {path}", "ok", room.ended, module_of(path)
    yield "a false assertion fails", FAILURE, lambda: parts_of(r"\A(?:.*\n){3}.*", room.ended("falsified"))


def checks(asked):
    return checks_of("crate_examples", Tried(), [rows])
