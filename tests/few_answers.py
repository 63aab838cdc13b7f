"""Makes the checks of tests/drawn.py over libraries whose sessions keep at most two answers for later questions, in place of 4096:
so their memory is full after two, and each further answer takes the place of one. The program `steps` is compiled without a
proof from a copy of the crates with that number changed."""

import shutil
import tempfile
from dataclasses import replace

import drawn
from checking import Check
from trial import TOP, Broken, compiled

KEPT = "crates/sabr_search/src/early/answers.rt"
MANY, FEW = "const SLOTS: usize = 4096;", "const SLOTS: usize = 2;"


def checks(asked):
    with tempfile.TemporaryDirectory() as folder:
        shutil.copy(f"{TOP}/crates.txt", folder)
        shutil.copytree(f"{TOP}/crates", f"{folder}/crates", ignore=shutil.ignore_patterns("out"))
        with open(f"{folder}/{KEPT}", "r+", encoding="utf-8") as file:
            text = file.read()
            if text.count(MANY) != 1:
                raise Broken(f"{KEPT} has another number of slots")
            file.seek(0)
            file.truncate()
            file.write(text.replace(MANY, FEW))
        steps = compiled("steps", folder, folder)
        for check in drawn.checks(replace(asked, programs={**asked.programs, "steps": steps})):
            yield Check(check.name.replace("drawn", "few_answers", 1), check.act, check.about)
