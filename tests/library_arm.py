"""The tests of the C library, over that of a release for 64-bit ARM, under qemu's user mode.

--library names the folder `lib` of the unpacked archive. This needs the compiler of Debian's gcc-aarch64-linux-gnu, and
qemu-aarch64 of qemu-user. The answers are compared with those of the program, which runs on this machine.
"""

import os
import shutil

from checking import TOP, checks_of
from library import Calling, ended, nulls, refused_memory
from library_answers import drawn_plans, larger_plans
from library_refusals import names, refusals, texts
from trial import Broken

COMPILER, EMULATOR = "aarch64-linux-gnu-gcc", "qemu-aarch64"
PLANS = 100  # of drawn calls


class OnArm(Calling):
    """The library for ARM. A program that calls it is a script that has the emulator run it."""

    def built(self):
        raise Broken("library_arm needs --library FOLDER, the folder lib of a release for ARM")

    def compiled(self, name, source, further="", compiler=COMPILER):
        words = f"{compiler} -static -std=c11 -D_GNU_SOURCE -g -O1 -Wall -Wextra -Wpedantic -Ilibrary {further} -o"
        path = f"{self.path}/{name}"
        ran = self.run(words, [f"{path}.arm", f"{TOP}/tests/library/{source}", f"{self.folder}/libcgrlist.a"])
        assert not ran.all(), ran.all()
        return self.stub(name, f'#!/bin/sh\nexec {EMULATOR} "{path}.arm" "$@"\n')


def fuzzed(room):
    fuzz = room.compiled("fuzz", "fuzz.c")
    yield "drawn calls", "status 0", lambda: ended(room.run([fuzz, str(PLANS), "1"]))


def the_shared_library(room):
    shared = next(it for it in os.listdir(room.folder) if ".so." in it)
    ran = room.run(f"{COMPILER} {TOP}/examples/router.c -Ilibrary -o", [f"{room.path}/router", f"{room.folder}/{shared}"])
    words = f"{TOP}/examples/a.txt 1 3 1893456000"
    yield "examples/router.c is compiled", "", ran.all
    yield "it answers", "to node 2 first, there at 1893456015, over 1 4", lambda: room.run(
        EMULATOR, ["-L", "/usr/aarch64-linux-gnu", "-E", f"LD_LIBRARY_PATH={room.folder}", f"{room.path}/router"], words).out.partition("\n")[0]


def checks(asked):
    for tool in (COMPILER, EMULATOR):
        if not shutil.which(tool):
            raise Broken(f"there is no {tool}, which library_arm needs")
    return checks_of("library_arm", OnArm(asked), [
        the_shared_library, refusals, texts, names, nulls, drawn_plans, refused_memory, fuzzed, larger_plans])
