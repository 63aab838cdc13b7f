"""Links the program of a release: statically, by the system's compiler, from the object that the prover's compiler made. And
has library/build link the C library for 64-bit ARM.
"""

import filecmp
import os
import subprocess

from .compiling import HERE, sum_of
from .files import TOP, Failed, said_by

FLAGS = ["-static", "-no-pie", "-s", "-Wl,--build-id=none,-z,relro,-z,now,-z,noexecstack"]
COMPILER = os.environ.get("CC", "cc")
CROSS = "aarch64-linux-gnu-gcc"


def first_line(*words):
    told = subprocess.run(words, stdout=subprocess.PIPE, stderr=subprocess.DEVNULL, check=False).stdout.decode()
    return told.partition("\n")[0]


def linkers(with_arm):
    """What links, and the C library that is linked: each one's name, and what tells it from others."""
    libc = first_line(COMPILER, "-print-file-name=libc.a")
    if not os.path.isfile(libc):
        raise Failed(f"{COMPILER} has no libc.a, which the program is linked with; Debian's package libc6-dev has it")
    told = {"compiler": first_line(COMPILER, "--version"), "linker": first_line("ld", "--version"), "libc.a": f"sha256 {sum_of(libc)}"}
    return {**told, "compiler for ARM": first_line(CROSS, "--version")} if with_arm else told


def link_arm(archive, folder):
    """Links the C library for 64-bit ARM in a folder."""
    said_by(f"{TOP}/library/build", "--arm", archive, folder)


def link_program(kit, made, program):
    """Links the program. The prover's linker, given the same object, must make the program that `rt ci` ran."""
    again = f"{program}.again"
    said_by(f"{kit.folder}/bin/rattle-link", "--target", HERE, "--toolchain", f"{kit.folder}/toolchain", "-o", again, made, *kit.archives)
    if not filecmp.cmp(again, f"{TOP}/crates/cgrlist/out/cgrlist", shallow=False):
        raise Failed(f"{made} isn't the object of crates/cgrlist/out/cgrlist: remove it, and run this again")
    os.remove(again)
    said_by(COMPILER, *FLAGS, "-o", program, made, *kit.archives)
