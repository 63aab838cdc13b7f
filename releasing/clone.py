"""What a release is made of: a clone that can be written, without a change that no commit has, that names one version."""

import os
import pwd
import re
import shutil
import subprocess

import wheel

from . import debian, linking
from .files import TOP, Failed, said_by

# The places that name the version, each as a text before it. tools/cgrlist/version.py is the one that counts.
VERSIONS = {
    "CHANGELOG.md": r"^## ", "library/rust/Cargo.toml": r'^version = "', "tests/data/rows/help.txt": r"^err cgrlist ",
    "crates/commands/src/words/command_line.rt": r'^const VERSION: &str = "',
    **{f"docs/{it}": r"^\.Os cgrlist " for it in os.listdir(f"{TOP}/docs") if it.endswith((".1", ".3"))},
}
NEEDED = {"git": "git", "dpkg-deb": "dpkg", "ar": "binutils", "readelf": "binutils", linking.COMPILER: "gcc"}
WRITTEN = ("", "/crates/cgrlist/out", "/crates/libcgrlist/out", "/library/out")  # the folders that a release is made in


def other_versions():
    """The files that name another version than the package does, each with what it names."""
    found = []
    for name, before in VERSIONS.items():
        with open(f"{TOP}/{name}", encoding="utf-8") as file:
            named = re.search(rf'{before}(\d[\d.]*)', file.read(), re.M)
        if not named or named[1] != wheel.version():
            found.append(f"{name}: {named[1] if named else 'none'}")
    return found


def git(*words):
    return said_by("git", "-C", TOP, *words).strip()


def faults():
    """What keeps the clone from being released: each fault, and what it is about."""
    changed = git("status", "--porcelain")
    if changed:
        yield "changes that no commit has", changed
    others = other_versions()
    if others:
        yield f"places that don't name version {wheel.version()}", "\n".join(others)
    if subprocess.run([f"{TOP}/page/build", "--check"], stdout=subprocess.DEVNULL, check=False).returncode:
        yield "a page of other sources", "page/build and page/example make it anew"


def look_at_folders():
    """Looks whether the clone can be written, and what somebody made in it."""
    for folder in WRITTEN:
        path = f"{TOP}{folder}"
        if os.path.exists(path) and not os.access(path, os.W_OK):
            owner = pwd.getpwuid(os.stat(path).st_uid).pw_name
            own = f"a clone of your own: git config --global --add safe.directory {TOP}/.git && git clone {TOP}"
            raise Failed(f"you can't write to {path}, which is {owner}'s. " + (f"Let {owner} remove it" if folder else f"Make {own}"))


def looked_over(is_draft):
    """The release, and what PROOF says of its faults, if it is a draft."""
    look_at_folders()
    for tool, package in NEEDED.items():
        if not shutil.which(tool):
            raise Failed(f"there is no {tool}; Debian's package {package} has it")
    found = dict(faults())
    if found and not is_draft:
        raise Failed("\n".join(["only --draft takes this clone, which has", *(f"{it}:\n{found[it]}" for it in found)]))
    commit, when, maintainer = git("log", "-1", "--format=%H%n%ct%n%an <%ae>").split("\n")
    return debian.Release(wheel.version(), int(when), commit, maintainer), [*found]
