"""Packages for Debian: `cgrlist` with the program and the tools, the C library, and what programs in C are compiled with."""

import gzip
import os
import tempfile
from email.utils import formatdate
from typing import NamedTuple

from . import files

TRIPLETS = {"amd64": "x86_64-linux-gnu", "arm64": "aarch64-linux-gnu"}
REVISION = 1
ABOUT = """\
 Give it a contact plan, two nodes and a time: it lists the routes, the
 earliest arrival first. It is proved that none is missing.
"""
PLACES = {"overrides": "usr/share/lintian/overrides/cgrlist", "shlibs": "DEBIAN/shlibs", "triggers": "DEBIAN/triggers"}
OVERRIDES = """\
# It runs where there is no libc, and starts sooner.
cgrlist: statically-linked-binary [usr/bin/cgrlist]
"""
LICENCE = """\
Format: https://www.debian.org/doc/packaging-manuals/copyright-format/1.0/
Upstream-Name: cgrlist
Comment:
 No licence has been chosen for cgrlist. Ask the person who gave you this
 package before you give it to anybody else.

Files: *
Copyright: the authors of cgrlist
License: none-chosen
 No licence has been chosen.
"""


class Release(NamedTuple):
    """What the packages have in common: the version, the second of the commit, the commit, and who is named for them."""

    version: str
    when: int
    commit: str
    maintainer: str

    @property
    def full(self):
        return f"{self.version}-{REVISION}"


def packed(text):
    return gzip.compress(text.encode() if isinstance(text, str) else text, 9, mtime=0)


def read(path):
    with open(path, "rb") as file:
        return file.read()


class Package:
    """A package that is put together in a folder of its own."""

    def __init__(self, release, name, architecture, room):
        self.release, self.name, self.architecture = release, name, architecture
        self.root = f"{room}/{name}"
        self.library = f"usr/lib/{TRIPLETS[architecture]}"

    def take(self, stage, names):
        """Takes files of a folder with what is installed: manual pages are packed, and some have another place in Debian."""
        for name in names:
            target = self.place(name)
            if os.path.islink(f"{stage}/{name}"):
                files.link(os.readlink(f"{stage}/{name}"), f"{self.root}/{target}")
            elif name.startswith("share/man/"):
                files.write(f"{self.root}/{target}.gz", packed(read(f"{stage}/{name}")))
            elif name.endswith(".pc"):
                text = read(f"{stage}/{name}").decode().replace("prefix=@PREFIX@", "prefix=/usr")
                files.write(f"{self.root}/{target}", text.replace("/lib\n", f"/lib/{TRIPLETS[self.architecture]}\n", 1))
            else:
                is_command = os.access(f"{stage}/{name}", os.X_OK) and ".so." not in name
                files.put(f"{stage}/{name}", f"{self.root}/{target}", 0o755 if is_command else 0o644)

    def place(self, name):
        """The place of a file in Debian."""
        if name.startswith("lib/"):
            return f"{self.library}/{name[4:]}"
        return f"usr/{name}".replace("share/zsh/site-functions", "share/zsh/vendor-completions")

    def document(self, changes):
        """Puts the licence and the changes into the package."""
        place, it = f"{self.root}/usr/share/doc/{self.name}", self.release
        files.write(f"{place}/copyright", LICENCE)
        files.write(f"{place}/changelog.gz", packed(changes))
        files.write(f"{place}/changelog.Debian.gz", packed(
            f"cgrlist ({it.full}) unstable; urgency=medium\n\n  * Version {it.version}, of commit {it.commit}.\n\n"
            f" -- {it.maintainer}  {formatdate(it.when)}\n"))

    def build(self, into, fields, about):
        """Makes the package's file in a folder."""
        size = sum(os.lstat(f"{self.root}/{it}").st_size for it in files.names_below(self.root))
        source = {} if self.name == "cgrlist" else {"Source": "cgrlist"}
        kept = {"Package": self.name, **source, "Version": self.release.full, "Architecture": self.architecture,
                "Maintainer": self.release.maintainer, "Installed-Size": size // 1024, "Priority": "optional", **fields}
        control = "".join(f"{name}: {value}\n" for name, value in kept.items())
        files.write(f"{self.root}/DEBIAN/control", f"{control}Description: {about}\n{ABOUT}")
        for at, _, names in os.walk(self.root, topdown=False):
            for name in names:
                os.utime(f"{at}/{name}", (self.release.when,) * 2, follow_symlinks=False)
            os.chmod(at, 0o755)
            os.utime(at, (self.release.when,) * 2)
        path = f"{into}/{self.name}_{self.release.full}_{self.architecture}.deb"
        files.said_by("dpkg-deb", "--root-owner-group", "-Zgzip", "--build", self.root, path)


# ---- The packages -----------------------------------------------------------------------------------------------


def make(release, stage, architecture, glibc, into):
    """Makes the packages of what is below a folder, whose library needs a glibc; without a program, those of the library alone."""
    names = files.names_below(stage)
    soname = next(os.path.basename(it) for it in names if ".so." in it)
    number = soname.rpartition(".")[2]
    of_shared = {f"lib/{soname}"}
    of_dev = {it for it in names if it.startswith(("lib/", "include/", "share/man/man3/", "share/cgrlist/wrappers/"))} - of_shared
    of_program = {it for it in names if it.startswith(("bin/", "share/")) and it != files.LIST} - of_dev
    shared, depends = f"libcgrlist{number}", {"Section": "libs", "Depends": f"libc6 (>= {glibc})", "Multi-Arch": "same"}
    with tempfile.TemporaryDirectory() as room:

        def package(name, of_it, fields, about, **further):
            it = Package(release, name, architecture, room)
            it.take(stage, sorted(of_it))
            it.document(read(f"{files.TOP}/CHANGELOG.md"))
            for place, text in further.items():
                files.write(f"{it.root}/{PLACES[place]}", text)
            it.build(into, fields, about)

        if os.path.exists(f"{stage}/bin/cgrlist"):
            package("cgrlist", of_program, {"Section": "science", "Depends": "python3 (>= 3.9)", "Recommends": shared},
                    "every route through a contact plan, best first", overrides=OVERRIDES)
        package(shared, of_shared, depends, "routes through contact plans, shared library",
                shlibs=f"libcgrlist {number} {shared} (>= {release.version})\n", triggers="activate-noawait ldconfig\n")
        package("libcgrlist-dev", of_dev, {"Section": "libdevel", "Depends": f"{shared} (= {release.full})", "Multi-Arch": "same"},
                "routes through contact plans, for programs in C")
