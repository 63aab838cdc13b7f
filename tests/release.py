"""Tries what `./release` makes, as somebody who has neither a clone nor the prover.

The release is made of the clone as it stands, twice: the second time in another folder, in another zone and with another
mask. Then the archive is unpacked, run in place, also in a root that has nothing else, and installed; the wheel goes into a
fresh environment of Python without a network; the packages of Debian are unpacked, and lintian looks at them if it is here.
release_roots.py tries it in roots of Debian. What is left out is told.
"""

import glob
import os
import re
import shutil
import subprocess
import time

from checking import TOP, Ran, checks_of, last_of
from release_roots import ANSWERS, COMPLETED, FIRST, IN_PROCESS, ROUTED, answered, roots
from releasing import ASKED, Apart, fresh_environment

COMPILING = 3600  # the most seconds


def told(note):
    print(f"release: {note}")


class Released(Apart):
    """A release, and where it is tried."""

    def __init__(self):
        super().__init__()
        self.dist = f"{self.path}/dist"
        shutil.copy(f"{TOP}/examples/relay.txt", self.path)
        words = [f"{TOP}/release", "--draft", "--into", self.dist]
        ran = subprocess.run(words, stdout=subprocess.PIPE, stderr=subprocess.PIPE, timeout=COMPILING, check=False)
        self.made = Ran(ran.returncode, ran.stdout.decode(), ran.stderr.decode())
        self.archive = self.file_like("*.tar.gz")
        self.top = f"{self.path}/{os.path.basename(self.archive)[:-7]}"

    def file_like(self, pattern):
        return (glob.glob(f"{self.dist}/{pattern}") or [f"{self.dist}/{pattern}"])[0]


# ---- The files --------------------------------------------------------------------------------------------------


def what_is_made(room):
    yield "it is made", (0, ""), lambda: (room.made.status, "" if room.made.status == 0 else room.made.err)
    yield "the sums are those of the files", 0, lambda: room.run("sha256sum --check --quiet SHA256SUMS", at=room.dist).status
    yield "it prints them", room.read("dist/SHA256SUMS"), lambda: room.made.out
    proof = room.read("dist/PROOF")
    yield "PROOF has the commit", room.run("git rev-parse HEAD").out.strip(), lambda: re.search(r"^commit (\w+)", proof, re.M)[1]
    yield "PROOF has a verdict of program, library and page", 3, lambda: len(re.findall("^    logic=proved ", proof, re.M))
    yield "PROOF names no place of this machine", "", lambda: "".join(re.findall("/home/.*|/root/.*|/tmp/.*|/work/.*", proof))


def the_same_bytes(room):
    """Another clone, in another folder, with what was compiled of the same sources; what compiles is tried before a release."""
    other = room.clone("another folder")
    for crate, names in (("cgrlist", "cgrlist cgrlist.o proved compiled.json"), ("libcgrlist", "liblibcgrlist.a library.prover compiled.json")):
        os.makedirs(f"{other}/crates/{crate}/out")
        for name in names.split():
            shutil.copy(f"{TOP}/crates/{crate}/out/{name}", f"{other}/crates/{crate}/out")
    ran = room.run("sh -c", ['umask 077; exec "$@"'], "sh", [f"{other}/release"], "--draft", TZ="Asia/Kolkata", LC_ALL="C", HOME=room.path)
    yield "another clone makes the same bytes", (0, room.made.out), lambda: (ran.status, ran.out or ran.err)


def the_archive(room):
    room.run("tar xzf", [room.archive], at=room.path)
    program, home = f"{room.top}/bin/cgrlist", f"{room.path}/home"
    yield "it needs no library and no loader", "", lambda: re.sub(".*INTERP.*|.*NEEDED.*", "found", "".join(
        re.findall(".*(?:INTERP|NEEDED).*", room.run("readelf -ld", [program]).out)))
    began = time.monotonic()
    yield "the first answer, in place", FIRST, lambda: room.alone([program], f"first --plan relay.txt {ASKED}").out
    yield "it takes a second at most", True, lambda: time.monotonic() - began < 1 or time.monotonic() - began
    if room.run("unshare -r true").status:
        told("a root without a C library is left out: unshare makes none here")
    else:
        yield "it runs where nothing else is", FIRST, lambda: room.run(
            "unshare -r chroot", [room.top], f"/bin/cgrlist first --plan /examples/relay.txt {ASKED}").out
    yield from each_tool(room, "in place", f"{room.top}/bin")
    room.alone([f"{room.top}/install", home])
    yield from each_tool(room, "installed", f"{home}/bin")
    yield from what_an_installation_has(room, home)


def each_tool(room, where, folder):
    for tool, (words, wanted) in ANSWERS.items():
        ran = room.alone([f"{folder}/cgrlist-{tool}"], words)
        yield f"cgrlist-{tool} {where}", "", answered, ran, wanted
    yield f"it answers in process {where}", "InProcess", lambda: room.alone(
        "python3 -B -c", [IN_PROCESS], PYTHONPATH=f"{os.path.dirname(folder)}/share/cgrlist").all().split(" ")[0]


def what_an_installation_has(room, home):
    if shutil.which("cc") and shutil.which("pkg-config"):
        further = {"PKG_CONFIG_PATH": f"{home}/lib/pkgconfig", "LD_LIBRARY_PATH": f"{home}/lib"}
        made = f"cc {TOP}/examples/router.c $(pkg-config --cflags --libs cgrlist) -o router && ./router {TOP}/examples/a.txt 1 3 1893456000"
        yield "a program in C", ROUTED, lambda: (
            room.alone("sh -c", [made], **further).all().partition("\n")[0])
    if shutil.which("man"):
        for page in ("1 cgrlist", "1 cgrlist-report", "3 cgrlist"):
            yield f"man {page}", 0, lambda page=page: room.alone("man -w", page, MANPATH=f"{home}/share/man").status
    complete = f'source "{home}/share/bash-completion/completions/cgrlist"; {COMPLETED}'
    yield "a completion", "verify\n", lambda: room.alone("bash -c", [complete]).out


def the_wheel(room):
    at, pip = f"{room.path}/fresh", fresh_environment(room, "fresh")
    before = room.below(at)
    ran = room.alone(pip, "install --no-index --quiet", [room.file_like("*.whl")])
    yield "pip installs the wheel without a network", "", ran.all
    yield "it answers in process", "InProcess (4, 11, 2)", lambda: room.alone([f"{at}/bin/python"], "-c", [IN_PROCESS]).all()
    yield "its program answers", FIRST, lambda: room.alone([f"{at}/bin/cgrlist"], f"first --plan relay.txt {ASKED}").out
    for tool, (words, wanted) in ANSWERS.items():
        ran = room.alone([f"{at}/bin/cgrlist-{tool}"], words)
        yield f"cgrlist-{tool} of the wheel", "", answered, ran, wanted
    room.alone(pip, "uninstall --yes --quiet cgrlist")
    yield "uninstalling leaves nothing", before, lambda: [it for it in room.below(at) if "pycache" not in it or it in before]


def the_packages(room):
    root = f"{room.path}/debian"
    for path in sorted(glob.glob(f"{room.dist}/*.deb")):
        room.run("dpkg-deb -x", [path, root])
    yield "the program of the package", FIRST, lambda: room.alone([f"{root}/usr/bin/cgrlist"], f"first --plan relay.txt {ASKED}").out
    yield from each_tool(room, "of the package", f"{root}/usr/bin")
    yield "each link leads to a file", [], lambda: [it for it in room.below(root) if not os.path.exists(f"{root}/{it}")]
    if not shutil.which("lintian"):
        told("lintian is left out, it isn't here")
        return
    ran = room.run("lintian", sorted(glob.glob(f"{room.dist}/*.deb")))
    yield "lintian finds no error", "", lambda: "\n".join(it for it in (ran.out + ran.err).splitlines() if it.startswith("E:"))


def the_rows_of_tests(room):
    """All rows of runs, over the program of the release."""
    ran = room.run("tests/run runs --cgrlist", [f"{room.top}/bin/cgrlist"])
    yield "the rows of tests/run", "0 failed", lambda: last_of(ran.out).partition(", ")[2] or ran.all()


def is_proved():
    """Whether the proved program and the library are there, so that a release takes minutes."""
    has_program = subprocess.run([f"{TOP}/cgrlist", "--version"], env={**os.environ, "CGRLIST_TRIAL": "no"}, stdout=subprocess.PIPE,
                                 stderr=subprocess.STDOUT, check=False).returncode != 125
    return has_program and os.path.exists(f"{TOP}/library/out/cgrlist.pc")


def checks(asked):
    if asked.trials or not is_proved():
        told("what is made is left out: " + ("a trial isn't released" if asked.trials else "./cgrlist --prove and library/build come first"))
        return
    yield from checks_of("release", Released(), [
        what_is_made, the_same_bytes, the_archive, the_wheel, the_packages, the_rows_of_tests, roots])
