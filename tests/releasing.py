"""Tries `./release` over stand-ins: a kit that proves nothing, and has one object for the program and one for the library, in
clones of this one. So all but proofs is tried here, and nothing that is made is a release. release.py tries one.
"""

import glob
import os
import re
import shutil
import signal
import subprocess
import sys
import time

from checking import SECONDS, TOP, Room, checks_of

sys.path.insert(0, f"{TOP}/tools")
import wheel

TOOLS = [it.replace("_", "-") for it in wheel.commands()]
ASKED = "--from 31 --to 1 --at 2030/01/01-00:45:00 --count 1"
CROSS = "aarch64-linux-gnu-gcc"
NOBODY = "setpriv --reuid=65534 --regid=65534 --clear-groups"
# The kit's commands. `rt ci` proves nothing and leaves a program; while there is a file ROOM/slow, it waits, and notes each signal.
RT = r"""#!/bin/sh
kit=$(dirname "$(dirname "$(readlink -f "$0")")")
case $1 in
    version) echo stand-in; exit ;;
    doc) echo "$kit/START-HERE.md"; exit ;;
esac
if [ -e "$ROOM/slow" ]; then
    trap 'echo stopped >>"$ROOM/signals"; exit 1' INT TERM
    : >"$ROOM/waiting"
    while :; do sleep 0.1; done
fi
pwd >>"$ROOM/proving"
for crate in crates/*; do
    mkdir -p "$crate/out/rlib/${crate#*/}.rlib/toolchain"
    echo '[["f"], ["f::fn::0"]]' >"$crate/out/rlib/${crate#*/}.rlib/toolchain/mir.json"
done
cp "$kit/program" crates/cgrlist/out/cgrlist
"""
RATTLE = r"""#!/bin/sh
case $* in *' aarch64-'*) kind=arm- ;; *) kind='' ;; esac
for word; do made=$word; done
cp "$(dirname "$0")/../$kind${made##*.}" "$made"
echo 'logic=proved functions=1 incremental=trusted'
echo 'axioms none'
"""
LINK = r"""#!/bin/sh
while [ "$1" != -o ]; do shift; done
cp "$(dirname "$0")/../program" "$2"
"""


def told(note):
    print(f"releasing: {note}")


class Apart(Room):
    """Where a release is tried, apart from this clone."""

    def alone(self, *words, **further):
        """Runs words in the room, with these variables alone, and no program but the system's."""
        around = {"PATH": "/usr/bin:/bin", "HOME": self.path, "LC_ALL": "C.UTF-8", **further}
        return self.run("env -i", [f"{name}={text}" for name, text in around.items()], *words, at=self.path)

    def below(self, folder):
        """The files, links and folders below a folder."""
        return sorted(os.path.relpath(f"{at}/{it}", folder) for at, folders, names in os.walk(folder) for it in [*folders, *names])

    def clone(self, name):
        """The path of a new clone, with the files of this one as they stand."""
        path = f"{self.path}/{name}"
        self.run("git clone --quiet --local", [TOP, path])
        for changed in self.run("git diff --name-only HEAD").out.splitlines():
            if not os.path.exists(f"{TOP}/{changed}"):
                os.remove(f"{path}/{changed}")
        for there in self.run("git ls-files --cached --others --exclude-standard").out.splitlines():
            if os.path.isfile(f"{TOP}/{there}"):
                os.makedirs(os.path.dirname(f"{path}/{there}"), exist_ok=True)
                shutil.copy(f"{TOP}/{there}", f"{path}/{there}")
        return path


class Clones(Apart):
    """Clones in which all is committed, and the kit of stand-ins."""

    def __init__(self):
        super().__init__()
        os.chmod(self.path, 0o755)
        self.kit, self.home = f"{self.path}/kit", f"{self.path}/nobody"
        os.makedirs(f"{self.kit}/bin")
        os.mkdir(self.home)
        for name, text in (("rt", RT), ("rattle", RATTLE), ("rattle-link", LINK)):
            self.stub(f"kit/bin/{name}", text)
        self.compile("int main(void) { return 0; }", "o")
        self.run("cc -o", [f"{self.kit}/program", f"{self.kit}/o"])
        library = "".join(f"void {it}(void) {{}}\n" for it in proved_names())
        self.compile(library, "library.o")
        self.compile("", "heap.pic.o")
        if shutil.which(CROSS):
            self.compile(library, "arm-library.o", CROSS)
        os.mkdir(f"{self.kit}/c")
        archives = {"a": "library.o", "arm-a": "arm-library.o", "c/liblibc_c.a": "heap.pic.o", "c/libos_c.a": "heap.pic.o"}
        for archive, made in archives.items():
            if os.path.exists(f"{self.kit}/{made}"):
                self.run("ar rcsD", [f"{self.kit}/{archive}", f"{self.kit}/{made}"])
        shutil.copy(f"{TOP}/examples/relay.txt", self.path)
        self.first = self.clone("one")

    def compile(self, text, name, compiler="cc"):
        self.run(f"{compiler} -x c -fPIC -c - -o", [f"{self.kit}/{name}"], given=text)

    def clone(self, name):
        path = super().clone(name)
        self.run("git add --all", at=path)
        self.run("git -c user.name=A -c user.email=a@example.org commit --quiet --allow-empty --message=stand-ins", at=path,
                 GIT_AUTHOR_DATE="1893456000 +0000", GIT_COMMITTER_DATE="1893456000 +0000")
        return path

    def release(self, clone, *words, by="", **further):
        return self.run(by, [f"{clone}/release", *words], at=self.path, **self.around(**further))

    def around(self, **further):
        """What is set around a release."""
        return {"PATH": f"{self.kit}/bin:/usr/sbin:/usr/bin:/sbin:/bin", "ROOM": self.path, "LC_ALL": "C", **further}

    def left(self, clone):
        """What releases left at the top of a clone."""
        return sorted(it for it in os.listdir(clone) if it.startswith("dist"))


def proved_names():
    """The functions that the crate of the library exports."""
    header = f"{TOP}/library/proved.h" if os.path.exists(f"{TOP}/library/proved.h") else f"{TOP}/library/cgrlist.h"
    with open(header, encoding="ascii") as file:
        found = re.findall(r"^(?:uint32_t|size_t|void) (cgrlist_[a-z_]+)", file.read(), re.M)
    return [it.replace("cgrlist_proved_", "cgrlist_") for it in found]


# ---- What is made -----------------------------------------------------------------------------------------------


def what_names_the_version(room):
    yield "each file names one version", f"the version is {wheel.version()}\n", lambda: room.run("./release --check").out


def what_is_made(room):
    made, dist = room.release(room.first, "--draft"), f"{room.first}/dist"
    yield "it is made", (0, ""), lambda: (made.status, made.err.partition("release: proving and compiling")[0])
    yield "an archive, three packages, a wheel, PROOF and the sums", "deb deb deb gz whl PROOF SHA256SUMS", lambda: " ".join(
        sorted((it.rpartition(".")[2] for it in os.listdir(dist)), key=lambda it: (it.isupper(), it)))
    yield "the sums are those of the files", 0, lambda: room.run("sha256sum --check --quiet SHA256SUMS", at=dist).status
    yield "it prints them", room.read("one/dist/SHA256SUMS"), lambda: made.out
    proof = room.read("one/dist/PROOF")
    yield "PROOF has the commit", room.run("git rev-parse HEAD", at=room.first).out.strip(), lambda: (
        re.search(r"^commit (\w+)", proof, re.M)[1])
    yield "PROOF has the verdicts of program and library, without what was taken in one run", 2, lambda: len(
        re.findall("^    logic=proved functions=1$", proof, re.M))
    summing = re.search("^    (find .*)$", proof, re.M)[1].replace("CRATE", "sabr_plan")
    yield "PROOF has the sum that it says how to make", re.search(r"^    sabr_plan .*  (\w+)$", proof, re.M)[1], lambda: (
        room.run("bash -c", [summing], at=room.first).out.split(" ")[0])
    yield "PROOF names no place of this machine", [], lambda: re.findall(f"{room.path}.*|/home/.*|/root/.*|/tmp/.*", proof)
    again = room.release(room.first, "--draft")
    yield "the second time, nothing is compiled", (0, made.out, ""), lambda: (again.status, again.out, again.err)


def the_same_bytes(room):
    """Another clone, in another folder, of another user, with other times."""
    other = room.clone("another folder")
    room.run("find", [other], "-exec touch -h -d 2001-02-03 {} +")
    by = ""
    if os.getuid() == 0:
        room.run("chown -R 65534:65534", [other, room.home])
        by = NOBODY
    else:
        told("another user's clone is left out: this isn't root")
    mask = ["sh", "-c", 'umask 077; exec "$@"', "sh"]
    ran = room.run(by, mask, [f"{other}/release", "--draft"], at=room.path, **room.around(
        TZ="Asia/Kolkata", LC_ALL="C.UTF-8", HOME=room.home, SOURCE_DATE_EPOCH="1", COLUMNS="40"))
    yield "another clone makes the same bytes", (0, room.read("one/dist/SHA256SUMS")), lambda: (ran.status, ran.out or ran.err)


def after_the_gate(room):
    """After an `rt ci` of a clone, program and library are compiled over its libraries, and no other `rt ci` runs."""
    clone = room.clone("gated")
    refused = f"release: `rt ci` hasn't proved crates/sabr_model as it stands\nstatus 1"
    yield "before the gate", refused, lambda: room.release(clone, "--compile").all().partition("\n")[2]
    room.run("rt ci", at=clone, **room.around())
    room.file("proving")
    yield "it compiles", 0, lambda: room.release(clone, "--compile").status
    made = room.release(clone, "--draft")
    yield "then a release compiles nothing", (0, ""), lambda: (made.status, made.err)
    yield "nothing was proved anew", "", room.read, "proving"
    room.run("touch", [f"{clone}/crates/sabr_plan/src/lib.rt"])
    os.remove(f"{clone}/crates/cgrlist/out/compiled.json")
    yield "a source that is newer", refused.replace("model", "plan"), lambda: (
        room.release(clone, "--compile").all().partition("\n")[2])


def what_is_made_for_arm(room):
    if not shutil.which(CROSS):
        told(f"files for ARM are left out: there is no {CROSS}")
        return
    before = room.read("one/dist/SHA256SUMS").splitlines()
    made = room.release(room.first, "--draft", "--arm")
    yield "--arm makes an archive, two packages and a wheel besides", "deb deb gz whl", lambda: " ".join(sorted(
        it.rpartition(".")[2] for it in {*made.out.split()[1::2]} - {it.split()[1] for it in before}) or made.all())
    made = room.run("tar tzf", glob.glob(f"{room.first}/dist/*aarch64.tar.gz")).out.splitlines()
    yield "the archive for ARM has the library twice, for programs and for the tools, and no program", (2, 0), lambda: (
        sum(".so." in it for it in made), sum(it.endswith("/bin/cgrlist") for it in made))
    room.release(room.first, "--draft")


# ---- What is refused, and what stops it -------------------------------------------------------------------------


def what_is_refused(room):
    clone = room.clone("changed")
    with open(f"{clone}/README.md", "a", encoding="utf-8") as file:
        file.write("\n")
    for title, name in (("a change that no commit has", "README.md"), ("a file that no commit has", "tools/cgrlist/new.py")):
        refused = room.release(clone)
        yield title, (1, f" {name}"), lambda refused=refused, name=name: (
            refused.status, refused.err[refused.err.find(name) - 1:][:len(name) + 1])
        room.run("git checkout --quiet .", at=clone)
        room.file("changed/tools/cgrlist/new.py")
    yield "then nothing is made", [], room.left, clone
    os.remove(f"{clone}/tools/cgrlist/new.py")
    with open(f"{clone}/tools/cgrlist/version.py", "w", encoding="utf-8") as file:
        file.write('VERSION = "9.8.7"\n')
    others = room.run([f"{clone}/release"], "--check")
    yield "files of another version", (1, "CHANGELOG.md"), lambda: (others.status, others.out.splitlines()[1].partition(":")[0])
    room.run("git checkout --quiet .", at=clone)
    yield "words that it doesn't know", 2, lambda: room.release(clone, "--nowhere").status
    yield "no rt", "release: there is no command rt, which proves and compiles the crates\nstatus 1", lambda: room.release(
        clone, "--draft", PATH="/usr/bin:/bin").all()
    os.mkdir(f"{room.path}/mine")
    room.file("mine/thesis")
    message = f"release: {room.path}/mine has something else than a release; it isn't replaced\nstatus 1"
    yield "a folder with something else", (message, ["thesis"]), lambda: (
        room.release(clone, "--draft", "--into", f"{room.path}/mine").all(), os.listdir(f"{room.path}/mine"))
    room.run("cp cgrlist other", at=f"{room.path}/one/crates/cgrlist/out")
    with open(f"{room.first}/crates/cgrlist/out/cgrlist", "ab") as file:
        file.write(b"another program")
    differs = room.release(room.first, "--draft")
    yield ("a program that isn't the object's", f"release: {room.first}/crates/cgrlist/out/cgrlist.o isn't the object of "
           "crates/cgrlist/out/cgrlist: remove it, and run this again\nstatus 1", differs.all)
    room.run("mv other cgrlist", at=f"{room.path}/one/crates/cgrlist/out")


def what_stops_it(room):
    """A signal ends it, and what it runs gets one. No folder is half made, and what is there stays."""
    clone = room.clone("stopped")
    for number, to_all in ((signal.SIGINT, True), (signal.SIGTERM, False), (signal.SIGHUP, False)):
        for name in ("slow", "waiting", "signals"):
            room.file(name)
        os.remove(f"{room.path}/waiting")
        with subprocess.Popen([f"{clone}/release", "--draft"], env={**os.environ, **room.around()}, stderr=subprocess.PIPE,
                              start_new_session=True, text=True) as running:
            end = time.monotonic() + SECONDS
            while not os.path.exists(f"{room.path}/waiting") and running.poll() is None and time.monotonic() < end:
                time.sleep(0.05)
            (os.killpg if to_all else os.kill)(running.pid, number)
            err = running.communicate(timeout=SECONDS)[1]
        yield f"stopped by {number.name}", (128 + number, "release: stopped; what is proved and compiled so far is kept"), lambda: (
            running.returncode, err.splitlines()[-1])
        yield f"rt gets one signal of {number.name}", "stopped\n", room.read, "signals"
        yield f"{number.name} leaves nothing", [], room.left, clone
    os.remove(f"{room.path}/slow")
    yield "it goes on", room.read("one/dist/SHA256SUMS"), lambda: room.release(clone, "--draft").out


def full_disks(room):
    """On a disk that is too small, what was there stays, and nothing half made. The clone is compiled already."""
    small = f"{room.path}/small"
    os.mkdir(small)
    mount = f'mount -t tmpfs -o size=$1 none "{small}" || exit 9; shift; "$@"; echo $?; ls -A "{small}"'
    for size in ("100k", "1500k", "3000k"):
        words = [f"{room.first}/release", "--draft", "--into", f"{small}/dist"]
        ran = room.run("unshare -rm sh -c", [mount, "sh", size, *words], **room.around())
        if ran.status == 9 or "unshare" in ran.err:
            told("full disks are left out: unshare mounts none here")
            return
        yield f"a disk of {size}", ("1\n", ["No space left on device", "free some of the disk"]), lambda ran=ran: (
            ran.out, re.findall("No space left on device|free some of the disk", ran.err))


def files_of_others(room):
    if os.getuid():
        told("files of another user are left out: this isn't root")
        return
    clone = room.first
    refused = room.release(clone, "--draft", by=NOBODY, HOME=room.home)
    advice = f"git config --global --add safe.directory {clone}/.git && git clone {clone}"
    message = f"release: you can't write to {clone}, which is root's. Make a clone of your own: {advice}\nstatus 1"
    yield "a clone of another user", message, refused.all
    room.run("chown 65534:65534", [room.home])
    cloned = room.run(NOBODY, "sh -c", [advice], at=room.home, HOME=room.home)
    yield "what it says to do makes a clone", (0, True), lambda: (cloned.status, os.path.exists(f"{room.home}/one/release"))
    out = f"{room.home}/one/crates/cgrlist/out"
    os.mkdir(out)
    message = f"release: you can't write to {out}, which is root's. Let root remove it\nstatus 1"
    yield "what another user made in the clone", message, lambda: (
        room.release(f"{room.home}/one", "--draft", by=NOBODY, HOME=room.home).all())
    place = f"{room.path}/another folder"
    refused = room.release(place, "--draft", "--into", f"{room.path}/mine/dist", by=NOBODY, HOME=room.home)
    yield ("a folder of another user", "Permission denied; if it is another user's, remove it, or name a folder of yours by --into\nstatus 1",
           lambda: refused.all().partition(": ")[2].partition(": ")[2])


# ---- What is installed of it ------------------------------------------------------------------------------------


def fresh_environment(room, name):
    """Makes an environment of Python, and returns the words that begin a call of pip for it."""
    room.run("python3 -m venv --without-pip", [f"{room.path}/{name}"])
    return [sys.executable, "-m", "pip", "--python", f"{room.path}/{name}/bin/python"]


def the_package(room):
    """pip takes the package from a clone that can't be written, without a network, and leaves nothing there."""
    tools = f"{room.path}/package/tools"
    room.clone("package")
    before = room.below(tools)
    room.run("chmod -R a-w", [tools])
    ran = room.alone(fresh_environment(room, "plain"), "install --no-index --quiet", [tools])
    yield "pip installs the package", "", ran.all
    yield "it leaves nothing in the clone", before, room.below, tools
    yield "its commands are there", [f"cgrlist-{it}" for it in TOOLS], lambda: sorted(
        os.path.basename(it) for it in glob.glob(f"{room.path}/plain/bin/cgrlist*"))
    yield ("without a program it says how to get one",
           "cgrlist-report: there is no program: looked for it here and in the path; --program or CGRLIST names another place; a release has "
           "one, and cgrlist.html answers in a browser\nstatus 125", lambda: room.alone(
               [f"{room.path}/plain/bin/cgrlist-report"], f"--plan relay.txt {ASKED}").all())
    room.run("chmod -R u+w", [tools])


def what_install_does(room):
    room.run("tar xzf", glob.glob(f"{room.first}/dist/*.tar.gz"), at=room.path)
    top, home = glob.glob(f"{room.path}/cgrlist-*")[0], f"{room.path}/a | home & \\1"
    with open(f"{top}/share/cgrlist/files", encoding="utf-8") as file:
        files = file.read().splitlines()
    yield "`install` has all files", files, lambda: sorted(
        it for it in room.below(top) if it.startswith(("bin/", "include/", "lib/", "share/")) and not (
            os.path.isdir(f"{top}/{it}") and not os.path.islink(f"{top}/{it}")))
    ran = room.alone([f"{top}/install", home])
    yield "it installs, and prints each file", (0, [f"{home}/{it}" for it in files]), lambda: (ran.status, ran.out.splitlines())
    yield "the prefix stands in cgrlist.pc", f"prefix={home}", lambda: room.read("a | home & \\1/lib/pkgconfig/cgrlist.pc").partition("\n")[0]
    installed = room.below(home)
    room.file("a | home & \\1/bin/cgrlist-old")
    with open(f"{home}/share/cgrlist/files", "a", encoding="utf-8") as file:
        file.write("bin/cgrlist-old\n")
    room.alone([f"{top}/install", home])
    yield "an upgrade takes away what is no more", installed, room.below, home
    yield from too_small(room, top)
    room.file("a | home & \\1/other")
    ran = room.alone([f"{top}/install"], "--uninstall", [home])
    yield "uninstalling leaves what others put there", (0, ["other"]), lambda: (ran.status, room.below(home))
    os.remove(f"{home}/other")
    for title, words in (("a fresh prefix", [home]), ("DESTDIR", ["/usr"])):
        further = {"DESTDIR": home} if title == "DESTDIR" else {}
        shutil.rmtree(home, ignore_errors=True)
        room.alone([f"{top}/install"], words, **further)
        room.alone([f"{top}/install"], "--uninstall", words, **further)
        yield f"uninstalling leaves nothing: {title}", [], lambda: [it for it in room.below(home) if not os.path.isdir(f"{home}/{it}")]
    yield "a fresh prefix is gone", False, lambda: (room.alone([f"{top}/install"], [f"{home}/new"]),
                                                  room.alone([f"{top}/install"], "--uninstall", [f"{home}/new"]), os.path.exists(f"{home}/new"))[2]
    yield "nothing to uninstall", 1, lambda: room.alone([f"{top}/install"], "--uninstall", [home]).status
    yield "words that it refuses", "install: PREFIX must begin with /: usr\nstatus 2", lambda: room.alone([f"{top}/install"], "usr").all()
    room.file("no folder")
    yield "a file in the place of PREFIX", 1, lambda: room.alone([f"{top}/install"], [f"{room.path}/no folder"]).status


def too_small(room, top):
    """Installing on a disk that is too small, what was there stays, and nothing half made."""
    small = f"{room.path}/little"
    os.mkdir(small)
    mount = f'mount -t tmpfs -o size=300k none "{small}" || exit 9; "$@"; echo $?; ls -A "{small}"'
    ran = room.alone("unshare -rm sh -c", [mount], "sh", [f"{top}/install", small])
    if ran.status == 9 or "unshare" in ran.err:
        told("installing on a full disk is left out: unshare mounts none here")
    else:
        yield "it installs nothing on a full disk", ("1\n", True), lambda: (ran.out, "No space left on device; nothing was changed" in ran.err or ran.err)


def checks(_):
    for tool in ("cc", "git", "dpkg-deb", "readelf"):
        if not shutil.which(tool):
            told(f"all is left out: there is no {tool}")
            return
    yield from checks_of("releasing", Clones(), [
        what_names_the_version, what_is_made, the_same_bytes, after_the_gate, what_is_made_for_arm, what_is_refused, what_stops_it, full_disks,
        files_of_others, the_package, what_install_does])
