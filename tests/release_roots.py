"""Tries a release in roots of Debian, without a network: packages, wheel and archive are installed over a version before, asked
by an ordinary user, and removed again. If root runs this, and CGRLIST_ROOTS names a folder of roots, as

    debootstrap --variant=minbase --include=python3,python3-venv,man-db,gcc,libc6-dev,pkg-config bookworm ROOTS/bookworm

makes one, then each is tried. All that is installed is removed from it.
"""

import base64
import glob
import hashlib
import os
import shutil
import subprocess
import tempfile
import time
import zipfile

from checking import SECONDS, Ran
from releasing import ASKED

BEFORE = "1.1.99"  # the version before
FIRST = "1 delivery 2030/01/01-02:47:22 hops 3 entry 22 until 2030/01/01-02:20:00 contacts 4 11 2\nmore\n"
ROUTED = "to node 2 first, there at 1893456015, over 1 4"
COMPLETED = 'COMP_WORDS=(cgrlist ve) COMP_CWORD=1; _cgrlist; echo "${COMPREPLY[@]}"'
IN_PROCESS = """import cgrlist
plan = cgrlist.Plan.from_file("relay.txt")
print(type(plan.asked).__name__, plan.first(31, 1, at="2030-01-01T00:45:00Z", count=1)[0].contacts)
"""
# What a tool is asked, and what is in its answer.
ANSWERS = {
    "check": ("--plan relay.txt", "contacts 20"), "compare": ("relay.txt relay.txt", ""),
    "from-ionrc": ("relay.txt", "a contact "),
    "latest": ("--plan relay.txt --from 31 --to 1 --by 2030/01/01-06:27:22", "contacts 6 12 2"),
    "report": (f"--plan relay.txt {ASKED}", "31 > 22 > 12 > 1"), "timeline": (f"--plan relay.txt {ASKED} --text", "delivery"),
    "timetable": ("--plan relay.txt --from 31 --to 1 --between 2030/01/01-00:00:00 2030/01/01-00:01:00", ""),
}
OWN = ("dev", "home", "proc", "release", "run", "tmp", "var/cache", "var/lib/apt", "var/lib/dpkg", "var/log")  # what changes by itself
OWN_FILES = ("etc/ld.so.cache", "var/cache", "etc/passwd-", "etc/shadow-")


def answered(ran, wanted):
    """What a run printed that doesn't have what is wanted; empty if it has."""
    return "" if ran.status == 0 and wanted in ran.out else ran.all() or f"no {wanted}"


class Root:
    """A root, with an ordinary user, and the release in the folder /release. What it prints has no place of that user's."""

    def __init__(self, path, dist):
        self.path = path
        for folder in ("release", "home/somebody"):
            shutil.rmtree(f"{path}/{folder}", ignore_errors=True)
        self.run("grep -q ^somebody: /etc/passwd || useradd --no-create-home --shell /bin/bash somebody")
        self.run("cp -r /etc/skel /home/somebody; chown -R somebody: /home/somebody")
        shutil.copytree(dist, f"{path}/release")
        before = f"{path}/release/before"
        os.mkdir(before)
        for file in glob.glob(f"{dist}/*"):
            {"deb": package_before, "whl": wheel_before, "gz": archive_before}.get(file.rpartition(".")[2], lambda *_: None)(file, before)
        self.run("chmod -R a+rX /release")

    def run(self, text, user="root"):
        """Runs a text of the shell as a user, as after a login."""
        inside = 'mount -t proc none "$0/proc" && exec chroot "$0" su - "$1" -c "$2"'
        words = ["unshare", "--net", "--mount", "sh", "-c", inside, self.path, user, text]
        ran = subprocess.run(words, env={"PATH": "/usr/sbin:/usr/bin:/sbin:/bin", "LC_ALL": "C.UTF-8"}, stdin=subprocess.DEVNULL,
                             stdout=subprocess.PIPE, stderr=subprocess.PIPE, timeout=SECONDS, check=False)
        return Ran(ran.returncode, ran.stdout.decode(errors="replace"), ran.stderr.decode(errors="replace"))

    def by_user(self, text):
        return self.run(text, "somebody")

    def files(self, folder=""):
        """The files, links and folders below a folder, but for what changes by itself."""
        top = f"{self.path}/{folder}".rstrip("/")
        found = []
        for at, folders, names in os.walk(top):
            folders[:] = [it for it in folders if os.path.relpath(f"{at}/{it}", self.path) not in OWN or folder]
            found += (os.path.relpath(f"{at}/{it}", top) for it in [*folders, *names])
        return sorted(it for it in found if not it.startswith(OWN_FILES))

    def leave(self):
        self.run("userdel somebody")
        for folder in ("release", "home/somebody"):
            shutil.rmtree(f"{self.path}/{folder}", ignore_errors=True)


# ---- The version before, with a file that is no more ------------------------------------------------------------


def package_before(path, into):
    with tempfile.TemporaryDirectory() as room:
        subprocess.run(["dpkg-deb", "--raw-extract", path, f"{room}/it"], check=True)
        name, version = os.path.basename(path).split("_")[:2]
        with open(f"{room}/it/DEBIAN/control", encoding="utf-8") as file:
            control = file.read().replace(version, f"{BEFORE}-1")
        with open(f"{room}/it/DEBIAN/control", "w", encoding="utf-8") as file:
            file.write(control)
        with open(f"{room}/it/usr/share/doc/{name}/no-more", "w", encoding="utf-8"):
            pass
        subprocess.run(["dpkg-deb", "--root-owner-group", "-Zgzip", "--build", f"{room}/it", into], stdout=subprocess.DEVNULL, check=True)


def wheel_before(path, into):
    name, version, rest = os.path.basename(path).split("-", 2)
    old = f"{name}-{version}.", f"{name}-{BEFORE}."
    with zipfile.ZipFile(path) as wheel, zipfile.ZipFile(f"{into}/{name}-{BEFORE}-{rest}", "w", zipfile.ZIP_DEFLATED) as before:
        rows = []
        for it in [*wheel.infolist(), zipfile.ZipInfo("cgrlist/no_more.py")]:
            data = wheel.read(it.filename) if it.file_size else b""
            info = zipfile.ZipInfo(it.filename.replace(*old))
            info.external_attr = it.external_attr
            if info.filename.endswith("METADATA"):
                data = data.replace(f"Version: {version}".encode(), f"Version: {BEFORE}".encode())
            if not info.filename.endswith("RECORD"):
                before.writestr(info, data)
                digest = base64.urlsafe_b64encode(hashlib.sha256(data).digest()).decode().rstrip("=")
                rows.append(f"{info.filename},sha256={digest},{len(data)}\n")
        record = f"{name}-{BEFORE}.dist-info/RECORD"
        before.writestr(record, "".join([*rows, f"{record},,\n"]))


def archive_before(path, into):
    with tempfile.TemporaryDirectory() as room:
        subprocess.run(["tar", "xzf", path, "-C", room], check=True)
        top = os.listdir(room)[0]
        with open(f"{room}/{top}/share/cgrlist/files", "a", encoding="utf-8") as file:
            file.write("bin/cgrlist-no-more\n")
        shutil.copy(f"{room}/{top}/install", f"{room}/{top}/bin/cgrlist-no-more")
        subprocess.run(["tar", "czf", f"{into}/before.tar.gz", "-C", room, top], check=True)


# ---- What is tried in a root ------------------------------------------------------------------------------------


def each_tool(root, where, folder=""):
    """The first answer, in a second, and each tool, of what is installed in a folder or in the path."""
    began = time.monotonic()
    yield f"the first answer {where}", (FIRST, True), lambda: (
        root.by_user(f"{folder}cgrlist first --plan relay.txt {ASKED}").out, time.monotonic() - began < 1)
    for tool, (words, wanted) in ANSWERS.items():
        yield f"cgrlist-{tool} {where}", "", answered, root.by_user(f"{folder}cgrlist-{tool} {words}"), wanted


def the_packages(root):
    before = root.files()
    words = "apt-get install --quiet --quiet --yes ./cgrlist_*_amd64.deb ./libcgrlist*_amd64.deb"
    first = root.run(f"cd /release/before && {words}")
    yield "the packages are installed", (0, f"{BEFORE}-1"), lambda: (
        first.status, root.run("dpkg-query -f '${Version}' -W cgrlist").out or first.all())
    yield "the version before has files that are no more", True, lambda: any("no-more" in it for it in root.files()) or root.files()
    ran = root.run(f"cd /release && {words}")
    yield "they are upgraded", (0, 3), lambda: (ran.status, ran.out.count("\nUnpacking ") or ran.all())
    yield "then these files are gone", [], lambda: [it for it in root.files() if "no-more" in it]
    root.by_user("cd /usr/share/doc/cgrlist/examples && cp relay.txt a.txt router.c ~")
    yield from each_tool(root, "of the packages")
    yield "man cgrlist", "", lambda: answered(root.by_user("man cgrlist && man 3 cgrlist && man cgrlist-report"), "EXIT STATUS")
    yield "a completion", "verify\n", lambda: root.by_user(f". /usr/share/bash-completion/completions/cgrlist; {COMPLETED}").out
    made = "cc router.c $(pkg-config --cflags --libs cgrlist) -o router && ./router a.txt 1 3 1893456000"
    yield "a program in C", "", lambda: answered(root.by_user(made), ROUTED)
    yield "the tools answer in process", "InProcess (4, 11, 2)", lambda: (
        root.by_user(f"PYTHONPATH=/usr/share/cgrlist python3 -B -c '{IN_PROCESS}'").all())
    root.run("apt-get purge --quiet --quiet --yes cgrlist 'libcgrlist*'")
    yield "purging leaves nothing", [], lambda: sorted({*root.files()} ^ {*before})


def the_wheel(root):
    root.by_user("python3 -m venv e")
    before, words = root.files("home/somebody"), "e/bin/pip install --no-index --disable-pip-version-check --quiet --upgrade"
    yield "pip installs the wheel", "", lambda: root.by_user(f"{words} /release/before/*.whl").all()
    yield "it is upgraded", "0\n", lambda: root.by_user(f"{words} /release/*.whl && find e -name 'no_more*' | wc -l").all() + "\n"
    yield from each_tool(root, "of the wheel", "e/bin/")
    yield "it answers in process", "InProcess (4, 11, 2)", lambda: root.by_user(f"e/bin/python -B -c '{IN_PROCESS}'").all()
    root.by_user("e/bin/pip uninstall --yes --quiet cgrlist")
    yield "uninstalling the wheel leaves nothing", [], lambda: [
        it for it in sorted({*root.files("home/somebody")} ^ {*before}) if "__pycache__" not in it]
    root.by_user("rm -r e")


def the_archive(root):
    root.by_user("tar xzf /release/before/before.tar.gz && mv cgrlist-* before && tar xzf /release/*.tar.gz")
    before = root.files("home/somebody")
    for folder in ("before", "cgrlist-*"):
        yield f"`install` of {folder}", 0, lambda folder=folder: root.by_user(f"{folder}/install ~/.local").status
    yield "an upgrade takes away what is no more", False, os.path.lexists, f"{root.path}/home/somebody/.local/bin/cgrlist-no-more"
    yield from each_tool(root, "of the archive")  # ~/.profile has the folder in the path, now that it is there
    yield "man cgrlist of the archive", "", lambda: answered(root.by_user("man cgrlist"), "EXIT STATUS")
    made = "cc router.c $(PKG_CONFIG_PATH=.local/lib/pkgconfig pkg-config --cflags --libs cgrlist) -o r"
    yield "a program in C over the archive", "", lambda: (
        answered(root.by_user(f"{made} && LD_LIBRARY_PATH=.local/lib ./r a.txt 1 3 1893456000; rm r"), ROUTED))
    yield "`install --uninstall`", 0, lambda: root.by_user("cgrlist-*/install --uninstall ~/.local").status
    yield "uninstalling leaves nothing", [], lambda: sorted({*root.files("home/somebody")} ^ {*before})
    yield "the program runs where nothing else is", FIRST, lambda: alone_in_a_root(glob.glob(f"{root.path}/home/somebody/cgrlist-*")[0])


def alone_in_a_root(folder):
    words = f"/bin/cgrlist first --plan /examples/relay.txt {ASKED}".split()
    return subprocess.run(["chroot", folder, *words], stdout=subprocess.PIPE, check=False).stdout.decode()


def roots(room):
    """All that is tried, in each root. A title names the root, too."""
    folder = os.environ.get("CGRLIST_ROOTS")
    if not folder or os.getuid():
        print("release: roots of Debian are left out: " + ("this isn't root" if folder else "CGRLIST_ROOTS names none"))
        return
    for path in sorted(it for it in glob.glob(f"{folder}/*") if os.path.isdir(f"{it}/usr")):
        root = Root(path, room.dist)
        for section in (the_packages, the_wheel, the_archive):
            for title, *rest in section(root):
                yield (f"{os.path.basename(path)}: {title}", *rest)
        root.leave()
