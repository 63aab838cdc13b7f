"""The files of a release, in a folder as they are installed, and archives of them that are the same bytes wherever they are
made: sorted, owned by root, and of one time.
"""

import gzip
import os
import shutil
import subprocess
import tarfile
import tempfile

TOP = os.path.dirname(os.path.dirname(os.path.realpath(__file__)))
EXAMPLES = "share/doc/cgrlist/examples"
PAGE = "share/doc/cgrlist/cgrlist.html"
LIST = "share/cgrlist/files"  # of the names of all others, which `install` reads


class Failed(Exception):
    """The release can't be made; the message says why."""


def said_by(*words):
    """What a command prints. If it fails, its message is the release's."""
    ran = subprocess.run(words, stdin=subprocess.DEVNULL, stdout=subprocess.PIPE, stderr=subprocess.PIPE, check=False)
    if ran.returncode:
        raise Failed(f"{os.path.basename(words[0])} failed: {(ran.stderr or ran.stdout).decode(errors='replace').strip()}")
    return ran.stdout.decode()


def listing():
    """What `install` installs: for files mode, place in the clone, and place below the prefix; for links what each holds,
    and its place.
    """
    rows = [line.split(" ") for line in said_by(f"{TOP}/install", "--list").splitlines()]
    return [row[1:] for row in rows if row[0] == "file"], [row[1:] for row in rows if row[0] == "link"]


def put(source, target, mode=0o644):
    """Copies a file."""
    os.makedirs(os.path.dirname(target), exist_ok=True)
    shutil.copyfile(source, target)
    os.chmod(target, mode)


def write(target, text, mode=0o644):
    """Writes a text, or bytes, into a file."""
    os.makedirs(os.path.dirname(target), exist_ok=True)
    with open(target, "wb") as file:
        file.write(text if isinstance(text, bytes) else text.encode())
    os.chmod(target, mode)


def link(held, target):
    """Makes a link."""
    os.makedirs(os.path.dirname(target), exist_ok=True)
    os.symlink(held, target)


def stage(root, instead, but=()):
    """Puts all that is installed below a folder. Some files are others than the clone's, by their places in it; and some are
    left out.
    """
    files, links = listing()
    with tempfile.TemporaryDirectory() as made:
        for tool in ("manual_pages", "completions"):
            said_by(f"{TOP}/tools/{tool}", made)
        instead = {**{f"made/{it}": f"{made}/{it}" for it in os.listdir(made)}, **instead}
        for mode, place, target in files:
            if target not in but:
                put(instead.get(place, f"{TOP}/{place}"), f"{root}/{target}", int(mode, 8))
    for held, target in links:
        link(held, f"{root}/{target}")


def examples(root):
    """Puts the examples and the page below a folder."""
    for name in os.listdir(f"{TOP}/examples"):
        if os.path.isfile(f"{TOP}/examples/{name}") and not name.endswith((".html", ".png")):
            put(f"{TOP}/examples/{name}", f"{root}/{EXAMPLES}/{name}")
    put(f"{TOP}/examples/cgrlist.html", f"{root}/{PAGE}")


def names_below(root):
    """The files and links below a folder, sorted."""
    found = []
    for at, folders, names in os.walk(root):
        linked = [it for it in folders if os.path.islink(f"{at}/{it}")]
        found += [os.path.relpath(f"{at}/{it}", root) for it in [*names, *linked]]
    return sorted(found)


def folders_of(names):
    """The folders of some files, each before those in it."""
    found = set()
    for name in names:
        while os.path.dirname(name):
            name = os.path.dirname(name)
            found.add(name)
    return sorted(found)


def tar(root, name, path, when):
    """Packs what is below a folder, as a folder of that name."""
    names = names_below(root)
    with open(path, "wb") as file, gzip.GzipFile("", "wb", 9, file, when) as packed, \
            tarfile.open(fileobj=packed, mode="w", format=tarfile.GNU_FORMAT) as archive:
        for it in sorted(["", *folders_of(names), *names]):
            info = archive.gettarinfo(f"{root}/{it}", f"{name}/{it}".rstrip("/"))
            info.uid, info.gid, info.uname, info.gname, info.mtime = 0, 0, "root", "root", when
            info.mode = 0o777 if info.issym() else 0o755 if info.isdir() or info.mode & 0o100 else 0o644
            if info.isfile():
                with open(f"{root}/{it}", "rb") as data:
                    archive.addfile(info, data)
            else:
                archive.addfile(info)
