"""Runs the commands that the documents show, and compares what they print with the answers shown below them.

In a Markdown file, a fence marked `sh` holds commands. If the next fence has no mark, it is their answer, all that they
print but how far they are. Otherwise what they print isn't compared. In the manual page a line of a display that begins
with `$ ` is a command, and the lines below it are its answer; so it is in the help that tests/data/rows/help.txt shows.
Each must end with status 0. The commands of a document run in their order, in a folder of its own that holds what they
name of the clone; if only some are asked for, those before them run, too, and aren't checked. The lines that
docs/formats.md shows for refusals are tried, too. A check is named after its command's document and line, and after the
command's first words.
"""

import glob
import os
import re
import shutil
import subprocess
import sys

from checking import TOP, Room, checks_of, without_progress

DOCUMENTS = [
    "README.md", "examples/README.md", "examples/scripts.md", "docs/formats.md", "docs/proved.md", "docs/cgrlist.1",
    "tests/data/rows/help.txt",
]
NAMED = ["examples", "tools", "docs", "tests", "install"]  # what commands name of the clone
SOURCES = ["src", "specs", "proofs"]  # the folders of a crate that commands read
SECONDS = 300

# A command that holds such a text isn't run, and the reason is printed.
LEFT_OUT = {
    "./test": "it runs this",
    "./cgrlist --prove": "the gate has built the program",
    "git clone": "it needs a network",
}
# A command that calls such a program isn't run if it isn't installed, nor one that needs such a module of Python.
NEEDS = ["parallel"]
MODULES = {"examples/cluster.py": "distributed"}
# A line that dask's workers log, such as of a heartbeat that comes after the cluster was closed.
LOGGED = re.compile(r"^\S+ \S+ - distributed\.\S+ - [A-Z]+ - .*\n", re.M)


def python_with(modules):
    """A Python that has some modules, Debian's among those that are tried, since its packages are for that one; or None."""
    import_all = ["-c", f"import {', '.join(modules)}"]
    pythons = (it for it in (sys.executable, "/usr/bin/python3") if os.access(it, os.X_OK))
    return next((it for it in pythons if subprocess.run([it, *import_all], stderr=subprocess.DEVNULL).returncode == 0), None)


PYTHON = python_with(MODULES.values())


def markdown_commands(text):
    """Each command of a Markdown text with its line and its answer, None if none is shown."""
    fences = [
        (text.count("\n", 0, it.start()) + 1, it[1], it[2])
        for it in re.finditer(r"^```(\w*)\n(.*?)^```$", text, re.M | re.S)
    ]
    for (line, mark, inside), (_, next_mark, answer) in zip(fences, [*fences[1:], (0, "none", "")]):
        if mark == "sh":
            yield line, inside, answer if next_mark == "" else None


def manual_commands(text):
    """Each command of the manual page's displays with its line and its answer."""
    for display in re.finditer(r"^\.Bd -literal.*\n((?:.*\n)*?)\.Ed$", text, re.M):
        first = text.count("\n", 0, display.start(1)) + 1
        inside = re.sub(r"\\&|\\", lambda it: "" if it[0] == r"\&" else "\\", display[1].replace(r"\e", "\\"))
        for it in re.finditer(r"^\$ ((?:.*\\\n)*.*\n)((?:(?!\$ ).*\n)*)", inside, re.M):
            yield first + inside.count("\n", 0, it.start()), it[1], it[2]


def help_commands(text):
    """Each command of the help that rows of runs show, with its line and its answer."""
    for it in re.finditer(r"^    \\x20 \$ (.*\n)((?:    \\x20 (?!\$ ).*\n)*)", text, re.M):
        command, answer = (part.replace(r"    \x20 ", "").replace(r"\\", "\\") for part in it.groups())
        yield text.count("\n", 0, it.start()) + 1, command, answer


def refusal_commands(text):
    """For each plan that the table of refusals shows, a command that reads it, and the message of its kind."""
    table = text.partition("\n## Refusals and their repair\n")[2]
    for kind, example in re.findall(r"^\| `(\w+)` \|.*\| `([ad@m#][^`]*)` \|$", table, re.M):
        lines = ["@ 2030/01/01-00:00:00"] * (kind != "NoReference") + example.split(";")
        plan = "".join(f"{line}\\n" for line in lines)
        command = f"printf '{plan}' | ./cgrlist check --plan /dev/stdin || true\n"
        yield text.count("\n", 0, text.index(f"| `{example}` |")) + 1, command, f"cgrlist: plan line {len(lines)}: {kind}\n"


def commands_of(document, text):
    if not document.endswith(".md"):
        return [*(help_commands if document.endswith(".txt") else manual_commands)(text)]
    return [*markdown_commands(text), *refusal_commands(text)]


def why_left_out(command):
    for text, reason in LEFT_OUT.items():
        if text in f"{command} ":
            return reason
    for tool in NEEDS:
        if re.search(rf"(^|[|;&(\s]){tool}\s", command) and not shutil.which(tool):
            return f"there is no {tool} here"
    module = next((it for script, it in MODULES.items() if script in command), None)
    return f"Python has no {module} here" if module and not PYTHON else None


class Shown(Room):
    """A folder for the commands of each document, which run one after another."""

    def __init__(self, program):
        super().__init__()
        self.program = program
        self.ended = {}  # how the commands of each document ended that were run

    def room_for(self, document):
        """A folder with what commands name of a clone."""
        folder = f"{self.path}/{document}"
        os.makedirs(f"{folder}/crates/cgrlist/out")
        os.makedirs(f"{folder}/bin")
        for name in NAMED:
            if os.path.isdir(f"{TOP}/{name}"):
                shutil.copytree(f"{TOP}/{name}", f"{folder}/{name}", ignore=shutil.ignore_patterns("__pycache__"))
            else:
                shutil.copy2(f"{TOP}/{name}", folder)
        for part in (it for name in SOURCES for it in glob.glob(f"{TOP}/crates/*/{name}")):
            link = f"{folder}/{os.path.relpath(part, TOP)}"
            os.makedirs(os.path.dirname(link), exist_ok=True)
            os.symlink(part, link)
        for place in ("cgrlist", "crates/cgrlist/out/cgrlist", "bin/cgrlist"):
            os.symlink(self.program, f"{folder}/{place}")
        os.symlink(PYTHON or sys.executable, f"{folder}/bin/python3")
        return folder

    def say(self, command, folder):
        """What a command prints, and its status."""
        how = {**os.environ, "PATH": f"{folder}/bin:{os.environ['PATH']}", "HOME": folder, "LC_ALL": "C.UTF-8", "TMPDIR": self.path}
        further = {"stdin": subprocess.DEVNULL, "stdout": subprocess.PIPE, "stderr": subprocess.STDOUT, "timeout": SECONDS}
        try:
            ran = subprocess.run(["bash", "-c", command], cwd=folder, env=how, **further)
        except subprocess.TimeoutExpired:
            return f"it had not ended after {SECONDS} seconds\n", 124
        return LOGGED.sub("", without_progress(ran.stdout.decode(errors="replace"))), ran.returncode

    def found(self, document, commands, answer):
        """What the last of some commands prints, or if no answer is shown that it ends well; or else its status, too."""
        if document not in self.ended:
            self.ended[document] = self.room_for(document), []
        folder, ended = self.ended[document]
        for command in commands[len(ended) :]:
            ended.append(self.say(command, folder))
        said, status = ended[len(commands) - 1]
        if status:
            return f"{command}{said}status {status}"
        return said if answer is not None else "status 0"


def shown_in(document, asked, room):
    with open(f"{TOP}/{document}", encoding="utf-8") as file:
        shown = commands_of(document, file.read())
    commands = []
    for line, command, answer in shown:
        title = f"{document}:{line} {command.strip().partition(chr(10))[0]}"
        reason = why_left_out(command)
        if not reason:
            commands.append(command)
            yield title, "status 0" if answer is None else answer, room.found, document, [*commands], answer
        elif asked.text in title:
            print(f"documented: {title}: left out, {reason}")


def checks(asked):
    sections = [lambda room, it=it: shown_in(it, asked, room) for it in DOCUMENTS]
    return checks_of("documented", Shown(asked.program("cgrlist")), sections)
