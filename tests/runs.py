r"""Runs the program as the files tests/data/rows/*.txt say, and compares how each run ends with what its row says.

Each run has a folder of its own. Compared byte for byte are the status, standard output, standard error and all files
that the folder holds at the end. In a file of rows, a line says one thing; the lines of its text stand below it, each
after four spaces:

    [TITLE]                 begins a section
    file NAME               a file with this text; a run whose words name it finds it in its folder
    text NAME               a text that is no file
    each NAME | NAME ..     a table: the section's runs are made for each of its lines, where NAME is its cell's text;
                            of several tables, for each line of one with each line of the others
    run WORD ..             a run of the program
    pipe N                  its standard input is a pipe that gives this text, N bytes at a time
    cut N                   the pipe gives the first N bytes alone
    room N                  standard output takes N bytes and no more, and so does each file
    memory N                the run has N bytes of memory, with its code
    slow                    it takes too long where each access is checked
    status N                the status; 0 if not given
    out, err                all of standard output, and of standard error; nothing if not given
    part                    a part of standard error, of which then no more is compared
    left NAME               a file that is there at the end, besides those of the beginning, which stay as they were

A text of one line may follow `out`, `err` and `part` on their own line. `{NAME}` stands for the text NAME, `{NAME:N}`
for its first N bytes, where N may be a text's name, `<N TEXT>` for N times TEXT, `\n`, `\xNN` and `\\` for a byte, and
`''` for nothing. A cell `N..M` makes a line for each number from N to M, and so does a line `for I in N..M: LINE` of a
text, in which `{I}` stands for the number and `{I.next}` for the one after it. A line of a text ends with LF: none is
added after a backslash, nor to what ends with LF already. A line that begins with `#` is a comment. What stands above
the first section holds in the whole file, and the texts of tests/data/rows/shared.txt in every file.
"""

import fcntl
import os
import resource
import shutil
import signal
import subprocess
import tempfile
from dataclasses import dataclass, field
from functools import partial

from checking import Check
from row_files import BadRows, Item, paths_in, row_name, sections_in, shown

ROWS = "tests/data/rows"
SECONDS = 300  # a trial on a busy machine takes long over a million lines
SET_PIPE_SIZE = 1031  # F_SETPIPE_SZ of Linux, which Python names since 3.10
PACKETS = 256  # how many a pipe of a MiB holds


# ---- Rows -------------------------------------------------------------------------------------------------------

SAID_OF_RUNS = ("pipe", "cut", "room", "memory", "slow", "status", "out", "err", "part", "left")


@dataclass
class Row:
    """A run, and what is said of it."""

    run: Item
    said: list = field(default_factory=list)

    def all_of(self, key):
        return [item for item in self.said if item.key == key]

    def one_of(self, key):
        """What is said once or not at all."""
        found = self.all_of(key)
        if len(found) > 1:
            raise BadRows(f"{key} is said twice")
        return found[0] if found else None


def take_row(section, item):
    """Adds to a section a run, or what is said of its last run."""
    if item.key == "run":
        section.rows.append(Row(item))
    elif item.key in SAID_OF_RUNS and section.rows:
        section.rows[-1].said.append(item)
    else:
        raise BadRows(f"{item.place}: {item.key} says nothing here")


# ---- Running ----------------------------------------------------------------------------------------------------


@dataclass(frozen=True)
class Pipe:
    """Standard input, and how many bytes of it come at a time."""

    text: bytes
    piece: int


@dataclass(frozen=True)
class Call:
    """A run that is to be made."""

    words: list
    files: dict
    pipe: Pipe  # None if standard input is empty
    room: int  # None if standard output takes all
    memory: int  # None if there is ample memory


@dataclass(frozen=True)
class Ending:
    """How a run ended, or must end."""

    status: int
    out: bytes
    err: bytes  # None if it may be any that has the parts
    files: dict
    parts: tuple = ()


def files_named(words, speller):
    """The files that the words of a run name."""
    files = {}
    for word in map(os.fsdecode, words):
        named = speller.named.get(word)
        if named and named.is_file:
            files[word] = speller.text(named.lines)
    return files


def pipe_of(row, speller):
    given = row.one_of("pipe")
    if not given:
        return None
    text = speller.text(given.below)
    text = text[: speller.number(row.one_of("cut"), len(text))]
    piece = speller.number(given, 0)
    if len(text) > PACKETS * piece:
        raise BadRows(f"a pipe holds {PACKETS} pieces and no more")
    return Pipe(text, piece)


def call_of(row, speller):
    words = speller.words(row.run.rest)
    room = speller.number(row.one_of("room"), None)
    memory = speller.number(row.one_of("memory"), None)
    return Call(words, files_named(words, speller), pipe_of(row, speller), room, memory)


def wanted_of(row, speller, given):
    """How a run that begins with these files must end."""
    out, err = (speller.text(item.lines) if item else b"" for item in map(row.one_of, ("out", "err")))
    left = {item.rest: speller.text(item.below) for item in row.all_of("left")}
    parts = tuple(speller.spelled(item.rest) for item in row.all_of("part"))
    status = speller.number(row.one_of("status"), 0)
    return Ending(status, out, None if parts else err, {**given, **left}, parts)


def filled(pipe):
    """The reading end of a pipe that holds a text in packets: a read gives one of them and no more."""
    read_end, write_end = os.pipe2(os.O_DIRECT)
    fcntl.fcntl(write_end, SET_PIPE_SIZE, 4096 * PACKETS)
    for start in range(0, len(pipe.text), pipe.piece):
        os.write(write_end, pipe.text[start : start + pipe.piece])
    os.close(write_end)
    return read_end


def set_limits(call):
    """Makes this process fail if it writes more bytes to a file than the run has room for, or asks for more memory."""
    if call.room is not None:
        signal.signal(signal.SIGXFSZ, signal.SIG_IGN)
        resource.setrlimit(resource.RLIMIT_FSIZE, (call.room, call.room))
    if call.memory is not None:
        resource.setrlimit(resource.RLIMIT_AS, (call.memory, call.memory))


def files_in(folder):
    """Each file of a folder with its bytes."""
    files = {}
    for entry in os.scandir(folder):
        files[entry.name] = "not a file"
        if entry.is_file(follow_symlinks=False):
            with open(entry.path, "rb") as file:
                files[entry.name] = file.read()
    return files


def made(program, call, scratch):
    """Makes a run in a folder of its own."""
    folder = f"{scratch}/folder"
    os.mkdir(folder)
    for name, text in call.files.items():
        with open(f"{folder}/{name}", "wb") as file:
            file.write(text)
    given = filled(call.pipe) if call.pipe else os.open(os.devnull, os.O_RDONLY)
    with open(f"{scratch}/out", "w+b") as out:
        try:
            ran = subprocess.run(
                [program, *call.words],
                cwd=folder,
                stdin=given,
                stdout=out,
                stderr=subprocess.PIPE,
                timeout=SECONDS,
                preexec_fn=lambda: set_limits(call),
            )
            status, err = ran.returncode, ran.stderr
        except subprocess.TimeoutExpired:
            status, err = f"none after {SECONDS} seconds", b""
        out.seek(0)
        ending = Ending(status, out.read(), err, files_in(folder))
    os.close(given)
    shutil.rmtree(folder)
    return ending


# ---- Comparing --------------------------------------------------------------------------------------------------


def differences(wanted, found):
    """What differs, each with what was wanted and what was found."""
    pairs = [("status", wanted.status, found.status), ("out", wanted.out, found.out)]
    if wanted.err is not None:
        pairs.append(("err", wanted.err, found.err))
    for name in sorted({*wanted.files, *found.files}):
        pairs.append((f"file {name}", wanted.files.get(name), found.files.get(name)))
    differing = [pair for pair in pairs if pair[1] != pair[2]]
    return differing + [("part of err", it, found.err) for it in wanted.parts if it not in found.err]


def failure(row, lines, words, differing):
    """Describes a run that ended otherwise: where its row stands, with which lines of tables, and what differs."""
    told = [f"FAILED: {'; '.join([row.run.place, *lines])}: {shown(b' '.join(words))}"]
    told += [f"{what}: wanted {shown(wanted)}, found {shown(found)}" for what, wanted, found in differing]
    return "\n".join(told)


def made_from(section, row):
    """For each line of the tables of a section: what names it, the run that a row makes, and how it must end."""
    for lines, speller in section.lines():
        try:
            call = call_of(row, speller)
            yield lines, call, wanted_of(row, speller, call.files)
        except (BadRows, ValueError, RecursionError) as error:
            raise BadRows(f"{row.run.place}: {error}") from error


def failures_of(program, section, row):
    """For each run of a row: how it failed, which is empty if it passed."""
    with tempfile.TemporaryDirectory() as scratch:
        for lines, call, wanted in made_from(section, row):
            differing = differences(wanted, made(program, call, scratch))
            yield failure(row, lines, call.words, differing) if differing else ""


def checks(asked):
    """The rows that are asked for."""
    program = asked.program("cgrlist")
    for sections in sections_in(asked.paths(paths_in(ROWS)), take_row):
        units = [(row.run, row, section) for section in sections for row in section.rows]
        for item, row, section in asked.chosen(units):
            if asked.trials and (row.one_of("memory") or row.one_of("slow")):
                continue  # a trial checks each access, which takes much memory and time
            act = partial(failures_of, program, section, row)
            yield Check(row_name("runs", item), act, f"{section.head.rest} {item.rest}")
