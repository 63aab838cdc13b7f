"""The program cgrlist: where it is, and what it answers over a plan's file. All rules of routes are its own."""

import contextlib
import functools
import os
import re
import shutil
import subprocess
import threading
from dataclasses import dataclass, replace
from typing import NamedTuple

from . import clone, hints
from .errors import NO_STATUS, PLAN_STATUS, REQUESTS_STATUS, START_STATUS, Refused
from .router import Router
from .routes import followed, parts_of, whole_report_of
from .limits import ROUTES
from .reading import plan_bytes
from .tool import Tool, beginning, in_order, processors, say, scratch, scratch_with

LISTS = 2500  # of contacts that a run follows, so that several processors share many

_PROCESSES = threading.BoundedSemaphore(processors())  # no more of them run at a time


# ---- Runs -------------------------------------------------------------------------------------------------------


@functools.lru_cache(maxsize=None)
def program_path(given=None, with_trial=True):
    """The program that is given, or that of the clone in which the package stands, or the one that was installed with the
    package, or the one in the path. Where the clone's isn't built, a trial answers if that is wanted.
    """
    places = [*clone.places(), "cgrlist"] if given is None else [given]
    path = next(filter(None, map(shutil.which, places)), None)
    if not path:
        elsewhere = f"it here and in the path; --program or CGRLIST names another place; {clone.GET_ONE}"
        looked = elsewhere if given is None else given or "''"
        raise Refused(f"there is no program: looked for {looked}", START_STATUS)
    return clone.program(with_trial) if path == clone.SCRIPT else path


def _ran(words, files=()):
    """Runs the program, which may read some open files: its status, and what it prints on standard output and error."""
    how = {"stdout": subprocess.PIPE, "stderr": subprocess.PIPE, "text": True, "errors": "replace"}
    with _PROCESSES:
        try:
            with beginning():
                process = subprocess.Popen(words, pass_fds=files, **how)
                Tool.children.add(process)
        except OSError as error:
            raise Refused(f"cannot start {words[0]}: {error.strerror}", START_STATUS) from error
        try:
            said, told = process.communicate()
        except BaseException:  # a signal ends what waits for it
            process.kill()
            process.wait()
            raise
        finally:
            Tool.children.discard(process)
    return process.returncode, said, told


def _value_of(told, words):
    """The value among the words of a command that a message refuses by its option's name; None if it names none."""
    found = re.fullmatch(r"cgrlist: bad (--[a-z-]+)\n", told)
    return words[words.index(found[1]) + 1] if found and found[1] in words else None


# ---- The program over a plan ------------------------------------------------------------------------------------


class Counts(NamedTuple):
    """What a plan has: contacts and ranges that stand, their nodes, and contacts without a light time."""

    contacts: int
    ranges: int
    nodes: int
    without_light: int


@dataclass(frozen=True)
class Program(Router):
    """The program at a path, over the plan of a file. What it refuses is `Refused`, with its message and its status."""

    path: str
    plan_file: str
    at_once = 256  # requests that one run answers in the time of a few

    def check(self):
        """Refuses a plan that the program refuses."""
        self.run("check")

    def counts(self):
        """What the plan has."""
        return Counts(*(int(line.split()[-1]) for line in self.run("check").splitlines()[:4]))

    def digest(self):
        """The plan's digest."""
        return self.run("check").split()[-1]

    def verify(self, text):
        """Whether a text, as bytes, is the session text of a place in the list of its request over the plan."""
        path = scratch_with(text)
        is_one = self.run("verify", "--session", path, but=NO_STATUS) is not None
        os.unlink(path)
        return is_one

    def first(self, request, count):
        """The answer with the first routes of a request, at most 10000."""
        return whole_report_of(self.run("first", *request.words(), "--count", str(count)).split("\n"), request)

    def many(self, requests, count):
        """The answers with the first routes of requests, by one run; None if the program refuses one of them."""
        lines = [request.line() for request in requests]
        if None in lines:
            return None
        told = self._over_lines("many", "--requests", lines, "--count", str(count), but=REQUESTS_STATUS)
        return None if told is None else [whole_report_of(part, request) for part, request in zip(told, requests)]

    def pages(self, request):
        """The pages of a request's list, to its end."""
        return Pages(self, request)

    def follow(self, lists):
        """What lists of contacts do, each with its request: for each a route with its hops, or a `Fault`."""
        lists = list(lists)
        parts = ((start, lists[start : start + LISTS]) for start in range(0, len(lists), LISTS))
        return [told for part in in_order(self._followed, parts) for told in part]

    def apart(self):
        """The program as other processes may run it."""
        return self

    @property
    def text(self):
        """The bytes of the plan's text."""
        return plan_bytes(self.plan_file)

    @contextlib.contextmanager
    def over(self, text):
        """The program over another plan's text, while it is needed."""
        path = scratch_with(text)
        yield replace(self, plan_file=path)
        os.unlink(path)

    def _followed(self, part):
        start, lists = part
        lines = [f"{','.join(map(str, contacts))} {request.line()}" for contacts, request in lists]
        try:
            return [*map(followed, self._over_lines("follow", "--lists", lines))]
        except Refused as refused:
            if refused.status == REQUESTS_STATUS:  # its line counts from the part's first one
                refused.message = re.sub(r"(?<= line )\d+", lambda it: str(int(it[0]) + start), refused.message)
            raise

    def _over_lines(self, command, option, lines, *words, but=None):
        """The parts of what a command answers to a file of lines, a part for each; None if its status is that one."""
        with open(os.memfd_create("cgrlist"), "w", encoding="utf-8") as file:  # in memory, whatever ends the run
            file.writelines(f"{line}\n" for line in lines)
            file.flush()
            told = self.run(command, option, f"/dev/fd/{file.fileno()}", *words, but=but, files=[file.fileno()])
        if told is None:
            return None
        parts = parts_of(told, {"many": "request ", "follow": "list "}[command])
        if len(parts) != len(lines):
            raise Refused(f"cgrlist {command} answers {len(parts)} of {len(lines)} lines")
        return parts

    def run(self, command, *words, but=None, files=()):
        """What a command prints on standard output; None if its status is `but`."""
        status, said, told = _ran([self.path, command, "--plan", self.plan_file, *words], files)
        if status and status == but:
            return None
        if status < 0:
            raise Refused(f"cgrlist {command} was ended by signal {-status}", 128 - status)
        if status == 1:
            raise Refused(f"cgrlist {command} answers: {[*said.splitlines(), 'no'][-1]}")
        if status:
            found = hints.of_refusal(self.plan_file, told) if status == PLAN_STATUS else ()
            raise Refused(told, status, is_told=True, hints=found, value=_value_of(told, words))
        say(told)
        return said


class Pages:
    """The answers of a request's list, a page at a time, to its end. `session` is the path of the last page's text, from
    which `cgrlist next` goes on.
    """

    def __init__(self, program, request):
        self._program, self._request, self.session = program, request, None

    def __iter__(self):
        asked, count = ["first", *self._request.words()], 100
        while True:
            before, session = self.session, scratch()
            told = self._program.run(*asked, "--count", str(count), "--session-out", session)
            self.session = session
            if before:
                os.unlink(before)
            page = whole_report_of(told.split("\n"), self._request)
            yield page
            if page.is_whole:
                return
            asked, count = ["next", "--session", session], min(count * 4, ROUTES)
