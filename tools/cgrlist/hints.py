"""Hints on standard error, for what a planner may have mistyped. They change no answer and no status."""

import os
import re
import shlex

from .errors import FILE_STATUS, Refused
from .limits import CONTACTS
from .reading import Bad, Reader, lines_in, plan_bytes
from .tool import printable, tell

MOST = 10  # so many hints are told
SHOWN = 80  # so much of a line

REPAIRS = {  # of each reason for which the program refuses a line of a plan, the usual cause and its repair
    "LineTooLong": "a long comment: break it; CR alone at the ends of lines: write LF",
    "BadByte": "a letter beyond ASCII: write it otherwise",
    "UnknownCommand": "an ionrc: from_ionrc makes a plan of it; 'A' or 'add': write 'a'; a blank before '#'",
    "WrongOperands": "a confidence or a comment: take it off; an unknown rate: write 0",
    "BadTime": "a missing zero, '*' or a negative offset: write the time in full, yyyy/mm/dd-hh:mm:ss",
    "NoReference": "put a line '@ TIME' in front, with the time from which relative times count",
    "BadNode": "a name, ipn:2.0 or a leading zero: write the node's number",
    "BadNumber": "a fraction, a unit or an exponent: round up to a whole number",
    "EmptyWindow": "an end that counts from the start: both count from the line '@'",
    "SelfPair": "a loopback, as in ION's examples: take it out",
    "DuplicateContact": "a contact with that start, sender and receiver stands above: take one out",
    "RangeOverlap": "a range of these nodes shares a second with it: let one end where the next starts",
    "TooMany": f"over {CONTACTS} contacts or ranges: leave out contacts that have ended",
    "NothingToDelete": "write start and nodes as in the line that added it, and below that",
}


def tell_all(texts):
    """Tells each of some hints, once, and how many more there are."""
    different = list(dict.fromkeys(texts))
    for text in different[:MOST]:
        tell(f"hint: {text}")
    if different[MOST:]:
        tell(f"hint: and {len(different) - MOST} more")


def check_file(path):
    """Says why a plan's file can't be read: the program says only that it can't. What isn't a file is left unread."""
    if os.path.exists(path) and not (os.path.isfile(path) or os.path.isdir(path)) or path == "-":
        return
    try:
        with open(path, "rb") as file:
            file.read(1)
    except OSError as error:
        raise Refused(f"{path}: {error.strerror}", FILE_STATUS) from error


def of_refusal(path, message):
    """Hints about a plan that the program refuses with a message: the line and its repair, the line with which it doesn't
    go, and what other programs leave in a text.
    """
    lines, found = lines_in(plan_bytes(path)), re.search(r"plan line (\d+): (\w+)", message)
    if not found or int(found[1]) > len(lines):
        return [*of_text(lines, path)]
    bad = Bad(int(found[1]), found[2], lines[int(found[1]) - 1])
    return of_bad_line(next((it for it in Reader().bad_lines(lines) if it[:2] == bad[:2]), bad), path, lines)


def of_bad_line(bad, path, lines):
    """Hints about a bad line, one of some lines of a file, which is None if there is none."""
    of_all = [*of_text(lines, path or "the plan")]
    other = [f"plan line {bad.other} is: {shown(lines[bad.other - 1])}"] if bad.other else []
    return of_all or [f"plan line {bad.place} is: {shown(bad.line)}", *other, REPAIRS[bad.reason]]


def shown(line):
    """The beginning of a line whose characters are bytes."""
    text = printable(line.encode("latin-1").decode("utf-8", "replace").strip())
    return f"{text[:SHOWN]}{' ..' if text[SHOWN:] else ''}"


FORMS = {  # how files begin that are no plan's text, what they are, and what makes a text of them
    "\x1f\x8b": "compressed: gzip -dc {} | .. --plan -",
    "\xfd7zXZ\0": "compressed: xz -dc {} | .. --plan -",
    "\x28\xb5\x2f\xfd": "compressed: zstd -dc {} | .. --plan -",
    "BZh": "compressed: bzip2 -dc {} | .. --plan -",
    "PK\3\4": "a zip archive: unzip -p {} | .. --plan -",
    "\xff\xfe": "text in UTF-16: iconv -f UTF-16 -t UTF-8 {} | .. --plan -",
    "\xfe\xff": "text in UTF-16: iconv -f UTF-16 -t UTF-8 {} | .. --plan -",
    "{": "JSON: if it is HDTN's, from_ionrc --form hdtn {} makes a plan of it",
    "[": "JSON, which has no plan's lines",
    "<": "XML, which has no plan's lines",
}


def of_text(lines, path):
    """Hints about what a plan's text is, if it isn't one."""
    first, quoted = (lines or [""])[0].lstrip(" \t\r"), shlex.quote(path)
    form = next((form for begin, form in FORMS.items() if first.startswith(begin)), None)
    if form:
        yield f"the plan is {form.format(quoted)}"
        return
    if first.startswith("\xef\xbb\xbf"):
        yield rf"plan line 1 begins with a byte order mark; sed -i '1s/^\xEF\xBB\xBF//' {quoted} takes it off"
    ends = [place for place, line in enumerate(lines, 1) if line.endswith("\r") and not line.startswith("#")]
    if ends:
        more = f" and {len(ends) - 1} more lines end" if ends[1:] else " ends"
        yield rf"plan line {ends[0]}{more} with CR and LF; sed -i 's/\r$//' {quoted} takes the CR off"


class Hints:
    """Hints about a plan that the program accepts, and about requests over it."""

    def __init__(self, plan, names, time_text):
        self._contacts, self._names, self._time_text = plan.contacts, names, time_text
        self._nodes = {node for it in self._contacts for node in it.link}
        self._last_ends = {}  # of each node, the last end of a contact that it sends
        for it in self._contacts:
            self._last_ends[it.sender] = max(it.end, self._last_ends.get(it.sender, 0))

    def of_plan(self):
        """Hints about the plan."""
        dark = sum(it.light is None for it in self._contacts)
        if not self._contacts:
            yield "the plan has no contacts"
        elif dark == len(self._contacts):
            yield "no contact of the plan has a light time, so there is no route: it needs lines 'a range'"
        elif dark:
            yield f"{dark} of {len(self._contacts)} contacts have no light time, so no route takes them"

    def of_nodes(self, nodes):
        """Hints about nodes."""
        for node in nodes:
            if self._contacts and node not in self._nodes:
                yield f"node {self._names.full(node)} is in no contact of the plan"

    def of_request(self, request):
        """Hints about a request."""
        yield from self.of_nodes((request.source, request.destination))
        last, at = max(self._last_ends.values(), default=None), self._time_text(request.at)
        if last is not None and last <= request.at:
            yield f"at {at} the plan's last contact has ended, at {self._time_text(last)}"
        elif (end := self._last_ends.get(request.source, last)) is not None and end <= request.at:
            told = f"nothing leaves node {self._names.full(request.source)} after {at}"
            yield f"{told}: its last contact ends at {self._time_text(end)}"
        elif request.source in self._nodes and request.source not in self._last_ends:
            yield f"nothing leaves node {self._names.full(request.source)}: it sends in no contact"
