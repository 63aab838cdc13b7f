"""The lines of a plan's text, judged as `cgrlist check` judges them: what stands after the last line, and each bad line."""

import os
import re
from bisect import bisect_left
from typing import NamedTuple

from .limits import CONTACTS, GREATEST, LIGHT, LINE, LINES
from .times import LAST, kept, seconds_of
from .tool import beginning_of, scratch_with

MOST_BAD = 10000  # bad lines that are looked for

_PLAIN = re.compile(r"[\t -~]*")
_RELATIVE = re.compile(r"\+\d{1,12}", re.ASCII)
_NODE = re.compile(r"[1-9]\d{0,19}", re.ASCII)
_NUMBER = re.compile(r"0|[1-9]\d{0,19}", re.ASCII)
_NO_COMMAND = re.compile(rb"\n[^#@ad \t\n]")  # the beginning of a line that is bad by that
_CONTACT = re.compile(rb"\na[ \t]+contact[ \t]")


def plan_bytes(path):
    """The bytes of a plan's text. A text that has no end, or is longer than a plan can be, is read until one line must be bad.
    A text in which as many lines are bad as are looked for, by how they begin, is read no further.
    """
    return beginning_of(path, LINES, LINES * (LINE + 1), _Counted().is_bad)[0]


class _Counted:
    """How many lines of a text, which comes in pieces, begin with no command, and how many add a contact."""

    def __init__(self):
        self._last, self._bad, self._contacts = b"\n", 0, 0

    def is_bad(self, piece):
        """Takes a piece, and returns whether more lines are bad than are looked for."""
        text, self._last = self._last + piece, piece[-1:]
        self._bad += len(_NO_COMMAND.findall(text))
        self._contacts += len(_CONTACT.findall(text))
        return max(self._bad, self._contacts - CONTACTS) > MOST_BAD


def lines_in(data):
    """The lines of a plan's bytes, each byte a character of its own: as many as a plan can have, and one more."""
    lines = data.decode("latin-1").split("\n", LINES + 1)
    return (lines if lines[-1] else lines[:-1])[: LINES + 1]


def kept_file(path):
    """The path of a plan's file that can be read more than once: of a copy, if it is a pipe or standard input."""
    if path != "-" and (os.path.isfile(path) or os.path.isdir(path) or not os.path.exists(path)):
        return path
    return scratch_with(plan_bytes(path))


class Bad(NamedTuple):
    """A bad line: its place, counted from 1, the reason in the program's word, the line, and the place of the standing line
    that it repeats or overlaps, if it does.
    """

    place: int
    reason: str
    line: str
    other: "int | None" = None

    @property
    def message(self):
        """What the program says of it."""
        return f"plan line {self.place}: {self.reason}"


class Fault(Exception):
    """Why a line is bad, and the place of the other line."""

    def __init__(self, reason, other=None):
        super().__init__(reason)
        self.reason, self.other = reason, other


class Given(NamedTuple):
    """What the line of a contact gives besides its start and nodes: a number, the end, the rate; and the line's place."""

    number: int
    end: int
    rate: int
    place: int


class Window(NamedTuple):
    """What the line of a range gives besides its nodes; and the line's place."""

    start: int
    end: int
    light: int
    place: int


class Ranges:
    """The ranges that stand, by ordered pair of nodes. No two of a pair share a second."""

    def __init__(self):
        self._windows, self.count = {}, 0  # of each pair by start

    def add(self, pair, window):
        """Adds a range, or raises RangeOverlap or TooMany."""
        standing = self._windows.setdefault(pair, [])
        at = bisect_left(standing, (window.end,))
        if at and standing[at - 1].end > window.start:
            raise Fault("RangeOverlap", standing[at - 1].place)
        if self.count == CONTACTS:
            raise Fault("TooMany")
        self.count += 1
        standing.insert(at, window)

    def delete(self, pair, start):
        """Takes out the range of a pair with a start, or raises NothingToDelete."""
        standing = self._windows.get(pair, [])
        at = bisect_left(standing, (start,))
        if standing[at : at + 1] and standing[at].start == start:
            del standing[at]
            self.count -= 1
        else:
            raise Fault("NothingToDelete")

    def light(self, sender, receiver, second):
        """The light time from one node to another at a second, or None: a range for one way alone comes first."""
        own = self._in_force((sender, receiver), second)
        return self._in_force((receiver, sender), second) if own is None and sender > receiver else own

    def _in_force(self, pair, second):
        standing = self._windows.get(pair, ())
        at = bisect_left(standing, (second + 1,)) - 1
        return standing[at].light if at >= 0 and second < standing[at].end else None

    def __iter__(self):
        """Each pair with each of its ranges, by pair and start."""
        return ((pair, window) for pair in sorted(self._windows) for window in self._windows[pair])


class Reader:
    """What stands after the lines that were taken: contacts by start, sender and receiver, and ranges."""

    def __init__(self):
        self.contacts, self.ranges = {}, Ranges()
        self._reference, self._given, self._place = None, 0, 0

    def bad_lines(self, lines):
        """Takes lines, and gives those that are bad, which do nothing."""
        for place, line in enumerate(lines, 1):
            self._place = place
            try:
                self._take(line)
            except Fault as fault:
                yield Bad(place, fault.reason, line, fault.other)

    def _take(self, line):
        """Takes a line, or raises the first fault in the program's order."""
        if self._place > LINES:
            raise Fault("TooMany")
        if len(line) > LINE:
            raise Fault("LineTooLong")
        if line[:1] == "#":
            return
        if not _PLAIN.fullmatch(line):
            raise Fault("BadByte")
        words = line.split()
        if not words:
            return
        if words[0] == "@":
            self._set_reference(words[1:])
            return
        command = _COMMANDS.get((words[0], words[1] if len(words) > 1 else ""))
        if not command:
            raise Fault("UnknownCommand")
        command(self, words[2:])

    def _set_reference(self, words):
        if len(words) != 1:
            raise Fault("WrongOperands")
        self._reference = _absolute(words[0])

    def _times(self, words):
        times = [*map(self._time, words)]
        if None in times:
            raise Fault("NoReference")
        return times

    def _time(self, word):
        """The seconds of a time; None if it is relative and there is no reference."""
        if word[0] != "+":
            return _absolute(word)
        offset = _offset(word)
        if self._reference is None:
            return None
        if self._reference + offset > LAST:
            raise Fault("BadTime")
        return self._reference + offset

    def _window(self, words, greatest):
        """What a line gives that adds something: start, end, nodes, and a number."""
        if len(words) != 5:
            raise Fault("WrongOperands")
        start, end = self._times(words[:2])
        pair, number = (_node(words[2]), _node(words[3])), _number(words[4])
        if number > greatest:
            raise Fault("BadNumber")
        if start >= end:
            raise Fault("EmptyWindow")
        if pair[0] == pair[1]:
            raise Fault("SelfPair")
        return start, end, pair, number

    def _add_contact(self, words):
        start, end, pair, rate = self._window(words, GREATEST)
        key = start, *pair
        if key in self.contacts:
            raise Fault("DuplicateContact", self.contacts[key].place)
        if self._given == CONTACTS:
            raise Fault("TooMany")
        self._given += 1
        self.contacts[key] = Given(self._given, end, rate, self._place)

    def _add_range(self, words):
        start, end, pair, light = self._window(words, LIGHT)
        self.ranges.add(pair, Window(start, end, light, self._place))

    def _deleted(self, words):
        if len(words) != 3:
            raise Fault("WrongOperands")
        (start,) = self._times(words[:1])
        return start, (_node(words[1]), _node(words[2]))

    def _delete_contact(self, words):
        start, pair = self._deleted(words)
        if self.contacts.pop((start, *pair), None) is None:
            raise Fault("NothingToDelete")

    def _delete_range(self, words):
        start, pair = self._deleted(words)
        self.ranges.delete(pair, start)


_COMMANDS = {  # what takes a line, by its first words
    ("a", "contact"): Reader._add_contact,
    ("a", "range"): Reader._add_range,
    ("d", "contact"): Reader._delete_contact,
    ("d", "range"): Reader._delete_range,
}


@kept
def _absolute(word):
    try:
        second = seconds_of(word)
    except ValueError:
        raise Fault("BadTime") from None
    if not 0 <= second <= LAST:
        raise Fault("BadTime")
    return second


@kept
def _offset(word):
    if not _RELATIVE.fullmatch(word):
        raise Fault("BadTime")
    return int(word)


@kept
def _node(word):
    if not _NODE.fullmatch(word) or int(word) > GREATEST:
        raise Fault("BadNode")
    return int(word)


@kept
def _number(word):
    if not _NUMBER.fullmatch(word):
        raise Fault("BadNumber")
    return int(word)
