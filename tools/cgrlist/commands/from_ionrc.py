"""Makes a plan of the files of ION, HDTN or DtnSim.

    tools/from_ionrc [--reference T] FILE .. >plan.txt
    tools/from_ionrc --form hdtn|dtnsim --reference T FILE .. >plan.txt

All contacts and ranges go into one plan, which `cgrlist check` accepts, in
the order of the files and of their lines, with absolute times. What is left
out is in the plan as a comment that says why. Standard error counts for each
file what was taken and what was left out. `c contact` changes the rate of a
contact, which gets a new number.

A plan has whole seconds and whole bytes a second. A line with another number,
such as 0.25 or 9.6e3, is left out without --round.

A plan of HDTN is JSON. Its contact 0 is contact 1 here, and each contact has
a light time of its own. Rates are those of rateBitsPerSec, or in older plans
of rate, which is taken for bits a second, too. A plan of DtnSim has the lines
of ION, and light takes no time over a link without a range. Both forms were
tried on files made for the tests, not on files of these projects.

Examples:

    $ printf 'a contact +0 +60 1 2 1000\\na range +0 +60 1 2 5\\n' | tools/from_ionrc --reference 2030-01-01 -
    from_ionrc: -: contacts 1, ranges 1, deletions 0; left out: loopbacks 0, repeated 0, unclear 0, other lines 0
    # from -, relative times from 2030/01/01-00:00:00
    a contact 2030/01/01-00:00:00 2030/01/01-00:01:00 1 2 1000
    a range 2030/01/01-00:00:00 2030/01/01-00:01:00 1 2 5

Exit status:
  0    the plan was written
  1    a line was left out that may be about a contact or a range, or names a
       file that isn't given; or a file adds nothing; a message says which.
       With --lenient the status is 0
  2    the options are invalid
  5    a file can't be read, and no plan is written, or writing failed
  6    no memory
"""

import math
import os
import re
import sys
from bisect import bisect_left, insort
from collections import Counter, defaultdict
from dataclasses import dataclass
from fractions import Fraction
from itertools import groupby

from ..errors import NO_STATUS, Refused
from ..hdtn import lines_of_hdtn
from ..limits import CONTACTS, GREATEST, LIGHT, LINE, LINES
from ..times import LAST, seconds_of, time_text
from ..tool import bytes_of, run_tool, tell
from ..words import Words, add_other_words, time_word

NODES = range(1, GREATEST + 1)
RATES = range(GREATEST + 1)
LIGHTS = range(LIGHT + 1)
OFFSETS = range(10**12)  # of relative times
MOST_BYTES = LINES * (LINE + 1)  # of a file: as many as of a plan


# ---- Lines that are left out ------------------------------------------------------------------------------------


class LeftOut(Exception):
    """Why a line adds nothing to the plan."""

    kind = "other lines"
    advice = ""


class Loopback(LeftOut):
    kind = "loopbacks"


class Repeated(LeftOut):
    """What the line says stands in the plan already."""

    kind = "repeated"


class Region(LeftOut):
    kind = "regions"


class Unclear(LeftOut):
    """The line may be about a contact or a range, and it is not clear which. It is reported."""

    kind = "unclear"


class NoReference(Unclear):
    advice = " (yyyy/mm/dd-hh:mm:ss, the moment at which ION reads the file)"


class NotWhole(Unclear):
    advice = "; --round up or --round down makes it whole"


class Printed(Unclear):
    advice = ": give the file with the commands"


ABOUT_PLANS = re.compile(r"(?<![a-z])(contact|range)s?(?![a-z])", re.IGNORECASE)
TIME = re.compile(r"\*$|\+[0-9]|[0-9]{4}[/-][0-9]{1,2}[/-][0-9]")
PRINTED = re.compile(r"\b(xmit rate|OWLT)\b", re.IGNORECASE)  # in what `l contact` and `l range` print
# Commands that add and delete nothing: a line of words with one space between them.
SOUND = re.compile(r"[il]( \w+)*|i (contact|range) \S+ \S+ \S+|m \w+ \S+|1 [0-9]+ \S+")
RUN = re.compile(r"\s*r\s+['\"]?\s*(?:\S*/)?ionadmin\s+([^\s'\"]+)")
# What the other programs of ION add and delete.
OTHER_OBJECT = re.compile(
    r"scheme|endpoint|protocol|induct|outduct|plan|planduct|exit|rtovrd|cosovrd|group|span|seat|(pub)?key|\w*rule"
    r"|profile|entity|bcla|\{.*"
)


def why_no_command(line, given):
    """Why a line is left out that has no command for a contact, a range or the reference. The given are files."""
    words, run = line.split(), RUN.match(line)
    if run:
        return why_not_run(run[1], given)
    if re.fullmatch(r"\^( [0-9]+)?", " ".join(words)):
        return Region("no plan has regions, and all contacts are taken as of one")
    if PRINTED.search(line):
        return Printed("ionadmin prints such lines, but doesn't read them")
    if is_doubtful(words):
        return Unclear("it may be about a contact or a range, but is no command for one")
    return LeftOut("nothing of a plan")


def why_not_run(name, given):
    """Why the file of a command `r 'ionadmin FILE'` isn't read at this place."""
    if os.path.basename(name) in map(os.path.basename, given):
        return LeftOut("its file is given by itself")
    return Unclear(f"ionadmin reads {name} here: give that file, too")


def is_doubtful(words):
    """Whether a line's words have one or a time as the commands of plans have, or begin as they do or almost so."""
    if SOUND.fullmatch(" ".join(words)):
        return False
    if "@" in words[0] or any(map(ABOUT_PLANS.search, words)):
        return True
    if words[0] in ("a", "d") and OTHER_OBJECT.fullmatch("".join(words[1:2])):
        return len(words) > 3 and all(word != "*" and TIME.match(word) for word in words[2:4])
    return words[0][0] in "aAdD+-^" or any(map(TIME.match, words))


# ---- Operands ---------------------------------------------------------------------------------------------------


def absolute(word):
    """The seconds since 1970 of an absolute time."""
    try:
        return checked(seconds_of(word), word)
    except ValueError:
        raise Unclear(f"no time: {word}") from None


def checked(seconds, word):
    """The seconds, if a plan can name them."""
    if not 0 <= seconds <= LAST:
        raise Unclear(f"not in the years 1970 to 9998: {word}")
    return seconds


FRACTION = re.compile(r"([0-9]{1,20}(?:\.[0-9]{0,20})?|\.[0-9]{1,20})(?:[eE][+-]?[0-9]{1,2})?")


def number(word, bounds, what, rounded=None):
    """The number that a word spells, which a function makes whole if there is one."""
    digits = word.removeprefix("+") if bounds is OFFSETS else word
    if re.fullmatch("[0-9]{1,20}", digits):
        value = int(digits)
    elif not FRACTION.fullmatch(digits):
        raise Unclear(f"no {what}: {word}")
    elif rounded is None:
        raise NotWhole(f"no {what}: {word}")
    else:
        value = rounded(Fraction(digits))
    if value not in bounds:
        raise Unclear(f"no {what}: {word}")
    return value


def node(word):
    """A node's number, as such or as `ipn:N`, `ipn:N.S` or `ipn:A.N.S`, where A counts for 2^32."""
    found = re.fullmatch(r"ipn:(?:(?:([0-9]{1,10})\.)?([0-9]{1,20})\.[0-9]+|([0-9]{1,20}))", word)
    if found:
        authority, before_service, alone = found.groups()
        word = str(int(authority or 0) * 2**32 + int(before_service or alone))
    if not word.isdecimal():
        raise Unclear(f"no node: {word}")
    return number(word, NODES, "node")


def pair_of(words):
    """Two nodes that differ."""
    one, other = map(node, words)
    if one == other:
        raise Loopback("loopback")
    return one, other


# ---- The plan ---------------------------------------------------------------------------------------------------


@dataclass(frozen=True, order=True)
class Window:
    """The seconds from a start up to, but not at, an end, and the light time if they are a range's."""

    start: int
    end: int
    light: int = 0


class Ranges:
    """The ranges that stand of an ordered pair of nodes. No two of them share a second."""

    def __init__(self):
        self.standing = []  # by start
        self.pieces = defaultdict(list)  # by the start of the line that they come from

    def missing(self, asked):
        """The pieces of a window that no standing range has."""
        first = bisect_left(self.standing, Window(asked.start, 0))
        near = self.standing[max(first - 1, 0) : bisect_left(self.standing, Window(asked.end, 0))]
        shared = [window for window in near if window.end > asked.start]
        if any(window.light != asked.light for window in shared):
            raise Unclear("another range of this pair has another light time for some of its seconds")
        starts = [asked.start, *(window.end for window in shared)]
        ends = [*(window.start for window in shared), asked.end]
        return [Window(start, end, asked.light) for start, end in zip(starts, ends) if start < end]

    def add(self, start, pieces):
        """Adds the pieces of a line with a start."""
        for piece in pieces:
            insort(self.standing, piece)
        self.pieces[start] += pieces

    def delete(self, start):
        """Deletes the pieces of all lines with a start, and returns them."""
        pieces = self.pieces.pop(start)
        for piece in pieces:
            del self.standing[bisect_left(self.standing, piece)]
        return pieces


class Plan:
    """The lines of a plan as they are added, and what stands after the last of them."""

    def __init__(self):
        self.lines = []
        self.contacts = defaultdict(dict)  # by pair, ends and rates by start
        self.ranges = defaultdict(Ranges)  # by pair
        self.contacts_given = self.ranges_standing = 0

    def comment(self, text):
        """Adds a comment, which begins with `#`, or an empty line."""
        self.lines.append(printable(text)[:LINE].rstrip())

    def add_contact(self, pair, window, rate):
        """Adds a contact."""
        standing = self.contacts[pair]
        if window.start in standing:
            raise why_again(window, rate, *standing[window.start])
        if self.contacts_given == CONTACTS:
            raise Unclear(f"a plan has at most {CONTACTS} contacts")
        standing[window.start] = window.end, rate
        self.contacts_given += 1
        self._add("contact", pair, window, rate)

    def add_range(self, pair, window):
        """Adds what no other range has of one, and returns how many pieces that makes."""
        pieces = self.ranges[pair].missing(window)
        if not pieces:
            raise Repeated("other ranges of this pair have its seconds already")
        if self.ranges_standing + len(pieces) > CONTACTS:
            raise Unclear(f"a plan has at most {CONTACTS} ranges at a time")
        self.ranges[pair].add(window.start, pieces)
        self.ranges_standing += len(pieces)
        if pieces != [window]:
            self.comment("# cut, another range of this pair has some of its seconds already:")
        for piece in pieces:
            self._add("range", pair, piece, piece.light)
        return len(pieces)

    def change_rate(self, pair, start, rate):
        """Gives a contact another rate, and so another number."""
        window = Window(start, self.contacts[pair][start][0])
        self.delete("contact", pair, start)
        self.add_contact(pair, window, rate)

    def add_missing_ranges(self):
        """Adds a range without light time for each pair of nodes that has contacts and no range."""
        spans = {}
        for pair, standing in self.contacts.items():
            if standing and not any(self.ranges[key].standing for key in (pair, pair[::-1]) if key in self.ranges):
                spans.setdefault(tuple(sorted(pair)), []).extend((start, end) for start, (end, _) in standing.items())
        for pair, windows in spans.items():
            starts, ends = zip(*windows)
            self.add_range(pair, Window(min(starts), max(ends)))

    def starts(self, kind, pair):
        """The starts of the lines of a pair that can be deleted."""
        return self.contacts[pair].keys() if kind == "contact" else self.ranges[pair].pieces.keys()

    def delete(self, kind, pair, start):
        """Deletes what stands of the lines of a pair with a start."""
        if kind == "contact":
            del self.contacts[pair][start]
            starts = [start]
        else:
            starts = [piece.start for piece in self.ranges[pair].delete(start)]
            self.ranges_standing -= len(starts)
        self.lines += (f"d {kind} {time_text(start)} {pair[0]} {pair[1]}" for start in starts)

    def _add(self, kind, pair, window, value):
        times = f"{time_text(window.start)} {time_text(window.end)}"
        self.lines.append(f"a {kind} {times} {pair[0]} {pair[1]} {value}")


def why_again(window, rate, standing_end, standing_rate):
    """Why a contact is left out if one of its pair with its start stands already."""
    if window.end != standing_end:
        return Unclear("a contact of this pair with this start and another end stands already")
    if rate != standing_rate:
        return Unclear(f"the contact stands already, with the rate {standing_rate} in place of {rate}")
    return Repeated("the contact stands already")


def printable(text):
    """The text, with `?` for what isn't a character of ASCII that can be printed."""
    return re.sub(r"[^\t -~]", "?", text)


# ---- Files ------------------------------------------------------------------------------------------------------


class Reader:
    """Reads the lines of a file into a plan, and counts them."""

    def __init__(self, plan, reference, given, rounded=None):
        self.plan, self.reference, self.given, self.rounded = plan, reference, given, rounded
        self.reference_is_unclear = False
        self.counts = Counter()
        self.commands = {
            ("a", "contact"): self._add_contact,
            ("a", "range"): self._add_range,
            ("d", "contact"): self._delete_contact,
            ("d", "range"): self._delete_range,
            ("c", "contact"): self._change_contact,
        }

    def read(self, line):
        """Takes a line. One that is left out becomes a comment, and the reason is returned."""
        try:
            self._take(line)
            return None
        except LeftOut as why:
            return self.leave_out(line, why)

    def leave_out(self, line, why):
        """Makes a line a comment that says why, and counts it. Returns the reason."""
        self.plan.comment(f"# left out, {why}: {line}")
        self.counts[why.kind] += 1
        return why

    def _take(self, line):
        words = line.split()
        if "\r" in line:
            raise Unclear("a carriage return inside the line")
        if not words or words[0].startswith("#"):
            self.plan.comment(line.lstrip())
            return
        if words[0] == "@":
            self._set_reference(words[1:])
            return
        name = {"add": "a", "del": "d", "delete": "d", "change": "c"}.get(words[0], words[0])
        command = self.commands.get((name, words[1] if len(words) > 1 else ""))
        if not command:
            raise why_no_command(line, self.given)
        command(words[2:])

    def _set_reference(self, words):
        """Sets the reference. One that can't be read makes the relative times after it unclear."""
        try:
            if len(words) != 1:
                raise Unclear("not one time")
            self.reference = self._time(words[0])
        except NoReference:
            raise
        except Unclear:
            self.reference_is_unclear = True
            raise
        self.reference_is_unclear = False

    def _time(self, word):
        """The seconds since 1970 of a time."""
        if not word.startswith("+"):
            return absolute(word)
        offset = number(word, OFFSETS, "time", self.rounded)
        if self.reference_is_unclear:
            raise Unclear("a relative time after a line @ that is unclear")
        if self.reference is None:
            raise NoReference("a relative time, and no --reference was given")
        return checked(self.reference + offset, word)

    def _window(self, words, light=0):
        start, end = map(self._time, words)
        if start >= end:
            raise Unclear("its end isn't after its start")
        return Window(start, end, light)

    def _add_contact(self, words):
        if not 5 <= len(words) <= 7:
            raise Unclear("not five words, or six or seven with a confidence")
        for word in words[5:]:
            if not re.fullmatch(r"[0-9]+(\.[0-9]*)?|\.[0-9]+", word):
                raise Unclear(f"no number: {word}")
        if words[:2] == ["-1", "-1"] and words[2] == words[3]:
            raise LeftOut("registration")
        pair, window = pair_of(words[2:4]), self._window(words[:2])
        self.plan.add_contact(pair, window, number(words[4], RATES, "rate", self.rounded))
        self.counts["contacts"] += 1
        self.counts["confidences"] += len(words) > 5

    def _add_range(self, words):
        if len(words) != 5:
            raise Unclear("not five words")
        pair, light = pair_of(words[2:4]), number(words[4], LIGHTS, "light time", self.rounded)
        self.counts["ranges"] += self.plan.add_range(pair, self._window(words[:2], light))

    def _change_contact(self, words):
        if not 4 <= len(words) <= 5:
            raise Unclear("not four words, or five with a confidence")
        pair, start = pair_of(words[1:3]), self._time(words[0])
        if start not in self.plan.starts("contact", pair):
            raise Unclear("nothing of the kind stands")
        self.plan.change_rate(pair, start, number(words[3], RATES, "rate", self.rounded))
        self.counts["changes"] += 1
        self.counts["confidences"] += len(words) > 4

    def _delete_contact(self, words):
        self._delete("contact", words)

    def _delete_range(self, words):
        self._delete("range", words)

    def _delete(self, kind, words):
        """Deletes what stands of a pair under a start, or under each if the start is `*`."""
        if len(words) != 3:
            raise Unclear("not three words")
        pair = pair_of(words[1:])
        standing = self.plan.starts(kind, pair)
        starts = sorted(standing) if words[0] == "*" else [self._time(words[0])]
        if not starts:
            raise LeftOut("nothing of the kind stands")
        if starts[0] not in standing:
            raise Unclear("nothing of the kind stands")
        for start in starts:
            self.plan.delete(kind, pair, start)
        self.counts["deletions"] += 1


def foreign_form(data):
    """What a file is that ionadmin can't read; None if it may read it."""
    if b"\0" in data:
        return "it has NUL bytes, so it is no text, or text in UTF-16, which must be saved in UTF-8"
    if data.lstrip()[:1] in (b"{", b"[", b"<"):
        return "it is JSON or XML, which ionadmin doesn't read; --form hdtn reads a plan of HDTN"
    return None


def split_lines(data):
    """The lines of a text. They end with LF, with CR and LF, or all of them with CR."""
    text = data.decode("ascii", "replace")
    end = "\n" if "\n" in text else "\r"
    return [line.rstrip("\r") for line in text.removesuffix(end).split(end)]


def lines_text(numbers):
    """Names lines by their numbers, which rise: ` line 3`, or ` lines 3, 5 to 9`; nothing for none."""
    runs = [[number for _, number in run] for _, run in groupby(enumerate(numbers), lambda it: it[1] - it[0])]
    texts = [f"{run[0]} to {run[-1]}" if len(run) > 2 else ", ".join(map(str, run)) for run in runs]
    return f" line{'s' * (len(numbers) > 1)} {', '.join(texts)}" if numbers else ""


def summary(counts):
    """What was taken of a file and what was left out, by kinds; some kinds are told only if there are any."""
    taken = [f"{kind} {counts[kind]}" for kind in ("contacts", "ranges", "deletions")]
    taken += [f"changes {counts['changes']}"] * (counts["changes"] > 0)
    left_out = [f"{kind} {counts[kind]}" for kind in ("loopbacks", "repeated", "unclear", "other lines")]
    left_out += [f"{kind} {counts[kind]}" for kind in ("regions", "confidences") if counts[kind]]
    return f"{', '.join(taken)}; left out: {', '.join(left_out)}"


ROUNDED = {"up": math.ceil, "down": math.floor}


class Filter:
    """Reads files into one plan, and keeps what is to be said about them."""

    def __init__(self, reference, given, form="ion", rounded=None):
        self.reference, self.given, self.form, self.rounded = reference, given, form, rounded
        self.plan = Plan()
        self.reports = defaultdict(lambda: defaultdict(list))  # the lines of each file, by what is reported of them
        self.summaries = []

    def read(self, name, data):
        """Reads a file with a name."""
        counted = "no reference given" if self.reference is None else f"relative times from {time_text(self.reference)}"
        self.plan.comment(f"# from {os.path.basename(name)}, {counted}")
        reader, data = Reader(self.plan, self.reference, self.given, self.rounded), data.removeprefix(b"\xef\xbb\xbf")
        if self.form == "hdtn":
            self._read_hdtn(name, data, reader)
        elif foreign := foreign_form(data):
            self.plan.comment(f"# left out, {foreign}")
            self._report(foreign, name)
        else:
            self._read_lines(name, split_lines(data), reader)
        self.summaries.append(f"{name}: {summary(reader.counts)}")

    def _report(self, what, name, *lines):
        """Keeps what is to be said of a file, or of lines of it."""
        self.reports[what][name] += lines

    def _read_lines(self, name, lines, reader):
        for place, line in enumerate(lines, 1):
            why = reader.read(line)
            if isinstance(why, Unclear):
                self._report(f"{why}"[:LINE] + why.advice, name, place)
        if not any(reader.counts[kind] for kind in ("contacts", "ranges", "deletions", "repeated", "unclear")):
            self._report("it adds no contact and no range", name)

    def _read_hdtn(self, name, data, reader):
        """Reads the contacts of HDTN's JSON. What is left out gives those after it other numbers, so it is reported."""
        try:
            lines = list(lines_of_hdtn(data))
        except (ValueError, RecursionError) as error:
            self._report(f"no contact plan of HDTN: {error}", name)
            return
        for line in lines:
            why = reader.leave_out(line.text, Unclear(line.wrong)) if line.wrong else reader.read(line.text)
            line = line.text
            if why and not isinstance(why, Repeated):
                later = "" if line.startswith("a range") else ", so contacts after it have other numbers"
                self._report(f"{why}{later}: {line}"[:LINE] + why.advice, name)
            elif why and line.startswith("a contact"):
                self._report(f"the contact stands twice, so contacts after it have other numbers: {line}", name)

    def end(self):
        """Ends the plan, after the last file."""
        if self.form == "dtnsim":
            self.plan.add_missing_ranges()
        self.check_length()

    def check_length(self):
        """Reports a plan that has too many lines."""
        if len(self.plan.lines) > LINES:
            self._report(f"more than {LINES} lines, comments included", "the plan")

    def messages(self):
        """Each report, with all its places; then what was read of each file."""
        for report, places in self.reports.items():
            told = "; ".join(f"{name}{lines_text(lines)}" for name, lines in places.items())
            yield printable(f"{told}: {report}")
        yield from map(printable, self.summaries)


# ---- The command line -------------------------------------------------------------------------------------------


def parser_of_words():
    """A parser of the command line."""
    parser = Words(__doc__)
    group = parser.add_argument_group("Files")
    group.add_argument("files", nargs="+", metavar="FILE", help="what ionadmin reads, or a plan of that form; - is standard input")
    group.add_argument("--form", choices=("ion", "hdtn", "dtnsim"), default="ion", help="whose files these are; ION's if not given")
    reference = "the time from which relative times count before a first line `@`, such as 2031/03/03-01:00:00 or now; ION takes the time at which it reads the file"
    group.add_argument("--reference", type=time_word, metavar="T", help=reference)
    group.add_argument("--round", choices=ROUNDED, help="make times, light times and rates whole, up or down")
    group.add_argument("--lenient", action="store_true", help="status 0 even if lines are left out")
    add_other_words(parser, has_program=False)
    return parser


def read_words():
    """The words of the command line."""
    words = parser_of_words()
    given = words.parse_args()
    if given.form != "ion" and given.reference is None:
        words.error(f"--form {given.form} needs --reference, from when all times count")
    return given


def tool():
    words = read_words()
    files = [(name, bytes_of(name, MOST_BYTES)) for name in words.files]
    made = Filter(words.reference, words.files, words.form, ROUNDED.get(words.round))
    for name, data in files:
        made.read(name, data)
    made.end()
    for message in made.messages():
        tell(message)
    sys.stdout.writelines(f"{line}\n" for line in made.plan.lines)
    sys.stdout.flush()
    if made.reports and not words.lenient:
        raise Refused(None, NO_STATUS)
    return ""


def main():
    """Runs the command."""
    run_tool(tool)
