"""Contact plans as they stand after their last line, and the files that hold them."""

import copy
import hashlib
from collections import defaultdict
from typing import NamedTuple, Optional

from . import hints
from .errors import PLAN_STATUS, WORDS_STATUS, Refused
from .names import Names
from .reading import Reader, lines_in, plan_bytes
from .times import time_text
from .tool import scratch_with


class Contact(NamedTuple):
    """A contact that stands, with the light time in force when it starts; None if there is none."""

    number: int
    start: int
    end: int
    sender: int
    receiver: int
    rate: int  # bytes in a second
    light: Optional[int] = None

    @property
    def link(self):
        """The sender and the receiver."""
        return self.sender, self.receiver

    def deletion(self):
        """The line that takes the contact out at the end of a plan."""
        return f"d contact {time_text(self.start)} {self.sender} {self.receiver}"


def links_of(contacts):
    """Contacts by link and by start; the links by sender and receiver."""
    links = defaultdict(list)
    for contact in sorted(contacts, key=lambda it: (*it.link, it.start)):
        links[contact.link].append(contact)
    return dict(links)


class Plan:
    """What stands after the last line of a plan's text, its bytes or its lines, which is judged as `cgrlist check` does.

    `file` is the path of the plan's text, which the program reads again, and None for a plan made of lines. `names` may
    say names of its nodes: `Names`, a mapping of numbers to names, or a file's path.
    """

    def __init__(self, lines, file=None, names=None):
        self.file, self.names = file, Names.made_of(names)
        lines, reader = _lines(lines), Reader()
        for bad in reader.bad_lines(lines):
            raise Refused(bad.message, PLAN_STATUS, hints=hints.of_bad_line(bad, file, lines))
        self._ranges = reader.ranges
        self._numbered = {
            it.number: Contact(it.number, start, it.end, *link, it.rate, self._ranges.light(*link, start))
            for (start, *link), it in reader.contacts.items()
        }

    @classmethod
    def from_file(cls, path, names=None):
        """Reads the plan of a file."""
        return cls(plan_bytes(path), path, names)

    @property
    def contacts(self):
        """The contacts that stand, by number."""
        return [self._numbered[number] for number in sorted(self._numbered)]

    @property
    def range_count(self):
        """How many ranges stand."""
        return self._ranges.count

    @property
    def canonical(self):
        """The canonical text of what stands."""
        lines = ["cgr-plan 1"]
        lines += (f"c {it.number} {it.start} {it.end} {it.sender} {it.receiver} {it.rate}" for it in self.contacts)
        lines += (f"r {one} {other} {it.start} {it.end} {it.light}" for (one, other), it in self._ranges)
        return "".join(f"{line}\n" for line in [*lines, "end"])

    @property
    def digest(self):
        """The digest of what stands, as `cgrlist check` prints it."""
        return hashlib.sha256(self.canonical.encode()).hexdigest()

    def links(self):
        """The contacts of each link by start; the links by sender and receiver."""
        return links_of(self.contacts)

    def contact(self, number):
        """The contact with a number."""
        if number not in self._numbered:
            raise Refused(f"the plan has no contact {number}")
        return self._numbered[number]

    def without(self, numbers):
        """The plan without the contacts with some numbers, of which there must be some; the others keep theirs."""
        plan, lost = copy.copy(self), set(numbers)
        missing = sorted(lost - self._numbered.keys())
        if missing:
            raise Refused(f"the plan has no contact {missing[0]}", WORDS_STATUS)
        plan._numbered = {number: it for number, it in self._numbered.items() if number not in lost}
        plan.file = self.file and with_lines(self.file, [self.contact(number).deletion() for number in sorted(lost)])
        return plan

    def nodes_of(self, contacts):
        """The nodes that a list of contact numbers passes, in order."""
        path = [self.contact(number) for number in contacts]
        return (*(it.sender for it in path[:1]), *(it.receiver for it in path))

    def with_nodes(self, route):
        """A route with its nodes; refused if it can't be one of this plan."""
        path = [self.contact(number) for number in route.contacts]
        senders, receivers = [it.sender for it in path], [it.receiver for it in path]
        if senders[1:] != receivers[:-1] or route.entry != receivers[0]:
            raise Refused(f"route {route.rank} isn't one of this plan: its contacts don't go from node to node")
        return route.having(nodes=(senders[0], *receivers))

    def room_of(self, hop):
        """The bytes that a hop's contact can send from the hop's sending on; None if its rate is 0, which is unknown."""
        contact = self.contact(hop.contact)
        return contact.rate * (contact.end - hop.send) or None

    def room(self, route):
        """The most bytes that fit into a route by the rates of its contacts that are known; None if none is."""
        return min(filter(None, map(self.room_of, route.hops)), default=None)

    def path_text(self, nodes):
        """Nodes by their names, with arrows between them."""
        return " > ".join(map(self.names.of, nodes))


def _lines(lines):
    """The lines of a plan's text, in which each character is a byte."""
    if isinstance(lines, bytes):
        return lines_in(lines)
    return [it if it.isascii() else it.encode("utf-8", "replace").decode("latin-1") for it in lines]


def with_lines(file, lines):
    """The path of a copy of a plan's text with further lines."""
    return scratch_with(plan_bytes(file) + "".join(f"\n{line}" for line in lines).encode() + b"\n")
