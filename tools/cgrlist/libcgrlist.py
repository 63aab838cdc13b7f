"""The C library cgrlist, by ctypes. A copy of this file alone works, too: it needs nothing else of the package.

    from libcgrlist import Library, request

    library = Library("libcgrlist.so.2")
    with library.read(open("relay.txt", "rb").read()) as plan:
        print(plan.best(request(31, 1, 1893458700)))

Times are whole seconds since 1970-01-01T00:00:00Z. What the library refuses is a `Refusal`, whose name is that of the constant
in cgrlist.h; cgrlist(3) says what each means. A plan or a listing is used by one call at a time; after `prepare`,
threads may make calls that don't change a plan at the same time.
"""

import ctypes
import operator
import threading
from ctypes import POINTER, byref, c_bool, c_char_p, c_size_t, c_uint8, c_uint32, c_uint64, c_void_p
from typing import NamedTuple, Optional, Tuple

ABI = 2
OK, NO, ROOM, MEMORY = 0, 1, 2, 3  # statuses, as cgrlist.h has them


class Refusal(Exception):
    """A call was refused: the status, its name, and the bad line of a text, the place of a record to add, or 0."""

    def __init__(self, status, name, line=0):
        super().__init__(f"line {line}: {name}" if line else name)
        self.status, self.name, self.line = status, name, line


class Route(NamedTuple):
    delivery: int
    until: int
    entry: int
    contacts: Tuple[int, ...]


class Page(NamedTuple):
    routes: Tuple[Route, ...]
    more: bool


class Hop(NamedTuple):
    source: int
    to: int
    sent: int
    arrival: int
    contact: int


class Outcome(NamedTuple):
    """What a list of contacts does: a route, or the name of its first fault, and the fault's place from 1 or 0."""

    route: Optional[Route]
    fault: str
    place: int


class Contact(NamedTuple):
    source: int
    to: int
    start: int
    end: int
    rate: int
    number: int
    light: Optional[int]


class Range(NamedTuple):
    one: int
    other: int
    start: int
    end: int
    light: int


class Counts(NamedTuple):
    contacts: int
    ranges: int
    nodes: int
    without_light: int
    greatest: int


class Reach(NamedTuple):
    """The best route to a destination, without its contact numbers; or why there is none, by a status."""

    delivery: int
    until: int
    entry: int
    hops: int
    status: int


class Place(NamedTuple):
    given: int
    more: bool
    can_back: bool


# ---- What C takes and gives -------------------------------------------------------------------------------------


def _struct(name, **fields):
    return type(name, (ctypes.Structure,), {"_fields_": [*fields.items()]})


_Request = _struct("_Request", source=c_uint64, to=c_uint64, at=c_uint64, margin_ppm=c_uint32, max_hops=c_uint32, avoid=POINTER(c_uint64), avoids=c_size_t)
_Route = _struct("_Route", delivery=c_uint64, until=c_uint64, entry=c_uint64, first=c_size_t, hops=c_size_t)
_Page = _struct("_Page", routes=c_size_t, contacts=c_size_t, written=c_size_t, more=c_bool)
_Outcome = _struct("_Outcome", delivery=c_uint64, until=c_uint64, entry=c_uint64, place=c_uint64, fault=c_uint32)
_Hop = _struct("_Hop", source=c_uint64, to=c_uint64, sent=c_uint64, arrival=c_uint64, contact=c_uint32)
_Counts = _struct("_Counts", **dict.fromkeys(Counts._fields, c_uint64))
_Contact = _struct("_Contact", source=c_uint64, to=c_uint64, start=c_uint64, end=c_uint64, rate=c_uint64, number=c_uint32, light=c_uint32, has_light=c_bool)
_Range = _struct("_Range", one=c_uint64, other=c_uint64, start=c_uint64, end=c_uint64, light=c_uint32)
_New = _struct("_New", **dict.fromkeys(Contact._fields[:5], c_uint64))
_Reach = _struct("_Reach", delivery=c_uint64, until=c_uint64, entry=c_uint64, hops=c_size_t, status=c_uint32)
_Place = _struct("_Place", given=c_uint64, more=c_bool, can_back=c_bool)

_PLACE, _NUMBERS, _BYTES, _NODES = POINTER(c_void_p), POINTER(c_uint32), POINTER(c_size_t), POINTER(c_uint64)
_ASKED, _TEXT = [c_void_p, POINTER(_Request)], [c_char_p, c_size_t]
_GIVEN = [c_uint32, POINTER(_Route), c_size_t, _NUMBERS, c_size_t, POINTER(_Page)]
_CALLS = {  # the types of the arguments of each call that returns a status
    "plan_new": [_PLACE],
    "plan_read": [_PLACE, *_TEXT, POINTER(c_uint64)],
    "plan_copy": [c_void_p, _PLACE],
    "plan_add_contact": [c_void_p, *[c_uint64] * 5, _NUMBERS],
    "plan_add_range": [c_void_p, *[c_uint64] * 4, c_uint32],
    "plan_delete_contact": [c_void_p, *[c_uint64] * 3, _NUMBERS],
    "plan_delete_range": [c_void_p, *[c_uint64] * 3],
    "plan_delete_number": [c_void_p, c_uint32],
    "plan_add_contacts": [c_void_p, POINTER(_New), c_size_t, _BYTES],
    "plan_add_ranges": [c_void_p, POINTER(_Range), c_size_t, _BYTES],
    "plan_prepare": [c_void_p],
    "plan_renumber": [c_void_p, c_uint64, _PLACE, _NUMBERS, c_size_t],
    "plan_greatest": [c_void_p, _NUMBERS],
    "plan_nodes": [c_void_p, _NODES, c_size_t, _BYTES],
    "plan_text": [c_void_p, *_TEXT, _BYTES],
    "plan_canonical": [c_void_p, *_TEXT, _BYTES],
    "plan_counts": [c_void_p, POINTER(_Counts)],
    "plan_digest": [c_void_p, POINTER(c_uint8)],
    "plan_contact": [c_void_p, c_uint32, POINTER(_Contact)],
    "plan_contact_at": [c_void_p, c_size_t, POINTER(_Contact)],
    "plan_range_at": [c_void_p, c_size_t, POINTER(_Range)],
    "best": [*_ASKED, POINTER(_Route), _NUMBERS, c_size_t],
    "best_each": [*_ASKED, _NODES, c_size_t, POINTER(_Reach)],
    "first": [*_ASKED, *_GIVEN],
    "follow": [*_ASKED, _NUMBERS, c_size_t, POINTER(_Outcome)],
    "hops": [*_ASKED, _NUMBERS, c_size_t, POINTER(_Hop), c_size_t, _BYTES],
    "verify": [c_void_p, *_TEXT],
    "listing_open": [*_ASKED, _PLACE],
    "listing_load": [c_void_p, *_TEXT, _PLACE, POINTER(c_uint64)],
    "listing_next": [c_void_p, *_GIVEN],
    "listing_back": [c_void_p],
    "listing_place": [c_void_p, POINTER(_Place)],
    "listing_text": [c_void_p, *_TEXT, _BYTES],
}


def _number(value, bits=64):
    """A value that is a whole number of this many bits, of which C would cut more."""
    if not 0 <= operator.index(value) < 1 << bits:
        raise OverflowError(f"{value} isn't a number of {bits} bits")
    return value


def request(source, to, at, margin_ppm=0, max_hops=0, avoid=()):
    """A request, as calls take it. `max_hops` 0 is no limit; the nodes to avoid rise."""
    nodes = (c_uint64 * len(avoid))(*map(_number, avoid))
    return _Request(_number(source), _number(to), _number(at), _number(margin_ppm, 32), _number(max_hops, 32), nodes, len(nodes))


def _route(row, numbers):
    return Route(row.delivery, row.until, row.entry, tuple(numbers[row.first : row.first + row.hops]))


def _contact(row):
    light = row.light if row.has_light else None
    return Contact(row.source, row.to, row.start, row.end, row.rate, row.number, light)


# ---- The library ------------------------------------------------------------------------------------------------


class Library:
    """The library at a path. OSError: it can't be loaded. ValueError: it has another version of its interface."""

    def __init__(self, path):
        self._c = ctypes.CDLL(path)
        if self._c.cgrlist_abi() != ABI:
            raise ValueError(f"{path} has version {self._c.cgrlist_abi()} of its interface, and this needs {ABI}")
        for name, types in _CALLS.items():
            getattr(self._c, f"cgrlist_{name}").argtypes = types
        for name in ("plan_close", "listing_close"):
            call = getattr(self._c, f"cgrlist_{name}")
            call.argtypes, call.restype = [c_void_p], None
        for name in ("status_name", "fault_name", "version"):
            getattr(self._c, f"cgrlist_{name}").restype = c_char_p

    def version(self):
        return self._c.cgrlist_version().decode()

    def new(self):
        """An empty plan."""
        place = c_void_p()
        self.call("plan_new", byref(place))
        return Plan(self, place)

    def read(self, text):
        """The plan of a text, as bytes."""
        place, line = c_void_p(), c_uint64()
        self.call("plan_read", byref(place), text, len(text), byref(line), line=line)
        return Plan(self, place)

    def call(self, name, *given, line=None):
        """The status of a call, which is OK, NO or ROOM."""
        status = getattr(self._c, f"cgrlist_{name}")(*given)
        if status > ROOM:
            raise Refusal(status, self._c.cgrlist_status_name(status).decode(), line.value if line else 0)
        return status

    def fault_name(self, fault):
        return self._c.cgrlist_fault_name(fault).decode()

    def close(self, name, place):
        getattr(self._c, f"cgrlist_{name}")(place)


class _Buffers(threading.local):
    """What the calls of a thread write into: as long as its longest answer so far."""

    def __init__(self):
        self.routes, self.numbers = (_Route * 64)(), (c_uint32 * 1024)()


class _Opened:
    """What the library opened, and closes at the end of a `with` or when nothing holds it any more."""

    _close = ""
    _place = None

    def __init__(self, library, place):
        self._library, self._place, self._buffers = library, place, _Buffers()

    def __enter__(self):
        return self

    def __exit__(self, *_):
        self.close()

    def __del__(self):
        self.close()

    def close(self):
        """Closes it. All calls are refused then."""
        place, self._place = self._place, None
        if place is not None:
            self._library.close(self._close, place)

    def _call(self, name, *given, line=None):
        return self._library.call(name, self._place, *given, line=line)

    def _text(self, name):
        bytes_ = c_size_t()
        self._call(name, None, 0, byref(bytes_))
        text = ctypes.create_string_buffer(bytes_.value)
        self._call(name, text, len(text), byref(bytes_))
        return text.raw

    def _page(self, name, *given):
        page, own = _Page(), self._buffers
        while self._call(name, *given, own.routes, len(own.routes), own.numbers, len(own.numbers), byref(page)) == ROOM:
            own.routes = (_Route * max(page.routes, len(own.routes)))()
            own.numbers = (c_uint32 * max(page.contacts, len(own.numbers)))()
        numbers = own.numbers[: page.contacts]
        return Page(tuple(_route(it, numbers) for it in own.routes[: page.routes]), page.more)


class Plan(_Opened):
    """A plan."""

    _close = "plan_close"

    def copy(self):
        """A copy, with the numbers of the contacts."""
        place = c_void_p()
        self._call("plan_copy", byref(place))
        return Plan(self._library, place)

    def add_contact(self, source, to, start, end, rate):
        """Adds a contact, and returns its number."""
        number = c_uint32()
        self._call("plan_add_contact", *map(_number, (source, to, start, end, rate)), byref(number))
        return number.value

    def add_range(self, one, other, start, end, light):
        self._call("plan_add_range", *map(_number, (one, other, start, end)), _number(light, 32))

    def delete_contact(self, source, to, start):
        """Deletes a contact, and returns its number."""
        number = c_uint32()
        self._call("plan_delete_contact", *map(_number, (source, to, start)), byref(number))
        return number.value

    def delete_range(self, one, other, start):
        self._call("plan_delete_range", *map(_number, (one, other, start)))

    def delete_number(self, number):
        """Deletes the contact with a number."""
        self._call("plan_delete_number", _number(number, 32))

    def add_contacts(self, contacts):
        """Adds contacts, five values each, all or none."""
        self._add("plan_add_contacts", _New, contacts)

    def add_ranges(self, ranges):
        """Adds ranges, five values each, all or none."""
        self._add("plan_add_ranges", _Range, ranges)

    def _add(self, name, kind, records):
        rows, place = (kind * len(records))(*(kind(*map(_number, it)) for it in records)), c_size_t()
        self._call(name, rows, len(rows), byref(place), line=place)

    def renumber(self, second=0):
        """A copy of what ends after a second, with the contacts numbered from 1 on, and the number here of each of them."""
        place, numbers = c_void_p(), (c_uint32 * self.greatest())()
        self._call("plan_renumber", _number(second), byref(place), numbers, len(numbers))
        copy = Plan(self._library, place)
        return copy, tuple(numbers[: copy.greatest()])

    def prepare(self):
        """Makes what is kept until the next change. Until then, threads may make calls that don't change it at the same time."""
        self._call("plan_prepare")

    def greatest(self):
        """The largest contact number given."""
        number = c_uint32()
        self._call("plan_greatest", byref(number))
        return number.value

    def nodes(self):
        """The nodes that send or receive a contact, ascending."""
        count = c_size_t()
        self._call("plan_nodes", None, 0, byref(count))
        nodes = (c_uint64 * count.value)()
        self._call("plan_nodes", nodes, len(nodes), byref(count))
        return tuple(nodes)

    def text(self):
        """The plan as a text, as bytes, from which `Library.read` makes it again."""
        return self._text("plan_text")

    def canonical(self):
        """The canonical text, as bytes, of which the digest is the SHA-256. `Library.read` doesn't read it."""
        return self._text("plan_canonical")

    def counts(self):
        found = _Counts()
        self._call("plan_counts", byref(found))
        return Counts(*(getattr(found, it) for it in Counts._fields))

    def digest(self):
        """The SHA-256 that session texts name, as bytes."""
        found = (c_uint8 * 32)()
        self._call("plan_digest", found)
        return bytes(found)

    def contact(self, number):
        """The contact with a number; None if it doesn't stand."""
        found = _Contact()
        return _contact(found) if self._call("plan_contact", _number(number, 32), byref(found)) == OK else None

    def contacts(self):
        """The contacts that stand, in the order of their numbers."""
        found, place = _Contact(), 0
        while self._call("plan_contact_at", place, byref(found)) == OK:
            yield _contact(found)
            place += 1

    def ranges(self):
        """The ranges that stand, in the order of their nodes and starts."""
        found, place = _Range(), 0
        while self._call("plan_range_at", place, byref(found)) == OK:
            yield Range(found.one, found.other, found.start, found.end, found.light)
            place += 1

    def best(self, asked):
        """The best route of a request; None if there is none."""
        row, own = _Route(), self._buffers
        while True:
            status = self._call("best", byref(asked), byref(row), own.numbers, len(own.numbers))
            if status != ROOM:
                return _route(row, own.numbers) if status == OK else None
            own.numbers = (c_uint32 * row.hops)()

    def best_each(self, asked, to):
        """The best route to each destination, in place of the request's."""
        nodes, found = (c_uint64 * len(to))(*map(_number, to)), (_Reach * len(to))()
        self._call("best_each", byref(asked), nodes, len(nodes), found)
        return tuple(Reach(*(getattr(row, it) for it in Reach._fields)) for row in found)

    def first(self, asked, count):
        """The first routes of a request, at most 10000."""
        return self._page("first", byref(asked), _number(count, 32))

    def follow(self, asked, contacts):
        """What a list of contacts does."""
        numbers, found = (c_uint32 * len(contacts))(*(_number(it, 32) for it in contacts)), _Outcome()
        status = self._call("follow", byref(asked), numbers, len(numbers), byref(found))
        route = Route(found.delivery, found.until, found.entry, tuple(contacts)) if status == OK else None
        return Outcome(route, self._library.fault_name(found.fault), found.place)

    def hops(self, asked, contacts):
        """The hops of a list of contacts, up to its first fault."""
        numbers, count = (c_uint32 * len(contacts))(*(_number(it, 32) for it in contacts)), c_size_t()
        hops = (_Hop * len(contacts))()
        self._call("hops", byref(asked), numbers, len(numbers), hops, len(hops), byref(count))
        return tuple(Hop(it.source, it.to, it.sent, it.arrival, it.contact) for it in hops[: count.value])

    def listing(self, asked):
        """The listing of a request, over the plan as it stands now."""
        place = c_void_p()
        self._call("listing_open", byref(asked), byref(place))
        return Listing(self._library, place)

    def load(self, text):
        """The listing of a session text, as bytes."""
        place, line = c_void_p(), c_uint64()
        self._call("listing_load", text, len(text), byref(place), byref(line), line=line)
        return Listing(self._library, place)

    def verify(self, text):
        """Whether a text, as bytes, is the session text of a place in the list of its request."""
        return self._call("verify", text, len(text)) == OK


class Listing(_Opened):
    """All routes of a request, page after page."""

    _close = "listing_close"

    def next(self, count):
        """The next routes, at most 10000."""
        return self._page("listing_next", _number(count, 32))

    def back(self):
        """Takes the last page that had routes back. False: there is none."""
        return self._call("listing_back") == OK

    def place(self):
        found = _Place()
        self._call("listing_place", byref(found))
        return Place(found.given, found.more, found.can_back)

    def text(self):
        """The session text, as bytes."""
        return self._text("listing_text")
