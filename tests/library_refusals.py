"""Tests each status of the C library, and that nothing has changed after it."""

import re
import shutil

import library_header as header
from checking import TOP

AT = "2030/01/01-00:45:00"
LATEST = 253370764799

# The canonical text of examples/a.txt, but for its last range and the end.
CONTACTS = """cgr-plan 1
c 1 1893456000 1893456100 1 2 1000
c 2 1893456020 1893456060 2 3 1000
c 3 1893456050 1893456090 1 3 1000
c 4 1893456000 1893456200 2 3 1000""".replace("\n", " | ")
RANGES = "r 1 2 1893456000 1893457000 10 | r 1 3 1893456000 1893457000 40"

# Calls over examples/a.txt, and what each returns: its first line, and the next ones behind bars.
REFUSED = f"""
best 3 3 {AT} | SAME_NODE
best 0 3 {AT} | BAD_NODE
best 1 0 {AT} | BAD_NODE
best 1 3 {LATEST} | NO
best 1 3 {LATEST + 1} | BAD_TIME
best 1 3 {AT} 1000000 | NO
best 1 3 {AT} 1000001 | BAD_MARGIN
best 1 3 {AT} 0 20000 | NO
best 1 3 {AT} 0 20001 | BAD_HOPS
best 1 3 {AT} 0 0 4,4 | BAD_AVOID
best 1 3 {AT} 0 0 5,4 | BAD_AVOID
best 1 3 {AT} 0 0 0,4 | BAD_AVOID
best 1 3 {AT} 0 0 1 | BAD_AVOID
best 1 3 {AT} 0 0 3 | BAD_AVOID
best 1 3 {AT} 0 0 11,12,13,14,15,16,17,18,19,20,21,22,23,24,25,26 | NO
best 1 3 {AT} 0 0 11,12,13,14,15,16,17,18,19,20,21,22,23,24,25,26,27 | BAD_AVOID
first 3 3 3 {AT} | SAME_NODE
first 10000 1 3 {AT} | OK | end
first 10001 1 3 {AT} | VALUE_COUNT
first 0 1 3 1893456000 | OK | more
follow 1 1 0 {AT} | BAD_NODE
hops 1 1 1 {AT} | SAME_NODE
listing_open 1 3 {LATEST + 1} | BAD_TIME
listing_next 1 | NO_LISTING
listing_back | NO_LISTING
listing_place | NO_LISTING
listing_text | NO_LISTING
plan_contact 0 | NO
plan_contact 5 | NO
plan_contact_at 3 | OK | contact 4 from 2 to 3 start 2030/01/01-00:00:00 end 2030/01/01-00:03:20 rate 1000 light 5
plan_contact_at 4 | NO
plan_contact_at {2**64 - 1} | NO
plan_range_at 1 | OK | range one 1 other 3 start 2030/01/01-00:00:00 end 2030/01/01-00:16:40 light 40
plan_range_at 3 | NO
plan_greatest | OK | greatest 4
plan_add_contact 0 2 0 10 1 | VALUE_NODE
plan_add_contact 2 0 0 10 1 | VALUE_NODE
plan_add_contact 1 2 0 {LATEST + 1} 1 | VALUE_TIME
plan_add_contact 1 2 10 10 1 | EMPTY_WINDOW
plan_add_contact 2 2 0 10 1 | SELF_PAIR
plan_add_contact 1 2 1893456000 {LATEST} 1 | DUPLICATE_CONTACT
plan_add_range 0 2 0 10 1 | VALUE_NODE
plan_add_range 2 0 0 10 1 | VALUE_NODE
plan_add_range 1 2 0 {LATEST + 1} 1 | VALUE_TIME
plan_add_range 1 2 0 10 1000001 | VALUE_LIGHT
plan_add_range 1 2 10 10 1 | EMPTY_WINDOW
plan_add_range 2 2 0 10 1 | SELF_PAIR
plan_add_range 1 2 1893456999 {LATEST} 1 | RANGE_OVERLAP
plan_add_contacts 1 9 0 10 1 2 9 0 10 1 9 9 0 10 1 1 0 0 10 1 | SELF_PAIR | place 2
plan_add_contacts 1 9 0 10 1 1 9 0 20 1 | DUPLICATE_CONTACT | place 1
plan_add_contacts 0 9 0 10 1 1 9 0 20 1 | VALUE_NODE | place 0
plan_add_ranges 1 9 0 10 1 1 9 9 20 1 | RANGE_OVERLAP | place 1
plan_add_ranges 1 9 0 10 1 1 8 0 10 1000001 | VALUE_LIGHT | place 1
plan_add_contacts | OK
plan_nodes | OK | nodes 1 2 3
plan_prepare | OK
plan_delete_number 0 | NOTHING_TO_DELETE
plan_delete_number 5 | NOTHING_TO_DELETE
plan_delete_contact 1 2 1893456001 | NOTHING_TO_DELETE
plan_delete_contact 0 2 1893456000 | VALUE_NODE
plan_delete_range 1 2 1893456001 | NOTHING_TO_DELETE
plan_delete_range 2 1 1893456000 | NOTHING_TO_DELETE
follow - 1 3 1893456000 | NO | refused: Empty
follow 9 1 3 1893456000 | NO | refused hop 1: NoSuchContact
follow 1,1 1 3 1893456000 | NO | refused hop 2: NotChained
follow 1,4 1 9 1893456000 | NO | refused: WrongEnd
follow 1 1 3 1893456000 | NO | refused: WrongEnd
follow 1,4 1 3 1893456100 | NO | refused hop 1: TooLate
follow 1,4 1 3 1893456000 0 1 | NO | refused hop 2: TooManyHops
follow 1,4 1 3 1893456000 0 0 2 | NO | refused hop 1: AvoidedNode
plan_add_contact 3 1 1893456000 1893456100 1 | OK | number 5
follow 3,5 1 2 1893456000 | NO | refused hop 2: NodeAgain
plan_add_contact 1 7 1893456000 1893456100 1 | OK | number 6
follow 6 1 7 1893456000 | NO | refused hop 1: NoLight
plan_delete_contact 1 7 1893456000 | OK | number 6
follow 6 1 7 1893456000 | NO | refused hop 1: NoSuchContact
plan_add_contact 1 {2**64 - 1} 0 {LATEST} {2**64 - 1} | OK | number 7
plan_add_range 1 {2**64 - 1} 0 {LATEST} 1000000 | OK
plan_greatest | OK | greatest 7
plan_contact_at 5 | OK | contact 7 from 1 to {2**64 - 1} start 1970/01/01-00:00:00 end 9998/12/31-23:59:59 rate {2**64 - 1} light 1000000
best 1 {2**64 - 1} 0 1000000 | OK | delivery 1970/01/24-03:33:20 hops 1 entry {2**64 - 1} until 9998/12/31-23:59:59 contacts 7
plan_canonical | OK | {CONTACTS} | c 5 1893456000 1893456100 3 1 1 | c 7 0 {LATEST} 1 {2**64 - 1} {2**64 - 1} | {RANGES} | r 1 {2**64 - 1} 0 {LATEST} 1000000 | r 2 3 1893456000 1893457000 5 | end
"""

# Buffers that are too small over examples/a.txt: how long they are, the call, and what it returns.
ROUTE_1, ROUTE_2 = ("delivery 2030/01/01-00:00:15 hops 2 entry 2 until 2030/01/01-00:01:40 contacts 1 4",
                    "delivery 2030/01/01-00:00:25 hops 2 entry 2 until 2030/01/01-00:01:00 contacts 1 2")
ROUTE_3 = "delivery 2030/01/01-00:01:30 hops 1 entry 3 until 2030/01/01-00:01:30 contacts 3"
HOP_1 = "hop 1 contact 1 from 1 to 2 send 2030/01/01-00:00:00 arrive 2030/01/01-00:00:10"
CRAMPED = f"""
0 | best 1 3 1893456000 | ROOM | needs 2 contacts | {ROUTE_1.replace('hops 2', 'hops 0')[:-4]}
2 | best 1 3 1893456000 | OK | {ROUTE_1}
0 0 | first 9 1 3 1893456000 | ROOM | needs 3 routes, 5 contacts; written 0 | end
3 4 | first 9 1 3 1893456000 | ROOM | needs 3 routes, 5 contacts; written 2 | 1 {ROUTE_1} | 2 {ROUTE_2} | end
2 5 | first 9 1 3 1893456000 | ROOM | needs 3 routes, 5 contacts; written 2 | 1 {ROUTE_1} | 2 {ROUTE_2} | end
3 3 | first 9 1 3 1893456000 | ROOM | needs 3 routes, 5 contacts; written 1 | 1 {ROUTE_1} | end
1 2 | first 1 1 3 1893456000 | OK | 1 {ROUTE_1} | more
0 0 | first 0 1 3 1893456000 | OK | more
1 | hops 1,4 1 3 1893456000 | ROOM | needs 2 hops | {HOP_1}
0 | hops 1,9 1 3 1893456000 | ROOM | needs 1 hops
1 | hops 1,9 1 3 1893456000 | NO | {HOP_1}
0 | hops 9 1 3 1893456000 | NO
2 | plan_nodes | ROOM | needs 3 nodes
3 | plan_nodes | OK | nodes 1 2 3
0 | plan_text | ROOM | needs 400 bytes
399 | plan_text | ROOM | needs 400 bytes
0 | plan_canonical | ROOM | needs 247 bytes
246 | plan_canonical | ROOM | needs 247 bytes
247 | plan_canonical | OK | {CONTACTS} | {RANGES} | r 2 3 1893456000 1893457000 5 | end
0 | listing_open 1 3 1893456000 | OK
0 0 | listing_next 2 | ROOM | needs 2 routes, 4 contacts; written 0 | more
1 4 | listing_next 2 | ROOM | needs 2 routes, 4 contacts; written 1 | 1 {ROUTE_1} | more
0 | listing_place | OK | given 0 more first
1 2 | listing_next 1 | OK | 1 {ROUTE_1} | more
1 1 | listing_next 1 | ROOM | needs 1 routes, 2 contacts; written 0 | more
0 | listing_place | OK | given 1 more back
0 | listing_back | OK
0 | listing_text | ROOM | needs 174 bytes
173 | listing_text | ROOM | needs 174 bytes
"""

# A listing, which goes on over the plan as it stood, and another plan.
LISTED = f"""
listing_open 1 3 1893456000 | OK
listing_load a.txt | SESSION_BAD_HEADER | line 0
plan_delete_contact 1 2 1893456000 | OK | number 1
listing_next 10001 | VALUE_COUNT
listing_back | NO
listing_next 0 | OK | more
listing_back | NO
listing_next 2 | OK | 1 {ROUTE_1} | 2 {ROUTE_2} | more
best 1 3 1893456000 | OK | {ROUTE_3}
first 1 1 3 1893456000 | OK | 1 {ROUTE_3} | end
follow 1,4 1 3 1893456000 | NO | refused hop 1: NoSuchContact
listing_place | OK | given 2 more back
listing_next 9 | OK | 1 {ROUTE_3} | end
listing_place | OK | given 3 end back
listing_next 9 | OK | end
listing_back | OK
listing_back | OK
listing_back | NO
listing_place | OK | given 0 more first
listing_close |
listing_place | NO_LISTING
listing_open 1 3 1893456000 | OK
listing_next 9 | OK | 1 {ROUTE_3} | end
use 1 |
plan_new | OK
best 1 3 1893456000 | NO
plan_add_contact 1 3 1893456000 1893456001 0 | OK | number 1
plan_add_range 1 3 1893456000 1893456001 0 | OK
best 1 3 1893456000 | OK | delivery 2030/01/01-00:00:00 hops 1 entry 3 until 2030/01/01-00:00:01 contacts 1
listing_place | NO_LISTING
use 0 |
plan_close |
plan_close |
listing_place | OK | given 1 end back
listing_open 1 3 1893456000 | NO_PLAN
"""

# What there is without a plan and without a listing.
NOTHING_OPEN = f"""plan_add_contact 1 2 0 1 1;plan_add_range 1 2 0 1 1;plan_delete_contact 1 2 0;plan_delete_range 1 2 0;plan_counts;plan_digest
plan_copy 1;plan_renumber 1 0;plan_delete_number 1;plan_add_contacts;plan_add_ranges;plan_prepare;plan_nodes;best_each 1 1 3 {AT};plan_text;plan_canonical;plan_greatest;plan_contact_at 0;plan_range_at 0;plan_contact 1;best 1 3 {AT};first 1 1 3 {AT};follow 1 1 3 {AT};hops 1 1 3 {AT}
listing_open 1 3 {AT};listing_load a.txt;verify a.txt;best 0 0 {AT};first 10001 0 0 {AT};listing_next 1;listing_next 10001;listing_back;listing_place;listing_text"""

# A refused line of a plan's text, and its status.
LINES = """
#{long} | LINE_TOO_LONG
a range +0 +10 1 2 1\r | LINE_BAD_BYTE
m production 1000000 | LINE_UNKNOWN_COMMAND
a contact +0 +10 1 2 5 1.0 | LINE_WRONG_OPERANDS
a contact 2030/1/1-00:00:00 +10 1 2 5 | LINE_BAD_TIME
a contact +0 +10 ipn:1.0 2 5 | LINE_BAD_NODE
a range +0 +10 1 2 0.5 | LINE_BAD_NUMBER
a contact +10 +5 1 2 5 | LINE_EMPTY_WINDOW
a contact +0 +10 1 1 5 | LINE_SELF_PAIR
a contact +0 +10 1 2 5 | LINE_DUPLICATE_CONTACT
a range +9 +20 1 2 1 | LINE_RANGE_OVERLAP
d contact +0 7 8 | LINE_NOTHING_TO_DELETE
"""
GOOD = "@ 2030/01/01-00:00:00\na contact +0 +20 1 2 5\na range +0 +10 1 2 1\n"

# A damaged session text: what is replaced in that of examples/a.txt after one route, by what, and the status and line.
DAMAGED = """
cgr-session 2 | cgr-session 3 | SESSION_BAD_HEADER | 0
emitted 1 | emitted 01 | SESSION_BAD_LINE | 4
end\\n | end\\nmore | SESSION_BAD_LINE | 10
end\\n | end | SESSION_BAD_LINE | 9
plan 1 | plan 2 | SESSION_OTHER_PLAN | 0
request 1 3 | request 3 3 | SESSION_BAD_REQUEST | 0
part 1 / 4 / 1 2 | part 1 / 4 / 1 3 | SESSION_BAD_ROUTE | 8
part 1 / 4 / 1 2 | part 1 / 2 / 1 4 | SESSION_BAD_COUNT | 0
part 1 / 4 / 1 2\\n | | SESSION_BAD_LINE | 8
part - / 1 / 3 | part - / 3 / 1 4 | SESSION_NOT_CLOSED | 0
emitted 1 | emitted 2 | SESSION_BAD_COUNT | 0
"""


def rows_of(table):
    for line in table.strip("\n").split("\n"):
        yield [cell.strip(" ") for cell in line.split("|")]


def answered(cells):
    return "".join(f"{cell}\n" for cell in cells if cell)


def over_a(room, calls):
    return room.answers(["plan_read a.txt", *calls], "--kept")[1:]


def refusals(room):
    shutil.copy(f"{TOP}/examples/a.txt", room.path)
    for table in (REFUSED, LISTED):
        rows = list(rows_of(table))
        given = over_a(room, [call for call, *_ in rows])
        for place, (call, *wanted) in enumerate(rows):
            last = [it[0] for it in rows[:place]].count(call)
            yield (f"{call}{f', time {last + 1}' if last else ''}", answered(wanted),
                   lambda: given[place] if wanted[-1:] != ["end"] or len(wanted) > 2 else shortened(given[place]))
    rows = list(rows_of(CRAMPED))
    given = over_a(room, [it for lengths, call, *_ in rows for it in (f"room {lengths}", call)])[1::2]
    for (lengths, call, *wanted), answer in zip(rows, given):
        yield f"{call}, room {lengths}", answered(wanted), lambda: answer
    for call in NOTHING_OPEN.replace("\n", ";").split(";"):
        missing = "NO_LISTING" if re.match("listing_(?!open|load)", call) else "NO_PLAN"
        yield f"without a plan: {call}", [f"{missing}\n"], room.answers, [call]


def shortened(answer):
    """The first and the last line alone."""
    lines = answer.splitlines(True)
    return "".join([lines[0], lines[-1]])


def texts(room):
    """What is refused of a plan's text and of a session's, and the names of statuses and faults."""
    yield "an empty text is a plan", "OK\n", lambda: room.answers([f"plan_read {room.file('empty')}"])[0]
    for line, status in rows_of(LINES):
        text = f"{GOOD}{line.replace('{long}', 'x' * 255)}\na"
        yield (f"a plan with a line {line[:40]!r}", f"{status}\nline 4\n",
               lambda: room.answers([f"plan_read {room.file('bad', text)}", "plan_new"])[0])
    yield "a plan without a reference", "LINE_NO_REFERENCE\nline 1\n", lambda: (
        room.answers([f"plan_read {room.file('bad', 'a contact +0 +10 1 2 5')}"])[0])
    many = "@ 2030/01/01-00:00:00\n" + "".join(f"a contact +{it} +{it + 1} 1 2 5\n" for it in range(20001))
    yield "a plan with too many contacts", "LINE_TOO_MANY\nline 20002\n", lambda: (
        room.answers([f"plan_read {room.file('bad', many)}"])[0])
    full = many.rsplit("\n", 2)[0]
    yield "a full plan takes no more", ["OK\n", "TOO_MANY\n", "OK\nnumber 1\n", "TOO_MANY\n"], lambda: room.answers([
        f"plan_read {room.file('full', full)}", "plan_add_contact 3 4 0 1 0", "plan_delete_contact 1 2 1893456000",
        "plan_add_contact 3 4 0 1 0"])
    yield "nor do its copy and its text", ["TOO_MANY\n", "TOO_MANY\n"], lambda: room.answers([
        f"plan_read {room.file('full', full)}", "plan_delete_contact 1 2 1893475999", "plan_copy 1", "plan_text written", "use 1",
        "plan_add_contact 3 4 0 1 0", "use 2", "plan_read written", "plan_add_contact 3 4 0 1 0"])[5::3]
    ranges = "@ 2030/01/01-00:00:00\n" + "".join(f"a range +{it} +{it + 1} 1 2 5\n" for it in range(20000))
    yield "nor ranges", ["OK\n", "TOO_MANY\n", "OK\n", "OK\n"], lambda: room.answers([
        f"plan_read {room.file('full', ranges)}", "plan_add_range 3 4 0 1 0", "plan_delete_range 1 2 1893456000",
        "plan_add_range 3 4 0 1 0"])
    over_a(room, ["listing_open 1 3 1893456000", "listing_next 1", "listing_text session"])
    session = room.read("session")
    yield "a good session text", ["OK\n", "OK\ngiven 1 more first\n", "OK\n"], over_a, room, [
        "listing_load session", "listing_place", "verify session"]
    for old, new, status, line in rows_of(DAMAGED):
        assert old.replace("\\n", "\n") in session, old
        text = session.replace(old.replace("\\n", "\n"), new.replace("\\n", "\n"), 1)
        yield f"a session text with {new or 'nothing'} for {old}", [f"{status}\nline {line}\n", "NO_LISTING\n", "NO\n"], lambda: over_a(
            room, [f"listing_load {room.file('bad', text)}", "listing_place", "verify bad"])
    other = session.replace("part 1 / 4 / 1 2", "part 1 / 4 / -")
    yield "a text that leaves a route out can be loaded, and isn't verified", ["OK\n", "NO\n"], lambda: over_a(
        room, [f"listing_load {room.file('other', other)}", "verify other"])
    yield "an empty session text", ["SESSION_BAD_HEADER\nline 0\n", "NO\n"], lambda: over_a(room, ["listing_load empty", "verify empty"])


def names(room):
    for kind, numbers in (("status", range(200)), ("fault", range(20))):
        constants = {value: f"CGRLIST_{name}\n" for name, value in header.declared_statuses(room.header, f"cgrlist_{kind}").items()}
        yield f"the name of a {kind} is that of its constant, and no other number has one", [
            constants.get(it, "\n") for it in numbers], room.answers, [f"{kind}_name {it}" for it in numbers]
        yield f"nor has the largest {kind}", ["\n"], room.answers, [f"{kind}_name {2**32 - 1}"]
