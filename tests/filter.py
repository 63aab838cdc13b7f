"""Tries tools/from_ionrc over files written as ION's own examples are, and over files that it must not take for such."""

import os
import re
import subprocess

from checking import TOP, Room, checks_of, last_of, lines_with, parts_of

DAY = "2030/01/01"
WINDOW = f"{DAY}-00:00:00 {DAY}-00:01:00"
CONTACT = f"a contact {WINDOW} 1 2 5"
RANGE = f"a range {WINDOW} 1 2 5"
REFERENCE = f"--reference={DAY}-00:00:00"


class Filter(Room):
    def filter(self, *words):
        return self.run("tools/from_ionrc", *words)

    def filtered(self, text, *words, file="host.ionrc"):
        """What the filter makes of a file, without the line that names it; then its status and its reports, without the
        line that counts what was read."""
        ran = self.filter(*words, [self.file(file, text)])
        reports = "".join(f"; {it}" for it in re.sub(f"from_ionrc: .*/{file}:? ", "", ran.err).splitlines()[:-1])
        return f"{ran.out.partition(chr(10))[2]}status {ran.status}{reports}"

    def ending(self, text, *words):
        """The last line of that."""
        return last_of(self.filtered(text, *words))

    def counts(self, text, *words):
        """What the filter's last line says of a file."""
        return last_of(self.filter(*words, [self.file("host.ionrc", text)]).err)


def whole_plans(room):
    ran = room.filter(REFERENCE, "tests/data/ion/host1.rc tests/data/ion/host2.ionrc")
    with open(f"{TOP}/tests/data/ion/plan.txt", encoding="ascii") as file:
        yield "two hosts make one plan", file.read(), lambda: ran.out
    yield "all of them is taken", 0, lambda: ran.status
    yield "a line for each file", """\
from_ionrc: tests/data/ion/host1.rc: contacts 4, ranges 2, deletions 0; left out: loopbacks 6, repeated 0, unclear 0, \
other lines 11
from_ionrc: tests/data/ion/host2.ionrc: contacts 3, ranges 4, deletions 2; left out: loopbacks 0, repeated 1, unclear 0, \
other lines 5, confidences 1
""", lambda: ran.err


def contacts_and_ranges(room):
    yield "what is unclear is reported", f"""\
# left out, no node: ipn:x: a contact {WINDOW} 1 ipn:x 5
# left out, no time: 2030/02/30-00:00:00: a range {DAY}-00:00:00 2030/02/30-00:00:00 1 2 5
status 1; line 1: no node: ipn:x; line 2: no time: 2030/02/30-00:00:00""", room.filtered, f"""\
a contact {WINDOW} 1 ipn:x 5
a range {DAY}-00:00:00 2030/02/30-00:00:00 1 2 5
"""
    yield "all of a pair is deleted, and may come again", f"""\
a contact {DAY}-00:00:01 {DAY}-00:00:05 1 2 9
a contact {DAY}-00:00:02 {DAY}-00:00:05 1 2 9
d contact {DAY}-00:00:01 1 2
d contact {DAY}-00:00:02 1 2
a contact {DAY}-00:00:01 {DAY}-00:00:05 1 2 9
status 0""", room.filtered, f"""\
@ {DAY}-00:00:00
a contact +1 +5 1 2 9
a contact +2 +5 1 2 9
d contact * 1 2
a contact +1 +5 1 2 9
"""
    yield ("a node with an authority", f"a range {DAY}-00:00:00 {DAY}-00:00:05 4294967299 2 9\nstatus 0",
           room.filtered, "a range +0 +5 ipn:1.3.0 ipn:2.0 9", REFERENCE)
    yield ("whole words for the commands", f"{CONTACT}\n{RANGE}\nd contact {DAY}-00:00:00 1 2\nd range {DAY}-00:00:00 1 2\nstatus 0",
           room.filtered, f"add contact {WINDOW} 1 2 5\nadd range {WINDOW} 1 2 5\ndelete contact * 1 2\ndel range * 1 2\n")
    confident = f"{CONTACT} .75\na contact {WINDOW} 2 1 5 1. 0\na contact {WINDOW} 1 3 5\n"
    yield ("a confidence and a further number are taken off", f"{CONTACT}\na contact {WINDOW} 2 1 5\na contact {WINDOW} 1 3 5\nstatus 0",
           room.filtered, confident)
    yield "they are counted", "other lines 0, confidences 2", lambda: parts_of("other lines.*", room.counts(confident))
    yield "a range is cut only by its own light time", f"""\
{RANGE}
# cut, another range of this pair has some of its seconds already:
a range {DAY}-00:01:00 {DAY}-00:02:00 1 2 5
d range {DAY}-00:00:00 1 2
d range {DAY}-00:01:00 1 2
status 0""", room.filtered, f"{RANGE}\na range +0 +120 1 2 5\nd range +0 1 2\n", REFERENCE
    long = room.file("long.ionrc", f"# {'x' * 300}\n")
    yield "no line is too long", [255, 255], lambda: [max(len(it), 255) for it in room.filter([long]).out.splitlines()[:2]]


# Each of these lines must be left out and counted as unclear.
UNCLEAR = r"""
A contact +1 +5 1 3 9
Add contact +1 +5 1 3 9
append contact +1 +5 1 3 9
a Contact +1 +5 1 3 9
a CONTACT +1 +5 1 3 9
a contacts +1 +5 1 3 9
a contac +1 +5 1 3 9
a 'contact' +1 +5 1 3 9
a kontakt 1 5 1 3 9
a
add scheme ipn
+ contact +1 +5 1 3 9
+ +1 +5 1 3 9
- 1 2
D 2 1
: a contact +1 +5 1 3 9
contact +1 +5 1 3 9
contact,+1,+5,1,3,9
a\xc2\xa0contact +1 +5 1 3 9
a Range +1 +5 1 3 9
c contact +1 1 3 9
l contact +1
i contact +1 +5 1 3 9
1 2030/01/01-00:00:01 2030/01/01-00:00:05 1 3 9
a contact
a contact +1 +5 1 3
a contact +1 +5 1 3 9 x
a contact +1 +5 1 3 9 1.0 x
a contact +1 +5 1 3 9 1.0 1 1
a contact +1 +5 1 3 9 # the last pass
a contact +1 +5 1 3 9.5
a contact +1 +5 1 3 -9
a contact +1 +5 1 0 9
a contact +5 +5 1 3 9
a contact -60 +5 1 3 9
a contact -1 -1 1 3 0
a contact +0 +5 1 2 9
a contact +1 +9999999999999 1 3 9
a range +1 +5 1 3 0.5
a range +1 +5 1 3 1 1
d contact +1 1 2
d contact +0 1 2 9
d contac * 1 2
# a comment\r a contact +1 +5 1 3 9
^ 2 +1 +5 1 3 9
r 'ionadmin contacts.ionrc'
From\t2030/01/01-00:00:00 to 2030/01/01-01:00:00 the xmit rate from node 1 to node 3 is 9 bytes/sec, confidence 1.000000.
@
@ +1 +5
@ 0
@2030/01/01-00:00:00
\xef\xbb\xbf@ 2030/01/01-00:00:00
"""
# None of these lines is a plan's, and each is sound.
SOUND = """
l contact
l range
i
i contact 2030/01/01-00:00:00 1 2
i range +1 ipn:1.0 ipn:2.0
a rtovrd 5 * * 3
a rtovrd 7 2 1 ipn:3.0
a pubkey 1 2030/01/01-00:00:00 8 0123456789abcdef
d rtovrd 5 * *
m horizon 2030/01/01-00:00:00
m clockerr +1
1 1 contact.ionconfig
"""


def nothing_is_lost(room):
    unclear = UNCLEAR.lstrip().encode().decode("unicode_escape").encode("latin-1")
    lines = unclear.count(b"\n")
    ran = room.filter(REFERENCE, [room.file("unclear.ionrc", CONTACT.encode() + b"\n" + unclear)])
    yield ("each unclear line is left out", (1, CONTACT, lines),
           lambda: (ran.status, lines_with("^[ad]", ran.out), lines_with("^# left out, ", ran.out).count("\n") + 1))
    yield "each unclear line is counted", f"{lines}", lambda: parts_of(r": contacts 1, .* unclear (\d*), other lines 0$", ran.err)
    other = "another range of this pair has another light time for some of its seconds"
    yield ("a range with another light time", f"{RANGE}\n# left out, {other}: a range +30 +90 1 2 6\nstatus 1; line 2: {other}",
           room.filtered, f"{RANGE}\na range +30 +90 1 2 6\n", REFERENCE)
    yield ("no time counts from a reference that is unclear",
           "status 1; line 1: no time: 2030/1/1-00:00:00; lines 2, 3: a relative time after a line @ that is unclear",
           room.ending, "@ 2030/1/1-00:00:00\na contact +1 +5 1 2 9\na contact +1 +5 2 1 9\n", REFERENCE)
    printed = f"From\t{WINDOW.replace(' ', ' to ')} the xmit rate from node 1 to node 2 is 9 bytes/sec, confidence 1.000000."
    yield ("one report for all that ionadmin printed",
           "status 1; lines 1, 2: ionadmin prints such lines, but doesn't read them: give the file with the commands", room.ending,
           f"{printed}\nFrom {WINDOW.replace(' ', ' to ')} the OWLT from node 1 to node 2 is 1 seconds.\n")
    stands = "the contact stands already"
    yield "a contact with another rate is told with both", f"""\
{CONTACT}
# left out, {stands}, with the rate 5 in place of 6: a contact {WINDOW} 1 2 6
# left out, {stands}: {CONTACT}
status 1; line 2: {stands}, with the rate 5 in place of 6""", room.filtered, f"{CONTACT}\na contact {WINDOW} 1 2 6\n{CONTACT}\n"
    yield ("each unclear line is named", "status 1; lines 1, 2, 4 to 7, 9: no node: x", room.ending,
           "".join("#\n" if place in (3, 8) else f"a contact {WINDOW} 1 x 5\n" for place in range(1, 10)))
    yield ("commands of other programs are no concern", "status 0", room.ending,
           f"{CONTACT}\na scheme ipn 'ipnfw' 'ipnadminep'\nd plan 2\na {{ \"policyrule\"\nm horizon +0\nr 'bpadmin a.rc'\n")
    sound = f"{SOUND.lstrip()}{CONTACT}\n"
    yield ("sound lines that are no plan's", ("status 0", f"other lines {len(SOUND.split(chr(10))) - 2}"),
           lambda: (room.ending(sound, REFERENCE), parts_of("other lines.*", room.counts(sound, REFERENCE))))
    regions = f"^ 2\n^\n{CONTACT}\n"
    yield ("regions are left out and counted", ("status 0", "other lines 0, regions 2"),
           lambda: (room.ending(regions), parts_of("other lines.*", room.counts(regions))))
    yield ("a file that ionadmin reads is named", "status 1; line 1: ionadmin reads rc/far.ionrc here: give that file, too",
           room.ending, f"r 'ionadmin rc/far.ionrc'\n{CONTACT}\n")
    files = [room.file("far.ionrc", f"{CONTACT}\n"),
             room.file("near.ionrc", f"a contact {WINDOW} 2 1 5\nr 'ionadmin rc/far.ionrc'\n")]
    ran = room.filter(files)
    yield ("but not if it is given", (0, "# left out, its file is given by itself: r 'ionadmin rc/far.ionrc'"),
           lambda: (ran.status, last_of(ran.out)))


def whole_files(room):
    nothing = "it adds no contact and no range"
    utf16 = "it has NUL bytes, so it is no text, or text in UTF-16, which must be saved in UTF-8"
    for title, text, told in (
        ("an empty file", "", nothing),
        ("a file without a contact", "# nothing\ns\n", nothing),
        ("JSON", '{ "contacts": [ { "contact": 0, "source": 1, "dest": 2 } ] }\n', "it is JSON or XML, which ionadmin doesn't read; --form hdtn reads a plan of HDTN"),
        ("UTF-16 with a byte order mark", b"\xff\xfe" + f"{CONTACT}\n".encode("utf-16-le"), utf16),
        ("UTF-16", f"{CONTACT}\n".encode("utf-16-be"), utf16),
    ):
        yield title, f"status 1; {told}", room.ending, text, REFERENCE
    yield "CR alone at the ends of lines", f"{CONTACT}\n{RANGE}\nstatus 0", room.filtered, f"{CONTACT}\r{RANGE}\r"
    twice = [room.file("commands", f"{CONTACT}\n"), room.file("again", f"{CONTACT}\n")]
    yield ("the file of a host that repeats the contacts of another", (0, " repeated 1,"),
           lambda: (room.filter(twice).status, parts_of("again.*( repeated 1,)", room.filter(twice).err)))
    noise = room.filter([room.file("noise", os.urandom(50000).replace(b"\0", b""))])
    yield "odd bytes", (1, ""), lambda: (noise.status, lines_with("Traceback", noise.err))
    yield "a plan is in ASCII", "", lambda: "".join(sorted(set(re.sub(r"[!-~\s]", "", noise.out))))
    many = "".join(f"a contact +{at} +30000 1 2 5\na range +{at} +{at + 1} 1 2 {at % 2}\n" for at in range(20001))
    yield ("more contacts and ranges than a plan has",
           "status 1; line 40001: a plan has at most 20000 contacts; line 40002: a plan has at most 20000 ranges at a time",
           room.ending, many, REFERENCE)
    long = room.file("long", f"{CONTACT}\n" + "#\n" * 999999)
    yield ("more lines than a plan has", "from_ionrc: the plan: more than 1000000 lines, comments included",
           lambda: room.filter(REFERENCE, [long]).err.splitlines()[0])

    def of_reader_that_goes_away():
        """How many lines the reader took, and what was told."""
        words = [f"{TOP}/tools/from_ionrc", REFERENCE, room.file("many", many)]
        with subprocess.Popen(words, stdout=subprocess.PIPE, stderr=subprocess.PIPE, text=True) as ran:
            lines = ran.stdout.readline().count("\n")
            ran.stdout.close()
            return lines, lines_with("Traceback|Broken pipe", ran.stderr.read())

    yield "the reader of a pipe goes away", (1, ""), of_reader_that_goes_away


def what_is_said(room):
    def first_line(*words):
        return room.filter(*words).out.partition("\n")[0]

    commands, two = room.file("commands", f"{CONTACT}\n"), room.file("two\nlines", f"{CONTACT}\n")
    yield "the plan names the file, without a reference", "# from two?lines, no reference given", first_line, [two]
    yield ("the plan names the file and the reference", f"# from commands, relative times from {DAY}-00:00:00",
           first_line, REFERENCE, [commands])
    files = [room.file("one", "a contact +1 +5 1 2 9\na contact +1 +5 2 1 9\n"), room.file("two", "@ +60\na range +1 +5 1 2 9\n")]
    ran = room.filter(files)
    lacking = "a relative time, and no --reference was given"
    yield ("one hint for a missing reference", (1, f"from_ionrc: one lines 1, 2; two lines 1, 2: {lacking} (yyyy/mm/dd-hh:mm:ss, the \
moment at which ION reads the file)"), lambda: (ran.status, ran.err.replace(f"{room.path}/", "").splitlines()[0]))
    yield "and no report but that", 3, lambda: len(ran.err.splitlines())
    yield "the plan says it of each line", 4, lambda: ran.out.count(f"\n# left out, {lacking}: ")
    missing = f"{room.path}/missing"
    yield "a file that is not there", f"from_ionrc: {missing}: No such file or directory\nstatus 5", \
        lambda: room.filter([commands, missing]).all()
    yield "a folder", f"from_ionrc: {room.path}: Is a directory\nstatus 5", lambda: room.filter([room.path]).all()
    yield ("a relative reference", "from_ionrc: argument --reference: no time of the years 1970 to 9998: +5; see --help\nstatus 2",
           lambda: re.sub(" a time is .*;", "", room.filter("--reference +5", [commands]).all()))
    yield ("a reference as ISO 8601 has it", f"# from one, relative times from {DAY}-00:00:01",
           first_line, "--reference 2030-01-01T00:00:01Z", files[:1])
    yield ("no file", "from_ionrc: the following arguments are required: FILE; see --help\nstatus 2", lambda: room.filter().all())
    yield ("a word that is none", "from_ionrc: unrecognized arguments: --refer; see --help\nstatus 2",
           lambda: re.sub(" 2030.*;", ";", room.filter(f"--refer {DAY}-00:00:00", [commands]).all()))


# Made for this test in HDTN's form as it is remembered, with a second band of the first link. It is no file of that project.
HDTN = """{
    "contacts": [
        {"contact": 0, "source": 102, "dest": 10, "startTime": 0, "endTime": 2000, "rateBitsPerSec": 10000000, "owlt": 1},
        {"contact": 1, "source": 10, "dest": 1, "startTime": 0, "endTime": 2000, "rateBitsPerSec": 10000000, "owlt": 2},
        {"contact": 2, "source": 102, "dest": 10, "startTime": 1000, "endTime": 3000, "rateBitsPerSec": 80, "owlt": 1}
    ]
}
"""
# Made for this test in DtnSim's form as it is remembered, with a range for one link alone. It is no file of that project.
DTNSIM = """\
# contacts
a contact +0000010 +0000020 1 2 100
a contact +0000030 +0000040 2 1 100
a contact +0000030 +0000040 2 3 100
a range +0000000 +0001000 2 3 5
"""


def other_forms(room):
    hdtn = f"""\
a contact {DAY}-00:00:00 {DAY}-00:33:20 102 10 1250000
a range {DAY}-00:00:00 {DAY}-00:33:20 102 10 1
a contact {DAY}-00:00:00 {DAY}-00:33:20 10 1 1250000
a range {DAY}-00:00:00 {DAY}-00:33:20 10 1 2
a contact {DAY}-00:16:40 {DAY}-00:50:00 102 10 10
# cut, another range of this pair has some of its seconds already:
a range {DAY}-00:33:20 {DAY}-00:50:00 102 10 1
status 0"""
    yield "a plan of HDTN, whose contacts of a pair overlap", hdtn, room.filtered, HDTN, REFERENCE, "--form hdtn"
    yield "a plan of HDTN with the old key of rates", hdtn, room.filtered, HDTN.replace("rateBitsPerSec", "rate"), REFERENCE, "--form hdtn"
    spelled = HDTN.replace("10000000", "1e7").replace("2000", "2000.0")
    yield "a plan of HDTN whose whole numbers are spelled otherwise", hdtn, room.filtered, spelled, REFERENCE, "--form hdtn"
    fractions = HDTN.replace('"startTime": 1000', '"startTime": 999.5').replace('"owlt": 2', '"owlt": 1.25').replace("80", "84.8")
    for way, seconds, light, rate in (("up", "00:16:40", 2, 11), ("down", "00:16:39", 1, 10)):
        rounded = hdtn.replace("00:16:40", seconds).replace("10 1 2\n", f"10 1 {light}\n").replace("102 10 10\n", f"102 10 {rate}\n")
        yield f"a plan of HDTN, rounded {way}", rounded, room.filtered, fractions, REFERENCE, "--form hdtn --round", [way]
    for title, old, new, why in (
        ("a loopback", '"dest": 1,', '"dest": 10,', "loopback, so contacts after it have other numbers: a contact +0 +2000 10 10 1250000"),
        ("no rate", '"rateBitsPerSec": 80', '"speed": 80', "rateBitsPerSec: no number from 0 on, so contacts after it have other numbers: contact 2"),
        ("a text as a rate", '"rateBitsPerSec": 80', '"rateBitsPerSec": "80"', "rateBitsPerSec: no number from 0 on, so"),
        ("no node", '"dest": 1,', '"dest": -1,', "dest: no number from 0 on, so"),
        ("a light time that isn't whole", '"owlt": 2', '"owlt": 0.25',
         "no light time: 0.25: a range +0 +2000 10 1 0.25; --round up or --round down makes it whole"),
        ("a number without bounds", '"owlt": 2', '"owlt": 1e999', "owlt: no number from 0 on, so"),
        ("another number", '"contact": 2', '"contact": 5', "it has the number 5"),
        ("no JSON", "{", "", "no contact plan of HDTN: "),
        ("no contacts", '"contacts"', '"others"', "no contact plan of HDTN: it has no list of contacts"),
    ):
        yield f"a plan of HDTN: {title}", (1, why), lambda: (
            lambda ran: (ran.status, why if why in ran.err else ran.err))(
                room.filter(REFERENCE, "--form hdtn", [room.file("plan.json", HDTN.replace(old, new, 1))]))
    doubles = "a contact +10.5 +20 1 2 9.6e3\na range +10.0 +20.9 1 2 .25\n"
    for way, start, end, light in (("up", 11, 21, 1), ("down", 10, 20, 0)):
        yield f"fractions, rounded {way}", f"""\
a contact {DAY}-00:00:{start} {DAY}-00:00:20 1 2 9600
a range {DAY}-00:00:10 {DAY}-00:00:{end} 1 2 {light}
status 0""", room.filtered, doubles, REFERENCE, "--round", [way]
    yield "fractions that nobody rounds", "no time: +10.5; --round up or --round down makes it whole; line 2: no light time: .25; --round up or \
--round down makes it whole", lambda: room.ending(doubles, REFERENCE).partition("line 1: ")[2]
    yield "a plan of DtnSim", f"""\
# contacts
a contact {DAY}-00:00:10 {DAY}-00:00:20 1 2 100
a contact {DAY}-00:00:30 {DAY}-00:00:40 2 1 100
a contact {DAY}-00:00:30 {DAY}-00:00:40 2 3 100
a range {DAY}-00:00:00 {DAY}-00:16:40 2 3 5
a range {DAY}-00:00:10 {DAY}-00:00:40 1 2 0
status 0""", room.filtered, DTNSIM, REFERENCE, "--form dtnsim"
    yield ("a form needs a reference", "from_ionrc: --form dtnsim needs --reference, from when all times count; see --help\nstatus 2",
           lambda: room.filter("--form dtnsim -").all())


def changes_and_lenience(room):
    yield "a changed rate", f"""\
{CONTACT}
d contact {DAY}-00:00:00 1 2
a contact {WINDOW} 1 2 7
status 0""", room.filtered, f"{CONTACT}\nc contact +0 1 2 7 0.5\n", REFERENCE
    yield "it is counted", "contacts 1, ranges 0, deletions 0, changes 1", lambda: parts_of(
        "contacts 1.*(?=; left)", room.counts(f"{CONTACT}\nchange contact +0 1 2 7\n", REFERENCE))
    yield ("a changed rate of nothing", "status 1; line 2: nothing of the kind stands",
           room.ending, f"{CONTACT}\nc contact +1 1 2 7\n", REFERENCE)
    yield "lenient", "status 0; line 1: no node: x", room.ending, f"a contact {WINDOW} 1 x 5\n{CONTACT}\n", "--lenient"
    yield "standard input", f"# from -, no reference given\n{CONTACT}", lambda: room.run(
        "tools/from_ionrc -", given=f"{CONTACT}\n").out.rstrip()


def checks(_):
    return checks_of("filter", Filter(), [whole_plans, contacts_and_ranges, nothing_is_lost, whole_files, other_forms, changes_and_lenience, what_is_said])
