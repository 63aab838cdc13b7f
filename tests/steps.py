r"""Makes the calls of the libraries that the files tests/data/step_rows/*.txt name, and compares what each answers.

A line says one thing; the lines that belong to it stand below it, each after four spaces:

    [TITLE]                 begins a section, whose steps start anew, without plan or session
    text NAME               a text with a name, as in tests/data/rows
    each NAME | NAME ..     a table: the section's steps are made for each of its lines, as in tests/data/rows
    plan NAME               stands for `plan-text {NAME}` and `read`; the answer below it is that of `read`
    STEP                    any other line is a step, and below it stands its answer; `ok` if nothing stands there
    in turn STEP            such a step. The section is made again for each of its requests for memory, which then is
                            refused: it answers NoMemory, or what it answers with ample memory, and at least once
                            NoMemory. After that a session shows the place, the parts and the text that it showed
                            before, and the step, made once more, answers as it does with ample memory
    refused STEP            the same, but it isn't made again: the steps below it are made each time that it was refused

A refused `finish` ends a loading, and a refused `piece` is followed by another and by `finish`, which answer NoMemory,
too; there the section ends. A run that is refused ends with status 6 and `cgrlist: no memory`, and writes nothing else but
the whole answers to lines before the one at which it was refused. A section that fails with ample memory isn't made
again.

The texts of tests/data/rows/shared.txt have a name in every file. What stands above the first section holds in the whole
file. `{NAME}` stands for a text, `{NAME:N}` for its first N bytes, `<N TEXT>` for N times TEXT, `\n`, `\xNN` and `\\`
for a byte. In a text or an answer, `for I in N..M: LINE` is a line for each number from N to M, for which `{I}` stands,
and `{I.next}` for the number after it. An answer `from N to M` is any number of these.

The steps, first those that hold anywhere:

    ask FROM TO AT MARGIN HOPS NODE ..  what is asked from here on; at first 1 3 0 0 20000. AT is a second
    plan-text, session-text TEXT        the text that is read as a plan, or as a session
    plan-given, session-given PIECE LIMIT END
                            it is given PIECE bytes at a time, at most LIMIT bytes (`all`), and then `ends` or `fails`
    out, kept, err LIMIT PIECE FLUSH    what a writer takes: `all`, or so many bytes; its flush `flushes` or `fails`
    refuse N                the Nth request for memory from here on is refused; none for 0
    requests                how many there were since
    time SECOND             its spelling
    parse SPELLING          its second, or `none`

Those that make a plan, which is empty at first:

    read                    the plan of the plan's text, or the bad line and what is wrong with it
    contact FROM TO START END RATE      its number
    range ONE OTHER START END LIGHT
    drop-contact FROM TO START          its number
    drop-range ONE OTHER START
    canonical               the canonical text, as the writer `out` takes it: `ok` or `WriteFault`, and the bytes below
    digest                  the digest
    run first COUNT [keep], run next COUNT [keep], run verify, run check, run explain CONTACT ..
                            a command over the plan's text and the session's text: its status, and what is on `out`,
                            `kept` (the session) and `err`, each on lines that begin so
    run many COUNT          the same, where the session's text holds the requests
    run follow              the same, where the session's text holds the lists
    run words WORD ..       the program over these words, with `out` and `err` as its writers, in a folder that has the
                            files of tests/data/rows/shared.txt
    value-fault NAME        a fault of a command's values, with its text
    fresh                   both finders are new
    settled, layered        from here on the steps below are over the plan, with this finder; up to `done`

Those over a plan. Lists are numbers, `-` for none:

    fits PREFIX             whether the prefix fits
    best PREFIX / EXCLUDED  the least route of a part, `none`, or `no prefix`; then
    looks                   how many looks it took
    beside PREFIX / EXCLUDED        as `best`, with an index of the plan and a new cache
    follow CONTACTS         the delivery, or the fault
    start                   a session that begins
    read                    that of the session's text
    load, part PREFIX / EXCLUDED / ROUTE, .. finish EMITTED LAST        one that is loaded part by part
    feed, piece TEXT, held, .. finish           one of a text that is fed by the piece; `held` is what is kept of a line
    verify                  whether the session's text is that of a place
    page COUNT              a page of the session: each route on a line, `CONTACTS / DELIVERY UNTIL ENTRY`, or `none`; then
    page-looks              how many looks its searches took
    last COUNT              the last page of the session, which is gone then: the routes, and `more` or `end`
    last-looks COUNT, last-detours COUNT        the looks of such a page's searches, and those besides
    back                    whether a page was taken back
    certify                 whether the session is that of its place
    place                   `emitted N last CONTACTS more|end parts N back|- searches N`
    parts                   each part on a line, `PREFIX / EXCLUDED / ROUTE`, the route as in a page or `-`
    write                   the session's text, as the writer `kept` takes it: `ok` or `WriteFault`, and the bytes below
    keep                    takes the session's text for the one that is read

A fault is answered by its name and its text, as `BadLine(8): line 8 is not spelled as it has to be` of `SessionFault`.
There is a check for each step with ample memory, and for each request that was refused.
"""

import os
import re
import subprocess
import tempfile
from dataclasses import dataclass, field
from functools import partial

from checking import SEEN, Broken, Check
from row_files import BadRows, Speller, paths_in, row_name, sections_in, shared_texts, shown

ROWS = "tests/data/step_rows"
SECONDS = 600
ALL = "18446744073709551615"

# ---- Reading steps ----------------------------------------------------------------------------------------------

OF_TEXTS = ("plan-text", "session-text", "piece")
OF_WAYS = ("plan-given", "session-given", "out", "kept", "err")
OF_SESSIONS = ("page", "certify")
SHOWS = ("place", "parts", "write")
ENDS_ITS_LOADER = ("piece", "finish")
DONE = b"ok\n"


@dataclass(frozen=True)
class Step:
    """A step of a row file, with the cells of its line of the tables: what is sent, and what it must answer."""

    place: str
    told: str
    name: str
    sent: str
    wanted: bytes
    in_turn: bool
    is_again: bool = True  # that it is made again after it was refused


def take_step(section, item):
    """Adds a step to a section: whether it is made in turn, its item, its name and its other words."""
    said = f"{item.key} {item.rest}".strip()
    way = next((it for it in ("in turn", "refused") if said.startswith(f"{it} ")), "")
    name, _, rest = said.removeprefix(way).strip().partition(" ")
    if name == "plan":
        section.rows.append(("", item, "plan-text", f"{{{rest}}}", ()))
        name, rest = "read", ""
    section.rows.append((way, item, name, rest, item.below))


def spelled_step(name, rest, speller):
    """The name of a step and its other words, where a text may stand for the name and the first of the words."""
    name, _, first = os.fsdecode(speller.spelled(name)).partition(" ")
    return name, f"{first} {rest}".strip()


def sent_of(name, rest, speller):
    """The line that is sent for a step."""
    spelled = speller.spelled(rest)
    if name in OF_TEXTS:
        return f"{name} {spelled.hex()}".strip()
    words = [os.fsdecode(word) for word in spelled.split()]
    if name in OF_WAYS:
        words = [ALL if word == "all" else word for word in words]
    return " ".join([name, *words])


def wanted_of(name, below, speller):
    """What a step must answer, as `answer_of` shows it."""
    if not below:
        return DONE
    if name != "run":
        return speller.text(below)
    status, *channels = below
    texts = {"out": b"", "kept": b"", "err": b""}
    for line in channels:
        channel, _, rest = line.partition(" ")
        if channel not in texts:
            raise BadRows(f"{channel} is nothing that a run writes to")
        texts[channel] += speller.line(rest)
    return shown_run(speller.line(status).strip(), texts.values())


def steps_of(section):
    """For each line of the tables of a section: what names it, and its steps."""
    for lines, speller in section.lines():
        steps = []
        for way, item, name, rest, below in section.rows:
            try:
                name, rest = spelled_step(name, rest, speller)
                sent, wanted = sent_of(name, rest, speller), wanted_of(name, below, speller)
            except (BadRows, ValueError, RecursionError) as error:
                raise BadRows(f"{item.place}: {error}") from error
            told = " ".join(f"{item.key} {item.rest}".split())
            place = "; ".join([item.place, *lines])
            steps.append(Step(place, told, name, sent, wanted, bool(way), way != "refused"))
        if steps:
            yield steps


# ---- Answers ----------------------------------------------------------------------------------------------------


def shown_run(status, texts):
    """The answer of a run as a row file has it: the status, and each line with the name of what it was written to."""
    told = status + b"\n"
    for channel, text in zip((b"out ", b"kept ", b"err "), texts):
        for line in text.splitlines(keepends=True):
            told += channel + line
        if text and not text.endswith(b"\n"):
            told += b"\\\n"
    return told


def listed(answer):
    """The parts of an answer that stand after its count, each on a line; `none` if there are none."""
    return "\n".join(answer.split(" ; ")[1:] or ["none"])


def answer_of(name, answer):
    """The answer of a step as a row file has it."""
    if name in ("canonical", "write") and re.match("(ok|WriteFault) ", answer):
        word, _, digits = answer.partition(" ")
        return word.encode() + b"\n" + bytes.fromhex(digits)
    if name == "run" and answer.count(" ") == 3:
        status, *texts = answer.split(" ")
        return shown_run(status.encode(), [b"" if text == "-" else bytes.fromhex(text) for text in texts])
    if name == "last" and re.match(r"\d+ routes", answer):
        routes, _, word = answer.rpartition(" ")
        answer = word if routes == "0 routes" else f"{listed(routes)}\n{word}"
    if re.match(r"\d+ (routes|parts)\b", answer):
        answer = listed(answer)
    return answer.encode(errors="surrogateescape") + b"\n"


REFUSED = re.compile(rb"NoMemory(: out of memory)?\n|(\d+) NoMemory: line \2: out of memory\n")


def refused_runs(wanted):
    """What a run may leave that is refused: its message, after the answers to some of the lines, if it has them."""
    _, *answers = re.split(rb"^(?=out (?:request|list) )", wanted, flags=re.MULTILINE)
    return [b"6\n" + b"".join(answers[:count]) + b"err cgrlist: no memory\n" for count in range(len(answers) or 1)]


def is_refused(step, answer):
    """Whether an answer says that a request for memory was refused."""
    return answer in refused_runs(step.wanted) if step.name == "run" else bool(REFUSED.fullmatch(answer))


# ---- Making steps -----------------------------------------------------------------------------------------------

AT_FIRST = (
    "new",
    "fresh",
    "refuse 0",
    "ask 1 3 0 0 20000",
    "plan-text",
    "session-text",
    f"plan-given 4096 {ALL} ends",
    f"session-given 4096 {ALL} ends",
    f"out {ALL} {ALL} flushes",
    f"kept {ALL} {ALL} flushes",
    f"err {ALL} {ALL} flushes",
)
LEAVING = {"over": "done", "load": "finish 0 -", "feed": "finish"}


class Where:
    """Whether the steps stand over a plan, and whether they load or feed a session."""

    def __init__(self):
        self.inside = []

    def pass_by(self, name):
        """Takes a step."""
        within = self.inside[-1] if self.inside else ""
        if name in ("settled", "layered") and not within:
            self.inside.append("over")
        elif name in ("load", "feed") and within == "over":
            self.inside.append(name)
        elif (name, within) in (("done", "over"), ("finish", "load"), ("finish", "feed")):
            self.inside.pop()

    def leaving(self):
        """The steps that lead out of all."""
        return [LEAVING[within] for within in reversed(self.inside)]


@dataclass
class Call:
    """A line that is sent: what its answer is for, and of which step it is."""

    sent: str
    role: str
    step: Step
    answer: bytes = b""


@dataclass
class Making:
    """The steps of a section, made once: all calls, and which request of which step is refused, none for 0."""

    steps: list
    turn: int = 0
    refused: int = 0
    guess: bool = True  # that the step is refused, and not answered in another way
    calls: list = field(default_factory=list)

    def of(self, role):
        return [call for call in self.calls if call.role == role]


class Maker:
    """Makes the calls of a section."""

    def __init__(self, making):
        self.making = making
        self.where = Where()

    def call(self, sent, role, step=None):
        self.making.calls.append(Call(sent, role, step))

    def step(self, step, role="step"):
        self.call(step.sent, role, step)
        self.where.pass_by(step.name)

    def show(self, step, role):
        """Shows the session, if the step is one of a session."""
        for name in SHOWS if step.name in OF_SESSIONS else ():
            self.call(name, role, Step(step.place, step.told, name, name, b"", False))

    def counted(self, step):
        """Makes a step, and counts its requests."""
        self.call("refuse 0", "other")
        self.step(step)
        self.call("requests", "count", step)

    def refused(self, step, request):
        """Makes a step with one of its requests refused, and returns whether those below it can be made then."""
        self.show(step, "before")
        self.call(f"refuse {request}", "other")
        self.step(step, "turn" if self.making.guess else "step")
        self.call("refuse 0", "other")
        if not self.making.guess:
            return step.is_again
        if step.name in ENDS_ITS_LOADER:
            if step.name == "piece":
                self.step(step, "still")
                self.step(Step(step.place, step.told, "finish", "finish", b"", False), "still")
            return False
        self.show(step, "after")
        if step.is_again:
            self.step(step, "step")
        return True

    def all(self):
        """Makes all steps of the section."""
        for sent in AT_FIRST:
            self.call(sent, "other")
        for place, step in enumerate(self.making.steps):
            goes_on = step.is_again
            if self.making.refused and place == self.making.turn:
                goes_on = self.refused(step, self.making.refused)
            elif step.in_turn and not self.making.refused:
                self.counted(step)
            else:
                self.step(step)
            if not goes_on:
                break
        for sent in self.where.leaving():
            self.call(sent, "leaving")


def answers_of(program, steps):
    """What the program answers to steps, of which each is a line, in a folder that has the files of the shared texts."""
    named = shared_texts()
    with tempfile.TemporaryDirectory() as folder:
        for name in (name for name, text in named.items() if text.is_file):
            with open(f"{folder}/{name}", "wb") as file:
                file.write(Speller(named).text_named(name))
        text = os.fsencode("".join(f"{step}\n" for step in steps))
        try:
            ran = subprocess.run([program], cwd=folder, input=text, stdout=subprocess.PIPE, timeout=SECONDS)
        except subprocess.TimeoutExpired as error:
            raise Broken(f"no end after {SECONDS} seconds") from error
    answers = os.fsdecode(ran.stdout).split("\n")[:-1]
    if ran.returncode or len(answers) != len(steps):
        raise Broken(f"status {ran.returncode}, and {len(answers)} answers to {len(steps)} steps")
    return answers


def perform(program, makings):
    """Makes the calls of sections in one process."""
    for making in makings:
        making.calls = []
        Maker(making).all()
    calls = [call for making in makings for call in making.calls]
    answers = answers_of(program, [call.sent for call in calls])
    for call, answer in zip(calls, answers):
        call.answer = answer_of(call.step.name if call.step else "", answer)


# ---- Comparing --------------------------------------------------------------------------------------------------


def failure(step, request, wanted, found):
    """Describes a step that was answered otherwise: where its row stands, with which lines of tables, and the answers."""
    refused = f"; request {request} refused" if request else ""
    return f"FAILED: {step.place}{refused}: {step.told}\nwanted {shown(wanted)}, found {shown(found)}"


def is_wanted(answer, wanted):
    """Whether an answer is the one that is wanted, or a number within the wanted bounds."""
    bounds = re.fullmatch(rb"from (\d+) to (\d+)\n", wanted)
    if bounds and re.fullmatch(rb"\d+\n", answer):
        return int(bounds[1]) <= int(answer) <= int(bounds[2])
    return answer == wanted


def unlike(making, calls):
    """The failures of calls that must be answered as their row says, or of others that must be answered `ok`."""
    for call in calls:
        step, wanted = (call.step, call.step.wanted) if call.step else (making.steps[0], DONE)
        if not is_wanted(call.answer, wanted):
            told = step if call.step else Step(step.place, call.sent, "", "", DONE, False)
            yield failure(told, making.refused, wanted, call.answer)


def failures_of_turn(making):
    """The failures of a section of which a request was refused, as the step's answer shows."""
    yield from unlike(making, making.of("other"))
    for call in making.of("turn") + making.of("still"):
        if not is_refused(call.step, call.answer):
            yield failure(call.step, making.refused, b"NoMemory\n", call.answer)
    for before, after in zip(making.of("before"), making.of("after")):
        if before.answer != after.answer:
            told = f"{after.step.told}, then {after.sent}"
            step = Step(after.step.place, told, after.sent, after.sent, b"", False)
            yield failure(step, making.refused, before.answer, after.answer)
    yield from unlike(making, making.of("step"))


def counted(failures):
    """The failures of requests of a step that were refused; only the first is shown, with their number."""
    told = [it for it in failures if it]
    yield from [""] * (len(failures) - len(told))
    for place, it in enumerate(told):
        yield SEEN if place else f"{it}\n{len(told)} of {len(failures)} requests"


def failures_once(making):
    """For each step with ample memory: how it failed, which is empty if it passed."""
    for call in making.of("step"):
        yield next(unlike(making, [call]), "")
    yield from unlike(making, making.of("other"))


def failures_in_turn(program, making, call):
    """For each request of a step: how its section failed that was made again with that request refused. A section is made
    once more whose step was answered as with ample memory."""
    place = next(place for place, step in enumerate(making.steps) if step is call.step)
    turns = [Making(making.steps, place, request) for request in range(1, int(call.answer) + 1)]
    perform(program, turns)
    for turn in turns:
        turn.guess = not is_wanted(turn.of("turn")[0].answer, call.step.wanted)
    perform(program, [turn for turn in turns if not turn.guess])
    yield from counted([next(failures_of_turn(turn), "") for turn in turns])
    if not any(turn.guess for turn in turns):
        yield failure(call.step, 0, b"NoMemory\n", call.step.wanted)


def failures_of(program, sections):
    """For each step, and for each request that was refused: how it failed, which is empty if it passed."""
    makings = [Making(steps) for steps in sections]
    perform(program, makings)
    for making in makings:
        failed = False
        for told in failures_once(making):
            failed = failed or bool(told)
            yield told
        for call in making.of("count") if not failed else ():
            yield from failures_in_turn(program, making, call)


def checks(asked):
    """The sections that are asked for."""
    program = asked.program("steps")
    for sections in sections_in(asked.paths(paths_in(ROWS)), take_step):
        units = [(section.head, section) for section in sections if section.rows]
        for head, section in asked.chosen(units):
            yield Check(row_name("steps", head), partial(failures_of, program, list(steps_of(section))), head.rest)
