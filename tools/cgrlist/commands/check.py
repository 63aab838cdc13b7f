"""Names all bad lines of a plan and their repair, or counts what a plan holds.

    tools/check --plan F [--session G] [OPTION ..]

A bad line is shown with its number, the reason for which `cgrlist check`
refuses it, the number of the other line that it repeats or overlaps, and its
text. Below them is a repair for each reason. A bad line adds nothing to the
plan, so a later line may be bad only because of it; the first bad line is the
one that `cgrlist check` names. At most 10000 bad lines are looked for.

Of a good plan it shows counts, nodes, the first start, the last end, and the
digest. If there is a program, it checks the plan, too; if there is none,
standard error says so.

Examples:

    $ printf '@ 2030/01/01-00:00:00\\na contact +0 +10 1 1 9\\n' | tools/check --plan -
    line  reason    other  text
       2  SelfPair         a contact +0 +10 1 1 9
    SelfPair: a loopback, as in ION's examples: take it out
    check: a line is bad

    $ tools/check --plan examples/a.txt
    contacts 4
    ranges 3
    nodes 3: 1, 2, 3
    without light 0
    first start 2030/01/01-00:00:00
    last end 2030/01/01-00:03:20
    digest 141332fc8a469d56442d0323b136f9e5ff2f4859004f96653cdeb76015a2a51f

Exit status:
  0      the plan is good, and so is the session
  1      the session isn't one of the plan, or its routes aren't the best
  2      the options are invalid
  3      the plan is bad
  4      the names can't be used
  5      a file can't be read, or the answer can't be written
  6      no memory
  125    there is no program, which --session needs
  128+N  signal N ended the program
"""

import itertools
import json

from ..errors import NO_STATUS, PLAN_STATUS, START_STATUS, Refused
from ..hints import REPAIRS, of_text, shown
from ..reading import MOST_BAD, Reader, lines_in, plan_bytes
from ..tables import JSON, NUMBER, TIME, WORD, Table, json_of, object_text
from ..tool import run_tool, tell, waiting
from ..version import VERSION
from ..words import Asked, Words, add_form_words, add_names_word, add_other_words, add_plan_word

BAD = {"line": NUMBER, "reason": WORD, "other": NUMBER, "text": WORD}
SHOWN = 1000  # bad lines that a table has


def parser_of_words():
    """A parser of the command line."""
    parser = Words(__doc__)
    group = parser.add_argument_group("Plan")
    add_plan_word(group)
    add_names_word(group)
    session = "also check a session text: whether it is one of this plan and its routes are the best ones; if not, why"
    group.add_argument("--session", metavar="G", help=session)
    add_form_words(parser, json="")
    add_other_words(parser)
    return parser


# ---- Bad lines --------------------------------------------------------------------------------------------------


def bad_row(bad):
    """The values of a bad line."""
    return dict(zip(BAD, [bad.place, bad.reason, bad.other, shown(bad.line)]))


def bad_text(bad, how):
    """The bad lines, and repairs for their reasons, in pieces."""
    yield from Table(BAD, [map(bad_row, bad[:SHOWN])], how).text()
    if bad[SHOWN:]:
        yield f"and {counted(bad, SHOWN)} more\n"
    reasons = list(dict.fromkeys(it.reason for it in bad))
    yield "".join(f"{reason}: {REPAIRS[reason]}\n" for reason in reasons)


def counted(bad, shown=0):
    """How many bad lines there are besides those that are shown."""
    return f"{'at least ' * (len(bad) == MOST_BAD)}{len(bad) - shown}"


def bad_json(bad, how):
    """The same as JSON, in pieces."""
    rows = (json.dumps({**json_of(BAD, bad_row(it), how), "repair": REPAIRS[it.reason]}) for it in bad)
    return object_text("bad_lines", rows, lambda: {"version": VERSION})


# ---- Good plans -------------------------------------------------------------------------------------------------


def facts_of(plan):
    """What stands in a plan: counts, nodes, the first start and the last end, None without a contact, and the digest."""
    contacts = plan.contacts
    return {
        "contacts": len(contacts),
        "ranges": plan.range_count,
        "nodes": sorted({node for it in contacts for node in it.link}),
        "without_light": sum(it.light is None for it in contacts),
        "first_start": min((it.start for it in contacts), default=None),
        "last_end": max((it.end for it in contacts), default=None),
    }


def facts_text(plan, how):
    """The facts in lines, as `cgrlist check` prints them."""
    facts = facts_of(plan)
    nodes = ", ".join(map(plan.names.full, facts["nodes"]))
    told = {**facts, "nodes": f"{len(facts['nodes'])}{f': {nodes}' * bool(nodes)}", "digest": plan.digest}
    told.update({field: how.time_text(facts[field]) for field in ("first_start", "last_end") if facts[field] is not None})
    return "".join(f"{field.replace('_', ' ')} {value}\n" for field, value in told.items() if value is not None)


def facts_json(plan, how, further):
    """The facts as JSON."""
    facts = facts_of(plan)
    times = json_of({"first_start": TIME, "last_end": TIME}, facts, how)
    told = {"bad_lines": [], **facts, **times, "nodes": [*map(how.node, facts["nodes"])], **further}
    return json.dumps({**told, "names": how.told_names(), "plan": plan.digest, "version": VERSION}) + "\n"


def why_not(asked):
    """Why a session text isn't one of the plan with the best routes, as `cgrlist next` says; None if it is."""
    words = ["--session", asked.words.session]
    if asked.program.run("verify", *words, but=1) is not None:
        return None
    try:
        asked.program.run("next", *words, "--count", "1")
    except Refused as refused:
        return refused.message.strip().removeprefix("cgrlist: ")
    return "its text is sound, but its routes aren't the best ones, or a part has another best route"


def is_checked(asked):
    """Whether the program accepts the plan; what has no program is told."""
    try:
        asked.program.check()
    except Refused as refused:
        if refused.status != START_STATUS or asked.words.program or asked.words.session:
            raise
        tell("cgrlist did not check this plan: there is no program")


def tool():
    """The bad lines of a plan, or what stands in it, in pieces."""
    asked = Asked(parser_of_words())
    how, lines = asked.spelling, lines_in(plan_bytes(asked.plan_file))
    with waiting("lines are read"):
        bad = [*itertools.islice(Reader().bad_lines(lines), MOST_BAD)]
    for hint in of_text(lines, asked.words.plan) if bad else ():
        tell(f"hint: {hint}")
    if bad:
        yield from (bad_json if asked.words.form == JSON else bad_text)(bad, how)
        raise Refused(f"{counted(bad)} lines are bad" if bad[1:] else "a line is bad", PLAN_STATUS)
    with waiting("cgrlist checks the plan"):
        is_checked(asked)
        why = why_not(asked) if asked.words.session else None
    session = {"session": "no" if why else "yes"} if asked.words.session else {}
    if asked.words.form == JSON:
        yield facts_json(asked.plan, how, {**session, **({"fault": why} if session else {})})
    else:
        yield facts_text(asked.plan, how) + "".join(f"session {it}\n" for it in session.values())
    if why:
        raise Refused(f"{asked.words.session}: {why}", NO_STATUS)


def main():
    """Runs the command."""
    run_tool(tool)
