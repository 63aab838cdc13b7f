"""The words that the tools share, and what they ask for: times, nodes, names, a plan without some contacts, a request.

A tool reads its words and what they ask for as follows; a bad word is refused in one form, with status 2.

    parser = words.Words(__doc__)
    words.add_plan_words(parser)
    words.add_request_words(parser)
    words.add_other_words(parser)
    asked = words.Asked(parser)
"""

import argparse
import functools
import os
import re
import textwrap
from concurrent.futures import ThreadPoolExecutor

from . import hints
from .errors import START_STATUS, WORDS_STATUS, Refused
from .inprocess import answering
from .names import Names
from .plans import Plan
from .limits import AVOIDED, HOPS, MARGIN
from .program import Program, program_path
from .reading import kept_file, plan_bytes
from .routes import Request
from .tables import CSV, JSON, TEXT, Spelling
from .times import TIMES, iso_text, sheet_text, time_of, time_text
from .tool import Tool
from .version import VERSION

# ---- The parser -------------------------------------------------------------------------------------------------


class Once(argparse.Action):
    """Keeps an option's value, or its constant, and refuses to be given twice."""

    is_given = False

    def __call__(self, parser, namespace, values, option_string=None):
        if self.is_given:
            parser.error(f"argument {option_string}: it is given twice")
        self.is_given = True
        setattr(namespace, self.dest, values if self.const is None else self.const)


class Flag(Once):
    """An option without a value, likewise."""

    def __init__(self, option_strings, dest, const=True, default=False, help=None):
        super().__init__(option_strings, dest, nargs=0, const=const, default=default, help=help)


class Words(argparse.ArgumentParser):
    """A parser of a tool's command line. Its help is the tool's text: the forms of the command line, a sentence, the options in
    groups, and then the rest of the text. A bad word has a message of one line.
    """

    def __init__(self, text):
        sentence, forms, rest = (with_commands(text) if Tool.name.startswith("cgrlist-") else text).split("\n\n", 2)
        forms = textwrap.indent(textwrap.dedent(forms), " " * len("usage: ")).strip()
        shape = {"formatter_class": argparse.RawDescriptionHelpFormatter, "allow_abbrev": False, "add_help": False}
        super().__init__(prog=Tool.name, usage=forms, description=sentence, epilog=rest, **shape)
        self.register("action", None, Once)
        self.register("action", "store_true", Flag)
        self.register("action", "store_const", Flag)

    def error(self, message):
        """Refuses the words."""
        raise Refused(f"{message}; see --help", WORDS_STATUS)


def with_commands(text):
    """A tool's text with the commands of installed tools, `cgrlist-report` for `tools/report`, and in its messages, too."""
    tool = Tool.name.removeprefix("cgrlist-").replace("-", "_")
    command = lambda it: f"cgrlist-{it[1].replace('_', '-')}" if it[1] else Tool.name
    return re.sub(rf"(?m)tools/(\w+)|(?<=^    ){tool}(?=: )", command, text)


# ---- Words of all tools -----------------------------------------------------------------------------------------

TIME_FORMS = "A time T is 2031/03/03-01:00:00, 2031-03-03T01:00:00Z, 2031-03-03,\nnow, or now+2h with s, m, h or d. All times are UTC."


def time_word(text):
    """Reads a time of the command line."""
    try:
        return time_of(text)
    except ValueError as error:
        raise argparse.ArgumentTypeError(f"{error}; {TIMES}") from error


def numbers_word(text):
    """Reads numbers of contacts, joined by commas."""
    if not re.fullmatch(r"[1-9]\d{0,9}(,[1-9]\d{0,9})*", text, re.ASCII):
        raise argparse.ArgumentTypeError(f"no numbers of contacts, joined by commas: {text}")
    return sorted(set(map(int, text.split(","))))


def add_plan_word(group):
    """Adds the plan to a group of options."""
    plan = os.environ.get("CGRLIST_PLAN") or None
    group.add_argument("--plan", default=plan, required=not plan, metavar="F", help="the plan's file, or - for standard input")


def add_names_word(group):
    """Adds the names of nodes."""
    names = {"default": os.environ.get("CGRLIST_NAMES") or None, "metavar": "FILE"}
    group.add_argument("--names", **names, help="names of nodes, a line '31 lander' for each: options take them, and answers show them")


def add_plan_words(parser):
    """Adds the group of options about the plan."""
    group = parser.add_argument_group("Plan")
    add_plan_word(group)
    lost = "answer as if these contacts were lost: numbers, joined by commas; the other contacts keep their numbers"
    group.add_argument("--without", type=numbers_word, metavar="LIST", help=lost)
    add_names_word(group)


def add_request_words(parser, required=(), without=()):
    """Adds the group of options about the request, which it returns."""
    group = parser.add_argument_group("Request", TIME_FORMS)
    for name, meaning in (("from", "the source, a node's number or name"), ("to", "the destination")):
        group.add_argument(f"--{name}", metavar="N", help=meaning, required=name in required)
    if "at" not in without:
        meaning = "the time from which the bundle is at the source"
        group.add_argument("--at", type=time_word, metavar="T", help=meaning, required="at" in required)
    margin = f"a margin on each light time, in parts in a million of it, rounded up to seconds: 0 to {MARGIN}; 0 if not given"
    group.add_argument("--margin-ppm", metavar="P", help=margin)
    group.add_argument("--max-hops", metavar="H", help=f"only routes of at most H contacts: 1 to {HOPS}")
    group.add_argument("--avoid", metavar="LIST", help=f"only routes that pass none of these nodes: at most {AVOIDED}, joined by commas")
    return group


FORMS = {CSV: "comma-separated values, with times as 2030-01-01 02:47:22", JSON: "JSON"}


def add_form_words(parser, **further):
    """Adds the group of options about the form of the answer, which it returns, and the choice of one in it. What is further
    said of a form stands after its meaning.
    """
    group = parser.add_argument_group("Form of the answer")
    choice = group.add_mutually_exclusive_group()
    for form, meaning in FORMS.items():
        if form in further:
            choice.add_argument(f"--{form}", dest="form", action="store_const", const=form, help=f"{meaning}{further[form]}")
    parser.set_defaults(form=TEXT)
    group.add_argument("--iso", action="store_true", help="times as 2030-01-01T02:47:22Z, as JSON always has them")
    return group, choice


def add_other_words(parser, has_program=True):
    """Adds the last group of options."""
    group = parser.add_argument_group("Other options")
    if has_program:
        group.add_argument("--program", metavar="P", help="the program; if not given, the one of this clone, or else the one in the path")
    group.add_argument("-h", "--help", action="help", help="show this help")
    group.add_argument("--version", action="version", version=f"{Tool.name} {VERSION}", help="print the version")


REQUEST = ("from", "to", "at")  # the options that a request needs


def request_words(words):
    """The options of a request that are given, and those that are missing."""
    given = [f"--{name}" for name in REQUEST if vars(words)[name] is not None]
    return given, [f"--{name}" for name in REQUEST if f"--{name}" not in given]


def node_word(parser, names, word, text):
    """The node that a word's value says, by its number or its name."""
    try:
        return names.node(text)
    except ValueError as error:
        return parser.error(f"argument --{word}: {error}")


def named_program(words):
    """The program that the words or the environment name; None if they don't."""
    return words.program if words.program is not None else os.environ.get("CGRLIST") or None


def router_over(file, words):
    """What answers over the plan of a file: the library, or else the program that the words name."""
    return answering(lambda: program_path(named_program(words)), plan_bytes(file), file, words.program is not None)


class Asked:
    """What the words of a tool ask for. In `words`, nodes are numbers, and times are seconds."""

    def __init__(self, parser):
        self.words = parser.parse_args()
        self.names = Names.from_file(self.words.names)
        self.time_text = iso_text if self.words.iso else time_text
        self._parser = parser
        for word in ("from", "to", "via"):
            if getattr(self.words, word, None) is not None:
                setattr(self.words, word, self.node(word, getattr(self.words, word)))
        avoided = self.words.avoid.split(",") if getattr(self.words, "avoid", None) is not None else ()
        self.words.avoid = sorted(self.node("avoid", text) for text in avoided)

    def node(self, word, text):
        """The node that a word's value says."""
        return node_word(self._parser, self.names, word, text)

    def request(self, at=None):
        """The request of the words, at the time that they say or at another one."""
        words = vars(self.words)
        return Request(words["from"], words["to"], words["at"] if at is None else at, **self.limits)

    def request_or_none(self):
        """The request, if the words have a whole one."""
        return self.request() if not request_words(self.words)[1] else None

    @functools.cached_property
    def spelling(self):
        """How values are spelled in the form that the words ask for."""
        is_sheet = getattr(self.words, "form", TEXT) == CSV and not self.words.iso
        return Spelling(self.names, sheet_text if is_sheet else self.time_text, lambda: self.plan.contacts)

    @property
    def limits(self):
        """The limits of the request."""
        words = self.words
        return {"margin_ppm": words.margin_ppm, "max_hops": words.max_hops, "avoid": tuple(words.avoid)}

    @functools.cached_property
    def plan_file(self):
        """The path of the plan's text, which can be read more than once."""
        hints.check_file(self.words.plan)
        return kept_file(self.words.plan)

    @functools.cached_property
    def router(self):
        """What answers over the plan without the contacts that are lost: the library, or else the program."""
        self._reading  # begins now, beside the first question
        return router_over(self._file_without, self.words)

    @functools.cached_property
    def program(self):
        """The program over the same plan, which can say how a list of routes goes on."""
        self._reading
        return Program(program_path(named_program(self.words)), self._file_without)

    @functools.cached_property
    def _file_without(self):
        """The path of the plan's text without the contacts that are lost."""
        if not getattr(self.words, "without", None):
            return self.plan_file
        router_over(self.plan_file, self.words).check()
        return self.plan.file

    def is_plan_checked(self):
        """Whether there is a program, not a trial, which then accepts the plan. One that is named has to be there."""
        named = named_program(self.words)
        try:
            path = program_path(named, with_trial=False)
        except Refused as refused:
            if refused.status != START_STATUS or named is not None:
                raise
            return False
        Program(path, self.plan_file).check()
        return True

    @functools.cached_property
    def plan(self):
        """The plan without the contacts that are lost. Ask the program first: it says more if it refuses the plan."""
        return self.whole_plan.without(self.words.without) if getattr(self.words, "without", None) else self.whole_plan

    @property
    def lost(self):
        """The contacts that are lost."""
        return [self.whole_plan.contact(number) for number in self.words.without or ()]

    @property
    def whole_plan(self):
        """The plan with the contacts that are lost."""
        return self._reading.result()

    @functools.cached_property
    def _reading(self):
        return ThreadPoolExecutor(1).submit(Plan.from_file, self.plan_file, self.names)

    @property
    def plan_after_check(self):
        """The plan, after the router was asked whether it accepts it."""
        self.router.check()
        return self.plan

    def tell_hints(self, requests=()):
        """Tells hints about the plan, about requests, and about the other nodes among the words."""
        found = hints.Hints(self.plan, self.names, self.time_text)
        others = [*self.words.avoid, *filter(None, [getattr(self.words, "via", None)])]
        about_requests = (text for request in requests for text in found.of_request(request))
        hints.tell_all([*found.of_plan(), *about_requests, *found.of_nodes(others)])
