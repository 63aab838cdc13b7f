"""The commands of the package: each module has a `main`, and its text is the command's help."""

import importlib

from ..tool import Tool

COMMANDS = ("check", "compare", "from_ionrc", "latest", "report", "timeline", "timetable")


def command_of(name):
    """The command of an installed module."""
    return f"cgrlist-{name.replace('_', '-')}"


def parser_of(name):
    """The parser of a command's options, as of one that is installed."""
    Tool.name = command_of(name)
    return importlib.import_module(f".{name}", __name__).parser_of_words()
