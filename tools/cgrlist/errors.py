"""What is refused, and the statuses with which the program and its tools end."""

import re

from .limits import AVOIDED, GREATEST, HOPS, MARGIN, ROUTES

# As the program and its script use them. INPUT_STATUS is for a text besides the plan that can't be used: names, requests,
# choices, a report.
NO_STATUS, WORDS_STATUS, PLAN_STATUS, INPUT_STATUS, FILE_STATUS, MEMORY_STATUS, START_STATUS = 1, 2, 3, 4, 5, 6, 125
REQUESTS_STATUS = INPUT_STATUS  # of a line of requests or of lists, as the program has it


# What the program's messages mean that refuse a value, which they don't say.
NODE = f"a node is a number from 1 to {GREATEST}"
MEANINGS = {
    "bad --from": NODE,
    "bad --to": NODE,
    "bad --avoid": f"{NODE}, and --avoid has at most {AVOIDED}",
    "bad --count": f"--count is a number from 1 to {ROUTES}",
    "bad --margin-ppm": f"--margin-ppm is a number from 0 to {MARGIN}",
    "bad --max-hops": f"--max-hops is a number from 1 to {HOPS}",
    "request: SameNode": "the source and the destination are the same node",
    "request: BadAvoid": "--avoid names each node once, and neither the source nor the destination",
}


def meaning_of(message):
    """The hint to a message of the program that refuses a value; none to another one."""
    found = re.match("cgrlist: (.*)", message or "")
    return [MEANINGS[found[1]]] if found and found[1] in MEANINGS else []


class Refused(ValueError):
    """What was asked can't be done. As a text it says why, with the value that is refused.

    `message` is what a tool prints, None if that was printed already, `status` a tool's, and `value` what is refused, None
    if that isn't one value. If `is_told` is set, the message is what the program printed, with its name before it. `hints`
    may help to repair it.
    """

    def __init__(self, message, status=INPUT_STATUS, is_told=False, hints=(), value=None):
        super().__init__(message)
        self.message, self.status, self.is_told, self.hints = message, status, is_told, (*hints, *meaning_of(message))
        self.value = value

    def __str__(self):
        text = (self.message or "").rstrip("\n")
        return text if self.value is None else f"{text}: {self.value}"
