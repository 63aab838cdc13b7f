"""Reads what a check says of functions without a proof: whether their contract refuses them, or a proof file's names alone.

A proof file names goals, calls and fields of the code that it is about. If an edit takes such a name away, the file has an
error, and the function has no proof. That says nothing of the contract.
"""

import re

ERROR = re.compile(r"^\./proofs/(.+?)/(?:Answers|Proof|Invariants)\.antt:\d+:\d+: error: (.*)$")
GONE = re.compile(r"has\s+no\s+field\s+`|that\s+can\s+be\s+named\s+from\s+here|not\s+found:\s+`")
FOLLOWS = re.compile(r"which\s+was\s+not\s+admitted,\s+was\s+not\s+checked")  # an error that another one brings
FALSE_GOAL = "allow values at which this goal is false"
UNTRIED = "has not tried the goals"
BEGINS = re.compile(r"^(\./|src/|fn |note: |help: |error|crate |statements |only=|logic=|rattle)")  # what begins a message
OWN_FAILURE = re.compile(r"not proved|no proof: (?!it calls)")


def messages(said):
    """The messages of a check, each with its further lines."""
    found = []
    for line in said.splitlines():
        if BEGINS.match(line) or not found:
            found.append(line)
        else:
            found[-1] += f"\n{line}"
    return found


def errors_of(said):
    """The errors in proof files, by the folder of the function that the file is about."""
    found = {}
    for message in messages(said):
        error = ERROR.match(message.partition("\n")[0])
        if error:
            found.setdefault(error[1], []).append(message)
    return found


def reasons(said):
    """Of each function without a proof of its own, by name: what the check says, and why that isn't the contract's refusal;
    None if it is."""
    errors, notes = errors_of(said), []
    for message in messages(said):
        told = re.match(r"fn (\S+): (.*)", message)
        if told and told[2] != "proved":
            own = errors.get("/".join(told[1].split("::")[1:]), [])
            yield told[1], told[2], why_not(told[2], notes, own)
        notes = [] if told else [*notes, message]


def why_not(told, notes, errors):
    """Why what is said of a function isn't a refusal by its contract."""
    if any(FALSE_GOAL in it for it in notes):
        return None
    own = [it for it in errors if not FOLLOWS.search(it)]
    if own and all(GONE.search(it) for it in own):
        return f"REFUSED BY A NAME ALONE; {' '.join(own[0].partition('error: ')[2].split())}"
    if not OWN_FAILURE.match(told):
        return "UNDECIDED; its goals weren't tried" if any(UNTRIED in it for it in notes) else "NOT REFUSED"
    return None
