"""Files of requests, a line for each: `from to at`, and then the limits that `cgrlist many` takes, if it has any."""

import re
from dataclasses import dataclass

from .errors import Refused
from .routes import Request, listed
from .times import second_of, time_of
from .tool import lines_of, processors

MOST_OF_PART = 500  # requests that one run answers, so that progress can be told, and memory doesn't grow
_LIMIT = re.compile(r"\d{1,20}", re.ASCII)


@dataclass(frozen=True)
class Line:
    """A request of a file, and the number of its line."""

    place: int
    request: Request


def requests_of(lines, names, limits):
    """The requests of lines, with limits for all that have none. Empty lines and those that begin with `#` have none."""
    found = []
    for place, line in enumerate(map(str.strip, lines), 1):
        if line and not line.startswith("#"):
            try:
                found.append(Line(place, _request(line.split(), names, limits)))
            except ValueError as error:
                raise Refused(f"requests line {place}: {error}: {line}") from error
    return found


FIELDS = ("from", "to", "at", "margin_ppm", "max_hops", "avoid")  # of a request in JSON


def request_of(told, names, limits):
    """The request of an object of JSON, with limits if it has none. ValueError if it is none."""
    if not isinstance(told, dict):
        raise ValueError("its request is no object")
    missing = [field for field in FIELDS[:3] if told.get(field) is None]
    if missing:
        raise ValueError(f"it has no {', '.join(missing)}")
    given = {field: told[field] for field in FIELDS[3:5] if told.get(field) is not None}
    for field, value in given.items():
        if not _LIMIT.fullmatch(str(value)):
            raise ValueError(f"its {field} is no number")
    avoid = tuple(sorted(names.node(str(it)) for it in listed(told.get("avoid") or ())))
    ends = names.node(str(told["from"])), names.node(str(told["to"]))
    return Request(*ends, second_of(told["at"]), **({**given, "avoid": avoid} if given or avoid else limits))


def requests_in(asked):
    """The requests of the file that a tool's words name, of which there must be one."""
    lines = requests_of(lines_of(asked.words.requests), asked.names, asked.limits)
    if not lines:
        raise Refused(f"there is no request in {asked.words.requests}")
    return lines


def parts_of(lines, are_joined):
    """The requests in parts, in their order: if they are joined some for each processor, else one for each line."""
    size = min(-(-len(lines) // processors()), MOST_OF_PART) if are_joined else 1
    return [lines[start : start + size] for start in range(0, len(lines), size)]


def _request(words, names, limits):
    """The request of a line. Names may have spaces, so each place of the time is tried, and each cut between two names."""
    if len(words) < 3:
        raise ValueError("it has fewer than three words: from to at")
    times = {place: second for place in range(2, len(words)) if (second := _time(words[place])) is not None}
    found = {
        Request(*pair, second, **(_limits(words[place + 1 :], names) or limits))
        for place, second in times.items()
        for cut in range(1, place)
        if (pair := _pair(words[:cut], words[cut:place], names)) and _limits(words[place + 1 :], names) is not None
    }
    if len(found) > 1:
        raise ValueError("its names can be read as several pairs of nodes")
    if not found:
        raise ValueError(_why_none(words, names, times))
    return found.pop()


def _why_none(words, names, times):
    """Why a line has no request."""
    if not times:
        time_of(words[-1])
    if not any(_limits(words[place + 1 :], names) is not None for place in times):
        return "after the time come at most a margin, a limit on hops and nodes to avoid"
    return "it names no two nodes"


def _time(word):
    """The second of a word; None if it is no time."""
    try:
        return time_of(word)
    except ValueError:
        return None


def _pair(one, other, names):
    """Two nodes, by their numbers or names; None if they are none."""
    try:
        return names.node(" ".join(one)), names.node(" ".join(other))
    except ValueError:
        return None


def _limits(words, names):
    """The limits of a line after its time; None if the words are none."""
    if not all(map(_LIMIT.fullmatch, words[:2])):
        return None
    try:
        avoid = [names.node(text) for text in " ".join(words[2:]).split(",")] if words[2:] else []
    except ValueError:
        return None
    given = dict(zip(("margin_ppm", "max_hops"), words))
    return {**given, "avoid": tuple(sorted(avoid))} if words else {}
