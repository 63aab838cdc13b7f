"""Contact plans of HDTN, as lines that ionadmin reads."""

import json
import math
from fractions import Fraction
from typing import NamedTuple, Optional

FIELDS = ("startTime", "endTime", "source", "dest", "rateBitsPerSec", "owlt")
OLD_RATE = "rate"  # the key of older plans


class Line(NamedTuple):
    """A line that ionadmin reads, or a contact as the JSON has it with what is wrong with it."""

    text: str
    wrong: Optional[str] = None


def lines_of_hdtn(data):
    """The lines of a plan's JSON: for each contact, in their order, two, or one with what is wrong with it. Times count from the
    reference. ValueError if it is no such JSON.
    """
    plan = json.loads(data.decode("utf-8", "replace"), parse_float=_parsed, parse_constant=str)
    contacts = plan.get("contacts") if isinstance(plan, dict) else plan
    if not isinstance(contacts, list):
        raise ValueError("it has no list of contacts")
    for place, it in enumerate(contacts):
        yield from _lines(place, it if isinstance(it, dict) else {})


def _lines(place, it):
    it = {"rateBitsPerSec": it.get(OLD_RATE), **it}
    wrong = [field for field in FIELDS if not _is_number(it.get(field))]
    if wrong:
        return [Line(f"contact {place}", f"{', '.join(wrong)}: no number from 0 on")]
    if it.get("contact", place) != place:
        return [Line(f"contact {place}", f"it has the number {it['contact']}")]
    times = f"+{_spelled(it['startTime'])} +{_spelled(it['endTime'])} {_spelled(it['source'])} {_spelled(it['dest'])}"
    bits = it["rateBitsPerSec"]
    rate = bits // 8 if bits == int(bits) else bits / 8
    return [Line(f"a contact {times} {_spelled(rate)}"), Line(f"a range {times} {_spelled(it['owlt'])}")]


def _parsed(text):
    """A number of JSON with a fraction or an exponent; a text if it is beyond all that a plan has."""
    value = float(text)
    return Fraction(repr(value)) if math.isfinite(value) else text


def _is_number(value):
    return isinstance(value, (int, Fraction)) and not isinstance(value, bool) and value >= 0


def _spelled(number):
    """A number as decimals, of which all that a plan can have are exact."""
    return str(number) if Fraction(number).denominator == 1 else f"{float(number)!r}"
