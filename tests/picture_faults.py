"""Looks for faults in a picture that tools/timeline drew.

Each line and bar must lie where the times of its title are on a linear scale. Ticks must be labelled with their times.
Labels must not overlap, nor bars in a row, nor the hops of two routes. Lines that change rows at one place must have
dashes in turn, and none may cross a contact's number. Colours must stand out from the background in light and in dark.
"""

import re
import xml.etree.ElementTree as tree
from datetime import datetime
from itertools import combinations

SVG = "{http://www.w3.org/2000/svg}"
NEAR = 0.21  # pixels: coordinates have one digit after the point, ticks too, and a bar a width of at least 0.1
DIGIT, OTHER = 8.3, 4.5  # widths of a digit and of other signs, of a wide font of 13 pixels
THIN = 1.4  # from a thin line to the next one
LEAST_CONTRAST = 3
START = datetime(1970, 1, 1)


def seconds(time):
    return (datetime.strptime(time, "%Y/%m/%d-%H:%M:%S") - START).total_seconds()


def times_in(text):
    return re.findall(r"\d{4}/\d\d/\d\d-\d\d:\d\d:\d\d", text)


def numbers_in(path):
    return [float(it) for it in re.findall(r"-?\d+(?:\.\d+)?", path)]


def of_class(root, name):
    """The elements of a class that have a title."""
    return [it for it in root.iter() if name in it.get("class", "").split() and it.find(f"{SVG}title") is not None]


def title(element):
    return element.findtext(f"{SVG}title")


class Scale:
    """Where times lie: on the line through the first and the last tick, cut at the ends of the span."""

    def __init__(self, ticks, first, last):
        ends = [(seconds(title(it)), numbers_in(it.get("d"))[0]) for it in (ticks[0], ticks[-1])]
        (self.time, self.x), (time, x) = ends
        self.slope = (x - self.x) / (time - self.time)
        self.first, self.last = seconds(first), seconds(last)

    def place(self, time):
        return self.x + (min(max(seconds(time), self.first), self.last) - self.time) * self.slope


def misplaced(scale, element, found, times):
    """A fault for each x that isn't at its time."""
    for x, time in zip(found, times):
        if abs(x - scale.place(time)) > NEAR:
            yield f"{title(element)}: {time} is drawn at {x}, and belongs at {scale.place(time):.1f}"


def bar_faults(scale, bars):
    for bar in bars:
        x, width = float(bar.get("x")), float(bar.get("width"))
        yield from misplaced(scale, bar, (x, x + width), times_in(title(bar)))
    for one, other in combinations(bars, 2):
        starts, ends = zip(*((float(it.get("x")), float(it.get("x")) + float(it.get("width"))) for it in (one, other)))
        if one.get("y") == other.get("y") and max(starts) + NEAR < min(ends):
            yield f"{title(one)} and {title(other)} overlap"


def hop_faults(scale, hops):
    drawn = []
    for hop in hops:
        x, y, end = numbers_in(hop.get("d"))
        yield from misplaced(scale, hop, (x, end), times_in(title(hop)))
        drawn.append((x - 2, end + 2, y, title(hop)))
    for one, other in combinations(drawn, 2):
        if abs(one[2] - other[2]) < 4 and max(one[0], other[0]) < min(one[1], other[1]):
            yield f"{one[3]} and {other[3]} overlap"


def wait_faults(scale, waits):
    for wait in waits:
        x, _, end = numbers_in(wait.get("d"))
        yield from misplaced(scale, wait, (x, end), times_in(title(wait)))


def turn_faults(scale, root, turns):
    """What is wrong with lines that change rows: each is at its arrival."""
    drawn = []
    for turn in turns:
        x, *ends = numbers_in(turn.get("d"))
        yield from misplaced(scale, turn, [x], times_in(title(turn)))
        drawn.append((x, min(ends), max(ends), turn))
    for one, other in combinations(drawn, 2):
        is_over = abs(one[0] - other[0]) < THIN and max(one[1], other[1]) + THIN < min(one[2], other[2])
        if is_over and not take_turns(one[3], other[3]):
            yield f"{title(one[3])} and {title(other[3])} hide each other"
    for text in (it for it in root.iter(f"{SVG}text") if "number" in it.get("class", "").split()):
        x, y = float(text.get("x")), float(text.get("y"))
        for at, low, high, turn in drawn:
            if x < at < x + width(text.text) - 1 and low < y and y - 8 < high:
                yield f"the number {text.text} is crossed by {title(turn)}"


def take_turns(one, other):
    """Whether two dashed lines, both from above, leave each other's dashes free."""
    (dash, gap), (its_dash, its_gap) = (numbers_in(it.get("stroke-dasharray", "0 0")) for it in (one, other))
    begins = [numbers_in(it.get("d"))[1] - float(it.get("stroke-dashoffset", 0)) for it in (one, other)]
    return dash == its_dash > 0 and gap == its_gap and dash - NEAR <= abs(begins[0] - begins[1]) % (dash + gap) <= gap + NEAR


def tick_faults(scale, root, ticks):
    labels = [it for it in root.iter(f"{SVG}text") if it.get("text-anchor") == "middle"]
    for tick in ticks:
        x, time = numbers_in(tick.get("d"))[0], title(tick)
        yield from misplaced(scale, tick, [x], [time])
        texts = [it.text for it in labels if abs(float(it.get("x")) - x) < NEAR]
        spellings = {time[:4], time[:10], time[5:10], time[11:16], time[11:]}
        if not texts or not spellings.issuperset(texts):
            yield f"the tick of {time} is labelled {texts}"
    for one, other in combinations(labels, 2):
        apart = abs(float(one.get("x")) - float(other.get("x")))
        if one.get("y") == other.get("y") and apart < (width(one.text) + width(other.text)) / 2:
            yield f"the labels {one.text} and {other.text} overlap"


def width(text):
    return sum(DIGIT if it.isdigit() else OTHER for it in text)


def luminance(colour):
    """As WCAG 2 has it."""
    parts = [int(colour[at : at + 2], 16) / 255 for at in (1, 3, 5)]
    red, green, blue = (it / 12.92 if it <= 0.03928 else ((it + 0.055) / 1.055) ** 2.4 for it in parts)
    return 0.2126 * red + 0.7152 * green + 0.0722 * blue


def contrast(one, other):
    low, high = sorted((luminance(one), luminance(other)))
    return (high + 0.05) / (low + 0.05)


def colours_of(style):
    return {name: colour for name, _, colour in re.findall(r"\.(\w+) \{ (fill|stroke): (#\w{6})", style)}


def colour_faults(root):
    light, _, dark = root.findtext(f"{SVG}style").partition("@media (prefers-color-scheme: dark)")
    for surroundings, style in (("light", light), ("dark", dark)):
        colours = colours_of(style)
        for name in [it for it in colours if it == "bar" or re.match(r"line\d|end\d|any|mark", it)]:
            least = min(contrast(colours[name], colours[back]) for back in ("back", "band"))
            if least < LEAST_CONTRAST:
                yield f"{name} has a contrast of {least:.2f} in {surroundings} surroundings"


def looked_at(text, first, last):
    """A line for each fault of a picture that was drawn between two times, and at the end what was compared."""
    root = tree.fromstring(text)
    drawn = {name: of_class(root, name) for name in ("tick", "bar", "hop", "wait")}
    begins, turns = of_class(root, "begin"), of_class(root, "turn")
    scale = Scale(drawn["tick"], first, last)
    faults = [*tick_faults(scale, root, drawn["tick"]), *bar_faults(scale, drawn["bar"])]
    faults += [*hop_faults(scale, drawn["hop"]), *wait_faults(scale, drawn["wait"]), *colour_faults(root)]
    faults += turn_faults(scale, root, turns)
    faults += [fault for it in begins for fault in misplaced(scale, it, numbers_in(it.get("d"))[:1], times_in(title(it)))]
    return "\n".join([*faults, ", ".join(f"{len(of)} {name}s" for name, of in drawn.items())])
