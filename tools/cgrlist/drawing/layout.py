"""Where things lie in the picture that tools/timeline draws: seconds, strips, the lanes of routes, turns and numbers."""

from dataclasses import dataclass

from ..errors import WORDS_STATUS, Refused
from .axis import Axis
from .scene import columns_of, date_sign, lanes_of

ARROW = "\u2192"
PLOT = 560  # width of the plot, in pixels, as all below
LEAST = 200  # width of the plot at least
SIDE = 40  # right of the plot
CHARACTER = 7.8  # width of a character of a label
DIGIT = 7.6  # width of a digit of a contact's number
BAR = 15  # height of a bar, which has the number if that has room
LANE = 10  # height of a route's lane below a bar
GAP = 9  # between two strips
HEAD = 40  # above the first row
SOURCE = 18  # more of that, with the label of the second at the source
THIN = 1.5  # lines that are less apart hide each other


class Strip:
    """A strip of a row in the picture: bars, and below them lanes for the routes that use its windows."""

    def __init__(self, windows, top, stays):
        """Lays it out. The stays say from where to where a route takes a lane, by the route's place among all."""
        self.windows, self.top, self.bar = windows, top, top + 3
        places = sorted(stays)
        lanes = lanes_of(stays[at] for at in places)
        self.lanes = dict(zip(places, lanes))
        self.height = BAR + LANE * (max(lanes, default=-1) + 1) + GAP

    def y(self, at):
        """The middle of a route's lane."""
        return self.bar + BAR + LANE * (self.lanes[at] + 0.5) + 1


@dataclass(frozen=True)
class Turn:
    """Where a route goes from a strip to another one, at the time of its arrival.

    Of routes that turn at one place, each has a dash of the line in turn: this one that at a place among so many.
    """

    x: float
    strips: tuple  # the first and the last one, from above
    place: int = 0
    count: int = 1


def shared(turns):
    """Turns with their places among those that are at the same x and have a strip in common, in their order."""
    order, found = sorted(range(len(turns)), key=lambda at: turns[at].x), list(turns)
    while order:
        gaps = (at for at in range(1, len(order)) if turns[order[at]].x - turns[order[at - 1]].x >= THIN)
        size = next(gaps, len(order))
        near, order = sorted(order[:size]), order[size:]
        places = lanes_of((turns[at].strips[0], turns[at].strips[1]) for at in near)
        for at, place in zip(near, places):
            found[at] = Turn(turns[at].x, turns[at].strips, place, max(places) + 1)
    return found


class Layout:
    """Where a scene's parts lie."""

    def __init__(self, scene, width=None):
        self.scene, self.span = scene, scene.span
        longest = max((columns_of(scene.label(row.link, ARROW)) for row in scene.rows), default=0)
        self.left = max(round(longest * CHARACTER) + 16, 76)
        self.plot = plot_width(self.left, width)
        self.width = self.left + self.plot + SIDE
        self.axis = Axis(self.span, self.plot, CHARACTER, 10, date_sign(scene.time_text)) if self.span else None
        self.by_contact = scene.stages_by(lambda stage: stage.hop.contact)
        self.head = HEAD if scene.source_second is None else HEAD + SOURCE
        self.turns = self.all_turns()
        self.bottom, self.strips = self.head, {}  # each strip under the number of each of its contacts
        self.rows = [(row, [self.strip(windows) for windows in row.strips]) for row in scene.rows]
        self.places = {strip: place for place, strip in enumerate(strip for _, strips in self.rows for strip in strips)}

    def x(self, second):
        """Where a second lies; an end of the plot if it is out of the span."""
        return round(self.left + self.axis.place(min(max(second, self.span.first), self.span.last)), 1)

    def y(self, stage):
        """The middle of the lane of a stage."""
        return self.strips[stage.hop.contact].y(stage.at)

    def turn(self, stage):
        """The turn from the lane of the hop before to that of a stage; None if it isn't shown."""
        return self.turns.get((stage.at, stage.hop.contact))

    def all_turns(self):
        """The turns, by the route's place among all and the contact that it turns to."""
        strips = enumerate(windows for row in self.scene.rows for windows in row.strips)
        places = {it.number: place for place, windows in strips for it in windows}
        keys, turns = [], []
        for stage in filter(self.span and self.span.shows_turn, self.scene.stages):
            if stage.before and stage.before.contact in places:
                keys.append((stage.at, stage.hop.contact))
                between = sorted(places[hop.contact] for hop in (stage.before, stage.hop))
                turns.append(Turn(self.x(stage.start), tuple(between)))
        return dict(zip(keys, shared(turns)))

    def crosses(self, left, right, strip):
        """Whether a line crosses a part of a strip's bars: a turn, or that of the second at the source."""
        place = self.places[strip]
        lines = [turn.x for turn in self.turns.values() if turn.strips[0] < place <= turn.strips[1]]
        if self.scene.source_second is not None:
            lines.append(self.x(self.scene.source_second))
        return any(left - 2 < x < right + 2 for x in lines)

    def strip(self, windows):
        """Lays a strip out below the former ones."""
        stages = [stage for it in windows for stage in self.by_contact[it.number]]
        strip = Strip(windows, self.bottom, {stage.at: self.stay(stage) for stage in stages})
        self.strips.update((it.number, strip) for it in windows)
        self.bottom += strip.height
        return strip

    def stay(self, stage):
        """From where to where a route takes a lane: from its stage's start to the turn and the rank after its end."""
        start, end = self.x(stage.start), self.x(stage.hop.arrive)
        return start - 4, end + 10 + DIGIT * len(str(self.scene.routes[stage.at].rank))


def plot_width(left, width):
    """How wide the plot is between labels and the side, if the picture has a width."""
    if width is None:
        return PLOT
    if width < left + LEAST + SIDE:
        raise Refused(f"--width: with these labels it is at least {left + LEAST + SIDE}", WORDS_STATUS)
    return width - left - SIDE
