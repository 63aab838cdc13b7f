"""The span of time that tools/timeline draws, and its axis: where seconds lie, and the ticks with their labels."""

from dataclasses import dataclass
from datetime import datetime, timezone

from ..times import DAY, EPOCH, date_of

END = 253402300799  # 9999/12/31-23:59:59, the last second that can be spelled


# ---- The span ---------------------------------------------------------------------------------------------------


@dataclass(frozen=True)
class Span:
    """The seconds that are drawn."""

    first: int
    last: int

    def shows(self, window):
        """Whether some of a window lies within."""
        return window.start < self.last and self.first < window.end

    def shows_stage(self, stage):
        """Whether some of a route's stage lies within."""
        return stage.start <= self.last and self.first <= stage.hop.arrive

    def shows_wait(self, stage):
        """Whether the wait of a stage that is shown is drawn."""
        return stage.start < stage.hop.send and self.first <= stage.hop.send or self.shows_turn(stage)

    def shows_turn(self, stage):
        """Whether the turn from the hop before to that of a stage that is shown is drawn."""
        return stage.before is not None and self.first <= stage.start

    def shows_hop(self, stage):
        """Whether the hop of a stage that is shown is drawn."""
        return stage.hop.send <= self.last

    def shows_arrival(self, stage):
        """Whether the arrival of a stage that is shown is drawn."""
        return stage.hop.arrive <= self.last


def span_of(contacts, hops, source_second=None):
    """The span of hops with a margin, from the second at the source on, or else of contacts; None if there are neither."""
    if hops:
        first, last = min(hop.send for hop in hops), max(hop.arrive for hop in hops)
        first = first if source_second is None else min(first, source_second)
        margin = (last - first) // 20 + 1
        return Span(max(first - margin, 0), min(last + margin, END))
    if contacts:
        return Span(min(it.start for it in contacts), max(it.end for it in contacts))
    return None


# ---- The axis ---------------------------------------------------------------------------------------------------


@dataclass(frozen=True)
class Step:
    """How far it is from tick to tick: months if there are any, with their least seconds, and else seconds."""

    seconds: int
    months: int = 0

    def times(self, span):
        """The seconds of the ticks in a span."""
        if self.months:
            return month_starts(span, self.months)
        offset = 4 * DAY if self.seconds % (7 * DAY) == 0 else 0  # weeks begin with Monday
        first = span.first + (offset - span.first) % self.seconds
        return range(first, span.last + 1, self.seconds)

    def label(self, date, sign):
        """What stands at a tick; the sign stands between the numbers of a date."""
        if self.months >= 12:
            return f"{date.year}"
        if self.seconds >= DAY:
            return f"{date.month:02}{sign}{date.day:02}"
        return f"{date:%H:%M}" if self.seconds >= 60 else f"{date:%H:%M:%S}"

    def period(self, date, sign):
        """What the labels of a period have in common: the date of clock times, the year of dates."""
        if self.months >= 12:
            return ""
        return f"{date.year}" if self.seconds >= DAY else f"{date.year}{sign}{date.month:02}{sign}{date.day:02}"


def month_starts(span, months):
    """The seconds at which every so many months of the calendar start, in a span."""
    date, starts = date_of(span.first), []
    at = (date.year * 12 + date.month - 1) // months * months
    while at < 120000:  # the year 10000
        start = (datetime(at // 12, at % 12 + 1, 1, tzinfo=timezone.utc) - EPOCH).days * DAY
        if start > span.last:
            break
        if start >= span.first:
            starts.append(start)
        at += months
    return starts


CLOCK = [1, 2, 5, 10, 15, 30, 60, 120, 300, 600, 900, 1800, 3600, 7200, 10800, 21600, 43200]
STEPS = [Step(seconds) for seconds in [*CLOCK, DAY, 2 * DAY, 7 * DAY, 14 * DAY]]
STEPS += [Step(months * 28 * DAY, months) for months in (1, 2, 3, 6)]
STEPS += [Step(years * 365 * DAY, years * 12) for years in (1, 2, 5, 10, 20, 50, 100, 200, 500, 1000)]


@dataclass(frozen=True)
class Tick:
    """A tick of the axis: its second, what stands at it, and above that its date or year, if it has one."""

    second: int
    label: str
    above: str


class Axis:
    """Seconds along a width, where a character of a label has a width and a gap keeps labels apart.

    The sign stands between the numbers of a date.
    """

    def __init__(self, span, width, character, gap, sign="/"):
        self.span, self.width, self.sign = span, width, sign
        self.character, self.gap = character, gap
        self.step = next((step for step in STEPS if self.is_wide(step)), STEPS[-1])

    def place(self, second):
        """How far a second lies from the left end."""
        return (second - self.span.first) / (self.span.last - self.span.first) * self.width

    def room(self, text):
        """How much room a label takes."""
        return len(text) * self.character + self.gap

    def is_wide(self, step):
        """Whether the labels of a step have room side by side."""
        width = step.seconds / (self.span.last - self.span.first) * self.width
        return width >= self.room(step.label(EPOCH, self.sign))

    def ticks(self):
        """The ticks with their labels."""
        times = self.step.times(self.span)
        above = self.periods(times)
        labels = {second: self.step.label(date_of(second), self.sign) for second in times}
        return [Tick(second, label, above.get(second, "")) for second, label in labels.items()]

    def periods(self, times):
        """What stands above the ticks at which it changes: a date without its year if that stands further left."""
        changes, before = [], ""
        for second in times:
            period = self.step.period(date_of(second), self.sign)
            if period != before:
                changes.append((second, period))
            before = period
        texts, year = {}, None
        for second, period in self.apart(changes):
            texts[second] = period[5:] if period[:4] == year else period
            year = period[:4]
        return texts

    def apart(self, labels):
        """Those of some labels that have room; the right one of two stays."""
        kept, free = [], float("inf")
        for second, text in reversed(labels):
            if self.place(second) + self.room(text) <= free:
                kept.append((second, text))
                free = self.place(second)
        return reversed(kept)
