"""The picture that tools/timeline draws, as an SVG."""

import html

from ..times import date_of
from .layout import ARROW, BAR, CHARACTER, DIGIT, HEAD, SIDE, Layout

LINE = 19  # height of a line of words below the rows
MOST = 20000  # height of a picture that is drawn without being asked for twice
LIGHT = ["#0969da", "#bc4c00", "#1a7f37", "#8250df", "#bf3989", "#4d6b00", "#9a6700", "#0a7d8c"]
DARK = ["#79b8ff", "#ffa657", "#56d364", "#d2a8ff", "#ff9bce", "#c5d86d", "#e3b341", "#76e3ea"]
DASHES = ["none", "6 3", "2 3", "8 3 2 3"]
DASH = 5  # of a route where several turn at one place
END = ' text-anchor="end"'

STYLE = """
text { font: 13px system-ui, sans-serif; fill: #1f2328 }
.number, .rank, .source { stroke: #ffffff; paint-order: stroke; stroke-width: 3px; stroke-linejoin: round }
.number { font-size: 12px; fill: #424a53 }
.number.in { fill: #ffffff; stroke: none }
.rank { font-size: 11px; font-weight: bold }
.source { font-size: 12px }
.back { fill: #ffffff }
.band { fill: #f3f5f7 }
.tick { stroke: #d0d7de }
.bar { fill: #656d76 }
.lost, .went { fill: #cf222e; fill-opacity: 0.15; stroke: #cf222e }
.came { fill: #1a7f37 }
.moved { fill: #0969da }
.changed { fill: #9a6700 }
.was { fill: none; stroke: #656d76; stroke-dasharray: 3 2 }
.cross { stroke: #cf222e; stroke-width: 1.5 }
.number.out { fill: #cf222e; stroke: #ffffff }
.hop { stroke-width: 4; stroke-linecap: round }
.wait, .turn { fill: none; stroke-width: 1.3 }
.begin { stroke: #57606a; stroke-dasharray: 2 3 }
.any { stroke: #1f2328 }
.mark { fill: #1f2328 }
"""
DARK_STYLE = """
text { fill: #e6edf3 }
.number, .rank, .source { stroke: #0d1117 }
.number { fill: #b7bfc9 }
.number.in { fill: #0d1117 }
.back { fill: #0d1117 }
.band { fill: #161b22 }
.tick { stroke: #30363d }
.bar { fill: #768390 }
.lost, .went { fill: #ff7b72; stroke: #ff7b72 }
.came { fill: #56d364 }
.moved { fill: #79b8ff }
.changed { fill: #e3b341 }
.was { fill: none; stroke: #768390 }
.cross { stroke: #ff7b72 }
.number.out { fill: #ff7b72; stroke: #0d1117 }
.begin { stroke: #9aa6b2 }
.any { stroke: #e6edf3 }
.mark { fill: #e6edf3 }
"""


def colours(palette):
    """The rules for the routes' colours."""
    return "".join(
        f".line{at} {{ stroke: {colour} }}\n.end{at} {{ fill: {colour} }}\n" for at, colour in enumerate(palette)
    )


def style():
    """The colours for light and for dark surroundings, and the dashes."""
    dashes = "".join(f".dash{at} {{ stroke-dasharray: {dash} }}\n" for at, dash in enumerate(DASHES))
    dark = (DARK_STYLE + colours(DARK)).strip().replace("\n", "\n  ")
    return f"<style>{STYLE}{dashes}{colours(LIGHT)}@media (prefers-color-scheme: dark) {{\n  {dark}\n}}\n</style>"


def hue(at):
    """The colour of the route at a place among all."""
    return at % len(LIGHT)


def dash(at):
    """Its dashes: no two of as many routes as there are colours with dashes have both alike."""
    return (at + at // len(LIGHT)) % len(DASHES)


def titled(element, title):
    """An element of the picture that says what it is under the mouse."""
    return f"<{element}><title>{html.escape(title)}</title></{element.split()[0]}>"


BOX = '<rect class="{}" y="-9" width="22" height="10"/>'
CROSS = '<path class="cross" d="M0 -4h22"/>'
OUT = ("lost", "went")  # the kinds of contacts that are crossed out

# The signs of the legend: the element, the place of its words, the words, and the width of all.
SIGNS = {
    "contact": (BOX.format("bar"), 28, "contact, with its number", 205),
    "lost": (f"{BOX.format('bar lost')}{CROSS}", 28, "lost", 70),
    "came": (BOX.format("bar came"), 28, "came", 78),
    "went": (f"{BOX.format('bar went')}{CROSS}", 28, "went", 78),
    "moved": (BOX.format("bar moved"), 28, "moved", 88),
    "changed": (BOX.format("bar changed"), 28, "changed", 98),
    "was": (BOX.format("bar was"), 28, "as it was", 105),
    "hop": ('<path class="hop any" d="M0 -4h22"/>', 30, "sending to arrival", 160),
    "wait": ('<path class="wait any" d="M0 -4h22"/>', 28, "wait", 85),
    "delivery": ('<circle class="mark" cx="0" cy="-4" r="3.4"/>', 10, "delivery", 80),
}


class Picture:
    """The scene as an SVG."""

    def __init__(self, scene, width=None):
        self.scene, self.routes, self.span = scene, scene.routes, scene.span
        self.layout = Layout(scene, width)
        self.x, self.y, self.rows = self.layout.x, self.layout.y, self.layout.rows
        self.by_route = scene.stages_by(lambda stage: stage.at)
        self.lines = list(self.below())
        self.width, self.height = self.layout.width, self.layout.bottom + 10 + LINE * len(self.lines)

    def svg(self):
        """The whole text."""
        strips = [strip for _, strips in self.rows for strip in strips]
        parts = [*self.head(), *(self.band(strips) for _, strips in self.rows[::2])]
        parts += self.ticks() if self.span else []
        for place, (row, its_strips) in enumerate(self.rows):
            parts += self.bars(row, its_strips, "back" if place % 2 else "band")
        parts += self.source() if self.scene.source_second is not None else []
        for at in sorted(range(len(self.routes)), key=lambda at: (dash(at), -at)):  # whole lines below dashed ones
            parts += self.trace(at, self.routes[at])
        for at, route in enumerate(self.routes):
            parts += self.ends(at, route)
        parts += [number for strip in strips for number in self.numbers(strip)]
        for place, line in enumerate(self.lines):
            y = self.layout.bottom + 16 + LINE * place
            parts.append(f'<g transform="translate({self.layout.left} {y})">{line}</g>')
        return "\n".join([*parts, "</svg>", ""])

    def head(self):
        """What the text begins with."""
        size = f'width="{self.width}" height="{self.height}"'
        yield f'<svg xmlns="http://www.w3.org/2000/svg" viewBox="0 0 {self.width} {self.height}" {size} role="img">'
        yield f"<title>{html.escape(self.scene.title)}</title>"
        yield style()
        yield f'<rect class="back" {size}/>'

    def band(self, strips):
        """The background of a row."""
        height = sum(strip.height for strip in strips)
        return f'<rect class="band" y="{strips[0].top - 2}" width="{self.width}" height="{height}"/>'

    def ticks(self):
        """The axis."""
        yield f'<text x="8" y="{HEAD - 8}">UTC</text>'
        for tick in self.layout.axis.ticks():
            x, time = f"{self.x(tick.second):.1f}", self.scene.time_text(tick.second)
            yield titled(f'path class="tick" d="M{x} {HEAD - 4}V{self.layout.bottom}"', time)
            yield f'<text x="{x}" y="{HEAD - 8}" text-anchor="middle">{tick.label}</text>'
            if tick.above:
                yield f'<text x="{x}" y="15" text-anchor="middle">{tick.above}</text>'

    def source(self):
        """The second at which the bundle is at the source."""
        second, top = self.scene.source_second, HEAD + 10
        x, time = self.x(second), self.scene.time_text(second)
        yield titled(f'path class="begin" d="M{x:.1f} {top - 10}V{self.layout.bottom}"', f"bundle at the source {time}")
        words = f"bundle at the source {date_of(second):%H:%M:%S}"
        is_left = x + 5 + CHARACTER * len(words) > self.width
        yield f'<text class="source" x="{x + (-5 if is_left else 5):.1f}" y="{top}"{END * is_left}>{words}</text>'

    def bars(self, row, strips, ground):
        """The label of a row, and its windows as far as the span shows them. Those that go on beyond it have a notch."""
        label = html.escape(self.scene.label(row.link, ARROW))
        yield f'<text x="{self.layout.left - 8}" y="{strips[0].bar + BAR - 3}" text-anchor="end">{label}</text>'
        for strip in strips:
            for it in filter(self.span.shows, strip.windows):
                x = self.x(it.start)
                width = max(self.x(it.end) - x, 0.1)  # nothing is drawn of no width
                kind = self.scene.kinds.get(it.number, "")
                rect = f'rect class="{f"bar {kind}".strip()}" x="{x:.1f}" y="{strip.bar}" width="{width:.1f}" height="{BAR}"'
                yield titled(rect, self.told(it))
                if kind in OUT:
                    yield f'<path class="cross" d="M{x:.1f} {strip.bar + BAR / 2}h{width:.1f}"/>'
                yield from self.notches(it, strip.bar, ground)

    def notches(self, it, y, ground):
        """What is cut out of the bar of a window where the span cuts it."""
        for is_cut, second, inwards in ((it.start < self.span.first, it.start, 5), (self.span.last < it.end, it.end, -5)):
            if is_cut:
                yield f'<path class="notch {ground}" d="M{self.x(second):.1f} {y}l{inwards} {BAR / 2}l{-inwards} {BAR / 2}z"/>'

    def told(self, it):
        """A contact in words."""
        sender, receiver = map(self.scene.names.full, it.link)
        window = f"{self.scene.time_text(it.start)} to {self.scene.time_text(it.end)}"
        light = "no light time" if it.light is None else f"light time {it.light} s"
        kind = f", {SIGNS[self.scene.kinds[it.number]][2]}" if it.number in self.scene.kinds else ""
        return f"contact {abs(it.number)}: {sender} {ARROW} {receiver}, {window}, {light}{kind}"

    def numbers(self, strip):
        """The numbers of a strip's contacts: in their bars, or beside them, where there is room that no line crosses."""
        shown = [it for it in strip.windows if self.span.shows(it)]
        ends = [self.layout.left, *(self.x(it.end) for it in shown), *[self.layout.left + self.layout.plot] * 2]
        starts = [*(self.x(it.start) for it in shown), self.width]
        for place, it in enumerate(shown):
            text, kind = str(abs(it.number)), self.scene.kinds.get(it.number)
            wide = DIGIT * len(text) + 2
            inside = self.room(starts[place] + (8 if it.start < self.span.first else 4), ends[place + 1] - wide - 4, wide, strip)
            right = self.room(ends[place + 1] + 3, starts[place + 1] - wide - 2, wide, strip)
            left = self.room(ends[place] + 2, starts[place] - wide - 3, wide, strip, is_last=True)
            x = next((x for x in (inside, right, left) if x is not None), None)
            if x is not None:
                is_out, is_in = kind in OUT, x is inside and kind != "was"
                kind = "number out" if is_out else "number in" if is_in else "number"
                yield f'<text class="{kind}" x="{x:.1f}" y="{strip.bar + BAR - 3}">{text}</text>'

    def room(self, first, last, wide, strip, is_last=False):
        """The first x of some at which a text so wide is crossed by no line, or the last one; None if there is none."""
        places = range(int(last - first) // 4 + 1 if last >= first else 0)
        found = (first + 4 * place for place in (reversed(places) if is_last else places))
        return next((x for x in found if not self.layout.crosses(x, x + wide, strip)), None)

    def trace(self, at, route):
        """A route: a thick line for each hop, and a thin one for the wait before it."""
        yield f"<g><title>route {route.rank}: {html.escape(self.scene.summary(route))}</title>"
        for stage in self.by_route[at]:
            if self.layout.turn(stage):
                yield self.turn(stage)
            if self.span.shows_wait(stage):
                yield self.wait(stage)
            if self.span.shows_hop(stage):
                yield self.hop(stage)
        yield "</g>"

    def ends(self, at, route):
        """A dot at a delivery, and the rank there or where the span cuts the route off.

        If there are more routes than colours, the rank stands at each hop.
        """
        for stage in self.by_route[at]:
            x, y = self.x(stage.hop.arrive), self.y(stage)
            if self.scene.shows_delivery(stage):
                yield f'<circle class="end{hue(at)}" cx="{x:.1f}" cy="{y:.1f}" r="3.4"/>'
            if stage.is_last or not self.span.shows_arrival(stage) or len(self.routes) > len(LIGHT):
                text = f'<tspan class="end{hue(at)}">{route.rank}</tspan>'
                yield f'<text class="rank" x="{x + 6:.1f}" y="{y + 4:.1f}">{text}</text>'

    def hop(self, stage):
        """The line from sending to arrival."""
        send, arrive = map(self.scene.time_text, (stage.hop.send, stage.hop.arrive))
        way = f"M{self.x(stage.hop.send):.1f} {self.y(stage):.1f}H{self.x(stage.hop.arrive):.1f}"
        told = f"{self.rank(stage)}, contact {abs(stage.hop.contact)}: sent {send}, arrives {arrive}"
        return titled(f'path class="hop line{hue(stage.at)}" d="{way}"', told)

    def wait(self, stage):
        """The line from where the bundle is to the next sending."""
        start, send = map(self.scene.time_text, (stage.start, stage.hop.send))
        way = f"M{self.x(stage.start):.1f} {self.y(stage):.1f}H{self.x(stage.hop.send):.1f}"
        told = f"{self.rank(stage)}, node {self.scene.names.full(stage.hop.sender)}: from {start} to {send}"
        return titled(f'path class="wait line{hue(stage.at)} dash{dash(stage.at)}" d="{way}"', told)

    def turn(self, stage):
        """The line from the lane of the hop before to that of a stage, where the bundle arrives."""
        turn, before = self.layout.turn(stage), self.layout.strips[stage.before.contact].y(stage.at)
        low, high = sorted((before, self.y(stage)))
        way = f"M{turn.x:.1f} {low:.1f}V{high:.1f}"
        told = f"{self.rank(stage)}, node {self.scene.names.full(stage.hop.sender)}: {self.scene.time_text(stage.start)}"
        if turn.count == 1:
            return titled(f'path class="turn line{hue(stage.at)} dash{dash(stage.at)}" d="{way}"', told)
        dashes = f'stroke-dasharray="{DASH} {DASH * (turn.count - 1)}" stroke-dashoffset="{low - DASH * turn.place:.1f}"'
        return titled(f'path class="turn line{hue(stage.at)}" {dashes} d="{way}"', told)

    def rank(self, stage):
        """Names the route of a stage."""
        return f"route {self.routes[stage.at].rank}"

    def below(self):
        """The lines of words below the rows: the legend, remarks, and the routes."""
        if self.rows:
            yield from self.legend()
        for remark in self.scene.remarks:
            yield f"<text>{remark}</text>"
        for at, route in enumerate(self.routes):
            signs = sample(at) if at in self.scene.drawn else ""
            rank = f'<tspan class="end{hue(at)}" font-weight="bold">{route.rank}</tspan>'
            yield f"{signs}<text>{rank} {self.scene.told(at, self.layout.plot // 7)}</text>"

    def legend(self):
        """What bars and lines are, as far as they are drawn, in as many lines as they need."""
        drawn, line, place = self.scene.signs(), "", 0
        for element, x, words, width in (SIGNS[sign] for sign in SIGNS if sign in drawn):
            if place + width > self.layout.plot + SIDE:
                yield line
                line, place = "", 0
            line += f'<g transform="translate({place})">{element}<text x="{x}">{words}</text></g>'
            place += width
        yield line


def sample(at):
    """A piece of the lines of the route at a place among all, left of its words."""
    return (
        f'<path class="wait line{hue(at)} dash{dash(at)}" d="M-54 -4h46"/>'
        f'<path class="hop line{hue(at)}" d="M-20 -4h12"/>'
    )
