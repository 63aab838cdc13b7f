"""What tools/timeline prints as text: the picture with characters."""

from .axis import Axis
from .scene import columns_of, date_sign

OVER = 7  # columns right of the rows, for the last label
SIGNS = {"#": "sending to arrival", ".": "wait"}
LOST = "x lost contact"


class Text:
    """The scene as text: `=` for a window, `x` for a lost one, `#` from sending to arrival, `.` for the wait before."""

    def __init__(self, scene, columns):
        self.scene, self.routes = scene, scene.routes
        labels = [scene.label(row.link, ">") for row in scene.rows] + [route_label(it) for it in self.routes]
        self.left = max(map(columns_of, labels), default=3) + 2
        self.width = max(columns - self.left - OVER, 20)
        self.axis = Axis(scene.span, self.width, 1, 2, date_sign(scene.time_text)) if scene.span else None
        self.by_contact = scene.stages_by(lambda stage: stage.hop.contact)

    def cell(self, second):
        """The cell of a second; the first or the last for one out of the span."""
        return min(max(int(self.axis.place(second)), 0), self.width - 1)

    def line(self, label, pieces):
        """A line with a label and pieces of text from their cells on, or from further left if they don't fit."""
        cells = [" "] * (self.width + OVER)
        for at, piece in pieces:
            at = min(at, len(cells) - len(piece))
            cells[at : at + len(piece)] = piece
        return (label + " " * (self.left - columns_of(label)) + "".join(cells)).rstrip()

    def text(self):
        """The whole text."""
        lines, traces = self.head() if self.axis else [], []
        for row in self.scene.rows:
            label = self.scene.label(row.link, ">")
            for windows in row.strips:
                below = list(self.traces(windows))
                lines += [self.line(label, self.windows(windows)), *below]
                label, traces = "", [*traces, *below]
        lines += self.legend(traces) if self.scene.rows else []
        lines += self.scene.remarks
        lines += [f"route {route.rank}: {self.scene.told(at)}" for at, route in enumerate(self.routes)]
        return "\n".join([*lines, ""])

    def legend(self, traces):
        """What the signs mean that are drawn, of routes those in some of these lines."""
        cells = "".join(line[self.left :] for line in traces)
        shown = [f"{sign} {meaning}" for sign, meaning in SIGNS.items() if sign in cells]
        lost = [LOST] if "lost" in self.scene.signs() else []
        return ["   ".join(["= contact, with its number", *lost, *shown])]

    def head(self):
        """The axis."""
        ticks = self.axis.ticks()
        above = [(self.cell(tick.second), tick.above) for tick in ticks]
        labels = [(self.cell(tick.second), tick.label) for tick in ticks]
        return [self.line("", above), self.line("UTC", labels)]

    def windows(self, windows):
        """The bars of a strip, with numbers if there is room for them."""
        shown = [it for it in windows if self.scene.span.shows(it)]
        starts = [self.cell(it.start) for it in shown]
        for start, it in zip(starts, shown):
            end = min(int(self.axis.place(it.end)), self.width)
            yield start, ("x" if it.number in self.scene.kinds else "=") * max(end - start, 1)
        for start, it, after in zip(starts, shown, [*starts[1:], self.width + 1]):
            if start + len(str(it.number)) < after:
                yield start, str(it.number)

    def traces(self, windows):
        """A line for each route that uses a strip."""
        stages = [stage for it in windows for stage in self.by_contact[it.number]]
        for stage in sorted(stages, key=lambda stage: stage.at):
            start, send, arrive = map(self.cell, (stage.start, stage.hop.send, stage.hop.arrive))
            sign = "#" if self.scene.span.shows_hop(stage) else "."
            pieces = [(start, "." * (send - start)), (send, sign * (arrive - send + 1))]
            yield self.line(route_label(self.routes[stage.at]), pieces)


def route_label(route):
    """What stands left of a route's line."""
    return f"  route {route.rank}"
