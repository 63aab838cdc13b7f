"""The plot of tools/timetable: when a bundle is delivered, by the second at which it is at the source; an SVG."""

import html

from .axis import Axis, Span
from .picture import hue, style, titled
from .scene import date_sign

LEFT, TOP, WIDTH, HEIGHT, SIDE = 150, 64, 640, 360, 30
CHARACTER, LINE = 7.8, 20


def plot_svg(stretches, title, time_text, path_text):
    """The stretches that have a route, a line for each; each route has a colour, and says what it is under the mouse."""
    shown = [it for it in stretches if it.route]
    places = {contacts: place for place, contacts in enumerate(dict.fromkeys(it.route.contacts for it in shown))}
    width, height = LEFT + WIDTH + SIDE, TOP + HEIGHT + SIDE + LINE * len(places)
    size = f'width="{width}" height="{height}"'
    yield f'<svg xmlns="http://www.w3.org/2000/svg" viewBox="0 0 {width} {height}" {size} role="img">\n<title>{html.escape(title)}</title>\n{style()}\n<rect class="back" {size}/>\n'
    if shown:
        sign = date_sign(time_text)
        across = Axis(Span(stretches[0].first, stretches[-1].last + 1), WIDTH, CHARACTER, 10, sign)
        up = Axis(_span(shown), HEIGHT, 0, LINE, sign)
        gaps = [[LEFT + across.place(second) for second in (it.first, it.last + 1)] for it in stretches if not it.route]
        yield from (_band(x, end, HEIGHT) for x, end in gaps)
        yield from _ticks(across, up, time_text)
        yield from (_no_route((x + end) / 2) for x, end in gaps if end - x > 60)
        yield from _joins(shown, across, up)
        for it in shown:
            yield _line(it, across, up, f"line{hue(places[it.route.contacts])}", time_text) + "\n"
        yield from _legend(shown, places, path_text)
    else:
        yield f'<text x="8" y="{TOP}">no route</text>\n'
    yield "</svg>\n"


def _span(shown):
    """The deliveries, with a margin."""
    first, last = min(it.delivery for it in shown), max(it.last_delivery for it in shown)
    margin = (last - first) // 20 + 1
    return Span(first - margin, last + margin)


def _ticks(across, up, time_text):
    yield f'<text x="{LEFT}" y="15">at the source, UTC</text>\n<text x="8" y="15">delivery, UTC</text>\n'
    for tick in across.ticks():
        x = f"{LEFT + across.place(tick.second):.1f}"
        yield titled(f'path class="tick" d="M{x} {TOP - 4}V{TOP + HEIGHT}"', time_text(tick.second)) + "\n"
        for text, y in ((tick.label, TOP - 8), (tick.above, TOP - 26)):
            yield f'<text x="{x}" y="{y}" text-anchor="middle">{text}</text>\n' if text else ""
    for tick in up.ticks():
        y = TOP + HEIGHT - up.place(tick.second)
        yield titled(f'path class="tick" d="M{LEFT - 4} {y:.1f}H{LEFT + WIDTH}"', time_text(tick.second)) + "\n"
        yield f'<text x="{LEFT - 8}" y="{y + 4:.1f}" text-anchor="end">{f"{tick.above} {tick.label}".strip()}</text>\n'


def _band(x, end, height):
    return f'<rect class="band" x="{x:.1f}" y="{TOP}" width="{end - x:.1f}" height="{height}"/>\n'


def _no_route(middle):
    """Words at the top, below which no line of the grid is seen."""
    return f'{_band(middle - 30, middle + 30, LINE + 6)}<text x="{middle:.1f}" y="{TOP + LINE}" text-anchor="middle">no route</text>\n'


def _joins(shown, across, up):
    """The jumps from stretch to stretch."""
    for before, it in zip(shown, shown[1:]):
        x, *ends = LEFT + across.place(it.first), *(TOP + HEIGHT - up.place(at) for at in (before.last_delivery, it.delivery))
        yield f'<path class="begin" d="M{x:.1f} {ends[0]:.1f}V{ends[1]:.1f}"/>\n' if ends[0] - ends[1] > 1 else ""


def _line(it, across, up, line, time_text):
    """The line of a stretch: a second is as wide as it lasts."""
    x, end = (LEFT + across.place(second) for second in (it.first, it.last + 1))
    y, last = (TOP + HEIGHT - up.place(second) for second in (it.delivery, it.last_delivery))
    told = f"from {time_text(it.first)} to {time_text(it.last)}: delivery {time_text(it.delivery)}"
    told += f" to {time_text(it.last_delivery)}" if it.rises else ""
    told += f", contacts {' '.join(map(str, it.route.contacts))}"
    return titled(f'path class="hop {line}" d="M{x:.1f} {y:.1f}L{end:.1f} {last:.1f}"', told)


def _legend(shown, places, path_text):
    for contacts, place in places.items():
        y, nodes = TOP + HEIGHT + SIDE + LINE * place, next(it.route.nodes for it in shown if it.route.contacts == contacts)
        told = html.escape(f"{path_text(nodes)}, contacts {' '.join(map(str, contacts))}")
        yield f'<path class="hop line{hue(place)}" d="M{LEFT} {y - 4}h22"/>\n<text x="{LEFT + 30}" y="{y}">{told}</text>\n'
