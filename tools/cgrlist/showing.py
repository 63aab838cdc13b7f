"""How plans and answers show themselves: as tables of HTML with pictures in notebooks, as pictures, and as pages."""

import base64
import os
from dataclasses import replace

from .drawing.page import Page
from .drawing.picture import Picture
from .drawing.scene import Choice, View
from .drawing.told import Told, told_of
from .errors import Refused
from .routes import Answer
from .tables import html_table
from .times import iso_text

MOST = 200  # rows of a table; what is left out is told


def answer_html(answer):
    """The routes of an answer, with the nodes that they pass, and a picture of them if it can be drawn."""
    path = answer.plan.path_text if answer.plan is not None else lambda nodes: " > ".join(map(str, nodes))
    rows = [
        [it.rank, iso_text(it.delivery), len(it.contacts), iso_text(it.until), " ".join(map(str, it.contacts)), path(it.nodes)]
        for it in answer.routes[:MOST]
    ]
    ends = {True: "end", False: "more", None: ""}[answer.is_whole]
    table = html_table(["rank", "delivery", "hops", "until", "contacts", "nodes"], rows)
    picture = "" if _why_not_drawn(answer) else _image(answer_svg(answer))
    return f"{table}{_rest(answer.routes)}<p>{ends}</p>{picture}"


def plan_html(plan):
    """The contacts of a plan, and a picture of their windows if that isn't too high."""
    rows = [
        [it.number, plan.path_text(it.link), iso_text(it.start), iso_text(it.end), it.rate, "-" if it.light is None else it.light]
        for it in plan.contacts[:MOST]
    ]
    table = html_table(["contact", "nodes", "start", "end", "rate", "light"], rows)
    picture = _image(plan_svg(plan)) if len(plan.links()) <= MOST else ""
    return f"{table}{_rest(plan.contacts)}{picture}"


def answer_svg(answer):
    """The routes of an answer in time."""
    _refuse(_why_not_drawn(answer))
    view = _view(answer.plan, Choice(used=True, by_route=True))
    return Picture(view.scene(answer.plan, _ranked(answer))).svg()


def plan_svg(plan):
    """The windows of a plan in time."""
    return Picture(_view(plan, Choice()).scene(plan, None)).svg()


def answer_page(answer):
    """The page of a plan with the routes of an answer, and with what is best if a contact of them is lost."""
    _refuse(_why_not_drawn(answer) or (None if answer.request else "the request of the answer isn't known"))
    plan, told = answer.plan, told_of(answer.plan.asked, answer.plan, replace(answer, routes=tuple(_ranked(answer))))
    return Page(_view(plan, Choice(used=True, by_route=True)), plan, plan.text, told).html()


def plan_page(plan):
    """The page of a plan."""
    return Page(_view(plan, Choice()), plan, plan.text, Told(Answer((), None))).html()


def _why_not_drawn(answer):
    """Why there is no picture of an answer, None if there is one."""
    if answer.plan is None:
        return "the plan of the answer isn't known"
    if not answer.routes:
        return "the answer has no routes"
    return None if all(it.hops for it in answer.routes) else "the hops of the routes aren't known: first and hops=True tell them"


def _refuse(why):
    if why:
        raise Refused(why)


def _view(plan, choice):
    return View(_title(plan), choice, None, plan.names, iso_text)


def _title(plan):
    return os.path.basename(plan.file or "a plan")


def _ranked(answer):
    """The routes with ranks: those in the list of all, or if these aren't known, their places."""
    return [route.having(rank=route.rank or place) for place, route in enumerate(answer.routes, 1)]


def _image(svg):
    """A picture inside of HTML, which keeps its style to itself."""
    return f'<img alt="" src="data:image/svg+xml;base64,{base64.b64encode(svg.encode()).decode()}">'


def _rest(things):
    """How many rows are left out."""
    return f"<p>and {len(things) - MOST} more</p>" if things[MOST:] else ""
