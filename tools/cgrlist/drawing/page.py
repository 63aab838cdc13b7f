"""The page that tools/timeline writes: one HTML file that is the program, and opens with a plan and a question.

The files in the folder html/ and the engine's are put together with what the page knows, as JSON. A content policy with the
hashes of style and script lets a browser refuse anything else, and any network.
"""

import base64
import hashlib
import html
import json
import re
from pathlib import Path

from ..plans import links_of
from ..version import VERSION
from .axis import STEPS
from .picture import DARK, DASHES, LIGHT
from .scene import date_sign
from .told import explanations, report_text, seeds_of, texts_of

FOLDER = Path(__file__).resolve().parent / "html"
ENGINE = FOLDER.parent.parent / "engine"
RUNS = ("errors", "program", "engine", "texts")  # of the engine, in the order in which they run
SCRIPTS = ("plan", "times", "answers", "routes", "view", "svg", "picture", "traces", "sheets", "words", "starts")
SCRIPTS += ("timetable", "hands", "find", "ask", "open", "about")
PANELS = ("panel", "faults", "choices", "judge", "session", "export", "link")
# Those of routes that stand back: as far towards the ground as eyes can follow a line.
FAINT_LIGHT = ["#478fe3", "#cd7940", "#539f69", "#a17ce7", "#cf6ba7", "#82974d", "#ae8533", "#3b97a3"]
FAINT_DARK = ["#486d97", "#865c37", "#32723e", "#705d8b", "#865673", "#606b3e", "#78622c", "#3c7076"]
MOST_ROUTES = 1000  # so many are on a page that isn't asked for twice


class Page:
    """A plan with what is told of it as a page, shown as a view says. `text` has the bytes of the plan's text, and `lost` the
    contacts that are lost for all answers, and crossed out.
    """

    def __init__(self, view, plan, text, told, lost=()):
        self._view, self._plan, self._text, self._told = view, plan, text, told
        self._lost = [it.number for it in lost]

    def html(self):
        """The whole text."""
        body, style, scripts = page_html(), page_style(), [engine_script(), page_script()]
        hashes = " ".join(map(hash_of, scripts))
        policy = f"default-src 'none'; style-src {hash_of(style)}; script-src {hashes} 'wasm-unsafe-eval'; worker-src blob:"
        data = {"look": look_data(), "about": about_data(), "data": self.data()}
        return (
            '<!DOCTYPE html>\n<html lang="en">\n<head>\n<meta charset="utf-8">\n'
            f'<meta http-equiv="Content-Security-Policy" content="{policy}">\n'
            '<meta name="viewport" content="width=device-width, initial-scale=1">\n'
            '<meta name="color-scheme" content="light dark">\n'
            f"<title>{html.escape(self._view.title)} · cgrlist</title>\n<style>{style}</style>\n"
            f'<script type="text/plain" id="module">{module_text()}</script>\n<script>{scripts[0]}</script>\n</head>\n<body>\n{body}'
            + "".join(f'<script type="application/json" id="{name}">{json_of(it)}</script>\n' for name, it in data.items())
            + f"<script>{scripts[1]}</script>\n</body>\n</html>\n"
        )

    def data(self):
        """What the page opens with."""
        view, answer = self._view, self._told.answer
        request = answer.request and texts_of(answer.request, len(answer.routes) or 1)
        is_given = bool(answer.routes) and not self._told.is_listed
        given = {"report": report_text(answer.routes), "explained": explanations(answer.routes)}
        return {
            "name": view.title,
            "remarks": [*view.remarks],
            "iso": date_sign(view.time_text) == "-",
            "span": view.span and [view.span.first, view.span.last],
            "linksAtFirst": {None: None, True: "some", False: "all"}[view.choice.used],
            "links": self._links(),
            "byRoute": view.choice.by_route,
            "names": self._names(),
            "plan": text_of(self._text),
            "lost": self._lost,
            "request": request,
            "given": given if is_given else None,
            "answers": [*seeds_of(self._told, self._plan, self._lost)],
        }

    def _links(self):
        """The links that are chosen by name, if some are."""
        choice, links = self._view.choice, links_of(self._plan.contacts)
        choice.check(links)
        chosen = [[*map(str, link)] for link in links if choice.has(link)]
        return chosen if len(chosen) < len(links) else None

    def _names(self):
        """The names of the plan's nodes and of the request's."""
        request, names = self._told.answer.request, self._view.names
        nodes = {node for it in self._plan.contacts for node in it.link} | ({request.source, request.destination} if request else set())
        return {str(node): names.of(node) for node in sorted(nodes) if names.of(node) != str(node)}


# ---- Parts of the file ------------------------------------------------------------------------------------------


def page_html():
    return read(FOLDER / "page.html")


def page_style():
    """The styles of the page and its panels."""
    return read(FOLDER / "page.css")


def engine_script():
    """The engine, which is a module elsewhere, and its beginning, so that it is compiled while the page is laid out."""
    engine = "\n".join(read(ENGINE / f"{name}.mjs") for name in RUNS)
    engine = re.sub(r"^export ", "", re.sub(r"^import .*\n", "", engine, flags=re.MULTILINE), flags=re.MULTILINE)
    return f'"use strict";\n{engine}\nconst engine = new Engine(document.getElementById("module").textContent.trim());\n'


def page_script():
    """The page's files."""
    return "\n".join(['"use strict";', *(read(FOLDER / f"{name}.js") for name in (*SCRIPTS, *PANELS, "start"))])


def module_text():
    """The engine's module, compressed, in base 64; nothing if it isn't built."""
    module = ENGINE / "cgrlist.wasm.gz"
    return base64.b64encode(module.read_bytes()).decode() if module.exists() else ""


def about_data():
    """What the page says of itself: the version, and the record of the module."""
    record = ENGINE / "module.json"
    return {"version": VERSION, **(json.loads(read(record)) if record.exists() else {})}


def look_data():
    """How a page looks like a picture: the steps of its axis, and the colours and dashes of its routes."""
    dashes = [[] if it == "none" else [*map(int, it.split())] for it in DASHES]
    hues = {"light": (LIGHT, FAINT_LIGHT), "dark": (DARK, FAINT_DARK)}
    return {"steps": [[it.seconds, it.months] for it in STEPS], "dashes": dashes, **hues}


def read(path):
    return path.read_text(encoding="utf-8") if path.exists() else ""


def text_of(plan):
    """The bytes of a plan's text as a text. Those that aren't UTF-8 become others that a plan can't have either."""
    try:
        return plan.decode()
    except UnicodeDecodeError:
        return re.sub(r"[^\x00-\x7f]", "\x7f", plan.decode("latin-1"))


def hash_of(text):
    """A text's hash as a content policy has it."""
    return f"'sha256-{base64.b64encode(hashlib.sha256(text.encode()).digest()).decode()}'"


def json_of(data):
    """Data as JSON inside of HTML, in which no tag can begin."""
    return json.dumps(data, separators=(",", ":"), ensure_ascii=False).replace("<", "\\u003c")
