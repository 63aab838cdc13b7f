"""How a tool runs: what it prints, what it tells meanwhile, and how it ends."""

import collections
import contextlib
import gc
import itertools
import os
import signal
import sys
import tempfile
import threading
import time
from concurrent.futures import ThreadPoolExecutor

from .errors import FILE_STATUS, MEMORY_STATUS, Refused
from .limits import LINES


class Tool:
    """The tool that runs: its name, a folder of its own if it needed one, the line that says how far it is, and what that says,
    the processes that it waits for, how many are about to begin, the signal that waits for these, and what is to be told if a
    signal ends it. Where the package is a library, no tool is running, and nothing is told.
    """

    is_running = False
    name = os.path.basename(sys.argv[0])
    line = None
    progress = None
    folder = None
    children = set()
    beginning = 0
    signal_later = None
    when_ended = None
    lock = threading.Lock()
    counted = itertools.count(1)


def scratch():
    """The path of a new file, in a folder that goes when the process ends."""
    with Tool.lock:
        Tool.folder = Tool.folder or tempfile.TemporaryDirectory(prefix="cgrlist-")
    return os.path.join(Tool.folder.name, f"{os.getpid()}-{next(Tool.counted)}")  # a worker may have its parent's folder


def scratch_with(data):
    """The path of a new file with these bytes, likewise."""
    path = scratch()
    with open(path, "wb") as file:
        file.write(data)
    return path


PIECE = 1 << 20  # bytes that are read at a time; a longer line is none of a text


def opened(path):
    """A file that is read by bytes, or standard input for `-`."""
    return open("/dev/stdin" if path == "-" else path, "rb")


def bytes_of(path, most):
    """The bytes of a file, or of standard input for `-`; refused if there are more than so many."""
    with opened(path) as file:
        data = file.read(most + 1)
    if len(data) > most:
        raise Refused(f"{path}: it has more than {most} bytes", FILE_STATUS)
    return data


def beginning_of(path, most_lines, most=None, is_bad=lambda piece: False):
    """The bytes of a text, and whether these are all. It is read until it has more than so many lines or bytes, a line that is
    longer than a piece, or pieces that a function finds bad, so that what has no end takes no more memory.
    """
    pieces, lines, size = [], 0, 0
    with opened(path) as file:
        while piece := file.read(PIECE):
            pieces.append(piece)
            lines, size = lines + piece.count(b"\n"), size + len(piece)
            is_long = len(piece) == PIECE and b"\n" not in piece
            if lines > most_lines or (most and size > most) or is_long or is_bad(piece):
                return b"".join(pieces), False
    return b"".join(pieces), True


def lines_of(path, most=LINES):
    """The lines of a text, without their line feeds; refused if there are more than so many, or one has more than a MB."""
    data, is_whole = beginning_of(path, most)
    if not is_whole:
        raise Refused(f"{path}: it has more than {most} lines, or a line of more than {PIECE} bytes", FILE_STATUS)
    return data.decode("utf-8", "replace").split("\n")


def printable(text):
    """A text in which what can't be printed is spelled as Python does."""
    return "".join(it if it.isprintable() else repr(it)[1:-1] for it in text)


def say(text):
    """Writes a text on standard error, in place of the line that says how far the tool is."""
    if Tool.line:
        Tool.line.clear()
    _write(text)


def _write(text):
    """Writes a text on standard error. If that is closed or full, it is lost, and nothing else is."""
    with contextlib.suppress(OSError, AttributeError):
        sys.stderr.write(text)
        sys.stderr.flush()
        return
    sys.stderr = None


def tell(message):
    """Prints a line on standard error."""
    say(f"{Tool.name}: {printable(message)}\n")


# ---- How far a tool is ------------------------------------------------------------------------------------------


class Line:
    """The line on standard error that says how far the tool is: on a terminal, once it has run for a second, one line that
    changes, if only to say for how long it has worked; else a further line every ten seconds, if there is more to say.
    """

    def __init__(self):
        self._begun, self._over, self._lock = time.monotonic(), threading.Event(), threading.Lock()
        self._is_terminal = sys.stderr is not None and sys.stderr.isatty()
        self._due = self._begun + (1 if self._is_terminal else 10)
        self._shown, self._last, self._is_held = False, None, False
        with contextlib.suppress(RuntimeError):  # no memory for a thread: then there is no line
            threading.Thread(target=self._run, daemon=True).start()

    def _run(self):
        while not self._over.wait(0.2):
            with self._lock:
                if not self._is_held and time.monotonic() >= self._due:
                    self._show(Tool.progress and Tool.progress.text())

    def _show(self, text):
        if self._is_terminal:
            text = text or f"working for {time.monotonic() - self._begun:.0f} s"
            _write(f"\r\033[K{Tool.name}: {printable(text)}")
            self._shown = True
        elif text and text != self._last:
            _write(f"{Tool.name}: {printable(text)}\n")
            self._last, self._due = text, time.monotonic() + 10

    def clear(self):
        """Takes the line from a terminal."""
        with self._lock:
            if self._shown:
                _write("\r\033[K")
            self._shown = False

    def hold(self, is_held=True):
        """Shows no line from now on, while something else is written, or shows it again."""
        self._is_held = is_held
        self.clear()

    def end(self):
        """Ends the line."""
        self._over.set()
        self.hold()


class Progress:
    """What a tool says of how far it is. One within another says nothing, nor does one in a library."""

    def __init__(self):
        self._is_first = Tool.is_running and Tool.progress is None
        self.text = lambda: None
        if self._is_first:
            Tool.progress = self

    def tell(self, text):
        """Says a text in place of the last one."""
        self.text = lambda: text

    def end(self):
        """Ends what is said."""
        if self._is_first:
            Tool.progress = None


@contextlib.contextmanager
def waiting(text):
    """Says what a tool waits for, and for how long it has."""
    progress, begun = Progress(), time.monotonic()
    progress.text = lambda: f"{text}, for {time.monotonic() - begun:.0f} s"
    try:
        yield
    finally:
        progress.end()


# ---- Work on several processors ---------------------------------------------------------------------------------


def processors():
    """How many processors this process may use."""
    return len(os.sched_getaffinity(0))


@contextlib.contextmanager
def threads():
    """A pool with a thread for each processor. If it is left early, what it hasn't begun is dropped at once."""
    pool = ThreadPoolExecutor(processors())
    try:
        yield pool
    except BaseException:
        pool.shutdown(wait=False, cancel_futures=True)
        stop_children()
        raise
    pool.shutdown()


def in_order(work, parts):
    """The results of a function over some parts, in their order. Only as many as there are threads wait to be taken."""
    with threads() as pool:
        begun = collections.deque()
        for part in parts:
            begun.append(pool.submit(work, part))
            if len(begun) > processors():
                yield begun.popleft().result()
        while begun:
            yield begun.popleft().result()


@contextlib.contextmanager
def beginning():
    """What begins a process and puts it among the children. A signal waits until that is done, and then ends the tool."""
    with Tool.lock:
        Tool.beginning += 1
    try:
        yield
    finally:
        with Tool.lock:
            Tool.beginning -= 1
        number, Tool.signal_later = Tool.signal_later, None
        if number:
            os.kill(os.getpid(), number)


def stop_children():
    """Ends the processes that the tool waits for."""
    for process in list(Tool.children):
        process.kill()


# ---- A run ------------------------------------------------------------------------------------------------------


class Ended(BaseException):
    """A signal ends the tool."""


def _end(number, _):
    if not Tool.beginning:
        raise Ended(number)
    Tool.signal_later = number


def run_tool(tool):
    """Prints the text that a tool returns, or its pieces. If it is refused, says why and ends with that status."""
    gc.disable()  # answers have no cycles, and looking for some takes a sixth of the time of many
    Tool.is_running = True
    if sys.stderr is None:
        _take_the_place_of_standard_error()
    for number in (signal.SIGINT, signal.SIGTERM, signal.SIGHUP):
        if number == signal.SIGINT or signal.getsignal(number) != signal.SIG_IGN:
            signal.signal(number, _end)
    Tool.line = Line()
    try:
        _run(tool)
    except Ended as ended:
        stop_children()
        if ended.args[0] == signal.SIGINT:
            _keep_what_was_found()
        if Tool.folder:
            Tool.folder.cleanup()
        Tool.line.end()
        signal.signal(ended.args[0], signal.SIG_DFL)
        os.kill(os.getpid(), ended.args[0])
    finally:
        Tool.line.end()


def _take_the_place_of_standard_error():
    """Opens the null device where standard error is closed, so that no file that is opened later gets its number."""
    null = os.open(os.devnull, os.O_WRONLY)
    if null != 2:
        os.dup2(null, 2)
        os.close(null)


def _run(tool):
    if sys.stdout is None:
        _give_up(Refused("standard output is closed", FILE_STATUS))
    sys.stdout.reconfigure(encoding="utf-8")
    try:
        told = tool()
        for piece in [told] if isinstance(told, str) else told:
            Tool.line.hold()
            sys.stdout.write(piece)
            sys.stdout.flush()  # who reads a pipe has it at once
            Tool.line.hold(sys.stdout.isatty() and not piece.endswith("\n"))
    except Refused as refused:
        _give_up(refused)
    except BrokenPipeError as error:  # as the signal would end it
        raise Ended(signal.SIGPIPE) from error
    except OSError as error:
        where = f"{error.filename}: " if error.filename else ""
        _give_up(Refused(f"{where}{error.strerror}", FILE_STATUS))
    except MemoryError:
        _give_up(Refused("no memory", MEMORY_STATUS))
    except RuntimeError as error:  # the one of a thread that can't begin
        if "thread" not in str(error):
            raise
        _give_up(Refused("no memory for a thread", MEMORY_STATUS))


def _keep_what_was_found():
    """Prints what was found before the tool is interrupted, and says how to go on."""
    with contextlib.suppress(OSError, AttributeError):
        sys.stdout.flush()
    if Tool.when_ended:
        Tool.when_ended()


def _give_up(refused):
    """Ends a tool, with one line that says why, unless it was printed already."""
    if refused.is_told:
        say(refused.message.rstrip("\n") + "\n")
    elif refused.message is not None:
        tell(refused.message)
    for hint in refused.hints:
        tell(f"hint: {hint}")
    sys.stdout = None  # what stands there unwritten is not tried again
    sys.exit(refused.status)
