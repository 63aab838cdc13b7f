"""Runs of programs: their time, memory, instructions and reports, by one or in turns."""
import concurrent.futures
import contextlib
import hashlib
import json
import os
import re
import shlex
import subprocess
import sys
import tempfile
import threading
import time
from typing import NamedTuple, Optional

TOP = os.path.dirname(os.path.dirname(os.path.abspath(__file__)))
GNU_TIME = "/usr/bin/time"
TOLD = re.compile(rb"Collected : (\d+)")


class Program:
    """A program to run, with words that come after those of each question."""

    def __init__(self, command):
        self.path, *self.further = shlex.split(command)
        self.path = os.path.abspath(self.path)
        self.name = os.path.basename(self.path)
        if not os.access(self.path, os.X_OK):
            raise SystemExit(f"{sys.argv[0]}: there is no program {self.path}")

    def words(self, question):
        return [self.path, *question, *self.further]


class Answer(NamedTuple):
    """How a run ended: its seconds by the clock and of the processor, its status (None: stopped), and its text."""

    seconds: float
    processor: float
    status: Optional[int]
    text: bytes
    peak_kb: int


class Pieces:
    """A file that is given on standard input, by so many bytes at a time."""

    def __init__(self, path, size):
        self.words = ["dd", f"if={path}", f"bs={size}", "status=none"]

    def __enter__(self):
        self.giver = subprocess.Popen(self.words, stdin=subprocess.DEVNULL, stdout=subprocess.PIPE)
        return self.giver.stdout

    def __exit__(self, *_):
        self.giver.stdout.close()
        self.giver.wait()


def run(words, most_seconds, given=None) -> Answer:
    """Runs the words once, and stops them after so many seconds. What is given on standard input are pieces."""
    with tempfile.TemporaryFile() as out, given or contextlib.nullcontext(subprocess.DEVNULL) as source:
        begin = time.perf_counter()
        child = subprocess.Popen(words, stdin=source, stdout=out, stderr=subprocess.DEVNULL)
        guard = threading.Timer(most_seconds, child.kill)
        guard.start()
        _, ending, used = os.wait4(child.pid, 0)
        seconds = time.perf_counter() - begin
        guard.cancel()
        child.returncode = os.waitstatus_to_exitcode(ending)
        status = child.returncode if child.returncode >= 0 else None
        out.seek(0)
        return Answer(seconds, used.ru_utime + used.ru_stime, status, out.read(), used.ru_maxrss)


def peak_kb(words, most_seconds, given=None) -> Optional[int]:
    """The greatest memory of a run in kilobytes. GNU time starts it from a small process: the kernel counts the memory
    of the process that starts a program as the program's own, so wait4 alone answers no less than this script takes."""
    if not os.access(GNU_TIME, os.X_OK):
        return run(words, most_seconds, given).peak_kb
    with tempfile.NamedTemporaryFile("r") as told:
        answer = run([GNU_TIME, "-f", "%M", "-o", told.name, *words], most_seconds, given)
        lines = told.read().split()
        return int(lines[-1]) if answer.status is not None and lines else None


def instructions(words, most_seconds) -> Optional[float]:
    """The instructions of a run in millions, counted by callgrind; nothing if it was stopped or failed."""
    counted = ["valgrind", "--tool=callgrind", "--callgrind-out-file=/dev/null", *words]
    try:
        ran = subprocess.run(counted, stdin=subprocess.DEVNULL, capture_output=True, timeout=most_seconds, check=False)
    except subprocess.TimeoutExpired:
        return None
    told = TOLD.search(ran.stderr)
    return int(told[1]) / 1e6 if told and ran.returncode == 0 else None


class Turns:
    """The runs of one program over one question."""

    def __init__(self):
        self.answers, self.peak_kb = [], None

    def last(self) -> Optional[Answer]:
        return self.answers[-1] if self.answers else None

    def is_good(self):
        return bool(self.answers) and self.last().status == 0

    def best(self, figure) -> Optional[float]:
        return min((getattr(it, figure) for it in self.answers if it.status == 0), default=None)

    def told(self):
        """What the file of figures keeps."""
        status, text = (self.last().status, self.last().text) if self.answers else (None, b"")
        digest = hashlib.sha256(text).hexdigest()
        return {"seconds": self.best("seconds"), "peak_kb": self.peak_kb, "status": status, "sha256": digest}


def in_turns(programs, question, given, pieces=None) -> list[Turns]:
    """The runs of each program, which take turns; one that fails has no further ones, and None has none."""
    turns = [Turns() for _ in programs]
    for _ in range(given.repeats):
        for program, mine in zip(programs, turns):
            if program and (not mine.answers or mine.is_good()):
                mine.answers.append(run(program.words(question), given.most_seconds, pieces))
    return turns


def with_memory(programs, question, given, pieces=None) -> list[Turns]:
    """The same, with each program's memory from a further run."""
    turns = in_turns(programs, question, given, pieces)
    for program, mine in zip(programs, turns):
        if mine.is_good():
            mine.peak_kb = peak_kb(program.words(question), given.most_seconds, pieces)
    return turns


def agree(turns) -> bool:
    """Whether all that came to an end did so well, and wrote the same."""
    ended = [it.last() for it in turns if it.answers and it.last().status is not None]
    return all(it.status == 0 and it.text == ended[0].text for it in ended)


class Counted:
    """What was counted: of each run its millions of instructions, its status, and the checksum of its report."""

    def __init__(self, folder):
        os.makedirs(folder, exist_ok=True)
        self.path, self.lock = os.path.join(folder, "counted.json"), threading.Lock()
        self.runs, self.sums = {}, {}
        if os.path.exists(self.path):
            with open(self.path, encoding="ascii") as file:
                self.runs = json.load(file)

    def sum_of(self, path):
        """The checksum of a file, which is read once."""
        if path not in self.sums:
            with open(path, "rb") as file:
                self.sums[path] = hashlib.sha256(file.read()).hexdigest()
        return self.sums[path]

    def count(self, words, most_seconds):
        key = " ".join(self.sum_of(word) if os.path.isfile(word) else word for word in words)
        if key not in self.runs:
            answer = run(words, most_seconds)
            report = hashlib.sha256(answer.text).hexdigest()
            found = [instructions(words, most_seconds), answer.status, report]
            if found[0] is None:
                return found
            with self.lock:
                self.runs[key] = found
                with open(self.path, "w", encoding="ascii") as file:
                    json.dump(self.runs, file, indent=0)
        return self.runs[key]

    def count_all(self, runs, given):
        """The same of many runs, several at a time."""
        with concurrent.futures.ThreadPoolExecutor(given.jobs) as pool:
            return list(pool.map(lambda words: self.count(words, given.most_seconds), runs))
