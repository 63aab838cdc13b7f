"""The parts that ask for lists of routes by `first`."""
import os
import tempfile

from plans import plan_of
from running import agree, in_turns, peak_kb, run, with_memory
from tables import heads_of, mean, megabytes, print_head, print_row, ratio, shown, time_cells

LIMITS = [("relay-mars-2000", 6), ("relay-mars-2000", 4), ("walker-66-5000", 9), ("grid-8", 14), ("dense-60", 2)]
LIMITS += [("sparse-2000", 12), ("iridium-1-2", 6), ("cube-3-8", 9)]
LONG = ["relay-mars-500", "relay-moon-2000", "relay-mars-20000", "walker-66-5000", "grid-8", "line-1000"]
LONG += ["iridium-1-2", "cube-6-10", "cube-3-8"]
PAGED = ["relay-mars-2000", "walker-66-5000", "grid-8", "sparse-2000"]
REMEMBERED = ["relay-mars-2000", "relay-mars-20000", "walker-66-5000", "grid-8", "sparse-2000", "iridium-1-2"]
REMEMBERED += ["cube-1-2", "cube-3-8"]
PAGES = [10, 100]
ROUTES = 1000


def counted(bench, questions, counts):
    """A row for each question and count, with the instructions of both programs in millions."""
    asked = [(question, count) for question in questions for count in counts]
    words = [program.words(question.words(count)) for question, count in asked for program in bench.programs]
    found = bench.counted.count_all(words, bench.given)
    for (question, count), mine, theirs in zip(asked, found[::2], found[1::2]):
        is_alike = bench.check(mine[1] == theirs[1] == 0 and mine[2] == theirs[2])
        row = {"name": question.name, "asked": question.words(count), "count": count, "alike": is_alike}
        bench.rows.append({**row, "millions": [mine[0], theirs[0]]})
        bench.check(None not in (mine[0], theirs[0]))
    return bench.rows


def cell(row, figure="millions"):
    return shown(ratio(row[figure])) if row["alike"] else "DIFFERENT"


def print_ratios(title, rows, figure="millions"):
    """A row for each question, a column for each count, and the geometric mean."""
    names, counts = (list(dict.fromkeys(row[key] for row in rows)) for key in ("name", "count"))
    print_head(title, ["Plan", *map(str, counts)])
    for name in names:
        print_row([name, *(cell(row, figure) for row in rows if row["name"] == name)])
    if len(names) > 1:
        means = [mean(ratio(row[figure]) for row in rows if row["count"] == count) for count in counts]
        print_row(["geometric mean", *map(shown, means)])


def figures(bench):
    repeats = bench.given.repeats
    rows = counted(bench, bench.questions(), bench.given.counts or [1, 10, 100, 1000])
    print_ratios("Instructions, as multiples of the yardstick's.", rows)
    for row in rows if repeats else []:
        row["processor"] = [it.best("processor") for it in in_turns(bench.programs, row["asked"], bench.given)]
    if repeats:
        title = f"Processor time, as multiples of the yardstick's, the best of {repeats} runs in turns."
        print_ratios(title, rows, "processor")


def instructions(bench):
    rows = counted(bench, bench.questions(), bench.given.counts or [1, 1000])
    print_head("Instructions in millions.", ["Plan", "Routes", *(it.name for it in bench.programs), "ratio"])
    for row in rows:
        print_row([row["name"], row["count"], *(shown(it, 1) for it in row["millions"]), cell(row)])


def limits(bench):
    only = bench.given.only
    own = [(name, hops) for name, hops in LIMITS if not only or {name, plan_of(name)} & {*only}]
    asked = [it.with_words(["--max-hops", str(hops)]) for name, hops in own for it in bench.asked([name])]
    rows = counted(bench, asked, bench.given.counts or [ROUTES])
    print_ratios("With a limit on hops, instructions as multiples of the yardstick's.", rows)


def long_lists(bench):
    rows = counted(bench, bench.questions(LONG), [10000])
    print_ratios("Instructions for 10000 routes, as multiples of the yardstick's.", rows)


def ending(turns):
    """How many routes came, and how the list ended."""
    lines = next((it.last().text.decode("ascii", "replace").splitlines() for it in turns if it.is_good()), [])
    return [len(lines) - 1, lines[-1]] if lines else ["-", "-"]


def listing(bench):
    title = f"Times of `first` by the clock, the best of {bench.given.repeats} runs in turns."
    print_head(title, ["Plan", "Routes", "found", "ends", *heads_of(bench.programs)])
    for question in bench.questions():
        live = list(bench.programs)
        for count in bench.given.counts or [1, 10, 100, 1000, 10000]:
            turns = with_memory(live, question.words(count), bench.given)
            routes, end = ending(turns)
            end = end if bench.check(agree(turns)) else "DIFFERENT"
            print_row([question.name, count, routes, end, *time_cells(turns)])
            bench.note_turns({"plan": question.name, "count": count, "routes": routes}, turns)
            live = [it if mine.answers and mine.last().status is not None else None for it, mine in zip(live, turns)]


def memory(bench):
    counts = bench.given.counts or [1, 10000]
    heads = [head for count in counts for head in (str(count), "of", "ratio")]
    print_head("Peak memory in MB of the program and of the yardstick.", ["Plan", *heads])
    for question in bench.questions(REMEMBERED):
        cells = []
        for count in counts:
            kb = [peak_kb(it.words(question.words(count)), bench.given.most_seconds) for it in bench.programs]
            bench.check(None not in kb)
            bench.rows.append({"plan": question.name, "count": count, "peak_kb": kb})
            cells += [*map(megabytes, kb), shown(ratio(kb))]
        print_row([question.name, *cells])


def paged(bench, question, size, folder):
    """The instructions of pages of that size in millions, and their routes, one for each line."""
    session, text, total = None, b"", 0
    for place in range(0, ROUTES, size):
        further = os.path.join(folder, f"{size}-{place}")
        following = ["next", "--plan", question.path, "--session", session, "--count", str(size)]
        asked = following if session else question.words(size)
        asked += ["--session-out", further + ".counted"]
        total += bench.count(asked) or 0
        answer = run(bench.program.words([*asked[:-1], further]), bench.given.most_seconds)
        bench.check(answer.status == 0)
        text, session = text + answer.text, further
        if answer.text.endswith(b"end\n"):
            break
    return total, [line for line in text.splitlines() if line != b"more"]


def pages(bench):
    """The session's text is written after the last page, too."""
    title = f"Instructions of {ROUTES} routes in pages, each by a run of its own, as multiples of one run."
    print_head(title, ["Plan", *(f"of {size}" for size in PAGES)])
    for question in bench.questions(PAGED):
        whole = bench.count(question.words(ROUTES))
        listed = run(bench.program.words(question.words(ROUTES)), bench.given.most_seconds).text
        cells = []
        for size in PAGES:
            with tempfile.TemporaryDirectory(prefix="pages-") as folder:
                total, lines = paged(bench, question, size, folder)
            is_same = bench.check(lines == [line for line in listed.splitlines() if line != b"more"])
            bench.rows.append({"plan": question.name, "page": size, "millions": total, "once": whole})
            cells.append(shown(ratio((total, whole))) if is_same else "DIFFERENT")
        print_row([question.name, *cells])
