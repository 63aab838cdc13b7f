"""Tests what the C library answers: what the program prints, also after changes on both sides, and over small drawn plans what
follows from the listing of all routes of tests/oracle.py."""

import lzma
import os
import random
import re
from hashlib import sha256

from checking import TOP
from library_drawn import drawn_texts

SEEDS = range(1, 3)  # of drawn requests over larger plans


def plans_at(room):
    """The larger plans by their names: paths, nodes, and the first and last second that is asked for."""
    room.file("iridium", lzma.open(f"{TOP}/bench/real/iridium.txt.xz").read())
    for name, path in (("relay", f"{TOP}/examples/relay.txt"), ("iridium", f"{room.path}/iridium")):
        listed = room.answers([f"plan_read {path}", "plan_counts"])[1]
        count = int(re.search(r"greatest (\d+)", listed)[1])
        found = room.answers([f"plan_read {path}", *(f"plan_contact {it}" for it in range(1, count + 1))])[1:]
        contacts = [re.findall(r"from (\d+) to (\d+) start (\S+)", it)[0] for it in found if it.startswith("OK")]
        nodes = sorted({int(it) for contact in contacts for it in contact[:2]})
        yield name, path, nodes, contacts


def drawn_requests(draws, nodes, contacts, count):
    """Requests that are drawn: the words of calls, the line of `many`, and the words of `first`."""
    for _ in range(count):
        one, other = draws.sample(nodes, 2)
        margin, hops = draws.choice([0, 0, 1000, 1000000]), draws.choice([20000, 20000, 3, 6])
        rest = [it for it in nodes if it not in (one, other)]
        avoided = ",".join(map(str, sorted(draws.sample(rest, draws.choice([0, 0, 1, 2])))))
        yield f"{one} {other} {draws.choice(contacts)[2]} {margin} {hops}{avoided and f' {avoided}'}"


def first_words(request):
    """The words of `first` for a line of `many`."""
    one, other, at, margin, hops, *avoided = request.split()
    words = f"--from {one} --to {other} --at {at} --margin-ppm {margin} --max-hops {hops}"
    return words + "".join(f" --avoid {it}" for it in avoided)


def by_requests(text):
    """The answers of `many` or of `follow`, in a list."""
    return re.split(r"^(?:request|list) .*\n", text, flags=re.M)[1:]


def without_rank(text):
    return re.sub(r"^\d+ (?=delivery)", "", text, flags=re.M)


def best_of(report):
    """What `best` must return, by the report of one route or more."""
    first, _, _ = report.partition("\n")
    return "NO\n" if first == "end" else f"OK\n{without_rank(first)}\n"


def beside_many(room, path, text, requests):
    """What `best` and `first` return and what they must, by `many`."""
    wanted, calls = [], [f"plan_read {path}"]
    for count in (1, 7):
        answers = by_requests(room.asked(f"many --count {count}", plan=text, requests="".join(f"{it}\n" for it in requests)))
        wanted += [f"OK\n{it}" for it in answers]
        calls += [f"first {count} {it}" for it in requests]
    wanted += [best_of(it.partition("\n")[2]) for it in wanted[: len(requests)]]
    calls += [f"best {it}" for it in requests]
    return wanted, room.answers(calls)[1:]


def drawn_lists(draws, answers, contacts):
    """Lists of contacts: those of routes, some without one of them, and others."""
    for answer in answers:
        numbers = re.findall(r"\d+", answer.partition(" contacts ")[2].partition("\n")[0])
        if len(numbers) > 1 and draws.random() < 0.5:
            numbers.pop(draws.randrange(len(numbers)))
        yield ",".join(numbers or [str(draws.randrange(1, len(contacts) + 2))])


def as_explained(followed, hops):
    """What `follow` prints of a list, by what the calls return."""
    lines = re.sub(r"^hop (\d+) contact (\d+) from (\d+) to (\d+)", r"hop \1 contact \2 from \3 to \4", hops.partition("\n")[2], flags=re.M)
    return lines + followed.partition("\n")[2]


def beside_follow(room, path, text, requests, draws, contacts):
    """What `follow` and `hops` return and what they must, by the program."""
    answers = room.answers([f"plan_read {path}", *(f"best {it}" for it in requests)])[1:]
    lists = list(drawn_lists(draws, answers, contacts))
    lines = [f"{numbers} {request}" for numbers, request in zip(lists, requests)]
    wanted = by_requests(room.asked("follow", plan=text, lists="".join(f"{it}\n" for it in lines)))
    given = room.answers([f"plan_read {path}", *(f"{call} {it}" for it in lines for call in ("follow", "hops"))])[1:]
    return wanted, [as_explained(*pair) for pair in zip(given[::2], given[1::2])]


def beside_pages(room, path, text, request):
    """A listing by pages and back, and its session texts, beside `first`, `next` and `verify`."""
    report = room.asked(f"first {first_words(request)} --count 9 --session-out {room.path}/nine", plan=text)
    pages = room.answers([f"plan_read {path}", f"listing_open {request}", "listing_next 4", "listing_next 5", "listing_text mine",
                          "listing_back", "listing_next 5", "verify mine", "verify nine"])
    after = room.answers([f"plan_read {path}", "listing_load nine", "listing_place", "listing_next 3"])[3]
    shown = room.asked(f"next --session {room.path}/mine --count 3", plan=text)
    os.remove(f"{room.path}/nine")
    ranked = [re.sub(r"^\d+ |^(more|end|OK)\n", "", it, flags=re.M) for it in (report, pages[2] + pages[3], shown, after)]
    again = pages[2] if pages[3] == "OK\nend\n" else pages[3]  # an empty page isn't one to take back
    return ((ranked[0], again, "OK\n", "OK\n", ranked[2], "yes\n"),
            (ranked[1], pages[6], pages[7], pages[8], ranked[3], room.asked(f"verify --session {room.path}/mine", plan=text)))


def changes_of(draws, contacts):
    """Calls that change a plan, and the lines that do the same."""
    for one, other, start in draws.sample(contacts, min(12, len(contacts))):
        if draws.random() < 0.5:
            yield f"plan_delete_contact {one} {other} {start}", f"d contact {start} {one} {other}\n"
        else:
            yield (f"plan_add_contact {one} {other} 1893456001 1924992000 9",
                   f"a contact 2030/01/01-00:00:01 2031/01/01-00:00:00 {one} {other} 9\n")


def beside_changes(room, path, text, requests, draws, contacts):
    """A plan that is changed by calls between questions, beside the plan with the lines of those changes that were taken. Its
    canonical text has its digest."""
    calls, lines = zip(*changes_of(draws, contacts))
    script = [f"plan_read {path}", f"best {requests[0]}"]
    for change, request in zip(calls, requests):
        script += [change, f"best {request}"]
    script += [*(f"first 3 {it}" for it in requests), "plan_counts", "plan_text written", "plan_canonical canonical",
               "plan_copy 1", "use 1", "plan_counts", "use 2", "plan_read written", "plan_counts"]
    *given, _, _, _, _, copied, _, _, read = room.answers(script)
    taken = [line for line, answer in zip(lines, given[2 : 2 + 2 * len(calls) : 2]) if answer.startswith("OK")]
    changed = f"{text}\n{''.join(taken)}"
    wanted = by_requests(room.asked("many --count 3", plan=changed, requests="".join(f"{it}\n" for it in requests)))
    counts = room.asked("check", plan=changed)
    found = given[-1 - len(requests) :]
    digest = re.search("digest (.*)", found[-1])[1]
    return [len(taken) > 0, *(f"OK\n{it}" for it in wanted), f"OK\n{counts}", found[-1], found[-1], counts, digest], [
        len(taken) > 0, *found[:-1], re.sub("greatest .*\n", "", found[-1]), copied, read, room.asked("check", plan=room.read("written")),
        sha256(room.read("canonical").encode()).hexdigest()]


def is_alike(pair):
    """Where two lists differ, in a text, which is empty if they are alike."""
    wanted, found = pair
    differing = [f"wanted {one!r}, found {other!r}" for one, other in zip(wanted, found) if one != other]
    return "\n".join(differing[:3]) or ("" if len(wanted) == len(found) else f"{len(wanted)} answers, found {len(found)}")


def larger_plans(room):
    for name, path, nodes, contacts in plans_at(room):
        with open(path, encoding="ascii") as file:
            text = file.read().rstrip("\n")
        greatest = len(re.findall("^a contact", text, re.M))
        yield f"{name}: the counts and the digest", f"OK\n{room.asked('check', plan=text)}greatest {greatest}\n", lambda: (
            room.answers([f"plan_read {path}", "plan_counts"])[1])
        for seed in SEEDS:
            draws = random.Random(f"{name} {seed}")
            requests = list(drawn_requests(draws, nodes, contacts, 40))
            yield f"{name}: as many, seed {seed}", "", lambda: is_alike(beside_many(room, path, text, requests))
            yield f"{name}: as follow, seed {seed}", "", lambda: is_alike(
                beside_follow(room, path, text, requests, random.Random(seed), contacts))
            yield f"{name}: after changes, seed {seed}", "", lambda: is_alike(
                beside_changes(room, path, text, requests, random.Random(seed), contacts))
            for request in requests[:2]:
                yield f"{name}: by pages, {request}", "", lambda: is_alike(beside_pages(room, path, text, request))


def drawn_plans(room):
    for title, calls, wanted in drawn_texts(room):
        yield title, wanted, room.transcript, calls, "--kept"
