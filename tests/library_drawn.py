"""Calls of the C library over small drawn plans, and what follows for them from the listing of all routes."""

from drawn import Draws, draw_pair, drawn_case, with_another_digit
from oracle import NO_LIMIT, Listing, time_text

DRAWN = 120
NEVER = time_text(0)
UNREACHED = f"status 1 delivery {NEVER} hops 0 entry 0 until {NEVER}"


class Script:
    """Calls with what they must return, and the files that they name."""

    def __init__(self, room):
        self.room, self.calls, self.wanted = room, [], []

    def say(self, call, *wanted):
        self.calls.append(call)
        self.wanted.append("".join(f"{it}\n" for it in (f"> {call}", *wanted)))

    def file(self, text):
        """The name of a new file with this text."""
        name = f"text{len(self.calls)}"
        self.room.file(name, text)
        return name


def words_of(request):
    """The request as calls take it. Now and then it is spelled with 0 for no limit on hops."""
    hops = 0 if request.hops == NO_LIMIT and request.at % 2 else request.hops
    avoided = ",".join(map(str, request.avoided)) or "-"
    return f"{request.source} {request.target} {request.at} {request.margin} {hops} {avoided}"


def page_told(listing, start, count):
    """What a page from a place on returns."""
    routes = listing.routes[start : start + count]
    lines = [f"{rank} {route.line()}" for rank, route in enumerate(routes, 1)]
    return ["OK", *lines, "more" if len(listing.routes) > start + count else "end"]


def make_plan(script, case, from_text):
    if from_text:
        script.say(f"plan_read {script.file(case.drawing.text())}", "OK")
        return
    refused = {"EmptyWindow": "EMPTY_WINDOW", "SelfPair": "SELF_PAIR", "DuplicateContact": "DUPLICATE_CONTACT", "RangeOverlap": "RANGE_OVERLAP"}
    for step, answer in case.drawing.steps:
        name, *values = step.split()
        call = {"new": "plan_new", "contact": "plan_add_contact", "range": "plan_add_range", "drop-contact": "plan_delete_contact"}[name]
        wanted = ["OK", f"number {answer}"] if answer.isdigit() else [refused.get(answer, "OK")]
        script.say(" ".join([call, *values]), *wanted)


def say_counts(script, plan):
    dark = [it for it in plan.contacts.values() if plan.light(it) is None]
    script.say("plan_counts", "OK", f"contacts {len(plan.contacts)}", f"ranges {len(plan.ranges)}", f"nodes {len(plan.nodes())}",
               f"without light {len(dark)}", f"digest {plan.digest()}", f"greatest {plan.greatest}")


def say_renumbered(script, plan, second):
    """A copy of what ends after a second, with the numbers from 1 on."""
    kept = [number for number, it in sorted(plan.contacts.items()) if it.end > second]
    script.say(f"plan_renumber 3 {second}", "OK", " ".join(map(str, ["numbers", *kept])))
    script.say("use 3")
    script.say("plan_greatest", "OK", f"greatest {len(kept)}")
    script.say("use 0")


def say_contact(script, plan, number):
    it = plan.contacts.get(number)
    if it is None:
        script.say(f"plan_contact {number}", "NO")
        return
    light = plan.light(it)
    told = f"contact {number} from {it.sender} to {it.receiver} start {time_text(it.start)} end {time_text(it.end)} rate {it.rate}"
    script.say(f"plan_contact {number}", "OK", told + ("" if light is None else f" light {light}"))


def say_routes(script, draws, listing):
    """The best route, the first ones, and what their contacts do."""
    asked, routes = words_of(listing.request), listing.routes
    script.say(f"best {asked}", *(["OK", routes[0].line()] if routes else ["NO"]))
    reach = f"status 0 {routes[0].line().partition(' contacts')[0]}" if routes else UNREACHED
    script.say(f"best_each {listing.request.target},0 {asked}", "OK", f"to {listing.request.target} {reach}", f"to 0 {UNREACHED.replace('1', '17', 1)}")
    for count in (1, draws.below(5), 10000):
        script.say(f"first {count} {asked}", *page_told(listing, 0, count))
    for route in routes[:3]:
        script.say(f"follow {','.join(map(str, route.contacts))} {asked}", "OK", route.line())


def say_listing(script, draws, listing):
    """A walk through the list: pages, pages taken back, and session texts, one of which the walk passes through."""
    asked, place, before = words_of(listing.request), 0, []
    script.say(f"listing_open {asked}", "OK")
    for turn in range(6):
        count = draws.below(4)
        if before and draws.once_in(4):
            place = before.pop()
            script.say("listing_back", "OK")
        else:
            script.say(f"listing_next {count}", *page_told(listing, place, count))
            given = min(count, len(listing.routes) - place)
            before += [place] if given else []
            place += given
        more = "more" if place < len(listing.routes) else "end"
        script.say("listing_place", "OK", f"given {place} {more} {'back' if before else 'first'}")
        script.say("listing_text", "OK", listing.text(place).rstrip("\n"))
        if turn == 2:
            script.say("listing_close")
            version = 1 if not listing.request.is_limited and draws.once_in(2) else 2
            script.say(f"listing_load {script.file(listing.text(place, version))}", "OK")
            before = []
    script.say("listing_close")


def say_texts(script, draws, listing):
    """Whether texts are those of a place."""
    text = listing.text(draws.below(len(listing.routes) + 1))
    other = with_another_digit(draws, text)
    for one in (text, other):
        script.say(f"verify {script.file(one)}", "OK" if one in listing.texts() else "NO")


def say_change(script, case):
    """A contact is deleted, and the same is asked again."""
    plan = case.drawing.plan
    for number in sorted(plan.contacts)[:1]:
        it = plan.contacts[number]
        case.drawing.drop_contact(number)
        script.say(f"plan_delete_contact {it.sender} {it.receiver} {it.start}", "OK", f"number {number}")


def script_of(room, case, from_text):
    script, draws, plan = Script(room), Draws(f"library, {case.title}"), case.drawing.plan
    make_plan(script, case, from_text)
    nodes = max(plan.nodes() | {2})
    for turn in range(2):
        say_counts(script, plan)
        script.say("plan_canonical", "OK", plan.canonical().rstrip("\n"))
        say_contact(script, plan, draws.below(18))
        say_renumbered(script, plan, draws.one_of([0, *(it.end for it in plan.contacts.values())]) if turn else 0)
        script.say("plan_nodes", "OK", " ".join(map(str, ["nodes", *sorted(plan.nodes())])))
        listings = [Listing(plan, it) for it in (case.listing.request, draw_pair(draws, nodes))]
        for listing in listings:
            say_routes(script, draws, listing)
        say_listing(script, draws, listings[0])
        say_texts(script, draws, listings[0])
        if not turn:
            say_change(script, case)
    return script


def drawn_texts(room):
    """The title of each drawn plan, the calls over it, and the transcript that they must give."""
    for seed in range(DRAWN):
        case = drawn_case(seed)
        script = script_of(room, case, seed % 2 == 0)
        yield f"drawn plan, {case.title}", "".join(f"{it}\n" for it in script.calls), "".join(script.wanted)
