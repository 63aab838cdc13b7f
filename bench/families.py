"""The families of plans: what is drawn, and how. The same name and seed give the same plan.

relay    ground stations, relays and landers at the Moon or at Mars; one question from a lander to the control centre
walker   satellites on circular orbits with links to their neighbours, and ground stations
grid     a square grid without light time, whose windows are all open at one time: nearly all routes tie
dense    all nodes see each other, without light time, in windows in no order
line     parallel contacts to one node, and two from there
sparse   pairs of nodes by lot, in windows by lot
spread   contacts among many nodes, one node for each twenty contacts; each link has at most four contacts in a day,
         one in each quarter of it, and a light time for each quarter
hub      all contacts from node 1, to four receivers; each receiver has a quarter of them, minute by minute, and a light
         time for each minute
parallel all contacts from node 1 to node 2, minute by minute, with one light time
chain    two contacts from each node to the next, the second five seconds later: routes have half as many hops as there are
         contacts

Plans of spread and hub have as many ranges as contacts. The lines of these and of parallel stand in no order.
"""
import math
import random

from plan import BEGINS, DAY, Plan

# ---- Relays -----------------------------------------------------------------------------------------------------


def windows(dice, period, length, jitter, begin, horizon, is_up=lambda second: True):
    """Spans of about that length, one each period, if their middle is up."""
    second = begin - period
    while second < horizon:
        start = second + dice.uniform(-jitter, jitter)
        end = start + length * dice.uniform(0.7, 1.1)
        if end > 0 and is_up((start + end) / 2):
            yield max(0, int(start)), int(end)
        second += period


def sees_far_body(dice, middle):
    """When a station sees the far body: 9 to 11 hours a day."""
    half = dice.uniform(4.5, 5.5) * 3600
    return lambda second: min((second - middle) % DAY, DAY - (second - middle) % DAY) < half


def station_links(plan, station, middle, relays, is_mars, days):
    is_up = sees_far_body(plan.dice, middle)
    for relay in relays:
        if is_mars:
            for day in range(days + 1):
                light = round(900 + 320 * math.sin(2 * math.pi * day / 780))
                plan.light(day * DAY, (day + 1) * DAY, station, relay, light)
        else:
            plan.light(0, (days + 1) * DAY, station, relay, 1)
        period = (7000 if is_mars else 43200) + 150 * (relay - 100)
        begin = plan.dice.uniform(0, period)
        for start, end in windows(plan.dice, period, period * 0.6, 60, begin, days * DAY, is_up):
            plan.both(start, end, station, relay, 2000, 250000)


def lander_links(plan, relay, lander, is_mars, days):
    plan.light(0, (days + 1) * DAY, relay, lander, 0)
    if is_mars:  # about two passes in a row are high enough
        period, length = 7100 + 170 * (relay - 100) + 13 * (lander - 1000), 700
        middle = plan.dice.uniform(0, DAY)
        is_up = lambda second: (second - middle) % 44000 < 15000
    else:
        period, length, is_up = 43200 + 900 * (relay - 100), 25000, lambda second: True
    begin = plan.dice.uniform(0, period)
    for start, end in windows(plan.dice, period, length, 120, begin, days * DAY, is_up):
        plan.both(start, end, relay, lander, 32000, 256000)


def relay_days(name, stations, relays, landers, is_mars, seed, days):
    """A plan of so many days. Node 1 is the control centre, on the ground with the stations."""
    plan = Plan(name, seed)
    plan.asked = (landers[0], 1, 0)
    for station in stations:
        plan.light(0, (days + 1) * DAY, 1, station, 0)
        for day in range(days):
            plan.both(day * DAY, (day + 1) * DAY, 1, station, 10**9, 10**9)
    for place, station in enumerate(stations):
        station_links(plan, station, DAY * (place + 0.5) / len(stations), relays, is_mars, days)
    for relay in relays:
        for lander in landers:
            lander_links(plan, relay, lander, is_mars, days)
    for place, one in enumerate(relays):
        for other in relays[place + 1 :]:
            plan.light(0, (days + 1) * DAY, one, other, 0)
            begin = plan.dice.uniform(0, 11000)
            for start, end in windows(plan.dice, 11000 + 300 * place, 1500, 300, begin, days * DAY):
                plan.both(start, end, one, other, 64000, 64000)
    for one, other in zip(landers[::2], landers[1::2]):
        plan.light(0, (days + 1) * DAY, one, other, 0)
        begin = plan.dice.uniform(0, DAY / 3)
        for start, end in windows(plan.dice, DAY / 3, 3600, 1800, begin, days * DAY):
            plan.both(start, end, one, other, 10**6, 10**6)
    return plan


def relay(name, seed, count, stations, relays, landers, is_mars):
    """As many days as it takes for so many contacts."""
    nodes = [list(range(first, first + many)) for first, many in ((11, stations), (101, relays), (1001, landers))]
    days = 1
    while True:
        plan = relay_days(name, *nodes, is_mars, seed, days)
        if len(plan.contacts) >= count:
            plan.cut(count)
            plan.drop_unused_ranges()
            return plan
        days = max(days + 1, int(days * 1.15))


# ---- Walkers ----------------------------------------------------------------------------------------------------

EARTH = 6371.0  # kilometres
ORBIT = EARTH + 780.0
RATE_OF_ORBIT = math.sqrt(398600.4 / ORBIT**3)
RATE_OF_EARTH = 7.2921e-5
SLOPE = math.radians(70.0)
HIGHEST = ORBIT * math.sin(math.radians(65))  # links across planes break above this latitude
STEP = 60  # seconds


def satellite_at(planes, each, place, second):
    plane, number = place
    node = 2 * math.pi * plane / planes
    angle = 2 * math.pi * (number / each + plane / (planes * each)) + RATE_OF_ORBIT * second
    along, across = math.cos(angle), math.sin(angle)
    east = along * math.cos(node) - across * math.sin(node) * math.cos(SLOPE)
    north = along * math.sin(node) + across * math.cos(node) * math.cos(SLOPE)
    return ORBIT * east, ORBIT * north, ORBIT * across * math.sin(SLOPE)


def station_at(station, second):
    latitude, longitude = station[0], station[1] + RATE_OF_EARTH * second
    round_axis = EARTH * math.cos(latitude)
    return round_axis * math.cos(longitude), round_axis * math.sin(longitude), EARTH * math.sin(latitude)


def is_ten_degrees_up(station, satellite):
    offset = [there - here for here, there in zip(station, satellite)]
    up = sum(part * here for part, here in zip(offset, station)) / EARTH
    return up > 0 and up * up > sum(part * part for part in offset) * 0.0302


class Sky:
    """The satellites of a Walker constellation, from node 101 on, and stations, from node 1 on."""

    def __init__(self, planes, each, stations, dice):
        self.planes, self.each = planes, each
        self.nodes = {place: 101 + at for at, place in enumerate((p, q) for p in range(planes) for q in range(each))}
        self.stations = [(math.radians(dice.uniform(-60, 68)), math.radians(dice.uniform(-180, 180))) for _ in range(stations)]
        self.links = []
        for plane, number in self.nodes:
            self.links.append(((plane, number), (plane, (number + 1) % each), False))
            self.links.append(((plane, number), ((plane + 1) % planes, number), True))

    def open_at(self, second):
        """The pairs of nodes that see each other, in a set."""
        where = {place: satellite_at(self.planes, self.each, place, second) for place in self.nodes}
        pairs = set()
        for one, other, is_across in self.links:
            if not is_across or max(abs(where[one][2]), abs(where[other][2])) <= HIGHEST:
                pairs.add((self.nodes[one], self.nodes[other]))
        for station, place in enumerate(self.stations, 1):
            here = station_at(place, second)
            pairs.update((station, node) for it, node in self.nodes.items() if is_ten_degrees_up(here, where[it]))
        return pairs


def walker(name, seed, count, planes, each, stations, light):
    """Links stand as contacts of at most one hour."""
    plan = Plan(name, seed)
    plan.asked = (1, 2, 600)
    sky, dice = Sky(planes, each, stations, plan.dice), plan.dice
    opened, second = {}, 0
    while len(plan.contacts) < count * 1.15 + 200:
        now = sky.open_at(second)
        for pair in list(opened):
            if pair not in now or second - opened[pair] >= 3600:
                plan.both(opened.pop(pair), second if pair in now else second + dice.randrange(-20, 20), *pair)
        for pair in now:
            if pair not in opened:
                opened[pair] = max(0, second + (dice.randrange(-20, 20) if second else 0))
        second += STEP
    for pair, start in opened.items():
        plan.both(start, second, *pair)
    for one, other, _ in sky.links:
        plan.light(0, second + DAY, sky.nodes[one], sky.nodes[other], light)
    for station in range(1, stations + 1):
        for node in sky.nodes.values():
            plan.light(0, second + DAY, station, node, light)
    plan.cut(count)
    plan.drop_unused_ranges()
    return plan


# ---- Others -----------------------------------------------------------------------------------------------------


def grid(name, seed, side, each):
    plan = Plan(name, seed)
    plan.asked = (1, side * side, 0)
    for row in range(side):
        for column in range(side):
            one = 1 + row * side + column
            for other in [one + side] * (row + 1 < side) + [one + 1] * (column + 1 < side):
                plan.light(0, 100000, one, other, 0)
                for start in range(each):
                    plan.both(start, 50000 + plan.dice.randrange(100), one, other)
    plan.dice.shuffle(plan.contacts)
    return plan


def dense(name, seed, nodes, each):
    """The destination can be reached late alone, so that all that comes before ties."""
    plan = Plan(name, seed)
    plan.asked = (1, nodes, 0)
    for one in range(1, nodes + 1):
        for other in range(1, nodes + 1):
            if one < other:
                plan.light(0, 10000, one, other, 0)
            if one != other:
                for start in plan.dice.sample(range(2000), each):
                    plan.contact(start, start + plan.dice.randrange(200, 4000), one, other)
    plan.contacts = [it for it in plan.contacts if it[3] != nodes or it[0] >= 1500]
    plan.dice.shuffle(plan.contacts)
    return plan


def line(name, seed, count):
    plan = Plan(name, seed)
    plan.asked = (1, 3, 0)
    top = 5000 + max(0, count - 1000) * 2
    plan.light(0, top + 4000, 1, 2, 0)
    plan.light(0, top + 4000, 2, 3, 0)
    for start in range(1, count + 1):
        plan.contact(start, top, 1, 2, 1000)
    plan.contact(top - 3000, top, 2, 3, 1000)
    plan.contact(top - 2999, top, 2, 3, 1000)
    return plan


def sparse(name, seed, count, nodes, horizon):
    """Light times of 0 to 5 seconds; some hold one way alone."""
    plan = Plan(name, seed)
    plan.asked = (1, nodes, 0)
    pairs = set()
    for _ in range(count):
        one, other = plan.dice.sample(range(1, nodes + 1), 2)
        start = plan.dice.randrange(horizon)
        plan.contact(start, start + plan.dice.randrange(60, 1800), one, other)
        pairs.add((min(one, other), max(one, other)))
    plan.cut(count)
    for one, other in sorted(pairs):
        plan.light(0, horizon + DAY, one, other, plan.dice.randrange(6))
    for one, other in sorted(pairs)[::60]:
        if len(plan.ranges) < 20000:
            plan.ranges.append((0, horizon // 2, other, one, plan.dice.randrange(6)))
    return plan


# ---- As many ranges as contacts ---------------------------------------------------------------------------------

QUARTER = 6 * 3600
MINUTE = 60


def shape(name, seed, count, last):
    """A plan without records, whose question is between node 1 and the last."""
    plan = Plan(name, seed)
    plan.asked, plan.dice = (1, last, 0), random.Random(f"{name} {count} {seed}")
    plan.head = [f"# {name}: {count} contacts and as many ranges, seed {seed}", f"# ask 1 {last} {BEGINS}"]
    return plan


def shuffled(plan):
    plan.dice.shuffle(plan.contacts)
    plan.dice.shuffle(plan.ranges)
    return plan


def links_between(nodes, count, dice):
    """Pairs of nodes, the lesser first: a line through all nodes, and then pairs by lot."""
    links = dict.fromkeys([(node, node + 1) for node in range(1, nodes)][:count])
    while len(links) < count:
        links[tuple(sorted(dice.sample(range(1, nodes + 1), 2)))] = None
    return list(links)


def spread(name, seed, count):
    """From 32 to 20000 contacts."""
    nodes = max(8, count // 20)
    plan = shape(name, seed, count, nodes)
    dice = plan.dice
    links = links_between(nodes, (count + 3) // 4, dice)
    for number in range(count):
        quarter, place = divmod(number, len(links))
        one, other = links[place]
        begin = quarter * QUARTER
        plan.light(begin, begin + QUARTER, one, other, dice.randrange(1, 20))
        start = begin + dice.randrange(QUARTER - 3600)
        sender, receiver = (one, other) if dice.random() < 0.5 else (other, one)
        plan.contact(start, start + dice.randrange(300, 3600), sender, receiver)
    return shuffled(plan)


def hub(name, seed, count):
    receivers = range(2, 6)
    plan = shape(name, seed, count, receivers[-1])
    for number in range(count):
        minute, place = divmod(number, len(receivers))
        begin = minute * MINUTE
        plan.light(begin, begin + MINUTE, 1, receivers[place], plan.dice.randrange(1, 20))
        start = begin + plan.dice.randrange(MINUTE // 2)
        plan.contact(start, start + plan.dice.randrange(10, MINUTE), 1, receivers[place])
    return shuffled(plan)


def parallel(name, seed, count):
    plan = shape(name, seed, count, 2)
    plan.head[0] = f"# {name}: {count} contacts, seed {seed}"
    plan.light(0, count * MINUTE, 1, 2, 1)
    for minute in range(count):
        start = minute * MINUTE
        plan.contact(start, start + plan.dice.randrange(10, MINUTE), 1, 2)
    return shuffled(plan)


def chain(name, seed, count):
    hops = count // 2
    plan = shape(name, seed, count, hops + 1)
    plan.head[0] = f"# {name}: {2 * hops} contacts, {hops} hops"
    end = 10 * hops + DAY
    for hop in range(hops):
        plan.light(0, end, hop + 1, hop + 2, 1)
        for delay in (0, 5):
            plan.contact(10 * hop + delay, end, hop + 1, hop + 2)
    return plan
