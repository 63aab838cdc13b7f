"""A contact plan, and the spellings of its text."""
import calendar
import random
import re
import time

TIME_TEXT = "%Y/%m/%d-%H:%M:%S"
BEGINS = "2030/01/01-00:00:00"
DAY = 86400


def second_of(text: str) -> int:
    return calendar.timegm(time.strptime(text, TIME_TEXT))


def text_of(second: int) -> str:
    return time.strftime(TIME_TEXT, time.gmtime(second))


def relative(second: int, _) -> str:
    return f"+{second}"


def absolute(second: int, reference: int) -> str:
    return text_of(reference + second)


def in_columns(words):
    return " ".join(word.rjust(width) for word, width in zip(words, (1, 7, 8, 8, 6, 6, 8)))


# How a time is spelled, and how a line is made of its words. Of `shuffled`, the lines are in no order.
SPELLINGS = {
    "relative": (relative, " ".join),
    "shuffled": (relative, " ".join),
    "absolute": (absolute, " ".join),
    "aligned": (relative, in_columns),
    "trailing": (relative, lambda words: " ".join(words) + " "),
    "tabs": (relative, "\t".join),
}


def respelled(text: str, spelling: str) -> str:
    """A plan's text in another spelling: its lines that add have relative times, one space between words."""
    time_text, line_of = SPELLINGS[spelling]
    head = [line for line in text.split("\n") if line and not line.startswith("a ")]
    reference = second_of(next(line for line in head if line.startswith("@"))[2:])
    records = re.findall(r"^(a) (\w+) \+(\d+) \+(\d+) (\d+) (\d+) (\d+)$", text, re.MULTILINE)
    if spelling == "shuffled":
        random.Random(1).shuffle(records)
    for add, kind, start, end, *numbers in records:
        head.append(line_of([add, kind, time_text(int(start), reference), time_text(int(end), reference), *numbers]))
    return "".join(f"{line}\n" for line in head)


class Plan:
    """The records of a plan, in seconds after its reference, and what is asked of it."""

    def __init__(self, name, seed):
        self.head, self.dice = [f"# {name}"], random.Random(f"{name}/{seed}")
        self.contacts = []  # start, end, sender, receiver, rate
        self.ranges = []  # start, end, one, other, light
        self.asked = (1, 2, 0)  # from, to, second

    def contact(self, start, end, sender, receiver, rate=125000):
        if int(end) > int(start):
            self.contacts.append((int(start), int(end), sender, receiver, rate))

    def both(self, start, end, one, other, rate=125000, rate_back=125000):
        self.contact(start, end, one, other, rate)
        self.contact(start, end, other, one, rate_back)

    def light(self, start, end, one, other, light):
        """Holds both ways."""
        self.ranges.append((start, end, min(one, other), max(one, other), light))

    def cut(self, count):
        """Keeps the first contacts by start, and of those with one start, sender and receiver the one that ends first."""
        self.contacts.sort(key=lambda it: (it[0], it[2], it[3], it[1]))
        kept = {}
        for contact in self.contacts:
            kept.setdefault((contact[0], *contact[2:4]), contact)
        self.contacts = list(kept.values())[:count]

    def drop_unused_ranges(self):
        last = max(it[0] for it in self.contacts)
        pairs = {tuple(sorted(it[2:4])) for it in self.contacts}
        self.ranges = [it for it in self.ranges if it[0] <= last and tuple(sorted(it[2:4])) in pairs]

    def text(self, ranges_last=False):
        ranges = [f"a range +{start} +{end} {one} {other} {light}" for start, end, one, other, light in self.ranges]
        contacts = [f"a contact +{start} +{end} {one} {other} {rate}" for start, end, one, other, rate in self.contacts]
        lines = contacts + ranges if ranges_last else ranges + contacts
        return "\n".join([*self.head, f"@ {BEGINS}", *lines, ""])
