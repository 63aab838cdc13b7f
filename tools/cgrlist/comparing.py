"""Two plans compared: their contacts by nodes and time, since one more contact renumbers all others, and their routes."""

from dataclasses import dataclass

from .routes import Route


@dataclass(frozen=True)
class Change:
    """What came, went, moved or changed: the old one and the new one, None if there is none."""

    old: "Contact | Route | None"
    new: "Contact | Route | None"

    @property
    def kind(self):
        """The change in one word: a contact has moved if it starts at another time."""
        if self.old is None:
            return "came"
        if self.new is None:
            return "went"
        return "moved" if isinstance(self.old, Route) or self.old.start != self.new.start else "changed"

    @property
    def later(self):
        """How many seconds later it starts or delivers; None if it came or went."""
        if self.old is None or self.new is None:
            return None
        if isinstance(self.old, Route):
            return self.new.delivery - self.old.delivery
        return self.new.start - self.old.start


def contact_key(contact):
    """What a contact is by, whatever its number."""
    return contact.start, contact.sender, contact.receiver


def same_contacts(old, new):
    """The contacts of two plans that are the same, as pairs: those with equal nodes and start; and of the others of a link,
    from the nearest on, those that are no further apart than the longer one is long.
    """
    starts = {contact_key(it): it for it in new.contacts}
    same = [(it, starts[contact_key(it)]) for it in old.contacts if contact_key(it) in starts]
    same_old, same_new = ({it.number for it in side} for side in zip(*same)) if same else (set(), set())
    left = {}  # of each link, the contacts that are left of the new plan
    for it in new.contacts:
        if it.number not in same_new:
            left.setdefault(it.link, []).append(it)
    near = [(abs(it.start - other.start), it.number, other.number, it, other) for it in old.contacts if it.number not in same_old
            for other in left.get(it.link, ()) if _are_near(it, other)]
    for *_, it, other in sorted(near):
        if it.number not in same_old and other.number not in same_new:
            same.append((it, other))
            same_old.add(it.number)
            same_new.add(other.number)
    return same


def _are_near(one, other):
    """Whether two contacts of a link overlap, or are no further apart than the longer one is long."""
    gap = max(one.start, other.start) - min(one.end, other.end)
    return gap <= max(one.end - one.start, other.end - other.start)


def contact_changes(old, new, same=None):
    """The contacts of two plans that came or went, or have another start, end, rate or light time. Those that are the same
    may be given, as `same_contacts` gives them.
    """
    same = same_contacts(old, new) if same is None else same
    by_new, by_old = {other.number: it for it, other in same}, {it.number for it, _ in same}
    changes = [Change(by_new.get(it.number), it) for it in new.contacts]
    kept = [it for it in changes if it.old is None or _told(it.old) != _told(it.new)]
    return kept + [Change(it, None) for it in old.contacts if it.number not in by_old]


def _told(contact):
    return contact.start, contact.end, contact.rate, contact.light


def route_changes(old, new, old_routes, new_routes, same=None):
    """The routes of two lists, over an old plan and a new one, that came, went, or have another rank or delivery."""
    same = same_contacts(old, new) if same is None else same
    numbers = {other.number: it.number for it, other in same}
    olds = {it.contacts: old.with_nodes(it) for it in old_routes}
    news = {tuple(numbers.get(at, -at) for at in it.contacts): new.with_nodes(it) for it in new_routes}
    told = lambda it: (it.rank, it.delivery)
    kept = [Change(olds.get(key), it) for key, it in news.items() if key not in olds or told(olds[key]) != told(it)]
    return kept + [Change(it, None) for key, it in olds.items() if key not in news]
