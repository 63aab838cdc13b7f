"""Asks what wrapped.cpp asks, by tools/cgrlist/libcgrlist.py alone. Its words: the path of the library, and that of relay.txt."""

import sys
from concurrent.futures import ThreadPoolExecutor
from hashlib import sha256

from libcgrlist import Library, Refusal, request


def show(route):
    print(route.delivery, route.until, route.entry, *route.contacts)


library = Library(sys.argv[1])
with open(sys.argv[2], "rb") as file:
    plan = library.read(file.read())
asked = request(31, 1, 1893458700)
show(plan.best(asked))
listing = plan.listing(asked)
for route in listing.next(2).routes:
    show(route)
first = plan.contact(plan.first(asked, 1).routes[0].contacts[0])
print(len(plan.hops(asked, (4, 11))), plan.follow(asked, (4, 11)).fault)
print(plan.delete_contact(first.source, first.to, first.start))
show(plan.best(asked))
show(listing.next(9).routes[0])
print(f"{listing.back():d}{listing.place().given}")
copy = library.read(plan.text())
counts = copy.counts()
print(f"{copy.digest() == plan.copy().digest():d}", counts.greatest, len(list(copy.contacts())), len(list(copy.ranges())), counts.nodes,
      len(copy.canonical()))
assert sha256(copy.canonical()).digest() == copy.digest()
renewed, numbers = plan.renumber(1893480000)
reach = plan.best_each(asked, (1, 31, 0))
plan.prepare()
print(renewed.greatest(), numbers[0], len(renewed.nodes()), reach[0].delivery, reach[0].entry, reach[0].hops, reach[1].status, reach[2].status)
renewed.add_contacts([(1, 2, 3, 4, 5), (1, 2, 4, 5, 5)])
renewed.add_ranges([(1, 7001, 3, 4, 5)])
renewed.delete_number(1)
print(renewed.counts().contacts, renewed.counts().ranges)
print(f"{plan.verify(plan.listing(asked).text()):d}{plan.verify(listing.text()):d}")
several = [request(31, 1, 1893458700 + 60 * it) for it in range(200)]
alone = [(plan.best(it), plan.first(it, 3)) for it in several]
with ThreadPoolExecutor(4) as pool:  # the plan is prepared
    assert [*pool.map(lambda it: (plan.best(it), plan.first(it, 3)), several)] == alone
empty = library.new()
print(empty.add_contact(1, 2, 3, 4, 5), f"{empty.best(request(1, 2, 3)) is not None:d}")
for call, text in ((plan.load, listing.text()), (plan.add_contacts, [(7001, 7002, 3, 4, 5), (7001, 7002, 4, 4, 5)]), (library.read, b"a\n")):
    try:
        call(text)
    except Refusal as refusal:
        print(refusal.name, refusal.line)
