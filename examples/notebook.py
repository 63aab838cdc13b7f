"""A notebook's steps over a day at Mars, as a script: run it at the top of a clone, python3 examples/notebook.py.

In a notebook, `plan` and `answer` alone on the last line of a cell show themselves as a table with a picture.
"""

import sys
from concurrent.futures import ProcessPoolExecutor

sys.path.insert(0, "tools")  # not needed once the package is installed
import cgrlist
from cgrlist import time_text

plan = cgrlist.Plan.from_file("examples/relay.txt", cgrlist.Names(["31 lander", "1 control"]))
asked = plan.request("lander", "control", at="2030-01-01T00:45:00Z")

print("The two best routes, hop by hop:")
answer = plan.first(asked, count=2)
for route in answer:
    print(f"{route.rank} {plan.path_text(route.nodes)}: delivery {time_text(route.delivery)}, room {plan.room(route)}")
    for hop in route.hops:
        print(f"    contact {hop.contact}: {time_text(hop.send)} to {time_text(hop.arrive)}")

print("All routes by 16:00, as many pages as that takes:")
by = cgrlist.second_of("2030-01-01T16:00:00Z")
for route in plan.routes(asked):
    if route.delivery > by:
        break
    print(route.rank, time_text(route.delivery), *route.contacts)

print("If a contact is lost, how many minutes later:")
for loss in plan.losses(asked, routes=answer):
    print(loss.contact, (loss.route.delivery - answer[0].delivery) // 60)

print("The best route by when the bundle is at the lander:")
for it in plan.timetable(asked, last="2030-01-01T06:00:00Z"):
    print(time_text(it.first), "to", time_text(it.last), "contacts", *it.route.contacts)

print("A request for each minute of a day, on two processors:")
minutes = [plan.request("lander", "control", asked.at + 60 * minute) for minute in range(1440)]
with ProcessPoolExecutor(2) as workers:
    answers = list(plan.many(minutes, 1, workers))
print(sum(1 for it in answers if it.routes), "of", len(answers), "have a route")
