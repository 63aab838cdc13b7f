"""A request for each minute of a day, answered by the workers of a cluster: python3 examples/cluster.py in a clone.

The cluster is dask's, with two workers here; `Client("HOST:8786")` takes one of other machines. Its workers need the
package, and the plan's file and the program at the same places.
"""

import os
import sys

sys.path.insert(0, "tools")  # not needed once the package is installed
import cgrlist
from dask.distributed import Client

if __name__ == "__main__":  # the workers read this file, too
    plan = cgrlist.Plan.from_file(os.path.abspath("examples/relay.txt"))
    day = cgrlist.second_of("2030-01-01")
    minutes = [plan.request(31, 1, day + 60 * minute) for minute in range(1440)]
    with Client(n_workers=2, threads_per_worker=1, dashboard_address=None) as client:
        answers = list(plan.many(minutes, 1, client.get_executor()))
    assert answers == list(plan.many(minutes, 1))
    print(sum(1 for it in answers if it.routes), "of", len(answers), "have a route")
