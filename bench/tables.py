"""Tables in Markdown, and the machine on which their figures were taken."""
import math
import os
import time

from running import GNU_TIME, run


def print_head(title, heads):
    print(f"\n{title}\n\n| " + " | ".join(heads) + " |\n|---|" + "---:|" * (len(heads) - 1), flush=True)


def print_row(cells):
    print("| " + " | ".join(map(str, cells)) + " |", flush=True)


def ratio(pair):
    return None if None in pair or not pair[1] else pair[0] / pair[1]


def mean(ratios):
    """The geometric mean of those that are known."""
    known = [it for it in ratios if it]
    return math.exp(sum(map(math.log, known)) / len(known)) if known else None


def shown(number, digits=2):
    return "-" if number is None else f"{number:.{digits}f}"


def megabytes(kb):
    return shown(kb and kb / 1024, 1)


def milliseconds(turns):
    if not turns.answers:
        return "-"
    if turns.is_good():
        return shown(turns.best("seconds") * 1000, 1)
    return "stopped" if turns.last().status is None else f"status {turns.last().status}"


def heads_of(programs):
    """The heads of the columns that time_cells fills."""
    return [head for program in programs for head in (f"{program.name} ms", "MB")] + ["ratio"]


def time_cells(turns):
    cells = [cell for mine in turns for cell in (milliseconds(mine), megabytes(mine.peak_kb))]
    return [*cells, shown(ratio([it.best("seconds") for it in turns]))]


def processor():
    with open("/proc/cpuinfo", encoding="ascii", errors="replace") as file:
        names = (line.split(":", 1)[1].strip() for line in file if line.startswith("model name"))
        return next(names, "unknown processor")


def load():
    return "load " + " ".join(f"{figure:.1f}" for figure in os.getloadavg())


class Machine:
    """Where and when the figures were taken, with the machine's load before and after."""

    def __init__(self, repeats):
        self.told = {
            "when": time.strftime("%Y-%m-%dT%H:%M:%SZ", time.gmtime()),
            "processor": processor(),
            "processors": os.cpu_count(),
            "repeats": repeats,
            "start_seconds": min(run(["/bin/true"], 10).seconds for _ in range(20)),
            "load_before": os.getloadavg(),
            "memory_by": "GNU time" if os.access(GNU_TIME, os.X_OK) else "wait4, no less than the script's own",
        }
        print(
            f"{self.told['when']}, {self.told['processor']}, {self.told['processors']} processors, {load()} at the "
            f"beginning; best of {repeats}; starting a program takes {self.told['start_seconds'] * 1000:.1f} ms"
        )

    def end(self):
        self.told["load_after"] = os.getloadavg()
        print(f"{load()} at the end")
