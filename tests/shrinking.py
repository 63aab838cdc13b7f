"""Makes cases that fail smaller, by leaving out lines of their plans as long as they still fail."""


def shrunk(lines, failure_of):
    """Some of the lines that still fail, of which none can be left out, and how they fail. If all of them together don't,
    they are given as they are."""
    told = failure_of(lines)
    size = len(lines) if told else 0
    while size:
        place, count = 0, len(lines)
        while place < len(lines):
            fewer = lines[:place] + lines[place + size :]
            found = failure_of(fewer)
            if found:
                lines, told = fewer, found
            else:
                place += size
        size = size // 2 or int(len(lines) < count)  # one by one, until none can be left out
    return lines, told


class Shrinker:
    """Shrinks the first cases that fail, since each is asked some hundred times for that."""

    def __init__(self, cases=3):
        self.cases = cases

    def after(self, failures, lines, failures_over, shown):
        """The failures of a case, of which the first is followed by the smallest plan that fails. `failures_over` finds
        those of the case over fewer lines."""
        for told in failures:
            if told and self.cases:
                self.cases -= 1
                yield told + smallest(lines, lambda fewer: next(filter(None, failures_over(fewer)), ""), shown)
                break
            yield told
        yield from failures


def smallest(lines, failure_of, shown):
    """Tells of the smallest plan that fails."""
    fewer, told = shrunk(lines, failure_of)
    if not told:
        return "\nalone it doesn't fail"
    plan = "".join(f"\n    {shown(line)}" for line in fewer)
    return f"\nthe smallest plan that fails, {len(fewer)} of {len(lines)} lines:{plan}\nover it\n{told}"
