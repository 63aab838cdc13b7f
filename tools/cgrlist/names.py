"""Names of nodes. A node is its number, from 1 to 2^64 - 1; the program knows no names."""

import re
from collections.abc import Mapping

from .errors import Refused
from .tool import lines_of

NODE = re.compile(r"[1-9]\d{0,19}", re.ASCII)


class Names:
    """Names of nodes: a mapping as `{31: "lander"}`, or lines as `31 lander`, also as one text; `#` begins a comment's line."""

    def __init__(self, names=()):
        self._names = {}
        for place, line in enumerate(map(str.strip, _lines(names)), 1):
            if line and not line.startswith("#"):
                try:
                    self._take(line)
                except ValueError as error:
                    raise Refused(f"names line {place}: {error}: {line}") from error

    @classmethod
    def from_file(cls, path):
        """Reads the names of a file; no path, no names."""
        return cls(lines_of(path) if path else ())

    @classmethod
    def made_of(cls, names):
        """Names as they are, of a mapping, or of a file's path; none of None."""
        if isinstance(names, cls):
            return names
        return cls(names) if isinstance(names, Mapping) else cls.from_file(names)

    def of(self, node):
        """The node's name, or its number if it has none."""
        return self._names.get(node, str(node))

    def full(self, node):
        """The node's number, and its name if it has one."""
        return f"{node} {self._names[node]}" if node in self._names else str(node)

    def node(self, text):
        """The node that a number or a name says; ValueError if it is neither."""
        if NODE.fullmatch(text):
            return int(text)
        found = [node for node, name in self._names.items() if name == text]
        if not found:
            raise ValueError(f"no node's number{' and no name' if self._names else ''}: {text}")
        return found[0]

    def _take(self, line):
        number, name = [*line.split(None, 1), ""][:2]
        if not NODE.fullmatch(number):
            raise ValueError("it doesn't begin with a node's number")
        if not name or not name.isprintable():
            raise ValueError("it has no name that can be printed")
        if ">" in name or "," in name:
            raise ValueError("its name has '>' or ',', which join nodes")
        if NODE.fullmatch(name) and name != number:
            raise ValueError("its name is the number of another node")
        if int(number) in self._names or name in self._names.values():
            raise ValueError("the node or the name stands in a line above")
        self._names[int(number)] = name


def _lines(names):
    """The lines of names, which may be a mapping or a text."""
    if isinstance(names, Mapping):
        return [f"{node} {name}" for node, name in names.items()]
    return names.split("\n") if isinstance(names, str) else names
