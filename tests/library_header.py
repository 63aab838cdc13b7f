"""What the headers of the C library declare, and what the sources of its crate do, both in the words of C."""

import os
import re

from checking import TOP

HEADER = f"{TOP}/library/cgrlist.h"
PROVED = f"{TOP}/library/proved.h"  # what shims.c calls
SOURCES = f"{TOP}/crates/libcgrlist/src"
NUMBERS = {"u8": "uint8_t", "u32": "uint32_t", "u64": "uint64_t", "usize": "size_t", "bool": "bool"}
BYTES = {"uint8_t": 1, "bool": 1, "uint32_t": 4, "uint64_t": 8, "size_t": 8}  # of x86-64, where a place has 8, too
HANDLE, REQUEST = "handle", "cgrlist_request"
OUTER = {"NO_PLAN"}  # statuses that shims alone return
INNER = {"CLOSED", "OPEN", "LISTING"}  # those that they never meet
DONE = "OK"  # what the header calls the status DONE: Rust has an Ok of its own


def abi():
    with open(HEADER, encoding="ascii") as file:
        return int(re.search(r"^#define CGRLIST_ABI (\d+)$", file.read(), re.M)[1])


def read_header(path=HEADER):
    with open(path, encoding="ascii") as file:
        return re.sub(r"/\*.*?\*/", "", file.read(), flags=re.S)


def read_sources():
    """All sources of the crate, without comments and ghost code."""
    paths = [f"{folder}/{name}" for folder, _, names in os.walk(SOURCES) for name in names if name.endswith(".rt")]
    texts = []
    for path in sorted(paths):
        with open(path, encoding="utf-8") as file:
            texts.append(re.sub(r"//.*|^\s*(?:pub )?ghost .*", "", file.read(), flags=re.M))
    return "\n".join(texts)


# ---- The header -------------------------------------------------------------------------------------------------


def declared_statuses(text, enum="cgrlist_status"):
    """The numbers of an enum by their names without the prefix."""
    body = re.search(rf"enum {enum} \{{(.*?)\}}", text, re.S)[1]
    return {name: int(value) for name, value in re.findall(r"CGRLIST_(\w+) = (\d+)", body)}


def declared_limits(text):
    return {name: int(value) for name, value in re.findall(r"#define CGRLIST_((?:LAST|MOST)_\w+) (\d+)u", text)}


def declared_structs(text):
    """The members of each struct, a pair of type and name each."""
    found = {}
    for body, name in re.findall(r"typedef struct \w+ \{(.*?)\} (\w+);", text, re.S):
        members = [part.split(None, 1) for part in body.split(";") if part.strip()]
        found[name] = [(kind, it.strip()) for kind, names in members for it in names.split(",")]
    return found


def declared_functions(text):
    """Of each function the types of what it takes, and of what it returns."""
    found = {}
    for kind, name, taken in re.findall(r"^([a-z].*[ *])(cgrlist_\w+)\(([^)]*)\);", text, re.M):
        words = [] if taken.strip() == "void" else [" ".join(it.split()) for it in taken.split(",")]
        found[name.replace("cgrlist_proved_", "cgrlist_")] = [type_of(it) for it in words], kind.strip()
    return found


def type_of(parameter):
    """The type of a parameter. An array is a place, and its length is part of the type."""
    array = re.search(r"\[(\d+)\]$", parameter)
    kind = re.sub(r"\w+(\[\d+\])?$", "", parameter).strip().replace("char", "uint8_t")
    return f"{kind}[{array[1]}]" if array else kind


def functions_of(path):
    """The number of lines of each function of a file in C."""
    with open(path, encoding="ascii") as file:
        texts = re.finditer(r"^[a-z][^;{]*?(\w+)\([^;{]*\) \{\n.*?^\}$", file.read(), re.M | re.S)
    return {it[1]: it[0].count("\n") + 1 for it in texts}


def word_of(constant):
    """What the program writes for the rest of a constant: `NoLight` for `NO_LIGHT`."""
    return "".join(it.capitalize() for it in constant.split("_"))


# ---- The crate --------------------------------------------------------------------------------------------------


def stated_statuses(text):
    found = {name: int(value) for name, value in re.findall(r"^pub const (?!MOST_)(\w+): u32 = (\d+);", text, re.M)}
    return {DONE if name == "DONE" else name: value for name, value in found.items()}


def stated_limits():
    """The limits of plans, requests and pages, by the header's names."""
    text = ""
    for path in "sabr_model/src/limits.rt", "sabr_frontier/src/session.rt":
        with open(f"{TOP}/crates/{path}", encoding="utf-8") as file:
            text += file.read()
    found = re.findall(r"^pub const ((?:MAX|LAST)_\w+): u\w+ = ([\d_]+);", text, re.M)
    return {name.replace("MAX_", "MOST_"): int(value.replace("_", "")) for name, value in found}


def stated_structs(text):
    """The fields of each struct that C sees, a pair of type and name each."""
    found = {}
    for name, body in re.findall(r"#\[repr\(C\)\]\s*(?:#\[derive\([^)]*\)\]\s*)?pub struct (\w+) \{(.*?)^\}", text, re.S | re.M):
        found[name] = [(NUMBERS.get(kind, kind), field) for field, kind in re.findall(r"(\w+): ([^,\n]+),", body)]
    return found


def stated_handle(text):
    """The members of the handle: whether a plan is open, and what its place has. An allocator takes no bytes."""
    found = stated_structs(text)
    members = [it for kind, name in found["PlanHandle"] for it in found.get(kind, [(kind, name)])]
    return [("void", f"*{name}") if kind == "*mut u8" else (kind, name) for kind, name in members if kind != "Global"]


def stated_functions(text):
    """Of each export the types of what it takes and returns, in the words of C but for the names of structs."""
    found = {}
    pattern = r'pub (?:unsafe )?extern "C" fn (\w+)\((.*?)\)(?: -> (\w+))?\s*(?=requires|ensures|\{)'
    for name, taken, kind in re.findall(pattern, text, re.S):
        words = [it.split(":", 1)[1].strip() for it in re.split(r",\s*(?![^\[]*\])", taken) if ":" in it]
        found[name] = [c for it in words if it != "Global" for c in types_of(it)], NUMBERS.get(kind, "void")
    return found


def types_of(kind):
    """What C passes for a parameter of Rust."""
    place = re.fullmatch(r"&(?:'\w+ )?(mut )?(?:\[(\w+)(?:; (\d+))?\]|(\w+))", kind)
    if not place:
        return [NUMBERS[kind]]
    changed, item, count, one = place.groups()
    front, inner = "" if changed else "const ", NUMBERS.get(item or one, item or one)
    if count:
        return [f"{front}{inner}[{count}]"]
    return [f"{front}{inner} *", *(["size_t"] if item else [])]


# ---- Comparing --------------------------------------------------------------------------------------------------


def pairs_of_structs(declared, stated):
    """For each struct of Rust that an export takes, those of C that stand in its place."""
    pairs = {}
    for name in declared.keys() & stated.keys():
        for one, other in zip(declared[name][0], stated[name][0]):
            rust = re.sub(r"const |[ *]", "", other)
            if rust not in BYTES and "[" not in rust:
                pairs.setdefault(rust, set()).add(re.sub(r"const |[ *]", "", one))
    return pairs


def named_as_in_c(functions, pairs):
    names = {rust: next(iter(c)) for rust, c in pairs.items()}
    return {
        name: ([re.sub(r"\b[A-Z]\w+", lambda it: names.get(it[0], it[0]), kind) for kind in taken], kind)
        for name, (taken, kind) in functions.items()
    }


def layout_of(members):
    """The place of each member, and the size, as the rules of C for x86-64 give them."""
    at, widest, places = 0, 1, {}
    for kind, name in members:
        size = 8 if name.startswith("*") else BYTES[kind]
        at = -(-at // size) * size
        places[name] = at
        at, widest = at + size, max(widest, size)
    return places, -(-at // widest) * widest


def assertions(structs):
    """A text of C that compiles only if each struct has that layout."""
    lines = ['#include "proved.h"']
    for name, members in sorted(structs.items()):
        places, size = layout_of(members)
        lines.append(f'_Static_assert(sizeof({name}) == {size}, "{name}");')
        lines += [f'_Static_assert(offsetof({name}, {it.strip("*")}) == {at}, "{name}.{it}");' for it, at in places.items()]
    return "\n".join([*lines, ""])
