"""Looks at the module of the page: that it was made of the sources as they stand, what it holds, and what its record says."""

import gzip
import json
from importlib import import_module

from checking import TOP, Room, checks_of, script_of

CALLS = ("check", "first", "next", "verify", "explain", "many", "follow", "canonical")
MOST = 175_000  # bytes; the page with it has to stay below 500,000


def refused(act, *given):
    """Why the script gives up; empty if it doesn't."""
    try:
        act(*given)
        return ""
    except (build.Failed, build.Malformed) as failure:
        return str(failure)


build = script_of("page/build")
narrow = import_module("narrow")  # build has made its folder known


def committed(_):
    """What is in the repository."""
    sources, record = build.Sources(), json.loads(build.read(build.RECORD))
    packed = build.read(build.MODULE)
    module = gzip.decompress(packed)
    yield "made of the sources as they stand", None, build.lack, None, sources
    yield "the prover took nothing from an earlier check, and no axiom is reached", None, build.fault_of, record
    yield "what it exports", {f"cgrlist_{it}" for it in CALLS}, sources.exports
    yield "it imports nothing, exports no more, and names none of its functions", module, build.checked, module, sources.exports()
    yield "its size", MOST, lambda: max(len(packed), MOST)


def faults(_):
    """What the script doesn't take: another export, an import, a proof over an earlier check, an axiom."""
    head, exports = b"\0asm\1\0\0\0", b"\7\5\1\1f\0\0"
    yield "a module", "", refused, build.checked, head + exports, {"f"}
    yield "another export", "the module exports f", refused, build.checked, head + exports, {"g"}
    yield "an import", "the module has imports", refused, build.checked, head + b"\2\1\0" + exports, {"f"}
    verdict, axioms = f"logic=proved functions=1 target={build.TARGET}", ["axioms libc: none reached of the 128 declared"]
    yield "proved", None, build.fault_of, {"verdict": verdict, "axioms": axioms}
    yield ("proved over an earlier check", f"the crate isn't proved as it should be: {verdict} incremental=trusted",
           build.fault_of, {"verdict": f"{verdict} incremental=trusted", "axioms": axioms})
    reached = ["axioms libc: libc::malloc (1 of the 128 declared)"]
    yield "an axiom", f"the crate reaches axioms: {reached}", build.fault_of, {"verdict": verdict, "axioms": reached}


def section(kind, content):
    return bytes.fromhex(f"{kind:02x}{len(bytes.fromhex(content)):02x}{content}")


def module_of(memory, body, data):
    """A module with a function of an i64 whose local variable is an i32, and with a memory."""
    function = f"01017f{body}0b"  # one i32, and the end
    parts = [(1, "0160017e00"), (3, "0100"), (5, memory), (10, f"01{len(bytes.fromhex(function)):02x}{function}"), (11, data)]
    return b"\0asm\1\0\0\0" + b"".join(section(*it) for it in parts)


def wide(body="", memory="010411", data="0100428080c0000b0161"):
    """A module of 64-bit addresses."""
    return module_of(memory, body, data)


# What a function does over 64-bit addresses, and over 32-bit ones; its spare locals are 2 and 3 (i32), 4 (i64), 5, 6.
BODIES = [
    ("a load", "2000 280208 1a", "2000 a7 280208 1a"),
    ("a load whose offset has ten bytes", "2000 2902 88808080808080808000 1a", "2000 a7 290208 1a"),
    ("a load after a sum", "2000 42c000 7c 280208 1a", "2000 a7 41c000 6a 280208 1a"),
    ("a load before an address", "2000 4278 7c 280208 1a", "2000 a7 4178 6a 280208 1a"),
    ("a load after a large sum", "2000 42ffffffff1f 7c 280200 1a", "2000 a7 417f 6a 280200 1a"),
    ("a store of i32", "2000 4101 3a0000", "2000 4101 2102 a7 2002 3a0000"),
    ("a store of i64", "2000 4201 370310", "2000 4201 2104 a7 2004 370310"),
    ("a store of f32", "2000 4300000028 380204", "2000 4300000028 2105 a7 2005 380204"),
    ("a store of f64", "2000 440000000000002836 390308", "2000 440000000000002836 2106 a7 2006 390308"),
    ("a copy", "2000 2000 4205 fc0a0000", "2000 2000 4205 a7 2102 a7 2103 a7 2003 2002 fc0a0000"),
    ("a fill", "2000 4100 4205 fc0b00", "2000 4100 4205 a7 2102 2103 a7 2003 2002 fc0b00"),
    ("branches and calls", "0240 2000 0e02000000 0c00 0b 1000", "0240 2000 0e02000000 0c00 0b 1000"),
]
TYPES_OF_SPARE = "0601 7f 017f 017f 017e 017d 017c"


def narrowing(_):
    """A module's memory gets 32-bit addresses."""
    for what, body, narrowed in BODIES:
        function = bytes.fromhex(f"{TYPES_OF_SPARE}{narrowed}0b").hex()
        code = section(10, f"01{len(function) // 2:02x}{function}")
        head = wide()[: wide().index(section(5, "010411"))] + section(5, "010011")
        rest = code + section(11, "0100418080c0000b0161")
        yield what, head + rest, narrow.narrowed_module, wide(body.replace(" ", ""))
    faults = [
        ("narrowed before", "the module's memory isn't one with 64-bit addresses that may grow", wide(memory="010011")),
        ("data anywhere", "the module has data without an address", wide(data="01010161")),
        ("memory that grows", "the module has an instruction that isn't known: 40", wide("42014000")),
    ]
    for what, reason, module in faults:
        yield what, reason, refused, narrow.narrowed_module, module


def checks(_):
    return checks_of("module", Room(), [committed, faults, narrowing])
