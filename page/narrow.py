"""Makes a module's memory one with 32-bit addresses, which every browser has and reads faster.

The prover's model of a machine has 64-bit addresses, and so does the module that its compiler writes. Here each instruction
that reads or writes memory gets the lower half of its address; all else stays, also the parameters that are addresses. A
memory with 32-bit addresses has at most 4 GiB, and in these the upper half of an address is zero. So a module that accesses
nothing outside its memory, which is what is proved of it, does the same as before.
"""

from wasm import Malformed, constant_at, constant_of, number_at, number_of, sections_of

TYPES, FUNCTIONS, MEMORIES, CODE, DATA = 1, 3, 5, 10, 11  # kinds of sections

I32, I64, F32, F64 = b"\x7f", b"\x7e", b"\x7d", b"\x7c"
SPARE = [I32, I32, I64, F32, F64]  # the locals that a function gets, for what lies above an address

# ---- Instructions -----------------------------------------------------------------------------------------------

GET, SET = 0x20, 0x21
I32_CONST, I64_CONST = 0x41, 0x42
I32_ADD, I64_ADD = 0x6A, 0x7C
WRAP = b"\xa7"  # i32.wrap_i64, which keeps the lower half
END = 0x0B

LOADS = range(0x28, 0x36)
STORED = dict(zip(range(0x36, 0x3F), [0, 2, 3, 4, 0, 0, 2, 2, 2]))  # the spare local for the value of each kind of store
FURTHER = 0xFC  # before a second number
MEMORY_COPY, MEMORY_FILL = 10, 11

# The numbers after each kind of instruction; a block's type and a constant are numbers, too.
NUMBERS = dict.fromkeys([0x02, 0x03, 0x04, 0x0C, 0x0D, 0x10, *range(0x20, 0x25), I32_CONST, I64_CONST], 1)
NUMBERS |= dict.fromkeys([0x11, *range(0x28, 0x3F)], 2)
NUMBERS |= dict.fromkeys([0x00, 0x01, 0x05, END, 0x0F, 0x1A, 0x1B, *range(0x45, 0xC5)], 0)
BYTES = {0x43: 4, 0x44: 8}  # of constants of floating point
TABLE = 0x0E  # a branch by a table
FURTHER_NUMBERS = {**dict.fromkeys(range(8), 0), MEMORY_COPY: 2, MEMORY_FILL: 1}


def after_numbers(code, at, count):
    """The place after some numbers."""
    for _ in range(count):
        _, at = number_at(code, at)
    return at


def instructions(code, at):
    """The instructions from a place on, each as its kind, its second number or None, and its bytes."""
    while at < len(code):
        kind, second, begin = code[at], None, at
        at += 1
        if kind == FURTHER:
            second, at = number_at(code, at)
        if kind == TABLE:
            count, at = number_at(code, at)
            at = after_numbers(code, at, count + 1)
        elif kind in BYTES:
            at += BYTES[kind]
        else:
            counts, it = (NUMBERS, kind) if second is None else (FURTHER_NUMBERS, second)
            if it not in counts:
                raise Malformed(f"the module has an instruction that isn't known: {code[begin:at].hex()}")
            at = after_numbers(code, at, counts[it])
        yield kind, second, code[begin:at]


def with_short_numbers(text):
    """A load or a store, whose offset the linker may have written in ten bytes."""
    alignment, at = number_at(text, 1)
    offset, _ = number_at(text, at)
    return text[:1] + number_of(alignment) + number_of(offset)


def narrowed(kind, second, text, spare):
    """An instruction over addresses of 32 bits. `spare` is the number of the first spare local."""

    def aside(place):
        return bytes([SET]) + number_of(spare + place)

    def back(place):
        return bytes([GET]) + number_of(spare + place)

    if kind in LOADS:
        return WRAP + with_short_numbers(text)
    if kind in STORED:
        place = STORED[kind]
        return aside(place) + WRAP + back(place) + with_short_numbers(text)
    if kind == FURTHER and second in (MEMORY_COPY, MEMORY_FILL):
        middle = WRAP if second == MEMORY_COPY else b""
        return WRAP + aside(0) + middle + aside(1) + WRAP + back(1) + back(0) + text
    return text


def after_sum(constant, load):
    """A load from the sum of an address and a constant: the sum of the halves is the half of the sum, and takes less time."""
    number, _ = constant_at(constant, 1)
    half = (number + 2**31) % 2**32 - 2**31
    return WRAP + bytes([I32_CONST]) + constant_of(half) + bytes([I32_ADD]) + with_short_numbers(load)


def narrowed_all(code, at, spare):
    """The instructions from a place on over addresses of 32 bits."""
    found, parts = [*instructions(code, at)], []
    while found:
        kinds = [kind for kind, _, _ in found[-3:]]
        if kinds[:2] == [I64_CONST, I64_ADD] and kinds[-1] in LOADS:
            parts.append(after_sum(found[-3][2], found[-1][2]))
            del found[-3:]
        else:
            parts.append(narrowed(*found.pop(), spare))
    return b"".join(reversed(parts))


# ---- Sections ---------------------------------------------------------------------------------------------------


def items_of(content, item_at):
    """The items of a section, which `item_at` finds at a place, with the place after it."""
    count, at = number_at(content, 0)
    found = []
    for _ in range(count):
        item, at = item_at(content, at)
        found.append(item)
    return found


def parameters_at(content, at):
    """The number of a type's parameters."""
    count, at = number_at(content, at + 1)
    results, at = number_at(content, at + count)
    return count, at + results


def body_at(content, at):
    size, at = number_at(content, at)
    return content[at : at + size], at + size


def narrowed_body(body, parameters):
    groups, at = number_at(body, 0)
    begin, spare = at, parameters
    for _ in range(groups):
        count, at = number_at(body, at)
        spare, at = spare + count, at + 1
    locals_ = number_of(groups + len(SPARE)) + body[begin:at] + b"".join(number_of(1) + kind for kind in SPARE)
    code = locals_ + narrowed_all(body, at, spare)
    return number_of(len(code)) + code


def narrowed_code(content, parameters):
    bodies = items_of(content, body_at)
    return number_of(len(bodies)) + b"".join(map(narrowed_body, bodies, parameters))


def narrowed_memory(content):
    """The section of a memory that may grow without end."""
    if content[:2] != b"\x01\x04":
        raise Malformed("the module's memory isn't one with 64-bit addresses that may grow")
    return b"\x01\x00" + content[2:]


def segment_at(content, at):
    """A segment of data that begins at a constant address, over addresses of 32 bits."""
    if content[at : at + 2] != bytes([0, I64_CONST]):
        raise Malformed("the module has data without an address")
    address, end = constant_at(content, at + 2)
    size, begin = number_at(content, end + 1)
    return bytes([0, I32_CONST]) + constant_of(address) + content[end : begin + size], begin + size


def narrowed_data(content):
    segments = items_of(content, segment_at)
    return number_of(len(segments)) + b"".join(segments)


def narrowed_module(module):
    """The module with a memory of 32-bit addresses."""
    sections = sections_of(module)
    contents = {kind: content for kind, content, _ in sections}
    types = items_of(contents[TYPES], parameters_at)
    parameters = [types[it] for it in items_of(contents[FUNCTIONS], number_at)]
    changed = {
        MEMORIES: narrowed_memory(contents[MEMORIES]),
        CODE: narrowed_code(contents[CODE], parameters),
        DATA: narrowed_data(contents[DATA]),
    }
    parts = [bytes([kind]) + number_of(len(new)) + new for kind, new in changed.items()]
    own = dict(zip(changed, parts))
    return module[:8] + b"".join(own.get(kind, whole) for kind, _, whole in sections)
