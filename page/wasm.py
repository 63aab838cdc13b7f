"""Modules of WebAssembly as bytes."""


class Malformed(Exception):
    """The module isn't one that is looked for; the message says why."""


def number_at(data, at):
    """The number in LEB128 at a place, and the place after it."""
    number = shift = 0
    while True:
        number |= (data[at] & 127) << shift
        at, shift = at + 1, shift + 7
        if data[at - 1] < 128:
            return number, at


def number_of(number):
    """A number in LEB128."""
    data = bytearray()
    while number > 127:
        data.append(number & 127 | 128)
        number >>= 7
    return bytes([*data, number])


def constant_at(data, at):
    """The number of a constant, whose last byte has a bit for the sign, and the place after it."""
    number, end = number_at(data, at)
    return number - (1 << 7 * (end - at) if data[end - 1] & 64 else 0), end


def constant_of(number):
    """A number as a constant has it."""
    data = bytearray()
    while not -64 <= number < 64:
        data.append(number & 127 | 128)
        number >>= 7
    return bytes([*data, number & 127])


def sections_of(module):
    """The sections of a module, each as its kind, its content, and all of its bytes."""
    if module[:8] != b"\0asm\1\0\0\0":
        raise Malformed("the linker's file is no module of WebAssembly")
    found, at = [], 8
    while at < len(module):
        size, begin = number_at(module, at + 1)
        found.append((module[at], module[begin : begin + size], module[at : begin + size]))
        at = begin + size
    return found
