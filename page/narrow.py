#!/usr/bin/env python3
"""Rewrites a WebAssembly module with a 64-bit memory into one with a 32-bit memory, which every browser runs.

    narrow.py MODULE NEW

Values stay as they are, addresses too: each is 64 bits, and is cut to 32 where memory is touched. So the module has 4 GiB
at most, and an access at 2^32 or above, which trapped, would go astray; a proved program makes none. What is not known here
is refused.
"""

import sys

I32, I64, F32, F64 = 0x7F, 0x7E, 0x7D, 0x7C
WRAP, EXTEND_S, EXTEND_U = 0xA7, 0xAC, 0xAD
GET, SET, I64_CONST, SHIFT, IS_ZERO = 0x20, 0x21, 0x42, 0x88, 0x50
IF, ELSE, END = 0x04, 0x05, 0x0B

# Instructions by their immediates.
PLAIN = {0x00, 0x01, 0x05, 0x0B, 0x0F, 0x1A, 0x1B, *range(0x45, 0xC5)}  # none
ONE = {0x02, 0x03, 0x04, 0x0C, 0x0D, 0x10, 0x20, 0x21, 0x22, 0x23, 0x24, 0x41, 0x42}  # a number
FIXED = {0x43: 4, 0x44: 8}  # bytes
LISTED = {0x0E: 2, 0x1C: 1}  # a count, as many numbers, and for br_table one more
LOADS = range(0x28, 0x36)
STORED = {0x36: I32, 0x37: I64, 0x38: F32, 0x39: F64, 0x3A: I32, 0x3B: I32, 0x3C: I64, 0x3D: I64, 0x3E: I64}
SIZE, GROW, CALL_INDIRECT, MORE = 0x3F, 0x40, 0x11, 0xFC
COPY, FILL = 10, 11


class Refused(Exception):
    pass


def need(holds, cause):
    if not holds:
        raise Refused(cause)


# ---- numbers in LEB128


def number(data, at):
    """A number, as raw bits, and where it ends."""
    value = shift = 0
    while True:
        byte = data[at]
        at += 1
        value |= (byte & 0x7F) << shift
        shift += 7
        if byte < 0x80:
            return value, at


def leb(value):
    made = bytearray()
    while True:
        byte, value = value & 0x7F, value >> 7
        made.append(byte | (0x80 if value else 0))
        if not value:
            return bytes(made)


def signed(data, at):
    value, end = number(data, at)
    bits = 7 * (end - at)
    return (value - (1 << bits) if data[end - 1] & 0x40 else value), end


def sleb(value):
    made = bytearray()
    while True:
        byte, value = value & 0x7F, value >> 7
        if (value == 0 and not byte & 0x40) or (value == -1 and byte & 0x40):
            return bytes(made + bytes([byte]))
        made.append(byte | 0x80)


# ---- code


class Body:
    """The code of one function, with places for the values that stand above an address."""

    def __init__(self, data, params, has_wide_table):
        self.data, self.at, self.made, self.has_wide_table = data, 0, bytearray(), has_wide_table
        groups, self.at = number(data, 0)
        groups_made, count = [], params
        for _ in range(groups):
            many, self.at = number(data, self.at)
            groups_made.append((many, data[self.at]))
            self.at += 1
            count += many
        self.place = {}
        for kind, many in ((I64, 2), (I32, 2), (F32, 1), (F64, 1)):
            self.place[kind] = count
            groups_made.append((many, kind))
            count += many
        self.head = leb(len(groups_made)) + b"".join(leb(many) + bytes([kind]) for many, kind in groups_made)

    def put(self, *parts):
        for part in parts:
            self.made += bytes([part]) if isinstance(part, int) else part

    def set(self, kind, which=0):
        self.put(SET, leb(self.place[kind] + which))

    def get(self, kind, which=0):
        self.put(GET, leb(self.place[kind] + which))

    def numbers(self, count):
        """Immediates that are numbers, as they are."""
        begin = self.at
        for _ in range(count):
            _, self.at = number(self.data, self.at)
        return self.data[begin : self.at]

    def bytes(self, count):
        begin, self.at = self.at, self.at + count
        return self.data[begin : self.at]

    def memory(self):
        """The immediates of a load or a store."""
        align, self.at = number(self.data, self.at)
        need(not align & 0x40, "a second memory")
        offset, self.at = number(self.data, self.at)
        need(offset < 1 << 32, "an offset of 2^32 or more")
        return leb(align) + leb(offset)

    def first_memory(self, count=1):
        found = self.bytes(count)
        need(not any(found), "a second memory")
        return found

    def narrow(self):
        while self.at < len(self.data):
            op = self.data[self.at]
            self.at += 1
            self.step(op)
        return self.head + bytes(self.made)

    def step(self, op):
        if op in PLAIN:
            self.put(op)
        elif op in ONE:
            self.put(op, self.numbers(1))
        elif op in FIXED:
            self.put(op, self.bytes(FIXED[op]))
        elif op in LISTED:
            many, _ = number(self.data, self.at)
            self.put(op, self.numbers(many + LISTED[op]))
        elif op in LOADS:
            self.put(WRAP, op, self.memory())
        elif op in STORED:
            kind, where = STORED[op], self.memory()
            self.set(kind)
            self.put(WRAP)
            self.get(kind)
            self.put(op, where)
        elif op == SIZE:
            self.put(op, self.first_memory(), EXTEND_U)
        elif op == GROW:
            self.grow()
        elif op == CALL_INDIRECT:
            self.put(*[WRAP] * self.has_wide_table, op, self.numbers(2))
        elif op == MORE:
            self.more()
        else:
            raise Refused(f"the instruction {op:#x}")

    def grow(self):
        """The number of pages before, or -1 if the memory can't grow, as by 2^32 pages or more."""
        self.set(I64)
        self.get(I64)
        self.put(I64_CONST, 32, SHIFT, IS_ZERO, IF, I64)
        self.get(I64)
        self.put(WRAP, GROW, self.first_memory(), EXTEND_S, ELSE, I64_CONST, sleb(-1), END)

    def more(self):
        kind, self.at = number(self.data, self.at)
        if kind <= 7:  # numbers from floats
            self.put(MORE, leb(kind))
        elif kind == COPY:  # to, from, count
            self.set(I64)
            self.set(I64, 1)
            self.put(WRAP)
            self.get(I64, 1)
            self.put(WRAP)
            self.get(I64)
            self.put(WRAP, MORE, leb(kind), self.first_memory(2))
        elif kind == FILL:  # to, byte, count
            self.set(I64)
            self.set(I32)
            self.put(WRAP)
            self.get(I32)
            self.get(I64)
            self.put(WRAP, MORE, leb(kind), self.first_memory())
        else:
            raise Refused(f"the instruction 0xfc {kind}")


# ---- sections


def limits(data, at):
    """Limits with numbers of 32 bits, whether they had 64, and where they end."""
    flags = data[at]
    need(flags in (0, 1, 4, 5), f"the flags {flags} of limits")
    least, end = number(data, at + 1)
    most, end = number(data, end) if flags & 1 else (None, end)
    need(least <= 65536, "a memory of more than 4 GiB")
    return bytes([flags & ~4]) + leb(least) + (leb(min(most, 65536)) if most is not None else b""), bool(flags & 4), end


def placed(data, at):
    """The place of a segment: one constant."""
    need(data[at] == 0x42, "the place of a segment is no constant")
    value, at = signed(data, at + 1)
    need(data[at] == 0x0B and 0 <= value < 1 << 32, "the place of a segment is no constant below 2^32")
    return bytes([0x41]) + sleb(value - (1 << 32) if value >= 1 << 31 else value) + b"\x0b", at + 1


def params_of(section):
    count, at = number(section, 0)
    found = []
    for _ in range(count):
        need(section[at] == 0x60, "a type that is no function")
        many, at = number(section, at + 1)
        found.append(many)
        at += many
        results, at = number(section, at)
        at += results
    return found


def listed(section):
    count, at = number(section, 0)
    numbers = []
    for _ in range(count):
        it, at = number(section, at)
        numbers.append(it)
    return numbers


def memory_section(section):
    need(section[0] == 1, "a second memory")
    memory, is_wide, end = limits(section, 1)
    need(is_wide and end == len(section), "the memory has 32 bits already")
    return section[:1] + memory


def table_section(section):
    """A table, and whether its places have 64 bits."""
    need(section[0] == 1 and section[1] == 0x70, "a second table, or one of no functions")
    table, is_wide, end = limits(section, 2)
    need(end == len(section), "a table with more than its limits")
    return section[:2] + table, is_wide


def element_section(section):
    need(section[0] == 1 and section[1] == 0, "elements that are not placed")
    place, end = placed(section, 2)
    return section[:2] + place + section[end:]


def code_section(section, params, has_wide_table):
    count, at = number(section, 0)
    need(count == len(params), "as many bodies as functions")
    parts = [leb(count)]
    for taken in params:
        many, at = number(section, at)
        body = Body(section[at : at + many], taken, has_wide_table).narrow()
        parts += [leb(len(body)), body]
        at += many
    return b"".join(parts)


def data_section(section):
    count, at = number(section, 0)
    parts = [leb(count)]
    for _ in range(count):
        need(section[at] == 0, "a segment that is not placed")
        place, at = placed(section, at + 1)
        many, start = number(section, at)
        parts += [b"\0", place, section[at : start + many]]
        at = start + many
    return b"".join(parts)


CUSTOM, TYPE, IMPORT, FUNCTION, TABLE, MEMORY, GLOBAL, EXPORT, ELEMENT, CODE, DATA = *range(8), 9, 10, 11


def narrow(module):
    need(module[:8] == b"\0asm\1\0\0\0", "no module")
    made, at = bytearray(module[:8]), 8
    types, kinds, has_wide_table = [], [], False
    while at < len(module):
        kind = module[at]
        size, begin = number(module, at + 1)
        section, at = module[begin : begin + size], begin + size
        if kind == CUSTOM:
            continue  # names and the like; one of them says that the memory has 64 bits
        if kind == TYPE:
            types = params_of(section)
        elif kind == IMPORT:
            need(section == b"\0", "an import")
        elif kind == FUNCTION:
            kinds = listed(section)
        elif kind == TABLE:
            section, has_wide_table = table_section(section)
        elif kind == MEMORY:
            section = memory_section(section)
        elif kind == ELEMENT and has_wide_table:
            section = element_section(section)
        elif kind == CODE:
            section = code_section(section, [types[it] for it in kinds], has_wide_table)
        elif kind == DATA:
            section = data_section(section)
        else:
            need(kind in (GLOBAL, EXPORT, ELEMENT), f"a section of kind {kind}")
        made += bytes([kind]) + leb(len(section)) + section
    return bytes(made)


def main():
    with open(sys.argv[1], "rb") as file:
        module = file.read()
    try:
        made = narrow(module)
    except Refused as cause:
        sys.exit(f"narrow: {cause}")
    with open(sys.argv[2], "wb") as file:
        file.write(made)


if __name__ == "__main__":
    main()
