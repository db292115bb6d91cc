"""Gives a WebAssembly module whose memory has 64-bit addresses a function table with 32-bit indexes.

clang 22 makes tables with 64-bit indexes beside such a memory. `wasm-opt` of Debian 12 and some engines cannot read these. So each index is made one
of 32 bits just before it is used. `with_narrow_table` does that to the bytes of a module. It knows each instruction that clang writes, and it stops at
any other one.
"""

TABLE, ELEMENTS, CODE = 4, 9, 10
CALL_INDIRECT, WRAP, CONST_32, CONST_64 = 0x11, 0xA7, 0x41, 0x42
IS_64 = 4

# How many numbers come after an instruction. `m` is a place in memory (an alignment and an offset), `b` a byte.
PLAIN = [0x00, 0x01, 0x05, 0x0B, 0x0F, 0x1A, 0x1B, *range(0x45, 0xC5)]
ONE_NUMBER = [0x02, 0x03, 0x04, 0x0C, 0x0D, 0x10, *range(0x20, 0x27), 0x41, 0x42, 0xD0, 0xD2]
AFTER = {**dict.fromkeys(PLAIN, ""), **dict.fromkeys(ONE_NUMBER, "n"), **dict.fromkeys(range(0x28, 0x3F), "m")}
AFTER |= {CALL_INDIRECT: "nn", 0x3F: "n", 0x40: "n", 0x43: "bbbb", 0x44: "bbbbbbbb"}
AFTER_FC = {**dict.fromkeys(range(8), ""), 8: "nn", 9: "n", 10: "nn", 11: "n", 12: "nn", 13: "n", 14: "nn", 15: "n", 16: "n", 17: "n"}


class Reader:
    """Reads the bytes of a module from a place on."""

    def __init__(self, data, at=0):
        self.data, self.at = data, at

    def byte(self):
        self.at += 1
        return self.data[self.at - 1]

    def number(self):
        found = shift = 0
        while True:
            byte = self.byte()
            found |= (byte & 127) << shift
            shift += 7
            if byte < 128:
                return found

    def part(self, length):
        self.at += length
        return self.data[self.at - length:self.at]

    def skip(self, kinds):
        for kind in kinds:
            if kind == "b":
                self.byte()
            else:
                self.number()
                if kind == "m":
                    self.number()


def number_bytes(number):
    made = bytearray()
    while number >= 128:
        made.append(number & 127 | 128)
        number >>= 7
    return bytes([*made, number])


def after_vector(code):
    """What comes after an instruction of vectors (after its first byte, FD)."""
    if code < 12 or code in (92, 93):
        return "m"
    if 84 <= code <= 91:
        return "mb"
    return "b" * 16 if code in (12, 13) else "b" if 21 <= code <= 34 else ""


def skip_instruction(reader, code):
    """Reads what comes after the first byte of an instruction."""
    if code == 0x0E:
        reader.skip("n" * (reader.number() + 1))
    elif code == 0x1C:
        reader.skip("b" * reader.number())
    elif code == 0xFC:
        reader.skip(AFTER_FC[reader.number()])
    elif code == 0xFD:
        reader.skip(after_vector(reader.number()))
    else:
        reader.skip(AFTER[code])


def function(body):
    """The body of a function, in which each index of an indirect call is made one of 32 bits."""
    reader, made, done = Reader(body), bytearray(), 0
    for _ in range(reader.number()):
        reader.number()
        reader.byte()
    while reader.at < len(body):
        at = reader.at
        code = reader.byte()
        if code == CALL_INDIRECT:
            made += body[done:at] + bytes([WRAP])
            done = at
        skip_instruction(reader, code)
    return bytes(made + body[done:])


def table_section(part):
    reader = Reader(part)
    count = reader.number()
    made = bytearray(number_bytes(count))
    for _ in range(count):
        made.append(reader.byte())
        flags = reader.number()
        made += number_bytes(flags & ~IS_64)
        for _ in range(1 + (flags & 1)):
            made += number_bytes(reader.number())
    return bytes(made)


def element_section(part):
    """The one list of functions that a linker writes, which begins at a constant."""
    reader = Reader(part)
    if (reader.number(), reader.number(), reader.byte()) != (1, 0, CONST_64):
        raise ValueError("the module has other lists of functions than clang's linker writes")
    return part[:reader.at - 1] + bytes([CONST_32]) + part[reader.at:]


def code_section(part):
    reader = Reader(part)
    made = bytearray(number_bytes(count := reader.number()))
    for _ in range(count):
        body = function(reader.part(reader.number()))
        made += number_bytes(len(body)) + body
    return bytes(made)


def with_narrow_table(module):
    """The module with a table of 32-bit indexes."""
    changes = {TABLE: table_section, ELEMENTS: element_section, CODE: code_section}
    reader, made = Reader(module, 8), bytearray(module[:8])
    while reader.at < len(module):
        kind = reader.byte()
        part = reader.part(reader.number())
        part = changes.get(kind, bytes)(part)
        made += bytes([kind]) + number_bytes(len(part)) + part
    return bytes(made)
