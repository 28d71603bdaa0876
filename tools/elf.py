"""Object files as they lie in an archive: the sizes of their sections, the names that they define and those they need.

Reads ELF files of 32 and 64 bits, low byte first, and archives of them: what tools/cross makes.
"""
import struct

ALLOCATED, WRITABLE, EXECUTABLE = 2, 1, 4
SYMBOL_TABLE, NO_BITS = 2, 8


def members(archive):
    """The object files of an archive, by their bytes."""
    if archive[:8] != b"!<arch>\n":
        raise ValueError("not an archive")
    at, found = 8, []
    while at + 60 <= len(archive):
        name, size = archive[at:at + 16].rstrip(), int(archive[at + 48:at + 58])
        body = archive[at + 60:at + 60 + size]
        if name not in (b"/", b"//", b"/SYM64/"):
            found.append(body)
        at += 60 + size + size % 2
    return found


class Object:
    def __init__(self, data):
        if data[:4] != b"\x7fELF" or data[5] != 1:
            raise ValueError("not an object file with the low byte first")
        self.data, self.wide = data, data[4] == 2
        self.machine = struct.unpack_from("<H", data, 18)[0]
        start, size, count = self._headers()
        form = "<IIQQQQIIQQ" if self.wide else "<10I"
        # name, type, flags, address, offset, size, link, info, alignment, entry size
        self.sections = [struct.unpack_from(form, data, start + i * size) for i in range(count)]

    def _headers(self):
        start = struct.unpack_from("<Q" if self.wide else "<I", self.data, 40 if self.wide else 32)[0]
        size, count = struct.unpack_from("<HH", self.data, 58 if self.wide else 46)
        return start, size, count

    def _text(self, table, at):
        start = self.sections[table][4] + at
        return self.data[start:self.data.index(b"\0", start)].decode()

    def symbols(self):
        """Each global name, and whether it is defined here."""
        for section in self.sections:
            if section[1] != SYMBOL_TABLE:
                continue
            form, size = ("<IBBHQQ", 24) if self.wide else ("<IIIBBH", 16)
            for at in range(section[4], section[4] + section[5], size):
                entry = struct.unpack_from(form, self.data, at)
                name, info, where = (entry[0], entry[1], entry[3]) if self.wide else (entry[0], entry[3], entry[5])
                if info >> 4 != 0 and name:
                    yield self._text(section[6], name), where != 0

    def sizes(self):
        """Bytes of code, of constants, and of variables."""
        code = constants = variables = 0
        for section in self.sections:
            if section[2] & ALLOCATED:
                if section[2] & EXECUTABLE:
                    code += section[5]
                elif section[2] & WRITABLE:
                    variables += section[5]
                elif section[1] != NO_BITS:
                    constants += section[5]
        return code, constants, variables


class Archive:
    """What a whole archive defines, needs and weighs."""

    def __init__(self, path):
        with open(path, "rb") as file:
            self.objects = [Object(body) for body in members(file.read())]
        named = [symbol for found in self.objects for symbol in found.symbols()]
        self.defined = {name for name, here in named if here}
        self.needed = {name for name, here in named if not here} - self.defined
        self.code, self.constants, self.variables = map(sum, zip(*(found.sizes() for found in self.objects)))
