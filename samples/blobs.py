"""Writes blobs token by token, also such as no compiler makes."""
import struct

MAGIC = 0xD00DFEED
SKIP = struct.pack(">I", 4)
END = struct.pack(">I", 2)
FINISH = struct.pack(">I", 9)
BEGIN = 1
PROPERTY = 3


def padded(text, filler=0):
    return text + bytes([filler]) * (-len(text) % 4)


def begin(name, filler=0):
    return struct.pack(">I", BEGIN) + padded(name + b"\0", filler)


def prop(name_offset, value=b"", filler=0):
    return struct.pack(">III", PROPERTY, len(value), name_offset) + padded(value, filler)


class Strings:
    """A strings block that grows; each name is written once."""

    def __init__(self):
        self.block = b""
        self.offsets = {}

    def at(self, name):
        if name not in self.offsets:
            self.offsets[name] = len(self.block)
            self.block += name + b"\0"
        return self.offsets[name]


def blob(structure, strings=b"", order=("reserved", "structure", "strings"), reserved=bytes(16), gap=0, behind=b"", **header):
    """A blob of these blocks in any order, `gap` bytes between them; `header` overwrites fields of the header."""
    body = b""
    at = {}
    for part in order:
        body += b"\xaa" * gap
        body += b"\0" * (-(40 + len(body)) % (8 if part == "reserved" else 4))
        at[part] = 40 + len(body)
        body += {"reserved": reserved, "structure": structure, "strings": strings}[part]
    fields = dict(
        magic=MAGIC,
        total=40 + len(body),
        structure=at["structure"],
        strings=at["strings"],
        reserved=at["reserved"],
        version=17,
        last=16,
        boot=0,
        strings_size=len(strings),
        structure_size=len(structure),
    )
    fields.update(header)
    return struct.pack(">10I", *fields.values()) + body + behind


FIELDS = ("magic", "total", "structure", "strings", "reserved", "version", "last", "boot", "strings_size", "structure_size")


def field(bytes_, name):
    return struct.unpack_from(">I", bytes_, 4 * FIELDS.index(name))[0]


def changed(bytes_, **header):
    """The same blob with other numbers in its header."""
    out = bytearray(bytes_)
    for name, value in header.items():
        struct.pack_into(">I", out, 4 * FIELDS.index(name), value)
    return bytes(out)


def put(bytes_, offset, number):
    """The same bytes with another 32-bit number at an offset."""
    out = bytearray(bytes_)
    struct.pack_into(">I", out, offset, number)
    return bytes(out)
