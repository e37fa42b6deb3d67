"""How often the code of each object in an archive calls for bytes to be copied or filled, by the relocations that name the functions: of ELF as
of COFF, read here, so that the archives for machines that are not at hand are held to the same table.
"""

import struct
from collections import Counter

COPYING = ("memcpy", "memmove")
FILLING = ("memset",)

# No call of the allocator copies a state or an answer, nor does one with holders: fields are lent on as they are, the register's numbers too, and so are the
# bytes of an image. A map asks for its pages over a copy of the image.
COPIES = {"mapper.o": 1}
# The arrays of an empty state are filled, those of a local state or of the caller; on bare Arm the heads of the lists too, which elsewhere are a few stores.
FILLS = {
    "c_calls.o": (14, 18),
    "c_upgrade.o": (6, 7),
    "c_holders.o": (15, 18),
    "door_fields.o": (6, 8),
    "door_own.o": (0, 0),
    "door_lists.o": (12, 15),
    "door_accounts.o": (18, 21),
    "mapper.o": (16, 18),
}
BARE = "aarch64"


def members(archive):
    """The objects of an archive, by their names."""
    content, at = archive.read_bytes(), 8
    while at < len(content):
        name, size = content[at : at + 16].decode().rstrip(), int(content[at + 48 : at + 58])
        if name.rstrip("/"):  # else it is the index
            yield name.rstrip("/"), content[at + 60 : at + 60 + size]
        at += 60 + size + size % 2


def _text(content, at):
    return content[at : content.index(b"\0", at)].decode()


def _named_in_elf(content):
    start, size, count = struct.unpack_from("<Q", content, 40)[0], *struct.unpack_from("<HH", content, 58)
    sections = [struct.unpack_from("<IIQQQQIIQQ", content, start + size * k) for k in range(count)]
    for _, kind, _, _, at, length, link, _, _, _ in sections:
        if kind != 4:  # relocations with addends
            continue
        symbols, strings = sections[link][4], sections[sections[link][6]][4]
        for entry in range(at, at + length, 24):
            symbol = struct.unpack_from("<Q", content, entry + 8)[0] >> 32
            yield _text(content, strings + struct.unpack_from("<I", content, symbols + 24 * symbol)[0])


def _named_in_coff(content):
    count, _, symbols, amount, more = struct.unpack_from("<HIIIH", content, 2)
    strings = symbols + 18 * amount
    for k in range(count):
        at, _, relocations = struct.unpack_from("<IIH", content, 20 + more + 40 * k + 24)
        for entry in range(at, at + 10 * relocations, 10):
            name = symbols + 18 * struct.unpack_from("<I", content, entry + 4)[0]
            zero, offset = struct.unpack_from("<II", content, name)
            yield _text(content, strings + offset) if zero == 0 else content[name : name + 8].rstrip(b"\0").decode()


def counted(content):
    """How many calls of an object copy, and how many fill."""
    names = Counter(_named_in_elf(content) if content.startswith(b"\x7fELF") else _named_in_coff(content))
    return tuple(sum(names[name] for name in family) for family in (COPYING, FILLING))


def differences(archive):
    """What the objects of an archive have otherwise than the tables: as many copies, and no more fills."""
    kind, found = archive.parent.name, dict(members(archive))
    if sorted(found) != sorted(FILLS):
        yield f"{archive} has {', '.join(sorted(found))}, and the table of fills {', '.join(sorted(FILLS))}"
        return
    for name, content in found.items():
        copies, fills = counted(content)
        if copies != COPIES.get(name, 0):
            yield f"{name} for {kind} copies at {copies} places, and the table says {COPIES.get(name, 0)}"
        if fills > FILLS[name][kind == BARE]:
            yield f"{name} for {kind} fills at {fills} places, and the table says {FILLS[name][kind == BARE]}"
