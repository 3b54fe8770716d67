"""The load plan and the check plan of docs/formats.md, and how a job ends that nothing disturbs but worn memory."""
from formats import hexed

# of the address table, the association table, the group objects and the application: where the segment begins
BASES = (0x4000, 0x5000, 0x7000, 0x8000)
UNLOADED, LOADED, LOADING = 0, 1, 2


def memory(code, address, octets):
    return (code | len(octets)).to_bytes(2, "big") + address.to_bytes(2, "big") + octets


def property_of(code, which, number, octets=b""):
    return code.to_bytes(2, "big") + bytes([which, number, 0x10, 0x01]) + octets


def pieces(base, octets, size):
    return [(base + at, octets[at:at + size]) for at in range(0, len(octets), size)]


def load_plan(image, size):
    """Each operation: what it writes (None where nothing, an address and octets, or a load event), and the wanted answer."""
    yield None, b"\x03\x40\x07\xB0"
    yield None, None
    yield "event", property_of(0x3D6, 4, 5, bytes([UNLOADED]))
    for which, (base, octets) in enumerate(zip(BASES, image), 1):
        for state in (UNLOADED, LOADING, LOADING):
            yield "event", property_of(0x3D6, which, 5, bytes([state]))
        yield None, property_of(0x3D6, which, 7, base.to_bytes(4, "big"))
        yield from ((piece, None) for piece in pieces(base, octets, size))
        yield from ((None, memory(0x240, *piece)) for piece in pieces(base, octets, size))
        yield "event", property_of(0x3D6, which, 5, bytes([LOADED]))


def check_plan(image, held, size):
    """Each operation's answer by a device that holds these four lists, or none, and the wanted answer."""
    yield b"\x03\x40\x07\xB0", b"\x03\x40\x07\xB0"
    yield b"", b""
    for which, base, octets in zip((1, 2, 3, 4), BASES, image):
        has = held[which - 1] if held else b""
        yield property_of(0x3D6, which, 5, bytes([LOADED if held else UNLOADED])), property_of(0x3D6, which, 5, bytes([LOADED]))
        yield (property_of(0x3D6, which, 7, base.to_bytes(4, "big")),) * 2
        for address, piece in pieces(base, octets, size) + [(base + len(octets), None)]:
            at, count = address - base, len(piece or b"\x00")
            there = has[at:at + count] if at + count <= len(has) else b""
            yield memory(0x240, address, there), memory(0x240, address, piece or b"")


def refused(k, got, wanted):
    return f"refused {k} got {hexed(got)} expected {hexed(wanted)}"


def load_end(image, size, worn):
    """How the first load of a device ends whose writes of these numbers meet worn memory."""
    writes, spoilt = 0, {}
    for k, (written, wanted) in enumerate(load_plan(image, size)):
        writes += written is not None
        if isinstance(written, tuple) and writes in worn:
            spoilt[written[0]] = bytes(octet ^ 255 for octet in written[1])
        address = int.from_bytes(wanted[2:4], "big") if wanted and wanted[0] == 2 else None
        if address in spoilt:
            return refused(k, memory(0x240, address, spoilt[address]), wanted)
    return "done"


def check_end(image, held, size):
    for k, (got, wanted) in enumerate(check_plan(image, held, size)):
        if got != wanted:
            return refused(k, got, wanted)
    return "done"
