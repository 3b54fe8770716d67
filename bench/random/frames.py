"""What `decode` has to tell of a datagram, by the tables of docs/formats.md."""
from formats import group_text, hexed, individual_text

SERVICES = {0x205: "connect-request", 0x206: "connect-response", 0x207: "connectionstate-request", 0x208: "connectionstate-response",
            0x209: "disconnect-request", 0x20A: "disconnect-response", 0x420: "tunnelling-request", 0x421: "tunnelling-ack",
            0x201: "search-request", 0x202: "search-response", 0x203: "description-request", 0x204: "description-response"}
CODES = {0x11: "req", 0x2E: "con", 0x29: "ind"}
# the ten bits of a service, its low six bits 0 where they carry something
GROUP = {0x000: "group-read", 0x040: "group-response", 0x080: "group-write"}
ADDRESS = {0x0C0: "individual-address-write", 0x100: "individual-address-read", 0x140: "individual-address-response"}
MEMORY = {0x200: "memory-read", 0x240: "memory-response", 0x280: "memory-write"}
DESCRIPTOR = {0x300: "descriptor-read", 0x340: "descriptor-response"}
PROPERTY = {0x3D5: "property-read", 0x3D6: "property-response", 0x3D7: "property-write"}


def number_at(octets, i):
    return octets[i] << 8 | octets[i + 1]


def is_endpoint(octets):
    return octets[:2] == b"\x08\x01"


def blocks(octets):
    """The blocks that octets are, each its type and its content; None where they are none."""
    found = []
    while octets:
        if len(octets) < 2 or octets[0] < 2 or octets[0] > len(octets):
            return None
        found.append((octets[1], octets[2:octets[0]]))
        octets = octets[octets[0]:]
    return found


def gateway(octets):
    """What blocks tell of a gateway; None where they don't."""
    found = blocks(octets)
    if found is None:
        return None
    information = [content for kind, content in found if kind == 1 and len(content) == 52]
    families = [content for kind, content in found if kind == 2]
    if len(information) != 1 or len(families) != 1 or len(families[0]) % 2:
        return None
    pairs = [f"{family:02X}.{version}" for family, version in zip(families[0][::2], families[0][1::2])]
    name = "".join(chr(o) if 0x20 <= o <= 0x7E else "?" for o in information[0][22:].split(b"\0")[0])
    return (f"{individual_text(number_at(information[0], 2))} serial {information[0][6:12].hex().upper()} mac {information[0][16:22].hex().upper()}"
            f" families {' '.join(pairs) or '-'} name {name or '-'}")


def is_body(service, body):
    n = len(body)
    if service in (0x201, 0x203):
        return n == 8 and is_endpoint(body)
    if service == 0x202:
        return n >= 8 and is_endpoint(body) and gateway(body[8:]) is not None
    if service == 0x204:
        return gateway(body) is not None
    if service == 0x205:
        return n == 20 and is_endpoint(body) and is_endpoint(body[8:]) and body[16:19] == b"\x04\x04\x02"
    if service == 0x206:
        return n >= 2 and (body[1] != 0 or n == 14 and is_endpoint(body[2:]) and body[10:12] == b"\x04\x04")
    if service in (0x207, 0x209):
        return n == 10 and is_endpoint(body[2:])
    if service in (0x208, 0x20A):
        return n == 2
    return body[:1] == b"\x04" and (n == 4 if service == 0x421 else 5 <= n <= 294)


def datagram(octets):
    """The lines of a datagram's parts."""
    if len(octets) < 6 or octets[:2] != b"\x06\x10":
        return ["ip refused 1 Header"]
    service, body = number_at(octets, 2), octets[6:]
    if service not in SERVICES:
        return ["ip refused 2 Service"]
    if number_at(octets, 4) != len(octets):
        return ["ip refused 3 Length"]
    if not is_body(service, body):
        return ["ip refused 4 Body"]
    said = f"ip {SERVICES[service]}"
    if service in (0x201, 0x203, 0x205):
        return [said]
    if service in (0x202, 0x204):
        return [f"{said} {gateway(body[8:] if service == 0x202 else body)}"]
    if service == 0x420:
        return [f"{said} channel {body[1]} number {body[2]}"] + cemi(body[4:])
    if service == 0x421:
        return [f"{said} channel {body[1]} number {body[2]} status {body[3]:02X}"]
    said += f" channel {body[0]}"
    if service in (0x206, 0x208, 0x20A):
        said += f" status {body[1]:02X}"
    return [said + (f" tunnel {individual_text(number_at(body, 12))}" if service == 0x206 and body[1] == 0 else "")]


def cemi(octets):
    # an octet that isn't there counts as 0, and the rule of the length goes first
    added = octets[1] if len(octets) > 1 else 0
    if len(octets) < 10 + added:
        return ["cemi refused 1 Short"]
    if octets[0] not in CODES:
        return ["cemi refused 2 Code"]
    first, second, length = octets[2 + added], octets[3 + added], octets[8 + added]
    source, destination = number_at(octets, 4 + added), number_at(octets, 6 + added)
    if first < 128 and second % 16:
        return ["cemi refused 3 Extended"]
    if len(octets) != 10 + added + length or first >= 128 and length > 15:
        return ["cemi refused 4 Length"]
    if first < 128 and length > 63:
        return ["cemi refused 5 Long"]
    said = f"cemi {CODES[octets[0]]} " + ("group" if second >= 128 else "individual") + f" {individual_text(source)} "
    said += group_text(destination) if second >= 128 else individual_text(destination)
    said += f" priority {first >> 2 & 3} hops {second >> 4 & 7}" + (" error" if octets[0] == 0x2E and first % 2 else "")
    return [said, "tpdu " + tpdu(octets[9 + added:])]


def tpdu(octets):
    first = octets[0]
    is_control = first in (0x80, 0x81) or first >= 0xC0 and first & 2
    if len(octets) == 1:
        if first in (0x80, 0x81):
            return "connect" if first == 0x80 else "disconnect"
        return f"{'nak' if first & 1 else 'ack'} {first >> 2 & 15}" if is_control else "refused 2 Code"
    if is_control:
        return "refused 3 Length"
    told = apdu((first & 3) << 8 | octets[1], octets[2:]) if first < 4 or 0x40 <= first < 0x80 else "refused 2 Code"
    return told if told.startswith("refused") else ("unnumbered " if first < 4 else f"numbered {first >> 2 & 15} ") + told


def apdu(code, rest):
    """The service's word and its fields, or the refusal of its code, its length or its count."""
    service, low, n = code & 0x3C0, code & 63, len(rest)
    if service in GROUP:
        if n > (0 if service == 0 else 14):
            return "refused 3 Length"
        return GROUP[service] + ("" if service == 0 else " " + (hexed(rest) if n else f"s{low:02X}"))
    if service in ADDRESS:
        if n != (2 if service == 0x0C0 else 0):
            return "refused 3 Length"
        return ADDRESS[service] + (f" {individual_text(number_at(rest, 0))}" if n else "")
    if service in MEMORY:
        if n < 2 or service == 0x200 and n > 2:
            return "refused 3 Length"
        if not (0 if service == 0x240 else 1) <= low <= 60 or service != 0x200 and n != 2 + low:
            return "refused 4 Count"
        return f"{MEMORY[service]} {low} {hexed(rest)}" if service == 0x200 else f"{MEMORY[service]} {hexed(rest[:2])} {hexed(rest[2:])}"
    if service in DESCRIPTOR:
        if n != (2 if service == 0x340 and low != 63 else 0):
            return "refused 3 Length"
        return f"{DESCRIPTOR[service]} {low} {hexed(rest)}"
    if code in PROPERTY:
        if n < 4 or n > (4 if code == 0x3D5 else 14):
            return "refused 3 Length"
        return f"{PROPERTY[code]} {rest[0]} {rest[1]} {rest[2] >> 4} {(rest[2] & 15) << 8 | rest[3]} {hexed(rest[4:])}"
    return "refused 2 Code"
