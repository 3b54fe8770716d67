"""A KNXnet/IP gateway on loopback with devices of System B behind it, as the tools meet them: written after the standard, and no gateway or device on sale."""
import collections
import socket
import threading

OWN = 0x11FA
ENDPOINT = b"\x08\x01\x7f\x00\x00\x01"
# What the line brings besides: a group telegram, a frame between others with additional information, and what is no frame; and what is no datagram.
BESIDES = [bytes.fromhex(frame) for frame in ("2900BCE0110B0901010081", "2903AABBCCB060110B110C00C2", "2903AABBCCB060110B110C0100C2", "29", "29FF00")]
NOISE = [b"", b"\x06", b"\x06\x10\x04\x20\x05", b"\x06\x10\x04\x20\x00\x06", b"\x06\x10\x04\x20\x00\x08\x04\x07", b"\x06\x10\x02\x09\x00\x06", b"\x06\x10\x02\x09\x00\x08\x08\x00", bytes(600)]

PLACES = {1: 0x4000, 2: 0x5000, 3: 0x7000, 4: 0x8000}


class Device:
    """A device: its mask version, its properties by object and number, and what it does otherwise than most."""

    def __init__(self, mask=0x07B0, places=None, states=(1, 1, 1, 1), properties=None, memory=None, closes_at=None, is_secure=False, loses=()):
        self.mask, self.closes_at, self.is_secure, self.loses = mask, closes_at, is_secure, set(loses)
        self.properties = {(0, 56): b"\x00\x0f", (0, 12): b"\x00\xfa", (0, 11): bytes.fromhex("00FA00000001"), (4, 13): bytes.fromhex("00FA123410")}
        for index, place in (PLACES | (places or {})).items():
            self.properties |= {(index, 5): bytes([states[index - 1]]), (index, 7): place.to_bytes(4, "big") if isinstance(place, int) else place}
        self.properties |= properties or {}
        self.memory = memory or {}
        self.connected, self.expected, self.number, self.taken = False, 0, 0, 0

    def take(self, tpdu):
        """What it sends for a TPDU of its client."""
        if tpdu == b"\x80":
            self.connected, self.expected, self.number = True, 0, 0
        if tpdu == b"\x81":
            self.connected = False
        if tpdu[0] & 0xC0 != 0x40 or not self.connected or self.is_secure:
            return []
        self.taken += 1
        if self.taken in self.loses:
            return []
        if self.taken == self.closes_at:
            return [b"\x81"]
        number = tpdu[0] >> 2 & 15
        acknowledged = [bytes([0xC2 | number << 2])]
        if number != self.expected:
            return acknowledged
        self.expected = number + 1 & 15
        answer = self.answer(bytes([tpdu[0] & 3]) + tpdu[1:])
        if not answer:
            return acknowledged
        acknowledged.append(bytes([answer[0] | 0x40 | self.number << 2]) + answer[1:])
        self.number = self.number + 1 & 15
        return acknowledged

    def answer(self, asked):
        if asked == b"\x03\x00":
            return b"\x03\x40" + self.mask.to_bytes(2, "big")
        if asked[0] == 2 and asked[1] < 0x40 and len(asked) == 4:
            return self.memory_response(asked[1], int.from_bytes(asked[2:], "big"))
        if asked[:2] != b"\x03\xd5" or asked[4:] != b"\x10\x01":
            raise AssertionError(f"asked for {asked.hex()}")
        value = self.properties.get((asked[2], asked[3]), b"")
        return value if value is None else b"\x03\xd6" + asked[2:4] + (b"\x10\x01" if value else b"\x00\x01") + value


    def memory_response(self, count, place):
        """The octets of one segment, of which each is named by its start; or none, with count 0."""
        found = next((octets[place - start : place - start + count] for start, octets in self.memory.items() if start <= place and place + count <= start + len(octets)), b"")
        return bytes([2, 0x40 | len(found)]) + place.to_bytes(2, "big") + found


class Gateway(threading.Thread):
    """Serves one tunnel at a time. `loses` are the datagrams that never arrive, by their service and the number of such a one, from 1."""

    def __init__(self, devices=(), refuses=0, loses=(), own=OWN, confirms=True, data_port=None, ends_at=None, is_mute=False, doubles=False):
        super().__init__(daemon=True)
        self.devices, self.refuses, self.loses, self.own = dict(devices), refuses, set(loses), own
        self.confirms, self.data_port, self.ends_at, self.is_mute, self.doubles = confirms, data_port, ends_at, is_mute, doubles
        self.counts, self.puts, self.fault = collections.Counter(), [], None
        self.channel, self.got, self.sent, self.is_over = None, 0, 0, False
        self.socket = socket.socket(socket.AF_INET, socket.SOCK_DGRAM)
        self.socket.bind(("127.0.0.1", 0))
        self.socket.settimeout(0.02)
        self.port = self.socket.getsockname()[1]

    def run(self):
        while True:
            try:
                octets, client = self.socket.recvfrom(1024)
                self.take(octets, client)
            except TimeoutError:
                if self.is_over:
                    break
            except Exception as fault:
                self.fault = fault
        self.socket.close()

    def end(self):
        """Ends it, once it has taken what came."""
        self.is_over = True
        self.join()

    def send(self, service, body, client):
        octets = b"\x06\x10" + service.to_bytes(2, "big") + (6 + len(body)).to_bytes(2, "big") + body
        for _ in range(2 if self.doubles else 1):
            self.socket.sendto(octets, client)

    def take(self, octets, client):
        service, body = int.from_bytes(octets[2:4], "big"), octets[6:]
        self.counts[service] += 1
        if self.is_mute or (service, self.counts[service]) in self.loses:
            return
        if service == 0x205:
            self.connect(body, client)
        elif service == 0x207:
            self.send(0x208, bytes([body[0], 0 if body[0] == self.channel else 0x21]), client)
        elif service == 0x209:
            self.channel = None
            self.send(0x20A, bytes([body[0], 0]), client)
        elif service == 0x420 and body[1] == self.channel:
            self.request(body, client)

    def connect(self, body, client):
        assert body == bytes.fromhex("08010000000000000801000000000000" "04040200"), body.hex()
        if self.refuses:
            self.send(0x206, bytes([0, self.refuses]), client)
            return
        self.channel, self.got, self.sent = 7, 0, 0
        endpoint = ENDPOINT + (self.data_port or self.port).to_bytes(2, "big")
        self.send(0x206, bytes([7, 0]) + endpoint + b"\x04\x04" + self.own.to_bytes(2, "big"), client)

    def request(self, body, client):
        if self.data_port:
            return
        if self.counts[0x420] == self.ends_at:
            channel, self.channel = self.channel, None
            self.send(0x209, bytes([channel, 0]) + ENDPOINT + b"\x00\x00", client)
            return
        self.send(0x421, bytes([4, self.channel, body[2], 0]), client)
        if body[2] != self.got:
            return
        self.got = self.got + 1 & 255
        self.put(body[4:], client)

    def put(self, frame, client):
        assert frame[:6] == bytes.fromhex("1100BC600000"), frame.hex()
        destination, tpdu = int.from_bytes(frame[6:8], "big"), frame[9:]
        assert len(frame) == 10 + frame[8], frame.hex()
        self.puts.append((destination, tpdu))
        device = self.devices.get(destination)
        if self.confirms:
            self.up(bytes([0x2E, 0, 0xBC | (device is None and self.confirms != "all"), 0x60]) + self.own.to_bytes(2, "big") + frame[6:], client)
        for frame_besides in BESIDES:
            self.up(frame_besides, client)
        for octets in NOISE:
            self.socket.sendto(octets, client)
        for answer in device.take(tpdu) if device else ():
            self.up(bytes([0x29, 0, 0xBC, 0x60]) + frame[6:8] + self.own.to_bytes(2, "big") + bytes([len(answer) - 1]) + answer, client)

    def up(self, frame, client):
        self.send(0x420, bytes([4, self.channel, self.sent, 0]) + frame, client)
        self.sent = self.sent + 1 & 255
