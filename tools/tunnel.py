"""A tunnel of a KNXnet/IP gateway, over UDP, and a connection to a device behind it, for the tools that ask devices.

It sends as `knx download` does: one tunnel on the link layer, to the address that was dialled, which has to answer to where a datagram came from; one request at a
time, with low priority and 6 hops. What a gateway has to do and doesn't is `Refused`; what a device doesn't do is `Silent`.
"""
import collections
import re
import socket
import time

from texts import Refused, Usage, device_of

ADDRESS = re.compile(r"([0-9]{1,3})\.([0-9]{1,3})\.([0-9]{1,3})\.([0-9]{1,3})(?::([0-9]{1,5}))?", re.ASCII)
PORT = 3671

# Services of KNXnet/IP.
CONNECT_REQUEST, CONNECT_RESPONSE = 0x0205, 0x0206
STATE_REQUEST, STATE_RESPONSE = 0x0207, 0x0208
DISCONNECT_REQUEST, DISCONNECT_RESPONSE = 0x0209, 0x020A
TUNNELLING_REQUEST, TUNNELLING_ACK = 0x0420, 0x0421

# An endpoint that asks to answer to where the datagram came from, and what is asked for: a tunnel on the link layer.
ENDPOINT = bytes.fromhex("0801000000000000")
LINK_LAYER = bytes.fromhex("04040200")

REFUSALS = {0x22: "E_CONNECTION_TYPE", 0x23: "E_CONNECTION_OPTION", 0x24: "E_NO_MORE_CONNECTIONS", 0x25: "E_NO_MORE_UNIQUE_CONNECTIONS", 0x26: "E_DATA_CONNECTION", 0x27: "E_KNX_CONNECTION", 0x28: "E_AUTHORISATION_ERROR", 0x29: "E_TUNNELLING_LAYER"}

# Codes of cEMI, and what stands before the destination of a frame that is put.
L_DATA_CON, L_DATA_IND = 0x2E, 0x29
L_DATA_REQ = bytes.fromhex("1100BC600000")

T_CONNECT, T_DISCONNECT = b"\x80", b"\x81"
T_ACK, NUMBERED = 0xC2, 0x40

# What a device of System B on twisted pair tells as its mask version, and two properties of its tables' objects with the states of the first.
SYSTEM_B = bytes.fromhex("07B0")
LOAD_STATE, TABLE_REFERENCE = 5, 7
STATES = ["Unloaded", "Loaded", "Loading", "Error", "Unloading", "LoadCompleting"]
LOADED = b"\x01"

# Services of a device, each as two octets without the bits of the transport layer; a property's first element, and no more, is read.
DESCRIPTOR_READ, DESCRIPTOR_RESPONSE = b"\x03\x00", b"\x03\x40"
PROPERTY_READ, PROPERTY_RESPONSE, FIRST = b"\x03\xd5", b"\x03\xd6", b"\x10\x01"
MEMORY_READ, MEMORY_RESPONSE = 0x0200, 0x0240

# How many octets of memory are read at once, so that the answer is a standard frame; and where memory ends.
PIECE = 12
END_OF_MEMORY = 0x10000

# Waits in seconds, as the standard has them; the last is for a gateway that is left.
CONNECT_WAIT, STATE_WAIT, ACK_WAIT, CON_WAIT = 10, 10, 1, 3
T_ACK_WAIT, ANSWER_WAIT = 3, 6
LEAVE_WAIT = 1

# How often a request is sent, a state asked for and an end; how often a service. And how long a channel goes without a heartbeat, in seconds.
REQUESTS, ASKINGS, SERVICES = 2, 3, 4
HEARTBEAT = 60

LONGEST_DATAGRAM = 1024
MOST_FRAMES = 64

Frame = collections.namedtuple("Frame", "code has_error is_group source destination tpdu")


def octets_text(octets):
    return octets.hex().upper() or "-"


class Silent(Exception):
    """Why a device told no more."""


def address_of(word):
    """Host and port of a gateway's address, or None."""
    match = ADDRESS.fullmatch(word)
    *parts, port = (int(part or PORT) for part in match.groups()) if match else (256, 0)
    return (".".join(str(part) for part in parts), port) if max(parts) <= 255 and 1 <= port <= 65535 else None


def gateway_and_devices(words):
    """The gateway's address and the devices that the words of a call name: ADDR IA [IA ..]."""
    if len(words) < 2 or any(word.startswith("-") for word in words):
        raise Usage
    address, devices = address_of(words[0]), [device_of(word) for word in words[1:]]
    if not address:
        raise Refused(f"{words[0]} is no address of a gateway, as 192.168.1.20 or 192.168.1.20:3671")
    for word, device in zip(words[1:], devices):
        if not device:
            raise Refused(f"{word} is no individual address of a device")
    return address, devices


def endpoint_text(endpoint):
    return f"{endpoint[0]}:{endpoint[1]}"


def raw_of(device):
    area, line, part = device
    return area << 12 | line << 8 | part


def device_of_raw(raw):
    return raw >> 12, raw >> 8 & 15, raw & 255


def two(number):
    return number.to_bytes(2, "big")


def number_in(octets):
    return int.from_bytes(octets, "big")


def frame_of(octets):
    """What a cEMI frame says, or None where it is none."""
    at = 2 + octets[1] if len(octets) > 1 else len(octets)
    if len(octets) < at + 8 or len(octets) != at + 8 + octets[at + 6]:
        return None
    first, second = octets[at : at + 2]
    return Frame(octets[0], bool(first & 1), bool(second >> 7), number_in(octets[at + 2 : at + 4]), number_in(octets[at + 4 : at + 6]), octets[at + 7 :])


class Tunnel:
    """A tunnel; who leaves the `with` ends it, whatever came."""

    def __init__(self, address):
        self.address, self.channel, self.sent, self.got = address, None, 0, 0
        self.is_asked = False
        self.frames = collections.deque(maxlen=MOST_FRAMES)
        self.beaten = time.monotonic()

    def __enter__(self):
        self.socket = socket.socket(socket.AF_INET, socket.SOCK_DGRAM)
        try:
            self.connect()
        except BaseException:
            self.__exit__()
            raise
        return self

    def __exit__(self, *_):
        try:
            self.leave()
        except Refused:
            pass  # it is no more there to be ended
        finally:
            self.socket.close()

    def refused(self, why):
        return Refused(why, endpoint_text(self.address))

    def connect(self):
        self.send(CONNECT_REQUEST, ENDPOINT + ENDPOINT + LINK_LAYER)
        self.is_asked = True
        body = self.answer(CONNECT_RESPONSE, CONNECT_WAIT, lambda body: len(body) > 1)
        if not body:
            raise self.refused(f"no gateway answered a connect request in {CONNECT_WAIT} s")
        self.is_asked = False
        if body[1]:
            raise self.refused(f"the gateway refused a tunnel: status {body[1]:02X} {REFUSALS.get(body[1], '')}".rstrip())
        self.channel = body[:1]
        if len(body) < 14:
            raise self.refused("the gateway's connect response has no endpoint and tunnel address")
        self.endpoint = socket.inet_ntoa(body[4:8]), number_in(body[8:10])
        self.own = device_of_raw(number_in(body[12:14]))

    def send(self, service, body):
        try:
            self.socket.sendto(b"\x06\x10" + two(service) + two(6 + len(body)) + body, self.address)
        except OSError as fault:
            raise self.refused(fault.strerror) from fault

    def take(self, end):
        """The next datagram of the gateway, as its service and its body; None where none came until then."""
        while (left := end - time.monotonic()) > 0:
            self.socket.settimeout(left)
            try:
                octets, source = self.socket.recvfrom(LONGEST_DATAGRAM)
            except TimeoutError:
                return None
            except OSError as fault:
                raise self.refused(fault.strerror) from fault
            if source[0] == self.address[0] and octets[:2] == b"\x06\x10" and number_in(octets[4:6]) == len(octets):
                service, body = number_in(octets[2:4]), octets[6:]
                self.take_in(service, body)
                return service, body
        return None

    def take_in(self, service, body):
        """Acknowledges a frame of this channel and keeps it, or answers the channel's end."""
        if service == TUNNELLING_REQUEST and len(body) > 4 and body[1:2] == self.channel:
            if body[2] in (self.got, self.got - 1 & 255):
                self.send(TUNNELLING_ACK, bytes([4, *self.channel, body[2], 0]))
            if body[2] == self.got:
                self.got = self.got + 1 & 255
                if (frame := frame_of(body[4:])) and not frame.is_group:
                    self.frames.append(frame)
        elif service == DISCONNECT_REQUEST and self.channel and body[:1] == self.channel:
            self.send(DISCONNECT_RESPONSE, self.channel + b"\0")
            self.channel = None
            raise self.refused("the gateway ended the tunnel")

    def answer(self, service, seconds, is_wanted):
        """The body of the answer that is wanted; None where the time is over."""
        end = time.monotonic() + seconds
        while came := self.take(end):
            if came[0] == service and is_wanted(came[1]):
                return came[1]
        return None

    def frame(self, seconds, is_wanted):
        """The first frame that is wanted; None where the time is over. The others are kept."""
        end = time.monotonic() + seconds
        while True:
            found = next((frame for frame in self.frames if is_wanted(frame)), None)
            if found:
                self.frames.remove(found)
                return found
            if not self.take(end):
                return None

    def put(self, device, tpdu):
        """Puts a frame to a device, and says whether the gateway confirms it without error."""
        self.beat()
        head = bytes([4, *self.channel, self.sent, 0])
        for _ in range(REQUESTS):
            self.send(TUNNELLING_REQUEST, head + L_DATA_REQ + two(raw_of(device)) + bytes([len(tpdu) - 1]) + tpdu)
            if self.answer(TUNNELLING_ACK, ACK_WAIT, lambda body: body[1:4] == head[1:]):
                break
        else:
            elsewhere = self.endpoint not in (self.address, ("0.0.0.0", 0))
            raise self.refused("the gateway doesn't acknowledge a request" + (f": it takes them at {endpoint_text(self.endpoint)}, where knx sends none" if elsewhere else ""))
        self.sent = self.sent + 1 & 255
        con = self.frame(CON_WAIT, lambda frame: (frame.code, frame.destination, frame.tpdu) == (L_DATA_CON, raw_of(device), tpdu))
        if not con:
            raise self.refused(f"the gateway didn't confirm a frame in {CON_WAIT} s: is it on the bus?")
        return not con.has_error

    def from_device(self, device, seconds):
        """The next TPDU of a device to this tunnel; None where the time is over."""
        frame = self.frame(seconds, lambda frame: (frame.code, frame.source, frame.destination) == (L_DATA_IND, raw_of(device), raw_of(self.own)))
        return frame and frame.tpdu

    def beat(self):
        """Asks for the channel's state where that is due, so that the gateway keeps it."""
        if time.monotonic() < self.beaten + HEARTBEAT:
            return
        for _ in range(ASKINGS):
            self.send(STATE_REQUEST, self.channel + b"\0" + ENDPOINT)
            body = self.answer(STATE_RESPONSE, STATE_WAIT, lambda body: body[:1] == self.channel)
            if body == self.channel + b"\0":
                self.beaten = time.monotonic()
                return
        raise self.refused("the gateway no longer has the tunnel")

    def leave(self):
        """Ends the channel, where there is one; the answer to the connect request may be still to come."""
        if self.is_asked and (body := self.answer(CONNECT_RESPONSE, LEAVE_WAIT, lambda body: len(body) > 1 and not body[1])):
            self.channel = body[:1]
        channel, self.channel = self.channel, None
        for _ in range(ASKINGS if channel else 0):
            self.send(DISCONNECT_REQUEST, channel + b"\0" + ENDPOINT)
            if self.answer(DISCONNECT_RESPONSE, LEAVE_WAIT, lambda body: body[:1] == channel):
                return


class Connection:
    """A connection to a device; who leaves the `with` ends it, unless the tunnel failed."""

    def __init__(self, tunnel, device):
        self.tunnel, self.device, self.number, self.expected = tunnel, device, 0, 0

    def __enter__(self):
        if not self.tunnel.put(self.device, T_CONNECT):
            self.tunnel.put(self.device, T_DISCONNECT)
            raise Silent("nobody acknowledged the T_Connect: the address, its power, or the gateway's bus")
        return self

    def __exit__(self, kind, *_):
        if kind is not Refused:
            self.tunnel.put(self.device, T_DISCONNECT)

    def ask(self, service):
        """The answer to a service, both without the bits of the transport layer."""
        numbered = bytes([service[0] | NUMBERED | self.number << 2]) + service[1:]
        answer, is_acknowledged = None, False
        for _ in range(SERVICES):
            self.tunnel.put(self.device, numbered)
            answer, is_acknowledged = self.answer()
            if answer or is_acknowledged:
                break
        self.number = self.number + 1 & 15
        if not answer:
            raise Silent("it acknowledged a service and didn't answer" if is_acknowledged else "it acknowledged no service")
        return answer

    def mask(self):
        """The mask version."""
        answer = self.ask(DESCRIPTOR_READ)
        if answer[:2] != DESCRIPTOR_RESPONSE:
            raise Silent(f"it answered a read of its descriptor by {octets_text(answer)}")
        return answer[2:]

    def property(self, index, number):
        """The octets of a property's first element; none where the device doesn't tell it."""
        asked = bytes([index, number])
        answer = self.ask(PROPERTY_READ + asked + FIRST)
        if answer[:4] != PROPERTY_RESPONSE + asked or len(answer) < 6:
            raise Silent(f"it answered a read of property {number} of object {index} by {octets_text(answer)}")
        return answer[6:] if answer[4] >> 4 else b""

    def memory(self, place, count):
        """So many octets of memory."""
        octets = b""
        while len(octets) < count:
            start, size = place + len(octets), min(PIECE, count - len(octets))
            if start + size > END_OF_MEMORY:
                raise Silent(f"memory at {place:08X} lies beyond what is read")
            answer = self.ask(two(MEMORY_READ | size) + two(start))
            if answer != two(MEMORY_RESPONSE | size) + two(start) + answer[4:] or len(answer) != 4 + size:
                raise Silent(f"it answered a read of {size} octets at {start:04X} by {octets_text(answer)}")
            octets += answer[4:]
        return octets

    def answer(self):
        """The device's next answer, if it comes, and whether the service was acknowledged. An answer that came before is acknowledged again."""
        end, is_acknowledged = time.monotonic() + T_ACK_WAIT, False
        while tpdu := self.tunnel.from_device(self.device, end - time.monotonic()):
            if tpdu == T_DISCONNECT:
                raise Silent("it closed the connection")
            if tpdu == bytes([T_ACK | self.number << 2]):
                end, is_acknowledged = time.monotonic() + ANSWER_WAIT, True
            elif tpdu[0] & 0xC0 == NUMBERED and len(tpdu) > 1:
                number = tpdu[0] >> 2 & 15
                self.tunnel.put(self.device, bytes([T_ACK | number << 2]))
                if number == self.expected:
                    self.expected = number + 1 & 15
                    return bytes([tpdu[0] & 3]) + tpdu[1:], is_acknowledged
        return None, is_acknowledged
