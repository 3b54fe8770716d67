"""What comes at `download` in great number: each of what acts on nothing is counted as dropped, whatever else comes breaks no promise, and memory stays level."""
import itertools
import random
import re
import tempfile
import threading
import time

from dialled import DATAGRAMS, SLOWEST, judge, tally
from served import mutated
from wire import (ACK, CONNECT, CONNECTED, DISCONNECT, DISCONNECTED, HOST, NEW, REQUEST, STATE, TELLS_STATE, Gate, Level, Relay, Wrong, acknowledgement, asks_state,
                  connect, connected, datagram, disconnect, disconnected, download, end_of, endpoint, memory, pour, refused, request, served, service, start,
                  tells_state, to_device, want)

CASES = []

# The gateway of a load sends at least so many requests.
REQUESTS = 110

# So many datagrams are a flood.
FLOOD = 16_777_216

# How long after a datagram of the gateway its client may have asked for a connection state, or may ask before the next one, in seconds.
BEAT = 45

# How long a client is kept waiting, in seconds, and with how much more it may have been for a second, after which it repeats its request.
PATIENCE, BUSY = 0.25, 0.8

# A frame for the device, which the bus's other devices may send.
FRAME = to_device(b"\x80", 0x29)

# What the parts of a datagram are that tell what it answers: the places of its channel, its number and its status.
CHANNEL = {CONNECTED: 6, TELLS_STATE: 6, DISCONNECT: 6, DISCONNECTED: 6, REQUEST: 7, ACK: 7}
NUMBER = {REQUEST: 8, ACK: 8}
STATUS = {CONNECTED: 7, TELLS_STATE: 7, DISCONNECTED: 7, ACK: 9}


def case(promise):
    def add(function):
        CASES.append((function.__name__, promise, function))
        return function
    return add


# ---- counts

@case("`dropped` is exactly what came and acts on nothing: all twice")
def all_twice(tried):
    with served(tried.prog) as line, Relay(line.port, lambda way, k, octets: [octets, octets] if way == "down" else [octets]) as relay:
        text, status = download(tried.prog, relay.port, "log")
        want(status == 0 and line.state() == "new", f"{text!r} {status}")
    # of what comes twice a request is acknowledged again, and a response or an acknowledgement dropped
    # where it is still there to be dropped
    wanted = sum(service(octets) not in (REQUEST, DISCONNECTED) for way, octets in relay.seen if way == "down")
    want(text.endswith(f"\ndropped {wanted}\n"), f"wanted {wanted}: {text!r}")
    return f"dropped {wanted}"


class Awaited:
    """What the client of a load waits for, told by what it and its gateway have sent before `octets`, the gateway's next datagram."""

    def __init__(self, seen, octets, begun):
        ups = [it for way, it in seen if way == "up" and service(it) == REQUEST]
        downs = [it for way, it in seen if way == "down" and it is not octets and service(it) == REQUEST]
        # the client may have sent its next request already
        self.own = ups[-1][8] if ups else 255
        self.expected = downs[-1][8] + 1 & 255 if downs else 0
        self.late = time.monotonic() - begun > BEAT

    def acts(self, octets):
        """Whether a datagram may act on something in channel 1, or is of the number before, which is acknowledged again."""
        kind = service(octets)
        if kind not in CHANNEL or octets[CHANNEL[kind]:CHANNEL[kind] + 1] != b"\x01":
            return False
        if kind == ACK:
            return octets[9:] == b"\0" and octets[8] in (self.own, self.own + 1 & 255)
        if kind == REQUEST:
            return octets[8:9] in (bytes([self.expected]), bytes([self.expected - 1 & 255]))
        return kind == DISCONNECT or kind == TELLS_STATE and self.late


def counted_in_one(tried, them, most):
    """A load, before each of whose gateway's datagrams some of `them` that act on nothing are poured into the client, `most` in all. Each of them is dropped, and nothing
    else is. How many there were, and the client's memory; nothing where the machine was so busy that the client was kept waiting until it repeated a request."""
    # a little more each time, since of some nothing is sent
    each, sent, begun, level, waited = most // (DATAGRAMS - 21) + 1, [0], time.monotonic(), [], [0]

    def lie(way, k, octets):
        if way == "down" and service(octets) not in (CONNECTED, DISCONNECTED):
            running.wait()
            awaited, came = Awaited(relay.seen, octets, begun), time.monotonic()
            now = itertools.takewhile(lambda _: time.monotonic() < came + PATIENCE, itertools.islice(them, min(each, most - sent[0])))
            sent[0] += pour(relay.front, relay.client[1], (it for it in now if not awaited.acts(it)), look=level[0].look)
            waited[0] = max(waited[0], time.monotonic() - came)
        return [octets]
    running = threading.Event()
    with served(tried.prog) as line, Relay(line.port, lie) as relay:
        client = start(tried.prog, "download", f"{HOST}:{relay.port}", NEW, "log")
        level.append(Level(client.pid))
        running.set()
        text, status = end_of(client)
        note = level[0].told(sent[0]) if len(level[0].seen) > 20 else f"{sent[0]} datagrams"
        case = judge((text, status), line.state())
    ups = [octets for way, octets in relay.seen if way == "up" and service(octets) in (CONNECT, STATE, REQUEST)]
    if waited[0] > BUSY or len(ups) > len(set(ups)):
        return None
    want(case == ("done", "new"), f"{text!r} {status} {case}")
    want(text.endswith(f"\ndropped {sent[0]}\n"), f"wanted {sent[0]}: {text!r}")
    return sent[0], note


def counted(tried, them):
    """As many as are tried, in one load where the machine is fast enough, and else in several; of those in which the client had to repeat a request none is judged."""
    sent, notes, unjudged = 0, [], 0
    while sent < tried.count:
        found = counted_in_one(tried, them, tried.count - sent)
        if found:
            sent += found[0]
            notes.append(found[1])
        unjudged += not found
        want(unjudged <= 10, f"the machine is too busy: {unjudged} loads can't be judged, {len(notes)} were right")
    return f"dropped {sent} in {len(notes)} loads: {'; '.join(notes[:5])}" + f"; {unjudged} loads weren't judged" * bool(unjudged)


def noise(r, frames):
    """Datagrams of every kind, some near to what a load's gateway sends."""
    while True:
        kind, channel, octets = r.randrange(9), r.randrange(256), r.choice(frames)
        if kind == 0:
            yield r.randbytes(r.choice((0, 1, 5, 511, 512, 513, 1472)) if r.random() < 0.98 else 65507)
        elif kind == 1:
            yield datagram(r.choice((0x201, 0x203, 0x530, 0x310)), r.randbytes(r.randrange(64)))
        elif kind == 2:
            yield octets[:4] + (len(octets) + r.randrange(1, 9)).to_bytes(2, "big") + octets[6:]
        elif kind == 3:
            yield octets[:r.randrange(len(octets))]
        elif kind == 4:
            yield r.choice((connect(), asks_state(channel)))
        elif kind == 5:
            yield r.choice((disconnect(channel), disconnected(channel), tells_state(r.choice((1, channel)), r.randrange(256)), connected(channel)))
        elif kind == 6:
            yield acknowledgement(r.choice((1, channel)), r.randrange(256), r.choice((0, r.randrange(256))))
        elif kind == 7:
            yield request(r.choice((1, channel)), r.randrange(256), FRAME)
        else:
            yield request(1, r.randrange(256), r.randbytes(r.randrange(300)))


@case("`dropped` is exactly what came and acts on nothing: noise before each datagram")
def noise_counted(tried):
    frames = [octets for way, octets in tried.conversation() if way == "down"]
    # as much as is sent in a tenth of a load, again and again
    return counted(tried, itertools.cycle(list(itertools.islice(noise(tried.random, frames), min(tried.count, 30_000)))))


def every_number():
    """Each datagram that tells a channel, a number or a status, with each of these."""
    for first in range(256):
        for second in range(256):
            yield acknowledgement(1, first, second)
            yield acknowledgement(first, second)
            yield request(first, second, FRAME)
            yield tells_state(first, second)
            yield refused(first, second)
        yield disconnect(first)
        yield disconnected(first)
        yield asks_state(first)


@case("`dropped` is exactly what came and acts on nothing: every channel, number and status")
def every_number_counted(tried):
    them = list(every_number())
    tried.random.shuffle(them)
    return f"{counted(tried, itertools.cycle(them))}, of {len(them)} different ones"


@case("a request of the number before is acknowledged each time, acts on nothing and isn't dropped, however often it comes")
def number_before(tried):
    each, sent = tried.count // REQUESTS + 1, [0]

    def again(octets):
        """Each request of the gateway comes again, with another frame, so many times, and each time its acknowledgement is waited for."""
        number, left = octets[8], each
        relay.front.sendto(octets, relay.client)
        while left:
            burst = min(left, 50)
            for _ in range(burst):
                relay.front.sendto(request(1, number, FRAME), relay.client)
            left, sent[0] = left - burst, sent[0] + burst
            while burst:
                got, sender = relay.front.recvfrom(600)
                burst -= got == acknowledgement(1, number)
                if service(got) == REQUEST:
                    relay.endpoints[sender].sendto(got, (HOST, relay.gateway))

    def lie(way, k, octets):
        if way == "up" or service(octets) != REQUEST:
            return [octets]
        again(octets)
        return []
    with served(tried.prog) as line, Relay(line.port, lie) as relay:
        text, status = download(tried.prog, relay.port, "log")
        state = line.state()
    want(status == 0 and state == "new" and text.endswith("\ndropped 0\n"), f"{text!r} {status} {state}")
    return f"{sent[0]} requests, as many acknowledgements; dropped 0"


# ---- lies

def with_octet(octets, places, value):
    at = places.get(service(octets))
    return octets[:at] + bytes([value]) + octets[at + 1:] if at is not None and at < len(octets) else octets


def elsewhere(r, octets):
    """A connect response that names another endpoint."""
    return octets[:10] + r.randbytes(6) + octets[16:] if service(octets) == CONNECTED and len(octets) >= 16 else octets


# What a way of lying makes of a datagram, where `came` are all that came before it.
WAYS = {
    "lost": lambda r, octets, came: [],
    "twice": lambda r, octets, came: [octets] * r.randrange(2, MANY),
    "changed": lambda r, octets, came: [mutated(r, octets)],
    "changed first": lambda r, octets, came: [*(mutated(r, octets) for _ in range(r.randrange(MANY))), octets],
    "again": lambda r, octets, came: [*r.choices(came, k=r.randrange(MANY)), octets],
    "again behind": lambda r, octets, came: [octets, *r.choices(came, k=r.randrange(MANY))],
    "another channel": lambda r, octets, came: [with_octet(octets, CHANNEL, r.randrange(256))],
    "other channels": lambda r, octets, came: [*(with_octet(octets, CHANNEL, r.randrange(256)) for _ in range(MANY)), octets],
    "another number": lambda r, octets, came: [with_octet(octets, NUMBER, r.randrange(256))],
    "other numbers": lambda r, octets, came: [*(with_octet(octets, NUMBER, r.randrange(256)) for _ in range(MANY)), octets],
    "another status": lambda r, octets, came: [with_octet(octets, STATUS, r.randrange(256))],
    "two answers": lambda r, octets, came: r.sample([octets, with_octet(octets, r.choice((CHANNEL, NUMBER, STATUS)), r.randrange(256))], 2),
    "another endpoint": lambda r, octets, came: [elsewhere(r, octets)],
    "closed": lambda r, octets, came: [octets, disconnect(1)],
    "noise": lambda r, octets, came: [*itertools.islice(noise(r, [octets]), MANY), octets],
}

# How many datagrams at most a way makes of one.
MANY = 100

# Ways that are taken each time; the others now and then, since they cost attempts.
EACH_TIME = ("twice", "changed first", "other channels", "noise", "another endpoint")


def lied_to(tried, seed):
    """A load whose network lies in one to three ways, often or rarely, and in one of eight is silent from some place on: how it ended, what was sent to the client, and
    its memory at most."""
    r = random.Random(seed)
    ways = [(way, 1 if way in EACH_TIME else r.choice((0.005, 0.03, 0.15))) for way in r.sample(sorted(WAYS), r.randint(1, 3))]
    silent = r.randrange(1, DATAGRAMS) if r.random() < 0.125 else None
    came, sent, most, running = [], [0], [0], threading.Event()

    def lie(way, k, octets):
        if way == "up":
            running.wait()
            if k % 20 == 0 or service(octets) == DISCONNECT:
                most[0] = max(most[0], memory(client.pid, "VmHWM"))
            return [octets]
        if silent and k >= silent:
            return []
        came.append(octets)
        them = [octets]
        for name, rate in ways:
            if r.random() < rate:
                them = [it for octets in them[:2] for it in WAYS[name](r, octets, came)]
        sent[0] += len(them)
        return them
    with served(tried.prog) as line, Relay(line.port, lie) as relay:
        begun = time.monotonic()
        client = start(tried.prog, "download", f"{HOST}:{relay.port}", NEW, "log")
        running.set()
        found = end_of(client)
        took = time.monotonic() - begun
        judged = judge(found, line.state())
        want(took < SLOWEST, f"it took {took:.0f} s: {found}")
        dropped = re.search(r"^dropped (\d+)$", found[0], re.M)
        want(dropped is None or int(dropped[1]) <= sent[0], f"{sent[0]} were sent: {found}")
        return judged, sent[0], most[0]


def spread(tried, attack):
    """Attacks with ever new seeds, several at once, until as many datagrams were sent as are tried. A client has no more memory than the most of the first tenth and a
    tenth more."""
    drawn, seeds, sent, told, lock = tried.random.random(), itertools.count(), [0], [], threading.Lock()

    def works(_):
        while sent[0] < tried.count:
            seed = f"{drawn} {next(seeds)}"
            try:
                end, count, octets = attack(seed)
            except Wrong as wrong:
                raise Wrong(f"seed {seed}: {wrong}") from None
            with lock:
                sent[0] += count
                told.append((sent[0], end, octets))
    tried.each(range(32), works)
    first = max(octets for before, _, octets in told if before <= max(sent[0] / 10, told[0][0]))
    last = max(octets for _, _, octets in told)
    want(last <= 1.1 * first, f"{first >> 10} KiB of memory at most in the first tenth, {last >> 10} in all")
    return f"{sent[0]} datagrams in {len(told)} loads: {tally(end for _, end, _ in told)}; {first >> 10} KiB of memory at most in the first tenth, {last >> 10} in all"


@case("a network that lies in every way, over many loads: no false done, nothing half loaded, and each call ends")
def lies(tried):
    return spread(tried, lambda seed: lied_to(tried, seed))


def invented(r, channel, number, expected):
    """A datagram that a gateway without a device makes up."""
    kind = r.randrange(12)
    frame = bytes([r.choice((0x29, 0x2E, 0x11, r.randrange(256))), 0, r.choice((0xBC, 0xBD)), 0x60, 0x11, 0x05, 0x11, 0xFF]) if r.random() < 0.5 else r.randbytes(8)
    tpdu = r.choice((b"\x80", b"\x81", b"\xC2", b"\xC3", b"\x43\x40\x07\xB0", b"\x42\x40\x07\xB0", r.randbytes(r.randrange(1, 15))))
    frame += bytes([len(tpdu) - 1]) + tpdu
    near = r.choice((channel, channel, channel, r.randrange(256)))
    status = r.choice((0, 0, 0, 0x21, 0x24, r.randrange(256)))
    if kind < 6:
        return request(near, r.choice((expected, expected, expected - 1, r.randrange(256))), frame)
    return (acknowledgement(near, r.choice((number, r.randrange(256))), status), tells_state(near, status), datagram(0x206, bytes([near, status]) + b"\x08\x01" + r.randbytes(6) + bytes.fromhex("040411FF")),
            disconnected(near, status), disconnect(r.randrange(256)), r.randbytes(r.randrange(600)))[kind - 6]


def made_up(tried, seed):
    """A load of a gateway that makes up what it says: how it ended, what was sent, and the client's memory at most."""
    r, most, requests = random.Random(seed), [0], itertools.count()
    kept, burst, channel, running = r.choice((0.5, 0.9, 1)), r.choice((30, 300, 1000)), r.randrange(256), threading.Event()

    def answer(octets):
        running.wait()
        most[0] = max(most[0], memory(client.pid, "VmHWM"))
        kind = service(octets)
        number = octets[8] if kind == REQUEST else 0
        right = {CONNECT: connected(channel), REQUEST: acknowledgement(channel, number), DISCONNECT: disconnected(channel), STATE: tells_state(channel)}
        them = [right[kind]] if kind in right and r.random() < kept else []
        if kind in (CONNECT, REQUEST):
            expected = next(requests) if kind == REQUEST else 0
            them += [invented(r, channel, number, expected) for _ in range(r.randrange(burst))]
            r.shuffle(them)
        return them
    with Gate(answer) as gate:
        client = start(tried.prog, "download", f"{HOST}:{gate.port}", NEW, "log")
        running.set()
        begun = time.monotonic()
        found = end_of(client)
        took = time.monotonic() - begun
        judged = judge(found, "none")
        want(took < SLOWEST, f"it took {took:.0f} s: {found}")
        return judged, gate.sent, most[0]


@case("gateways that make up all that they say, over many loads: no false done, and each call ends")
def made_up_gateways(tried):
    return spread(tried, lambda seed: made_up(tried, seed))


# ---- floods

@case("a flood of noise on a client that waits for its channel ends with its wait, and takes no memory")
def flood_before(tried):
    with endpoint() as gate:
        client = start(tried.prog, "download", f"{HOST}:{gate.getsockname()[1]}", NEW, "log")
        gate.settimeout(20)
        _, sender = gate.recvfrom(600)
        level, sent = Level(client.pid), 0
        gate.settimeout(0)
        while client.poll() is None:
            try:
                _, sender = gate.recvfrom(600)
            except BlockingIOError:
                if sent < tried.count:
                    sent += pour(gate, sender[1], (b"\x06\x10" for _ in range(min(1000, tried.count))), look=level.look)
                else:
                    time.sleep(0.1)
        found = end_of(client)
    want(found[1] == 10 and found[0].endswith("\ngateway refused - - -\n"), f"{found}")
    return f"{level.told(sent)}; {found[0].splitlines()[-2]}"


@case("a flood that goes on while a job is unfinished is told at last by `flooded`, status 11")
def flooded(tried):
    if tried.count < FLOOD:
        return f"not tried: it takes some minutes, and --count {FLOOD}"
    devices, sent, before = "".join(f"device 1.1.{n} inline\n" for n in range(1, 61)), [0], [0]

    def lie(way, k, octets):
        if way == "down" and service(octets) not in (CONNECTED, DISCONNECTED):
            until = time.monotonic() + PATIENCE
            before[0] = sent[0]
            sent[0] += pour(relay.front, relay.client[1], itertools.takewhile(lambda _: time.monotonic() < until, itertools.repeat(b"\x06")))
        return [octets]
    with tempfile.NamedTemporaryFile("w", suffix=".txt") as file:
        file.write(devices)
        file.flush()
        with served(tried.prog, old=file.name) as line, Relay(line.port, lie) as relay:
            text, status = end_of(start(tried.prog, "download", f"{HOST}:{relay.port}", file.name, "workers=1"), 3600)
    want(status == 11 and text.endswith(" open\nmissed 0\nflooded\n"), f"{text[-200:]!r} {status}")
    # the client may end within the last of the pours
    want(before[0] < FLOOD <= sent[0] + 60 * DATAGRAMS, f"after {before[0]} to {sent[0]} datagrams")
    return f"after {sent[0]} datagrams, {text.count('done')} of 60 devices loaded"


@case("group telegrams as fast as they are acknowledged are heard, each is told, and none of them ends a job")
def flood_of_telegrams(tried):
    telegram, sent, numbers = bytes.fromhex("2900BCE011090A03010081"), [0], {}

    def lie(way, k, octets):
        """Puts telegrams behind each request of the gateway, which has other numbers for the client then."""
        if way == "down" and service(octets) == REQUEST:
            first = octets[8] + sent[0]
            burst = min(20, tried.count - sent[0])
            sent[0] += burst
            numbers[first & 255] = octets[8]
            return [octets[:8] + bytes([first & 255]) + octets[9:], *(request(octets[7], first + n, telegram) for n in range(1, burst + 1))]
        if way == "up" and service(octets) == ACK:
            return [octets[:8] + bytes([numbers.pop(octets[8])]) + octets[9:]] if octets[8] in numbers else []
        return [octets]
    with served(tried.prog) as line, Relay(line.port, lie) as relay:
        text, status = download(tried.prog, relay.port)
        want(status == 0 and line.state() == "new", f"{text[:200]!r} {status}")
    want(text.count("heard 1/2/3 1.1.9 write s01\n") == sent[0], f"{sent[0]} sent, {text.count('heard')} heard")
    return f"{sent[0]} telegrams"
