"""What a gateway, or somebody on the way to it, may send to `download`. Whatever it is, the call ends in time, tells done only where the device runs the new
project, and leaves the device as it was, stopped or with the new project."""
import collections
import random
import re
import threading
import time

from wire import (ACK, CONNECT, CONNECTED, DISCONNECT, EXAMPLES, HOST, NEW, REQUEST, TELLS_STATE, Gate, Relay, acknowledgement, connected, disconnect, disconnected,
                  download, end_of, endpoint, refused, request, served, service, start, tells_state, want)

CASES = []

# The datagrams of an honest load each way, and the longest that any lie may make it, in seconds.
DATAGRAMS, SLOWEST = 171, 120

FLOOR = str(EXAMPLES / "floor.txt")

REPORT = re.compile(r"job 1 load 1\.1\.5 (done|open|failed(?: (?:nocon|closed|silent|tunnel)){3}|refused \d+ got (?:[0-9A-F]+|-) expected (?:[0-9A-F]+|-))\n"
                    r"(?:heard .*\n)*missed 0\n(?:log .*\n)*(?:dropped (\d+)\n)?(gateway refused(?: (?:[0-9A-F]{2}|-)){3}\n|flooded\n)?")

OTHER_LINE = re.compile(r"wrong line 1\.1\.5 tunnel \d+\.\d+\.\d+\n")


def case(promise):
    def add(function):
        CASES.append((function.__name__, promise, function))
        return function
    return add


def judge(found, state):
    """A report has its form, its status, and tells done only of a device that runs the new project. Of a tunnel on another line just that is told, and nothing is written."""
    text, status = found
    if OTHER_LINE.fullmatch(text):
        want(status == 12 and state in ("old", "none"), f"{found}, and the device is {state}")
        return "wrong line", state
    told = REPORT.fullmatch(text)
    want(told, f"no report: {found}")
    end = told[1].split()[0]
    want(status == (0 if end == "done" else {"g": 10, "f": 11}[told[3][0]] if told[3] else 1), f"another status: {found}")
    want(state == "new" or end != "done", f"done, and the device is {state}")
    return end, state


def through(tried, lie, script=""):
    """A load through a relay that lies: what was told, and the device afterwards."""
    with served(tried.prog, script=script) as line, Relay(line.port, lie) as relay:
        begun = time.monotonic()
        found = download(tried.prog, relay.port)
        took = time.monotonic() - begun
        state = line.state()
        judged = judge(found, state)
        want(took < SLOWEST, f"it took {took:.0f} s: {found}")
        return judged


def tally(ends):
    return ", ".join(f"{n} {end} and {state}" for (end, state), n in sorted(collections.Counter(ends).items()))


def all_done(ends):
    want(set(ends) == {("done", "new")}, tally(ends))
    return tally(ends)


def places(tried, few=12):
    """Each place of a load; with a small count a few of them, drawn by chance."""
    them = [(way, k) for way in ("up", "down") for k in range(1, DATAGRAMS + 1)]
    return them if tried.count >= 20_000 else sorted(tried.random.sample(them, few))


# ---- the network

@case("a datagram that is lost, each in turn, costs no more than time")
def one_lost(tried):
    return all_done(tried.each(places(tried), lambda place: through(tried, lambda way, k, octets: [] if (way, k) == place else [octets])))


@case("a datagram that comes twice, each in turn, changes nothing")
def one_twice(tried):
    return all_done(tried.each(places(tried), lambda place: through(tried, lambda way, k, octets: [octets] * (1 + ((way, k) == place)))))


@case("two datagrams that change places, each pair in turn, cost no more than time")
def two_swapped(tried):
    def attack(place):
        held = []

        def lie(way, k, octets):
            if (way, k) == place:
                held.append(octets)
                return []
            if held and way == place[0]:
                return [octets, held.pop()]
            return [octets]
        return through(tried, lie)
    return all_done(tried.each(places(tried), attack))


@case("a network that is silent from each place on leaves the device old, stopped or new, and the call ends")
def silence(tried):
    return tally(tried.each(places(tried), lambda place: through(tried, silent_from(place))))


def silent_from(place):
    silent = threading.Event()

    def lie(way, k, octets):
        if (way, k) == place:
            silent.set()
        return [] if silent.is_set() else [octets]
    return lie


@case("a datagram that is changed, each in turn, makes nothing half loaded and no false done")
def one_changed(tried):
    drawn = tried.random.random()

    def attack(place):
        r = random.Random(f"{drawn} {place}")

        def lie(way, k, octets):
            if (way, k) != place:
                return [octets]
            changed = bytearray(octets)
            for _ in range(r.choice((1, 1, 2, 4))):
                changed[r.randrange(len(changed))] ^= 1 << r.randrange(8)
            return [bytes(changed)]
        return through(tried, lie)
    return tally(tried.each(places(tried), attack))


@case("what the device answers, changed in each of its octets, makes no false done")
def one_answer_changed(tried):
    def attack(item):
        turn, place = item
        answers = [0]

        def lie(way, k, octets):
            if way == "down" and service(octets) == REQUEST and octets[10] == 0x29 and len(octets) > 21:
                answers[0] += 1
                if answers[0] == turn:
                    octets = octets[:-place] + bytes([octets[-place] ^ 1 + turn % 255]) + octets[len(octets) - place + 1:]
            return [octets]
        return through(tried, lie)
    items = [(turn, place) for turn in range(1, 25) for place in (1, 2, 3, 4)]
    return tally(tried.each(items if tried.count >= 20_000 else tried.random.sample(items, 8), attack))


@case("a minute and more on a slow network: a heartbeat that is refused costs one attempt, and the other devices are loaded all the same")
def refused_heartbeat(tried):
    refusals = [0]

    def lie(way, k, octets):
        if way == "down":
            time.sleep(0.15)
        if service(octets) == TELLS_STATE and refusals[0] < 1:
            refusals[0] += 1
            return [tells_state(octets[6], 0x21)]
        return [octets]
    with served(tried.prog, old=FLOOR) as line, Relay(line.port, lie) as relay:
        found = end_of(start(tried.prog, "download", f"{HOST}:{relay.port}", FLOOR, "workers=1"), 400)
    want(found == ("".join(f"job {k} load 1.1.{k + 4} done\n" for k in (1, 2, 3)) + "missed 0\n", 0), f"{found}")
    connects = sum(service(octets) == CONNECT for _, octets in relay.seen)
    want(refusals[0] == 1 and connects == 2, f"{refusals[0]} heartbeats refused, {connects} channels asked for")


# ---- a gateway that lies

@case("each of 255 statuses of a connect response is told, and ends the call")
def each_status(tried):
    def attack(status):
        with Gate(lambda octets: [refused(0, status)] if service(octets) == CONNECT else []) as gate:
            found = download(tried.prog, gate.port)
        want(found == (f"job 1 load 1.1.5 open\nmissed 0\ngateway refused {status:02X} {status:02X} {status:02X}\n", 10), f"{found}")
    tried.each(range(1, 256), attack)


@case("a channel of any number serves")
def each_channel(tried):
    def attack(channel):
        def lie(way, k, octets):
            """The gateway's own channel under this number."""
            at = 7 if service(octets) in (REQUEST, ACK) else 6
            if service(octets) == CONNECT:
                return [octets]
            if way == "down":
                return [octets[:at] + bytes([channel]) + octets[at + 1:]]
            return [octets[:at] + b"\x01" + octets[at + 1:]] if octets[at] == channel else []
        return through(tried, lie)
    return all_done(tried.each(range(256) if tried.count >= 20_000 else (0, 1, 2, 127, 128, 255), attack))


@case("the endpoint that a connect response names is none that anything is sent to")
def other_endpoints(tried):
    with endpoint("127.0.0.44") as other:
        other.settimeout(0)
        port = other.getsockname()[1]

        def attack(named):
            def lie(way, k, octets):
                return [octets[:8] + named + octets[16:] if service(octets) == CONNECTED else octets]
            return through(tried, lie)
        hosts = (bytes((127, 0, 0, 44)) + port.to_bytes(2, "big"), bytes((255, 255, 255, 255, 255, 255)), bytes((224, 0, 23, 12, 14, 87)))
        note = all_done(tried.each([b"\x08\x01" + host for host in hosts], attack))
        try:
            want(False, f"the other endpoint was sent {other.recv(600).hex()}")
        except BlockingIOError:
            return note


@case("a tunnel on another line is told before anything is written")
def other_line(tried):
    with served(tried.prog) as line, Relay(line.port, lambda way, k, octets: [octets[:18] + b"\x12\xff" if service(octets) == CONNECTED else octets]) as relay:
        found = download(tried.prog, relay.port)
        want(found == ("wrong line 1.1.5 tunnel 1.2.255\n", 12), f"{found}")
        want(line.state() == "old", "the device has changed")


@case("a device of another mask is refused before anything is written")
def other_mask(tried):
    with served(tried.prog) as line, Relay(line.port, lambda way, k, octets: [octets[:-2] + b"\x00\x12" if octets[-4:] == b"\x43\x40\x07\xb0" else octets]) as relay:
        found = download(tried.prog, relay.port)
        want(found == ("job 1 load 1.1.5 refused 0 got 03400012 expected 034007B0\nmissed 0\n", 1), f"{found}")
        want(line.state() == "old", "the device has changed")


def ends_of_gate(tried, answer, longest=SLOWEST):
    """How a load of a gateway that a script plays ends: nobody has a device, so it isn't done."""
    begun = time.monotonic()
    with Gate(answer) as gate:
        found = end_of(start(tried.prog, "download", f"{HOST}:{gate.port}", NEW, "log"), longest)
        end, _ = judge(found, "none")
    return f"{end} after {time.monotonic() - begun:.0f} s, {gate.sent} datagrams: {' / '.join(it for it in found[0].splitlines() if not it.startswith('log'))}"


def answering(then=lambda channel, number, cemi: [], first=lambda channel: []):
    """A gateway that gives a channel, acknowledges each request, and says what `then` makes of it."""
    def answer(octets):
        kind = service(octets)
        if kind == CONNECT:
            return [connected(7), *first(7)]
        if kind == REQUEST:
            return [acknowledgement(7, octets[8]), *then(7, octets[8], octets[10:])]
        return [disconnected(7)] if kind == DISCONNECT else [tells_state(7)] if kind == 0x207 else []
    return answer


def confirmed(numbers, channel, cemi, error=0):
    return request(channel, next(numbers), bytes([0x2E, 0, cemi[2] | error]) + cemi[3:])


@case("a gateway that isn't there is told")
def nobody(tried):
    with endpoint() as sock:
        port = sock.getsockname()[1]
    found = download(tried.prog, port)
    want(found == ("job 1 load 1.1.5 open\nmissed 0\ngateway refused - - -\n", 10), f"{found}")


@case("a gateway that never confirms ends each attempt")
def no_confirmation(tried):
    return ends_of_gate(tried, answering())


@case("a gateway that confirms with an error ends each attempt")
def error_confirmed(tried):
    numbers = iter(range(10**6))
    return ends_of_gate(tried, answering(lambda channel, number, cemi: [confirmed(numbers, channel, cemi, 1)]))


@case("a gateway that gives a channel and closes it at once, for ever, is given up")
def closes_at_once(tried):
    return ends_of_gate(tried, answering(first=lambda channel: [disconnect(channel)]))


@case("a gateway that closes the channel at each request is given up")
def closes_at_request(tried):
    return ends_of_gate(tried, answering(lambda channel, number, cemi: [disconnect(channel)]))


@case("a gateway that acknowledges with each other number, channel or status is given up")
def wrong_acknowledgements(tried):
    def answer(octets):
        if service(octets) == CONNECT:
            return [connected(7)]
        if service(octets) == REQUEST:
            return [acknowledgement(7, octets[8] + k) for k in range(1, 256)] + [acknowledgement(8, octets[8]), acknowledgement(7, octets[8], 0x24)]
        return []
    return ends_of_gate(tried, answer)


# ---- strangers

def forged(tried, make, host, loses=False):
    """In an honest load somebody at another host sends this to the client's endpoint, once, in the middle, where one of its requests is lost or goes on."""
    with served(tried.prog) as line, endpoint(host) as sock:
        forgeries = []

        def lie(way, k, octets):
            if way == "up" and k >= 80 and service(octets) == REQUEST and not forgeries:
                forgeries.append(make(octets))
                sock.sendto(forgeries[0], (HOST, relay.client[1]))
                return [] if loses else [octets]
            return [octets]
        with Relay(line.port, lie) as relay:
            text, status = download(tried.prog, relay.port, "log")
        want(status == 0 and line.state() == "new", f"{text!r} {status}")
        connects = sum(service(octets) == CONNECT for _, octets in relay.seen)
        want(connects == 1, f"it ended the channel: {connects} were asked for")


@case("a disconnect request that a stranger at another host forges doesn't end a channel")
def stranger_disconnects(tried):
    forged(tried, lambda octets: disconnect(1), "127.0.0.77")


@case("an acknowledgement that a stranger at another host forges isn't taken for the gateway's")
def stranger_acknowledges(tried):
    forged(tried, lambda octets: acknowledgement(1, octets[8]), "127.0.0.77", loses=True)


@case("a stranger's hundred datagrams a second don't stop time: a request that isn't acknowledged comes again after a second")
def stranger_stops_no_time(tried):
    lost, sent, over = [], [], threading.Event()

    def lie(way, k, octets):
        if way == "up" and service(octets) == REQUEST and (octets in lost or k >= 80 and not lost):
            sent.append(time.monotonic())
            if not lost:
                lost.append(octets)
                threading.Thread(target=pour, daemon=True).start()
                return []
            over.set()
        return [octets]

    def pour():
        while not over.wait(0.01):
            stranger.sendto(b"\x06", (HOST, relay.client[1]))

    with served(tried.prog) as line, endpoint("127.0.0.77") as stranger, Relay(line.port, lie) as relay:
        text, status = download(tried.prog, relay.port)
        over.set()
        want(status == 0 and line.state() == "new", f"{text!r} {status}")
        again = sent[1] - sent[0]
        want(0.8 < again < 2, f"the request again after {again:.2f} s")
        return f"the request again after {again:.2f} s"
