"""What a network may send to `gateway`. After each case an honest client has to be served, and the gateway has to come to its own end."""
import contextlib
import socket
import struct
import time

from wire import (ACK, CONNECT, DISCONNECT, HOST, LOADED, NOTHING, OLD, REQUEST, Client, Level, Relay, acknowledgement, asks_state, connect, disconnect, download, drain,
                  end_of, endpoint, free_port, is_bound, memory, pour, queued, request, served, service, start, to_device, want)

CASES = []


def case(promise):
    def add(function):
        CASES.append((function.__name__, promise, function))
        return function
    return add


def poured(tried, make, hosts=(HOST,)):
    """Pours the datagrams into a fresh gateway, and serves an honest client afterwards; none may be lost before the program takes it."""
    with served(tried.prog) as line:
        level, sent = Level(line.process.pid), 0
        for host in hosts:
            with endpoint(host) as sock:
                sent += pour(sock, line.port, make(), look=level.look)
        want(queued(line.port)[1] == 0, "the system threw datagrams away, so less was tried")
        note = level.told(sent)
        line.serves()
        return note


# ---- octets

def mutated(r, octets):
    """A datagram with a few octets changed, cut off, or with more behind it; one in two has the length that it says."""
    octets = bytearray(octets)
    for _ in range(r.choice((0, 1, 1, 2, 5)) if octets else 0):
        octets[r.randrange(len(octets))] = r.choice((0, 1, 0x7F, 0x80, 0xFF, r.randrange(256)))
    cut = r.choice((0, 0, 0, 1))
    octets = octets[:r.randint(0, len(octets))] if cut else octets + r.randbytes(r.choice((0, 0, 1, 14, 300, 600)))
    if len(octets) >= 6 and r.random() < 0.5:
        octets[4:6] = len(octets).to_bytes(2, "big")
    return bytes(octets)


@case("octets that are no frames, of 0 to 65,507 octets, are passed over")
def random_octets(tried):
    r, sizes = tried.random, (0, 1, 5, 6, 7, 8, 26, 63, 64, 300, 511, 512, 513, 1472, 65507)
    head = lambda: r.choice((b"", b"\x06", b"\x06\x10", b"\x06\x10\x04\x20", b"\x06\x10\x02\x05"))
    return poured(tried, lambda: ((head() + r.randbytes(size))[:size] for size in (r.choice(sizes[:-1]) if r.random() < 0.98 else sizes[-1] for _ in range(tried.count))))


@case("frames of a real conversation, changed, are no reason to end")
def mutated_frames(tried):
    frames = [octets for _, octets in tried.conversation()]
    return poured(tried, lambda: (mutated(tried.random, tried.random.choice(frames)) for _ in range(tried.count)))


@case("a real conversation again, from another address, leaves the line in order")
def replayed(tried):
    mine = [octets for way, octets in tried.conversation() if way == "up"]
    return poured(tried, lambda: iter(mine * max(1, tried.count // 4 // len(mine))), (HOST, "127.0.0.9", "127.1.2.3"))


@case("a real conversation in another order leaves the line in order")
def reordered(tried):
    mine = [octets for way, octets in tried.conversation() if way == "up"]
    return poured(tried, lambda: (octets for _ in range(max(1, tried.count // len(mine))) for octets in tried.random.sample(mine, len(mine))))


@case("each service, of each of 256 channels and each of 256 numbers, where no channel is open")
def no_channel(tried):
    makes = (lambda c, n: request(c, n, to_device(b"\x80")), acknowledgement, lambda c, n: asks_state(c), lambda c, n: disconnect(c))
    return poured(tried, lambda: (make(c, n) for c in range(256) for n in range(256) for make in makes[:2 if n else 4]))


# ---- floods

def flooded(tried, make, least=0):
    """Pours datagrams, at least so many, into an open channel from its own address, and serves an honest client afterwards."""
    with served(tried.prog) as line:
        client, level = Client(line.port), Level(line.process.pid)
        note = level.told(pour(client.sock, line.port, (make(client.channel, k) for k in range(max(tried.count, least))), look=level.look))
        client.sock.close()
        line.serves()
        return note


@case("connect requests of the client that has the channel")
def flood_of_connects(tried):
    return flooded(tried, lambda channel, k: connect())


@case("heartbeats")
def flood_of_heartbeats(tried):
    return flooded(tried, lambda channel, k: asks_state(channel))


@case("acknowledgements of every number and status")
def flood_of_acknowledgements(tried):
    return flooded(tried, lambda channel, k: acknowledgement(channel, k & 255, k >> 8 & 255))


@case("requests of every number, of which one in 256 is the next")
def flood_of_requests(tried):
    return flooded(tried, lambda channel, k: request(channel, tried.random.randrange(256), to_device(b"\x80")))


@case("requests, each the next one, whose confirmations nobody acknowledges")
def flood_of_next_requests(tried):
    # what waits for an acknowledgement has its greatest number after two seconds, which is less than the first tenth of so many
    return flooded(tried, lambda channel, k: request(channel, k & 255, to_device(b"\x80")), least=3_000_000)


@case("requests with every frame of 1 to 290 octets that is none")
def flood_of_wrong_frames(tried):
    return flooded(tried, lambda channel, k: request(channel, k & 255, tried.random.randbytes(1 + k % 290)))


@case("connect requests of many addresses, each of which takes the channel from the one before")
def many_clients(tried):
    with served(tried.prog) as line:
        before, sent = memory(line.process.pid), 0
        for k in range(min(tried.count, 40_000)):
            with endpoint(f"127.{2 + k // 50000}.{k // 250 % 200}.{1 + k % 250}") as sock:
                sock.sendto(connect(), (HOST, line.port))
                if k % 40 == 0:
                    drain(line.port)
            sent += 1
        drain(line.port)
        note = f"{sent} addresses, {(memory(line.process.pid) - before) / max(1, sent):.0f} octets of memory each"
        line.serves()
        return note


# ---- strangers while somebody is served

def disturbed(tried, make, each=3):
    """An honest load, and before each of its datagrams so many of a stranger, as `make` says. The load has to end done, in its one channel."""
    with served(tried.prog) as line, endpoint("127.0.0.66") as sock:
        sent = [0]

        def lie(way, k, octets):
            for _ in range(each if way == "up" else 0):
                sock.sendto(make(sent[0]), (HOST, line.port))
                sent[0] += 1
            return [octets]
        with Relay(line.port, lie) as relay:
            found = download(tried.prog, relay.port)
        want(found == LOADED, f"the load that a stranger disturbed: {found}")
        connects = sum(service(octets) == CONNECT for _, octets in relay.seen)
        want(connects == 1, f"it ended the channel: {connects} were asked for")
        line.serves()
        return f"{sent[0]} datagrams of a stranger in the load"


@case("a stranger's disconnect requests of all channels don't end another's")
def stranger_disconnects(tried):
    return disturbed(tried, lambda k: disconnect(k & 255))


@case("a stranger's requests and acknowledgements of another's channel are passed over")
def stranger_requests(tried):
    return disturbed(tried, lambda k: (request if k & 1 else lambda c, n, _: acknowledgement(c, n))(1, k >> 1 & 255, to_device(b"\x81")))


@case("a stranger's noise while a device is loaded")
def stranger_noise(tried):
    r = tried.random
    return disturbed(tried, lambda k: mutated(r, r.choice((asks_state(1), acknowledgement(1, 0), request(1, 0, to_device(b"\x80"))))))


@case("a stranger who takes the channel away once costs one attempt")
def stranger_connects(tried):
    with served(tried.prog) as line, endpoint("127.0.0.66") as sock:
        def lie(way, k, octets):
            if (way, k) == ("up", 60):
                sock.sendto(connect(), (HOST, line.port))
                sock.recv(100)
            return [octets]
        with Relay(line.port, lie) as relay:
            found = download(tried.prog, relay.port)
        want(found == LOADED, f"the load whose channel was taken away: {found}")
        want([octets for _, octets in relay.seen if service(octets) == CONNECT][1:], "it didn't ask for a second channel")
        line.serves()


@case("a client that goes away without a word doesn't keep the channel from the next one")
def gone_client(tried):
    with served(tried.prog) as line:
        for _ in range(20):
            client = Client(line.port)
            client.sock.sendto(request(client.channel, 0, to_device(b"\x80")), client.to)
            # what the gateway sends now finds nobody, and the system says so (ICMP)
            client.sock.close()
        line.serves()


@case("a stranger's hundred datagrams a second don't stop time: a request that isn't acknowledged comes again after a second, and after another the channel is closed")
def time_goes_on(tried):
    with served(tried.prog) as line, endpoint("127.0.0.66") as stranger, endpoint() as sock:
        sock.sendto(connect(), (HOST, line.port))
        sock.sendto(request(sock.recv(600)[6], 0, to_device(b"\x80")), (HOST, line.port))
        begun, came = time.monotonic(), []
        sock.settimeout(0.01)
        while time.monotonic() < begun + 6 and (not came or came[-1][0] != DISCONNECT):
            stranger.sendto(b"\x06", (HOST, line.port))
            with contextlib.suppress(TimeoutError):
                octets = sock.recv(600)
                came.append((service(octets), time.monotonic() - begun))
        want([it for it, _ in came] == [ACK, REQUEST, REQUEST, DISCONNECT], f"what the client got: {came}")
        first, again, end = (at for _, at in came[1:])
        want(0.8 < again - first < 2 and 0.8 < end - again < 2, f"the request again after {again - first:.2f} s, the end after another {end - again:.2f} s")
        line.serves()
        return f"the request again after {again - first:.2f} s, the end after another {end - again:.2f} s"


# ---- addresses

@case("a datagram of port 0, which nobody can answer, doesn't end the line")
def port_zero(tried):
    try:
        raw = socket.socket(socket.AF_INET, socket.SOCK_RAW, socket.IPPROTO_UDP)
    except PermissionError:
        return "not tried: it needs leave to send raw datagrams"
    with raw, served(tried.prog) as line:
        octets = connect()
        raw.sendto(struct.pack(">HHHH", 0, line.port, 8 + len(octets), 0) + octets, (HOST, 0))
        time.sleep(0.5)
        line.serves()


@case("an address that another program has is told, and nothing is served")
def taken_port(tried):
    with endpoint() as sock:
        found = end_of(start(tried.prog, "gateway", "%s:%d" % sock.getsockname(), OLD, NOTHING, "turns=10"), 20)
        want(found == ("link fault\n", 9), f"{found}")


@case("an address that this machine hasn't is told")
def foreign_address(tried):
    found = end_of(start(tried.prog, "gateway", "192.0.2.1:3671", OLD, NOTHING, "turns=10"), 20)
    want(found == ("link fault\n", 9), f"{found}")


@case("the turns end a flood that nothing else would")
def turns_used(tried):
    port = free_port()
    gateway = start(tried.prog, "gateway", f"{HOST}:{port}", OLD, NOTHING, "turns=2000")
    while gateway.poll() is None and not is_bound(port):
        time.sleep(0.01)
    with endpoint() as sock:
        pour(sock, port, (b"\x06" for _ in range(2000)))
    found = end_of(gateway, 20)
    want(found == ("open after 2000 turns\n", 13), f"{found}")
