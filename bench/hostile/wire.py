"""The two programs over UDP on this machine, a relay between them, and a small client of a gateway that reads what state a device is in."""
import contextlib
import itertools
import os
import pathlib
import selectors
import socket
import subprocess
import tempfile
import threading
import time

EXAMPLES = pathlib.Path(__file__).resolve().parents[2] / "examples"
# A host of the loopback range of this process alone, so that two runs don't meet.
HOST = f"127.{1 + os.getpid() // 250 % 250}.{os.getpid() % 250}.1"

# The project that the line's device holds before a load, and the one that is loaded.
OLD, NEW, NOTHING = (str(EXAMPLES / name) for name in ("hall-before.txt", "hall.txt", "empty.txt"))
DEVICE = "11 05"

LOADED = ("job 1 load 1.1.5 done\nmissed 0\n", 0)
ENDED = ("ended\n", 0)

# No conversation takes so long, in seconds: three connect requests that aren't answered take 30, three attempts at a silent device 36.
LONGEST = 150

HPAI = bytes.fromhex("0801000000000000")
TUNNEL = bytes.fromhex("04040200")


# ---- datagrams

def datagram(service, body):
    return b"\x06\x10" + service.to_bytes(2, "big") + (6 + len(body)).to_bytes(2, "big") + body


def connect():
    return datagram(0x205, HPAI + HPAI + TUNNEL)


def connected(channel, endpoint=HPAI):
    return datagram(0x206, bytes([channel, 0]) + endpoint + bytes.fromhex("040411FF"))


def refused(channel, status):
    return datagram(0x206, bytes([channel, status]))


def asks_state(channel):
    return datagram(0x207, bytes([channel, 0]) + HPAI)


def tells_state(channel, status=0):
    return datagram(0x208, bytes([channel, status]))


def disconnect(channel):
    return datagram(0x209, bytes([channel, 0]) + HPAI)


def disconnected(channel, status=0):
    return datagram(0x20A, bytes([channel, status]))


def request(channel, number, cemi):
    return datagram(0x420, bytes([4, channel, number & 255, 0]) + cemi)


def acknowledgement(channel, number, status=0):
    return datagram(0x421, bytes([4, channel, number & 255, status]))


def to_device(tpdu, code=0x11):
    return bytes([code, 0, 0xBC, 0x60, 0, 0]) + bytes.fromhex(DEVICE) + bytes([len(tpdu) - 1]) + tpdu


def service(octets):
    return int.from_bytes(octets[2:4], "big") if len(octets) >= 6 else None


CONNECT, CONNECTED, STATE, TELLS_STATE, DISCONNECT, DISCONNECTED, REQUEST, ACK = 0x205, 0x206, 0x207, 0x208, 0x209, 0x20A, 0x420, 0x421


# ---- ports

def bound(port):
    """What the system says of a UDP port, of this host or of all; nothing where nobody has it (Linux)."""
    hosts = [f"{int.from_bytes(socket.inet_aton(host), 'little'):08X}" for host in (HOST, "0.0.0.0")]
    for line in pathlib.Path("/proc/net/udp").read_text(encoding="ascii").splitlines()[1:]:
        words = line.split()
        if words[1] in [f"{host}:{port:04X}" for host in hosts]:
            return words
    return None


def is_bound(port):
    return bound(port) is not None


def queued(port):
    """Octets that wait at a UDP port, and how many datagrams the system has thrown away there."""
    words = bound(port)
    return (int(words[4].split(":")[1], 16), int(words[-1])) if words else (0, 0)


PORTS = itertools.count(20_000)


def free_port():
    """A UDP port of this process's own host, of those that the system gives to nobody by itself. It isn't tried: a socket that tries it may live on in a program that
    is just begun."""
    return next(PORTS)


def endpoint(host=HOST, port=0):
    sock = socket.socket(socket.AF_INET, socket.SOCK_DGRAM)
    sock.bind((host, port))
    sock.settimeout(3)
    return sock


def pour(sock, port, octets, host=HOST, look=lambda: None):
    """Sends datagrams no faster than they are taken, and answers how many were sent. At each five hundred `look` is called."""
    sent = waiting = 0
    for sent, it in enumerate(octets, 1):
        if sent % 500 == 0:
            look()
        # what a waiting datagram takes of the 212,992 octets that the system lends a socket
        waiting += len(it) + 800
        if waiting > 100_000:
            drain(port)
            waiting = len(it)
        sock.sendto(it, (host, port))
    drain(port)
    return sent


def drain(port):
    """Waits until nothing waits at a port."""
    end = time.monotonic() + LONGEST
    while queued(port)[0] and time.monotonic() < end:
        time.sleep(0.0005)


def memory(pid, what="VmRSS"):
    """Octets of a process in memory, now or (VmHWM) at most."""
    with contextlib.suppress(OSError, IndexError):
        return 1024 * int(pathlib.Path(f"/proc/{pid}/status").read_text(encoding="ascii").split(f"{what}:")[1].split()[0])
    return 0


# ---- promises

class Wrong(Exception):
    """A promise that wasn't kept."""


def want(holds, what):
    if not holds:
        raise Wrong(what)


class Level:
    """What a program has in memory while datagrams are poured into it. What is over takes none: at the end it has at most a tenth more than after the first tenth."""

    def __init__(self, pid):
        self.pid, self.seen = pid, []

    def look(self):
        if now := memory(self.pid):
            self.seen.append(now)

    def told(self, sent):
        self.look()
        first, last = self.seen[len(self.seen) // 10], self.seen[-1]
        want(last <= 1.1 * first, f"{sent} datagrams, {first >> 10} KiB of memory after the first tenth of them and {last >> 10} after the last")
        return f"{sent} datagrams, {first >> 10} KiB of memory after the first tenth of them, {last >> 10} after the last"


# ---- the programs


def start(prog, *words, **how):
    return subprocess.Popen([prog, *words], stdin=subprocess.DEVNULL, stdout=subprocess.PIPE, stderr=subprocess.STDOUT, text=True, errors="replace", **how)


def end_of(process, longest=LONGEST):
    """What a process wrote, and its status; one that doesn't end in time is a promise that wasn't kept."""
    try:
        written, _ = process.communicate(timeout=longest)
    except subprocess.TimeoutExpired:
        process.kill()
        written, _ = process.communicate()
        raise Wrong(f"no end in {longest} s, after {written!r}") from None
    return written, process.returncode


def download(prog, port, *words, new=NEW):
    return end_of(start(prog, "download", f"{HOST}:{port}", new, *words))


@contextlib.contextmanager
def served(prog, old=OLD, script="", turns=1_000_000_000, host=HOST):
    """A gateway with its port. Where nothing went wrong it has to come to its own end afterwards, and to say so."""
    with tempfile.NamedTemporaryFile("w", suffix=".txt") as file:
        file.write(script)
        file.flush()
        line = Line(prog, free_port(), old, file.name, turns, host)
        try:
            yield line
            line.ends()
        finally:
            line.kill()


class Keeper(threading.Thread):
    """Tells each gateway of a set of ports one octet now and then, so that none ends, as it does after ten quiet turns of 100 ms."""

    def __init__(self):
        super().__init__(daemon=True)
        self.ports, self.lock = set(), threading.Lock()

    def run(self):
        with endpoint() as sock:
            while True:
                with self.lock:
                    for port in self.ports:
                        sock.sendto(b"\x06", (HOST, port))
                time.sleep(0.2)

    def keep(self, port):
        with self.lock:
            if not self.is_alive():
                self.start()
            self.ports.add(port)

    def leave(self, port):
        with self.lock:
            self.ports.discard(port)


KEEPER = Keeper()


class Line:
    """A running gateway, which goes on until it is asked to end."""

    def __init__(self, prog, port, old, script, turns, host):
        self.prog, self.port = prog, port
        self.process = start(prog, "gateway", f"{host}:{port}", old, script, f"turns={turns}")
        while self.process.poll() is None and not is_bound(port):
            time.sleep(0.01)
        KEEPER.keep(port)

    def kill(self):
        KEEPER.leave(self.port)
        if self.process.poll() is None:
            self.process.kill()
        self.process.wait()

    def is_alive(self):
        return self.process.poll() is None

    def holds(self):
        want(self.is_alive(), f"the gateway ended by itself: {self.process.returncode} {self.process.stdout.read() if not self.is_alive() else ''!r}")

    def serves(self, new=NEW, words=()):
        """An honest client is served: it loads the device, and a check finds what it loaded."""
        self.holds()
        found = download(self.prog, self.port, *words, new=new)
        want(found[1] == 0, f"an honest download afterwards: {found}")
        found = download(self.prog, self.port, "check:1.1.5", new=new)
        want(found == ("job 1 check 1.1.5 done\nmissed 0\n", 0), f"a check afterwards: {found}")

    def load_states(self):
        """What its client reads; on a busy machine it may come too late for a wait of the gateway, and reads again."""
        for _ in range(3):
            with contextlib.suppress(Wrong):
                return Client(self.port).load_states()
        raise Wrong("the load states can't be read")

    def checks(self, project):
        """Whether a check finds this project in the device; on a busy machine one may end without an answer, and is made again."""
        for _ in range(5):
            text, status = download(self.prog, self.port, "check:1.1.5", new=project)
            if status == 0 or " refused " in text:
                return status == 0
        raise Wrong(f"a check doesn't end: {text!r} {status}")

    def state(self):
        """What the device runs: `old`, `new`, or `stopped`."""
        self.holds()
        if self.load_states() != [1, 1, 1, 1]:
            return "stopped"
        for case, project in (("new", NEW), ("old", OLD)):
            if self.checks(project):
                return case
        raise Wrong("the device runs neither the old nor the new project")

    def renewed(self):
        """What the device runs; it is loaded with the old project again."""
        state = self.state()
        found = download(self.prog, self.port, new=OLD)
        want(found == LOADED, f"the old project again: {found}")
        return state

    def ends(self):
        """It ends by itself where a channel was made and nobody is there any more."""
        self.holds()
        with contextlib.suppress(Wrong):
            Client(self.port).leave()
        KEEPER.leave(self.port)
        found = end_of(self.process)
        want(found == ENDED, f"the gateway ended with {found}")


# ---- a client

class Client:
    """A client of a gateway: a channel, requests in it, and a numbered connection to the device."""

    def __init__(self, port, host=HOST):
        self.sock, self.to = endpoint(host), (HOST, port)
        self.number = self.expected = self.service = 0
        self.sock.sendto(connect(), self.to)
        self.channel = self.take(CONNECTED)[6]

    def take(self, *services):
        """The next datagram of these services; requests are acknowledged as they come."""
        end = time.monotonic() + 5
        while time.monotonic() < end:
            try:
                got = self.sock.recv(600)
            except TimeoutError:
                break
            if service(got) == REQUEST:
                self.sock.sendto(acknowledgement(self.channel, got[8]), self.to)
                if got[8] != self.expected:
                    continue
                self.expected = self.expected + 1 & 255
            if service(got) in services:
                return got
        raise Wrong("a client of the gateway waits in vain")

    def put(self, cemi):
        self.sock.sendto(request(self.channel, self.number, cemi), self.to)
        self.number = self.number + 1 & 255
        self.take(ACK)

    def indication(self, wanted):
        """The next TPDU of the device that `wanted` takes."""
        while True:
            got = self.take(REQUEST)[10:]
            if got[0] == 0x29 and wanted(got[9:]):
                return got[9:]

    def load_state(self, index):
        first = 0x40 | self.service << 2
        self.put(to_device(bytes([first | 3, 0xD5, index, 5, 0x10, 1])))
        answer = self.indication(lambda tpdu: len(tpdu) > 6 and tpdu[0] & 0xC3 == 0x43 and tpdu[1] == 0xD6)
        self.put(to_device(bytes([0xC2 | answer[0] & 0x3C])))
        self.service = self.service + 1 & 15
        return answer[6]

    def load_states(self):
        """The load states of address table, association table, group objects and application: 1 is Loaded."""
        # a connection that somebody has left open is closed first
        self.put(to_device(b"\x81"))
        self.put(to_device(b"\x80"))
        states = [self.load_state(index) for index in (1, 2, 3, 4)]
        self.put(to_device(b"\x81"))
        self.leave()
        return states

    def leave(self):
        self.sock.sendto(disconnect(self.channel), self.to)
        self.take(DISCONNECTED)
        self.sock.close()


# ---- a relay

class Relay:
    """Stands between a client and a gateway, and hands on what `lie` makes of each datagram: `lie(way, k, octets)` is asked with `up` or `down`, the number of
    the datagram of that way, from 1, and gives the datagrams that go on in its place. All that came by is kept in `seen`."""

    def __init__(self, gateway, lie):
        self.front, self.gateway, self.lie = endpoint(), gateway, lie
        self.port = self.front.getsockname()[1]
        self.seen, self.client, self.endpoints = [], None, {}
        self.selector = selectors.DefaultSelector()
        self.selector.register(self.front, selectors.EVENT_READ)
        self.counts = {"up": 0, "down": 0}
        self.over = threading.Event()
        self.thread = threading.Thread(target=self.run, daemon=True)

    def __enter__(self):
        self.thread.start()
        return self

    def __exit__(self, *_):
        self.over.set()
        self.thread.join()
        for sock in (self.front, *self.endpoints.values(), self.selector):
            sock.close()

    def run(self):
        while not self.over.is_set():
            for key, _ in self.selector.select(0.05):
                with contextlib.suppress(OSError):
                    self.hand_on(key.fileobj)

    def hand_on(self, sock):
        octets, sender = sock.recvfrom(65535)
        way = "up" if sock is self.front else "down"
        if way == "up":
            # each endpoint of the client is one of its own at the gateway
            if sender not in self.endpoints:
                self.endpoints[sender] = endpoint()
                self.selector.register(self.endpoints[sender], selectors.EVENT_READ)
            self.client = sender
        self.counts[way] += 1
        self.seen.append((way, octets))
        for it in self.lie(way, self.counts[way], octets):
            if way == "up":
                self.endpoints[sender].sendto(it, (HOST, self.gateway))
            elif self.client:
                self.front.sendto(it, self.client)


class Gate:
    """Plays a gateway: for each datagram that comes, `answer(octets)` gives those that go back to its sender."""

    def __init__(self, answer):
        self.sock, self.answer, self.sent, self.over = endpoint(), answer, 0, threading.Event()
        self.port = self.sock.getsockname()[1]
        self.sock.settimeout(0.05)
        self.thread = threading.Thread(target=self.run, daemon=True)

    def __enter__(self):
        self.thread.start()
        return self

    def __exit__(self, *_):
        self.over.set()
        self.thread.join()
        self.sock.close()

    def run(self):
        while not self.over.is_set():
            with contextlib.suppress(OSError):
                octets, sender = self.sock.recvfrom(65535)
                self.sent += pour(self.sock, sender[1], self.answer(octets))


def conversation(prog):
    """What an honest load sends each way, in order."""
    with served(prog) as line, Relay(line.port, lambda way, k, octets: [octets]) as relay:
        found = download(prog, relay.port)
        want(found == LOADED, f"an honest download through the relay: {found}")
        return list(relay.seen)
