"""What a disk, a terminal or an operating system may do to a call: words, files and outputs that are none, signals, and memory that is refused."""
import contextlib
import os
import pathlib
import resource
import shutil
import signal
import subprocess
import tempfile
import threading
import time

from wire import ENDED, EXAMPLES, HOST, LOADED, LONGEST, NEW, NOTHING, OLD, Client, Relay, Wrong, download, end_of, endpoint, free_port, is_bound, pour, served, start, want

CASES = []

# The longest text that is read, in octets.
LONGEST_TEXT = 4_194_304

SIM = ["sim", NEW, OLD, NOTHING]
LOADED_LINE = ("job 1 load 1.1.5 done\ndevice 1.1.5 new\nmissed 0\n", 0)


def case(promise):
    def add(function):
        CASES.append((function.__name__, promise, function))
        return function
    return add


def call(tried, *words, stdout=subprocess.PIPE, longest=60, **how):
    """What a call writes, and its status."""
    how.setdefault("stdin", subprocess.DEVNULL)
    try:
        ran = subprocess.run([tried.prog, *words], stdout=stdout, stderr=subprocess.PIPE, timeout=longest, check=False, **how)
    except subprocess.TimeoutExpired:
        raise Wrong(f"{words[0]}: no end in {longest} s") from None
    want(not ran.stderr, f"something on standard error: {ran.stderr[:300]!r}")
    return (ran.stdout or b"").decode("utf-8", "backslashreplace"), ran.returncode


def wants(tried, *rows):
    """Each call with what it has to write, and its status; of an end that differs all is told."""
    bad = [f"{' '.join(map(ascii, words))[:120]}: {found}" for words, wanted, how in rows if (found := call(tried, *words, **how)) != wanted]
    want(not bad, "; ".join(bad))


def counts(them):
    return ", ".join(f"{them.count(it)} {it}" for it in sorted(set(them)))


def begun_gateway(tried, **how):
    """A gateway that has its port, or has ended, and the port."""
    port = free_port()
    gateway = start(tried.prog, "gateway", f"{HOST}:{port}", OLD, NOTHING, "turns=1000000000", **how)
    while gateway.poll() is None and not is_bound(port):
        time.sleep(0.01)
    return gateway, port


# ---- words

@case("words that are no command, of any length and octets, are answered by the usage line")
def words(tried):
    usage = ("usage: knx check, tables, migrate, sim, download, gateway, decode, find, assign or big, with their words\n", 2)
    r = tried.random
    them = [[], [""], ["check"], ["check", NEW, NEW], [b"check", b"\xff"], [b"\xff\xfe"], ["sim"] * 50_000, ["decode", "06" * 513], ["decode", "0"],
            ["gateway", "127.0.0.1:0", OLD, NOTHING, "turns=1"], ["download", "127.0.0.1:99999", NEW], ["big", "1"],
            *([r.randbytes(r.randrange(1, 60)).replace(b"\0", b"\xff") for _ in range(r.randrange(6))] for _ in range(40))]
    wants(tried, *((it, usage, {}) for it in them))


# ---- files

@case("files that aren't there or can't be read are told by their names, with status 6")
def files(tried):
    with tempfile.TemporaryDirectory() as folder:
        long, deep = "x" * 255, "/".join(["."] * 2040) + "/nothing"
        absent = [f"{folder}/absent", f"{NEW}/below", f"{folder}/{long}", deep, "\n", "-", "\u00e4" * 100]
        failed = [folder, "/proc/self/mem", f"{folder}/{long}x", "/" + "x/" * 2047 + "y", "x" * 4096]
        rows = [(["check", name], (f"read fault {name} {why}\n", 6), {}) for names, why in ((absent, "NotThere"), (failed, "Failed")) for name in names]
        rows += [(["sim", *(folder if place == bad else name for place, name in enumerate((NEW, OLD, NOTHING)))], (f"read fault {folder} Failed\n", 6), {}) for bad in range(3)]
        rows += [(["check", NEW, f"catalogue={folder}"], (f"read fault {folder} Failed\n", 6), {}), (["check", NEW, "catalogue="], ("read fault  NotThere\n", 6), {})]
        wants(tried, *rows)


@case("a text of 4,194,304 octets is read, one octet more is told, and of one without end no more is taken")
def long_files(tried):
    many = ("new line 0: 19 TooMany 4194304\n", 3)
    with tempfile.TemporaryDirectory() as folder:
        rows = []
        for name, octets, wanted in (("most", b"#\n" * (LONGEST_TEXT // 2), ("ok devices 0 objects 0 links 0\n", 0)), ("more", b"#\n" * (LONGEST_TEXT // 2) + b"#", many)):
            pathlib.Path(folder, name).write_bytes(octets)
            rows.append((["check", f"{folder}/{name}"], wanted, {}))
        with open(f"{folder}/zeros", "wb") as file:
            file.truncate(4 << 30)
        rows += [(["check", name], many, {}) for name in (f"{folder}/zeros", "/dev/zero", "/dev/urandom")]
        rows += [(["check", NEW, "catalogue=/dev/zero"], ("catalogue: 5 Long\n", 4), {})]
        rows += [(["sim", NEW, OLD, "/dev/zero"], ("script line 0: 19 TooMany 4194304\n", 5), {})]
        wants(tried, *rows)


@case("a file that shrinks while it is read is read as some front of it")
def shrinking_file(tried):
    line, whole = b"project hall\n", 60_000
    seen = set()
    with tempfile.TemporaryDirectory() as folder:
        name = pathlib.Path(folder, "p")
        for _ in range(20):
            name.write_bytes(line * whole)
            running = start(tried.prog, "check", str(name))
            time.sleep(tried.random.random() * 0.01)
            os.truncate(name, tried.random.randrange(len(line) * whole))
            seen.add(end_of(running))
    odd = {it for it in seen if it[1] != 0 and not (it[1] == 3 and it[0].startswith("new line ") and it[0].split()[4] in ("UnknownWord", "MissingWord", "NotText"))}
    want(not odd, f"{odd}")


@case("a pipe is read to its end, however slowly and in whatever pieces it comes")
def slow_pipe(tried):
    text = pathlib.Path(NEW).read_bytes()
    running = subprocess.Popen([tried.prog, "sim", "/dev/stdin", OLD, NOTHING], stdin=subprocess.PIPE, stdout=subprocess.PIPE, text=False)
    for octet in text:
        running.stdin.write(bytes([octet]))
        running.stdin.flush()
        time.sleep(0.003)
    running.stdin.close()
    found = running.stdout.read().decode(), running.wait()
    want(found == LOADED_LINE, f"{found}")


# ---- outputs

@case("an output that can't be written is told by status 7, and a reader that has gone by no signal")
def outputs(tried):
    with open("/dev/full", "wb") as full:
        wants(tried, *((it, ("", 7), {"stdout": full}) for it in (["check", NEW], SIM, ["tables", NEW], ["decode", "00"], ["nonsense"], ["check", "absent"])))
    read, write = os.pipe()
    os.close(read)
    with os.fdopen(write, "wb") as gone:
        wants(tried, *((it, ("", 7), {"stdout": gone}) for it in (["check", NEW], SIM)))


@case("an output that takes little at a time gets all of it")
def slow_reader(tried):
    many = "".join(f"device 1.1.{n} inline\n" for n in range(1, 255))
    with tempfile.NamedTemporaryFile("w") as file:
        file.write(many)
        file.flush()
        whole = call(tried, "tables", file.name)
        running = start(tried.prog, "tables", file.name)
        text = ""
        while piece := os.read(running.stdout.fileno(), 97).decode():
            text += piece
            time.sleep(0.0005)
        status = running.wait()
    want((text, status) == whole and len(text) > 4096, f"{len(text)} octets, status {status}")


@case("an output that would block is told by status 7, and doesn't hang")
def blocked_output(tried):
    many = "".join(f"device 1.1.{n} inline\n" for n in range(1, 255))
    with tempfile.NamedTemporaryFile("w") as file:
        file.write(many)
        file.flush()
        read, write = os.pipe()
        with contextlib.suppress(BlockingIOError):
            os.set_blocking(write, False)
            while True:
                os.write(write, bytes(4096))
        found = call(tried, "tables", file.name, stdout=write)
        os.close(read), os.close(write)
    want(found == ("", 7), f"{found}")


@case("closed standard files harm no file and no peer")
def closed_files(tried):
    with tempfile.TemporaryDirectory() as folder:
        copy = pathlib.Path(folder, "p")
        copy.write_bytes(pathlib.Path(NEW).read_bytes())
        found = {}
        for closed in ((0,), (1,), (2,), (0, 1), (1, 2), (0, 1, 2)):
            shut = "".join(f" {fd}>&-" for fd in closed)
            ran = subprocess.run(["sh", "-c", f'exec "$0" "$@"{shut}', tried.prog, "sim", str(copy), OLD, NOTHING], stdin=subprocess.DEVNULL, stdout=subprocess.PIPE, check=False)
            found[closed] = ran.returncode
            want(ran.returncode == (7 if 1 in closed else 0), f"closed {closed}: status {ran.returncode}")
        want(copy.read_bytes() == pathlib.Path(NEW).read_bytes(), "a file was written to")
        with served(tried.prog) as line:
            ran = subprocess.run(["sh", "-c", 'exec "$0" "$@" >&- <&-', tried.prog, "download", f"{HOST}:{line.port}", NEW], check=False, timeout=LONGEST)
            want(ran.returncode == 7, f"a download without output: status {ran.returncode}")
            want(line.state() == "new", "the device isn't new after it")


# ---- signals

@case("a download that is ended by a signal at any moment leaves the device old, stopped or new, and the next one loads it")
def signals(tried):
    kinds = (signal.SIGINT, signal.SIGTERM, signal.SIGKILL, signal.SIGHUP)

    def attack(item):
        turn, kind = item
        with served(tried.prog) as line, Relay(line.port, lambda way, k, octets: ended(k) if way == "up" else [octets]) as relay:
            begun = threading.Event()

            def ended(k):
                begun.wait()
                if k == turn:
                    client.send_signal(kind)
                return [relay.seen[-1][1]]
            client = start(tried.prog, "download", f"{HOST}:{relay.port}", NEW)
            begun.set()
            written, status = end_of(client)
            want((written, status) == ("", -kind), f"{written!r} and status {status}")
            case = line.state()
            line.serves()
            return case
    turns = range(1, 172) if tried.count >= 20_000 else tried.random.sample(range(1, 172), 8)
    cases = tried.each([(turn, kinds[turn % 4]) for turn in turns], attack)
    return counts(cases)


@case("a gateway frees the tunnel of a client that was killed after 120 s, and then comes to its end")
def freed_tunnel(tried):
    gateway, port = begun_gateway(tried)
    Client(port).sock.close()
    begun = time.monotonic()
    found = end_of(gateway, 200)
    took = time.monotonic() - begun
    # each of its turns of 100 ms takes longer on a busy machine
    want(found == ENDED and 119 < took < 180, f"{found} after {took:.0f} s")
    return f"after {took:.0f} s"


@case("a gateway that is stopped for a while and goes on serves as before")
def stopped_gateway(tried):
    with served(tried.prog) as line:
        running = start(tried.prog, "download", f"{HOST}:{line.port}", NEW)
        time.sleep(0.1)
        line.process.send_signal(signal.SIGSTOP)
        time.sleep(1.5)
        line.process.send_signal(signal.SIGCONT)
        found = end_of(running)
        want(found == LOADED, f"{found}")
        line.serves()


# ---- threads

def alone():
    """For a process that makes no thread beside its first; the system lets its administrator make more, so he becomes nobody."""
    resource.setrlimit(resource.RLIMIT_NPROC, (1, 1))
    if os.geteuid() == 0:
        os.setgroups([])
        os.setuid(65534)


@case("where the system makes no thread, one does all, and what is told is the same")
def no_thread(tried):
    with tempfile.TemporaryDirectory() as folder:
        os.chmod(folder, 0o755)
        prog, new, old = (shutil.copy(it, folder) for it in (tried.prog, NEW, OLD))
        script = pathlib.Path(folder) / "script"
        script.write_text("then group 1/2/3 s01\n", encoding="ascii")
        for words in (["sim", new, old, script], ["sim", new, old, script, "workers=8"], ["big", "60", "7"], ["tables", new]):
            wanted = call(tried, *words)
            ran = subprocess.run([prog, *words], stdin=subprocess.DEVNULL, capture_output=True, preexec_fn=alone, check=False, timeout=60)
            found = ran.stdout.decode("utf-8", "replace"), ran.returncode
            want(sorted(found[0].splitlines()) == sorted(wanted[0].splitlines()) and found[1] == wanted[1], f"{words[0]}: {found}")


# ---- memory

def limited(octets):
    return lambda: resource.setrlimit(resource.RLIMIT_AS, (octets, octets))


# From what no program can be begun with to what is enough for all of these calls, in octets.
SIZES = range(1 << 20, 1 << 26, 1 << 17)


def is_begun(ran):
    """Whether the program itself ran: where it can't be begun, the system tells so on standard error, by a signal or by these statuses."""
    return not ran.stderr and ran.returncode >= 0 and ran.returncode not in (126, 127)


def least(tried, words, wanted, judge=lambda: None):
    """Makes a call with more and more memory, until it ends as wanted; before that it has to tell that there is none. How often that was, and the least that is enough."""
    times = 0
    for size in SIZES:
        ran = subprocess.run([tried.prog, *words], stdin=subprocess.DEVNULL, capture_output=True, preexec_fn=limited(size), check=False, timeout=LONGEST)
        found = ran.stdout.decode("utf-8", "replace"), ran.returncode
        if found == wanted:
            return f"{words[0]} {times} times, {size} octets are enough"
        if is_begun(ran):
            want(found[1] == 8 and found[0].endswith("no memory\n"), f"{words[0]} with {size} octets: {found}")
            times += 1
            judge()
    raise Wrong(f"{words[0]}: {SIZES.stop} octets aren't enough")


@case("memory that the system refuses, from any size on, is told by status 8, or isn't missed")
def refused_memory(tried):
    devices = "".join(f"device 1.1.{n} inline\nobject 1.1.{n} 1 1 CW\nlink 1.1.{n} 1 1/2/3\n" for n in range(1, 200))
    with tempfile.TemporaryDirectory() as folder:
        name = f"{folder}/p"
        pathlib.Path(name).write_text("ga 1/2/3 light\n" + devices, encoding="ascii")
        commands = [["check", name], ["tables", name], ["sim", name, NOTHING, NOTHING], ["decode", "06100209001001000801000000000000"]]
        return "; ".join(least(tried, words, call(tried, *words, longest=LONGEST)) for words in commands)


@case("a download whose memory is refused leaves the device old, stopped or new")
def refused_memory_of_download(tried):
    with served(tried.prog) as line:
        cases = []
        note = least(tried, ["download", f"{HOST}:{line.port}", NEW], LOADED, lambda: cases.append(line.renewed()))
        return f"{note}; the device was {counts(cases)} meanwhile"


class Refusing:
    """Runs a program whose N-th growth of memory is refused (refuse.c)."""

    def __init__(self, folder):
        self.folder, self.library = folder, f"{folder}/refuse.so"
        subprocess.run(["cc", "-shared", "-fPIC", "-O2", "-o", self.library, str(pathlib.Path(__file__).with_name("refuse.c")), "-ldl"], check=True)

    def told(self, number):
        """The file that is there where this growth was refused."""
        return pathlib.Path(self.folder, f"refused-{number}")

    def environment(self, number, later):
        self.told(number).unlink(missing_ok=True)
        return {"LD_PRELOAD": self.library, "KNX_REFUSE": str(number), "KNX_REFUSED": str(self.told(number)), **({"KNX_REFUSE_ON": "1"} if later else {})}

    def run(self, number, words, later):
        """What came, and whether a growth was refused."""
        env = self.environment(number, later)
        ran = subprocess.run(words, stdin=subprocess.DEVNULL, capture_output=True, env=env, check=False, timeout=LONGEST)
        return (ran.stdout.decode("utf-8", "replace"), ran.returncode), self.told(number).exists()

    def each(self, words, wanted, judge=lambda: None, most=7000):
        """Refuses each growth in turn, alone and with all later ones; of more than `most` some are drawn by chance, as many in each stretch."""
        count = self.count(words)
        want(count > 0, "none of its growths is refused")
        numbers = range(1, count + 1) if count <= most else [1 + k * count // most for k in range(most)]
        for number in numbers:
            for later in (False, True):
                found, refused = self.run(number, words, later)
                want(found == wanted or found[1] == 8 and found[0].endswith("no memory\n"), f"{words[1]}, growth {number}{' and later' * later}: {found}")
                judge()
        return f"{words[1]} {len(numbers)} of {count}"

    def count(self, words):
        """How many growths a call asks for: the first number that isn't reached, less one."""
        low, high = 0, 1
        while self.run(high, words, False)[1]:
            low, high = high, 2 * high
        while high - low > 1:
            middle = (low + high) // 2
            low, high = (middle, high) if self.run(middle, words, False)[1] else (low, middle)
        return low


@case("each growth of memory that is refused is told by status 8, or isn't missed")
def each_growth_refused(tried):
    if not shutil.which("cc"):
        return "not tried: it needs a C compiler"
    with tempfile.TemporaryDirectory() as folder:
        refusing = Refusing(folder)
        office = str(EXAMPLES / "office.txt"), f"catalogue={EXAMPLES / 'office.toml'}"
        commands = [["check", *office], ["tables", *office], SIM, ["big", "1", "7"], ["decode", "06100209001001000801000000000000"]]
        return ", ".join(refusing.each([tried.prog, *words], call(tried, *words)) for words in commands)


@case("each growth of memory that is refused in a download leaves the device old, stopped or new")
def each_growth_refused_of_download(tried):
    if not shutil.which("cc"):
        return "not tried: it needs a C compiler"
    with tempfile.TemporaryDirectory() as folder, served(tried.prog) as line:
        cases = []
        note = Refusing(folder).each([tried.prog, "download", f"{HOST}:{line.port}", NEW], LOADED, lambda: cases.append(line.renewed()), most=max(1, tried.count // 250))
        return f"{note}; the device was {counts(cases)} then"


@case("each growth of memory that is refused in a gateway is told by status 8, or it serves as before")
def each_growth_refused_of_gateway(tried):
    if not shutil.which("cc"):
        return "not tried: it needs a C compiler"
    with tempfile.TemporaryDirectory() as folder:
        refusing = Refusing(folder)

        def attack(item):
            """How a gateway ended; nothing where it asked for fewer growths."""
            number, later = item
            gateway, port = begun_gateway(tried, env=refusing.environment(number, later))
            found = download(tried.prog, port) if gateway.poll() is None else None
            ending = end_of(gateway)
            if not refusing.told(number).exists():
                want((found, ending) == (LOADED, ENDED), f"{found}, and the gateway ended with {ending}")
                return None
            want(ending == ("no memory\n", 8) or (found, ending) == (LOADED, ENDED), f"{found}, and the gateway ended with {ending}")
            return "loaded" if found == LOADED else "not loaded" if found else "not begun"
        ends = []
        for later in (False, True):
            for number in range(1, max(2, tried.count // 50), 16):
                got = tried.each([(n, later) for n in range(number, number + 16)], attack, 16)
                ends += [it for it in got if it]
                if None in got:
                    break
        return f"{len(ends)} growths: {counts(ends)}"


@case("a gateway with 32 MiB serves on after a flood")
def refused_memory_of_gateway(tried):
    gateway, port = begun_gateway(tried, preexec_fn=limited(1 << 25))
    with endpoint() as sock:
        sent = pour(sock, port, (b"\xff" * 512 for _ in range(tried.count)))
    found = download(tried.prog, port)
    want(found == LOADED, f"an honest download after {sent} datagrams: {found}")
    found = end_of(gateway, 30)
    want(found == ENDED, f"the gateway ended with {found}")
    return f"{sent} datagrams of 512 octets"
