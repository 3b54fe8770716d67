"""Random calls of `knx`: their words and files. Most are valid; some have one thing wrong."""
import pathlib

from formats import SIZES, any_group, individual_text, group_text, number

EXAMPLES = pathlib.Path(__file__).resolve().parents[2] / "examples"
OFFICE = (EXAMPLES / "office.toml").read_bytes()
PARTS = (1, 2, 5, 6, 7, 20, 254)
LETTERS = "CRWTUI"
# the names of the files of a call
FILES = {"new", "old", "script", "cat", "units"}


# ---- catalogues

def field_table(r, name, bit):
    width = r.choice((1, 2, 3, 7, 8, 9, 16, 31, 32))
    low, default, high = sorted(r.randrange(2 ** width) for _ in range(3))
    return bit + width + r.choice((0, 0, 1, 5)), f'name = "{name}"\nbit = {bit}\nwidth = {width}\nmin = {low}\nmax = {high}\ndefault = {default}\n'


def catalogue(r):
    """A document, and of each model its objects' sizes and its parameters' names."""
    if r.random() < 0.3:
        return OFFICE, {"dim2": ({1: 1, 2: 8}, {"delay": (0, 1000), "mode": (0, 5)})}
    text, models = "", {}
    for title in r.sample(["dim2", "sensor", "a.b-c_D", "x"], r.randrange(0, 4)):
        quoted = f'"{title}"' if "." in title or r.random() < 0.3 else title
        objects = {n: r.choice(list(SIZES)) for n in r.sample(range(1, 256 if r.random() < 0.1 else 6), r.randrange(0, 5))}
        end, tables, fields = 0, "", {}
        for k in range(r.randrange(0, 5)):
            end, table = field_table(r, f"p{k}", end)
            tables += f"[[{quoted}.parameter]]\n{table}"
            fields[f"p{k}"] = tuple(int(line.split()[2]) for line in table.split("\n") if line.startswith(("min", "max")))
        octets = (end + 7) // 8 + r.choice((0, 0, 1, 11, 12, 13, 59, 60, 61, 300))
        text += f"[{quoted}]\nparams = {octets}\n" + "".join(
            f'[[{quoted}.object]]\nn = {n}\nsize = {size}\nflags = "{letters(r)}"\n' for n, size in objects.items()) + tables
        models[title] = (objects, fields)
    return text.encode(), models


# ---- projects

def letters(r):
    return "".join(r.sample(LETTERS, r.randrange(0, 7))) or "-"


def digits(r, n):
    return r.choice((str(n), str(n), str(n), hex(n), f"{n:04}"))


def project(r, models, line):
    """The statements of a valid project, most of its devices on this line."""
    devices = [f"{line if r.random() < 0.97 else '2.3'}.{part}" for part in r.sample(PARTS, r.choice((0, 1, 1, 1, 2, 2, 3, 5)))]
    groups = {r.randrange(1, 65536): r.choice((1, 1, 1, 8, 16, 112)) for _ in range(r.choice((1, 2, 4, 8, 30)))}
    says = [f"ga {group_text(raw)} g{raw}" for raw in groups]
    for device in devices:
        title = r.choice(["inline", *models])
        sizes, fields = models.get(title, ({}, {}))
        says.append(f"device {device} {title}")
        own = {n: r.choice(list(groups.values())) for n in r.sample(range(1, r.choice((6, 40, 256))), r.randrange(0, 5)) if n not in sizes}
        says += [f"object {device} {digits(r, n)} {digits(r, size)} {letters(r)}" for n, size in own.items()]
        for n, size in {**sizes, **own}.items():
            fitting = [raw for raw, of in groups.items() if of == size]
            says += [f"link {device} {digits(r, n)} {group_text(raw)}" for raw in r.sample(fitting, r.randrange(0, len(fitting) + 1))]
            says += [f"flags {device} {n} {letters(r)}"] * (r.random() < 0.2)
        says += [f"param {device} {name} {digits(r, r.randint(low, high))}" for name, (low, high) in fields.items() for _ in range(r.randrange(0, 3))]
    r.shuffle(says)
    return later(r, says) if r.random() < 0.3 else says


def any_word(r, group):
    """A group in one of its spellings in version 2."""
    main, middle, below = (int(part) for part in group.split("/"))
    return r.choice((group, f"{main}/{middle << 8 | below}", str(main << 11 | middle << 8 | below), f"{main:02}/{middle << 8 | below:04}"))


def later(r, says):
    """The same in version 2: some links of an object in one line, groups in any spelling, and sending addresses."""
    links, rest = {}, []
    for say in says:
        words = say.split(" ")
        if words[0] == "link":
            links.setdefault((words[1], number(words[2])), []).append(words[3])
        else:
            rest.append(say if words[0] != "ga" else f"ga {any_word(r, words[1])} {words[2]}")
    for (device, n), groups in links.items():
        while groups:
            k = r.randint(1, min(32, len(groups)))
            rest.append(f"link {device} {digits(r, n)} " + " ".join(any_word(r, to) for to in groups[:k]))
            rest += [f"send {device} {digits(r, n)} {any_word(r, r.choice(groups[:k]))}"] * (r.random() < 0.3)
            groups = groups[k:]
    r.shuffle(rest)
    return [r.choice(("version 2", "version 2", "version 0x2", "version 02")), *rest]


STRAY = ("project a b", "ga 1/2/3 light", "ga 0/0/0 x", "device 1.1.5 inline", "device 1.1.6 nomodel", "object 1.1.5 1 1 CW", "object 1.1.5 1 9 CW",
         "object 1.1.9 1 1 CC", "link 1.1.5 1 1/2/3", "link 1.1.5 9 31/7/255", "flags 1.1.5 3 C", "param 1.1.5 delay 4000", "param 1.1.5 delay 7",
         "param 1.1.5 none 1", "lose up", "Device 1.1.5 inline", "link 1.1.5 256 1/2/3", "\u00e4", "project \u00e4", "ga 1/2/3 a\tb", "device 1.1.5",
         "#" * 513, "cut 1.1.5 1 1", "object 1.1.5 255 0x70 -", "link 1.1.5 1", "flags 1.1.6 1 CRWTUI", "project", "param 1.1.5 delay 0x1G", "ga 1/2/3 x y",
         "version 2", "version 3", "version", "send 1.1.5 1 1/2/3", "send 1.1.5 1", "ga 1/515 light", "ga 65536 x", "ga 1/2048 x", "link 1.1.5 1 1/2/3 515")


def astray(r, says, stray):
    """One more line: any one, one that was said already, or one with a word of another of its kind."""
    lines = [say.split(" ") for say in says]
    words = list(r.choice(lines)) if lines and r.random() < 0.7 else [r.choice(stray)]
    others = [other for other in lines if other[0] == words[0] and len(other) == len(words) > 1]
    if others and r.random() < 0.8:
        place = r.randrange(1, len(words))
        words[place] = r.choice((r.choice(others)[place], str(r.choice((0, 1, 2, 9, 255, 256, 1000, 65535, 4294967295)))))
    return " ".join(words)


def text_of(r, says, stray=STRAY):
    """The lines as octets, with comments and blanks; now and then with something wrong."""
    says = list(says)
    if r.random() < 0.08:
        for _ in range(r.choice((1, 1, 2, 3))):
            says.insert(r.randint(0, len(says)), astray(r, says, stray))
    for _ in range(r.choice((0, 0, 1, 3))):
        says.insert(r.randint(0, len(says)), r.choice(("# a comment", "", " \t", "#")))
    says = [say.replace(" ", r.choice((" ", "  ", "\t ")), r.randrange(0, 3)) + r.choice(("", "", "", " # why", "#", " ")) for say in says]
    octets = bytearray("".join(say + r.choice(("\n", "\n", "\n", "\r\n")) for say in says).encode())
    if octets and r.random() < 0.02:
        octets[r.randrange(len(octets))] = r.choice((r.randrange(256), r.choice(b"0123456789./x# aC-")))
    return bytes(octets.rstrip(b"\r\n") if r.random() < 0.1 else octets)


# ---- scripts

def script_line(r, devices):
    n = int(2 ** r.uniform(0, 7.5))
    says = [f"lose up {n}", f"lose down {n}", f"repeat up {n}", f"repeat down {n}", f"drop channel {n}", f"refuse {n % 4 + 1} {r.randint(1, 255):02X}"]
    if devices:
        device = r.choice(devices)
        says += [f"lose to {device} {n}", f"lose from {device} {n}", f"repeat to {device} {n}", f"close {device} {n}", f"close {device} {n}",
                 f"cut {device} {n % 40 + 1} {r.choice((0, 1, 2, 11, 12, 60, 4000))}", f"cut {device} {n % 40 + 1} {r.randrange(4)}"]
    return r.choice(says)


def row(r, way):
    first = int(2 ** r.uniform(0, 6))
    return [way.format(n) for n in range(first, first + r.choice((3, 4, 8, 30)))]


def script(r, devices):
    says = [script_line(r, devices) for _ in range(r.choice((0, 1, 1, 2, 2, 3, 4, 6, 12, 40)))]
    says += [f"standard {device}" for device in devices if r.random() < 0.2]
    for device in r.sample(devices, min(1, len(devices))):
        says += [f"worn {device} {int(2 ** r.uniform(0, 5.5))}"] * (r.random() < 0.15) + [f"off {device}"] * (r.random() < 0.06)
        if r.random() < 0.1:
            # of one kind, one place after another
            way = r.choice((f"cut {device} {{}} 1", f"close {device} {{}}", f"lose to {device} {{}}", f"lose from {device} {{}}", f"repeat to {device} {{}}"))
            says += row(r, way)
    if r.random() < 0.1:
        says += row(r, r.choice(("lose up {}", "lose down {}", "repeat up {}", "repeat down {}", "refuse {} 24", "drop channel {}")))
    r.shuffle(says)
    return says


def telegrams(r, groups):
    """Lines of group telegrams, most of them after all jobs."""
    return [f"{r.choice(('then ', 'then ', ''))}group {r.choice(groups)} {r.choice(('read', 'read', 's00', 's01', 's3F', 's15', '0A', '0102', '000102030405060708090a0B0C0D'))}"
            for _ in range(r.choice((1, 2, 3, 8)))]


STRAY_LINES = ("group 1/2/3 read", "then group 1/2/3 s3f", "group 1/2/3 s40", "group 0/0/1 0A0B", "lose", "lose over 1", "lose from 1", "lose up 0",
               "lose to 1.1.77 1",
               "repeat from 1.1.5 1", "cut 1.1.5 0 1", "cut 1.1.5 1", "worn 1.1.5 4294967295", "worn 1.1.5 4294967296", "close 9.9.9 1", "refuse 1 00",
               "refuse 1 g1", "refuse 1 1", "drop channel", "drop it 1", "off 1.1.255", "off 1.1.5 1", "then", "then off 1.1.5", "standard",
               "device 1.1.5 inline",
               "group 1/2/3 0102030405060708090A0B0C0D0E0F", "group 1/2/3 1", "cut 1.1.5 1 0 0", "\u00e4")


# ---- words

def job_words(r, devices):
    """No jobs, or some, of which one may be of a device that isn't there."""
    devices = devices + ["1.1.77"] * (r.random() < 0.05)
    if not devices or r.random() < 0.6:
        return []
    return [f"{r.choice(('load', 'load', 'check'))}:{r.choice(devices)}" for _ in range(r.choice((1, 1, 2, 3, 6)))]


ODD_WORDS = ("log", "log=1", "quiet", "quiet=1", "catalogue=", "catalogue=cat", "load:", "load:1.1.256", "check:1.1", "workers=2", "workers=9", "workers=0", "Load:1.1.5", "sim", "",
             "check:01.1.005", "\udcff")


def sim(r):
    line = r.choice(("1.1", "1.1", "1.1", "0.0", "15.15", "2.3"))
    document, models = catalogue(r)
    new = project(r, models, line)
    plainer = [say for say in new if not say.startswith(("param", "flags"))]
    old = r.choice(([], new, project(r, models, line), project(r, models, line), project(r, {}, line), plainer))
    devices = sorted({say.split()[1] for say in new + old if say.startswith("device") and say.split()[1].startswith(line + ".")})
    words = job_words(r, sorted({say.split()[1] for say in new if say.startswith("device")}))
    words += [f"workers={r.choice((1, 1, 4, 8))}"] * (r.random() < 0.6)
    words += ["log"] * (r.random() < 0.4) + ["quiet"] * (r.random() < 0.1) + ["catalogue=cat"] * (bool(models) or r.random() < 0.1)
    words += [r.choice(ODD_WORDS)] * (r.random() < 0.04)
    r.shuffle(words)
    groups = [group_text(any_group(say.split()[1])) for say in new if say.startswith("ga ")]
    says = script(r, devices) + (telegrams(r, groups) if groups and r.random() < 0.25 else [])
    files = {"new": text_of(r, new), "old": text_of(r, old), "script": text_of(r, says, STRAY_LINES), "cat": wrong_document(r, document)}
    return ["sim", "new", "old", "script", *words], files


def wrong_document(r, document):
    if r.random() < 0.95 or not document:
        return document
    octets = bytearray(document)
    place = r.randrange(len(octets))
    if r.random() < 0.5:
        octets[place] = r.randrange(256)
    else:
        lines = octets.split(b"\n")
        r.shuffle(lines) if r.random() < 0.3 else lines.pop(place % len(lines))
        octets = b"\n".join(lines)
    return bytes(octets)


GATEWAYS = ("127.0.0.1", "127.0.0.1:3671", "0.0.0.0:1", "255.255.255.255:65535", "001.002.003.004:00005", "127.0.0.1:0", "127.0.0.1:65536", "127.0.0.256", "1.2.3",
            "1.2.3.4.5", "1.2.3.4:", "0x7F.0.0.1", "localhost", "")


def told(r):
    """`check`, `tables`, `migrate` or `download`."""
    document, models = catalogue(r)
    document = document if r.random() < 0.5 else wrong_document(r, document)
    says = project(r, models, "1.1") + (project(r, models, "1.1") if r.random() < 0.05 else [])
    command = r.choice((["check"], ["check"], ["tables"], ["tables"], ["migrate"], ["migrate"], ["download", r.choice(GATEWAYS)]))
    jobs = job_words(r, sorted({say.split()[1] for say in says if say.startswith("device")})) if len(command) > 1 else []
    words = jobs + ["catalogue=cat"] * (bool(models) or r.random() < 0.2) + [r.choice(ODD_WORDS)] * (r.random() < 0.03)
    r.shuffle(words)
    return [*command, "new", *words], {"new": text_of(r, says), "cat": document}


TURNS = ("turns=1", "turns=9", "turns=0x10", "turns=0100000000", "turns=1000000000", "turns=1000000001", "turns=4294967297", "turns=0", "turns=", "turns=-1", "Turns=1", "5")


def gateway(r):
    words, files = sim(r)
    options = [word for word in words[4:] if word.startswith("catalogue=") or r.random() < 0.02]
    at, turns = (r.choice(them if r.random() < 0.1 else them[:5]) for them in (GATEWAYS, TURNS))
    return ["gateway", at, "old", "script", turns, *options], {**files, "new": b""}


COUNTS = ("1", "2", "3", "0x4", "007", "0", "255", "0x", "-1", "")

STARTS = ("0", "7", "18446744073709551615", "00000000000000000007", "18446744073709551616", "000000000000000000007", "0x7", "+7", "")


def find(r):
    return ["find", r.choice(GATEWAYS if r.random() < 0.1 else GATEWAYS[:5]), *["describe"] * (r.random() < 0.5), *["log"] * (r.random() < 0.05)], {}


def assign(r):
    wanted = f"1.{r.randrange(2)}.{r.choice((1, 2, 7, 20, 254, 0, 255)) if r.random() < 0.1 else r.choice((1, 2, 7))}"
    if r.random() < 0.1:
        return ["assign", r.choice(GATEWAYS), wanted], {}
    units = [f"unit {r.choice(('15.15.255', '1.0.1', '1.1.2', '1.1.7', wanted))} {r.choice(('prog', 'off', 'off'))}" for _ in range(r.choice((0, 1, 1, 2, 2, 3, 5)))]
    lost = [f"lose {r.choice(('read', 'answer'))} {r.randint(1, len(units) + 1)} {r.randint(1, 4)}" for _ in range(r.choice((0, 0, 1, 1, 2, 4)))]
    lines = [*units, *lost]
    if r.random() < 0.1:
        lines.append(r.choice(("unit", "unit 1.1.0 off", "unit 1.1.1 on", "lose read 0 1", "lose answer 1", "lose write 1 1", "unit 1.1.256 prog", "# units", "unit 1.1.1 off off")))
    r.shuffle(lines)
    return ["assign", "sim", "units", wanted, *["log"] * (r.random() < 0.02)], {"units": "".join(line + "\n" for line in lines).encode()}


def big(r):
    count = r.choice(COUNTS if r.random() < 0.3 else COUNTS[:5])
    start = r.choice(STARTS) if r.random() < 0.5 else str(r.getrandbits(64))
    return ["big", count, start, *["log"] * (r.random() < 0.05)], {}


# ---- datagrams

def some(r, least, most):
    return r.randbytes(r.randint(least, most))


def tpdu(r):
    code = r.choice((0x000, 0x040, 0x080, 0x0C0, 0x100, 0x140, 0x200, 0x240, 0x280, 0x300, 0x340, 0x3D5, 0x3D6, 0x3D7, r.randrange(1024)))
    n = r.choice((0, 0, 1, 2, 3, 4, 6, 14, 15, 16, 20, 60))
    code |= 0 if code & 63 else r.choice((0, max(0, n - 2), r.randrange(64)))
    first = r.choice((0, 0, 0x40 | r.randrange(16) << 2, 0x40 | r.randrange(16) << 2, r.randrange(256) & 0xFC)) | code >> 8
    control = bytes([r.choice((0x80, 0x81, r.randrange(256)))])
    return r.choice((control, *(bytes([first, code & 255]) + r.randbytes(n) for _ in range(2))))


def cemi(r):
    body = tpdu(r)
    added = some(r, 0, 3) if r.random() < 0.1 else b""
    control = r.choice((0xBC, 0xBD, 0x3C, 0x3D, r.randrange(256))), r.choice((0xE0, 0x60, r.randrange(256)))
    length = len(body) - 1 if r.random() < 0.95 else r.randrange(256)
    code = r.choice((0x11, 0x2E, 0x29, 0x11, 0x2E, 0x29, r.randrange(256)))
    return bytes([code, len(added)]) + added + bytes(control) + r.randbytes(4) + bytes([length & 255]) + body


def decode(r):
    endpoint = b"\x08\x01" + r.randbytes(6)
    service = r.choice((0x205, 0x206, 0x206, 0x207, 0x208, 0x209, 0x20A, 0x420, 0x420, 0x420, 0x420, 0x420, 0x420, 0x421, 0x530, r.randrange(65536)))
    channel, status = r.randbytes(1), r.choice((b"\x00", r.randbytes(1)))
    body = {0x205: endpoint + endpoint + b"\x04\x04\x02" + r.randbytes(1), 0x206: channel + status + endpoint + b"\x04\x04" + r.randbytes(2),
            0x207: channel + b"\x00" + endpoint, 0x209: channel + b"\x00" + endpoint, 0x208: channel + status, 0x20A: channel + status,
            0x420: b"\x04" + channel + status + b"\x00" + cemi(r), 0x421: b"\x04" + channel + r.randbytes(1) + status}.get(service, some(r, 0, 20))
    octets = bytearray(b"\x06\x10" + service.to_bytes(2, "big") + (6 + len(body)).to_bytes(2, "big") + body)
    if r.random() < 0.15:
        octets[r.randrange(len(octets))] = r.randrange(256)
    if r.random() < 0.05:
        octets = octets[:r.randrange(len(octets) + 1)]
    word = octets.hex()
    word = word.upper() if r.random() < 0.5 else word
    if r.random() < 0.02:
        word = r.choice((word[1:], word + "g0", "0x" + word, word * 30, word[:8] + " " + word[8:]))
    return ["decode", word], {}


def call(r):
    words, files = r.choice((sim, sim, sim, sim, sim, sim, told, told, gateway, find, assign, assign, decode, decode, big))(r)
    if files and r.random() < 0.01:
        del files[r.choice(sorted(files))]
    if r.random() < 0.01:
        words = words[:r.randrange(len(words))]
    return words, files
