"""What a call of `knx` has to answer, by docs/formats.md: the status and the text where that page settles them; and of a run of `sim` all that can be
said without running it, of its report. run.py asks it of many calls."""
import collections
import re

from formats import CatalogueRefused, Project, Refused, group_text, individual, individual_text, models_of, number, script_of, units_of
from frames import datagram
from plan import check_end, load_end

USAGE = "usage: knx check, tables, migrate, sim, download, gateway, decode, find, assign or big, with their words\n"
SIGN = "(?: (?:nocon|closed|silent|tunnel))"
OCTETS = "(?:-|(?:[0-9A-F]{2})+)"
JOB = re.compile(rf"job (\d+) (load|check) (\S+) (done|open|failed{SIGN}{{3}}|refused \d+ got {OCTETS} expected {OCTETS})")
GROUP = re.compile(r"group (\d+) (sent|lost|open)")
HEARD = re.compile(r"heard (\S+) (\S+) response (?:s[0-3][0-9A-F]|(?:[0-9A-F]{2}){1,14})")
DEVICE = re.compile(r"device (\S+) (new|old|stopped)((?: \d+=\S+)*)")
LOG = re.compile(r"log (\d+) ([1-8]) (took|done|failed|refused) (\d+)|log (\d+) 0 (sent|lost) (\d+)")
ALL_NOCON = "failed nocon nocon nocon"
# the lines of a script of which each can end one attempt of a job; a datagram or a frame that comes again ends none, nor does a channel that is refused
ENDING = ("lose up", "lose down", "drop channel", "lose to", "lose from", "cut", "close")
# a download that stops before it dials, and a gateway that stops before it binds, is told so; one that goes on is answered so where nothing can be dialled or bound
DIALS = (9, "link fault\n")


class Stop(Exception):
    """A status and a line."""


NO_DEVICE = Stop(3, "new line 0: 20 NoDevice\n")


# ---- calls that stop, or tell without a run

def is_gateway(word):
    """An address with or without a port."""
    address, colon, port = word.partition(":")
    parts = address.split(".")
    return (len(parts) == 4 and all(re.fullmatch("[0-9]{1,3}", part) and int(part) < 256 for part in parts)
            and (not colon or bool(re.fullmatch("[0-9]{1,5}", port)) and 0 < int(port) < 65536))


def are_turns(word):
    return word.startswith("turns=") and 1 <= (number(word[6:]) or 0) <= 10 ** 9


def are_of_a_line(words):
    """How many devices, and the number that makes their line."""
    return (len(words) == 2 and 1 <= (number(words[0]) or 0) <= 254
            and bool(re.fullmatch("[0-9]{1,20}", words[1])) and int(words[1]) < 2 ** 64)


def read(files, name):
    if name not in files:
        raise Stop(6, f"read fault {name} NotThere\n")
    return files[name]


Options = collections.namedtuple("Options", "catalogue log workers jobs", defaults=(None, False, 4, []))


def options_of(words, for_sim):
    """The catalogue's name or None, whether the log is asked for, how many downloaders work at once, and the jobs."""
    names, logs, quiets, counts, jobs = [], 0, 0, [], []
    for word in words:
        job = re.fullmatch("(load|check):(.*)", word, re.S)
        if word.startswith("catalogue="):
            names.append(word[10:])
        elif for_sim and word == "log":
            logs += 1
        elif for_sim and word == "quiet":
            quiets += 1
        elif for_sim and word.startswith("workers=") and 1 <= (number(word[8:]) or 0) <= 8:
            counts.append(number(word[8:]))
        elif for_sim and job and individual(job[2]):
            jobs.append((job[1], individual(job[2])))
        else:
            raise Stop(2, USAGE)
    if len(names) > 1 or logs > 1 or quiets > 1 or len(counts) > 1 or len(jobs) > 1024:
        raise Stop(2, USAGE)
    return Options((names or [None])[0], logs == 1, (counts or [4])[0], jobs)


def judged(place, read_it, octets, *others):
    try:
        return read_it(octets, *others)
    except Refused as why:
        raise Stop(5 if place == "script" else 3, f"{place} {why.text}\n") from None


def models_in(octets):
    try:
        return models_of(octets)
    except CatalogueRefused as why:
        raise Stop(4, f"catalogue: {why}\n") from None


def served(words, files):
    """What `gateway` tells before it binds its port."""
    if len(words) < 4 or not is_gateway(words[0]) or not are_turns(words[3]):
        raise Stop(2, USAGE)
    catalogue = options_of(words[4:], False).catalogue
    models = [read(files, catalogue)] if catalogue is not None else []
    texts = [read(files, name) for name in words[1:3]]
    models = models_in(models[0]) if models else {}
    old = judged("old", Project, texts[0], models)
    Run(old, old, judged("script", script_of, texts[1]), Options())
    raise Stop(*DIALS)


class Bus:
    """The simulated bus of units: what each broadcast does, and who answers it."""

    def __init__(self, units, losses):
        self.units, self.losses = units, losses
        self.broadcasts, self.answers = 0, [0] * len(units)

    def those_that_get(self):
        self.broadcasts += 1
        return [k for k, (_, prog) in enumerate(self.units) if prog and ("read", k + 1, self.broadcasts) not in self.losses]

    def read(self):
        heard = []
        for k in self.those_that_get():
            self.answers[k] += 1
            heard += [self.units[k][0]] if ("answer", k + 1, self.answers[k]) not in self.losses else []
        return heard

    def write(self, address):
        for k in self.those_that_get():
            self.units[k][0] = address


def given(bus, wanted):
    """What comes of giving the address on a bus: the status and the line."""
    heard = bus.read() or bus.read() or bus.read()
    if not heard:
        return 15, "no unit"
    if len(heard) > 1:
        return 16, f"several {individual_text(heard[0])} {individual_text(heard[1])}"
    if heard[0] != wanted:
        if any(address == wanted for address, _ in bus.units):
            return 17, f"taken {individual_text(wanted)}"
        bus.write(wanted)
        if bus.read() != [wanted]:
            return 18, "unconfirmed"
    return 0, f"assigned {individual_text(wanted)}"


def assigned(words, files):
    """What `assign` tells; over a gateway, that none is reached."""
    on_bus = len(words) == 3 and words[0] == "sim"
    if not (on_bus or len(words) == 2 and is_gateway(words[0])) or individual(words[-1]) is None:
        raise Stop(2, USAGE)
    if not on_bus:
        raise Stop(*DIALS)
    bus = Bus(*judged("script", units_of, read(files, words[1])))
    status, line = given(bus, individual(words[2]))
    raise Stop(status, line + "\n" + "".join(f"unit {k} {individual_text(address)}\n" for k, (address, _) in enumerate(bus.units, 1)))


def asked(words, files):
    """What is to be told of words that need no run, or the run."""
    command, rest = words[0] if words else "", words[1:]
    if command == "decode" and len(rest) == 1 and re.fullmatch("([0-9A-Fa-f]{2}){1,512}", rest[0]):
        return "".join(line + "\n" for line in datagram(bytes.fromhex(rest[0])))
    if command == "gateway":
        served(rest, files)
    if command == "assign":
        assigned(rest, files)
    if command == "find" and rest and is_gateway(rest[0]) and rest[1:] in ([], ["describe"]):
        raise Stop(*DIALS)
    if command == "big" and are_of_a_line(rest):
        count = number(rest[0])
        return f"devices {count} objects {8 * count} links {32 * count} done {count} new {count}\n"
    if command == "download" and rest:
        rest = rest[1:] if is_gateway(rest[0]) else []
    count = {"check": 1, "tables": 1, "migrate": 1, "download": 1, "sim": 3}.get(command, len(rest) + 1)
    if len(rest) < count:
        raise Stop(2, USAGE)
    options = options_of(rest[count:], command in ("sim", "download"))
    first = [read(files, options.catalogue)] if options.catalogue is not None else []
    texts = [read(files, name) for name in rest[:count]]
    models = models_in(first[0]) if first else {}
    new = judged("new", Project, texts[0], models)
    if command == "download":
        raise Stop(*DIALS) if all(device in new.model for _, device in options.jobs) else NO_DEVICE
    if command != "sim":
        return {"check": new.counts, "tables": new.tables, "migrate": new.migrated}[command]()
    return Run(new, judged("old", Project, texts[1], models), judged("script", script_of, texts[2]), options)


# ---- a run

def device_in(word, values):
    return values[0] if word in ("lose to", "lose from", "repeat to", "cut", "worn", "close", "off", "standard") else None


class Run:
    """What is known of a run of `sim` before it: its jobs, its devices and what may happen to each."""

    def __init__(self, new, old, script, options):
        self.log = options.log
        self.workers = options.workers
        first = next((values[0] for _, word, values in new.statements if word == "device"), 0x1100)
        self.tunnel = first | 255
        self.devices = sorted(d for d in {*new.model, *old.model} if d | 255 == self.tunnel)
        for line, word, values in script:
            if device_in(word, values) not in (None, *self.devices):
                raise Stop(5, f"script line {line}: 20 NoDevice\n")
        if any(device not in new.model for _, device in options.jobs):
            raise NO_DEVICE
        self.groups = [values for _, word, values in script if word.endswith("group")]
        self.jobs = options.jobs or [("load", device) for device in sorted(new.model)]
        self.strangers = [device for _, device in self.jobs if device | 255 != self.tunnel]
        self.harms = {(word, *values) for _, word, values in script if word != "standard" and not word.endswith("group")}
        self.size = {values[0]: 12 for _, word, values in script if word == "standard"}
        self.image = {d: new.image(d) for d in new.model}
        # what each device holds, as long as it is known: a blank one None; and what it may show by now
        self.held = {d: old.image(d) if d in old.model else None for d in self.devices}
        self.cases = {d: {"stopped"} if d not in old.model else {"new"} if self.held[d] == self.image.get(d) else {"old"} for d in self.devices}
        self.loaded = set()

    def is_determined(self):
        """Whether each of two runs has to end alike: one thread does all."""
        return not self.groups and (self.workers == 1 or len(self.jobs) < 2)

    def harms_to(self, device):
        return [word for word, *values in self.harms if device_in(word, values) in (None, device)]

    def may_fail(self, device):
        """Whether the script can end each of the three attempts of a job of the device: it has no power, or three lines can end one."""
        harms = self.harms_to(device)
        return "off" in harms or sum(word in ENDING for word in harms) >= 3

    def surprises(self, status, text):
        """What in a run's answer isn't as it has to be."""
        lines = text.split("\n")
        if lines.pop() != "":
            return ["the last line has no end"]
        if status == 12:
            wrong = f"wrong line {individual_text(self.strangers[0])} tunnel {individual_text(self.tunnel)}" if self.strangers else None
            return [] if lines == [wrong] else ["a wrong line that isn't there, or another one"]
        if status not in (0, 1, 10):
            return ["a run ends with another status"]
        found = self.end_surprises(lines.pop() if status == 10 else None)
        jobs, lines = lines[:len(self.jobs)], lines[len(self.jobs):]
        groups, lines = lines[:len(self.groups)], lines[len(self.groups):]
        heard = [line for line in lines if line.startswith("heard ")]
        devices, lines = lines[len(heard):][:len(self.devices)], lines[len(heard):][len(self.devices):]
        ends = self.ends_of(jobs)
        if None in ends:
            return found + ["the jobs' lines aren't those of the jobs"]
        words = [end.split()[0] for end in ends]
        if status != 10 and ("open" in words or status != any(word != "done" for word in words)):
            found.append("the status isn't that of the jobs' ends")
        if status != 10 and self.strangers:
            found.append("a job of another line was done")
        if self.workers == 1 and "open" in words and set(words[words.index("open"):]) != {"open"}:
            found.append("a job after one without its end has one")
        for (kind, device), end in zip(self.jobs, ends):
            exact = self.exact_end(kind, device)
            found += [f"{end}, and it can only be {exact}"] if exact not in (None, end) else []
            found += self.job_surprises(kind, device, end)
        sent = [GROUP.fullmatch(line) for line in groups]
        if None in sent or [int(it[1]) for it in sent] != [*range(1, len(self.groups) + 1)]:
            return found + ["the telegrams' lines aren't those of the telegrams"]
        told = [it[2] for it in sent]
        return (found + self.group_surprises(status, told, heard) + self.device_surprises(devices)
                + self.tail_surprises(lines, words, told))

    def group_surprises(self, status, told, heard):
        """A telegram is sent, or its channel was lost; what is heard is an answer to a read."""
        found = []
        if status != 10 and "open" in told:
            found.append("a telegram without its end")
        if "lost" in told and not any(device_in(word, values) is None for word, *values in self.harms):
            found.append("a telegram is lost, and no line touches the channel")
        said = [HEARD.fullmatch(line) for line in heard]
        asked = {group_text(group) for group, value in self.groups if value == "read"}
        if any(it is None or it[1] not in asked or individual(it[2]) not in self.devices for it in said):
            found.append("heard, and nobody was asked for it")
        return found

    def ends_of(self, lines):
        """How each job ended; None where a line isn't the job's."""
        said = [JOB.fullmatch(line) for line in lines]
        return [it[4] if it and it.groups()[:3] == (str(k), kind, individual_text(device)) else None
                for k, ((kind, device), it) in enumerate(zip(self.jobs, said + [None] * (len(self.jobs) - len(said))), 1)]

    def end_surprises(self, line):
        """The line of a gateway that refused, where there is one: three signs, each of a line of the script that refuses or loses."""
        if line is None:
            return []
        said = re.fullmatch("gateway refused (-|[0-9A-F]{2}) (-|[0-9A-F]{2}) (-|[0-9A-F]{2})", line)
        statuses = [values[1].upper() for word, *values in self.harms if word == "refuse"]
        losses = sum(word in ("lose up", "lose down") for word, *_ in self.harms)
        wanted = said and all(statuses.count(it) or it == "-" for it in said.groups()) and said.groups().count("-") <= losses
        return [] if wanted else ["the gateway refused otherwise than the script says"]

    def exact_end(self, kind, device):
        """How the job ends, where that is settled: a check by what the device is known to hold, where an attempt of it is left to go through; and
        a load that nothing disturbs but worn memory, the first of its device, whose writes are counted from 1."""
        harms, image, size = self.harms_to(device), self.image[device], self.size.get(device, 60)
        others = [word for word in harms if word != "worn"]
        if kind == "check" and device in self.held and len(others) < 3 and "off" not in others:
            return check_end(image, self.held[device], size)
        if kind == "load" and device in self.devices and not others and not (harms and device in self.loaded):
            return load_end(image, size, {values[1] for word, *values in self.harms if word == "worn" and values[0] == device})
        return None

    def job_surprises(self, kind, device, end):
        """Follows what the device may run by now, by what each job told."""
        harms, cases, found = self.harms_to(device), self.cases.get(device, {"stopped"}), []
        word = end.split()[0]
        if kind == "load" or word == "done":
            self.held.pop(device, None)
            self.loaded |= {device} if kind == "load" else set()
        if word == "done":
            self.held[device] = self.image[device]
            if kind == "check" and "new" not in cases or "off" in harms:
                found.append("done, where the device can't run it")
            self.cases[device] = {"new"}
        elif kind == "load" and word != "open" and end != ALL_NOCON:
            self.cases[device] = {"stopped"} if word == "refused" else cases | {"stopped", "new"}
        elif kind == "load" and word == "open":
            self.cases[device] = cases | {"stopped", "new"}
        if word == "refused" and (kind == "load" and "worn" not in harms or kind == "check" and cases == {"new"}):
            found.append("refused, and nothing differs")
        if word == "refused" and kind == "check":
            self.cases[device] = cases - {"new"}
        if word == "failed" and not self.may_fail(device):
            found.append("failed by fewer than three lines that can end an attempt")
        if word == "failed" and harms == ["off"] and end != ALL_NOCON:
            found.append("another sign than nocon of a device without power")
        return found

    def device_surprises(self, lines):
        said = [DEVICE.fullmatch(line) for line in lines]
        if [it and it[1] for it in said] != [individual_text(d) for d in self.devices]:
            return ["the devices' lines aren't those of the devices"]
        found = [f"{it[0]}, and nothing was written" for it in said if it[3] and (it[2] == "stopped" or not self.groups)]
        return found + [f"{it[0]}, and it can only be {' or '.join(sorted(self.cases[d]))}" for d, it in zip(self.devices, said) if it[2] not in self.cases[d]]

    def tail_surprises(self, lines, words, told):
        """What follows the devices: what was missed, and the log with a count of dropped datagrams."""
        if lines[:1] != ["missed 0"]:
            return ["no line missed 0"]
        if not self.log:
            return ["lines after the last one"] if lines[1:] else []
        dropped = re.fullmatch(r"dropped (\d+)", lines[-1])
        said = [LOG.fullmatch(line) for line in lines[1:-1]]
        if not dropped or None in said:
            return ["the log's lines aren't of its form"]
        times = [int(it[1] or it[5]) for it in said]
        found = [] if times == sorted(times) else ["the log's places fall"]
        if [(it[6], int(it[7])) for it in said if it[7]] != [(word, k) for k, word in enumerate(told, 1) if word != "open"]:
            found.append("the log isn't that of the telegrams' ends")
        of_jobs = {k: [(it[2], it[3]) for it in said if it[4] == str(k)] for k in range(1, len(words) + 1)}
        for k, word in enumerate(words, 1):
            if [what for _, what in of_jobs[k]] not in ([["took", word]] if word != "open" else [[], ["took"]]) or len({worker for worker, _ in of_jobs[k]}) > 1:
                found.append("the log isn't that of the jobs' ends")
        if any(int(it[2]) > self.workers for it in said if it[2]):
            found.append("the log is of more workers than there are")
        for worker in {it[2] for it in said if it[2]}:
            own = [it[3] == "took" for it in said if it[2] == worker]
            if own != [place % 2 == 0 for place in range(len(own))]:
                found.append("a worker takes a job while it holds one")
        if self.workers == 1 and [int(it[4]) for it in said if it[3] == "took"] != [*range(1, sum(it[3] == "took" for it in said if it[3]) + 1)]:
            found.append("the jobs aren't taken in their order")
        return found + (["dropped, and nothing was disturbed"] if int(dropped[1]) and not self.harms else [])
