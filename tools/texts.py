"""What the tools share that read and write texts: a project's statements as docs/formats.md has them, words of a call, and how a tool ends.

A tool makes its whole text before it writes any of it. What it can't read it refuses on standard error, by file and line, and ends with status 2.
"""
import os
import pathlib
import re
import sys
import tomllib

MOST_OCTETS = 4_194_304
LONGEST_LINE = 512

SIZES = [*range(1, 9), 16, 24, 32, 48, 64, 80, 112]
FLAGS = "CRWTUI"

NAME = re.compile(r"[A-Za-z0-9_.\-]{1,32}", re.ASCII)
NUMBER = re.compile(r"[0-9]{1,10}|0x[0-9A-Fa-f]{1,8}", re.ASCII)
GROUP = re.compile(r"([0-9]{1,3})/([0-9]{1,3})/([0-9]{1,3})", re.ASCII)
TWO_LEVELS = re.compile(r"([0-9]{1,3})/([0-9]{1,4})", re.ASCII)
FREE = re.compile(r"[0-9]{1,5}", re.ASCII)
DEVICE = re.compile(r"([0-9]{1,3})\.([0-9]{1,3})\.([0-9]{1,3})", re.ASCII)
NOT_TEXT = re.compile(r"[\x00-\x08\x0a-\x1f\x7f]")


ANY, ALONE = object(), object()


class Refused(Exception):
    """Why a file is refused, or a call; line 0 is the file as a whole."""

    def __init__(self, why, file=None, line=0):
        super().__init__(f"{file}:{line}: {why}" if line else f"{file}: {why}" if file else why)


class Usage(Exception):
    """The words of a call are none of the tool's."""


# What a tool says on standard error beside what it writes; nothing of it where it refuses.
SAID = []


def say(line):
    SAID.append(line)


def counted(number, word):
    return f"{number} {word}" if number == 1 else f"{number} {word}s"


def read_octets(name):
    try:
        return pathlib.Path(name).read_bytes()
    except OSError as fault:
        raise Refused(fault.strerror, name) from fault


def options(words, names, allowed):
    """The words of a call: so many names of files, then options, each by its key with the values that it may have.

    Those are the values behind `KEY=`, or ANY, or ALONE for a word without one.
    """
    if len(words) < names or any(word.startswith("-") for word in words):
        raise Usage
    found = {}
    for word in words[names:]:
        key, sign, value = word.partition("=")
        values = allowed.get(key)
        if key in found or values is None or (sign if values is ALONE else not value or not (values is ANY or value in values)):
            raise Usage
        found[key] = value
    return words[:names], found


def run(main, usage):
    """Runs a tool: `main` takes the words of the call and answers the octets to write and the status, or raises Usage or Refused."""
    SAID.clear()
    try:
        octets, status = main(sys.argv[1:])
        sys.stdout.buffer.write(octets)
        sys.stdout.buffer.flush()
        for line in SAID:
            print(line, file=sys.stderr)
    except Usage:
        print(f"usage: {usage}", file=sys.stderr)
        status = 2
    except Refused as refused:
        print(refused, file=sys.stderr)
        status = 2
    except OSError as fault:
        print(f"the output couldn't be written: {fault.strerror}", file=sys.stderr)
        os.dup2(os.open(os.devnull, os.O_WRONLY), sys.stdout.fileno())
        status = 2
    sys.exit(status)


def group_text(raw):
    return f"{raw >> 11}/{raw >> 8 & 7}/{raw & 255}"


def group_of(word):
    """The raw number of a group address of three levels, or None."""
    match = GROUP.fullmatch(word)
    main, middle, sub = (int(part) for part in match.groups()) if match else (0, 0, 0)
    return (main << 11 | middle << 8 | sub) or None if main <= 31 and middle <= 7 and sub <= 255 else None


def any_group_of(word):
    """The same of one in three levels, in two levels or free, as in version 2."""
    if FREE.fullmatch(word):
        return int(word) or None if int(word) < 65536 else None
    match = TWO_LEVELS.fullmatch(word)
    main, below = (int(part) for part in match.groups()) if match else (32, 0)
    return (main << 11 | below) or None if main <= 31 and below <= 2047 else group_of(word)


def device_of(word):
    match = DEVICE.fullmatch(word)
    area, line, device = (int(part) for part in match.groups()) if match else (16, 0, 0)
    return (area, line, device) if area <= 15 and line <= 15 and 1 <= device <= 254 else None


def device_text(device):
    return ".".join(str(part) for part in device)


def name_of(word):
    return word if NAME.fullmatch(word) else None


def flags_of(word):
    return "" if word == "-" else word if len(set(word)) == len(word) and set(word) <= set(FLAGS) else None


def number_of(word):
    number = int(word, 16 if word.startswith("0x") else 10) if NUMBER.fullmatch(word) else 2**32
    return number if number < 2**32 else None


def object_of(word):
    number = number_of(word)
    return number if number is not None and 1 <= number <= 255 else None


def size_of(word):
    number = number_of(word)
    return number if number in SIZES else None


# A statement's words, each with how it is read and the refusal where it can't be; docs/formats.md has the numbers.
ADDRESS, COUNT, TITLE = "4 BadAddress", "5 BadNumber", "6 BadName"
STATEMENTS = {
    "project": [(name_of, TITLE)],
    "ga": [(group_of, ADDRESS), (name_of, TITLE)],
    "device": [(device_of, ADDRESS), (name_of, TITLE)],
    "object": [(device_of, ADDRESS), (object_of, COUNT), (size_of, COUNT), (flags_of, TITLE)],
    "link": [(device_of, ADDRESS), (object_of, COUNT), (group_of, ADDRESS)],
    "version": [(number_of, COUNT)],
    "flags": [(device_of, ADDRESS), (object_of, COUNT), (flags_of, TITLE)],
    "param": [(device_of, ADDRESS), (name_of, TITLE), (number_of, COUNT)],
}


LATER = {
    **STATEMENTS,
    "ga": [(any_group_of, ADDRESS), (name_of, TITLE)],
    "link": [(device_of, ADDRESS), (object_of, COUNT), (any_group_of, ADDRESS)],
    "send": [(device_of, ADDRESS), (object_of, COUNT), (any_group_of, ADDRESS)],
}
MOST_GROUPS = 32


def words_in(text):
    return re.split(r"[ \t]+", text.strip(" \t"))


def tells_version_2(words):
    return len(words) == 2 and words[0] == "version" and number_of(words[1]) == 2


def statement(words, table, tells):
    """A statement's words with what is read of them, those of `link` with its groups as a list; raises Refused with the reason alone.

    The table is that of the text's version; `tells` says whether this is the line that tells version 2.
    """
    first, *words = words
    if first not in table:
        raise Refused(f"3 UnknownWord: {first}")
    places = table[first]
    if first == "link" and table is LATER:
        places = places + places[-1:] * (min(MOST_GROUPS + 2, len(words)) - len(places))
    read = [first]
    for word, (reader, why) in zip(words, places):
        value = reader(word)
        if value is None:
            raise Refused(f"{why}: {word}")
        read.append(value)
    if len(words) < len(places):
        raise Refused("7 MissingWord")
    if len(words) > len(places):
        raise Refused(f"8 ExtraWord: {words[len(places)]}")
    if first == "version" and not tells:
        raise Refused(f"23 BadVersion: {words[0]}")
    return [*read[:3], read[3:]] if first == "link" else read


def lines_of(name):
    """Each line of a project with its number, without its end, the statement (None where it has none) and the comment ('' where it has none)."""
    octets = read_octets(name)
    if len(octets) > MOST_OCTETS:
        raise Refused(f"19 TooMany: more than {MOST_OCTETS} octets", name)
    table = None
    for number, line in enumerate(octets.removesuffix(b"\n").split(b"\n") if octets else [], 1):
        line = line.removesuffix(b"\r")
        try:
            text = line.decode("utf-8")
        except UnicodeDecodeError as fault:
            raise Refused("1 NotText: it isn't UTF-8", name, number) from fault
        if match := NOT_TEXT.search(text):
            raise Refused(f"1 NotText: an octet {ord(match[0]):02X}", name, number)
        if len(line) > LONGEST_LINE:
            raise Refused(f"2 LongLine: {len(line)} octets", name, number)
        said, _, comment = text.partition("#")
        words = words_in(said) if said.strip(" \t") else None
        tells = table is None and words is not None and tells_version_2(words)
        if words and table is None:
            table = LATER if tells else STATEMENTS
        try:
            yield number, words and statement(words, table, tells), comment.strip(" \t")
        except Refused as refused:
            raise Refused(str(refused), name, number) from refused


def models_of(name):
    """The objects of each model of a catalogue, number by number, each with its size and flags."""
    try:
        tables = tomllib.loads(read_octets(name).decode("utf-8"))
    except (ValueError, RecursionError) as fault:
        raise Refused(f"1 Toml: {fault}", name) from fault
    models = {}
    for model, table in tables.items():
        try:
            rows = [(row["n"], row["size"], flags_of(row["flags"])) for row in table.get("object", [])]
            models[model] = {number: (size, flags) for number, size, flags in rows}
        except (AttributeError, KeyError, TypeError) as fault:
            raise Refused(f"2 Shape {model}", name) from fault
        if not name_of(model) or model == "inline" or len(models[model]) < len(rows) or any(n not in range(1, 256) or size not in SIZES or flags is None for n, size, flags in rows):
            raise Refused(f"2 Shape {model}", name)
    return models


class Project:
    """A project that was read: groups with their names and comments, devices, their objects, and what these are linked to.

    It holds to the rules of docs/formats.md on which these rest; those on parameters and the greatest numbers are `knx check`'s alone.
    """

    def __init__(self, name, catalogue=None):
        self.models = {"inline": {}, **(models_of(catalogue) if catalogue else {})}
        lines = list(lines_of(name))
        rows = [(line, *words) for line, words, _ in lines if words]
        self.comments = {words[1]: comment for _, words, comment in reversed(lines) if words and words[0] == "ga"}

        def of(kind):
            return [(row[0], *row[2:]) for row in rows if row[1] == kind]

        # names, models, sizes and flags, the links in their order, the size of each group's first link, and what is wrong
        self.groups, self.devices, self.objects, self.links, self.sizes = {}, {}, {}, {}, {}
        self.wrong = []
        for line, group, title in of("ga"):
            self.first(self.groups, group, title, line, 10, f"DuplicateGroup: {group_text(group)}")
        for line, device, model in of("device"):
            if self.first(self.devices, device, model, line, 9, f"DuplicateDevice: {device_text(device)}"):
                if model not in self.models:
                    self.wrong.append((line, 12, f"UnknownModel: {model}"))
                self.objects.update({(device, number): said for number, said in self.models.get(model, {}).items()})
        for line, device, number, size, flags in of("object"):
            if self.has_device(line, device):
                self.first(self.objects, (device, number), (size, flags), line, 13, f"DuplicateObject: {number} of {device_text(device)}")
        for line, device, number, flags in of("flags"):
            if self.has_object(line, device, number):
                self.objects[device, number] = (self.objects[device, number][0], flags)
        for line, device, number, groups in of("link"):
            for group in groups:
                self.link(line, device, number, group)
        for line, device, number, group in of("send"):
            self.send(line, device, number, group)
        if self.wrong:
            line, number, why = min(self.wrong)
            raise Refused(f"{number} {why}", name, line)

    def first(self, found, key, value, line, number, why):
        """Keeps the value where it is the first of its key."""
        if key in found:
            self.wrong.append((line, number, why))
            return False
        found[key] = value
        return True

    def has_device(self, line, device):
        if device not in self.devices:
            self.wrong.append((line, 20, f"NoDevice: {device_text(device)}"))
        return device in self.devices

    def has_object(self, line, device, number):
        known = self.has_device(line, device)
        if known and (device, number) not in self.objects and self.devices[device] in self.models:
            self.wrong.append((line, 14, f"UnknownObject: {number} of {device_text(device)}"))
        return (device, number) in self.objects

    def send(self, line, device, number, group):
        if group not in self.groups:
            self.wrong.append((line, 11, f"UnknownGroup: {group_text(group)}"))
        self.has_object(line, device, number)
        if (device, number, group) not in self.links:
            self.wrong.append((line, 22, f"NotLinked: {device_text(device)} {number} {group_text(group)}"))

    def link(self, line, device, number, group):
        if group not in self.groups:
            self.wrong.append((line, 11, f"UnknownGroup: {group_text(group)}"))
        if not self.has_object(line, device, number):
            return
        self.first(self.links, (device, number, group), line, line, 15, f"DuplicateLink: {device_text(device)} {number} {group_text(group)}")
        size = self.objects[device, number][0]
        if self.sizes.setdefault(group, size) != size:
            self.wrong.append((line, 18, f"SizeDiffers: {counted(size, 'bit')}, where the group has {self.sizes[group]}"))
