"""docs/formats.md read once more: what `check`, `tables`, `migrate` and `decode` have to answer to given octets, and which refusal. run.py compares
the program with it. It shares nothing with the program but that page."""
import re
import tomllib

LONGEST = 4194304
SIZES = {1: 0, 2: 1, 3: 2, 4: 3, 5: 4, 6: 5, 7: 6, 8: 7, 16: 8, 24: 9, 32: 10, 48: 11, 64: 12, 80: 13, 112: 14}
WHYS = {1: "NotText", 2: "LongLine", 3: "UnknownWord", 4: "BadAddress", 5: "BadNumber", 6: "BadName", 7: "MissingWord", 8: "ExtraWord",
        9: "DuplicateDevice", 10: "DuplicateGroup", 11: "UnknownGroup", 12: "UnknownModel", 13: "DuplicateObject", 14: "UnknownObject",
        15: "DuplicateLink", 16: "UnknownParameter", 17: "OutOfRange", 18: "SizeDiffers", 19: "TooMany", 20: "NoDevice", 22: "NotLinked",
        23: "BadVersion"}


class Refused(Exception):
    """A text's line, and the number of the rule that it breaks, with a limit where the rule has one."""

    def __init__(self, line, number, limit=None):
        super().__init__(line, number, limit)
        self.text = f"line {line}: {number} {WHYS[number]}" + (f" {limit}" if limit else "")


class CatalogueRefused(Exception):
    """What is told of a catalogue: the number of its fault, the fault, and where it is."""


# ---- words

def numbers_in(word, sign, most):
    """The three numbers of an address, each of one to three digits and at most so great."""
    parts = word.split(sign)
    good = len(parts) == 3 and all(re.fullmatch("[0-9]{1,3}", part) for part in parts)
    numbers = [int(part) for part in parts] if good else []
    return numbers if good and all(n <= limit for n, limit in zip(numbers, most)) else None


def individual(word):
    numbers = numbers_in(word, ".", (15, 15, 254))
    return (numbers[0] << 12 | numbers[1] << 8 | numbers[2]) if numbers and numbers[2] else None


def of_unit(word):
    numbers = numbers_in(word, ".", (15, 15, 255))
    return (numbers[0] << 12 | numbers[1] << 8 | numbers[2]) if numbers and numbers[2] else None


def mode(word):
    return word if word in ("prog", "off") else None


def group(word):
    numbers = numbers_in(word, "/", (31, 7, 255))
    return (numbers[0] << 11 | numbers[1] << 8 | numbers[2]) or None if numbers else None


def any_group(word):
    """A group in three levels, in two levels or free."""
    if "/" not in word:
        return (int(word) if re.fullmatch("[0-9]{1,5}", word) and int(word) < 65536 else 0) or None
    levels = re.fullmatch("([0-9]{1,3})/([0-9]{1,4})", word)
    if not levels:
        return group(word)
    main, below = int(levels[1]), int(levels[2])
    return (main << 11 | below) or None if main < 32 and below < 2048 else None


def number(word):
    if re.fullmatch("[0-9]{1,10}", word):
        return int(word) if int(word) < 2 ** 32 else None
    return int(word, 16) if re.fullmatch("0x[0-9A-Fa-f]{1,8}", word) else None


def positive(word):
    return number(word) or None


def one_of(*numbers):
    return lambda word: number(word) if number(word) in numbers else None


def name(word):
    return word if re.fullmatch("[A-Za-z0-9_.-]{1,32}", word) else None


def flags(word):
    return "" if word == "-" else word if re.fullmatch("[CRWTUI]+", word) and len(set(word)) == len(word) else None


def status(word):
    return word if re.fullmatch("[0-9A-Fa-f]{2}", word) and word != "00" else None


def group_value(word):
    return word if word == "read" or re.fullmatch("s[0-3][0-9A-Fa-f]|([0-9A-Fa-f]{2}){1,14}", word) else None


OBJECT = one_of(*range(1, 256))
# how a word in a place is read, and the refusal of one that can't be
PLACES = {"individual": (individual, 4), "group": (group, 4), "object": (OBJECT, 5), "size": (one_of(*SIZES), 5), "value": (number, 5),
          "count": (positive, 5), "status": (status, 5), "group-value": (group_value, 5), "name": (name, 6), "flags": (flags, 6),
          "of-unit": (of_unit, 4), "mode": (mode, 3), "any-group": (any_group, 4)}
STATEMENTS = {"project": "name", "ga": "group name", "device": "individual name", "object": "individual object size flags",
              "link": "individual object group", "flags": "individual object flags", "param": "individual name value", "version": "value"}
# of version 2; a place with a plus takes up to 32 words
LATER = {**STATEMENTS, "ga": "any-group name", "link": "individual object any-group+", "send": "individual object any-group"}
SCRIPT_LINES = {"lose": {"up": "count", "down": "count", "to": "individual count", "from": "individual count"},
                "repeat": {"up": "count", "down": "count", "to": "individual count"}, "drop": {"channel": "count"},
                "then": {"group": "group group-value"}, "cut": "individual count value", "worn": "individual count",
                "close": "individual count", "refuse": "count status", "off": "individual", "group": "group group-value",
                "standard": "individual"}
UNIT_LINES = {"unit": "of-unit mode", "lose": {"read": "count count", "answer": "count count"}}


def lines_of(octets, most=None):
    """The number and the words of each line."""
    if len(octets) > LONGEST:
        raise Refused(0, 19, LONGEST)
    parts = octets.split(b"\n")
    last = parts.pop()
    ended = [part.removesuffix(b"\r") for part in parts] + [last] * (last != b"")
    for line, part in enumerate(ended, 1):
        if most and line > most:
            raise Refused(line, 19, most)
        try:
            text = part.decode()
        except UnicodeDecodeError:
            raise Refused(line, 1) from None
        if re.search("[\x00-\x08\x0a-\x1f\x7f]", text):
            raise Refused(line, 1)
        if len(part) > 512:
            raise Refused(line, 2)
        words = re.findall("[^ \t]+", text.split("#")[0])
        if words:
            yield line, words


def read_line(line, words, table):
    """The statement's words, and the values of its places."""
    places, said = table, []
    while isinstance(places, dict):
        if len(said) == len(words):
            raise Refused(line, 7)
        said.append(words[len(said)])
        places = places.get(said[-1])
        if places is None:
            raise Refused(line, 3)
    wanted, values = places.split(), []
    if wanted and wanted[-1].endswith("+"):
        several = wanted.pop()[:-1]
        wanted += [several] * max(1, min(32, len(words) - len(said) - len(wanted)))
    for place, word in zip(wanted, words[len(said):]):
        read, why = PLACES[place]
        values.append(read(word))
        if values[-1] is None:
            raise Refused(line, why)
    missing = len(wanted) - len(values)
    if missing or len(words) > len(said) + len(values):
        raise Refused(line, 7 if missing else 8)
    return line, " ".join(said), values


def statements_of(octets):
    """The statements; the first line with words tells the version. A `link` line has its groups as one value."""
    said, table = [], None
    for line, words in lines_of(octets):
        tells = table is None and len(words) == 2 and words[0] == "version" and number(words[1]) == 2
        table = table or (LATER if tells else STATEMENTS)
        _, word, values = read_line(line, words, table)
        if word == "version" and not tells:
            raise Refused(line, 23)
        said.append((line, word, [*values[:2], values[2:]] if word == "link" else values))
    return said


def units_of(octets):
    """The units, each with its address and whether it is in programming mode, and what is lost."""
    units, losses = [], set()
    for line, words in lines_of(octets):
        _, word, values = read_line(line, words, UNIT_LINES)
        if word == "unit" and len(units) == 255:
            raise Refused(line, 19, 255)
        if word == "unit":
            units.append([values[0], values[1] == "prog"])
        else:
            losses.add((word[5:], *values))
    return units, losses


def script_of(octets):
    return [read_line(line, words, SCRIPT_LINES) for line, words in lines_of(octets, 65536)]


# ---- a project

INLINE = {"params": 0, "objects": {}, "parameters": {}}


class Project:
    """A project's statements with the models of a catalogue, and what its devices are."""

    def __init__(self, octets, models):
        self.statements, self.models = statements_of(octets), {**models, "inline": INLINE}
        self.model, self.declared, self.leads = {}, {}, {}
        for _, word, values in self.statements:
            if word == "device":
                self.model.setdefault(values[0], values[1])
            elif word == "object":
                self.declared.setdefault((values[0], values[1]), values[2])
            elif word == "link":
                for to in values[2]:
                    self.leads.setdefault(to, (values[0], values[1]))
        self.groups = {values[0] for _, word, values in self.statements if word == "ga"}
        self.linked = {(values[0], values[1], to) for _, word, values in self.statements if word == "link" for to in values[2]}
        self.check()

    def of(self, word, device):
        return [values[1:] for _, said, values in self.statements if said == word and values[0] == device]

    def model_of(self, device):
        return self.models.get(self.model.get(device))

    def size(self, device, n):
        model = self.model_of(device)
        return model["objects"][n][0] if model and n in model["objects"] else self.declared.get((device, n))

    def check(self):
        """The first line that breaks a rule is refused, by its least one."""
        seen, links, devices = set(), {}, 0
        for line, word, values in self.statements:
            broken = set()
            if word in ("device", "ga", "object"):
                key = (word, *values[:{"device": 1, "ga": 1, "object": 2}[word]])
                if key in seen and (word != "object" or self.model_of(values[0])):
                    broken.add({"device": 9, "ga": 10, "object": 13}[word])
                seen.add(key)
            if word == "device":
                devices += 1
                broken |= {12} if values[1] not in self.models else set()
                broken |= {19} if devices > 255 else set()
            if word == "link":
                links[values[0]] = links.get(values[0], 0) + len(values[2])
                for to in values[2]:
                    broken |= {11} if to not in self.groups else set()
                    broken |= {15} if ("link", *values[:2], to) in seen else set()
                    seen.add(("link", *values[:2], to))
                broken |= {19} if links[values[0]] > 2047 else set()
            if word == "send":
                broken |= {11} if values[2] not in self.groups else set()
                broken |= {22} if tuple(values) not in self.linked else set()
            if word in ("object", "link", "send", "flags", "param"):
                broken |= self.broken_of(word, *values) if values[0] in self.model else {20}
            if broken:
                raise Refused(line, min(broken), {"device": 255, "link": 2047}.get(word) if min(broken) == 19 else None)

    def broken_of(self, word, device, what, *rest):
        """The rules that are asked of a known device: what its model has, its parameters and sizes."""
        model, broken = self.model_of(device), set()
        if model and word == "object" and what in model["objects"]:
            broken.add(13)
        if model and word in ("link", "send", "flags") and what not in model["objects"] and (device, what) not in self.declared:
            broken.add(14)
        if model and word == "param":
            field = model["parameters"].get(what)
            broken |= {16} if field is None else {17} if not field["min"] <= rest[0] <= field["max"] else set()
        if word == "link":
            for to in rest[0]:
                mine, first = self.size(device, what), self.size(*self.leads[to])
                broken |= {18} if None not in (mine, first) and mine != first else set()
        return broken

    def counts(self):
        objects = sum(word == "object" for _, word, _ in self.statements) + sum(len(self.model_of(d)["objects"]) for d in self.model)
        return f"ok devices {len(self.model)} objects {objects} links {len(self.linked)}\n"

    def image(self, device):
        """The four lists of octets of one device."""
        model, links = self.model_of(device) or INLINE, [(n, to) for n, groups in self.of("link", device) for to in groups]
        groups = sorted({to for _, to in links})
        sending = {**{n: to for n, to in reversed(links)}, **dict(self.of("send", device))}
        pairs = sorted((n, sending[n] != to, groups.index(to) + 1) for n, to in links)
        objects = {**model["objects"], **{n: tuple(rest) for n, *rest in self.of("object", device)}}
        for n, letters in self.of("flags", device):
            objects[n] = (objects[n][0], letters)
        memory, settings = 0, dict(self.of("param", device))
        for field, f in model["parameters"].items():
            memory |= settings.get(field, f["default"]) << (8 * model["params"] - f["bit"] - f["width"])
        most = max(objects, default=0)
        return (octets_of(len(groups), *groups), octets_of(len(pairs), *(part for n, _, place in pairs for part in (place, n))),
                octets_of(most) + bytes(octet for n in range(1, most + 1) for octet in object_octets(objects.get(n))),
                memory.to_bytes(model["params"], "big"))

    def tables(self):
        return "".join("".join([f"device {individual_text(device)}\n"] + [f"{word} {hexed(octets)}\n" for word, octets in
                       zip(("address", "association", "objects", "params"), self.image(device))]) for device in sorted(self.model))


    def migrated(self):
        """Its text in version 2."""
        said = ["version 2"]
        for _, word, values in self.statements:
            if word not in ("version", "send"):
                said += [statement_text(word, [*values[:2], to]) for to in values[2]] if word == "link" else [statement_text(word, values)]
        for device in sorted({device for device, _, _ in self.linked}):
            links = [(n, to) for n, groups in self.of("link", device) for to in groups]
            sending = {**{n: to for n, to in reversed(links)}, **dict(self.of("send", device))}
            said += [statement_text("send", [device, n, sending[n]]) for n in sorted({n for n, _ in links})]
        return "".join(f"{line}\n" for line in said)


def statement_text(word, values):
    """A statement as it is printed."""
    written = {"ga": [group_text], "link": [individual_text, str, group_text], "send": [individual_text, str, group_text]}.get(word, [individual_text] if word not in ("project", "ga") else [])
    texts = [write(value) for write, value in zip(written + [str] * len(values), values)]
    if word in ("object", "flags"):
        texts[-1] = "".join(sorted(values[-1], key="CRWTUI".index)) or "-"
    return " ".join([word, *texts])


def octets_of(*numbers):
    return b"".join(n.to_bytes(2, "big") for n in numbers)


def object_octets(of):
    return (0, 0) if of is None else (3 + sum(4 << "CRWITU".index(letter) for letter in of[1]), SIZES[of[0]])


def individual_text(raw):
    return f"{raw >> 12}.{raw >> 8 & 15}.{raw & 255}"


def group_text(raw):
    return f"{raw >> 11}/{raw >> 8 & 7}/{raw & 255}"


def hexed(octets):
    return octets.hex().upper() or "-"


# ---- a catalogue

def is_whole(value, low, high):
    return type(value) is int and low <= value <= high


def is_list_of(value, shape):
    return isinstance(value, list) and all(isinstance(entry, dict) and set(entry) == set(shape) and all(
        test(entry[key]) for key, test in shape.items()) for entry in value)


def is_name(value):
    return isinstance(value, str) and name(value) is not None


A_FIELD = {"name": is_name, **{key: lambda value: type(value) is int for key in ("bit", "width", "min", "max", "default")}}
AN_OBJECT = {"n": lambda n: is_whole(n, 1, 255), "size": lambda n: type(n) is int and n in SIZES,
             "flags": lambda text: isinstance(text, str) and flags(text) is not None}


def has_shape(title, value):
    if not (is_name(title) and title != "inline" and isinstance(value, dict) and set(value) <= {"params", "object", "parameter"}):
        return False
    objects, fields = value.get("object", []), value.get("parameter", [])
    return (is_whole(value.get("params"), 0, 8192) and is_list_of(objects, AN_OBJECT) and is_list_of(fields, A_FIELD)
            and len({o["n"] for o in objects}) == len(objects) and len({f["name"] for f in fields}) == len(fields))


def models_of(octets):
    if len(octets) > LONGEST:
        raise CatalogueRefused("5 Long")
    try:
        document = tomllib.loads(octets.decode())
    except ValueError:
        raise CatalogueRefused("1 Toml") from None
    models = {}
    for title in sorted(document, key=str.encode):
        value = document[title]
        if not has_shape(title, value):
            raise CatalogueRefused(f"2 Shape {title}")
        taken = set()
        for f in value.get("parameter", []):
            bits = range(f["bit"], f["bit"] + f["width"])
            is_within = 1 <= f["width"] <= 32 and 0 <= f["bit"] and bits.stop <= 8 * value["params"]
            if not (is_within and 0 <= f["min"] <= f["default"] <= f["max"] < 2 ** f["width"]):
                raise CatalogueRefused(f"4 Range {title} {f['name']}")
            if taken & set(bits):
                raise CatalogueRefused(f"3 Overlap {title} {f['name']}")
            taken |= set(bits)
        models[title] = {"params": value["params"], "objects": {o["n"]: (o["size"], o["flags"].strip("-")) for o in value.get("object", [])},
                         "parameters": {f["name"]: f for f in value.get("parameter", [])}}
    return models
