"""What `check` and `tables` need for texts of growing size.

    python3 bench/sizes.py [--prog ./crates/knx_cli/out/knx_cli] [--sizes 65536,262144,1048576,4194304] [--runs 5]

It makes the same texts at each call, runs the program on each of them, and prints the best wall clock in milliseconds on all processors
and on one, their ratio, the ratio of the first to a plain pass over the octets of the same files (`wc -l`), and the greatest resident set
in MiB. The empty project's row, which is the start and end of the process, stands on top. After each family comes the growth: the
exponent g of time ~ size**g between the two greatest sizes, the time of the empty project taken off. A family that says the same as
another one is told with the ratio of its octets and of its times on all processors to those of the other, size by size.

Families:
    one         one device: 255 objects, up to 2,047 links, then `flags` and `param` lines to the end
    devices     255 devices (fewer where the size holds fewer), the text shared among them: objects, parameters, then links
    devices-2   what `devices` says at this size, as a text of version 2, which has fewer octets: the same groups, devices, parameters
                and links, but each object's groups stand ascending, up to 32 on a `link` line, with a `send` line where the least of
                them isn't the one that sends
    groups      `ga` lines with names of 32 letters, then `project` lines
    catalogue   a catalogue of the size, with models of 16 parameters and 4 objects, and a small project
"""
import argparse
import ctypes
import math
import os
import random
import subprocess
import tempfile
import time


def group(raw):
    return f"{raw >> 11}/{raw >> 8 & 7}/{raw & 255}"


def individual(k):
    """The k-th of 255 addresses of the line 1.1 and, at the end, 1.2."""
    return f"1.1.{k + 1}" if k < 254 else f"1.2.{k - 253}"


def model(name, fields, objects):
    lines = [f"[{name}]", f"params = {4 * fields}"]
    for n in range(1, objects + 1):
        lines += [f"[[{name}.object]]", f"n = {n}", f"size = {1 if n % 2 else 8}", 'flags = "CRWTU"']
    for k in range(fields):
        lines += [f"[[{name}.parameter]]", f'name = "field-{k}"', f"bit = {32 * k + k % 9}", f"width = {23 - k % 9}",
                  "min = 0", f"max = {2 ** (23 - k % 9) - 1}", f"default = {k}"]
    return "\n".join(lines) + "\n"


class Text:
    """Lines up to an exact number of octets; the rest is a comment."""

    def __init__(self, size):
        self.size, self.lines, self.used = size, [], 0

    def add(self, line):
        """False where the line doesn't fit any more."""
        if self.used + len(line) + 1 > self.size:
            return False
        self.lines.append(line + "\n")
        self.used += len(line) + 1
        return True

    def octets(self):
        rest = self.size - self.used
        while rest > 0:
            n = min(rest, 500)
            self.lines.append("#" * (n - 1) + "\n")
            rest -= n
        return "".join(self.lines).encode()


SMALL = model("dim", 64, 8).encode()


def one(size):
    text, numbers = Text(size), random.Random(size)
    text.add("device 1.1.5 dim")
    for n in range(9, 256):
        text.add(f"object 1.1.5 {n} {1 if n % 2 else 8} CRWTU")
    groups = [16 * k + 1 for k in range(min(2047, (size - text.used) // 48))]
    for k, raw in enumerate(groups):
        text.add(f"ga {group(raw)} group{k}")
    numbers.shuffle(groups)
    for k, raw in enumerate(groups):
        text.add(f"link 1.1.5 {9 + k % 247} {group(raw)}")
    k = 0
    while text.add(f"flags 1.1.5 {1 + k % 255} CWU") and text.add(f"param 1.1.5 field-{k % 64} {numbers.randrange(2 ** 15)}"):
        k += 1
    return text.octets(), SMALL


def devices(size):
    text, numbers = Text(size), random.Random(size)
    count, groups = min(255, max(1, size // 512)), min(8000, size // 64)
    for k in range(groups):
        text.add(f"ga {group(k + 1)} group{k}")
    for k in range(count):
        text.add(f"device {individual(k)} dim")
    each = (size - text.used) // count
    for k in range(count):
        device, end = individual(k), text.used + each
        for p in range(8):
            text.add(f"param {device} field-{p} {numbers.randrange(2 ** 15)}")
        # odd objects are of 1 bit and take the odd groups
        chosen = [numbers.sample(range(first, groups, 2), min(1023, groups // 2 - 1)) for first in (1, 2)]
        for j in range(2 * len(chosen[0])):
            if text.used + 24 > end:
                break
            text.add(f"link {device} {1 + j // 2 % 4 * 2 + j % 2} {group(chosen[j % 2][j // 2])}")
    return text.octets(), SMALL


GROUPS_OF_A_LINE = 32


def gathered(linked):
    """A device's links in version 2, of each object's groups in the order of version 1, where the first one sends."""
    for (device, n), found in sorted(linked.items()):
        ascending = sorted(found, key=lambda to: [int(part) for part in to.split("/")])
        for first in range(0, len(ascending), GROUPS_OF_A_LINE):
            yield f"link {device} {n} " + " ".join(ascending[first:first + GROUPS_OF_A_LINE])
        if ascending[0] != found[0]:
            yield f"send {device} {n} {found[0]}"


def devices_in_version_2(size):
    project, models = devices(size)
    lines, linked = ["version 2"], {}
    for line in project.decode().splitlines():
        if line.startswith("link "):
            _, device, n, to = line.split()
            linked.setdefault((device, n), []).append(to)
        elif line.strip("#"):
            # a device's links end where the next device begins
            lines += [*gathered(linked), line]
            linked = {}
    return "\n".join([*lines, *gathered(linked), ""]).encode(), models


def groups(size):
    text, k = Text(size), 1
    text.add("device 1.1.5 dim")
    while k < 65536 and text.add(f"ga {group(k)} group-{k:05}-abcdefghijklmnopqrst"):
        k += 1
    while text.add(f"project group-{k:05}-abcdefghijklmnopqrst"):
        k += 1
    return text.octets(), SMALL


def catalogue(size):
    models, used = [], 0
    while True:
        text = model(f"model-{len(models):05}", 16, 4).encode()
        if used + len(text) > size - 1:
            break
        models.append(text)
        used += len(text)
    project = f"ga 1/0/1 lamp\ndevice 1.1.20 model-{len(models) - 1:05}\nlink 1.1.20 1 1/0/1\nparam 1.1.20 field-3 7\n"
    return project.encode(), b"".join(models) + b"#" * (size - used - 1) + b"\n"


FAMILIES = {"one": one, "devices": devices, "devices-2": devices_in_version_2, "groups": groups, "catalogue": catalogue}

# A family that says the same as another one.
SAME_AS = {"devices-2": "devices"}


def seconds_of(words, folder):
    start = time.perf_counter()
    status = subprocess.run(words, cwd=folder, stdin=subprocess.DEVNULL, stdout=subprocess.DEVNULL).returncode
    return time.perf_counter() - start, status


def memory_of(words, folder):
    """The greatest resident set of a run, in MiB.

    Linux counts for a child what its parent had before the exec, which is Python's set. So a shell's child becomes the program once
    the shell is gone; it falls to this process as the nearest subreaper.
    """
    PR_SET_CHILD_SUBREAPER = 36
    ctypes.CDLL(None).prctl(PR_SET_CHILD_SUBREAPER, 1, 0, 0, 0)
    script = 'exec 3<&0; { read -r go <&3; exec "$@" 3<&- >/dev/null 2>&1; } & echo $!'
    with subprocess.Popen(["sh", "-c", script, "sh"] + words, cwd=folder, stdin=subprocess.PIPE, stdout=subprocess.PIPE) as shell:
        child = int(shell.stdout.readline())
        shell.wait()
        shell.stdin.write(b"go\n")
    _, _, usage = os.wait4(child, 0)
    return usage.ru_maxrss / 1024


def best(words, folder, runs, processors=None):
    """The best of some runs, on these processors or on all, and the status of the first; a process runs where its parent may."""
    every = os.sched_getaffinity(0)
    os.sched_setaffinity(0, processors or every)
    try:
        tried = [seconds_of(words, folder) for _ in range(runs)]
    finally:
        os.sched_setaffinity(0, every)
    return min(seconds for seconds, _ in tried), tried[0][1]


def row(family, size, command, words, files, folder, runs):
    seconds, status = best(words, folder, runs)
    alone, _ = best(words, folder, runs, {min(os.sched_getaffinity(0))})
    plain, _ = best(["wc", "-l"] + files, folder, runs)
    note = "" if status == 0 else f"  status {status}"
    times = f"{1000 * seconds:8.1f} {1000 * alone:8.1f} {seconds / alone:8.2f} {seconds / plain:8.1f}"
    print(f"{family:10} {size:8} {command:7} {times} {memory_of(words, folder):8.1f}{note}", flush=True)
    return seconds


def growth(points, base):
    if len(points) < 2 or points[-2][1] <= 1.05 * base:
        return "within the start"
    (small, less), (great, more) = points[-2:]
    return f"{math.log((more - base) / (less - base)) / math.log(great / small):.2f}"


def ratios(points, others, place):
    """What octets or seconds are of another family's, size by size."""
    return " ".join(f"{of[place] / other[place]:.2f}" for of, other in zip(points, others))


def main():
    arguments = argparse.ArgumentParser(description=__doc__, formatter_class=argparse.RawDescriptionHelpFormatter)
    root = os.path.dirname(os.path.dirname(os.path.abspath(__file__)))
    arguments.add_argument("--prog", default=os.path.join(root, "crates/knx_cli/out/knx_cli"))
    arguments.add_argument("--sizes", default="65536,262144,1048576,4194304")
    arguments.add_argument("--only", default=",".join(FAMILIES))
    arguments.add_argument("--runs", type=int, default=5)
    asked = arguments.parse_args()
    program = os.path.abspath(asked.prog)
    print(f"{'family':10} {'octets':>8} {'command':7} {'ms':>8} {'on one':>8} {'ratio':>8} {'of wc':>8} {'MiB':>8}")
    with tempfile.TemporaryDirectory(prefix="knx-sizes") as folder:
        def put(name, octets):
            with open(os.path.join(folder, name), "wb") as file:
                file.write(octets)
            return name

        base = row("empty", 0, "check", [program, "check", put("empty.txt", b"")], ["empty.txt"], folder, asked.runs)
        measured = {}
        for family in asked.only.split(","):
            grown = measured[family] = {"check": [], "tables": []}
            for size in sorted(map(int, asked.sizes.split(","))):
                project, models = FAMILIES[family](size)
                octets = len(project) if family in SAME_AS else size
                files = [put(f"{family}-{size}.txt", project), put(f"{family}-{size}.toml", models)]
                for command, points in grown.items():
                    words = [program, command, files[0], "catalogue=" + files[1]]
                    points.append((octets, row(family, octets, command, words, files, folder, asked.runs)))
            print(f"{family:10} growth: " + ", ".join(f"{command} {growth(points, base)}" for command, points in grown.items()))
            if (other := SAME_AS.get(family)) in measured:
                fewer = ratios(grown["check"], measured[other]["check"], 0)
                times = [f"{command} {ratios(points, measured[other][command], 1)}" for command, points in grown.items()]
                print(f"{family:10} of {other}: octets {fewer}, " + ", ".join(times))


if __name__ == "__main__":
    main()
