"""What `sim` costs: whole lines of 1, 16, 64 and 254 devices, all loaded; and `big 254 1` beside a `sim` of the same line.

    python3 bench/loads.py [--prog ./crates/knx_cli/out/knx_cli] [--devices 1,16,64,254] [--objects 8] [--links 32] [--runs 3]

It makes a project of so many devices, each with so many objects and links, and runs `sim` of it over blank devices with an empty script. It prints,
of the best run, the processor time in seconds, the greatest resident set in MiB, and milliseconds a device; and the growth: the exponent g of time ~ devices**g between the
two largest lines. Then, of `big` and of `sim` of its line, seconds by the clock, and events of the line a second by the clock, up to the end that the log tells last.
Each run has to end with status 0 and a job done for each device.
"""
import argparse
import math
import os
import pathlib
import re
import subprocess
import tempfile
import time


def group(number):
    return f"{number // 2048}/{number // 256 % 8}/{number % 256}"


def project(devices, objects, links):
    """Each device links its objects in turn, to groups that it shares with its neighbours."""
    lines = [f"ga {group(number)} g{number}" for number in range(1, devices * 8 + links + 1)]
    for device in range(1, devices + 1):
        lines.append(f"device 1.1.{device} inline")
        lines += [f"object 1.1.{device} {number} 1 CW" for number in range(1, objects + 1)]
        lines += [f"link 1.1.{device} {number % objects + 1} {group(device * 8 + number)}" for number in range(links)]
    return "\n".join(lines) + "\n"


def made(devices, start):
    """The line that `big` makes, as docs/formats.md says it."""
    lines = [f"ga {group(number)} g{number}" for number in range(1, 2004)]
    state = start
    for device in range(1, devices + 1):
        lines.append(f"device 1.1.{device} inline")
        lines += [f"object 1.1.{device} {number} 1 CRWTU" for number in range(1, 9)]
        for number in range(1, 9):
            state = (state * 6364136223846793005 + 1442695040888963407) % 2 ** 64
            first = 1 + (state >> 33) % 2000
            lines += [f"link 1.1.{device} {number} {group(first + more)}" for more in range(4)]
    return "\n".join(lines) + "\n"


def told(prog, folder, *words):
    """Seconds by the clock and of processor time, octets of the greatest resident set, and the text."""
    with open(folder / "out", "w+", encoding="utf-8") as out:
        begun = time.monotonic()
        process = subprocess.Popen([prog, *words], cwd=folder, stdin=subprocess.DEVNULL, stdout=out)
        _, status, usage = os.wait4(process.pid, 0)
        clock = time.monotonic() - begun
        out.seek(0)
        text = out.read()
    if status:
        raise SystemExit(f"{prog}: status {status}")
    return clock, usage.ru_utime + usage.ru_stime, usage.ru_maxrss * 1024, text


def run(prog, folder, devices):
    """Seconds of processor time, octets of the greatest resident set."""
    _, seconds, octets, text = told(prog, folder, "sim", "new", "empty", "empty")
    done = len(re.findall(" done$", text, re.M))
    if done != devices:
        raise SystemExit(f"{prog}: {done} of {devices} jobs done")
    return seconds, octets


def beside(prog, folder, devices, start, runs):
    """`big`, and `sim` of the same line."""
    (folder / "new").write_text(made(devices, start), encoding="utf-8")
    text = told(prog, folder, "sim", "new", "empty", "empty", "log")[3]
    events = int(re.findall(r"^log (\d+) ", text, re.M)[-1])
    wanted = f"devices {devices} objects {8 * devices} links {32 * devices} done {devices} new {devices}\n"
    print("                clock seconds    MiB events/s")
    for words in (["big", str(devices), str(start)], ["sim", "new", "empty", "empty"]):
        clock, seconds, octets, text = min(told(prog, folder, *words) for _ in range(runs))
        if words[0] == "big" and text != wanted:
            raise SystemExit(f"{prog}: {text}")
        name = " ".join(words) if words[0] == "big" else "sim of it"
        print(f"{name:14} {clock:7.3f} {seconds:7.3f} {octets / 2**20:6.1f} {events / clock:8.0f}")


def main():
    parser = argparse.ArgumentParser()
    parser.add_argument("--prog", default="./crates/knx_cli/out/knx_cli")
    parser.add_argument("--devices", default="1,16,64,254")
    parser.add_argument("--objects", type=int, default=8)
    parser.add_argument("--links", type=int, default=32)
    parser.add_argument("--runs", type=int, default=3)
    args = parser.parse_args()
    prog = str(pathlib.Path(args.prog).resolve())
    cost = {}
    print("devices seconds    MiB ms/device")
    with tempfile.TemporaryDirectory() as name:
        folder = pathlib.Path(name)
        (folder / "empty").touch()
        for devices in (int(it) for it in args.devices.split(",")):
            (folder / "new").write_text(project(devices, args.objects, args.links), encoding="utf-8")
            seconds, octets = min(run(prog, folder, devices) for _ in range(args.runs))
            cost[devices] = seconds
            print(f"{devices:7} {seconds:7.3f} {octets / 2**20:6.1f} {seconds * 1000 / devices:9.2f}")
        beside(prog, folder, 254, 1, args.runs)
    if len(cost) > 1:
        small, large = sorted(cost)[-2:]
        print(f"growth from {small} to {large} devices: {math.log(cost[large] / cost[small]) / math.log(large / small):.3f}")


if __name__ == "__main__":
    main()
