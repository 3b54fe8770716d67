"""What several downloaders cost and gain: one line loaded by 1, 2, 4 and 8 of them.

    python3 bench/workers.py [--prog ./crates/knx_cli/out/knx_cli] [--devices 254] [--served 32] [--answer 0.05] [--runs 11]

First `sim` of so many devices, over blank devices with an empty script, by turns with each number of downloaders: seconds by the clock in the median and in the best run, events on the
line, events in a second, in the median, and what part of those with one downloader that is, in the median and in the best runs. Then `download` of as many as --served from a `gateway` on this machine, with 1 and 4 downloaders: seconds by the clock, and datagrams that
were sent by either. At last the same, where each answer of a device takes as long as --answer says: a relay stands between client and gateway, which ends the
tunnel on both sides and hands on what a device sends so much later. Each run has to end with a job done for each device.
"""
import argparse
import heapq
import pathlib
import select
import socket
import statistics
import subprocess
import tempfile
import threading
import time

from loads import project

REQUEST, ACK, CONNECTED = 0x0420, 0x0421, 0x0206
INDICATION = 0x29


def is_done(out, devices):
    return out.count(" done\n") >= devices and " failed" not in out


def simulated(prog, folder, devices, workers):
    """Seconds by the clock, and events up to the last entry of the log."""
    began = time.monotonic()
    run = subprocess.run([prog, "sim", "new", "empty", "empty", f"workers={workers}", "log"], cwd=folder, stdin=subprocess.DEVNULL, capture_output=True, text=True)
    seconds = time.monotonic() - began
    if run.returncode or not is_done(run.stdout, devices):
        raise SystemExit(f"sim with {workers}: status {run.returncode}")
    events = [int(line.split()[1]) for line in run.stdout.splitlines() if line.startswith("log ")][-1]
    return seconds, events


class Relay(threading.Thread):
    """Both ends of a tunnel, between a client and a gateway. What a device sends goes on when its answer is due."""

    def __init__(self, gateway, answer):
        super().__init__(daemon=True)
        self.answer = answer
        self.front = socket.socket(socket.AF_INET, socket.SOCK_DGRAM)
        self.front.bind(("127.0.0.1", 0))
        self.back = socket.socket(socket.AF_INET, socket.SOCK_DGRAM)
        self.back.connect(("127.0.0.1", gateway))
        self.client = None
        self.ends()

    @property
    def port(self):
        return self.front.getsockname()[1]

    def ends(self):
        """No channel: counters, and what waits for either side."""
        self.channel = 0
        self.got = {"front": 0, "back": 0}
        self.sent = {"front": 0, "back": 0}
        self.waiting = {"front": [], "back": []}
        self.under_way = {"front": False, "back": False}
        self.number = 0

    def to(self, side, octets):
        if side == "back":
            self.back.send(octets)
        elif self.client:
            self.front.sendto(octets, self.client)

    def queue(self, side, due, frame):
        self.number += 1
        heapq.heappush(self.waiting[side], (due, self.number, frame))

    def put(self):
        """Sends what is due on either side, one request at a time."""
        for side in ("front", "back"):
            queue = self.waiting[side]
            if queue and not self.under_way[side] and queue[0][0] <= time.monotonic():
                frame = queue[0][2]
                self.to(side, bytes([6, 16, 4, 0x20, 0, 10 + len(frame), 4, self.channel, self.sent[side], 0]) + frame)
                self.under_way[side] = True

    def take(self, side, octets):
        other = "back" if side == "front" else "front"
        service = int.from_bytes(octets[2:4], "big")
        if service == ACK:
            if self.under_way[side] and octets[8] == self.sent[side]:
                heapq.heappop(self.waiting[side])
                self.sent[side] = (self.sent[side] + 1) % 256
                self.under_way[side] = False
        elif service == REQUEST:
            self.to(side, bytes([6, 16, 4, 0x21, 0, 10, 4, self.channel, octets[8], 0]))
            if octets[8] == self.got[side]:
                self.got[side] = (self.got[side] + 1) % 256
                late = self.answer if side == "back" and octets[10] == INDICATION else 0
                self.queue(other, time.monotonic() + late, octets[10:])
        else:
            if service == CONNECTED:
                self.ends()
                self.channel = octets[6]
            self.to(other, octets)

    def run(self):
        while True:
            self.put()
            dues = [self.waiting[side][0][0] for side in self.waiting if self.waiting[side] and not self.under_way[side]]
            wait = max(0, min(dues) - time.monotonic()) if dues else 1
            for sock in select.select([self.front, self.back], [], [], wait)[0]:
                octets, sender = sock.recvfrom(1024)
                if sock is self.front:
                    self.client = sender
                self.take("front" if sock is self.front else "back", octets)


def datagrams():
    """How many datagrams this machine has sent."""
    names, counts = [line.split() for line in pathlib.Path("/proc/net/snmp").read_text(encoding="ascii").splitlines() if line.startswith("Udp:")]
    return int(counts[names.index("OutDatagrams")])


def free_port():
    with socket.socket(socket.AF_INET, socket.SOCK_DGRAM) as probe:
        probe.bind(("127.0.0.1", 0))
        return probe.getsockname()[1]


def downloaded(prog, folder, devices, workers, answer):
    """Seconds by the clock, and datagrams."""
    port = free_port()
    gateway = subprocess.Popen([prog, "gateway", f"127.0.0.1:{port}", "old", "empty", "turns=10000000"], cwd=folder, stdin=subprocess.DEVNULL, stdout=subprocess.DEVNULL)
    time.sleep(0.5)
    at = port
    if answer:
        relay = Relay(port, answer)
        relay.start()
        at = relay.port
    before, began = datagrams(), time.monotonic()
    run = subprocess.run([prog, "download", f"127.0.0.1:{at}", "old", f"workers={workers}"], cwd=folder, stdin=subprocess.DEVNULL, capture_output=True, text=True)
    seconds, sent = time.monotonic() - began, datagrams() - before
    gateway.wait(60)
    if run.returncode or not is_done(run.stdout, devices):
        raise SystemExit(f"download with {workers}: status {run.returncode}\n{run.stdout}")
    return seconds, sent


def main():
    parser = argparse.ArgumentParser(description=__doc__, formatter_class=argparse.RawDescriptionHelpFormatter)
    parser.add_argument("--prog", default="./crates/knx_cli/out/knx_cli")
    parser.add_argument("--devices", type=int, default=254)
    parser.add_argument("--served", type=int, default=32)
    parser.add_argument("--answer", type=float, default=0.05)
    parser.add_argument("--runs", type=int, default=11)
    args = parser.parse_args()
    prog = str(pathlib.Path(args.prog).resolve())
    with tempfile.TemporaryDirectory() as name:
        folder = pathlib.Path(name)
        (folder / "empty").touch()
        (folder / "new").write_text(project(args.devices, 8, 32), encoding="utf-8")
        (folder / "old").write_text(project(args.served, 8, 32), encoding="utf-8")
        print(f"sim of {args.devices} devices\nworkers  median    best   events events/s of 1  best")
        rounds = [{workers: simulated(prog, folder, args.devices, workers) for workers in (1, 2, 4, 8)} for _ in range(args.runs)]
        for workers in rounds[0]:
            median, best = (lambda it, of=of: of(round[it][0] for round in rounds) for of in (statistics.median, min))
            events = rounds[0][workers][1]
            parts = [of(1) / of(workers) * events / rounds[0][1][1] for of in (median, best)]
            print(f"{workers:7} {median(workers):7.3f} {best(workers):7.3f} {events:8} {events / median(workers):8.0f} {parts[0]:4.2f} {parts[1]:5.2f}", flush=True)
        for answer in (0, args.answer):
            print(f"download of {args.served} devices over UDP, {f'each answer after {answer:g} s' if answer else 'answers at once'}\nworkers seconds datagrams")
            for workers in (1, 4):
                seconds, sent = downloaded(prog, folder, args.served, workers, answer)
                print(f"{workers:7} {seconds:7.2f} {sent:9}", flush=True)


if __name__ == "__main__":
    main()
