"""How long the two ends of a tunnel let each other wait, where `gateway` serves a line and `download` loads it, over UDP on this machine.

    python3 bench/pauses.py [--prog ./crates/knx_cli/out/knx_cli] [--devices 8]

It makes a project of so many devices, runs `gateway` of devices without objects, and `download` through a relay that notes when each datagram comes by. Of each
end it prints how many datagrams it sent, the median and the greatest time in milliseconds from the datagram that it got last until the one that it sent
then, and how many of these times are over 5 ms. The client's last datagrams, with which it ends its channel after a second of listening, are left out. Both programs have to end with status 0.
"""
import argparse
import pathlib
import select
import socket
import statistics
import subprocess
import tempfile
import time

from loads import project

DISCONNECT_REQUEST = bytes.fromhex("06100209")


def free_port():
    with socket.socket(socket.AF_INET, socket.SOCK_DGRAM) as probe:
        probe.bind(("127.0.0.1", 0))
        return probe.getsockname()[1]


def is_bound(port):
    """Whether a program has taken this UDP port (Linux)."""
    return any(f":{port:04X} " in line for line in pathlib.Path("/proc/net/udp").read_text(encoding="ascii").splitlines()[1:])


def relay(front, gateway, is_over):
    """Hands datagrams on, between the client at `front` and the gateway's port, and lists who sent each, when, and the datagram."""
    back = socket.socket(socket.AF_INET, socket.SOCK_DGRAM)
    client, seen = None, []
    with back:
        while not is_over():
            for sock in select.select([front, back], [], [], 0.05)[0]:
                datagram, sender = sock.recvfrom(1024)
                seen.append(("client" if sock is front else "gateway", time.perf_counter(), datagram))
                if sock is front:
                    client = sender
                    back.sendto(datagram, ("127.0.0.1", gateway))
                else:
                    front.sendto(datagram, client)
    return seen


def pauses(seen, end):
    """Milliseconds from a datagram for this end until its next one."""
    got = None
    for sender, at, datagram in seen:
        if sender != end:
            got = at
        elif got is not None and not datagram.startswith(DISCONNECT_REQUEST):
            yield (at - got) * 1000


def main():
    parser = argparse.ArgumentParser()
    parser.add_argument("--prog", default="./crates/knx_cli/out/knx_cli")
    parser.add_argument("--devices", type=int, default=8)
    args = parser.parse_args()
    prog = str(pathlib.Path(args.prog).resolve())
    with tempfile.TemporaryDirectory() as name, socket.socket(socket.AF_INET, socket.SOCK_DGRAM) as front:
        folder = pathlib.Path(name)
        (folder / "empty").touch()
        (folder / "new").write_text(project(args.devices, 8, 32), encoding="utf-8")
        (folder / "old").write_text("".join(f"device 1.1.{device} inline\n" for device in range(1, args.devices + 1)), encoding="utf-8")
        front.bind(("127.0.0.1", 0))
        port = free_port()
        served = subprocess.Popen([prog, "gateway", f"127.0.0.1:{port}", "old", "empty", "turns=100000"], cwd=folder, stdout=subprocess.DEVNULL)
        while served.poll() is None and not is_bound(port):
            time.sleep(0.01)
        loaded = subprocess.Popen([prog, "download", f"127.0.0.1:{front.getsockname()[1]}", "new"], cwd=folder, stdout=subprocess.DEVNULL)
        seen = relay(front, port, lambda: loaded.poll() is not None)
        if served.wait() or loaded.returncode:
            raise SystemExit(f"{prog}: gateway ended with {served.returncode}, download with {loaded.returncode}")
    print("end     datagrams median greatest over 5 ms")
    for end in ("client", "gateway"):
        found = list(pauses(seen, end))
        print(f"{end:7} {len(found):9} {statistics.median(found):6.2f} {max(found):8.2f} {sum(it > 5 for it in found):9}")


if __name__ == "__main__":
    main()
