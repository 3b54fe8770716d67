"""What an event of the simulated line costs, on lines of 16, 64 and 254 devices.

    python3 bench/line.py [--prog ./crates/line_runs/out/line_runs] [--devices 16,64,254] [--requests 100000,400000] [--runs 5]

It runs the program with a `load` line for each number of devices and of requests, and prints, of the best run, the events, the processor time
in milliseconds and the greatest resident set in MiB; and of each line, from the two numbers of requests, so that the start and end of the
process fall out, events a second of processor time and octets an event. Last comes the growth: the exponent g of time an event ~ devices**g between the
smallest and the largest line, which is 0 where an event costs the same on both.
"""
import argparse
import math
import os
import subprocess


def run(prog, devices, requests):
    """Events, seconds of processor time, octets of the greatest resident set."""
    process = subprocess.Popen([prog], stdin=subprocess.PIPE, stdout=subprocess.PIPE, text=True)
    process.stdin.write(f"load {devices} {requests}\n")
    process.stdin.close()
    told = process.stdout.read()
    _, status, usage = os.wait4(process.pid, 0)
    if status:
        raise SystemExit(f"{prog}: status {status}")
    return int(told.split()[-1]), usage.ru_utime + usage.ru_stime, usage.ru_maxrss * 1024


def best(prog, devices, requests, runs):
    return min((run(prog, devices, requests) for _ in range(runs)), key=lambda it: it[1])


def main():
    parser = argparse.ArgumentParser()
    parser.add_argument("--prog", default="./crates/line_runs/out/line_runs")
    parser.add_argument("--devices", default="16,64,254")
    parser.add_argument("--requests", default="100000,400000")
    parser.add_argument("--runs", type=int, default=5)
    args = parser.parse_args()
    lines = [int(it) for it in args.devices.split(",")]
    few, many = sorted(int(it) for it in args.requests.split(","))
    cost = {}
    print("devices requests  events       ms    MiB")
    for devices in lines:
        rows = []
        for requests in (few, many):
            events, seconds, octets = best(args.prog, devices, requests, args.runs)
            rows.append((events, seconds, octets))
            print(f"{devices:7} {requests:8} {events:7} {seconds * 1000:8.1f} {octets / 2**20:6.1f}")
        events = rows[1][0] - rows[0][0]
        cost[devices] = (rows[1][1] - rows[0][1]) / events
        print(f"{devices:7}: {1 / cost[devices]:,.0f} events a second, {(rows[1][2] - rows[0][2]) / events:.1f} octets an event")
    small, large = min(lines), max(lines)
    print(f"growth from {small} to {large} devices: {math.log(cost[large] / cost[small]) / math.log(large / small):.3f}")


if __name__ == "__main__":
    main()
