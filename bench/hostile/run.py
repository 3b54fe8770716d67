"""Hostile use of `knx`: each case attacks a promise, and says whether it was kept.

    python3 bench/hostile/run.py [--prog ./crates/knx_cli/out/knx_cli] [--table served|dialled|outside] [--only WORD] [--seed 1] [--count 20000] [--at-once 1]

All is sent on this machine's loopback alone. `--count` is how many datagrams a flood has. A line a case is printed: `ok` or `WRONG`, the case, its
promise, and what was counted or what came instead. The status is 1 where a promise wasn't kept.
"""
import argparse
import concurrent.futures
import pathlib
import random
import signal
import sys
import threading
import time
import traceback

import dialled
import outside
import poured
import served
import wire

ROOT = pathlib.Path(__file__).resolve().parents[2]
TABLES = {"served": served.CASES, "dialled": dialled.CASES + poured.CASES, "outside": outside.CASES}


class Tried:
    """What a case is given: the program, its own random numbers, how much to send, and the conversation of an honest load."""

    kept, lock = None, threading.Lock()
    # so many attacks go on at once in all, of which most wait
    places = threading.BoundedSemaphore(32)

    def __init__(self, prog, seed, count):
        self.prog, self.random, self.count = prog, random.Random(seed), count

    def conversation(self):
        with Tried.lock:
            if Tried.kept is None:
                Tried.kept = wire.conversation(self.prog)
        return Tried.kept

    def each(self, items, attack, at_once=32):
        """Makes an attack for each item, several at once since most of them wait. What was wrong with some is told together."""
        def told(item):
            try:
                with Tried.places:
                    return item, attack(item), None
            except wire.Wrong as wrong:
                return item, None, wrong
        with concurrent.futures.ThreadPoolExecutor(at_once) as together:
            found = list(together.map(told, items))
        bad = [f"{item}: {wrong}" for item, _, wrong in found if wrong]
        wire.want(not bad, f"{len(bad)} of {len(found)}: " + "; ".join(bad[:5]))
        return [answer for _, answer, _ in found]


def run(args, name, promise, function):
    begun = time.monotonic()
    try:
        note, kept = function(Tried(args.prog, f"{args.seed} {name}", args.count)), True
    except wire.Wrong as wrong:
        note, kept = f"{wrong}", False
    except Exception:  # a case that can't be tried is no promise that was kept
        note, kept = traceback.format_exc(limit=-3), False
    print(f"{'ok   ' if kept else 'WRONG'} {name}: {promise} ({time.monotonic() - begun:.1f} s{'; ' + note if note else ''})", flush=True)
    return kept


def main():
    parser = argparse.ArgumentParser(description=__doc__, formatter_class=argparse.RawDescriptionHelpFormatter)
    parser.add_argument("--prog", default=str(ROOT / "crates/knx_cli/out/knx_cli"))
    parser.add_argument("--table", choices=TABLES)
    parser.add_argument("--only", default="")
    parser.add_argument("--seed", type=int, default=1)
    parser.add_argument("--count", type=int, default=20_000)
    parser.add_argument("--at-once", type=int, default=1)
    args = parser.parse_args()
    args.prog = str(pathlib.Path(args.prog).resolve())
    # behind `nohup` or `&` these are ignored, and would be by each program that is begun here
    signal.signal(signal.SIGINT, signal.default_int_handler)
    signal.signal(signal.SIGHUP, signal.SIG_DFL)
    cases = [it for name, table in TABLES.items() if args.table in (None, name) for it in table if args.only in it[0]]
    with concurrent.futures.ThreadPoolExecutor(args.at_once) as together:
        kept = list(together.map(lambda it: run(args, *it), cases))
    print(f"{len(kept)} cases, {kept.count(False)} of them WRONG")
    return 0 if all(kept) and kept else 1


if __name__ == "__main__":
    sys.exit(main())
