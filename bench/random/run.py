"""Random calls of `knx`, and what it answers, compared with docs/formats.md.

    python3 bench/random/run.py [--prog ./crates/knx_cli/out/knx_cli] [--runs 3000] [--seed 1] [--only K] [--keep FOLDER] [--try] [--stored]

Each call is made of seed and number alone: random projects, catalogues, scripts of all lines that `sim` takes, jobs and options, and random datagrams;
some have something wrong. Of `download` and `gateway` there are only calls that stop before anything is dialled or bound. Where the page settles the answer (expected.py),
status and text have to be just that: every refusal, and all that `check`, `tables`, `migrate` and `decode` tell. Of a run of `sim` the report has to be of its form, its status, jobs, devices and log have to agree, and each device has to
be what it may be after what its jobs told: new after done, unchanged where nothing was loaded, and old, stopped or new else. A job has to end done where
fewer than three lines of the script can end an attempt of it (losses, cuts, closings, a dropped channel). Each fourth run in which one thread does all is made twice, with another choice of `log` and a line of
the script that nothing meets, and has to end alike.

A surprise is printed with its call, and its files are put into the folder of --keep; the status is 1 where there is one. --try asks the program
unproved, a few minutes for 300 calls: it writes them as one transcript, which the crate `transcript` answers under `rt try`, and takes out of the texts
what no transcript can tell. --stored asks nothing, and judges what the stored transcript has.
"""
import argparse
import collections
import pathlib
import random
import re
import subprocess
import sys
import tempfile

import transcripts
from calls import FILES, call
from expected import DIALS, JOB, Run, Stop, asked

ROOT = pathlib.Path(__file__).resolve().parents[2]
MEETS_NOTHING = b"\n# nothing meets this\nlose up 4294967295\n"


# ---- asking

def ask_program(prog, calls):
    """The status and the output of each call, in a folder of its own; a text instead of the status where it didn't end by itself."""
    for words, files in calls:
        with tempfile.TemporaryDirectory(prefix="knx-random") as folder:
            for name, octets in files.items():
                pathlib.Path(folder, name).write_bytes(octets)
            try:
                ran = subprocess.run([prog, *words], cwd=folder, stdin=subprocess.DEVNULL, capture_output=True, timeout=600)
            except subprocess.TimeoutExpired:
                yield "no end in 600 s", ""
                continue
        status = f"signal {-ran.returncode}" if ran.returncode < 0 else "something on standard error" if ran.stderr else ran.returncode
        yield status, ran.stdout.decode("utf-8", "surrogateescape")


# ---- judging

def wanted_of(words, files):
    try:
        want = asked(words, files)
        return want if isinstance(want, Run) else (0, want)
    except Stop as stop:
        return stop.args


def without_log(text):
    return re.sub("^(log .*|dropped [0-9]+)\n", "", text, flags=re.M)


def twin_of(words, files):
    """The same run with another choice of the log, and a line that nothing meets."""
    words = [word for word in words if word != "log"] if "log" in words else [*words, "log"]
    return words, {**files, "script": files["script"] + MEETS_NOTHING}


def surprises(want, answer, twin):
    status, text = answer
    if not isinstance(want, Run):
        return [] if (status, text) == want else [f"wanted {want[0]} {want[1]!r}"]
    found = [f"{status}"] if isinstance(status, str) else want.surprises(status, text)
    if twin is not None and (status, without_log(text)) != (twin[0], without_log(twin[1])):
        found.append(f"made again, it ends otherwise: {twin[0]} {twin[1]!r}")
    return found


def keep(folder, words, files):
    folder.mkdir(parents=True, exist_ok=True)
    for name, octets in files.items():
        (folder / name).write_bytes(octets)
    (folder / "words").write_text(" ".join(words) + "\n", encoding="utf-8", errors="surrogateescape")


def count(met, words, answer, is_run):
    met[f"{words[0] if words else 'no words'}, status {answer[0]}"] += 1
    if is_run:
        met.update(f"job {it[2]} {it[4].split()[0]}" for it in map(JOB.fullmatch, answer[1].split("\n")) if it)
        met.update(f"sign {it}" for it in re.findall(r"(?<= )(?:nocon|closed|silent|tunnel)\b(?! [0-9])", answer[1]))
        met.update(f"device {it}" for it in re.findall(r"^device \S+ (\w+)", answer[1], re.M))


def tell(k, words, answer, found):
    print(f"call {k}: {' '.join(words)}\n  answered {answer[0]} {answer[1]!r}", *found, sep="\n  ", flush=True)


def stored():
    met, strange = collections.Counter(), 0
    for k, ((words, files), answer) in enumerate(transcripts.stored(), 1):
        if answer is not None:
            want = wanted_of(words, files)
            count(met, words, answer, isinstance(want, Run))
            if found := surprises(want, answer, None):
                strange += 1
                tell(k, words, answer, found)
    return met, 0, strange


def random_calls(args):
    numbers = range(args.runs) if args.only is None else [args.only]
    made = {k: call(random.Random(f"{args.seed} {k}")) for k in numbers}
    if args.unproved:
        made = {k: told for k, it in made.items() if (told := transcripts.as_told(*it))}
    wants = {k: wanted_of(*it) for k, it in made.items()}
    if not args.unproved:
        # the program would dial a gateway, or bind a port
        made = {k: it for k, it in made.items() if wants[k] != DIALS}
    twins = {k: twin_of(*made[k]) for k in made if k % 4 == 0 and isinstance(wants[k], Run) and wants[k].is_determined()}
    calls = [it for k in made for it in (made[k], twins.get(k)) if it]
    answers = iter(transcripts.ask(calls, FILES) if args.unproved else ask_program(str(pathlib.Path(args.prog).resolve()), calls))
    met, strange = collections.Counter(), 0
    for k, (words, files) in made.items():
        answer, twin = next(answers), next(answers) if k in twins else None
        if answer is None:
            continue
        count(met, words, answer, isinstance(wants[k], Run))
        found = surprises(wants[k], answer, twin)
        if found or args.only is not None:
            strange += bool(found)
            tell(k, words, answer, found)
            if args.keep:
                keep(args.keep / f"{args.seed}-{k}", words, files)
    return met, len(twins), strange


def main():
    parser = argparse.ArgumentParser(description=__doc__, formatter_class=argparse.RawDescriptionHelpFormatter)
    parser.add_argument("--prog", default=str(ROOT / "crates/knx_cli/out/knx_cli"))
    parser.add_argument("--runs", type=int, default=3000)
    parser.add_argument("--seed", type=int, default=1)
    parser.add_argument("--only", type=int)
    parser.add_argument("--keep", type=pathlib.Path)
    parser.add_argument("--try", action="store_true", dest="unproved")
    parser.add_argument("--stored", action="store_true")
    args = parser.parse_args()
    met, again, strange = stored() if args.stored else random_calls(args)
    print(*(f"{met[what]:7} {what}" for what in sorted(met)), sep="\n")
    print(f"{sum(met[what] for what in met if ', status' in what)} calls, {again} of them made again: {strange} with a surprise")
    return 1 if strange else 0


if __name__ == "__main__":
    sys.exit(main())
