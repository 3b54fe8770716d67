"""Calls of `knx` as transcripts: one that is written for the crate `transcript`, and the one that stands there."""
import pathlib
import re
import subprocess

from formats import group_text

CRATE = pathlib.Path(__file__).resolve().parents[2] / "crates" / "transcript"
ESCAPES = {b"n": b"\n", b"r": b"\r", b"t": b"\t", b"\\": b"\\"}


def answers_in(text):
    """The output and the status of each call; None where a long output is told by its checksum."""
    told = re.findall(r"^[$>] [^\n]*\n((?:(?!status \d+$)[^\n]*\n)*)status (\d+)$", text, re.M)
    return [None if re.match(r"\d+ octets, checksum", output) else (int(status), output) for output, status in told]


# ---- written

def as_told(words, files):
    """The call as a transcript can tell it: texts of whole lines, without carriage returns and other than plain signs; None where its words can't be told."""
    if not words or not all(re.fullmatch("[!-~]+", word) for word in words):
        return None
    texts = {name: re.sub(rb"[^\t\n -~]", b"", octets) for name, octets in files.items()}
    return words, {name: text if text in (b"", b"\n") else text.removesuffix(b"\n") + b"\n" for name, text in texts.items()}


def transcript_of(calls, names):
    """The calls as a transcript. It forgets no file, so one that isn't there gets a name that no file has."""
    for words, files in calls:
        yield from (f"file {name}\n{text.decode()}end\n" for name, text in files.items())
        yield "$ " + " ".join(word + "-absent" if word.removeprefix("catalogue=") in names - {*files} else word for word in words) + "\n"


def ask(calls, names):
    """The status and the output of each call, by one `rt try`."""
    ran = subprocess.run(["rt", "try", "--steps", "1", "--seconds", "600"], cwd=CRATE, input="".join(transcript_of(calls, names)).encode(), capture_output=True)
    answers = answers_in(ran.stdout.decode("utf-8", "surrogateescape"))
    if len(answers) != len(calls):
        raise SystemExit(f"{len(answers)} of {len(calls)} calls were answered\n" + ran.stderr.decode("utf-8", "replace")[-2000:])
    return [it and (it[0], it[1].replace("-absent", "")) for it in answers]


# ---- the stored one

def unescaped(text):
    return re.sub(rb"\\x([0-9A-Fa-f]{2})|\\([nrt\\])", lambda it: bytes.fromhex(it[1].decode()) if it[1] else ESCAPES[it[2]], text.encode())


def lines_told(line):
    """The lines that a line of a file stands for."""
    many = re.match(r"\* (\d+) (.*)", line)
    for n in range(1, int(many[1]) + 1) if many else []:
        yield many[2].replace("{n}", str(n)).replace("{ga}", group_text(n)).replace("{ia}", f"1.1.{n}")
    if not many:
        yield line


def stored():
    """The calls of the stored transcript, each with what it answers; None also where it has a port, a link or calls that fail."""
    files, words, name, calls, has_outside = {}, [], None, [], False
    for line in (CRATE / "stdin").read_text(encoding="utf-8").split("\n"):
        if name is not None:
            if line == "end":
                files[name], name = b"".join(it.encode() + b"\n" for it in said), None
            else:
                said += lines_told(line)
        elif line.startswith("file "):
            name, said = line[5:], []
        elif line.startswith("with "):
            words = line[5:].split()
        elif line.startswith(("port", "link", "failing")):
            has_outside = True
        elif line.startswith(("$ ", "> ")):
            if line[0] == ">":
                files["s"] = unescaped(line[2:])
            calls.append((words if line[0] == ">" else line[2:].split(), dict(files), has_outside))
            has_outside = False
    answers = answers_in((CRATE / "stdout").read_text(encoding="utf-8"))
    if len(answers) != len(calls):
        raise SystemExit(f"{len(calls)} calls stand in the transcript, and {len(answers)} answers")
    return [((words, files), None if has_outside else answer) for (words, files, has_outside), answer in zip(calls, answers)]
