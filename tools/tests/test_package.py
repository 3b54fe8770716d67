"""The man page, the completions, and what is packed."""
import hashlib
import io
import os
import pathlib
import re
import shutil
import subprocess
import tarfile
import unittest
from unittest import mock

from called import EXAMPLES, TOOLS, ToolTest
import manual

COMMANDS = ["check", "tables", "migrate", "sim", "download", "gateway", "find", "assign", "big", "decode"]

# What bash's own completions give, in a few lines.
OF_BASH = """
_get_comp_words_by_ref() { cur=${COMP_WORDS[COMP_CWORD]} cword=$COMP_CWORD words=("${COMP_WORDS[@]}"); }
_filedir() { COMPREPLY=(FILE); }
__ltrim_colon_completions() { :; }
compopt() { :; }
"""


class Manual(ToolTest):
    def test_the_man_page_has_each_command_and_each_status(self):
        page = manual.man_page("0~1", "2026-01-01")
        parts = dict(re.findall(r"^\.SH (.*)\n((?:(?!\.SH ).*\n)*)", page, re.MULTILINE))
        self.assertEqual(list(parts), ["NAME", "SYNOPSIS", "DESCRIPTION", "COMMANDS", *manual.SECTIONS.values(), "FILES"])
        self.assertEqual(re.findall(r"knx (\w+)", parts["SYNOPSIS"]), COMMANDS)
        self.assertEqual(re.findall(r"^\\fBknx (\w+)", parts["COMMANDS"], re.MULTILINE), COMMANDS)
        found = {number for first in re.findall(r"^\.TP 7\n(\d[\d, ]*)$", parts["EXIT STATUS"], re.MULTILINE) for number in re.findall(r"\d+", first)}
        self.assertEqual(found, {str(number) for number in range(20)})

    def test_no_text_is_a_request(self):
        requests = {line.split()[0] for line in manual.man_page("0~1", "2026-01-01").splitlines() if line.startswith((".", "'"))}
        self.assertEqual(requests, {".TH", ".SH", ".SS", ".br", ".PP", ".TP", ".IP", ".nf", ".fi"})
        self.assertEqual(manual.inline("`.x` isn't\\ **bold-er** [than](this)"), "\\fB.x\\fR isn\\(aqt\\e \\fBbold\\-er\\fR than")
        self.assertEqual(manual.inline(".x"), "\\&.x")

    def completed(self, *words):
        (self.folder / "knx.bash").write_text(OF_BASH + manual.completion(), encoding="utf-8")
        script = 'source ./knx.bash; COMP_WORDS=(knx "$@"); COMP_CWORD=$#; _knx; echo "${COMPREPLY[*]}"'
        ran = subprocess.run(["bash", "-c", script, "bash", *words], capture_output=True, text=True, check=False)
        self.assertEqual(ran.stderr, "")
        return ran.stdout.split()

    def test_completions(self):
        floor = str(EXAMPLES / "floor.txt")
        rows = [
            ([""], COMMANDS),
            (["d"], ["download", "decode"]),
            (["sim", ""], ["FILE"]),
            (["sim", floor, "b", "c"], ["FILE"]),
            (["sim", floor, "b", "c", ""], ["catalogue=", "log", "quiet", "workers=", "load:", "check:"]),
            (["sim", floor, "b", "c", "log", "catalogue=x"], ["FILE"]),
            (["sim", floor, "b", "c", "load:1"], ["load:1.1.5", "load:1.1.6", "load:1.1.7"]),
            (["download", "1"], []),
            (["download", "a", ""], ["FILE"]),
            (["download", "a", floor, "check:1.1.6"], ["check:1.1.6"]),
            (["gateway", "a", "b", "c", "t"], ["turns="]),
            (["check", "a", ""], ["catalogue="]),
            (["decode", "0"], []),
            (["big", "0"], []),
        ]
        for words, wanted in rows:
            with self.subTest(words):
                self.assertEqual(self.completed(*words), wanted)


def has_commits():
    return shutil.which("git") and subprocess.run(["git", "log", "-1"], cwd=TOOLS, stdout=subprocess.DEVNULL, stderr=subprocess.DEVNULL, check=False).returncode == 0


@unittest.skipUnless(shutil.which("dpkg-deb") and has_commits(), "there is no dpkg-deb, or no commit")
class Package(ToolTest):
    tool = "package"

    def setUp(self):
        super().setUp()
        self.write("stand-in", b"#!/bin/sh\nGLIBC_2.4\0GLIBC_2.34\0")

    def packed(self):
        status, octets, said = self.called("out", "program=stand-in")
        self.assertEqual((status, said), (0, ""))
        return {path.name: path.read_bytes() for path in pathlib.Path("out").iterdir()}, octets.decode("utf-8")

    def test_what_is_packed(self):
        made, told = self.packed()
        debian, ball = (next(name for name in made if name.endswith(end)) for end in (".deb", ".tar.gz"))
        self.assertEqual(made["SHA256SUMS"].decode("ascii"), "".join(f"{hashlib.sha256(made[name]).hexdigest()}  {name}\n" for name in (debian, ball)))
        checksum = hashlib.sha256((self.folder / "stand-in").read_bytes()).hexdigest()
        self.assertEqual(told, f"out/{debian}\nout/{ball}\nprogram sha256 {checksum}\ngate {self.module.NOT_OF_GATE}\n")
        data = subprocess.run(["dpkg-deb", "--fsys-tarfile", f"out/{debian}"], stdout=subprocess.PIPE, check=True).stdout
        with tarfile.open(fileobj=io.BytesIO(data)) as in_debian, tarfile.open(f"out/{ball}") as in_ball:
            names = {name.removeprefix("./usr/") for name in in_debian.getnames() if in_debian.getmember(name).isreg()}
            self.assertEqual({"/".join(name.split("/")[1:]) for name in in_ball.getnames() if in_ball.getmember(name).isreg()}, names - {"share/doc/knx/changelog.gz", "share/lintian/overrides/knx"})
            self.assertLessEqual({"bin/knx", "share/man/man1/knx.1.gz", "share/bash-completion/completions/knx", "share/doc/knx/examples/hall.txt", "share/knx/tools/from-ets"}, names)
            self.assertEqual({(entry.uname, entry.gname) for archive in (in_debian, in_ball) for entry in archive.getmembers()}, {("root", "root")})
            built = in_debian.extractfile("./usr/share/doc/knx/built").read().decode("utf-8")
            self.assertIn("No licence has been chosen", in_debian.extractfile("./usr/share/doc/knx/copyright").read().decode("utf-8"))
        commit = subprocess.run(["git", "rev-parse", "HEAD"], cwd=TOOLS, stdout=subprocess.PIPE, text=True, check=True).stdout
        self.assertIn(f"commit {commit}", built)
        self.assertIn(f"program sha256 {checksum}\ngate none", built)
        field = subprocess.run(["dpkg-deb", "--field", f"out/{debian}", "Depends", "Recommends"], stdout=subprocess.PIPE, text=True, check=True).stdout
        self.assertEqual(field, "Depends: libc6 (>= 2.34)\nRecommends: python3 (>= 3.11)\n")
        self.assertEqual(self.packed()[0], made)

    def test_refusals(self):
        self.refuses("none: there is no such program", "out", "program=none")
        self.write("file", "")
        self.refuses("file: File exists", "file", "program=stand-in")
        for words in ([], ["out", "out"], ["out", "program="]):
            with self.subTest(words):
                self.refuses_words(*words)

    def test_what_the_gate_did_not_build_is_refused(self):
        root = self.folder / "root"
        program = root / "crates" / "knx_cli" / "out" / "knx_cli"
        source = root / "crates" / "knx_cli" / "src" / "main.rt"
        for path in (program, source):
            path.parent.mkdir(parents=True)
            path.write_text("x", encoding="utf-8")
        (root / ".gitignore").write_text("out/\n", encoding="utf-8")
        (root / "rt").write_text("#!/bin/sh\necho kit-1\n", encoding="utf-8")
        (root / "rt").chmod(0o755)
        for words in (["init", "-q"], ["add", "."], ["-c", "user.name=A", "-c", "user.email=a@b.example", "commit", "-q", "-m", "x"]):
            subprocess.run(["git", *words], cwd=root, check=True)
        os.utime(program, (1, 1))
        with mock.patch.multiple(self.module, ROOT=root, PROGRAM=program), mock.patch.dict(os.environ, PATH=f"{root}:{os.environ['PATH']}"):
            self.refuses("crates/knx_cli/src/main.rt: it is newer than crates/knx_cli/out/knx_cli: let the gate build that anew", "out")
            os.utime(source, (1, 1))
            origin = self.module.Origin(None)
            self.assertEqual((origin.kit, origin.gate, origin.checksum), ("kit-1", self.module.OF_GATE, hashlib.sha256(b"x").hexdigest()))
            self.assertRegex(origin.version, r"^0~\d{8}\.[0-9a-f]+$")
            stamp = program.with_name("knx_cli.stamp")
            stamp.write_text(f"{'0' * 64}{origin.checksum}", encoding="utf-8")
            self.assertEqual(self.module.Origin(None).checksum, origin.checksum)
            stamp.write_text("0" * 128, encoding="utf-8")
            self.refuses("crates/knx_cli/out/knx_cli.stamp: it is of another program than knx_cli", "out")
            (root / "more").write_text("x", encoding="utf-8")
            self.refuses("this stands in no commit: ?? more", "out")
            program.unlink()
            self.refuses(f"{program}: there is no such program", "out")
