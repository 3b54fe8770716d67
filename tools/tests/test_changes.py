"""What a changed project asks for. A stand-in prints, for the program, what stands beside the project's file."""
import os
from unittest import mock

from called import ToolTest

STAND_IN = """#!/bin/sh
[ "$1" = tables ] || exit 2
cat "$2.tables"
[ -z "$3" ] || echo "$3" >>words
grep -q "^device\\|^$" "$2.tables" || exit 3
"""


def device(name, address="000108010", association="00010001000", objects="00011700", params="-"):
    return f"device {name}\naddress {address}\nassociation {association}\nobjects {objects}\nparams {params}\n"


OLD = device("1.1.5") + device("1.1.6") + device("1.1.10")


class Changes(ToolTest):
    tool = "changes"

    def setUp(self):
        super().setUp()
        self.write("stand-in", STAND_IN)
        os.chmod("stand-in", 0o755)
        self.enterContext(mock.patch.dict(os.environ, KNX="./stand-in"))
        self.write("old.tables", OLD)

    def test_tables_that_differ(self):
        self.write("new.tables", device("1.1.5", association="0000") + device("1.1.6") + device("1.1.9") + device("1.1.10", address="0000", objects="0000", params="01"))
        self.writes("load:1.1.5 association\nload:1.1.9 new\nload:1.1.10 address objects params\n", "new", "old")
        self.writes("load:1.1.5 load:1.1.9 load:1.1.10\n", "new", "old", "jobs")

    def test_nothing_differs(self):
        self.write("new.tables", OLD)
        self.writes("", "new", "old", status=1)
        self.writes("", "new", "old", "jobs", status=1)

    def test_a_device_that_is_no_more(self):
        self.write("new.tables", device("1.1.6") + device("1.1.10", params="02"))
        self.writes("load:1.1.10 params\n", "new", "old", said="1.1.5 isn't in new: it keeps what it holds\n")

    def test_catalogues(self):
        self.write("new.tables", OLD)
        for words, wanted in [(["catalogue=a"], "catalogue=a\ncatalogue=a\n"), (["catalogue=a", "old-catalogue=b"], "catalogue=a\ncatalogue=b\n"), (["old-catalogue=b"], "catalogue=b\n")]:
            self.write("words", "")
            with self.subTest(words):
                self.writes("", "new", "old", *words, status=1)
                self.assertEqual((self.folder / "words").read_text(encoding="utf-8"), wanted)

    def test_which_program(self):
        self.write("new.tables", OLD)
        os.rename("stand-in", "knx")
        self.refuses("./stand-in: there is no such program", "new", "old")
        self.writes("", "new", "old", "program=./knx", status=1)
        with mock.patch.dict(os.environ):
            del os.environ["KNX"]
            self.writes("", "new", "old", status=1)

    def test_refusals(self):
        self.write("new.tables", "new line 3: 12 UnknownModel\n")
        self.refuses("new:3: 12 UnknownModel", "new", "old")
        self.refuses("new:3: 12 UnknownModel", "old", "new")
        self.write("new.tables", "catalogue: 2 Shape dim2\n")
        self.refuses("c: 2 Shape dim2", "new", "old", "catalogue=c")
        self.write("new.tables", "read fault new NotThere\n")
        self.refuses("read fault new NotThere", "new", "old")
        self.write("new.tables", f"{OLD}x\n")
        self.refuses(f"{os.path.abspath('stand-in')}: it printed what are no tables: x", "new", "old")
        self.write("new.tables", "device 1.1.5\naddress 0000\n")
        self.refuses(f"{os.path.abspath('stand-in')}: it printed a device without its four tables", "new", "old")
        for words in ([], ["new"], ["new", "old", "load:1.1.5"], ["new", "old", "jobs", "jobs"], ["new", "old", "jobs=1"], ["new", "old", "program="]):
            with self.subTest(words):
                self.refuses_words(*words)

    def test_as_a_script(self):
        self.assertEqual(self.ran(f"tools/{self.tool}"), (2, "", f"usage: {self.module.USAGE}\n"))
