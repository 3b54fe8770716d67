"""What is read of a project, and what is refused, row by row of docs/formats.md."""
from called import EXAMPLES, ToolTest
import texts

LIGHT = "ga 1/2/3 light\ndevice 1.1.5 inline\nobject 1.1.5 1 1 CW\nlink 1.1.5 1 1/2/3\n"

# A text, the line that is refused, and why.
OF_LINES = [
    (b"ga 1/2/3 light # caf\xe9", 1, "1 NotText: it isn't UTF-8"),
    (b"ga 1/2/3 light # \x07", 1, "1 NotText: an octet 07"),
    (b"ga 1/2/3\rlight", 1, "1 NotText: an octet 0D"),
    (b"\n" + b"#" * 513, 2, "2 LongLine: 513 octets"),
    (b"\xef\xbb\xbfga 1/2/3 light", 1, "3 UnknownWord: \ufeffga"),
    (b"devise 1.1.5 inline", 1, "3 UnknownWord: devise"),
    (b"ga 1/8/1 light", 1, "4 BadAddress: 1/8/1"),
    (b"ga 0/0/0 light", 1, "4 BadAddress: 0/0/0"),
    (b"ga 32/0/0 light", 1, "4 BadAddress: 32/0/0"),
    (b"ga 1/515 light", 1, "4 BadAddress: 1/515"),
    (b"device 1.1.255 inline", 1, "4 BadAddress: 1.1.255"),
    (b"device 1.1.0 inline", 1, "4 BadAddress: 1.1.0"),
    (b"object 1.1.5 256 1 CW", 1, "5 BadNumber: 256"),
    (b"object 1.1.5 1 9 CW", 1, "5 BadNumber: 9"),
    (b"param 1.1.5 delay 4294967296", 1, "5 BadNumber: 4294967296"),
    (b"object 1.1.5 1 1 CWC", 1, "6 BadName: CWC"),
    (b"ga 1/2/3 k\xc3\xbcche", 1, "6 BadName: k\u00fcche"),
    (b"ga 1/2/3 " + b"l" * 33, 1, "6 BadName: " + "l" * 33),
    (b"ga 1/2/3", 1, "7 MissingWord"),
    (b"ga 1/2/3 hall light", 1, "8 ExtraWord: light"),
    (b"ga 1/8/1", 1, "4 BadAddress: 1/8/1"),
]
OF_RULES = [
    ("device 1.1.5 inline", "9 DuplicateDevice: 1.1.5"),
    ("ga 1/2/3 lamp", "10 DuplicateGroup: 1/2/3"),
    ("link 1.1.5 1 1/2/4", "11 UnknownGroup: 1/2/4"),
    ("device 1.1.6 dim9", "12 UnknownModel: dim9"),
    ("object 1.1.5 1 8 CW", "13 DuplicateObject: 1 of 1.1.5"),
    ("flags 1.1.5 2 CW", "14 UnknownObject: 2 of 1.1.5"),
    ("link 1.1.5 1 1/2/3", "15 DuplicateLink: 1.1.5 1 1/2/3"),
    ("object 1.1.9 1 1 CW", "20 NoDevice: 1.1.9"),
]
OF_VERSION_2 = [
    ("version 2", "23 BadVersion: 2"),
    ("version 2 2", "8 ExtraWord: 2"),
    ("ga 65536 a", "4 BadAddress: 65536"),
    ("ga 0 a", "4 BadAddress: 0"),
    ("ga 1/2048 a", "4 BadAddress: 1/2048"),
    ("ga 1/515 a", "10 DuplicateGroup: 1/2/3"),
    ("link 1.1.5 1", "7 MissingWord"),
    ("link 1.1.5 1 " + " ".join(str(n) for n in range(1, 34)), "8 ExtraWord: 33"),
    ("link 1.1.5 1 2563", "15 DuplicateLink: 1.1.5 1 1/2/3"),
    ("send 1.1.5 1 1", "11 UnknownGroup: 0/0/1"),
    ("send 1.1.5 2 1/2/3", "14 UnknownObject: 2 of 1.1.5"),
]


class Texts(ToolTest):
    def refused(self, wanted, catalogue=None):
        with self.assertRaises(texts.Refused) as refused:
            texts.Project("p", catalogue)
        self.assertEqual(str(refused.exception), wanted)

    def test_lines_are_refused(self):
        for text, line, why in OF_LINES:
            self.write("p", text)
            with self.subTest(text):
                self.refused(f"p:{line}: {why}")

    def test_rules_are_kept(self):
        for line, why in OF_RULES:
            self.write("p", f"{LIGHT}{line}\n")
            with self.subTest(line):
                self.refused(f"p:5: {why}")
        self.write("p", f"{LIGHT}object 1.1.5 2 8 CW\nlink 1.1.5 2 1/2/3\n")
        self.refused("p:6: 18 SizeDiffers: 8 bits, where the group has 1")

    def test_the_least_line_is_told_with_its_least_number(self):
        self.write("p", "link 1.1.5 1 1/2/4\nga 1/2/3 a\nga 1/2/3 b\n")
        self.refused("p:1: 11 UnknownGroup: 1/2/4")

    def test_a_project_is_read(self):
        project = texts.Project(EXAMPLES / "office.txt", EXAMPLES / "office.toml")
        self.assertEqual(project.groups, {0x0801: "lamp", 0x0901: "level"})
        self.assertEqual(project.objects, {((1, 1, 20), 1): (1, "CWU"), ((1, 1, 20), 2): (8, "CRTU")})
        self.assertEqual(list(project.links), [((1, 1, 20), 1, 0x0801), ((1, 1, 20), 2, 0x0901)])

    def test_statements_stand_in_any_order(self):
        self.write("p", "".join(reversed(LIGHT.splitlines(keepends=True))) + "flags 1.1.5 1 -\n")
        self.assertEqual(texts.Project("p").objects, {((1, 1, 5), 1): (1, "")})

    def test_a_text_of_no_octets_and_one_without_a_last_line_feed(self):
        self.write("p", "")
        self.assertEqual(texts.Project("p").groups, {})
        self.write("p", "ga 1/2/3 light\r\n\t# x\n\nga 1/2/4 lamp")
        self.assertEqual(texts.Project("p").groups, {0x0A03: "light", 0x0A04: "lamp"})

    def test_a_text_of_version_2(self):
        self.write("p", "# 2\nversion 0x2\nga 1/515 light\nga 1 all\ndevice 1.1.5 inline\nobject 1.1.5 1 1 CW\nlink 1.1.5 1 1/2/3 0/1\nsend 1.1.5 1 1\n")
        self.assertEqual(list(texts.Project("p").links), [((1, 1, 5), 1, 0x0A03), ((1, 1, 5), 1, 1)])
        for line, why in OF_VERSION_2:
            self.write("p", f"version 2\n{LIGHT}{line}\n")
            with self.subTest(line):
                self.refused(f"p:6: {why}")
        self.write("p", "\nversion 3\n")
        self.refused("p:2: 23 BadVersion: 3")
        self.write("p", f"{LIGHT}send 1.1.5 1 1/2/3\n")
        self.refused("p:5: 3 UnknownWord: send")

    def test_a_catalogue_is_refused(self):
        self.write("p", "")
        self.refused("no.toml: No such file or directory", "no.toml")
        self.write("c", "[dim2\n")
        self.refused("c: 1 Toml: Expected ']' at the end of a table declaration (at line 1, column 6)", "c")
        for text in ("[inline]\n", "dim2 = 1\n", "[dim2]\nobject = [{n = 256, size = 1, flags = 'C'}]\n", "[dim2]\nobject = [{n = 1, size = 9, flags = 'C'}]\n", "[dim2]\nobject = [{n = 1, size = 1}]\n", "[dim2]\nobject = [{n = [], size = 1, flags = 'C'}]\n"):
            self.write("c", text)
            with self.subTest(text):
                self.refused(f"c: 2 Shape {'inline' if 'inline' in text else 'dim2'}", "c")
