"""Group addresses from ETS and to ETS, both ways."""
import itertools

from called import EXAMPLES, ToolTest, loaded
import ets

FROM, TO = loaded("from-ets"), loaded("to-ets")

HOUSE = """# 0/-/- Zentral
# 0/0/- Alles
ga 0/0/1 Alles-aus # Alles aus
# 1/-/- Licht, "unten"
# 1/0/- Schalten; Rückmelden
ga 1/0/1 Kueche-Decke # Küche: Decke
ga 1/0/2 hall-light
ga 1/0/3 1-0-3 # 日本
# 31/-/- Haustechnik
ga 31/7/255 e.last_1
"""

# One export in each of the ways in which files come: the octets, and the options that name what can't be told.
HEADS = {"1/1": "Group name;Address;Central;Unfiltered;Description;DatapointType;Security", "3/1": "Hauptgruppe;Mittelgruppe;Untergruppe;Adresse"}
LATIN = 'Licht;;;0/-/-\r\n;"Küche";;0/0/-\r\n;;"Decke ""groß""";0/0/1\r\n'
READ = "# 0/-/- Licht\n# 0/0/- Küche\nga 0/0/1 Decke-gross # Decke \"groß\"\n"
SAID = "e:{}: 0/0/1 'Decke \"groß\"' is named Decke-gross; its title stands behind it\n"


class FromEts(ToolTest):
    tool = "from-ets"

    def reads(self, octets, wanted, *words, said=""):
        self.write("e", octets)
        self.writes(wanted, "e", *words, said=said)

    def test_encodings_and_headers(self):
        head = f"{HEADS['3/1']}\n"
        as_latin = "e: it isn't UTF-8, and was read as Latin-1\n"
        self.reads(LATIN.encode("utf-8"), READ, said=SAID.format(3))
        self.reads((head + LATIN).encode("utf-8"), READ, said=SAID.format(4))
        self.reads((head + LATIN).encode("utf-8-sig"), READ, said=SAID.format(4))
        self.reads((head + LATIN).encode("utf-16"), READ, said=SAID.format(4))
        self.reads((head + LATIN).encode("latin-1"), READ, said=as_latin + SAID.format(4))

    def test_without_quotes_by_each_separator(self):
        for separator, sign in ets.SEPARATORS.items():
            text = "hall light\t1/2/3\nstairs\t1/2/4\n".replace("\t", sign)
            said = "e:1: 1/2/3 'hall light' is named hall-light; its title stands behind it\n"
            for words in ([], [f"separator={separator}"], ["form=1/1"]):
                with self.subTest(separator=separator, words=words):
                    self.reads(text, "ga 1/2/3 hall-light # hall light\nga 1/2/4 stairs\n", *words, said=said)

    def test_a_title_has_the_other_separators(self):
        text = "a,b;1/2/3\nc,d;1/2/4\n"
        said = "e:1: 1/2/3 'a,b' is named a-b; its title stands behind it\ne:2: 1/2/4 'c,d' is named c-d; its title stands behind it\n"
        self.reads(text, "ga 1/2/3 a-b # a,b\nga 1/2/4 c-d # c,d\n", said=said)

    def test_forms_of_three_columns(self):
        self.reads("lights\t1\t\t\nhall\t1\t2\t3\n", "# 1/-/- lights\nga 1/2/3 hall\n")
        self.reads("lights,,,1,-,-\n,hall,,1,2,-\n,,lamp,1,2,3\n", "# 1/-/- lights\n# 1/2/- hall\nga 1/2/3 lamp\n")

    def test_addresses_of_two_levels_and_free_ones(self):
        self.reads("light;1/515\nlamp;1/516\n", "ga 1/2/3 light\nga 1/2/4 lamp\n", said="e: written with three levels: 2 groups, as 1/2/3 for 1/515\n")
        self.reads("lights;1/-\nlight;1/515\n", "# 1/-/- lights\nga 1/2/3 light\n", said="e: written with three levels: 1 group, as 1/2/3 for 1/515\n")
        self.reads("light;2563;;\nlamp;2564;;\n", "ga 1/2/3 light\nga 1/2/4 lamp\n", said="e: written with three levels: 2 groups, as 1/2/3 for 2563\n")

    def test_what_other_columns_say_is_left_out(self):
        text = f"{HEADS['1/1']}\nlight;1/2/3;;true;of the hall;DPST-1-1;Auto\nlamp;1/2/4;;;;DPST-1-1;On\n"
        said = "e: left out: Unfiltered of 1 group\ne: left out: Description of 1 group\ne: left out: DatapointType of 2 groups\ne: left out: Security of 1 group\n"
        self.reads(text, "ga 1/2/3 light\nga 1/2/4 lamp\n", said=said)

    def test_titles(self):
        rows = [
            ("light", "light", ""),
            ("-x-.", "-x-.", ""),
            ("Straße  Süd", "Strasse-Sued # Straße  Süd", "is named Strasse-Sued; its title stands behind it"),
            ("Café Ångström", "Cafe-Angstroem # Café Ångström", "is named Cafe-Angstroem; its title stands behind it"),
            ("A/B # 1", "A-B-1 # A/B # 1", "is named A-B-1; its title stands behind it"),
            ("?!", "0-0-1 # ?!", "is named 0-0-1; its title stands behind it"),
            ("x" * 40, f"{'x' * 32} # {'x' * 40}", f"is named {'x' * 32}; its title stands behind it"),
            ("ü" * 600, f"{'ue' * 16} # {'ü' * 234}", f"is named {'ue' * 16}; its title isn't whole"),
        ]
        for title, line, said in rows:
            with self.subTest(title):
                self.reads(f"{title};0/0/1\n", f"ga 0/0/1 {line}\n", said=f"e:1: 0/0/1 '{title}' {said}\n" if said else "")
        self.reads(";0/0/1\n", "ga 0/0/1 0-0-1\n", said="e:1: 0/0/1 '' is named 0-0-1; it has no title\n")
        self.reads("a\x07;0/0/1\n", "ga 0/0/1 a\n", said="e:1: 0/0/1 'a' is named a; its title isn't whole\n")
        self.reads('"a\nb";0/0/1\n"c";0/0/2\n', "ga 0/0/1 a-b # a b\nga 0/0/2 c\n", said="e:1: 0/0/1 'a b' is named a-b; its title isn't whole\n")

    def test_a_csv_file_is_refused(self):
        rows = [
            ("light;1/8/1\n", "1: column 2: '1/8/1' is no group address"),
            ("light;1/2/3\nlamp;1/2/x\n", "2: column 2: '1/2/x' is no group address"),
            ("light;1/2/3\nlamp;\n", "2: column 2: there is no group address"),
            ("light;1/2/3\nlamp;0/0/0\n", "2: column 2: '0/0/0' is no group address"),
            ("light;1/2/3\nlamp;32/0/-\n", "2: column 2: '32/0/-' is no group address"),
            ("light;1;2;3\nlamp;1;2;256\n", "2: columns 2 to 4: '1/2/256' is no group address"),
            ("light;1/2/3\n\nlamp;1/2/3\n", "3: 1/2/3 stands in line 1 too"),
            ("a;1/-/-\nb;1/-/-\n", "2: 1/-/- stands in line 1 too"),
            ('light;1/2/3\n"a\nlamp;1/2/4\n', "2: it is no CSV: unexpected end of data"),
            ('light;1/2/3\n"la"mp;1/2/4\n', "2: it is no CSV: ';' expected after '\"'"),
            ("light\n", "1: column 2: there is no group address"),
            ("Name;Address\nlight;\n", "2: column 2: there is no group address"),
            (b"light;1/2/3\nl\x81mp;1/2/4\n", "2: an octet 81 is no UTF-8 or Latin-1"),
            ("light;1/2/3\n".encode("utf-16") + b"x", "2: an octet 78 is no UTF-16"),
        ]
        for text, said in rows:
            self.write("e", text)
            with self.subTest(text):
                self.refuses(f"e:{said}", "e")

    def test_an_xml_file_is_refused(self):
        begin = f'<GroupAddress-Export xmlns="{ets.NAMESPACE}">\n'
        rows = [
            ('<?xml version="1.0" encoding="utf-9"?>\n<a/>', "1: its encoding isn't read: unknown encoding: utf-9"),
            ("<a>\n</a>", "1: its root is a, not GroupAddress-Export"),
            (begin, "2: it is no XML: no element found"),
            (f"{begin}<GroupRange></x>", "2: Name is missing"),
            (f"{begin}<Other/>", "2: a group address export has no Other"),
            (f'{begin}<GroupAddress Name="a"/>', "2: Address is missing"),
            (f'{begin}\n<GroupAddress Name="a" Address="1/8/0"/>', "3: '1/8/0' is no group address"),
            (f'{begin}<GroupAddress Name="a" Address="1/-/-"/>', "2: '1/-/-' is no group address"),
            (f'{begin}<GroupRange Name="a" RangeStart="x" RangeEnd="1"/>', "2: RangeStart and RangeEnd: 'x' and '1' are no range"),
            (f'{begin}<GroupAddress Name="a" Address="1/2/3"/>\n<GroupAddress Name="b" Address="2563"/></GroupAddress-Export>', "3: 1/2/3 stands in line 2 too"),
            ("<!DOCTYPE a [<!ENTITY b 'c'>]>\n<a/>", "1: a DOCTYPE isn't read"),
        ]
        for text, said in rows:
            self.write("e", text)
            with self.subTest(text):
                self.refuses(f"e:{said}", "e")

    def test_xml(self):
        text = (
            f'<?xml version="1.0" encoding="iso-8859-1"?>\n<GroupAddress-Export xmlns="{ets.NAMESPACE}">\n<GroupRange Name="B\xfcro" RangeStart="1" RangeEnd="2047">\n'
            '<GroupRange Name="x" RangeStart="1" RangeEnd="255"><GroupAddress Name="a &amp; b" Address="0/0/1" DPTs="DPST-1-1" Central="false"/></GroupRange>\n'
            '<GroupRange Name="y" RangeStart="300" RangeEnd="400"/></GroupRange></GroupAddress-Export>'
        )
        said = (
            "e:5: left out: the range 300 to 400 'y', which is no main or middle group\n"
            "e:4: 0/0/1 'a & b' is named a-b; its title stands behind it\ne: left out: DatapointType of 1 group\n"
        )
        self.reads(text.encode("latin-1"), "# 0/-/- Büro\n# 0/0/- x\nga 0/0/1 a-b # a & b\n", said=said)

    def test_words(self):
        self.write("e", "<a/>")
        for words in ([], ["e", "e"], ["e", "form=2/2"], ["e", "form="], ["e", "form=1/1", "form=1/1"], ["--help"], ["e", "separator=tab"]):
            with self.subTest(words):
                self.refuses_words(*words)
        self.refuses("none: No such file or directory", "none")

    def test_as_a_script(self):
        self.assertEqual(self.ran(f"tools/{self.tool}"), (2, "", f"usage: {self.module.USAGE}\n"))
        self.assertEqual(self.ran("LC_ALL=C PYTHONUTF8=0 PYTHONIOENCODING=ascii tools/from-ets /dev/stdin", "Küche;1/2/3\n".encode("utf-8"))[:2], (0, "ga 1/2/3 Kueche # Küche\n"))


class BothWays(ToolTest):
    tool = "to-ets"

    def options(self):
        yield []
        for form, separator, header in itertools.product(ets.FORMS, ets.SEPARATORS, ("yes", "no")):
            yield ["format=csv", f"form={form}", f"separator={separator}", f"header={header}"]

    def there_and_back(self, text, every=1):
        self.write("p", text)
        for words in itertools.islice(self.options(), 0, None, every):
            with self.subTest(words):
                status, octets, said = self.called("p", *words, module=TO)
                self.assertEqual((status, said), (0, ""))
                self.write("e", octets)
                status, back, _ = self.called("e", module=FROM)
                self.assertEqual((status, back.decode("utf-8")), (0, text))

    def test_a_house(self):
        self.there_and_back(HOUSE)

    def test_two_thousand_groups(self):
        self.there_and_back("".join(f"ga {raw >> 11}/{raw >> 8 & 7}/{raw & 255} g{raw}\n" for raw in range(1, 65536, 32)[:2000]), every=5)
        titled = [(raw, f"Raum {raw}: Größe, \"{raw}\"") for raw in range(1, 2001)]
        self.there_and_back("".join(f"ga {raw >> 11}/{raw >> 8 & 7}/{raw & 255} {ets.name_for(title, raw)} # {title}\n" for raw, title in titled), every=5)

    def test_the_examples(self):
        floor = str(EXAMPLES / "floor.txt")
        for name, words in (("floor.xml", []), ("floor.csv", ["format=csv", "form=3/1", "separator=semicolon"])):
            self.assertEqual(self.called(floor, *words), (0, (EXAMPLES / name).read_bytes(), ""))
            self.assertEqual(self.called(str(EXAMPLES / name), module=FROM), (0, b"ga 1/2/3 light\nga 1/2/4 blinds\n", ""))

    def test_no_group(self):
        self.write("p", "device 1.1.5 inline\n")
        self.writes(f'<?xml version="1.0" encoding="utf-8" standalone="yes"?>\n<GroupAddress-Export xmlns="{ets.NAMESPACE}">\n</GroupAddress-Export>\n', "p")

    def test_csv(self):
        self.write("p", "ga 1/2/3 kueche # Küche\nga 0/0/1 all # what ends it all\n")
        wanted = (
            '"Main";"Middle";"Sub";"Address";"Central";"Unfiltered";"Description";"DatapointType";"Security"\r\n'
            '"0";"";"";"0/-/-";"";"";"";"";"Auto"\r\n"";"0/0";"";"0/0/-";"";"";"";"";"Auto"\r\n"";"";"all";"0/0/1";"";"";"";"";"Auto"\r\n'
            '"1";"";"";"1/-/-";"";"";"";"";"Auto"\r\n"";"1/2";"";"1/2/-";"";"";"";"";"Auto"\r\n"";"";"kueche";"1/2/3";"";"";"";"";"Auto"\r\n'
        )
        self.writes(wanted, "p", "format=csv", "form=3/1", "separator=semicolon")

    def test_latin_1(self):
        self.write("p", "ga 1/2/3 Kueche # Küche\n")
        status, octets, _ = self.called("p", "format=csv", "header=no", "encoding=latin-1")
        self.assertEqual((status, octets.splitlines()[-1]), (0, b'"K\xfcche","1/2/3","","","","","Auto"'))
        self.write("p", "ga 1/2/4 light\nga 1/2/3 1-2-3 # 日本\n")
        self.refuses("p:2: latin-1 has no '日'", "p", "format=csv", "encoding=latin-1")

    def test_xml(self):
        self.write("p", "# 1/2/- A & B\nga 1/2/3 a-b # a<b\n")
        wanted = (
            f'<?xml version="1.0" encoding="utf-8" standalone="yes"?>\n<GroupAddress-Export xmlns="{ets.NAMESPACE}">\n  <GroupRange Name="1" RangeStart="2048" RangeEnd="4095">\n'
            '    <GroupRange Name="A &amp; B" RangeStart="2560" RangeEnd="2815">\n      <GroupAddress Name="a&lt;b" Address="1/2/3" />\n    </GroupRange>\n  </GroupRange>\n</GroupAddress-Export>\n'
        )
        self.writes(wanted, "p")
        self.write("p", "ga 1/2/3 a-b # a\ufffeb\n")
        self.refuses("p:1: XML has no sign U+FFFE", "p")

    def test_refusals(self):
        self.write("p", "ga 1/2/3 light\ndevise\n")
        self.refuses("p:2: 3 UnknownWord: devise", "p")
        self.write("p", "ga 1/2/3 light\nga 1/2/3 lamp\n")
        self.refuses("p:2: 10 DuplicateGroup: 1/2/3", "p")
        for words in ([], ["p", "csv"], ["p", "form=1/1"], ["p", "format=csv", "header=maybe"], ["p", "format=xml", "header=no"]):
            with self.subTest(words):
                self.refuses_words(*words)

    def test_as_a_script(self):
        self.assertEqual(self.ran(f"tools/{self.tool}"), (2, "", f"usage: {self.module.USAGE}\n"))
        self.assertEqual(self.ran(f"tools/{self.tool} examples/hall.txt >/dev/full"), (2, "", "the output couldn't be written: No space left on device\n"))
