"""The page of a run."""
import html.parser
import re

from called import ToolTest

REPORT = """job 1 check 1.1.10 refused 2 got 03D60105100100 expected 03D60105100101
job 2 load 1.1.10 done
job 3 load 1.1.20 failed closed silent nocon
job 4 load 1.1.30 open
heard 1/0/1 1.1.40 write s01
device 1.1.10 new 1=01 2=0A0B
device 1.1.20 stopped
device 1.1.30 old
missed 0
log 0 1 took 1
log 0 2 took 2
log 83 1 refused 1
log 83 1 took 3
log 90 1 sent 1
log 702 2 done 2
log 702 2 took 4
log 1090 1 failed 3
dropped 7
"""

# Elements that have no end.
EMPTY = {"meta"}


class Elements(html.parser.HTMLParser):
    """What a page is made of; each element ends where it has to."""

    def __init__(self, text):
        super().__init__()
        self.open, self.classes, self.texts, self.wrong = [], [], [], []
        self.feed(text)
        self.close()
        self.wrong += self.open

    def handle_starttag(self, tag, attrs):
        self.classes += [(tag, value) for key, value in attrs if key == "class"]
        self.wrong += [key for key, _ in attrs if key in ("src", "href", "onload")]
        if tag not in EMPTY:
            self.open.append(tag)

    def handle_startendtag(self, tag, attrs):
        self.classes += [(tag, value) for key, value in attrs if key == "class"]

    def handle_endtag(self, tag):
        if not self.open or self.open.pop() != tag:
            self.wrong.append(tag)

    def handle_data(self, data):
        if data.strip():
            self.texts.append(data.strip())


class Timeline(ToolTest):
    tool = "timeline"

    def page(self, text):
        self.write("r", text)
        status, octets, said = self.called("r")
        self.assertEqual((status, said), (0, ""))
        self.assertEqual(self.called(given=text.encode("utf-8")), (0, octets, ""))
        page = Elements(octets.decode("utf-8"))
        self.assertEqual(page.wrong, [])
        self.assertNotRegex(octets.decode("utf-8"), r"://|@import|url\(|<script")
        return page

    def test_a_run(self):
        page = self.page(REPORT)
        self.assertEqual([name for tag, name in page.classes if tag == "rect"], ["refused", "failed", "done", "open"])
        self.assertEqual([name for tag, name in page.classes if tag == "span"], [f"state {word}" for word in ("refused", "done", "failed", "open", "new", "stopped", "old")])
        for text in (
            "4 jobs: 1 refused, 1 done, 1 failed, 1 open; 3 devices: 1 new, 1 stopped, 1 old; 1 telegram heard; missed 0; dropped 7.",
            "worker 1", "worker 2", "job 3: load 1.1.20 failed, 83 to 1090", "job 4: load 1.1.30 open, 702 to 1090", "sent 1 at 90",
            "2 got 03D60105100100 expected 03D60105100101", "closed silent nocon", "1=01 2=0A0B", "write s01",
        ):
            with self.subTest(text):
                self.assertIn(text, page.texts)

    def test_bars_lie_where_their_jobs_were(self):
        self.write("r", REPORT)
        _, octets, _ = self.called("r")
        bars = re.findall(r'<rect class="(\w+)" x="([\d.]+)" y="(\d+)" width="([\d.]+)"', octets.decode("utf-8"))
        self.assertEqual(bars, [("refused", "90.0", "34", "78.2"), ("failed", "169.2", "34", "959.8"), ("done", "90.0", "80", "668.8"), ("open", "759.8", "80", "369.2")])

    def test_a_download_that_was_broken_off(self):
        page = self.page("job 1 load 1.1.5 open\nmissed 0\nlog 3 1 took 1\ndropped 0\ngateway refused 24 24 -\n")
        self.assertIn("gateway refused 24 24 -", page.texts)
        self.assertNotIn("Devices as the run left them", page.texts)

    def test_nothing_to_do(self):
        self.assertIn("0 jobs: none; missed 0; dropped 0.", self.page("missed 0\ndropped 0\n").texts)

    def test_a_whole_line(self):
        jobs = "".join(f"job {k} load 1.1.{k} done\n" for k in range(1, 255))
        log = "".join(f"log {700 * k - 700} 1 took {k}\nlog {700 * k} 1 done {k}\n" for k in range(1, 255))
        page = self.page(f"{jobs}missed 0\n{log}dropped 0\n")
        self.assertEqual(sum(tag == "rect" for tag, _ in page.classes), 254)

    def test_refusals(self):
        rows = [
            ("job 1 load 1.1.5 done\nmissed 0\n", "r: it has no log: give `knx` the word log"),
            ("", "r: it has no log: give `knx` the word log"),
            ("new line 3: 12 UnknownModel\n", "r:1: it is no line of a report: new line 3: 12 UnknownModel"),
            ("missed 0\n<b>\x1b\n", "r:2: it is no line of a report: <b> "),
            (b"missed 0\n\xe9\n", "r:2: it isn't UTF-8"),
            (REPORT.replace("took 2", "took 9"), "r:11: worker 2 takes job 9, which there isn't"),
            (REPORT.replace("log 83 1 refused 1\n", ""), "r:12: worker 1 takes job 3, which isn't its only one"),
            (REPORT.replace("done 2\n", "done 3\n"), "r:15: worker 2 ends job 3, which it doesn't hold"),
            ("missed 0\ndropped 0\nflooded\nmissed 0\n", "r:4: a line follows what ended the run"),
        ]
        for text, said in rows:
            self.write("r", text)
            with self.subTest(said):
                self.refuses(said, "r")
        self.refuses("none: No such file or directory", "none")
        self.refuses("standard input:1: it is no line of a report: x", given=b"x\n")
        for words in (["r", "r"], ["-"]):
            self.refuses_words(*words)

    def test_as_a_script(self):
        self.assertEqual(self.ran("tools/timeline"), (2, "", "standard input: it has no log: give `knx` the word log\n"))
