"""Groups for Home Assistant."""
from called import EXAMPLES, ToolTest

ROOMS = """device 1.1.1 inline
ga 1/0/1 Deckenlicht
ga 1/0/2 fan
ga 1/0/3 window
ga 1/0/4 rain
ga 1/1/1 Level-all # Level: "all"
ga 1/1/2 warmth
ga 1/1/3 meter
ga 1/1/4 text
ga 1/1/5 steps
ga 1/1/6 unused
ga 1/1/7 mute
object 1.1.1 1 1 CRW
object 1.1.1 2 1 CW
object 1.1.1 3 1 CT
object 1.1.1 4 1 CRT
object 1.1.1 5 8 CWU
object 1.1.1 6 16 CRT
object 1.1.1 7 32 CT
object 1.1.1 8 112 CW
object 1.1.1 9 4 CW
object 1.1.1 10 1 W
link 1.1.1 1 1/0/1
link 1.1.1 2 1/0/2
link 1.1.1 3 1/0/3
link 1.1.1 4 1/0/4
link 1.1.1 5 1/1/1
link 1.1.1 6 1/1/2
link 1.1.1 7 1/1/3
link 1.1.1 8 1/1/4
link 1.1.1 9 1/1/5
link 1.1.1 10 1/1/7
"""
WANTED = """knx:
  light:
    - name: "Deckenlicht"
      address: "1/0/1"
      state_address: "1/0/1"
  switch:
    - name: "fan"
      address: "1/0/2"
  binary_sensor:
    - name: "window"
      state_address: "1/0/3"
      sync_state: false
    - name: "rain"
      state_address: "1/0/4"
  number:
    - name: "Level: \\"all\\""
      address: "1/1/1"
      type: 1byte_unsigned  # guessed from 8 bits
  text:
    - name: "text"
      address: "1/1/4"
      type: latin_1  # guessed from 112 bits
  sensor:
    - name: "warmth"
      state_address: "1/1/2"
      type: 2byte_float  # guessed from 16 bits
    - name: "meter"
      state_address: "1/1/3"
      sync_state: false
      type: 4byte_unsigned  # guessed from 32 bits
"""
LEFT_OUT = """p: left out: 1/1/5 steps: 4 bits
p: left out: 1/1/6 unused: no object is linked to it
p: left out: 1/1/7 mute: no object may hear it, send to it or answer it
"""


class ToHomeAssistant(ToolTest):
    tool = "to-homeassistant"

    def test_sizes_and_flags(self):
        self.write("p", ROOMS)
        self.writes(WANTED, "p", said=LEFT_OUT)

    def test_types_that_words_name(self):
        self.write("p", ROOMS)
        wanted = WANTED.replace("type: 1byte_unsigned  # guessed from 8 bits", "type: percent").replace("type: 4byte_unsigned  # guessed from 32 bits", "type: active_energy")
        light = '    - name: "fan"\n      address: "1/0/2"\n'
        wanted = wanted.replace(f"  switch:\n{light}", light)
        self.writes(wanted, "p", "1/1/1=percent", "1/1/3=active_energy", "1/0/2=light", said=LEFT_OUT)

    def test_a_catalogue(self):
        wanted = 'knx:\n  light:\n    - name: "lamp"\n      address: "1/0/1"\n  sensor:\n    - name: "level"\n      state_address: "1/1/1"\n      type: 1byte_unsigned  # guessed from 8 bits\n'
        self.writes(wanted, str(EXAMPLES / "office.txt"), f"catalogue={EXAMPLES / 'office.toml'}")

    def test_the_example(self):
        self.assertEqual(self.called(str(EXAMPLES / "floor.txt")), (0, (EXAMPLES / "floor.yaml").read_bytes(), ""))

    def test_no_group(self):
        self.writes("knx: {}\n", str(EXAMPLES / "empty.txt"))

    def test_refusals(self):
        self.write("p", ROOMS)
        for word, why in [("1/0/2=percent", "it has 1 bit"), ("1/1/1=light", "it has 8 bits"), ("1/1/6=percent", "no object is linked to it"), ("7/0/1=light", "no object is linked to it"), ("1/0/3=light", "no object hears it")]:
            with self.subTest(word):
                self.refuses(f"{word}: {why}", "p", word)
        for words in ([], ["p", "1/0/2="], ["p", "1/0/2=a b"], ["p", "1/0/2=light", "1/0/2=switch"], ["p", "p"], ["p", "catalogue="]):
            with self.subTest(words):
                self.refuses_words(*words)
        self.write("p", f"{ROOMS}link 1.1.1 1 1/1/1\n")
        self.refuses("p:33: 18 SizeDiffers: 1 bit, where the group has 8", "p")
        self.refuses(f"{EXAMPLES / 'office.txt'}:4: 12 UnknownModel: dim2", str(EXAMPLES / "office.txt"))

    def test_as_a_script(self):
        self.assertEqual(self.ran(f"tools/{self.tool}"), (2, "", f"usage: {self.module.USAGE}\n"))
        self.assertEqual(self.ran(f"tools/{self.tool} examples/hall.txt >/dev/full"), (2, "", "the output couldn't be written: No space left on device\n"))
