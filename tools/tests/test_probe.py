"""What `probe` says of devices, over loopback, against the gateway of fake_gateway.py alone."""
import signal
import subprocess
import time
from unittest import mock

from called import TOOLS, ToolTest
from fake_gateway import Device, Gateway
import tunnel

FITS = """device {ia}
    mask version 07B0
    manufacturer 00FA
    serial number 00FA00000001
    hardware type -
    order information -
    program version 00FA123410
    maximum APDU length 15
    device control -
    address table Loaded at 00004000
    association table Loaded at 00005000
    group object table Loaded at 00007000
    application program Loaded at 00008000
    knx can load it, as far as this tells
"""
NOBODY = "nobody acknowledged the T_Connect: the address, its power, or the gateway's bus"


def fits(ia="1.1.10"):
    return FITS.format(ia=ia)


def cannot(why, ia="1.1.10"):
    return f"device {ia}\n    knx can't load it: {why}\n"


class Probe(ToolTest):
    tool = "probe"

    def setUp(self):
        super().setUp()
        # longer than a busy machine takes; a test in which nothing comes has shorter ones
        self.waits(CONNECT_WAIT=3, STATE_WAIT=3, ACK_WAIT=3, CON_WAIT=3, T_ACK_WAIT=3, ANSWER_WAIT=3, LEAVE_WAIT=3)

    def waits(self, **seconds):
        self.enterContext(mock.patch.multiple(tunnel, **seconds))

    def served(self, *devices, **others):
        """A gateway with these devices, from 1.1.10 on."""
        self.gateway = Gateway(enumerate(devices, 0x110A), **others)
        self.gateway.start()
        self.addCleanup(self.gateway.end)
        self.at = f"127.0.0.1:{self.gateway.port}"
        self.head = f"tunnel 1.1.250 data endpoint {self.at}\n"

    def told(self, wanted, *devices, status, said=""):
        self.writes(self.head + wanted, self.at, *devices, status=status, said=said)
        self.is_left()

    def is_left(self):
        """The tunnel and each connection are ended, and nothing but reads was sent."""
        self.gateway.end()
        self.assertEqual((self.gateway.channel, [device.connected for device in self.gateway.devices.values()], self.gateway.fault), (None, [False] * len(self.gateway.devices), None))
        self.assertEqual([tpdu for _, tpdu in self.gateway.puts if tpdu[0] & 0xC0 == 0x40 and (tpdu[0] & 3, tpdu[1]) not in ((3, 0x00), (3, 0xD5))], [])

    def test_a_device_that_fits(self):
        self.served(Device())
        self.told(fits(), "1.1.10", status=0)
        self.assertEqual(self.gateway.puts[0], (0x110A, b"\x80"))
        self.assertEqual(self.gateway.puts[-1], (0x110A, b"\x81"))

    def test_several_devices_each_with_its_reason(self):
        self.served(
            Device(),
            Device(places={1: 0x0200, 4: 0x1000}, properties={(0, 56): b"\x00\xfe"}),
            Device(properties={(0, 14): b"\x04"}),
            Device(mask=0x0701),
            Device(),
        )
        elsewhere = fits("1.1.11").replace("00004000", "00000200").replace("00008000", "00001000").replace("length 15", "length 254, so the gateway has to carry extended frames")
        elsewhere = elsewhere.replace("knx can load it, as far as this tells", "knx can't load it: its address table isn't at 00004000; its application program isn't at 00008000")
        verifies = fits("1.1.12").replace("device control -", "device control 04").replace("knx can load it, as far as this tells", "knx can't load it: it is in verify mode")
        other = "device 1.1.13\n    mask version 0701\n    knx can't load it: its mask version isn't 07B0\n"
        self.told(fits() + elsewhere + verifies + other + fits("1.1.14") + cannot(NOBODY, "1.1.15"), *(f"1.1.{part}" for part in range(10, 16)), status=1)

    def test_tables_that_are_not_loaded(self):
        self.served(Device(states=(0, 3, 9, 1), places={1: 0, 4: b"\x80\x00"}), Device(properties={(1, 7): b"", (2, 5): b""}))
        first = fits().replace("address table Loaded at 00004000", "address table Unloaded at 00000000").replace("association table Loaded", "association table Error")
        first = first.replace("object table Loaded", "object table 09").replace("00008000", "8000")
        why = "where its address table would be isn't told; the load state of its group object table isn't told; its application program isn't at 00008000"
        first = first.replace("knx can load it, as far as this tells", f"knx can't load it: {why}")
        second = fits("1.1.11").replace("at 00004000", "at -").replace("association table Loaded", "association table -")
        why = "where its address table would be isn't told; the load state of its association table isn't told"
        self.told(first + second.replace("knx can load it, as far as this tells", f"knx can't load it: {why}"), "1.1.10", "1.1.11", status=1)

    def test_a_device_that_is_silent_or_closes(self):
        self.waits(T_ACK_WAIT=0.7, ANSWER_WAIT=0.7)
        self.served(Device(is_secure=True), Device(closes_at=1), Device(closes_at=3), Device(properties={(0, 12): None}), Device())
        begun = "    mask version 07B0\n    knx can't"
        told = cannot("it acknowledged no service") + cannot("it closed the connection", "1.1.11")
        told += cannot("it closed the connection", "1.1.12").replace("    knx can't", "    mask version 07B0\n    manufacturer 00FA\n    knx can't")
        told += cannot("it acknowledged a service and didn't answer", "1.1.13").replace("    knx can't", begun) + fits("1.1.14")
        self.told(told, *(f"1.1.{part}" for part in range(10, 15)), status=1)
        self.assertEqual([tpdu for device, tpdu in self.gateway.puts if device == 0x110A], [b"\x80", *[b"\x43\x00"] * 4, b"\x81"])

    def test_what_no_load_could_reach(self):
        self.served(Device())
        self.told(cannot("it is the tunnel's own address", "1.1.250"), "1.1.250", status=1)
        self.assertEqual(self.gateway.puts, [])
        self.served(Device(), own=0xFFF1)
        self.head = self.head.replace("1.1.250", "15.15.241")
        self.told(fits().replace("knx can load it, as far as this tells", "knx can't load it: the tunnel is on another line"), "1.1.10", status=1)

    def test_a_gateway_that_confirms_all(self):
        self.waits(T_ACK_WAIT=0.2)
        self.served(confirms="all")
        self.told(cannot("it acknowledged no service"), "1.1.10", status=1)

    def test_datagrams_and_frames_are_lost_or_doubled(self):
        self.waits(T_ACK_WAIT=0.7, ACK_WAIT=1, LEAVE_WAIT=1)
        self.served(Device(loses=[2, 5, 6]), loses=[(0x420, 1), (0x420, 4), (0x209, 1)])
        self.told(fits(), "1.1.10", status=0)
        self.served(Device(), doubles=True)
        self.told(fits(), "1.1.10", status=0)

    def test_the_numbers_go_round(self):
        self.served(*(Device() for _ in range(10)))
        self.told("".join(fits(f"1.1.{part}") for part in range(10, 20)), *(f"1.1.{part}" for part in range(10, 20)), status=0)
        self.assertGreater(len(self.gateway.puts), 256)

    def test_a_channel_is_kept(self):
        self.waits(STATE_WAIT=1, HEARTBEAT=0)
        self.served(Device(), loses=[(0x207, 1)])
        self.told(fits(), "1.1.10", status=0)
        self.assertEqual(self.gateway.counts[0x207], len(self.gateway.puts) + 1)
        self.served(Device(), loses=[(0x207, 1), (0x207, 2), (0x207, 3)])
        self.waits(STATE_WAIT=0.2)
        self.told("device 1.1.10\n", "1.1.10", status=2, said=f"{self.at}: the gateway no longer has the tunnel\n")

    def test_gateways_that_give_no_tunnel(self):
        self.served(refuses=0x24)
        self.refuses(f"{self.at}: the gateway refused a tunnel: status 24 E_NO_MORE_CONNECTIONS", self.at, "1.1.10")
        self.served(refuses=0x2D)
        self.refuses(f"{self.at}: the gateway refused a tunnel: status 2D", self.at, "1.1.10")
        self.served(is_mute=True)
        self.waits(CONNECT_WAIT=0.2, LEAVE_WAIT=0.2)
        self.refuses(f"{self.at}: no gateway answered a connect request in 0.2 s", self.at, "1.1.10")

    def test_tunnels_that_fail(self):
        self.waits(ACK_WAIT=0.2)
        self.served(Device(), data_port=9)
        self.head = self.head.replace(self.at, "127.0.0.1:9")
        self.told("device 1.1.10\n", "1.1.10", status=2, said=f"{self.at}: the gateway doesn't acknowledge a request: it takes them at 127.0.0.1:9, where knx sends none\n")
        self.waits(ACK_WAIT=3, CON_WAIT=0.3)
        self.served(Device(), confirms=False)
        begun = self.head + "device 1.1.10\n"
        self.assertEqual(self.called(self.at, "1.1.10"), (2, begun.encode("ascii"), f"{self.at}: the gateway didn't confirm a frame in 0.3 s: is it on the bus?\n"))
        self.gateway.end()
        self.assertEqual(self.gateway.channel, None)
        self.waits(CON_WAIT=3)
        self.served(Device(), ends_at=1)
        self.told("device 1.1.10\n", "1.1.10", status=2, said=f"{self.at}: the gateway ended the tunnel\n")
        self.assertEqual(self.gateway.counts[0x20A], 1)

    def test_words(self):
        for words in ([], ["127.0.0.1"], ["-h", "1.1.10"], ["127.0.0.1", "-"]):
            with self.subTest(words):
                self.refuses_words(*words)
        for word in ("1.2.3", "1.2.3.256", "1.2.3.4:0", "1.2.3.4:65536", "1.2.3.4:", "gateway", "1.2.3.4 "):
            with self.subTest(word):
                self.refuses(f"{word} is no address of a gateway, as 192.168.1.20 or 192.168.1.20:3671", word, "1.1.10")
        for word in ("1.1", "1.1.0", "1.1.255", "16.1.1", "1/1/1"):
            with self.subTest(word):
                self.refuses(f"{word} is no individual address of a device", "127.0.0.1", "1.1.10", word)

    def test_broken_off(self):
        for number in (signal.SIGINT, signal.SIGTERM, signal.SIGHUP):
            self.served(Device(is_secure=True))
            # whoever started the tests may have had the signal ignored
            process = subprocess.Popen([TOOLS / "probe", self.at, "1.1.10"], stdout=subprocess.PIPE, stderr=subprocess.PIPE, text=True, preexec_fn=lambda: signal.signal(number, signal.SIG_DFL))
            while not self.gateway.puts:
                time.sleep(0.01)
            time.sleep(0.1)
            process.send_signal(number)
            out, said = process.communicate(timeout=20)
            self.assertEqual((process.returncode, out, said), (2, f"{self.head}device 1.1.10\n", "it was broken off\n"))
            self.is_left()

    def test_as_a_script(self):
        self.assertEqual(self.ran(f"tools/{self.tool}"), (2, "", f"usage: {self.module.USAGE}\n"))
