"""What `readout` prints of the tables of devices, over loopback, against the gateway of fake_gateway.py alone."""
from unittest import mock

from called import ToolTest
from fake_gateway import Device, Gateway
import tunnel

ADDRESSES = bytes.fromhex("000208010802")
ASSOCIATIONS = bytes.fromhex("00020001000100020002")
OBJECTS = bytes.fromhex("000247004700")
HELD = {0x4000: ADDRESSES, 0x5000: ASSOCIATIONS + bytes(20), 0x7000: OBJECTS}

LONG = bytes.fromhex("0028") + bytes(range(160))


def printed(ia="1.1.10", address=ADDRESSES, association=ASSOCIATIONS, objects=OBJECTS):
    tables = zip(("address", "association", "objects"), (address, association, objects))
    return f"device {ia}\n" + "".join(f"{name} {octets.hex().upper() or '-'}\n" for name, octets in tables)


class Readout(ToolTest):
    tool = "readout"

    def setUp(self):
        super().setUp()
        self.waits(CONNECT_WAIT=3, ACK_WAIT=3, CON_WAIT=3, T_ACK_WAIT=3, ANSWER_WAIT=3, LEAVE_WAIT=3)

    def waits(self, **seconds):
        self.enterContext(mock.patch.multiple(tunnel, **seconds))

    def served(self, *devices, **others):
        self.gateway = Gateway(enumerate(devices, 0x110A), **others)
        self.gateway.start()
        self.addCleanup(self.gateway.end)
        self.at = f"127.0.0.1:{self.gateway.port}"

    def told(self, wanted, *devices, status=0, said=""):
        self.writes(wanted, self.at, *devices, status=status, said=said)
        self.gateway.end()
        self.assertEqual((self.gateway.channel, [device.connected for device in self.gateway.devices.values()], self.gateway.fault), (None, [False] * len(self.gateway.devices), None))

    def test_tables(self):
        elsewhere = Device(places={1: 0x0200, 2: 0x0300, 3: 0x0400}, memory={0x0200: b"\0\0", 0x0300: LONG, 0x0400: OBJECTS})
        self.served(Device(memory=HELD), elsewhere)
        self.told(printed() + printed("1.1.11", b"\0\0", LONG), "1.1.10", "1.1.11")
        reads = [tpdu[1] for device, tpdu in self.gateway.puts if device == 0x110B and tpdu[0] & 0xC3 == 0x42]
        self.assertEqual(reads, [2, 2, *[12] * 13, 4, 2, 4])

    def test_tables_that_are_not_loaded(self):
        self.served(Device(memory=HELD, states=(1, 0, 3, 0)))
        self.told(printed(association=b"", objects=b""), "1.1.10", status=1, said="1.1.10: not loaded: association, objects\n")

    def test_devices_that_cannot_be_read(self):
        self.waits(T_ACK_WAIT=0.7)
        self.served(
            Device(mask=0x0701),
            Device(properties={(2, 7): b""}, memory=HELD),
            Device(places={1: 0x10000}),
            Device(memory=HELD | {0x4000: ADDRESSES[:4]}),
            Device(places={3: 0xFFFE}, memory=HELD | {0xFFFE: b"\0\1"}),
            Device(is_secure=True),
            Device(memory=HELD),
        )
        said = [
            "its mask version is 0701",
            "it doesn't tell where the table of object 2 is",
            "memory at 00010000 lies beyond what is read",
            "it answered a read of 4 octets at 4002 by 02404002",
            "memory at 00010000 lies beyond what is read",
            "it acknowledged no service",
        ]
        told = "".join(f"1.1.{part}: {line}\n" for part, line in enumerate(said, 10)) + "1.1.17: nobody acknowledged the T_Connect: the address, its power, or the gateway's bus\n"
        self.told(printed("1.1.16"), *(f"1.1.{part}" for part in range(10, 18)), status=1, said=told)

    def test_a_gateway_that_fails(self):
        self.served(refuses=0x24)
        self.refuses(f"{self.at}: the gateway refused a tunnel: status 24 E_NO_MORE_CONNECTIONS", self.at, "1.1.10")
        self.served(Device(memory=HELD), Device(mask=0x0701), ends_at=50)
        self.writes(printed(), self.at, "1.1.10", "1.1.11", "1.1.10", status=2, said=f"1.1.11: its mask version is 0701\n{self.at}: the gateway ended the tunnel\n")

    def test_words(self):
        for words in ([], ["127.0.0.1"]):
            with self.subTest(words):
                self.refuses_words(*words)
        self.refuses("1.1 is no individual address of a device", "127.0.0.1", "1.1")
        self.assertEqual(self.ran(f"tools/{self.tool}"), (2, "", f"usage: {self.module.USAGE}\n"))
