"""What `search` prints of the answers to its request, which goes to this machine here and not to the multicast address."""
import socket
import struct
import threading
from unittest import mock

from called import ToolTest

NOTHING = "nothing found\n"


def information(name=b"knx", address=0x11FF, serial=1):
    return b"\x36\x01\x02\x00" + struct.pack(">HH", address, 0) + serial.to_bytes(6, "big") + bytes([224, 0, 23, 12]) + serial.to_bytes(6, "big") + name.ljust(30, b"\0")


FAMILIES = bytes.fromhex("0802020103010401")
MORE = bytes.fromhex("04FE0000")


def response(blocks, endpoint=bytes(6), service=0x0202):
    body = b"\x08\x01" + endpoint + blocks
    return struct.pack(">HHH", 0x0610, service, 6 + len(body)) + body


class Search(ToolTest):
    tool = "search"

    def setUp(self):
        super().setUp()
        self.waits(1.5)

    def waits(self, seconds):
        self.enterContext(mock.patch.object(self.module, "WAIT", seconds))

    def answered(self, *answers, at=1):
        """Answers the request number `at`, from 1, by these datagrams."""
        self.requests = []
        served = socket.socket(socket.AF_INET, socket.SOCK_DGRAM)
        served.bind(("127.0.0.1", 0))
        served.settimeout(5)
        self.at = f"127.0.0.1:{served.getsockname()[1]}"
        self.enterContext(mock.patch.object(self.module, "GROUP", served.getsockname()))

        def serve():
            with served:
                while len(self.requests) < at:
                    octets, client = served.recvfrom(1024)
                    self.requests.append((octets, client))
                for octets in answers:
                    served.sendto(octets, client)

        thread = threading.Thread(target=serve, daemon=True)
        thread.start()
        self.addCleanup(thread.join)

    def test_gateways_are_told_each_once(self):
        second = response(MORE + FAMILIES + information(b"Haus Kr\xfcger\x07", 0xFFF1, 0xAB), bytes([192, 168, 1, 20]) + b"\x0e\x57")
        self.answered(response(information() + FAMILIES), second, second, response(information(b"") + b"\x02\x02"))
        self.writes(
            f"{self.at} 1.1.255 serial 000000000001 mac 000000000001 families 02.1 03.1 04.1 name knx\n"
            "192.168.1.20:3671 15.15.241 serial 0000000000AB mac 0000000000AB families 02.1 03.1 04.1 name Haus Kr?ger?\n"
            f"{self.at} 1.1.255 serial 000000000001 mac 000000000001 families - name -\n"
        )
        (octets, client), = self.requests
        self.assertEqual(octets, b"\x06\x10\x02\x01\x00\x0e\x08\x01" + socket.inet_aton(client[0]) + struct.pack(">H", client[1]))

    def test_it_asks_once_more(self):
        self.answered(response(information() + FAMILIES), at=2)
        self.writes(f"{self.at} 1.1.255 serial 000000000001 mac 000000000001 families 02.1 03.1 04.1 name knx\n", "from=127.0.0.1")

    def test_what_is_no_response_is_passed_over(self):
        self.waits(0.5)
        whole = response(information() + FAMILIES)
        self.answered(
            b"",
            whole[:-1],
            whole[:13],
            whole + b"\0",
            response(information() + FAMILIES, service=0x0204),
            response(information()),
            response(FAMILIES),
            response(information() + information() + FAMILIES),
            response(information() + FAMILIES + FAMILIES),
            response(information() + b"\x03\x02\x02"),
            response(information() + FAMILIES + b"\x00\x00"),
            response(information() + FAMILIES + b"\x09\xfe"),
            response(information() + FAMILIES + b"\x02"),
            at=2,
        )
        self.writes(NOTHING, status=1)

    def test_no_more_than_64(self):
        self.answered(*(response(information(serial=number) + FAMILIES) for number in range(70)))
        status, octets, said = self.called()
        self.assertEqual((status, octets.count(b"\n"), said), (0, 64, ""))

    def test_refusals(self):
        for words in (["x"], ["from="], ["from=127.0.0.1", "from=127.0.0.1"], ["-h"]):
            with self.subTest(words):
                self.refuses_words(*words)
        for word in ("127.0.0.1:1", "256.0.0.1", "here"):
            with self.subTest(word):
                self.refuses(f"{word} is no address of this machine, as 192.168.1.5", f"from={word}")
        self.refuses("192.0.2.1: Cannot assign requested address: name this machine's address in that network, as from=192.168.1.5", "from=192.0.2.1")

    def test_as_a_script(self):
        self.assertEqual(self.ran(f"tools/{self.tool} x"), (2, "", f"usage: {self.module.USAGE}\n"))
