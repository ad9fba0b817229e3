"""A node beside a peer that is written from the public standard alone, beside hostile datagrams, and in a flood."""
import os
import random
import signal
import socket
import struct
import subprocess
import time
import unittest

import standard
from bench import DISCOVERY, GROUP, Bench, Recorder, can_record, findings, sent_lines

SERVER, PEER, STRANGER = "127.0.0.2", "127.0.0.4", "127.0.0.6"
EVENT = bytes(range(250)) * 20

# What a stranger sends: to which port, the bytes, and what an audit tells of them. Some say nothing wrong that an audit
# could tell.
HOSTILE = (
    (DISCOVERY, b"", None),
    (DISCOVERY, b"\xff\xff\x81\x00", "malformed Truncated at 4"),
    (DISCOVERY, standard.message(0xFFFF, 0x8100, 0, 1, 2, b"\xc0\0\0\0" + b"\0\0\0\x11" + bytes(17) + bytes(4)),
     "malformed EntriesLength at 20"),
    (DISCOVERY, standard.message(0xFFFF, 0x8100, 0, 1, 2, b""), "malformed Truncated at 16"),
    (30509, struct.pack(">HHI", 0x1111, 0x0421, 7) + bytes(8), "malformed LengthTooSmall at 4"),
    (30509, struct.pack(">HHIHHBBBB", 0x1111, 0x0421, 8, 1, 1, 9, 1, 0, 0), "malformed WrongProtocolVersion at 12"),
    (30509, struct.pack(">HHIHHBBBB", 0x1111, 0x0421, 8, 1, 1, 1, 1, 0x77, 0), "malformed UnknownMessageType at 14"),
    (30509, struct.pack(">HHIHHBBBB", 0x1111, 0x0421, 0xFFFFFFFF, 1, 1, 1, 1, 0, 0), "malformed Truncated at 16"),
    (30509, standard.message(0x1111, 0x0421, 1, 1, standard.TP, bytes(2)), "malformed NoHeader at 16"),
    (30509, standard.message(0x1111, 0x0421, 1, 1, standard.TP, struct.pack(">I", 1) + bytes(17)),
     "segments Unaligned 1111.0421 client 0001 session 0001"),
    (30509, standard.message(0x1111, 0x8001, 0, 1, standard.NOTIFICATION, bytes(9)), None),
)


class Peer:
    """The other end, at an address of its own."""

    def __init__(self):
        self.discovery, self.client = self.open(DISCOVERY), self.open(41000)
        self.sessions = {}

    @staticmethod
    def open(port):
        opened = socket.socket(socket.AF_INET, socket.SOCK_DGRAM)
        opened.bind((PEER, port))
        opened.setsockopt(socket.IPPROTO_IP, socket.IP_MULTICAST_IF, socket.inet_aton(PEER))
        opened.settimeout(5)
        return opened

    def say(self, to, entries, options=b""):
        self.sessions[to] = self.sessions.get(to, 0) + 1
        self.discovery.sendto(standard.discovery(self.sessions[to], True, entries, options), (to, DISCOVERY))

    def wait_for(self, kind):
        """The next entry of a kind that the node sends."""
        while True:
            for entry in standard.entries_of(self.discovery.recv(65536)):
                if entry[0] == kind:
                    return entry

    def find(self):
        """The answer to a Find, which is sent until there is one: a node that begins does not answer yet."""
        self.discovery.settimeout(0.2)
        for _ in range(50):
            self.say(GROUP, standard.entry(standard.FIND, 0x1111, 0xFFFF, 0xFF, 3, b"\xff\xff\xff\xff"))
            try:
                offer = self.wait_for(standard.OFFER)
            except socket.timeout:
                continue
            self.discovery.settimeout(5)
            return offer
        raise AssertionError("no answer to a Find")

    def subscribe(self):
        entry = standard.entry(standard.SUBSCRIBE, 0x1111, 1, 1, 0xFFFFFF, struct.pack(">HH", 0, 1), 1)
        self.say(SERVER, entry, standard.endpoint_option(PEER, 41000))
        return self.wait_for(standard.ACK)

    def call(self, session, payload):
        request = standard.message(0x1111, 0x0421, 0x0404, session, standard.REQUEST, payload)
        self.client.sendto(request, (SERVER, 30509))

    def answer(self):
        return standard.Message(self.client.recv(65536))

    def event(self):
        """The payload of the next event, of which the segments are put together."""
        joined = standard.Joined()
        while True:
            found = standard.Message(self.client.recv(65536))
            whole = joined.take(found) if found.kind == standard.NOTIFICATION | standard.TP else None
            if whole is not None:
                return found.method, whole

    def close(self):
        self.discovery.close()
        self.client.close()


class WithAPeer(Bench):
    def setUp(self):
        super().setUp()
        self.peer = Peer()

    def tearDown(self):
        self.peer.close()
        super().tearDown()

    def talk(self, server, session):
        """A call that is answered, and an event in segments."""
        for _ in range(5):
            self.peer.call(session, b"\1\2")
            try:
                token = server.wait_for("request", 3).split()
                break
            except AssertionError:  # a datagram may be lost
                continue
        self.assertEqual(token[2:], ["1111.0001", "0421", "0102"])
        server.do(f"answer {token[1]} 00 0304")
        answer = self.peer.answer()
        self.assertEqual((answer.kind, answer.client, answer.session, answer.code, answer.payload),
                         (standard.RESPONSE, 0x0404, session, 0, b"\3\4"))
        server.do(f"publish 1111.0001 8001 {EVENT.hex()}")
        self.assertEqual(self.peer.event(), (0x8001, EVENT))

    def begin(self, *words):
        server = self.start("server", *words)
        self.assertEqual(self.peer.find()[:4], (standard.OFFER, 0x1111, 1, 3))
        self.assertEqual(self.peer.subscribe()[1:], (0x1111, 1, 0xFFFFFF, b"\0\0\0\1"))
        server.wait_for("accepted 1111.0001 0001 127.0.0.4:41000 0")
        return server

    def send_hostile(self, drawn=()):
        with socket.socket(socket.AF_INET, socket.SOCK_DGRAM) as stranger:
            stranger.bind((STRANGER, 0))
            for port, sent in [(port, sent) for port, sent, _ in HOSTILE] + list(drawn):
                stranger.sendto(sent, (SERVER, port))
            return f"{STRANGER}:{stranger.getsockname()[1]}"

    @unittest.skipUnless(can_record(), "nothing can be recorded here")
    def test_it_talks_to_a_peer_among_hostile_datagrams(self):
        folder, recording = self.path("log"), self.path("wire.pcap")
        recorder = Recorder(recording)
        try:
            server = self.begin("--log", folder)
            self.talk(server, 1)
            stranger = self.send_hostile()
            self.talk(server, 2)
            self.assertEqual(server.stop(), 0)
        finally:
            recorder.stop()
        self.check_replay(folder)
        recorded = [datagram for datagram in recorder.datagrams if datagram[0].startswith(SERVER)]
        self.assertEqual(recorded, sent_lines(folder, "server"))
        found, looked_at = findings(recording)
        self.maxDiff = None
        expected = [(stranger, f"{SERVER}:{port}", finding) for port, _, finding in HOSTILE if finding is not None]
        self.assertEqual(found, expected)
        self.assertGreaterEqual(looked_at, len(recorded))

    def test_it_outlives_what_is_drawn(self):
        folder = self.path("log")
        server = self.begin("--log", folder)
        draws = random.Random("someip-node")
        drawn = []
        for _ in range(2000):
            sent = bytearray(draws.choice([sent for _, sent, _ in HOSTILE] + [draws.randbytes(draws.randrange(200))]))
            for _ in range(draws.randrange(4)):
                if sent:
                    sent[draws.randrange(len(sent))] = draws.randrange(256)
            drawn.append((draws.choice((DISCOVERY, 30509, 40000)), bytes(sent)))
        for at in range(0, len(drawn), 100):
            self.send_hostile(drawn[at:at + 100])
            server.do("answer 99 00 -")
            server.wait_for("refused UnknownToken")
        self.talk(server, 1)
        self.assertEqual(server.stop(), 0)
        self.check_replay(folder)

    def test_it_answers_after_a_flood(self):
        server = self.begin()
        self.talk(server, 1)
        before = server.most_memory()
        flood = [os.environ["SOMEIP_FLOOD"], SERVER, "30509", "10", STRANGER]
        sent = int(subprocess.run(flood, stdout=subprocess.PIPE, check=True).stdout)
        self.assertGreater(sent, 100_000)
        time.sleep(1)
        self.talk(server, 2)
        self.assertLess(server.most_memory() - before, 8 << 10)
        self.assertEqual(server.stop(signal.SIGINT), 0)


if __name__ == "__main__":
    unittest.main()
