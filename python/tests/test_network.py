"""Networks: what nodes of one process do, and the schedule of it."""
import os
import subprocess
import tempfile
import unittest

import someip
from test_bench import (
    EVENT, EVENTGROUP, INSTANCE, METHOD, SERVER, SERVICE, SETUP)

THERE = SERVICE, INSTANCE
LIAR = """
[[node]]
name = "liar"
address = "192.168.0.3"
client_id = 3
client_port = 40002
liar = true
"""


class TestNetwork(unittest.TestCase):
    """A server and a client, and a liar that runs no node."""

    def setUp(self):
        self.net = someip.Network(SETUP + LIAR)
        self.addCleanup(self.net.close)

    def discover(self):
        self.net.tick("server", 10)
        return self.net.deliver_all()

    def replayed(self):
        """The lines of the trace of what was done, by someipctl run."""
        with tempfile.TemporaryDirectory() as folder:
            names = f"{folder}/setup.toml", f"{folder}/schedule.txt"
            for name, text in zip(names, (SETUP + LIAR, self.net.schedule())):
                with open(name, "w", encoding="utf-8") as file:
                    file.write(text)
            done = subprocess.run(
                [os.environ["SOMEIPCTL"], "run", *names], check=True,
                capture_output=True, text=True)
        return done.stdout.splitlines()

    def test_offers_are_known_by_all_but_their_sender(self):
        known = someip.Known(*THERE, SERVER)
        self.assertEqual(self.discover(), [("client", known)])
        self.assertEqual(self.net.schedule(),
                         "tick server 10\ndeliver 1 client\n")

    def test_a_call_is_answered(self):
        self.discover()
        self.net.call("client", *THERE, METHOD, b"\1\2")
        ((name, request),) = self.net.deliver()
        self.assertEqual(name, "server")
        self.net.answer("server", request.token, b"\3")
        ((name, answer),) = self.net.deliver_all()
        self.assertEqual((name, answer.payload), ("client", b"\3"))

    def test_what_is_lost_does_not_come_and_can_be_repeated(self):
        self.discover()
        self.net.call("client", *THERE, METHOD)
        (number,) = self.net.waiting()
        self.net.lose()
        self.assertEqual(self.net.deliver_all(), [])
        with self.assertRaises(IndexError):
            self.net.deliver()
        self.assertEqual(len(self.net.repeat(number)), 1)
        self.assertEqual(len(self.net.repeat(number)), 1)

    def test_datagrams_may_overtake(self):
        self.discover()
        for payload in (b"\1", b"\2"):
            self.net.call("client", *THERE, METHOD, payload)
        first, second = self.net.waiting()
        ((_, request),) = self.net.deliver(second)
        self.assertEqual(request.payload, b"\2")
        ((_, request),) = self.net.deliver(first)
        self.assertEqual(request.payload, b"\1")

    def test_a_refused_call_is_in_the_schedule_and_a_bad_step_is_not(self):
        with self.assertRaises(someip.NotOffered):
            self.net.call("client", *THERE, METHOD)
        with self.assertRaises(someip.NotOffered):
            self.net.call("client", *THERE, METHOD, bytes(100001))
        with self.assertRaises(someip.BadDelay):
            self.net.restart("client", 5)
        self.assertEqual(self.net.schedule(),
                         "call client 1111.0001 0421 -\n")

    @unittest.skipUnless("SOMEIPCTL" in os.environ, "no someipctl")
    def test_the_program_plays_a_schedule_again(self):
        net = self.net
        self.discover()
        net.subscribe("client", *THERE, EVENTGROUP)
        net.deliver_all()
        net.publish("server", *THERE, EVENT, bytes(3000))
        net.deliver_all()
        net.publish_to("server", *THERE, EVENTGROUP,
                       ("192.168.0.2", 40001), EVENT, b"*")
        net.lose()
        net.call("client", *THERE, METHOD, b"\1")
        ((_, request),) = net.deliver()
        net.answer("server", request.token, b"", 1, True)
        net.deliver_all()
        net.tick_all(5)
        with self.assertRaises(someip.NotWanted):
            net.unsubscribe("client", *THERE, 7)
        net.unsubscribe("client", *THERE, EVENTGROUP)
        net.deliver_all()
        net.stop_offer("server", *THERE)
        net.deliver_all()
        net.restart("server", 20)
        net.tick("server", 20)
        net.deliver_all()
        trace = [line.split(" ", 2)[2] for line in self.replayed()[:-1]]
        wanted = [
            f"sent {number} {it.from_.address}:{it.from_.port} "
            f"{it.to.address}:{it.to.port} {it.payload.hex()}"
            for number, it in enumerate(
                map(net.sent, range(1, net.sent_count() + 1)), 1)]
        self.assertEqual([it for it in trace if it.startswith("sent ")],
                         wanted)


if __name__ == "__main__":
    unittest.main()
