"""Two nodes in networks of their own, between which a relay drops one datagram in ten: what is handed up is what was sent."""
import os
import socket
import subprocess
import threading
import time
import unittest

from bench import SETUP, Bench

# A node waits for its end of the cable, which is put into its network, and takes its address there.
BEGIN = """until ip link set {end} up 2>/dev/null; do sleep 0.05; done
ip address add {address}/24 dev {end} && ip route add 239.0.0.0/8 dev {end} && exec "$@" """


def can_part_networks():
    try:
        return subprocess.run(["unshare", "-n", "ip", "link", "add", "one0", "type", "veth", "peer", "name", "one1"],
                              stderr=subprocess.DEVNULL, check=False).returncode == 0
    except OSError:
        return False


class Relay:
    """Passes frames between two interfaces, and drops each tenth UDP datagram."""

    def __init__(self, *ends):
        self.sockets = [socket.socket(socket.AF_PACKET, socket.SOCK_RAW, socket.htons(3)) for _ in ends]
        for opened, end in zip(self.sockets, ends):
            opened.bind((end, 3))
            opened.settimeout(0.1)
        self.going, self.seen, self.dropped = True, 0, 0
        self.threads = [threading.Thread(target=self.relay, args=(at,)) for at in (0, 1)]
        for thread in self.threads:
            thread.start()

    def relay(self, at):
        while self.going:
            try:
                frame, where = self.sockets[at].recvfrom(65536)
            except (socket.timeout, OSError):
                continue
            if where[2] != socket.PACKET_OUTGOING:
                self.pass_on(bytearray(frame), self.sockets[1 - at])

    def pass_on(self, frame, other):
        if frame[12:14] == b"\x08\0" and frame[23] == 17:
            self.seen += 1
            if self.seen % 10 == 0:
                self.dropped += 1
                return
            # The sums of datagrams are left to the interface, and never made on such a cable: without one, none is judged.
            udp = 14 + (frame[14] & 15) * 4
            frame[udp + 6:udp + 8] = b"\0\0"
        try:
            other.send(frame)
        except OSError:
            pass

    def stop(self):
        self.going = False
        for thread in self.threads:
            thread.join()
        for opened in self.sockets:
            opened.close()


@unittest.skipUnless(can_part_networks(), "networks cannot be parted here")
class WithARelay(Bench):
    def setUp(self):
        super().setUp()
        with open(SETUP, encoding="utf8") as file:
            text = file.read().replace("127.0.0.2", "10.11.0.2").replace("127.0.0.3", "10.11.0.3")
        with open(self.path("setup.toml"), "w", encoding="utf8") as file:
            file.write(text.replace("call_timeout = 1500", "call_timeout = 300"))

    def begin(self, name, address):
        ends = f"to_{name}", f"of_{name}"
        subprocess.run(["ip", "link", "add", ends[0], "type", "veth", "peer", "name", ends[1]], check=True)
        subprocess.run(["ip", "link", "set", ends[0], "up", "promisc", "on"], check=True)
        script = BEGIN.format(end=ends[1], address=address)
        node = self.start(name, "--log", self.path(name), "--interface", ends[1], setup=self.path("setup.toml"),
                          before=("unshare", "-n", "sh", "-c", script, "sh"))
        self.wait_for_network(node.process.pid)
        subprocess.run(["ip", "link", "set", ends[1], "netns", str(node.process.pid)], check=True)
        return node, ends[0]

    def wait_for_network(self, process):
        """Until a process is in a network of its own: what is given to it before then would stay in this one."""
        here, end = os.readlink("/proc/self/ns/net"), time.monotonic() + 20
        while os.readlink(f"/proc/{process}/ns/net") == here:
            self.assertLess(time.monotonic(), end, "no network of its own")
            time.sleep(0.005)

    def serve(self, server, requests):
        """Answers each request by its payload twice, and publishes it."""
        while self.going:
            try:
                _, token, _, _, payload = server.wait_for("request", 1).split()
            except AssertionError:
                continue
            requests.append(payload)
            server.do(f"answer {token} 00 {payload}{payload}")
            server.do(f"publish 1111.0001 8001 {payload}")

    def test_what_is_handed_up_is_what_was_sent(self):
        (server, first), (client, second) = self.begin("server", "10.11.0.2"), self.begin("client", "10.11.0.3")
        relay = Relay(first, second)
        try:
            client.wait_for("known 1111.0001 10.11.0.2:30509")
            client.do("subscribe 1111.0001 0001")
            client.wait_for("subscribed 1111.0001 0001")
            answers, events = self.talk(server, client)
            self.assertEqual((server.stop(), client.stop()), (0, 0))
        finally:
            relay.stop()
        self.assertGreater(relay.dropped, 5)
        self.check_replay(self.path("server"), self.path("client"))
        self.assertGreater(len(answers), 30)
        self.assertGreater(len(events), 30)

    def talk(self, server, client):
        """Sixty calls, each ended by its answer or by the time; then the answers and events that came."""
        requests, answers, events = [], {}, []
        self.going = True
        serving = threading.Thread(target=self.serve, args=(server, requests))
        serving.start()
        for number in range(1, 61):
            client.do(f"call 1111.0001 0421 {number:04x}")
            line = [""]
            while line[0] not in ("answer", "timeout", "refused"):
                line = client.wait_for("", 5).split()
                if line[0] == "event":
                    events.append(line[3])
            if line[0] == "answer":
                answers[number] = line[4]
        self.going = False
        serving.join()
        self.assertEqual(answers, {number: f"{number:04x}" * 2 for number in answers})
        self.assertEqual([event for event in events if event not in requests], [])
        return answers, events


if __name__ == "__main__":
    unittest.main()
