"""What the tests of someip-node share: nodes that run, their logs, and what is on the wire meanwhile."""
import os
import queue
import signal
import socket
import struct
import subprocess
import tempfile
import threading
import time
import unittest

HERE = os.path.dirname(os.path.abspath(__file__))
NODE = os.environ["SOMEIP_NODE"]
SOMEIPCTL = os.environ["SOMEIPCTL"]
SETUP = os.path.join(HERE, "setup.toml")
GROUP = "239.192.255.252"
DISCOVERY = 30490


class Running:
    """A node that runs: its lines on standard output, and its steps on standard input."""

    def __init__(self, name, *words, setup=SETUP, before=(), program=NODE, more=()):
        command = [*before, program, *words, setup, name]
        pipe = subprocess.PIPE
        self.process = subprocess.Popen(command, stdin=pipe, stdout=pipe, stderr=pipe, text=True, bufsize=1,
                                        env={**os.environ, **dict(more)})
        self.lines, self.told, self.dropped = queue.Queue(), [], 0
        for stream, take in ((self.process.stdout, self.take), (self.process.stderr, self.told.append)):
            threading.Thread(target=self.read, args=(stream, take), daemon=True).start()

    @staticmethod
    def read(stream, take):
        for line in stream:
            take(line.rstrip("\n"))

    def take(self, line):
        """Keeps a line; of datagrams that were dropped only how many there are."""
        if line.startswith("dropped "):
            self.dropped += 1
        else:
            self.lines.put(line)

    def do(self, step):
        self.process.stdin.write(step + "\n")
        self.process.stdin.flush()

    def wait_for(self, front, seconds=8.0):
        """The next line with this front; those before it are passed over."""
        end = time.monotonic() + seconds
        while True:
            try:
                line = self.lines.get(timeout=max(0.0, end - time.monotonic()))
            except queue.Empty:
                raise AssertionError(f"no line {front!r}; told: {self.told}") from None
            if line.startswith(front):
                return line

    def wait_for_told(self, line, seconds):
        """Whether a line comes on standard error in time."""
        end = time.monotonic() + seconds
        while line not in self.told and time.monotonic() < end:
            time.sleep(0.01)
        return line in self.told

    def stop(self, number=signal.SIGTERM):
        """Ends it by a signal, and returns its exit status."""
        if self.process.poll() is None:
            self.process.send_signal(number)
        status = self.process.wait(timeout=20)
        self.process.stdin.close()
        return status

    def most_memory(self):
        """The most memory that it had, in KB."""
        with open(f"/proc/{self.process.pid}/status", encoding="ascii") as file:
            return next(int(line.split()[1]) for line in file if line.startswith("VmHWM"))


def played(folder, *words):
    """What `someipctl run` says of a log, with its exit status."""
    command = [SOMEIPCTL, "run", f"{folder}/setup.toml", f"{folder}/schedule.txt", *words]
    ran = subprocess.run(command, stdout=subprocess.PIPE, stderr=subprocess.STDOUT, check=False)
    return ran.returncode, ran.stdout.decode()


def sent_lines(folder, name):
    """The datagrams that a node sent by its log: source, destination, bytes."""
    with open(f"{folder}/trace.txt", encoding="ascii") as file:
        words = [line.split() for line in file if line.endswith("\n")]
    return [(w[4], w[5], "" if w[6] == "-" else w[6]) for w in words if w[1] == name and w[2] == "sent"]


def findings(recording):
    """What `someipctl audit` finds in a recording: source, destination and finding; and how many datagrams it looked at."""
    ran = subprocess.run([SOMEIPCTL, "audit", recording], stdout=subprocess.PIPE, check=False)
    lines = ran.stdout.decode().splitlines()
    at = next(i for i, line in enumerate(lines) if line.startswith("audited "))
    return [tuple(line.split(" ", 4)[2:]) for line in lines[:at]], int(lines[at].split()[1])


class Recorder:
    """Records what is sent by an interface, as a classic pcap file and as datagrams."""

    def __init__(self, path, interface="lo"):
        self.file = open(path, "wb")
        self.file.write(struct.pack("<IHHiIII", 0xA1B2C3D4, 2, 4, 0, 0, 262144, 1))
        self.socket = socket.socket(socket.AF_PACKET, socket.SOCK_RAW, socket.htons(3))
        self.socket.setsockopt(socket.SOL_SOCKET, socket.SO_RCVBUF, 1 << 24)
        self.socket.bind((interface, 3))
        self.socket.settimeout(0.1)
        self.datagrams, self.going = [], True
        self.thread = threading.Thread(target=self.record)
        self.thread.start()

    def record(self):
        while self.going:
            try:
                frame, where = self.socket.recvfrom(262144)
            except socket.timeout:
                continue
            # on the loopback interface each frame is seen as it goes out, and again as it comes in
            if where[2] == socket.PACKET_OUTGOING and where[1] == 0x0800 and frame[23] == 17:
                self.take(frame)

    def take(self, frame):
        now = time.time()
        self.file.write(struct.pack("<IIII", int(now), int(now % 1 * 1e6), len(frame), len(frame)) + frame)
        header = 14 + (frame[14] & 15) * 4
        ports = struct.unpack(">HHH", frame[header:header + 6])
        ends = [f"{socket.inet_ntoa(frame[26 + 4 * i:30 + 4 * i])}:{ports[i]}" for i in range(2)]
        self.datagrams.append((*ends, frame[header + 8:header + ports[2]].hex()))

    def stop(self):
        time.sleep(0.2)
        self.going = False
        self.thread.join()
        self.socket.close()
        self.file.close()


def can_record():
    try:
        socket.socket(socket.AF_PACKET, socket.SOCK_RAW, 0).close()
    except (OSError, AttributeError):
        return False
    return True


class Bench(unittest.TestCase):
    """Tests with a folder of their own, and nodes that are stopped at the end of each."""

    def setUp(self):
        self.room = tempfile.TemporaryDirectory()
        self.nodes = []

    def tearDown(self):
        for node in self.nodes:
            if node.process.poll() is None:
                node.process.kill()
            node.process.wait()
            for stream in (node.process.stdin, node.process.stdout, node.process.stderr):
                if not stream.closed:
                    try:
                        stream.close()
                    except BrokenPipeError:
                        pass
        self.room.cleanup()

    def path(self, name):
        return os.path.join(self.room.name, name)

    def start(self, name, *words, **more):
        self.nodes.append(Running(name, *words, **more))
        return self.nodes[-1]

    def check_replay(self, *folders):
        """Each log plays again to what the node gave, and nothing is told."""
        for folder in folders:
            self.assertEqual(played(folder, "--begins", f"{folder}/trace.txt"), (0, ""))
