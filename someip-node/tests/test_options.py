"""What someip-node is called with: usage, setups that are refused, and what the system refuses."""
import subprocess
import time

from bench import DISCOVERY, NODE, SETUP, Bench

USAGE = "Usage: someip-node [OPTIONS] <SETUP> <NODE>\n"
ROWS = (
    ([], 2, "error: a setup and the name of a node are required\n\n" + USAGE),
    ([SETUP], 2, "error: a setup and the name of a node are required\n\n" + USAGE),
    ([SETUP, "server", "x"], 2, "error: unexpected argument 'x' found\n\n" + USAGE),
    (["--all", SETUP, "server"], 2, "error: unexpected argument '--all' found\n\n" + USAGE),
    ([SETUP, "server", "--delay"], 2, "error: a value is required for '--delay'\n\n" + USAGE),
    (["--delay=9", SETUP, "server"], 2, "error: invalid value '9' for '--delay <MS>': 10 to 50\n\n" + USAGE),
    (["--delay", "51", SETUP, "server"], 2, "error: invalid value '51' for '--delay <MS>': 10 to 50\n\n" + USAGE),
    (["--delay", "1e1", SETUP, "server"], 2, "error: invalid value '1e1' for '--delay <MS>': 10 to 50\n\n" + USAGE),
    (["--log-steps", "0", SETUP, "server"], 2, "error: invalid value '0' for '--log-steps <N>': 1 to 4294967295\n\n" + USAGE),
    ([SETUP, "nobody"], 1, "nobody: no such node\n"),
    (["--interface", "none0", SETUP, "server"], 4, "someip-node: none0: No such device\n"),
    (["--log", "/proc/none", SETUP, "server"], 4, "someip-node: /proc/none: No such file or directory\n"),
    (["missing", "server"], 4, "cannot read missing\n"),
)
# A setup in which this stands in place of that is refused so.
REFUSED = (
    ('group = "239.192.255.252"\n', "", "setup: Missing group\n"),
    ("port = 30509", "port = 0", "setup: OutOfRange port\n"),
    ("port = 30509", 'port = "x"', "setup: WrongKind port\n"),
    ("port = 30509", "port = 30490", "setup: Clash port\n"),
    ("ttl = 3\nport", "tll = 3\nport", "setup: Missing ttl\n"),
    ("base = 30", "bass = 30", "setup: UnknownKey bass\n"),
    ("[[node]]", "[[node", "setup: NotToml -\n"),
)
LIAR = '\n[[node]]\nname = "liar"\naddress = "127.0.0.9"\nclient_id = 1\nclient_port = 1\nliar = true\n'


def wait_until_open(port):
    """Waits until a socket of this machine has the port."""
    for _ in range(500):
        with open("/proc/net/udp", encoding="ascii") as file:
            if any(f":{port:04X} " in line for line in file):
                return
        time.sleep(0.01)
    raise AssertionError("no socket")


class Options(Bench):
    def call(self, words):
        ran = subprocess.run([NODE, *words], stdin=subprocess.DEVNULL, capture_output=True, text=True, check=False, timeout=20)
        return ran.returncode, ran.stderr, ran.stdout

    def setup_with(self, old, new):
        with open(SETUP, encoding="utf8") as file:
            text = file.read()
        self.assertIn(old, text)
        with open(self.path("setup.toml"), "w", encoding="utf8") as file:
            file.write(text.replace(old, new, 1))
        return self.path("setup.toml")

    def test_words_that_are_no_call(self):
        for words, status, told in ROWS:
            self.assertEqual(self.call(words), (status, told, ""), words)

    def test_help(self):
        status, told, text = self.call(["--help"])
        self.assertEqual((status, told), (0, ""))
        self.assertIn(USAGE, text)

    def test_setups_that_are_refused(self):
        for old, new, told in REFUSED:
            self.assertEqual(self.call([self.setup_with(old, new), "server"]), (1, told, ""), new)

    def test_a_liar_is_no_node(self):
        with open(SETUP, encoding="utf8") as file:
            text = file.read()
        with open(self.path("liar.toml"), "w", encoding="utf8") as file:
            file.write(text + LIAR)
        self.assertEqual(self.call([self.path("liar.toml"), "liar"]), (1, "liar: no such node\n", ""))

    def test_what_cannot_be_had_is_named(self):
        first = self.start("server")
        wait_until_open(DISCOVERY)
        status, told, _ = self.call([SETUP, "server"])
        self.assertEqual((status, told), (4, "someip-node: 127.0.0.2:30490: bind: Address already in use\n"))
        self.assertEqual(first.stop(), 0)
        setup = self.setup_with("127.0.0.2", "203.0.113.7")
        status, told, _ = self.call([setup, "server"])
        self.assertEqual(status, 4)
        self.assertRegex(told, r"^someip-node: 203\.0\.113\.7:\d+: \w+: .+\n$")

    def test_a_log_is_not_written_over(self):
        folder = self.path("log")
        server = self.start("server", "--log", folder)
        self.start("client").wait_for("known")
        self.assertEqual(server.stop(), 0)
        with open(f"{folder}/schedule.txt", encoding="ascii") as file:
            before = file.read()
        status, told, _ = self.call(["--log", folder, SETUP, "server"])
        self.assertEqual((status, told), (4, f"someip-node: {folder}: File exists\n"))
        with open(f"{folder}/schedule.txt", encoding="ascii") as file:
            self.assertEqual(file.read(), before)

    def test_a_full_disk_is_told(self):
        with open("/dev/full", "w", encoding="ascii") as full:
            ran = subprocess.run([NODE, "--sent", SETUP, "server"], stdin=subprocess.DEVNULL, stdout=full,
                                 stderr=subprocess.PIPE, text=True, check=False, timeout=20)
        self.assertEqual((ran.returncode, ran.stderr.splitlines()[-1]), (4, "cannot write"))
