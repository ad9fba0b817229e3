"""Two nodes over real sockets: what each prints, and that their logs play again."""
import os
import signal
import unittest

from bench import Bench, Recorder, can_record, findings, played, sent_lines

EVENT = "0a1b2c3d4e" * 1000


class TwoNodes(Bench):
    def pair(self, *words):
        folders = [self.path("server"), self.path("client")]
        server = self.start("server", "--log", folders[0], *words)
        client = self.start("client", "--log", folders[1], *words)
        client.wait_for("known 1111.0001 127.0.0.2:30509")
        return server, client, folders

    def talk(self, server, client):
        """A subscription, a call that is answered, one that is answered by an error, and an event of 5000 bytes."""
        client.do("subscribe 1111.0001 0001")
        self.assertEqual(server.wait_for("accepted"), "accepted 1111.0001 0001 127.0.0.3:40001 0")
        client.wait_for("subscribed 1111.0001 0001 0")
        client.do("call 1111.0001 0421 0102")
        client.wait_for("call 1111.0421 0001")
        token = server.wait_for("request").split()
        self.assertEqual(token[2:], ["1111.0001", "0421", "0102"])
        server.do(f"answer {token[1]} 00 03")
        client.wait_for("answer 1111.0421 0001 00 03")
        client.do("call 1111.0001 0421 -")
        token = server.wait_for("request").split()[1]
        server.do(f"error {token} 04 -")
        client.wait_for("answer 1111.0421 0002 04 -")
        client.do("oneway 1111.0001 0422 aa*3")
        server.wait_for("request - 1111.0001 0422 aaaaaa")
        server.do(f"publish 1111.0001 8001 {EVENT}")
        client.wait_for(f"event 1111.0001 8001 {EVENT}")

    def test_they_talk_and_their_logs_play_again(self):
        server, client, folders = self.pair()
        self.talk(server, client)
        client.do("restart 10")
        client.wait_for("known 1111.0001 127.0.0.2:30509")
        client.do("subscribe 1111.0001 0001")
        server.wait_for("reboot 127.0.0.3")
        client.wait_for("subscribed 1111.0001 0001 0")
        client.do("call 1111.0001 0421 -")
        client.wait_for("timeout 1111.0421 0001")
        self.assertEqual(server.stop(), 0)
        client.wait_for("gone 1111.0001")
        self.assertEqual(client.stop(signal.SIGINT), 0)
        self.check_replay(*folders)
        for folder in folders:
            status, text = played(folder)
            self.assertEqual((status, text.splitlines()[-1][:6]), (0, "reuse "))

    def test_a_line_that_is_no_step_is_told_and_skipped(self):
        server, client, folders = self.pair()
        for line in ("jump", "tick 5", "deliver 1", "call  1111.0001 0421 -", "restart 9", "restart 51", "call 1111.0001 0421 00*65537"):
            client.do(line)
        client.do("# a comment")
        client.do("")
        client.do("answer 7 00 -")
        client.wait_for("refused UnknownToken")
        client.do("subscribe 1111.0002 0001")
        client.wait_for("refused NotWanted")
        client.do("call 1111.0001 0421 -")
        client.wait_for("call 1111.0421 0001")
        self.assertEqual((client.stop(), server.stop()), (0, 0))
        self.assertEqual(len([line for line in client.told if line.startswith("bad step")]), 7)
        self.check_replay(*folders)

    def test_a_log_that_was_cut_is_a_beginning(self):
        server, client, folders = self.pair()
        self.talk(server, client)
        for node in (server, client):
            node.process.kill()
            node.process.wait()
        self.check_replay(*folders)
        for folder in folders:
            size = os.path.getsize(f"{folder}/trace.txt")
            for length in (0, 1, size // 2, size - 1):
                with open(f"{folder}/trace.txt", "rb") as whole, open(f"{folder}/cut.txt", "wb") as cut:
                    cut.write(whole.read()[:length])
                self.assertEqual(played(folder, "--begins", f"{folder}/cut.txt"), (0, ""))
        with open(f"{folders[1]}/trace.txt", encoding="ascii") as file:
            text = file.read().replace("answer 1111.0421 0001 00 03", "answer 1111.0421 0001 00 04")
        with open(f"{folders[1]}/other.txt", "w", encoding="ascii") as file:
            file.write(text)
        self.assertEqual(played(folders[1], "--begins", f"{folders[1]}/other.txt")[0], 1)

    def test_a_log_ends_after_its_steps(self):
        server, client, folders = self.pair("--log-steps", "5")
        self.talk(server, client)
        self.assertEqual((client.stop(), server.stop()), (0, 0))
        self.check_replay(*folders)
        for node in (server, client):
            self.assertIn("someip-node: the log ends: it has as many steps as --log-steps says", node.told)

    @unittest.skipUnless(can_record(), "nothing can be recorded here")
    def test_what_was_recorded_is_what_the_logs_say_was_sent(self):
        recording = self.path("wire.pcap")
        recorder = Recorder(recording)
        try:
            server, client, folders = self.pair()
            self.talk(server, client)
            client.do("restart 10")
            client.wait_for("known 1111.0001 127.0.0.2:30509")
            client.do("subscribe 1111.0001 0001")
            client.wait_for("subscribed 1111.0001 0001 0")
            self.assertEqual((server.stop(), client.stop()), (0, 0))
        finally:
            recorder.stop()
        for folder, name, address in ((folders[0], "server", "127.0.0.2:"), (folders[1], "client", "127.0.0.3:")):
            recorded = [datagram for datagram in recorder.datagrams if datagram[0].startswith(address)]
            self.assertEqual(recorded, sent_lines(folder, name))
        self.check_replay(*folders)
        # The second call is answered by an ERROR. The restart is seen by the first message to where one went before: a
        # Find to the group, or the Subscribe.
        found, looked_at = findings(recording)
        self.assertEqual([(source, finding) for source, _, finding in found],
                         [("127.0.0.2:30509", "error 04 1111.0421 client 0102 session 0002"), ("127.0.0.3:30490", "reboot")])
        self.assertEqual(looked_at, len(recorder.datagrams))


if __name__ == "__main__":
    unittest.main()
