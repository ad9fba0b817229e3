"""A node of which a growth of memory is refused begins anew, goes on, and has a log that plays again."""
import os
import signal
import unittest

from bench import Bench


class Memory(Bench):
    def refuse(self, number):
        """A client of which that growth is refused in a call; then it finds the server again, and is answered."""
        folder = self.path(f"log{number}")
        server = self.start("server")
        client = self.start("client", "--log", folder, program=os.environ["SOMEIP_NODE_REFUSED"],
                            more={"SOMEIP_REFUSES": str(number)})
        client.wait_for("known 1111.0001 127.0.0.2:30509")
        client.process.send_signal(signal.SIGUSR1)
        for _ in range(10):
            client.do("call 1111.0001 0421 0102")
            if client.wait_for_told("out of memory", 0.1):
                break
        client.do("call 1111.0001 0421 ff")
        while client.wait_for("").split()[0] != "call" or not self.is_answered(server, client):
            client.do("call 1111.0001 0421 ff")
        self.assertEqual((client.stop(), server.stop()), (0, 0))
        self.check_replay(folder)
        return "out of memory" in client.told

    @staticmethod
    def is_answered(server, client):
        """Whether the call that the client made last comes to be answered."""
        try:
            request = ""
            while not request.endswith(" ff"):
                request = server.wait_for("request", 1)
            server.do(f"answer {request.split()[1]} 00 03")
            client.wait_for("answer 1111.0421", 1)
        except AssertionError:
            return False
        return True

    def test_it_begins_anew_without_memory(self):
        refused = [self.refuse(number) for number in range(1, 13)]
        self.assertGreater(sum(refused), 8)


if __name__ == "__main__":
    unittest.main()
