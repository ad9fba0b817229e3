"""A bench: two nodes, whose datagrams the tests carry by hand."""
import unittest

import someip

SETUP = """
group = "239.0.0.1"
call_timeout = 200
message_limit = 100000

[[node]]
name = "server"
address = "192.168.0.1"
client_id = 0x0101
client_port = 40000
[[node.offer]]
service = 0x1111
instance = 1
major = 1
ttl = 3
port = 30509
methods = [0x0421]
events = [{ id = 0x8001, groups = [1] }]

[[node]]
name = "client"
address = "192.168.0.2"
client_id = 0x0102
client_port = 40001
[[node.want]]
service = 0x1111
instance = 1
major = 1
ttl = 3
groups = [{ id = 1, events = [0x8001] }]
"""
SERVICE, INSTANCE, METHOD, EVENT, EVENTGROUP = 0x1111, 1, 0x0421, 0x8001, 1
SERVER = someip.Endpoint("192.168.0.1", 30509)
CLIENT = someip.Endpoint("192.168.0.2", 40001)
DELAY_MS, CALL_TIMEOUT_MS = 10, 200
# By reason and detail of someip.h: an answer that nothing waits for, and
# an event that was not subscribed.
NOT_PENDING, NOT_SUBSCRIBED = someip.Dropped(10, 1), someip.Dropped(9, 0)


def sent(outputs):
    """The datagrams among some outputs."""
    return [it for it in outputs if isinstance(it, someip.Sent)]


def carry(outputs, node):
    """Hands the datagrams among outputs to a node: what it then gave."""
    given = []
    for datagram in sent(outputs):
        given += node.on_datagram(*datagram)
    return given


class Bench(unittest.TestCase):
    """A server and a client that have just begun."""

    def setUp(self):
        self.server = someip.Node(SETUP, "server", DELAY_MS)
        self.addCleanup(self.server.close)
        self.client = someip.Node(SETUP, "client", DELAY_MS)
        self.addCleanup(self.client.close)

    def discover(self):
        """The server offers its instance, and the client knows it."""
        return carry(self.server.tick(DELAY_MS), self.client)

    def subscribe(self):
        """The client subscribes, and the server accepts it."""
        accepted = carry(self.client.subscribe(SERVICE, INSTANCE, EVENTGROUP),
                         self.server)
        return accepted, carry(accepted, self.client)

    def call(self, payload):
        """The client calls the method: its session, and the datagram."""
        called, request = self.client.call(SERVICE, INSTANCE, METHOD, payload)
        self.assertIsInstance(called, someip.Called)
        return called.session, request

    def serve(self, *request):
        """The server gets a request and answers it by its bytes reversed."""
        (output,) = carry(request, self.server)
        self.assertIsInstance(output, someip.Request)
        return self.server.answer(output.token, output.payload[::-1])

    def answered(self, session, payload):
        """The output that tells an answer."""
        return someip.Answered(SERVICE, METHOD, session, 0, payload)


class TestDiscovery(Bench):
    def test_the_client_finds_the_server(self):
        with self.assertRaises(someip.NotOffered):
            self.client.call(SERVICE, INSTANCE, METHOD)
        known = someip.Known(SERVICE, INSTANCE, SERVER)
        self.assertEqual(self.discover(), [known])

    def test_the_clock_tells_when_the_first_offer_is_due(self):
        self.assertEqual(self.server.next_due(), DELAY_MS)
        self.assertEqual(self.server.tick(DELAY_MS - 1), [])
        self.assertEqual(len(sent(self.server.tick(1))), 1)

    def test_an_offer_that_is_stopped_is_gone(self):
        self.discover()
        gone = carry(self.server.stop_offer(SERVICE, INSTANCE), self.client)
        self.assertEqual(gone, [someip.Gone(SERVICE, INSTANCE)])

    def test_a_restart_is_seen_as_a_reboot(self):
        self.discover()
        self.server.restart(DELAY_MS)
        peer = someip.Endpoint(SERVER.address, 0)
        self.assertIn(someip.Rebooted(peer), self.discover())


class TestCalls(Bench):
    def setUp(self):
        super().setUp()
        self.discover()

    def test_a_call_is_answered(self):
        session, request = self.call(b"\1\2")
        self.assertEqual((request.from_, request.to), (CLIENT, SERVER))
        answer = self.serve(request)
        self.assertEqual(carry(answer, self.client),
                         [self.answered(session, b"\2\1")])

    def test_a_long_payload_goes_in_segments(self):
        payload = bytes(range(250)) * 280
        called, *segments = self.client.call(
            SERVICE, INSTANCE, METHOD, payload)
        self.assertEqual(len(segments), -(-len(payload) // 1392))
        (answered,) = carry(self.serve(*segments), self.client)
        self.assertEqual(answered.session, called.session)
        self.assertTrue(answered.payload == payload[::-1])

    def test_a_request_that_is_lost_times_out(self):
        session, _ = self.call(b"\1")
        self.assertNotIn(someip.TimedOut(SERVICE, METHOD, session),
                         self.client.tick(CALL_TIMEOUT_MS - 1))
        self.assertIn(someip.TimedOut(SERVICE, METHOD, session),
                      self.client.tick(1))

    def test_a_response_that_is_repeated_is_dropped(self):
        session, request = self.call(b"\1")
        response = self.serve(request)
        self.assertEqual(carry(response + response, self.client),
                         [self.answered(session, b"\1"), NOT_PENDING])

    def test_a_request_that_is_repeated_is_served_twice(self):
        _, request = self.call(b"\1")
        first, second = carry([request, request], self.server)
        self.assertEqual(first.payload, second.payload)
        self.assertNotEqual(first.token, second.token)

    def test_an_answer_that_comes_late_is_dropped(self):
        _, request = self.call(b"\1")
        late = self.serve(request)
        self.client.tick(CALL_TIMEOUT_MS)
        session, request = self.call(b"\2")
        self.assertEqual(carry(late, self.client), [NOT_PENDING])
        self.assertEqual(carry(self.serve(request), self.client),
                         [self.answered(session, b"\2")])

    def test_answers_may_come_in_another_order(self):
        one, first = self.call(b"\1")
        two, second = self.call(b"\2")
        early, late = self.serve(first), self.serve(second)
        self.assertEqual(carry(late + early, self.client), [
            self.answered(two, b"\2"), self.answered(one, b"\1")])


class TestEvents(Bench):
    def setUp(self):
        super().setUp()
        self.discover()

    def test_an_event_goes_to_a_subscriber(self):
        self.assertEqual(self.server.publish(SERVICE, INSTANCE, EVENT), [])
        accepted, subscribed = self.subscribe()
        self.assertEqual(accepted[0], someip.Accepted(
            SERVICE, INSTANCE, EVENTGROUP, CLIENT, 0))
        self.assertEqual(subscribed, [someip.Subscribed(
            SERVICE, INSTANCE, EVENTGROUP, 0)])
        event = self.server.publish(SERVICE, INSTANCE, EVENT, b"*")
        self.assertEqual(carry(event, self.client),
                         [someip.Event(SERVICE, INSTANCE, EVENT, b"*")])

    def test_the_first_value_of_a_field_goes_to_one(self):
        with self.assertRaises(someip.NotSubscribed):
            self.server.publish_to(SERVICE, INSTANCE, EVENTGROUP, CLIENT,
                                   EVENT)
        self.subscribe()
        event = self.server.publish_to(SERVICE, INSTANCE, EVENTGROUP, CLIENT,
                                       EVENT, b"*")
        self.assertEqual(carry(event, self.client),
                         [someip.Event(SERVICE, INSTANCE, EVENT, b"*")])

    def test_an_ack_that_is_lost_leaves_the_client_unsubscribed(self):
        carry(self.client.subscribe(SERVICE, INSTANCE, EVENTGROUP),
              self.server)
        event = self.server.publish(SERVICE, INSTANCE, EVENT, b"*")
        self.assertEqual(carry(event, self.client), [NOT_SUBSCRIBED])


class TestErrors(Bench):
    def test_an_error_has_the_name_and_the_number_of_the_header(self):
        with self.assertRaises(someip.SomeipError) as refused:
            someip.Node(SETUP, "nobody", DELAY_MS)
        self.assertEqual(refused.exception.name, "NO_SUCH_NODE")
        self.assertEqual(refused.exception.number, 14)

    def test_a_text_that_is_no_setup_is_refused(self):
        with self.assertRaises(someip.NotToml):
            someip.Node("group = ", "server", DELAY_MS)

    def test_a_node_that_was_closed_refuses_all(self):
        self.server.close()
        self.server.close()
        with self.assertRaises(someip.Closed):
            self.server.tick(1)
        with self.assertRaises(someip.Closed):
            self.server.next_due()

    def test_a_number_that_has_no_room_is_refused(self):
        with self.assertRaisesRegex(Exception, "no number of 16 bits"):
            self.client.call(0x11111, INSTANCE, METHOD)


class TestSteps(Bench):
    """Steps as a schedule writes them, and what a node says of itself."""

    def test_a_step_is_the_call_of_its_name(self):
        self.discover()
        (called, request) = self.client.do("call 1111.0001 0421 0102")
        self.assertEqual(called, someip.Called(SERVICE, METHOD, 1))
        (given,) = carry([request], self.server)
        self.assertEqual((given.token, given.payload), (1, b"\1\2"))
        (answer,) = self.server.do("answer 1 00 03*3")
        self.assertEqual(carry([answer], self.client),
                         [someip.Answered(SERVICE, METHOD, 1, 0, b"\3\3\3")])

    def test_what_is_no_step_is_refused(self):
        for step, error in (
                ("jump", someip.BadStep), ("", someip.BadStep),
                ("tick 5", someip.BadStep), ("deliver 1", someip.BadStep),
                ("inject 5 1.2.3.4:5 -", someip.BadStep),
                ("call 1111.0001 8421 -", someip.BadStep),
                ("restart 9", someip.BadDelay),
                ("answer 7 00 -", someip.UnknownToken),
                ("call 1111.0001 0421 00*100001", someip.PayloadTooLong),
                ("call 2222.0001 0421 00*100001", someip.PayloadTooLong),
                ("call 2222.0001 0421 -", someip.NotOffered),
                ("subscribe 1111.0002 0001", someip.NotWanted)):
            with self.assertRaises(error, msg=step):
                self.client.do(step)

    def test_its_places(self):
        discovery, client = (
            someip.Place(someip.Endpoint("192.168.0.1", port), kind, 0, 0)
            for port, kind in ((30490, 1), (40000, 2)))
        self.assertEqual(self.server.places(), [
            discovery, client, someip.Place(SERVER, 3, SERVICE, INSTANCE),
            someip.Place(someip.Endpoint("239.0.0.1", 30490), 4, 0, 0)])

    def test_its_delays_and_faults_of_setups(self):
        self.assertEqual(someip.delays(SETUP), (10, 100))
        self.assertEqual(someip.setup_fault(SETUP), "")
        for old, new, fault in (
                ('group = "239.0.0.1"', "", "Missing group"),
                ("port = 30509", "port = 0", "OutOfRange port"),
                ("[[node]]", "[[node", "NotToml -")):
            self.assertEqual(someip.setup_fault(SETUP.replace(old, new, 1)),
                             fault)
        with self.assertRaises(someip.Missing):
            someip.delays("")


if __name__ == "__main__":
    unittest.main()
