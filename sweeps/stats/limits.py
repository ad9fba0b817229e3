"""Recordings in which each table of the figures comes to its limit, and the books of the audit that gaps and reboots need.
What has to be told of them the model tells, of which some datagrams or sessions are changed: those of which a full book
knows nothing."""
import crowds
import wire
from figures import LIMIT, WAITING

SERVER, CLIENT, A, B = crowds.SERVER, crowds.CLIENT, crowds.A, crowds.B
BOOK = crowds.LIMIT
LATER = 10**9


def header(method, session, kind, client=1):
    return wire.Header(1 + method // 256, method % 256, client, session, 1, kind, 0)


def at_last():
    """A datagram by which all falls due."""
    return [crowds.discovery(A, crowds.GROUP, 2, [])._replace(time=LATER)]


def methods():
    """Calls of two methods more than there is room for, each of which is answered, and calls of all again."""
    asked = [header(number, 1, wire.REQUEST) for number in range(LIMIT + 2)]
    answers = [one._replace(kind=wire.RESPONSE) for one in asked]
    return (crowds.offered() + crowds.of_messages(CLIENT, SERVER, asked)
            + crowds.of_messages(SERVER, CLIENT, answers, 5000) + crowds.of_messages(CLIENT, SERVER, asked, 6000))


def events():
    """Events of two flows more than there is room for; the first and the last skip sessions."""
    found = crowds.offered()
    for session, time in ((1, 0), (2, 70000)):
        skips = [7 * (session == 2 and number % LIMIT < 2) for number in range(LIMIT + 2)]
        headers = [header(number, session + skip, wire.NOTIFICATION) for number, skip in enumerate(skips)]
        found += crowds.of_messages(SERVER, CLIENT, headers, time)
    return found + at_last()


def ways():
    """Messages of Service Discovery on two ways more than there is room for; the first and the last begin again."""
    nodes = [(A[0] + number, A[1]) for number in range(LIMIT + 2)]
    first = [crowds.discovery(node, crowds.GROUP, 5, []) for node in nodes]
    second = [1 if number % LIMIT < 2 else 6 for number in range(len(nodes))]
    return first + [crowds.discovery(node, crowds.GROUP, session, []) for node, session in zip(nodes, second)]


def calls():
    """Two REQUESTs more than may wait. Then ten are answered, and so is one that was left out. Twelve more find room for
    ten, and are answered."""
    def answered(numbers, time):
        return crowds.of_messages(SERVER, CLIENT, [crowds.header_of(wire.RESPONSE, number) for number in numbers], time)

    more = range(WAITING + 2, WAITING + 14)
    return (crowds.offered() + crowds.asked(range(WAITING + 2)) + answered([*range(10), WAITING + 1], 64000)
            + crowds.asked(more, 65000) + answered(more, 99000))


def end_of(number):
    """An endpoint of `crowds.endpoints`."""
    return CLIENT[0] + number // 60000, 1 + number % 60000


def events_to(numbers):
    """Two events to each of these endpoints."""
    return [wire.Record(1000, SERVER, end_of(number), wire.message(header(1, session, wire.NOTIFICATION), b"\1"))
            for session in (1, 2) for number in numbers]


def endpoints():
    """Endpoints are learnt, two more than there is room for, and events go to the first and to the last."""
    return crowds.endpoints() + events_to([0, BOOK - 1, BOOK, BOOK + 1])


def known_endpoints():
    """As many messages, of which the first names the endpoints of the events that are looked at."""
    first = crowds.discovery(B, A, 1, [crowds.entry(6, 0, end_of(number)) for number in (0, BOOK - 1)])
    others = [crowds.discovery(B, A, session, []) for session in range(2, len(crowds.endpoints()) + 1)]
    return [first, *others] + events_to([0, BOOK - 1])


def gaps(room=BOOK // 64 + 2):
    """Events that skip 64 sessions each, all at one moment: two events more than there is room for. With less room, the
    last ones skip none."""
    headers = [wire.Header(1, number, 0, session, 1, wire.NOTIFICATION, 0) for number in range(BOOK // 64 + 2)
               for session in (1, 66 if number < room else 2)]
    return crowds.offered() + crowds.of_messages(SERVER, CLIENT, headers) + at_last()


def known_gaps():
    return gaps(BOOK // 64)


def sessions(last=1):
    """Messages of Service Discovery of two pairs more than are held; the first and the last begin again."""
    nodes = [(A[0] + number, A[1]) for number in range(BOOK + 2)]
    first = [crowds.discovery(node, crowds.GROUP, 5, []) for node in nodes]
    return first + [crowds.discovery(nodes[0], crowds.GROUP, 1, []), crowds.discovery(nodes[-1], crowds.GROUP, last, [])]


def known_sessions():
    return sessions(6)


def flows(last=9):
    """Events of two flows more than are held, and then one skips sessions: since flows were left out, it is not judged."""
    headers = [wire.Header(1 + number // BOOK, number % BOOK, 0, 1, 1, wire.NOTIFICATION, 0) for number in range(BOOK + 2)]
    found = crowds.offered() + crowds.of_messages(SERVER, CLIENT, headers)
    return found + crowds.of_messages(SERVER, CLIENT, [headers[0]._replace(session=last)], 1000) + at_last()


def known_flows():
    return flows(2)


def receivers(last=9):
    """An event goes to two receivers more than are known, and then skips sessions at the first."""
    def event(number, session, time=0):
        message = wire.message(wire.Header(1, 1, 0, session, 1, wire.NOTIFICATION, 0), b"")
        return wire.Record(time, SERVER, (CLIENT[0] + number, CLIENT[1]), message)

    many = [event(number, 1) for number in range(crowds.RECEIVERS + 2)]
    return crowds.offered() + many + [event(0, last, 2000)] + at_last()


def known_receivers():
    return receivers(2)


def late_gaps():
    """An event skips a session, which is told as lost when the event itself no longer counts."""
    headers = [header(1, session, wire.NOTIFICATION) for session in (1, 3)]
    return crowds.offered() + crowds.of_messages(SERVER, CLIENT, headers) + at_last()


LAST_NODE = wire.endpoint_text((A[0] + BOOK + 1, 0)).partition(":")[0]
ENDS = f"{wire.endpoint_text(A).partition(':')[0]},{LAST_NODE}"
# What makes the recording, what makes that of the model, words of the call, and the names that are told as full.
CROWDS = {
    "methods": (methods, methods, [], ["methods"]),
    "events": (events, events, [], ["events"]),
    "ways": (ways, ways, [], ["discovery"]),
    "calls": (calls, calls, [], ["calls"]),
    "endpoints": (endpoints, known_endpoints, [], ["endpoints"]),
    "gaps": (gaps, known_gaps, [], ["gaps"]),
    "sessions": (sessions, known_sessions, ["--address", ENDS], ["reboots"]),
    "flows": (flows, known_flows, ["--service", "0001.0000,0002"], ["gaps"]),
    "receivers": (receivers, known_receivers, [], ["gaps"]),
    "late gaps": (late_gaps, late_gaps, ["--from", "0.05"], []),
}
