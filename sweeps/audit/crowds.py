"""Recordings in which each table of an audit comes to its limit of 65,536 keys, one for each, two in which answered
calls fill theirs, and one in which an event goes to more receivers than are known. What has to be told of them is known without any book: `full NAME` of the first message that finds no
room, and nothing else."""
import wire
from model import unjudged_of

LIMIT, RECEIVERS, SECOND = 65536, 256, 10**9
SERVER, CLIENT = (wire.address("192.168.0.1"), 30509), (wire.address("192.168.0.2"), 40001)
A, B, GROUP = ((wire.address(host), wire.DISCOVERY_PORT) for host in ("192.168.0.1", "192.168.0.2", "239.0.0.1"))


def entry(kind, number, endpoint=None, ttl=3):
    """An entry whose service and instance are those of a number."""
    return wire.Entry(kind, number // 256, number % 256, 1, ttl, 0, 1, endpoint)


def discovery(source, destination, session, entries):
    return wire.Record(0, source, destination, wire.discovery_message(session, 0xC0, entries))


def batches(things, size):
    return [things[at:at + size] for at in range(0, len(things), size)]


def of_messages(source, destination, headers, time=0):
    """Datagrams of as many messages as they hold."""
    texts = [wire.message(header, b"") for header in headers]
    return [wire.Record(time, source, destination, b"".join(some)) for some in batches(texts, 4000)]


def offered():
    return [discovery(A, GROUP, 1, [entry(1, 0, SERVER)])]


def header_of(kind, number):
    """The header of a call, or of its answer: a session for each number of all clients."""
    return wire.Header(1, 1, number % LIMIT, 1 + number // LIMIT, 1, kind, 0)


def asked(numbers, time=0):
    return of_messages(CLIENT, SERVER, [header_of(wire.REQUEST, number) for number in numbers], time)


def calls():
    return offered() + asked(range(LIMIT + 2))


def answered(time):
    """As many calls as may be known, each of which is answered at once, and at a time as many others and two more."""
    found = offered()
    for numbers in batches(range(LIMIT), 4000):
        found += asked(numbers)
        found += of_messages(SERVER, CLIENT, [header_of(wire.RESPONSE, number) for number in numbers])
    return found + asked(range(LIMIT, 2 * LIMIT + 2), time)


def answered_and_known():
    """An answered call is known for two seconds, so the first one after it finds no room."""
    return answered(2 * SECOND - 10**6)


def answered_and_gone():
    return answered(2 * SECOND)


def events():
    headers = [wire.Header(1 + number // LIMIT, number % LIMIT, 0, 1, 1, wire.NOTIFICATION, 0)
               for number in range(LIMIT + 2)]
    return offered() + of_messages(SERVER, CLIENT, headers)


def event_receivers():
    """One event to more receivers than are known of it."""
    one = wire.message(wire.Header(1, 1, 0, 1, 1, wire.NOTIFICATION, 0), b"")
    return offered() + [wire.Record(0, SERVER, (CLIENT[0] + number, CLIENT[1]), one) for number in range(RECEIVERS + 2)]


def gaps():
    """Events that skip 64 sessions each, all at one moment."""
    headers = [wire.Header(1, number, 0, session, 1, wire.NOTIFICATION, 0)
               for number in range(LIMIT // 64 + 2) for session in (1, 66)]
    return offered() + of_messages(SERVER, CLIENT, headers)


def ways():
    """Answers from one endpoint to more others than ways are counted, before an answer can be one that nobody asked for."""
    answer = wire.message(wire.Header(1, 0, 0, 1, 1, wire.RESPONSE, 0), b"")
    ends = [(CLIENT[0] + number // 60000, 1 + number % 60000) for number in range(LIMIT + 2)]
    return offered() + [wire.Record(0, SERVER, end, answer) for end in ends]


def sessions():
    return [discovery((A[0] + number, A[1]), GROUP, 1, []) for number in range(LIMIT + 2)]


def of_entries(source, destination, entries, size):
    return [discovery(source, destination, session, some) for session, some in enumerate(batches(entries, size), 1)]


def offers():
    return of_entries(A, GROUP, [entry(1, number, SERVER) for number in range(LIMIT + 2)], 4000)


def subscriptions():
    """Subscribes that are stopped at once: they wait all the same, and no subscription stands."""
    found = [entry(6, number, CLIENT, ttl) for number in range(LIMIT + 2) for ttl in (3, 0)]
    return of_entries(B, A, found, 4000)


def receivers():
    """Subscribes that are answered at once, so that none waits."""
    found = []
    for session, numbers in enumerate(batches(range(LIMIT + 2), 4000), 1):
        found.append(discovery(B, A, session, [entry(6, number, CLIENT) for number in numbers]))
        found.append(discovery(A, B, session, [entry(7, number) for number in numbers]))
    return found


def endpoints():
    """Subscribes of one subscription at other endpoints."""
    found = [entry(6, 0, (CLIENT[0] + number // 60000, 1 + number % 60000)) for number in range(LIMIT + 2)]
    return of_entries(B, A, found, 200)


def servers():
    """Offers of one instance of each service at two endpoints, each of which is stopped before the next."""
    found = []
    for number in range(LIMIT + 2):
        served = wire.Entry(1, number % LIMIT, 1, 1, 3, 0, 0, (SERVER[0], SERVER[1] + number // LIMIT))
        found += [served, served._replace(ttl=0, endpoint=None)]
    return of_entries(A, GROUP, found, 4000)


# The table that each fills, what makes the recording, and the number of the datagram that finds no room, counted by hand.
FULL = LIMIT // 4000 + 1
CROWDS = {"calls": ("calls", calls, 1 + FULL), "answered calls": ("calls", answered_and_known, 1 + 2 * FULL + 1),
          "calls after answered ones": ("calls", answered_and_gone, 1 + 2 * FULL + FULL),
          "sessions": ("sessions", sessions, LIMIT + 1), "offers": ("offers", offers, FULL),
          "subscriptions": ("subscriptions", subscriptions, 2 * LIMIT // 4000 + 1),
          "receivers": ("receivers", receivers, 2 * FULL - 1),
          "events": ("events", events, 1 + FULL), "event receivers": ("events", event_receivers, 1 + RECEIVERS + 1), "gaps": ("gaps", gaps, 2), "ways": ("ways", ways, LIMIT + 2),
          "endpoints": ("endpoints", endpoints, LIMIT // 200 + 1), "servers": ("servers", servers, 2 * LIMIT // 4000 + 1)}


def told(table, records, number):
    """What is printed of a crowd in which the datagram with this number finds the table full."""
    messages = sum(len(wire.messages_of(record.payload)[0]) for record in records)
    found = records[number - 1]
    ends = " ".join(map(wire.endpoint_text, found[1:3]))
    return (f"{found.time // SECOND}.{found.time % SECOND:09} {number} {ends} full {table}\n"
            f"audited {len(records)} datagrams, {messages} messages, 1 findings\nfull 1\n" + unjudged_of(records))
