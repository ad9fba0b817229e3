"""Recordings that fill one book of an audit each, with as many keys as are asked for, and then hit it as often where a
hit concerns many of them: an event to each receiver of a source, an entry that disturbs flows, a reboot, and so on. Some
fill the tables of `stats`, of which one holds as many keys, and the others a sixteenth.

Between two hits something comes that the hit undoes, so that no hit finds all done by the one before."""
import os
import sys

sys.path.insert(0, os.path.join(os.path.dirname(os.path.abspath(__file__)), "..", "audit"))
import wire  # noqa: E402

SECOND = 10**9
# From then on events to nobody are told.
SETTLED = 20 * SECOND
SERVER, CLIENT = (wire.address("192.168.0.1"), 30509), (wire.address("192.168.0.2"), 40001)
A, B, GROUP = ((wire.address(host), wire.DISCOVERY_PORT) for host in ("192.168.0.1", "192.168.0.2", "239.0.0.1"))
FIRST = wire.address("10.0.0.0")
FOREVER = wire.FOREVER


def node(number, port=wire.DISCOVERY_PORT):
    """An endpoint of a node of its own."""
    return FIRST + number, port


def entry(kind, number, endpoint=None, ttl=FOREVER):
    """An entry whose service and instance are those of a number."""
    return wire.Entry(kind, number // 256, number % 256, 1, ttl, 0, 1, endpoint)


def discovery(source, destination, session, entries=(), flags=0xC0, time=0):
    return wire.Record(time, source, destination, wire.discovery_message(session, flags, list(entries)))


def offered():
    """An Offer, by which datagrams of the server are looked at."""
    return [discovery(A, GROUP, 1, [entry(1, 0, SERVER)])]


def event(session, service=1, event_id=0x8001):
    return wire.message(wire.Header(service, event_id, 0, session, 1, wire.NOTIFICATION, 0), b"")


def batches(things, size):
    return [things[at:at + size] for at in range(0, len(things), size)]


def joined(source, destination, texts, time=0):
    """Datagrams of as many messages as they hold."""
    return [wire.Record(time, source, destination, b"".join(some)) for some in batches(texts, 2000)]


def of_flows(count, session):
    """So many events, each of its own Event ID and service."""
    return joined(SERVER, CLIENT, [event(session, 1 + number // 256, number % 256) for number in range(count)])


# ---- Events

def event_receivers(count):
    """One event to many receivers, twice."""
    return offered() + [wire.Record(0, SERVER, node(number, 40000), event(session))
                        for session in (1, 2) for number in range(count)]


def of_one_service(count):
    """So many flows of one service, of events of as many endpoints of its server as need be."""
    return [wire.Record(0, (SERVER[0], SERVER[1] + number // 32768), CLIENT, event(1, 1, 0x8000 + number % 32768))
            for number in range(count)]


def changes(count):
    """Subscribes and StopSubscribes of one subscription to that service, in turn: each begins it, or ends it."""
    return [wire.Entry(6, 1, 1, 1, 0 if number % 2 else FOREVER, 0, 1, CLIENT) for number in range(count)]


def event_changes(count):
    """Events of a server, and then a subscription to their service that begins and ends, an event between two."""
    found = [discovery(A, GROUP, 1, [entry(1, 0, CLIENT)])] + of_one_service(count)
    for number, change in enumerate(changes(count)):
        found.append(discovery(B, A, 1 + number % 60000, [change], 0x40))
        found.append(wire.Record(0, SERVER, CLIENT, event(2, 1, 0x8000 + number % 32768)))
    return found


def event_changes_at_once(count):
    """The same, with all changes in few datagrams, and no event between them."""
    found = [discovery(A, GROUP, 1, [entry(1, 0, CLIENT)])] + of_one_service(count)
    for session, some in enumerate(batches(changes(count), 1000), 1):
        found.append(discovery(B, A, session, some))
    return found


def event_withdrawals(count):
    """Events of a server, and then StopOffers of their service, an event between two."""
    found = offered() + joined(SERVER, CLIENT, [event(1, 1 + number // 65536, number % 65536) for number in range(count)])
    for number in range(count):
        found.append(discovery(A, GROUP, 2 + number % 60000, [wire.Entry(1, 1, 9, 1, 0, 0, 0, None)], 0x40))
        found.append(wire.Record(0, SERVER, CLIENT, event(2, 1, number % 65536)))
    return found


# ---- Reboots, each of which concerns one key

def reboots(count, fill=None, destination=GROUP):
    """Each of many nodes sends a message, and then begins again. What it fills a book with is in the first message."""
    first = [discovery(node(number), destination, 100, fill(number) if fill else ()) for number in range(count)]
    return first + [discovery(node(number), destination, 1) for number in range(count)]


def reboots_of_offers(count):
    return reboots(count, lambda number: [entry(1, number, node(number, 30509))])


def reboots_of_subscribes(count):
    """Subscribes that wait, of which none stands, since they have no endpoint."""
    return reboots(count, lambda number: [entry(6, 0)], A)


def reboots_of_clients(count):
    return reboots(count, lambda number: [entry(6, 0, node(number, 40000))], A)


def reboots_of_servers(count):
    """One client subscribes at many nodes, which begin again."""
    first = [discovery(node(number), GROUP, 100) for number in range(count)]
    first += [discovery(B, node(number), 1, [entry(6, 0, CLIENT)]) for number in range(count)]
    return first + [discovery(node(number), GROUP, 1) for number in range(count)]


def reboots_of_senders(count):
    """Flows from many nodes to one."""
    found = [discovery(A, GROUP, 1, [entry(1, 0, CLIENT)])]
    for number in range(count):
        found.append(discovery(node(number), GROUP, 100))
        found.append(wire.Record(0, node(number, 30509), CLIENT, event(1)))
    return found + [discovery(node(number), GROUP, 1) for number in range(count)]


def reboots_of_gaps(count):
    """Flows from many nodes to one, of each of which a session is missing when its node begins again."""
    found = [discovery(A, GROUP, 1, [entry(1, 0, CLIENT)])]
    for number in range(count):
        found.append(discovery(node(number), GROUP, 100))
        found += [wire.Record(0, node(number, 30509), CLIENT, event(session)) for session in (1, 3)]
    return found + [discovery(node(number), GROUP, 1) for number in range(count)]


def reboots_of_receivers(count):
    """Flows from one node to many, each of an event of its own."""
    found = offered()
    for number in range(count):
        found.append(discovery(node(number), GROUP, 100))
        found.append(wire.Record(0, SERVER, node(number, 40000), event(1, 1 + number // 256, number % 256)))
    return found + [discovery(node(number), GROUP, 1) for number in range(count)]


# ---- Subscriptions

def subscribed(count):
    """One client subscribes many endpoints of its own, each by a subscription."""
    ends = [(B[0], 1 + number % 60000) for number in range(count)]
    found = [entry(6, number, end) for number, end in enumerate(ends)]
    return [discovery(B, A, session, some) for session, some in enumerate(batches(found, 200), 1)], ends


def subscribed_apart(count):
    found = [discovery(node(number), A, 1, [wire.Entry(6, 1, 1, 1, FOREVER, 0, 1, node(number, 40000))])
             for number in range(count)]
    return found, [node(number, 40000) for number in range(count)]


def events_to_subscriptions(count):
    """An event to each endpoint that is subscribed, and a StopSubscribe of none between two."""
    found, ends = subscribed_apart(count)
    found = offered() + found
    for number, end in enumerate(ends):
        found.append(wire.Record(SETTLED, SERVER, end, event(0)))
        found.append(discovery(B, A, 1 + number % 60000, [wire.Entry(6, 9, 9, 1, 0, 0, 1, CLIENT)], 0x40, SETTLED))
    return found


def events_to_nobody(count):
    """Events to endpoints that are not subscribed, while many others are: each is told."""
    found, _ = subscribed_apart(count)
    found = offered() + found
    return found + [wire.Record(SETTLED, SERVER, node(number, 50000), event(0)) for number in range(count)]


def subscribes_after_told(count):
    """Many events are told, and then Subscribes come, each for one of them."""
    found = offered()
    found += [wire.Record(SETTLED, SERVER, node(number, 40000), event(0)) for number in range(count)]
    return found + [discovery(node(number), A, 1, [wire.Entry(6, 1, 1, 1, FOREVER, 0, 1, node(number, 40000))], time=SETTLED)
                    for number in range(count)]


def withdrawals_of_subscriptions(count):
    """Many subscriptions to offers, each of which is withdrawn."""
    found, _ = subscribed(count)
    return found + [discovery(A, GROUP, 1 + number % 60000, [entry(1, number, None, 0)], 0x40) for number in range(count)]


def stops_of_subscriptions(count):
    """One endpoint is subscribed to many instances of a service, and then not, one by one, with an event between two."""
    def asked(number, ttl):
        return wire.Entry(6, 1, number % 65536, 1, ttl, 0, 1, CLIENT)

    found = offered()
    for session, some in enumerate(batches([asked(number, FOREVER) for number in range(count)], 200), 1):
        found.append(discovery(B, A, session, some))
    for number in range(count):
        found.append(discovery(B, A, 1000 + number % 60000, [asked(number, 0)], 0x40, SETTLED))
        found.append(wire.Record(SETTLED, SERVER, CLIENT, event(0)))
    return found


def expiring(count):
    """Many subscriptions, each of which expires at a moment of its own, at which an event comes to its endpoint."""
    found = offered()
    for number in range(count):
        found.append(discovery(node(number), A, 1, [wire.Entry(6, 1, 1, 1, 100, 0, 1, node(number, 40000))],
                               0xC0, number * 10**6))
    return found + [wire.Record(100 * SECOND + number * 10**6, SERVER, node(number, 40000), event(0))
                    for number in range(count)]


# ---- Events that come in cycles

def silent_events(count):
    """Many events to one endpoint that is subscribed, none of which comes again."""
    found = offered() + [discovery(B, A, 1, [wire.Entry(6, 1, 1, 1, FOREVER, 0, 1, CLIENT)])]
    found += joined(SERVER, CLIENT, [event(1, 1, number) for number in range(count)])
    return found + [wire.Record(10 * SECOND, SERVER, CLIENT, event(1, 2))]


def stops_of_watches(count):
    """An event to each of many endpoints that are subscribed, and then a StopSubscribe of each."""
    found, ends = subscribed_apart(count)
    found = offered() + found + [wire.Record(0, SERVER, end, event(1)) for end in ends]
    return found + [discovery(node(number), A, 2, [wire.Entry(6, 1, 1, 1, 0, 0, 1, end)], 0x40)
                    for number, end in enumerate(ends)]


# ---- Others

def calls(count):
    """Nearly as many calls, each answered, and then as many again, each a millisecond later. The first are so many that of
    the whole and of the half some have to leave for the others."""
    def header(kind, number):
        return wire.Header(1, 1, number % 65536, 1 + number // 65536, 1, kind, 0)

    found = offered()
    for some in batches(range(count * 15 // 16), 2000):
        found += joined(CLIENT, SERVER, [wire.message(header(wire.REQUEST, number), b"") for number in some])
        found += joined(SERVER, CLIENT, [wire.message(header(wire.RESPONSE, number), b"") for number in some])
    return found + [wire.Record(number * 10**6, CLIENT, SERVER, wire.message(header(wire.REQUEST, count + number), b""))
                    for number in range(count)]


def gaps(count):
    """Events that skip a session each, and come all later."""
    found = offered() + of_flows(count, 1) + of_flows(count, 3)
    return found + of_flows(count, 2)


def ways(count):
    answer = wire.message(wire.Header(1, 0, 0, 1, 1, wire.RESPONSE, 0), b"")
    return offered() + [wire.Record(0, SERVER, node(number, 9), answer) for number in list(range(count)) * 2]


def offers(count):
    """Many offers, which are renewed, and then stopped."""
    found = []
    for ttl in (FOREVER, 3, 0):
        found += [entry(1, number, SERVER, ttl) for number in range(count)]
    return [discovery(A, GROUP, session, some) for session, some in enumerate(batches(found, 2000), 1)]


# ---- Figures

SHARE = 16


def of_calls(kind, numbers, header, time):
    """Datagrams of REQUESTs, or of answers."""
    source, destination = (CLIENT, SERVER) if kind == wire.REQUEST else (SERVER, CLIENT)
    texts = [wire.message(header(number)._replace(kind=kind), b"") for number in numbers]
    return joined(source, destination, texts, time)


def figures_of_calls(count):
    """Calls of many methods wait, and then each is answered, at times far apart."""
    def header(number):
        return wire.Header(1, number % (count // SHARE), number // 65536, number % 65536, 1, wire.REQUEST, 0)

    found = offered() + of_calls(wire.REQUEST, range(count), header, 0)
    for at, some in enumerate(batches(range(count), 2000)):
        found += of_calls(wire.RESPONSE, some, header, (at + 1) * SECOND)
    return found


def figures_of_events(count):
    """Many events, each with cycles of all lengths."""
    found = offered()
    for at in range(2 * SHARE):
        texts = [event(1 + at, 1, number) for number in range(count // SHARE)]
        found += joined(SERVER, CLIENT, texts, (1 << at) * 1000)
    return found


def figures_of_ways(count):
    """Many nodes send messages of Service Discovery, and begin again each time."""
    return [discovery(node(number), GROUP, 1) for _ in range(SHARE) for number in range(count // SHARE)]


def named(*makers):
    return {make.__name__.replace("_", " "): make for make in makers}


BOOKS = named(
    event_receivers, event_changes, event_changes_at_once, event_withdrawals, reboots, reboots_of_offers,
    reboots_of_subscribes, reboots_of_clients, reboots_of_servers, reboots_of_senders, reboots_of_gaps,
    reboots_of_receivers,
    events_to_subscriptions, events_to_nobody, subscribes_after_told, withdrawals_of_subscriptions, stops_of_subscriptions,
    expiring, silent_events, stops_of_watches, calls, gaps, ways, offers, figures_of_calls, figures_of_events,
    figures_of_ways)

# Which numbers `stats` has to tell of those that fill its tables: their sum says that nothing was left out.
FIGURES = {"figures of calls": "answers", "figures of events": "count", "figures of ways": "reboots"}

# The rules by which some are audited.
RULES = dict.fromkeys(("silent events", "stops of watches"), "[[rule]]\ncycle_ms = 1000\n")

# What is told of each key, or of nearly each: by this it is seen that the hits are hits.
TOLD = {
    "reboots": "reboot", "reboots of offers": "reboot", "reboots of subscribes": "reboot", "reboots of clients": "reboot",
    "reboots of servers": "reboot", "reboots of senders": "reboot", "reboots of receivers": "reboot", "reboots of gaps": "reboot",
    "events to nobody": "event unsubscribed", "subscribes after told": "event unsubscribed",
    "expiring": "event unsubscribed", "calls": "unanswered", "gaps": "event overtaken",
    "silent events": "silent",
}
