"""Networks that are drawn: servers that offer services, receivers that subscribe and renew, and events in cycles, of which
some are lost. Each knows what it sent, what was lost, and what an audit has to tell of that. Nothing of this is told from
the model of the audit.

An event goes to one receiver, or its copies to all are lost alike. It is lost between two events that came, while nothing
began or ended at its service for those who got it."""
import sys
from bisect import bisect_left
from pathlib import Path
from typing import NamedTuple, Optional

sys.path.append(str(Path(__file__).resolve().parents[1] / "audit"))
import wire  # noqa: E402

OFFER, SUBSCRIBE, ACK = 1, 6, 7
FLAGS = 0xC0
MILLISECOND, SECOND = 10**6, 10**9
BEGIN = 1700000000 * SECOND
OVERTAKE = 100
MOST_WAITING = 64
GROUP = wire.address("239.0.0.1")
FIRST_SERVER, FIRST_RECEIVER = wire.address("192.168.0.1"), wire.address("192.168.0.101")
# How long networks are looked at, in seconds, and the cycles of their events, in milliseconds.
SPANS = ((5, (10, 20, 50, 100, 200)), (15, (50, 100, 200, 500, 1000)), (40, (500, 1000, 2000, 5000)))
# TTLs of subscriptions in seconds, and about how often they are renewed, in milliseconds.
RENEWALS = ((3, 1000), (3, 1000), (3, 250), (3, 2500), (5, 2000), (wire.FOREVER, 1000), (wire.FOREVER, 60000))
# How many events are lost one after the other.
RUNS = (*[1] * 8, 2, 2, 3, 5, 64, 65, 90)
LEAST_LOSSES = 8


class Service(NamedTuple):
    """A service at one port of its server; one over TCP alone sends nothing that is recorded."""
    service: int
    host: int
    port: int
    is_tcp: bool

    def end(self):
        return self.host, self.port


class Sent(NamedTuple):
    """A datagram that was sent, and which event it has, if any: the number of its cycle, and its own."""
    time: int
    source: tuple
    destination: tuple
    payload: bytes
    event: Optional[tuple] = None


class Cycle(NamedTuple):
    """An event that comes in cycles, with the session of its first one, and when each copy of each one was sent, by
    receiver."""
    service: Service
    event: int
    millis: int
    first: int
    copies: list

    def session(self, number):
        return (self.first + number - 1) % 0xFFFF + 1


class Lost(NamedTuple):
    """So many events of a cycle that were lost, from this one on."""
    cycle: int
    first: int
    count: int


class Tap(NamedTuple):
    """Whose cable is tapped: all, or that of a host."""
    name: str
    host: Optional[int] = None

    def sees(self, sent):
        ends = (sent.source[0], sent.destination[0])
        return self.host is None or self.host in ends or sent.destination[0] == GROUP


class Network:
    """A network that was drawn: `some` is the generator."""

    def __init__(self, some):
        self.some = some
        self.seconds, self.cycles_drawn = some.choice(SPANS)
        self.end = self.seconds * SECOND
        self.discovery, self.changes, self.sent = [], {}, []
        self.receivers = [FIRST_RECEIVER + at for at in range(some.randrange(1, 6))]
        self.services = [self.service(at) for at in range(some.choice((1, 1, 2, 3)))]
        self.cycles = [cycle for service in self.services for cycle in self.events(service)]
        self.send_discovery()
        for at, cycle in enumerate(self.cycles):
            self.send_events(at, cycle)
        self.sent.sort(key=lambda sent: sent.time)
        self.packets = [(BEGIN + sent.time, wire.packet(wire.Record(*sent[:4]))) for sent in self.sent]
        self.lost = self.losses()

    def within(self, least, most):
        """A time of drawn milliseconds, and of a drawn part of one."""
        return self.some.randrange(least * MILLISECOND, most * MILLISECOND)

    # ---- Offers

    def service(self, at):
        is_tcp = at > 0 and self.some.random() < 0.2
        service = Service(0x1000 + at, FIRST_SERVER + self.some.choice((0, 0, 1)), 30501 + at, is_tcp)
        pause, time = self.within(300, 1400), self.within(0, 50)
        while time < self.end:
            self.tell(time, service.host, GROUP, self.entry(OFFER, service, 3), service.end(), service.is_tcp)
            time += pause + self.within(0, 20)
        self.tell(self.end, service.host, GROUP, self.entry(OFFER, service, 3), service.end(), service.is_tcp)
        return service

    def entry(self, kind, service, ttl, group=0):
        return wire.Entry(kind, service.service, 1, 1, ttl, 0, group, None)

    def tell(self, time, source, destination, entry, end=None, is_tcp=False):
        """Has a message of Service Discovery sent, which names this endpoint, if any."""
        options = [] if end is None else [wire.endpoint_option(end, wire.TCP if is_tcp else wire.UDP)]
        self.discovery.append((time, source, destination, entry, options))

    def send_discovery(self):
        """Sends the messages of Service Discovery. A sender counts them apart for each destination."""
        sessions = {}
        for time, source, destination, entry, options in sorted(self.discovery, key=lambda told: told[0]):
            session = sessions[source, destination] = sessions.get((source, destination), 0) + 1
            message = wire.message_of_one(session, FLAGS, entry, options)
            self.sent.append(Sent(time, (source, 30490), (destination, 30490), message))

    # ---- Subscriptions

    def subscribe(self, service, group, receiver):
        """When a subscription of a receiver to a group stands: times between which it gets events."""
        ttl, pause = self.some.choice(RENEWALS)
        ends_early = self.some.random() < 0.3
        end = self.within(1000, 1000 * self.seconds) if ends_early else 2 * self.end
        found = [self.stand(service, group, receiver, (self.within(60, 800), end, ttl, pause))]
        if ends_early:
            begin = found[0][1] + self.within(100, 3000)
            found.append(self.stand(service, group, receiver, (begin, 2 * self.end, ttl, pause)))
        return found

    def stand(self, service, group, receiver, times):
        """One time that it stands: it is renewed up to its end, at which a StopSubscribe ends it, or its TTL runs out."""
        begin, end, ttl, pause = times
        renewed, end = [begin], max(end, begin + 10 * MILLISECOND)
        while renewed[-1] + pause * 1.1 * MILLISECOND < min(end, self.end) - 5 * MILLISECOND:
            renewed.append(renewed[-1] + self.within(pause * 9 // 10, pause * 11 // 10))
        for time in renewed:
            self.ask(time, service, group, receiver, ttl)
        changed = self.changes.setdefault((receiver, service.service), [])
        changed.append(begin)
        if ttl == wire.FOREVER or self.some.random() < 0.5 or end > self.end:
            if end < self.end:
                self.ask(end, service, group, receiver, 0)
            changed.append(end)
            return begin, end
        end = renewed[-1] + ttl * SECOND
        changed += [end, end + 10 * MILLISECOND]
        return begin, end

    def ask(self, time, service, group, receiver, ttl):
        """Has a Subscribe sent, and its Ack, or a StopSubscribe."""
        if time >= self.end:
            return
        end = (receiver, self.port(receiver))
        self.tell(time, receiver, service.host, self.entry(SUBSCRIBE, service, ttl, group), end, service.is_tcp)
        if ttl:
            self.tell(time + self.within(1, 5), service.host, receiver, self.entry(ACK, service, ttl, group))

    @staticmethod
    def port(receiver):
        return 40001 + receiver - FIRST_RECEIVER

    # ---- Events

    def events(self, service):
        """The cycles of a service: each event has a group of its own, and one receiver, or several."""
        found = []
        for at in range(self.some.choice((1, 1, 2))):
            count = self.some.choice((1, self.some.randrange(1, len(self.receivers) + 1)))
            chosen = sorted(self.some.sample(self.receivers, count))
            stands = {receiver: self.subscribe(service, at + 1, receiver) for receiver in chosen}
            if not service.is_tcp:
                found.append(self.cycle(service, 0x8001 + at, stands))
        return found

    def cycle(self, service, event, stands):
        millis, time, copies = self.some.choice(self.cycles_drawn), self.within(0, 500), []
        while time < self.end:
            copies.append(self.copies(time, stands))
            time += millis * MILLISECOND + self.within(-millis * 50, millis * 50) // 1000
        return Cycle(service, event, millis, self.some.choice((1, 1, 0xFFF0)), copies)

    @staticmethod
    def copies(time, stands):
        """When the copies of one event are sent: to those whose subscription stands then."""
        found = {}
        for at, (receiver, spans) in enumerate(stands.items()):
            sent = time + at * 20000
            if any(begin < sent < end for begin, end in spans):
                found[receiver] = sent
        return found

    def send_events(self, at, cycle):
        for number, copies in enumerate(cycle.copies):
            header = wire.Header(cycle.service.service, cycle.event, 0, cycle.session(number), 1, wire.NOTIFICATION, 0)
            message = wire.message(header, b"\1")
            for receiver, time in copies.items():
                self.sent.append(Sent(time, cycle.service.end(), (receiver, self.port(receiver)), message, (at, number)))

    # ---- What is lost

    def losses(self):
        usual, found = self.some.choice((0.01, 0.05, 0.2)), []
        for at, cycle in enumerate(self.cycles):
            number, share = 1, max(usual, LEAST_LOSSES / len(cycle.copies))
            while number < len(cycle.copies):
                lost = Lost(at, number, self.some.choice(RUNS))
                is_lost = self.some.random() < share and self.may_lose(cycle, lost)
                found += [lost] if is_lost else []
                number += lost.count + 1 if is_lost else 1
        return found

    def may_lose(self, cycle, lost):
        """Whether all before, between and behind went to the same receivers, for whom nothing began or ended meanwhile."""
        copies = cycle.copies[lost.first - 1:lost.first + lost.count + 1]
        receivers = list(copies[0])
        is_same = len(copies) == lost.count + 2 and all(list(each) == receivers for each in copies)
        if not receivers or not is_same or lost.count > MOST_WAITING and len(receivers) > 1:
            return False
        first, last = min(copies[0].values()), max(copies[-1].values())
        changes = [time for receiver in receivers for time in self.changes[receiver, cycle.service.service]]
        is_told = last + 2 * OVERTAKE * MILLISECOND < self.end
        return is_told and not any(first <= time <= last for time in changes)

    def lost_events(self):
        return {(lost.cycle, lost.first + at) for lost in self.lost for at in range(lost.count)}

    # ---- What a tap records, and what has to be told of it

    def taps(self):
        server, client = self.some.choice(self.services).host, self.some.choice(self.receivers)
        return Tap("all"), Tap("server", server), Tap("client", client)

    def seen_by(self, tap, lost):
        """The numbers of the datagrams that a tap records, where these events are lost."""
        return [at for at, sent in enumerate(self.sent) if tap.sees(sent) and sent.event not in lost]

    def recording(self, seen):
        return wire.pcap([self.packets[at] for at in seen], nanoseconds=True)

    def findings(self, seen):
        """The lines of what is told of a recording of these datagrams, in order, and how many events they tell."""
        moments = [self.packets[at][0] // MILLISECOND for at in seen]
        shown = {}
        for place, at in enumerate(seen):
            shown.setdefault(self.sent[at].event, place)
        found, count = [], 0
        for lost in self.lost:
            place = shown.get((lost.cycle, lost.first + lost.count))
            if place is not None:
                count += lost.count
                found += self.gap(lost, moments, place, self.sent[seen[place]])
        return [line for *_, line in sorted(found)], count

    def gap(self, lost, moments, place, shown):
        """The lines of a gap, which this datagram of a recording shows, each behind what gives it its place: the number of
        the datagram, before which it is told or not, its deadline and its key."""
        cycle = self.cycles[lost.cycle]
        sessions = [cycle.session(lost.first + at) for at in range(lost.count)]
        ends = f"{place + 1} {wire.endpoint_text(shown.source)} {wire.endpoint_text(shown.destination)}"
        text = f"{ends} event gap {cycle.service.service:04x}.{cycle.event:04x} session"
        deadline = moments[place] + OVERTAKE
        clock = f"{deadline // 1000}.{deadline % 1000:03}000000"
        key = (*cycle.service.end(), cycle.service.service, cycle.event)
        before = bisect_left(moments, deadline)
        if lost.count > MOST_WAITING:
            run = f"{sessions[0]:04x} to {sessions[-1]:04x}"
            return [(before, 0, deadline, (*key, sessions[0], sessions[-1]), f"{clock} {text} {run}")]
        keys = [(*key, session, session) for session in sessions]
        return [(before, 0, deadline, of, f"{clock} {text} {session:04x}") for of, session in zip(keys, sessions)]


def told(datagrams, lines):
    """All that is printed of a recording of so many datagrams, of which these lines are told."""
    summary = [f"audited {datagrams} datagrams, {datagrams} messages, {len(lines)} findings"]
    summary += [f"event gap {len(lines)}"] if lines else []
    return "".join(f"{line}\n" for line in lines + summary)
