"""What `someipctl stats` has to print of a recording, told from docs/FORMATS.md, docs/AUDIT.md and docs/PROTOCOL.md and not
from the sources. Gaps and reboots are those of the model of `audit`. All times of a row are kept, and sorted at the end.

    figures.py [--ports PORTS] [--learned] [--service SERVICES] [--client C] [--address ADDRESSES] [--from TIME]
               [--until TIME] [--overtake-ms N] [--sessions HOW] [--json] RECORDING
"""
import json
import sys
from pathlib import Path
from typing import NamedTuple, Optional

sys.path.insert(0, str(Path(__file__).resolve().parents[1] / "audit"))
import model  # noqa: E402
import wire  # noqa: E402
from seen import is_discovery  # noqa: E402

LIMIT, WAITING = 4096, 65536
FULL = ("methods", "events", "discovery", "calls", "endpoints", "gaps", "reboots")
SPREAD = ("least", "p50", "p99", "greatest")
DISCOVERY = (0xFFFF, 0x8100)
SECOND = 10**9


class Asked(NamedTuple):
    """What is asked for: what is looked at, what counts, how sessions are judged, and how lines are printed."""
    ports: Optional[list] = None
    is_learning: bool = False
    services: Optional[list] = None
    client: Optional[int] = None
    addresses: Optional[list] = None
    first: Optional[int] = None
    last: Optional[int] = None
    overtake: int = 100
    by_sender: bool = False
    is_json: bool = False

    def counts(self, named, client, datagram, time):
        """Whether a message, a gap or a reboot counts, by the service and the method that it names, its Client ID, the
        endpoints of its datagram, and its time."""
        ends = datagram.source[0], datagram.destination[0]
        return ((self.services is None or any(named[:len(service)] == service for service in self.services))
                and (self.client is None or client == self.client)
                and (self.addresses is None or any(end in self.addresses for end in ends))
                and (self.first is None or time is not None and self.first <= time)
                and (self.last is None or time is not None and time < self.last))


def time_of(text):
    """Nanoseconds of seconds with decimals."""
    seconds, _, fraction = text.partition(".")
    return int(seconds) * SECOND + int(fraction.ljust(9, "0"))


def service_of(text):
    return tuple(int(part, 16) for part in text.split("."))


def parted(read):
    """Reads the parts of a text between commas."""
    return lambda text: [read(part) for part in text.split(",")]


# Each option, what it sets, and how its word is read.
FLAGS = {"--json": "is_json", "--learned": "is_learning"}
VALUES = {
    "--ports": ("ports", parted(int)),
    "--service": ("services", parted(service_of)),
    "--client": ("client", lambda text: int(text, 16)),
    "--address": ("addresses", parted(wire.address)),
    "--from": ("first", time_of),
    "--until": ("last", time_of),
    "--overtake-ms": ("overtake", int),
    "--sessions": ("by_sender", lambda text: text == "sender"),
}


def asked_of(words):
    """What the words of a call ask for."""
    asked, words = {}, list(words)
    while words:
        word = words.pop(0)
        name, read = (FLAGS[word], None) if word in FLAGS else VALUES[word]
        asked[name] = read(words.pop(0)) if read else True
    return Asked(**asked)


# ---- Times

def micros_of(records):
    """The time of each datagram in whole microseconds: an earlier one, or none, counts as the latest before it."""
    found, latest = [], 0
    for record in records:
        latest = latest if record.time is None else max(latest, record.time // 1000)
        found.append(latest)
    return found


def low_end(value):
    """The least value of the bucket of a value: each up to 63 has its own, each power of two from there on is divided into
    32, and the last one has all from 2^32 - 1 on."""
    value = min(value, 2**32 - 1)
    return value if value < 64 else value >> value.bit_length() - 6 << value.bit_length() - 6


def ranked(values, percent):
    """The value at a rank of so many hundredths of all, rounded up."""
    return sorted(values)[-(-percent * len(values) // 100) - 1]


def spread_of(values):
    """LEAST, P50, P99 and GREATEST as they are told, in microseconds."""
    if not values:
        return (None,) * 4
    return (min(values), *(max(low_end(ranked(values, percent)), min(values)) for percent in (50, 99)), max(values))


def millis_text(micros):
    return "-" if micros is None else f"{micros // 1000}.{micros % 1000:03}"


# ---- Rows

class Method:
    """The figures of a method between two endpoints: when the newest REQUEST of each Request ID came, if it has no answer,
    and how many REQUESTs were held."""

    def __init__(self):
        self.calls = self.answers = self.errors = self.held = 0
        self.waiting, self.times = {}, []

    def members(self):
        return [("calls", self.calls), ("answers", self.answers), ("errors", self.errors),
                ("unanswered", self.held - len(self.times)), ("latency", spread_of(self.times))]


class Event:
    def __init__(self):
        self.count = self.bytes = self.gaps = 0
        self.last, self.times = None, []

    def members(self):
        return [("count", self.count), ("bytes", self.bytes), ("cycle", spread_of(self.times)), ("gaps", self.gaps)]


class Way:
    def __init__(self):
        self.messages = self.reboots = 0

    def members(self):
        return [("messages", self.messages), ("reboots", self.reboots)]


class Sessions(model.Audit):
    """The gaps and reboots of an audit, and nothing else of it."""

    def find_all(self):
        self.find_sessions()
        self.put_together()
        self.find_gaps()
        self.findings.sort(key=lambda finding: finding.order)


class Figures:
    """All that counts of a recording, by rows."""

    def __init__(self, records, asked, full=()):
        self.asked, self.full = asked, set(full)
        self.methods, self.events, self.ways = {}, {}, {}
        self.audit = Sessions(records, model.Rules(ports=asked.ports, is_learning=asked.is_learning,
                                                   overtake=asked.overtake, by_sender=asked.by_sender))
        self.micros = micros_of(records)
        self.waiting = 0
        for datagram in self.audit.looked:
            for _, header, payload in wire.messages_of(datagram.payload)[0]:
                if asked.counts(header[:2], header.client, datagram, datagram.time):
                    self.count_message(datagram, header, payload)
        for finding in self.audit.findings:
            self.count_finding(finding)

    def row(self, name, rows, key, make):
        """The row of a key, or None where there is no room for it."""
        if key not in rows:
            if len(rows) == LIMIT:
                self.full.add(name)
                return None
            rows[key] = make()
        return rows[key]

    # ---- Messages

    def count_message(self, datagram, header, payload):
        ends = datagram.source, datagram.destination
        if is_discovery(datagram, header):
            way = self.row("discovery", self.ways, ends, Way)
            if way:
                way.messages += 1
            return
        is_last = True
        if header.kind & wire.TP:
            if len(payload) < 4:
                return
            is_last, payload = not payload[3] & 1, payload[4:]
        now, kind = self.micros[datagram.number - 1], header.kind & ~wire.TP
        if kind == wire.NOTIFICATION:
            self.count_event(header[:2] + ends, now, len(payload), is_last)
        elif is_last and kind in (wire.REQUEST, wire.ONEWAY):
            self.count_call(header[:2] + ends, now, header, kind == wire.REQUEST)
        elif is_last:
            self.count_answer(header[:2] + ends[::-1], now, header, kind == wire.ERROR or header.code > 0)

    def count_event(self, key, now, size, is_last):
        event = self.row("events", self.events, key, Event)
        if not event:
            return
        event.bytes += size
        if is_last:
            event.times += [] if event.last is None else [now - event.last]
            event.last = now
            event.count += 1

    def count_call(self, key, now, header, waits):
        method = self.row("methods", self.methods, key, Method)
        if not method:
            return
        method.calls += 1
        is_new = (header.client, header.session) not in method.waiting
        if waits and is_new and self.waiting == WAITING:
            self.full.add("calls")
        elif waits:
            self.waiting += is_new
            method.held += 1
            method.waiting[header.client, header.session] = now

    def count_answer(self, key, now, header, is_error):
        method = self.row("methods", self.methods, key, Method)
        if not method:
            return
        method.answers += 1
        method.errors += is_error
        asked = method.waiting.pop((header.client, header.session), None)
        if asked is not None:
            self.waiting -= 1
            method.times.append(now - asked)

    # ---- Gaps and reboots

    def count_finding(self, finding):
        """Counts a gap or a reboot by what its line in `audit` names."""
        datagram, time = finding.datagram, None if finding.time == "-" else time_of(finding.time)
        ends = datagram.source, datagram.destination
        if finding.kind == "reboot" and self.asked.counts(DISCOVERY, None, datagram, time):
            way = self.row("discovery", self.ways, ends, Way)
            if way:
                way.reboots += 1
        if finding.kind == "event gap" and self.asked.counts(tuple(finding.ids()), None, datagram, time):
            event = self.row("events", self.events, (*finding.ids(), *ends), Event)
            if event:
                event.gaps += 1

    # ---- Lines

    def rows(self):
        """The rows in order: the words of their kinds, IDs and endpoints, and their figures."""
        for (service, method, *ends), row in sorted(self.methods.items(), key=lambda pair: pair[0]):
            yield ["method", *ids(service, method), *ends_of("client", "server", ends)], row
        for (service, event, *ends), row in sorted(self.events.items(), key=lambda pair: pair[0]):
            yield ["event", *ids(service, event, "event"), *ends_of("from", "to", ends)], row
        for ends, row in sorted(self.ways.items(), key=lambda pair: pair[0]):
            yield ["discovery", *ends_of("from", "to", ends)], row

    def text(self):
        lines = [line_of(words, row.members(), self.asked.is_json) for words, row in self.rows()]
        for name in FULL:
            if name in self.full:
                lines.append(json_text({"kind": "full", "name": name}) if self.asked.is_json else f"full {name}")
        return "".join(f"{line}\n" for line in lines)


def ids(service, method, name="method"):
    return [("service", f"{service:04x}"), (name, f"{method:04x}")]


def ends_of(first, second, ends):
    return list(zip((first, second), map(wire.endpoint_text, ends)))


def json_text(members):
    return json.dumps(members, separators=(",", ":"))


def json_members(name, value):
    """The members of an object that tell a figure."""
    if not isinstance(value, tuple):
        return [(name, value)]
    return zip(SPREAD, (None if micros is None else millis_text(micros) for micros in value))


def line_of(words, members, is_json):
    kind, *keys = words
    if is_json:
        return json_text({"kind": kind} | dict(keys) | dict(pair for member in members for pair in json_members(*member)))
    texts = [value for _, value in keys]
    texts = texts if kind == "discovery" else [".".join(texts[:2]), *texts[2:]]
    for name, value in members:
        texts += [name, *(map(millis_text, value) if isinstance(value, tuple) else [str(value)])]
    return " ".join([kind, *texts])


def told(data, asked):
    """What is printed of the bytes of a recording."""
    return Figures(wire.records_of(data), asked).text()


if __name__ == "__main__":
    print(told(Path(sys.argv[-1]).read_bytes(), asked_of(sys.argv[1:-1])), end="")
