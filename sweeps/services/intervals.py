"""What `someipctl services` has to print of a recording, told from docs/FORMATS.md and docs/AUDIT.md and not from the
sources. It looks at each offer and each subscription apart, and goes over all that was seen for each.

    intervals.py [--service IDS] [--address ADDRESSES] [--from TIME] [--until TIME] [--json] RECORDING
"""
import json
import sys
from pathlib import Path
from typing import NamedTuple, Optional

sys.path.insert(0, str(Path(__file__).resolve().parents[1] / "audit"))
import model  # noqa: E402
import wire  # noqa: E402
from seen import ACK, OFFER, SUBSCRIBE  # noqa: E402

OFFERS, SUBSCRIPTIONS = 0, 1


class Asked(NamedTuple):
    """Which lines are asked for."""
    services: Optional[list] = None
    addresses: Optional[list] = None
    first: Optional[int] = None
    last: Optional[int] = None
    is_json: bool = False


class Interval(NamedTuple):
    """An interval: where its line stands, its key, what stood, and its moments."""
    order: tuple
    key: tuple
    value: tuple
    since: int
    until: int
    why: str


def asked_of(words):
    asked, words = Asked(), list(words)
    while words:
        word = words.pop(0)
        if word == "--json":
            asked = asked._replace(is_json=True)
        elif word == "--service":
            asked = asked._replace(services=[int(part, 16) for part in words.pop(0).split(",")])
        elif word == "--address":
            asked = asked._replace(addresses=[wire.address(part) for part in words.pop(0).split(",")])
        elif word in ("--from", "--until"):
            seconds, _, fraction = words.pop(0).partition(".")
            moment = int(seconds) * 10**9 + int(fraction.ljust(9, "0"))
            asked = asked._replace(first=moment) if word == "--from" else asked._replace(last=moment)
        else:
            raise ValueError(word)
    return asked


# ---- What is seen of a key

def offer_key(seen):
    entry = seen.value
    return entry.service, entry.instance, entry.major, seen.sender


def changes_of_offer(audit, key):
    """The changes of an offer: place, moment, and a value with its TTL, or why it ends."""
    for seen in audit.seen:
        if seen in audit.reboots and seen.sender == key[3]:
            yield seen, "reboot", None
        if seen.what == "entry" and seen.value.kind == OFFER and offer_key(seen) == key:
            if seen.value.ttl == 0:
                yield seen, "stopped", None
            elif seen.value.endpoint is not None:
                yield seen, (seen.value.minor, seen.value.endpoint), seen.value.ttl


def subscription_key(seen):
    entry = seen.value
    return (entry.service, entry.instance, entry.major, seen.receiver, entry.group, seen.sender, entry.counter,
            entry.endpoint)


def is_answer(seen, key):
    entry = seen.value
    asked = (entry.service, entry.instance, entry.major, seen.sender, entry.group, seen.receiver, entry.counter)
    return entry.kind == ACK and asked == key[:7]


def changes_of_subscription(audit, key):
    for seen in audit.seen:
        if seen in audit.reboots and seen.sender in (key[3], key[5]):
            yield seen, "reboot", None
        if seen.what != "entry":
            continue
        entry = seen.value
        if entry.kind == OFFER and entry.ttl == 0 and offer_key(seen) == key[:4]:
            yield seen, "offer", None
        elif entry.kind == SUBSCRIBE and entry.endpoint is not None and subscription_key(seen) == key:
            yield (seen, "stopped", None) if entry.ttl == 0 else (seen, (), entry.ttl)
        elif is_answer(seen, key):
            yield (seen, "refused", None) if entry.ttl == 0 else (seen, "goes on", entry.ttl)


# ---- The intervals of a key

def deadline_of(moment, ttl):
    return None if ttl == wire.FOREVER else moment + 1000 * ttl


def intervals_of(audit, book, key, changes):
    """What stood under a key, one interval after the other."""
    stood = None
    for seen, what, ttl in changes:
        if stood and stood[2] is not None and stood[2] <= seen.moment:
            yield expired(audit, book, key, stood)
            stood = None
        order = (seen.datagram.number, 1, seen.place, book, key)
        if what == "goes on":
            stood = stood and (stood[0], stood[1], deadline_of(seen.moment, ttl))
        elif ttl is None:
            if stood:
                yield Interval(order, key, stood[0], stood[1], seen.moment, what)
            stood = None
        else:
            if stood and stood[0] != what:
                yield Interval(order, key, stood[0], stood[1], seen.moment, "moved")
                stood = None
            stood = (what, stood[1] if stood else seen.moment, deadline_of(seen.moment, ttl))
    if stood:
        last = audit.datagrams[-1].moment
        if stood[2] is not None and stood[2] <= last:
            yield expired(audit, book, key, stood)
        else:
            yield Interval((sys.maxsize, book, key), key, stood[0], stood[1], last, "open")


def expired(audit, book, key, stood):
    """It ends before the first datagram whose moment has come to its deadline."""
    deadline = stood[2]
    number = next(one.number for one in audit.datagrams if one.moment >= deadline)
    return Interval((number, 0, deadline, book, key), key, stood[0], stood[1], deadline, "expired")


def all_intervals(audit):
    entries = [seen for seen in audit.seen if seen.what == "entry"]
    offers = {offer_key(seen) for seen in entries if seen.value.kind == OFFER}
    asks = [seen for seen in entries if seen.value.kind == SUBSCRIBE and seen.value.endpoint is not None]
    found = []
    for key in offers:
        found += intervals_of(audit, OFFERS, key, changes_of_offer(audit, key))
    for key in {subscription_key(seen) for seen in asks}:
        found += intervals_of(audit, SUBSCRIPTIONS, key, changes_of_subscription(audit, key))
    return sorted(found, key=lambda one: one.order)


# ---- Lines

def is_asked(asked, one):
    ends = [one.key[3], one.value[1][0]] if one.value else [one.key[3], one.key[5], one.key[7][0]]
    return ((asked.services is None or one.key[0] in asked.services)
            and (asked.addresses is None or any(end in asked.addresses for end in ends))
            and (asked.first is None or asked.first <= one.until * 10**6)
            and (asked.last is None or one.since * 10**6 < asked.last))


def time_text(moment):
    return f"{moment // 1000}.{moment % 1000:03d}000000"


def address_text(address):
    return ".".join(map(str, address.to_bytes(4, "big")))


def parts_of(one):
    """The parts of a line: what stands before each, its key and what it says."""
    service, instance, major, node = one.key[:4]
    head = [("", "service", f"{service:04x}"), (".", "instance", f"{instance:04x}"), (" major ", "major", f"{major:02x}")]
    if one.value:
        head += [(" minor ", "minor", one.value[0]), (" ", "endpoint", wire.endpoint_text(one.value[1]))]
    else:
        head += [(" group ", "group", f"{one.key[4]:04x}"), (" ", "endpoint", wire.endpoint_text(one.key[7])),
                 (" at ", "server", address_text(node))]
    return head + [(" from ", "since", time_text(one.since)), (" until ", "until", time_text(one.until)), (" ", "why", one.why)]


def line_of(one, is_json):
    kind = "offer" if one.value else "subscription"
    if is_json:
        members = {"kind": kind} | {key: said for _, key, said in parts_of(one)}
        return json.dumps(members, separators=(",", ":")) + "\n"
    return kind + " " + "".join(f"{lead}{said}" for lead, _, said in parts_of(one)) + "\n"


def told(data, asked):
    """What is printed of the bytes of a recording."""
    audit = model.Audit(wire.records_of(data), model.Rules())
    return "".join(line_of(one, asked.is_json) for one in all_intervals(audit) if is_asked(asked, one))


if __name__ == "__main__":
    print(told(Path(sys.argv[-1]).read_bytes(), asked_of(sys.argv[1:-1])), end="")
