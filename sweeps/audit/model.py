"""What `someipctl audit` has to print of a recording, told from docs/AUDIT.md and not from the sources. It keeps whole
lists of what was seen, and looks back over them for each finding; nothing is forgotten, and nothing is ever full.

    model.py [--ports PORTS] [--answer-ms N] [--settle-ms N] [--overtake-ms N] [--sessions HOW] [--rules FILE] [--group] RECORDING
"""
import re
import sys
import tomllib
from collections import Counter, defaultdict
from typing import Callable, NamedTuple, Optional

import wire
from parts import TIMEOUT, refusal, whole_payload
from seen import ACK, OFFER, SUBSCRIBE, Datagram, Seen, datagrams_of, looked_at, seen_in

KINDS = ("malformed", "bad run", "no endpoint", "reboot", "sd session", "sd overtaken", "unanswered", "late", "error",
         "unasked", "repeated", "key reused", "interface", "not offered", "event repeated", "event overtaken", "event gap",
         "event unsubscribed", "silent", "segments", "segments missing", "offer expired", "offer moved", "nack",
         "subscribe unanswered", "unasked ack", "unasked nack", "full")
OF_SERVICES = ("bad run", "no endpoint", "offer expired", "offer moved", "nack", "subscribe unanswered", "unasked ack",
               "unasked nack")
CALLS, SEGMENTS, OFFERS, SUBSCRIBES, GAPS, SILENCES = range(6)
SHOWN = 3
MOST_BEHIND = 64
FIRST_GROUP = wire.address("224.0.0.0")


class Rules(NamedTuple):
    """What an audit goes by. `chosen` says of a finding whether it is asked for."""
    ports: Optional[list] = None
    is_learning: bool = False
    frames: Optional[list] = None
    chosen: Callable = lambda finding: True
    answer: int = 2000
    settle: int = 10000
    overtake: int = 100
    by_sender: bool = False
    group: bool = False
    bench: tuple = ()

    def first(self, service, method):
        """The number of the first rule of the bench that fits what names this service and this method, or none."""
        for number, rule in enumerate(self.bench):
            if rule.get("service", service) == service and rule.get("method", method) == method:
                return number
        return None

    def answer_of(self, header):
        number = self.first(header.service, header.method)
        return self.answer if number is None else self.bench[number].get("answer_ms", self.answer)

    def cycle_of(self, header):
        number = self.first(header.service, header.method)
        return None if number is None else self.bench[number].get("cycle_ms")


class Finding(NamedTuple):
    """A finding: where it stands among all, its time, the datagram that it names, its kind and its text."""
    order: tuple
    time: str
    datagram: Datagram
    kind: str
    text: str

    def line(self, allowed):
        named = self.datagram
        ends = f"{wire.endpoint_text(named.source)} {wire.endpoint_text(named.destination)}"
        return f"{self.time} {named.number} {ends} {'allowed ' if allowed else ''}{self.text}"

    def named(self):
        """The service and the method or event that it names, and - for one that it does not."""
        ids = re.search(r"([0-9a-f]{4})\.([0-9a-f]{4})", self.text)
        if ids is None:
            return "-.-"
        return f"{ids[1]}.-" if self.kind in OF_SERVICES else ids[0]

    def ids(self):
        """The service and the method that it names, as numbers, and None for one that it does not."""
        return [None if word == "-" else int(word, 16) for word in self.named().split(".")]

    def group(self):
        return KINDS.index(self.kind), self.named(), self.datagram.source, self.datagram.destination


# ---- Texts

def id_text(number):
    return "-" if number is None else f"{number:04x}"


def group_text(group, more):
    kind, named, source, destination = group
    return f"{KINDS[kind]} {named} {wire.endpoint_text(source)} {wire.endpoint_text(destination)} {more} more"


def call_text(header):
    return f"{header.service:04x}.{header.method:04x} client {header.client:04x} session {header.session:04x}"


def event_text(header):
    return f"{header.service:04x}.{header.method:04x}"


def instance_text(entry):
    return f"{entry.service:04x}.{entry.instance:04x}"


def offer_text(entry):
    return f"{instance_text(entry)} major {entry.major:02x}"


def subscription_text(entry):
    return f"{offer_text(entry)} group {entry.group:04x} counter {entry.counter}"


class Audit:
    """All that was seen in a recording, and what it shows."""

    def __init__(self, records, rules, left_out=""):
        self.rules = rules
        self.left_out = left_out
        self.datagrams = datagrams_of(records)
        self.begin = self.datagrams[0].moment if self.datagrams else 0
        self.looked = looked_at(self.datagrams, rules.ports, rules.is_learning)
        self.seen, self.messages = seen_in(self.looked)
        self.findings = []
        self.reboots = []
        self.overtaken = set()
        self.find_all()

    def find_all(self):
        self.find_faults()
        self.find_unusable()
        self.find_sessions()
        self.put_together()
        self.find_calls()
        self.find_errors()
        self.find_offers()
        self.find_servers()
        self.find_subscribes()
        self.find_unsubscribed()
        self.find_gaps()
        self.find_silent()
        self.findings.sort(key=lambda finding: finding.order)

    def head(self, finding):
        """The number of the packet of a finding, where the packets' numbers are told."""
        return f"#{self.rules.frames[finding.datagram.number - 1]} " if self.rules.frames else ""

    def text(self):
        told = [finding for finding in self.findings if finding.kind == "full" or self.rules.chosen(finding)]
        lines, groups = [], Counter()
        for finding in told:
            groups[finding.group()] += 1
            if not self.rules.group or groups[finding.group()] <= SHOWN:
                lines.append(self.head(finding) + finding.line(self.is_allowed(finding)))
        lines.append(f"audited {len(self.looked)} datagrams, {self.messages} messages, {len(told)} findings")
        kinds = [finding.kind for finding in told]
        lines += [f"{kind} {kinds.count(kind)}" for kind in KINDS if kind in kinds]
        if self.rules.group:
            lines += [group_text(group, number - SHOWN) for group, number in sorted(groups.items()) if number > SHOWN]
        lines += self.weighed(told)
        lines += [self.left_out] if self.left_out else []
        lines += unjudged(len(self.datagrams) - len(self.looked), self.seen)
        return "".join(f"{line}\n" for line in lines)

    def rule_of(self, finding):
        """The first rule that fits a finding, with its number."""
        number = self.rules.first(*finding.ids())
        return (None, {}) if number is None else (number, self.rules.bench[number])

    def is_bounded(self, finding):
        return finding.kind in self.rule_of(finding)[1].get("at_most", {})

    def is_allowed(self, finding):
        return not self.is_bounded(finding) and finding.kind in self.rule_of(finding)[1].get("allow", [])

    def exceeded(self, told):
        """Of which kinds more came by which rule than may."""
        came = Counter((finding.kind, self.rule_of(finding)[0]) for finding in told if self.is_bounded(finding))
        bounds = [(kind, number, self.rules.bench[number]["at_most"][kind]) for kind, number in came]
        return sorted((KINDS.index(kind), number, most, came[kind, number]) for kind, number, most in bounds
                      if came[kind, number] > most)

    def weighed(self, told):
        """How many findings are allowed, and of which kinds more came than may."""
        allowed = sum(map(self.is_allowed, told))
        lines = [f"allowed {allowed}"] if allowed else []
        for kind, number, most, came in self.exceeded(told):
            rule = self.rules.bench[number]
            about = f"{id_text(rule.get('service'))}.{id_text(rule.get('method'))}"
            lines.append(f"{KINDS[kind]} {about} at most {most} came {came}")
        return lines

    def fails(self):
        """Whether the exit status is 1."""
        told = [finding for finding in self.findings if finding.kind == "full" or self.rules.chosen(finding)]
        return bool(self.exceeded(told)) or any(not self.is_allowed(one) and not self.is_bounded(one) for one in told)

    def tell(self, seen, turn, kind, text=""):
        """Tells a finding that something seen shows; `turn` orders those of one thing."""
        time = seen.datagram.time
        clock = "-" if time is None else f"{time // 10**9}.{time % 10**9:09d}"
        order = (seen.datagram.number, 1, seen.place, turn)
        self.findings.append(Finding(order, clock, seen.datagram, kind, kind + text))

    def tell_due(self, opener, deadline, book, key, kind, text, number=None):
        """Tells what fell due, before the first datagram after its opener whose moment has come to the deadline, or before
        the one with this number."""
        if deadline > self.datagrams[-1].moment:
            return
        after = self.datagrams[opener.datagram.number:]
        number = number or next((datagram.number for datagram in after if datagram.moment >= deadline), len(self.datagrams) + 1)
        clock = f"{deadline // 1000}.{deadline % 1000:03d}000000"
        self.findings.append(Finding((number, 0, deadline, book, key), clock, opener.datagram, kind, kind + text))

    def all_seen(self, what):
        return [seen for seen in self.seen if seen.what == what]

    def rebooted(self, addresses, first, last):
        """Whether one of these addresses began anew after this place and before that one."""
        return any(seen.sender in addresses and first < seen.place < last for seen in self.reboots)

    def place_at(self, moment):
        """The place of the first thing that is seen at this moment or later."""
        return next((seen.place for seen in self.seen if seen.moment >= moment), sys.maxsize)

    # ---- Faults, and sessions of Service Discovery

    def find_faults(self):
        for seen in self.all_seen("fault"):
            self.tell(seen, 0, "malformed", " {} at {}".format(*seen.value))

    def find_unusable(self):
        """The entries whose options no node can use, each told before what else its entry shows."""
        for seen in self.all_seen("entry"):
            if seen.value.has_bad_run:
                self.tell(seen, -1, "bad run", " " + instance_text(seen.value))
            elif needs_endpoint(seen.value) and not seen.value.names_endpoint:
                self.tell(seen, -1, "no endpoint", " " + instance_text(seen.value))

    def find_sessions(self):
        by_sender = defaultdict(list)
        for seen in self.all_seen("session"):
            if seen.value[0]:
                by_sender[seen.sender].append(seen)
        for sent in by_sender.values():
            for at, seen in enumerate(sent):
                self.judge_session(sent[:at], seen)
        self.reboots.sort()

    def judge_session(self, before, seen):
        """Judges a message by those of its sender before it, since that began anew last."""
        began = max((reboot.place for reboot in self.reboots if reboot.sender == seen.sender), default=-1)
        pair = [last for last in before
                if last.place >= began and last.receiver == seen.receiver and last.place not in self.overtaken]
        if not pair:
            return
        (last, flagged), (session, flag) = pair[-1].value, seen.value
        following = (last + 1, flagged) if last < 0xFFFF else (1, 0)
        is_soon = seen.moment <= pair[-1].moment + self.rules.overtake
        if flag == flagged and 1 <= last - session <= 8 and is_soon:
            self.overtaken.add(seen.place)
            self.tell(seen, 0, "sd overtaken", f" session {session:04x}")
        elif flag and (not flagged or session <= last):
            self.reboots.append(seen)
            self.tell(seen, 0, "reboot")
        elif (session, flag) != following:
            self.tell(seen, 0, "sd session", f" {session:04x} expected {following[0]:04x}")

    # ---- Segments

    def put_together(self):
        """Judges each segment, and puts the message that it makes whole after it. A part is a list of segments."""
        parts, whole = {}, []
        for seen in self.all_seen("segment"):
            key = (seen.datagram.source, seen.datagram.destination, *seen.value[0])
            self.drop_missing(parts, seen.moment)
            fault = refusal(parts, key, seen)
            if fault == "Conflict":
                del parts[key]
            if fault:
                self.tell(seen, 0, "segments", f" {fault} {call_text(seen.value[0])}")
                continue
            parts.setdefault(key, []).append(seen)
            payload = whole_payload(parts[key])
            if payload is not None:
                del parts[key]
                header = seen.value[0]._replace(kind=seen.value[0].kind & ~wire.TP)
                whole.append(Seen(seen.place + 1, seen.datagram, "message", (header, payload)))
        self.drop_missing(parts, self.datagrams[-1].moment if self.datagrams else 0)
        self.seen = sorted(self.seen + whole)

    def drop_missing(self, parts, moment):
        for key in [key for key in parts if parts[key][-1].moment + TIMEOUT <= moment]:
            part, text = parts.pop(key), " " + call_text(wire.Header(*key[2:]))
            self.tell_due(part[0], part[-1].moment + TIMEOUT, SEGMENTS, key, "segments missing", text)

    # ---- Calls

    def find_calls(self):
        calls = defaultdict(list)
        for seen in self.all_seen("message"):
            header, ends = seen.value[0], (seen.datagram.source, seen.datagram.destination)
            if header.kind == wire.REQUEST:
                calls[header[:4] + ends + header[4:5]].append(seen)
            elif header.kind in (wire.RESPONSE, wire.ERROR):
                calls[header[:4] + ends[::-1] + header[4:5]].append(seen)
        for key, timeline in calls.items():
            self.find_call(key, timeline)

    def find_call(self, key, timeline):
        """Parts the messages of a key by the REQUESTs that open a call, and judges each part."""
        part = []
        for seen in timeline:
            if is_request(seen) and not self.is_same_question(part, seen):
                if self.is_open(part, seen.moment) and seen.value[0].session:
                    self.tell(seen, 0, "key reused", " " + call_text(seen.value[0]))
                self.judge_call(key, part, seen.moment)
                part = []
            part.append(seen)
        self.judge_call(key, part, None)

    def is_open(self, part, moment):
        """Whether the call that the first of these opened is open at this moment, no answer having come."""
        opened = bool(part) and is_request(part[0]) and moment < part[0].moment + self.rules.answer_of(part[0].value[0])
        return opened and all(map(is_request, part))

    def is_same_question(self, part, seen):
        return self.is_open(part, seen.moment) and excerpt(part[0]) == excerpt(seen)

    def judge_call(self, key, part, until):
        """Judges the messages from a REQUEST, if one came, up to the next that opens a call, at the moment `until`, if
        one came."""
        answers = [seen for seen in part if not is_request(seen)]
        if not part or not is_request(part[0]):
            return self.judge_unasked(answers)
        deadline = part[0].moment + self.rules.answer_of(part[0].value[0])
        is_overdue = (until is None or deadline <= until) and not any(seen.moment < deadline for seen in answers)
        if is_overdue:
            self.tell_due(part[0], deadline, CALLS, key, "unanswered", " " + call_text(part[0].value[0]))
        for seen in answers[:1]:
            if is_overdue:
                self.tell(seen, 0, "late", f" {seen.moment - part[0].moment} ms {call_text(seen.value[0])}")
        for seen in answers[1:]:
            if seen.moment < answers[0].moment + self.rules.answer_of(seen.value[0]):
                self.tell(seen, 0, "repeated", " " + call_text(seen.value[0]))
            else:
                self.judge_unasked([seen])

    def judge_unasked(self, answers):
        for seen in answers:
            if seen.moment >= self.begin + self.rules.answer_of(seen.value[0]):
                self.tell(seen, 0, "unasked", " " + call_text(seen.value[0]))

    def find_errors(self):
        """The answers with another Return Code than 00, each told after what it shows of its call."""
        for seen in self.all_seen("message"):
            header = seen.value[0]
            if header.kind in (wire.RESPONSE, wire.ERROR) and header.code:
                self.tell(seen, 1, "error", f" {header.code:02x} {call_text(header)}")

    # ---- Offers

    def find_offers(self):
        offers = defaultdict(list)
        for seen in self.all_seen("entry"):
            if seen.value.kind == OFFER and (seen.value.endpoint or not seen.value.ttl):
                offers[seen.value[1:4]].append(seen)
        for key, timeline in offers.items():
            for at, seen in enumerate(timeline):
                if seen.value.ttl:
                    self.judge_offer(key, timeline[:at], seen, timeline[at + 1:])

    def judge_offer(self, key, before, seen, after):
        last = next((offer for offer in reversed(before) if offer.value.ttl), None)
        is_same = last and (last.sender, last.value.endpoint) == (seen.sender, seen.value.endpoint)
        if last and not is_same and self.is_standing(last, before, seen.place, seen.moment):
            self.tell(seen, 0, "offer moved", " " + offer_text(seen.value))
        deadline = seen.moment + 1000 * seen.value.ttl
        ended = any(later.moment < deadline and (later.value.ttl or later.sender == seen.sender) for later in after)
        is_ended = ended or self.rebooted((seen.sender,), seen.place, self.place_at(deadline))
        if seen.value.ttl != wire.FOREVER and not is_ended:
            self.tell_due(seen, deadline, OFFERS, key, "offer expired", " " + offer_text(seen.value))

    def is_standing(self, offer, timeline, place, moment):
        """Whether an offer stands before this place, where no Offer came since."""
        sender = offer.sender
        stops = [seen for seen in timeline if not seen.value.ttl and seen.sender == sender]
        stopped = any(seen.place > offer.place for seen in stops)
        passed = offer.value.ttl != wire.FOREVER and offer.moment + 1000 * offer.value.ttl <= moment
        return not stopped and not passed and not self.rebooted((sender,), offer.place, place)

    # ---- Servers

    def find_servers(self):
        """The messages that have another version than their server, and the first REQUEST to each that has ended."""
        offers, asked = defaultdict(list), set()
        for seen in self.all_seen("entry"):
            if seen.value.kind == OFFER and seen.value.ttl and seen.value.endpoint:
                offers[seen.value.service, seen.value.endpoint].append(seen)
        ends = self.offer_ends()
        for seen in self.all_seen("message"):
            before = [offer for offer in offers[server_of(seen)] if offer.place < seen.place]
            if not before or self.rebooted((before[-1].sender,), before[-1].place, seen.place):
                continue
            header, offer = seen.value[0], before[-1]
            if not has_ended(offer, ends, seen):
                if header.interface != offer.value.major:
                    text = f" {header.interface:02x} expected {offer.value.major:02x} {event_text(header)}"
                    self.tell(seen, 2, "interface", text)
            elif is_request(seen) and offer.place not in asked:
                asked.add(offer.place)
                self.tell(seen, 2, "not offered", " " + call_text(header))

    def offer_ends(self):
        """The StopOffers that ended an offer which stood, each with the Offer of that."""
        found, timelines = [], defaultdict(list)
        for seen in self.all_seen("entry"):
            timeline = timelines[seen.value[1:4]]
            if is_stop(seen.value):
                last = next((offer for offer in reversed(timeline) if offer.value.ttl), None)
                is_own = last and last.sender == seen.sender
                if is_own and self.is_standing(last, timeline, seen.place, seen.moment):
                    found.append((seen, last))
            if seen.value.kind == OFFER and (seen.value.endpoint or not seen.value.ttl):
                timeline.append(seen)
        return found

    # ---- Subscribes

    def subscriptions(self):
        """What came of each subscription, by its key: client, server, service, instance, major version, eventgroup and
        counter."""
        found = defaultdict(list)
        for seen in self.all_seen("entry"):
            entry = seen.value
            if entry.kind in (SUBSCRIBE, ACK):
                named = (entry.service, entry.instance, entry.major, entry.group, entry.counter)
                found[sides(seen) + named].append(seen)
        return found

    def find_subscribes(self):
        for key, timeline in self.subscriptions().items():
            waits = None
            for at, seen in enumerate(timeline):
                self.judge_answer(key, seen, timeline[:at])
                if is_nack(seen.value):
                    self.tell(seen, 0, "nack", " " + subscription_text(seen.value))
                if asks(seen.value) and not self.is_waiting(key, waits, timeline[:at], seen):
                    waits = seen
                    self.judge_subscribe(key, seen, timeline[at + 1:])

    def judge_answer(self, key, seen, before):
        """Tells an answer where each Subscribe before it, since a reboot of either side, has had one."""
        if seen.value.kind != ACK or seen.moment < self.begin + self.rules.answer:
            return
        owed = 0
        for other in before:
            if not self.rebooted(key[:2], other.place, seen.place):
                owed = owed + 1 if asks(other.value) else max(owed - 1, 0) if other.value.kind == ACK else owed
        if not owed:
            kind = "unasked nack" if is_nack(seen.value) else "unasked ack"
            self.tell(seen, 0, kind, " " + subscription_text(seen.value))

    def is_waiting(self, key, asked, timeline, seen):
        """Whether a Subscribe that began to wait still waits where another thing is seen."""
        if asked is None or asked.moment + self.rules.answer <= seen.moment:
            return False
        answered = any(other.place > asked.place and other.value.kind == ACK for other in timeline)
        return not answered and not self.rebooted(key[:2], asked.place, seen.place)

    def judge_subscribe(self, key, asked, after):
        deadline = asked.moment + self.rules.answer
        answered = any(seen.value.kind == ACK and seen.moment < deadline for seen in after)
        if not answered and not self.rebooted(key[:2], asked.place, self.place_at(deadline)):
            text = " " + subscription_text(asked.value)
            self.tell_due(asked, deadline, SUBSCRIBES, key, "subscribe unanswered", text)

    # ---- Events to one endpoint

    def standings(self):
        """Each time that a subscription stood."""
        found = []
        stops = [seen for seen in self.all_seen("entry") if is_stop(seen.value)]
        for key, timeline in self.subscriptions().items():
            ends = [seen for seen in stops if (seen.sender, *seen.value[1:4]) == key[1:5]]
            ends += [seen for seen in self.reboots if seen.sender in key[:2]]
            found += stood(key, sorted(timeline + ends))
        return found

    def find_unsubscribed(self):
        """The notifications to one endpoint by no subscription. Each is told once until a Subscribe comes by which it
        might go."""
        standings, told = self.standings(), {}
        for seen in self.all_seen("message"):
            header = seen.value[0]
            is_event = header.kind == wire.NOTIFICATION and seen.receiver < FIRST_GROUP
            if not is_event or seen.moment < self.begin + self.rules.settle:
                continue
            if not any(goes_by(standing, seen) for standing in standings):
                key = (seen.sender, header.service, header.method, seen.datagram.destination)
                if key not in told or self.came_subscribe(key, told[key], seen.place):
                    told[key] = seen.place
                    self.tell(seen, 3, "event unsubscribed", " " + event_text(header))

    def came_subscribe(self, key, first, last):
        server, service, _, endpoint = key
        asked = [seen for seen in self.all_seen("entry") if first < seen.place < last and asks(seen.value)]
        ways = [(seen.receiver, seen.value.service, seen.value.endpoint) for seen in asked]
        return (server, service, endpoint) in ways

    # ---- Sessions of events

    def counted(self, seen):
        """Which events are counted together with this one: those of its sender, or of its sender and ID."""
        header = seen.value[0]
        return seen.datagram.source, *((0, 0) if self.rules.by_sender else (header.service, header.method))

    def find_gaps(self):
        streams = defaultdict(list)
        for seen in self.all_seen("message"):
            if seen.value[0].kind == wire.NOTIFICATION and seen.value[0].session:
                streams[self.counted(seen)].append(seen)
        changes = self.changes()
        for key, stream in streams.items():
            flows, missing = defaultdict(list), []
            for seen in stream:
                self.judge_event(flows[seen.datagram.destination], stream, changes, missing, seen)
            for gap in missing:
                if not gap.came and not self.fell(gap, sys.maxsize):
                    text = f" {event_text(gap.shown_by.value[0])} session {gap.text()}"
                    self.tell_due(gap.shown_by, gap.deadline, GAPS, (*key, *gap.run), "event gap", text)

    def changes(self):
        """What excuses a gap: the entries by which a subscription begins, moves or ends, the StopOffers, and the
        subscriptions whose time has passed."""
        standings = self.standings()
        goes_on = {(standing.end, standing.endpoint) for standing in standings}
        found, acked = {standing.end for standing in standings}, {standing.begin for standing in standings}
        entries = [seen for seen in self.all_seen("entry") if is_stop(seen.value)
                   or is_end(seen.value) and seen.place in found
                   or is_begin(seen.value) and (seen.place, seen.value.endpoint) not in goes_on
                   or is_ack(seen.value) and seen.place not in acked]
        return entries, [standing for standing in standings if standing.passed is not None]

    def judge_event(self, flow, stream, changes, missing, seen):
        """Judges an event by those of its flow that were each the last one, and enters it where it is the last."""
        header, ends = seen.value[0], (seen.sender, seen.receiver)
        awaited = self.waiting(missing, (header.session, header.session), seen)
        if awaited:
            awaited.came = True
        last = flow[-1] if flow and not self.rebooted(ends, flow[-1].place, seen.place) else None
        text = f" {event_text(header)} session {header.session:04x}"
        if last and last.value[0].session == header.session:
            return self.tell(seen, 4, "event repeated", text)
        if last and 0 < (last.value[0].session - header.session) % 0xFFFF <= MOST_BEHIND:
            return self.tell(seen, 4, "event overtaken", text) if awaited else None
        flow.append(seen)
        is_next = last and (header.session - last.value[0].session) % 0xFFFF == 1
        if last and not is_next and not self.is_excused(last, stream, changes, seen):
            self.note_gap(last.value[0].session, missing, seen)

    def note_gap(self, last, missing, seen):
        """Notes the sessions between the last one and this: each, or a run of them where these are many."""
        header = seen.value[0]
        skipped = [(last + ahead) % 0xFFFF or 0xFFFF for ahead in range(1, (header.session - last) % 0xFFFF)]
        runs = [(session, session) for session in skipped]
        for run in [(skipped[0], skipped[-1])] if len(skipped) > MOST_BEHIND else runs:
            if not self.waiting(missing, run, seen):
                missing.append(Missing(run, seen, seen.moment + self.rules.overtake))

    def waiting(self, missing, run, seen):
        """The missing session or run that this is, if it waits where something is seen: before its deadline, or in the
        very datagram that showed it."""
        waits = (gap for gap in missing if gap.run == run and not gap.came and not self.fell(gap, seen.place))
        return next((gap for gap in waits if seen.moment < gap.deadline or gap.shown_by.datagram == seen.datagram), None)

    def fell(self, gap, place):
        """Whether its sender began anew while it waited, before a place."""
        return any(seen.sender == gap.shown_by.sender and gap.shown_by.place < seen.place < place
                   and (seen.moment < gap.deadline or seen.datagram == gap.shown_by.datagram) for seen in self.reboots)

    def is_excused(self, last, stream, changes, seen):
        """Whether the sessions between two events of a flow need not be lost."""
        ahead = lambda session: (session - last.value[0].session) % 0xFFFF
        others = any(last.place < other.place < seen.place and other.datagram.destination != seen.datagram.destination
                     and 0 < ahead(other.value[0].session) < ahead(seen.value[0].session) for other in stream)
        return others or self.is_disturbed(last, changes, seen)

    def is_disturbed(self, last, changes, seen):
        """Whether a subscription of the receiver to the service began or ended, or an offer of it was withdrawn, between
        two events of a flow."""
        is_counted = lambda service: self.rules.by_sender or service == seen.value[0].service
        entries, passing = changes
        for other in entries:
            is_own = other.sender == seen.sender if is_stop(other.value) else concerns(*sides(other), seen)
            if last.place < other.place < seen.place and is_own and is_counted(other.value.service):
                return True
        return any(last.moment < standing.passed <= seen.moment and concerns(*standing.key[:2], seen)
                   and is_counted(standing.key[2]) for standing in passing)

    # ---- Events that come in cycles

    def find_silent(self):
        """The events to one endpoint that did not come for three cycles, while one was subscribed to them."""
        flows, standings = defaultdict(list), self.standings()
        for seen in self.all_seen("message"):
            header = seen.value[0]
            is_event = header.kind == wire.NOTIFICATION and seen.receiver < FIRST_GROUP
            if is_event and self.rules.cycle_of(header) and any(goes_by(standing, seen) for standing in standings):
                flows[seen.datagram.source, header.service, header.method, seen.datagram.destination].append(seen)
        for key, flow in flows.items():
            for seen, later in zip(flow, flow[1:] + [None]):
                self.judge_watch(key, seen, later, standings)

    def judge_watch(self, key, seen, later, standings):
        """Tells an event whose next one did not come in time, unless something ended its watch before."""
        deadline = seen.moment + 3 * self.rules.cycle_of(seen.value[0])
        number = self.asked_at(seen, deadline, standings)
        came = later is not None and (number is None or later.datagram.number < number)
        if number is not None and not came and not self.is_ended(seen, number, standings):
            text = f" {event_text(seen.value[0])} for {deadline - seen.moment} ms"
            self.tell_due(seen, deadline, SILENCES, key, "silent", text, number)

    def asked_at(self, seen, deadline, standings):
        """The number of the datagram before which it is told: none where a subscription has expired that was not dropped."""
        before = seen.datagram.moment
        for datagram in self.datagrams[seen.datagram.number:]:
            if datagram.moment >= deadline and not any(expires(standing, before, deadline) for standing in standings):
                return datagram.number
            before = datagram.moment
        return len(self.datagrams) + 1 if deadline <= before else None

    def is_ended(self, seen, number, standings):
        """Whether something ended the watch of an event before this datagram."""
        between = [other for other in self.all_seen("entry") + self.reboots
                   if seen.place < other.place and other.datagram.number < number]
        ended = any(self.ends(other, seen, standings) for other in between)
        return ended or any(self.expired(standing, seen, number) for standing in standings)

    def ends(self, other, seen, standings):
        """Whether something ends the watch of an event: a reboot, a StopOffer, or an entry by which its subscription ends."""
        service, ends = seen.value[0].service, (seen.receiver, seen.sender)
        if other.what != "entry":
            return other.sender in ends
        entry = other.value
        if entry.service != service or entry.kind not in (OFFER, SUBSCRIBE, ACK):
            return False
        if entry.kind == OFFER:
            return is_stop(entry) and other.sender == seen.sender
        moved = any(standing.end == other.place and standing.endpoint != entry.endpoint for standing in standings)
        return sides(other) == ends and (not entry.ttl or asks(entry) and entry.endpoint is not None and moved)

    def expired(self, standing, seen, number):
        """Whether a subscription of the receiver to the service expired since an event, and was dropped before a datagram."""
        if standing.passed is None or standing.key[:3] != (seen.receiver, seen.sender, seen.value[0].service):
            return False
        dropped = next((datagram.number for datagram in self.datagrams if datagram.moment >= standing.passed), sys.maxsize)
        return seen.datagram.number < dropped < number


# ---- Questions about single things

def is_request(seen):
    return seen.value[0].kind == wire.REQUEST


def excerpt(seen):
    return len(seen.value[1]), seen.value[1][:64]


def server_of(seen):
    """The server of a message: a REQUEST goes to it, also one without an answer, and any other comes from it."""
    header = seen.value[0]
    goes_to = header.kind in (wire.REQUEST, wire.ONEWAY)
    return header.service, seen.datagram.destination if goes_to else seen.datagram.source


def has_ended(offer, ends, seen):
    """Whether the server of its newest Offer has ended where a message is seen."""
    passed = offer.value.ttl != wire.FOREVER and offer.moment + 1000 * offer.value.ttl <= seen.moment
    named = (*offer.value[1:4], offer.value.endpoint)
    return passed or any(offer.place < stop.place < seen.place and (*ended.value[1:4], ended.value.endpoint) == named
                         for stop, ended in ends)


def is_nack(entry):
    return entry.kind == ACK and not entry.ttl


def is_stop(entry):
    return entry.kind == OFFER and not entry.ttl


def needs_endpoint(entry):
    return entry.kind == OFFER and entry.ttl > 0 or entry.kind == SUBSCRIBE


def asks(entry):
    return entry.kind == SUBSCRIBE and entry.ttl > 0


def is_begin(entry):
    """Whether a subscription begins by an entry, unless it goes on by it."""
    return asks(entry) and entry.endpoint is not None


def is_ack(entry):
    """Whether an entry is an Ack: one that finds nothing under its key shows that a subscription begins."""
    return entry.kind == ACK and entry.ttl > 0


def is_end(entry):
    """Whether an entry is a StopSubscribe or a Nack, which ends what stands under its key."""
    return entry.kind in (SUBSCRIBE, ACK) and not entry.ttl


def sides(seen):
    """Client and server of an entry of an eventgroup: a Subscribe goes from the one to the other, its answer back."""
    return (seen.sender, seen.receiver) if seen.value.kind == SUBSCRIBE else (seen.receiver, seen.sender)


def concerns(client, server, seen):
    """Whether a subscription between these two may be one by which an event goes."""
    return server == seen.sender and (client == seen.receiver or seen.receiver >= FIRST_GROUP)


class Missing:
    """A session that an event skipped, or a run of them, by its first and its last; until when it may come, and whether it
    did."""

    def __init__(self, run, shown_by, deadline):
        self.run, self.shown_by, self.deadline, self.came = run, shown_by, deadline, False

    def text(self):
        first, last = self.run
        return f"{first:04x}" if first == last else f"{first:04x} to {last:04x}"


class Standing(NamedTuple):
    """A time that a subscription stood, between two places and to one endpoint; and the moment at which its time has
    passed, where nothing ended it before."""
    key: tuple
    endpoint: tuple
    begin: int
    end: int
    passed: Optional[int]


def begun(key, endpoint, seen):
    passed = None if seen.value.ttl == wire.FOREVER else seen.moment + 1000 * seen.value.ttl
    return Standing(key, endpoint, seen.place, sys.maxsize, passed)


def stood(key, steps):
    """The times that a subscription stood, by what came of it, stops of its offer and reboots of either side."""
    found, now = [], None
    for seen in steps:
        entry = seen.value if seen.what == "entry" else None
        if now and now.passed is not None and now.passed <= seen.moment:
            found, now = found + [now], None
        if entry and asks(entry) and entry.endpoint:
            then = begun(key, entry.endpoint, seen)
        elif entry and entry.kind == ACK and entry.ttl and now:
            then = begun(key, now.endpoint, seen)
        elif entry and entry.kind in (SUBSCRIBE, ACK) and entry.ttl:
            continue
        else:
            then = None
        found, now = found + ([now._replace(end=seen.place, passed=None)] if now else []), then
    return found + ([now] if now else [])


def goes_by(standing, seen):
    """Whether an event may go by a subscription."""
    server, service = standing.key[1:3]
    is_to = (server, service) == (seen.sender, seen.value[0].service) and standing.endpoint == seen.datagram.destination
    stands = standing.begin < seen.place < standing.end
    return is_to and stands and (standing.passed is None or seen.moment < standing.passed)


def expires(standing, after, by):
    """Whether a subscription expires after a moment, and by another."""
    return standing.passed is not None and after < standing.passed <= by


# ---- What could not be judged

LEAST_ONE_WAY = 8


def is_offer(seen):
    return seen.what == "entry" and seen.value.kind == OFFER and seen.value.ttl > 0


def is_of_call(seen):
    return seen.what == "message" and seen.value[0].kind in (wire.REQUEST, wire.RESPONSE, wire.ERROR)


def unjudged(passed, seen):
    """The last lines of a summary, where so many datagrams were not looked at, and this was seen."""
    lines = [f"not looked at {passed} datagrams"] if passed else []
    if not any(map(is_offer, seen)):
        lines.append("no Offer was seen")
    ways = Counter((one.datagram.source, one.datagram.destination) for one in seen if is_of_call(one))
    for (source, destination), number in sorted(ways.items()):
        if number >= LEAST_ONE_WAY and (destination, source) not in ways:
            lines.append(f"one way {wire.endpoint_text(source)} {wire.endpoint_text(destination)} {number}")
    return lines


def unjudged_of(records, ports=None):
    """The same of a recording without segments."""
    datagrams = datagrams_of(records)
    looked = looked_at(datagrams, ports, False)
    return "".join(f"{line}\n" for line in unjudged(len(datagrams) - len(looked), seen_in(looked)[0]))


# ---- The command

def audited(data, rules):
    """What is printed of the bytes of a recording."""
    return Audit(wire.records_of(data), rules).text()


def rules_of(words):
    """The rules that options say, and the words after them."""
    rules = Rules()
    while words and words[0].startswith("--"):
        if words[0] == "--group":
            rules, words = rules._replace(group=True), words[1:]
            continue
        option, value, *words = words
        if option == "--ports":
            rules = rules._replace(ports=list(map(int, value.split(","))))
        elif option == "--answer-ms":
            rules = rules._replace(answer=int(value))
        elif option == "--settle-ms":
            rules = rules._replace(settle=int(value))
        elif option == "--overtake-ms":
            rules = rules._replace(overtake=int(value))
        elif option == "--sessions":
            rules = rules._replace(by_sender=value == "sender")
        elif option == "--rules":
            with open(value, "rb") as file:
                rules = rules._replace(bench=tuple(tomllib.load(file).get("rule", ())))
        else:
            sys.exit(f"model: no option {option}")
    return rules, words


if __name__ == "__main__":
    rules, paths = rules_of(sys.argv[1:])
    with open(paths[0], "rb") as file:
        sys.stdout.write(audited(file.read(), rules))
