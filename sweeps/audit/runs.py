"""Recordings of nodes: `someipctl run` over drawn setups and schedules, with all clocks ticked together and each
datagram delivered at once. The nodes of one run are parted into worlds, which hear nothing of each other; each gives a
recording.

In a calm world each REQUEST is answered in time and without an error, and nobody begins anew; in a rough one answers
come late or never or are errors, nodes begin anew, offers pass and Subscribes are refused."""
import subprocess
from pathlib import Path

import wire

GROUP = wire.address("239.0.0.1")
ANSWER_MS = 2000
ROUNDS = 12
ANSWERS = (("answer", "00"), ("answer", "00"), ("answer", "01"), ("error", "01"), ("error", "0a"))


class Node:
    def __init__(self, world, number):
        self.world = world
        self.name = f"w{world.number}{'abc'[number]}"
        self.address = f"192.168.{world.number}.{number + 1}"
        self.offers, self.wants, self.subscribed = [], [], set()
        self.port = 40000 + number

    def text(self):
        lines = ["[[node]]", f'name = "{self.name}"', f'address = "{self.address}"',
                 f"client_id = {0x0101 + int(self.address[-1])}", f"client_port = {self.port}"]
        return "\n".join(lines + [offer.text() for offer in self.offers] + [want_text(*want) for want in self.wants])


class Offer:
    def __init__(self, node, service, instance, ttl, port):
        self.node, self.service, self.instance, self.ttl, self.port = node, service, instance, ttl, port
        self.name = f"{service:04x}.{instance:04x}"

    def text(self):
        return (f"[[node.offer]]\nservice = {self.service}\ninstance = {self.instance}\nmajor = 1\nttl = {self.ttl}\n"
                f"port = {self.port}\nmethods = [0x0421]\noneways = [0x0422]\n"
                "events = [{ id = 0x8001, groups = [1, 2] }, { id = 0x8002, groups = [2] }]")


def want_text(offer, ttl):
    return (f"[[node.want]]\nservice = {offer.service}\ninstance = {offer.instance}\nmajor = 1\nttl = {ttl}\n"
            "groups = [{ id = 1, events = [0x8001] }, { id = 2, events = [0x8001, 0x8002] }, { id = 3, events = [] }]")


class World:
    """Nodes that hear each other, what they sent, and the requests that wait for their answers."""

    def __init__(self, some, number, cyclic, rough):
        self.some, self.number, self.rough = some, number, rough
        self.haste = 0.3 if rough else 0.6
        self.records, self.waiting = [], []
        self.nodes = [Node(self, at) for at in range(some.choice((2, 2, 3)))]
        least = 1 if rough else 2 * cyclic // 1000 + 1
        for at, node in enumerate(self.nodes[:some.choice((1, 1, 2))]):
            for port in range(some.choice((1, 1, 2))):
                ttl = some.choice((least, least + 2, wire.FOREVER))
                service = some.choice((0x1111, 0x2222))
                node.offers.append(Offer(node, service, 8 * number + 2 * at + port + 1, ttl, 30509 + port))
        self.offers = [offer for node in self.nodes for offer in node.offers]
        for node in self.nodes:
            others = [offer for offer in self.offers if offer.node is not node]
            node.wants = [(offer, some.choice((1, 3, 5, wire.FOREVER))) for offer in others]

    def payload(self):
        length = self.some.choice((0, 1, 2, 65, 200, 1401, 3000)) if self.some.random() < 0.3 else 1
        return f"{self.some.randrange(256):02x}*{length}"

    def deeds(self):
        """What applications do in a round: nothing, one step, an event several times, or a second step where the first
        is none that peers have to hear of before. In a calm world no offer is stopped while a request is on its way."""
        if self.some.random() < 0.2:
            return []
        first = self.step()
        if first.startswith("publish ") and self.some.random() < 0.5:
            return [first] * 4
        is_heard = first.split(" ")[0] in ("call", "oneway", "publish", "publish_to")
        second = self.step() if is_heard and self.some.random() < 0.5 else None
        is_single = second is None or not self.rough and second.startswith("stop_offer ")
        return [first] if is_single else [first, second]

    def step(self):
        """A step of an application."""
        kinds = ["call", "call", "oneway", "publish", "publish", "publish", "publish_to", "subscribe", "subscribe"]
        kinds += ["unsubscribe"] if self.some.random() < 0.5 else []
        kinds += ["stop_offer"] if self.some.random() < 0.05 else []
        kinds += ["restart", "stop_offer"] if self.rough and self.some.random() < 0.3 else []
        return getattr(self, self.some.choice(kinds))()

    def wanted(self):
        """A node that wants something, and what it wants."""
        return self.some.choice([(node, offer) for node in self.nodes for offer, _ in node.wants])

    def call(self):
        node, offer = self.wanted()
        return f"call {node.name} {offer.name} 0421 {self.payload()}"

    def oneway(self):
        node, offer = self.wanted()
        return f"oneway {node.name} {offer.name} 0422 {self.payload()}"

    def publish(self):
        offer = self.some.choice(self.offers)
        return f"publish {offer.node.name} {offer.name} {self.some.choice(('8001', '8001', '8002'))} {self.payload()}"

    def publish_to(self):
        node, offer = self.wanted()
        group, event = self.some.choice((("0001", "8001"), ("0002", "8001"), ("0002", "8002")))
        receiver = f"{node.address}:{node.port}"
        return f"publish_to {offer.node.name} {offer.name} {group} {receiver} {event} {self.payload()}"

    def group(self):
        return self.some.choice(("0001", "0002", "0003") if self.rough else ("0001", "0002"))

    def subscribe(self):
        node, offer = self.wanted()
        return f"subscribe {node.name} {offer.name} {self.group()}"

    def unsubscribe(self):
        node, offer = self.wanted()
        return f"unsubscribe {node.name} {offer.name} {self.group()}"

    def restart(self):
        return f"restart {self.some.choice(self.nodes).name} 10"

    def stop_offer(self):
        offer = self.some.choice(self.offers)
        return f"stop_offer {offer.node.name} {offer.name}"

    def answers(self, now, step):
        """The answers that are given now: all that a step of so many milliseconds more would make late, and others."""
        given = []
        for asked, node, token in list(self.waiting):
            if self.rough and self.some.random() < 0.1:
                self.waiting.remove((asked, node, token))
            elif self.some.random() < self.haste or not self.rough and asked + ANSWER_MS <= now + step:
                self.waiting.remove((asked, node, token))
                given.append(self.answer(node, token))
        return given

    def answer(self, node, token):
        """An answer to a request: in a rough world with an error, now and then."""
        kind, code = self.some.choice(ANSWERS) if self.rough else ANSWERS[0]
        return f"{kind} {node} {token} {code} {self.payload()}"

    def receivers(self, source, destination):
        """The nodes to which a datagram goes."""
        is_group = destination[0] == GROUP
        return [node.name for node in self.nodes if wire.address(node.address) != source[0]
                and (is_group or wire.address(node.address) == destination[0])]


class Run:
    """A run of worlds: the schedule so far, and how much of its trace is known."""

    def __init__(self, some, program, folder, count, rough):
        self.some, self.program, self.folder = some, program, Path(folder)
        self.rough, self.cyclic = rough, some.choice((500, 1000, 2000))
        self.worlds = [World(some, number, self.cyclic, rough) for number in range(1, count + 1)]
        self.world_of = {node.name: world for world in self.worlds for node in world.nodes}
        self.now, self.begin = 0, some.choice((0, 1700000000000))
        self.steps, self.known = [], 0
        (self.folder / "setup.toml").write_text(self.setup())

    def setup(self):
        common = f'group = "239.0.0.1"\nrepetitions = {self.some.randrange(3)}\ncyclic = {self.cyclic}\n'
        return common + "\n".join(node.text() for world in self.worlds for node in world.nodes) + "\n"

    def trace(self):
        """Runs the schedule so far, and gives the lines of the trace that are new."""
        (self.folder / "schedule.txt").write_text("\n".join(self.steps) + "\n")
        words = [self.program, "run", str(self.folder / "setup.toml"), str(self.folder / "schedule.txt")]
        done = subprocess.run(words, capture_output=True, text=True, check=False)
        if done.returncode:
            raise RuntimeError(f"run: status {done.returncode}: {done.stderr.strip()}")
        lines = done.stdout.splitlines()[:-1]
        new, self.known = lines[self.known:], len(lines)
        return new

    def take(self, lines):
        """Takes what the nodes gave: notes requests, records datagrams, and delivers them by the next steps."""
        steps = []
        for line in lines:
            words = line.split(" ")
            name, world = words[1], self.world_of[words[1]]
            if words[2] == "request" and words[3] != "-":
                world.waiting.append((self.now, name, words[3]))
            if words[2] == "sent":
                source, destination = wire.endpoint_of(words[4]), wire.endpoint_of(words[5])
                time = (self.begin + self.now) * 10**6 + len(world.records) % 1000
                world.records.append(wire.Record(time, source, destination, bytes.fromhex(words[6])))
                steps += [f"deliver {words[3]} {to}" for to in world.receivers(source, destination)]
        return steps

    def settle(self, steps):
        """Runs these steps, and delivers until nothing more is sent."""
        while steps:
            self.steps += steps
            steps = self.take(self.trace())

    def round(self):
        longest = self.cyclic if self.rough else self.cyclic // 2
        step = self.some.choice((1, 10, 50, self.cyclic // 4, self.cyclic // 2, longest))
        self.now += step
        self.settle([f"tick {node.name} {step}" for world in self.worlds for node in world.nodes])
        self.settle([step for world in self.worlds for step in world.deeds()])
        self.settle([answer for world in self.worlds for answer in world.answers(self.now, self.cyclic)])

    def recordings(self):
        """The datagrams of each world."""
        for _ in range(ROUNDS):
            self.round()
        return [world.records for world in self.worlds]


def mirrored(some, records):
    """The datagrams of a recording as a port that mirrors both directions records them: each comes again, up to 4 ms
    later."""
    again = [record._replace(time=record.time + some.randrange(4 * 10**6)) for record in records]
    return sorted(records + again, key=lambda record: record.time)


def one_sided(records):
    """The datagrams of a recording that a tap sees of one direction: those to a group, and those that go to higher addresses."""
    return [record for record in records if record.source[0] < record.destination[0]]


def counted_together(records):
    """The datagrams of a recording with the sessions of events as senders give them that count all events together."""
    given, last, found = {}, {}, []
    for record in records:
        texts = []
        for _, header, payload in wire.messages_of(record.payload)[0]:
            if header.kind & ~wire.TP == wire.NOTIFICATION and header.service != 0xFFFF:
                event = record.source, header.service, header.method, header.session
                if event not in given:
                    given[event] = last[record.source] = last.get(record.source, 0) % 0xFFFF + 1
                header = header._replace(session=given[event])
            texts.append(wire.message(header, payload))
        found.append(record._replace(payload=b"".join(texts)))
    return found


def disturbed(some, records):
    """The datagrams of a recording with some of them lost, repeated, swapped or late."""
    found = list(records)
    for _ in range(some.choice((0, 1, 3, 8))):
        if len(found) < 2:
            break
        at = some.randrange(len(found) - 1)
        kind = some.choice(("lost", "repeated", "swapped", "repeated later", "late"))
        if kind == "lost":
            del found[at]
        elif kind == "repeated":
            found.insert(at, found[at])
        elif kind == "swapped":
            first, second = found[at:at + 2]
            found[at:at + 2] = [second._replace(time=first.time), first._replace(time=second.time)]
        elif kind == "repeated later":
            to = some.randrange(at, len(found))
            found.insert(to, found[at]._replace(time=found[to].time))
        else:
            delay = some.choice((1, 1000, 3000)) * 10**6
            found[at:] = [record._replace(time=record.time + delay) for record in found[at:]]
    return found
