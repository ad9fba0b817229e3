"""The lines of schedules that are drawn, over the setups of `examples/runs/two.toml` and `examples/runs/liars.toml`, and
what is known of the rounds before.

A thousand schedules of fifty steps over the setup `examples/runs/two.toml`, in which the node `a` offers and `b`
wants. Steps are drawn as lines of text, which `someipctl run --lines` runs: so the reader of schedules is tried too.
`sweeps/schedules/sweep.py PROGRAM NUMBER` prints the lines of the schedule of that number, and with `liars-` before the
number those of the schedule among liars.

Draws. The schedule of the number s, from 1 to 1000, begins with the state s. A draw *below n* makes of the state
`state * 6364136223846793005 + 1442695040888963407` modulo 2^64, and gives the state's bits from 33 on modulo n, and 0
where n is 0. *Mostly x, else y* is y where a draw below 16 is 0, and else x. *One of* a list is its element at the
place of a draw below its length.

Rounds. A schedule has ten rounds of five steps. What a step refers to, datagrams that were sent and requests that
wait, is known from the lines of the rounds before it, for which these are run.

Steps. For each step first its kind is drawn, below 100, and then its parts in the order of this table, which is that
of the words of its line. The weights add up to 100, and the draw counts through them from the top.

Kind: weight; parts
  `tick`: 12; one of `a`, `b`; one of 1, 10, 30, 60, 100, 500, 1000, 3000 milliseconds
  `deliver`: 48; a datagram and a node, as below
  `call`: 8; mostly `b`, else `a`; an instance; mostly 0421, else 0423; a payload
  `oneway`: 3; mostly `b`, else `a`; an instance; mostly 0422, else 0423; a payload
  `answer`: 7; mostly `a`, else `b`; mostly a token, else 999; one of the codes 00, 01, 0a, 5e; a payload
  `error`: 2; the same
  `publish`: 8; mostly `a`, else `b`; an instance; an event; a payload
  `publish_to`: 2; mostly `a`, else `b`; an instance; an eventgroup; mostly 192.168.0.2:40001, else 192.168.0.2:40002;
    an event; a payload
  `subscribe`: 6; mostly `b`, else `a`; an instance; an eventgroup
  `unsubscribe`: 1; the same
  `stop_offer`: 1; mostly `a`, else `b`; an instance
  `restart`: 2; one of `a`, `b`; 10 and a draw below 91, in milliseconds

- An instance is mostly 1111.0001, else 1111.0002; an event mostly 8001, else 8002; an eventgroup mostly 0001, else
  0002.
- A payload is one byte so many times: a draw below 256, and one of 0, 1, 2, 3, 4, 5, 6, 7, 100, 1400, 1401, 3000. The
  last two go in segments.
- A token is that of the first known request of the node, and 1 where there is none. A request is known no more once a
  step that names its token, or a restart of the node, is drawn.
- A datagram is drawn below 4: 0 and 1 stand for the first of the known ones that no step has delivered, 2 for the
  last of these, and 3 for any. Where there is no undelivered one each stands for any, which is a draw below their
  number. Where nothing was sent the step is a `tick`, whose parts are drawn then.
- It goes to the node of the address that it was sent to. One that was sent to the group goes mostly to the node that
  did not send it, else to the one that did.

So every step can happen. Half of all steps deliver something, and mostly what came first or last, since only a chain
of deliveries brings a schedule to a subscription, an event or an answer.

Among liars: Four hundred schedules over the setup `examples/runs/liars.toml`, which has a liar `c` at 192.168.0.9
beside the nodes `a` and `b`. They are drawn and judged as those above, but for what follows.

Injections. For each step first a draw below 4 is made: at 0 it is an `inject`, and else a step as above. Where no
node has sent anything it is a step as above too. An injection is made of a datagram of the rounds before that a node
sent:

1. A draw below 4: but at 0, and where a datagram was sent to c, it is a *reply* to the last one of these. At a draw
   below 2 of 0 it is the event `inject c 30509 192.168.0.2:40001 11118001000000090000000101010200ff`. Else it goes
   from the port to which that datagram was sent to the endpoint from which it came, with its bytes but for one: of
   those to port 30490 place 24 has 07, which makes an Ack of a Subscribe, and of others place 14 has 80, which makes
   a RESPONSE. Places count from 0, and one after the end changes nothing.
2. Else it is a *copy*. The datagram is drawn: a draw below the number of those that nodes sent is its place among
   them. Then the port: at a draw below 2 of 0 that from which it was sent, else one of 30490, 30509, 40001, 40002, 1.
   Then the endpoint: at a draw below 2 of 0 that to which it was sent, else one of 192.168.0.1:30490,
   192.168.0.1:30509, 192.168.0.1:40000, 192.168.0.2:30490, 192.168.0.2:40001, 239.0.0.1:30490. And last the bytes, by
   a draw below 8: at 0 all of them as they are; from 1 to 4 each address of a and of b in them (the bytes c0 a8 00,
   and 01 or 02) as that of c, whose last byte is 09; at 5 one byte changed, the place drawn below their number and
   then the byte below 256; at 6 the first of them, so many as a draw below their number; at 7 with those of another
   datagram after them, which is drawn in the same way.

Deliveries. What is sent to neither the address of a nor that of b nor the group is *lost*: it counts as delivered,
and where the draw comes to it the step is a `tick`, whose parts are drawn then. What c sent to the group goes to one
of `a`, `b`. In each schedule whose number is a multiple of 4 all that c sends is lost too.
"""
from told import host_of, port_of

FRONT, OWN = b"\xc0\xa8\x00", 9
DISCOVERY_PORT, ENTRY_TYPE, ACK = "30490", 24, 0x07
MESSAGE_TYPE, RESPONSE = 14, 0x80

LENGTHS = ("0", "1", "2", "3", "4", "5", "6", "7", "100", "1400", "1401", "3000")
PORTS = ("30490", "30509", "40001", "40002", "1")
ENDPOINTS = ("192.168.0.1:30490", "192.168.0.1:30509", "192.168.0.1:40000", "192.168.0.2:30490", "192.168.0.2:40001",
             "239.0.0.1:30490")
EVENT_OF_LIAR = "inject c 30509 192.168.0.2:40001 11118001000000090000000101010200ff"


class Draws:
    """Numbers that are drawn one after the other, always the same ones for the same seed: a linear congruential
    generator, whose first state is the seed."""

    def __init__(self, seed):
        self.state = seed

    def below(self, bound):
        """The next number below a bound; 0 where that is 0."""
        self.state = (self.state * 6364136223846793005 + 1442695040888963407) % 2**64
        return (self.state >> 33) % bound if bound else 0

    def is_seldom(self):
        return self.below(16) == 0

    def mostly(self, often, seldom):
        return seldom if self.is_seldom() else often

    def one_of(self, words):
        return words[self.below(len(words))]


class Sent:
    """A datagram that was sent: by whom, where to, and the line that tells of it."""

    def __init__(self, line, sender, is_to_liar, is_lost):
        self.line, self.sender, self.is_of_liar = line, sender, sender.is_liar
        self.is_to_liar, self.is_lost, self.is_delivered = is_to_liar, is_lost, False


class World:
    """What the lines of a run so far tell. Where it is quiet, all that liars send is lost."""

    def __init__(self, setup, is_quiet):
        self.setup, self.is_quiet = setup, is_quiet
        self.sent, self.requests, self.taken = [], [], 0

    def take_step(self, step):
        if step.word == "deliver" and step.number <= len(self.sent):
            self.sent[step.number - 1].is_delivered = True
        if step.word in ("restart", "answer", "error"):
            # The request of the token waits no more, also where the node refuses the answer; or none of the node does.
            token = step.words[2] if step.word != "restart" else None
            self.requests = [it for it in self.requests if it[0] != step.node or token not in (None, it[1])]

    def take_lines(self, lines):
        for line in lines[self.taken:]:
            if line.kind == "sent":
                self.take_sent(line)
            if line.kind == "request" and line.words[0] != "-":
                self.requests.append((line.node, line.words[0]))
        self.taken = len(lines)

    def take_sent(self, line):
        sender, host = self.setup.named(line.node), host_of(line.destination)
        receiver = self.setup.at(host)
        is_to_node = host == self.setup.group or (receiver is not None and not receiver.is_liar)
        is_lost = sender.is_liar and self.is_quiet or not is_to_node
        self.sent.append(Sent(line, sender, receiver is not None and receiver.is_liar, is_lost))

    def first_open(self, node):
        """The token of the first request that waits at a node."""
        return next((token for name, token in self.requests if name == node), None)

    def last_to_liar(self):
        """The last datagram that a node sent to a liar."""
        return next((it.line for it in reversed(self.sent) if it.is_to_liar and not it.is_of_liar), None)

    def of_nodes(self):
        """The datagrams that nodes sent."""
        return [it.line for it in self.sent if not it.is_of_liar]

    def undelivered(self):
        """The places of the datagrams that no step has delivered, and that are not lost."""
        return [place for place, it in enumerate(self.sent) if not it.is_delivered and not it.is_lost]


# ---- Steps

EITHER = ("one of", ("a", "b"))
SERVER, CLIENT = ("mostly", "a", "b"), ("mostly", "b", "a")
INSTANCE, GROUP = ("mostly", "1111.0001", "1111.0002"), ("mostly", "0001", "0002")
EVENT, METHOD, ONEWAY = ("mostly", "8001", "8002"), ("mostly", "0421", "0423"), ("mostly", "0422", "0423")
ENDPOINT = ("mostly", "192.168.0.2:40001", "192.168.0.2:40002")
CODE = ("one of", ("00", "01", "0a", "5e"))
MILLIS = ("one of", ("1", "10", "30", "60", "100", "500", "1000", "3000"))
PAYLOAD, NODE_AND_TOKEN, DELAY = ("payload",), ("node and token",), ("delay",)
TICK = (EITHER, MILLIS)

# Of a hundred steps, how many are of each kind, the first word of its lines, and their other parts in the order in which
# they are drawn. Those of a `deliver` are drawn by themselves.
KINDS = (
    (12, "tick", TICK),
    (48, "deliver", ()),
    (8, "call", (CLIENT, INSTANCE, METHOD, PAYLOAD)),
    (3, "oneway", (CLIENT, INSTANCE, ONEWAY, PAYLOAD)),
    (7, "answer", (NODE_AND_TOKEN, CODE, PAYLOAD)),
    (2, "error", (NODE_AND_TOKEN, CODE, PAYLOAD)),
    (8, "publish", (SERVER, INSTANCE, EVENT, PAYLOAD)),
    (2, "publish_to", (SERVER, INSTANCE, GROUP, ENDPOINT, EVENT, PAYLOAD)),
    (6, "subscribe", (CLIENT, INSTANCE, GROUP)),
    (1, "unsubscribe", (CLIENT, INSTANCE, GROUP)),
    (1, "stop_offer", (SERVER, INSTANCE)),
    (2, "restart", (EITHER, DELAY)),
)


class Lines:
    """Draws the lines of one schedule."""

    def __init__(self, setup, seed, world):
        self.setup, self.draws, self.world = setup, Draws(seed), world

    def draw(self):
        """Draws the line of a step: of four among liars one that a liar does, if there is something to make it of."""
        if self.setup.has_liar() and self.draws.below(4) == 0 and self.world.of_nodes():
            return self.injection()
        left = self.draws.below(100)
        for weight, word, parts in KINDS:
            if left < weight:
                return self.delivery() if word == "deliver" else self.line(word, parts)
            left -= weight
        raise AssertionError("the weights add up to 100")

    def line(self, word, parts):
        return " ".join([word, *(self.part(*part) for part in parts)])

    def part(self, kind, *words):
        if kind == "one of":
            return self.draws.one_of(*words)
        if kind == "mostly":
            return self.draws.mostly(*words)
        if kind == "payload":
            byte = self.draws.below(256)
            return f"{byte:02x}*{self.draws.one_of(LENGTHS)}"
        if kind == "node and token":
            node = self.draws.mostly("a", "b")
            return f"{node} {self.draws.mostly(self.world.first_open(node) or '1', '999')}"
        return str(self.draws.below(91) + 10)

    def delivery(self):
        """A delivery; a tick where nothing was sent, or what is drawn is lost."""
        place, sent = self.drawn_place(), self.world.sent
        if place < len(sent) and not sent[place].is_lost:
            return f"deliver {place + 1} {self.receiver(sent[place])}"
        return self.line("tick", TICK)

    def drawn_place(self):
        """The place of the datagram that is delivered: of a number below 4, 0 and 1 stand for the first that no step
        has delivered, 2 for the last of these, and 3 for any that was sent, as they all do where each is delivered."""
        which, left = self.draws.below(4), self.world.undelivered()
        if which < 3 and left:
            return left[0 if which < 2 else -1]
        return self.draws.below(len(self.world.sent))

    def receiver(self, sent):
        """The node that a datagram is delivered to. One to the group is mostly delivered to the node that did not send
        it, and one of a liar to either."""
        node = self.setup.at(host_of(sent.line.destination))
        if node is not None:
            return node.name
        if sent.is_of_liar:
            return self.draws.one_of(("a", "b"))
        goes_out = not self.draws.is_seldom()
        return next(node.name for node in self.setup.nodes if (node is not sent.sender) == goes_out)

    # ---- Injections

    def injection(self):
        """Of four draws three times a reply to the last datagram that was sent to the liar, if there is one, and else
        what is made of another that a node sent."""
        asked = self.world.last_to_liar() if self.draws.below(4) else None
        return self.copy() if asked is None else self.reply(asked)

    def reply(self, asked):
        """Each second time an event, and else what is sent back from where that was sent to: of Service Discovery an
        Ack, and else an answer."""
        if self.draws.below(2) == 0:
            return EVENT_OF_LIAR
        port, data = port_of(asked.destination), bytearray(asked.data)
        put(data, *((ENTRY_TYPE, ACK) if port == DISCOVERY_PORT else (MESSAGE_TYPE, RESPONSE)))
        return f"inject c {port} {asked.source} {data.hex() or '-'}"

    def drawn_datagram(self):
        """A datagram that a node sent."""
        datagrams = self.world.of_nodes()
        return datagrams[self.draws.below(len(datagrams))]

    def copy(self):
        """What is made of a datagram that a node sent: the port, the endpoint and the change of its bytes."""
        made_of = self.drawn_datagram()
        port = port_of(made_of.source) if self.draws.below(2) == 0 else self.draws.one_of(PORTS)
        to = made_of.destination if self.draws.below(2) == 0 else self.draws.one_of(ENDPOINTS)
        return f"inject c {port} {to} {self.changed(bytearray(made_of.data)).hex() or '-'}"

    def changed(self, data):
        which = self.draws.below(8)
        if 1 <= which <= 4:
            put_own_address(data)
        elif which == 5:
            place, byte = self.draws.below(len(data)), self.draws.below(256)
            put(data, place, byte)
        elif which == 6:
            del data[self.draws.below(len(data)):]
        elif which == 7:
            data += self.drawn_datagram().data
        return data


def put(data, place, byte):
    """Puts a byte at a place, if it is there."""
    if place < len(data):
        data[place] = byte


def put_own_address(data):
    """Puts the address of the liar in place of those of the nodes."""
    for place in range(3, len(data)):
        if data[place - 3:place] == FRONT and data[place] in (1, 2):
            data[place] = OWN
