"""The nodes of a setup in one process, and what was done as a schedule."""
import tomllib

from someip.node import (
    BadDelay, ClockPast, Node, Sent, SomeipError)


def _word(payload):
    """A payload as a step has it."""
    return payload.hex() or "-"


def _instance(service, instance):
    return f"{service:04x}.{instance:04x}"


class Network:
    """The honest nodes of a setup, a text, which begin at once.

    What they send waits until it is delivered or lost. Each method
    that has a node do something takes its name first, and answers what
    it gave but datagrams. `deliver` answers pairs of a name and what
    that node gave. What was done is kept: `schedule` has it as the text
    that `someipctl run` and `chart` take, beside the setup.
    """

    def __init__(self, setup):
        tables = tomllib.loads(setup)
        self._limit = tables.get("message_limit", 65536)
        self._group = tables["group"]
        self._steps = []
        self._sent = []
        self._waiting = []
        self._nodes = {}
        self._names = {}
        least = tables.get("initial_min", 10)
        try:
            for table in tables["node"]:
                if not table.get("liar", False):
                    self._start(setup, table, table.get("delay", least))
        except SomeipError:
            self.close()
            raise

    def _start(self, setup, table, delay_ms):
        name = table["name"]
        self._nodes[name] = Node(setup, name, delay_ms)
        self._names[table["address"]] = name

    def __enter__(self):
        return self

    def __exit__(self, *_):
        self.close()

    def close(self):
        """Ends all nodes."""
        for node in self._nodes.values():
            node.close()

    def node(self, name):
        """A node. What it is told past this network is in no schedule."""
        return self._nodes[name]

    def sent(self, number):
        """The datagram with a number. They count from 1 as they are sent."""
        return self._sent[number - 1]

    def sent_count(self):
        """How many datagrams were sent."""
        return len(self._sent)

    def waiting(self):
        """The numbers of the datagrams that wait, the oldest first."""
        return list(self._waiting)

    # ---- datagrams

    def deliver(self, number=None):
        """Delivers a datagram that waits, or the oldest one."""
        number = self._taken(number)
        return self._carry(number)

    def deliver_all(self):
        """Delivers what waits, and what that sends, until nothing waits."""
        given = []
        while self._waiting:
            given += self.deliver()
        return given

    def lose(self, number=None):
        """Loses a datagram that waits, or the oldest one."""
        self._taken(number)

    def repeat(self, number):
        """Delivers a datagram once more, or one that was lost."""
        return self._carry(number)

    def _taken(self, number):
        if number is None:
            if not self._waiting:
                raise IndexError("no datagram waits")
            return self._waiting.pop(0)
        self._waiting.remove(number)
        return number

    def _carry(self, number):
        datagram = self.sent(number)
        given = []
        for name in self._receivers(datagram):
            self._steps.append(f"deliver {number} {name}")
            outputs = self._nodes[name].on_datagram(*datagram)
            given += [(name, output) for output in self._kept(outputs)]
        return given

    def _receivers(self, datagram):
        """Of the group all nodes but the sender, else the one there."""
        if datagram.to.address != self._group:
            name = self._names.get(datagram.to.address)
            return [] if name is None else [name]
        sender = self._names[datagram.from_.address]
        return [name for name in self._nodes if name != sender]

    def _kept(self, outputs):
        """What is no datagram. The datagrams wait."""
        for output in outputs:
            if isinstance(output, Sent):
                self._sent.append(output)
                self._waiting.append(len(self._sent))
        return [it for it in outputs if not isinstance(it, Sent)]

    # ---- what nodes do

    def _done(self, step, call, is_bad=False):
        """Does a step. A call that no schedule may have is not kept."""
        try:
            outputs = call()
        except (BadDelay, ClockPast):
            raise
        except SomeipError:
            if not is_bad:
                self._steps.append(step)
            raise
        self._steps.append(step)
        return self._kept(outputs or [])

    def tick(self, name, ms):
        """The clock of a node goes on."""
        return self._done(f"tick {name} {ms}",
                          lambda: self._nodes[name].tick(ms))

    def tick_all(self, ms):
        """The clocks of all nodes go on: pairs, as of `deliver`."""
        return [(name, output) for name in self._nodes
                for output in self.tick(name, ms)]

    def call(self, name, service, instance, method, payload=b"", waits=True):
        """A node calls a method. With `waits` it awaits an answer."""
        word = "call" if waits else "oneway"
        return self._done(
            f"{word} {name} {_instance(service, instance)} {method:04x} "
            f"{_word(payload)}",
            lambda: self._nodes[name].call(service, instance, method, payload,
                                           waits),
            self._is_long(payload))

    def answer(self, name, token, payload=b"", code=0, is_error=False):
        """A node answers the request of a token."""
        word = "error" if is_error else "answer"
        return self._done(
            f"{word} {name} {token} {code:02x} {_word(payload)}",
            lambda: self._nodes[name].answer(token, payload, code, is_error),
            self._is_long(payload))

    def publish(self, name, service, instance, event, payload=b""):
        """A node publishes an event to all that are subscribed."""
        return self._done(
            f"publish {name} {_instance(service, instance)} {event:04x} "
            f"{_word(payload)}",
            lambda: self._nodes[name].publish(service, instance, event,
                                              payload),
            self._is_long(payload))

    def publish_to(self, name, service, instance, eventgroup, endpoint, event,
                   payload=b""):
        """A node publishes an event to one endpoint."""
        address, port = endpoint
        return self._done(
            f"publish_to {name} {_instance(service, instance)} "
            f"{eventgroup:04x} {address}:{port} {event:04x} {_word(payload)}",
            lambda: self._nodes[name].publish_to(service, instance, eventgroup,
                                                 endpoint, event, payload),
            self._is_long(payload))

    def subscribe(self, name, service, instance, eventgroup):
        """A node wishes an eventgroup."""
        return self._done(
            f"subscribe {name} {_instance(service, instance)} "
            f"{eventgroup:04x}",
            lambda: self._nodes[name].subscribe(service, instance, eventgroup))

    def unsubscribe(self, name, service, instance, eventgroup):
        """A node takes that wish back."""
        return self._done(
            f"unsubscribe {name} {_instance(service, instance)} "
            f"{eventgroup:04x}",
            lambda: self._nodes[name].unsubscribe(service, instance,
                                                  eventgroup))

    def stop_offer(self, name, service, instance):
        """A node stops the offer of an instance."""
        return self._done(
            f"stop_offer {name} {_instance(service, instance)}",
            lambda: self._nodes[name].stop_offer(service, instance))

    def restart(self, name, delay_ms):
        """A node's life begins anew."""
        return self._done(f"restart {name} {delay_ms}",
                          lambda: self._nodes[name].restart(delay_ms))

    def _is_long(self, payload):
        return self._limit < len(payload)

    # ---- schedules

    def schedule(self):
        """What was done, as the text of a schedule."""
        return "".join(f"{step}\n" for step in self._steps)
