"""Setups, steps and traces as they are written, word by word."""
import re


def host_of(endpoint):
    return endpoint.split(":")[0]


def port_of(endpoint):
    return endpoint.split(":")[1]


class Node:
    """A node of a setup, with the endpoints of the instances that it offers."""

    def __init__(self, text):
        self.name = re.search(r'^name = "(.*)"', text, re.M)[1]
        self.address = re.search(r'^address = "(.*)"', text, re.M)[1]
        self.is_liar = "\nliar = true" in text
        self.offers = {}
        for offer in text.split("[[node.offer]]")[1:]:
            service, instance, port = (int(re.search(rf"^{key} = (\w+)", offer, re.M)[1], 0) for key in
                                       ("service", "instance", "port"))
            self.offers[f"{service:04x}.{instance:04x}"] = f"{self.address}:{port}"


class Setup:
    """The setup of a file."""

    def __init__(self, path):
        common, *nodes = path.read_text().split("[[node]]")
        self.path = path
        self.group = re.search(r'^group = "(.*)"', common, re.M)[1]
        self.nodes = [Node(text) for text in nodes]

    def named(self, name):
        return next(node for node in self.nodes if node.name == name)

    def at(self, address):
        """The node, or the liar, at an address."""
        return next((node for node in self.nodes if node.address == address), None)

    def has_liar(self):
        return any(node.is_liar for node in self.nodes)


class Step:
    """A step, as its line says it."""

    def __init__(self, text):
        self.text, self.words = text, text.split(" ")
        self.word = self.words[0]
        self.node = self.words[2 if self.word == "deliver" else 1]
        self.number = int(self.words[1]) if self.word == "deliver" else None

    def payload(self):
        """The payload, as a trace tells it."""
        byte, count = self.words[-1].split("*")
        return byte * int(count) or "-"

    def payload_length(self):
        return int(self.words[-1].split("*")[1])


class Line:
    """A line of a trace that was printed with the numbers of the lines of the schedule."""

    def __init__(self, text):
        self.number, step, self.node, self.told = text.split(" ", 3)
        self.step = int(step)
        self.kind, *self.words = self.told.split(" ")
        if self.kind == "sent":
            # Two runs may number a datagram otherwise.
            _, self.source, self.destination, digits = self.words
            self.told = f"sent {self.source} {self.destination} {digits}"
            self.data = b"" if digits == "-" else bytes.fromhex(digits)


class Trace:
    """The trace of a run: its lines, and the step at which reuse is broken."""

    def __init__(self, text):
        *lines, verdict = text.splitlines()
        self.lines = [Line(line) for line in lines]
        broken = re.fullmatch(r"- reuse (?:clean|broken at (\d+))", verdict)
        self.broken_at = int(broken[1]) if broken[1] else None
        self.of_step = {}
        for line in self.lines:
            self.of_step.setdefault(line.step, []).append(line)

    def told(self, index):
        """The lines of a step."""
        return self.of_step.get(index, [])

    def sent(self):
        """The datagrams, of which the first has the number 1."""
        return [line for line in self.lines if line.kind == "sent"]

    def is_clean_up_to(self, index):
        return self.broken_at is None or index < self.broken_at


PAYLOAD_AT = {"request": 3, "answer": 3, "event": 2}


def payload_of(line):
    """The payload that a line tells of, in hex; none where it tells of none."""
    place = PAYLOAD_AT.get(line.kind)
    return None if place is None else line.words[place]
