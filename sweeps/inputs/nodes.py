#!/usr/bin/env python3
"""nodes: datagrams that are cut and changed, as `inputs` changes them, and handed to a node.

nodes.py PROGRAM runs the node b of examples/runs/two.toml, which wants an instance, by the built program. In place of
its node a stands a liar under that one's address, which sends all that b gets: so each datagram comes from a's
endpoint of Service Discovery and from the endpoint of its instance, to b's endpoint of Service Discovery, to the
group and to b's client. Each of the six goes to a node that has just begun, and to one that went through the first
nine steps of examples/runs/two.txt: it knows the offer, had a call answered, and is subscribed. Nodes begin anew each
time.

The node takes the datagram without refusing it, and then answers a call of the instance as it owes it:

- Where the node told in answer to the datagram that the instance is known, or is gone, the last such line decides;
  else it is as before, unknown to the new node, and at 192.168.0.1:30509 for the other. A datagram may hold an Offer
  or a StopOffer, or a changed one with another port, and the node's own line says what it took of it.
- Where the instance is known the call is told and sent there, byte for byte as by a node that got no datagram: with
  session 1 from the new node and 2 from the other. No datagram that comes moves the sessions of calls.
- Where it is not known the call is refused as `NotOffered`.
"""
import concurrent.futures
import os
import subprocess
import sys
import tempfile
from typing import NamedTuple, Optional

from changes import ACK, ANSWER, OFFER, Input, changes, read_vectors

# So many datagrams are handed over in a run.
IN_A_RUN = 24
GROUP, DISCOVERY, CLIENT = "239.0.0.1:30490", "192.168.0.2:30490", "192.168.0.2:40001"
SERVER = "192.168.0.1:30509"
WAYS = [(port, to) for port in (30490, 30509) for to in (DISCOVERY, GROUP, CLIENT)]
CALL = "call b 1111.0001 0421 0102"
REQUEST = "111104210000000a0102{:04x}010100000102"
SETUP = """
group = "239.0.0.1"
[[node]]
name = "a"
address = "192.168.0.1"
client_id = 0x0101
client_port = 40000
liar = true
[[node]]
name = "b"
address = "192.168.0.2"
client_id = 0x0102
client_port = 40001
[[node.want]]
service = 0x1111
instance = 1
major = 1
ttl = 3
groups = [{ id = 1, events = [0x8001] }]
"""
# What the node got in the worked run, and what it did: of what it gave these words are looked for.
SENT_BEFORE = [f"inject a 30490 {GROUP} {OFFER.hex()}", f"inject a 30509 {CLIENT} {ANSWER.hex()}",
               f"inject a 30490 {DISCOVERY} {ACK.hex()}"]
WORKED = [("deliver 1 b", "known 1111.0001 192.168.0.1:30509"), (CALL, "call 1111.0421 0001"),
          ("deliver 2 b", "answer 1111.0421 0001 00 03"), ("subscribe b 1111.0001 0001", "sent "),
          ("deliver 3 b", "subscribed 1111.0001 0001 0")]


class Past(NamedTuple):
    """What a node went through: the steps, where it knows the instance, and the session of its next call."""

    name: str
    steps: list
    known: Optional[str]
    session: int


PASTS = (Past("new", [], None, 1), Past("worked", WORKED, SERVER, 2))


def schedule_of(inputs):
    """The lines of a run that hands over each input by each way to each node, and the steps at which it is judged."""
    lines, trials = list(SENT_BEFORE), []
    for given in inputs:
        lines += [f"inject a {port} {to} {given.data.hex() or '-'}" for port, to in WAYS]
    for at, given in enumerate(inputs):
        for number, way in enumerate(WAYS, 4 + len(WAYS) * at):
            for past in PASTS:
                lines.append("restart b 10")
                begin = len(lines)
                lines += [step for step, _ in past.steps] + [f"deliver {number} b", CALL]
                trials.append((given, way, past, begin + 1))
    return lines, trials


def outputs_of(trace):
    """What b gave in each step."""
    found = {}
    for line in trace.splitlines()[:-1]:
        step, node, told = line.split(" ", 2)
        if node == "b":
            found.setdefault(int(step), []).append(told)
    return found


def known_after(known, outputs):
    """Where the instance is known after these outputs."""
    for told in outputs:
        if told.startswith("known 1111.0001 "):
            known = told.split(" ")[2]
        elif told == "gone 1111.0001":
            known = None
    return known


def is_owed(outputs, known, session):
    """Whether a call is answered as it is owed where the instance is known there."""
    if known is None:
        return outputs == ["refused NotOffered"]
    if len(outputs) != 2 or outputs[0] != f"call 1111.0421 {session:04x}":
        return False
    sent, _, *rest = outputs[1].split(" ")
    return [sent, *rest] == ["sent", CLIENT, known, REQUEST.format(session)]


def wrong_of(trial, outputs):
    """What is wrong with what the node gave in a trial, or nothing."""
    given, (port, to), past, step = trial
    for at, (_, told) in enumerate(past.steps):
        if not any(it.startswith(told) for it in outputs.get(step + at, [])):
            return f"before it came: no {told} in {outputs.get(step + at)}"
    step += len(past.steps)
    taken, called = outputs.get(step, []), outputs.get(step + 1, [])
    if any(told.startswith("refused ") for told in taken):
        return f"the datagram is refused: {taken}"
    if not is_owed(called, known_after(past.known, taken), past.session):
        return f"after {taken} a call came to {called}"
    return None


def hand_over(program, room, number, inputs):
    """How often inputs were handed over, and what was found."""
    lines, trials = schedule_of(inputs)
    path = f"{room}/{number}"
    with open(path, "w", encoding="ascii") as file:
        file.writelines(f"{line}\n" for line in lines)
    ended = subprocess.run([program, "run", f"{room}/setup", path], capture_output=True, text=True, timeout=60)
    os.remove(path)
    if (ended.returncode, ended.stderr) != (0, ""):
        return len(trials), [f"{inputs[0].origin} and others: status {ended.returncode}, {ended.stderr}"]
    outputs, findings = outputs_of(ended.stdout), []
    for trial in trials:
        wrong = wrong_of(trial, outputs)
        if wrong:
            given, (port, to), past, _ = trial
            findings.append(f"{given.origin}, from port {port} to {to}, {past.name} node: {given.data.hex()}: {wrong}")
    return len(trials), findings


def main():
    program = os.path.abspath(sys.argv[1])
    datagrams = [*read_vectors()[0], Input("the Offer", OFFER), Input("the answer", ANSWER), Input("the Ack", ACK)]
    inputs = [it for whole in datagrams for it in changes(whole)]
    parts = [inputs[at:at + IN_A_RUN] for at in range(0, len(inputs), IN_A_RUN)]
    with tempfile.TemporaryDirectory() as room, concurrent.futures.ThreadPoolExecutor(os.cpu_count()) as pool:
        with open(f"{room}/setup", "w", encoding="ascii") as file:
            file.write(SETUP)
        came = list(pool.map(lambda part: hand_over(program, room, *part), enumerate(parts)))
    findings = [finding for _, found in came for finding in found]
    print("".join(f"nodes: {finding}\n" for finding in findings), end="")
    if not findings:
        print(f"nodes: {len(inputs)} datagrams, handed to nodes {sum(count for count, _ in came)} times, no finding")
    sys.exit(1 if findings else 0)


if __name__ == "__main__":
    main()
