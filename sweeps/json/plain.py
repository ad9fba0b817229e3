"""The plain line of an object, made by docs/JSON_LINES.md alone. A value's line is not made again."""


def digit(flag):
    return "1" if flag else "0"


def ids(line, second):
    return f"{line['service']}.{line[second]}"


def message(line):
    return (f"{line['kind']} {ids(line, 'method')} length {line['length']} client {line['client']} "
            f"session {line['session']} interface {line['interface']} type {line['type']} code {line['code']} "
            f"payload {line['payload'] or '-'}")


def option(it):
    name = it["option"]
    if name == "load":
        return f"load {it['priority']} {it['weight']}"
    if name == "unknown":
        return f"unknown {it['type']} {it['bytes'] or '-'}"
    return f"{name} {it['address']}:{it['port']} {it['protocol']}"


def runs(line):
    if "badrun" in line:
        return "badrun"
    return " ".join(f"{run} [{', '.join(map(option, line[run]))}]" for run in ("run1", "run2"))


def entry(line):
    head = f"{line['kind']} {ids(line, 'instance')} major {line['major']} ttl {line['ttl']}"
    if "group" in line:
        return f"{head} counter {line['counter']} group {line['group']} {runs(line)}"
    return f"{head} minor {line['minor']} {runs(line)}"


SHOWN = {
    "message": message,
    "whole": message,
    "segment": lambda line: f"segment offset {line['offset']} more {digit(line['more'])} bytes {line['bytes']}",
    "dropped": lambda line: f"dropped {line['name']}",
    "sd": lambda line: (f"sd reboot {digit(line['reboot'])} unicast {digit(line['unicast'])} "
                        f"entries {line['entries']}"),
    "empty": lambda line: "empty",
    "fault": lambda line: f"fault {line['name']} at {line['at']}",
    **dict.fromkeys(("find", "offer", "stopoffer", "subscribe", "stopsubscribe", "ack", "nack"), entry),
}


def shown(line):
    """A line of `show` and `recording`, but one of a value."""
    return origin(line) + f"{line['datagram']} {SHOWN[line['kind']](line)}"


def time(line):
    return "-" if line["time"] is None else line["time"]


def frame(line):
    return f"#{line['frame']} " if "frame" in line else ""


def origin(line):
    """What `--frames` and `--endpoints` put before a line."""
    return frame(line) + (f"{time(line)} {line['from']} {line['to']} " if "from" in line else "")


def call(line):
    return f"{ids(line, 'method')} client {line['client']} session {line['session']}"


def offer(line):
    return f"{ids(line, 'instance')} major {line['major']}"


def subscription(line):
    return f"{offer(line)} group {line['group']} counter {line['counter']}"



def event_session(line):
    last = f" to {line['last']}" if "last" in line else ""
    return f"{ids(line, 'event')} session {line['session']}{last}"


FOUND = {
    "malformed": lambda line: f"{line['name']} at {line['at']}",
    **dict.fromkeys(("bad-run", "no-endpoint"), lambda line: ids(line, "instance")),
    "reboot": lambda line: "",
    "sd-overtaken": lambda line: f"session {line['session']}",
    "sd-session": lambda line: f"{line['session']} expected {line['expected']}",
    "late": lambda line: f"{line['ms']} ms {call(line)}",
    "error": lambda line: f"{line['code']} {call(line)}",
    **dict.fromkeys(("unanswered", "unasked", "repeated", "key-reused", "not-offered", "segments-missing"), call),
    **dict.fromkeys(("event-repeated", "event-overtaken", "event-gap"), event_session),
    "event-unsubscribed": lambda line: ids(line, "event"),
    "silent": lambda line: f"{ids(line, 'event')} for {line['ms']} ms",
    "interface": lambda line: f"{line['interface']} expected {line['expected']} {ids(line, 'method')}",
    "segments": lambda line: f"{line['name']} {call(line)}",
    **dict.fromkeys(("offer-expired", "offer-moved"), offer),
    **dict.fromkeys(("nack", "subscribe-unanswered", "unasked-ack", "unasked-nack"), subscription),
    "full": lambda line: line["name"],
}


# The kinds of packets that gave no datagram: the key of each, and its words.
LEFT_OUT = {
    "linktype": "of another link type",
    "notipv4": "not IPv4",
    "notudp": "not UDP",
    "cut": "cut short",
    "badlength": "with a bad UDP length",
    "copies": "copies",
    "incomplete": "fragments without the rest",
    "differing": "fragments that differ",
}


def left_out(line):
    """The plain line of packets that gave no datagram."""
    return f"left out {', '.join(f'{line[key]} {words}' for key, words in LEFT_OUT.items() if int(line[key]))}"


# What could not be judged.
UNJUDGED = {
    "left-out": left_out,
    "not-looked-at": lambda line: f"not looked at {line['datagrams']} datagrams",
    "no-offer": lambda line: "no Offer was seen",
    "one-way": lambda line: f"one way {line['from']} {line['to']} {line['messages']}",
}


def audited(line):
    """A line of `audit`."""
    if line["kind"] == "audited":
        return f"audited {line['datagrams']} datagrams, {line['messages']} messages, {line['findings']} findings"
    if line["kind"] in UNJUDGED:
        return UNJUDGED[line["kind"]](line)
    words = line["kind"].replace("-", " ")
    if "count" in line:
        return f"{words} {line['count']}"
    if "most" in line:
        return f"{words} {absent(line['service'])}.{absent(line['method'])} at most {line['most']} came {line['came']}"
    if "more" in line:
        return f"{words} {absent(line['service'])}.{absent(line['method'])} {line['from']} {line['to']} {line['more']} more"
    head = f"{frame(line)}{time(line)} {line['datagram']} {line['from']} {line['to']}"
    allowed = "allowed " if "allowed" in line else ""
    return f"{head} {allowed}{words} {FOUND[line['kind']](line)}".rstrip()


def absent(text):
    return "-" if text is None else text


RAN = {
    "sent": lambda line: f"{line['datagram']} {line['from']} {line['to']} {line['payload'] or '-'}",
    "call": lambda line: f"{ids(line, 'method')} {line['session']}",
    "request": lambda line: (f"{absent(line['token'])} {line['service']}.{line['instance']} {line['method']} "
                             f"{line['payload'] or '-'}"),
    "answer": lambda line: f"{ids(line, 'method')} {line['session']} {line['code']} {line['payload'] or '-'}",
    "timeout": lambda line: f"{ids(line, 'method')} {line['session']}",
    "event": lambda line: f"{ids(line, 'instance')} {line['event']} {line['payload'] or '-'}",
    "known": lambda line: f"{ids(line, 'instance')} {line['endpoint']}",
    "gone": lambda line: ids(line, "instance"),
    "subscribed": lambda line: f"{ids(line, 'instance')} {line['group']} {line['counter']}",
    "unsubscribed": lambda line: f"{ids(line, 'instance')} {line['group']}",
    "accepted": lambda line: f"{ids(line, 'instance')} {line['group']} {line['endpoint']} {line['counter']}",
    "nacked": lambda line: f"{ids(line, 'instance')} {line['group']} {line['cause']}",
    "reboot": lambda line: line["address"],
    **dict.fromkeys(("refused", "dropped"), lambda line: line["name"]),
}


def ran(line):
    """A line of `run`."""
    came_by = f"{absent(line['line'])} " if "line" in line else ""
    if line["kind"] == "reuse":
        return f"{came_by}reuse {line['result']}" + (f" at {line['at']}" if "at" in line else "")
    return f"{came_by}{line['step']} {line['node']} {line['kind']} {RAN[line['kind']](line)}"


def judged(line):
    """A line of `vectors`."""
    if line["kind"] == "passed":
        return f"passed {line['passed']} of {line['of']}"
    return f"{line['vector']} {line['result']}"


SERVED = {
    "offer": lambda line: f"minor {line['minor']} {line['endpoint']}",
    "subscription": lambda line: f"group {line['group']} {line['endpoint']} at {line['server']}",
}


def served(line):
    """A line of `services`."""
    if line["kind"] == "full":
        return f"full {line['name']}"
    return (f"{line['kind']} {line['service']}.{line['instance']} major {line['major']} {SERVED[line['kind']](line)} "
            f"from {line['since']} until {line['until']} {line['why']}")


def times(line):
    return " ".join(absent(line[key]) for key in ("least", "p50", "p99", "greatest"))


COUNTED = {
    "method": lambda line: (f"{ids(line, 'method')} {line['client']} {line['server']} calls {line['calls']} "
                            f"answers {line['answers']} errors {line['errors']} unanswered {line['unanswered']} "
                            f"latency {times(line)}"),
    "event": lambda line: (f"{ids(line, 'event')} {line['from']} {line['to']} count {line['count']} "
                           f"bytes {line['bytes']} cycle {times(line)} gaps {line['gaps']}"),
    "discovery": lambda line: f"{line['from']} {line['to']} messages {line['messages']} reboots {line['reboots']}",
    "full": lambda line: line["name"],
}


def counted(line):
    """A line of `stats`."""
    return f"{line['kind']} {COUNTED[line['kind']](line)}"


# By command.
PLAIN = {"show": shown, "recording": shown, "audit": audited, "run": ran, "vectors": judged, "services": served,
         "stats": counted}
