"""SOME/IP nodes for benches in Python.

`Node` is one node, whose datagrams the bench carries; `Network` is all
nodes of a setup in one process, and keeps what was done as a schedule.
Setups and schedules are those of docs/RUNNING.md. `payload` makes texts
of payloads, and payloads of texts.

The package needs the shared library for C, and Python alone.
"""
from someip import payload
from someip.network import Network
from someip.node import (
    ERRORS, FUNCTIONS, KINDS, VERSION, Accepted, Answered, BadDelay,
    BadErrorCode, BadPayload, BadShape, BadStep, BadValue, BufferTooSmall,
    Busy, Called, Clash, ClockPast, Closed, Dropped, Endpoint, Event, Failed, Gone, Held, Known, Missing,
    Nacked, NoMemory, Node, NoSuchNode, NotOffered, NotSubscribed, NotText,
    NotToml, NotWanted, NothingDue, NothingLeft, OutOfMemory, OutOfRange,
    OutputsWait, PayloadTooLong, Place, Rebooted, Request, Sent, SomeipError,
    Subscribed, TimedOut, TooLong, UnknownEvent, UnknownKey, UnknownToken,
    Unsubscribed, WrongKind, delays, setup_fault)

__all__ = [
    "ERRORS", "FUNCTIONS", "KINDS", "VERSION", "Network", "Node", "Endpoint",
    "Place", "delays", "payload", "setup_fault",
    *(kind.__name__ for kind in KINDS), "SomeipError",
    *(error.__name__ for error in ERRORS.values())]
