"""A SOME/IP node for benches: the library for C, by ctypes.

A node has no sockets, no clock and no threads: the bench carries
datagrams to it and from it, and tells it how much time has passed.

The module loads the shared library that the environment variable
SOMEIP_LIBRARY names; or libsomeip.so beside it, or in the folder lib
that ./install makes; or else one that the system finds.

Names are those of someip.h, which says what each function does and
what each number means. `from`, a word of Python, is `from_` here.
"""
import ctypes
import ctypes.util
import ipaddress
import os
from typing import NamedTuple


class Endpoint(NamedTuple):
    """An IPv4 address as text and a UDP port, as sockets take them."""

    address: str
    port: int


class Place(NamedTuple):
    """An endpoint of a node, and what is there: `kind` of someip.h.

    Of an instance it has the service and the instance, else 0.
    """

    endpoint: Endpoint
    kind: int
    service: int
    instance: int


# ---- Outputs: what a call of a node gives


class Sent(NamedTuple):
    """Send the payload from `from_` to `to`."""

    from_: Endpoint
    to: Endpoint
    payload: bytes


class Called(NamedTuple):
    """A call was accepted."""

    service: int
    member: int
    session: int


class Request(NamedTuple):
    """A request came. With `has_token` 1 it is to be answered."""

    has_token: int
    token: int
    service: int
    instance: int
    member: int
    payload: bytes


class Answered(NamedTuple):
    """An answer came."""

    service: int
    member: int
    session: int
    code: int
    payload: bytes


class TimedOut(NamedTuple):
    """No answer came in time."""

    service: int
    member: int
    session: int


class Event(NamedTuple):
    """An event came."""

    service: int
    instance: int
    member: int
    payload: bytes


class Known(NamedTuple):
    """An instance can be called, and is at `to`."""

    service: int
    instance: int
    to: Endpoint


class Gone(NamedTuple):
    """It can be called no longer."""

    service: int
    instance: int


class Subscribed(NamedTuple):
    """Events can come."""

    service: int
    instance: int
    eventgroup: int
    counter: int


class Unsubscribed(NamedTuple):
    """They can come no longer."""

    service: int
    instance: int
    eventgroup: int


class Accepted(NamedTuple):
    """A client at `to` subscribed."""

    service: int
    instance: int
    eventgroup: int
    to: Endpoint
    counter: int


class Nacked(NamedTuple):
    """A client was refused."""

    service: int
    instance: int
    eventgroup: int
    reason: int


class Rebooted(NamedTuple):
    """A peer began again. The port of `from_` is 0."""

    from_: Endpoint


class Dropped(NamedTuple):
    """Something that came was not taken."""

    reason: int
    detail: int


# The types of the outputs, by the numbers of their kinds from 1 on.
KINDS = (Sent, Called, Request, Answered, TimedOut, Event, Known, Gone,
         Subscribed, Unsubscribed, Accepted, Nacked, Rebooted, Dropped)


# ---- Errors: why a call was refused


class SomeipError(Exception):
    """A call was refused.

    `name`, without SOMEIP_, and `number` are those of its outcome.
    """

    name = ""
    number = 0

    def __str__(self):
        return f"{self.name} ({self.number})"


def _error(number, name):
    """The error of an outcome."""
    title = name.title().replace("_", "")
    return type(title, (SomeipError,), {"name": name, "number": number})


Closed = _error(1, "CLOSED")
Held = _error(2, "HELD")
OutputsWait = _error(3, "OUTPUTS_WAIT")
NothingLeft = _error(4, "NOTHING_LEFT")
BufferTooSmall = _error(5, "BUFFER_TOO_SMALL")
NothingDue = _error(6, "NOTHING_DUE")
NotText = _error(7, "NOT_TEXT")
NotToml = _error(8, "NOT_TOML")
Missing = _error(9, "MISSING")
WrongKind = _error(10, "WRONG_KIND")
OutOfRange = _error(11, "OUT_OF_RANGE")
UnknownKey = _error(12, "UNKNOWN_KEY")
Clash = _error(13, "CLASH")
NoSuchNode = _error(14, "NO_SUCH_NODE")
BadDelay = _error(16, "BAD_DELAY")
ClockPast = _error(17, "CLOCK_PAST")
NotWanted = _error(18, "NOT_WANTED")
Failed = _error(19, "FAILED")
OutOfMemory = _error(20, "OUT_OF_MEMORY")
NotOffered = _error(21, "NOT_OFFERED")
Busy = _error(22, "BUSY")
TooLong = _error(23, "TOO_LONG")
UnknownToken = _error(24, "UNKNOWN_TOKEN")
BadErrorCode = _error(26, "BAD_ERROR_CODE")
UnknownEvent = _error(27, "UNKNOWN_EVENT")
NotSubscribed = _error(28, "NOT_SUBSCRIBED")
BadStep = _error(29, "BAD_STEP")
PayloadTooLong = _error(30, "PAYLOAD_TOO_LONG")
NoMemory = _error(31, "NO_MEMORY")
BadShape = _error(32, "BAD_SHAPE")
BadPayload = _error(33, "BAD_PAYLOAD")
BadValue = _error(34, "BAD_VALUE")

ERRORS = {error.number: error for error in SomeipError.__subclasses__()}


# ---- The functions of someip.h


class _Handle(ctypes.Structure):
    _fields_ = [("held", ctypes.c_bool), ("at", ctypes.c_void_p)]


class _Endpoint(ctypes.Structure):
    _fields_ = [("address", ctypes.c_uint8 * 4), ("port", ctypes.c_uint16)]


class _Output(ctypes.Structure):
    _fields_ = [
        ("kind", ctypes.c_uint32),
        ("reason", ctypes.c_uint32),
        ("detail", ctypes.c_uint32),
        ("has_token", ctypes.c_uint32),
        ("token", ctypes.c_uint64),
        ("payload_length", ctypes.c_size_t),
        ("from", _Endpoint),
        ("to", _Endpoint),
        ("service", ctypes.c_uint16),
        ("instance", ctypes.c_uint16),
        ("member", ctypes.c_uint16),
        ("eventgroup", ctypes.c_uint16),
        ("session", ctypes.c_uint16),
        ("code", ctypes.c_uint16),
        ("counter", ctypes.c_uint16),
    ]


def _number(kind):
    """A type of numbers that refuses one that it has no room for."""
    bits = 8 * ctypes.sizeof(kind)

    def from_param(value):
        if not 0 <= value < 1 << bits:
            raise OverflowError(f"{value} is no number of {bits} bits")
        return kind(value)

    return type(kind.__name__, (kind,), {"from_param": from_param})


_U8 = _number(ctypes.c_uint8)
_U16 = _number(ctypes.c_uint16)
_U32 = _number(ctypes.c_uint32)
_U64 = _number(ctypes.c_uint64)
_HANDLE = ctypes.POINTER(_Handle)
_AT = ctypes.POINTER(_Endpoint)
_BYTES = (ctypes.c_char_p, ctypes.c_size_t)
_SIZE = ctypes.POINTER(ctypes.c_size_t)
_OUT = (*_BYTES, _SIZE)
_OUT_16 = ctypes.POINTER(ctypes.c_uint16)
_OUT_32 = ctypes.POINTER(ctypes.c_uint32)

# The version of the library that this module is written for.
VERSION = 1

FUNCTIONS = {
    "someip_version": (),
    "someip_start": (_HANDLE, *_BYTES, *_BYTES, _U32),
    "someip_delays": (*_BYTES, _OUT_32, _OUT_32),
    "someip_endpoint_at": (_HANDLE, ctypes.c_size_t, _AT, _OUT_32, _OUT_16,
                           _OUT_16),
    "someip_restart": (_HANDLE, _U32),
    "someip_close": (_HANDLE,),
    "someip_on_datagram": (_HANDLE, _AT, _AT, *_BYTES),
    "someip_tick": (_HANDLE, _U64),
    "someip_next_due": (_HANDLE, ctypes.POINTER(ctypes.c_uint64)),
    "someip_take": (_HANDLE, ctypes.POINTER(_Output), *_BYTES),
    "someip_next_text": (_HANDLE, ctypes.c_size_t, *_OUT),
    "someip_do": (_HANDLE, *_BYTES),
    "someip_call": (_HANDLE, ctypes.c_bool, _U16, _U16, _U16, *_BYTES),
    "someip_answer": (_HANDLE, _U64, ctypes.c_bool, _U8, *_BYTES),
    "someip_publish": (_HANDLE, _U16, _U16, _U16, *_BYTES),
    "someip_publish_to": (_HANDLE, _U16, _U16, _U16, _AT, _U16, *_BYTES),
    "someip_subscribe": (_HANDLE, _U16, _U16, _U16),
    "someip_unsubscribe": (_HANDLE, _U16, _U16, _U16),
    "someip_stop_offer": (_HANDLE, _U16, _U16),
    "someip_outcome_text": (_U32, *_OUT),
    "someip_refusal_text": (_U32, *_OUT),
    "someip_setup_fault": (*_BYTES, *_OUT),
    "someip_log_setup": (*_BYTES, *_BYTES, _U32, _AT, ctypes.c_size_t, *_OUT),
    "someip_payload_text": (*_BYTES, *_BYTES, *_OUT),
    "someip_payload_bytes": (*_BYTES, *_BYTES, *_OUT),
}


def _path():
    """Where the shared library is."""
    here = os.path.dirname(os.path.abspath(__file__))
    named = os.environ.get("SOMEIP_LIBRARY")
    # (./install puts this package at share/someip/python/someip)
    beside = [f"{here}/libsomeip.so", f"{here}/../../../../lib/libsomeip.so.1"]
    found = named or next(filter(os.path.exists, beside), None)
    return found or ctypes.util.find_library("someip") or "libsomeip.so.1"


def _load():
    """The shared library, with the types of its functions."""
    path = _path()
    library = ctypes.CDLL(path)
    for name, types in FUNCTIONS.items():
        function = getattr(library, name)
        function.argtypes = types
        function.restype = ctypes.c_uint32
    if library.someip_version() != VERSION:
        raise ImportError(f"{path} has version {library.someip_version()}, "
                          f"not {VERSION}")
    return library


_LIBRARY = _load()


def _must(outcome):
    """Raises the error of an outcome that is not SOMEIP_DONE."""
    if outcome != 0:
        raise ERRORS[outcome]()


def _in_c(endpoint):
    """An endpoint, or an address and a port, for the library."""
    address, port = endpoint
    packed = ipaddress.IPv4Address(address).packed
    return _Endpoint(tuple(packed), _U16.from_param(port))


def _endpoint_of(endpoint):
    """An endpoint of the library."""
    address = ipaddress.IPv4Address(bytes(endpoint.address))
    return Endpoint(str(address), endpoint.port)


def _written(function, *arguments):
    """The bytes that a function of the library writes."""
    buffer, length = ctypes.create_string_buffer(256), ctypes.c_size_t()
    while True:
        outcome = function(*arguments, buffer, len(buffer), length)
        if outcome != BufferTooSmall.number:
            _must(outcome)
            return buffer[:length.value]
        buffer = ctypes.create_string_buffer(length.value)


def delays(setup):
    """The least and the greatest delay_ms that a start of a node takes."""
    text = setup.encode()
    least, greatest = ctypes.c_uint32(), ctypes.c_uint32()
    _must(_LIBRARY.someip_delays(text, len(text), least, greatest))
    return least.value, greatest.value


def setup_fault(setup):
    """Why a text is no setup, as `Missing group`; empty where it is one."""
    text = setup.encode()
    return _written(_LIBRARY.someip_setup_fault, text, len(text)).decode()


def _output_of(record, payload):
    """An output, of what the library wrote."""
    kind = KINDS[record.kind - 1]
    values = []
    for name in kind._fields:
        value = getattr(record, name.rstrip("_"), payload)
        if isinstance(value, _Endpoint):
            value = _endpoint_of(value)
        values.append(value)
    return kind(*values)


class Node:
    """A node of a setup's text (docs/RUNNING.md).

    Each method that gives outputs answers the list of them, and raises
    a SomeipError where the call is refused; then nothing has changed,
    but that the node has failed where that is OutOfMemory. One thread
    at a time uses a node, the one that made it. Close each node: `with
    Node(..) as node` does.
    """

    def __init__(self, setup, name, delay_ms):
        """Starts the node of this name in the setup, a text.

        Its first Offers and Finds go out delay_ms after this.
        """
        self._handle = _Handle()
        self._buffer = ctypes.create_string_buffer(65536)
        text, name = setup.encode(), name.encode()
        _must(_LIBRARY.someip_start(self._handle, text, len(text),
                                    name, len(name), delay_ms))

    def __enter__(self):
        return self

    def __exit__(self, *_):
        self.close()

    def places(self):
        """Its endpoints: Service Discovery, client, instances, group."""
        places = []
        while True:
            at, kind = _Endpoint(), ctypes.c_uint32()
            service, instance = ctypes.c_uint16(), ctypes.c_uint16()
            outcome = _LIBRARY.someip_endpoint_at(
                self._handle, len(places), at, kind, service, instance)
            if outcome == NothingLeft.number:
                return places
            _must(outcome)
            places.append(Place(_endpoint_of(at), kind.value, service.value,
                                instance.value))

    def do(self, step):
        """Does a step of a schedule, written without the node.

        As `call 1111.0001 0421 0102`: the call of the same name.
        """
        words = step.encode()
        return self._given(_LIBRARY.someip_do(self._handle, words, len(words)))

    def restart(self, delay_ms):
        """Begins the node's life anew. Forget all sessions and tokens."""
        _must(_LIBRARY.someip_restart(self._handle, delay_ms))

    def close(self):
        """Ends the node and frees its memory, if that was not done."""
        outcome = _LIBRARY.someip_close(self._handle)
        if outcome != Closed.number:
            _must(outcome)

    def on_datagram(self, from_, to, payload):
        """A UDP datagram came from an endpoint to another."""
        return self._given(_LIBRARY.someip_on_datagram(
            self._handle, _in_c(from_), _in_c(to), payload, len(payload)))

    def tick(self, ms):
        """So many milliseconds have passed since the last tick."""
        return self._given(_LIBRARY.someip_tick(self._handle, ms))

    def next_due(self):
        """In how many milliseconds from the last tick on one gives something.

        None where none will, if nothing else happens before.
        """
        due = ctypes.c_uint64()
        outcome = _LIBRARY.someip_next_due(self._handle, due)
        if outcome == NothingDue.number:
            return None
        _must(outcome)
        return due.value

    def call(self, service, instance, method, payload=b"", waits=True):
        """Calls a method. With `waits` an answer is awaited."""
        return self._given(_LIBRARY.someip_call(
            self._handle, waits, service, instance, method,
            payload, len(payload)))

    def answer(self, token, payload=b"", code=0, is_error=False):
        """Answers the request of a token."""
        return self._given(_LIBRARY.someip_answer(
            self._handle, token, is_error, code, payload, len(payload)))

    def publish(self, service, instance, event, payload=b""):
        """Publishes an event to all that are subscribed."""
        return self._given(_LIBRARY.someip_publish(
            self._handle, service, instance, event, payload, len(payload)))

    def publish_to(self, service, instance, eventgroup, endpoint, event,
                   payload=b""):
        """Publishes an event to one endpoint that is subscribed."""
        return self._given(_LIBRARY.someip_publish_to(
            self._handle, service, instance, eventgroup, _in_c(endpoint),
            event, payload, len(payload)))

    def subscribe(self, service, instance, eventgroup):
        """Wishes an eventgroup of an instance."""
        return self._given(_LIBRARY.someip_subscribe(
            self._handle, service, instance, eventgroup))

    def unsubscribe(self, service, instance, eventgroup):
        """Takes that wish back."""
        return self._given(_LIBRARY.someip_unsubscribe(
            self._handle, service, instance, eventgroup))

    def stop_offer(self, service, instance):
        """Stops the offer of an instance until the next restart."""
        return self._given(_LIBRARY.someip_stop_offer(
            self._handle, service, instance))

    def _given(self, outcome):
        """What a call with this outcome gave, taken until nothing is left."""
        _must(outcome)
        outputs, record = [], _Output()
        while True:
            outcome = _LIBRARY.someip_take(
                self._handle, record, self._buffer, len(self._buffer))
            if outcome == NothingLeft.number:
                return outputs
            if outcome == BufferTooSmall.number:
                length = record.payload_length
                self._buffer = ctypes.create_string_buffer(length)
                continue
            _must(outcome)
            payload = self._buffer[:record.payload_length]
            outputs.append(_output_of(record, payload))
