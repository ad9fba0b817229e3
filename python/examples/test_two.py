"""A bench for pytest: a server a and a client b of one service."""
import pytest

import someip
from someip import payload

SERVICE, INSTANCE, METHOD, EVENT, EVENTGROUP = 0x1111, 1, 0x0421, 0x8001, 1
THERE = SERVICE, INSTANCE
SHAPE = "struct(speed:f32,gear:u8{0=P,3=D})"


def discover(net):
    """Has a offer its service, and b hear of it."""
    net.tick("a", 10)
    net.deliver_all()


def test_a_call_is_answered(net):
    discover(net)
    net.call("b", *THERE, METHOD, b"\1\2")
    ((_, request),) = net.deliver()
    assert request.payload == b"\1\2"
    net.answer("a", request.token, b"\3")
    ((_, answer),) = net.deliver_all()
    assert answer == someip.Answered(SERVICE, METHOD, 1, 0, b"\3")


@pytest.mark.parametrize("is_request_lost", [True, False])
def test_a_call_times_out_where_a_datagram_is_lost(net, is_request_lost):
    discover(net)
    net.call("b", *THERE, METHOD)
    if is_request_lost:
        net.lose()
    else:
        ((_, request),) = net.deliver()
        net.answer("a", request.token)
        net.lose()
    assert net.tick("b", 2000)[0] == someip.TimedOut(SERVICE, METHOD, 1)


def test_an_event_tells_its_value(net):
    discover(net)
    net.subscribe("b", *THERE, EVENTGROUP)
    net.deliver_all()
    net.publish("a", *THERE, EVENT, payload.encode(SHAPE, "(20.5,D)"))
    ((name, event),) = net.deliver_all()
    assert name == "b"
    assert payload.decode(SHAPE, event.payload) == "(speed=20.5,gear=D)"


def test_a_call_before_the_offer_is_refused(net):
    with pytest.raises(someip.NotOffered):
        net.call("b", *THERE, METHOD)
