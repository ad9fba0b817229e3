"""Payloads by their shapes: as the texts of their values, and back.

Shapes and the texts of values are those of docs/FORMATS.md:
`struct(speed:f32,gear:u8{0=P,3=D})` and `(speed=20.5,gear=D)`.
"""
from someip import node


def decode(shape, payload):
    """The text of the value that a whole payload has.

    Raises BadShape, and BadPayload where it has none of the shape.
    """
    words = shape.encode()
    return node._written(node._LIBRARY.someip_payload_text, words, len(words),
                         payload, len(payload)).decode()


def encode(shape, text):
    """The payload of the value that a text tells.

    Raises BadShape, and BadValue where it tells none of the shape.
    """
    words, value = shape.encode(), text.encode()
    return node._written(node._LIBRARY.someip_payload_bytes, words,
                         len(words), value, len(value))
