"""Payloads as texts, and back."""
import unittest

import someip
from someip import payload

CAR = "struct(speed:f32,gear:u8{0=P,3=D},doors:array<2,u8{0=SHUT,1=OPEN}>)"
# By a shape: the bytes of a payload, and the text of its value.
ROWS = (
    ("f32", "41a40000", "20.5"), ("f32le", "0000a441", "20.5"),
    ("f32", "00000001", "1e-45"), ("f32", "7fc00001", "nan(7fc00001)"),
    ("f64", "8000000000000000", "-0.0"), ("u16le", "0100", "1"),
    ("struct(speed:f32,gear:u8{0=P,3=D})", "41a4000003",
     "(speed=20.5,gear=D)"),
    ("struct(speed:f32,gear:u8{0=P,3=D})", "41a4000004",
     "(speed=20.5,gear=4)"),
    ("utf8fix<8>", "efbbbf4100000000", '"A"'),
    ("fixed/8<2,u16>", "0400010002", "[1,2]"),
    ("union/8/8(1:u8)", "010107", "1:7"))
LONG = "array<1000,u8>"


class TestPayload(unittest.TestCase):
    def test_texts_of_payloads_and_back(self):
        for shape, sent, text in ROWS:
            sent = bytes.fromhex(sent)
            self.assertEqual(payload.decode(shape, sent), text)
            self.assertEqual(payload.encode(shape, text), sent)

    def test_a_text_that_passes_the_first_buffer(self):
        sent = (1000).to_bytes(4, "big") + bytes(range(250)) * 4
        text = payload.decode(LONG, sent)
        self.assertEqual(text.count(","), 999)
        self.assertEqual(payload.encode(LONG, text), sent)

    def test_what_is_refused(self):
        for call, shape, what, error in (
                (payload.decode, "u9", b"", someip.BadShape),
                (payload.decode, "@speed", b"", someip.BadShape),
                (payload.decode, "u16", b"\0", someip.BadPayload),
                (payload.decode, "u8", b"\0\0", someip.BadPayload),
                (payload.encode, "u9", "1", someip.BadShape),
                (payload.encode, "u8", "256", someip.BadValue),
                (payload.encode, "u8", "", someip.BadValue),
                (payload.encode, "array<2,u8>", "[1,2,3]", someip.BadValue)):
            with self.assertRaises(error, msg=(shape, what)):
                call(shape, what)


if __name__ == "__main__":
    unittest.main()
