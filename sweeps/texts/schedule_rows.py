"""Schedules with a bad line, of one step, and of none."""

# A setup whose one node is in no schedule.
ELSEWHERE = """group = "239.0.0.1"
[[node]]
name = "q"
address = "192.168.0.1"
client_id = 1
client_port = 1
"""

# Texts that each spell one step.
STEPS = (
    b"tick a 0",
    b"tick abcdefghijklmno7 18446744073709551615",
    b"deliver 0 a",
    b"deliver 12 server",
    b"call a 1234.0001 7fff -",
    b"call a 1234.ffFF 0000 12fF",
    b"oneway a 1234.0001 0001 aa*0",
    b"oneway a 1234.0001 0001 aA*1048576",
    b"answer a 0 00 -",
    b"answer a 18446744073709551615 ff 00",
    b"error a 1 00 -",
    b"error a 1 fF 0102",
    b"publish a 1234.0001 0000 -",
    b"publish a 1234.0001 ffff 00*1",
    b"publish_to a 1234.0001 0001 0.0.0.0:0 8001 -",
    b"publish_to a 1234.0001 0001 255.255.255.255:65535 8001 0a",
    b"subscribe a 1234.0001 0001",
    b"unsubscribe a 1234.0001 ffff",
    b"stop_offer 0 1234.0001",
    b"restart a 0",
    b"restart a 18446744073709551615",
    b"tick a 5\n",
    b"\n\ntick a 5\n\n",
    b"#\n# a comment  \r\ntick a 5",
    b"# \xc3\xa4\ntick a 5",
    b"tick 0123456789abcdef 10",
    b"call a ABCD.EF01 7FFF 0A",
    b"call tick 0000.0000 0000 00",
    b"deliver 18446744073709551615 z9",
    b"answer a 10 0A -",
    b"publish_to a 1234.0001 0001 10.0.0.200:30490 8001 ff*2",
    b"subscribe subscribe ffff.ffff ffff",
    b"restart restart 1",
    b"inject a 1 0.0.0.0:0 -",
    b"inject inject 65535 255.255.255.255:65535 aA*1048576",
    b"#tick\ntick a 5\n#",
)

# Texts that spell no step, and have no bad line.
NO_STEPS = (
    b"",
    b"\n",
    b"\n\n",
    b"#",
    b"# tick a 5\n",
    b"#\xc3\xa4\n\n#x",
)

# Texts whose first line is bad: words, and ticks.
BAD = (
    b"tick a",
    b"tick",
    b" ",
    b"\r",
    b"tick a 5\r",
    b"tick  a 5",
    b" tick a 5",
    b"tick a 5 ",
    b"tick a 5 6",
    b"tick a\t5",
    b"Tick a 5",
    b"tock a 5",
    b"tick a 05",
    b"tick a 00",
    b"tick a +5",
    b"tick a -5",
    b"tick a ",
    b"tick a 5x",
    b"tick a 18446744073709551616",
    b"tick A 5",
    b"tick a_b 5",
    b"tick abcdefghijklmnopq 5",
    b"tick \xc3\xa4 5",
    b"tick \xff 5",
    b"#\xff",
    b"# \xc3",
    b" # comment",
)

# Deliveries, calls and answers that are bad.
BAD_CALLS = (
    b"deliver a 0",
    b"deliver 0",
    b"deliver 01 a",
    b"deliver 0 a b",
    b"call a 1234.0001 8000 -",
    b"call a 1234.0001 ffff -",
    b"call a 1234.0001 001 -",
    b"call a 1234.0001 00001 -",
    b"call a 1234.0001 000g -",
    b"call a 12340001 0001 -",
    b"call a 1234.001 0001 -",
    b"call a 1234.0001.0001 0001 -",
    b"call a 1234:0001 0001 -",
    b"call a 1234.0001 0001",
    b"call a 1234.0001 0001 ",
    b"call a 1234.0001 0001 - -",
    b"call a 1234.0001 0001 --",
    b"call a 1234.0001 0001 1",
    b"call a 1234.0001 0001 123",
    b"call a 1234.0001 0001 1g",
    b"call a 1234.0001 0001 0x12",
    b"call a 1234.0001 0001 aa*1048577",
    b"call a 1234.0001 0001 aa*01",
    b"call a 1234.0001 0001 aa*",
    b"call a 1234.0001 0001 *1",
    b"call a 1234.0001 0001 aaaa*1",
    b"call a 1234.0001 0001 a*1",
    b"call a 1234.0001 0001 aa*1*1",
    b"call a 1234.0001 0001 aa*18446744073709551616",
    b"call A 1234.0001 0001 -",
    b"oneway a 1234.0001 8000 -",
    b"answer a 1 0 -",
    b"answer a 1 000 -",
    b"answer a 01 00 -",
    b"answer a 1 0g -",
    b"answer a 1 00",
)

# Errors, events, and what stands after them, that are bad.
BAD_EVENTS = (
    b"error a 1 -",
    b"publish a 1234.0001 001 -",
    b"publish a 1234.0001 0001",
    b"publish_to a 1234.0001 0001 10.0.0.1:65536 8001 -",
    b"publish_to a 1234.0001 0001 10.0.0.1:00 8001 -",
    b"publish_to a 1234.0001 0001 10.0.0.1: 8001 -",
    b"publish_to a 1234.0001 0001 10.0.0.1 8001 -",
    b"publish_to a 1234.0001 0001 10.0.0:1 8001 -",
    b"publish_to a 1234.0001 0001 10.0.0.0.1:1 8001 -",
    b"publish_to a 1234.0001 0001 256.0.0.1:1 8001 -",
    b"publish_to a 1234.0001 0001 01.0.0.1:1 8001 -",
    b"publish_to a 1234.0001 0001 10.0.0.1:1:1 8001 -",
    b"publish_to a 1234.0001 10.0.0.1:1 8001 -",
    b"publish_to a 1234.0001 0001 10.0.0.1:1 8001",
    b"subscribe a 1234.0001",
    b"subscribe a 1234.0001 001",
    b"unsubscribe a 1234.0001 0001 0001",
    b"stop_offer a",
    b"stop_offer a 1234",
    b"restart a",
    b"restart a 18446744073709551616",
    b"start a 1",
    b"inject a 0 10.0.0.1:1 -",
    b"inject a 65536 10.0.0.1:1 -",
    b"inject a 01 10.0.0.1:1 -",
    b"inject a 1234.0001 10.0.0.1:1 -",
    b"inject a 1 10.0.0.1 -",
    b"inject a 1 10.0.0.1:65536 -",
    b"inject a 1 10.0.0.1:1",
    b"inject a 1 10.0.0.1:1 aa*1048577",
    b"inject a 1 10.0.0.1:1 - -",
    b"inject A 1 10.0.0.1:1 -",
)

# Texts, and the number of the first bad line of each.
FIRST_BAD = (
    (b"tick a 5\n\n# x\ntick a 05\ntick a", 4),
    (b"\n\ntick a", 3),
    (b"tick a 5\n#\xff\n", 2),
    (b"tick a 5\r\n", 1),
    (b"tick a 5\ntick a 6\n \n", 3),
)


def schedules():
    """The bytes of each, and the number of its first bad line."""
    return [(text, 1) for text in (*BAD, *BAD_CALLS, *BAD_EVENTS)] + [*FIRST_BAD]
