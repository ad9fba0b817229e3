"""Words that come to no command: the help that is printed, or the fault of usage that is told; and values of options."""

# Words with `|` between them, of which the first is the name of the program; and a part of the text.
HELP = (
    ("someipctl|help|vectors", "  passed 1 of 2\n"),
    ("someipctl|help|run", "      --expect <TRACE>  "),
    ("someipctl|help|run", "      --begins <TRACE>  "),
    ("someipctl|help|run", "      --lines           "),
    ("someipctl|help|recording", "  someipctl recording --ports 30509 examples/one.pcap\n"),
    ("someipctl|help|chart", "Usage: someipctl chart <SETUP> <SCHEDULE>\n"),
    ("someipctl|help|run", "  deliver N NODE\n"),
    ("someipctl|help|payload", "  someipctl payload 'array<2,u16>' 0000000400010002\n"),
    ("someipctl|--help", "someipctl show examples/one.txt\n"),
    ("someipctl|-h", "Prints the messages of a capture, one a line"),
    ("someipctl|help", "Usage: someipctl <COMMAND>\n"),
    ("someipctl|help|show", "Usage: someipctl show [OPTIONS] <CAPTURE>\n"),
    ("someipctl|show|--help", "  12340421 00000008 00010001 01010000\n"),
    ("someipctl|show|-h", " type REQUEST code 00 payload -\n"),
    # What a command does, its options with the defaults of FORMATS, and its example.
    ("someipctl|help|audit", "Prints what recordings of network traffic show against the protocol\n\n"
     "Usage: someipctl audit [OPTIONS] <FILE>...\n"),
    ("someipctl|help|audit", "      --answer-ms <N>       The milliseconds that an answer may take, 2000 without it\n"),
    ("someipctl|help|audit", "      --settle-ms <N>       The milliseconds at first in which no event without a "
     "subscription is told, 10000 without it\n"),
    ("someipctl|help|audit", "      --rules <FILE>        Takes findings as the rules of this file say\n"),
    ("someipctl|help|audit", "      --group               Prints the first three findings of one kind, service, method, sender "
     "and receiver, and counts the others\n"),
    ("someipctl|help|audit", "  someipctl audit examples/audit.pcap\n"),
    ("someipctl|help|chart", "Draws a run of a schedule over the nodes of a setup, as an SVG picture\n\nUsage: "),
    ("someipctl|help|chart", "  someipctl chart examples/runs/two.toml examples/runs/two.txt > two.svg\n"),
    ("someipctl|help|recording", "Prints the messages of recordings of network traffic\n\n"
     "Usage: someipctl recording [OPTIONS] <FILE>...\n"),
    ("someipctl|help|recording", "      --whole-limit <N>     The bytes that such a message may have, "
     "1048576 without it\n"),
    ("someipctl|help|recording", "      --whole-slots <N>     How many may have come in part at once, 16 without it\n"),
    ("someipctl|help|recording", "      --whole-timeout <MS>  The milliseconds that a part stands after its last "
     "segment, 5000 without it\n"),
    ("someipctl|help|extract", "Writes the packets of the datagrams that are chosen, as a recording\n\n"
     "Usage: someipctl extract [OPTIONS] <FILE>...\n"),
    ("someipctl|help|extract", "  someipctl extract --ports 30509 examples/one.pcap > part.pcapng\n"),
    ("someipctl|help|services", "Prints who offered what in recordings and when, and who was subscribed\n\n"
     "Usage: someipctl services [OPTIONS] <FILE>...\n"),
    ("someipctl|help|services", "  someipctl services examples/audit.pcap\n"),
    ("someipctl|help|stats", "Counts messages of recordings, and tells how long answers took and events stayed away\n\n"
     "Usage: someipctl stats [OPTIONS] <FILE>...\n"),
    ("someipctl|help|stats", "      --overtake-ms <N>     The milliseconds that a message may come after one that overtook "
     "it, 100 without it\n"),
    ("someipctl|help|stats", "  someipctl stats examples/audit.pcap\n"),
    ("someipctl|help|show", "      --service <SERVICES>  Prints only datagrams with a message of one of these "
     "services\n"),
    ("someipctl|help|show", "      --types <FILE>        Prints the values of the payloads whose shapes this file "
     "tells\n"),
    ("someipctl|help|explore", "Usage: someipctl explore [OPTIONS] <SETUP> <MOVES> <GOAL>\n"),
    ("someipctl|help|explore", "      --never <WORDS>     Only where no line with these words came before; may be "
     "given several times\n"),
    ("someipctl|help|explore", "      --progress          Tells on standard error of each million schedules that were judged\n"),
)
USAGE = (
    ("someipctl|vectors", "Usage: someipctl vectors <FILE>\n"),
    ("someipctl|vectors|x|y", "error: unexpected argument 'y' found\n"),
    ("someipctl|run|--begins=x|y|z|--expect=x", "error: the argument '--expect <TRACE>' cannot be used with "),
    ("someipctl|run|--expect|x|y", "error: the following required arguments were not provided:\n"),
    ("someipctl|recording|--whole=1|x", "error: unexpected value '1' for '--whole' found"),
    ("someipctl|recording|--whole-slots|x", "error: the following required arguments were not provided:\n"),
    ("someipctl|recording", "Usage: someipctl recording <FILE>...\n"),
    ("someipctl|run|x", "Usage: someipctl run <SETUP> <SCHEDULE>\n"),
    ("someipctl|chart|x", "Usage: someipctl chart <SETUP> <SCHEDULE>\n"),
    ("someipctl|explore|x|y", "Usage: someipctl explore <SETUP> <MOVES> <GOAL>\n"),
    ("someipctl|explore|--steps|17|x|y|z", "error: invalid value '17' for '--steps <N>': steps are a number from 0 to 16"
     "\n\nUsage: someipctl explore [OPTIONS] <SETUP> <MOVES> <GOAL>\n"),
    ("someipctl|explore|--most|0|x|y|z", "error: invalid value '0' for '--most <M>': schedules are a number from 1 to "
     "1000000000000\n\nUsage: someipctl explore [OPTIONS] <SETUP> <MOVES> <GOAL>\n"),
    ("someipctl|audit", "Usage: someipctl audit <FILE>...\n"),
    ("someipctl|extract", "Usage: someipctl extract <FILE>...\n"),
    ("someipctl|extract|--frames|x", "error: unexpected argument '--frames' found\n"),
    ("someipctl|services", "Usage: someipctl services <FILE>...\n"),
    ("someipctl|services|--group|x", "error: unexpected argument '--group' found\n"),
    ("someipctl|stats", "Usage: someipctl stats <FILE>...\n"),
    ("someipctl|stats|--frames|x", "error: unexpected argument '--frames' found\n"),
    ("someipctl|payload|u8", "Usage: someipctl payload <SHAPE> <HEX>\n"),
    ("/bin/other", "Usage: someipctl <COMMAND>\n"),
    ("someipctl|list", "error: unrecognized subcommand 'list'\n"),
    ("someipctl|help|list", "error: unrecognized subcommand 'list'\n"),
    ("someipctl|--version", "error: unexpected argument '--version' found\n"),
    ("someipctl|-V", "error: unexpected argument '-V' found\n"),
    ("someipctl|show", "Usage: someipctl show <CAPTURE>\n"),
    ("someipctl|show|x|y", "error: unexpected argument 'y' found\n"),
    ("someipctl|show|-x", "error: unexpected argument '-x' found\n"),
    ("someipctl|show|--all|x", "error: unexpected argument '--all' found\n"),
)

# Options with a number: the words before them, the option and its value's name, its range, and the usage that is told.
RECORDING = "Usage: someipctl recording [OPTIONS] <FILE>..."
AUDIT = "Usage: someipctl audit [OPTIONS] <FILE>..."
EXTRACT = "Usage: someipctl extract [OPTIONS] <FILE>..."
SERVICES = "Usage: someipctl services [OPTIONS] <FILE>..."
STATS = "Usage: someipctl stats [OPTIONS] <FILE>..."
USAGES = {"recording": RECORDING, "audit": AUDIT, "extract": EXTRACT, "services": SERVICES, "stats": STATS}
NUMBERS = (
    ("recording|--whole", "--whole-limit", "N", 1400, 1048576, RECORDING),
    ("recording|--whole", "--whole-slots", "N", 1, 1024, RECORDING),
    ("recording|--whole", "--whole-timeout", "MS", 1, 3600000, RECORDING),
    ("audit", "--answer-ms", "N", 1, 4294967295, AUDIT),
    ("audit", "--settle-ms", "N", 0, 4294967295, AUDIT),
    ("audit", "--overtake-ms", "N", 0, 60000, AUDIT),
    ("stats", "--overtake-ms", "N", 0, 60000, STATS),
)
# Values of `--ports` that are none.
BAD_PORTS = ("", "0", "65536", "1,,2", ",1", "1,", "01", "+1", " 1", "1 ", "x", "1;2", "99999999999999999999")
# Options of lists, of a client and of times: the commands that take them, the option and its value's name, what its
# values are, texts that are none, and some that are.
LISTS = (
    (tuple(USAGES), "--interface", "N", "interfaces are numbers from 0 to 65535 with commas between them",
     ("65536", "0,,1", ",0", "00", "-1", "x"), ("0", "65535", "0,1,0")),
    (tuple(USAGES), "--vlan", "ID", "VLAN IDs are numbers from 0 to 4095 with commas between them",
     ("4096", "1,", "01", "x"), ("0", "4095", "7,6")),
    (tuple(USAGES), "--dedup", "MS", "copies come within 1 to 60000 milliseconds", ("0", "60001", "01", "x"),
     ("1", "60000")),
    (("recording",), "--address", "A", "addresses are IPv4 addresses with commas between them",
     ("1.2.3", "1.2.3.256", "1.2.3.4,", "1.2.3.4:5", "::1", " 1.2.3.4", "01.2.3.4"), ("1.2.3.4", "0.0.0.0,255.255.255.255")),
    (("recording",), "--client", "C", "a client is four hex digits", ("1", "00001", "xyzw", "0x01"), ("0101", "FFFF")),
    (("recording",), "--from", "TIME", "a time is seconds since 1970, perhaps with a dot and up to nine decimals",
     ("-1", "01", "1.", ".1", "1.1234567890", "1.x", "1.1.1", "+1", "18446744073709551616"),
     ("0", "1.5", "1700000000.123456789", "18446744073709551615.000000001")),
    (("recording",), "--until", "TIME", "a time is seconds since 1970, perhaps with a dot and up to nine decimals",
     ("x", "1.+5", "1e9"), ("0.0", "7.000000007")),
)
# Options of which two are bad, or one stands alone, and the one that is told.
TOLD_FIRST = (
    ("recording|--whole|--whole-timeout|0|--whole-slots|0|--whole-limit|0|missing",
     "error: invalid value for '--whole-limit <N>': 1400 to 1048576", RECORDING),
    ("recording|--whole|--whole-timeout|0|--whole-slots|0|missing",
     "error: invalid value for '--whole-slots <N>': 1 to 1024", RECORDING),
    ("audit|--settle-ms|x|--answer-ms|0|missing", "error: invalid value for '--answer-ms <N>': 1 to 4294967295", AUDIT),
    ("stats|--sessions|x|--overtake-ms|x|missing", "error: invalid value for '--overtake-ms <N>': 0 to 60000", STATS),
    ("recording|--whole-timeout=|missing", "error: limits of whole messages need '--whole'", RECORDING),
    ("show|missing|--types=|--json|--service=", "error: invalid value '' for '--service <SERVICES>': services are four hex "
     "digits, perhaps with a dot and four more, with commas between them", "Usage: someipctl show [OPTIONS] <CAPTURE>"),
    ("stats|--sessions|x|missing", "error: invalid value for '--sessions <HOW>': event or sender", STATS),
    ("recording|--whole-limit|1400|missing", "error: limits of whole messages need '--whole'", RECORDING),
    ("recording|--whole-slots|1|missing", "error: limits of whole messages need '--whole'", RECORDING),
    ("recording|--whole-timeout|1|missing", "error: limits of whole messages need '--whole'", RECORDING),
    # Before a setting: ports.
    ("stats|--overtake-ms|x|--ports|0|missing", "error: invalid value '0' for '--ports <PORTS>': ports are numbers from 1 "
     "to 65535 with commas between them", STATS),
    # Before a types file that cannot be read: ports, a limit, and a limit alone.
    ("recording|--types|nowhere|--ports|0|missing", "error: invalid value '0' for '--ports <PORTS>': ports are numbers "
     "from 1 to 65535 with commas between them", RECORDING),
    ("recording|--types|nowhere|--whole|--whole-slots|0|missing",
     "error: invalid value for '--whole-slots <N>': 1 to 1024", RECORDING),
    ("recording|--types|nowhere|--whole-limit|1400|missing",
     "error: limits of whole messages need '--whole'", RECORDING),
)
# Values of `--service` that are none.
BAD_SERVICES = (
    "x", "123", "12345", "1234.", "1234.042", "1234,", ",1234", "1234 ", "1234.0421.1", "0x1234", "", ",", "1111,,2222",
    "1111, 2222", " 1111", "+111", "111g", "11\xe9", ".8001", "1111.80011", "1111.800g", "111g.8001", "1111.+001",
    "1111.11\xe9", "1111:8001", "111108001", "1111.8001.0001", "1111,222g", "111g,2222",
)
SHOW = "Usage: someipctl show [OPTIONS] <CAPTURE>"
# Files of which two cannot be read, and the first is told: a types file before a recording, a setup before a schedule.
NAMED_FIRST = ("recording|--types|nowhere|missing", "show|--types|nowhere|missing", "run|nowhere|missing",
               "run|--expect|missing|nowhere|missing", "run|--begins|missing|nowhere|missing", "chart|nowhere|missing")
# Words whose options stand in each order and form, and the file that is told first.
COMMANDS = (
    ("recording|x", "x"),
    ("recording|x|-|y", "x"),
    ("recording|--endpoints|--ports|1,2|x", "x"),
    ("recording|x|--json", "x"),
    ("recording|--service|1111|--types|t|--whole|--whole-limit|1400|--whole-slots|2|--whole-timeout|3|x", "t"),
    ("recording|--interface|0,1|--vlan|5|x|--dedup|10|--frames|y", "x"),
    ("recording|--address|1.2.3.4|--client=0101|--learned|--from|1|--until|2.5|x", "x"),
    ("vectors|x", "x"),
    ("vectors|-|--json", "-"),
    ("run|--json|x|y", "x"),
    ("run|x|y", "x"),
    ("run|--lines|x|--expect|t|y", "x"),
    ("run|--begins=t|x|y", "x"),
    ("chart|x|y", "x"),
    ("show|x", "x"),
    ("show|--service|1111.8001,2222|--types|t|x", "t"),
    ("show|-", "-"),
    ("show|", ""),
    ("show|help", "help"),
    ("show|--|-x", "-x"),
    ("show|a b", "a b"),
)
# Words whose HEX is empty, or has a space.
BAD_HEX = ("payload|u8|", "payload|u8|00 00", "payload|fixed<0,u8>|")
# Commands for which `-` is the name of a file, which is not there, and not standard input.
NAMED_DASH = ("show|-", "vectors|-", "run|-|missing", "chart|-|missing", "show|--types|-|missing",
              "recording|--types|-|missing", "run|--expect|missing|-|missing")


def values():
    """Words, the status, and what is told on standard error."""
    for words, option, name, least, most, usage in NUMBERS:
        told = f"error: invalid value for '{option} <{name}>': {least} to {most}\n\n{usage}\n"
        below = [str(least - 1)] if least else ["-1"]
        for text in (*below, str(most + 1), f"0{most}", "", "+1", "x", f"{most} ", hex(most), str(2**64), str(2**64 + most)):
            yield f"{words}|{option}={text}|missing", 2, told
        for number in (least, most):
            yield f"{words}|{option}|{number}|missing", 4, "cannot read missing\n"
    for command, usage in USAGES.items():
        for text in BAD_PORTS:
            yield (f"{command}|--ports|{text}|missing", 2, f"error: invalid value '{text}' for '--ports <PORTS>': "
                   f"ports are numbers from 1 to 65535 with commas between them\n\n{usage}\n")
        for text in ("1", "65535", "65535,1,1"):
            yield f"{command}|--ports|{text}|missing", 4, "cannot read missing\n"
    for commands, option, name, told, bad, good in LISTS:
        for command in commands:
            usage = USAGES[command]
            for text in bad:
                yield (f"{command}|{option}={text}|missing", 2,
                       f"error: invalid value '{text}' for '{option} <{name}>': {told}\n\n{usage}\n")
            for text in good:
                yield f"{command}|{option}|{text}|missing", 4, "cannot read missing\n"
    for words, told, usage in TOLD_FIRST:
        yield words, 2, f"{told}\n\n{usage}\n"
    for command, files, usage in (("recording", "--types|nowhere|missing", RECORDING), ("extract", "missing", EXTRACT),
                                  ("services", "missing", SERVICES), ("stats", "missing", STATS),
                                  ("show", "--types|nowhere|missing", SHOW)):
        for text in BAD_SERVICES:
            yield (f"{command}|--service|{text}|{files}", 2, f"error: invalid value '{text}' for "
                   "'--service <SERVICES>': services are four hex digits, perhaps with a dot and four more, with "
                   f"commas between them\n\n{usage}\n")
    yield from told_of_files()


def told_of_files():
    """The same of words that are taken, and of HEX."""
    for words, file in COMMANDS:
        yield words, 4, f"cannot read {file}\n"
    for words in NAMED_FIRST:
        yield words, 4, "cannot read nowhere\n"
    for words in NAMED_DASH:
        yield words, 4, "cannot read -\n"
    for words in BAD_HEX:
        yield words, 1, "bad hex\n"
