"""Files of rules that are not quite right, and what `audit --rules` says of each; and a few that are right."""

RULE = "[[rule]]\n"
SERVICE = RULE + "service = 0x1234\n"


def many(number):
    return RULE * number


def rules():
    """Texts of files of rules, and what is told of each: `ok`, or its fault."""
    return (
        ("", "ok"), (RULE, "ok"), ("rule = []\n", "ok"), (SERVICE + "method = 0x0421\n", "ok"), (many(256), "ok"),
        (many(257), "TooMany rule"), ("[", "NotToml -"), ("rule = 1\n", "WrongKind rule"), ("rule = [1]\n", "WrongKind rule"),
        ("[rule]\n", "WrongKind rule"), ("rules = 1\n", "UnknownKey rules"), ("zoo = 1\nape = 2\n", "UnknownKey ape"),
        ("zoo = 1\n" + RULE + "service = 'x'\n", "rule 1: WrongKind service"),
        ("zoo = 1\n" + RULE, "UnknownKey zoo"),
        (RULE + "service = '1234'\n", "rule 1: WrongKind service"), (RULE + "service = 65536\n", "rule 1: OutOfRange service"),
        (RULE + "service = -1\n", "rule 1: OutOfRange service"), (RULE + "service = 65535\n", "ok"),
        (SERVICE + "method = 1.0\n", "rule 1: WrongKind method"), (SERVICE + "method = 65536\n", "rule 1: OutOfRange method"),
        (RULE + "method = 1\n", "rule 1: Missing service"), (RULE + "method = 65536\n", "rule 1: Missing service"),
        (RULE + SERVICE + RULE + "method = 1\n", "rule 3: Missing service"),
        (RULE + "answer_ms = 0\n", "rule 1: OutOfRange answer_ms"), (RULE + "answer_ms = 1\n", "ok"),
        (RULE + "answer_ms = 4294967295\n", "ok"), (RULE + "answer_ms = 4294967296\n", "rule 1: OutOfRange answer_ms"),
        (RULE + "answer_ms = true\n", "rule 1: WrongKind answer_ms"),
        (RULE + "cycle_ms = 0\n", "rule 1: OutOfRange cycle_ms"), (RULE + "cycle_ms = 1\n", "ok"),
        (RULE + "cycle_ms = 600000\n", "ok"), (RULE + "cycle_ms = 600001\n", "rule 1: OutOfRange cycle_ms"),
        (RULE + "cycle_ms = 1.0\nanswer_ms = 1\n", "rule 1: WrongKind cycle_ms"),
        (RULE + "cycle_ms = 0\nallow = 1\n", "rule 1: OutOfRange cycle_ms"),
        (RULE + "cycle_ms = 0\nanswer_ms = 0\n", "rule 1: OutOfRange answer_ms"),
        (RULE + "cycle_ms = 100\nallow = ['silent']\nat_most = { silent = 3 }\n", "ok"),
        (RULE + "allow = 'late'\n", "rule 1: WrongKind allow"), (RULE + "allow = [1]\n", "rule 1: WrongKind allow"),
        (RULE + "allow = ['late', 'lat']\n", "rule 1: UnknownKind lat"), (RULE + "allow = ['event-gap']\n", "rule 1: UnknownKind event-gap"),
        (RULE + "allow = []\n", "ok"), (RULE + "allow = ['full', 'event gap', 'late', 'late']\n", "ok"),
        (RULE + "at_most = 3\n", "rule 1: WrongKind at_most"), (RULE + "at_most = { late = '3' }\n", "rule 1: WrongKind at_most"),
        (RULE + "at_most = { late = -1 }\n", "rule 1: OutOfRange at_most"), (RULE + "at_most = { late = 4294967296 }\n", "rule 1: OutOfRange at_most"),
        (RULE + "at_most = { late = 4294967295 }\n", "ok"), (RULE + "at_most = { lates = 1 }\n", "rule 1: UnknownKind lates"),
        (RULE + "at_most = { zoo = 1, ape = 1 }\n", "rule 1: UnknownKind ape"),
        (RULE + "at_most = { zoo = 1, late = 'x' }\n", "rule 1: UnknownKind zoo"), (RULE + "at_most = {}\n", "ok"),
        (RULE + "at_most = { 'event gap' = 0 }\nallow = ['event gap']\n", "ok"),
        (RULE + "answer = 5\n", "rule 1: UnknownKey answer"), (SERVICE + "Service = 5\n", "rule 1: UnknownKey Service"),
        (RULE + RULE + "zoo = 1\nape = 1\n", "rule 2: UnknownKey ape"),
        (RULE + "zoo = 1\nallow = 1\n", "rule 1: WrongKind allow"),
        (RULE + "method = 65536\nservice = 65536\n", "rule 1: OutOfRange service"),
        (RULE + "at_most = 1\nallow = 1\n", "rule 1: WrongKind allow"), (RULE + "cycles = 100\n", "rule 1: UnknownKey cycles"),
    )
