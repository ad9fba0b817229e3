"""Searches that are refused: moves, words, options, and what is told of them."""

# Moves, and why they are refused over two nodes.
BAD_MOVES = (
    (b"", "no move"),
    (b"\n# none\n", "no move"),
    (b"nothing", "line 1: bad move"),
    (b"deliver * b\n\n# a comment\nnothing", "line 4: bad move"),
    (b"deliver *", "line 1: bad move"),
    (b"deliver ** b", "line 1: bad move"),
    (b"deliver * b ", "line 1: bad move"),
    (b"deliver 1 *", "line 1: bad move"),
    (b"tick * 10", "line 1: bad move"),
    (b"answer * * 00 02", "line 1: bad move"),
    (b"answer a * 00", "line 1: bad move"),
    (b"answer a * 100 02", "line 1: bad move"),
    (b"deliver \xff b", "line 1: bad move"),
    (b"tick c 10", "line 1: UnknownNode"),
    (b"tick a 10\ndeliver * c", "line 2: UnknownNode"),
    (b"answer c * 00 02", "line 1: UnknownNode"),
    (b"error c * 01 -", "line 1: UnknownNode"),
    (b"deliver * *\ninject a 30509 192.168.0.2:40001 00", "line 2: NotLiar"),
    # A bad line comes before a move that does not fit.
    (b"tick c 10\nnothing", "line 2: bad move"),
)

# The same over a setup with a liar.
BAD_MOVES_OF_LIARS = (
    (b"tick c 10", "line 1: IsLiar"),
    (b"deliver * c", "line 1: IsLiar"),
    (b"answer c * 00 02", "line 1: IsLiar"),
    (b"inject a 30509 192.168.0.2:40001 00", "line 1: NotLiar"),
)

# Words of a goal, and why no line of a trace begins with them.
BAD_WORDS = (
    ("c event", "goal: UnknownNode"),
    ("", "goal: UnknownNode"),
    ("B event", "goal: UnknownNode"),
    ("reuse bad", "goal: UnknownWord"),
    ("reuse Clean", "goal: UnknownWord"),
    ("reuse  clean", "goal: UnknownWord"),
    ("Reuse clean", "goal: UnknownNode"),
    ("b evnt", "goal: UnknownWord"),
    ("b ", "goal: UnknownWord"),
    ("b  event", "goal: UnknownWord"),
    ("b Event", "goal: UnknownWord"),
)


def searches():
    """The setup, words before it, the moves, the goal, and what is told."""
    for moves, told in BAD_MOVES:
        yield "two.toml", (), moves, "b event", told
    for moves, told in BAD_MOVES_OF_LIARS:
        yield "liars.toml", (), moves, "b event", told
    for goal, told in BAD_WORDS:
        yield "two.toml", (), b"deliver * *", goal, told
        yield "two.toml", ("--once", "b known", "--once", goal), b"deliver * *", "b event", told
        yield "two.toml", ("--never", goal), b"deliver * *", "b event", told
    # The verdict stands before no line.
    for goal in ("reuse", "reuse clean", "reuse broken"):
        yield "two.toml", ("--once", goal), b"deliver * *", "reuse clean", "goal: UnknownNode"
        yield "two.toml", ("--never", goal), b"deliver * *", "reuse clean", "goal: UnknownNode"
    # Moves are looked at before words.
    yield "two.toml", (), b"nothing", "c event", "line 1: bad move"
