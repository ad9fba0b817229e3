"""Values as they are printed: those that the vectors of payloads expect."""
from pathlib import Path

VECTORS = Path(__file__).resolve().parents[2] / "examples" / "vectors" / "all.txt"

# A text without its mark that fills its bytes: it is read, and is too long to be written.
TOO_LONG = ("utf8fix<4>", '"ABC"')


def printed_values():
    """The shape and the text of each value, and whether the value can be written."""
    found, shape = {}, None
    for line in VECTORS.read_text(encoding="utf-8").splitlines():
        if line.startswith(("payload ", "datagram ")):
            shape = line.split()[1] if line.startswith("payload ") else None
        elif line.startswith("> value ") and shape is not None:
            found[shape, line.removeprefix("> value ")] = True
    return [(*value, value != TOO_LONG) for value in found]


def fronts_of(text):
    """The fronts of a text that are shorter, by whole characters: each is refused where it ends, if at all."""
    return [text[:count] for count in range(len(text))]
