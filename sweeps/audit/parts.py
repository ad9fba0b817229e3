"""Reassembly as docs/PROTOCOL.md has it. A part is the list of the segments that were accepted; each has its header,
its offset, More Segments and its slice."""
SLOTS, LIMIT, TIMEOUT = 16, 1048576, 5000


def refusal(parts, key, seen):
    """By which name a segment is refused, or None."""
    _, offset, more, piece = seen.value
    if more and len(piece) % 16:
        return "Unaligned"
    if offset + len(piece) > LIMIT:
        return "TooLong"
    if key not in parts:
        return "NoSlot" if len(parts) == SLOTS else None
    return "Conflict" if contradicts(parts[key], offset, more, piece) else None


def held_in(part):
    """The bytes of a part by their places, and its total, or None."""
    held, total = {}, None
    for seen in part:
        _, offset, more, piece = seen.value
        held.update(enumerate(piece, offset))
        total = total if more else offset + len(piece)
    return held, total


def contradicts(part, offset, more, piece):
    held, total = held_in(part)
    end = offset + len(piece)
    if any(held.get(place, byte) != byte for place, byte in enumerate(piece, offset)):
        return True
    if total is not None and (piece and end > total or not more and end != total):
        return True
    return not more and any(place >= end for place in held)


def whole_payload(part):
    """The payload of the message that a part makes whole, or None."""
    held, total = held_in(part)
    if total is None or len(held) != total or any(place >= total for place in held):
        return None
    return bytes(held[place] for place in range(total))
