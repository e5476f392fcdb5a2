"""Texts made smaller, always to the same bytes: the page's own packer, since two versions of another one give other bytes. What it makes
is a block of LZ4's format (github.com/lz4/lz4, "LZ4 Block Format"), which src/unpacked.mjs reads: literals, and copies of what stands
up to 65,535 bytes before."""
import base64

LEAST, FAR, TRIES = 4, 65535, 24  # bytes of a copy, how far back it may lie, how many places are tried


def length_bytes(more):
    return b"\xff" * (more // 255) + bytes([more % 255])


def token(literals, copy):
    """Literals, and behind them a copy (distance, length), or nothing at the end."""
    count, more = len(literals), copy[1] - LEAST if copy else 0
    made = bytes([min(count, 15) << 4 | min(more, 15)]) + (length_bytes(count - 15) if count >= 15 else b"") + literals
    if copy:
        made += copy[0].to_bytes(2, "little") + (length_bytes(more - 15) if more >= 15 else b"")
    return made


def longest(data, at, places):
    """The longest of the copies that begin at these places: (distance, length)."""
    best = (0, 0)
    for place in reversed(places[-TRIES:]):
        if at - place > FAR:
            break
        size = 0
        most = len(data) - at
        while size < most and data[place + size] == data[at + size]:
            size += 1
        if size > best[1]:
            best = (at - place, size)
    return best


def block(data):
    made, seen, begun, at = [], {}, 0, 0
    while at + LEAST <= len(data):
        places = seen.setdefault(data[at:at + LEAST], [])
        copy = longest(data, at, places)
        places.append(at)
        if copy[1] < LEAST:
            at += 1
            continue
        made.append(token(data[begun:at], copy))
        for k in range(at + 1, min(at + copy[1], len(data) - LEAST)):
            seen.setdefault(data[k:k + LEAST], []).append(k)
        at += copy[1]
        begun = at
    made.append(token(data[begun:], None))
    return b"".join(made)


def packed(text):
    """A text as {size, base64}."""
    data = text.encode()
    return {"size": len(data), "base64": base64.b64encode(block(data)).decode()}
