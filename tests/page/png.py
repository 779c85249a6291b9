"""Pictures of the page, read and written as PNG: with at most 256 colours they are a third as large."""

import struct
import zlib

SIGN = b"\x89PNG\r\n\x1a\n"


def chunks(data):
    """The chunks of a PNG file: kinds and contents."""
    at = len(SIGN)
    while at < len(data):
        size, kind = struct.unpack(">I4s", data[at : at + 8])
        yield kind, data[at + 8 : at + 8 + size]
        at += size + 12


def read(data):
    """Width, height and the pixels of a PNG file of 8 bits a colour, three bytes each."""
    body = b""
    for kind, content in chunks(data):
        if kind == b"IHDR":
            width, height, depth, colour = struct.unpack(">IIBB", content[:10])
        elif kind == b"IDAT":
            body += content
    assert depth == 8 and colour in (2, 6)
    step = 3 if colour == 2 else 4
    rows, out, line = zlib.decompress(body), bytearray(), bytearray(width * step)
    for y in range(height):
        start = y * (width * step + 1)
        line = unfiltered(rows[start], bytearray(rows[start + 1 : start + 1 + width * step]), line, step)
        if step == 3:
            out += line
        else:
            for x in range(0, len(line), 4):
                out += line[x : x + 3]
    return width, height, bytes(out)


def unfiltered(way, new, above, step):
    """A row of bytes as it was before it was filtered."""
    if way == 2:
        return bytearray((a + b) & 255 for a, b in zip(new, above))
    if way == 0:
        return new
    for x in range(len(new)):
        a = new[x - step] if x >= step else 0
        b = above[x]
        if way == 1:
            guess = a
        elif way == 3:
            guess = (a + b) // 2
        else:
            c = above[x - step] if x >= step else 0
            p, q, r = abs(b - c), abs(a - c), abs(a + b - 2 * c)
            guess = a if p <= q and p <= r else b if q <= r else c
        new[x] = (new[x] + guess) & 255
    return new


def counted(pixels):
    """How often each colour stands among pixels."""
    counts = {}
    for x in range(0, len(pixels), 3):
        colour = pixels[x : x + 3]
        counts[colour] = counts.get(colour, 0) + 1
    return counts


def chunk(kind, content):
    return struct.pack(">I", len(content)) + kind + content + struct.pack(">I", zlib.crc32(kind + content))


def small(data):
    """The same picture with a palette: its most frequent colours, and for the others the nearest of these."""
    width, height, pixels = read(data)
    counts = counted(pixels)
    # colours apart: first the frequent ones, then others that none of the chosen is near
    ordered = sorted(counts, key=counts.get, reverse=True)
    palette = ordered[:160]
    for colour in ordered[160:]:
        if len(palette) == 256:
            break
        if min(far(colour, other) for other in palette) > 300:
            palette.append(colour)
    place = {colour: i for i, colour in enumerate(palette)}
    for colour in ordered:
        if colour not in place:
            place[colour] = min(range(len(palette)), key=lambda i: far(colour, palette[i]))
    rows = bytearray()
    for y in range(height):
        row = pixels[3 * y * width : 3 * (y + 1) * width]
        rows += b"\0" + bytes(place[row[x : x + 3]] for x in range(0, len(row), 3))
    head = struct.pack(">IIBBBBB", width, height, 8, 3, 0, 0, 0)
    body = chunk(b"IDAT", zlib.compress(bytes(rows), 9))
    return SIGN + chunk(b"IHDR", head) + chunk(b"PLTE", b"".join(palette)) + body + chunk(b"IEND", b"")


def far(one, two):
    """How far apart two colours are."""
    return sum((a - b) ** 2 for a, b in zip(one, two))
