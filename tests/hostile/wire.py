"""What a connection of another node is replied, by the definitions of messages, keys and values (docs/generated/DEFINITIONS.md).

`replies` gives the outputs that are allowed for a whole input: more than one where a key has two faults, of which either may be told.
Tiles and sums are worked out from the pictures place by place.
"""
import hashlib
import struct

KEY, ASKS, VALUE = 4096, 1000, 2 ** 26
UNKNOWN_NAME, BAD_KEY = 3, 4


class BadKey(Exception):
    """A key that can't be read, or doesn't fit its image."""


def long(*numbers):
    return struct.pack(f">{len(numbers)}I", *numbers)


def tile_key(name, edge, tx, ty):
    return struct.pack(">H", len(name)) + name + long(edge, tx, ty)


def sum_key(name, edge, rect, size, level, bx, by):
    return struct.pack(">H", len(name)) + name + long(edge, *rect, *size) + bytes([level]) + long(bx, by)


def ask(version, group, key):
    return b"IGA%d" % version + bytes([group]) + long(len(key)) + key


def reply(version, key, status, value):
    digest = hashlib.sha256(key + value).digest()
    return b"IGR%d" % version + long(len(key)) + key + bytes([status]) + long(len(value)) + value + digest


def name_of(key, behind):
    """The name in front of a key, where so many bytes stand behind it."""
    size = int.from_bytes(key[:2], "big")
    if len(key) < 2 or len(key) != 2 + size + behind or not 1 <= size <= 1024:
        raise BadKey
    try:
        return key[2:2 + size].decode("utf-8")
    except UnicodeDecodeError:
        raise BadKey from None


def clipped(side, step, at):
    """From where to where a square of this step reaches along a side."""
    return min(side, at * step), min(side, (at + 1) * step)


def overlap(n, m, i, x):
    """How much of source place x result place i covers, where n places become m."""
    return max(0, min((i + 1) * n, (x + 1) * m) - max(i * n, x * m))


class Values:
    """The values of a node with these pictures and this edge."""

    def __init__(self, pictures, edge):
        self.pictures, self.edge = pictures, edge

    def picture(self, name, edge, version):
        """The picture of a name; the faults that may be told are the exception's."""
        picture = self.pictures.get(name)
        bad = edge != self.edge or not 1 <= edge <= 1024
        if picture is None or bad:
            raise Fault([UNKNOWN_NAME] * (picture is None) + [BAD_KEY] * bad)
        if picture.bits == 16 and version == 1:
            raise BadKey
        return picture

    def tile(self, key, version):
        name = name_of(key, 12)
        edge, tx, ty = struct.unpack(">3I", key[-12:])
        if not 1 <= edge <= 1024:
            raise BadKey
        picture = self.picture(name, edge, version)
        (left, right), (upper, lower) = clipped(picture.width, edge, tx), clipped(picture.height, edge, ty)
        if left >= right or upper >= lower:
            raise BadKey
        rows = picture.rows(left, upper, right - left, lower - upper)
        samples = [sample for row in rows for place in row for sample in place]
        deep = picture.bits == 16
        return long(right - left, lower - upper) + bytes([picture.channels + 16 * deep]) + struct.pack(f">{len(samples)}{'H' if deep else 'B'}", *samples)

    def sums(self, key, version):
        name = name_of(key, 37)
        edge, x, y, a, b, c, d, level, bx, by = struct.unpack(">7IB2I", key[-37:])
        if not 1 <= edge <= 1024 or 0 in (a, b, c, d) or level > 20:
            raise BadKey
        picture = self.picture(name, edge, version)
        if x + a > picture.width or y + b > picture.height or c > a or d > b:
            raise BadKey
        (left, right), (upper, lower) = clipped(picture.width, edge << level, bx), clipped(picture.height, edge << level, by)
        left, right, upper, lower = max(left, x) - x, min(right, x + a) - x, max(upper, y) - y, min(lower, y + b) - y
        if left >= right or upper >= lower:
            raise BadKey
        i0, i1, j0, j1 = left * c // a, -(-right * c // a), upper * d // b, -(-lower * d // b)
        if 17 + 8 * (i1 - i0) * (j1 - j0) * picture.channels > VALUE:
            raise BadKey
        rows = picture.rows(x + left, y + upper, right - left, lower - upper)
        out = [sum(overlap(b, d, j, upper + n) * overlap(a, c, i, left + m) * rows[n][m][k] for n in range(lower - upper) for m in range(right - left))
               for j in range(j0, j1) for i in range(i0, i1) for k in range(picture.channels)]
        return long(i0, j0, i1 - i0, j1 - j0) + bytes([picture.channels]) + struct.pack(f">{len(out)}Q", *out)

    def replied(self, version, group, key):
        """The replies of which one is to come."""
        try:
            return [reply(version, key, 0, (self.tile if group == 1 else self.sums)(key, version))]
        except Fault as fault:
            return [reply(version, key, status, b"") for status in fault.args[0]]
        except BadKey:
            return [reply(version, key, BAD_KEY, b"")]


class Fault(Exception):
    """The statuses of which one is to be told."""


def replies(data, values):
    """The outputs allowed for an input behind which nothing comes."""
    outs = [b""]
    for _ in range(ASKS):
        if len(data) < 9 or data[:4] not in (b"IGA1", b"IGA2") or data[4] not in (1, 2):
            return outs
        size = int.from_bytes(data[5:9], "big")
        if size > KEY or len(data) < 9 + size:
            return outs
        told = values.replied(data[3] - 48, data[4], data[9:9 + size])
        outs = [out + text for out in outs for text in told][:64]
        data = data[9 + size:]
    return outs
