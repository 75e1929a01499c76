"""Uncompressed TIFF files (TIFF 6.0), for the program to serve, and the one file that it has to answer.

A picture is a list of rows, a row a list of places, a place the list of its samples: one, or three of RGB. Bits are 0 and 1. In a file the
picture stands in pieces, strips or tiles, row by row. Each function writes right files: what has to be wrong a test changes itself.

Nothing here comes from the program: the layout of an answer is that of crates/iiif_tiff_write/specs/File.antt, written out by hand.
"""
import io
import struct

# Types of fields (section 2): how their numbers are packed, and how many of these a value has.
ASCII, SHORT, LONG, RATIONAL = 2, 3, 4, 5
NUMBERS = {ASCII: ("B", 1), SHORT: ("H", 1), LONG: ("I", 1), RATIONAL: ("I", 2)}

# Tags of fields.
WIDTH, HEIGHT, BITS, COMPRESSION, PHOTOMETRIC, CHANNELS, PLANES = 256, 257, 258, 259, 262, 277, 284
STRIP_OFFSETS, STRIP_ROWS, STRIP_LENGTHS = 273, 278, 279
TILE_WIDTH, TILE_HEIGHT, TILE_OFFSETS, TILE_LENGTHS = 322, 323, 324, 325
X_RESOLUTION, Y_RESOLUTION, RESOLUTION_UNIT, SOFTWARE = 282, 283, 296, 305


def pack_samples(samples, bits, order="<", fill="0"):
    """Packs a row of samples of 1, 8 or 16 bits. Bits stand from the highest of a byte on; `fill` is put behind the last ones."""
    if bits > 1:
        return struct.pack(f"{order}{len(samples)}{'B' if bits == 8 else 'H'}", *samples)
    text = "".join("1" if sample else "0" for sample in samples)
    text += fill * (-len(text) % 8)
    return bytes(int(text[at:at + 8], 2) for at in range(0, len(text), 8))


def encode_header(at, order="<"):
    """Encodes the first eight bytes of a file whose directory stands at this byte."""
    return struct.pack(f"{order}2sHI", b"II" if order == "<" else b"MM", 42, at)


def encode_directory(fields, at, order="<"):
    """Encodes fields, each (tag, type, numbers): the directory, by tags, and the values that don't fit into their entries. These are to stand at
    byte `at`, in the order in which the fields are given, each from an even byte on."""
    entries, outside = {}, b""
    for tag, kind, numbers in fields:
        letter, each = NUMBERS[kind]
        value = struct.pack(f"{order}{len(numbers)}{letter}", *numbers)
        if len(value) > 4:
            value, outside = struct.pack(f"{order}I", at + len(outside)), outside + value + bytes(len(value) % 2)
        entries[tag] = struct.pack(f"{order}HHI", tag, kind, len(numbers) // each) + value.ljust(4, b"\0")
    return struct.pack(f"{order}H", len(fields)) + b"".join(entries[tag] for tag in sorted(entries)) + bytes(4), outside


def list_fields(width, height, places, lengths, channels=1, bits=8, tile=0, strip=0, white=False):
    """Lists the fields of a picture whose pieces stand at these places: tiles with this side, or strips of so many rows. Where `white` is
    set, gray or bits are counted down from white."""
    where, length = (TILE_OFFSETS, TILE_LENGTHS) if tile else (STRIP_OFFSETS, STRIP_LENGTHS)
    cut = [(TILE_WIDTH, LONG, [tile]), (TILE_HEIGHT, LONG, [tile])] if tile else [(STRIP_ROWS, LONG, [strip])]
    return [(where, LONG, places), (length, LONG, lengths), (BITS, SHORT, [bits] * channels), (WIDTH, LONG, [width]), (HEIGHT, LONG, [height]),
            (PHOTOMETRIC, SHORT, [2 if channels == 3 else 1 - white]), (CHANNELS, SHORT, [channels]), *cut]


def write_pieces(out, width, height, pieces, order="<", more=(), **kind):
    """Writes a file piece by piece, however large it is: the pieces, and behind them what says where they stand. A piece that is a number is a
    hole of so many zeros, which takes no room on the disk. `more` are further fields, `kind` are words of `list_fields`."""
    places, lengths, at = [], [], 8
    for piece in pieces:
        is_hole = isinstance(piece, int)
        if not is_hole:
            out.seek(at)
            out.write(piece)
        places.append(at)
        lengths.append(piece if is_hole else len(piece))
        at += lengths[-1]
    at += at % 2
    directory, outside = encode_directory([*list_fields(width, height, places, lengths, **kind), *more], at, order)
    out.seek(at)
    out.write(outside + directory)
    out.seek(0)
    out.write(encode_header(at + len(outside), order))


def encode_pieces(width, height, pieces, order="<", more=(), **kind):
    """Encodes the same file in memory."""
    out = io.BytesIO()
    write_pieces(out, width, height, pieces, order, more, **kind)
    return out.getvalue()


def encode_rows(rows, channels, bits, tile=0, strip=0, order="<", white=False):
    """Encodes a picture in tiles with this side, filled up by samples that aren't to be seen, or in strips of so many rows, all in one where
    neither is given. Where `white` is set, the samples are those to be seen, and the file's are counted down from white."""
    height, width, top = len(rows), len(rows[0]), 2 ** bits - 1
    if white:
        rows = [[[top - sample for sample in place] for place in row] for row in rows]

    def pack(lines):
        return b"".join(pack_samples([sample for place in line for sample in place], bits, order) for line in lines)

    if tile:
        unseen = [99 if bits > 1 else 1] * channels
        pieces = []
        for y in range(0, height, tile):
            for x in range(0, width, tile):
                lines = [row[x:x + tile] for row in rows[y:y + tile]]
                lines = [line + [unseen] * (tile - len(line)) for line in lines] + [[unseen] * tile] * (tile - len(lines))
                pieces.append(pack(lines))
    else:
        strip = strip or height
        pieces = [pack(rows[y:y + strip]) for y in range(0, height, strip)]
    return encode_pieces(width, height, pieces, order, channels=channels, bits=bits, tile=tile, strip=strip, white=white)


def encode_repeated(width, height, tile, edge=256, channels=1, bits=8):
    """Encodes a picture all of whose tiles are this one, and stand at one place: a small file, however large the picture is. The directory stands
    before the tile."""
    count = -(-width // edge) * -(-height // edge)

    def front(place):
        fields = list_fields(width, height, [place] * count, [len(tile)] * count, channels, bits, edge)
        fields += [(COMPRESSION, SHORT, [1]), (PLANES, SHORT, [1])]
        directory, outside = encode_directory(fields, 8 + 2 + 12 * len(fields) + 4)
        return encode_header(8) + directory + outside

    return front(len(front(0))) + tile


def write_flat(path, width, height, channels=1, edge=256, bits=8, sample=0):
    """Writes a picture whose bytes are all this one, in tiles that stand at one place."""
    with open(path, "wb") as file:
        file.write(encode_repeated(width, height, bytes([sample]) * (edge * edge * channels * bits // 8), edge, channels, bits))


class Answer:
    """What a file shows that the program has to answer: its sides, channels and bits a sample, and the bytes of its one strip."""

    def __init__(self, width, height, channels, bits, strip):
        self.width, self.height, self.channels, self.bits, self.strip = width, height, channels, bits, strip

    def encode(self):
        """Encodes the file: low byte first, twelve fields at 8, two rationals of 1 behind them, of RGB the three numbers of bits, and then the
        strip."""
        fields = [(X_RESOLUTION, RATIONAL, [1, 1]), (Y_RESOLUTION, RATIONAL, [1, 1]), (BITS, SHORT, [self.bits] * self.channels),
                  (WIDTH, LONG, [self.width]), (HEIGHT, LONG, [self.height]), (COMPRESSION, SHORT, [1]),
                  (PHOTOMETRIC, SHORT, [2 if self.channels == 3 else 1]), (STRIP_OFFSETS, LONG, [180 if self.channels == 3 else 174]),
                  (CHANNELS, SHORT, [self.channels]), (STRIP_ROWS, LONG, [self.height]), (STRIP_LENGTHS, LONG, [len(self.strip)]),
                  (RESOLUTION_UNIT, SHORT, [1])]
        directory, outside = encode_directory(fields, 158)
        return encode_header(8) + directory + outside + self.strip


def decode_answer(data):
    """Decodes a file that the program answered. A ValueError where it has another byte in front of its strip than such a file has."""
    numbers = dict(struct.iter_unpack("<H6xI", data[10:154])) if len(data) > 174 else {}
    width, height, channels, bits = (numbers.get(tag, 0) for tag in (WIDTH, HEIGHT, CHANNELS, BITS))
    if channels == 3:
        bits = int.from_bytes(data[174:176], "little")
    if channels in (1, 3) and bits in (1, 8, 16):
        answer = Answer(width, height, channels, bits, data[180 if channels == 3 else 174:])
        if answer.encode() == data and len(answer.strip) == height * -(-width * channels * bits // 8):
            return answer
    raise ValueError(f"no answer: {data[:200]!r}, {len(data)} bytes")
