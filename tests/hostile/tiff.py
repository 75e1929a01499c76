"""What a file's bytes say by TIFF 6.0 and the reading rules of docs/operate/OPERATING.md: the first check that fails, or the picture shown.

Nothing here knows of the program: each rule is written out anew from the standard, in the order in which docs/generated/DEFINITIONS.md lists the
checks. `judge` answers a `Refusal` or a `Picture`.
"""
import struct

NOT_TIFF, TRUNCATED, MISSING, UNSUPPORTED, BAD_FIELD, TOO_LARGE = 1, 2, 3, 4, 5, 6
SIZES = {1: 1, 3: 2, 4: 4}
SIDE, AREA, TILE_SIDE, TILES = 1_000_000, 2 ** 32, 2 ** 20, 2 ** 20


class Refusal(Exception):
    """The number of the check that failed, and the field that is at fault, where it is one."""

    def __init__(self, number, tag=None):
        super().__init__(number, tag)
        self.number, self.tag = number, tag


class Field:
    """An entry of the directory whose values stand in the file."""

    def __init__(self, file, kind, count, at):
        self.file, self.kind, self.count, self.at = file, kind, count, at

    def value(self, i):
        size = SIZES[self.kind]
        return self.file.number(self.at + i * size, size)


class File:
    """The first directory of a file (sections 2 and 7 of the standard)."""

    def __init__(self, data):
        self.data = data
        if len(data) < 8 or data[:4] not in (b"II*\0", b"MM\0*"):
            raise Refusal(NOT_TIFF)
        self.order = "little" if data[:1] == b"I" else "big"
        start = self.number(4, 4)
        self.within(start + 2)
        count = self.number(start, 2)
        self.within(start + 2 + 12 * count)
        self.entries = {}
        for at in range(start + 2, start + 2 + 12 * count, 12):
            self.entries.setdefault(self.number(at, 2), at)

    def number(self, at, size):
        return int.from_bytes(self.data[at:at + size], self.order)

    def within(self, end):
        if end > len(self.data):
            raise Refusal(TRUNCATED)

    def field(self, tag, allowed):
        """The field with a tag, of an unsigned type and an allowed count, or nothing where it is absent."""
        at = self.entries.get(tag)
        if at is None:
            return None
        kind, count = self.number(at + 2, 2), self.number(at + 4, 4)
        if kind not in SIZES or not allowed(count):
            raise Refusal(BAD_FIELD, tag)
        values = at + 8
        if count * SIZES[kind] > 4:
            values = self.number(at + 8, 4)
            self.within(values + count * SIZES[kind])
        return Field(self, kind, count, values)

    def needed(self, tag, allowed=lambda count: count == 1):
        field = self.field(tag, allowed)
        if field is None:
            raise Refusal(MISSING, tag)
        return field

    def side(self, tag, most):
        """A side that is neither 0 nor above the most."""
        side = self.needed(tag).value(0)
        if side == 0:
            raise Refusal(BAD_FIELD, tag)
        if side > most:
            raise Refusal(TOO_LARGE)
        return side

    def one(self, tag, default):
        field = self.field(tag, lambda count: count == 1)
        return default if field is None else field.value(0)

    def only(self, tag, wanted):
        if self.one(tag, wanted) != wanted:
            raise Refusal(UNSUPPORTED, tag)

    def of_samples(self, tag, channels):
        """The value of a field that has one value, or one for each sample, where all are equal; by default 1."""
        field = self.field(tag, lambda count: count in (1, channels))
        values = {1} if field is None else {field.value(i) for i in range(field.count)}
        return values.pop() if len(values) == 1 else None


class Picture:
    """The picture that an accepted file shows."""

    def __init__(self, file):
        self.data, self.order = file.data, file.order
        self.sides(file)
        self.samples(file)
        self.grid(file)
        self.pieces(file)

    def sides(self, file):
        self.width, self.height = (file.side(tag, SIDE) for tag in (256, 257))
        if self.width * self.height > AREA:
            raise Refusal(TOO_LARGE)

    def samples(self, file):
        self.channels = file.one(277, 1)
        if self.channels == 0:
            raise Refusal(BAD_FIELD, 277)
        if self.channels not in (1, 3):
            raise Refusal(UNSUPPORTED, 277)
        self.bits = file.of_samples(258, self.channels)
        if self.bits not in ((1, 8, 16) if self.channels == 1 else (8, 16)):
            raise Refusal(UNSUPPORTED, 258)
        file.only(259, 1)
        colour = file.needed(262).value(0)
        if colour not in ((0, 1) if self.channels == 1 else (2,)):
            raise Refusal(UNSUPPORTED, 262)
        self.inverted = colour == 0
        file.only(266, 1)
        file.only(274, 1)
        if self.channels > 1:
            file.only(284, 1)
        if 338 in file.entries:
            raise Refusal(UNSUPPORTED, 338)
        if file.of_samples(339, self.channels) != 1:
            raise Refusal(UNSUPPORTED, 339)

    def grid(self, file):
        self.tiled = 322 in file.entries
        if not self.tiled:
            rows = file.one(278, 2 ** 32 - 1)
            if rows == 0:
                raise Refusal(BAD_FIELD, 278)
            self.piece_width, self.piece_height = self.width, rows
        else:
            self.piece_width, self.piece_height = (file.side(tag, TILE_SIDE) for tag in (322, 323))
        self.across = -(-self.width // self.piece_width)
        self.count = self.across * -(-self.height // self.piece_height)
        if self.tiled and self.count > TILES:
            raise Refusal(TOO_LARGE)
        self.row = -(-self.piece_width * self.channels * self.bits // 8)

    def pieces(self, file):
        where, length = (324, 325) if self.tiled else (273, 279)
        offsets = file.needed(where, lambda count: count >= self.count)
        lengths = file.needed(length, lambda count: count >= self.count)
        self.offsets = []
        for i in range(self.count):
            rows = self.piece_height if self.tiled else min(self.piece_height, self.height - i * self.piece_height)
            if lengths.value(i) < rows * self.row:
                raise Refusal(BAD_FIELD, length)
            offset = offsets.value(i)
            file.within(offset + rows * self.row)
            self.offsets.append(offset)

    @property
    def top(self):
        return 65535 if self.bits == 16 else 255

    def place(self, x, y):
        """The samples of one place (sections 3 and 15; bits as black and white; WhiteIsZero counts down)."""
        piece = y // self.piece_height * self.across + x // self.piece_width
        row = self.offsets[piece] + y % self.piece_height * self.row
        samples = []
        for n in range(x % self.piece_width * self.channels, (x % self.piece_width + 1) * self.channels):
            if self.bits == 16:
                value = int.from_bytes(self.data[row + 2 * n:row + 2 * n + 2], self.order)
            elif self.bits == 8:
                value = self.data[row + n]
            else:
                value = 255 * (self.data[row + n // 8] >> (7 - n % 8) & 1)
            samples.append(self.top - value if self.inverted else value)
        return samples

    def rows(self, x, y, w, h):
        return [[self.place(column, row) for column in range(x, x + w)] for row in range(y, y + h)]


def judge(data):
    """The picture that these bytes show, or the first check that they fail."""
    try:
        return Picture(File(data))
    except Refusal as refusal:
        return refusal


def entry(order, tag, kind, count, value):
    """An entry of a directory with a value or an offset of four bytes; a single SHORT stands at the left."""
    mark = "<" if order == "little" else ">"
    if kind == 3 and count == 1:
        return struct.pack(f"{mark}HHIHH", tag, kind, count, value & 0xffff, 0)
    return struct.pack(f"{mark}HHII", tag, kind, count, value & 0xffffffff)
