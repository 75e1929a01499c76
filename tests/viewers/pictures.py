"""Pictures of each kind, as TIFF files, and the pixels that a browser must show of them.

What a request shows is worked out by tests/interop/requests.py, place by place over the whole region, and knows nothing of tiles, of the
worker or of the program's answer. A screen gets 8 bits: of samples of 16 bits their high byte.
"""
import importlib.util
import os
import random
import sys

TOP = os.path.join(os.path.dirname(os.path.abspath(__file__)), "..", "..")
sys.path.insert(0, os.path.join(TOP, "tests"))
from lib import tiff  # noqa: E402


def module_of(path):
    """A module of another folder of the repository, by its path, whatever its name."""
    spec = importlib.util.spec_from_file_location(os.path.basename(path)[:-3] + "_of_bench", os.path.join(TOP, path))
    module = importlib.util.module_from_spec(spec)
    spec.loader.exec_module(module)
    return module


EVALUATION = module_of("tests/interop/requests.py")


class Picture:
    """Random samples: rows of places, each a list of its channels. Bits are 0 and 1."""

    def __init__(self, width, height, channels, bits, white, seed=1):
        self.width, self.height, self.channels, self.bits, self.white = width, height, channels, bits, white
        chance, top = random.Random(seed), 2 ** bits - 1

        def sample():
            return chance.choice([0, top, chance.randint(0, top)])

        self.rows = [[[sample() for _ in range(channels)] for _ in range(width)] for _ in range(height)]

    @property
    def kind(self):
        name = "bits" if self.bits == 1 else f"{'RGB' if self.channels == 3 else 'gray'} {self.bits}"
        return name + (", white is 0" if self.white else "")

    def file(self, order, tile=0, strip=16):
        """The picture as a file of tiles of this side, or of strips of so many rows."""
        return tiff.encode_rows(self.rows, self.channels, self.bits, tile, strip, order, self.white)

    def shown(self, x, y, w, h, width, height, quality="default"):
        """RGBA of a region in a size: what the screen gets of the exact answer."""
        # A bilevel picture counts as one of 8 bits, black and white.
        wide = 255 if self.bits == 1 else 1
        region = [[[sample * wide for sample in place] for place in row[x:x + w]] for row in self.rows[y:y + h]]
        scaled = EVALUATION.scaled(region, width, height, self.channels)
        strip = EVALUATION.strip_of(scaled, quality, max(8, self.bits))
        channels = self.channels if quality == "default" else 1
        return rgba(strip, width, height, channels, 1 if quality == "bitonal" else max(8, self.bits))


def rgba(strip, width, height, channels, bits):
    """RGBA of the rows of an answer, low byte first."""
    out, row_bytes = bytearray(), -(-width * channels * bits // 8)
    for y in range(height):
        row = strip[y * row_bytes:(y + 1) * row_bytes]
        for x in range(width):
            if bits == 1:
                samples = [255 * (row[x // 8] >> (7 - x % 8) & 1)]
            else:
                samples = [row[(x * channels + c + 1) * bits // 8 - 1] for c in range(channels)]
            out += bytes(samples * (3 // channels) + [255])
    return bytes(out)


def kinds(width, height):
    """A picture of each kind that the server reads."""
    sorts = (1, 8, False), (1, 8, True), (1, 16, False), (1, 16, True), (3, 8, False), (3, 16, False), (1, 1, False), (1, 1, True)
    for seed, (channels, bits, white) in enumerate(sorts):
        yield Picture(width, height, channels, bits, white, seed)


def named(order):
    return "low byte first" if order == "<" else "high byte first"


def tiles(width, height, edge, factor):
    """Each tile at a scale factor: its place in the grid, its rectangle and its sides."""
    side = edge * factor
    for y in range(0, height, side):
        for x in range(0, width, side):
            w, h = min(side, width - x), min(side, height - y)
            yield (x // side, y // side), (x, y, w, h), (-(-w // factor), -(-h // factor))


def factors(width, height, edge):
    """The scale factors of docs/operate/CONFORMANCE.md: powers of two until one tile covers the image."""
    found = [1]
    while edge * found[-1] < max(width, height):
        found.append(2 * found[-1])
    return found


def layout(picture, order, strip, planes):
    """The picture as a file that the server wouldn't write: in either byte order, in strips of so many rows, its channels side by side or
    in planes, with gaps between its parts."""
    top, apart = 2 ** picture.bits - 1, range(picture.channels) if planes else [None]
    rows = [[[top - s for s in place] if picture.white else place for place in row] for row in picture.rows]

    def packed(row, channel):
        samples = [s for place in row for s in (place if channel is None else [place[channel]])]
        return tiff.pack_samples(samples, picture.bits, order, "1")

    pieces = [b"".join(packed(row, channel) for row in rows[y:y + strip]) for channel in apart for y in range(0, picture.height, strip)]
    data, places = b"odd", []
    for piece in pieces:
        places.append(8 + len(data))
        data += piece + b"gap"
    data += bytes(len(data) % 2)
    color = 2 if picture.channels == 3 else 0 if picture.white else 1
    fields = [(tiff.WIDTH, tiff.SHORT, [picture.width]), (tiff.HEIGHT, tiff.LONG, [picture.height]),
              (tiff.BITS, tiff.SHORT, [picture.bits] * picture.channels), (tiff.COMPRESSION, tiff.SHORT, [1]), (tiff.PHOTOMETRIC, tiff.SHORT, [color]),
              (tiff.STRIP_OFFSETS, tiff.LONG, places), (tiff.CHANNELS, tiff.SHORT, [picture.channels]), (tiff.STRIP_ROWS, tiff.SHORT, [strip]),
              (tiff.STRIP_LENGTHS, tiff.LONG, list(map(len, pieces))), (tiff.PLANES, tiff.SHORT, [2 if planes else 1]),
              (tiff.SOFTWARE, tiff.ASCII, b"a text\0")]
    directory, outside = tiff.encode_directory(fields, 8 + len(data), order)
    return tiff.encode_header(8 + len(data + outside), order) + data + outside + directory
