"""A gray picture larger than the server's caches, whose averages over squares are known without reading it.

Place (x, y) has half of what a tile of 256 by 256 random bytes has there, and a number that only its tile decides. So the average of a
square within a tile is that of the half tile, and the number. The file is written tile by tile; nothing of it is read back.
"""
import os
import random
import sys

TESTS = os.path.join(os.path.dirname(os.path.abspath(__file__)), "..")
sys.path[:0] = [TESTS, os.path.join(TESTS, "hostile")]
import images  # noqa: E402
from lib import tiff  # noqa: E402
from lib.server import BASE  # noqa: E402

EDGE = 256


class Picture:
    """A picture of `across` by `across` tiles."""

    def __init__(self, across, seed):
        chance = random.Random(seed)
        self.across, self.side = across, across * EDGE
        self.width = self.height = self.side
        self.channels, self.bits = 1, 8
        self.half = bytes(byte >> 1 for byte in chance.randbytes(EDGE * EDGE))
        self.own = [[chance.randrange(128) for _ in range(across)] for _ in range(across)]
        self.raised = [bytes(min(255, byte + more) for byte in range(256)) for more in range(128)]
        self.averages = {1: self.half}
        self.digests = {}

    def write(self, path):
        """The file: tiles of 256 by 256, low byte first."""
        tiles = (self.half.translate(self.raised[more]) for row in self.own for more in row)
        with open(path, "wb") as out:
            tiff.write_pieces(out, self.side, self.side, tiles, tile=EDGE)

    def averaged(self, step):
        """The half tile's averages over squares of this step, to the nearest, a half up."""
        if step not in self.averages:
            n = EDGE // step
            sums = [sum(sum(self.half[(j * step + y) * EDGE + i * step:(j * step + y) * EDGE + (i + 1) * step]) for y in range(step)) for j in range(n) for i in range(n)]
            self.averages[step] = bytes((2 * s + step ** 2) // (2 * step ** 2) for s in sums)
        return self.averages[step]

    def rows(self, step, i, j):
        """The tile in column i and row j of the level at which a square of `step` places is one."""
        n, small = EDGE // step, self.averaged(step)
        rows = []
        for ty in range(j * step, (j + 1) * step):
            for y in range(n):
                line = small[y * n:(y + 1) * n]
                rows.append(b"".join(line.translate(self.raised[self.own[ty][tx]]) for tx in range(i * step, (i + 1) * step)))
        return rows

    def answer(self, name, step, i, j, quarters, bits):
        """The target of a tile, turned and in bits where that is asked, and its whole answer."""
        rows = self.rows(step, i, j)
        for _ in range(quarters):
            rows = [bytes(column) for column in zip(*rows[::-1])]
        side = step * EDGE
        size = "max" if step == 1 else f"{EDGE},{EDGE}"
        quality = "bitonal" if bits else "default"
        region = "full" if side == self.side else f"{i * side},{j * side},{side},{side}"
        words = f"{region}/{size}/{90 * quarters}/{quality}.tif"
        strip = b"".join(packed(row) for row in rows) if bits else b"".join(rows)
        file = tiff.Answer(EDGE, EDGE, 1, 1 if bits else 8, strip).encode()
        link = f'<{BASE}/{name}/{words}>;rel="canonical"'
        return f"/iiif/{name}/{words}", images.whole(200, "image/tiff", ("Link", link), file, False)


def packed(row):
    """A row of samples as bits, white from 128 on."""
    text = row.translate(bytes(48 if byte < 128 else 49 for byte in range(256))).decode()
    return int(text, 2).to_bytes(len(text) // 8, "big")
