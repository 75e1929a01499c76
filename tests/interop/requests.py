"""The program beside an evaluation of the definitions in Python, on random requests.

    /usr/bin/python3 tests/interop/requests.py crates/iiif_serve/out/iiif_serve [COUNT] [SEED]

Pictures of up to 70 by 70 (gray and RGB of 8 and 16 bits, bits), in both byte orders, gray ones also counted down from white, in strips
and tiles, some with samples about the half at which bits become white; edges from 1 to 64, regions, sizes up to twice the region's, turns
and qualities at random, in bands of 1, 3 or 64 rows, by 1, 2 or 5 workers, with caches of 0, 100 or 67,108,864 bytes. The averages are
exact fractions over the whole region, place by place, so nothing here knows of tiles or blocks. The status is 1 where an answer differs. With `sixteen` as a fourth word all pictures have 16 bits.
"""
import os
import random
import sys
import tempfile

sys.path.insert(0, os.path.join(os.path.dirname(os.path.abspath(__file__)), ".."))
from lib.server import BASE, run  # noqa: E402
from lib.tiff import Answer, encode_rows, pack_samples  # noqa: E402


def scaled(rows, c, d, channels):
    """The averages, to the nearest and a half up: the weight of a source column is how much of it the result column covers."""
    b, a = len(rows), len(rows[0])

    def weights(n, m):
        return [[(x, min((i + 1) * n, (x + 1) * m) - max(i * n, x * m)) for x in range(n) if min((i + 1) * n, (x + 1) * m) > max(i * n, x * m)] for i in range(m)]

    columns, lines = weights(a, c), weights(b, d)
    return [[[(2 * sum(u * v * rows[y][x][k] for y, v in line for x, u in column) + a * b) // (2 * a * b) for k in range(channels)]
             for column in columns] for line in lines]


def turned(rows, mirror, quarters):
    if mirror:
        rows = [row[::-1] for row in rows]
    for _ in range(quarters):
        rows = [list(row) for row in zip(*rows[::-1])]
    return rows


def strip_of(rows, quality, bits):
    """The bytes of the answer's strip: of pictures with 16 bits two bytes a sample, the low one first."""
    if len(rows[0][0]) == 3 and quality in ("gray", "bitonal"):
        rows = [[[(299 * r + 587 * g + 114 * b + 500) // 1000] for r, g, b in row] for row in rows]
    if quality != "bitonal":
        return pack_samples([sample for row in rows for place in row for sample in place], max(8, bits))
    white = 32768 if bits == 16 else 128
    return b"".join(pack_samples([place[0] >= white for place in row], 1) for row in rows)


def main():
    program, count, seed = sys.argv[1], int((sys.argv[2:] or [2000])[0]), int((sys.argv[3:] or [1])[0])
    kinds = [(1, 16), (3, 16)] if sys.argv[4:] == ["sixteen"] else [(1, 8), (3, 8), (1, 1), (1, 16), (3, 16)]
    random.seed(seed)
    wrong = asked = 0
    with tempfile.TemporaryDirectory() as room:
        path = os.path.join(room, "a.tif")
        while asked < count:
            channels, bits = random.choice(kinds)
            most = random.choice([5, 70])
            width, height = random.randint(1, most), random.randint(1, most)
            top = 2 ** bits - 1
            near_half = bits > 1 and random.random() < 0.3
            low, high = (top // 2 - 1, top // 2 + 2) if near_half else (0, top)
            rows = [[[random.randint(low, high) for _ in range(channels)] for _ in range(width)] for _ in range(height)]
            tile = random.choice([0, 16, 32, 48])
            with open(path, "wb") as file:
                file.write(encode_rows(rows, channels, bits, tile, random.randint(1, height), random.choice("<>"), channels == 1 and random.random() < 0.3))
            if bits == 1:
                rows = [[[255 * place[0]] for place in row] for row in rows]
            for _ in range(20):
                x, y = random.randrange(width), random.randrange(height)
                w, h = random.randint(1, width - x), random.randint(1, height - y)
                c, d = random.choice([(w, h), (random.randint(1, w), random.randint(1, h)), (random.randint(1, 2 * w), random.randint(1, 2 * h))])
                larger = c > w or d > h
                mirror, quarters = random.random() < 0.3, random.choice([0, 0, 0, 1, 2, 3])
                quality = random.choice(["default", "color", "gray", "bitonal"])
                words = ["--edge", random.randint(1, 64), "--band", random.choice([1, 3, 64]), "--workers", random.choice([1, 2, 5]),
                         "--cache-bytes", random.choice([0, 100, 67_108_864]), *["--upscale"] * larger]
                target = f"/iiif/a/{x},{y},{w},{h}/{'^' * larger}{c},{d}/{'!' * mirror}{90 * quarters}/{quality}.tif"
                got = run(program, ["--base", BASE, *map(str, words), "--one", target, "a=" + path])[1]
                region = [row[x:x + w] for row in rows[y:y + h]]
                strip = strip_of(turned(scaled(region, c, d, channels), mirror, quarters), quality, bits)
                sides = (d, c) if quarters % 2 else (c, d)
                rgb = channels == 3 and quality in ("default", "color")
                asked += 1
                if got != Answer(*sides, 3 if rgb else 1, 1 if quality == "bitonal" else max(8, bits), strip).encode():
                    wrong += 1
                    print("wrong:", target, *words, "tile", tile, (width, height), channels, bits)
    print(f"{asked} requests, {wrong} wrong")
    return 1 if wrong else 0


if __name__ == "__main__":
    sys.exit(main())
