#!/usr/bin/env python3
"""Native tiles of the program over a file in the page cache, of the same over the file held in memory, and of a build before, in one run.

    python3 bench/compare/held.py --program PROGRAM [--before BUILD] [--rounds 15] [--side 4096] [--strips]

Writes a gray TIFF file of side by side places, in tiles of 256 (or, with --strips, in strips of one row), starts all servers, each with --cache-bytes 0
(so that every tile is read from its source each time), and lets one viewer ask each of them for all tiles, round after round, the servers in
turn, each round begun with another one. In a first round the bodies of all are compared, byte for byte, with the file's samples. Prints
for each the median over the rounds of the microseconds a tile, on the viewer's clock and of the server's processor time, and their ratios to the
page cache's. Status 1 where a body differs, or where held takes more than 1.02 of the page cache, or the program more than 1.02 of the build before.
"""
import argparse
import os
import statistics
import sys
import tempfile
import time

TOP = os.path.dirname(os.path.dirname(os.path.dirname(os.path.abspath(__file__))))
sys.path.insert(0, f"{TOP}/tests")
from lib import server as running  # noqa: E402
from lib import tiff  # noqa: E402

EDGE = 256


def samples(side):
    """Rows of a pattern that no tile repeats."""
    return [bytes((x * 7 + y * 13 + (x * y >> 7)) & 255 for x in range(side)) for y in range(side)]


def file_of(rows, strips):
    """A gray file of 8 bits in tiles of 256, or in strips of one row."""
    side = len(rows)
    if strips:
        return tiff.encode_pieces(side, side, rows, strip=1)
    return tiff.encode_pieces(side, side, [tile_of(rows, x, y) for y in range(0, side, EDGE) for x in range(0, side, EDGE)], tile=EDGE)


def tile_of(rows, x, y):
    """The samples of a tile."""
    return b"".join(row[x:x + EDGE] for row in rows[y:y + EDGE])


def processor(pid):
    """Nanoseconds of processor time of a process."""
    return time.clock_gettime_ns((~pid << 3) | 2)


class Viewer:
    def __init__(self, server):
        self.server, self.link, self.asked = server, None, 0

    def ask(self, x, y):
        """The body of a tile."""
        if self.link is None or self.asked == 900:
            if self.link:
                self.link.close()
            self.link, self.asked = self.server.connect(), 0
        self.asked += 1
        self.link.sendall(running.encode_request(f"/iiif/a/{x},{y},{EDGE},{EDGE}/max/0/default.tif"))
        status, body = running.read_answer(self.link)
        if status != 200 or body is None:
            sys.exit(f"a tile came with {status}, {'whole' if body else 'cut'}")
        return body


def main():
    words = argparse.ArgumentParser(description=__doc__, formatter_class=argparse.RawDescriptionHelpFormatter)
    words.add_argument("--program", required=True)
    words.add_argument("--before")
    words.add_argument("--rounds", type=int, default=15)
    words.add_argument("--side", type=int, default=4096)
    words.add_argument("--strips", action="store_true")
    given = words.parse_args()
    rows = samples(given.side)
    with tempfile.TemporaryDirectory() as folder:
        path = f"{folder}/a.tif"
        with open(path, "wb") as file:
            file.write(file_of(rows, given.strips))
        with open(path, "rb") as file:
            while file.read(1 << 24):
                pass
        kinds = [("page cache", given.program, []), ("held", given.program, ["--hold", str(2**40)])]
        if given.before:
            kinds.append(("before", given.before, []))
        servers = [(name, running.Server(program, [f"a={path}"], ["--cache-bytes", "0", *more])) for name, program, more in kinds]
        viewers = {name: Viewer(server) for name, server in servers}
        tiles = [(x, y) for y in range(0, given.side, EDGE) for x in range(0, given.side, EDGE)]
        wrong = 0
        for x, y in tiles:
            wanted = tiff.Answer(EDGE, EDGE, 1, 8, tile_of(rows, x, y)).encode()
            for name, _ in servers:
                if viewers[name].ask(x, y) != wanted:
                    wrong += 1
                    print(f"{name}: {x},{y}: other bytes", file=sys.stderr)
        took = {name: ([], []) for name, _ in servers}
        for turn in range(given.rounds):
            for k in range(len(servers)):
                name, server = servers[(turn + k) % len(servers)]
                viewer = viewers[name]
                used, start = processor(server.process.pid), time.perf_counter()
                for x, y in tiles:
                    viewer.ask(x, y)
                took[name][0].append((time.perf_counter() - start) / len(tiles) * 1e6)
                took[name][1].append((processor(server.process.pid) - used) / len(tiles) / 1e3)
        for _, server in servers:
            server.stop()
    at = {name: [statistics.median(it) for it in both] for name, both in took.items()}
    least = {name: [min(it) for it in both] for name, both in took.items()}
    print(f"{len(tiles)} tiles of {EDGE} of gray {given.side} square in {'strips' if given.strips else 'tiles'}, {given.rounds} rounds in turn; microseconds a tile")
    print("| Source | clock, median | least | processor, median | least | processor beside the page cache's | its least beside |\n|---|---:|---:|---:|---:|---:|---:|")
    for name, (clock, cpu) in at.items():
        print(f"| {name} | {clock:.1f} | {least[name][0]:.1f} | {cpu:.1f} | {least[name][1]:.1f} | {cpu / at['page cache'][1]:.3f} | {least[name][1] / least['page cache'][1]:.3f} |")
    slow = at["held"][1] > 1.02 * at["page cache"][1]
    if given.before:
        slow = slow or at["page cache"][1] > 1.02 * at["before"][1]
    print(f"{wrong} wrong bodies; {'SLOWER than its bound' if slow else 'within its bounds'}")
    return 1 if wrong or slow else 0


if __name__ == "__main__":
    sys.exit(main())
