"""One block of an overview, whose parts several workers make.

    /usr/bin/python3 bench/compare/parts.py --program crates/iiif_serve/out/iiif_serve [--before BUILD] [--rounds 7] [--strict] [--results]

Gray files of 20,224 and of 30,208 square in tiles of 256, asked for 200 by 200: that is one block, of all tiles. Each answer is the first
of a server that was just started, in the environment of the package's unit and with the memory touched that its options say; all numbers of
workers run in turn. Every answer has to be equal to the exact averages of the formula, and /metrics has to count one load for each tile.
Prints the medians of the wall clock and of the processor time. The status is 1 where one of these isn't so, and with --strict also where
four workers take more than 0.45 of one's time.
"""
import argparse
import os
import re
import statistics
import sys

import again
import compare
import numpy as np
from again import running
from overview import touched

WORKERS, LIMIT, SIZE = (1, 2, 4, 8), 0.45, 200
SOURCES = [compare.Source(f"parts-{side}", side, shift, tile=256) for side, shift in ((20224, 20), (30208, 21))]


def averages(source):
    """The samples of the answer: each the mean of its part of the picture, halves up, where the sides of parts are no whole numbers."""
    side = source.side
    edges = [(n * side, (n + 1) * side) for n in range(SIZE)]
    # The sums of whole columns and rows of the picture, to cut parts out of in units of 1 / SIZE.
    sums = np.zeros((SIZE, SIZE), dtype=object)
    for j, (top, bottom) in enumerate(edges):
        first, last = top // SIZE, -(-bottom // SIZE)
        rows = np.minimum(bottom, (np.arange(first, last) + 1) * SIZE) - np.maximum(top, np.arange(first, last) * SIZE)
        column = (source.samples(0, first, side, last - first)[:, :, 0].astype(np.int64) * rows[:, None]).sum(axis=0)
        for i, (left, right) in enumerate(edges):
            a, b = left // SIZE, -(-right // SIZE)
            weights = np.minimum(right, (np.arange(a, b) + 1) * SIZE) - np.maximum(left, np.arange(a, b) * SIZE)
            sums[j, i] = int((column[a:b] * weights).sum())
    return ((2 * sums + side * side) // (2 * side * side)).astype(np.uint8).tobytes()


def once(program, source, path, workers):
    """Seconds, processor seconds, the body, and how many tiles were loaded, of the first answer."""
    stats = running.free_port()
    options = ["--workers", workers, "--stats-listen", f"127.0.0.1:{stats}", *touched()]
    with running.Server(program, [f"a={path}"], options, env=compare.package()) as server, server.connect() as link:
        used = again.processor_time(server)
        seconds, body = again.asked(link, f"/iiif/a/full/{SIZE},{SIZE}/0/default.tif")
        used = again.processor_time(server) - used
        with running.connected(stats, 30) as counts:
            _, text = again.asked(counts, "/metrics")
    return seconds, used, body, int(re.search(rb"^iiif_tile_cache_loads_total (\d+)", text, re.M)[1])


def measured(args, programs, source, path, wanted):
    """What each program took by each number of workers, and whether each answer and count was right."""
    found, right, tiles = {}, True, (source.side // source.tile) ** 2
    for _ in range(args.rounds):
        for name, program in programs:
            for workers in WORKERS:
                seconds, used, body, loads = once(program, source, path, workers)
                right &= body.endswith(wanted) and loads == tiles
                found.setdefault((name, workers), []).append((seconds, used))
    return {key: [statistics.median(column) * 1000 for column in zip(*runs)] for key, runs in found.items()}, right


def main():
    parser = argparse.ArgumentParser(description=__doc__, formatter_class=argparse.RawDescriptionHelpFormatter)
    parser.add_argument("--program", required=True, help="the proved program")
    parser.add_argument("--before", help="another build of it, to run beside it")
    parser.add_argument("--work", default="/tmp/iiif_compare", help="where the sources are kept, about 1.3 GB")
    parser.add_argument("--rounds", type=int, default=7)
    parser.add_argument("--strict", action="store_true", help="status 1 where the limit is passed")
    parser.add_argument("--results", action="store_true", help="write a new file of bench/results besides")
    args = parser.parse_args()
    programs = [("this program", args.program)] + ([("the build before", args.before)] if args.before else [])
    if args.results:
        sys.stdout = compare.Kept("parts", "One block's parts, by so many workers", "parts.py")
    print(f"{os.cpu_count()} processors, {compare.model()}; {args.rounds} rounds; load before: {compare.load()}\n")
    print("| Image | Program | Workers | Time, ms | As a part of one's | Processor time, ms |\n|---|---|---:|---:|---:|---:|")
    os.makedirs(args.work, exist_ok=True)
    right, quick = True, True
    for source in SOURCES:
        path = os.path.join(args.work, source.name + ".tif")
        if not os.path.exists(path):
            source.write(path)
        medians, is_right = measured(args, programs, source, path, averages(source))
        right &= is_right
        for (name, workers), (wall, used) in medians.items():
            part = wall / medians[name, 1][0]
            print(f"| {source.side:,} square | {name} | {workers} | {wall:.0f} | {part:.2f} | {used:.0f} |")
            quick &= workers != 4 or part <= LIMIT
    said = "Each answer was its exact averages, and each tile was loaded once" if right else "An answer was wrong, or a tile was not loaded once"
    print(f"\n{said}, by each number of workers.")
    return 0 if right and (quick or not args.strict) else 1


if __name__ == "__main__":
    sys.exit(main())
