"""A crowd of overviews at one time, whose caches have no room for all that they are made of.

    /usr/bin/python3 bench/compare/together.py --program crates/iiif_serve/out/iiif_serve [--before BUILD] [--rounds 7] [--results]

Sixteen viewers ask for overviews of sixteen parts of a gray picture of 20,224 square in tiles of 256, each 32 times smaller, all at one time.
Caches of 16 MiB let go most of what is kept while others come and go: what is dropped under a group's lock holds up all of them. Each round
starts a server anew for each number of workers and each program, in the environment of the package's unit and with the memory touched that
its options say. Every answer has to be equal to the exact averages of the formula. Prints the medians of the time until the last answer's
last byte, and of the processor time. The status is 1 where an answer is wrong.
"""
import argparse
import os
import statistics
import sys
import threading
import time

import again
import compare
import numpy as np
from again import running
from overview import touched

WORKERS, CACHE, FACTOR, ACROSS = (4, 8), 16 * 2 ** 20, 32, 4
SOURCE = compare.Source("parts-20224", 20224, 20, tile=256)
SIDE = SOURCE.side // ACROSS
PARTS = [(x * SIDE, y * SIDE) for y in range(ACROSS) for x in range(ACROSS)]


def averages(x, y):
    """The samples of a part's overview: each the mean of FACTOR by FACTOR places, halves up."""
    size, area = SIDE // FACTOR, FACTOR ** 2
    rows = []
    for row in range(size):
        places = SOURCE.samples(x, y + row * FACTOR, SIDE, FACTOR)[:, :, 0].astype(np.int64)
        rows.append((2 * places.reshape(FACTOR, size, FACTOR).sum(axis=(0, 2)) + area) // (2 * area))
    return np.stack(rows).astype(np.uint8).tobytes()


def once(program, path, workers, wanted):
    """Seconds and processor seconds until all are answered, and whether each answer was right."""
    options = ["--workers", workers, "--cache-bytes", CACHE, *touched()]
    with running.Server(program, [f"a={path}"], options, env=compare.package()) as server:
        start, right = threading.Barrier(len(PARTS) + 1), []

        def ask(part):
            with server.connect(120) as link:
                start.wait()
                _, body = again.asked(link, f"/iiif/a/{part[0]},{part[1]},{SIDE},{SIDE}/{SIDE // FACTOR},/0/default.tif")
            right.append(body.endswith(wanted[part]) and len(body) > len(wanted[part]))

        viewers = [threading.Thread(target=ask, args=(part,)) for part in PARTS]
        for viewer in viewers:
            viewer.start()
        used = again.processor_time(server)
        start.wait()
        begun = time.perf_counter()
        for viewer in viewers:
            viewer.join()
        return time.perf_counter() - begun, again.processor_time(server) - used, len(right) == len(PARTS) and all(right)


def main():
    parser = argparse.ArgumentParser(description=__doc__, formatter_class=argparse.RawDescriptionHelpFormatter)
    parser.add_argument("--program", required=True, help="the proved program")
    parser.add_argument("--before", help="another build of it, to run beside it")
    parser.add_argument("--work", default="/tmp/iiif_compare", help="where the source is kept, about 0.4 GB")
    parser.add_argument("--rounds", type=int, default=7)
    parser.add_argument("--results", action="store_true", help="write a new file of bench/results besides")
    args = parser.parse_args()
    programs = [("this program", args.program)] + ([("the build before", args.before)] if args.before else [])
    if args.results:
        sys.stdout = compare.Kept("together", "Sixteen overviews at one time, by so many workers", "together.py")
    print(f"{os.cpu_count()} processors, {compare.model()}; {args.rounds} rounds; load before: {compare.load()}\n")
    os.makedirs(args.work, exist_ok=True)
    path = os.path.join(args.work, SOURCE.name + ".tif")
    if not os.path.exists(path):
        SOURCE.write(path)
    wanted, found, right = {part: averages(*part) for part in PARTS}, {}, True
    for _ in range(args.rounds):
        for workers in WORKERS:
            for name, program in programs:
                seconds, used, is_right = once(program, path, workers, wanted)
                right &= is_right
                found.setdefault((name, workers), []).append((seconds, used))
    print("| Program | Workers | Time, ms | Least | Processor time, ms |\n|---|---:|---:|---:|---:|")
    for (name, workers), runs in found.items():
        wall, used = (statistics.median(column) * 1000 for column in zip(*runs))
        print(f"| {name} | {workers} | {wall:.0f} | {min(runs)[0] * 1000:.0f} | {used:.0f} |")
    print(f"\n{'Each answer was its exact averages' if right else 'An answer was wrong'}.")
    return 0 if right else 1


if __name__ == "__main__":
    sys.exit(main())
