"""A larger result that is turned by 90 degrees, beside the same result unturned.

    /usr/bin/python3 bench/compare/turning.py --program crates/iiif_serve/out/iiif_serve [--rounds 7] [--strict]

The job is 1,024 square of the gray file in tiles of compare.py, to 4,096 square, by one worker, with tiles of 256 and of 1,024. A band of a
turned result is a few columns of the scaled region, so that it takes a few columns of each tile. Turned and unturned answers alternate, both
are compared with the exact averages, and the medians of the processor time are printed. The status is 1 where an answer differs, and with
--strict also where a turned one takes more than 1.3 of the unturned one.
"""
import argparse
import os
import statistics
import sys

import compare
from warming import touch

# What a turned answer may take of the unturned one.
LIMIT = 1.3

JOB = next(job for job, (name, *_) in enumerate(compare.JOBS) if name == "up: 1,024 square to 4,096 wide, from tiles")


def measured(args, edge, wanted):
    """The medians of the processor time in seconds, unturned and turned by 90 degrees; none where an answer differs."""
    _, number, rect, size = compare.JOBS[JOB]
    path = os.path.join(args.work, compare.SOURCES[number].name + ".tif")
    out = os.path.join(args.work, "turning.tif")
    times = {0: [], 90: []}
    for turn in range(args.rounds):
        for degrees in compare.turned(list(times), turn):
            target = f"/iiif/a/{','.join(map(str, rect))}/^{size},/{degrees}/default.tif"
            touch(args.warm)
            ((_, cpu),) = compare.run([compare.own(args, target, path, True, ["--workers", "1", "--edge", str(edge)])], out)
            times[degrees].append(cpu)
            with open(out, "rb") as file:
                if file.read() != wanted[degrees]:
                    print(f"turned by {degrees}, --edge {edge}: differs from the exact averages", file=sys.stderr)
                    return None
    return [statistics.median(column) for column in times.values()]


def main():
    parser = argparse.ArgumentParser(description=__doc__, formatter_class=argparse.RawDescriptionHelpFormatter)
    parser.add_argument("--program", required=True, help="the proved program")
    parser.add_argument("--work", default="/tmp/iiif_compare", help="where compare.py keeps its sources and answers")
    parser.add_argument("--rounds", type=int, default=7)
    parser.add_argument("--warm", type=int, default=512, metavar="MIB", help="how much memory is touched right before each answer")
    parser.add_argument("--strict", action="store_true", help="status 1 where the limit is passed")
    args = parser.parse_args()
    os.makedirs(args.work, exist_ok=True)
    samples = compare.prepared(args, [JOB])[JOB]
    wanted = {0: compare.answer_file(samples), 90: compare.answer_file(compare.np.rot90(samples, -1))}
    missed = False
    print("| `--edge` | unturned, ms | turned by 90 degrees, ms | ratio |\n|---|---|---|---|")
    for edge in (256, 1024):
        medians = measured(args, edge, wanted)
        if medians is None:
            return 1
        ratio = medians[1] / medians[0]
        missed |= ratio > LIMIT
        print(f"| {edge} | {medians[0] * 1000:.1f} | {medians[1] * 1000:.1f} | {ratio:.2f}{' (!)' if ratio > LIMIT else ''} |", flush=True)
    return 1 if args.strict and missed else 0


if __name__ == "__main__":
    sys.exit(main())
