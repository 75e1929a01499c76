"""An overview of 100 megapixels that is asked of one node twice over a connection.

    /usr/bin/python3 bench/compare/again.py --program crates/iiif_serve/out/iiif_serve [--rounds 7] [--workers 2] [--strict]

Each round starts the program anew on a gray file of 10,000 by 10,000 of compare.py, and asks for the whole of it 1,024 wide, twice over
loopback on one connection: the first time from an empty cache, the file in the page cache. Both answers are compared with the exact
averages. Prints the medians of the wall clock. The status is 1 where an answer differs, and with --strict also where the second takes more
than 0.15 of the first.
"""
import argparse
import os
import statistics
import sys
import time

import compare

sys.path.insert(0, os.path.join(os.path.dirname(os.path.abspath(__file__)), "..", "..", "tests"))
from lib import server as running  # noqa: E402

# What the second answer may take of the first.
LIMIT = 0.15

TARGET = "/iiif/a/full/1024,/0/default.tif"


def asked(link, target):
    """The seconds that a GET takes until the last byte of its body is there, and the body."""
    start = time.perf_counter()
    link.sendall(running.encode_request(target))
    _, body = running.read_answer(link)
    return time.perf_counter() - start, body


def processor_time(server):
    """The seconds of processor time that a server has taken, to a hundredth."""
    with open(f"/proc/{server.process.pid}/stat") as stat:
        words = stat.read().rpartition(")")[2].split()
    return (int(words[11]) + int(words[12])) / os.sysconf("SC_CLK_TCK")


def both(args, source, wanted):
    """Wall clock and processor time of the first answer and of the second, by a new server; none where one is wrong."""
    image = "a=" + os.path.join(args.work, source.name + ".tif")
    with running.Server(args.program, [image], ["--workers", args.workers]) as server, server.connect() as link:
        times = []
        for _ in range(2):
            start = processor_time(server)
            seconds, body = asked(link, TARGET)
            if body != wanted:
                return None
            times += [seconds, processor_time(server) - start]
    return times


def main():
    parser = argparse.ArgumentParser(description=__doc__, formatter_class=argparse.RawDescriptionHelpFormatter)
    parser.add_argument("--program", required=True, help="the proved program")
    parser.add_argument("--work", default="/tmp/iiif_compare", help="where compare.py keeps its sources and answers")
    parser.add_argument("--rounds", type=int, default=7)
    parser.add_argument("--workers", type=int, default=2)
    parser.add_argument("--strict", action="store_true", help="status 1 where the limit is passed")
    args = parser.parse_args()
    os.makedirs(args.work, exist_ok=True)
    jobs = [job for job in range(len(compare.JOBS)) if compare.is_overview(job)]
    wanted, missed = compare.prepared(args, jobs), False
    print("| From | first, ms | again, ms | ratio | processor time, ms | again, ms |\n|---|---|---|---|---|---|")
    for job in jobs:
        source = compare.SOURCES[compare.JOBS[job][1]]
        rounds = [both(args, source, compare.answer_file(wanted[job])) for _ in range(args.rounds)]
        if None in rounds:
            print(f"{source.name}: an answer differs from the exact averages", file=sys.stderr)
            return 1
        first, cpu, again, cpu_again = (statistics.median(column) * 1000 for column in zip(*rounds))
        over = again > LIMIT * first
        missed |= over
        print(f"| {source.name} | {first:.1f} | {again:.1f} | {again / first:.2f}{' (!)' if over else ''} | {cpu:.0f} | {cpu_again:.0f} |")
    return 1 if args.strict and missed else 0


if __name__ == "__main__":
    sys.exit(main())
