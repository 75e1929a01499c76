"""The overview of 100 megapixels from the command line beside careful.c, by what is kept.

    cc -O3 -o /tmp/careful bench/compare/careful.c -lpthread
    /usr/bin/python3 bench/compare/one.py --program crates/iiif_serve/out/iiif_serve --careful /tmp/careful [--rounds 9]

The gray file of 10,000 square in tiles of compare.py, 1,024 wide, by one worker and by four: careful.c, and the program with its defaults,
with caches of 64 MiB and with none. All run in turn, without an environment, and each answer is compared with the exact averages. Prints
the medians of wall clock and processor time in ms, with the least in brackets, and of new pages.
"""
import argparse
import os
import statistics
import subprocess
import sys
import time

import compare

SIZE = 1024
CACHES = {"the defaults": [], "caches of 64 MiB": ["--cache-bytes", "67108864"], "no caches": ["--cache-bytes", "0"]}


def ways(args, path, out):
    """The commands, by who runs and how many workers."""
    found = {}
    for workers in ("1", "4"):
        found["careful.c", workers] = [args.careful, path, str(SIZE), workers, out]
        for name, words in CACHES.items():
            found[name, workers] = [args.program, "--base", "http://localhost/iiif", "--workers", workers, *words, "--one",
                                    f"/iiif/a/full/{SIZE},/0/default.tif", "a=" + path]
    return found


def once(command, out, is_own):
    """Wall clock and processor time in ms, and new pages."""
    with open(out if is_own else os.devnull, "wb") as stdout:
        start = time.perf_counter()
        child = subprocess.Popen(command, stdout=stdout)
        _, status, usage = os.wait4(child.pid, 0)
        wall = time.perf_counter() - start
    child.returncode = os.waitstatus_to_exitcode(status)
    if child.returncode:
        sys.exit(f"{' '.join(command)}: status {child.returncode}")
    return wall * 1000, (usage.ru_utime + usage.ru_stime) * 1000, usage.ru_minflt


def main():
    parser = argparse.ArgumentParser(description=__doc__, formatter_class=argparse.RawDescriptionHelpFormatter)
    parser.add_argument("--program", required=True, help="the proved program")
    parser.add_argument("--careful", required=True, help="careful.c of this folder, built by cc -O3")
    parser.add_argument("--work", default="/tmp/iiif_compare", help="where compare.py keeps its sources and answers")
    parser.add_argument("--rounds", type=int, default=9)
    args = parser.parse_args()
    os.makedirs(args.work, exist_ok=True)
    wanted = compare.answer_file(compare.prepared(args, [0])[0])
    path, out = os.path.join(args.work, compare.SOURCES[0].name + ".tif"), os.path.join(args.work, "one.tif")
    runs = {}
    for turn in range(args.rounds):
        commands = ways(args, path, out)
        for way in compare.turned(list(commands), turn):
            runs.setdefault(way, []).append(once(commands[way], out, way[0] != "careful.c"))
            with open(out, "rb") as file:
                if file.read() != wanted:
                    sys.exit(f"{way}: differs from the exact averages")
    print(f"load: {compare.load()}\n\n| Kept | Workers | Wall clock, ms | Processor time, ms | beside careful.c | New pages |")
    print("|---|---:|---:|---:|---:|---:|")
    least = {way: min(it[1] for it in runs[way]) for way in runs}
    for (name, workers), rows in runs.items():
        wall, cpu, pages = zip(*rows)
        ratio = least[name, workers] / least["careful.c", workers]
        print(f"| {name} | {workers} | {statistics.median(wall):.0f} ({min(wall):.0f}) | {statistics.median(cpu):.1f} ({min(cpu):.1f}) "
              f"| {ratio:.2f} | {statistics.median(pages):,.0f} |")
    return 0


if __name__ == "__main__":
    sys.exit(main())
