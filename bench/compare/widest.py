"""The largest answer that the program gives, RGB of 16,384 by 16,384, and the memory that it takes beside the caches.

    /usr/bin/python3 bench/compare/widest.py --program crates/iiif_serve/out/iiif_serve [--strict]

The source is a file in tiles of 256 by a formula, 805 MB, which is removed at the end; the answer has as many bytes. It is read from a pipe
and compared with the formula, band by band. Prints the peak of the resident memory with caches of several sizes. The status is 1 where an
answer differs, and with --strict also where the peak is 64 MiB or more above the caches.
"""
import argparse
import os
import subprocess
import sys

import compare

SIDE = 16_384
LIMIT = 64
SOURCE = compare.Source("rgb-widest", SIDE, 13, channels=3, tile=256)


def head():
    """The answer's bytes before its samples."""
    whole = compare.answer_file(compare.np.zeros((1, 1, 3), compare.np.uint8))
    sides = {256: SIDE, 257: SIDE, 278: SIDE, 279: 3 * SIDE ** 2}
    out = bytearray(whole[:-3])
    for at in range(10, 10 + 12 * 12, 12):
        tag = int.from_bytes(out[at:at + 2], "little")
        if tag in sides:
            out[at + 8:at + 12] = sides[tag].to_bytes(4, "little")
    return bytes(out)


def is_right(stream):
    """Whether a stream is the answer, and ends with it."""
    wanted = head()
    if stream.read(len(wanted)) != wanted:
        return False
    for y in range(0, SIDE, 64):
        rows = SOURCE.samples(0, y, SIDE, 64).astype(compare.np.uint8).tobytes()
        if stream.read(len(rows)) != rows:
            return False
    return not stream.read(1)


def peak(args, path, words):
    """The peak of resident memory of an answer in KiB, and whether it is right."""
    command = [args.program, "--base", "http://localhost/iiif", "--max", str(SIDE), *words, "--one", "/iiif/a/full/max/0/default.tif", "a=" + path]
    with subprocess.Popen(["/usr/bin/time", "-q", "-o", path + ".time", "-f", "%M", *command], stdout=subprocess.PIPE) as child:
        right = is_right(child.stdout)
        child.stdout.close()
    with open(path + ".time") as peaks:
        return int(peaks.read().split()[-1]), right and not child.returncode


def main():
    parser = argparse.ArgumentParser(description=__doc__, formatter_class=argparse.RawDescriptionHelpFormatter)
    parser.add_argument("--program", required=True, help="the proved program")
    parser.add_argument("--work", default="/tmp/iiif_compare", help="where the source is kept meanwhile")
    parser.add_argument("--strict", action="store_true", help="status 1 where the limit is passed")
    args = parser.parse_args()
    os.makedirs(args.work, exist_ok=True)
    path = os.path.join(args.work, SOURCE.name + ".tif")
    failed = missed = False
    try:
        SOURCE.write(path)
        print("| Caches, MiB | workers | peak, MiB | beside the caches |\n|---|---|---|---|")
        for cache, workers in ((64, 2), (64, 4), (8, 2), (0, 2)):
            kib, right = peak(args, path, ["--cache-bytes", str(cache << 20), "--workers", str(workers)])
            failed |= not right
            # Nothing is scaled, so that the cache of sums holds nothing.
            beside = kib / 1024 - cache
            missed |= beside >= LIMIT
            print(f"| {cache} | {workers} | {kib / 1024:.1f} | {beside:.1f}{' (!)' if beside >= LIMIT else ''}{'' if right else ' differs'} |", flush=True)
    finally:
        for name in (path, path + ".part", path + ".time"):
            if os.path.exists(name):
                os.remove(name)
    return 1 if failed or (args.strict and missed) else 0


if __name__ == "__main__":
    sys.exit(main())
