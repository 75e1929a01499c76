"""The running program beside an independent evaluation, on random hostile input.

    /usr/bin/python3 tests/hostile/hostile.py --program crates/iiif_serve/out/iiif_serve --files 100000 --targets 100000 --inputs 20000 --messages 20000

Four parts, each with its count (0 leaves it out): TIFF files with changed, cut and extreme bytes, each opened and, where the standard
accepts it, asked for an image; targets, valid ones, nearly valid ones and garbage, over connections that stay; inputs of connections,
cut, pipelined and out of any grammar; messages to the port for other nodes, where the program has one. Each answer is compared byte for
byte with what `tiff`, `images`, `heads` and `wire` work out from the standards. Python's standard library alone.

Prints a line for each part: what was asked, how many answers were wrong, how many crashes, and the resident memory. What disagreed is
named on standard error, and files that did are kept in --found. The status is 1 where there is any.
"""
import argparse
import sys
import tempfile
import time


def parts(args):
    """The parts that are wanted, by name."""
    import files
    import inputs
    import messages
    import targets
    return [("files", args.files, files.run), ("targets", args.targets, targets.run), ("inputs", args.inputs, inputs.run),
            ("messages", args.messages, messages.run)]


def main():
    parser = argparse.ArgumentParser(description=__doc__, formatter_class=argparse.RawDescriptionHelpFormatter)
    parser.add_argument("--program", required=True)
    for name, count in [("files", 1000), ("targets", 2000), ("inputs", 500), ("messages", 500)]:
        parser.add_argument("--" + name, type=int, default=count)
    parser.add_argument("--seed", type=int, default=1)
    parser.add_argument("--edge", type=int, default=7, help="the server's edge")
    parser.add_argument("--max", type=int, default=64, help="the server's greatest side")
    parser.add_argument("--cache-bytes", type=int, default=67108864, help="what a cache of the program holds, where it has caches")
    parser.add_argument("--batch", type=int, default=150, help="accepted files a server opens at once")
    parser.add_argument("--found", default="/tmp/iiif_hostile", help="where files are kept that something disagreed on")
    args = parser.parse_args()
    wrong = asked = 0
    with tempfile.TemporaryDirectory() as room:
        for name, count, run in parts(args):
            if not count:
                continue
            start = time.monotonic()
            said, found = run(args, room)
            wrong, asked = wrong + len(found), asked + count
            print(f"{name}: {said}; {len(found)} wrong; {time.monotonic() - start:.0f} s, seed {args.seed}", flush=True)
            for line in found[:40]:
                print(f"wrong: {name}: {line}", file=sys.stderr)
    print(f"hostile: {asked} random inputs, and those by hand, {wrong} wrong")
    return 1 if wrong else 0


if __name__ == "__main__":
    sys.exit(main())
