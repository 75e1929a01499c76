"""What comparing a file with its listed digest costs: taking it in, and the answers from then on.

    /usr/bin/python3 bench/compare/fixity.py --program crates/iiif_serve/out/iiif_serve [--rounds 9] [--strict] [--results]

The gray file of 10,000 square in tiles of compare.py, 100 MB in the page cache, is served on disk, held in memory, and held with a manifest
that lists its digest. Of each, in turn, each round begun with another:

- taken in: the program from its start to its end, for the information of the image from the command line; `sha256sum` of the file beside it,
  and a check that compares the file and holds nothing;
- the overview 1,024 wide of a server that was just started, cold, and asked for once more, warm: compared with the exact averages;
- 64 native tiles of 256 square, each asked for once, cold, and once more, warm: compared with the file's samples. The median of the tiles.

Prints the medians over the rounds of the wall clock in ms. The status is 1 where an answer differs, and with --strict also where an answer of
the held and listed file takes more than 1.1 of the held one's: the digest is compared before anything is answered.
"""
import argparse
import hashlib
import os
import statistics
import sys

import again
import compare
import overview
import program as running

SOURCE, TILE = compare.SOURCES[0], 256
# Tiles that lie apart, none of them at an edge.
PLACES = [(TILE * (1 + 4 * x), TILE * (1 + 4 * y)) for y in range(8) for x in range(8)]
HELD, LISTED = "held", "held, listed"
# What is measured of a server, and how far an answer of the listed file may be from one of the held one.
ANSWERS, LIMIT = ("overview, cold", "overview, warm", "tile, cold", "tile, warm"), 1.1


def ways(path, manifest):
    """The options of each way to serve the file."""
    hold = ["--hold", str(os.path.getsize(path))]
    return {"on disk": [], HELD: hold, LISTED: [*hold, "--manifest", manifest]}


def taken_in(args, path, manifest):
    """What takes the file in, by its name."""
    words = [args.program, "--base", "http://localhost/iiif"]
    found = {name: [*words, *options, "--one", "/iiif/a/info.json", f"a={path}"] for name, options in ways(path, manifest).items()}
    found["checked, not held"] = [*words, "--check", "--manifest", manifest, f"a={path}"]
    found["sha256sum"] = ["sha256sum", path]
    return found


def target(place):
    return f"/iiif/a/{place[0]},{place[1]},{TILE},{TILE}/max/0/default.tif"


def is_tile(body, place):
    """Whether an answer ends with a tile's samples."""
    wanted = SOURCE.packed(SOURCE.samples(*place, TILE, TILE))
    return body.endswith(wanted) and len(body) > len(wanted)


def served(args, path, options, wanted):
    """The ms of each of ANSWERS by a new server, and whether all were right."""
    times, right = {}, True
    with running.Server(args.program, [f"a={path}"], options) as server, server.connect() as link:
        for name in ANSWERS[:2]:
            seconds, body = again.asked(link, again.TARGET)
            times[name], right = seconds * 1000, right and body == wanted
    # Another server, which has nothing of the overview.
    with running.Server(args.program, [f"a={path}"], options) as server, server.connect() as link:
        for name in ANSWERS[2:]:
            runs = [(place, *again.asked(link, target(place))) for place in PLACES]
            times[name] = statistics.median(seconds for _, seconds, _ in runs) * 1000
            right = right and all(is_tile(body, place) for place, _, body in runs)
    return times, right


def main():
    parser = argparse.ArgumentParser(description=__doc__, formatter_class=argparse.RawDescriptionHelpFormatter)
    parser.add_argument("--program", required=True, help="the proved program")
    parser.add_argument("--work", default="/tmp/iiif_compare", help="where compare.py keeps its sources and answers")
    parser.add_argument("--rounds", type=int, default=9)
    parser.add_argument("--strict", action="store_true", help="status 1 where the limit is passed")
    parser.add_argument("--results", action="store_true", help="write a new file of bench/results besides")
    args = parser.parse_args()
    args.program = os.path.abspath(args.program)
    if args.results:
        sys.stdout = compare.Kept("fixity", "A file compared with its digest, beside one that isn't", "fixity.py")
    print(f"{os.cpu_count()} processors, {compare.model()}; {args.rounds} rounds; load before: {compare.load()}\n")
    os.makedirs(args.work, exist_ok=True)
    path, manifest = os.path.join(args.work, SOURCE.name + ".tif"), os.path.join(args.work, "fixity-manifest")
    if not os.path.exists(path):
        SOURCE.write(path)
    with open(path, "rb") as file:
        digest = hashlib.sha256(file.read()).hexdigest()
    with open(manifest, "w", encoding="ascii") as file:
        file.write(f"{digest}  {os.path.basename(path)}\n")
    wanted = compare.answer_file(compare.exact(SOURCE, (0, 0, SOURCE.side, SOURCE.side), (1024, 1024)))
    taken, answers, right = {}, {}, True
    for turn in range(args.rounds):
        for name, command in compare.turned(list(taken_in(args, path, manifest).items()), turn):
            taken.setdefault(name, []).append(overview.once(command, os.devnull, None))
        for name, options in compare.turned(list(ways(path, manifest).items()), turn):
            times, is_right = served(args, path, options, wanted)
            answers.setdefault(name, []).append(times)
            right &= is_right
    print("| 100 MB taken in | Wall clock, ms | Least | Processor time, ms |\n|---|---:|---:|---:|")
    for name in taken_in(args, path, manifest):
        wall, used = (statistics.median(run[column] for run in taken[name]) for column in (0, 1))
        print(f"| {name} | {wall:.0f} | {min(run[0] for run in taken[name]):.0f} | {used:.0f} |")
    medians = {name: [statistics.median(times[it] for times in runs) for it in ANSWERS] for name, runs in answers.items()}
    print("\n| Answers, ms | " + " | ".join(ANSWERS) + " |\n|---|" + "---:|" * len(ANSWERS))
    for name in ways(path, manifest):
        print(f"| {name} | " + " | ".join(f"{it:.2f}" for it in medians[name]) + " |")
    ratios = [listed / held for listed, held in zip(medians[LISTED], medians[HELD])]
    print(f"\n{LISTED}, beside {HELD}: {', '.join(f'{it:.2f}' for it in ratios)}.")
    print("Each answer was its exact averages, or its samples." if right else "An answer was wrong.")
    return 1 if not right or args.strict and max(ratios) > LIMIT else 0


if __name__ == "__main__":
    sys.exit(main())
