"""The overview of 100 megapixels beside the program before bands and caches, alternating: from the command line, and asked of a server.

    /usr/bin/python3 bench/compare/overview.py --program crates/iiif_serve/out/iiif_serve --before BUILD [--rounds 11] [--strict]

The gray file of 10,000 square in tiles of compare.py, 1,024 wide, by the program before and by this one with one worker, two and four. From
the command line each without an environment and in the one that the manual has for one large image, and there this one also with no caches and one band
of all rows, as docs/operate/OPERATING.md has it: the program before keeps nothing, either. As a server each as its own package starts it, which is
without an environment for the one before, and for this one in the unit's and with the memory touched that the package's options say. A server
is started anew for each answer, so its caches are empty, and the clock runs from the request until the last byte. All run alternating, each round
begun with another. Each answer of this program is compared with the exact averages. Right before each run, whichever it is, --warm MiB are touched and given back: a
virtual machine whose host takes back what lies free has to ask for it again else, which costs more than the whole answer, and more at one time than at another. Prints
the medians of the wall clock with the least in brackets, and from the command line those of the processor time of all threads and of the new pages that were touched; then what one worker and
four take of the program before. The status is 1 where an answer differs, and with --strict also where from the command line, both in the
manual's environment, one worker takes more than 1.15, or four more than 0.6, by the defaults or without caches. The servers' times are printed and not
judged: this program's memory is touched before their clock starts.
"""
import argparse
import os
import re
import statistics
import subprocess
import sys
import time

import again
import compare
import program as running

# What a count of workers may take of the program before.
LIMITS = {"1": 1.15, "4": 0.6}
SOURCE, RECT, SIZE = compare.SOURCES[0], (0, 0, 10000, 10000), 1024


def once(command, out, environment):
    """Wall clock and processor time in ms, and new pages."""
    with open(out, "wb") as stdout:
        start = time.perf_counter()
        child = subprocess.Popen(command, stdout=stdout, env=environment)
        _, status, usage = os.wait4(child.pid, 0)
        wall = time.perf_counter() - start
    child.returncode = os.waitstatus_to_exitcode(status)
    if child.returncode:
        sys.exit(f"{' '.join(command)}: status {child.returncode}")
    return wall * 1000, (usage.ru_utime + usage.ru_stime) * 1000, usage.ru_minflt


def commands(args, path):
    """How each is run, by its name: the program before, and this one by its workers."""
    words = ["--base", "http://localhost/iiif", "--one", f"/iiif/a/full/{SIZE},/0/default.tif", f"a={path}"]
    found = {"before": [args.before, *words]}
    for workers in ("1", "2", "4"):
        found[workers] = [args.program, "--workers", workers, *words]
    return found


def touched():
    """The option of the package by which memory is touched."""
    with open(os.path.join(os.path.dirname(compare.UNIT), "iiif-serve.default")) as default:
        return re.search(r"--touch-bytes \d+", default.read())[0].split()


def served(args, name, path):
    """The wall clock in ms of the first answer of a server, and the answer."""
    program, options, environment = args.before, [], None
    if name != "before":
        program, options, environment = args.program, ["--workers", name, *touched()], compare.package()
    with running.Server(program, [f"a={path}"], options, environment) as server, server.connect() as link:
        seconds, body = again.asked(link, again.TARGET)
    return seconds * 1000, body


def measured(args, path, wanted):
    """The runs of each program in each way, and whether an answer was wrong."""
    environments = {"none": None, "manual": compare.one_image()}
    ways = [(name, kind) for name in commands(args, path) for kind in (*environments, "alone", "server") if (name, kind) != ("before", "alone")]
    runs, wrong, out = {}, False, os.path.join(args.work, "overview.tif")
    for turn in range(args.rounds):
        for name, kind in compare.turned(ways, turn):
            if kind == "server":
                compare.touch(args.warm)
                wall, body = served(args, name, path)
                runs.setdefault((name, kind), []).append((wall, 0, 0))
            else:
                more = compare.ALONE if kind == "alone" else []
                compare.touch(args.warm)
                runs.setdefault((name, kind), []).append(once(commands(args, path)[name] + more, out, environments.get(kind, environments["manual"])))
                with open(out, "rb") as file:
                    body = file.read()
            if name != "before" and body != wanted:
                wrong = True
                print(f"{name} workers, {kind}: differs from the exact averages", file=sys.stderr)
    return runs, wrong


def main():
    parser = argparse.ArgumentParser(description=__doc__, formatter_class=argparse.RawDescriptionHelpFormatter)
    parser.add_argument("--program", required=True)
    parser.add_argument("--before", required=True, help="the program before bands and caches")
    parser.add_argument("--work", default="/tmp/iiif_compare", help="where the sources are kept")
    parser.add_argument("--rounds", type=int, default=11)
    parser.add_argument("--warm", type=int, default=512, metavar="MIB", help="how much memory is touched right before each run")
    parser.add_argument("--strict", action="store_true", help="status 1 where a limit is passed")
    args = parser.parse_args()
    job = next(n for n, (_, number, rect, size) in enumerate(compare.JOBS) if (number, tuple(rect), size) == (0, RECT, SIZE))
    wanted = compare.answer_file(compare.prepared(args, [job])[job])
    runs, wrong = measured(args, os.path.join(args.work, SOURCE.name + ".tif"), wanted)
    middle = {key: [statistics.median(column) for column in zip(*found)] for key, found in runs.items()}
    print("| | no environment | processor time | pages | manual | processor time | pages | manual, no caches | processor time | pages | server |\n|---|---|---|---|---|---|---|---|---|---|---|")
    for name, title in (("before", "before"), ("1", "one worker"), ("2", "two"), ("4", "four")):
        cells = []
        for kind in ("none", "manual", "alone", "server"):
            if (name, kind) not in middle:
                cells.append(" | | ")
                continue
            wall, used, pages = middle[name, kind]
            cells.append(f"{wall:.0f} ({min(run[0] for run in runs[name, kind]):.0f})" + ("" if kind == "server" else f" | {used:.0f} | {pages:,.0f}"))
        print(f"| {title} | {' | '.join(cells)} |")
    passed = []
    print("\n| beside the program before | both without an environment | both in the manual's | the same, no caches | servers as their packages start them | limit, of the command line |\n|---|---|---|---|---|---|")
    for workers, limit in LIMITS.items():
        parts = {kind: middle[workers, kind][0] / middle["before", beside][0]
                 for kind, beside in (("none", "none"), ("manual", "manual"), ("alone", "manual"), ("server", "server"))}
        print(f"| {workers} worker{'s' * (workers != '1')} | {' | '.join(f'{part:.2f}' for part in parts.values())} | {limit} |")
        passed += [f"{workers} workers, {kind}: {parts[kind]:.2f}, above {limit}" for kind in ("manual", "alone") if parts[kind] > limit]
    for line in passed:
        print(line, file=sys.stderr)
    return 1 if wrong or (args.strict and passed) else 0


if __name__ == "__main__":
    sys.exit(main())
