"""Viewers that keep their connections, on this program, on the program before, on IIPImage and on a plain C server over libvips.

    rustc --edition 2021 -O -o /tmp/load bench/load/load.rs
    cc -O2 -o /tmp/plain bench/load/plain.c $(pkg-config --cflags --libs vips) -lpthread
    cc -O2 -o /tmp/floor bench/load/floor.c -lpthread
    /usr/bin/python3 bench/load/crowd.py --program crates/iiif_serve/out/iiif_serve --load /tmp/load --plain /tmp/plain --floor /tmp/floor [--before BUILD] [--nodes 2 3]

Needs numpy, Pillow, libvips-tools, libvips-dev, lighttpd and iipimage-server. The picture is the gray one of 10,000 square of bench/compare,
in tiles of 256, which all read. IIPImage reads in turn a pyramid too, which `vips tiffsave` makes of it: that is the form that it wants, and of
which it has each scale that the viewers ask for made before. This program answers uncompressed TIFF of exact averages, the plain server
uncompressed TIFF scaled in libvips' way, and IIPImage JPEG, as it knows nothing else.

The jobs, each on servers that are started anew for it, so that their caches are empty and the files are in the page cache:
  native tiles   whole tiles of 256, all different, asked by 1, 8 or 64 viewers, and by one who looks for each answer in place of sleeping until
                 it comes, whichever the server: no thread of the viewer's has to be woken then
  zoom path      200 requests of one viewer of viewers/own.html who opens the picture, zooms in and moves, as bench/scale records it
  crowd          8 viewers, 100 different requests of such paths, each asked by two viewers at the same time
  viewers        1, 8 and 64 viewers, each somewhere else on such paths
With --floor a server that reads and writes the bytes of native tiles, and does nothing else, runs too: none whose threads sleep takes less. So does
one that keeps them as well, in memory that has left the processor's caches: none that keeps takes less. Two more show what is saved where no byte of the file is
copied into memory of its own: one that writes from the file as it is mapped, and one whose bytes the system sends (sendfile).
All servers run in turn, --rounds times (the plain one once, as it takes minutes), and medians are printed: how long the viewer waited who waited longest, which is the sum over
its requests of the time from a request's first byte to its answer's last; processor time of all processes of a server; requests a second of that time; and the 50th and the 99th
percentile of those times. What a viewer does between an answer and its next request, a check sum of the answer's bytes, is in none of them: of a native tile of 64 KiB that
takes as long as a tenth of the answer, of IIPImage's JPEG nearly nothing. With --nodes, the crowd's viewers go to so many nodes that ask each other, one after another.

In a run before these the answers are kept: those of the program have to be equal, byte for byte, to heads and exact averages worked out by
tests/hostile and bench/compare from the formula; of the others it is looked whether each is an image of the right sides. In every run equal
requests have to be answered by equal bytes. The status is 1 where one of these isn't so, and with --strict where a limit of LIMITS is passed.
"""
import argparse
import io
import os
import random
import re
import statistics
import subprocess
import sys
import tempfile

import servers
from PIL import Image as Pillow

HERE = os.path.dirname(os.path.abspath(__file__))
for folder in ("compare", "scale", "../tests/hostile"):
    sys.path.insert(0, os.path.join(HERE, "..", folder))
import compare  # noqa: E402
import images  # noqa: E402
import scale  # noqa: E402
from model import Image  # noqa: E402

SOURCE, EDGE, LIMIT = compare.SOURCES[0], 256, 4096
OWN, BEFORE, PLAIN, FLOOR = "this program", "the build before", "libvips in C", "reads and writes alone"
KEEPS = "reads, keeps and writes alone"
MAPS, SENDS = "maps and writes alone", "sends inside the system alone"
# The servers that do no more than that.
BARE = (FLOOR, KEEPS, MAPS, SENDS)
# The jobs that the servers do which read and write alone, and how many MiB the one has that keeps, as this program by its defaults.
WITH_FLOOR, KEPT = "native", "64"
# The jobs of a viewer who looks for its answers.
LOOKS = "who looks"
# Of IIPImage's time over the same file: the greatest part that this program is to take, and of the 99th percentile at 64 viewers, in 50th ones.
LIMITS = {"native tiles, 1 viewer": 0.12, "zoom path": 0.2, "crowd": 0.3}
SPREAD = ("viewers, 64", 10)


class Shown:
    """What the evaluation of targets wants to know of the picture."""

    width = height = SOURCE.side
    channels, bits = SOURCE.channels, SOURCE.bits


class Exact(images.Answers):
    """Whole answers, whose samples come from the formula."""

    def __init__(self):
        super().__init__(servers.BASE, {servers.NAME: Shown}, EDGE, LIMIT, False)

    def image(self, picture, words):
        area, size, turn, quality = images.spelled(words)
        rect = images.rectangle(area, picture.width, picture.height)
        sides = images.sides(size, rect[2], rect[3], self.limit, self.upscale)
        return images.canonical(rect, sides, turn, quality, picture, self.limit), compare.answer_file(compare.exact(SOURCE, rect, sides))


def words_of(request):
    """A request of a path as region and size."""
    return ",".join(map(str, request.region)), ",".join(map(str, request.size))


def path(seed, count):
    """So many requests of viewers who come one after another."""
    chance, found = random.Random(seed), []
    while len(found) < count:
        found += map(words_of, scale.visit(Image(b"gray", SOURCE.side, SOURCE.side, 1), chance))
    return found[:count]


def native(viewers, count):
    """Different tiles within the picture, so many for each viewer."""
    across = SOURCE.side // EDGE
    tiles = [(f"{x * EDGE},{y * EDGE},{EDGE},{EDGE}", f"{EDGE},{EDGE}") for x in range(across) for y in range(across)]
    random.Random(viewers).shuffle(tiles)
    return [tiles[n * count:(n + 1) * count] for n in range(viewers)]


def crowd():
    """25 different requests for each of four pairs of viewers."""
    ways = [path(seed, 200) for seed in range(10, 14)]
    known, lists = set(), []
    for way in ways:
        own = [words for words in dict.fromkeys(way) if words not in known][::5][:25]
        known.update(own)
        lists += [own, own]
    return lists


def spread(viewers, count):
    """Each viewer's part of a path of its own, begun somewhere in it."""
    return [path(100 + n, 200)[n * 29 % (200 - count):][:count] for n in range(viewers)]


JOBS = {
    "native tiles, 1 viewer": lambda: native(1, 1400),
    "native tiles, 1 viewer who looks": lambda: native(1, 1400),
    "native tiles, 8 viewers": lambda: native(8, 180),
    "native tiles, 64 viewers": lambda: native(64, 22),
    "zoom path": lambda: [path(1, 200)],
    "crowd": crowd,
    "viewers, 1": lambda: [path(100, 200)],
    "viewers, 8": lambda: spread(8, 40),
    "viewers, 64": lambda: spread(64, 16),
}


class Bench:
    """What all runs share: the words of the command line, the room for files, the evaluation."""

    def __init__(self, args, room):
        self.args, self.room, self.exact, self.known = args, room, Exact(), {}
        self.source = os.path.join(args.work, SOURCE.name + ".tif")
        self.pyramid = os.path.join(args.work, "pyramid.tif")
        self.files()

    def files(self):
        """The picture and its pyramid, written where they aren't there, and read once."""
        os.makedirs(self.args.work, exist_ok=True)
        if not os.path.exists(self.source):
            SOURCE.write(self.source)
        if not os.path.exists(self.pyramid):
            subprocess.run(["vips", "tiffsave", self.source, self.pyramid, "--tile", "--pyramid", "--tile-width", "256", "--tile-height", "256"], check=True)
        for name in (self.source, self.pyramid):
            with open(name, "rb") as file:
                while file.read(1 << 24):
                    pass

    def columns(self):
        """How each server is started, by the name of its column."""
        args, options = self.args, self.args.options.split()
        found = {OWN: lambda: servers.Program(OWN, args.program, self.source, self.room, options)}
        if args.before:
            found[BEFORE] = lambda: servers.Program(BEFORE, args.before, self.source, self.room)
        for many in args.iip:
            for which, file in (("a pyramid", self.pyramid), ("the same file", self.source)):
                name = f"IIPImage over {which}, {many} process{'es' * (many > 1)}"
                found[name] = lambda name=name, many=many, file=file: servers.Iip(name, file, self.room, many)
        if args.plain:
            found[PLAIN] = lambda: servers.Plain(PLAIN, args.plain, self.source, self.room)
        if args.floor:
            found[FLOOR] = lambda: servers.Plain(FLOOR, args.floor, self.source, self.room)
            found[KEEPS] = lambda: servers.Plain(KEEPS, args.floor, self.source, self.room, KEPT)
            found[MAPS] = lambda: servers.Plain(MAPS, args.floor, self.source, self.room, "map")
            found[SENDS] = lambda: servers.Plain(SENDS, args.floor, self.source, self.room, "send")
        return found

    def lists(self, server, job):
        """The viewers' lists of a job, by the addresses and the targets of a server."""
        name = getattr(server, "picture", servers.NAME)
        lists = [[f"/iiif/{name}/{region}/{size}/0/{server.last}" for region, size in part] for part in JOBS[job]()]
        return "\n\n".join("\n".join(f"{server.addresses[n % len(server.addresses)]} {target}" for target in part) for n, part in enumerate(lists)) + "\n"

    def asked(self, server, job, kept=None):
        """One run: seconds that were waited and processor seconds, and for each request its columns of TIMES."""
        lists, times = os.path.join(self.room, "lists"), os.path.join(self.room, "times")
        with open(lists, "w") as file:
            file.write(self.lists(server, job))
        used, env = server.used(), {**os.environ, "LOOKS": "1"} if job.endswith(LOOKS) else None
        done = subprocess.run([self.args.load, lists, times, *([kept] if kept else [])], capture_output=True, text=True, env=env)
        used = server.used() - used
        if done.returncode:
            raise servers.Failed(server.column, done.returncode, f"{job}: {done.stderr.strip()}")
        with open(times) as file:
            rows = [line.split() for line in file]
        return waited(rows), used, rows

    def expected(self, target):
        if target not in self.known:
            self.known[target] = self.exact.answer(b"GET", target.encode())
        return self.known[target]

    def wrong(self, column, target, answer):
        """What is wrong with an answer, or nothing."""
        if column.startswith((OWN, BEFORE)):
            wanted = self.expected(target)
            return None if unclosed(answer) == wanted else f"{len(answer)} bytes beside {len(wanted)}, {answer[:60]!r}"
        head, _, body = answer.partition(b"\r\n\r\n")
        wanted = tuple(map(int, target.split("/")[4].split(",")))
        try:
            with Pillow.open(io.BytesIO(body)) as picture:
                picture.load()
                return None if head.startswith(b"HTTP/1.1 200") and picture.size == wanted else f"{picture.size} beside {wanted}"
        except OSError as error:
            return repr(error)

    def checked(self, column, start, job):
        """The answers of a run that are wrong."""
        with tempfile.TemporaryDirectory(dir=self.room) as kept, start() as server:
            try:
                _, _, rows = self.asked(server, job, kept)
            except servers.Failed:
                if column == PLAIN:
                    return []
                raise
            targets = dict.fromkeys(row[7] for row in rows)
            found = []
            for number, target in enumerate(targets):
                with open(os.path.join(kept, str(number)), "rb") as file:
                    if fault := self.wrong(column, target, file.read()):
                        found.append(f"{job}: {column}: {target}: {fault}")
        return found


def unclosed(answer):
    """An answer without the field that says that it is the connection's last."""
    return answer.replace(b"Connection: close\r\n", b"", 1)


def waited(rows):
    """The seconds for which the viewer waited who waited longest."""
    each = {}
    for row in rows:
        each[row[0]] = each.get(row[0], 0) + int(row[2])
    return max(each.values()) / 1e6


def percentile(rows, part):
    """In ms."""
    times = sorted(int(row[2]) for row in rows)
    return times[min(len(times) - 1, int(part * len(times)))] / 1000


def measured(bench, jobs, columns):
    """The medians of each job and column: seconds waited, processor seconds, requests a second, the two percentiles, connections closed unanswered."""
    found = {}
    for turn in range(bench.args.rounds):
        for job in jobs:
            for column, start in compare.turned(list(columns.items()), turn):
                if turn and column == PLAIN or column in BARE and not job.startswith(WITH_FLOOR):
                    continue
                with start() as server:
                    try:
                        time, used, rows = bench.asked(server, job)
                    except servers.Failed:
                        if column == PLAIN:
                            continue
                        raise
                away = sum(int(row[5]) for row in rows)
                found.setdefault((job, column), []).append((time, used, len(rows) / time, percentile(rows, 0.5), percentile(rows, 0.99), away))
    return {key: [statistics.median(column) for column in zip(*runs)] for key, runs in found.items()}


def table(title, jobs, names, medians, cell):
    """A row for each job, a column for each server; a server that kept a viewer waiting until it gave up has no figure there, nor one that doesn't
    do the job."""
    if not names:
        return
    print(f"\n**{title}**\n\n| | {' | '.join(names)} |\n|---|{'---|' * len(names)}")
    for job in jobs:
        print(f"| {job} | {' | '.join(cell(job, name) if (job, name) in medians else '' if name in BARE else 'gave up' for name in names)} |")


def limits(jobs, names, medians):
    """A table of this program's part of each other's time, and what passes a limit."""
    passed = []

    def part(job, name):
        time, used = (medians[job, OWN][at] / max(medians[job, name][at], 0.01) for at in (0, 1))
        if name.startswith("IIPImage over the same file") and time > LIMITS.get(job, time):
            passed.append(f"{job}: {time:.2f} of the time of {name}, above {LIMITS[job]}")
        return f"{time:.2f} ({used:.2f})"

    table("What was waited for this program as a part of each other's (and processor time)", jobs, [name for name in names if name != OWN], medians, part)
    job, most = SPREAD
    if job in jobs and (value := medians[job, OWN][4] / medians[job, OWN][3]) > most:
        passed.append(f"{job}: the 99th percentile is {value:.1f} of the 50th, above {most}")
    return passed


def nodes(bench, counts, job="crowd"):
    """Loads, requests and wrong answers of one node and of several; the rows are printed."""
    print(f"\n**The {job}'s viewers over several nodes**\n\n| nodes | waited, s | processor time, s | each node's loads of tiles and of sums | requests to each node |\n|---|---|---|---|---|")
    wrong = []
    for count in counts:
        start = lambda: servers.Program(f"{OWN}, {count} nodes", bench.args.program, bench.source, bench.room, bench.args.options.split(), count)  # noqa: E731
        wrong += bench.checked(f"{OWN}, {count} nodes", start, job)
        runs = []
        for _ in range(bench.args.rounds):
            with start() as server:
                time, used, rows = bench.asked(server, job)
                requests = [sum(int(row[0]) % count == n for row in rows) for n in range(count)]
                runs.append((time, used, server.loads(), requests))
        time, used, loads, requests = sorted(runs, key=lambda run: run[0])[len(runs) // 2]
        print(f"| {count} | {time:.2f} | {used:.2f} | {'; '.join(loads) if loads else 'no counters'} | {', '.join(map(str, requests))} |")
    return wrong


def main():
    parser = argparse.ArgumentParser(description=__doc__, formatter_class=argparse.RawDescriptionHelpFormatter)
    parser.add_argument("--program", required=True)
    parser.add_argument("--options", default="", help="more options of the program, in one word")
    parser.add_argument("--before", help="the program as it was with one connection after another")
    parser.add_argument("--load", required=True, help="load.rs of this folder, built by rustc -O")
    parser.add_argument("--plain", help="plain.c of this folder, built by cc -O2")
    parser.add_argument("--floor", help="floor.c of this folder, built by cc -O2")
    parser.add_argument("--iip", type=int, nargs="*", default=[4], help="how many processes of IIPImage, two columns for each")
    parser.add_argument("--work", default="/tmp/iiif_compare", help="where the pictures are kept, about 240 MB")
    parser.add_argument("--rounds", type=int, default=5)
    parser.add_argument("--jobs", default="", help="only jobs whose name has this pattern")
    parser.add_argument("--nodes", type=int, nargs="*", default=[], help="so many nodes beside one")
    parser.add_argument("--unchecked", action="store_true", help="leave out the run in which answers are compared")
    parser.add_argument("--warm", type=int, default=512, metavar="MIB", help="how much memory is touched right before each server is started, whichever it is")
    parser.add_argument("--strict", action="store_true", help="status 1 where a limit is passed")
    args = parser.parse_args()
    args.work = os.path.abspath(args.work)
    servers.Servers.warm = args.warm
    with tempfile.TemporaryDirectory() as room:
        bench = Bench(args, room)
        jobs, columns = [job for job in JOBS if re.search(args.jobs, job)], bench.columns()
        with open("/proc/cpuinfo") as info:
            print(f"{os.cpu_count()} processors, {re.search('model name	: (.*)', info.read())[1]}; {args.rounds} rounds; load before: {compare.load()}", flush=True)
        wrong = [] if args.unchecked else [fault for job in jobs for column, start in columns.items() if column not in BARE for fault in bench.checked(column, start, job)]
        print(f"{len(wrong)} wrong answers" if not args.unchecked else "answers not compared", flush=True)
        medians, names = measured(bench, jobs, columns), list(columns)
        print(f"load after: {compare.load()}")
        table("Waited, s (and processor time)", jobs, names, medians, lambda job, name: "{:.2f} ({:.2f})".format(*medians[job, name][:2]))
        table("Requests a second", jobs, names, medians, lambda job, name: f"{medians[job, name][2]:,.0f}")
        table("50th and 99th percentile, ms", jobs, names, medians, lambda job, name: "{:.1f}, {:.1f}".format(*medians[job, name][3:5]))
        table("Connections closed unanswered", jobs, names, medians, lambda job, name: f"{medians[job, name][5]:.0f}")
        passed = limits(jobs, names, medians)
        if args.nodes:
            wrong += nodes(bench, [1, *args.nodes])
    for line in wrong[:40] + passed:
        print(line, file=sys.stderr)
    return 1 if wrong or (args.strict and passed) else 0


if __name__ == "__main__":
    sys.exit(main())
