"""The program beside libvips, GDAL and a plain Rust program, on the same jobs in one run.

    rustc -O -o /tmp/plain bench/compare/main.rs
    /usr/bin/python3 bench/compare/compare.py --program crates/iiif_serve/out/iiif_serve --plain /tmp/plain

Needs numpy and Pillow, `vips` (libvips-tools), `gdal_translate` (gdal-bin) and /usr/bin/time. The sources are built by a formula and kept
in --work. The exact averages are worked out from the formula alone, by integrals over whole numbers, and the answers of the program and of
the plain one are compared with them byte for byte. The others scale in ways of their own (libvips by `crop` and `shrink`, and by
`thumbnail`; up by `zoom`, which repeats each place as the exact averages do where a side is a multiple, and by `resize`, which filters;
GDAL by `-r average`, which gives bits of bits): how far their samples are from the exact averages is printed, not judged. Each job is run
by every program in turn, --rounds times (libvips three times), and the medians are printed: wall clock and processor time of all threads. A
job that keeps its size, or whose larger result is 1,024 wide at most, is so short that the program, the build before and the plain program
do it ten times a round. An overview of 100 megapixels is made by one worker and by four, too, each also with the settings of ALONE, which
docs/operate/OPERATING.md has for a single large image; and an overview from strips with tiles of 1,024. The peak of the resident memory is taken in
seven runs of its own (of the others three). With --before, another build of the program runs beside it, on the jobs of 8 bits and of bits
that aren't scaled up. Right before each program, whichever it is, --warm MiB of memory are touched and given back (`touch`). No program has
an environment of its own, but the column "this program, tuned": it has the one that the manual has for one large image. With --tuned all
columns of this program, and the build before, have it, and that column is left out. With --reads, `strace` counts the reads of the source
that a job takes, in a run of its own. With --results what is printed becomes a new file of bench/results, from which tools/tables makes the
table of docs/operate/PERFORMANCE.md.

The status is 1 where an answer of the program differs or a program fails, and with --strict also where a limit is passed. Memory: what
docs/operate/OPERATING.md says, which is the caches and a band (`memory.py`), with the program's defaults, with no cache, with a small one and a
single worker, and with four workers. Wall clock: an overview of 100 megapixels from tiles 1.15 of the build before by one worker, and 0.6 by
four, by the defaults and with the settings of ALONE; from strips GDAL's average, by two; on 16 bits 1.5 of plain Rust's and 1.0 of GDAL's
average, by the defaults, which are two workers, where the others have one thread. Processor time: 1.5 of plain Rust's where a result is above its region. The other ratios of processor time are printed and not judged.
"""
import argparse
import concurrent.futures
import os
import re
import statistics
import struct
import subprocess
import sys
import time

import memory
import numpy as np
from PIL import Image
from warming import touch

Image.MAX_IMAGE_PIXELS = None


class Source:
    """A square picture of `side` places: a rising circular pattern with squares of 64 in it, another in each channel."""

    def __init__(self, name, side, shift, channels=1, bits=8, tile=None, rows=16):
        self.name, self.side, self.shift, self.channels, self.bits = name, side, shift, channels, bits
        self.tile, self.rows = tile, rows

    def samples(self, x, y, w, h):
        """The samples of a rectangle, h by w by channels."""
        column = np.arange(x, x + w, dtype=np.int64)[None, :, None]
        row = np.arange(y, y + h, dtype=np.int64)[:, None, None]
        k = np.arange(self.channels, dtype=np.int64)[None, None, :]
        middle = self.side // 2
        rings = (column - middle) ** 2 + (row - middle) ** 2 >> self.shift
        unit = 257 if self.bits == 16 else 1
        value = (rings + 37 * unit * ((column >> 6 ^ row >> 6) & 1) + 85 * unit * k) & 255 * unit
        return np.where(value >= 128, 255, 0) if self.bits == 1 else value

    def packed(self, samples):
        """Rows of samples as they stand in a file."""
        if self.bits == 1:
            return np.packbits(samples[:, :, 0] > 0, axis=1).tobytes()
        return samples.astype(self.held()).tobytes()

    def held(self):
        """The type of a sample in an answer."""
        return np.dtype("<u2" if self.bits == 16 else "u1")

    def write(self, path):
        """The file: strips of `rows` rows, or tiles with a side of `tile` that are padded with 99."""
        side, pieces = self.side, []
        with open(path + ".part", "wb") as out:
            out.write(bytes(8))
            for y in range(0, side, self.tile or self.rows):
                h = min(self.tile or self.rows, side - y)
                band = self.samples(0, y, side, h)
                if not self.tile:
                    pieces.append((out.tell(), out.write(self.packed(band))))
                    continue
                for x in range(0, side, self.tile):
                    tile = np.full((self.tile, self.tile, self.channels), 99)
                    part = band[:, x:x + self.tile]
                    tile[:h, :part.shape[1]] = part
                    pieces.append((out.tell(), out.write(self.packed(tile))))
            lists = out.tell() + out.tell() % 2
            out.seek(lists)
            out.write(struct.pack(f"<{len(pieces)}I", *(at for at, _ in pieces)))
            out.write(struct.pack(f"<{len(pieces)}I", *(length for _, length in pieces)))
            depth = out.tell()
            out.write(struct.pack("<3H2x", *[self.bits] * 3))
            cut = [(322, self.tile), (323, self.tile), (324, lists), (325, lists + 4 * len(pieces))] if self.tile else [
                (273, lists), (278, self.rows), (279, lists + 4 * len(pieces))]
            entries = [(256, side), (257, side), (258, depth if self.channels == 3 else self.bits), (259, 1),
                       (262, 2 if self.channels == 3 else 1), (277, self.channels), (284, 1)] + cut
            directory = out.tell()
            out.write(struct.pack("<H", len(entries)))
            for tag, value in sorted(entries):
                count = {258: self.channels, 273: len(pieces), 279: len(pieces), 324: len(pieces), 325: len(pieces)}.get(tag, 1)
                short = tag in (258, 259, 262, 277, 284)
                out.write(struct.pack("<HHI", tag, 3 if short else 4, count))
                out.write(struct.pack("<HH", value, 0) if short and count == 1 else struct.pack("<I", value))
            out.write(bytes(4))
            out.seek(0)
            out.write(struct.pack("<2sHI", b"II", 42, directory))
        os.replace(path + ".part", path)


# What starts the program in the package, and sets its environment; and what says in which one an image is made from the command line.
PACKAGING = os.path.join(os.path.dirname(os.path.abspath(__file__)), "..", "..", "packaging")
RESULTS = os.path.join(os.path.dirname(os.path.abspath(__file__)), "..", "results")
UNIT, MANUAL = os.path.join(PACKAGING, "iiif-serve.service"), os.path.join(PACKAGING, "iiif_serve.1")

SOURCES = [
    Source("gray-tiles", 10_000, 12, tile=256),
    Source("gray-strips", 10_000, 12),
    Source("rgb-strips", 8_000, 12, channels=3),
    Source("bits-strips", 20_000, 14, bits=1),
    Source("gray16-tiles", 10_000, 4, bits=16, tile=256),
    Source("gray16-strips", 10_000, 4, bits=16),
    Source("rgb16-tiles", 8_000, 4, channels=3, bits=16, tile=256),
]

# This program, run in the environment that the manual has for one large image; every other column runs without one, but with --tuned.
TUNED = "this program, tuned"

# The programs whose answers are to be equal to the exact averages.
OWN = ("this program", TUNED, "one worker", "four workers", "one worker, no caches", "four workers, no caches", "--edge 1024", "the build before", "plain Rust")

# For one answer from the command line: no caches, as nothing is asked again, so that an image touches few new pages; and one band of all rows, so
# that each block is made once. The build before keeps nothing, either.
ALONE = ["--cache-bytes", "0", "--band", "1024"]

# What the program is told beside its defaults where its memory is looked at, and what that means.
MEMORY = {
    "defaults": ([], {}),
    "no cache": (["--cache-bytes", "0"], {"cache": 0}),
    "8 MiB, one worker": (["--cache-bytes", str(8 << 20), "--workers", "1"], {"cache": 8 << 20, "workers": 1}),
    "four workers": (["--workers", "4"], {"workers": 4}),
}

# Name of the job, source, rectangle, sides of the result.
JOBS = [
    ("gray 10,000 square in tiles, to 1,024 wide", 0, (0, 0, 10_000, 10_000), 1024),
    ("gray 10,000 square in strips, to 1,024 wide", 1, (0, 0, 10_000, 10_000), 1024),
    ("gray 10,000 square in tiles, to 256 wide", 0, (0, 0, 10_000, 10_000), 256),
    ("gray 10,000 square in strips, to 256 wide", 1, (0, 0, 10_000, 10_000), 256),
    ("a tile of 256 square, from tiles", 0, (5120, 5120, 256, 256), 256),
    ("a tile of 256 square, from strips", 1, (5120, 5120, 256, 256), 256),
    ("4,096 square to 256 wide, from tiles", 0, (2048, 2048, 4096, 4096), 256),
    ("4,096 square to 256 wide, from strips", 1, (2048, 2048, 4096, 4096), 256),
    ("RGB 8,000 square in strips, to 1,024 wide", 2, (0, 0, 8_000, 8_000), 1024),
    ("bilevel 20,000 square in strips, to 1,024 wide", 3, (0, 0, 20_000, 20_000), 1024),
    ("16 bits: gray 10,000 square in tiles, to 1,024 wide", 4, (0, 0, 10_000, 10_000), 1024),
    ("16 bits: gray 10,000 square in strips, to 1,024 wide", 5, (0, 0, 10_000, 10_000), 1024),
    ("16 bits: gray 10,000 square in tiles, to 256 wide", 4, (0, 0, 10_000, 10_000), 256),
    ("16 bits: a tile of 256 square, from tiles", 4, (5120, 5120, 256, 256), 256),
    ("16 bits: a tile of 256 square, from strips", 5, (5120, 5120, 256, 256), 256),
    ("16 bits: 4,096 square to 256 wide, from tiles", 4, (2048, 2048, 4096, 4096), 256),
    ("16 bits: 4,096 square to 256 wide, from strips", 5, (2048, 2048, 4096, 4096), 256),
    ("16 bits: RGB 8,000 square in tiles, to 1,024 wide", 6, (0, 0, 8_000, 8_000), 1024),
    ("up: 512 square to 1,024 square, from tiles", 0, (2048, 2048, 512, 512), 1024),
    ("up: 1,024 square to 4,096 wide, from tiles", 0, (2048, 2048, 1024, 1024), 4096),
    ("up: RGB 512 square to 1,024 square, from strips", 2, (2048, 2048, 512, 512), 1024),
    ("up: RGB 1,024 square to 4,096 wide, from strips", 2, (2048, 2048, 1024, 1024), 4096),
    ("up: 16 bits, 512 square to 1,024 square, from tiles", 4, (2048, 2048, 512, 512), 1024),
    ("up: 16 bits, 1,024 square to 4,096 wide, from tiles", 4, (2048, 2048, 1024, 1024), 4096),
    ("up: 1,000 square to 1,500 wide, from tiles", 0, (2048, 2048, 1000, 1000), 1500),
]


def along_last(values, size):
    """The sums of values along the last axis, weighted by how long each source cell overlaps each of `size` result cells: the
    differences of the integral, where a source cell is `size` long and a result cell as long as the axis has places."""
    places = values.shape[-1]
    integral = np.zeros(values.shape[:-1] + (places + 1,), np.int64)
    np.cumsum(values, axis=-1, out=integral[..., 1:])
    ends = np.arange(size + 1, dtype=np.int64) * places
    whole, rest = ends // size, ends % size
    more = np.concatenate([values, np.zeros_like(values[..., :1])], axis=-1)
    at = integral[..., whole] * size + more[..., whole] * rest
    return at[..., 1:] - at[..., :-1]


def exact(source, rect, sides):
    """The exact averages of a rectangle of the formula's picture, to the nearest, a half up."""
    (x, y, w, h), (across, down) = rect, sides
    if (w, h) == sides:
        return source.samples(*rect).astype(source.held())
    rows = np.empty((source.channels, across, h), np.int64)
    for top in range(0, h, 64):
        count = min(64, h - top)
        band = source.samples(x, y + top, w, count)
        for k in range(source.channels):
            rows[k, :, top:top + count] = along_last(band[:, :, k], across).T
    sums = np.stack([along_last(rows[k], down).T for k in range(source.channels)], axis=2)
    return ((2 * sums + w * h) // (2 * w * h)).astype(source.held())


def answer_file(samples):
    """The answer's bytes: TIFF 6.0, low byte first, twelve entries at 8, one strip."""
    height, width, channels = samples.shape
    rgb, depth = channels == 3, 8 * samples.itemsize
    entries = [(256, 4, 1, width), (257, 4, 1, height), (258, 3, 3, 174) if rgb else (258, 3, 1, depth), (259, 3, 1, 1),
               (262, 3, 1, 2 if rgb else 1), (273, 4, 1, 180 if rgb else 174), (277, 3, 1, channels), (278, 4, 1, height),
               (279, 4, 1, samples.nbytes), (282, 5, 1, 158), (283, 5, 1, 166), (296, 3, 1, 1)]
    head = b"II*\0\x08\0\0\0" + struct.pack("<H", 12) + b"".join(struct.pack("<HHII", *entry) for entry in entries)
    head += bytes(4) + struct.pack("<4I", 1, 1, 1, 1) + (struct.pack("<3H", depth, depth, depth) if rgb else b"")
    return head + samples.tobytes()


def own(args, target, path, larger, words):
    """The program's command line for a target, with more words."""
    return [args.program, "--base", "http://localhost/iiif", *["--upscale"] * larger, *words, "--one", target, "a=" + path]


def is_overview(job):
    """Whether a job is the overview of 100 megapixels, of 8 bits."""
    _, number, rect, size = JOBS[job]
    return rect[2] == 10_000 and size == 1024 and SOURCES[number].bits == 8


def programs(args, job):
    """The command lines of a job, by the name of the program. One with several commands needs a file in between."""
    _, number, rect, size = JOBS[job]
    source = SOURCES[number]
    path = os.path.join(args.work, source.name + ".tif")
    x, y, w, h = map(str, rect)
    whole, native, larger = rect[2] == source.side, rect[2] == size, rect[2] < size
    region = "full" if whole else ",".join((x, y, w, h))
    target = f"/iiif/a/{region}/{'max' if native else f'^{size},' if larger else f'{size},'}/0/default.tif"
    factor = repr(rect[2] / size)
    lines = {
        "this program": [own(args, target, path, larger, [])],
        TUNED: [own(args, target, path, larger, [])],
        "one worker": [own(args, target, path, larger, ["--workers", "1"])],
        "four workers": [own(args, target, path, larger, ["--workers", "4"])],
        "one worker, no caches": [own(args, target, path, larger, ["--workers", "1", *ALONE])],
        "four workers, no caches": [own(args, target, path, larger, ["--workers", "4", *ALONE])],
        "--edge 1024": [own(args, target, path, larger, ["--edge", "1024"])],
        "the build before": [[args.before, "--base", "http://localhost/iiif", "--one", target, "a=" + path]],
        "plain Rust": [[args.plain, path, x, y, w, h, str(size), str(size), answer_path(args, job, "plain Rust")]],
    }
    if args.tuned:
        del lines[TUNED]
    if not args.before or source.bits == 16 or larger:
        del lines["the build before"]
    if not is_overview(job):
        lines = {name: line for name, line in lines.items() if " worker" not in name or name == TUNED}
    if rect[2] != source.side or source.tile:
        del lines["--edge 1024"]
    out, between = answer_path(args, job, "libvips"), answer_path(args, job, "libvips") + ".v"
    if native:
        lines["libvips"] = [["vips", "crop", path, out, x, y, w, h]]
    elif larger:
        times, resized = size // rect[2], answer_path(args, job, "libvips resize")
        if size % rect[2] == 0:
            lines["libvips"] = [["vips", "crop", path, between, x, y, w, h], ["vips", "zoom", between, out, str(times), str(times)]]
        lines["libvips resize"] = [["vips", "crop", path, resized + ".v", x, y, w, h],
                                   ["vips", "resize", resized + ".v", resized, repr(size / rect[2])]]
    elif whole:
        lines["libvips"] = [["vips", "shrink", path, out, factor, factor]]
        thumbnail = answer_path(args, job, "libvips thumbnail")
        if source.bits < 16:  # of 16 bits it makes 8
            lines["libvips thumbnail"] = [["vips", "thumbnail", path, thumbnail, str(size), "--height", str(size), "--size", "force"]]
    else:
        lines["libvips"] = [["vips", "crop", path, between, x, y, w, h], ["vips", "shrink", between, out, factor, factor]]
    out = answer_path(args, job, "GDAL")
    scaling = [] if native else ["-r", "average", "-outsize", str(size), str(size)]
    window = [] if whole else ["-srcwin", x, y, w, h]
    bits = ["-scale", "0", "1", "0", "255"] if source.bits == 1 else []
    lines["GDAL"] = [["gdal_translate", "-q", "-co", "PROFILE=BASELINE", *window, *scaling, *bits, path, out]]
    return {name: line for name, line in lines.items() if name.split(" ")[0] not in args.without}


def package():
    """The environment of the package's unit."""
    return added(UNIT, "Environment=GLIBC_TUNABLES=", "Environment=")


def one_image():
    """The one that the manual has for one large image from the command line."""
    return added(MANUAL, "GLIBC_TUNABLES=")


def added(file, start, more=""):
    """The environment with what the lines of a file that start so set in it."""
    with open(file) as lines:
        words = [line.strip().removeprefix(more) for line in lines if line.startswith(start)]
    return {**os.environ, **dict(word.split("=", 1) for word in words)}


def run(commands, out, repeat=1, environment=None):
    """Runs the commands one after the other, and all so often: wall clock and processor time in seconds of each time. Builds of the program
    are run in this environment."""
    times = []
    for _ in range(repeat):
        wall = cpu = 0
        for command in commands:
            own = command[-1].startswith("a=")
            with open(out if own else os.devnull, "wb") as stdout, open(out + ".err", "wb") as errors:
                start = time.perf_counter()
                child = subprocess.Popen(command, stdout=stdout, stderr=errors, env=environment if own else None)
                _, status, usage = os.wait4(child.pid, 0)
                wall += time.perf_counter() - start
            child.returncode = os.waitstatus_to_exitcode(status)
            if child.returncode:
                with open(out + ".err", errors="replace") as errors:
                    sys.exit(f"{' '.join(command)}\nstatus {child.returncode}: {errors.read()}")
            cpu += usage.ru_utime + usage.ru_stime
        times.append((wall, cpu))
    return times


def peak(commands, out):
    """The peak of resident memory in KiB, of the largest of the commands, by a small parent that doesn't add its own."""
    most = 0
    for command in commands:
        with open(os.devnull, "wb") as nowhere:
            timed = ["/usr/bin/time", "-q", "-o", out + ".time", "-f", "%M", *command]
            subprocess.run(timed, stdout=nowhere, stderr=nowhere, check=True)
        with open(out + ".time") as peaks:
            most = max(most, int(peaks.read().split()[-1]))
    return most


def reads(command, out):
    """How many reads of its source a program takes for a job."""
    counts = out + ".reads"
    with open(os.devnull, "wb") as nowhere:
        subprocess.run(["strace", "-f", "-c", "-o", counts, "-e", "trace=pread64", *command], stdout=nowhere, check=True)
    with open(counts) as text:
        found = re.search(r"^.*\spread64$", text.read(), re.M)
    return int(found[0].split()[3]) if found else 0


def difference(out, wanted):
    """How far another program's samples are from the exact averages: in the mean, and at most."""
    if wanted.itemsize == 2:
        subprocess.run(["vips", "rawsave", out, out + ".raw"], check=True)
        got = np.fromfile(out + ".raw", "<u2").reshape(wanted.shape).astype(int)
    else:
        with Image.open(out) as image:
            got = np.asarray(image.convert("RGB" if wanted.shape[2] == 3 else "L")).reshape(wanted.shape).astype(int)
    away = np.abs(got - wanted.astype(int))
    return f"{away.mean():.2f}, {away.max()}" if away.any() else "equal"


def answer_path(args, job, name):
    return os.path.join(args.work, f"{job}-{re.sub('[^a-zA-Z]+', '-', name)}.tif")


def table(title, jobs, medians, cell):
    """A Markdown table: a row for each job, a column for each program, each cell made of the job, the program and its medians."""
    names = list(dict.fromkeys(name for _, name in medians))
    print(f"\n**{title}**\n\n| Job | {' | '.join(names)} |\n|---|{'---|' * len(names)}")
    for job in jobs:
        cells = [cell(job, name, medians[job, name]) if (job, name) in medians else "" for name in names]
        print(f"| {JOBS[job][0]} | {' | '.join(cells)} |")


def version(command):
    """The first line that a program says of itself, or that it isn't there."""
    try:
        text = subprocess.run(command, capture_output=True, text=True).stdout.strip()
    except FileNotFoundError:
        return f"no {command[0]}"
    return text.split("\n")[0]


def model():
    """What the processor is called."""
    with open("/proc/cpuinfo") as info:
        return re.search("model name\t: (.*)", info.read())[1]


def load():
    return " ".join(f"{number:.1f}" for number in os.getloadavg())


def prepared(args, jobs):
    """The sources of the jobs, written where they aren't there and read once, so that every program finds them in memory; and the exact
    answer of each job."""
    wanted = {}
    for job in jobs:
        _, number, rect, size = JOBS[job]
        source = SOURCES[number]
        path = os.path.join(args.work, source.name + ".tif")
        if not os.path.exists(path):
            source.write(path)
        kept = os.path.join(args.work, f"exact-{source.name}-{'-'.join(map(str, rect))}-{size}.npy")
        if not os.path.exists(kept):
            np.save(kept, exact(source, rect, (size, size)))
        wanted[job] = np.load(kept)
        with open(path, "rb") as file:
            while file.read(1 << 24):
                pass
    return wanted


def turned(programs, turn):
    """The programs, another one of them first in each round, and backwards once all were: who runs behind another finds the memory that it
    gave back."""
    first = turn % len(programs)
    order = programs[first:] + programs[:first]
    return order[:: -1 if turn // len(programs) % 2 else 1]


def measured(args, jobs, wanted):
    """The medians of each job and program (wall clock, processor time, peak memory), and whether an answer was wrong."""
    times, peaks, wrong = {}, {}, False
    manual = one_image()
    for turn in range(args.rounds):
        for job in jobs:
            for name, commands in turned(list(programs(args, job).items()), turn):
                if turn >= 3 and name.startswith("libvips"):
                    continue
                out = answer_path(args, job, name)
                touch(args.warm)
                short = name in OWN and JOBS[job][2][2] <= JOBS[job][3] <= 1024
                times.setdefault((job, name), []).extend(run(commands, out, 10 if short else 1, manual if args.tuned or name == TUNED else None))
                if turn == 0 and name in OWN:
                    with open(out, "rb") as file:
                        if file.read() != answer_file(wanted[job]):
                            wrong = True
                            print(f"{JOBS[job][0]}: {name} differs from the exact averages", file=sys.stderr)
    with concurrent.futures.ThreadPoolExecutor(os.cpu_count()) as pool:
        for job, name in times:
            peaks[job, name] = pool.submit(peaks_of, programs(args, job)[name], answer_path(args, job, name), 7 if name in OWN else 3)
    return {key: [statistics.median(column) for column in zip(*runs)] + [peaks[key].result()] for key, runs in times.items()}, wrong


def peaks_of(commands, out, runs):
    """The median of the peaks of so many runs."""
    return statistics.median([peak(commands, out) for _ in range(runs)])


def limits(args, jobs, medians):
    """A table of the ratios of time that have limits, and one of memory; the names of those that pass them."""
    passed = []

    def ratio(job, name, other, at, limit):
        if (job, other) not in medians or (job, name) not in medians:
            return ""
        value = medians[job, name][at] / medians[job, other][at]
        over = limit is not None and value > limit
        if over:
            passed.append(f"{JOBS[job][0]}: {name}, {value:.2f} of {other}, above {limit:.2f}")
        return f"{value:.2f}{' (!)' if over else ''}"

    print("\n**Beside the limits: wall clock**\n")
    print("| Job | one worker beside the build before | the same, no caches | four workers | the same, no caches | two workers | two workers beside GDAL | the same, `--edge 1024` |")
    print("|---|---|---|---|---|---|---|---|")
    for job in filter(is_overview, jobs):
        tiles = SOURCES[JOBS[job][1]].tile
        cells = [ratio(job, "one worker", "the build before", 0, 1.15 if tiles else None),
                 ratio(job, "one worker, no caches", "the build before", 0, 1.15 if tiles else None),
                 ratio(job, "four workers", "the build before", 0, 0.6 if tiles else None),
                 ratio(job, "four workers, no caches", "the build before", 0, 0.6 if tiles else None),
                 ratio(job, "this program", "the build before", 0, None), ratio(job, "this program", "GDAL", 0, None if tiles else 1.0),
                 ratio(job, "--edge 1024", "GDAL", 0, 1.0)]
        print(f"| {JOBS[job][0]} | {' | '.join(cells)} |")
    print("\n**Beside the limits: wall clock by the defaults, and processor time of all threads**\n")
    print("| Job | wall clock beside plain Rust | beside GDAL | processor time beside the build before | beside plain Rust | beside GDAL |\n|---|---|---|---|---|---|")
    for job in jobs:
        name, number, rect, size = JOBS[job]
        deep, larger = SOURCES[number].bits == 16, rect[2] < size
        cells = [ratio(job, "this program", "plain Rust", 0, 1.5 if deep else None), ratio(job, "this program", "GDAL", 0, 1.0 if deep else None),
                 ratio(job, "this program", "the build before", 1, None), ratio(job, "this program", "plain Rust", 1, 1.5 if larger else None),
                 ratio(job, "this program", "GDAL", 1, None)]
        print(f"| {name} | {' | '.join(cells)} |")
    return passed + limits_of_memory(args, jobs)


def limits_of_memory(args, jobs):
    """A table of the peak memory in the ways of MEMORY, each beside its bound; the names of those that pass it."""
    passed = []

    def ways(job):
        out = answer_path(args, job, "memory")
        for way, (words, _) in MEMORY.items():
            command = programs(args, job)["this program"][0]
            yield way, peaks_of([command[:1] + words + command[1:]], f"{out}-{len(words)}", 3) / 1024

    with concurrent.futures.ThreadPoolExecutor(os.cpu_count()) as pool:
        peaks = {job: pool.submit(lambda job: dict(ways(job)), job) for job in jobs}
    print("\n**Memory of this program, MiB: the peak, and its bound**\n")
    print(f"| Job | {' | '.join(f'{way} | bound' for way in MEMORY)} |\n|---|{'---|---|' * len(MEMORY)}")
    for job in jobs:
        name, number, rect, size = JOBS[job]
        source, cells = SOURCES[number], []
        for way, (_, settings) in MEMORY.items():
            most = peaks[job].result()[way]
            bound = memory.bound(source.channels, max(8, source.bits), (source.side, source.side), rect, (size, size), strips=not source.tile, **settings) / memory.MIB
            cells.append(f"{most:.1f}{' (!)' if most > bound else ''} | {bound:.1f}")
            if most > bound:
                passed.append(f"{name}, {way}: {most:.1f} MiB are more than the bound")
        print(f"| {name} | {' | '.join(cells)} |")
    return passed


class Kept:
    """Standard output, and beside it a new file of bench/results."""

    def __init__(self, kind, title="Whole answers beside other programs", script="compare.py"):
        day = time.strftime("%Y-%m-%d")
        commit = subprocess.run(["git", "rev-parse", "--short", "HEAD"], cwd=RESULTS, capture_output=True, text=True).stdout.strip()
        self.file, self.screen = open(os.path.join(RESULTS, f"{day}-{kind}.md"), "x"), sys.stdout
        self.file.write(f"# {title}\n\n- Date: {day}\n- Commit: {commit}\n- Command: `bench/compare/{script} {' '.join(sys.argv[1:])}`\n- Host: ")

    def write(self, text):
        self.screen.write(text)
        self.file.write(text)

    def flush(self):
        self.screen.flush()
        self.file.flush()


def compare(args):
    os.makedirs(args.work, exist_ok=True)
    if args.results:
        sys.stdout = Kept("compare")
    jobs = [job for job, (name, *_) in enumerate(JOBS) if re.search(args.jobs, name)]
    wanted = prepared(args, jobs)
    print(f"{os.cpu_count()} processors, {model()}; {version(['vips', '--version'])}; {version(['gdal_translate', '--version'])};",
          f"{version(['rustc', '--version'])}; {args.rounds} rounds; load before: {load()}")
    medians, failed = measured(args, jobs, wanted)
    print(f"load after: {load()}")
    table("Wall clock, ms", jobs, medians, lambda job, name, times: f"{times[0] * 1000:.1f}")
    table("Processor time of all threads, ms (and beside plain Rust's)", jobs, medians, lambda job, name, times: f"{times[1] * 1000:.1f}" + (
        f" ({times[1] / medians[job, 'plain Rust'][1]:.2f})" if (job, "plain Rust") in medians and name != "plain Rust" else ""))
    table("Peak memory, MiB", jobs, medians, lambda job, name, times: f"{times[2] / 1024:.1f}")
    table("How far samples are from the exact averages: in the mean, at most", jobs, medians, lambda job, name, times: (
        "equal" if name in OWN else difference(answer_path(args, job, name), wanted[job])))
    if args.reads:
        with concurrent.futures.ThreadPoolExecutor(os.cpu_count()) as pool:
            keys = [key for key in medians if key[1] in ("this program", "the build before")]
            counts = dict(zip(keys, pool.map(lambda key: reads(programs(args, key[0])[key[1]][0], answer_path(args, *key)), keys)))
        table("Reads of the source", jobs, counts, lambda job, name, count: f"{count:,}")
    passed = limits(args, jobs, medians)
    for line in passed:
        print(line, file=sys.stderr)
    return 1 if failed or (args.strict and passed) else 0


def main():
    parser = argparse.ArgumentParser(description=__doc__, formatter_class=argparse.RawDescriptionHelpFormatter)
    parser.add_argument("--program", required=True, help="the proved program")
    parser.add_argument("--before", help="another build of the proved program, to run beside it")
    parser.add_argument("--plain", required=True, help="main.rs of this folder, built by rustc -O")
    parser.add_argument("--work", default="/tmp/iiif_compare", help="where the sources and answers are kept, about 1.3 GB")
    parser.add_argument("--rounds", type=int, default=7)
    parser.add_argument("--jobs", default="", help="only jobs whose name has this pattern")
    parser.add_argument("--without", nargs="*", default=[], help="libvips, GDAL, plain: programs to leave out")
    parser.add_argument("--reads", action="store_true", help="count the reads of the source")
    parser.add_argument("--warm", type=int, default=512, metavar="MIB", help="how much memory is touched right before each program is run, whichever it is")
    parser.add_argument("--tuned", action="store_true", help="run the program, and the build before, in the manual's environment, but for peaks of memory")
    parser.add_argument("--strict", action="store_true", help="status 1 where a limit is passed")
    parser.add_argument("--results", action="store_true", help="write a new file of bench/results besides")
    return compare(parser.parse_args())


if __name__ == "__main__":
    sys.exit(main())
