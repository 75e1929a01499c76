"""All figures of docs/operate/PERFORMANCE.md in one run, before and after.

    /usr/bin/python3 bench/compare/figures.py --before FOLDER [--rounds 7] [--jobs ..] > figures.md

The benchmarks are built first, by `tools/build` (--benches tells where), and iiif_serve by `rt run`. --before is the top of another checkout
with the programs of both in crates/NAME/out; a benchmark that isn't built before has no column of it. The plain programs are built by `rustc
-O` first. Then every benchmark is run in turn, --rounds times: this build, the build before, plain Rust, and the two that there are with
samples of 16 bits; the medians are printed. At last come the whole answers of compare.py. The processor should have nothing else to do.

The status is 1 where a check sum differs between two programs, where an answer is wrong, and where a limit is passed: on 8 bits 1.05 of the
build before, on 16 bits and of what is scaled up and finished 1.5 of plain Rust; the tables' rows of 0.1 ms and less are not judged.
compare.py says its own limits, and docs/operate/PERFORMANCE.md which limits have the cache and the flights.
"""
import argparse
import contextlib
import os
import re
import statistics
import subprocess
import sys

import compare

HERE = os.path.dirname(os.path.abspath(__file__))
TOP = os.path.dirname(os.path.dirname(HERE))


class Bench:
    """A benchmark: its crate, the words it is told, the plain program's folder and words, and how a line is read."""

    def __init__(self, crate, words, plain=None, plain_words=None, deep=False, before=True):
        self.crate, self.words, self.plain = crate, words, plain
        self.plain_words = plain_words or words
        self.deep, self.before = deep, before

    def commands(self, args):
        """The command of each program, by the name of its column."""
        lines = {"this build": [self.program(args.benches), *self.words]}
        if self.before and args.before and os.path.exists(self.program(args.before)):
            lines["before"] = [self.program(args.before), *self.words]
        if self.plain:
            lines["plain Rust"] = [os.path.join(args.work, self.plain), *self.plain_words]
        return lines

    def program(self, top):
        return os.path.join(os.path.abspath(top), "crates", self.crate, "out", self.crate)


BENCHES = {
    "Pictures, RGB 4,000 by 4,000, ms": Bench("pixel_bench", ["large"], "pixel"),
    "Pictures of 16 bits, RGB 4,000 by 4,000, ms": Bench("pixel_bench", ["large", "sixteen"], "pixel", deep=True, before=False),
    "Rows of a file, 4,000 by 4,000, ms": Bench("write_bench", ["large"], "write"),
    "Area averaging, gray 10,000 by 10,000, ms": Bench("area_bench", ["large"], "area", ["large", "columns"]),
    "Area averaging of 16 bits, gray 10,000 by 10,000, ms": Bench(
        "area_bench", ["large", "sixteen"], "area", ["large", "sixteen", "columns"], deep=True, before=False),
    "Area averaging upwards, gray 512 and 1,024 square, ms": Bench("area_bench", ["larger"], "area", ["larger", "columns"], before=False),
    "Area averaging upwards of 16 bits, gray 512 and 1,024 square, ms": Bench(
        "area_bench", ["larger", "sixteen"], "area", ["larger", "sixteen", "columns"], before=False),
    "Rectangles of files, microseconds": Bench("tiff_bench", ["large"]),
    "All bands of a plan, 16,384 square in tiles of 64, bands of 8 rows, ms": Bench("plan_bench", ["large"]),
    "A cache of 4,096 entries, ns a call": Bench("cache_bench", ["large"], "cache", before=False),
    "Hits on a table of flights, ns a hit": Bench("flights_bench", ["large"], "flights", before=False),
}


def rows(text):
    """The figures of a program's lines, by row and part; and its check sums, by row."""
    figures, sums = {}, {}
    for line in text.splitlines():
        name, _, rest = line.partition(": ")
        if not rest:
            name, rest = "", line
        for part, value in re.findall(r"([a-z][a-z ]*)?\b(\d+(?:\.\d+)?) (?:ms|ns|microseconds)\b", rest):
            part = {"tiles added": "summed", "stretched rows": "summed"}.get(part.strip(), part.strip())
            figures[" ".join(filter(None, [name, part]))] = float(value)
        for part, value in re.findall(r", (\d+) by (plain reads)", rest):
            figures[f"{name} by plain reads"] = float(part)
        if found := re.search(r"sum (\d+)", rest):
            sums[name] = found[1]
    for name in {name.partition(" sums of tiles")[0] for name in figures if name.endswith(" sums of tiles")}:
        figures[f"{name} columns"] = round(figures.pop(f"{name} sums of tiles") + figures.pop(f"{name} merged"), 1)
    for name in [row.removesuffix(" summed") for row in figures if row.endswith(" summed")]:
        figures[f"{name} summed and finished"] = round(figures[f"{name} summed"] + figures[f"{name} finished"], 1)
    return figures, sums


def build(args):
    """The plain programs of all benchmarks, and of compare.py."""
    for folder in {bench.plain for bench in BENCHES.values() if bench.plain} | {"compare"}:
        source = os.path.join(TOP, "bench", folder, "main.rs")
        subprocess.run(["rustc", "--edition", "2021", "-O", "-o", os.path.join(args.work, folder), source], check=True)


def measured(args, titles):
    """The medians of each benchmark, program and row, and the check sums that differ."""
    figures, sums, wrong = {}, {}, []
    for turn in range(args.rounds):
        for title in titles:
            for column, command in compare.turned(list(BENCHES[title].commands(args).items()), turn):
                text = subprocess.run(command, capture_output=True, text=True, check=True, cwd=args.work).stdout
                found, checked = rows(text)
                for row, value in found.items():
                    figures.setdefault((title, column), {}).setdefault(row, []).append(value)
                for row, value in checked.items():
                    if sums.setdefault((title, row), value) != value:
                        wrong.append(f"{title}: {row}: {column} has another check sum")
    return {key: {row: statistics.median(values) for row, values in found.items()} for key, found in figures.items()}, wrong


def table(title, bench, medians):
    """A Markdown table of a benchmark; what passes a limit."""
    own, passed = medians[title, "this build"], []
    others = [column for column in ("before", "plain Rust") if (title, column) in medians]
    rows_of_all = dict.fromkeys(row for column in ["this build", *others] for row in medians[title, column])

    def cells(row):
        value = own.get(row)
        yield f"{value:g}" if value is not None else ""
        for column in others:
            other = medians[title, column].get(row)
            ratio = value / other if value is not None and other else None
            deep = bench.deep or "of 16 bits" in row or row.endswith("summed and finished")
            limit = {"before": 1.05, "plain Rust": 1.5 if deep else None}[column]
            over = ratio is not None and limit is not None and value > 0.1 and ratio > limit
            if over:
                passed.append(f"{title}: {row}: {ratio:.2f} of {column}, above {limit:.2f}")
            yield f"{other:g}" if other is not None else ""
            yield f"{ratio:.2f}{' (!)' if over else ''}" if ratio is not None else ""

    print(f"\n**{title}**\n\n| | this build | {' | '.join(f'{column} | ratio' for column in others)}{' |' if others else ''}")
    print(f"|---|---|{'---|---|' * len(others)}")
    for row in rows_of_all:
        print(f"| {row} | {' | '.join(cells(row))} |")
    return passed


def main():
    parser = argparse.ArgumentParser(description=__doc__, formatter_class=argparse.RawDescriptionHelpFormatter)
    parser.add_argument("--before", help="the top of another checkout, whose programs are built")
    parser.add_argument("--benches", default="/tmp/lifthorg-bench", help="where tools/build built them")
    parser.add_argument("--rounds", type=int, default=7)
    parser.add_argument("--only", default="", help="only benchmarks whose title has this pattern; whole answers are 'Whole answers'")
    parser.add_argument("--jobs", default="", help="only jobs of whole answers whose name has this pattern")
    parser.add_argument("--reads", action="store_true", help="count the reads of each source too, which takes minutes")
    parser.add_argument("--work", default="/tmp/iiif_compare", help="where programs, sources and answers are kept, about 1.3 GB")
    args = parser.parse_args()
    args.work = os.path.abspath(args.work)
    os.makedirs(args.work, exist_ok=True)
    build(args)
    titles = [title for title in BENCHES if re.search(args.only, title)]
    print(f"{args.rounds} rounds; load before: {compare.load()}", flush=True)
    medians, passed = measured(args, titles)
    for title in titles:
        passed += table(title, BENCHES[title], medians)
    for line in passed:
        print(line, file=sys.stderr)
    status = 1 if passed else 0
    if re.search(args.only, "Whole answers"):
        print("\n## Whole answers\n")
        whole = argparse.Namespace(program=Bench("iiif_serve", []).program(TOP), plain=os.path.join(args.work, "compare"), work=args.work,
                                   before=Bench("iiif_serve", []).program(args.before) if args.before else None,
                                   rounds=args.rounds, jobs=args.jobs, reads=args.reads, without=[], warm=512, strict=True)
        with contextlib.chdir(args.work):
            status |= compare.compare(whole)
    return status


if __name__ == "__main__":
    sys.exit(main())
