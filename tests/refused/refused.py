"""Each growth of memory refused in turn, to the built program and to built tests.

    python3 tests/refused/refused.py --program crates/iiif_serve/out/iiif_serve --tests PROGRAM_OF_TESTS [--slice K/N] [NAME ..]
    python3 tests/refused/refused.py --program PROGRAM --list

Needs `cc`. `refuse.c` is built and loaded in front of the C library; it refuses the first, the second and so on of the growths that
the program's own code asks for, until a run meets none. A program that was built with AddressSanitizer has an allocator of its own, so
that nothing is refused to it: each case that met no refusal is one that failed.

The program: each case below from its start by `--one`, and against a listening server, once on a new one for each refusal (its caches
are empty) and once on one server for all of them. The answer has to be the case's own, `L2 memory`, a strict prefix of an answer behind
which the connection closes, or `run: memory` or `image NAME: 8` where the program ends.
Then the same is asked again with ample memory, on the same server, and has to be the case's own. `peers` does the same with two nodes that
ask each other, and with one that asks a node which lies.

Tests: of programs that know `--list` and run one test by its name, those whose name ends in `after_a_refused_growth`, which make the
refused call again by themselves; each is run alone. It has to pass, or to end out of memory while it is being prepared.

A round is all of these. `--slice K/N` runs slice K, from 0, of N slices of about equal seconds, as seconds.txt has them (`--note` writes
there what the cases took); NAME those cases alone whose names have it in them. Cases run side by side, one for each processor. Prints a
line for each case: how many refusals, and what came. The last line is `N passed, M failed`; the status is 1 where one failed, or none ran.
"""
import argparse
import concurrent.futures
import os
import subprocess
import sys
import tempfile
import time

import peers
import starts
import streams
from parts import Part, seconds_of, write_seconds
from streams import Control, count, said

sys.path.insert(0, os.path.join(os.path.dirname(os.path.abspath(__file__)), ".."))
import slices  # noqa: E402

MARK = "after_a_refused_growth"
# What a test ends with whose own preparation was refused.
WANTS = ("error: AllocError", "error: AllocFailed", "error: NoMemory", "error: out of memory", "error: Kind(OutOfMemory)")


def tests_of(binary):
    """The names of the tests of a program that call again after a refused growth."""
    listed = subprocess.run([binary, "--list"], capture_output=True, text=True, check=True).stdout
    names = [line.split(": ")[0] for line in listed.splitlines() if line.endswith(": test") or ": " not in line]
    return [name for name in names if name.endswith(MARK)]


def test_kind(done):
    """Kind of a refused test's end, None where it isn't allowed."""
    if done.returncode == 0:
        return "passed"
    text = done.stdout + done.stderr
    return "out of memory" if done.returncode == 101 and any(word in text for word in WANTS) else None


def test_part(binary, name):
    """A test of which each growth is refused."""
    def once(control, room):
        with tempfile.TemporaryDirectory(dir=room) as empty:
            how = {"capture_output": True, "text": True, "errors": "replace", "timeout": 120}
            return subprocess.run([binary, name], env=control.env, cwd=empty, **how)

    def run(control, room):
        kinds, wrong = {}, []
        for n in control.growths():
            control.refuse(n)
            done = once(control, room)
            if not control.refused():
                break
            kind = test_kind(done)
            count(kinds, kind or "OTHER")
            if kind is None:
                wrong.append(f"growth {n}: status {done.returncode}, {(done.stdout + done.stderr).strip()[:300]!r}")
        control.refuse(0)
        if once(control, room).returncode:
            wrong.append("fails with ample memory")
        return kinds, wrong

    return Part("tests", f"test {name}", run)


def round_of(args):
    """All cases."""
    options, found = args.options.split(), []
    if args.program:
        program = os.path.abspath(args.program)
        found += [*starts.parts(program), *streams.parts(program, options), *peers.parts(program, options)]
    for binary in map(os.path.abspath, args.tests):
        found += [test_part(binary, name) for name in tests_of(binary)]
    return found


def tried(part, library):
    """Runs a case in a room of its own: what came, what is wrong, and how long it took."""
    begun = time.monotonic()
    with tempfile.TemporaryDirectory() as room:
        try:
            kinds, wrong = part.run(Control(room, library), room)
        except Exception as error:
            kinds, wrong = {}, [f"{type(error).__name__}: {error}"]
    if not sum(kinds.values()):
        wrong.append("no growth was refused: is the program built with AddressSanitizer?")
    return part, kinds, wrong, time.monotonic() - begun


def main():
    parser = argparse.ArgumentParser(description=__doc__, formatter_class=argparse.RawDescriptionHelpFormatter)
    parser.add_argument("--program", help="the built program")
    parser.add_argument("--options", default="", help="more options of the program, in one word")
    parser.add_argument("--tests", action="append", default=[], metavar="PROGRAM", help="a program of tests; may stand several times")
    parser.add_argument("--list", action="store_true", help="print the names of the cases")
    parser.add_argument("--note", action="store_true", help="write into seconds.txt what the cases took")
    parser.add_argument("--jobs", type=int, default=os.cpu_count() or 1, help="how many cases run side by side")
    parser.add_argument("names", nargs="*", metavar="NAME")
    slices.add_slice(parser)
    args = parser.parse_args()
    cases = {part.name: part for part in round_of(args)}
    some = [part for name, part in cases.items() if not args.names or any(it in name for it in args.names)]
    names = slices.chosen([(part.name, seconds_of(part)) for part in some], args.slice)
    if args.list:
        print("\n".join(names))
        return 0
    print(slices.told(args.slice, names), flush=True)
    growths, took, failed = {}, {}, 0
    with tempfile.TemporaryDirectory() as room, concurrent.futures.ThreadPoolExecutor(args.jobs) as pool:
        library = streams.built(room)
        longest = sorted(names, key=lambda name: -seconds_of(cases[name]))
        waits = [pool.submit(tried, cases[name], library) for name in longest]
        for wait in concurrent.futures.as_completed(waits):
            part, kinds, wrong, seconds = wait.result()
            failed += bool(wrong)
            took[part.name] = seconds
            growths[part.kind] = growths.get(part.kind, 0) + sum(kinds.values())
            print(f"{'FAILED ' if wrong else ''}{part.name}: {sum(kinds.values())} refusals in {seconds:.1f} s: {said(kinds)}", flush=True)
            for line in wrong[:5]:
                print(f"    {line}", flush=True)
    if args.note:
        write_seconds(took)
    empty = [kind for kind, number in growths.items() if not number]
    print(f"{slices.told(args.slice, names)}, {sum(growths.values())} growths refused ({said(growths)})")
    if empty or not names:
        print(f"FAILED: no growth was refused in {', '.join(empty) or 'any case: there is none'}")
    print(f"{len(names) - failed} passed, {failed} failed")
    return 1 if failed or empty or not names else 0


if __name__ == "__main__":
    sys.exit(main())
