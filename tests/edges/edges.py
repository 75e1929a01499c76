"""The built program at its edges: words that aren't UTF-8 or that the parser refuses, outputs that take nothing, reads that fail while
it answers, and system calls that a signal interrupts.

    /usr/bin/python3 tests/edges/edges.py --program crates/iiif_serve/out/iiif_serve

Needs `cc`: `fail.c` is built and loaded in front of the C library, and fails the reads of an image's file from the first, the second and so
on, until a run meets none. Then the start has to be refused, the answer has to be `L1 source`, or it is cut, the status 1 and the line
`run: source`. So it is where one read alone fails of a file of whole tiles, for an image and an overview, whatever the bands and the
workers: it isn't tried again. `interrupt.c` interrupts every second read of a socket and write to one or to an output: such a call is tried
again, and nothing comes to anything else. What must be said stands here, in the words of the manual page and docs/operate/OPERATING.md. Prints how
many runs there were; each that was wrong is named on standard error, and then the status is 1.
"""
import argparse
import itertools
import os
import re
import subprocess
import sys
import tempfile
import time

HERE = os.path.dirname(os.path.abspath(__file__))
sys.path[:0] = [os.path.join(HERE, "..", name) for name in ("", "hostile")]
import files  # noqa: E402
from lib import server as running  # noqa: E402
from lib import tiff  # noqa: E402
from lib.server import run  # noqa: E402

BASE = ["--base", running.BASE]
IMAGE = [*BASE, "--edge", "2", "--band", "1", "--one", "/iiif/a/full/max/0/default.tif"]
# An image of many bands, whose rows no cache keeps.
LARGE = [*BASE, "--edge", "64", "--band", "16", "--workers", "1", "--cache-bytes", "0", "--one", "/iiif/a/full/max/0/default.tif"]
NOT_UTF8 = b"line: not UTF-8\neach word has to be UTF-8: rename a file whose name isn't\n"
FULL = b"run: write\n"


def words(program, path):
    """Words that aren't UTF-8, wherever they stand."""
    target = b"/iiif/\xe9/full/max/0/default.tif"
    for given in ([b"\xff"], [*BASE, b"--one", target, "a=:sample"], [*IMAGE, b"\xc3=" + path.encode()], [b"--help", b"\x80"]):
        got = run(program, given)
        yield f"{given}", got, got == (2, b"", NOT_UTF8)


def parsed(program, path):
    """Words that the parser refuses: its whole text stands behind `line: `, in the words of clap's documents."""
    more = b"\n\nFor more information, try '--help'.\n"
    got = run(program, ["--edgy", "3"])
    tip = b"line: error: unexpected argument '--edgy' found\n\n  tip: a similar argument exists: '--edge'\n\nUsage: "
    yield "an option that is none", got, got[:2] == (2, b"") and got[2].startswith(tip) and got[2].endswith(more)
    got = run(program, [*BASE, "--band"])
    yield "no value", got, got == (2, b"", b"line: error: a value is required for '--band <ROWS>' but none was supplied" + more)


def outputs(program, path):
    """Outputs that take nothing: a full disk, and a pipe that nobody reads."""
    image = "a=" + path
    for given in ([], ["--help"], ["--version"], [*IMAGE, image], [*IMAGE, "--hex", image], [*IMAGE, image, "--peer", "p=127.0.0.1:1"],
                  [*BASE, "--one", "/iiif/zz/full/max/0/default.tif", image], [*BASE, "--check", image]):
        with open("/dev/full", "wb") as full:
            got = run(program, given, stdout=full)
        yield f"{given} to /dev/full", got, got == (1, None, FULL)
        read, write = os.pipe()
        os.close(read)
        got = run(program, given, stdout=write)
        os.close(write)
        yield f"{given} to a closed pipe", got, got == (1, None, FULL)
    for given, status in (([*BASE, "--band", "0"], 2), ([b"\xff"], 2), ([*IMAGE, "a=" + path + ".none"], 2), (["--edgy"], 2)):
        with open("/dev/full", "wb") as full:
            got = run(program, given, stderr=full)
        yield f"{given}, standard error to /dev/full", got, got == (status, b"", None)
    with open("/dev/full", "wb") as full:
        got = run(program, [*IMAGE, image], stdout=full, stderr=full)
    yield "both to /dev/full", got, got == (1, None, None)


def kind_of(got, own, in_hex):
    """What a run with a failed read came to, or None where it may not."""
    if got == own:
        return "own"
    if got[0] == 2 and got[1] == b"" and got[2].startswith(b"image a: "):
        return "start refused"
    text = b"L1 source\n"
    if got == (0, b" ".join(b"%02x" % byte for byte in text) + b"\n" if in_hex else text, b""):
        return "L1 source"
    is_cut = got[1] == b"" if in_hex else 0 < len(got[1]) < len(own[1]) and own[1].startswith(got[1])
    return "run: source" if got[0] == 1 and got[2] == b"run: source\n" and is_cut else None


def built(room, name):
    """A library of this folder that stands in front of the C library's functions."""
    library = os.path.join(room, f"{name}.so")
    if not os.path.exists(library):
        subprocess.run(["cc", "-O2", "-shared", "-fPIC", "-o", library, os.path.join(HERE, f"{name}.c"), "-ldl"], check=True)
    return library


def failed(program, given, room, more):
    """What a run of each read that may fail comes to: the read's number, and how the run ended."""
    library, mark = built(room, "fail"), os.path.join(room, "mark")
    for n in range(1, 4000):
        got = run(program, given, env={"LD_PRELOAD": library, "FAIL_READ": str(n), "FAIL_MARK": mark, **more})
        if not os.path.exists(mark):
            break
        os.remove(mark)
        yield n, got


def large_in(room):
    """A larger image's file."""
    path = os.path.join(room, "large.tif")
    with open(path, "wb") as file:
        file.write(tiff.encode_rows([[[(3 * x + 5 * y) % 256] for x in range(300)] for y in range(300)], 1, 8, strip=1))
    return "a=" + path


def reads(program, path):
    """The reads of a larger image's file failed from each one on: each kind has to come, and no other."""
    with tempfile.TemporaryDirectory() as room:
        large = large_in(room)
        for more in ([], ["--hex"], ["--peer", "p=127.0.0.1:1"]):
            given = [*LARGE, *more, large]
            own, kinds = run(program, given), set()
            for n, got in failed(program, given, room, {}):
                kind = kind_of(got, own, "--hex" in more)
                kinds.add(kind)
                yield f"{more}, reads failed from {n} on", got[:1] + got[2:], kind is not None
            lacking = {"start refused", "L1 source", "run: source"} - kinds
            yield f"{more}: kinds that never came", lacking, not lacking


def one_read(program, path):
    """Each read of a file of whole tiles failed alone: no run may end as if none had. An overview is made before its first band is sent."""
    with tempfile.TemporaryDirectory() as room:
        large = "a=" + os.path.join(room, "tiles.tif")
        tiff.write_flat(large[2:], 320, 320, edge=64)
        for size, band, workers in itertools.product(("max", "75,"), ("1", "64"), ("1", "2", "4")):
            given = [*BASE, "--edge", "64", "--band", band, "--workers", workers, "--one", f"/iiif/a/full/{size}/0/default.tif", large]
            own, kinds = run(program, given), set()
            for n, got in failed(program, given, room, {"FAIL_ONCE": "1"}):
                kind = kind_of(got, own, False)
                kinds.add(kind)
                yield f"{size}, bands of {band}, {workers} workers: read {n} failed", got[:1] + got[2:], kind not in (None, "own")
            wanted = {"start refused", "L1 source"} | ({"run: source"} if size == "max" else set())
            yield f"{size}, bands of {band}, {workers} workers: kinds that came", kinds, kinds == wanted


def answered(program, path, env):
    """What a server answers three connections, which ask for an image in bands, for a tile, and for an image of more bytes than go out at
    once, and whether the log has their lines."""
    targets = [IMAGE[-1], "/iiif/a/2,2,2,2/max/0/default.tif", "/iiif/a/full/^400,/0/default.tif"]
    with running.Server(program, ["a=" + path], ["--edge", 2, "--band", 1, "--upscale", "--log"], env=env) as server:
        answers = []
        for target in targets:
            with server.connect() as link:
                link.sendall(f"GET {target} HTTP/1.1\r\nHost: localhost\r\nConnection: close\r\n\r\n".encode())
                answers.append(running.read_to_end(link)[0])
        wanted = "\n".join(rf"\S+Z GET 200 {len(it)} \d+ {re.escape(target)}" for it, target in zip(answers, targets))
        for _ in range(500):
            if re.fullmatch(wanted, server.line()):
                return answers, True
            time.sleep(0.01)
        return answers, server.line()


def interrupted(program, path):
    """Every second call that reads a socket, or writes to one or to an output, interrupted: all comes to what it comes to without."""
    with tempfile.TemporaryDirectory() as room:
        marks = os.path.join(room, "marks")
        os.mkdir(marks)
        env = {"LD_PRELOAD": built(room, "interrupt"), "INTERRUPT_MARKS": marks}
        for given in ([*IMAGE, "a=" + path], [*IMAGE, "a=" + path + ".none"]):
            own, got = run(program, given), run(program, given, env=env)
            yield f"{given}, interrupted", got, got == own and own[0] in (0, 2)
        own, got = answered(program, path, {}), answered(program, path, env)
        yield "three answers and their lines in the log, interrupted", got, got == own and own[1] is True
        calls = sorted(os.listdir(marks))
        # These answers go out by `sendmsg`: `send` isn't tried here.
        yield "calls that were interrupted", calls, calls == ["errors", "output", "recv", "sendmsg"]


def main():
    parser = argparse.ArgumentParser(description=__doc__, formatter_class=argparse.RawDescriptionHelpFormatter)
    parser.add_argument("--program", required=True)
    program = os.path.abspath(parser.parse_args().program)
    runs = wrong = 0
    with tempfile.TemporaryDirectory() as room:
        path = os.path.join(room, "sample.tif")
        with open(path, "wb") as file:
            file.write(files.SAMPLE)
        for part in (words, parsed, outputs, reads, one_read, interrupted):
            for what, got, is_right in part(program, path):
                runs += 1
                wrong += not is_right
                if not is_right:
                    print(f"wrong: {what}: {got}", file=sys.stderr)
    print(f"edges: {runs} runs, {wrong} wrong")
    return 1 if wrong else 0


if __name__ == "__main__":
    sys.exit(main())
