"""Every image of the sample picture, whatever is kept, sent at once, and by how many workers.

    /usr/bin/python3 tests/matrix/matrix.py --program crates/iiif_serve/out/iiif_serve

The sample has 4 by 4 places. Each of its 100 rectangles, in each size that doesn't enlarge it, in each of the eight turns and in each of
the four qualities is asked of a server with each of 27 settings: caches of 0, 100 and 67,108,864 bytes, bands of 1, 3 and 64 rows, and 1,
2 and 5 workers, in blocks of 2 by 2 places. Each answer is compared whole, head and body, with the evaluation that tests/hostile has, which
knows of none of these. Each server is asked twice, so that the second answers are made of what is kept. Prints how many answers there
were; each that was wrong is named on standard error, and then the status is 1.
"""
import argparse
import itertools
import os
import sys
import threading

HERE = os.path.dirname(os.path.abspath(__file__))
sys.path[:0] = [os.path.join(HERE, "..", name) for name in ("", "hostile")]
import tiff  # noqa: E402
from images import Answers  # noqa: E402
from lib.server import BASE, Server, read_exactly  # noqa: E402
from lib.tiff import encode_rows  # noqa: E402

SIDE, EDGE, LIMIT = 4, 2, 16_384
CACHES, BANDS, WORKERS = (0, 100, 67_108_864), (1, 3, 64), (1, 2, 5)
TURNS = [mirror + degrees for mirror in ("", "!") for degrees in ("0", "90", "180", "270")]
QUALITIES = ("default", "color", "gray", "bitonal")
# Calls of a connection: a server closes one behind a thousand.
AT_ONCE = 800


def sample():
    """The picture that the program has built in: 0, 10, 20 and so on, row by row."""
    rows = [[[10 * (SIDE * y + x)] for x in range(SIDE)] for y in range(SIDE)]
    return tiff.judge(encode_rows(rows, 1, 8))


def targets():
    """Each region in each size, turn and quality."""
    spans = [(start, length) for start in range(SIDE) for length in range(1, SIDE - start + 1)]
    for (x, width), (y, height) in itertools.product(spans, spans):
        for c, d in itertools.product(range(1, width + 1), range(1, height + 1)):
            for turn, quality in itertools.product(TURNS, QUALITIES):
                yield f"/iiif/a/{x},{y},{width},{height}/{c},{d}/{turn}/{quality}.tif".encode()


def asked(server, calls, wanted):
    """The targets whose answers aren't those that are wanted: of a connection at most the first, since the rest of it can't be told."""
    for at in range(0, len(calls), AT_ONCE):
        some = calls[at:at + AT_ONCE]
        text = b"".join(b"GET " + target + b" HTTP/1.1\r\nHost: localhost\r\n\r\n" for target in some)
        with server.connect() as link:
            sender = threading.Thread(target=link.sendall, args=(text,))
            sender.start()
            for target, answer in zip(some, wanted[at:at + AT_ONCE]):
                if read_exactly(link, len(answer)) != answer:
                    yield target
                    break
            sender.join()


def main():
    parser = argparse.ArgumentParser(description=__doc__.splitlines()[0])
    parser.add_argument("--program", required=True)
    args = parser.parse_args()
    answers = Answers(BASE, {"a": sample()}, EDGE, LIMIT, False)
    calls = list(targets())
    wanted = [answers.answer(b"GET", target) for target in calls]
    count = wrong = 0
    for cache, band, workers in itertools.product(CACHES, BANDS, WORKERS):
        options = ["--edge", EDGE, "--cache-bytes", cache, "--band", band, "--workers", workers]
        with Server(os.path.abspath(args.program), ["a=:sample"], options) as server:
            for _ in range(2):
                count += len(calls)
                for target in asked(server, calls, wanted):
                    wrong += 1
                    print(f"{' '.join(map(str, options))}: {target.decode()}", file=sys.stderr)
    print(f"matrix: {count:,} answers of {len(calls):,} images with 27 settings, {wrong} wrong")
    return 1 if wrong else 0


if __name__ == "__main__":
    sys.exit(main())
