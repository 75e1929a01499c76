"""Lets scale.py's viewers ask today's program, one after another, and says what an answer takes.

    /usr/bin/python3 bench/scale/replay.py --program crates/iiif_serve/out/iiif_serve [--visits 20] [--port 18090]

The image is a page (RGB, 2,480 by 3,508, in tiles of 256) of samples of 0. Each answer's length is compared with the model's.
"""
import argparse
import http.client
import os
import random
import sys
import tempfile
import time
from pathlib import Path

import scale
from model import TILE, Image, ceil_div

sys.path.insert(0, os.path.join(os.path.dirname(os.path.abspath(__file__)), "..", "..", "tests"))
from lib.server import Server  # noqa: E402
from lib.tiff import encode_pieces  # noqa: E402

PAGE = Image(b"page", 2480, 3508, 3)


def tiled(picture, edge=256):
    """An uncompressed file in tiles, of samples of 0."""
    tiles = [bytes(edge * edge * picture.channels)] * (ceil_div(picture.w, edge) * ceil_div(picture.h, edge))
    return encode_pieces(picture.w, picture.h, tiles, channels=picture.channels, tile=edge)


def main():
    parser = argparse.ArgumentParser()
    parser.add_argument("--program", required=True)
    parser.add_argument("--visits", type=int, default=20)
    parser.add_argument("--port", type=int, default=18090)
    args = parser.parse_args()
    chance, answers, tiles, sent, taken = random.Random(1), 0, 0, 0, 0.0
    with tempfile.TemporaryDirectory() as folder:
        file = Path(folder, "page.tif")
        file.write_bytes(tiled(PAGE))
        with Server(args.program, [f"page={file}"], port=args.port) as program:
            there = http.client.HTTPConnection("127.0.0.1", args.port)
            for _ in range(args.visits):
                for request in scale.visit(PAGE, chance):
                    region, size = (",".join(map(str, numbers)) for numbers in (request.region, request.size))
                    begun = time.perf_counter()
                    there.request("GET", f"/iiif/page/{region}/{size}/0/default.tif")
                    answer = there.getresponse()
                    length = len(answer.read())
                    taken += time.perf_counter() - begun
                    assert (answer.status, length) == (200, request.answer_len()), (answer.status, length, request.region, request.size)
                    answers, tiles, sent = answers + 1, tiles + len(request.squares(TILE)), sent + length
            used = sum(map(int, Path(f"/proc/{program.process.pid}/stat").read_text().rsplit(")", 1)[1].split()[11:13])) / os.sysconf("SC_CLK_TCK")
    print(f"{answers} answers of {tiles / answers:.1f} tiles and {sent / answers / 1000:.0f} KB: {1000 * taken / answers:.2f} ms each, of the program's processor {1000 * used / answers:.2f} ms")


main()
