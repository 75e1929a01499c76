#!/usr/bin/env python3
"""Turns bits of files that a manifest lists, before and while the built program serves them.

    tests/fixity/fixity.py --program crates/iiif_serve/out/iiif_serve
    tests/fixity/fixity.py --program PROGRAM --bits 5000    # so many bits of the larger file

A bit of each byte of a small file, and as many bits as are asked for of a larger one, are turned one at a time. Of a file with a turned bit:

- a start that holds it refuses it by its image's name, with status 2, and writes nothing of it;
- a check says that it differs, or which check of TIFF it fails, and never that it is as listed;
- a server that holds the file as it was answers with the very image, whatever comes to the file meanwhile.

Which image that is, tests/hostile's reader of TIFF says. That the bits matter is tried too: without the manifest some of the same files come to
another picture. The last line is `N passed, M failed`; the status is 1 where one failed.
"""
import argparse
import concurrent.futures
import hashlib
import os
import random
import sys
import tempfile

sys.path.insert(0, os.path.join(os.path.dirname(os.path.abspath(__file__)), ".."))
from hostile.images import file_of  # noqa: E402
from hostile.tiff import judge  # noqa: E402
from lib.server import BASE, Server, ask, run  # noqa: E402

TARGET = "/iiif/a/full/max/0/default.tif"
SIDE = 300
DIFFERS = b"image a: 0\nit differs from its digest in the manifest: "


class Shape:
    """Channels and bits a sample of a picture."""
    channels, bits = 1, 8


def small_file():
    """A file of 4 by 4 gray samples."""
    return file_of([[[40 * y + 10 * x] for x in range(4)] for y in range(4)], "default", Shape)


def larger_file(chance):
    return file_of([[[chance.randrange(256)] for _ in range(SIDE)] for _ in range(SIDE)], "default", Shape)


def image_of(data):
    """The answer that shows a file's whole picture."""
    picture = judge(data)
    return file_of(picture.rows(0, 0, picture.width, picture.height), "default", picture)


def turned(data, place, bit):
    return data[:place] + bytes([data[place] ^ 1 << bit]) + data[place + 1:]


class Room:
    """A folder with a file, and a manifest that has the digest of the file as it was given."""

    def __init__(self, program, data):
        self.program, self.data, self.image, self.folder = program, data, image_of(data), tempfile.mkdtemp(prefix="fixity-")
        with open(f"{self.folder}/manifest", "w", encoding="ascii") as file:
            for name in [f"{at}.tif" for at in range(8)] + ["served.tif"]:
                file.write(f"{hashlib.sha256(data).hexdigest()}  {name}\n")

    def write(self, name, data):
        with open(f"{self.folder}/{name}", "wb") as file:
            file.write(data)

    def run(self, name, *words):
        return run(self.program, ["--base", BASE, *words, f"a={name}"], cwd=self.folder)

    def is_refused(self, name):
        """A start that holds the file refuses it."""
        status, out, err = self.run(name, "--hold", "1000000", "--manifest", "manifest", "--one", TARGET)
        return status == 2 and not out and err.startswith(DIFFERS)

    def is_told(self, name):
        """A check says what is wrong with the file."""
        status, out, _ = self.run(name, "--check", "--manifest", "manifest")
        return status == 2 and out.startswith(b"image a: ") and b"manifest: 1 images, 0 as listed" in out

    def shows_another(self, name):
        """Without the manifest the file comes to another picture."""
        status, out, _ = self.run(name, "--hold", "1000000", "--one", TARGET)
        return status == 0 and out != self.image


def places_of(data, bits, chance):
    """A place and a bit of each byte, or so many of all."""
    if bits is None:
        return [(place, place % 8) for place in range(len(data))]
    return [(at // 8, at % 8) for at in chance.sample(range(8 * len(data)), min(bits, 8 * len(data)))]


def before(room, places):
    """How often the file with a turned bit was taken for what it isn't, and how often it would have come to another picture."""
    wrong, others = [], 0

    def tried(lane):
        found, other = [], 0
        for place, bit in places[lane::4]:
            room.write(f"{lane}.tif", turned(room.data, place, bit))
            if not room.is_refused(f"{lane}.tif") or not room.is_told(f"{lane}.tif"):
                found.append((place, bit))
            if other < 5 and room.shows_another(f"{lane}.tif"):
                other += 1
        return found, other

    with concurrent.futures.ThreadPoolExecutor(4) as pool:
        for found, other in pool.map(tried, range(4)):
            wrong, others = wrong + found, others + other
    return wrong, others


def while_served(room, places):
    """At which turned bits a server that holds the file answered with another than its image."""
    room.write("served.tif", room.data)
    words = ["--hold", "1000000", "--cache-bytes", "0", "--manifest", "manifest"]
    with Server(room.program, ["a=served.tif"], words, cwd=room.folder) as server:
        wrong, want = [], (200, room.image)
        for place, bit in places:
            room.write("served.tif", turned(room.data, place, bit))
            if ask(server.port, TARGET) != want:
                wrong.append((place, bit))
        os.remove(f"{room.folder}/served.tif")
        return wrong + ([] if ask(server.port, TARGET) == want else ["removed"])


def tell(results, name, is_right, said):
    results.append(is_right)
    print(f"{'passed' if is_right else 'FAILED'} {name}: {said}", flush=True)


def main():
    parser = argparse.ArgumentParser(description=__doc__, formatter_class=argparse.RawDescriptionHelpFormatter)
    parser.add_argument("--program", required=True)
    parser.add_argument("--bits", type=int, default=1000)
    args = parser.parse_args()
    program, chance, results = os.path.abspath(args.program), random.Random(1), []
    for name, data, bits in (("small file", small_file(), None), ("larger file", larger_file(chance), args.bits)):
        room = Room(program, data)
        room.write("0.tif", data)
        whole = room.run("0.tif", "--hold", "1000000", "--manifest", "manifest", "--one", TARGET)
        tell(results, f"{name}, as it was", whole == (0, room.image, b""), f"{len(data)} bytes")
        places = places_of(data, bits, chance)
        wrong, others = before(room, places)
        tell(results, f"{name}, before it is served", not wrong, f"{len(places)} bits, wrong: {wrong[:5]}")
        tell(results, f"{name}, without the manifest", others > 0, f"{others} of them came to another picture")
        wrong = while_served(room, places)
        tell(results, f"{name}, while it is served", not wrong, f"{len(places)} bits, wrong: {wrong[:5]}")
    failed = results.count(False)
    print(f"{len(results) - failed} passed, {failed} failed")
    return 1 if failed else 0


if __name__ == "__main__":
    sys.exit(main())
