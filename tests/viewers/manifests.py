"""viewers/manifest.py beside the program: what a manifest names is what the server has.

    python3 tests/viewers/manifests.py --program crates/iiif_serve/out/iiif_serve

Needs no browser. The sides that a canvas has to have are those of the files made here. Prints what it tried and ends with
`N passed, M failed`, status 1 where one failed.
"""
import argparse
import json
import os
import subprocess
import sys
import tempfile
import urllib.error
import urllib.request

from judge import Failed, Tried, same
from pictures import Picture
from servers import VIEWERS, Program

SCRIPT = os.path.join(VIEWERS, "manifest.py")
BOOK = "https://example.org/manifests/book.json"
# By name, as a list of images has it: width and height, and how the name stands in an address (RFC 3986, 2.1).
IMAGES = {"one": (40, 30, "one"), "a page": (17, 64, "a%20page"), "shelf/2": (64, 64, "shelf%2F2"), "ä": (9, 5, "%C3%A4")}


def made(program, *words):
    """What the script writes, its faults and its status."""
    done = subprocess.run([sys.executable, SCRIPT, "--base", program.base, *words], capture_output=True, text=True, timeout=60)
    return done.stdout, done.stderr, done.returncode


def manifest_of(program, *words):
    out, faults, status = made(program, "--id", BOOK, *words)
    same((faults, status), ("", 0), "what the script says")
    return json.loads(out)


def whole(program, names, *words):
    """A manifest of these images has each, in this order, with its sides, at the address that serves it."""
    manifest = manifest_of(program, *words)
    same(manifest["@context"], "http://iiif.io/api/presentation/3/context.json", "the context")
    same((manifest["id"], manifest["type"]), (BOOK, "Manifest"), "the manifest")
    same([canvas["label"]["none"] for canvas in manifest["items"]], [[name] for name in names], "the labels")
    ids = set()
    for canvas, name in zip(manifest["items"], names):
        width, height, quoted = IMAGES[name]
        same((canvas["type"], canvas["width"], canvas["height"]), ("Canvas", width, height), name)
        (page,) = canvas["items"]
        (annotation,) = page["items"]
        same((page["type"], annotation["type"], annotation["motivation"]), ("AnnotationPage", "Annotation", "painting"), name)
        same(annotation["target"], canvas["id"], f"the target of {name}")
        body = annotation["body"]
        (service,) = body["service"]
        same(service, {"id": f"{program.base}/{quoted}", "type": "ImageService3", "profile": "level0"}, f"the service of {name}")
        same((body["id"], body["type"]), (f"{program.base}/{quoted}/full/max/0/default.tif", "Image"), f"the body of {name}")
        with urllib.request.urlopen(f"{service['id']}/info.json") as answer:
            info = json.load(answer)
        same((info["id"], info["width"], info["height"]), (service["id"], width, height), f"info.json of {name}")
        with urllib.request.urlopen(body["id"]) as answer:
            same(answer.headers["Content-Type"], body["format"], f"the format of {name}")
        ids |= {canvas["id"], page["id"], annotation["id"]}
    same(len(ids), 3 * len(names), "how many ids there are")
    return f"{len(names)} images"


def limited(program):
    """Where the server tells a limit, the whole image isn't said to have all its places."""
    body = manifest_of(program, "one", "ä")["items"][0]["items"][0]["items"][0]["body"]
    same([side for side in ("width", "height") if side in body], [], "the sides of the body")
    small = manifest_of(program, "ä")["items"][0]["items"][0]["items"][0]["body"]
    same((small["width"], small["height"]), IMAGES["ä"][:2], "the sides of a body within the limit")


def refused(program, words, wanted):
    out, faults, status = made(program, *words)
    same((out, status), ("", 1), "the output and the status")
    if wanted not in faults:
        raise Failed(f"it says {faults!r}")


def main():
    parser = argparse.ArgumentParser(description=__doc__, formatter_class=argparse.RawDescriptionHelpFormatter)
    parser.add_argument("--program", required=True)
    args = parser.parse_args()
    tried = Tried()
    with tempfile.TemporaryDirectory() as folder:
        words = []
        for number, (name, (width, height, _)) in enumerate(IMAGES.items()):
            path = os.path.join(folder, f"{number}.tif")
            with open(path, "wb") as file:
                file.write(Picture(width, height, 1, 8, False).file("<"))
            words.append(f"{name}={path}")
        images = os.path.join(folder, "list")
        with open(images, "w", encoding="utf-8") as file:
            file.write("# a shelf\n\n" + "".join(f"{word}\n" for word in words))
        with Program(args.program, words, 256) as program:
            tried.case("images that are named", lambda: whole(program, ["a page", "one"], "a page", "one"))
            tried.case("a list of images", lambda: whole(program, list(IMAGES), "--images", images))
            tried.case("a title", lambda: same(
                manifest_of(program, "--label", "A book", "one")["label"], {"none": ["A book"]}, "the title"))
            tried.case("no title", lambda: same(manifest_of(program, "one")["label"], {"none": ["book.json"]}, "the title"))
            tried.case("an image that isn't there", lambda: refused(program, ["--id", BOOK, "one", "two"], "two: "))
            other = program.base.replace("localhost", "127.0.0.1")
            tried.case("a base that the server wasn't told", lambda: refused(
                program, ["--base", other, "--id", BOOK, "one"], "is --base what the server was told?"))
        with Program(args.program, [*words, "--max", "20"], 16) as program:
            tried.case("a limit", lambda: limited(program))
    return tried.told()


if __name__ == "__main__":
    sys.exit(main())
