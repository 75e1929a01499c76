#!/usr/bin/env python3
"""Writes an IIIF Presentation 3.0 manifest of images that a server has, one canvas for each, in the order given.

    manifest.py --id https://HOST/manifests/book.json --base https://HOST/iiif page-1 page-2 > book.json
    manifest.py --id https://HOST/manifests/book.json --base https://HOST/iiif --images /srv/images/list > book.json

--id is the address at which the manifest will stand, --base that of the server, and each further word the name of an image;
--images FILE takes the names of a list with a line NAME=FILE each, as iiif_serve has it. --label TEXT is the title, else the
last part of --id. Each image is asked for its info.json: its address, its sides and its profile stand in the manifest as the server
tells them. Where one isn't there, or tells another address than it was asked at, its name and why are written to standard error, nothing
is written to standard output, and the status is 1.
"""
import argparse
import json
import sys
import urllib.error
import urllib.parse
import urllib.request

CONTEXT = "http://iiif.io/api/presentation/3/context.json"


def names_in(path):
    """The names of a list of images: what stands before the first `=` of each line that isn't empty and doesn't begin with `#`."""
    with open(path, encoding="utf-8") as file:
        lines = [line.rstrip("\n") for line in file]
    return [line.split("=", 1)[0] for line in lines if line and not line.startswith("#")]


def info_of(base, name):
    """The image's info.json, as far as a manifest needs it. ValueError says why there is none."""
    image = f"{base}/{urllib.parse.quote(name, safe='')}"
    try:
        with urllib.request.urlopen(f"{image}/info.json", timeout=30) as answer:
            info = json.load(answer)
    except (urllib.error.URLError, OSError, ValueError) as error:
        raise ValueError(f"{image}/info.json: {error}") from error
    if info.get("type") != "ImageService3":
        raise ValueError(f"{image}/info.json: its type is {info.get('type')!r}, not 'ImageService3'")
    if urllib.parse.unquote(info["id"]) != urllib.parse.unquote(image):
        raise ValueError(f"{image}/info.json: its id is {info['id']}: is --base what the server was told?")
    return info


def is_whole(info):
    """Whether `full/max` has the sides of the image: the server tells no limit that is less."""
    width, height = info["width"], info["height"]
    most_wide = info.get("maxWidth", width)
    most_high = info.get("maxHeight", info.get("maxWidth", height))
    return width <= most_wide and height <= most_high and width * height <= info.get("maxArea", width * height)


def canvas_of(info, name, manifest, number):
    """A canvas with the image on all of it (Presentation API 3.0, 5.3 and 5.5)."""
    canvas = f"{manifest}/canvas/{number}"
    sides = {"width": info["width"], "height": info["height"]}
    service = {"id": info["id"], "type": "ImageService3", "profile": info["profile"]}
    body = {"id": f"{info['id']}/full/max/0/default.tif", "type": "Image", "format": "image/tiff", "service": [service]}
    if is_whole(info):
        body.update(sides)
    annotation = {
        "id": f"{canvas}/image", "type": "Annotation", "motivation": "painting", "target": canvas, "body": body}
    page = {"id": f"{canvas}/page", "type": "AnnotationPage", "items": [annotation]}
    return {"id": canvas, "type": "Canvas", "label": {"none": [name]}, **sides, "items": [page]}


def main():
    parser = argparse.ArgumentParser(description=__doc__, formatter_class=argparse.RawDescriptionHelpFormatter)
    parser.add_argument("--id", required=True)
    parser.add_argument("--base", required=True)
    parser.add_argument("--label")
    parser.add_argument("--images")
    parser.add_argument("names", nargs="*")
    args = parser.parse_args()
    names = args.names + (names_in(args.images) if args.images else [])
    if not names:
        parser.error("no image is named")
    canvases, faults = [], []
    for number, name in enumerate(names, 1):
        try:
            canvases.append(canvas_of(info_of(args.base.rstrip("/"), name), name, args.id, number))
        except ValueError as fault:
            faults.append(f"{name}: {fault}")
    if faults:
        print(*faults, sep="\n", file=sys.stderr)
        return 1
    label = args.label or urllib.parse.unquote(args.id.rstrip("/").rsplit("/", 1)[-1])
    manifest = {"@context": CONTEXT, "id": args.id, "type": "Manifest", "label": {"none": [label]}, "items": canvases}
    json.dump(manifest, sys.stdout, ensure_ascii=False, indent=1)
    print()
    return 0


if __name__ == "__main__":
    sys.exit(main())
