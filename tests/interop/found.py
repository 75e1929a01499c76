"""TIFF files as other programs write them, opened by the program: accepted with the same pixels, or refused by the right line.

    /usr/bin/python3 tests/interop/found.py --program crates/iiif_serve/out/iiif_serve

Needs numpy, Pillow, tiffcp (libtiff-tools), vips (libvips-tools), gdal_translate and gdaladdo (gdal-bin) and ImageMagick's
convert. Six small pictures (gray and RGB of 8 and of 16 bits, bilevel, and gray of 16 bits counted down from white, 203 by 151, whose sides
no tile divides) are handed to each writer without loss, so that the samples that each file must show are known from the start; Pillow,
or libvips where a sample has 16 bits, decodes each accepted file too. An accepted file is asked for the whole image, for a region, for
a scaled image and for bits, and each answer is compared with the known samples, cut, averaged and packed by numpy over whole numbers.
Each file is asked for twice, read from the disk and held in memory (--hold), and both runs must end alike.
A refused file must end the program with status 2, nothing on standard output and the line `image a: N` first on standard error. What must be
refused, and by which number, stands in the tables below, by the reading rules of docs/operate/OPERATING.md. Prints Markdown tables of what was
right (all files by writer, and those of 16 bits by how their samples stand in them), names on standard error what wasn't, and ends
with status 1 where there is any.
"""
import argparse
import io
import os
import re
import shutil
import struct
import subprocess
import sys

import numpy as np
from PIL import Image

sys.path.insert(0, os.path.join(os.path.dirname(os.path.abspath(__file__)), ".."))
from lib import tiff  # noqa: E402
from lib.server import BASE, run  # noqa: E402

NOT_TIFF, TRUNCATED, MISSING, UNSUPPORTED, BAD_FIELD, TOO_LARGE = 1, 2, 3, 4, 5, 6
W, H = 203, 151


def pictures():
    """Gray, RGB and bilevel (0 and 255), and of 16 bits gray, gray to be counted down from white, and RGB, each h by w by channels."""
    x, y = np.meshgrid(np.arange(W), np.arange(H))
    gray = (x * 7 + y * 13 + (x * y >> 5)) & 255
    rgb = np.stack([gray, (x * 3 + 20) & 255, (255 - y) & 255], axis=2)
    bits = np.where((x // 3 + y // 5 + (x * y >> 7)) % 3 == 0, 255, 0)
    deep = (x * 331 + y * 977 + (x * y << 2)) & 65535
    deep_rgb = np.stack([deep, (x * 323 + 20) & 65535, (65535 - 401 * y) & 65535], axis=2)
    return {"gray": gray[:, :, None].astype(np.uint8), "rgb": rgb.astype(np.uint8), "bits": bits[:, :, None].astype(np.uint8),
            "gray16": deep[:, :, None].astype(np.uint16), "white16": deep[::-1, :, None].astype(np.uint16), "rgb16": deep_rgb.astype(np.uint16)}


def plain(samples, bits=False, white=False):
    """A plain file for the other programs to start from: one strip, low byte first; counted down from white where that is wanted."""
    height, width, channels = samples.shape
    samples = np.iinfo(samples.dtype).max - samples if white else samples
    data = np.packbits(samples[:, :, 0] > 127, axis=1).tobytes() if bits else samples.tobytes()
    return tiff.encode_pieces(width, height, [data], more=[(tiff.COMPRESSION, tiff.SHORT, [1]), (tiff.PLANES, tiff.SHORT, [1])], channels=channels,
                              bits=1 if bits else 8 * samples.itemsize, strip=height, white=white)


# Writer, what it is told, the picture, and None where the file is to be accepted, else the number of its refusal.
TIFFCP = [
    ("-c none -s -r 1", "gray", None), ("-c none -s -r 16 -B", "gray", None), ("-c none -s -r 1000", "rgb", None),
    ("-c none -t -w 64 -l 64", "gray", None), ("-c none -t -w 64 -l 48 -B", "rgb", None), ("-c none -t -w 256 -l 256", "rgb", None),
    ("-c none -s -r 8 -L", "bits", None), ("-c none -t -w 32 -l 32 -B", "bits", None), ("-c none -p contig -s -r 7 -B", "rgb", None),
    ("-c none -p separate -s -r 16", "rgb", UNSUPPORTED), ("-c none -f lsb2msb -s -r 16", "bits", UNSUPPORTED),
    ("-c lzw", "gray", UNSUPPORTED), ("-c zip", "rgb", UNSUPPORTED), ("-c packbits", "bits", UNSUPPORTED),
    ("-c g4", "bits", UNSUPPORTED), ("-c g3", "bits", UNSUPPORTED), ("-c jpeg -t -w 64 -l 64", "gray", UNSUPPORTED),
    ("-8 -c none -s -r 16", "gray", NOT_TIFF), ("-8 -B -c none -t -w 64 -l 64", "rgb", NOT_TIFF),
    ("-c none -s -r 16 -L", "gray16", None), ("-c none -s -r 1 -B", "gray16", None), ("-c none -t -w 64 -l 64 -L", "gray16", None),
    ("-c none -t -w 64 -l 48 -B", "gray16", None), ("-c none -s -r 1000 -L", "rgb16", None), ("-c none -s -r 7 -B", "rgb16", None),
    ("-c none -t -w 64 -l 48 -L", "rgb16", None), ("-c none -t -w 256 -l 256 -B", "rgb16", None), ("-c none -s -r 16 -L", "white16", None),
    ("-c none -s -r 7 -B", "white16", None), ("-c none -t -w 32 -l 48 -L", "white16", None), ("-c none -t -w 64 -l 64 -B", "white16", None),
    ("-c lzw", "gray16", UNSUPPORTED), ("-c zip", "rgb16", UNSUPPORTED), ("-8 -c none -s -r 16", "gray16", NOT_TIFF),
]
VIPS = [
    ("", "gray", None), ("", "rgb", None), ("--bitdepth 1", "bits", None), ("--tile --tile-width 64 --tile-height 64", "gray", None),
    ("--tile --tile-width 128 --tile-height 128", "rgb", None), ("--tile --tile-width 64 --tile-height 64 --bitdepth 1", "bits", None),
    ("--miniswhite", "gray", None), ("--miniswhite --bitdepth 1", "bits", None), ("--tile --pyramid", "gray", None),
    ("--bitdepth 4", "gray", UNSUPPORTED), ("--compression lzw", "gray", UNSUPPORTED), ("--compression deflate", "rgb", UNSUPPORTED),
    ("--compression jpeg", "rgb", UNSUPPORTED), ("--compression ccittfax4 --bitdepth 1", "bits", UNSUPPORTED),
    ("--bigtiff", "gray", NOT_TIFF),
    ("", "gray16", None), ("", "rgb16", None), ("--tile --tile-width 128 --tile-height 64", "gray16", None),
    ("--tile --tile-width 64 --tile-height 64", "rgb16", None), ("--miniswhite", "gray16", None),
    ("--miniswhite --tile --tile-width 64 --tile-height 64", "gray16", None), ("--tile --pyramid", "gray16", None),
    ("--compression deflate", "rgb16", UNSUPPORTED), ("--bigtiff", "rgb16", NOT_TIFF),
]
GDAL = [
    ("", "gray", None), ("-co TILED=YES -co BLOCKXSIZE=64 -co BLOCKYSIZE=64", "gray", None), ("-co INTERLEAVE=PIXEL", "rgb", None),
    ("-co TILED=YES -co INTERLEAVE=PIXEL -co ENDIANNESS=BIG", "rgb", None), ("-co BLOCKYSIZE=1 -co ENDIANNESS=BIG", "gray", None),
    ("-co NBITS=1", "bits", None), ("-co PHOTOMETRIC=MINISWHITE", "gray", None), ("-co PROFILE=BASELINE -co TILED=YES", "rgb", None),
    ("-co INTERLEAVE=BAND", "rgb", UNSUPPORTED), ("-co ALPHA=YES -b 1 -b 1", "gray", UNSUPPORTED), ("-ot UInt16", "gray", None),
    ("", "gray16", None), ("-co BLOCKYSIZE=3 -co ENDIANNESS=BIG", "gray16", None),
    ("-co TILED=YES -co BLOCKXSIZE=64 -co BLOCKYSIZE=64", "gray16", None),
    ("-co TILED=YES -co BLOCKXSIZE=64 -co BLOCKYSIZE=64 -co ENDIANNESS=BIG", "gray16", None),
    ("-co INTERLEAVE=PIXEL", "rgb16", None), ("-co INTERLEAVE=PIXEL -co ENDIANNESS=BIG", "rgb16", None),
    ("-co TILED=YES -co INTERLEAVE=PIXEL", "rgb16", None), ("-co TILED=YES -co INTERLEAVE=PIXEL -co ENDIANNESS=BIG", "rgb16", None),
    ("-co PHOTOMETRIC=MINISWHITE", "gray16", None), ("-co PHOTOMETRIC=MINISWHITE -co ENDIANNESS=BIG", "gray16", None),
    ("-co PHOTOMETRIC=MINISWHITE -co TILED=YES", "gray16", None),
    ("-co PHOTOMETRIC=MINISWHITE -co TILED=YES -co BLOCKXSIZE=16 -co BLOCKYSIZE=16 -co ENDIANNESS=BIG", "gray16", None),
    ("-co INTERLEAVE=BAND", "rgb16", UNSUPPORTED), ("-co NBITS=12 -scale 0 65535 0 4095", "gray16", UNSUPPORTED),
    ("-co ALPHA=YES -b 1 -b 1", "gray16", UNSUPPORTED), ("-co COMPRESS=LZW", "rgb16", UNSUPPORTED),
    ("-ot Int16", "gray", UNSUPPORTED), ("-ot UInt32", "gray16", UNSUPPORTED),
    ("-ot Float32", "gray", UNSUPPORTED), ("-ot Byte -b 1 -b 2", "rgb", UNSUPPORTED), ("-co COMPRESS=LZW", "gray", UNSUPPORTED),
    ("-co COMPRESS=DEFLATE -co TILED=YES", "rgb", UNSUPPORTED), ("-co COMPRESS=PACKBITS", "gray", UNSUPPORTED),
    ("-co BIGTIFF=YES", "gray", NOT_TIFF),
]
MAGICK = [
    ("-compress none", "gray", None), ("-compress none", "rgb", None), ("-compress none -type bilevel", "bits", None),
    ("-compress none -define tiff:endian=msb", "rgb", None), ("-compress none -define tiff:rows-per-strip=5", "gray", None),
    ("-compress none -define tiff:tile-geometry=64x64", "gray", None), ("-compress none -define tiff:tile-geometry=64x32 -define tiff:endian=msb", "rgb", None),
    ("-compress none -orient right-top", "gray", UNSUPPORTED), ("-compress none -depth 16", "gray16", None),
    ("-compress none -depth 16 -define tiff:endian=msb", "gray16", None), ("-compress none -depth 16", "rgb16", None),
    ("-compress none -depth 16 -define tiff:endian=msb -define tiff:rows-per-strip=9", "rgb16", None),
    ("-compress none -depth 16 -define tiff:tile-geometry=64x32", "gray16", None),
    ("-compress none -depth 16 -define tiff:endian=msb -define tiff:tile-geometry=64x64", "rgb16", None),
    ("-compress none -depth 16 -define quantum:polarity=min-is-white", "gray16", None),
    ("-compress none -depth 16 -define tiff:endian=msb -define quantum:polarity=min-is-white", "gray16", None),
    ("-compress none -depth 16 -alpha on", "rgb16", UNSUPPORTED), ("-compress none -depth 16 -colorspace CMYK", "rgb16", UNSUPPORTED),
    ("-compress zip", "rgb16", UNSUPPORTED),
    ("-compress none -alpha on", "rgb", UNSUPPORTED), ("-compress none -colorspace CMYK", "rgb", UNSUPPORTED),
    ("-compress none -colors 16 -type palette", "rgb", UNSUPPORTED), ("-compress lzw", "gray", UNSUPPORTED),
    ("-compress zip", "rgb", UNSUPPORTED), ("-compress group4 -type bilevel", "bits", UNSUPPORTED), ("-compress rle", "gray", UNSUPPORTED),
]
PILLOW = [
    ("L", {}, "gray", None), ("RGB", {}, "rgb", None), ("1", {}, "bits", None), ("P", {}, "gray", UNSUPPORTED), ("CMYK", {}, "rgb", UNSUPPORTED),
    ("LA", {}, "gray", UNSUPPORTED), ("RGBA", {}, "rgb", UNSUPPORTED), ("YCbCr", {}, "rgb", UNSUPPORTED), ("LAB", {}, "rgb", UNSUPPORTED),
    ("I;16", {}, "gray16", None), ("I;16B", {}, "gray16", None), ("I;16", {"compression": "tiff_lzw"}, "gray16", UNSUPPORTED),
    ("I", {}, "gray", UNSUPPORTED), ("F", {}, "gray", UNSUPPORTED),
    ("L", {"compression": "tiff_lzw"}, "gray", UNSUPPORTED), ("RGB", {"compression": "tiff_adobe_deflate"}, "rgb", UNSUPPORTED),
    ("1", {"compression": "group4"}, "bits", UNSUPPORTED), ("L", {"save_all": True}, "gray", None),
]


def call(*command):
    done = subprocess.run([str(word) for word in command], capture_output=True, text=True)
    if done.returncode:
        raise RuntimeError(f"{' '.join(map(str, command))}: {done.stderr.strip()[-300:]}")


def files(folder, sources, samples):
    """Each file: the writer, what it was told, the picture, what is expected, and its path."""
    number = 0

    def path():
        nonlocal number
        number += 1
        return os.path.join(folder, f"{number:03}.tif")

    for options, picture, expected in TIFFCP:
        call("tiffcp", *options.split(), sources[picture], out := path())
        yield "tiffcp", options, picture, expected, out
    for options, picture, expected in VIPS:
        call("vips", "tiffsave", sources[picture], out := path(), *options.split())
        yield "vips tiffsave", options, picture, expected, out
    for options, picture, expected in GDAL:
        scale = ["-scale", "0", "255", "0", "1"] if "NBITS=1" in options.split() else []
        source = sources["bits8" if picture == "bits" else picture]
        call("gdal_translate", "-q", *options.split(), *scale, source, out := path())
        yield "gdal_translate", options, picture, expected, out
    call("gdal_translate", "-q", "-co", "TILED=YES", sources["gray"], out := path())
    call("gdaladdo", "-q", out, "2", "4")
    yield "gdal_translate, gdaladdo", "-co TILED=YES; 2 4", "gray", None, out
    call("gdal_translate", "-q", "-of", "COG", "-co", "COMPRESS=NONE", "-co", "BLOCKSIZE=128", sources["gray"], out := path())
    yield "gdal_translate", "-of COG -co COMPRESS=NONE -co BLOCKSIZE=128", "gray", None, out
    call("gdal_create", "-q", "-co", "SPARSE_OK=TRUE", "-outsize", W, H, "-bands", "1", out := path())
    yield "gdal_create", "-co SPARSE_OK=TRUE (no strip is stored)", "gray", BAD_FIELD, out
    for options, picture, expected in MAGICK:
        call("convert", sources[picture], *options.split(), out := path())
        yield "convert", options, picture, expected, out
    for mode, options, picture, expected in PILLOW:
        array = samples[picture]
        image = Image.fromarray(array[:, :, 0] if array.shape[2] == 1 else array)
        if mode == "I;16B":
            image = Image.frombytes(mode, image.size, array.astype(">u2").tobytes())
        elif mode != "I;16":
            image = image.convert(mode)
        if options.get("save_all"):
            options = {**options, "append_images": [Image.new("L", (50, 40))]}
        image.save(out := path(), **options)
        told = ", ".join([f"mode {mode}", *filter(None, [options.get("compression"), "two pages" * ("save_all" in options)])])
        yield "Pillow", told, picture, expected, out
    with open(sources["gray"], "rb") as file:
        whole = file.read()
    for what, data, expected in [("no byte", b"", NOT_TIFF), ("a PNG file", b"\x89PNG\r\n\x1a\n" + bytes(40), NOT_TIFF),
                                 ("the last byte cut off", whole[:-1], TRUNCATED), ("cut inside the directory", whole[:60], TRUNCATED)]:
        with open(out := path(), "wb") as file:
            file.write(data)
        yield "by hand", what, "gray", expected, out


def ask(program, words, path):
    """Status, standard output and standard error of the program for one target, the same whether the file is held in memory or not."""
    command = ["--base", BASE, "--one", f"/iiif/a/{words}", "a=" + path]
    read, held = (run(program, command + hold) for hold in ([], ["--hold", str(2**40)]))
    if read != held:
        return -1, b"", f"held in memory it ends with {held[0]}, {len(held[1])} bytes and other words or bytes"
    return *read[:2], read[2].decode(errors="replace")


def shown(body, like):
    """The samples of an answer: of 16 bits its last bytes behind the head of its length, else by Pillow."""
    if like.itemsize == 2:
        answer = tiff.decode_answer(body)
        fits = (answer.height, answer.width, answer.channels, answer.bits) == (*like.shape, 16)
        return np.frombuffer(answer.strip, "<u2").reshape(like.shape) if fits else None
    with Image.open(io.BytesIO(body)) as image:
        return np.asarray(image.convert("RGB" if image.mode == "RGB" else "L")).reshape(image.height, image.width, -1)


def weights(places, size):
    """How long each source cell overlaps each of `size` result cells."""
    cell, place = np.arange(size, dtype=np.int64)[:, None], np.arange(places, dtype=np.int64)[None, :]
    return np.clip(np.minimum((cell + 1) * places, (place + 1) * size) - np.maximum(cell * places, place * size), 0, None)


def averaged(samples, width):
    """The picture scaled to a width, its height in proportion, by averages to the nearest, a half up."""
    h, w, _ = samples.shape
    height = (2 * h * width + w) // (2 * w)
    sums = np.einsum("jy,yxk,ix->jik", weights(h, height), samples.astype(np.int64), weights(w, width))
    return ((2 * sums + w * h) // (2 * w * h)).astype(samples.dtype)


def bitonal(samples):
    """0 and 255, by the gray formula and half of what the samples' type holds."""
    gray = samples.astype(np.int64)
    gray = (gray @ [299, 587, 114] + 500) // 1000 if samples.shape[2] == 3 else gray[:, :, 0]
    return np.where(gray > np.iinfo(samples.dtype).max // 2, 255, 0).astype(np.uint8)[:, :, None]


def shown_by(samples, writer, options, picture):
    """The samples that a file must show. GDAL and ImageMagick keep the stored values where they are told that white is 0, so their files
    show the negative."""
    wanted = samples[picture].astype(np.uint16) if "UInt16" in options else samples[picture]
    return np.iinfo(wanted.dtype).max - wanted if re.search("=MINISWHITE|=min-is-white", options) else wanted


def decoded(path, wanted):
    """The samples of a file, by libvips where they have 16 bits, else by Pillow."""
    if wanted.itemsize == 2:
        call("vips", "rawsave", path, path + ".raw")
        return np.fromfile(path + ".raw", "<u2").reshape(wanted.shape)
    with Image.open(path) as image:
        return np.asarray(image.convert("RGB" if wanted.shape[2] == 3 else "L")).reshape(wanted.shape)


def standing(path):
    """How the samples of a file stand in it: depth, channels, byte order, cut and which end is white; nothing where it is no TIFF."""
    with open(path, "rb") as file:
        data = file.read()
    order = {b"II*\0": "<", b"MM\0*": ">"}.get(data[:4])
    at = struct.unpack_from(f"{order}I", data, 4)[0] if order else len(data)
    if at + 2 > len(data):
        return ""
    tags = {}
    for entry in range(at + 2, at + 2 + 12 * struct.unpack_from(f"{order}H", data, at)[0], 12):
        tag, kind, count = struct.unpack_from(f"{order}HHI", data, entry) if entry + 12 <= len(data) else (0, 0, 0)
        tags[tag] = struct.unpack_from(f"{order}H" if kind == 3 and count == 1 else f"{order}I", data, entry + 8)[0] if tag else 0
        if tag == 258 and count > 2 and tags[tag] + 2 <= len(data):
            tags[tag] = struct.unpack_from(f"{order}H", data, tags[tag])[0]
    colour = {0: "gray, MinIsWhite", 1: "gray, MinIsBlack", 2: "RGB"}.get(tags.get(262), "other")
    return f"{tags.get(258, 1)} bits, {colour}, {'II' if order == '<' else 'MM'}, {'tiles' if 322 in tags else 'strips'}"


def judged(program, path, wanted, expected):
    """What happened, and whether it was right."""
    if expected is not None:
        status, out, err = ask(program, "full/max/0/default.tif", path)
        line, ends, _ = err.partition("\n")
        right = (status, out, line, ends) == (2, b"", f"image a: {expected}", "\n")
        return f"`{line}`, status {status}" + (f", {len(out)} bytes" if out else ""), right
    if not np.array_equal(decoded(path, wanted), wanted):
        return "another program decodes another picture than the writer was given", False
    cases = [("full/max/0/default.tif", wanted), ("37,29,101,90/max/0/default.tif", wanted[29:119, 37:138]),
             ("full/31,/0/default.tif", averaged(wanted, 31)), ("full/max/0/bitonal.tif", bitonal(wanted))]
    for words, samples in cases:
        status, out, err = ask(program, words, path)
        if status or err or out[:4] != b"II*\0":
            return f"{words}: status {status} `{(err or out[:40].decode(errors='replace')).strip()}`", False
        if not np.array_equal(got := shown(out, samples), samples):
            return f"{words}: {'another length' if got is None else 'other samples'}", False
    return "accepted, the same samples", True


def version(*command):
    done = subprocess.run(command, capture_output=True, text=True)
    line = next(line for line in (done.stdout + done.stderr).split("\n") if re.search(r"\d\.\d", line))
    return line.removeprefix("Version: ").split(", rel")[0]


def main():
    parser = argparse.ArgumentParser(description=__doc__, formatter_class=argparse.RawDescriptionHelpFormatter)
    parser.add_argument("--program", required=True)
    parser.add_argument("--work", default="/tmp/iiif_found")
    args = parser.parse_args()
    shutil.rmtree(args.work, ignore_errors=True)
    os.makedirs(args.work)
    samples, sources = pictures(), {}
    for name in [*samples, "bits8"]:
        sources[name] = os.path.join(args.work, name + ".tif")
        with open(sources[name], "wb") as file:
            file.write(plain(samples["bits" if name == "bits8" else name], name == "bits", name == "white16"))
    print(f"{version('tiffcp', '-h')}; {version('vips', '--version')}; {version('gdal_translate', '--version')};",
          f"{version('convert', '-version').rsplit(' Q16')[0]}; Pillow {Image.__version__}\n")
    groups, wrong, count, deep = {}, [], 0, {}
    for writer, options, picture, expected, path in files(args.work, sources, samples):
        got, right = judged(args.program, path, shown_by(samples, writer, options, picture), expected)
        told = f"{picture}: `{options}`" if options else f"{picture}: nothing"
        count += 1
        if right:
            groups.setdefault((writer, got), []).append(told)
            if expected is None and standing(path).startswith("16 bits"):
                deep.setdefault(standing(path), []).append(writer.split(",")[0])
        else:
            wrong.append(f"{writer}, {told}: expected {'accepted' if expected is None else expected}, got {got} ({path})")
    print("| Writer | Files | The program | Picture, and what the writer was told |\n|---|---|---|---|")
    for (writer, got), told in groups.items():
        print(f"| {writer} | {len(told)} | {got} | {'; '.join(told)} |")
    print("\n| Accepted, as it stands in the file | Files | Writers |\n|---|---|---|")
    for how, writers in sorted(deep.items()):
        print(f"| {how} | {len(writers)} | {', '.join(dict.fromkeys(writers))} |")
    for line in wrong:
        print(f"wrong: {line}", file=sys.stderr)
    print(f"\n{count} files, {len(wrong)} wrong")
    return 1 if wrong else 0


if __name__ == "__main__":
    sys.exit(main())
