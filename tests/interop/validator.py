"""What the program answers where the official validator's tests of requests ask for TIFF in place of JPEG.

    /usr/bin/python3 tests/interop/validator.py crates/iiif_serve/out/iiif_serve

The picture has 10 by 10 coloured squares with a side of 100, as the validator's own, here of random colours. Needs numpy. Each line
names the test, the target and what was answered; the status is 1 where that isn't what is wanted.
"""
import os
import sys
import tempfile

import numpy as np

sys.path.insert(0, os.path.join(os.path.dirname(os.path.abspath(__file__)), ".."))
from lib.server import BASE, run  # noqa: E402
from lib.tiff import Answer, encode_pieces  # noqa: E402


def gray(samples):
    r, g, b = (samples[:, :, k].astype(int) for k in range(3))
    return ((299 * r + 587 * g + 114 * b + 500) // 1000).astype(np.uint8)[:, :, None]


def bits(samples):
    return np.packbits(gray(samples)[:, :, 0] >= 128, axis=1)


def smaller(samples, by):
    """Averages of squares of `by` by `by`, to the nearest, a half up."""
    h, w, k = samples.shape
    sums = samples.astype(int).reshape(h // by, by, w // by, by, k).sum(axis=(1, 3))
    return ((2 * sums + by * by) // (2 * by * by)).astype(np.uint8)


def cases():
    """The picture, and for each test a target and the samples or the line that are wanted."""
    squares = np.random.default_rng(3).integers(0, 256, (10, 10, 3), dtype=np.uint8)
    picture = squares.repeat(100, axis=0).repeat(100, axis=1)
    mirrored = picture[:, ::-1]
    part = picture[200:500, 100:700]
    return picture, [
        ("id_basic", "a-b/full/max/0/default.tif", picture), ("id_escaped", "a%2Db/full/max/0/default.tif", picture),
        ("id_error_escapedslash", "a/b/full/max/0/default.tif", "Q3 path"), ("id_error_escapedslash", "a%2Fb/full/max/0/default.tif", "Q4 identifier"),
        ("id_error_random", "f00ba2/full/max/0/default.tif", "Q4 identifier"), ("id_error_unescaped", "[frob]/full/max/0/default.tif", "Q4 identifier"),
        ("region_pixels", "a-b/100,200,600,300/max/0/default.tif", part), ("region_percent", "a-b/pct:10,20,60,30/max/0/default.tif", part),
        ("region_square", "a-b/square/max/0/default.tif", picture), ("region_error_random", "a-b/0a1b/max/0/default.tif", "Q5 region"),
        ("size_wc", "a-b/full/500,/0/default.tif", smaller(picture, 2)), ("size_ch", "a-b/full/,500/0/default.tif", smaller(picture, 2)),
        ("size_wh", "a-b/full/250,250/0/default.tif", smaller(picture, 4)), ("size_bwh", "a-b/full/!500,700/0/default.tif", smaller(picture, 2)),
        ("size_percent", "a-b/full/pct:25/0/default.tif", smaller(picture, 4)), ("size_region", "a-b/100,200,600,300/150,/0/default.tif", smaller(part, 4)),
        ("size_up", "a-b/full/^1100,1100/0/default.tif", "Q13 upscale"), ("size_noup", "a-b/full/1100,1100/0/default.tif", "Q12 larger"),
        ("size_error_random", "a-b/full/0a1b/0/default.tif", "Q6 size"), ("rot_full_basic", "a-b/full/max/90/default.tif", np.rot90(picture, -1)),
        ("rot_full_basic", "a-b/full/max/180/default.tif", np.rot90(picture, 2)), ("rot_full_basic", "a-b/full/max/270/default.tif", np.rot90(picture, 1)),
        ("rot_full_non90", "a-b/full/max/27/default.tif", "Q7 rotation"), ("rot_region_basic", "a-b/100,200,600,300/max/90/default.tif", np.rot90(part, -1)),
        ("rot_region_non90", "a-b/100,200,600,300/max/27/default.tif", "Q7 rotation"), ("rot_mirror", "a-b/full/max/!0/default.tif", mirrored),
        ("rot_mirror_180", "a-b/full/max/!180/default.tif", np.rot90(mirrored, 2)), ("rot_error_random", "a-b/full/max/0a1b/default.tif", "Q7 rotation"),
        ("quality_color", "a-b/full/max/0/color.tif", picture), ("quality_grey", "a-b/full/max/0/gray.tif", gray(picture)),
        ("quality_grey", "a-b/full/max/0/grey.tif", "Q8 quality"), ("quality_bitonal", "a-b/full/max/0/bitonal.tif", bits(picture)),
        ("quality_error_random", "a-b/full/max/0/0a1b.tif", "Q8 quality"), ("format_tif", "a-b/full/max/0/default.tif", picture),
        ("format_jpg", "a-b/full/max/0/default.jpg", "Q9 format"), ("format_error_random", "a-b/full/max/0/default.0a1b", "Q9 format"),
    ]


def judged(body, wanted):
    """Whether a body is what is wanted, and what it is."""
    if isinstance(wanted, str):
        return body == wanted.encode() + b"\n", body[:40].decode(errors="replace").strip()
    rows = np.ascontiguousarray(wanted).tobytes()
    # Bits are packed, eight to a byte of their rows.
    sides, channels, bits = ((1000, 1000), 1, 1) if wanted.ndim == 2 else (wanted.shape[1::-1], wanted.shape[2], 8)
    return body == Answer(*sides, channels, bits, rows).encode(), f"{len(body)} bytes"


def main():
    picture, tests = cases()
    wrong = 0
    with tempfile.NamedTemporaryFile(suffix=".tif") as file:
        file.write(encode_pieces(*picture.shape[1::-1], [picture.tobytes()], channels=3, strip=len(picture)))
        file.flush()
        for test, target, wanted in tests:
            status, body, _ = run(sys.argv[1], ["--base", BASE, "--one", "/iiif/" + target, "a-b=" + file.name])
            right, said = judged(body, wanted)
            wrong += not right or status != 0
            print(f"{test:22} {target:44} {said}{'' if right else '   WRONG'}")
    print(f"{len(tests)} requests, {wrong} wrong")
    return 1 if wrong else 0


if __name__ == "__main__":
    sys.exit(main())
