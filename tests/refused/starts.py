"""A start by `--one`, of which growths of memory are refused one by one, and what may come of it."""
import os

from parts import Part
from streams import count, files, running, tiff


def edited(at, new):
    data = bytearray(files.SAMPLE)
    data[at:at + len(new)] = new
    return bytes(data)


def odd_files():
    """The sample, and the sample cut and odd, by name."""
    longer = bytearray(files.SAMPLE)
    longer[24:24] = b"\0"
    longer[4] = 25
    longer[131] = 17
    return {"sample": files.SAMPLE, "cut to 23 bytes": files.SAMPLE[:23], "cut to 133 bytes": files.SAMPLE[:133],
            "17 bytes in the strip": bytes(longer), "compression 5": edited(70, b"\5"), "no photometric": edited(74, b"\7"),
            "2 rows a strip": edited(118, b"\2")}


TARGETS = ["full/max/0/default.tif", "full/2,/0/default.tif", "full/3,3/!90/bitonal.tif", "0,0,2,2/max/0/default.tif", "info.json",
           "zz/0/0/x"]


def parts(program):
    """A case for each of the odd files, and for each target of the sample."""
    return [part_of(program, name, data, target) for name, data in odd_files().items()
            for target in (TARGETS if name == "sample" else TARGETS[:1])]


def part_of(program, name, data, target):
    """The starts with one file and one target."""
    def run(control, room):
        path, words = os.path.join(room, "odd.tif"), "/iiif/a/" + target
        with open(path, "wb") as file:
            file.write(data)
        control.refuse(0)
        own = one(program, control.env, words, path)
        kinds, wrong = each(program, control, words, path, own)
        if (own[0] == 0) != isinstance(tiff.judge(data), tiff.Picture):
            wrong.append(f"with ample memory: {own}")
        return kinds, wrong

    return Part("starts", f"start, {name}, {target}", run)


def one(program, env, words, path, options=()):
    """The status of a start, and what it wrote to its two outputs."""
    return running.run(program, ["--base", running.BASE, "--edge", "2", *map(str, options), "--one", words, "a=" + path], env=env)


def start_kind(own, got):
    """What a refused start came to, or nothing where it isn't allowed."""
    if got == own:
        return "own"
    if got == (0, b"L2 memory\n", b"") and own[0] == 0:
        return "L2"
    if got == (1, b"", b"run: memory\n"):
        return "run: memory"
    if got[:2] == (2, b"") and got[2].split(b"\n")[0] == b"image a: 8":
        return "image a: 8"
    if got[0] == 1 and got[2] == b"run: memory\n" and own[1].startswith(got[1]):
        return "cut"
    return None


def each(program, control, words, path, own, options=()):
    """Each growth of such a start refused, where `own` is its answer: what came, and what is wrong."""
    kinds, wrong = {}, []
    for n in control.growths():
        control.refuse(n)
        got = one(program, control.env, words, path, options)
        if not control.refused():
            break
        kind = start_kind(own, got)
        count(kinds, kind or "OTHER")
        if kind is None:
            wrong.append(f"growth {n}: status {got[0]}, {got[1][:40]!r}, {got[2][:80]!r}")
    control.refuse(0)
    return kinds, wrong
