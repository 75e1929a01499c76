"""Files changed at random: what the program makes of each beside the evaluation of `tiff`."""
import os
import random
import struct
import subprocess
import sys

import bounds
import tiff
from images import Answers

sys.path.insert(0, os.path.join(os.path.dirname(os.path.abspath(__file__)), ".."))
from lib import server as running  # noqa: E402
from lib.tiff import encode_rows  # noqa: E402

SAMPLE = (b"II*\0\x18\0\0\0" + bytes(range(0, 160, 10)) + struct.pack("<H", 9)
          + b"".join(tiff.entry("little", *it) for it in [(256, 3, 1, 4), (257, 3, 1, 4), (258, 3, 1, 8), (259, 3, 1, 1), (262, 3, 1, 1), (273, 4, 1, 8),
                                                         (277, 3, 1, 1), (278, 3, 1, 4), (279, 4, 1, 16)]) + bytes(4))
TAGS = [256, 257, 258, 259, 262, 263, 266, 273, 274, 277, 278, 279, 284, 305, 322, 323, 324, 325, 338, 339]
KINDS = [0, 1, 1, 2, 3, 3, 4, 4, 5, 6, 8, 13, 16, 65535]
EXTREMES = [0, 1, 2, 3, 4, 5, 7, 8, 9, 15, 16, 17, 32, 100, 255, 256, 257, 65535, 65536, 999_999, 1_000_000, 1_000_001, 1_048_576, 1_048_577, 2 ** 30,
            2 ** 31 - 1, 2 ** 31, 2 ** 32 - 2, 2 ** 32 - 1]


def spelled(chance, order, tag, values, data):
    """An entry with these values in a type that holds them, with more values behind them at times; a long list goes behind the data."""
    values = values + [chance.randrange(256) for _ in range(chance.choice([0, 0, 0, 1, 3]))] if tag in (273, 279, 324, 325) else values
    kind = chance.choice([kind for kind, size in tiff.SIZES.items() if max(values) < 256 ** size])
    text = b"".join(value.to_bytes(tiff.SIZES[kind], order) for value in values)
    if len(text) <= 4:
        inside = text.ljust(4, chance.choice([b"\0", b"\xff"]))
    else:
        inside = len(data).to_bytes(4, order)
        data += text
    return tag.to_bytes(2, order) + kind.to_bytes(2, order) + len(values).to_bytes(4, order) + inside


def strange_file(chance):
    """A file that is accepted, and that no writer makes: pieces anywhere and over one another, byte counts above the need, fields in any
    order and type, some twice, some that mean nothing, the directory at odd places."""
    order = chance.choice(["little", "big"])
    channels, bits = chance.choice([(1, 8), (3, 8), (1, 1), (1, 16), (3, 16)])
    width, height, rows, across = chance.randint(1, 40), chance.randint(1, 40), chance.randint(1, 45), chance.randint(1, 45)
    tiled = chance.random() < 0.5
    row = -(-(across if tiled else width) * channels * bits // 8)
    count = -(-height // rows) * (-(-width // across) if tiled else 1)
    need = row * rows
    data = bytearray(b"II*\0" if order == "little" else b"MM\0*") + bytes(4) + bytearray(chance.randbytes(need + chance.randint(0, 300)))
    places = [chance.randint(0, len(data) - need) for _ in range(count)]
    lengths = [need + chance.choice([0, 0, 1, 1000]) for _ in range(count)]
    fields = [(256, [width]), (257, [height]), (258, [bits] * chance.choice([1, channels])), (262, [2 if channels == 3 else chance.randint(0, 1)]), (277, [channels])]
    fields += [(322, [across]), (323, [rows]), (324, places), (325, lengths)] if tiled else [(278, [rows]), (273, places), (279, lengths)]
    fields += [(tag, [1]) for tag in (259, 266, 274, 284, 339) if chance.random() < 0.3]
    entries = [spelled(chance, order, tag, values, data) for tag, values in fields]
    chance.shuffle(entries)
    if chance.random() < 0.3:
        entries.append(spelled(chance, order, chance.choice([256, 259, 262, 322 if tiled else 278]), [chance.randrange(300)], data))
    if chance.random() < 0.3:
        entries.insert(0, (305).to_bytes(2, order) + chance.randbytes(10))
    data += bytes(chance.randint(0, 3))
    data[4:8] = len(data).to_bytes(4, order)
    return data + len(entries).to_bytes(2, order) + b"".join(entries) + bytes(chance.choice([0, 4]))


def picture_file(chance):
    """A small file that is accepted, of any kind, order and cut."""
    kind = chance.random()
    if kind < 0.1:
        return bytearray(SAMPLE)
    if kind < 0.45:
        return strange_file(chance)
    channels, bits = chance.choice([(1, 8), (3, 8), (1, 1), (1, 16), (3, 16)])
    width, height, top = chance.randint(1, 14), chance.randint(1, 14), 2 ** bits - 1
    rows = [[[chance.randint(0, top) for _ in range(channels)] for _ in range(width)] for _ in range(height)]
    tile = chance.choice([0, 0, 3, 5, 8, 16])
    return bytearray(encode_rows(rows, channels, bits, tile, chance.randint(1, height), chance.choice("<>"), channels == 1 and chance.random() < 0.3))


def directory_of(data):
    """Byte order, place and number of the entries."""
    order = "little" if data[:1] == b"I" else "big"
    start = int.from_bytes(data[4:8], order)
    return order, start, int.from_bytes(data[start:start + 2], order)


def put(data, at, size, value, order):
    if at + size <= len(data):
        data[at:at + size] = (value % 256 ** size).to_bytes(size, order)


def change(chance, data):
    """One change in place."""
    order, start, count = directory_of(data)
    at = start + 2 + 12 * chance.randrange(max(count, 1))
    near = chance.choice([len(data), start, 8]) + chance.randint(-3, 3)
    how = chance.choice(["byte", "byte", "directory", "cut", "longer", "tag", "kind", "count", "value", "value", "value", "place", "swap", "start", "number", "head"])
    if how == "byte" and data:
        data[chance.randrange(len(data))] = chance.randrange(256)
    elif how == "directory" and start + 2 < len(data):
        data[chance.randrange(start, len(data))] = chance.choice([0, 1, 2, 3, 4, 8, 16, 127, 128, 255, chance.randrange(256)])
    elif how == "cut":
        del data[chance.choice([chance.randrange(len(data) + 1), max(0, len(data) - chance.randint(0, 16))]):]
    elif how == "longer":
        data += chance.randbytes(chance.choice([1, 2, 12, 100]))
    elif how == "tag":
        put(data, at, 2, chance.choice(TAGS), order)
    elif how == "kind":
        put(data, at + 2, 2, chance.choice(KINDS), order)
    elif how == "count":
        put(data, at + 4, 4, chance.choice(EXTREMES + [near]), order)
    elif how == "value":
        value = chance.choice(EXTREMES + [near, near])
        put(data, at + 8, *((4, value) if chance.random() < 0.5 else (2, value)), order)
    elif how == "place":
        put(data, chance.randrange(len(data) + 1), 4, chance.choice(EXTREMES + [near]), order)
    elif how == "swap":
        other = start + 2 + 12 * chance.randrange(max(count, 1))
        data[at:at + 12], data[other:other + 12] = data[other:other + 12], data[at:at + 12]
    elif how == "start":
        put(data, 4, 4, chance.choice(EXTREMES + [near, start + 12, start - 12]), order)
    elif how == "head":
        put(data, chance.randrange(4), 1, chance.choice([0, 42, 43, 73, 77, chance.randrange(256)]), order)
    elif how == "number":
        put(data, start, 2, chance.choice([0, 1, count - 1, count + 1, 65535, chance.randrange(20)]), order)


def changed(chance):
    data = picture_file(chance)
    for _ in range(chance.choice([0, 1, 1, 1, 1, 2, 3])):
        if len(data) >= 8:
            change(chance, data)
    return bytes(data)


def request(chance, picture):
    """Words of an image of the picture that is small enough to be worked out place by place."""
    w, h = chance.randint(1, min(picture.width, 24)), chance.randint(1, min(picture.height, 24))
    x, y = chance.randint(0, picture.width - w), chance.randint(0, picture.height - h)
    if chance.random() < 0.3 and picture.width * picture.height <= 600:
        return "full/max/0/default.tif"
    size = chance.choice(["max", f"{chance.randint(1, w)},{chance.randint(1, h)}"])
    return f"{x},{y},{w},{h}/{size}/{'!' * (chance.random() < 0.2)}{chance.choice([0, 0, 90, 180, 270])}/{chance.choice(['default', 'gray', 'bitonal'])}.tif"


def refusal_said(program, path):
    """The number that the program refuses a file by, or what it said and did else. Behind the line another one may say what to do."""
    done = subprocess.run([program, "--base", running.BASE, "--one", "/iiif/a/0,0,1,1/max/0/default.tif", "a=" + path], capture_output=True, timeout=60)
    text = done.stderr.decode(errors="replace")
    line, ends, more = text.partition("\n")
    if done.returncode == 2 and done.stdout == b"" and line.startswith("image a: ") and ends and more.count("\n") == bool(more):
        return line[len("image a: "):]
    return f"status {done.returncode}, {len(done.stdout)} bytes, {text.strip()!r}"


def keep(folder, data, what):
    """Keeps a file that something disagreed on, and says where."""
    os.makedirs(folder, exist_ok=True)
    path = os.path.join(folder, f"file{len(os.listdir(folder))}.tif")
    with open(path, "wb") as file:
        file.write(data)
    return f"{path}: {what}"


def asked_batch(args, room, chance, batch, found):
    """A server over files that are to be accepted, each asked for one image; gives its growth over the documented bound."""
    images, texts = [], {}
    for data, picture in batch:
        name = f"f{len(images)}"
        path = os.path.join(room, name + ".tif")
        with open(path, "wb") as file:
            file.write(data)
        images.append(f"{name}={path}")
        texts[name] = (data, picture)
    try:
        server = running.Server(args.program, images, ["--edge", args.edge, "--max", args.max])
    except running.Refused as refused:
        line = refused.args[1]
        name = line.removeprefix("image ").split(":")[0]
        data = texts[name][0] if name in texts else b""
        found.append(keep(args.found, data, f"is to be accepted; the program says {refused.args}"))
        rest = [it for it in batch if it[0] is not data]
        return asked_batch(args, room, chance, rest, found) if data and rest else 0
    answers = Answers(running.BASE, {name: picture for name, (_, picture) in texts.items()}, args.edge, args.max, False)
    with server:
        before = server.resident()
        calls = [(name, f"/iiif/{name}/{request(chance, picture)}") for name, (_, picture) in texts.items()]
        with server.connect() as link:
            for at in range(0, len(calls), 40):
                part = [(name, target, answers.answer(b"GET", target.encode())) for name, target in calls[at:at + 40]]
                link.sendall(b"".join(f"GET {target} HTTP/1.1\r\n\r\n".encode() for _, target, _ in part))
                for name, target, wanted in part:
                    got = running.read_exactly(link, len(wanted))
                    if got != wanted:
                        found.append(keep(args.found, texts[name][0], f"{target}: wanted {wanted[:60]!r} and {len(wanted)} bytes, got {got[:60]!r}"))
                        return 0
        if not server.alive():
            found.append(f"the server ended: {server.process.returncode}, {server.line()}")
            return 0
        pieces = sum(len(picture.offsets) for _, picture in batch)
        return server.peak() - before - bounds.memory_bound(3, args.max, args.edge, pieces, True) - bounds.caches_of(args)


def run(args, room):
    """Counts of what was accepted and refused, and the disagreements."""
    chance, found, batch = random.Random(args.seed), [], []
    counts, above = {}, 0
    path = os.path.join(room, "refused.tif")
    for n in range(args.files):
        data = changed(chance)
        judged = tiff.judge(data)
        if isinstance(judged, tiff.Picture):
            counts["accepted"] = counts.get("accepted", 0) + 1
            batch.append((data, judged))
        else:
            counts[judged.number] = counts.get(judged.number, 0) + 1
            with open(path, "wb") as file:
                file.write(data)
            said = refusal_said(args.program, path)
            if said != str(judged.number):
                found.append(keep(args.found, data, f"is to be refused as {judged.number} (field {judged.tag}); the program: {said}"))
        if len(batch) == args.batch or (batch and n + 1 == args.files):
            above = max(above, asked_batch(args, room, chance, batch, found))
            batch = []
    if above > 0:
        found.append(f"resident memory grew {above} bytes above the bound")
    said = ", ".join(f"{count} {'accepted' if what == 'accepted' else f'refused as {what}'}" for what, count in sorted(counts.items(), key=str))
    return f"{args.files} changed files ({said})", found
