"""Random targets over connections that stay, each answer compared whole with the evaluation of `images`."""
import os
import random
import sys

import bounds
import tiff
from images import Answers, escaped

sys.path.insert(0, os.path.join(os.path.dirname(os.path.abspath(__file__)), ".."))
from lib import server as running  # noqa: E402
from lib.tiff import encode_rows  # noqa: E402

NAMES = ["a", "a/b", "ü€", "%41", "full", "info.json", "a b?c#d", "x" * 1024]
PIPELINED = 40


def pictures(chance, room):
    """A file for each name: its words for the command line, and the picture that it shows."""
    words, shown = [], {}
    for n, name in enumerate(NAMES):
        channels, bits = [(1, 8), (3, 8), (1, 1), (1, 16), (3, 16), (1, 8), (3, 8), (1, 8)][n]
        width, height = [(4, 4), (13, 9), (20, 3), (7, 11), (5, 6), (1000, 1), (1, 30), (9, 9)][n]
        top = 2 ** bits - 1
        rows = [[[chance.randint(0, top) for _ in range(channels)] for _ in range(width)] for _ in range(height)]
        data = encode_rows(rows, channels, bits, chance.choice([0, 4, 16]), chance.randint(1, height), chance.choice("<>"), channels == 1 and n % 2)
        path = os.path.join(room, f"target{n}.tif")
        with open(path, "wb") as file:
            file.write(data)
        words.append(f"{name}={path}")
        shown[name] = tiff.judge(data)
        assert isinstance(shown[name], tiff.Picture)
    return words, shown


def number(chance, side):
    """A number in digits, mostly within a side."""
    n = chance.choice([0, 1, side - 1, side, side + 1, chance.randint(0, side), chance.randint(1, side), 10 ** 9 - 1, 10 ** 9])
    return "0" * chance.choice([0, 0, 0, 0, 1, 3]) + str(max(0, n))


def percent(chance):
    whole = chance.choice(["0", "1", "10", "25", "33", "50", "99", "100", "101", str(chance.randint(0, 120)), "999999999"])
    return whole + chance.choice(["", "", "", ".0", ".5", ".3333333333", ".33333333333", ".", ".9999999999"])


def region(chance, picture):
    w, h = picture.width, picture.height
    x, y = chance.randint(0, w - 1), chance.randint(0, h - 1)
    return chance.choice([
        "full", "full", "square", f"{x},{y},{chance.randint(1, w)},{chance.randint(1, h)}", f"{x},{y},{w - x},{h - y}",
        ",".join(number(chance, side) for side in (w, h, w, h)), "pct:" + ",".join(percent(chance) for _ in range(4)),
        f"pct:{chance.randint(0, 99)},{chance.randint(0, 99)},{chance.randint(1, 60)},{chance.randint(1, 60)}"])


def size(chance, picture):
    w, h = min(picture.width, 70), min(picture.height, 70)
    c, d = chance.randint(1, w), chance.randint(1, h)
    return chance.choice(["", "", "", "^", "%5E", "%5e"]) + chance.choice([
        "max", "max", f"{c},", f",{d}", f"{c},{d}", f"!{c},{d}", f"pct:{chance.randint(1, 100)}", f"pct:{percent(chance)}", f"{number(chance, w)},",
        f",{number(chance, h)}", f"{number(chance, w)},{number(chance, h)}", f"!{number(chance, w)},{number(chance, h)}", "full"])


def rotation(chance):
    return chance.choice(["", "", "!", "!!"]) + chance.choice(["0", "0", "90", "180", "270", "360", "90.0", "090", "0.0000000000", "45", "361", "90.5", "-90", "450", ""])


def words(chance, picture):
    """Four words that spell a request, mostly."""
    quality = chance.choice(["default", "default", "color", "gray", "bitonal", "grey", "Default", ""])
    form = chance.choice([".tif", ".tif", ".tif", ".tif", ".jpg", ".TIF", "", ".tif.tif", "."])
    return [region(chance, picture), size(chance, picture), rotation(chance), quality + form]


def right_words(chance, picture):
    """Four words of an image of the picture, scaled down or not."""
    w, h = chance.randint(1, min(picture.width, 60)), chance.randint(1, min(picture.height, 60))
    x, y = chance.randint(0, picture.width - w), chance.randint(0, picture.height - h)
    c, d = chance.randint(1, w), chance.randint(1, h)
    part = chance.choice([f"{x},{y},{w},{h}", f"{x},{y},{w},{h}", "square", "full"])
    sizes = ["max", f"{c},{d}", f"{c},{d}", f"!{c},{d}", "^max", f"^{2 * w},{d}", f"%5E{w + c},{h + d}"]
    turn = chance.choice(["", "!"]) + chance.choice(["0", "0", "90", "180", "270", "360", "90.0", "0270"])
    return [part, chance.choice(sizes), turn, chance.choice(["default", "color", "gray", "bitonal"]) + ".tif"]


def disturbed(chance, text):
    """A text with a byte or two changed, cut out, put in or escaped."""
    data = bytearray(text)
    for _ in range(chance.choice([1, 1, 2, 4])):
        at = chance.randrange(len(data) + 1)
        how = chance.randrange(6)
        if how == 0 and at < len(data):
            data[at] = chance.randrange(0x21, 0x7f)
        elif how == 1 and at < len(data):
            del data[at]
        elif how == 2:
            data[at:at] = chance.choice([b"/", b"%", b"%2", b"%2F", b"%zz", b"?", b"%00", b"%FF", b"%C3%BC", "ü".encode(), b".", b",", b"!", b"^", b"%25", b"//", b"9"])
        elif how == 3 and at < len(data):
            data[at:at + 1] = b"%%%02x" % data[at]
        elif how == 4 and at < len(data):
            data[at:at + 1] = b"%%%02X" % data[at]
        else:
            data[at:at] = bytes([chance.randrange(0x21, 0x7f)])
    return bytes(data)


def garbage(chance):
    text = "".join(chance.choice("/%?#.,:!^0123456789abcdefmaxpctinfo~ü€\\\"<>{}|`") for _ in range(chance.randint(1, 60))).encode()
    return chance.choice([b"", b"/", b"/iiif", b"/iiif/", b"/iiif/a/", b"*", b"http://localhost/iiif/a"]) + text


def is_target(target):
    """Whether the bytes can stand as a target in a request line; others are random heads, which `inputs` tries."""
    try:
        return bool(target) and all(b > 32 and b != 127 for b in target) and target.decode("utf-8") is not None
    except UnicodeDecodeError:
        return False


def target(chance, shown):
    name = chance.choice(NAMES)
    picture = shown[name]
    kind = chance.random()
    base = b"/iiif/" + (escaped(name) if chance.random() < 0.9 else name).encode()
    if kind < 0.35:
        it = base + b"/" + "/".join(right_words(chance, picture)).encode()
    elif kind < 0.6:
        it = base + b"/" + "/".join(words(chance, picture)).encode()
    elif kind < 0.66:
        it = base + chance.choice([b"", b"/", b"/info.json", b"/info.json?x=/", b"?full/max", b"/inf%6f.json", b"/info.jso"])
    elif kind < 0.92:
        it = disturbed(chance, base + b"/" + "/".join(right_words(chance, picture)).encode())
    else:
        it = garbage(chance)
    return it + chance.choice([b"", b"", b"", b"?", b"?a=b/c"])


def call(chance, shown):
    method = chance.choice([b"GET"] * 80 + [b"HEAD"] * 12 + [b"POST", b"get", b"OPTIONS", b"G~T"])
    while True:
        it = target(chance, shown)
        if is_target(it) and len(it) < 8000:
            return method, it


def ask(server, calls, answers, found):
    """Sends calls on one connection, and compares what comes. After a disagreement the rest is asked on another one."""
    while calls:
        with server.connect() as link:
            link.sendall(b"".join(method + b" " + it + b" HTTP/1.1\r\n\r\n" for method, it in calls))
            for n, (method, it) in enumerate(calls):
                wanted = answers.answer(method, it)
                got = running.read_exactly(link, len(wanted))
                if got != wanted:
                    found.append(f"{method.decode()} {it!r} edge {answers.edge} upscale {answers.upscale}: wanted {wanted[:200]!r} .. ({len(wanted)} bytes), got {got[:200]!r}")
                    calls = calls[n + 1:]
                    break
            else:
                return


def run(args, room):
    """Counts by status, and the disagreements."""
    chance, found, sent, above, growth = random.Random(args.seed), [], 0, 0, 0
    rounds = max(1, min(8, args.targets // 500))
    may_upscale = "--upscale" in running.list_options(args.program)
    counts = {}
    for n in range(rounds):
        names, shown = pictures(chance, room)
        edge, upscale = min(args.max, chance.choice([1, 2, 3, 5, args.edge, 16, 64])), may_upscale and n % 2 == 1
        answers = Answers(running.BASE, shown, edge, args.max, upscale)
        options = ["--edge", edge, "--max", args.max] + ["--upscale"] * upscale
        with running.Server(args.program, names, options) as server:
            before = server.resident()
            share = args.targets // rounds + (n < args.targets % rounds)
            for at in range(0, share, PIPELINED):
                calls = [call(chance, shown) for _ in range(min(PIPELINED, share - at))]
                for method, it in calls:
                    status = answers.parts(method, it)[0] if args.targets <= 5000 else "asked"
                    counts[status] = counts.get(status, 0) + 1
                ask(server, calls, answers, found)
                sent += len(calls)
            if not server.alive():
                found.append(f"the server ended: {server.process.returncode}, {server.line()}")
                continue
            grown = server.peak() - before
            growth = max(growth, grown)
            longer = 1000 if upscale else None
            above = max(above, grown - bounds.memory_bound(3, args.max, edge, 0, True, longer) - bounds.caches_of(args))
    if above > 0:
        found.append(f"resident memory grew {above} bytes above the bound")
    said = ", ".join(f"{status} {count}" for status, count in sorted(counts.items(), key=str))
    return f"{sent} targets ({said}), memory grew by {growth // 1024} KiB at most", found
