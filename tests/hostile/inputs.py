"""Random inputs of connections: heads in and out of the grammar, pipelined, cut anywhere, in pieces."""
import os
import random
import sys

import bounds
import heads
import targets
from images import Answers

sys.path.insert(0, os.path.join(os.path.dirname(os.path.abspath(__file__)), ".."))
from lib import server as running  # noqa: E402

METHODS = [b"GET", b"GET", b"GET", b"HEAD", b"POST", b"PUT", b"X" * 30, b"G T", b"", b"G\x00T", "GÉT".encode()]
VERSIONS = [b"HTTP/1.1"] * 8 + [b"HTTP/1.0", b"HTTP/1.0", b"HTTP/2.0", b"HTTP/1.2", b"http/1.1", b"HTTP/1.1 ", b"", b"HTTP/1"]
NAMES = [b"Host", b"X", b"Accept", b"Content-Length", b"content-length", b"Transfer-Encoding", b"TRANSFER-encoding", b"Connection", b"connection",
         b"X Y", b"", b"X:", b" X", b"X\x80", b"!#$%&'*+-.^_`|~09AZ"]
VALUES = [b"localhost", b"", b"0", b"0", b" 0 ", b"5", b"00", b"+0", b"-1", b"0, 0", b"chunked", b"identity", b"close", b"Close", b"keep-alive, close",
          b"keep-alive", b"closed", b" \t close\t", b"a\tb", b"\xff\xfe", b"x\x00y", b"x\x7fy", b"x\ry"]
ENDS = [b"\r\n"] * 12 + [b"\n", b"\n", b"\r", b"\n\r", b"\r\r\n"]


def field(chance):
    gap = chance.choice([b": ", b":", b":\t ", b" : ", b""]) if chance.random() < 0.2 else b": "
    plain = chance.random() < 0.6
    name = chance.choice([b"Host", b"X", b"Accept-Encoding"]) if plain else chance.choice(NAMES)
    return name + gap + (chance.choice([b"localhost", b"a, b", b"", b"\xc3\xbc"]) if plain else chance.choice(VALUES))


def right_head(chance, shown):
    method, target = targets.call(chance, shown)
    fields = b"".join(b"X%d: %d\r\n" % (n, n) for n in range(chance.choice([0, 0, 1, 2, 5])))
    last = chance.choice([b""] * 6 + [b"Connection: close\r\n", b"Content-Length: 0\r\n"])
    return method + b" " + target + b" HTTP/1.1\r\n" + fields + last + b"\r\n"


def sized_head(chance):
    """A head of about as many bytes or fields as are taken."""
    start = chance.choice([b"", b"", b"\r\n", b"\n\n"]) + b"GET /iiif/a HTTP/1.1\r\n"
    if chance.random() < 0.5:
        many = b"".join(b"%d:%d\r\n" % (n, n) for n in range(chance.randint(62, 67)))
        return start + many + chance.choice([b"\r\n", b"\n", b"", b"x"])
    total = chance.choice([8190, 8191, 8192, 8193, 8194, 9000, 20000])
    if chance.random() < 0.3:
        return b"GET /" + b"a" * (total - 18) + b" HTTP/1.1\r\n\r\n"
    return start + b"X: " + b"v" * (total - len(start) - 7) + chance.choice([b"\r\n\r\n", b"\n\n", b""])


def any_head(chance, shown):
    kind = chance.random()
    if kind < 0.45:
        return right_head(chance, shown)
    if kind < 0.52:
        return sized_head(chance)
    target = chance.choice([b"/iiif/a", b"/iiif/a", b"/iiif/a/full/max/0/default.tif", b"*", b"", b"/\xff", b"/\xc3", b"/iiif/\xc3\xbc", b"/a b", b"/\x01", b"/\x7f"])
    end = chance.choice(ENDS)
    blank = b"".join(chance.choice(ENDS) for _ in range(chance.choice([0, 0, 0, 1, 3])))
    head = blank + chance.choice(METHODS) + chance.choice([b" "] * 9 + [b"  ", b"\t"]) + target + b" " + chance.choice(VERSIONS) + end
    head += b"".join(field(chance) + chance.choice(ENDS) for _ in range(chance.choice([0, 1, 1, 2, 4])))
    return head + chance.choice([b"\r\n"] * 8 + [b"\n", b"\r", b""])


def disturbed(chance, data):
    data = bytearray(data)
    for _ in range(chance.choice([1, 1, 3])):
        at = chance.randrange(len(data) + 1)
        if chance.random() < 0.5 and at < len(data):
            data[at] = chance.choice([0, 9, 10, 13, 32, 58, 127, 128, 255, chance.randrange(256)])
        elif chance.random() < 0.5:
            del data[at:at + 1]
        else:
            data[at:at] = chance.choice([b"\r", b"\n", b"\r\n", b" ", b":", b"\0", b"\xe2\x82"])
    return bytes(data)


def one_input(chance, shown):
    kind = chance.random()
    if kind < 0.05:
        return chance.randbytes(chance.randint(0, 200))
    count = chance.choice([1, 1, 2, 3, 6])
    data = b"".join(any_head(chance, shown) for _ in range(count))
    if kind < 0.3:
        data = disturbed(chance, data)
    if kind > 0.6:
        data = data[:chance.randrange(len(data) + 1)]
    return data


def pieces_of(chance, data):
    """The input whole, or cut in two or three."""
    places = sorted(chance.randrange(len(data) + 1) for _ in range(chance.choice([0, 0, 0, 1, 2])))
    return [data[a:b] for a, b in zip([0] + places, places + [len(data)])]


def each_cut(shown):
    """Three requests and then the end, cut after each byte; a head that closes, one of HTTP/1.0, one with a body, one of bare line feeds."""
    three = b"".join(line + b"\r\nHost: localhost\r\n\r\n" for line in
                     [b"GET /iiif/a HTTP/1.1", b"POST /iiif/a HTTP/1.1", b"HEAD /iiif/a/full/max/0/default.tif HTTP/1.1"])
    others = [b"GET /iiif/a HTTP/1.0\r\n\r\nGET /iiif/a HTTP/1.1\r\n\r\n", b"GET /iiif/a HTTP/1.1\nConnection: x, CLOSE\n\nGET /iiif/a HTTP/1.1\n\n",
              b"GET /iiif/a HTTP/1.1\r\nContent-Length: 5\r\n\r\nhello", b"GET /iiif/a HTTP/1.1\r\nTransfer-Encoding: chunked\r\n\r\n0\r\n\r\n",
              "GET /iiif/ü€ HTTP/1.1\r\n\r\n".encode(), b"GET /iiif/\xff HTTP/1.1\r\n\r\n"]
    return [text[:n] for text in [three, *others] for n in range(len(text) + 1)]


def limits():
    """Inputs at the limits of bytes, fields and calls."""
    head = b"GET /iiif/a HTTP/1.1\r\n"
    fields = [head + b"".join(b"X: %d\r\n" % n for n in range(count)) + b"\r\n" for count in (64, 65)]
    lengths = [head + b"X: " + b"v" * (count - len(head) - 7) + b"\r\n\r\n" for count in (8192, 8193)]
    return fields + lengths + [head + b"X: " + b"v" * 8170, (head + b"\r\n") * 1001, head + b"X: " + b"v" * 60000]


def run(args, room):
    """Every cut first, then random ones up to the count."""
    chance, found = random.Random(args.seed), []
    names, shown = targets.pictures(chance, room)
    answers = Answers(running.BASE, shown, args.edge, args.max, False)
    texts = limits() + each_cut(shown)
    chance.shuffle(texts)
    texts = texts[:args.inputs]
    fixed, either = len(texts), 0
    with running.Server(args.program, names, ["--edge", args.edge, "--max", args.max]) as server:
        before, files = server.resident(), server.files()
        for n in range(args.inputs):
            data = texts[n] if n < fixed else one_input(chance, shown)
            allowed = heads.outputs(data, answers)
            either += len(allowed) - 1
            got, ended = server.exchange(pieces_of(chance, data))
            if not ended or got not in allowed:
                found.append(f"{data[:300]!r} ({len(data)} bytes): wanted {[it[:200] for it in allowed]}, got {got[:200]!r} ({len(got)} bytes), {'' if ended else 'not '}closed")
        grown = bounds.left_behind(args, server, before, files, found)
    return f"{args.inputs} inputs ({fixed} cuts and limits, {either} with two allowed answers){bounds.grown_by(grown)}", found
