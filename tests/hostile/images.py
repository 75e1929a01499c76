"""What a target is answered by the IIIF Image API 3.0 and the choices of docs/operate/CONFORMANCE.md: the whole answer, head and body.

`Answers` holds pictures by name and the server's settings; `answer` gives the bytes of one answer. Averages are exact, place by place
over the whole region, by the evaluation that tests/interop has; nothing here knows of tiles, blocks or bands.
"""
import json
import os
import re
import sys

TESTS = os.path.join(os.path.dirname(os.path.abspath(__file__)), "..")
sys.path[:0] = [TESTS, os.path.join(TESTS, "interop")]
from lib.tiff import Answer  # noqa: E402
from requests import scaled, strip_of, turned  # noqa: E402

LINES = {1: "Q1 head", 2: "Q2 method", 3: "Q3 path", 4: "Q4 identifier", 5: "Q5 region", 6: "Q6 size", 7: "Q7 rotation", 8: "Q8 quality",
         9: "Q9 format", 10: "Q10 empty", 11: "Q11 zero", 12: "Q12 larger", 13: "Q13 upscale", 14: "Q14 limit"}
STATUSES = {2: 405, 4: 404, 13: 501}
REASONS = {200: "OK", 303: "See Other", 400: "Bad Request", 404: "Not Found", 405: "Method Not Allowed", 500: "Internal Server Error", 501: "Not Implemented"}
FEATURES = ["baseUriRedirect", "canonicalLinkHeader", "cors", "mirroring", "regionByPct", "regionByPx", "regionSquare", "rotationBy90s",
            "sizeByConfinedWh", "sizeByH", "sizeByPct", "sizeByW", "sizeByWh"]
WHOLE, DECIMAL = r"([0-9]{1,9})", r"([0-9]{1,9}(?:\.[0-9]{1,10})?)"


class Refused(Exception):
    """The first refusal that applies, by its number."""

    @property
    def number(self):
        return self.args[0]


def ratio(text):
    """A decimal as a fraction: its digits, and a power of ten."""
    whole, _, part = text.partition(".")
    return int(whole + part), 10 ** len(part)


def nearest(p, q):
    return (2 * p + q) // (2 * q)


def decoded(segment):
    """A segment without its escapes, as text."""
    out, at = bytearray(), 0
    while at < len(segment):
        if segment[at] != 37:
            out.append(segment[at])
            at += 1
            continue
        digits = segment[at + 1:at + 3]
        if not re.fullmatch(rb"[0-9A-Fa-f]{2}", digits):
            raise Refused(3)
        out.append(int(digits, 16))
        at += 3
    try:
        return bytes(out).decode("utf-8")
    except UnicodeDecodeError:
        raise Refused(3) from None


def escaped(name):
    return "".join(chr(b) if re.match(rb"[A-Za-z0-9._~-]", bytes([b])) else f"%{b:02X}" for b in name.encode())


def segments_of(prefix, target):
    path = target.split(b"?", 1)[0]
    if not path.startswith(prefix + b"/"):
        raise Refused(3)
    raw = path[len(prefix) + 1:].split(b"/")
    if len(raw) not in (1, 2, 5):
        raise Refused(3)
    segments = [decoded(segment) for segment in raw]
    if not segments[0] or (len(segments) == 2 and segments[1] != "info.json"):
        raise Refused(3)
    return segments


def spelled(words):
    """The words as a request, each in turn, or the refusal of the first that spells nothing."""
    region, size, rotation, last = words
    quality, _, form = last.partition(".")
    if region in ("full", "square"):
        area = (region,)
    elif found := re.fullmatch(",".join([WHOLE] * 4), region):
        area = ("px", *(int(n) for n in found.groups()))
    elif found := re.fullmatch("pct:" + ",".join([DECIMAL] * 4), region):
        area = ("pct", *(ratio(n) for n in found.groups()))
    else:
        raise Refused(5)
    up = size.startswith("^")
    text = size.removeprefix("^")
    if text == "max":
        extent = ("max",)
    elif found := re.fullmatch(WHOLE + ",", text):
        extent = ("w", int(found[1]))
    elif found := re.fullmatch("," + WHOLE, text):
        extent = ("h", int(found[1]))
    elif found := re.fullmatch("pct:" + DECIMAL, text):
        extent = ("pct", ratio(found[1]))
    elif found := re.fullmatch(WHOLE + "," + WHOLE, text):
        extent = ("wh", int(found[1]), int(found[2]))
    elif found := re.fullmatch("!" + WHOLE + "," + WHOLE, text):
        extent = ("fit", int(found[1]), int(found[2]))
    else:
        raise Refused(6)
    found = re.fullmatch("(!?)" + DECIMAL, rotation)
    if not found:
        raise Refused(7)
    p, q = ratio(found[2])
    if p % q or p // q not in (0, 90, 180, 270, 360):
        raise Refused(7)
    turn = (found[1] == "!", p // q // 90 % 4)
    if quality not in ("color", "gray", "bitonal", "default"):
        raise Refused(8)
    if form != "tif":
        raise Refused(9)
    return area, (up, extent), turn, quality


def rectangle(area, width, height):
    if area[0] == "full":
        x, y, w, h = 0, 0, width, height
    elif area[0] == "square":
        side = min(width, height)
        x, y, w, h = (width - side) // 2, (height - side) // 2, side, side
    elif area[0] == "px":
        x, y, w, h = area[1:]
    else:
        x, y, w, h = (nearest(side * p, 100 * q) for side, (p, q) in zip((width, height, width, height), area[1:]))
    if w == 0 or h == 0 or x >= width or y >= height:
        raise Refused(10)
    return x, y, min(w, width - x), min(h, height - y)


def fit(a, b, p, q):
    return (p, nearest(b * p, a)) if p * b <= q * a else (nearest(a * q, b), q)


def greatest(a, b, limit):
    """What `max` gives."""
    return (a, b) if a <= limit and b <= limit else fit(a, b, limit, limit)


def sides(size, a, b, limit, upscale):
    up, extent = size
    form = extent[0]
    if form == "max":
        c, d = fit(a, b, limit, limit) if up else greatest(a, b, limit)
    elif form == "w":
        c, d = extent[1], nearest(b * extent[1], a)
    elif form == "h":
        c, d = nearest(a * extent[1], b), extent[1]
    elif form == "pct":
        p, q = extent[1]
        c, d = nearest(a * p, 100 * q), nearest(b * p, 100 * q)
    elif form == "wh":
        c, d = extent[1:]
    else:
        w, h = min(extent[1], limit), min(extent[2], limit)
        c, d = fit(a, b, w, h) if up else fit(a, b, min(w, a), min(h, b))
    if c == 0 or d == 0:
        raise Refused(11)
    larger = c > a or d > b
    if not up and (larger or (form == "pct" and extent[1][0] > 100 * extent[1][1])):
        raise Refused(12)
    if up and larger and not upscale:
        raise Refused(13)
    if c > limit or d > limit:
        raise Refused(14)
    return c, d


def canonical(rect, size, turn, quality, picture, limit):
    x, y, a, b = rect
    c, d = size
    region = "full" if (a, b) == (picture.width, picture.height) else f"{x},{y},{a},{b}"
    if c > a or d > b:
        extent = "%5Emax" if size == fit(a, b, limit, limit) else f"%5E{c},{d}"
    else:
        extent = "max" if size == greatest(a, b, limit) else f"{c},{d}"
    plain = quality in ("default", "color") or (quality == "gray" and picture.channels == 1)
    return f"{region}/{extent}/{'!' * turn[0]}{90 * turn[1]}/{'default' if plain else quality}.tif"


def file_of(rows, quality, picture):
    """The file that is answered."""
    bits = 1 if quality == "bitonal" else 16 if picture.bits == 16 else 8
    channels = 3 if picture.channels == 3 and quality in ("default", "color") else 1
    return Answer(len(rows[0]), len(rows), channels, bits, strip_of(rows, quality, picture.bits)).encode()


class Answers:
    """The answers of a server with these pictures and settings."""

    def __init__(self, base, pictures, edge, limit, upscale):
        self.base, self.pictures, self.edge, self.limit, self.upscale = base, pictures, edge, limit, upscale
        self.prefix = re.sub(r"^https?://[^/]*", "", base).encode()

    def image(self, picture, words):
        """The canonical form and the body of an image."""
        area, size, turn, quality = spelled(words)
        rect = rectangle(area, picture.width, picture.height)
        result = sides(size, rect[2], rect[3], self.limit, self.upscale)
        rows = turned(scaled(picture.rows(*rect), *result, picture.channels), *turn)
        return canonical(rect, result, turn, quality, picture, self.limit), file_of(rows, quality, picture)

    def information(self, name, picture):
        factors = [1]
        while self.edge * factors[-1] < max(picture.width, picture.height):
            factors.append(2 * factors[-1])
        text = {"@context": "http://iiif.io/api/image/3/context.json", "extraFeatures": FEATURES + ["sizeUpscaling"] * self.upscale, "extraFormats": ["tif"],
                "extraQualities": ["bitonal", "color", "gray"], "height": picture.height, "id": f"{self.base}/{escaped(name)}", "maxHeight": self.limit,
                "maxWidth": self.limit, "preferredFormats": ["tif"], "profile": "level0", "protocol": "http://iiif.io/api/image",
                "tiles": [{"height": self.edge, "scaleFactors": factors, "width": self.edge}], "type": "ImageService3", "width": picture.width}
        return json.dumps(text, sort_keys=True, separators=(",", ":"), ensure_ascii=False).encode()

    def parts(self, method, target):
        """Status, content type, a further field and the body of the answer to a call."""
        try:
            if method not in (b"GET", b"HEAD"):
                raise Refused(2)
            segments = segments_of(self.prefix, target)
            name, picture = segments[0], self.pictures.get(segments[0])
            if picture is None:
                raise Refused(4)
            if len(segments) == 1:
                return 303, None, ("Location", f"{self.base}/{escaped(name)}/info.json"), b""
            if len(segments) == 2:
                return 200, 'application/ld+json;profile="http://iiif.io/api/image/3/context.json"', None, self.information(name, picture)
            form, body = self.image(picture, segments[1:])
            return 200, "image/tiff", ("Link", f'<{self.base}/{escaped(name)}/{form}>;rel="canonical"'), body
        except Refused as refused:
            number = refused.number
            return STATUSES.get(number, 400), "text/plain", ("Allow", "GET, HEAD") if number == 2 else None, LINES[number].encode() + b"\n"

    def answer(self, method, target, close=False):
        status, kind, further, body = self.parts(method, target)
        return whole(status, kind, further, body, close, method != b"HEAD")


def whole(status, kind, further, body, close, with_body=True):
    """An answer's bytes."""
    fields = [("Content-Type", kind)] if kind else []
    fields += [("Access-Control-Allow-Origin", "*")] + ([further] if further else []) + [("Content-Length", len(body))]
    fields += [("Connection", "close")] if close else []
    head = f"HTTP/1.1 {status} {REASONS[status]}\r\n" + "".join(f"{name}: {value}\r\n" for name, value in fields) + "\r\n"
    return head.encode() + (body if with_body else b"")


BAD_HEAD = whole(400, "text/plain", None, b"Q1 head\n", True)
