"""The machine over events, evaluated from its definitions (crates/iiif_machine/specs, iiif_tables/specs) in Python.

A key is a tuple: ("tile", name, edge, tx, ty), or ("sum", name, edge, (x, y, w, h), (w, h), level, bx, by). A picture is
(width, height, channels, top, samples), sums are (rect, channels, sums).
"""
import hashlib
import struct

WIDE, LOCAL = "wide", "local"


# Pictures

def sample(p, x, y, k):
    place = (y * p[0] + x) * p[2] + k
    return p[4][place] if place < len(p[4]) else 0


def picture(w, h, channels, top, f):
    return (w, h, channels, top, tuple(f(x, y, k) for y in range(h) for x in range(w) for k in range(channels)))


def crop(p, r):
    return picture(r[2], r[3], p[2], p[3], lambda x, y, k: sample(p, r[0] + x, r[1] + y, k))


def overlap(p, q, r, s):
    return max(0, min(q, s) - max(p, r))


def weight(i, x, a, c):
    return overlap(i * a, (i + 1) * a, x * c, (x + 1) * c)


def area_sum(region, size, part, f, i, j):
    total = 0
    for y in range(part[1], part[1] + part[3]):
        down = weight(j, y, region[1], size[1])
        if down:
            for x in range(part[0], part[0] + part[2]):
                across = weight(i, x, region[0], size[0])
                if across:
                    total += across * down * f(x, y)
    return total


def average(region, s):
    area = region[0] * region[1]
    return (2 * s + area) // (2 * area)


def scale(p, size):
    region = (p[0], p[1])
    return picture(size[0], size[1], p[2], p[3], lambda i, j, k: average(
        region, area_sum(region, size, (0, 0, p[0], p[1]), lambda x, y: sample(p, x, y, k), i, j)))


def turn(p, by):
    mirror, quarters = by
    if mirror:
        q = p
        p = picture(q[0], q[1], q[2], q[3], lambda x, y, k: sample(q, q[0] - 1 - x, y, k))
    for _ in range(quarters):
        p = quarter(p)
    return p


def quarter(q):
    return picture(q[1], q[0], q[2], q[3], lambda x, y, k: sample(q, y, q[1] - 1 - x, k))


def gray_at(p, x, y):
    if p[2] == 3:
        r, g, b = (sample(p, x, y, k) for k in range(3))
        return (299 * r + 587 * g + 114 * b + 500) // 1000
    return sample(p, x, y, 0)


def in_quality(p, to):
    if to == "gray":
        return picture(p[0], p[1], 1, p[3], lambda x, y, k: gray_at(p, x, y))
    if to == "bitonal":
        return picture(p[0], p[1], 1, 255, lambda x, y, k: 0 if gray_at(p, x, y) < (p[3] + 1) // 2 else 255)
    return p


# Requests: (region, size, rotation, quality), as their texts

def rounded(p, q):
    return (2 * p + q) // (2 * q)


def region_of(text, w, h):
    if text == "full":
        x, y, a, b = 0, 0, w, h
    elif text == "square":
        side = min(w, h)
        x, y, a, b = (w - side) // 2, (h - side) // 2, side, side
    else:
        x, y, a, b = (int(n) for n in text.split(","))
    if x < w and y < h and 0 < a and 0 < b:
        return (x, y, min(a, w - x), min(b, h - y))
    return None


def fit(a, b, p, q):
    return (p, rounded(b * p, a)) if p * b <= q * a else (rounded(a * q, b), q)


def size_of(text, a, b, limits):
    """The sides, or the word of a refusal."""
    max_w, max_h, upscale = limits
    up = text.startswith("^")
    form = text[1:] if up else text
    if form == "max":
        if up:
            s = fit(a, b, max_w, max_h)
        else:
            s = (a, b) if a <= max_w and b <= max_h else fit(a, b, max_w, max_h)
    elif form.startswith("!"):
        w, h = (int(n) for n in form[1:].split(","))
        p, q = min(w, max_w), min(h, max_h)
        s = fit(a, b, p, q) if up else fit(a, b, min(p, a), min(q, b))
    else:
        w, h = form.split(",")
        if w and h:
            s = (int(w), int(h))
        elif w:
            s = (int(w), rounded(b * int(w), a))
        else:
            s = (rounded(a * int(h), b), int(h))
    larger = a < s[0] or b < s[1]
    if s[0] == 0 or s[1] == 0:
        return "Zero"
    if not up and larger:
        return "Larger"
    if up and not upscale and larger:
        return "Upscale"
    if max_w < s[0] or max_h < s[1]:
        return "Limit"
    return s


def resolved(scene, p, request):
    """(rect, size, turn, quality), or the word of the first refusal."""
    region, size, rotation, quality = request
    rect = region_of(region, p[0], p[1])
    if rect is None:
        return "Empty"
    s = size_of(size, rect[2], rect[3], scene.limits)
    if isinstance(s, str):
        return s
    mirror = rotation.startswith("!")
    quarters = int(rotation.lstrip("!")) // 90 % 4
    if quality == "color" or (quality == "gray" and p[2] == 1):
        quality = "default"
    return (rect, s, (mirror, quarters), quality)


# Keys, values and plans

def div_ceil(a, b):
    return -(-a // b)


def squares_met(side, r):
    return (r[0] // side, div_ceil(r[0] + r[2], side), r[1] // side, div_ceil(r[1] + r[3], side))


def part_of(at, region):
    return (max(at[0], region[0]) - region[0], max(at[1], region[1]) - region[1],
            max(0, min(at[0] + at[2], region[0] + region[2]) - max(at[0], region[0])),
            max(0, min(at[1] + at[3], region[1] + region[3]) - max(at[1], region[1])))


def clipped(p, r):
    return (r[0], r[1], min(r[2], max(0, p[0] - r[0])), min(r[3], max(0, p[1] - r[1])))


def square(side, i, j):
    return (i * side, j * side, side, side)


def block_of(p, key):
    return clipped(p, square(2 ** key[5] * key[2], key[6], key[7]))


def places_of(region, size, part):
    left, top = part[0] * size[0] // region[0], part[1] * size[1] // region[1]
    return (left, top, div_ceil((part[0] + part[2]) * size[0], region[0]) - left,
            div_ceil((part[1] + part[3]) * size[1], region[1]) - top)


def places_in(p, key):
    return places_of(key[3][2:], key[4], part_of(block_of(p, key), key[3]))


def grid(rect, channels, f):
    return (rect, channels, tuple(f(rect[0] + i, rect[1] + j, k)
                                  for j in range(rect[3]) for i in range(rect[2]) for k in range(channels)))


def sum_at(g, i, j, k):
    place = ((j - g[0][1]) * g[0][2] + (i - g[0][0])) * g[1] + k
    return g[2][place] if 0 <= place < len(g[2]) else 0


def merged(g, h):
    def at(i, j, k):
        s = sum_at(g, i, j, k)
        if h[0][0] <= i < h[0][0] + h[0][2] and h[0][1] <= j < h[0][1] + h[0][3]:
            return min(2**64 - 1, s + sum_at(h, i, j, k))
        return s
    return grid(g[0], g[1], at)


def parts_of(key):
    """None: a tile, which is read from its source."""
    if key[0] == "tile":
        return None
    _, name, edge, rect, size, level, bx, by = key
    if level == 0:
        return [("tile", name, edge, bx, by)]
    below = [("sum", name, edge, rect, size, level - 1, 2 * bx + i, 2 * by + j) for j in (0, 1) for i in (0, 1)]
    return [k for k in below if all(0 < n for n in part_of(square(2 ** k[5] * edge, k[6], k[7]), rect)[2:])]


def read(scene, key):
    """A tile's value."""
    p = scene.pictures[key[1]]
    return crop(p, clipped(p, square(key[2], key[3], key[4])))


def derived(scene, key, values):
    p = scene.pictures[key[1]]
    _, _, edge, rect, size, level, bx, by = key
    places = places_in(p, key)
    if level > 0:
        total = grid(places, p[2], lambda i, j, k: 0)
        for value in values:
            total = merged(total, value)
        return total
    at = clipped(p, square(edge, bx, by))
    part = part_of(at, rect)
    corner = (max(at[0], rect[0]) - at[0], max(at[1], rect[1]) - at[1])
    tile = values[0]
    return grid(places, p[2], lambda i, j, k: area_sum(
        rect[2:], size, part, lambda x, y: sample(tile, corner[0] + x - part[0], corner[1] + y - part[1], k), i, j))


def way_of(scene, p, r):
    rect, size = r[0], r[1]
    if size == rect[2:]:
        return "copied"
    if rect[2] < size[0] or rect[3] < size[1]:
        return "grown"
    for level in range(20, 0, -1):
        side = 2 ** level * scene.edge
        most = (div_ceil(side * size[0], rect[2]) + 1) * (div_ceil(side * size[1], rect[3]) + 1) * p[2]
        if max(p[0], p[1]) > 2 ** (level - 1) * scene.edge and most <= scene.room:
            return level
    return 0


def items(scene, name, p, r):
    way = way_of(scene, p, r)
    if isinstance(way, str):
        left, right, top, bottom = squares_met(scene.edge, r[0])
        return [("tile", name, scene.edge, i, j) for j in range(top, bottom) for i in range(left, right)]
    left, right, top, bottom = squares_met(2 ** way * scene.edge, r[0])
    return [("sum", name, scene.edge, r[0], r[1], way, i, j) for j in range(top, bottom) for i in range(left, right)]


def assembled(scene, p, r, values):
    rect, size, by, quality = r
    way = way_of(scene, p, r)
    if isinstance(way, str):
        left, right, top, _ = squares_met(scene.edge, rect)

        def at(x, y, k):
            column, row = rect[0] + x, rect[1] + y
            number = (row // scene.edge - top) * (right - left) + (column // scene.edge - left)
            return sample(values[number], column % scene.edge, row % scene.edge, k)
        made = picture(rect[2], rect[3], p[2], p[3], at)
        if way == "grown":
            made = scale(made, size)
    else:
        total = grid((0, 0, size[0], size[1]), p[2], lambda i, j, k: 0)
        for value in values:
            total = merged(total, value)
        made = picture(size[0], size[1], p[2], p[3], lambda i, j, k: min(p[3], average(rect[2:], sum_at(total, i, j, k))))
    return in_quality(turn(made, by), quality)


# Bytes

def name_bytes(name):
    return struct.pack(">H", len(name.encode())) + name.encode()


def key_bytes(key):
    if key[0] == "tile":
        return name_bytes(key[1]) + struct.pack(">III", *key[2:])
    _, name, edge, rect, size, level, bx, by = key
    return name_bytes(name) + struct.pack(">IIIIIIIBII", edge, *rect, *size, level, bx, by)


def value_len(key, value):
    if key[0] == "sum":
        return 17 + 8 * len(value[2])
    return 9 + len(value[4]) * (1 if value[3] == 255 else 2)


def entry_len(key, value):
    return len(key_bytes(key)) + value_len(key, value)


# Owners

HASHES = {}


def hash_of(data):
    if data not in HASHES:
        HASHES[data] = int.from_bytes(hashlib.sha256(data).digest()[:8], "big")
    return HASHES[data]


def owner(ring, key):
    here = hash_of(key_bytes(key))

    def nearest(name):
        return min((hash_of(str(n).encode() + name.encode()) - here) % 2**64 for n in range(50))
    return min(ring, key=lambda name: (nearest(name), name.encode()))


# Tables

class Table:
    def __init__(self, limit, room):
        self.limit, self.room = limit, room
        self.main, self.hot, self.open = [], [], []
        self.book = dict.fromkeys(("gets", "hits", "joins", "leads", "again_hits", "loads", "peer", "landed", "faults"), 0)

    def kept(self, key):
        for entries in (self.main, self.hot):
            for entry in entries:
                if entry[0] == key:
                    return entry
        return None

    def touch(self, key):
        for entries in (self.main, self.hot):
            for place, entry in enumerate(entries):
                if entry[0] == key:
                    entries.insert(0, entries.pop(place))
                    return

    def flight(self, key, kind):
        for flight in self.open:
            if flight[:2] == [kind, key]:
                return flight
        return None

    def enter(self, key, kind):
        """("finds", value), ("joins",) or ("leads", ticket)."""
        self.book["gets"] += 1
        entry = self.kept(key)
        if entry:
            self.touch(key)
            self.book["hits"] += 1
            return ("finds", entry[1])
        if self.flight(key, kind):
            self.book["joins"] += 1
            return ("joins",)
        self.book["leads"] += 1
        self.open.append([kind, key, self.book["leads"], False])
        return ("leads", self.book["leads"])

    def again(self, key, kind, ticket):
        flight, entry = self.flight(key, kind), self.kept(key)
        if not flight or flight[2] != ticket or not entry:
            return None
        self.touch(key)
        flight[3] = True
        return entry[1]

    def size(self, entries):
        return sum(entry_len(key, value) for key, value, _ in entries)

    def put(self, entries, key, value, ticket):
        if self.limit < entry_len(key, value):
            return
        held = next((e for e in (self.main, self.hot) if any(x[0] == key for x in e)), None)
        if held is not None:
            held[:] = [(key, value, ticket)] + [e for e in held if e[0] != key]
        else:
            entries[:] = [(key, value, ticket)] + entries[:max(0, self.room - 1)]
        for _ in range(len(self.main) + len(self.hot)):
            if self.size(self.main) + self.size(self.hot) <= self.limit:
                return
            goes = self.hot if self.size(self.main) // 8 < self.size(self.hot) else self.main
            if goes:
                goes.pop()

    def land(self, key, kind, ticket, outcome, place, keep):
        flight = self.flight(key, kind)
        if not flight or flight[2] != ticket:
            return
        book, value = self.book, outcome[1] if outcome[0] == "ok" else None
        book["landed"] += 1
        if flight[3]:
            book["again_hits"] += 1
        else:
            book["loads"] += 1
            if value is None:
                book["faults"] += 1
            elif place == "peer":
                book["peer"] += 1
        self.open.remove(flight)
        if keep and value is not None:
            if place == "main":
                self.put(self.main, key, value, ticket)
            elif place == "peer" and book["peer"] % 10 == 0:
                self.put(self.hot, key, value, ticket)

    def evict(self, keys):
        self.main = [e for e in self.main if e[0] not in keys]
        self.hot = [e for e in self.hot if e[0] not in keys]


class Node:
    def __init__(self, name, ring, version, limit, room):
        self.name, self.ring, self.version = name, ring, version
        self.tiles, self.sums = Table(limit, room), Table(limit, room)

    def table(self, key):
        return self.tiles if key[0] == "tile" else self.sums

    def kind(self, key):
        return LOCAL if owner(self.ring, key) == self.name else WIDE


def version_shown(p):
    """The version of the messages that carry parts of a picture."""
    return 1 if p[3] == 255 else 2


class Scene:
    def __init__(self, pictures, edge, limits, room, faults_early=False):
        self.pictures, self.edge, self.limits, self.room, self.faults_early = pictures, edge, limits, room, faults_early


class World:
    """Rows are lists. A request: [node, name, progress]; a call: [node, key, class, purpose, state]; a flight:
    [node, key, class, ticket, stage]; an ask: (node, key, flight, version); a reply: (key, outcome). An outcome is ("ok", value) or
    ("fault", place, cause)."""

    def __init__(self, scene, nodes):
        self.scene, self.nodes = scene, nodes
        self.given, self.requests, self.calls, self.flights, self.asks, self.replies = [], [], [], [], [], []

    def learned(self, call):
        if call >= len(self.calls):
            return None
        state = self.calls[call][4]
        if state[0] == "hit":
            return ("ok", state[1])
        if state[0] == "in":
            stage = self.flights[state[1]][4]
            return stage[1] if stage[0] == "ended" else None
        return None

    def decided(self, calls):
        """What all of the calls know; where faults are early, what the first of them know, up to one that knows a fault."""
        outcomes = []
        for outcome in (self.learned(c) for c in calls):
            if outcome is None:
                return None
            outcomes.append(outcome)
            if self.scene.faults_early and outcome[0] == "fault":
                break
        return outcomes

    def call(self, node, purpose, key, kind=None):
        self.calls.append([node, key, kind or self.nodes[node].kind(key), purpose, ("fresh",)])

    def settle(self):
        flights = [(f, self.learned(f[4][1])) for f in self.flights if f[4][0] == "fallback" and f[4][1] is not None]
        requests = [(r, self.decided(r[2][2])) for r in self.requests if r[2][0] == "waiting"]
        for f, outcome in flights:
            if outcome is not None:
                f[4] = ("ready", outcome, "nowhere")
        for r, outcomes in requests:
            if outcomes is not None:
                fault = next((o for o in outcomes if o[0] == "fault"), None)
                p = self.scene.pictures[r[1]]
                answer = fault or ("image", assembled(self.scene, p, r[2][1], [o[1] for o in outcomes]))
                r[2] = ("answered", answer)

    def step(self, event):
        """Whether the event is allowed; if not, nothing changes."""
        return getattr(self, event[0])(*event[1:])

    def at(self, flight, *stages):
        if flight >= len(self.flights) or self.flights[flight][4][0] not in stages:
            return None
        return self.flights[flight]

    def note(self, node, step, kind, ticket, key):
        """The line that a node writes of a step, behind the line of its event."""
        words = [step, {WIDE: "wide", LOCAL: "local"}[kind]] + ([] if ticket is None else [str(ticket)])
        return "\n> %d %s %s" % (node, " ".join(words), key_bytes(key).hex())

    def led(self, step, flight):
        node, key, kind, ticket, _ = self.flights[flight]
        return self.note(node, step, kind, ticket, key)

    def said(self, event, flights):
        """What is said of an event that was done, where there were so many flights before: what a call met, whether a landing kept; and
        the step that a node writes of it."""
        if event[0] == "enter":
            node, key, kind, _, state = self.calls[event[1]]
            if state[0] == "hit":
                ticket = self.nodes[node].table(key).kept(key)[2]
                return ": hit %d" % ticket + self.note(node, "hit", kind, ticket, key)
            word, ticket = "joins" if state[1] < flights else "leads", self.flights[state[1]][3]
            return ": %s %d %d" % (word, ticket, state[1]) + self.note(node, word, kind, ticket, key)
        if event[0] in ("ask_peer", "lose"):
            return self.led({"ask_peer": "asks", "lose": "failed"}[event[0]], event[1])
        if event[0] == "take":
            return self.led("answered" if self.flights[event[1]][4][0] == "ready" else "failed", event[1])
        if event[0] == "serve":
            node, key, _, _ = self.asks[event[1]]
            return self.note(node, "serves", LOCAL, None, key)
        if event[0] == "reply":
            node, key, _, _, _ = self.calls[event[1]]
            return self.note(node, "replies " + {"ok": "value", "fault": "fault"}[self.replies[-1][1][0]], LOCAL, None, key)
        if event[0] == "load":
            node, key, _, _, _ = self.flights[event[1]]
            return self.note(node, "reads", LOCAL, None, key) if key[0] == "tile" else ""
        if event[0] == "source_fault":
            node, key, _, _, _ = self.flights[event[1]]
            return self.note(node, "fails %d %d" % event[2:], LOCAL, None, key)
        if event[0] == "land":
            node, key, _, ticket, stage = self.flights[event[1]]
            entry = self.nodes[node].table(key).kept(key)
            kept = "kept" if entry and entry[2] == ticket else "dropped"
            return ": " + kept + self.led("lands %s %s" % ({"ok": "value", "fault": "fault"}[stage[1][0]], kept), event[1])
        if event[0] == "stop":
            return "\n> %d stopped" % event[1]
        return ""

    def told(self, event):
        """Does an event: whether it is allowed, and what is told of it."""
        flights = len(self.flights)
        if not self.step(event):
            return False, "not now"
        return True, "done" + self.said(event, flights)

    def want(self, node, name, request):
        if node >= len(self.nodes) or name not in self.scene.pictures:
            return False
        p = self.scene.pictures[name]
        if self.nodes[node].version < version_shown(p):
            return False
        r = resolved(self.scene, p, request)
        if isinstance(r, str):
            self.requests.append([node, name, ("answered", ("refused", r))])
            return True
        keys = items(self.scene, name, p, r)
        first = len(self.calls)
        self.requests.append([node, name, ("waiting", r, list(range(first, first + len(keys))))])
        for key in keys:
            self.call(node, ("request", len(self.requests) - 1), key)
        return True

    def enter(self, call):
        if call >= len(self.calls) or self.calls[call][4] != ("fresh",):
            return False
        row = self.calls[call]
        node, key, kind = row[:3]
        met = self.nodes[node].table(key).enter(key, kind)
        if met[0] == "finds":
            row[4] = ("hit", met[1])
            self.settle()
        elif met[0] == "joins":
            row[4] = ("in", next(n for n, f in enumerate(self.flights) if f[4][0] != "ended" and f[:3] == [node, key, kind]))
        else:
            self.flights.append([node, key, kind, met[1], ("new",)])
            row[4] = ("in", len(self.flights) - 1)
        return True

    def again(self, flight):
        f = self.at(flight, "new")
        if not f:
            return False
        value = self.nodes[f[0]].table(f[1]).again(f[1], f[2], f[3])
        f[4] = ("looked",) if value is None else ("ready", ("ok", value), "nowhere")
        return True

    def ask_peer(self, flight):
        f = self.at(flight, "looked")
        if not f or f[2] != WIDE:
            return False
        name = owner(self.nodes[f[0]].ring, f[1])
        f[4] = ("asking",)
        asked = next(n for n, node in enumerate(self.nodes) if node.name == name)
        self.asks.append((asked, f[1], flight, version_shown(self.scene.pictures[f[1][1]])))
        return True

    def serve(self, ask):
        if ask >= len(self.asks):
            return False
        node, key, _, version = self.asks[ask]
        if self.nodes[node].version < version:
            return False
        self.call(node, ("ask", ask), key, LOCAL)
        return True

    def reply(self, call):
        if call >= len(self.calls) or self.calls[call][3][0] != "ask" or self.learned(call) is None:
            return False
        self.replies.append((self.calls[call][1], self.learned(call)))
        return True

    def take(self, flight, reply):
        f = self.at(flight, "asking", "ended")
        if not f or reply >= len(self.replies):
            return False
        key, outcome = self.replies[reply]
        if f[4][0] == "asking":
            f[4] = ("ready", outcome, "peer") if outcome[0] == "ok" and key == f[1] else ("fallback", None)
        return True

    def lose(self, flight):
        f = self.at(flight, "asking")
        if not f:
            return False
        f[4] = ("fallback", None)
        return True

    def go_local(self, flight):
        f = self.at(flight, "fallback")
        if not f or f[4][1] is not None:
            return False
        f[4] = ("fallback", len(self.calls))
        self.call(f[0], ("fallback", flight), f[1], LOCAL)
        return True

    def load(self, flight):
        f = self.at(flight, "looked", "parts")
        if not f or f[2] != LOCAL:
            return False
        if f[4][0] == "parts":
            outcomes = self.decided(f[4][1])
            if outcomes is None:
                return False
            fault = next((o for o in outcomes if o[0] == "fault"), None)
            f[4] = ("ready", fault or ("ok", derived(self.scene, f[1], [o[1] for o in outcomes])), "main")
            return True
        keys = parts_of(f[1])
        if keys is None:
            f[4] = ("ready", ("ok", read(self.scene, f[1])), "main")
            return True
        first = len(self.calls)
        f[4] = ("parts", list(range(first, first + len(keys))))
        for key in keys:
            self.call(f[0], ("part", flight), key)
        return True

    def source_fault(self, flight, place, cause):
        f = self.at(flight, "looked")
        if not f or f[2] != LOCAL or f[1][0] != "tile":
            return False
        self.given.append((f[0], f[1][1], place, cause))
        f[4] = ("ready", ("fault", place, cause), "main")
        return True

    def land(self, flight, keep):
        f = self.at(flight, "ready")
        if not f:
            return False
        _, outcome, place = f[4]
        self.nodes[f[0]].table(f[1]).land(f[1], f[2], f[3], outcome, place, keep)
        f[4] = ("ended", outcome)
        self.settle()
        return True

    def evict(self, node, keys):
        if node >= len(self.nodes):
            return False
        self.nodes[node].tiles.evict(keys)
        self.nodes[node].sums.evict(keys)
        return True

    def stop(self, node):
        if node >= len(self.nodes):
            return False
        n = self.nodes[node]
        n.tiles, n.sums = Table(n.tiles.limit, n.tiles.room), Table(n.sums.limit, n.sums.room)
        for f in self.flights:
            if f[0] == node and f[4][0] != "ended":
                f[4] = ("ended", None)
        for c in self.calls:
            if c[0] == node:
                c[4] = ("gone",)
        for r in self.requests:
            if r[0] == node and r[2][0] == "waiting":
                r[2] = ("dropped",)
        return True
