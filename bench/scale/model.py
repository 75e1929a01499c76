"""Keys, plans, bands, ring, caches and groups, written anew from their definitions, without a pixel; and in which order a node asks.

Of a value only its length is known, so a simulated node counts what it reads, makes, keeps, asks and sends. The definitions are those of
crates/iiif_keys (specs Bytes, Blocks, Meaning), iiif_planner (Levels, Items, Bands), iiif_ring (Owner) and iiif_tables
(Cache, Flights). bench/scale/check.py holds this module against the worked examples of those crates. What no definition says is read in
the code: that a tile which is asked for as it stands is asked once (iiif_assemble, lone), and that the blocks of a band stay until the
next band has its own (iiif_assemble, kept).
"""
import hashlib
import struct
from bisect import bisect_left
from collections import OrderedDict, namedtuple

REPLICAS, LEVELS, ROOM = 50, 20, 65_536

Image = namedtuple("Image", "name w h channels")
Rect = namedtuple("Rect", "x y w h")


def ceil_div(p, q):
    return -(-p // q)


# The ring: consistent hashing, 50 points a name.


def hash_of(data):
    """The first eight bytes, high first, of SHA-256."""
    return int.from_bytes(hashlib.sha256(data).digest()[:8], "big")


class Ring:
    def __init__(self, names):
        points = {}
        for place, name in enumerate(names):
            for replica in range(REPLICAS):
                here = hash_of(b"%d" % replica + name)
                if here not in points or name < names[points[here]]:
                    points[here] = place
        self.points = sorted(points)
        self.places = [points[here] for here in self.points]

    def owner(self, key):
        """The place of the name whose point comes first at or behind the key's hash, round the ring."""
        return self.places[bisect_left(self.points, hash_of(key)) % len(self.places)]

    def shares(self, count):
        """The part of the ring that each name has."""
        parts = [0] * count
        for i, place in enumerate(self.places):
            parts[place] += (self.points[i] - self.points[i - 1]) % 2**64
        return [part / 2**64 for part in parts]


# Plans: the tiles where a region keeps its size or grows, else the blocks of a level.

TILE = -1  # the level that stands for a tile, below the sums of level 0


class Request:
    """A region of an image that is scaled to `size`, and the items of its plan: (level, column, row), row by row."""

    def __init__(self, image, edge, region, size, room=ROOM):
        self.image, self.edge, self.region, self.size = image, edge, region, size
        name = struct.pack(">H", len(image.name)) + image.name
        self.tile_head = name + struct.pack(">I", edge)
        self.sum_head = name + struct.pack(">7I", edge, *region, *size)
        self.spans = {}
        if size == region[2:] or size[0] > region.w or size[1] > region.h:
            self.level = TILE
        else:
            self.level = self.level_for(room)
        self.items = self.squares(self.level)

    def side(self, level):
        return self.edge << max(level, 0)

    def sums_at_most(self, level):
        columns, rows = (ceil_div(self.side(level) * c, a) + 1 for c, a in zip(self.size, self.region[2:]))
        return columns * rows * self.image.channels

    def level_for(self, room):
        """The greatest level that has room for a block's sums and is the least that holds the image or below, else 0."""
        longer = max(self.image.w, self.image.h)
        return next((level for level in range(LEVELS, -1, -1)
                     if (level == 0 or self.side(level - 1) < longer) and self.sums_at_most(level) <= room), 0)

    def squares(self, level):
        side, r = self.side(level), self.region
        columns = range(r.x // side, ceil_div(r.x + r.w, side))
        return [(level, i, j) for j in range(r.y // side, ceil_div(r.y + r.h, side)) for i in columns]

    def span(self, axis, side, i):
        """The result columns (axis 0) or rows (1) that a square's part of the region meets: the first, and the one behind the last."""
        found = self.spans.get((axis, side, i))
        if found is None:
            start, length, result = self.region[axis], self.region[2 + axis], self.size[axis]
            low, high = max(i * side, start) - start, min((i + 1) * side, start + length) - start
            found = (low * result // length, ceil_div(high * result, length)) if low < high else None
            self.spans[axis, side, i] = found or ()
        return found or None

    def key(self, level, i, j):
        if level == TILE:
            return self.tile_head + struct.pack(">II", i, j)
        return self.sum_head + struct.pack(">BII", level, i, j)

    def value_len(self, level, i, j):
        """How many bytes the value of a key takes."""
        if level == TILE:
            w, h = (min(self.edge, whole - n * self.edge) for n, whole in ((i, self.image.w), (j, self.image.h)))
            return 9 + w * h * self.image.channels
        (left, right), (top, bottom) = (self.span(axis, self.side(level), n) for axis, n in ((0, i), (1, j)))
        return 17 + 8 * (right - left) * (bottom - top) * self.image.channels

    def parts(self, level, i, j):
        """What a sum is made of: of level 0 its tile, else its quarters that have a place of the region."""
        if level == 0:
            return [(TILE, i, j)]
        side = self.side(level - 1)
        rows = [m for m in (2 * j, 2 * j + 1) if self.span(1, side, m)]
        columns = [n for n in (2 * i, 2 * i + 1) if self.span(0, side, n)]
        return [(level - 1, n, m) for m in rows for n in columns]

    def bands(self, rows):
        """The items that each band of the upright result has places of."""
        side, height = self.side(self.level), self.size[1]
        spans = [(item, self.span(1, side, item[2])) for item in self.items]
        return [[item for item, (top, bottom) in spans if top < min(y + rows, height) and y < bottom] for y in range(0, height, rows)]

    def is_lone(self):
        """Whether the image is one tile as it stands."""
        level, i, j = self.items[0]
        tile = Rect(i * self.edge, j * self.edge, *(min(self.edge, whole - n * self.edge) for n, whole in ((i, self.image.w), (j, self.image.h))))
        return level == TILE and len(self.items) == 1 and self.region == tile and self.size == tile[2:]

    def answer_len(self):
        """The bytes of the TIFF file that is answered."""
        head = 174 if self.image.channels == 1 else 180
        return head + self.size[0] * self.size[1] * self.image.channels


# What is kept: two lists under one limit in bytes, and so many entries a list.


class Cache:
    """Keys with their sizes (key and value), of each list the one that was used last at its end."""

    def __init__(self, limit, entries):
        self.limit, self.entries = limit, entries
        self.main, self.hot = OrderedDict(), OrderedDict()
        self.main_bytes = self.hot_bytes = 0

    def get(self, key):
        for entries in (self.main, self.hot):
            if key in entries:
                entries.move_to_end(key)
                return True
        return False

    def holds(self, key):
        return key in self.main or key in self.hot

    def put_main(self, key, size):
        self.put(self.main, key, size)

    def put_hot(self, key, size):
        self.put(self.hot, key, size)

    def put(self, entries, key, size):
        if size > self.limit:
            return
        entries = self.main if key in self.main else self.hot if key in self.hot else entries
        if key in entries:
            self.count(entries, size - entries[key])
            entries[key] = size
            entries.move_to_end(key)
        else:
            if len(entries) == self.entries:
                self.drop_oldest(entries)
            entries[key] = size
            self.count(entries, size)
        while self.main_bytes + self.hot_bytes > self.limit:
            self.drop_oldest(self.hot if self.hot_bytes > self.main_bytes // 8 else self.main)

    def count(self, entries, size):
        if entries is self.main:
            self.main_bytes += size
        else:
            self.hot_bytes += size

    def drop_oldest(self, entries):
        self.count(entries, -entries.popitem(last=False)[1])


# Nodes, each with a group of tiles and a group of sums.


class Node:
    def __init__(self, limit, entries):
        self.caches = Cache(limit, entries), Cache(limit, entries)
        self.books = {"gets": 0, "hits": 0, "loads": 0, "peer": 0}, {"gets": 0, "hits": 0, "loads": 0, "peer": 0}
        self.reads = self.summed = self.asks = self.vain = self.sent = self.viewers = 0
        self.alive = True


# How many blocks of a band stay until the next band has its own.
MOST_KEPT = 64


class System:
    """Nodes that answer one request after another, so no two calls ever share a flight. Without peers each is alone. How many workers
    make an answer says nothing of what is asked."""

    def __init__(self, count, limit, entries=4096, rows=64, peers=True):
        self.ring = Ring([b"node-%d" % n for n in range(count)])
        self.nodes = [Node(limit, entries) for _ in range(count)]
        self.rows, self.peers = rows, peers and count > 1

    def answer(self, n, request):
        self.nodes[n].viewers += request.answer_len()
        if request.is_lone():
            self.get(n, request, request.items[0])
            return
        bands = request.bands(self.rows)
        if request.level == TILE:
            for band in bands:
                for item in band:
                    self.get(n, request, item)
            return
        kept = set()
        for band in bands:
            if not kept.issuperset(band):
                own = kept.intersection(band)
                for item in band:
                    if item not in own:
                        self.get(n, request, item)
                kept = set(band) if len(band) <= MOST_KEPT else own

    def get(self, n, request, item):
        """A call at node n: of its own key it is local; of another's it is wide, and the owner is asked."""
        key = request.key(*item)
        owner = self.ring.owner(key) if self.peers else n
        if owner == n:
            self.get_local(n, request, item, key)
            return
        node, sums = self.nodes[n], item[0] != TILE
        cache, book = node.caches[sums], node.books[sums]
        book["gets"] += 1
        if cache.get(key):
            book["hits"] += 1
            return
        book["loads"] += 1
        if self.nodes[owner].alive:
            self.get_local(owner, request, item, key)
            value = request.value_len(*item)
            node.asks += 1
            node.sent += 9 + len(key)
            self.nodes[owner].sent += 45 + len(key) + value
            book["peer"] += 1
            if book["peer"] % 10 == 0:
                cache.put_hot(key, len(key) + value)
        else:
            node.vain += 1
            self.get_local(n, request, item, key)

    def get_local(self, n, request, item, key):
        """A call by this node alone; the owners of a sum's parts are asked."""
        node, level = self.nodes[n], item[0]
        sums = level != TILE
        book = node.books[sums]
        book["gets"] += 1
        if node.caches[sums].get(key):
            book["hits"] += 1
            return
        book["loads"] += 1
        if level == TILE:
            node.reads += 1
        else:
            for part in request.parts(*item):
                self.get(n, request, part)
            node.summed += level == 0
        node.caches[sums].put_main(key, len(key) + request.value_len(*item))
