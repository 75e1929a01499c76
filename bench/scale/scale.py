"""What more nodes, larger caches and larger catalogues do: viewers on a simulated ring of nodes.

    /usr/bin/python3 bench/scale/scale.py nodes      # 1 to 64 nodes, catalogues of 10^3 to 10^6 images
    /usr/bin/python3 bench/scale/scale.py caches     # one node and eight, --cache-bytes from 0 to 4 GiB
    /usr/bin/python3 bench/scale/scale.py parted     # nodes without peers, each image on one of them
    /usr/bin/python3 bench/scale/scale.py lost       # a node is lost: the same viewers with and without it
    /usr/bin/python3 bench/scale/scale.py rows       # bands of 16 to 256 rows
    /usr/bin/python3 bench/scale/scale.py viewers    # 8 to 512 viewers at a time, other popularities
    /usr/bin/python3 bench/scale/scale.py ring       # the parts of the ring

Prints Markdown tables. Everything is drawn from one seed (--seed, 1 if left out), so a run says the same each time.

The catalogue: of 20 images 15 are pages (RGB, 2,480 by 3,508), 4 newspapers (gray, 5,000 by 7,000), 1 a map (RGB, 12,000 by 9,000), in
tiles of 256. A viewer picks an image by Zipf's law (weight 1 / rank), opens it as viewers/own.html does in a canvas of 1,280 by 720, zooms
in by steps of 1.5 about one place until one sample is one dot, moves three times by half a canvas, and leaves. It asks for each tile once
and one after another, all of one node, which is picked at random. So many viewers are there at a time, and each request comes from one of
them at random. A first part of the viewers only fills the caches; what the others do is counted.
"""
import argparse
import itertools
import math
import random
from bisect import bisect_left
from functools import lru_cache

from model import TILE, Cache, Image, Rect, Request, Ring, System, hash_of

EDGE, CANVAS, STEP, MIB = 256, (1280, 720), 1.5, 1 << 20
KINDS = [(2480, 3508, 3)] * 15 + [(5000, 7000, 1)] * 4 + [(12000, 9000, 3)]


@lru_cache(maxsize=None)
def image(rank):
    name = b"image-%d" % rank
    return Image(name, *KINDS[hash_of(name) % len(KINDS)])


# The viewer page's path: which tiles it asks for, in its order.


def factors(picture):
    """The scale factors of info.json, the greatest first."""
    found = [1]
    while EDGE * found[0] < max(picture.w, picture.h):
        found.insert(0, 2 * found[0])
    return found


def in_view(picture, middle, zoom):
    left, top = (max(0, math.floor(m - c / zoom / 2)) for m, c in zip(middle, CANVAS))
    right, bottom = (min(side, math.ceil(m + c / zoom / 2)) for side, m, c in zip(picture[1:3], middle, CANVAS))
    return Rect(left, top, max(1, right - left), max(1, bottom - top))


def tiles_at(picture, factor, seen):
    side = EDGE * factor
    for y in range(seen.y // side * side, seen.y + seen.h, side):
        for x in range(seen.x // side * side, seen.x + seen.w, side):
            region = Rect(x, y, min(side, picture.w - x), min(side, picture.h - y))
            yield region, (math.ceil(region.w / factor), math.ceil(region.h / factor))


def views(picture, chance):
    """The middles and zooms of one visit."""
    sides = picture[1:3]
    zoom, middle = min(c / s for c, s in zip(CANVAS, sides)), [s / 2 for s in sides]
    place = [s * (0.1 + 0.8 * chance.random()) for s in sides]
    yield middle, zoom
    while zoom < 1:
        middle = [p + (m - p) / STEP for p, m in zip(place, middle)]
        zoom *= STEP
        yield middle, zoom
    for axis in (0, 1, 0):
        middle[axis] = min(sides[axis], max(0, middle[axis] + chance.choice((-1, 1)) * CANVAS[axis] / 2 / zoom))
        yield middle, zoom


def visit(picture, chance):
    """The requests of one visit."""
    asked, scales = set(), factors(picture)
    for middle, zoom in views(picture, chance):
        seen = in_view(picture, middle, zoom)
        wanted = next((s for s in scales if s * zoom <= 1), 1)
        for factor in dict.fromkeys((scales[0], wanted)):
            for region, size in tiles_at(picture, factor, seen):
                if (region, size) not in asked:
                    asked.add((region, size))
                    yield Request(picture, EDGE, region, size)


# Many visits at a time.


class Site:
    def __init__(self, args, nodes, images, cache=64, rows=64, viewers=32, power=1.0, entries=4096, parted=False):
        self.chance = random.Random(args.seed)
        self.weights = list(itertools.accumulate(rank**-power for rank in range(1, images + 1)))
        self.system, self.parted = System(nodes, cache * MIB, entries, rows, peers=not parted), parted
        self.front = Cache(2 * nodes * cache * MIB, math.inf)
        self.open = [self.arrive() for _ in range(viewers)]

    def arrive(self):
        rank = bisect_left(self.weights, self.chance.random() * self.weights[-1])
        return self.pick(image(rank).name), visit(image(rank), self.chance)

    def pick(self, name=b""):
        if self.parted:
            return hash_of(name) % len(self.system.nodes)
        n = self.chance.choice(range(len(self.system.nodes)))
        return n if self.system.nodes[n].alive else self.other(n, hash_of(name))

    def other(self, n, number):
        """Another node in the place of a lost one, so that what is drawn at random stays as it was."""
        return (n + 1 + number % (len(self.system.nodes) - 1)) % len(self.system.nodes)

    def lose(self, n):
        self.system.nodes[n].alive = False
        self.open = [(self.other(n, i) if at == n else at, requests) for i, (at, requests) in enumerate(self.open)]

    def serve(self, visits):
        """Answers until so many visits have ended. The counts of what was done, and of each answer whether a source was read for it."""
        nodes = self.system.nodes
        for node in nodes:
            for book in node.books:
                book.update(dict.fromkeys(book, 0))
            node.reads = node.summed = node.asks = node.vain = node.sent = node.viewers = 0
        answers = unread = ended = reads = fronted = plain = 0
        while ended < visits:
            at = self.chance.randrange(len(self.open))
            n, requests = self.open[at]
            request = next(requests, None)
            if request is None:
                ended += 1
                self.open[at] = self.arrive()
                continue
            self.system.answer(n, request)
            key = request.image.name, request.region, request.size
            fronted += self.front.get(key)
            plain += len(request.squares(TILE))
            self.front.put_main(key, request.answer_len())
            before, reads = reads, sum(node.reads for node in nodes)
            unread += reads == before
            answers += 1
        return Counts(nodes, answers, unread, fronted, plain)


class Counts:
    """What was done, for each answer on average. `fronted`: what a cache of answers before the nodes, with their bytes, would have had;
    `plain`: the tiles that the answers' regions have."""

    def __init__(self, nodes, answers, unread, fronted, plain):
        alive = [node for node in nodes if node.alive]
        answers = max(1, answers)

        def total(name):
            return sum(getattr(node, name) for node in nodes)

        def hits(group):
            gets = sum(node.books[group]["gets"] for node in nodes)
            return 100 * sum(node.books[group]["hits"] for node in nodes) / max(1, gets)

        def busiest(values):
            return max(values) * len(values) / max(1, sum(values))

        self.answers, self.unread, self.fronted = answers, 100 * unread / answers, 100 * fronted / answers
        self.plain = plain / answers
        self.tile_hits, self.sum_hits = hits(0), hits(1)
        self.reads, self.asks, self.vain = total("reads") / answers, total("asks") / answers, total("vain") / answers
        self.sent, self.viewers = total("sent") / answers / 1000, total("viewers") / answers / 1000
        self.work, self.wire = busiest([node.summed for node in alive]), busiest([node.sent + node.viewers for node in alive])


HEAD = ["tiles hit", "sums hit", "without a read", "tiles read", "asks", "KB to peers", "busiest: work", "busiest: bytes"]


def row(first, c, *last):
    figures = [f"{c.tile_hits:.0f}%", f"{c.sum_hits:.0f}%", f"{c.unread:.0f}%", f"{c.reads:.1f}", f"{c.asks:.1f}", f"{c.sent:,.0f}", f"{c.work:.2f}", f"{c.wire:.2f}"]
    print("| " + " | ".join([*first, *figures, *last]) + " |", flush=True)


def table(first, head=HEAD):
    print("\n| " + " | ".join([*first, *head]) + " |\n|" + "---|" * (len(first) + len(head)), flush=True)


def settled(args, *words, **limits):
    """The counts of a site whose caches are full."""
    site = Site(args, *words, **limits)
    site.serve(args.visits)
    return site.serve(args.visits)


def nodes(args):
    table(["images", "nodes"], [*HEAD, "a cache of answers"])
    for images in args.images:
        for count in (1, 2, 4, 8, 16, 32, 64):
            c = settled(args, count, images)
            row([f"{images:,}", str(count)], c, f"{c.fronted:.0f}%")


def caches(args):
    table(["nodes", "`--cache-bytes`", "entries a list"], [*HEAD, "a cache of answers"])
    for count in (1, 8):
        for cache, entries in ((0, 4096), (16, 4096), (64, 4096), (256, 4096), (1024, 4096), (4096, 4096), (4096, 65_536)):
            c = settled(args, count, 10**4, cache, entries=entries)
            row([str(count), f"{cache} MiB", f"{entries:,}"], c, f"{c.fronted:.0f}%")
    print(f"\nThe answers' regions have {c.plain:.1f} tiles each.")


def parted(args):
    table(["nodes", "how"], [*HEAD, "a cache of answers"])
    for count in (2, 4, 8, 16, 32, 64):
        c = settled(args, count, 10**4, parted=True)
        row([str(count), "no peers, by image"], c, f"{c.fronted:.0f}%")


def lost(args):
    table(["nodes", "state"], [*HEAD, "asks in vain"])
    for count in (4, 16, 64):
        for state in ("all there", "one is lost"):
            site = Site(args, count, 10**4)
            site.serve(args.visits)
            if state == "one is lost":
                site.lose(0)
            c = site.serve(args.visits)
            row([str(count), state], c, f"{c.vain:.2f}")


def rows(args):
    table(["nodes", "rows a band"])
    for count in (1, 8):
        for height in (16, 64, 128, 256):
            row([str(count), str(height)], settled(args, count, 10**4, rows=height))


def viewers(args):
    table(["nodes", "viewers", "weight of rank r"])
    cases = [(1, 8, 1.0), (1, 32, 1.0), (1, 128, 1.0), (1, 512, 1.0), (1, 32, 0.7), (1, 32, 1.3), (8, 8, 1.0), (8, 32, 1.0), (8, 128, 1.0)]
    for count, at_once, power in cases:
        row([str(count), str(at_once), f"r^-{power}"], settled(args, count, 10**4, viewers=at_once, power=power))


def ring(args):
    table(["nodes", "least part over the mean", "greatest", "keys of a lost node that go to the one that takes most"], [])
    for count in (2, 4, 8, 16, 32, 64):
        parts = Ring([b"node-%d" % n for n in range(count)]).shares(count)
        left = Ring([b"node-%d" % n for n in range(1, count)]).shares(count - 1)
        gained = max(now - before for now, before in zip(left, parts[1:])) / parts[0]
        print(f"| {count} | {min(parts) * count:.2f} | {max(parts) * count:.2f} | {100 * gained:.0f}% |")


def main():
    parser = argparse.ArgumentParser()
    parser.add_argument("what", choices=["nodes", "caches", "parted", "lost", "rows", "viewers", "ring"])
    parser.add_argument("--seed", type=int, default=1)
    parser.add_argument("--visits", type=int, default=400)
    parser.add_argument("--images", type=int, nargs="+", default=[10**3, 10**4, 10**5, 10**6], help="sizes of the catalogue, for nodes")
    args = parser.parse_args()
    globals()[args.what](args)


if __name__ == "__main__":
    main()
