"""Holds bench/scale/model.py against the worked examples of the crates whose definitions it writes anew.

    /usr/bin/python3 bench/scale/check.py

Owners and the bytes of keys are read out of `tests/unit`; plans, bands, caches and counts are listed here as the
tests and the definitions have them. The cache is also compared, call by call, with the evaluation of its definition in
bench/cache/lists.py. The status is 1 where anything differs.
"""
import ast
import random
import re
import sys
from pathlib import Path

from model import TILE, Cache, Image, Rect, Request, Ring, System

ROOT = Path(__file__).resolve().parents[2]
failures = []


def same(what, found, wanted):
    if found != wanted:
        failures.append(f"{what}: {found}, and should be {wanted}")


def tests_of(module):
    return (ROOT / "tests" / "unit" / f"{module}.rs").read_text()


def bytes_in(module, name):
    """The bytes of a constant of a module of tests."""
    return bytes(map(int, re.findall(r"\d+", re.search(rf"const {name}: [^=]*= \[([^\]]*)\]", tests_of(module)).group(1))))


def owners():
    body = tests_of("flight/ring_tests")
    names = [name.encode() for name in re.findall(r'"([^"]+)"', body.split("const NAMES:", 1)[1].split("];", 1)[0])]
    ring = Ring(names)
    pairs = re.findall(r'\(NAMES, b"([^"]+)", (\d+)\)', body)
    same("owners in the ring's test", len(pairs), 26)
    for key, place in pairs:
        same(f"owner of {key}", ring.owner(key.encode()), int(place))
    same("owner behind the last point", Ring([b"n", b"m"]).owner(b"wrap-80"), 1)
    tied = bytes_in("flight/ring_tests", "TIED")
    same("owner at a shared point", Ring([b"x", b"1x"]).owner(tied), 1)
    same("owner at a shared point, the other order", Ring([b"1x", b"x"]).owner(tied), 0)
    same("the parts of a ring make the whole", round(sum(Ring(names).shares(len(names))), 12), 1.0)


def keys():
    def wanted(name):
        return bytes_in("flight/key_tests", name)

    picture = Image(b"a", 4, 6, 1)
    request = Request(picture, 2, Rect(1, 2, 3, 4), (2, 1))
    same("key of a tile", request.key(TILE, 0, 0), bytes_in("fixtures/messages", "FIRST_TILE_KEY"))
    same("key of a sum", request.key(1, 1, 0), wanted("SUM"))
    same("bytes of a tile of 2 by 1", Request(Image(b"a", 2, 1, 1), 2, Rect(0, 0, 2, 1), (2, 1)).value_len(TILE, 0, 0), len(wanted("TILE_VALUE")))
    same("bytes of 1 by 2 sums", Request(Image(b"a", 2, 4, 1), 2, Rect(0, 0, 2, 4), (1, 2)).value_len(1, 0, 0), len(wanted("SUM_VALUE")))


def plan(w, h, edge, region, size, room=65_536, channels=1):
    request = Request(Image(b"a", w, h, channels), edge, Rect(*region), size, room)
    return request.level, [(i, j) for _, i, j in request.items]


def plans():
    four = [(0, 0), (1, 0), (0, 1), (1, 1)]
    whole, middle = (0, 0, 4, 4), (3, 3, 4, 4)
    same("a whole image", plan(4, 4, 2, whole, (2, 2)), (1, [(0, 0)]))
    same("its parts", Request(Image(b"a", 4, 4, 1), 2, Rect(*whole), (2, 2)).parts(1, 0, 0), [(0, *place) for place in four])
    for region, places in ((whole, four), ((2, 2, 2, 2), [(1, 1)]), ((1, 1, 2, 2), four), ((1, 3, 3, 1), [(0, 1), (1, 1)])):
        same(f"tiles of {region}", plan(4, 4, 2, region, region[2:]), (TILE, places))
    for region, size, places in (((0, 0, 2, 2), (3, 3), four[:1]), ((1, 1, 2, 2), (4, 4), four), ((0, 0, 2, 4), (2, 5), [(0, 0), (0, 1)]),
                                 ((0, 0, 4, 2), (5, 1), four[:2]), ((1, 1, 2, 2), (1, 3), four)):
        same(f"{region} to {size}", plan(4, 4, 2, region, size), (TILE, places))
    nine = [(i, j) for j in (1, 2, 3) for i in (1, 2, 3)]
    for room, level, places in ((65_536, 2, four[:1]), (25, 2, four[:1]), (24, 1, four), (9, 1, four), (8, 0, nine)):
        same(f"room for {room}", plan(8, 8, 2, middle, (2, 2), room), (level, places))
    same("one side alone is scaled", plan(8, 8, 2, middle, (4, 3)), (2, [(0, 0)]))
    for room, level, channels in ((9, 1, 1), (8, 0, 1), (0, 0, 1), (27, 1, 3), (26, 0, 3), (11, 0, 3)):
        same(f"room for {room} of {channels}", plan(4, 4, 2, whole, (2, 2), room, channels)[0], level)
    for edge, level in ((2, 1), (3, 1), (4, 0)):
        same(f"least level at edge {edge}", plan(4, 4, edge, whole, (1, 1)), (level, [(0, 0)]))
    large = plan(10_000, 10_000, 256, (0, 0, 10_000, 10_000), (1024, 1024))
    same("overview of 100 megapixels", (large[0], len(large[1]), large[1][-1]), (3, 25, (4, 4)))
    thin = plan(1_000_000, 1, 256, (0, 0, 1_000_000, 1), (4096, 1))
    same("overview of one row", (thin[0], len(thin[1]), thin[1][-1]), (3, 489, (488, 0)))
    vast = plan(4_000_000_000, 4_000_000_000, 1024, (0, 0, 4_000_000_000, 4_000_000_000), (1, 1))
    same("the greatest level", (vast[0], len(vast[1])), (20, 16))


def bands():
    for side in (4, 5):
        request = Request(Image(b"a", 4, 4, 1), 2, Rect(0, 0, 4, 4), (side, side))
        cut = [[request.items.index(item) for item in band] for band in request.bands(3)]
        same(f"bands of three rows of {side}", cut, [[0, 1, 2, 3], [2, 3]])
    request = Request(Image(b"a", 4, 4, 1), 2, Rect(0, 0, 4, 4), (4, 4))
    same("bands of a tile's rows", [[request.items.index(item) for item in band] for band in request.bands(2)], [[0, 1], [2, 3]])


def caches():
    cache = Cache(60, 8)
    cache.put_main("k0", 28)
    cache.put_main("k1", 28)
    cache.get("k0")
    cache.put_main("k2", 28)
    cache.put_hot("k3", 28)
    same("main, the last used first", list(reversed(cache.main)), ["k2", "k0"])
    same("hot, and all bytes", (list(cache.hot), cache.main_bytes + cache.hot_bytes), ([], 56))
    small = Cache(27, 8)
    small.put_main("k0", 28)
    same("an entry above the limit", len(small.main), 0)
    tree = ast.parse((ROOT / "bench" / "cache" / "lists.py").read_text())
    words = {}
    exec(compile(ast.Module([node for node in tree.body if isinstance(node, (ast.ClassDef, ast.Assign))], []), "lists.py", "exec"), words)
    chance = random.Random(1)
    for _ in range(2000):
        limit, room = chance.randrange(200), 1 + chance.randrange(4)
        plain, cache = words["Cache"](limit, room), Cache(limit, room)
        for ticket in range(chance.randrange(30)):
            key, value, side = chance.randrange(6), chance.randrange(40), chance.choice(("main", "hot"))
            if chance.random() < 0.6:
                plain.put(side, key, value, ticket)
                cache.put(getattr(cache, side), key, words["KEY"] + value)
            else:
                same("found", cache.get(key), plain.find(key) is not None)
                plain.touch(key)
            lists = [[entry[0] for entry in plain.lists[name]] for name in ("main", "hot")]
            same("lists", [list(reversed(cache.main)), list(reversed(cache.hot))], lists)
            same("bytes", cache.main_bytes + cache.hot_bytes, plain.bytes())


def counts():
    half = Request(Image(b"a", 4, 4, 1), 2, Rect(0, 0, 4, 4), (2, 2))
    alone = System(1, 1 << 26)
    alone.answer(0, half)
    tiles, sums = alone.nodes[0].books
    same("tiles of an overview", tiles, {"gets": 4, "hits": 0, "loads": 4, "peer": 0})
    same("sums of an overview", sums, {"gets": 5, "hits": 0, "loads": 5, "peer": 0})
    same("what is loaded is kept in main", [(len(c.main), len(c.hot)) for c in alone.nodes[0].caches], [(4, 0), (5, 0)])
    alone.answer(0, half)
    same("again", (sums["gets"], sums["hits"], tiles["gets"]), (6, 1, 4))
    one = Request(Image(b"a", 1, 1, 1), 1, Rect(0, 0, 1, 1), (1, 1))
    two = System(2, 1 << 26)
    owner = two.ring.owner(one.key(TILE, 0, 0))
    two.answer(1 - owner, one)
    same("a tile of a peer", (two.nodes[1 - owner].books[0], two.nodes[1 - owner].asks, two.nodes[owner].reads),
         ({"gets": 1, "hits": 0, "loads": 1, "peer": 1}, 1, 1))
    for _ in range(10):
        two.answer(1 - owner, one)
    same("each tenth is kept", (two.nodes[1 - owner].asks, two.nodes[1 - owner].books[0]["hits"]), (10, 1))
    other = System(2, 1 << 26)
    other.nodes[owner].alive = False
    other.answer(1 - owner, one)
    same("the owner is lost", (other.nodes[1 - owner].vain, other.nodes[1 - owner].reads, other.nodes[1 - owner].books[0]["gets"]), (1, 1, 2))


for check in (owners, keys, plans, bands, caches, counts):
    check()
print("\n".join(failures[:20]) or "owners, keys, plans, bands, caches and counts agree with the worked examples")
sys.exit(1 if failures else 0)
