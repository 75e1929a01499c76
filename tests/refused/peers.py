"""Growths refused to one of two nodes whose rings are crossed: each holds the other for the owner of all keys.

A node's ring has its own name and seven others at the other node's address, and the names are searched for so that none of the keys of the
cases is its own. So each tile and each sum is asked for at the other node, which answers by itself.

Four kinds of runs, each on new servers and on one: the growths are refused to the node that is asked for images; to the node that it asks,
and then the answer has to be the case's own; and to the node whose port for peers is asked, and then each reply has to be its own or that
of out of memory, or the connection closes behind whole replies or a strict prefix of one. The fourth has one node alone, all of whose
keys are owned by a node that lies: its reply has one byte changed, or is for another key and has another value. What comes has to be
what a node without others may answer, the same again the case's own, and no value that is kept may be counted as another node's. That
is tried at a start by `--one` too.
"""
import functools
import itertools
import os
import socketserver
import sys
import threading

import starts
from parts import Part
from streams import HERE, STREAMS, Node, count, files, images, running, sample_in, tiff

sys.path.insert(0, os.path.join(HERE, "..", "..", "bench", "scale"))
import wire  # noqa: E402
from model import TILE, Image, Rect, Request, Ring  # noqa: E402

EDGE, OTHERS, WANT = 2, 7, 2
CASES = ["sample's image", "first tile", "half width", "turned bits", "two images", "plans of tiles, of blocks, and the same again"]


def keys_of(calls):
    """The keys of all tiles and sums that the images of these calls are made of."""
    picture, found = tiff.judge(files.SAMPLE), set()
    for _, target in calls:
        area, size, _, _ = images.spelled(target.decode().split("/")[3:])
        rect = images.rectangle(area, picture.width, picture.height)
        result = images.sides(size, rect[2], rect[3], 4096, False)
        request = Request(Image(b"a", picture.width, picture.height, 1), EDGE, Rect(*rect), result)
        items = request.items
        while items:
            found.update(request.key(*item) for item in items)
            items = [part for item in items if item[0] != TILE for part in request.parts(*item)]
    return found


@functools.cache
def names_without(letter):
    """A node's own name, and its others' names, of which it owns no key of the cases."""
    keys = set().union(*(keys_of(STREAMS[case]) for case in CASES))
    for n in itertools.count():
        own, others = b"%s%d" % (letter, n), [b"%s%d-%d" % (letter, n, k) for k in range(OTHERS)]
        ring = Ring([own, *others])
        if all(ring.owner(key) for key in keys):
            return own.decode(), [name.decode() for name in others]


class Crossed:
    """Two such nodes of one program, `a` and `b`, over the sample."""

    def __init__(self, program, control, path, options):
        self.program, self.control, self.path, self.options = program, control, path, options
        self.names = {node: names_without(node.encode()) for node in "ab"}

    def pair(self, refusing):
        """Both nodes, and their ports for each other."""
        ports, servers = {node: running.free_port() for node in "ab"}, {}
        try:
            for node, other in ("ba", "ab"):
                own, others = self.names[node]
                options = ["--edge", EDGE, *self.options, "--name", own, "--peer-listen", f"127.0.0.1:{ports[node]}"]
                options += [word for name in others for word in ("--peer", f"{name}=127.0.0.1:{ports[other]}")]
                env = self.control.env if node == refusing else None
                servers[node] = running.Server(self.program, ["a=" + self.path], options, env)
                running.wait_for(ports[node])
        except Exception:
            stop(servers)
            raise
        return servers, ports

    def started(self, refusing):
        """Both nodes, of which one is under the control."""
        self.control.refuse(0)
        servers, ports = running.start(lambda: self.pair(refusing))
        servers[refusing].exchange([b"GET / HTTP/1.1\r\n\r\n"])
        return servers, ports

    def run(self, refusing, once, tried):
        """Each growth of one node refused by `tried`, on new servers or on one; what came, and what is wrong."""
        kinds, wrong, servers = {}, [], None
        for n in self.control.growths():
            if servers is None or not once:
                stop(servers)
                servers, ports = self.started(refusing)
            met, kind, faults = tried(servers, ports, n)
            wrong += faults
            for node, server in servers.items():
                if not server.alive():
                    wrong.append(f"growth {n}: node {node} ended, {server.line()!r}")
            if not met or not all(server.alive() for server in servers.values()):
                break
            count(kinds, kind)
        stop(servers)
        return kinds, wrong


def stop(servers):
    for server in (servers or {}).values():
        server.stop()


def replies_kind(asks, own, got):
    """What a connection of another node with a refusal came to, or nothing where it isn't allowed."""
    kinds, at = [], 0
    for (version, _, key), reply in zip(asks, own):
        rest = got[at:]
        want = wire.reply(version, key, WANT, b"")
        if not rest:
            return "+".join(kinds + ["closed"])
        for name, text in (("own", reply), ("out of memory", want)):
            if rest.startswith(text):
                kinds.append(name)
                at += len(text)
                break
        else:
            return "+".join(kinds + ["cut"]) if reply.startswith(rest) or want.startswith(rest) else None
    return "+".join(kinds) if at == len(got) else None


def asks_tried(crossed):
    """Asks to the port for peers, of which one growth is refused, and then the same again."""
    picture = tiff.judge(files.SAMPLE)
    values = wire.Values({"a": picture}, EDGE)
    asks = [(1, 1, wire.tile_key(b"a", EDGE, 0, 1)), (1, 2, wire.sum_key(b"a", EDGE, (0, 0, 4, 4), (2, 2), 1, 0, 0)),
            (2, 1, wire.tile_key(b"a", EDGE, 1, 1)), (1, 1, wire.tile_key(b"zz", EDGE, 0, 0)),
            (1, 2, wire.sum_key(b"a", EDGE, (1, 0, 3, 3), (3, 1), 0, 1, 1))]
    text = b"".join(wire.ask(*ask) for ask in asks)
    own = [values.replied(*ask)[0] for ask in asks]

    def tried(servers, ports, n):
        crossed.control.refuse(n)
        got, ended = running.exchange(ports["a"], [text])
        met = crossed.control.refused()
        crossed.control.refuse(0)
        kind = replies_kind(asks, own, got) if ended else None
        again, _ = running.exchange(ports["a"], [text])
        wrong = [] if kind else [f"growth {n}: {got[:200].hex()}, {'' if ended else 'not '}closed"]
        if again != b"".join(own):
            wrong.append(f"growth {n}, asked again: {again[:200].hex()}")
        return met, kind or "OTHER", wrong

    return tried


def images_tried(crossed, calls, helper):
    """Images of node a while a growth is refused to it, or to the node that it asks, whose failure must not be seen."""
    node = Node(crossed.program, crossed.control, crossed.path, crossed.options)

    def tried(servers, _, n):
        met, kind, wrong = node.tried(servers["a"], calls, n)
        if helper and kind.replace("own", "").strip("+"):
            wrong.append(f"growth {n} of the node that is asked: {kind}")
        return met, kind, wrong

    return tried


def changed(values, n, version, group, key):
    """The right reply with one byte changed: another one at each ask."""
    text = bytearray(values.replied(version, group, key)[0])
    text[n % len(text)] ^= 1 + n % 255
    return bytes(text)


def of_another_key(values, _, version, group, key):
    """A whole reply for another key, whose value has the shape of the right one, and another last byte."""
    right = (values.tile if group == 1 else values.sums)(key, version)
    return wire.reply(version, flipped(key), 0, flipped(right))


def flipped(text):
    return text[:-1] + bytes([text[-1] ^ 1])


LIES = {"a byte changed": changed, "a reply for another key": of_another_key}


class Lie(socketserver.BaseRequestHandler):
    """A connection of a node that lies: one ask, one false reply, and the end."""

    def handle(self):
        head = running.read_exactly(self.request, 9)
        key = running.read_exactly(self.request, int.from_bytes(head[5:9], "big")) if len(head) == 9 else b""
        if not key:
            return
        try:
            self.request.sendall(self.server.told(head[3] - 48, head[4], key))
        except OSError:
            pass  # who asked was refused memory, and is gone


class Liar(socketserver.ThreadingTCPServer):
    """A node that lies in one way, and counts how often it did."""
    allow_reuse_address = daemon_threads = True

    def __init__(self, values, lie):
        super().__init__(("127.0.0.1", running.free_port()), Lie)
        self.values, self.lie, self.asked, self.known = values, lie, 0, 0
        threading.Thread(target=self.serve_forever, daemon=True).start()

    def told(self, version, group, key):
        self.asked += 1
        return self.lie(self.values, self.asked, version, group, key)

    def lately(self):
        """How often it was asked since it was last looked."""
        known, self.known = self.known, self.asked
        return self.asked - known

    def __exit__(self, *_):
        self.shutdown()
        self.server_close()


class Misled(Node):
    """A node of which every key is owned by a liar: nothing that it keeps may be counted as another node's."""

    def tried(self, server, calls, n):
        met, kind, wrong = super().tried(server, calls, n)
        if self.stats and server.alive():
            told = running.read_counters(self.stats)
            names = ("iiif_tile_cache_peer_total", "iiif_sum_cache_peer_total")
            wrong += [f"growth {n}: {told[name]} {name}" for name in names if told[name]]
        return met, kind, wrong


def misled_part(program, options, lie, case, where):
    """Requests of one case to a node that asks one which lies so."""
    def run(control, room):
        with Liar(wire.Values({"a": tiff.judge(files.SAMPLE)}, EDGE), LIES[lie]) as liar:
            node = Misled(program, control, sample_in(room), asks_of(liar, options))
            return seen(liar, *(node.cold if where == "new servers" else node.warm)(STREAMS[case]))

    return Part("peers", f"{where}, {lie}, {case}", run)


def misled_start(program, options, lie, target):
    """A start by `--one` of a node that asks one which lies so."""
    def run(control, room):
        with Liar(wire.Values({"a": tiff.judge(files.SAMPLE)}, EDGE), LIES[lie]) as liar:
            asks, path = asks_of(liar, options), sample_in(room)
            control.refuse(0)
            right = starts.one(program, control.env, target, path, options)
            kinds, wrong = starts.each(program, control, target, path, right, asks)
            with_all = starts.one(program, control.env, target, path, asks)
            if with_all != right:
                wrong.append(f"with ample memory: status {with_all[0]}, {with_all[1][:40]!r}, {with_all[2][:80]!r}")
            return seen(liar, kinds, wrong)

    return Part("peers", f"start, {lie}, {target}", run)


def asks_of(liar, options):
    """The options of a node all of whose keys are owned by a liar."""
    own, others = names_without(b"a")
    return [*options, "--name", own] + [word for name in others for word in ("--peer", f"{name}=127.0.0.1:{liar.server_address[1]}")]


def seen(liar, kinds, wrong):
    """The same, and wrong besides where the liar wasn't asked: then a run shows nothing."""
    return kinds, wrong if liar.lately() else wrong + ["the node that lies wasn't asked"]


def crossed_part(program, options, where, refusing, case):
    """Images of a node that asks another one, refused to it or to the other; or asks of another node, where there is no case."""
    def run(control, room):
        crossed = Crossed(program, control, sample_in(room), options)
        tried = images_tried(crossed, STREAMS[case], refusing == "b") if case else asks_tried(crossed)
        return crossed.run(refusing, where == "one pair", tried)

    what = f"crossed rings, {'refused to the node that is asked, ' * (refusing == 'b')}{case}" if case else "asks of another node"
    return Part("peers", f"{where}, {what}", run)


def parts(program, options):
    """All cases of several nodes."""
    places = ("new servers", "one pair")
    found = [crossed_part(program, options, where, refusing, case) for where in places for case in CASES for refusing in "ab"]
    found += [crossed_part(program, options, where, "a", None) for where in places]
    found += [misled_part(program, options, lie, case, where) for lie in LIES for case in CASES for where in ("new servers", "one server")]
    return found + [misled_start(program, options, lie, target.decode()) for lie in LIES for _, target in STREAMS["two images"]]
