"""Attacks on and by other nodes."""
import os
import random
import signal
import socket
import struct
import sys
import threading
import time

from places import Peak, is_answered

sys.path.insert(0, os.path.join(os.path.dirname(os.path.abspath(__file__)), ".."))
from hostile import wire  # noqa: E402
from lib.server import Server, ask, connect, encode_request, free_port, free_ports  # noqa: E402

SIDE, EDGE = 4096, 256


class Cluster:
    """Nodes that share the keys of one picture."""

    def __init__(self, program, room, names, options=()):
        ports = free_ports(2 * len(names))
        listen = dict(zip(names, ports))
        peers = dict(zip(names, ports[len(names):]))
        self.nodes = {}
        for name in names:
            words = [word for other in names if other != name for word in ("--peer", f"{other}=127.0.0.1:{peers[other]}")]
            words += ["--name", name, "--peer-listen", f"127.0.0.1:{peers[name]}", *options]
            self.nodes[name] = Server(program, [f"p={room}/peers.tif"], words, port=listen[name])

    def __enter__(self):
        return self

    def __exit__(self, *_):
        for node in self.nodes.values():
            node.stop()

    def __getitem__(self, name):
        return self.nodes[name]


def tile_target(chance):
    x, y = (chance.randrange(SIDE // EDGE) * EDGE for _ in range(2))
    return f"/iiif/p/{x},{y},{EDGE},{EDGE}/{EDGE},/0/default.tif"


def view(port, ends, seed, times):
    """Asks for random tiles until a moment, and notes when each began and how long it took."""
    chance = random.Random(seed)
    while time.monotonic() < ends:
        try:
            with connect(port, 20) as link:
                while time.monotonic() < ends:
                    begun = time.monotonic()
                    link.sendall(encode_request(tile_target(chance)))
                    if not is_answered(link):
                        break
                    times.append((begun, time.monotonic() - begun))
        except OSError:
            pass


def throughput(server, seconds, viewers=24):
    """Tiles a second, and the time within which 99 of 100 come that are asked after the first second."""
    times, begun = [], time.monotonic()
    threads = [threading.Thread(target=view, args=(server.port, begun + seconds, seed, times)) for seed in range(viewers)]
    for thread in threads:
        thread.start()
    for thread in threads:
        thread.join()
    late = sorted(took for at, took in times if at > begun + 1)
    return len(times) / seconds, late[len(late) * 99 // 100] if late else float("inf")


def hung_beside_dead(program, room):
    """Throughput at one of three nodes while another hangs, and then while it is dead, and the time of 99 in 100 of each."""
    with Cluster(program, room, ["a", "b", "c"], ["--cache-bytes", 0]) as nodes:
        throughput(nodes["a"], 1)
        nodes["c"].send_signal(signal.SIGSTOP)
        hung, slow = throughput(nodes["a"], 12)
        nodes["c"].stop()
        time.sleep(2)
        throughput(nodes["a"], 2)
        dead, usual = throughput(nodes["a"], 12)
        return (hung, slow), (dead, usual)


def overview(server):
    """Seconds of an overview of 256 tiles."""
    begun = time.monotonic()
    with connect(server.port, 120) as link:
        link.sendall(encode_request("/iiif/p/full/512,/0/default.tif"))
        if not is_answered(link):
            return float("inf")
    return time.monotonic() - begun


def hang(node):
    node.send_signal(signal.SIGSTOP)


def first_overview(program, room, act, wait, options):
    """Seconds of the first overview at one of two nodes, so long after that became of the other."""
    with Cluster(program, room, ["a", "b"], ["--cache-bytes", 0, *options]) as nodes:
        # Until each has seen the other.
        time.sleep(1)
        act(nodes["b"])
        time.sleep(wait)
        return overview(nodes["a"])


def silent_beside_dead(program, room, options=()):
    """Seconds of the first overview at one of two nodes once the other hung for a second, which only looks can have found by then; once it
    is dead; and at the moment when it hangs. The first two are the medians of three each."""

    def middle(act):
        return sorted(first_overview(program, room, act, 1, options) for _ in range(3))[1]

    return middle(hang), middle(Server.stop), first_overview(program, room, hang, 0, options)


def page(port, target):
    """The status and the body of what is told at a listener."""
    status, body = ask(port, target, 10)
    return status, body.decode()


def told_of_hung(program, room):
    """What a node tells of one that hangs, once an overview was asked for: its page of counters, its health, and its log."""
    statistics, peers = free_ports(2)
    with Server(program, [f"p={room}/peers.tif"], ["--peer-listen", f"127.0.0.1:{peers}", "--name", 'b"\\b']) as hung:
        hung.send_signal(signal.SIGSTOP)
        words = ["--log", "--stats-listen", f"127.0.0.1:{statistics}", "--peer-timeout", 100, "--peer", f'b"\\b=127.0.0.1:{peers}']
        with Server(program, [f"p={room}/peers.tif"], words) as server:
            overview(server)
            metrics, health = page(statistics, "/metrics"), page(statistics, "/health")
            time.sleep(0.5)
            return metrics, health, server.text()


def sum_ask(level, width, height):
    """An ask for the sums of a whole picture in its own size."""
    return wire.ask(1, 2, wire.sum_key(b"p", EDGE, (0, 0, width, height), (width, height), level, 0, 0))


def one_ask(program, room, side=2890):
    """How far memory grows by one ask of level 20, and how long its value is."""
    port = free_port()
    options = ["--name", "a", "--peer-listen", f"127.0.0.1:{port}", "--cache-bytes", 0]
    with Server(program, [f"p={room}/peers.tif"], options) as server, Peak(server) as peak:
        with connect(port, 100) as link:
            link.sendall(sum_ask(20, side, side))
            while link.recv(1 << 20):
                if peak.server.process.poll() is not None:
                    break
                if not waits(link):
                    break
    return peak.grown(), 17 + 8 * side * side


def waits(link):
    """Whether more comes within two seconds."""
    link.settimeout(2)
    try:
        return bool(link.recv(1, socket.MSG_PEEK))
    except TimeoutError:
        return False
    finally:
        link.settimeout(100)


def announce(listener, over, sent):
    """A node that replies to each ask with a value of 64 MiB, of which all is sent but a little."""
    block = bytes(1 << 20)

    def reply(link):
        with link:
            head = link.recv(9)
            if len(head) < 9:
                return
            key = link.recv(struct.unpack(">I", head[5:9])[0])
            link.sendall(b"IGR" + head[3:4] + struct.pack(">I", len(key)) + key + b"\0" + struct.pack(">I", 1 << 26))
            for _ in range(63):
                link.sendall(block)
                sent.append(len(block))
            over.wait(3)

    def replying(link):
        try:
            reply(link)
        except OSError:
            pass

    listener.settimeout(0.2)
    while not over.is_set():
        try:
            link, _ = listener.accept()
        except TimeoutError:
            continue
        except OSError:
            return
        link.settimeout(20)
        threading.Thread(target=replying, args=(link,), daemon=True).start()


def grown_beside(program, room, port, asks):
    """How far memory grows at a node that asks for tiles at a port, so many at once, for four seconds."""
    options = ["--name", "a", "--peer", f"b=127.0.0.1:{port}", "--cache-bytes", 0]
    with Server(program, [f"p={room}/peers.tif"], options) as server, Peak(server) as peak:
        throughput(server, 4, asks)
    return peak.grown()


def announced(program, room, asks=12):
    """How far memory grows at a node whose peer announces 64 MiB for each tile, so many at once; and at one whose peer is dead."""
    dead = grown_beside(program, room, free_port(), asks)
    with socket.create_server(("127.0.0.1", 0)) as listener:
        over, sent = threading.Event(), []
        replying = threading.Thread(target=announce, args=(listener, over, sent), daemon=True)
        replying.start()
        grown = grown_beside(program, room, listener.getsockname()[1], asks)
        over.set()
        replying.join()
    return grown, dead, len(sent)


def is_replied(port):
    """Whether an ask for the sums of the sample is replied to, or refused in so many words."""
    with connect(port, 2) as link:
        link.sendall(sum_ask(0, 4, 4))
        return link.recv(4) == b"IGR1"


def is_healthy(port):
    return page(port, "/health")[0] == 200


def answered_beside_idle(program, listener):
    """How many of five others, one a second, are answered at a listener where 64 connections say nothing, and come again where they are closed."""
    port = free_port()
    with Server(program, ["p=:sample"], [listener, f"127.0.0.1:{port}"]):
        over = threading.Event()
        for _ in range(64):
            threading.Thread(target=keep_idle, args=(port, over), daemon=True).start()
        time.sleep(1)
        right = 0
        for _ in range(5):
            try:
                right += is_healthy(port) if listener == "--stats-listen" else is_replied(port)
            except (OSError, IndexError, ValueError):
                pass
            time.sleep(1)
        over.set()
        return right


def keep_idle(port, over):
    """A connection that says nothing, and comes again where it is closed."""
    while not over.is_set():
        try:
            with connect(port, 5) as link:
                link.recv(1)
        except OSError:
            pass
        over.wait(0.2)


def stranger(program):
    """Whether who comes from no other node's address is closed by a node that takes those alone, and how many such it counted."""
    peers, statistics = free_ports(2)
    words = ["--peer-listen", f"127.0.0.1:{peers}", "--stats-listen", f"127.0.0.1:{statistics}", "--peer", "b=127.0.0.9:1", "--peer-only"]
    with Server(program, ["s=:sample"], words):
        with connect(peers, 10) as link:
            closed = link.recv(1) == b""
        text = page(statistics, "/metrics")[1]
    counted = next(line for line in text.splitlines() if line.startswith('iiif_connections_refused_total{listener="peers"}'))
    return closed, int(counted.split()[1])
