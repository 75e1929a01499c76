"""Viewers for some minutes over a file larger than the caches, beside clients that stop reading, drip, and vanish.

    /usr/bin/python3 tests/soak/soak.py --program crates/iiif_serve/out/iiif_serve --viewers 64 --seconds 600

First the caches are filled: eight viewers ask for twice as many tiles, and for twice as many overviews, as they hold. Then the --seconds
begin. Each whole answer of an honest viewer is compared by SHA-256 with one that `pictures` works out without the program. Where the program
has peers, a second node is started with the same file, killed every --every seconds and started again 5 seconds later. An answer that
ends early is counted, and wrong where it isn't the front of the right one while the server stayed alive; a connection that is closed
before its first answer is counted as turned away, and tried again.

Prints how many answers there were, the honest viewers' latency (median, 99 in 100, the longest), what became of the others, and resident
memory and open files before, with full caches, at the greatest and afterwards. The status is 1 where an answer was wrong, the server ended,
open files stayed, or more memory stayed than docs/operate/OPERATING.md, Sizing, has of a program that nobody asks: that is of
GLIBC_TUNABLES=glibc.malloc.hugetlb=1:glibc.malloc.arena_max=1:glibc.malloc.mmap_threshold=8388608:glibc.malloc.trim_threshold=134217728 in the
environment, as the package's unit sets it.
"""
import argparse
import asyncio
import hashlib
import os
import random
import signal
import socket
import struct
import sys
import tempfile
import time

import pictures

sys.path.insert(0, os.path.join(os.path.dirname(os.path.abspath(__file__)), ".."))
from lib import server as running  # noqa: E402


class Soak:
    """What the clients share."""

    def __init__(self, args, picture, server):
        self.args, self.picture, self.port, self.server = args, picture, server.port, server
        self.deadline = time.monotonic() + args.seconds
        self.right = self.cut = self.away = 0
        self.wrong, self.latencies, self.others, self.known = [], [], {}, {}

    def over(self):
        return time.monotonic() >= self.deadline or not self.server.alive()

    def count(self, what):
        self.others[what] = self.others.get(what, 0) + 1

    def call(self, chance):
        """A random call."""
        step = min(self.picture.across, chance.choices([1, 2, 4, 8, 16, 32, 64], [50, 20, 12, 8, 5, 3, 2])[0])
        many = self.picture.across // step
        return self.told(step, chance.randrange(many), chance.randrange(many), chance.choice([0, 0, 0, 0, 1, 2, 3]), chance.random() < 0.1)

    def told(self, *key):
        """A call's target, and the length and the digest of its answer."""
        if key not in self.known:
            target, answer = self.picture.answer("big", *key)
            self.known[key] = target, len(answer), hashlib.sha256(answer).digest()
        return self.known[key]

    async def links(self, rest, refused=lambda: None):
        """One new connection after another; after one that couldn't be had it waits for `rest` seconds."""
        while not self.over():
            try:
                link = await asyncio.open_connection("127.0.0.1", self.port)
            except OSError:
                refused()
                await asyncio.sleep(rest)
                continue
            yield link

    def turned_away(self):
        self.away += 1

    def rejected(self, target, got, length, digest):
        """Whether what came is another answer than the right one or its front."""
        if len(got) == length:
            return hashlib.sha256(got).digest() != digest
        key = next(key for key, known in self.known.items() if known[0] == target)
        return not self.picture.answer("big", *key)[1].startswith(got)

    async def viewer(self, number):
        """Asks for one tile after another, some on each connection."""
        chance = random.Random(f"{self.args.seed} {number}")
        async for reader, writer in self.links(0.05, self.turned_away):
            for n in range(chance.randint(1, 50)):
                if self.over() or not await self.asked(self.call(chance), reader, writer, n):
                    break
            writer.close()

    async def each(self, keys):
        """Asks for these one after another, on a new connection where one has ended."""
        link = None
        for key in keys:
            link = link or await asyncio.open_connection("127.0.0.1", self.port)
            if not await self.asked(self.told(*key), *link, 1):
                link[1].close()
                link = None
        if link:
            link[1].close()

    async def asked(self, call, reader, writer, n):
        """One call; whether another one may follow."""
        target, length, digest = call
        start, got = time.monotonic(), b""
        try:
            writer.write(f"GET {target} HTTP/1.1\r\nHost: localhost\r\n\r\n".encode())
            await writer.drain()
            got = await asyncio.wait_for(reader.readexactly(length), self.args.patience)
        except asyncio.IncompleteReadError as error:
            got = error.partial
        except (OSError, asyncio.TimeoutError) as error:
            self.count(f"viewers: {type(error).__name__}")
        if len(got) == length:
            self.latencies.append(time.monotonic() - start)
        if got and self.rejected(target, got, length, digest):
            self.wrong.append(f"{target}: {got[:120]!r}, {len(got)} of {length} bytes")
        elif len(got) == length:
            self.right += 1
            return True
        elif got:
            self.cut += 1
        else:
            self.away += 1
            await asyncio.sleep(0.05 if n == 0 else 0)
        return False

    async def stalled(self, number):
        """Asks for a large image, and reads nothing for as long as the connection is held."""
        while not self.over():
            link = socket.socket()
            link.setsockopt(socket.SOL_SOCKET, socket.SO_RCVBUF, 4096)
            link.setblocking(False)
            loop = asyncio.get_running_loop()
            try:
                await asyncio.wait_for(loop.sock_connect(link, ("127.0.0.1", self.port)), 5)
                await loop.sock_sendall(link, b"GET /iiif/big/full/4096,4096/0/default.tif HTTP/1.1\r\n\r\n")
                self.count("stalled")
                await asyncio.sleep(min(45, max(0, self.deadline - time.monotonic())))
            except (OSError, asyncio.TimeoutError):
                await asyncio.sleep(0.2)
            link.close()

    async def dripping(self, number):
        """Sends a head byte by byte."""
        chance = random.Random(f"{self.args.seed} d{number}")
        async for reader, writer in self.links(0.2):
            target, length, digest = self.call(chance)
            try:
                for byte in f"GET {target} HTTP/1.1\r\n\r\n".encode():
                    writer.write(bytes([byte]))
                    await writer.drain()
                    await asyncio.sleep(self.args.drip)
                    if self.over():
                        break
                else:
                    got = await asyncio.wait_for(reader.readexactly(length), self.args.patience)
                    if hashlib.sha256(got).digest() != digest:
                        self.wrong.append(f"{target}, sent byte by byte: {got[:120]!r}")
                    self.count("dripping, answered")
            except (OSError, asyncio.TimeoutError, asyncio.IncompleteReadError):
                self.count("dripping, closed")
                await asyncio.sleep(0.2)
            writer.transport.abort()

    async def vanishing(self, number):
        """Asks, reads a part at most, and is gone without a word."""
        chance = random.Random(f"{self.args.seed} v{number}")
        async for reader, writer in self.links(0.2):
            try:
                writer.get_extra_info("socket").setsockopt(socket.SOL_SOCKET, socket.SO_LINGER, struct.pack("ii", 1, 0))
                writer.write(f"GET {self.call(chance)[0]} HTTP/1.1\r\n\r\n".encode() * chance.choice([1, 1, 5]))
                await writer.drain()
                if chance.random() < 0.7:
                    await asyncio.wait_for(reader.read(chance.choice([1, 100, 30000])), 1)
                self.count("vanished in mid-answer")
            except (OSError, asyncio.TimeoutError):
                self.count("vanished before an answer")
            writer.transport.abort()
            await asyncio.sleep(chance.random() * 0.5)


class Peer:
    """A second node with the same file, that is killed and started again."""

    def __init__(self, args, words, ports):
        self.args, self.words, self.ports, self.kills, self.server = args, words, ports, 0, None
        self.start()

    def start(self):
        self.server = running.Server(self.args.program, self.words, node_options(self.args, "b", "a", self.ports))

    async def run(self, soak):
        while not soak.over():
            await asyncio.sleep(min(self.args.every, max(0.1, soak.deadline - time.monotonic())))
            if soak.over():
                break
            self.server.process.send_signal(signal.SIGKILL)
            self.server.process.wait()
            self.kills += 1
            await asyncio.sleep(5)
            self.start()


def node_options(args, own, other, ports):
    return [*args.options.split(), "--name", own, "--peer", f"{other}=127.0.0.1:{ports[other]}", "--peer-listen", f"127.0.0.1:{ports[own]}"]


def option(args, name, default):
    """The number behind an option of the program."""
    words = args.options.split()
    return int(words[words.index(name) + 1]) if name in words else default


def stays_at_most(args, picture):
    """The bytes that may be resident where nobody asks, by docs/operate/OPERATING.md, Sizing: the caches and their entries, what was read ahead, what
    the C library keeps of what the workers gave back, the program, and its list of the picture's tiles."""
    caches, workers = option(args, "--cache-bytes", 2 ** 26), option(args, "--workers", 2)
    return 2 * caches + 512 * 16_384 + (24 + 8 * workers + 4) * 2 ** 20 + 4 * picture.across ** 2


async def filled(soak):
    """Asks for tiles and for overviews at half the scale, twice as much of each as its cache holds, or all that there is."""
    picture, caches = soak.picture, option(soak.args, "--cache-bytes", 2 ** 26)
    keys = []
    for step, size in ((1, pictures.EDGE ** 2), (2, 8 * pictures.EDGE ** 2)):
        many = picture.across // step
        keys += [(step, n % many, n // many, 0, False) for n in range(min(many ** 2, 2 * caches // size))]
    await asyncio.gather(*(soak.each(keys[n::8]) for n in range(8)))


async def watched(soak):
    """The greatest resident memory and number of open files, once a second."""
    memory = files = 0
    while not soak.over():
        memory, files = max(memory, soak.server.resident()), max(files, soak.server.files())
        await asyncio.sleep(1)
    return memory, files


async def clients(soak, peer):
    args = soak.args
    kinds = [(soak.viewer, args.viewers), (soak.stalled, args.stalled), (soak.dripping, args.dripping), (soak.vanishing, args.vanishing)]
    tasks = [asyncio.create_task(kind(n)) for kind, many in kinds for n in range(many)]
    if peer:
        tasks.append(asyncio.create_task(peer.run(soak)))
    greatest = await watched(soak)
    _, late = await asyncio.wait(tasks, timeout=args.patience + 10)
    for task in late:
        task.cancel()
    for task in tasks:
        if task.done() and not task.cancelled() and task.exception():
            soak.wrong.append(f"a client of this script failed: {task.exception()!r}")
    return greatest


def mib(count):
    return f"{count / 2 ** 20:.1f} MiB"


def report(soak, before, full, greatest, after, most, peer):
    times = sorted(soak.latencies) or [0]
    print(f"{soak.right} whole answers right, {len(soak.wrong)} wrong, {soak.cut} ended early, {soak.away} turned away, in {soak.args.seconds} s")
    print("latency of whole answers: median {:.1f} ms, 99 in 100 {:.1f} ms, longest {:.1f} ms".format(
        *(1000 * times[min(len(times) - 1, int(len(times) * part))] for part in (0.5, 0.99, 1))))
    print("others: " + (", ".join(f"{what} {count}" for what, count in sorted(soak.others.items())) or "none"))
    print(f"resident memory: {mib(before[0])} before, {mib(full[0])} with full caches, {mib(greatest[0])} at the greatest, {mib(after[0])} afterwards, "
          f"where {mib(most)} may stay; open files: {before[1]}, {full[1]}, {greatest[1]}, {after[1]}")
    print(f"second node killed {peer.kills} times" if peer else "left out: the program has no --peer-listen")


def main():
    parser = argparse.ArgumentParser(description=__doc__, formatter_class=argparse.RawDescriptionHelpFormatter)
    parser.add_argument("--program", required=True)
    parser.add_argument("--options", default="", help="more options of the program, in one word")
    for name, count, what in [("viewers", 64, "honest viewers"), ("stalled", 8, "clients that stop reading"), ("dripping", 8, "clients that send byte by byte"),
                              ("vanishing", 8, "clients that vanish"), ("seconds", 600, ""), ("every", 30, "seconds between two kills of the second node"),
                              ("patience", 60, "seconds that a viewer waits"), ("across", 64, "tiles of the picture along a side, a power of two; 64 make 256 MiB"),
                              ("seed", 1, "")]:
        parser.add_argument("--" + name, type=int, default=count, help=what)
    parser.add_argument("--drip", type=float, default=0.5, help="seconds between two bytes")
    args = parser.parse_args()
    picture = pictures.Picture(args.across, args.seed)
    with tempfile.TemporaryDirectory() as room:
        path = os.path.join(room, "big.tif")
        picture.write(path)
        words, peer, options = ["big=" + path], None, args.options.split()
        if "--peer-listen" in running.list_options(args.program):
            ports = {"a": running.free_port(), "b": running.free_port()}
            peer, options = Peer(args, words, ports), node_options(args, "a", "b", ports)
        try:
            with running.Server(args.program, words, options) as server:
                time.sleep(0.5)
                before = server.resident(), server.files()
                filling = Soak(args, picture, server)
                asyncio.run(filled(filling))
                full = (server.resident(), server.files()) if server.alive() else (0, 0)
                soak = Soak(args, picture, server)
                soak.wrong, soak.known = filling.wrong, filling.known
                greatest = asyncio.run(clients(soak, peer))
                left = server.files_left(before[1], 60) if server.alive() else 0
                after = (server.resident(), server.files()) if server.alive() else (0, 0)
                if not server.alive():
                    soak.wrong.append(f"the server ended: {server.process.returncode}, {server.line()!r}")
        finally:
            if peer:
                peer.server.stop()
        most = stays_at_most(args, picture)
        report(soak, before, full, greatest, after, most, peer)
    for line in soak.wrong[:20]:
        print(f"wrong: {line}", file=sys.stderr)
    return 1 if soak.wrong or left > 0 or after[0] > most else 0


if __name__ == "__main__":
    sys.exit(main())
