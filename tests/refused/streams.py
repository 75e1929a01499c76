"""A listening server whose growths of memory are refused one by one: the control, the streams of requests, and what may come of them."""
import mmap
import os
import struct
import subprocess
import sys

HERE = os.path.dirname(os.path.abspath(__file__))
TESTS = os.path.join(HERE, "..")
sys.path[:0] = [TESTS, os.path.join(TESTS, "hostile")]
from parts import Part  # noqa: E402
import files  # noqa: E402
import images  # noqa: E402
import tiff  # noqa: E402
from lib import server as running  # noqa: E402

MOST = 20_000


def built(room):
    """The library that refuses growths, built into a folder."""
    library = os.path.join(room, "refuse.so")
    subprocess.run(["cc", "-O2", "-shared", "-fPIC", "-o", library, os.path.join(HERE, "refuse.c"), "-ldl"], check=True)
    return library


class Control:
    """The file by which a program is told which growth is refused."""

    def __init__(self, room, library):
        path = os.path.join(room, "control")
        with open(path, "wb") as file:
            file.write(bytes(24))
        with open(path, "r+b") as file:
            self.shared = mmap.mmap(file.fileno(), 24)
        self.env = {"LD_PRELOAD": library, "REFUSE_CONTROL": path}

    def growths(self):
        """The growths to be refused, one after another."""
        return range(1, MOST)

    def refuse(self, n):
        """The n-th growth from now on is refused; none with 0."""
        self.shared[:24] = struct.pack("<3q", n, 0, 0)

    def refused(self):
        return struct.unpack_from("<q", self.shared, 8)[0] > 0


def count(kinds, what):
    kinds[what] = kinds.get(what, 0) + 1


def said(kinds):
    return ", ".join(f"{number} {what}" for what, number in sorted(kinds.items()))


THREE = [(b"GET", b"/iiif/a"), (b"POST", b"/iiif/a"), (b"HEAD", b"/iiif/a/full/max/0/default.tif")]
BROKEN = [(b"GET", b"/iiif/a%2/full/max/0/default.tif"), (b"GET", b"/iiif/zz/bad/max/0/default.tif")]
PLANS = [(b"GET", b"/iiif/a/" + words + b"/0/default.tif")
         for words in (b"full/max", b"full/1,1", b"1,1,3,3/2,2", b"full/1,1", b"full/max")]
STREAMS = {"three requests": THREE, "sample's image": [(b"GET", b"/iiif/a/full/max/0/default.tif")],
           "half width": [(b"GET", b"/iiif/a/full/2,/0/default.tif")],
           "turned bits": [(b"GET", b"/iiif/a/full/3,3/!90/bitonal.tif")], "info.json": [(b"GET", b"/iiif/a/info.json")],
           "a broken escape and an unknown name": BROKEN, "plans of tiles, of blocks, and the same again": PLANS,
           "first tile": [(b"GET", b"/iiif/a/0,0,2,2/max/0/default.tif")],
           "two images": [(b"GET", b"/iiif/a/full/2,/0/default.tif"), (b"GET", b"/iiif/a/full/max/0/gray.tif")]}


def want_of_memory(method, close):
    return images.whole(500, "text/plain", None, b"L2 memory\n", close, method != b"HEAD")


def stream_kind(calls, own, got):
    """What a connection with a refusal came to, or nothing where it isn't allowed."""
    kinds, at = [], 0
    for (method, _), answer in zip(calls, own):
        rest = got[at:]
        if not rest:
            return "+".join(kinds + ["closed"])
        if rest.startswith(answer):
            at += len(answer)
            kinds.append("own")
            continue
        if rest in (want_of_memory(method, True), want_of_memory(b"GET", True)):
            # A head that no memory was left for is answered by L2 and its body, whatever its method would have been.
            return "+".join(kinds + ["L2 closes"])
        told = want_of_memory(method, False)
        if not rest.startswith(told):
            return "+".join(kinds + ["cut"]) if answer.startswith(rest) else None
        at += len(told)
        kinds.append("L2")
    return "+".join(kinds) if at == len(got) else None


def book_faults(port):
    """What isn't as it has to be in a program's books once nothing is under way: each call met a value, joined a load or began one, and
    each load that began has ended."""
    told, found = running.read_counters(port), []
    for front in ("iiif_tile_cache_", "iiif_sum_cache_"):
        gets, hits, joins, leads, landed = (told[f"{front}{name}_total"] for name in ("gets", "hits", "joins", "leads", "landed"))
        if gets != hits + joins + leads or leads != landed:
            found.append(f"{front}: {gets} gets, {hits} hits, {joins} joins, {leads} leads, {landed} landed")
    return found


class Node:
    """A server over the sample, whose growths are refused by a control; its answers are compared with those of the evaluation."""

    def __init__(self, program, control, path, options):
        self.program, self.control, self.options, self.path = program, control, ["--edge", "2", *options], path
        self.answers = images.Answers(running.BASE, {"a": tiff.judge(files.SAMPLE)}, 2, 4096, False)
        self.stats = None

    def started(self):
        """A server with a port of its own for counters."""
        self.stats = running.free_port()
        return running.Server(self.program, ["a=" + self.path], self.options, self.control.env, statistics=self.stats)

    def start(self):
        self.control.refuse(0)
        server = running.start(self.started)
        self.sent(server, [(b"GET", b"/")])
        return server

    def sent(self, server, calls):
        return server.exchange([b"".join(b"%s %s HTTP/1.1\r\nHost: localhost\r\n\r\n" % call for call in calls)])

    def tried(self, server, calls, n):
        """The n-th growth refused, and then the same again: whether one was refused, what came, and what is wrong."""
        own = [self.answers.answer(*call) for call in calls]
        self.control.refuse(n)
        got, ended = self.sent(server, calls)
        met = self.control.refused()
        self.control.refuse(0)
        kind = stream_kind(calls, own, got) if ended else None
        again, _ = self.sent(server, calls)
        wrong = []
        if kind is None:
            wrong.append(f"growth {n}: {got[:200]!r}, {'' if ended else 'not '}closed")
        if again != b"".join(own):
            wrong.append(f"growth {n}, asked again: {again[:200]!r}")
        if not server.alive():
            wrong.append(f"growth {n}: the server ended, {server.line()!r}")
        elif self.stats:
            wrong += [f"growth {n}: {fault}" for fault in book_faults(self.stats)]
        return met, kind or "OTHER", wrong

    def cold(self, calls):
        kinds, wrong = {}, []
        for n in self.control.growths():
            with self.start() as server:
                met, kind, faults = self.tried(server, calls, n)
            wrong += faults
            if not met:
                return kinds, wrong
            count(kinds, kind)
        return kinds, wrong

    def warm(self, calls):
        kinds, wrong = {}, []
        with self.start() as server:
            for n in self.control.growths():
                met, kind, faults = self.tried(server, calls, n)
                wrong += faults
                if not met or not server.alive():
                    break
                count(kinds, kind)
        return kinds, wrong


def sample_in(room):
    """The sample's file."""
    path = os.path.join(room, "sample.tif")
    with open(path, "wb") as file:
        file.write(files.SAMPLE)
    return path


def parts(program, options):
    """The streams of requests, each on a new server for each refusal, and on one."""
    return [part_of(program, options, name, where) for name in STREAMS for where in ("new servers", "one server")]


def part_of(program, options, name, where):
    """One stream of requests."""
    def run(control, room):
        node = Node(program, control, sample_in(room), options)
        return (node.cold if where == "new servers" else node.warm)(STREAMS[name])

    return Part("connections", f"{where}, {name}", run)
