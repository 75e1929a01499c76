#!/usr/bin/env python3
"""Records runs of nodes, and has iiif-judge judge them.

    tests/record/run.py SERVE REPLAY                # all runs: SERVE is iiif_serve, REPLAY is iiif_replay
    tests/record/run.py SERVE REPLAY --runs one,cut # these
    tests/record/run.py SERVE REPLAY --refused      # of a server with a wrong body: each run may be refused, and one of them has to be

Each run has small caches and a small edge, so that what is kept changes often. The status is 0 where each run is accepted (with --refused:
where one isn't), else 1.
"""
import argparse
import os
import random
import shutil
import subprocess
import sys
import tempfile
import threading
import time

HERE = os.path.dirname(os.path.abspath(__file__))
sys.path.insert(0, os.path.join(HERE, ".."))
from lib import tiff  # noqa: E402
from lib.server import Server, ask, connect, encode_request, free_port, reset  # noqa: E402

JUDGE = os.path.join(HERE, "..", "..", "packaging", "iiif-judge")
WIDTH, HEIGHT = 64, 48
TARGETS = ["full/max", "0,0,40,32/max", "12,10,40,30/max", "full/30,", "full/20,15", "8,4,48,40/21,", "full/9,", "square/max",
           "32,16,32,32/max", "full/13,"]
# What no image is, or none that is served, and what is no call.
HOSTILE = ["/iiif/p/full/max/0/default.jpg", "/iiif/p/0,0,0,0/max/0/default.tif", "/iiif/p/full/^99999,/0/default.tif", "/iiif/none/full/max/0/default.tif",
           "/iiif/p/%/max/0/default.tif", "/iiif/p/full/max/45/default.tif", "/", "/iiif/p/info.json", "/iiif/p/99,99,1,1/max/0/default.tif"]


class Nodes:
    """Nodes on one ring, each with records of its runs."""

    def __init__(self, room, serve, names, workers=4):
        self.room, self.serve, self.names, self.workers = room, serve, names, workers
        self.ports = [(free_port(), free_port()) for _ in names]
        self.running = [None] * len(names)
        self.records = []
        self.picture = os.path.join(room, "p.tif")
        samples, strip = random.Random(1).randbytes(WIDTH * HEIGHT * 3), WIDTH * 16 * 3
        pieces = [samples[at:at + strip] for at in range(0, len(samples), strip)]
        with open(self.picture, "wb") as file:
            file.write(tiff.encode_pieces(WIDTH, HEIGHT, pieces, channels=3, strip=16))

    def start(self, node):
        record = os.path.join(self.room, "%s.%d" % (self.names[node], len(self.records)))
        words = ["--edge", 8, "--cache-bytes", 2600, "--workers", self.workers, "--band", 16, "--record", record]
        if len(self.names) > 1:
            words += ["--name", self.names[node], "--peer-listen", "127.0.0.1:%d" % self.ports[node][1]]
            for other, name in enumerate(self.names):
                if other != node:
                    words += ["--peer", "%s=127.0.0.1:%d" % (name, self.ports[other][1])]
        self.records.append(record)
        self.running[node] = Server(self.serve, ["p=" + self.picture], words, port=self.ports[node][0])

    def kill(self, node):
        self.running[node].stop()
        self.running[node] = None

    def get(self, node, target):
        try:
            return ask(self.ports[node][0], target)[0]
        except OSError:
            return None

    def crowd(self, count, each, seed=5, hostile=False, nodes=None):
        """Begins so many clients, each of which asks so often."""
        def work(k):
            chance = random.Random(seed * 100 + k)
            for _ in range(each):
                node = chance.choice(nodes or range(len(self.names)))
                if hostile and chance.random() < 0.6:
                    self.get(node, chance.choice(HOSTILE))
                else:
                    self.get(node, "/iiif/p/%s/0/default.tif" % chance.choice(TARGETS))
        all_of = [threading.Thread(target=work, args=(k,)) for k in range(count)]
        for one in all_of:
            one.start()
        return all_of

    def leave(self, seed):
        """Viewers that ask for an image and reset their connection."""
        chance = random.Random(seed)
        for _ in range(5):
            try:
                viewer = connect(self.ports[0][0])
                viewer.sendall(encode_request("/iiif/p/%s/0/default.tif" % chance.choice(TARGETS)))
                time.sleep(0.05 * chance.random())
                reset(viewer)
            except OSError:
                pass

    def end(self):
        for node, running in enumerate(self.running):
            if running is not None:
                self.kill(node)


def wait_for(clients):
    for one in clients:
        one.join()


def run_one(nodes):
    """One node with four workers and small caches."""
    nodes.start(0)
    wait_for(nodes.crowd(8, 4))


def run_three(nodes):
    """Three nodes, one of them killed and started anew."""
    for node in range(3):
        nodes.start(node)
    clients = nodes.crowd(6, 4)
    time.sleep(1)
    nodes.kill(2)
    time.sleep(0.5)
    nodes.start(2)
    wait_for(clients + nodes.crowd(4, 2, seed=77))


def run_cut(nodes):
    """A file that is cut short in mid-run."""
    nodes.start(0)
    wait_for(nodes.crowd(4, 3))
    os.truncate(nodes.picture, os.path.getsize(nodes.picture) // 2)
    wait_for(nodes.crowd(6, 4, seed=9))


def run_gone(nodes):
    """Viewers that go away."""
    nodes.start(0)
    clients = nodes.crowd(4, 3)
    leaving = [threading.Thread(target=nodes.leave, args=(k,)) for k in range(4)]
    for one in leaving:
        one.start()
    wait_for(clients + leaving)
    time.sleep(1)


def run_hostile(nodes):
    """An adversarial crowd."""
    nodes.start(0)
    wait_for(nodes.crowd(16, 8, hostile=True))


RUNS = {"one": (run_one, 1), "three": (run_three, 3), "cut": (run_cut, 1), "gone": (run_gone, 1), "hostile": (run_hostile, 1)}


def main():
    parser = argparse.ArgumentParser(description="Records runs of nodes, and has iiif-judge judge them.")
    parser.add_argument("serve")
    parser.add_argument("replay")
    parser.add_argument("--runs", default=",".join(RUNS))
    parser.add_argument("--refused", action="store_true")
    parser.add_argument("--keep", metavar="FOLDER", help="leaves the records and the lists there")
    arguments = parser.parse_args()
    refused = 0
    for name in arguments.runs.split(","):
        run, count = RUNS[name]
        room = tempfile.mkdtemp(prefix="record-")
        nodes = Nodes(room, os.path.abspath(arguments.serve), ["n%d" % n for n in range(count)] if count > 1 else ["self"])
        begun = time.time()
        try:
            run(nodes)
        finally:
            nodes.end()
        ran = time.time()
        done = subprocess.run([sys.executable, JUDGE, "--replay", os.path.abspath(arguments.replay), "--list", os.path.join(room, "list"), *nodes.records],
                              stdout=subprocess.PIPE, stderr=subprocess.STDOUT, check=False)
        said = done.stdout.decode().strip().split("\n")
        print("%s, %.1f s, judged in %.1f s: %s" % (name, ran - begun, time.time() - ran, "; ".join(said)), flush=True)
        if done.returncode == 2:
            return 1
        refused += done.returncode
        if arguments.keep:
            shutil.copytree(room, os.path.join(arguments.keep, name), dirs_exist_ok=True)
        shutil.rmtree(room)
    return int((refused > 0) != arguments.refused)


if __name__ == "__main__":
    sys.exit(main())
