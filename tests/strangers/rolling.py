"""Nodes that are restarted or reloaded one after another, each with a new file under an old name, while viewers ask all of them."""
import os
import random
import subprocess
import sys
import threading
import time

sys.path.insert(0, os.path.join(os.path.dirname(os.path.abspath(__file__)), ".."))
from lib import tiff  # noqa: E402
from lib.server import Server, connect, encode_request, free_ports, read_answer, read_counters  # noqa: E402

SIDE, EDGE, NAMES = 4096, 256, ("a", "b", "c")
OLD, NEW = 40, 200
TARGETS = [("full/512,", 512), ("0,0,2048,2048/512,", 512), ("512,1024,256,256/256,", 256), ("2048,0,2048,4096/256,", 256)]


def samples(port, region, width):
    """The samples of one image: one, where it is that of the old or of the new file. None where no image came whole."""
    try:
        with connect(port, 60) as link:
            link.sendall(encode_request(f"/iiif/p/{region}/0/default.tif"))
            status, body = read_answer(link)
    except OSError:
        return None
    if status != 200 or body is None:
        return None
    height = 2 * width if region.startswith("2048,0") else width
    for value in (OLD, NEW):
        if body == tiff.Answer(width, height, 1, 8, bytes([value]) * (width * height)).encode():
            return {value}
    return set(body)


class Ring:
    """Nodes that each have a copy of one picture of their own."""

    def __init__(self, program, room, options):
        self.program, self.room, self.options = program, room, options
        ports = free_ports(3 * len(NAMES))
        self.ports, self.peers, self.stats = (dict(zip(NAMES, ports[at::3])) for at in range(3))
        self.nodes = {}
        for value in (OLD, NEW):
            tiff.write_flat(self.file(value), SIDE, SIDE, edge=EDGE, sample=value)
            os.utime(self.file(value), ns=(value * 10 ** 9, value * 10 ** 9))

    def file(self, value):
        return f"{self.room}/version-{value}.tif"

    def list_file(self, name, value):
        """Writes a node's list of images, whole at once, with the file of these samples, and returns its path."""
        path = f"{self.room}/list-of-{name}"
        with open(path + ".new", "w", encoding="utf-8") as file:
            file.write(f"p={self.file(value)}\n")
        os.replace(path + ".new", path)
        return path

    def start(self, name, value):
        """Starts a node over the file with these samples, whose times all copies have."""
        words = ["--name", name, "--peer-listen", f"127.0.0.1:{self.peers[name]}", "--stats-listen", f"127.0.0.1:{self.stats[name]}"]
        words += [word for other in NAMES if other != name for word in ("--peer", f"{other}=127.0.0.1:{self.peers[other]}")]
        words += ["--control", f"{self.room}/{name}.socket", "--images", self.list_file(name, value), "--log", *self.options]
        self.nodes[name] = Server(self.program, [], words, port=self.ports[name])

    def restart(self, name, value):
        """Kills a node, and starts it over the file with these samples."""
        self.stop(name)
        self.start(name, value)

    def reload(self, name, value):
        """Has a node serve the file with these samples from now on."""
        self.list_file(name, value)
        subprocess.run([self.program, "--tell", f"{self.room}/{name}.socket", "reload"], check=True, capture_output=True, timeout=60)

    def stop(self, name):
        self.nodes.pop(name).stop()

    def __enter__(self):
        for name in NAMES:
            self.start(name, OLD)
        return self

    def __exit__(self, *_):
        for name in list(self.nodes):
            self.stop(name)


def view(ring, seed, over, seen):
    """Asks random nodes for random images until the end, and notes the samples of each."""
    chance = random.Random(seed)
    while not over.is_set():
        found = samples(ring.ports[chance.choice(NAMES)], *chance.choice(TARGETS))
        if found is not None:
            seen.append(found)


def renewed(program, room, options, renew):
    """How many images came while the nodes were renewed so, one after another; how many of them had samples of both files, how many
    afterwards weren't of the new one alone, and how often nodes told of another version."""
    with Ring(program, room, options) as ring:
        over, seen = threading.Event(), []
        threads = [threading.Thread(target=view, args=(ring, seed, over, seen)) for seed in range(6)]
        for thread in threads:
            thread.start()
        told = 0
        for name in NAMES:
            time.sleep(2)
            renew(ring, name, NEW)
            time.sleep(2)
            told = max(told, *(other_versions(ring.stats[it]) for it in NAMES))
            # A slow machine asks another node less often while their versions differ.
            ends = time.monotonic() + 60
            while name == NAMES[0] and told == 0 and time.monotonic() < ends:
                time.sleep(0.5)
                told = max(other_versions(ring.stats[it]) for it in NAMES)
        over.set()
        for thread in threads:
            thread.join()
        last = [samples(ring.ports[name], *target) for name in NAMES for target in TARGETS]
        mixed = sum(len(it) > 1 for it in seen)
        return len(seen), mixed, sum(it != {NEW} for it in last), told


def other_versions(port):
    return read_counters(port).get("iiif_images_other_versions_total", 0)
