"""Attacks by whom many places are held: each runs against a server of its own for so many seconds, while others ask once a second."""
import os
import sys
import threading
import time

from places import asked_once

sys.path.insert(0, os.path.join(os.path.dirname(os.path.abspath(__file__)), ".."))
from lib.server import Server, connect, encode_request  # noqa: E402

PLACES = 64
# Where the crowd comes from. Others come from 127.0.0.1.
CROWD = "127.0.0.2"
LARGE = "/iiif/big/full/max/0/default.tif"
SMALL = "/iiif/s/info.json"


def others_answered(server, seconds):
    """How many of as many requests as there are seconds, one a second, are answered."""
    right = 0
    for _ in range(seconds):
        begun = time.monotonic()
        right += asked_once(server.port, SMALL, timeout=1) is not None
        time.sleep(max(0, begun + 1 - time.monotonic()))
    return right


def waits(server, most=10):
    """Seconds until one who comes is answered, and comes again where it isn't; so many at most. The next one comes a little later."""
    begun = time.monotonic()
    while time.monotonic() - begun < most:
        if asked_once(server.port, SMALL, timeout=1) is not None:
            took = time.monotonic() - begun
            time.sleep(0.3)
            return took
        time.sleep(0.02)
    return most


def keep_up(server, over, act, buffer=None, source=CROWD):
    """Connects and acts, and connects anew where the connection is closed."""
    while not over.is_set():
        try:
            with connect(server.port, 5, buffer, source) as link:
                act(link, over)
        except OSError:
            pass
        over.wait(0.2)


def read_slowly(link, over):
    """Takes 230 bytes a second of an answer of 50 MB."""
    link.sendall(encode_request(LARGE))
    while not over.wait(1):
        if not link.recv(230):
            return


def read_below_the_limit(link, over):
    """Takes 6,000 bytes a second of an answer of 50 MB."""
    link.sendall(encode_request(LARGE))
    if link.recv(1):
        over.begun.release()
    while not over.wait(0.2):
        if not link.recv(1200):
            return


def stay_idle(link, over):
    """Says nothing."""
    while not over.is_set():
        try:
            if not link.recv(1):
                return
        except TimeoutError:
            pass


def ask_now_and_then(link, over):
    """A HEAD each 4.5 seconds."""
    while not over.is_set():
        link.sendall(encode_request(SMALL, "HEAD"))
        if not link.recv(65536):
            return
        over.wait(4.5)


class Attack(threading.Event):
    """An attack, which is set once it is over. It counts the answers that its connections have begun to take."""

    def __init__(self):
        super().__init__()
        self.begun = threading.Semaphore(0)

    def await_begun(self, count, seconds=200):
        """Waits until so many answers have begun: large ones are begun one after another, however many ask at once."""
        ends = time.monotonic() + seconds
        for _ in range(count):
            if not self.begun.acquire(timeout=max(0, ends - time.monotonic())):
                raise RuntimeError(f"fewer than {count} answers begun")


def crowd(program, room, act, seconds, buffer=None, options=(), sources=(CROWD,), before=2, reads=False):
    """How many of others are answered while 64 connections act so, and come again where they are closed. They come from these addresses in
    turn, and so many seconds before the others; where they read, so many seconds after each has begun to."""
    images = [f"big={room}/big.tif", "s=:sample"]
    with Server(program, images, ["--max", 8192, *options]) as server:
        over = Attack()
        threads = [threading.Thread(target=keep_up, args=(server, over, act, buffer, sources[place % len(sources)]), daemon=True)
                   for place in range(PLACES)]
        for thread in threads:
            thread.start()
        if reads:
            over.await_begun(PLACES)
        time.sleep(before)
        right = others_answered(server, seconds)
        over.set()
        return right


def held_by_drips(server):
    """How long a connection lasts whose head comes in single bytes, one each 150 ms."""
    begun = time.monotonic()
    with connect(server.port, 30) as link:
        link.setblocking(False)
        while time.monotonic() - begun < 40:
            try:
                link.send(b"G")
                if link.recv(4096) == b"":
                    # Closed for writing; it is over where what is sent comes to nothing.
                    pass
            except BlockingIOError:
                pass
            except OSError:
                return time.monotonic() - begun
            time.sleep(0.15)
    return 40.0


def cut_after(server):
    """How long an answer lasts that is taken at 230 bytes a second: until its connection is reset or its thread is gone."""
    # Until the connection by which the server was found has ended.
    time.sleep(0.5)
    before = server.threads()
    begun = time.monotonic()
    with connect(server.port, 30, 2048) as link:
        link.sendall(encode_request(LARGE))
        time.sleep(1)
        while time.monotonic() - begun < 120 and server.threads() > before:
            link.recv(230)
            time.sleep(1)
    return time.monotonic() - begun


def fast_enough(server):
    """Whether one who takes 20 kB a second of an answer is still served after 75 seconds."""
    begun = time.monotonic()
    with connect(server.port, 30, 4096) as link:
        link.sendall(encode_request(LARGE))
        while time.monotonic() - begun < 75:
            try:
                if not link.recv(2000):
                    return False
            except OSError:
                return False
            time.sleep(0.1)
    return True
