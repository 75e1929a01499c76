"""What the attacks need beside the fixtures: memory that is looked at, and answers that are."""
import os
import sys
import threading
import time

sys.path.insert(0, os.path.join(os.path.dirname(os.path.abspath(__file__)), ".."))
from lib.server import connect, encode_request, read_answer  # noqa: E402


class Peak:
    """The most resident memory of a server, looked at 50 times a second while it stands open."""

    def __init__(self, server):
        self.server, self.over = server, threading.Event()

    def watch(self):
        while not self.over.wait(0.02):
            self.most = max(self.most, self.server.resident())

    def __enter__(self):
        self.first = self.most = self.server.resident()
        self.thread = threading.Thread(target=self.watch, daemon=True)
        self.thread.start()
        return self

    def __exit__(self, *_):
        self.over.set()
        self.thread.join()

    def grown(self):
        return self.most - self.first


def is_answered(link):
    """Reads one answer: whether it came whole, with 200."""
    status, body = read_answer(link)
    return status == 200 and body is not None


def asked_once(port, target, timeout=10):
    """Seconds until a new connection's one request is answered whole with 200. None where it isn't."""
    begun = time.monotonic()
    try:
        with connect(port, timeout) as link:
            link.sendall(encode_request(target, more="Connection: close\r\n"))
            return time.monotonic() - begun if is_answered(link) else None
    except OSError:
        return None
