"""The built program as a server: started until it serves, asked over connections, looked at from outside, and stopped.

Servers listen on 127.0.0.1 alone, at ports that `free_port` gives.
"""
import itertools
import os
import random
import socket
import struct
import subprocess
import tempfile
import time
import urllib.error
import urllib.request

BASE = "http://localhost/iiif"

# Ports below those that the system gives to connections, so that none of these takes one before a server does; one after another from
# a random place, so that no two of a program's listeners, which aren't bound yet, are given the same.
PORTS = range(20_000, 32_000)
ROUND = itertools.count(random.SystemRandom().randrange(len(PORTS)))


def free_port():
    """Gives a free port that wasn't given lately."""
    for place in ROUND:
        port = PORTS[place % len(PORTS)]
        with socket.socket() as probe:
            try:
                probe.bind(("127.0.0.1", port))
                return port
            except OSError:
                continue


def free_ports(count):
    """Gives so many of them."""
    return [free_port() for _ in range(count)]


def list_options(program):
    """Lists the options that the program's help names."""
    text = subprocess.run([program, "--help"], capture_output=True, text=True).stdout
    return {word.strip(",") for word in text.split() if word.startswith("--")}


class Refused(Exception):
    """The program ended before it served: its status and its lines."""


class Server:
    """A running server of these images, NAME=FILE each, with more options where given. It listens at `port`, or at a free one, and where
    `statistics` is a port, tells its counters and its health there; `cwd` is the folder in which it runs."""

    def __init__(self, program, images, options=(), env=None, port=None, statistics=None, base=None, cwd=None):
        self.port, self.statistics = port or free_port(), statistics
        words = [program, "--base", base or BASE, "--listen", f"127.0.0.1:{self.port}", *map(str, options), *images]
        if statistics:
            words += ["--stats-listen", f"127.0.0.1:{statistics}"]
        # A file holds what the program writes, so that nothing waits for a reader.
        self.said = tempfile.TemporaryFile()
        self.process = subprocess.Popen(words, stdin=subprocess.DEVNULL, stdout=self.said, stderr=self.said, env=env, cwd=cwd)
        try:
            self.wait()
        except BaseException:
            self.stop()
            raise

    def wait(self, seconds=120):
        """Waits until viewers are served."""
        ends = time.monotonic() + seconds
        while time.monotonic() < ends:
            if not self.alive():
                raise Refused(self.process.returncode, self.line())
            if self.serves():
                return
            time.sleep(0.005)
        raise Refused(None, "doesn't listen")

    def serves(self):
        """Whether viewers are served. Where the program tells its health, that is 503 until the images are open. A connection that says nothing
        waits until then, and is ended; it is ended too where the start fails, right before the program ends."""
        try:
            if self.statistics and ask(self.statistics, "/health")[0] != 200 or not exchange(self.port, [])[1]:
                return False
        except ConnectionError:
            return False
        if not self.listens():
            return False
        try:
            self.process.wait(0.05)
        except subprocess.TimeoutExpired:
            return True
        return False

    def listens(self):
        """Whether it is this process that listens at its port: another one may have taken it meanwhile, and then this one is about to end."""
        with open("/proc/net/tcp") as table:
            rows = [line.split() for line in table][1:]
        own = {f"socket:[{row[9]}]" for row in rows if row[3] == "0A" and int(row[1].split(":")[1], 16) == self.port}
        folder = f"/proc/{self.process.pid}/fd"
        try:
            return any(os.readlink(f"{folder}/{number}") in own for number in os.listdir(folder))
        except FileNotFoundError:
            return False

    def text(self):
        """All that the program wrote to its two outputs."""
        self.said.seek(0)
        return self.said.read().decode(errors="replace")

    def line(self):
        """The same, without the end of its last line."""
        return self.text().strip()

    def connect(self, timeout=60):
        """Connects to it."""
        return connect(self.port, timeout)

    def exchange(self, pieces, timeout=60):
        """Gives what a viewer's connection is answered that sends these pieces and then ends its own side."""
        return exchange(self.port, pieces, timeout)

    def alive(self):
        return self.process.poll() is None

    def send_signal(self, signal):
        self.process.send_signal(signal)

    def number(self, name):
        """A number of kB from the process's status."""
        with open(f"/proc/{self.process.pid}/status") as status:
            return next(int(line.split()[1]) for line in status if line.startswith(name + ":"))

    def resident(self):
        return self.number("VmRSS") * 1024

    def peak(self):
        return self.number("VmHWM") * 1024

    def threads(self):
        return len(os.listdir(f"/proc/{self.process.pid}/task"))

    def files(self):
        return len(os.listdir(f"/proc/{self.process.pid}/fd"))

    def files_left(self, before, seconds=30):
        """How many open files there are more than before, once connections that end have had some seconds to go."""
        deadline = time.monotonic() + seconds
        while self.files() > before and time.monotonic() < deadline:
            time.sleep(0.05)
        return self.files() - before

    def stop(self):
        """Ends the process at once, also one that hangs."""
        if self.alive():
            self.process.kill()
        self.process.wait()
        self.said.close()

    def __enter__(self):
        return self

    def __exit__(self, *_):
        self.stop()


def start(make, tries=5):
    """Makes a server by a function that chooses its ports; once more where one of them was taken meanwhile."""
    for left in reversed(range(tries)):
        try:
            return make()
        except Refused as refused:
            if not refused.args[1].startswith("run: listen") or not left:
                raise


def run(program, words, seconds=60, **how):
    """Runs the program on words: its status, and what it wrote to its two outputs, where these aren't told to be others."""
    pipes = {"stdin": subprocess.DEVNULL, "stdout": subprocess.PIPE, "stderr": subprocess.PIPE}
    done = subprocess.run([program, *words], timeout=seconds, **{**pipes, **how})
    return done.returncode, done.stdout, done.stderr


def connect(port, timeout=60, buffer=None, source=None):
    """Connects to a port, from another address of this machine and with so many bytes that are received ahead, where that is told."""
    link = socket.socket()
    if source:
        link.bind((source, 0))
    if buffer:
        link.setsockopt(socket.SOL_SOCKET, socket.SO_RCVBUF, buffer)
    link.settimeout(timeout)
    try:
        link.connect(("127.0.0.1", port))
        link.setsockopt(socket.IPPROTO_TCP, socket.TCP_NODELAY, 1)
    except OSError:
        link.close()
        raise
    return link


def reset(link):
    """Closes a connection by a reset."""
    link.setsockopt(socket.SOL_SOCKET, socket.SO_LINGER, struct.pack("ii", 1, 0))
    link.close()


def read_exactly(link, count):
    """Reads so many bytes of a connection, fewer where it ends."""
    got = bytearray()
    while len(got) < count:
        try:
            part = link.recv(min(65536, count - len(got)))
        except (ConnectionResetError, TimeoutError):
            break
        if not part:
            break
        got += part
    return bytes(got)


def read_to_end(link):
    """Reads all that a connection gives until it ends, and tells whether it ended by itself."""
    got = bytearray()
    while True:
        try:
            part = link.recv(65536)
        except ConnectionResetError:
            return bytes(got), True
        except TimeoutError:
            return bytes(got), False
        if not part:
            return bytes(got), True
        got += part


def exchange(port, pieces, timeout=60):
    """Sends these pieces on a new connection and then ends its own side: what came, and whether the connection was ended by the other side."""
    with connect(port, timeout) as link:
        try:
            for piece in pieces:
                link.sendall(piece)
            link.shutdown(socket.SHUT_WR)
        except OSError:
            pass
        return read_to_end(link)


def wait_for(port, seconds=60):
    """Waits until a further listener of a program is there, and until the connection by which it was found has ended."""
    ends = time.monotonic() + seconds
    while True:
        try:
            return exchange(port, [])
        except ConnectionRefusedError:
            if time.monotonic() > ends:
                raise
            time.sleep(0.005)


def wait_until(is_so, seconds=60):
    """Waits until something is so; gives up after some seconds, so that what is judged next says what is."""
    ends = time.monotonic() + seconds
    while not is_so() and time.monotonic() < ends:
        time.sleep(0.02)


def encode_request(target, method="GET", more=""):
    """Encodes the head of a request, with more lines where given."""
    return f"{method} {target} HTTP/1.1\r\nHost: localhost\r\n{more}\r\n".encode()


def read_answer(link, got=b""):
    """Reads one answer to a GET, of which these bytes came before: its status and its body. The body is None where it doesn't come whole,
    both are where no head does."""
    while b"\r\n\r\n" not in got:
        part = link.recv(65536)
        if not part:
            return None, None
        got += part
    head, _, body = got.partition(b"\r\n\r\n")
    lines = head.split(b"\r\n")
    length = next((int(line.split(b":")[1]) for line in lines if line.lower().startswith(b"content-length:")), 0)
    parts, left = [body], length - len(body)
    while left > 0:
        part = link.recv(min(1 << 20, left))
        if not part:
            return int(lines[0].split()[1]), None
        parts.append(part)
        left -= len(part)
    return int(lines[0].split()[1]), b"".join(parts)


def ask(port, target, timeout=60):
    """Asks for a target on a new connection that ends behind the answer: the status and the body, as far as it came; no status where no head did."""
    with connect(port, timeout) as link:
        try:
            link.sendall(encode_request(target, more="Connection: close\r\n"))
        except (BrokenPipeError, ConnectionResetError):
            return None, b""
        head, ends, body = read_to_end(link)[0].partition(b"\r\n\r\n")
    return int(head.split()[1]) if ends else None, body


def read_page(port, target):
    """Reads the status and the text that the listener of statistics answers. It may listen later than that of viewers, and refuses a second
    connection by --per-address, too."""
    ends = time.monotonic() + 60
    while time.monotonic() < ends:
        try:
            with urllib.request.urlopen(f"http://127.0.0.1:{port}{target}", timeout=60) as answer:
                return answer.status, answer.read().decode()
        except urllib.error.HTTPError as answer:
            return answer.code, answer.read().decode()
        except (ConnectionError, urllib.error.URLError):
            time.sleep(0.02)
    raise TimeoutError(f"nothing listens at {port}")


def read_counters(port):
    """Reads the counters and gauges without labels that a program tells at this port, by name (Prometheus' text format, version 0.0.4)."""
    rows = [line.split() for line in read_page(port, "/metrics")[1].splitlines() if line and line[0] != "#"]
    return {row[0]: int(float(row[1])) for row in rows if "{" not in row[0]}
