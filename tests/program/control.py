"""Cases of a server that is told what to do while it serves: status, drain, reload, stop. They stand among those of options.py, in CASES.

The outcomes that are wanted are those of the manual page and docs/operate/OPERATING.md.
"""
import contextlib
import os
import random
import re
import socket
import subprocess
import threading
import time

from options import CASES, LAST_TILE, SAMPLE_TARGET, command, sample_file, shows, slow_link
from lib.server import (BASE, Server, ask, connect, encode_request, free_port, read_answer, read_exactly, read_page, read_to_end,
                        wait_until)
from lib.tiff import Answer, decode_answer, write_flat

ANSWER = encode_request(SAMPLE_TARGET)
SERVES = r"serves: generation {number}, images {images}, connections \d+, generations at work {alive}\n"


def told(program, path, word, timeout=600):
    """What `--tell` ends with, and what it writes to either output."""
    done = subprocess.run([program, "--tell", path, word], capture_output=True, text=True, timeout=timeout)
    return done.returncode, done.stdout + done.stderr


def is_serving(text, number=1, images=1, alive=1):
    """Whether this is the line of a server that serves so."""
    return bool(re.fullmatch(SERVES.format(number=number, images=images, alive=alive), text)) or text


@contextlib.contextmanager
def controlled(program, room, name, images, words=()):
    """A server with a control socket, once it serves."""
    path = f"{room}/{name}.socket"
    with Server(program, images, ["--control", path, *words]) as server:
        wait_until(lambda: told(program, path, "status")[1].startswith("serves: "))
        yield server, path


def images_of(room, numbers):
    """Lines of a list of images, each of which has its number for its first sample."""
    return "".join(f"n{number}={room}/numbered/{number}.tif\n" for number in numbers)


def write_list(path, text):
    """A list, written whole at once."""
    with open(path + ".new", "w", encoding="utf-8") as file:
        file.write(text)
    os.replace(path + ".new", path)


def first_sample(port, name):
    """The status of an image, and its first sample."""
    status, body = ask(port, f"/iiif/{name}/full/max/0/default.tif")
    return (status, decode_answer(body).strip[0]) if status == 200 else (status, None)


@shows("--control")
def a_server_tells_its_status_at_a_socket_of_its_user_alone(program, room):
    with controlled(program, room, "status", ["a=:sample"]) as (server, path):
        status, text = told(program, path, "status")
        got = [status, is_serving(text), oct(os.stat(path).st_mode & 0o777), os.path.exists(path + ".d"), told(program, path, "sta")]
    fault = ("line: tell\n--tell PATH has one of status, drain, reload and stop behind it, and neither --listen, --one, --check nor --control "
             "beside it\n")
    return got, [0, True, "0o600", False, (2, fault)], command(program, "--control", "socket", "a=:sample")


@shows("--tell")
def a_word_without_a_server_is_told_to_nobody(program, room):
    text = "run: tell\nno server replies at that socket: is it the --control of one that runs, and is this its user?\n"
    return told(program, f"{room}/nobody.socket", "stop"), (1, text), [program, "--tell", "nobody.socket", "stop"]


@shows("--control")
def a_socket_that_was_left_is_taken_and_a_live_one_is_not(program, room):
    path, got = f"{room}/left.socket", []
    with controlled(program, room, "left", ["a=:sample"]) as (server, path):
        words = [program, "--base", BASE, "--listen", f"127.0.0.1:{free_port()}", "--control", path, "a=:sample"]
        done = subprocess.run(words, capture_output=True, text=True, timeout=60)
        got.append((done.returncode, done.stderr.splitlines()[0]))
        server.process.kill()
        server.process.wait()
    got.append(os.path.exists(path))
    with controlled(program, room, "left", ["a=:sample"]) as (server, path):
        got.append(is_serving(told(program, path, "status")[1]))
    return got, [(1, "run: listen"), True, True], command(program, "--control", "left.socket", "a=:sample")


@shows("--tell", 3)
def a_drain_answers_the_call_at_work_and_ends_with_0(program, room):
    # One viewer has its answer, and another one's is at work: while the server drains nobody is let in, the first is ended without a byte
    # more, and the second has its answer whole.
    write_flat(f"{room}/large_for_drains.tif", 4000, 4000)
    with controlled(program, room, "drain", [f"a={room}/large_for_drains.tif", "b=:sample"]) as (server, path):
        with connect(server.port) as kept, connect(server.port, 60) as slow:
            kept.sendall(encode_request("/iiif/b/full/max/0/default.tif", "HEAD"))
            head = kept.recv(4096)
            slow.setsockopt(socket.SOL_SOCKET, socket.SO_RCVBUF, 65536)
            slow.sendall(ANSWER)
            first, said = read_exactly(slow, 1), []
            teller = threading.Thread(target=lambda: said.append(told(program, path, "drain")))
            teller.start()
            rest = read_to_end(kept)
            wait_until(lambda: is_shut(server.port))
            state = told(program, path, "status")[1].split(":")[0]
            body = len((first + read_to_end(slow)[0]).partition(b"\r\n\r\n")[2])
            teller.join()
        ended = server.process.wait(60)
    got = head.startswith(b"HTTP/1.1 200 "), rest, is_shut(server.port), state, body > 4000 * 4000, said, ended, os.path.exists(path)
    return got, (True, (b"", True), True, "drains", True, [(0, "ended\n")], 0, False), command(
        program, "--control", "drain.socket", "a=large.tif", "b=:sample")


def is_shut(port):
    """Whether nobody is let in at a port."""
    try:
        connect(port, 2).close()
        return False
    except (ConnectionRefusedError, ConnectionResetError, TimeoutError):
        return True


def begun_link(port):
    """A connection that takes little at a time, and the first byte of the large image that it asked for."""
    link = slow_link(port)
    link.settimeout(120)
    return link, read_exactly(link, 1)


@shows("--drain-seconds", 6)
def a_call_that_takes_longer_than_drain_seconds_is_cut(program, room):
    # A client that takes nothing for a while: within ten minutes it gets its image whole, within a second it doesn't.
    write_flat(f"{room}/large_for_limits.tif", 4000, 4000)
    got = []
    for seconds in (1, 600):
        words = ["--drain-seconds", seconds, "--min-rate", 0]
        with controlled(program, room, f"limit{seconds}", [f"a={room}/large_for_limits.tif"], words) as (server, path):
            link, first = begun_link(server.port)
            said = []
            teller = threading.Thread(target=lambda: said.append(told(program, path, "drain")))
            teller.start()
            # The end of the one drain; a while, in which the other one's limit isn't over.
            teller.join(120 if seconds == 1 else 4)
            body = len((first + read_to_end(link)[0]).partition(b"\r\n\r\n")[2])
            link.close()
            teller.join()
            got.append((said, server.process.wait(60), body > 4000 * 4000))
    return got, [([(1, "run: cut\n")], 1, False), ([(0, "ended\n")], 0, True)], command(
        program, "--drain-seconds", 1, "--control", "limit.socket", "a=large.tif")


@shows("--tell", 8)
def a_stop_is_heard_in_a_drain(program, room):
    write_flat(f"{room}/large_for_stops.tif", 4000, 4000)
    with controlled(program, room, "stop", [f"a={room}/large_for_stops.tif"], ["--drain-seconds", 600, "--min-rate", 0]) as (server, path):
        link, _ = begun_link(server.port)
        begun, said = time.monotonic(), []
        tellers = [threading.Thread(target=lambda word=word: said.append((word, *told(program, path, word)))) for word in ("drain", "stop")]
        for teller in tellers:
            teller.start()
            wait_until(lambda: told(program, path, "status")[1].startswith("drains: ") or len(said) > 0)
        for teller in tellers:
            teller.join()
        took, ended = time.monotonic() - begun, server.process.wait(60)
        link.close()
    return (sorted(said), ended, took < 300 or took), ([("drain", 1, "run: cut\n"), ("stop", 1, "run: cut\n")], 1, True), command(
        program, "--control", "stop.socket", "a=large.tif")


@shows("--tell", 2)
def a_reload_serves_the_list_as_it_is_then(program, room):
    path, got = f"{room}/reloaded_list", []
    write_list(path, images_of(room, [1]))
    with controlled(program, room, "reload", [], ["--images", path]) as (server, control):
        for numbers in ([1, 2], [2]):
            write_list(path, images_of(room, numbers))
            got.append((told(program, control, "reload"), first_sample(server.port, "n1"), first_sample(server.port, "n2")))
        got.append(is_serving(told(program, control, "status")[1], 3, 1))
    want = [((0, "generation 2, images 2\n"), (200, 1), (200, 2)), ((0, "generation 3, images 1\n"), (404, None), (200, 2)), True]
    return got, want, command(program, "--control", "reload.socket", "--images", "list")


@shows("--tell", 2)
def a_list_at_fault_leaves_the_generation_before(program, room):
    path, got = f"{room}/list_to_spoil", []
    write_list(path, images_of(room, [3]))
    with controlled(program, room, "spoiled", [], ["--images", path]) as (server, control):
        for text in ("n3\n", f"n3={room}/nowhere.tif\n", "# nothing\n"):
            write_list(path, text)
            got.append((told(program, control, "reload"), first_sample(server.port, "n3")))
        got.append(is_serving(told(program, control, "status")[1]))
    lines = ["line: image\nline 1: there is no = between a name and a file\n",
             "image n3: 0\nit can't be opened, there is no such file: look at the path, and whether its disk is mounted\n",
             "line: image\nat least one NAME=FILE, here or in the file of --images, or a file of --folder, with a name of 1 to 1024 bytes "
             "that stands once\n"]
    return got, [((2, line), (200, 3)) for line in lines] + [True], command(program, "--control", "spoiled.socket", "--images", "list")


@shows("--tell", 4)
def a_viewer_that_reads_over_a_reload_gets_the_image_of_before(program, room):
    # Each of three viewers has an image at work, of a generation of its own. The next call of the first is the last generation's.
    path, got, links = f"{room}/list_of_large", [], []
    sides = (4000, 3000, 3500)
    for side in sides:
        write_flat(f"{room}/large_of_{side}.tif", side, side)
    write_list(path, f"a={room}/large_of_{sides[0]}.tif\n")
    with controlled(program, room, "over", [], ["--images", path, "--min-rate", 0]) as (server, control):
        for side in (*sides[1:], sides[0]):
            links.append(begun_link(server.port)[0])
            write_list(path, f"a={room}/large_of_{side}.tif\n")
            got.append(told(program, control, "reload"))
        got.append(Load.answer(links[0], b"H")[1] == Answer(sides[0], sides[0], 1, 8, bytes(sides[0] ** 2)).encode())
        links[0].sendall(encode_request(SAMPLE_TARGET, "HEAD"))
        length = int(re.search(rb"Content-Length: (\d+)", links[0].recv(4096))[1])
        got.append(sides[2] ** 2 < length < sides[0] ** 2)
        for link in links:
            link.close()
        wait_until(lambda: told(program, control, "status")[1].endswith(" at work 1\n"))
        got.append(told(program, control, "reload"))
    started = [(0, f"generation {number}, images 1\n") for number in (2, 3, 4)]
    want = [*started[:2], (1, "run: earlier generations are still at work\n"), True, True, started[2]]
    return got, want, command(program, "--control", "over.socket", "--images", "list")


def health_of_a_start(program, touched):
    """What /health answers in turn while a server starts that writes to so much memory before it opens its images."""
    port, statistics, seen = free_port(), free_port(), []
    words = ["--listen", f"127.0.0.1:{port}", "--stats-listen", f"127.0.0.1:{statistics}", "--touch-bytes", str(touched), "a=:sample"]
    server = subprocess.Popen([program, "--base", BASE, *words], stdin=subprocess.DEVNULL)
    try:
        ends = time.monotonic() + 100
        while (not seen or seen[-1][0] != 200) and time.monotonic() < ends:
            found = read_page(statistics, "/health")
            seen += [found] if found not in seen[-1:] else []
    finally:
        server.kill()
        server.wait()
    return seen


@shows("--stats-listen", 3)
def health_is_503_until_the_images_are_open(program, room):
    # However fast the machine is, some memory takes longer than a look at the health.
    for power in range(22, 31, 2):
        got = health_of_a_start(program, 2 ** power)
        if len(got) > 1:
            break
    return got, [(503, "viewers starting\nstatistics ok\n"), (200, "viewers ok\nstatistics ok\n")], command(
        program, "--touch-bytes", 2 ** power, "--stats-listen", "127.0.0.1:9090", "a=:sample")


class Load(threading.Thread):
    """A viewer that keeps its connection, asks for one image after another, and looks at each answer."""

    def __init__(self, port, targets):
        super().__init__(daemon=True)
        self.port, self.targets, self.over = port, targets, threading.Event()
        self.calls, self.wrong, self.failed, self.closed = 0, [], [], 0

    def run(self):
        chance, link = random.Random(self.port), None
        while not self.over.is_set():
            try:
                link = link or connect(self.port, 30)
            except OSError:
                return
            target, bodies = chance.choice(self.targets)
            try:
                link.sendall(encode_request(target))
                first = link.recv(1)
            except OSError:
                first = b""
            if not first:
                # It was closed between two calls: nothing of this one was read, so it is asked again.
                link.close()
                link, self.closed = None, self.closed + 1
                continue
            answer = self.answer(link, first)
            self.calls += 1
            if answer is None:
                self.failed.append(target)
                link.close()
                link = None
            elif answer not in bodies:
                self.wrong.append(target)

    @staticmethod
    def answer(link, got):
        """The status and the body of an answer whose first byte came. None where it doesn't come whole."""
        try:
            status, body = read_answer(link, got)
        except OSError:
            return None
        return None if body is None else (status, body)

    def end(self):
        self.over.set()
        self.join(60)
        return self.calls, self.wrong, self.failed


def reloaded(program, control):
    """The status of a reload, once no more than two earlier generations are at work: they end as their calls do."""
    found = []
    wait_until(lambda: found.append(told(program, control, "reload")) or found[-1][1] != "run: earlier generations are still at work\n")
    return found[-1][0]


@shows("--tell", 12)
def nodes_under_load_are_reloaded_drained_and_stopped(program, room):
    # Three nodes of a ring: one is told twenty times to serve a list that grows and shrinks, one is drained, one is killed. A call fails
    # where its first byte came back and no whole answer did.
    lists = [f"{room}/list_of_node_{it}" for it in range(3)]
    peers, names = [free_port() for _ in range(3)], ["one", "two", "three"]
    samples = {number: open(f"{room}/numbered/{number}.tif", "rb").read() for number in (7, 8)}
    targets = [(SAMPLE_TARGET, [(200, sample_file())]), (LAST_TILE, [(200, sample_file(LAST_TILE))]),
               ("/iiif/n7/full/max/0/default.tif", [(200, samples[7])]),
               ("/iiif/n8/full/max/0/default.tif", [(200, samples[8]), (404, b"Q4 identifier\n")])]
    with contextlib.ExitStack() as stack:
        servers = []
        for it in range(3):
            write_list(lists[it], "a=:sample\n" + images_of(room, [7, 8]))
            words = ["--images", lists[it], "--edge", 2, "--name", names[it], "--peer-listen", f"127.0.0.1:{peers[it]}"]
            words += [word for other in range(3) if other != it for word in ("--peer", f"{names[other]}=127.0.0.1:{peers[other]}")]
            servers.append(stack.enter_context(controlled(program, room, f"node{it}", [], words)))
        loads = [[Load(server.port, targets) for _ in range(4)] for server, _ in servers]
        for load in sum(loads, []):
            load.start()
        reloads = []
        for turn in range(20):
            write_list(lists[0], "a=:sample\n" + images_of(room, [7, 8] if turn % 2 else [7]))
            reloads.append(reloaded(program, servers[0][1]))
            if turn == 7:
                drained = told(program, servers[1][1], "drain"), servers[1][0].process.wait(60)
            if turn == 14:
                servers[2][0].process.kill()
        ended = [[load.end() for load in some] for some in loads]
    calls = sum(calls for some in ended[:2] for calls, _, _ in some)
    wrong = [target for some in ended for _, targets, _ in some for target in targets]
    failed = [target for some in ended[:2] for _, _, targets in some for target in targets]
    return (set(reloads), drained, calls > 100 or calls, wrong, failed), ({0}, ((0, "ended\n"), 0), True, [], []), command(
        program, "--control", "node.socket", "--images", "list")
