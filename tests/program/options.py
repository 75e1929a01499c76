"""Cases of options of a server that listens, each with the option and without it, or with two of its values.

The outcomes that are wanted are those of the manual page and docs/operate/OPERATING.md; images are those of the evaluation in tests/hostile.
"""
import os
import re
import resource
import signal
import socket
import struct
import subprocess
import sys
import time

HERE = os.path.dirname(os.path.abspath(__file__))
sys.path.insert(0, os.path.dirname(HERE))
from hostile import wire  # noqa: E402
from hostile.images import Answers  # noqa: E402
from hostile.tiff import judge  # noqa: E402
from lib.server import (BASE, Refused, Server, ask, connect, encode_request, free_port, read_exactly, read_page, read_to_end, start,  # noqa: E402
                        wait_until)
from lib.tiff import encode_rows, write_flat  # noqa: E402

CASES = []
SAMPLE_TARGET = "/iiif/a/full/max/0/default.tif"
# The tile (1, 1) of edge 2, which other85 owns beside self: addresses.txt has its ask.
LAST_TILE = "/iiif/a/2,2,2,2/max/0/default.tif"


class Case:
    """A case: its name, its option, its seconds, and the function that gives the outcome, the one that is wanted, and the command."""

    def __init__(self, option, seconds, function):
        self.name, self.seconds, self.function, self.option = function.__name__, seconds, function, option

    def options(self):
        return [self.option]

    def check(self, program, room):
        """Runs it; once more where a port was taken meanwhile, as by a process between its fork and its exec."""
        return start(lambda: self.function(program, room))


def shows(option, seconds=1):
    """Makes a function a case in which this option makes a difference."""
    def note(function):
        CASES.append(Case(option, seconds, function))
        return function
    return note


def counter(text, name):
    """A number of the page of counters."""
    return next(int(line.split()[1]) for line in text.splitlines() if line.startswith(name + " "))


def cut(text):
    """The answers that were cut off, by cause, but for causes of none."""
    found = dict(re.findall(r'(?m)^iiif_answers_cut_total\{cause="(\w+)"\} (\d+)$', text))
    return {cause: int(count) for cause, count in found.items() if count != "0"}


def command(program, *words):
    """The command of a server, as one can paste it."""
    return [program, "--base", BASE, "--listen", "127.0.0.1:8080", *map(str, words)]


def sample_in(room, name):
    """A file of its own with the sample."""
    path = f"{room}/{name}.tif"
    with open(f"{room}/sample.tif", "rb") as file, open(path, "wb") as copy:
        copy.write(file.read())
    return path


def sample():
    """The built-in picture: 0, 10, 20 and so on."""
    return judge(encode_rows([[[10 * (4 * y + x)] for x in range(4)] for y in range(4)], 1, 8))


def sample_answers():
    """Answers of a server of the sample, by the evaluation of tests/hostile."""
    return Answers(BASE, {"a": sample()}, 2, 4096, False)


def sample_file(target=SAMPLE_TARGET):
    """An image of the sample, as it is answered."""
    return sample_answers().parts(b"GET", target.encode())[3]


@shows("--listen")
def listen_serves_until_it_is_stopped(program, room):
    words = ["a=:sample"]
    with Server(program, words) as server:
        got = [ask(server.port, SAMPLE_TARGET), server.alive()]
        server.process.send_signal(signal.SIGTERM)
        got.append(server.process.wait(60))
    return got, [(200, sample_file()), True, -signal.SIGTERM], command(program, *words)


@shows("--hold")
def a_held_file_is_answered_after_it_was_cut_and_removed(program, room):
    got = []
    for hold in (190, 189):
        path = sample_in(room, f"held_{hold}")
        with Server(program, ["a=" + path], ["--edge", 2, "--hold", hold]) as server:
            os.truncate(path, 100)
            os.remove(path)
            got.append(ask(server.port, SAMPLE_TARGET))
    return got, [(200, sample_file()), (500, b"L1 source\n")], command(program, "--edge", 2, "--hold", 190, "a=sample.tif")


def write_over(path, data):
    """Writes over a file in its place, until the system tells another time of its last change: its clock of files ticks."""
    before = os.stat(path).st_mtime_ns
    while os.stat(path).st_mtime_ns == before:
        with open(path, "r+b") as file:
            file.write(data)


@shows("--hold")
def a_file_that_is_written_over_gives_old_pixels_or_none(program, room):
    # What is kept of it is the old picture; what isn't is only where the file is held.
    got = []
    for hold in (190, 189):
        path = sample_in(room, f"written_over_{hold}")
        with open(path, "rb") as file:
            other = bytearray(file.read())
        other[-16:] = bytes(255 - it for it in other[-16:])
        with Server(program, ["a=" + path], ["--edge", 2, "--hold", hold]) as server:
            ask(server.port, LAST_TILE)
            write_over(path, other)
            got += [ask(server.port, SAMPLE_TARGET), ask(server.port, LAST_TILE)]
    whole, tile = (200, sample_file()), (200, sample_file(LAST_TILE))
    return got, [whole, tile, (500, b"L1 source\n"), tile], command(program, "--edge", 2, "--hold", 190, "a=sample.tif")


@shows("--cache-bytes")
def a_cache_of_0_keeps_no_tile_for_the_second_call(program, room):
    # The sample has four tiles of edge 2: each of two calls asks for the four, and the second finds them where they are kept.
    got = []
    for words in ([], ["--cache-bytes", 0]):
        statistics = free_port()
        with Server(program, ["a=:sample"], ["--edge", 2, "--stats-listen", f"127.0.0.1:{statistics}", *words]) as server:
            bodies = {ask(server.port, SAMPLE_TARGET) for _ in range(2)}
            text = read_page(statistics, "/metrics")[1]
            found = [counter(text, f"iiif_tile_cache_{it}_total") for it in ("hits", "loads")]
            got.append((bodies == {(200, sample_file())}, *found))
    words = ["--edge", 2, "--cache-bytes", 0, "--stats-listen", "127.0.0.1:9090"]
    return got, [(True, 4, 4), (True, 0, 8)], command(program, *words, "a=:sample")


def calls_of(server):
    """How often a server's process read a file or a socket."""
    with open(f"/proc/{server.process.pid}/io", encoding="utf-8") as file:
        return next(line for line in file if line.startswith("syscr"))


def rest(server):
    """Waits until a server reads nothing for a while."""
    before = None
    while before != calls_of(server):
        before = calls_of(server)
        time.sleep(0.5)


@shows("--cache-entries")
def a_cache_of_3_entries_keeps_no_tile_of_four_for_the_second_call(program, room):
    # Each call asks for the four tiles in one order: a list of three has let go the one that is asked for next.
    got = []
    for entries in (4, 3):
        statistics = free_port()
        words = ["--edge", 2, "--workers", 1, "--cache-entries", entries, "--stats-listen", f"127.0.0.1:{statistics}"]
        with Server(program, ["a=:sample"], words) as server:
            bodies = {ask(server.port, SAMPLE_TARGET) for _ in range(2)}
            text = read_page(statistics, "/metrics")[1]
            found = [counter(text, f"iiif_tile_cache_{it}_total") for it in ("hits", "loads")]
            got.append((bodies == {(200, sample_file())}, *found))
    words = ["--edge", 2, "--workers", 1, "--cache-entries", 3, "--stats-listen", "127.0.0.1:9090"]
    return got, [(True, 4, 4), (True, 0, 8)], command(program, *words, "a=:sample")


@shows("--cache-entries")
def a_cache_that_gray_tiles_cannot_fill_is_warned_of(program, room):
    told = "warning: --cache-bytes is more than --cache-entries gray tiles of --edge have: of such images the rest isn't used"
    got = []
    for entries in (4096, 4097):
        with Server(program, ["a=:sample"], ["--cache-bytes", 2 ** 28 + 1, "--cache-entries", entries]) as server:
            ask(server.port, SAMPLE_TARGET)
            got.append(server.line())
    return got, [told, ""], command(program, "--cache-bytes", 2 ** 28 + 1, "a=:sample")


@shows("--band", 4)
def the_first_band_is_sent_before_the_last_is_read(program, room):
    # An image of 16 MiB has room in no socket: of bands of 64 rows the later ones aren't read before the viewer reads, so what is cut off
    # meanwhile isn't sent; one of 4,096 rows was read before its first byte was sent.
    got, path = [], f"{room}/bands.tif"
    for band in (64, 4096):
        write_flat(path, 4096, 4096)
        words = ["--cache-bytes", 0, "--workers", 1, "--band", band]
        with Server(program, ["a=" + path], words) as server, connect(server.port) as link:
            link.setsockopt(socket.SOL_SOCKET, socket.SO_RCVBUF, 65536)
            link.sendall(encode_request(SAMPLE_TARGET, more="Connection: close\r\n"))
            first = read_exactly(link, 1)
            rest(server)
            os.truncate(path, 1000)
            count = len(first + read_to_end(link)[0].partition(b"\r\n\r\n")[2])
        got.append(1 < count < 4096 * 4096 or count > 4096 * 4096 and "whole")
    return got, [True, "whole"], command(program, *words, "a=" + path)


def threads_of(program, room, workers, wanted):
    """The most threads at once that began while images were made for one viewer, who had one of them whole and so many were seen, or until
    it took too long."""
    notes = f"{room}/threads_of_{workers}"
    with open(notes, "wb") as file:
        file.write(struct.pack("3i", 0, 0, 0))
    counted = {**os.environ, "LD_PRELOAD": f"{room}/threads.so", "THREADS_TO": notes}
    words = ["--edge", 64, "--cache-bytes", 0, "--workers", workers]
    with Server(program, [f"a={room}/large_for_threads.tif"], words, counted) as server, connect(server.port, 120) as link:
        link.sendall(encode_request("/iiif/a/full/2048,/0/default.tif", "HEAD"))
        head = link.recv(65536)
        length = len(head) + int(re.search(rb"Content-Length: (\d+)", head)[1])
        # Not those that began before: of this connection, and of the one by which the server was found.
        with open(notes, "r+b", 0) as file:
            file.write(struct.pack("i", 1))
            file.write(struct.pack("2i", 0, 0))
            most, ends = 0, time.monotonic() + 60
            for image in range(100):
                if image > 0 and (most >= wanted or time.monotonic() > ends):
                    break
                link.sendall(encode_request("/iiif/a/full/2048,/0/default.tif"))
                if len(read_exactly(link, length)) != length:
                    raise EOFError("an image didn't come whole")
                file.seek(8)
                most = struct.unpack("i", file.read(4))[0]
    return most


@shows("--workers", 3)
def one_image_is_made_by_as_many_threads_as_workers_says(program, room):
    # One worker is the connection's own thread; each further one has a thread of its own. A band of the image has 32 blocks. A thread that
    # gave its worker back may not have ended when the next one begins.
    write_flat(f"{room}/large_for_threads.tif", 4096, 4096, edge=64)
    got = [threads_of(program, room, workers, workers - 1) for workers in (1, 2, 5)]
    got = [workers - 1 <= it <= 2 * (workers - 1) or it for workers, it in zip((1, 2, 5), got)]
    return got, [True, True, True], command(program, "--edge", 64, "--cache-bytes", 0, "--workers", 5, "a=large.tif")


@shows("--open-files", 2)
def as_many_files_stay_open_as_open_files_says(program, room):
    got = []
    with open(f"{room}/list_of_300", encoding="utf-8") as file:
        images = [line.strip().replace("=", f"={room}/") for line in file]
    for open_files in (4, 17, 256):
        with Server(program, images, ["--open-files", open_files]) as server:
            folder, images_open = f"/proc/{server.process.pid}/fd", 0
            for number in os.listdir(folder):
                try:
                    images_open += "/numbered/" in os.readlink(f"{folder}/{number}")
                except FileNotFoundError:
                    pass  # the connection that found the server listening has ended meanwhile
            got.append(images_open)
    return got, [4, 17, 256], command(program, "--open-files", 4, "--images", "list_of_300")


@shows("--open-files")
def a_start_that_runs_out_of_files_says_so(program, room):
    # The process may have 60 open files: by default the start keeps 256 of the images' open.
    got, told = [], "it can't be opened, too many open files (EMFILE): raise the limit of the process, or lower --open-files"
    for words in ([], ["--open-files", "20"]):
        words = [program, "--base", BASE, "--check", "--images", "list_of_300", *words]
        limit = lambda: resource.setrlimit(resource.RLIMIT_NOFILE, (60, 60))  # noqa: E731
        done = subprocess.run(words, cwd=room, capture_output=True, text=True, timeout=60, preexec_fn=limit)
        lines = done.stdout.splitlines()
        got.append((done.returncode, told in lines, {it for it in lines if it.startswith("it ")} <= {told}))
    return got, [(2, True, True), (0, False, True)], command(program, "--open-files", 20, "--images", "list_of_300")


@shows("--touch-bytes")
def touched_memory_was_resident_before_it_listens(program, room):
    mib, peaks = 2 ** 20, []
    for touched in (0, 32 * mib):
        with Server(program, ["a=:sample"], ["--touch-bytes", touched]) as server:
            peaks.append(server.peak())
    grown = peaks[1] - peaks[0]
    return (28 * mib < grown < 40 * mib) or grown, True, command(program, "--touch-bytes", 32 * mib, "a=:sample")


@shows("--peer-timeout", 4)
def a_silent_node_is_waited_for_as_long_as_peer_timeout_says(program, room):
    # A slow machine may take its time even where the node is waited for 20 ms: one of some servers doesn't.
    took, bodies = [], set()
    for timeout in (2500, 20, 20, 20, 20, 20):
        with socket.socket() as silent:
            silent.bind(("127.0.0.1", 0))
            silent.listen()
            words = ["--edge", 2, "--peer-timeout", timeout, "--peer", "other85=127.0.0.1:%d" % silent.getsockname()[1]]
            with Server(program, ["a=:sample"], words) as server:
                begun = time.monotonic()
                bodies.add(ask(server.port, LAST_TILE))
                took.append(time.monotonic() - begun)
        if timeout == 20 and took[-1] < 1.5:
            break
    got = (bodies == {(200, sample_file(LAST_TILE))}, took[-1] < 1.5 or took[1:], took[0] >= 2 or took[0])
    return got, (True, True, True), command(program, *words[:-1], "other85=127.0.0.1:9090", "a=:sample")


@shows("--min-rate", 45)
def a_reader_below_min_rate_is_cut_after_30_seconds(program, room):
    # Three read 20,000 bytes a second: below 1,000,000 one is cut once it was waited for 30 s; it isn't at the default of 4,096, nor at 0.
    # On a slow machine the looks are rarer, and more is read at each.
    write_flat(f"{room}/large_for_readers.tif", 4000, 4000)
    settings = {"above": ["--min-rate", 1_000_000], "default": [], "none": ["--min-rate", 0]}
    servers, cut_after = {}, {}
    for name, words in settings.items():
        statistics = free_port()
        words = [*words, "--stats-listen", f"127.0.0.1:{statistics}"]
        servers[name] = Server(program, [f"a={room}/large_for_readers.tif"], words), statistics
    try:
        links = {name: slow_link(server.port) for name, (server, _) in servers.items()}
        begun, ends = time.monotonic(), time.monotonic() + 90
        taken = dict.fromkeys(links, 0)
        while time.monotonic() < ends:
            for name, link in links.items():
                taken[name] += take(link, max(2000, int(20_000 * (time.monotonic() - begun)) - taken[name]))
                if name not in cut_after and cut(read_page(servers[name][1], "/metrics")[1]) == {"rate": 1}:
                    # What isn't cut soon behind the first isn't cut for its rate.
                    cut_after[name], ends = time.monotonic() - begun, min(ends, time.monotonic() + 8)
            time.sleep(0.1)
        for link in links.values():
            link.close()
    finally:
        for server, _ in servers.values():
            server.stop()
    late = cut_after.get("above", 0)
    return (sorted(cut_after), 29 <= late or late), (["above"], True), command(program, *settings["above"], "a=large.tif")


def slow_link(port):
    """A connection that takes little at a time, and asks for a large image."""
    link = socket.socket()
    link.setsockopt(socket.SOL_SOCKET, socket.SO_RCVBUF, 4096)
    link.settimeout(20)
    link.connect(("127.0.0.1", port))
    link.sendall(encode_request(SAMPLE_TARGET))
    link.setblocking(False)
    return link


def take(link, count):
    """Reads at most so many bytes of what came, and counts them."""
    taken = 0
    try:
        while taken < count and (part := link.recv(count - taken)):
            taken += len(part)
    except (BlockingIOError, ConnectionResetError):
        pass
    return taken


@shows("--per-address", 2)
def the_second_connection_of_an_address_is_refused_by_per_address(program, room):
    # The first one's head is half sent, so that it makes no room for another.
    got = []
    for words in (["--per-address", 1], []):
        statistics = free_port()
        with Server(program, ["a=:sample"], ["--stats-listen", f"127.0.0.1:{statistics}", *words]) as server:
            # Until the connection by which the server was found has left its place, and one more.
            wait_until(lambda: ask(server.port, SAMPLE_TARGET)[0] == 200)
            wait_until(lambda: 'iiif_connections_open{listener="viewers"} 0\n' in read_page(statistics, "/metrics")[1])
            with connect(server.port) as first:
                first.sendall(f"GET {SAMPLE_TARGET} HTTP/1.1\r\n".encode())
                wait_until(lambda: 'iiif_connections_open{listener="viewers"} 1\n' in read_page(statistics, "/metrics")[1])
                second = ask(server.port, SAMPLE_TARGET)
                first.sendall(b"Host: localhost\r\nConnection: close\r\n\r\n")
                served = read_to_end(first)[0].endswith(sample_file())
        got.append((second, served))
    return got, [((None, b""), True), ((200, sample_file()), True)], command(program, "--per-address", 1, "a=:sample")


@shows("--log")
def log_writes_a_line_for_each_answer(program, room):
    # When it ended, and then method, status, the bytes of head and body, milliseconds and target.
    size = len(sample_answers().answer(b"GET", SAMPLE_TARGET.encode(), True))
    line = rf"\d{{4}}-\d\d-\d\dT\d\d:\d\d:\d\d\.\d{{3}}Z GET 200 {size} \d+ {re.escape(SAMPLE_TARGET)}\n"
    got = []
    for words in (["--log"], []):
        with Server(program, ["a=:sample"], words) as server:
            ask(server.port, SAMPLE_TARGET)
            wait_until(lambda: server.line(), 60 if words else 1)
            got.append(bool(re.fullmatch(line, server.text())) or server.text())
    return got, [True, ""], command(program, "--log", "a=:sample")


@shows("--log")
def log_says_which_read_failed_where_and_why(program, room):
    # The samples of the file begin at byte 174, and it has 100 bytes by then. One that is held is answered.
    got = []
    for hold in (0, 190):
        path, statistics = sample_in(room, f"failing_{hold}"), free_port()
        words = ["--log", "--hold", hold, "--stats-listen", f"127.0.0.1:{statistics}"]
        with Server(program, ["a=" + path], words) as server:
            os.truncate(path, 100)
            ask(server.port, SAMPLE_TARGET)
            wait_until(lambda: f" {SAMPLE_TARGET}" in server.text())
            lines = [re.sub(r"^\S+Z ", "", it) for it in server.text().splitlines()]
            got.append(["\n".join(lines), counter(read_page(statistics, "/metrics")[1], "iiif_read_failures_total")])
        answer = rf"GET 500 \d+ \d+ {re.escape(SAMPLE_TARGET)} L1 source" if hold == 0 else rf"GET 200 \d+ \d+ {re.escape(SAMPLE_TARGET)}"
        failed = f"read-failed {re.escape(path)} 174 shorter\n" if hold == 0 else ""
        got[-1][0] = bool(re.fullmatch(failed + answer, got[-1][0])) or got[-1][0]
    return got, [[True, 1], [True, 0]], command(program, "--log", "a=sample.tif")


def record_of(program, path, words):
    """The lines of the record of a server that was asked for one image twice; none where there is no record."""
    with Server(program, ["a=:sample"], words) as server:
        for _ in range(2):
            ask(server.port, SAMPLE_TARGET)
        # The lines before an answer's end are written before that.
        if not os.path.exists(path):
            return []
        with open(path, encoding="ascii") as file:
            return file.read().splitlines()


@shows("--record", 2)
def record_has_the_first_ask_lead_and_the_second_hit(program, room):
    path = f"{room}/record_of_two_asks"
    lines = record_of(program, path, ["--record", path])
    head = [it for it in lines if it.startswith("set picture ") or it.startswith("set edge ")]
    # A step behind the number of its pass: its words, the class, perhaps a flight's number, and the key.
    steps = [re.sub(r"^\d+ ([a-z ]+?) local .*", r"\1", it) for it in lines if it[0].isdigit()]
    met = [it for it in steps if it in ("hit", "joins", "leads") or it.startswith("lands")]
    got = [head, met, record_of(program, f"{room}/no_record", [])]
    return got, [["set edge 256", "set picture a gray 8 4 4 blank"], ["leads", "lands value kept", "hit"], []], command(
        program, "--record", "record", "a=:sample")


@shows("--record-bytes", 2)
def record_ends_at_its_bytes(program, room):
    path = f"{room}/record_that_ends"
    got = []
    for words in (["--record-bytes", 200], []):
        lines = record_of(program, path, ["--record", path, *words])
        got.append((lines[-1:] == ["0 ended"], os.path.getsize(path) <= 200))
    return got, [(True, True), (False, False)], command(program, "--record", "record", "--record-bytes", 200, "a=:sample")


@shows("--folder")
def a_folder_is_read_at_the_start_alone(program, room):
    folder = f"{room}/folder_read_once"
    os.mkdir(folder)
    os.rename(sample_in(room, "moved_to_a_folder"), f"{folder}/a.tif")
    words = ["--edge", 2, "--folder", folder]
    with Server(program, [], words) as server:
        os.rename(f"{folder}/a.tif", f"{folder}/b.tif")
        got = [ask(server.port, f"/iiif/{it}/full/max/0/default.tif") for it in ("a", "b")]
    return got, [(200, sample_file()), (404, b"Q4 identifier\n")], command(program, "--edge", 2, "--folder", "folder")


@shows("--skip-unfit")
def images_that_are_left_out_are_told_and_counted(program, room):
    got = []
    for words in (["--skip-unfit"], []):
        statistics = free_port()
        words = ["--folder", f"{room}/folder_with_a_file_at_fault", "--stats-listen", f"127.0.0.1:{statistics}", *words]
        try:
            with Server(program, [], words) as server:
                text = read_page(statistics, "/metrics")[1]
                got.append([counter(text, it) for it in ("iiif_images", "iiif_images_unfit")])
                got.append([ask(server.port, f"/iiif/{it}/full/max/0/default.tif")[0] for it in ("good", "bad")])
                got.append(server.line().splitlines()[0])
        except Refused:
            got.append("refused")
    return got, [[1, 1], [200, 404], "image bad: 4", "refused"], command(program, *words, "--skip-unfit")


@shows("--stats-listen")
def stats_listen_answers_metrics_and_health(program, room):
    statistics = free_port()
    words = ["--stats-listen", f"127.0.0.1:{statistics}"]
    with Server(program, ["a=:sample"], words) as server:
        ask(server.port, SAMPLE_TARGET)
        wait_until(lambda: 'iiif_answers_total{status="200"} 1\n' in read_page(statistics, "/metrics")[1])
        told = 'iiif_answers_total{status="200"} 1\n' in read_page(statistics, "/metrics")[1]
        ask(server.port, "/iiif/a/info.json")
        ask(server.port, "/iiif/b/info.json")
        counts = {f'iiif_answer_seconds_count{{kind="{it}"}} 1\n' for it in ("image", "info", "other")}
        wait_until(lambda: all(it in read_page(statistics, "/metrics")[1] for it in counts))
        told = told and all(it in read_page(statistics, "/metrics")[1] for it in counts)
        got = [told, read_page(statistics, "/health"), ask(server.port, "/health")]
    with Server(program, ["a=:sample"]):
        got.append(is_listening(statistics))
    return got, [True, (200, "viewers ok\nstatistics ok\n"), (400, b"Q3 path\n"), False], command(program, *words, "a=:sample")


def is_listening(port):
    """Tells whether someone listens at a port."""
    try:
        connect(port, 5).close()
        return True
    except ConnectionRefusedError:
        return False


def replied(port, source=None, name="a", length=None):
    """Asks for the tile (0, 0) of edge 2 from an address of this machine: the reply, nothing where the connection is closed."""
    ask = wire.ask(1, 1, wire.tile_key(name.encode(), 2, 0, 0))
    ends = time.monotonic() + 60
    while time.monotonic() < ends:
        try:
            with socket.create_connection(("127.0.0.1", port), 60, (source, 0) if source else None) as link:
                link.sendall(ask)
                return read_exactly(link, length or len(reply()))
        except ConnectionRefusedError:
            time.sleep(0.02)
        except (ConnectionResetError, BrokenPipeError):
            return b""
    return None


def reply(name="a", known="a"):
    """The right reply to an ask for an image of this name, where the sample is known by that one: of the same name the tile's shape and its
    four samples, else that there is none."""
    values = wire.Values({known: sample()}, 2)
    return values.replied(1, 1, wire.tile_key(name.encode(), 2, 0, 0))[0]


@shows("--peer-listen")
def peer_listen_replies_to_another_nodes_ask(program, room):
    peers = free_port()
    words = ["--edge", 2, "--peer-listen", f"127.0.0.1:{peers}"]
    with Server(program, ["a=:sample"], words):
        got = [replied(peers)]
    with Server(program, ["a=:sample"], words[:2]):
        got.append(is_listening(peers))
    return got, [reply(), False], command(program, *words, "a=:sample")


@shows("--peer-only")
def peer_only_closes_who_comes_from_no_peers_address(program, room):
    # The other node is at 127.0.0.2: who comes from 127.0.0.3 is replied without --peer-only alone.
    got = []
    for words in (["--peer-only"], []):
        peers = free_port()
        words = ["--edge", 2, "--peer-listen", f"127.0.0.1:{peers}", "--peer", "b=127.0.0.2:1", *words]
        with Server(program, ["a=:sample"], words):
            got.append([replied(peers, source) for source in ("127.0.0.2", "127.0.0.3")])
    return got, [[reply(), b""], [reply(), reply()]], command(program, *words, "--peer-only", "a=:sample")


@shows("--peer-versions")
def an_ask_has_the_version_of_the_file_behind_its_name(program, room):
    # The built-in sample has 138 bytes, and was last changed at 0.
    got, named, other = [], f"a{138:016x}{0:016x}", f"a{139:016x}{0:016x}"
    for words in (["--peer-versions"], []):
        peers, statistics = free_port(), free_port()
        words = ["--edge", 2, "--peer-listen", f"127.0.0.1:{peers}", "--stats-listen", f"127.0.0.1:{statistics}", *words]
        with Server(program, ["a=:sample"], words):
            got.append([replied(peers, None, it, len(reply(it, "b"))) == reply(it, "b") for it in ("a", named, other)])
            got.append(replied(peers, None, named, len(reply(named, named))) == reply(named, named))
            got.append(counter(read_page(statistics, "/metrics")[1], "iiif_images_other_versions_total"))
    return got, [[True, False, True], True, 1, [False, True, True], False, 0], command(program, *words, "--peer-versions", "a=:sample")


@shows("--peer")
def a_node_whose_peer_lies_nowhere_answers_and_says_so(program, room):
    got = []
    for words in (["--peer", f"other85=127.0.0.1:{free_port()}"], []):
        statistics = free_port()
        with Server(program, ["a=:sample"], ["--edge", 2, "--stats-listen", f"127.0.0.1:{statistics}", *words]) as server:
            status = ask(server.port, LAST_TILE)[0]
            text = read_page(statistics, "/metrics")[1]
            got.append((status, 'iiif_peer_asks_total{peer="other85",outcome="failed"} 1\n' in text))
    return got, [(200, True), (200, False)], command(program, "--edge", 2, "--peer", "other85=127.0.0.1:1", "a=:sample")


@shows("NAME=FILE")
def a_server_needs_an_image(program, room):
    try:
        with Server(program, []) as server:
            got = ask(server.port, SAMPLE_TARGET)
    except Refused as refused:
        got = (refused.args[0], refused.args[1].splitlines()[0])
    return got, (2, "line: image"), command(program)


@shows("NAME=FILE")
def a_server_warns_of_a_name_of_two_dots_alone_and_answers_it(program, room):
    # A client that normalizes asks for /iiif/full/.. in its place; these bytes go out as they stand.
    warning = "warning: image ..: clients remove the segments . and .. of a URI before they ask for it"
    got = []
    for name, wanted in (("..", warning), ("a", "")):
        with Server(program, [f"{name}=:sample"]) as server:
            wait_until(lambda: server.line(), 60 if wanted else 1)
            got.append((server.line(), ask(server.port, f"/iiif/{name}/full/max/0/default.tif")))
    answer = (200, sample_file())
    return got, [(warning, answer), ("", answer)], command(program, "..=:sample")
