"""The servers that the viewers ask: each is started by itself on free ports of this machine, and its processor time is read from outside."""
import os
import signal
import socket
import subprocess
import sys
import time

for folder in ("../tests", "compare"):
    sys.path.insert(0, os.path.join(os.path.dirname(os.path.abspath(__file__)), "..", folder))
from lib import server as running  # noqa: E402
from warming import touch  # noqa: E402

BASE, NAME, IIPSRV = running.BASE, "gray", "/usr/lib/iipimage-server/iipsrv.fcgi"
TICKS = os.sysconf("SC_CLK_TCK")
UNIT = os.path.join(os.path.dirname(os.path.abspath(__file__)), "..", "..", "packaging", "iiif-serve.service")


def unit_environment():
    """What the package's unit adds to the environment of the program."""
    with open(UNIT) as unit:
        words = [line.strip().removeprefix("Environment=") for line in unit if line.startswith("Environment=")]
    return dict(word.split("=", 1) for word in words)


class Failed(Exception):
    """A server that doesn't listen: its column, its status, and what it wrote."""


class Servers:
    """Some processes that serve one picture together: their addresses, and what they used."""

    # What stands at the end of a target.
    last = "default.tif"
    # So many MiB are touched right before a server is started.
    warm = 0

    def __init__(self, column, commands, ports, room, added=None):
        self.column, self.addresses, self.processes = column, [f"127.0.0.1:{port}" for port in ports], []
        self.said = open(os.path.join(room, "said"), "w+b")
        touch(self.warm)
        for command in commands:
            self.processes.append(subprocess.Popen(command, stdin=subprocess.DEVNULL, stdout=self.said, stderr=self.said, start_new_session=True, env={**os.environ, **(added or {})}))
        for port in ports:
            self.wait_for(port)

    def wait_for(self, port):
        for _ in range(2000):
            if ended := [process for process in self.processes if process.poll() is not None]:
                self.said.seek(0)
                text = self.said.read().decode(errors="replace").strip()
                self.stop()
                raise Failed(self.column, ended[0].returncode, text)
            try:
                socket.create_connection(("127.0.0.1", port), 5).close()
                return
            except ConnectionRefusedError:
                time.sleep(0.005)
        self.stop()
        raise Failed(self.column, None, "doesn't listen")

    def members(self):
        """The numbers of all processes in the sessions that were started here."""
        sessions, found = {process.pid for process in self.processes}, []
        for entry in filter(str.isdigit, os.listdir("/proc")):
            try:
                if os.getsid(int(entry)) in sessions:
                    found.append(int(entry))
            except ProcessLookupError:
                pass
        return found

    def used(self):
        """The processor seconds of all of them so far."""
        total = 0
        for pid in self.members():
            try:
                with open(f"/proc/{pid}/stat") as stat:
                    total += sum(map(int, stat.read().rsplit(")", 1)[1].split()[11:13]))
            except OSError:
                pass
        return total / TICKS

    def stop(self):
        for process in self.processes:
            try:
                os.killpg(process.pid, signal.SIGTERM)
                process.wait(10)
            except ProcessLookupError:
                pass
            except subprocess.TimeoutExpired:
                os.killpg(process.pid, signal.SIGKILL)
                process.wait()
        self.said.close()

    def __enter__(self):
        return self

    def __exit__(self, *_):
        self.stop()


class Program(Servers):
    """A build of the program: one node, or several that ask each other. Each is started in the environment of the package's unit."""

    def __init__(self, column, path, source, room, options=(), nodes=1):
        known = running.list_options(path)
        ports, peers, self.stats = ([running.free_port() for _ in range(nodes)] for _ in range(3))
        self.counts = "--stats-listen" in known
        commands = []
        for n, port in enumerate(ports):
            words = [path, "--base", BASE, "--listen", f"127.0.0.1:{port}", *options]
            if nodes > 1:
                words += ["--name", f"node{n}", "--peer-listen", f"127.0.0.1:{peers[n]}"]
                words += [word for m in range(nodes) if m != n for word in ("--peer", f"node{m}=127.0.0.1:{peers[m]}")]
            if self.counts:
                words += ["--stats-listen", f"127.0.0.1:{self.stats[n]}"]
            commands.append(words + [f"{NAME}={source}"])
        super().__init__(column, commands, ports, room, unit_environment())

    def loads(self):
        """Of each node the loads of tiles and of sums, and what came from other nodes, by its counters; nothing where it has none."""
        if not self.counts:
            return None
        told = [running.read_counters(port) for port in self.stats]
        return ["{} and {}, {} from others".format(it["iiif_tile_cache_loads_total"], it["iiif_sum_cache_loads_total"],
                                                    it["iiif_tile_cache_peer_total"] + it["iiif_sum_cache_peer_total"]) for it in told]


class Iip(Servers):
    """IIPImage behind lighttpd by FastCGI, so many processes of it, over a file in tiles or a pyramid of them."""

    last = "default.jpg"

    def __init__(self, column, source, room, processes):
        port, conf = running.free_port(), os.path.join(room, f"lighttpd{processes}.conf")
        with open(conf, "w") as file:
            file.write(f"""server.modules = ("mod_fastcgi")
server.document-root = "{room}"
server.bind = "127.0.0.1"
server.port = {port}
server.max-keep-alive-requests = 1000000
server.max-keep-alive-idle = 120
fastcgi.server = ("/iiif" => (("socket" => "{room}/iip{processes}.socket", "check-local" => "disable", "max-procs" => {processes}, "bin-path" => "{IIPSRV}",
  "bin-environment" => ("URI_MAP" => "iiif=>IIIF", "FILESYSTEM_PREFIX" => "{os.path.dirname(source)}/", "VERBOSITY" => "0", "LOGFILE" => "/dev/null",
                        "MAX_IMAGE_CACHE_SIZE" => "64"))))
""")
        self.picture = os.path.basename(source)
        super().__init__(column, [["lighttpd", "-D", "-f", conf]], [port], room)


class Plain(Servers):
    """plain.c over libvips, or floor.c."""

    def __init__(self, column, path, source, room, *more):
        port = running.free_port()
        super().__init__(column, [[path, str(port), source, *more]], [port], room)
