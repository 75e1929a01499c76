"""What the browser asks: the viewers' pages, the program, and a server that gives what the program wouldn't."""
import http.server
import os
import sys
import threading

from debian import library_file
from pictures import TOP

sys.path.insert(0, os.path.join(TOP, "tests"))
from lib.server import Server, free_port  # noqa: E402

TYPES = {".html": "text/html", ".js": "text/javascript", ".css": "text/css", ".png": "image/png"}
HERE = os.path.dirname(os.path.abspath(__file__))


class Program(Server):
    """The built program, serving these images, NAME=FILE each, at the base that a browser asks."""

    def __init__(self, program, images, edge):
        port = free_port()
        self.base = f"http://localhost:{port}/iiif"
        super().__init__(program, images, ["--edge", edge], port=port, base=self.base)


class Loopback:
    """A server in this process, on a port of its own, which is told of each path that is asked."""

    def __init__(self, answer):
        self.asked = []

        class Handler(http.server.BaseHTTPRequestHandler):
            protocol_version = "HTTP/1.1"

            def do_GET(handler):
                self.asked.append(handler.path)
                answer(handler)

            do_POST = do_GET

            def log_message(self, *_):
                pass

        self.server = http.server.ThreadingHTTPServer(("127.0.0.1", free_port()), Handler)
        self.server.daemon_threads = True
        self.port = self.server.server_address[1]
        threading.Thread(target=self.server.serve_forever, daemon=True).start()

    def __enter__(self):
        return self

    def __exit__(self, *_):
        self.server.shutdown()
        self.server.server_close()


def send(handler, status, kind, body, told=None, cut=None):
    """An answer: with another Content-Length, or none, where that is told, and cut off behind so many bytes of its body."""
    handler.send_response(status)
    handler.send_header("Content-Type", kind)
    handler.send_header("Access-Control-Allow-Origin", "*")
    if told != "none":
        handler.send_header("Content-Length", str(len(body) if told is None else told))
    handler.send_header("Connection", "close")
    handler.end_headers()
    handler.wfile.write(body[:cut])
    handler.close_connection = True


class Pages(Loopback):
    """The viewers' folder below /viewers/, with bare.html of the tests beside its pages, and Debian's Leaflet and OpenSeadragon in it.
    `stand_ins` has a script in place of a page's library, by its path, or None where the library isn't to be found."""

    def __init__(self, folder):
        self.stand_ins = {}

        def answer(handler):
            name = handler.path.split("?")[0].removeprefix("/viewers/")
            if self.stand_ins.get(name):
                return send(handler, 200, "text/javascript", self.stand_ins[name].encode())
            path = library_file(name) or os.path.join(HERE if name == "bare.html" else folder, name)
            if ".." in name or name in self.stand_ins or not os.path.isfile(path):
                return send(handler, 404, "text/plain", b"no such page\n")
            with open(path, "rb") as file:
                return send(handler, 200, TYPES[os.path.splitext(path)[1]], file.read())

        super().__init__(answer)
        self.base = f"http://localhost:{self.port}/viewers"


class Odd(Loopback):
    """A server of image requests below /odd that gives what it is told to, by name: files of any layout, and torn ones."""

    def __init__(self):
        self.given = {}  # by name: keywords of `send`

        def answer(handler):
            name = handler.path.split("/")[2:3]
            told = self.given.get(name[0] if name else "")
            if told is None or not handler.path.split("?")[0].endswith(".tif"):
                return send(handler, 404, "text/plain", b"nothing of this name and format\n")
            return send(handler, 200, "image/tiff", **told)

        super().__init__(answer)
        self.base = f"http://localhost:{self.port}/odd"


VIEWERS = os.path.join(TOP, "viewers")
