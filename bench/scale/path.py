"""Records what the viewer page asks for in Chromium, and compares it with the path that scale.py's viewers take.

    /usr/bin/python3 bench/scale/path.py --program crates/iiif_serve/out/iiif_serve [--sides 2480,3508]

Starts the program on a blank picture with these sides, serves viewers/own.html before it, and lets Chromium open it in a canvas of 1,280
by 720, zoom in about one place and move three times, each step once all tiles of the one before are there. The status is 1 where the
list of requests isn't that of scale.py, in its order.
"""
import argparse
import http.client
import http.server
import json
import re
import subprocess
import sys
import tempfile
import threading
from pathlib import Path

import scale
from model import Image

sys.path.insert(0, str(Path(__file__).resolve().parents[2] / "tests"))
from lib.server import Server  # noqa: E402
from lib.tiff import encode_pieces  # noqa: E402

PAGE = (Path(__file__).resolve().parents[2] / "viewers" / "own.html").read_bytes()
PLACE, MOVES = (0.3, 0.6), (1, -1, 1)
DRIVE = """<iframe id="page" style="width:1400px;height:1100px" src="/viewer"></iframe><script>
const page = document.getElementById("page"), wait = (ms) => new Promise((go) => setTimeout(go, ms));
page.onload = async () => {
  const w = page.contentWindow, get = (text) => w.eval(text);
  w.document.getElementById("canvas").style = "flex:none;width:1280px;height:720px";
  await wait(300);
  w.document.getElementById("url").value = "%(info)s";
  await get("open()");
  const still = async () => { for (let calm = 0; calm < 8; await wait(30)) calm = get("asked || waiting || [...tiles.values()].some((tile) => !tile.image && !tile.failed)") ? 0 : calm + 1; };
  await still();
  const sides = get("[info.width, info.height]"), zoom = get("zoom"), middle = get("middle");
  const at = %(place)s.map((p, i) => (p * sides[i] - middle[i]) * zoom + [640, 360][i]);
  while (get("zoom") < 1) { w.zoomBy(1.5, at[0], at[1]); await still(); }
  for (const [dx, dy] of %(moves)s) { w.move(-dx, -dy); await still(); }
  await fetch("/done", { method: "POST", body: w.document.getElementById("fault").textContent });
};
</script>"""


def blank(sides):
    """An uncompressed RGB file of samples of 0, in one strip."""
    w, h = sides
    return encode_pieces(w, h, [bytes(3 * w * h)], channels=3, strip=h)


class Fixed:
    """The chances of this path."""

    def __init__(self):
        self.places, self.moves = iter(PLACE), iter(MOVES)

    def random(self):
        return (next(self.places) - 0.1) / 0.8

    def choice(self, _):
        return next(self.moves)


class Before(http.server.BaseHTTPRequestHandler):
    """Serves the page, hands requests for images on, and notes them."""

    protocol_version = "HTTP/1.1"

    def answer(self, body, kind):
        self.send_response(200)
        self.send_header("Content-Type", kind)
        self.send_header("Content-Length", str(len(body)))
        self.end_headers()
        self.wfile.write(body)

    def do_GET(self):
        server = self.server
        if not self.path.startswith("/iiif/"):
            words = {"info": f"http://localhost:{server.server_port}/iiif/page/info.json", "place": json.dumps(PLACE),
                     "moves": json.dumps([[640 * MOVES[0], 0], [0, 360 * MOVES[1]], [640 * MOVES[2], 0]])}
            return self.answer((DRIVE % words).encode() if self.path == "/drive" else PAGE, "text/html")
        there = http.client.HTTPConnection("127.0.0.1", server.behind)
        there.request(self.command, self.path)
        answer = there.getresponse()
        body = answer.read()
        if self.command == "GET":
            server.asked.append(self.path)
            server.statuses.append(answer.status)
            self.answer(body, answer.headers["Content-Type"])
        else:
            self.answer(b"", "image/tiff")

    do_HEAD = do_GET

    def do_POST(self):
        self.server.fault = self.rfile.read(int(self.headers["Content-Length"])).decode()
        self.answer(b"", "text/plain")
        self.server.done.set()

    def log_message(self, *_):
        pass


def main():
    parser = argparse.ArgumentParser()
    parser.add_argument("--program", required=True)
    parser.add_argument("--sides", default="2480,3508")
    parser.add_argument("--port", type=int, default=18080)
    args = parser.parse_args()
    sides = tuple(map(int, args.sides.split(",")))
    server = http.server.ThreadingHTTPServer(("127.0.0.1", args.port), Before)
    server.behind, server.asked, server.statuses, server.done = args.port + 1, [], [], threading.Event()
    threading.Thread(target=server.serve_forever, daemon=True).start()
    with tempfile.TemporaryDirectory() as folder:
        file = Path(folder, "page.tif")
        file.write_bytes(blank(sides))
        with Server(args.program, [f"page={file}"], port=args.port + 1, base=f"http://localhost:{args.port}/iiif"):
            browser = subprocess.Popen(["chromium", "--headless=new", "--no-sandbox", "--disable-gpu", "--window-size=1500,1200",
                                        f"--user-data-dir={folder}/chromium", f"http://localhost:{args.port}/drive"], stderr=subprocess.DEVNULL)
            ended = server.done.wait(300)
            browser.terminate()
            browser.wait()
    asked = [re.match(r"/iiif/page/(full|[0-9,]+)/(max|[0-9,]+)/", path).groups() for path in server.asked if "info.json" not in path]
    wanted = []
    for request in scale.visit(Image(b"page", *sides, 3), Fixed()):
        r, size = request.region, request.size
        wanted.append(("full" if tuple(r) == (0, 0, *sides) else ",".join(map(str, r)), "max" if size == r[2:] else ",".join(map(str, size))))
    print(f"{len(asked)} requests recorded, {len(wanted)} of scale.py, {'equal' if asked == wanted else 'they differ'}; statuses {sorted(set(server.statuses))}, {server.fault or 'no fault'}")
    for at, (one, other) in enumerate(zip(asked, wanted)):
        if one != other:
            print(f"request {at}: recorded {one}, scale.py {other}")
            break
    return 0 if ended and asked == wanted else 1


if __name__ == "__main__":
    sys.exit(main())
