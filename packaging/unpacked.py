#!/usr/bin/env python3
"""Starts what a package holds as its unit says, from the folder that it was unpacked to, asks it for its sample's information and image, and
has it reload and end as the unit says.

    packaging/unpacked.py PACKAGE
"""
import os
import shlex
import subprocess
import sys
import tempfile
import time
import urllib.error
import urllib.request

PORT = 18080
WANTED = ("usr/bin/iiif_serve", "usr/bin/iiif_replay", "usr/bin/iiif-judge", "usr/share/iiif-serve/judge/machine.py",
          "usr/share/man/man1/iiif_serve.1.gz", "usr/share/iiif-serve/viewers/leaflet.html",
          "usr/share/iiif-serve/manifest.py",
          "usr/share/doc/iiif-serve/OPERATING.md.gz", "usr/share/doc/iiif-serve/examples/nginx.conf", "etc/default/iiif-serve")


def settings(root):
    """What the unit's environment has from the file of defaults, as a shell reads it."""
    words = ". \"$1\"; printf '%s\\0' \"$BASE\" \"$OPTIONS\" \"$IMAGES\""
    said = subprocess.run(["sh", "-c", words, "sh", f"{root}/etc/default/iiif-serve"], capture_output=True, check=True).stdout
    base, options, images = said.decode().split("\0")[:3]
    return {"${BASE}": [base], "${LISTEN}": [f"127.0.0.1:{PORT}"], "$OPTIONS": options.split(), "$IMAGES": images.split()}


def command(root, name="ExecStart"):
    """The unit's ExecStart, or another of its commands, with its variables, below the folder."""
    with open(f"{root}/lib/systemd/system/iiif-serve.service") as unit:
        (line,) = [it.strip().removeprefix(name + "=").removeprefix("-") for it in unit if it.startswith(name + "=")]
    named = settings(root) | {"/run/iiif-serve/control": [f"{root}/control"]}
    words = [word for it in shlex.split(line) for word in named.get(it, [it])]
    return [root + words[0], *words[1:]]


def answer(target):
    """The bytes of an answer of status 200, asked again while nobody listens yet. It comes once the images are open."""
    for _ in range(600):
        try:
            with urllib.request.urlopen(f"http://127.0.0.1:{PORT}/iiif/sample/{target}", timeout=100) as it:
                return it.read()
        except urllib.error.URLError:
            time.sleep(0.1)
    raise SystemExit(f"check: no answer to {target}")


def main(package):
    with tempfile.TemporaryDirectory() as root:
        subprocess.run(["dpkg-deb", "--extract", package, root], check=True)
        lacking = [it for it in WANTED if not os.path.exists(f"{root}/{it}")]
        if lacking:
            raise SystemExit(f"check: not in the package: {' '.join(lacking)}")
        server = subprocess.Popen(command(root), stderr=subprocess.DEVNULL)
        try:
            if b'"type":"ImageService3"' not in answer("info.json") or len(answer("full/max/0/default.tif")) != 190:
                raise SystemExit("check: another answer than the sample's")
            for name in ("ExecReload", "ExecStop"):
                subprocess.run(command(root, name), check=True, timeout=60)
            if server.wait(60) != 0:
                raise SystemExit(f"check: it was drained, and ended with {server.returncode}")
        finally:
            server.terminate()
            server.wait()
    print("package: unpacked, started, reloaded and drained as its unit says, answered")


if __name__ == "__main__":
    main(sys.argv[1])
