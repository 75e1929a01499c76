#!/usr/bin/env python3
"""What a start with many images takes, and how many files are open then.

    bench/images/images.py --program PROGRAM --images 10000 --files 1024

Writes so many TIFF files of 4 by 4 gray places and a list of them to a temporary folder, starts the program on the list with so many
open files allowed (ulimit -n), and says when it answered the first request, what memory and how many open files it had then, and the
same after each image was asked for whole. Each answer is compared with the file's samples. It needs Python alone, and Linux for /proc.
"""
import argparse
import os
import resource
import subprocess
import sys
import tempfile
import time

sys.path.insert(0, os.path.join(os.path.dirname(os.path.abspath(__file__)), "..", "..", "tests"))
from lib.server import BASE, ask, free_port  # noqa: E402
from lib.tiff import Answer, encode_rows  # noqa: E402


def first_answer(server, port, target):
    """Waits for the first answer."""
    while True:
        if server.poll() is not None:
            sys.exit(f"the program ended with status {server.returncode}: {server.stderr.read().decode()}")
        try:
            return ask(port, target)
        except OSError:
            time.sleep(0.01)


def state(server):
    """The open files of a process, and its memory in MB."""
    with open(f"/proc/{server.pid}/status") as status:
        memory = [line.split()[1] for line in status if line.startswith("VmRSS")]
    return len(os.listdir(f"/proc/{server.pid}/fd")), int(memory[0]) // 1024


def main():
    words = argparse.ArgumentParser(description=__doc__, formatter_class=argparse.RawDescriptionHelpFormatter)
    words.add_argument("--program", required=True)
    words.add_argument("--images", type=int, default=10000)
    words.add_argument("--files", type=int, default=1024)
    options = words.parse_args()
    port = free_port()
    with tempfile.TemporaryDirectory() as folder:
        with open(f"{folder}/list", "w") as listed:
            for number in range(options.images):
                with open(f"{folder}/{number}.tif", "wb") as image:
                    image.write(encode_rows([[[number % 251]] * 4] * 4, 1, 8))
                listed.write(f"scan-{number}={folder}/{number}.tif\n")
        limit = (options.files, options.files)
        start = time.monotonic()
        server = subprocess.Popen(
            [options.program, "--base", BASE, "--listen", f"127.0.0.1:{port}", "--images", f"{folder}/list"],
            stderr=subprocess.PIPE,
            preexec_fn=lambda: resource.setrlimit(resource.RLIMIT_NOFILE, limit),
        )
        try:
            first_answer(server, port, "/iiif/scan-0/info.json")
            started = time.monotonic() - start
            print("images {}: first answer after {:.2f} s, {} open files, {} MB".format(options.images, started, *state(server)))
            wrong = 0
            for number in range(options.images):
                wanted = Answer(4, 4, 1, 8, bytes([number % 251] * 16)).encode()
                wrong += ask(port, f"/iiif/scan-{number}/full/max/0/default.tif") != (200, wanted)
            print("each asked for whole: {} wrong answers, {} open files, {} MB".format(wrong, *state(server)))
            return 1 if wrong else 0
        finally:
            server.kill()
            server.wait()


if __name__ == "__main__":
    sys.exit(main())
