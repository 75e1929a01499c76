"""What a server may have left behind after a run: the bounds of docs/operate/OPERATING.md."""
import os
import sys

sys.path.insert(0, os.path.join(os.path.dirname(os.path.abspath(__file__)), ".."))
from lib.server import list_options  # noqa: E402


def caches_of(args):
    """The bytes that the program's two caches may hold, where it has any."""
    return 2 * args.cache_bytes if "--cache-bytes" in list_options(args.program) else 0


def left_behind(args, server, before, files, found):
    """What a server says or keeps after a run, noted where it disagrees with docs/operate/OPERATING.md: that it ended, memory above the bound since
    `before`, open files above `files`. Gives how far its memory grew, and nothing where it ended."""
    if not server.alive():
        found.append(f"the server ended: {server.process.returncode}, {server.line()}")
        return None
    grown, left = server.peak() - before, server.files_left(files)
    if grown > memory_bound(3, args.max, args.edge, 0, True) + caches_of(args):
        found.append(f"resident memory grew by {grown}")
    if left > 0:
        found.append(f"{left} open files more than before")
    return grown


def grown_by(grown):
    return "" if grown is None else f", memory grew by {grown // 1024} KiB"


def memory_bound(channels, limit, edge, pieces, deep=False, longer_side=None):
    """The bytes that one request can take, by docs/operate/OPERATING.md, with 4 for each strip or tile of the files, a connection's buffer, and what is
    read ahead of files: 32 MiB, and 1 for each of two workers."""
    per = 10 if deep else 9
    across = limit // edge + 2
    down = across if longer_side is None else max(across, longer_side // edge + 2)
    return per * channels * limit ** 2 + per * channels * (edge + 1) ** 2 + 160 * across * down + 38 * 2 ** 20 + 4 * pieces + 8192
