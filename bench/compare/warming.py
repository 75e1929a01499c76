"""Memory at hand for what is measured next."""
import subprocess
import sys

WRITE = """
import mmap, sys
size = int(sys.argv[1]) << 20
with mmap.mmap(-1, size, flags=mmap.MAP_PRIVATE | mmap.MAP_ANONYMOUS) as held:
    held.madvise(mmap.MADV_HUGEPAGE)
    for at in range(0, size, mmap.PAGESIZE):
        held[at] = 1
"""


def touch(mebibytes):
    """Takes so much memory in pages of 2 MiB, writes to all of it and gives it back. A virtual machine whose host takes back what lies free has
    to ask for it again else, and then a new page costs four times as much and more, by how long nothing ran. Memory that was touched in pages of
    4 KiB doesn't do: those of 2 MiB that are taken next aren't made of it."""
    if mebibytes:
        subprocess.run([sys.executable, "-c", WRITE, str(mebibytes)], check=True)
