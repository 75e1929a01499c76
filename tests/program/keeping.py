"""Cases of one answer and of what is kept for it: how often its tiles are read, and how many pages of memory it touches first.

Images are files with holes, all of whose samples are 0, in tiles of 256. Their tiles are counted by the reads of a whole tile.
"""
import os
import subprocess
import tempfile

from options import BASE, Case
from lib.tiff import write_pieces

CASES = []
EDGE = 256
# Half of the pages that the 16 MiB of all tiles have. The peak of a child's memory would count its parent's.
FEW_PAGES = 16 * 1024 // 4 // 2


def counts(function):
    """Makes a function a case of --cache-bytes."""
    CASES.append(Case("--cache-bytes", 1, function))
    return function


def black(path, width, height):
    """Writes a gray file of 8 bits with these sides, of which only the lists take room."""
    count = -(-width // EDGE) * -(-height // EDGE)
    with open(path, "wb") as file:
        write_pieces(file, width, height, [EDGE * EDGE] * count, tile=EDGE)


def one(program, room, sides, target, *options):
    """The command of an answer of an image with these sides, how many tiles it reads, and how many pages it touches first."""
    with tempfile.TemporaryDirectory() as folder:
        image, notes = f"{folder}/black.tif", f"{folder}/notes"
        black(image, *sides)
        command = [program, "--base", BASE, *options, "--one", f"/iiif/a/{target}/0/default.tif", f"a={image}"]
        counted = {**os.environ, "LD_PRELOAD": f"{room}/reads.so", "READS_SIZE": str(EDGE * EDGE), "READS_TO": notes}
        with subprocess.Popen(command, stdout=subprocess.DEVNULL, env=counted) as child:
            _, status, usage = os.wait4(child.pid, 0)
            child.returncode = os.waitstatus_to_exitcode(status)
        if child.returncode:
            raise ValueError(f"status {child.returncode}")
        return command, os.path.getsize(notes), usage.ru_minflt


@counts
def an_overview_keeps_no_tiles_but_where_the_words_say_so(program, room):
    got = []
    for options in ([], ["--cache-bytes", "67108864"]):
        command, reads, pages = one(program, room, (4096, 4096), "full/200,", "--workers", "1", *options)
        got.append((reads, pages < FEW_PAGES))
    return got, [(256, True), (256, False)], command


@counts
def an_overview_by_four_workers_reads_each_tile_once(program, room):
    command, reads, _ = one(program, room, (4096, 4096), "full/1000,", "--workers", "4")
    return reads, 256, command


@counts
def a_tile_of_several_bands_is_read_once(program, room):
    # 128 rows are two bands.
    got = []
    for options in ([], ["--cache-bytes", "0"]):
        command, reads, _ = one(program, room, (4096, 256), "0,0,4096,128/max", *options)
        got.append(reads)
    return got, [16, 32], command


@counts
def blocks_of_a_band_of_more_than_64_are_made_once(program, room):
    # 69 blocks of 131 columns at most, since two of them a side would have more than 65,536 sums; 131 rows are three bands.
    got = []
    for options in ([], ["--cache-bytes", "0"]):
        command, reads, _ = one(program, room, (17664, 256), "full/9000,", "--max", "16384", *options)
        got.append(reads)
    return got, [69, 207], command
