"""What one request can take, by docs/operate/OPERATING.md: the caches, and the band that is made."""
MIB = 2 ** 20

# An entry of a cache beside its value: its key's bytes and name, its place in a table and in a list, two counted boxes.
ENTRY = 512
# The most entries of a node: tiles and sums, of each those that were asked for once and those that were more often.
ENTRIES = 4 * 4096
# The program with its stack and its code, and what is small: heads, names, a word for each item of a plan.
PROGRAM = 4 * MIB
# What the C library keeps for each thread of the memory that was given back.
KEPT = 24 * MIB
# The C library maps a block of at least so many bytes in pages of its own: up to so many bytes more than it was asked for.
MAPPED, PAGE = 128 * 2 ** 10, 4096 + 16
# So many bytes of rows wait at most to be written with those of the next band.
WAITING = 64 * 2 ** 10
# What is read ahead of a file at most: 16 times many rows, 256 times few.
ROWS, AHEAD = MIB, 16 * MIB + 256 * 64 * 2 ** 10


def levels(channels, image, rect, size, edge):
    """The sums that a block has at most, of each level to the one that a plan takes: the greatest whose blocks have 65,536 at most."""
    found = []
    for level in range(21):
        side = edge << level
        across, down = (-(-side * part // whole) + 1 for part, whole in zip(size, rect[2:]))
        if level and (across * down * channels > 65536 or max(image) <= side // 2):
            break
        found.append(across * down * channels)
    return found


def pages(kinds, cache):
    """What pages of their own take beside the values of a cache, of which there are so many (`count`) with so many bytes (`size`)."""
    return sum(PAGE * min(count, cache // size) for count, size in kinds if size >= MAPPED)


def met(start, length, side):
    """How many squares with this side a run of places meets."""
    return (start + length - 1) // side - start // side + 1


def bound(channels, depth, image, rect, size, edge=256, cache=64 * MIB, band=64, workers=2, strips=False):
    """The bytes that `--one` takes at most for a region `rect` of an image with the sides `image`, scaled to `size` and not turned, of
    samples of 8 or 16 bits (`depth`), of a file in strips or in tiles."""
    sample, rows = depth // 8, min(band, size[1])
    tile = channels * sample * edge ** 2
    lines = -(-rows * rect[3] // size[1])

    def squares(side):
        """How many squares with this side the region meets, and how many of them lines that lie together."""
        across, down = met(rect[0], rect[2], side), met(rect[1], rect[3], side)
        return across * down, across * min(down, lines // side + 2)

    tiles, tiles_of_band = squares(edge)
    own = pages([(tiles, tile)], cache)
    if tuple(size) == tuple(rect[2:]):
        made, items, sums, values = 2 * sample, tiles_of_band * tile, 0, tiles
    elif size[0] > rect[2] or size[1] > rect[3]:
        made, items, sums, values = 2 * sample + 8, tiles_of_band * tile, 0, tiles
    else:
        blocks = [8 * most for most in levels(channels, image, rect, size, edge)]
        counts = [squares(edge << level)[0] for level in range(len(blocks))]
        made, items = 2 * sample + 8, squares(edge << len(blocks) - 1)[1] * blocks[-1]
        sums, values = sum(count * most for count, most in zip(counts, blocks)), tiles + sum(counts)
        own += pages(zip(counts, blocks), cache)
        tile += sum(blocks)
    caches = own + min(cache, tiles * channels * sample * edge ** 2) + min(cache, sums) + (ENTRY * min(values, ENTRIES) if cache else 0)
    ahead = ROWS if strips else min(ROWS, channels * sample * edge ** 2)
    kept = AHEAD if strips else 16 * ahead
    return caches + made * channels * size[0] * rows + WAITING + items + kept + workers * (tile + KEPT + ahead) + PROGRAM
