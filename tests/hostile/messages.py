"""Random messages to the port for other nodes, where the program has one: each reply compared whole with the evaluation of `wire`."""
import os
import random
import sys

import bounds
import targets
import wire

sys.path.insert(0, os.path.join(os.path.dirname(os.path.abspath(__file__)), ".."))
from lib import server as running  # noqa: E402

EXTREMES = [0, 1, 2, 3, 7, 20, 21, 255, 1024, 1025, 2 ** 31, 2 ** 32 - 1]


def right_ask(chance, shown, edge):
    """An ask for a tile or for sums that fit their image."""
    name = chance.choice(sorted(shown))
    picture = shown[name]
    version = 2 if picture.bits == 16 or chance.random() < 0.2 else 1
    if chance.random() < 0.5:
        key = wire.tile_key(name.encode(), edge, chance.randrange(-(-picture.width // edge)), chance.randrange(-(-picture.height // edge)))
        return wire.ask(version, 1, key)
    a, b = chance.randint(1, min(picture.width, 24)), chance.randint(1, min(picture.height, 24))
    x, y = chance.randint(0, picture.width - a), chance.randint(0, picture.height - b)
    level = chance.choice([0, 0, 1, 2, 3, 20])
    inside_x, inside_y = chance.randint(x, x + a - 1), chance.randint(y, y + b - 1)
    size = (chance.randint(1, a), chance.randint(1, b))
    return wire.ask(version, 2, wire.sum_key(name.encode(), edge, (x, y, a, b), size, level, inside_x // (edge << level), inside_y // (edge << level)))


def disturbed(chance, data):
    """A message with bytes changed, numbers of four bytes made extreme, or its key longer or shorter than told."""
    data = bytearray(data)
    for _ in range(chance.choice([1, 1, 2])):
        at = chance.randrange(len(data))
        how = chance.randrange(5)
        if how == 0:
            data[at] = chance.randrange(256)
        elif how == 1:
            data[at:at + 4] = wire.long(chance.choice(EXTREMES))[:len(data) - at]
        elif how == 2:
            data[3] = chance.choice(b"0123\x00")
        elif how == 3:
            data[4] = chance.choice([0, 1, 2, 3, 255])
        else:
            # The key cut or lengthened by a byte, and its length told rightly.
            key = bytes(data[9:])
            key = key[:-1] if chance.random() < 0.5 else key + b"\0"
            data[5:] = wire.long(len(key)) + key
    return bytes(data)


def one_input(chance, shown, edge):
    asks = []
    for _ in range(chance.choice([1, 1, 2, 5])):
        ask = right_ask(chance, shown, edge)
        asks.append(disturbed(chance, ask) if chance.random() < 0.35 else ask)
    data = b"".join(asks)
    kind = chance.random()
    if kind < 0.05:
        return chance.randbytes(chance.randint(0, 60))
    return data[:chance.randrange(len(data) + 1)] if kind < 0.3 else data


def fixed_inputs(edge):
    """One ask cut after each byte, keys at their limit, groups and versions that are none, 1,001 asks."""
    ask = wire.ask(1, 1, wire.tile_key(b"a", edge, 0, 0))
    cuts = [ask[:n] for n in range(len(ask) + 1)]
    lengths = [b"IGA1\x01" + wire.long(size) + bytes(size) for size in (0, 4096, 4097)]
    return cuts + lengths + [b"IGA1\x03" + ask[5:], b"IGA3" + ask[4:], b"IGR1" + ask[4:], ask * 1001]


def run(args, room):
    """The fixed inputs first, then random ones up to the count."""
    if "--peer-listen" not in running.list_options(args.program):
        return "left out: the program has no --peer-listen", []
    chance, found = random.Random(args.seed), []
    names, shown = targets.pictures(chance, room)
    values = wire.Values(shown, args.edge)
    port = running.free_port()
    texts = fixed_inputs(args.edge)
    options = ["--edge", args.edge, "--max", args.max, "--name", "n0", "--peer-listen", f"127.0.0.1:{port}"]
    with running.Server(args.program, names, options) as server:
        before, files = server.resident(), server.files()
        for n in range(args.messages):
            data = texts[n] if n < len(texts) else one_input(chance, shown, args.edge)
            allowed = wire.replies(data, values)
            got, ended = running.exchange(port, [data])
            if not ended or got not in allowed:
                found.append(f"{data[:200].hex()} ({len(data)} bytes): wanted {allowed[0][:200].hex()}, got {got[:200].hex()}, {'' if ended else 'not '}closed")
        grown = bounds.left_behind(args, server, before, files, found)
    return f"{args.messages} messages ({len(texts)} cuts and limits){bounds.grown_by(grown)}", found
