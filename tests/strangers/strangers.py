"""What strangers can do to the running program: clients, other nodes, and what operators hand it. Each attack runs against the built program over
loopback, bounded in time, and is judged by ratios and limits that don't depend on the machine.

    python3 tests/strangers/strangers.py PROGRAM [ATTACK ..]

A line an attack: what was measured, the bound, and `ok` or `FAILED`. A bound that isn't met yet is `open`, with the reason that stands in OPEN: it
fails nothing. One that is met though it stands there is told too, so that it is taken out. The status is 1 where an attack FAILED. It takes some
four minutes.
"""
import os
import socket
import subprocess
import sys
import tempfile
import threading
import time

import crowds
import nodes
import rolling

sys.path.insert(0, os.path.join(os.path.dirname(os.path.abspath(__file__)), ".."))
from lib.server import Server, connect, encode_request, reset  # noqa: E402
from lib.tiff import write_flat  # noqa: E402

MIB = 2 ** 20

# Bounds that aren't met yet, and why.
OPEN = {}


def hung(program, room):
    (rate, slow), (dead, usual) = nodes.hung_beside_dead(program, room)
    measured = f"{rate:.0f} tiles/s, {rate / dead:.2f} of those with it dead, 99 in 100 within {slow:.2f} s, with it dead {usual:.2f} s"
    return measured, "0.80; 1 s", rate >= 0.8 * dead and slow <= 1


def silent(program, room, options=()):
    hangs, dead, first = nodes.silent_beside_dead(program, room, options)
    measured = f"{hangs:.3f} s, {hangs / dead:.1f} times as long as with it dead; in the first moment {first:.2f} s"
    return measured, "3 times", hangs <= 3 * dead


def silent_in_short(program, room):
    return silent(program, room, ["--peer-timeout", 20])


def told_of(program, room):
    (status, metrics), (well, health), log = nodes.told_of_hung(program, room)
    lines = metrics.splitlines()
    asks = {line.split('outcome="')[1].split('"')[0]: int(line.split()[-1]) for line in lines if line.startswith('iiif_peer_asks_total{peer="b\\"\\\\b",')}
    state = [int(line.split()[-1]) for line in lines if line.startswith('iiif_peer_state{peer="b\\"\\\\b"}')]
    seconds = [line for line in lines if line.startswith('iiif_peer_ask_seconds_bucket{le="+Inf"}')]
    alone = " peer b\\x22\\x5Cb left-alone\n" in log
    measured = f"{status} with {asks}, state {state}; {well} with {health.splitlines()}; {'told' if alone else 'untold'} by the log"
    right = status == 200 and asks.get("late", 0) > 0 and asks.get("left_alone", 0) > 0 and state and state[0] > 0 and len(seconds) == 1
    return measured, "late and left alone, 200, told", right and well == 200 and health == "viewers ok\nstatistics ok\nlog ok\n" and alone


def gone(end, stay=0.0):
    """64 clients ask for 400 megapixels each, stay for so many seconds, and end their connections so: how long the next three wait."""
    def attack(program, room):
        with Server(program, [f"huge={room}/huge.tif", "s=:sample"]) as server:
            # Until the connection by which the server was found has left its place.
            time.sleep(0.5)
            links = []
            for place in range(64):
                links.append(connect(server.port, 10))
                links[-1].sendall(encode_request(f"/iiif/huge/{place},0,{20_000 - place},20000/64,/0/default.tif"))
                if not stay:
                    end(links[-1])
            if stay:
                time.sleep(stay)
                for link in links:
                    end(link)
            took = [crowds.waits(server) for _ in range(3)]
            return f"after {max(took):.1f} s", "2 s", max(took) <= 2
    return attack


def of_others(act, seconds=100, buffer=None, options=(), **crowd):
    def attack(program, room):
        right = crowds.crowd(program, room, act, seconds, buffer, options, **crowd)
        return f"{right} of {seconds} others answered", "90", right * 100 >= 90 * seconds
    return attack


def drips(program, room):
    with Server(program, ["s=:sample"]) as server:
        took = crowds.held_by_drips(server)
    return f"held for {took:.1f} s", "14 s", took <= 14


def slow_reader(program, room):
    with Server(program, [f"big={room}/big.tif"], ["--max", 8192]) as server:
        took = crowds.cut_after(server)
    return f"cut after {took:.0f} s", "30 to 90 s", 30 <= took <= 90


def steady_reader(program, room):
    with Server(program, [f"big={room}/big.tif"], ["--max", 8192]) as server:
        served = crowds.fast_enough(server)
    return "served" if served else "cut", "served for 75 s", served


def one_ask(program, room):
    grown, value = nodes.one_ask(program, room)
    return f"{grown / MIB:.0f} MiB for a value of {value / MIB:.0f}", f"{(2 * value) / MIB + 16:.0f} MiB", grown <= 2 * value + 16 * MIB


def announced(program, room):
    grown, dead, sent = nodes.announced(program, room)
    return f"{grown / MIB:.0f} MiB, {sent} MiB sent; {dead / MIB:.0f} MiB beside a dead node", "16 MiB more than that", grown <= dead + 16 * MIB


def ended(words, seconds=10):
    """What the program says and its status. None where it doesn't end."""
    try:
        ran = subprocess.run(words, stdin=subprocess.DEVNULL, capture_output=True, timeout=seconds)
        return ran.stdout + ran.stderr, ran.returncode
    except subprocess.TimeoutExpired:
        return None


def fifo(program, room):
    os.mkfifo(f"{room}/fifo")
    ran = ended([program, "--base", "http://localhost/iiif", "--check", f"x={room}/fifo"])
    return "hangs" if ran is None else f"status {ran[1]}", "ends with status 2", ran is not None and ran[1] == 2


def escapes(program, room):
    with open(f"{room}/list", "wb") as file:
        file.write(b"a\x1b]0;owned\x07=" + os.fsencode(room) + b"/none\nb\ry=:sample\n")
    ran = ended([program, "--base", "http://localhost/iiif", "--check", "--images", f"{room}/list"])
    said = b"" if ran is None else ran[0]
    raw = sum(byte < 32 and byte != 10 for byte in said)
    return f"{raw} raw controls", "0", ran is not None and raw == 0


def held_elsewhere(program, room):
    answered = [nodes.answered_beside_idle(program, listener) for listener in ("--stats-listen", "--peer-listen")]
    return f"{answered[0]} and {answered[1]} of 5 others answered", "5 and 5", answered == [5, 5]


def no_node(program, room):
    closed, refused = nodes.stranger(program)
    return f"{'closed' if closed else 'let in'}, {refused} counted", "closed, 1 counted", closed and refused == 1


def renewed(renew):
    def attack(program, room):
        came, mixed, old, told = rolling.renewed(program, room, ["--peer-versions"], renew)
        is_met = came > 0 and mixed == 0 and old == 0 and told > 0
        return f"{came} images, {mixed} mixed, {old} not new at the end, {told} told", "0, 0, 1 or more told", is_met
    return attack


ATTACKS = {
    "a hung node beside a dead one": hung,
    "an overview beside a silent node": silent,
    "the same where an ask may take 0.02 s": silent_in_short,
    "what is told of a hung node": told_of,
    "one ask of level 20": one_ask,
    "a node that announces 64 MiB": announced,
    "64 large requests whose clients reset": gone(reset),
    "64 large requests whose clients reset soon": gone(reset, 0.1),
    "64 large requests whose clients reset later": gone(reset, 0.8),
    "64 large requests whose clients close": gone(socket.socket.close),
    "64 large requests whose clients close later": gone(socket.socket.close, 0.8),
    "a FIFO as an image": fifo,
    "names with escapes": escapes,
    "one who is no node": no_node,
    "nodes restarted one after another with a new file": renewed(rolling.Ring.restart),
    "nodes reloaded one after another with a new file": renewed(rolling.Ring.reload),
    "64 idle connections at the listeners of statistics and nodes": held_elsewhere,
}

# A rate is known after each ten seconds of waiting. What the system's buffers took at once, 3 MB of each answer, doesn't count.
SETTLED = {"buffer": 4096, "reads": True, "before": 15}

# These take some hundred seconds and little else, so they run side by side.
LONG = {
    "64 slow readers": of_others(crowds.read_slowly, buffer=2048, options=["--per-address", 32]),
    "64 readers of 6 kB a second, from where others come": of_others(crowds.read_below_the_limit, sources=["127.0.0.1"], **SETTLED),
    "64 readers of 6 kB a second, from 16 addresses": of_others(
        crowds.read_below_the_limit, sources=[f"127.0.1.{place}" for place in range(1, 17)], **SETTLED),
    "64 idle connections": of_others(crowds.stay_idle),
    "a HEAD each 4.5 s on 64 connections": of_others(crowds.ask_now_and_then),
    "a head in drips": drips,
    "one slow reader": slow_reader,
    "a reader of 20 kB a second": steady_reader,
}


def told(name, attack, program, room, found):
    """Runs an attack, and tells what came of it."""
    try:
        measured, bound, is_met = attack(program, room)
    except Exception as error:
        measured, bound, is_met = f"not tried: {error!r}", "tried", False
    word = "ok" if is_met else "FAILED"
    if name in OPEN:
        word = f"ok, though it stands among the open ones: {OPEN[name]}" if is_met else f"open: {OPEN[name]}"
    found.append(is_met or name in OPEN)
    print(f"{name}: {measured}; bound: {bound}; {word}", flush=True)


def main():
    program, chosen = os.path.abspath(sys.argv[1]), sys.argv[2:]
    with tempfile.TemporaryDirectory() as room:
        write_flat(f"{room}/big.tif", 7000, 7000)
        write_flat(f"{room}/peers.tif", nodes.SIDE, nodes.SIDE)
        write_flat(f"{room}/huge.tif", 20_000, 20_000, channels=3)
        found = []
        for name, attack in ATTACKS.items():
            if not chosen or name in chosen:
                told(name, attack, program, room, found)
        threads = [threading.Thread(target=told, args=(name, attack, program, room, found)) for name, attack in LONG.items() if not chosen or name in chosen]
        for thread in threads:
            thread.start()
        for thread in threads:
            thread.join()
    return 0 if all(found) else 1


if __name__ == "__main__":
    sys.exit(main())
