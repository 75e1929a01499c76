#!/usr/bin/env python3
"""Nodes that are simulated record runs, and iiif-judge judges them, by iiif_replay or by the Python evaluation of the machine: tries the
judge, and no node.

    tests/record/simulated.py                # runs of one to three nodes by chance, each accepted; and with a wrong rule, until one is refused
    tests/record/simulated.py --count 100    # so many of each at most
    tests/record/simulated.py --all          # with a wrong rule as many as without
    tests/record/simulated.py --replay FILE  # by this iiif_replay

A node's workers are coroutines that go on in turn by chance. Runs are judged side by side, one for each processor. The status is 0 where each is as it should be, else 1.
"""
import argparse
import concurrent.futures
import os
import random
import subprocess
import sys
import tempfile

HERE = os.path.dirname(os.path.abspath(__file__))
MACHINE = os.path.join(HERE, "..", "machine")
sys.path.insert(0, MACHINE)
from machine import LOCAL, WIDE, Node, Scene, assembled, derived, items, key_bytes, owner, parts_of, read, resolved  # noqa: E402

JUDGE = os.path.join(HERE, "..", "..", "packaging", "iiif-judge")
REPLAY = "#!/bin/sh\nexec %s %s \"$@\"\n" % (sys.executable, os.path.join(MACHINE, "text.py"))
REQUESTS = [("full", "max"), ("0,0,40,32", "max"), ("12,10,40,30", "max"), ("full", "30,"), ("full", "20,15"), ("8,4,48,40", "21,"), ("full", "9,"),
            ("square", "max"), ("32,16,32,32", "max"), ("full", "13,")]
# Rules that are wrong: of each some run has to be refused.
WRONG = ["joins lead", "peers are kept", "fallbacks are kept", "faults are kept", "landings stay open", "late notes", "lost notes",
         "reads beside"]


class Simulation:
    def __init__(self, room, count, chance, wrong=None, faulty=False):
        self.room, self.chance, self.wrong, self.faulty = room, chance, wrong, faulty
        names = ["n%d" % n for n in range(count)]
        picture = (64, 48, 3, 255, tuple(chance.randrange(256) for _ in range(64 * 48 * 3)))
        self.scene = Scene({"p": picture}, 8, (4096, 4096, False), 65536, True)
        self.nodes = [Node(name, [name] + [other for other in names if other != name], 2, 2600, 4096) for name in names]
        self.lines = [[] for _ in names]
        self.landed, self.passes, self.number = {}, 0, 0

    def note(self, node, who, step, kind, ticket, key):
        self.number += 1
        if self.wrong == "lost notes" and self.number % 40 == 0:
            return
        words = [str(who), step, kind] + ([] if ticket is None else [str(ticket)]) + [key_bytes(key).hex()]
        place = -1 if self.wrong == "late notes" and self.number % 40 == 0 else len(self.lines[node])
        self.lines[node].insert(place, " ".join(words))

    def enter(self, node, who, key, kind):
        """What a call met: a value, or the flight that it joins or leads."""
        table = self.nodes[node].table(key)
        if self.wrong == "joins lead" and table.flight(key, kind) and self.chance.random() < 0.3:
            table.open.remove(table.flight(key, kind))
        met = table.enter(key, kind)
        if met[0] == "finds":
            self.note(node, who, "hit", kind, table.kept(key)[2], key)
            return "hit", ("ok", met[1])
        ticket = table.flight(key, kind)[2]
        self.note(node, who, met[0], kind, ticket, key)
        return met[0], (node, key[0], ticket)

    def land(self, flight, key, kind, outcome, place):
        node, _, ticket = flight
        table = self.nodes[node].table(key)
        if self.wrong == "peers are kept" and place == "peer":
            place = "main"
        if self.wrong == "fallbacks are kept" and place == "nowhere":
            place = "main"
        held = list(table.open)
        table.land(key, kind, ticket, outcome, place, True)
        if self.wrong == "landings stay open" and self.chance.random() < 0.1:
            table.open[:] = held
        entry = table.kept(key)
        kept = entry is not None and entry[2] == ticket
        if self.wrong == "faults are kept" and outcome[0] != "ok":
            kept = True
        words = "lands %s %s" % ({"ok": "value", "fault": "fault"}[outcome[0]], "kept" if kept else "dropped")
        self.note(node, 0, words, kind, ticket, key)
        self.landed[flight] = outcome

    def wait(self, flight):
        while flight not in self.landed:
            yield
        return self.landed[flight]

    def get(self, node, who, key):
        if owner(self.nodes[node].ring, key) == self.nodes[node].name:
            return (yield from self.get_local(node, who, key))
        met, what = self.enter(node, who, key, WIDE)
        yield
        if met == "hit":
            return what
        if met == "joins":
            return (yield from self.wait(what))
        self.note(node, who, "asks", WIDE, what[2], key)
        yield
        asked = next(n for n, other in enumerate(self.nodes) if other.name == owner(self.nodes[node].ring, key))
        outcome = None
        if self.chance.random() < 0.85:
            outcome = yield from self.serve(asked, key)
        if outcome is not None and outcome[0] == "ok":
            self.note(node, who, "answered", WIDE, what[2], key)
            yield
            self.land(what, key, WIDE, outcome, "peer")
            return outcome
        self.note(node, who, "failed", WIDE, what[2], key)
        yield
        outcome = yield from self.get_local(node, who, key)
        self.land(what, key, WIDE, outcome, "nowhere")
        return outcome

    def serve(self, node, key):
        self.passes += 1
        who = self.passes
        self.note(node, who, "serves", LOCAL, None, key)
        yield
        outcome = yield from self.get_local(node, who, key)
        self.note(node, who, "replies " + {"ok": "value", "fault": "fault"}[outcome[0]], LOCAL, None, key)
        yield
        return outcome if self.chance.random() < 0.9 else None

    def get_local(self, node, who, key):
        met, what = self.enter(node, who, key, LOCAL)
        yield
        if met != "leads" and self.wrong == "reads beside" and parts_of(key) is None:
            self.note(node, 0, "reads", LOCAL, None, key)
        if met == "hit":
            return what
        if met == "joins":
            return (yield from self.wait(what))
        if parts_of(key) is None:
            if self.faulty and self.chance.random() < 0.2:
                self.note(node, 0, "fails 7 1", LOCAL, None, key)
                outcome = ("fault", 7, 1)
            else:
                self.note(node, 0, "reads", LOCAL, None, key)
                outcome = ("ok", read(self.scene, key))
        else:
            values, outcome = [], None
            for part in parts_of(key):
                outcome = yield from self.get(node, who, part)
                if outcome[0] != "ok":
                    break
                values.append(outcome[1])
            else:
                outcome = ("ok", derived(self.scene, key, values))
        yield
        self.land(what, key, LOCAL, outcome, "main")
        return outcome

    def request(self, node, request):
        self.passes += 1
        who, picture = self.passes, self.scene.pictures["p"]
        self.lines[node] += ["worker %d %d " % (who, who), "wants %d 0 /iiif/p/%s/%s/0/default.tif" % (who, *request)]
        yield
        way, status = resolved(self.scene, picture, (*request, "0", "default")), 200
        for key in items(self.scene, "p", picture, way):
            outcome = yield from self.get(node, who, key)
            if outcome[0] != "ok":
                status = 500
                break
        self.lines[node].append("ends %d %d " % (who, status))

    def run(self, count):
        waiting = [self.request(self.chance.randrange(len(self.nodes)), self.chance.choice(REQUESTS)) for _ in range(count)]
        running = []
        for _ in range(200000):
            while waiting and len(running) < 5:
                running.append(waiting.pop())
            if not running:
                break
            one = self.chance.choice(running)
            if next(one, "ended") == "ended":
                running.remove(one)
        files = []
        for node, lines in zip(self.nodes, self.lines):
            files.append(os.path.join(self.room, node.name))
            head = ["set edge 8", "set limits 4096 4096", "set picture p rgb 8 64 48 blank",
                    "set node %s 2 2600 4096 %s" % (node.name, " ".join(node.ring))]
            with open(files[-1], "w", encoding="utf-8") as file:
                file.write("\n".join(head + lines) + "\n")
        return files


def judged(seed, program, wrong=None):
    """The status of the judge, and its words, of a run by chance."""
    chance = random.Random(seed)
    with tempfile.TemporaryDirectory() as room:
        replay = program or os.path.join(room, "replay")
        if program is None:
            with open(replay, "w", encoding="utf-8") as file:
                file.write(REPLAY)
            os.chmod(replay, 0o755)
        simulation = Simulation(room, 1 + seed % 3, chance, wrong, faulty=seed % 2 == 1)
        files = [path for path in simulation.run(8) if os.path.getsize(path)]
        done = subprocess.run([sys.executable, JUDGE, "--replay", replay, *files], stdout=subprocess.PIPE, stderr=subprocess.STDOUT, check=False)
        return done.returncode, done.stdout.decode().strip().split("\n")


def of_wrong(wrong, seeds, program, is_all):
    """The runs with a wrong rule that were judged, at most until one was refused or, where all are, of each seed: how many there were, the
    last words of those that were refused, and what was said where the judge failed."""
    refused, failed, tried = [], [], 0
    for seed in seeds:
        status, said = judged(seed, program, wrong)
        tried += 1
        if status == 1:
            refused.append(said[-1])
        elif status != 0:
            failed.append("%s, seed %d: %s" % (wrong, seed, "; ".join(said)))
        if refused and not is_all:
            break
    return tried, refused, failed


def main():
    parser = argparse.ArgumentParser(description="Judges records of simulated nodes.")
    parser.add_argument("--count", type=int, default=12)
    parser.add_argument("--seed", type=int, default=0)
    parser.add_argument("--all", action="store_true", help="judge as many runs with a wrong rule")
    parser.add_argument("--replay", metavar="FILE", help="iiif_replay; where it is left out, the evaluation in Python")
    arguments = parser.parse_args()
    program = os.path.abspath(arguments.replay) if arguments.replay else None
    seeds, failed = range(arguments.seed, arguments.seed + arguments.count), 0
    with concurrent.futures.ProcessPoolExecutor(os.cpu_count()) as pool:
        right = [(seed, pool.submit(judged, seed, program)) for seed in seeds]
        wrong = [(it, pool.submit(of_wrong, it, seeds, program, arguments.all)) for it in WRONG]
        for seed, found in right:
            status, said = found.result()
            if status != 0:
                failed += 1
                print("seed %d: %s" % (seed, "; ".join(said)), flush=True)
        for name, found in wrong:
            tried, refused, faults = found.result()
            print("\n".join([*faults, "%s: %d of %d refused%s" % (name, len(refused), tried, "; " + refused[0] if refused else "")]), flush=True)
            failed += len(faults) + (not refused)
    print("%d failed" % failed)
    return int(failed > 0)


if __name__ == "__main__":
    sys.exit(main())
