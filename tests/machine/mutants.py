"""Whether the random lists would show a wrong rule: one rule at a time of the evaluation is turned, and its lists are replayed.

    /usr/bin/python3 tests/machine/mutants.py crates/iiif_replay/out/iiif_replay [--count N] [--jobs N]
    /usr/bin/python3 tests/machine/mutants.py --stored [--jobs N]

Each turned rule has to be reported: by a line that differs in one of N lists (seed 1, all rows after every event), the long ones
too. Prints for each in which lists it was. The status is 1 where one isn't, or where the turned evaluation can't go on.

With --stored the lists are those of crates/iiif_replay/stdin, beside its stdout: what `rt ci` itself would show of a replay that is turned so.
"""
import argparse
import itertools
import multiprocessing
import os
import sys
import types

HERE = os.path.dirname(os.path.abspath(__file__))
STORED = os.path.join(HERE, "..", "..", "crates", "iiif_replay")

# What is turned, and texts that stand once in machine.py, each with what takes its place.
MUTANTS = [
    # Tables
    ("a value that is met stays where it is", "entries.insert(0, entries.pop(place))", "pass"),
    ("a met value isn't counted", 'self.book["hits"] += 1', 'self.book["hits"] += 0'),
    ("an open flight comes before a kept value", "        if entry:\n            self.touch(key)", "        if entry and not self.flight(key, kind):\n            self.touch(key)"),
    ("a flight is joined in either class", "flight[:2] == [kind, key]", "flight[1] == key", "f[:3] == [node, key, kind]", "f[:2] == [node, key]"),
    ("a join counts as a lead", 'self.book["joins"] += 1', 'self.book["leads"] += 1'),
    ("a value found again stays where it is", "        self.touch(key)\n        flight[3] = True", "        flight[3] = True"),
    ("a flight that found its value isn't marked", "flight[3] = True", "flight[3] = False"),
    ("keys take no bytes", "return len(key_bytes(key)) + value_len(key, value)", "return value_len(key, value)"),
    ("a value of just the limit isn't kept", "if self.limit < entry_len(key, value):", "if self.limit <= entry_len(key, value):"),
    ("an entry that has its key already goes to the end", "held[:] = [(key, value, ticket)] + [e for e in held if e[0] != key]",
     "held[:] = [e for e in held if e[0] != key] + [(key, value, ticket)]"),
    ("a list has one entry more", "entries[:max(0, self.room - 1)]", "entries[:self.room]"),
    ("just within the limit something goes", "<= self.limit:", "< self.limit:"),
    ("hot may take a third", "self.size(self.main) // 8 <", "self.size(self.main) // 3 <"),
    ("hot never goes", "goes = self.hot if", "goes = self.hot if False and"),
    ("the newest goes", "goes.pop()", "goes.pop(0)"),
    ("a value that was found again counts as loaded", "        if flight[3]:\n            book", "        if False:\n            book"),
    ("a fault isn't counted", 'book["faults"] += 1', 'book["faults"] += 0'),
    ("a value of a peer isn't counted", 'book["peer"] += 1', 'book["peer"] += 0'),
    ("a landing isn't counted", 'book["landed"] += 1', 'book["landed"] += 0'),
    ("a landing keeps where told not to", "if keep and value is not None:", "if value is not None:"),
    ("each ninth value of a peer is kept", '% 10 == 0', '% 9 == 0'),
    ("each value of a peer is kept", 'book["peer"] % 10 == 0', 'True'),
    ("a peer's value goes to main", "self.put(self.hot, key, value, ticket)", "self.put(self.main, key, value, ticket)"),
    ("no value is kept in main", 'if place == "main":', 'if place == "peer":'),
    ("entries in hot don't go", "self.hot = [e for e in self.hot if e[0] not in keys]", "pass"),
    ("entries in main don't go", "self.main = [e for e in self.main if e[0] not in keys]", "pass"),
    # Owners and versions
    ("49 replicas", "for n in range(50)", "for n in range(49)"),
    ("the farthest name owns", "return min(ring, key=", "return max(ring, key="),
    ("tiles of an image have one owner", "here = hash_of(key_bytes(key))", "here = hash_of(key[1].encode())"),
    ("the first name owns", "return min(ring, key=lambda name: (nearest(name), name.encode()))", "return ring[0]"),
    ("the last name owns", "return min(ring, key=lambda name: (nearest(name), name.encode()))", "return ring[-1]"),
    ("points before a key", "- here) % 2**64", "* -1 + here) % 2**64"),
    ("all calls are wide", "return LOCAL if owner(self.ring, key) == self.name else WIDE", "return WIDE"),
    ("all messages are of version 1", "return 1 if p[3] == 255 else 2", "return 1"),
    # Events
    ("a request comes to a node of any version", "if self.nodes[node].version < version_shown(p):", "if False:"),
    ("a request comes to a node of a later version alone", "if self.nodes[node].version < version_shown(p):", "if self.nodes[node].version <= version_shown(p):"),
    ("a refused request goes", '("answered", ("refused", r))', '("dropped",)'),
    ("a request has its calls the other way round", "list(range(first, first + len(keys))))])", "list(range(first, first + len(keys)))[::-1])])"),
    ("a request's calls are of the next request", '("request", len(self.requests) - 1)', '("request", len(self.requests))'),
    ("a call enters twice", '!= ("fresh",):', '== ("gone",):'),
    ("a call that finds a value tells no one", 'row[4] = ("hit", met[1])\n            self.settle()', 'row[4] = ("hit", met[1])'),
    ("a call joins a flight of either class", "f[:3] == [node, key, kind]", "f[:2] == [node, key]"),
    ("a call joins a flight of any node", "f[:3] == [node, key, kind]", "f[1:3] == [key, kind]"),
    ("a call joins a flight that has ended", 'if f[4][0] != "ended" and f[:3]', "if f[:3]"),
    ("a leader looks again later too", 'f = self.at(flight, "new")', 'f = self.at(flight, "new", "looked")'),
    ("a value found again is kept once more", '("ready", ("ok", value), "nowhere")', '("ready", ("ok", value), "main")'),
    ("a local flight asks", "if not f or f[2] != WIDE:", "if not f:"),
    ("a flight asks its own node", "if node.name == name)", "if n == f[0])"),
    ("a flight asks the node behind the owner", "self.asks.append((asked, f[1]", "self.asks.append(((asked + 1) % len(self.nodes), f[1]"),
    ("a flight asks the last node of the name", "asked = next(n for n, node in enumerate(self.nodes) if node.name == name)",
     "asked = max(n for n, node in enumerate(self.nodes) if node.name == name)"),
    ("an ask is served at a node of any version", "if self.nodes[node].version < version:", "if False:"),
    ("an ask is served by a call that may ask", 'self.call(node, ("ask", ask), key, LOCAL)', 'self.call(node, ("ask", ask), key)'),
    ("an ask is served at the asking node", 'self.call(node, ("ask", ask), key, LOCAL)', 'self.call(self.flights[self.asks[ask][2]][0], ("ask", ask), key, LOCAL)'),
    ("each call replies", 'self.calls[call][3][0] != "ask" or', ""),
    ("a late reply isn't allowed", 'f = self.at(flight, "asking", "ended")', 'f = self.at(flight, "asking")'),
    ("a reply comes to a flight that goes on alone", 'f = self.at(flight, "asking", "ended")', 'f = self.at(flight, "asking", "ended", "fallback")'),
    ("a reply for another key is taken", 'if outcome[0] == "ok" and key == f[1]', 'if outcome[0] == "ok"'),
    ("a reply's fault is taken", 'if outcome[0] == "ok" and key == f[1]', 'if key == f[1]'),
    ("a peer's value is kept in main", '("ready", outcome, "peer") if', '("ready", outcome, "main") if'),
    ("a flight that lost its ask looks again", 'f[4] = ("fallback", None)\n        return True', 'f[4] = ("looked",)\n        return True'),
    ("an ask is lost before it is asked", 'def lose(self, flight):\n        f = self.at(flight, "asking")', 'def lose(self, flight):\n        f = self.at(flight, "asking", "looked")'),
    ("a flight goes on alone twice", "if not f or f[4][1] is not None:", "if not f:"),
    ("a flight goes on by a call that may ask", 'self.call(f[0], ("fallback", flight), f[1], LOCAL)', 'self.call(f[0], ("fallback", flight), f[1])'),
    ("a wide flight loads", 'f = self.at(flight, "looked", "parts")\n        if not f or f[2] != LOCAL:', 'f = self.at(flight, "looked", "parts")\n        if not f:'),
    ("a sum's last fault counts", 'fault = next((o for o in outcomes if o[0] == "fault"), None)\n            f[4]', 'fault = next((o for o in outcomes[::-1] if o[0] == "fault"), None)\n            f[4]'),
    ("a sum isn't kept", 'o in outcomes])), "main")', 'o in outcomes])), "nowhere")'),
    ("a tile isn't kept", '("ok", read(self.scene, f[1])), "main")', '("ok", read(self.scene, f[1])), "nowhere")'),
    ("parts are asked as for a request", '("part", flight)', '("request", flight)'),
    ("a sum's read fails", 'f[2] != LOCAL or f[1][0] != "tile"', "f[2] != LOCAL"),
    ("a wide flight's read fails", 'f[2] != LOCAL or f[1][0] != "tile"', 'f[1][0] != "tile"'),
    ("a fault is given by another node", "self.given.append((f[0],", "self.given.append((0,"),
    ("a fault isn't given", "self.given.append((f[0], f[1][1], place, cause))", "pass"),
    ("a landing tells no one", 'f[4] = ("ended", outcome)\n        self.settle()', 'f[4] = ("ended", outcome)'),
    ("a landing forgets its outcome", '("ended", outcome)', '("ended", None)'),
    ("tiles don't go", "self.nodes[node].tiles.evict(keys)", "pass"),
    ("sums don't go", "self.nodes[node].sums.evict(keys)", "pass"),
    ("a stopped node keeps its tiles", "n.tiles, n.sums = Table(n.tiles.limit, n.tiles.room), Table(n.sums.limit, n.sums.room)", "n.tiles.open, n.sums = [], Table(n.sums.limit, n.sums.room)"),
    ("a stopped node's flights go on", 'if f[0] == node and f[4][0] != "ended":', "if False:"),
    ("a stop takes outcomes", 'if f[0] == node and f[4][0] != "ended":', "if f[0] == node:"),
    ("a stop takes all calls", "if c[0] == node:", "if True:"),
    ("a stopped node's calls stay", "if c[0] == node:", "if False:"),
    ("a stopped node's requests wait", 'if r[0] == node and r[2][0] == "waiting":', "if False:"),
    ("a stop takes answers", 'if r[0] == node and r[2][0] == "waiting":', "if r[0] == node:"),
    # What calls know
    ("a call in a flight that goes on knows", 'return stage[1] if stage[0] == "ended" else None', 'return stage[1] if stage[0] in ("ended", "ready") else None'),
    ("a flight with a call of its own keeps its value", 'f[4] = ("ready", outcome, "nowhere")', 'f[4] = ("ready", outcome, "main")'),
    ("a flight isn't told of its own call", 'for f in self.flights if f[4][0] == "fallback" and', "for f in self.flights if False and"),
    ("a request isn't told of its calls", 'for r in self.requests if r[2][0] == "waiting"]', "for r in self.requests if False]"),
    ("a request's last fault counts", 'fault = next((o for o in outcomes if o[0] == "fault"), None)\n                p', 'fault = next((o for o in outcomes[::-1] if o[0] == "fault"), None)\n                p'),
    ("faults are never early", "if self.scene.faults_early and", "if False and"),
    ("faults are early in each list", 'if self.scene.faults_early and outcome[0] == "fault":', 'if outcome[0] == "fault":'),
    ("a value is early, too", 'if self.scene.faults_early and outcome[0] == "fault":', "if self.scene.faults_early:"),
    ("an early fault doesn't wait for the calls before it", "            if outcome is None:\n                return None",
     "            if outcome is None and self.scene.faults_early:\n                continue\n            if outcome is None:\n                return None"),
    # Values and images
    ("parts column by column", "for j in (0, 1) for i in (0, 1)]", "for i in (0, 1) for j in (0, 1)]"),
    ("parts outside of the region", "return [k for k in below if all(0 < n for n in part_of(square(2 ** k[5] * edge, k[6], k[7]), rect)[2:])]", "return below"),
    ("items column by column", 'return [("tile", name, scene.edge, i, j) for j in range(top, bottom) for i in range(left, right)]',
     'return [("tile", name, scene.edge, i, j) for i in range(left, right) for j in range(top, bottom)]'),
    ("no level", "for level in range(20, 0, -1):", "for level in ():"),
    ("the least level", "for level in range(20, 0, -1):", "for level in range(1, 21):"),
    ("tiles are scaled up as sums", 'return "grown"', "return 0"),
    ("averages go down", "return (2 * s + area) // (2 * area)", "return s // area"),
    ("turned the other way", "sample(q, y, q[1] - 1 - x, k)", "sample(q, q[0] - 1 - y, x, k)"),
    ("not mirrored", "sample(q, q[0] - 1 - x, y, k)", "sample(q, x, y, k)"),
    ("bits from the middle on", "< (p[3] + 1) // 2", "<= (p[3] + 1) // 2"),
    ("gray by thirds", "(299 * r + 587 * g + 114 * b + 500) // 1000", "(r + g + b) // 3"),
    ("larger is allowed", "if not up and larger:", "if False:"),
    ("scaled up by any node", "if up and not upscale and larger:", "if False:"),
]


def stored():
    """The first line of the stored lists that the turned evaluation has another way, or None."""
    import text
    replayed, wrote = text.Text(), []
    with open(os.path.join(STORED, "stdin")) as lines:
        for number, line in enumerate(lines, 1):
            wrote += replayed.line(number, line)
    wrote += replayed.ended()
    with open(os.path.join(STORED, "stdout")) as lines:
        # What an event comes to may be several lines.
        pairs = itertools.zip_longest("\n".join(wrote).splitlines(), lines.read().splitlines(), fillvalue="no line")
        return next((mine for mine, its in pairs if mine != its), None)


def turned(job):
    """What came of a turned rule: the list from which on it was reported, or words."""
    program, count, (name, *texts) = job
    with open(os.path.join(HERE, "machine.py")) as file:
        text = file.read()
    for old, new in zip(texts[::2], texts[1::2]):
        if text.count(old) != 1:
            return name, "its text stands %d times" % text.count(old), False
        text = text.replace(old, new)
    module = types.ModuleType("machine")
    exec(compile(text, "machine.py", "exec"), module.__dict__)
    sys.path.insert(0, HERE)
    sys.modules["machine"] = module
    if program is None:
        try:
            differs = stored()
        except Exception as error:  # a line that comes to nothing is shown, too
            return name, "reported, as it can't go on: %r" % error, True
        return name, "reported: " + differs[:100] if differs else "NOT REPORTED", bool(differs)
    import lists
    for first in range(0, count, lists.BATCH):
        try:
            _, differs, _ = lists.a_batch(program, 1, first, min(count, first + lists.BATCH), 1)
        except Exception as error:  # the turned evaluation can't go on: that shows nothing
            return name, "can't go on: %r" % error, False
        if differs:
            return name, "reported in lists %d to %d: %s" % (first, first + lists.BATCH - 1, differs.splitlines()[0][:100]), True
    return name, "NOT REPORTED in %d lists" % count, False


def main():
    parser = argparse.ArgumentParser(description=__doc__, formatter_class=argparse.RawDescriptionHelpFormatter)
    parser.add_argument("program", nargs="?")
    parser.add_argument("--stored", action="store_true", help="by the stored lists alone, without the program")
    parser.add_argument("--count", type=int, default=2000)
    parser.add_argument("--jobs", type=int, default=1)
    parser.add_argument("--only", default="", help="a word of the names of the rules that are turned")
    args = parser.parse_args()
    if bool(args.program) == args.stored:
        parser.error("the program, or --stored")
    jobs = [(args.program, args.count, mutant) for mutant in MUTANTS if args.only in mutant[0]]
    reported = 0
    with multiprocessing.Pool(args.jobs, maxtasksperchild=1) as pool:
        # What differs where nothing is turned would be no one's report.
        _, came, is_reported = pool.apply(turned, ((args.program, min(args.count, 100), ("nothing is turned",)),))
        if is_reported:
            print("nothing is turned: %s" % came)
            return 1
        for name, came, is_reported in pool.imap(turned, jobs):
            reported += is_reported
            print("%s: %s" % (name, came), flush=True)
    print("%d rules turned, %d reported" % (len(jobs), reported))
    return 0 if reported == len(jobs) else 1


if __name__ == "__main__":
    sys.exit(main())
