"""Random lists of events, replayed by the built program and by an evaluation of the definitions in Python.

    /usr/bin/python3 tests/machine/lists.py crates/iiif_replay/out/iiif_replay [--count N] [--seed N] [--each N] [--jobs N]

The outcome of each event, the answers, and at the end all rows of each world are compared; of each EACHth list all rows after each
event too. Of twenty lists one is long: its nodes ask one another again and again, so that tenth values of a peer are kept, and leaders
look again late. Of those all rows are compared after each tenth event.

It writes how often each event was done and refused, by what it found and what it left, and which answers there were. The status is 1
where a line differs, or where an event was never done or never refused.
"""
import argparse
import collections
import multiprocessing
import random
import subprocess
import sys
from urllib.parse import quote

from machine import LOCAL, WIDE, Node, Scene, World

# How many events a list has, and a long one; and how many lists a process replays at once.
LENGTH, LONG, BATCH = 45, 500, 100


# Rows, as the program writes them

def name_text(name):
    """A name's word: percent-encoded, but for what is printed of ASCII and no percent sign."""
    return quote(name, safe="".join(chr(n) for n in range(33, 127) if chr(n) != "%"))


def key_text(key):
    if key[0] == "tile":
        return "tile %s %d %d %d" % (name_text(key[1]), *key[2:])
    _, name, edge, rect, size, level, bx, by = key
    return "sum %s %d %s %s %d %d %d" % (name_text(name), edge, "%d %d %d %d" % rect, "%d %d" % size, level, bx, by)


def kind_text(channels):
    return "gray" if channels == 1 else "rgb"


def picture_text(p):
    return " ".join([kind_text(p[2]), "8" if p[3] == 255 else "16", str(p[0]), str(p[1])] + [str(s) for s in p[4]])


def value_text(key, value):
    if key[0] == "tile":
        return picture_text(value)
    return " ".join(["sums", kind_text(value[1])] + [str(n) for n in value[0]] + [str(s) for s in value[2]])


def fault_text(fault):
    return "fault %d %d" % fault[1:]


def outcome_text(key, outcome):
    return value_text(key, outcome[1]) if outcome[0] == "ok" else fault_text(outcome)


def answer_text(answer):
    if answer[0] == "refused":
        return "refused " + answer[1]
    return "image " + picture_text(answer[1]) if answer[0] == "image" else fault_text(answer)


def entries_text(entries):
    return "".join("; %s #%d %s" % (key_text(key), ticket, value_text(key, value)) for key, value, ticket in entries)


def table_text(table):
    flights = "".join("; %s %s #%d %s" % (kind, key_text(key), ticket, "true" if found else "false")
                      for kind, key, ticket, found in table.open)
    book = " ".join(str(n) for n in table.book.values())
    return " main%s hot%s open%s book %s" % (entries_text(table.main), entries_text(table.hot), flights, book)


def numbers_text(numbers):
    return "".join(" %d" % n for n in numbers)


def progress_text(progress):
    if progress[0] == "waiting":
        return "waiting" + numbers_text(progress[2])
    return answer_text(progress[1]) if progress[0] == "answered" else "dropped"


def state_text(key, state):
    if state[0] == "hit":
        return "hit " + value_text(key, state[1])
    return "in %d" % state[1] if state[0] == "in" else state[0]


def stage_text(key, stage):
    if stage[0] == "fallback":
        return "fallback" if stage[1] is None else "fallback %d" % stage[1]
    if stage[0] == "parts":
        return "parts" + numbers_text(stage[1])
    if stage[0] == "ready":
        return "ready %s %s" % (stage[2], outcome_text(key, stage[1]))
    if stage[0] == "ended":
        return "ended" if stage[1] is None else "ended " + outcome_text(key, stage[1])
    return stage[0]


def rows(world):
    for n, node in enumerate(world.nodes):
        yield "node %d tiles%s" % (n, table_text(node.tiles))
        yield "node %d sums%s" % (n, table_text(node.sums))
    for n, given in enumerate(world.given):
        yield "given %d: node %d %s fault %d %d" % (n, given[0], name_text(given[1]), *given[2:])
    for n, (node, name, progress) in enumerate(world.requests):
        yield "request %d: node %d %s %s" % (n, node, name_text(name), progress_text(progress))
    for n, (node, key, kind, purpose, state) in enumerate(world.calls):
        yield "call %d: node %d %s %s for %s %d: %s" % (n, node, kind, key_text(key), purpose[0], purpose[1], state_text(key, state))
    for n, (node, key, kind, ticket, stage) in enumerate(world.flights):
        yield "flight %d: node %d %s %s #%d: %s" % (n, node, kind, key_text(key), ticket, stage_text(key, stage))
    for n, (node, key, flight, version) in enumerate(world.asks):
        yield "ask %d: node %d %s version %d for flight %d" % (n, node, key_text(key), version, flight)
    for n, (key, outcome) in enumerate(world.replies):
        yield "reply %d: %s %s" % (n, key_text(key), outcome_text(key, outcome))


# Random worlds and events

def a_picture(chance):
    w, h = chance.randint(1, 4), chance.randint(1, 4)
    channels, top = chance.choice((1, 1, 3)), chance.choice((255, 255, 65535))
    return (w, h, channels, top, tuple(chance.randint(0, top) for _ in range(w * h * channels)))


def a_world(chance, is_long):
    """The world, and the lines that describe it."""
    pictures = {name: a_picture(chance) for name in chance.choice((["p"], ["p", "picture-a"], ["p", "é"], ["p", "a b%"]))}
    edge = chance.randint(1, 3)
    side = chance.choice((8, 8, 8, 3))
    limits = (side, side, chance.random() < 0.5)
    room = chance.choice((65536, 65536, 12, 1))
    names = chance.choice((["a", "b"], ["a", "b"], ["a", "b", "c"], ["a", "b", "c"], ["a", "b", "b"]))
    known = sorted(set(names))
    nodes = [Node(name, chance.sample(known, chance.randint(1, len(known))), chance.choice((1, 2, 2)), chance.choice((25, 28, 60, 65, 120, 1000)),
                  chance.randint(1, 4)) for name in names]
    if is_long:
        nodes = [Node(name, [other], 2, chance.choice((60, 90, 140, 1000)), chance.randint(2, 8)) for name, other in (("a", "b"), ("b", "a"))]
    lines = ["edge %d" % edge, "limits %d %d%s" % (side, side, " upscale" if limits[2] else ""), "room %d" % room]
    faults_early = chance.random() < 0.4
    lines += ["faults early"] * faults_early
    lines += ["picture %s %s" % (name_text(name), picture_text(p)) for name, p in pictures.items()]
    lines += ["node %s %d %d %d %s" % (n.name, n.version, n.tiles.limit, n.tiles.room, " ".join(n.ring)) for n in nodes]
    return World(Scene(pictures, edge, limits, room, faults_early), nodes), lines


WHOLE, HALF = ("full", "max", "0", "default"), ("full", "2,", "0", "default")


def a_request(chance):
    region = chance.choice(("full", "full", "square", "%d,%d,%d,%d" % tuple(chance.randint(0, 4) for _ in range(4))))
    size = chance.choice(("max", "max", "2,", ",1", "1,1", "!2,2", "^max", "^3,3", "^5,", "2,2"))
    rotation = chance.choice(("0", "0", "90", "180", "!270"))
    quality = chance.choice(("default", "default", "color", "gray", "bitonal"))
    return (region, size, rotation, quality)


KINDS = ["enter", "again", "ask_peer", "serve", "reply", "take", "lose", "go_local", "load", "source_fault", "land"]

EVENTS = ["want"] + KINDS + ["evict", "stop"]


def allowed(world):
    """Events that may be allowed now, in the order of KINDS."""
    for c, call in enumerate(world.calls):
        if call[4] == ("fresh",):
            yield ("enter", c)
        elif call[3][0] == "ask" and world.learned(c) is not None:
            yield ("reply", c)
    for f, flight in enumerate(world.flights):
        stage = flight[4][0]
        if stage == "new":
            yield ("again", f)
        elif stage == "looked":
            yield ("ask_peer", f) if flight[2] == WIDE else ("load", f)
            if flight[2] == LOCAL and flight[1][0] == "tile":
                yield ("source_fault", f)
        elif stage == "asking":
            yield ("lose", f)
            for r in range(len(world.replies)):
                yield ("take", f, r)
        elif stage == "fallback" and flight[4][1] is None:
            yield ("go_local", f)
        elif stage == "parts" and world.decided(flight[4][1]) is not None:
            yield ("load", f)
        elif stage == "ready":
            yield ("land", f)
    for a in range(len(world.asks)):
        yield ("serve", a)


def a_row(chance, rows):
    """A row's number; where there is none, and else once in ten perhaps, the number of none."""
    return chance.randint(0, max(0, len(rows) - (chance.random() < 0.9)))


def a_want(chance, world):
    name = chance.choice(list(world.scene.pictures) + ["none"] * (chance.random() < 0.1))
    return ("want", a_row(chance, world.nodes), name, a_request(chance))


def with_words(chance, event):
    """A read's fault, and whether a landing keeps."""
    if event[0] == "source_fault":
        event += (chance.randint(0, 9), chance.randint(1, 3))
    if event[0] == "land":
        event += (chance.random() < 0.8,)
    return event


def an_event(chance, world):
    draw = chance.random()
    if not world.requests or draw < 0.06:
        return a_want(chance, world)
    if draw < 0.08:
        return ("stop", a_row(chance, world.nodes))
    if draw < 0.10:
        keys = [call[1] for call in world.calls]
        return ("evict", a_row(chance, world.nodes), chance.sample(keys, min(len(keys), chance.randint(0, 3))))
    some = list(allowed(world))
    if some and draw < 0.85:
        kind = chance.choice(sorted({event[0] for event in some}))
        event = chance.choice([event for event in some if event[0] == kind])
    else:
        kind = chance.choice(KINDS)
        event = (kind, a_row(chance, {"enter": world.calls, "reply": world.calls, "serve": world.asks}.get(kind, world.flights)))
        if kind == "take":
            event += (a_row(chance, world.replies),)
    return with_words(chance, event)


def is_onward(chance, world, event, served, replied):
    """Whether an event of a long list helps a wide flight to its value: no ask is lost or served twice, and replies fit."""
    if event[0] in ("lose", "source_fault"):
        return chance.random() < 0.02
    if event[0] == "again":
        return chance.random() < 0.3
    if event[0] == "serve":
        return event[1] not in served
    if event[0] == "reply":
        return world.calls[event[1]][1] not in replied
    if event[0] == "take":
        key, outcome = world.replies[event[2]]
        return outcome[0] == "ok" and key == world.flights[event[1]][1]
    return True


def an_event_onward(chance, world):
    """An event of a long list: values come from peers, and go again, so that they are fetched anew."""
    served = {call[3][1] for call in world.calls if call[3][0] == "ask"}
    replied = {key for key, _ in world.replies}
    some = [event for event in allowed(world) if is_onward(chance, world, event, served, replied)]
    draw = chance.random()
    if not some or draw < 0.02:
        name = chance.choice(list(world.scene.pictures))
        return ("want", chance.randrange(2), name, chance.choice((a_request(chance), WHOLE, WHOLE, HALF)))
    if draw < 0.10:
        n = chance.randrange(len(world.nodes))
        kept = [entry[0] for table in (world.nodes[n].tiles, world.nodes[n].sums) for entry in table.main + table.hot]
        return ("evict", n, chance.sample(kept, chance.randint(0, len(kept))))
    return with_words(chance, chance.choice(some))


# What came of events

def found_by(world, event):
    """What an event finds: the state of its call, the stage of its flight, or whether what it names is there."""
    kind, number = event[0], event[1]
    if kind in ("enter", "reply"):
        if number >= len(world.calls):
            return "no call"
        call = world.calls[number]
        if kind == "enter":
            return call[4][0]
        return "%s, %s" % ("serves" if call[3][0] == "ask" else "serves no ask", "knows" if world.learned(number) else "knows nothing")
    if kind == "serve":
        if number >= len(world.asks):
            return "no ask"
        node, _, _, version = world.asks[number]
        return "version %d, at a node of %d" % (version, world.nodes[node].version)
    if kind in ("want", "evict", "stop"):
        if number >= len(world.nodes):
            return "no node"
        if kind != "want":
            return "a node"
        p = world.scene.pictures.get(event[2])
        return "%s bits, at a node of %d" % (8 if p[3] == 255 else 16, world.nodes[number].version) if p else "no picture"
    if number >= len(world.flights):
        return "no flight"
    if kind == "take" and event[2] >= len(world.replies):
        return "no reply"
    return flight_word(world, number)


def flight_word(world, number):
    _, key, kind, _, stage = world.flights[number]
    words = [kind, key[0], stage[0]]
    if stage[0] == "fallback":
        words.append("alone" if stage[1] is None else "with its call")
    if stage[0] == "parts":
        words.append("known" if world.decided(stage[1]) is not None else "not known")
    if stage[0] in ("ready", "ended"):
        words.append("none" if stage[1] is None else stage[1][0])
    return " ".join(words + list(stage[2:]))


def left_by(world, event, found):
    """What an event that was done has left."""
    kind, number = event[0], event[1]
    if kind == "want":
        progress = world.requests[-1][2]
        return "refused " + progress[1][1] if progress[0] == "answered" else "waiting"
    if kind == "enter":
        state = world.calls[number][4]
        if state[0] == "hit":
            return "finds"
        return "leads" if state[1] == len(world.flights) - 1 and world.flights[-1][4] == ("new",) else "joins"
    if kind == "land":
        peer = world.nodes[world.flights[number][0]].table(world.flights[number][1]).book["peer"]
        return ("kept" if event[2] else "dropped") + (", a tenth value" if found.endswith("ok peer") and peer % 10 == 0 else "")
    if kind in ("again", "ask_peer", "take", "lose", "go_local", "load", "source_fault"):
        return flight_word(world, number)
    return "done"


def answer_word(answer):
    return "image of %s bits" % (8 if answer[1][3] == 255 else 16) if answer[0] == "image" else answer_text(answer).split(" ")[0]


def event_text(event):
    kind, rest = event[0], event[1:]
    if kind == "want":
        return "want %d %s %s" % (rest[0], name_text(rest[1]), " ".join(rest[2]))
    if kind == "land":
        return "land %d %s" % (rest[0], "kept" if rest[1] else "dropped")
    if kind == "evict":
        return " ".join(["evict %d" % rest[0]] + [key_text(key) for key in rest[1]])
    return " ".join([kind] + [str(n) for n in rest])


class Tally:
    """How often what came, of how many lists."""

    def __init__(self):
        self.lists, self.compared, self.events, self.answers = 0, 0, collections.Counter(), collections.Counter()

    def add(self, other):
        self.lists += other.lists
        self.compared += other.compared
        self.events += other.events
        self.answers += other.answers

    def done(self, kind, refused=False):
        return sum(n for (it, _, left), n in self.events.items() if it == kind and (left == "not now") == refused)

    def missing(self):
        """The events that were never done, or never refused."""
        return ["%s was never %s" % (kind, word) for kind in EVENTS for refused, word in ((False, "done"), (True, "refused"))
                if not self.done(kind, refused)]

    def told(self):
        yield "%d lists, %d events, %d done, %d refused, %d answers; all rows compared after %d events" % (
            self.lists, sum(self.events.values()), sum(self.done(kind) for kind in EVENTS), sum(self.done(kind, True) for kind in EVENTS),
            sum(self.answers.values()), self.compared)
        for kind in EVENTS:
            yield "%s: %d done, %d refused" % (kind, self.done(kind), self.done(kind, True))
            for (it, found, left), n in sorted(self.events.items()):
                if it == kind:
                    yield "    %-44s %-44s %d" % (found, left, n)
        for word, n in sorted(self.answers.items()):
            yield "answered %s: %d" % (word, n)


def a_list(chance, number, each, is_long, tally):
    """The lines of a list, and what the program should write for it; `number` is that of its first line."""
    world, lines = a_world(chance, is_long)
    wanted = []
    for n in range(LONG if is_long else LENGTH):
        event = (an_event_onward if is_long else an_event)(chance, world)
        found = found_by(world, event)
        lines.append(event_text(event))
        done, told = world.told(event)
        tally.events[(event[0], found, left_by(world, event, found) if done else "not now")] += 1
        wanted.append("%d %s: %s" % (number + len(lines) - 1, lines[-1], told))
        if n % 10 == 9 if is_long else each:
            lines.append("rows")
            wanted += rows(world)
            tally.compared += 1
    lines += ["rows", "world"]
    wanted += rows(world)
    wanted += ["request %d: %s" % (n, answer_text(r[2][1]) if r[2][0] == "answered" else "none") for n, r in enumerate(world.requests)]
    tally.answers.update(answer_word(r[2][1]) for r in world.requests if r[2][0] == "answered")
    tally.lists += 1
    return lines, wanted


def compare(program, lines, wanted):
    """The first line that differs, or None."""
    run = subprocess.run([program, "--go-on"], input="\n".join(lines) + "\n", capture_output=True, text=True)
    wrote = run.stdout.splitlines()
    if run.returncode != 0:
        return "status %d: %s" % (run.returncode, run.stderr)
    for mine, its in zip(wanted, wrote):
        if mine != its:
            return "evaluated: %s\nreplayed:  %s" % (mine, its)
    return None if len(wanted) == len(wrote) else "%d lines beside %d" % (len(wanted), len(wrote))


def a_batch(program, seed, first, end, each):
    """Lists from one number to another: the tally, what differs first, and the lines."""
    chance, tally, lines, wanted = random.Random("%d %d" % (seed, first)), Tally(), [], []
    for n in range(first, end):
        is_long = n % 20 == 19
        more, expected = a_list(chance, len(lines) + 1, n % each == 0, is_long, tally)
        lines += more
        wanted += expected
    return tally, compare(program, lines, wanted), lines


def batch_of(job):
    return job[2], *a_batch(*job)


def main():
    parser = argparse.ArgumentParser(description=__doc__, formatter_class=argparse.RawDescriptionHelpFormatter)
    parser.add_argument("program")
    parser.add_argument("--count", type=int, default=1000)
    parser.add_argument("--seed", type=int, default=1)
    parser.add_argument("--each", type=int, default=10)
    parser.add_argument("--jobs", type=int, default=1)
    args = parser.parse_args()
    jobs = [(args.program, args.seed, first, min(args.count, first + BATCH), args.each) for first in range(0, args.count, BATCH)]
    total = Tally()
    with multiprocessing.Pool(args.jobs) as pool:
        for first, tally, differs, lines in pool.imap(batch_of, jobs):
            total.add(tally)
            if differs:
                print("lists from %d on\n%s" % (first, differs))
                with open("differs.txt", "w") as file:
                    file.write("\n".join(lines) + "\n")
                sys.exit(1)
    print("\n".join(total.told()))
    for word in total.missing():
        print(word)
    print("equal")
    sys.exit(1 if total.missing() else 0)


if __name__ == "__main__":
    main()
