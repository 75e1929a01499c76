"""The cache in bytes beside an evaluation of its definition in Python, on random lists of calls.

    tools/build cache
    /usr/bin/python3 bench/cache/lists.py /tmp/lifthorg-bench/crates/cache_bench/out/cache_bench [COUNT] [SEED]

Both draw the same calls from one seed. Each answer, the bytes, the count, and both lists are compared after each call. The status is 1
where a line differs.
"""
import subprocess
import sys

KEY = 15


class Chance:
    def __init__(self, seed):
        self.state = seed

    def below(self, limit):
        self.state = (self.state * 6364136223846793005 + 1442695040888963407) % 2**64
        return (self.state >> 33) % limit


class Cache:
    """Two lists of (key, value, ticket), the one that was used last first."""

    def __init__(self, limit, room):
        self.limit, self.room = limit, room
        self.lists = {"main": [], "hot": []}

    def bytes_of(self, name):
        return sum(KEY + value for _, value, _ in self.lists[name])

    def bytes(self):
        return self.bytes_of("main") + self.bytes_of("hot")

    def where(self, key):
        for name, entries in self.lists.items():
            if any(entry[0] == key for entry in entries):
                return name
        return None

    def find(self, key):
        for entries in self.lists.values():
            for entry in entries:
                if entry[0] == key:
                    return entry
        return None

    def touch(self, key):
        name = self.where(key)
        if name:
            entry = self.find(key)
            self.lists[name] = [entry] + [e for e in self.lists[name] if e[0] != key]

    def evict(self):
        name = "hot" if self.bytes_of("hot") > self.bytes_of("main") // 8 else "main"
        return self.lists[name].pop() if self.lists[name] else None

    def put(self, side, key, value, ticket):
        if KEY + value > self.limit:
            return "too big"
        name = self.where(key)
        if name:
            self.lists[name] = [e for e in self.lists[name] if e[0] != key]
        else:
            name = side
            if len(self.lists[name]) == self.room:
                self.lists[name].pop()
        self.lists[name].insert(0, (key, value, ticket))
        while self.bytes() > self.limit:
            self.evict()
        return "put"

    def text(self):
        keys = {name: "".join(f" {entry[0]}" for entry in entries) for name, entries in self.lists.items()}
        count = sum(map(len, self.lists.values()))
        return f"; {self.bytes()} bytes, {count} entries; main{keys['main']}; hot{keys['hot']}"


def call(chance, cache, ticket):
    what, key, value = chance.below(10), chance.below(6), chance.below(40)
    if what < 6:
        side = "main" if what < 3 else "hot"
        return f"put_{side} {key} {value}: {cache.put(side, key, value, ticket)}"
    entry = cache.find(key)
    if what == 6:
        cache.touch(key)
        return f"get {key}: {entry[1] if entry else 'none'}"
    if what == 7:
        return f"hit {key}: {f'ticket {entry[2]}' if entry else 'none'}"
    if what == 8:
        cache.touch(key)
        return f"touch {key}"
    gone = cache.evict()
    return f"evict: {gone[0]} ticket {gone[2]}" if gone else "evict: none"


def expected(count, seed):
    chance = Chance(seed)
    for _ in range(count):
        limit = chance.below(200)
        room = 1 + chance.below(4)
        cache = Cache(limit, room)
        yield f"{limit} bytes, {room} entries a list"
        for ticket in range(chance.below(20)):
            called = call(chance, cache, ticket)
            yield called + cache.text()


def main():
    program = sys.argv[1]
    count = int(sys.argv[2]) if len(sys.argv) > 2 else 20000
    seed = int(sys.argv[3]) if len(sys.argv) > 3 else 1
    ran = subprocess.run([program, "lists", str(count), str(seed)], capture_output=True, text=True, check=True)
    lines, wanted = ran.stdout.splitlines(), list(expected(count, seed))
    wrong = [at for at, (line, want) in enumerate(zip(lines, wanted)) if line != want]
    for at in wrong[:10]:
        print(f"line {at + 1}\n  program {lines[at]}\n  wanted  {wanted[at]}")
    print(f"{count} lists, {len(wanted) - count} calls, {len(wrong)} lines differ, {len(lines)} of {len(wanted)} lines written")
    return 1 if wrong or len(lines) != len(wanted) else 0


sys.exit(main())
