#!/usr/bin/env python3
"""The rules as a slow program: what a script is answered, byte by byte.

Arenas keep plain lists of free ranges, caches plain lists of chunks and magazines. It shares with
tools/model.py how lines are read and which requests and ranges fit, and nothing with the program.
It takes memory to be ample. Where a client has several leases of older incarnations, a hello ends
them in order of grant: the rules leave this order open.

  tools/rules.py < SCRIPT      writes the answers, or the refusal of a setup line (status 2)
"""
import sys

from model import SETUP, Bad, Model, Request, read


class Space:
    """An arena's spans, its free ranges from the oldest to the newest, its rover and caches."""

    def __init__(self, arena, source):
        self.arena, self.source, self.rover = arena, source, 0
        self.spans, self.imported, self.free = list(arena.spans), set(), list(arena.spans)
        count = arena.most_cached // arena.quantum
        self.caches = [Cache(k * arena.quantum, arena) for k in range(1, count + 1)]

    def choose(self, request):
        """Returns the free range and the base in it that the policy gives, or None."""
        policy, quantum = self.arena.policy, self.arena.quantum
        if policy == "instant" and not request.is_constrained:
            least = (request.length // quantum - 1).bit_length()
            kind = lambda it: ((it[1] - it[0]) // quantum).bit_length() - 1
            kinds = [kind(it) for it in self.free if kind(it) >= least]
            if kinds:
                newest = [it for it in self.free if kind(it) == min(kinds)][-1]
                return newest, newest[0]
        if policy == "next":
            for start in (self.rover, 0):
                found = [(request.first_in(max(it[0], start), it[1]), it) for it in self.free]
                found = [it for it in found if it[0] is not None]
                if found:
                    return min(found)[::-1]
            return None
        found = [(it[1] - it[0], it) for it in self.free if request.first_in(*it) is not None]
        return found and (min(found)[1], request.first_in(*min(found)[1])) or None

    def carve(self, request):
        chosen = self.choose(request)
        if chosen is None:
            return None
        whole, base = chosen
        self.free.remove(whole)
        self.leave(whole[0], base)
        self.leave(base + request.length, whole[1])
        self.rover = base + request.length
        return base

    def leave(self, start, end):
        if start < end:
            self.free.append((start, end))

    def climb(self, length):
        """Carves so many units, or imports what they need and carves them there."""
        base = self.carve(Request(self.arena, length, {}))
        if base is None and self.source:
            amount = self.source.arena.rounded(max(length, self.arena.least_import))
            base = self.source.climb(amount)
            if base is not None:
                self.spans.append((base, base + amount))
                self.imported.add((base, base + amount))
                self.leave(base + length, base + amount)
                self.rover = base + length
        return base

    def put(self, start, end):
        """Frees a range, and an import that becomes whole in its source."""
        span = next(it for it in self.spans if it[0] <= start and end <= it[1])
        for it in list(self.free):
            if span[0] <= it[0] and it[1] == start or it[0] == end and it[1] <= span[1]:
                self.free.remove(it)
                start, end = min(start, it[0]), max(end, it[1])
        self.free.append((start, end))
        if (start, end) == span and span in self.imported:
            self.free.remove(span)
            self.spans.remove(span)
            self.imported.remove(span)
            self.source.put(*span)


class Cache:
    """The slabs of chunks of one length, by base, and their depot."""

    def __init__(self, length, arena):
        self.length, self.quantum, self.slab = length, arena.quantum, arena.slab
        self.colour, self.slabs, self.magazine = 0, {}, 3
        self.full, self.empty, self.old, self.to_reap = [], 0, [], [0, 0]

    def whole(self, base):
        return len(self.slabs[base]) == self.slab // self.length

    def take(self):
        """Returns the lowest idle chunk of the lowest partial slab, else of the lowest."""
        idle = [(self.whole(it), it) for it, chunks in self.slabs.items() if chunks]
        if not idle:
            return None
        chunks = self.slabs[min(idle)[1]]
        chunks.sort()
        return chunks.pop(0)

    def add(self, base):
        first, count = base + self.colour, self.slab // self.length
        self.slabs[base] = [first + it * self.length for it in range(1, count)]
        gap = self.slab - count * self.length
        self.colour = self.colour + self.quantum if self.colour + self.quantum <= gap else 0
        return first

    def put(self, chunk):
        next(it for base, it in self.slabs.items() if base <= chunk < base + self.slab).append(chunk)

    def swap_full(self, cpu):
        if not self.full:
            return False
        cpu.loaded, cpu.previous = self.full.pop(), cpu.loaded
        self.empty += 1
        self.to_reap[0] = min(self.to_reap[0], len(self.full))
        return True

    def swap_empty(self, cpu):
        """Where no empty magazine stands, a new one takes its place."""
        self.full.append(cpu.previous)
        cpu.loaded, cpu.previous = [], cpu.loaded
        if self.empty:
            self.empty -= 1
            self.to_reap[1] = min(self.to_reap[1], self.empty)

    def tick(self):
        self.to_reap = [len(self.full), self.empty]

    def resize(self, size):
        self.magazine, self.old = size, self.old + self.full
        self.full, self.empty, self.to_reap = [], 0, [0, 0]

    def reap_depot(self):
        count = self.to_reap[0]
        gone, self.full = self.old + self.full[:count], self.full[count:]
        self.empty -= self.to_reap[1]
        self.old, self.to_reap = [], [0, 0]
        for magazine in gone:
            for chunk in magazine:
                self.put(chunk)


class Magazines:
    """What a CPU has of one cache; the last in is the last of a list."""

    def __init__(self):
        self.size, self.loaded, self.previous = 3, [], []

    def pop(self):
        if not self.loaded:
            self.loaded, self.previous = self.previous, self.loaded
        return self.loaded.pop() if self.loaded else None

    def push(self, chunk):
        if len(self.loaded) == self.size and not self.previous:
            self.loaded, self.previous = [], self.loaded
        if len(self.loaded) == self.size:
            return False
        self.loaded.append(chunk)
        return True

    def change(self, size):
        self.size, self.loaded, self.previous = size, self.previous + self.loaded, []


class Rules:
    """A setup, and then the answers to one line after another."""

    def __init__(self):
        self.setup, self.spaces, self.clients, self.cpus, self.cpu = Model(), None, {}, {0: {}}, 0

    def open(self):
        self.spaces = {}
        for name, arena in self.setup.arenas.items():
            source = arena.source and self.spaces[arena.source.name]
            self.spaces[name] = Space(arena, source)

    def magazines(self, cache):
        return self.cpus[self.cpu].setdefault(cache, Magazines())

    def cache_of(self, space, length):
        return space.caches[length // space.arena.quantum - 1]

    def alloc(self, space, request):
        """Returns a base and whether it is of a cache, or None."""
        if request.is_constrained:
            base = space.carve(request)
        elif request.length <= space.arena.most_cached:
            chunk = self.chunk(space, self.cache_of(space, request.length))
            if chunk is not None:
                return chunk, True
            base = space.climb(request.length)
        else:
            base = space.climb(request.length)
        return None if base is None else (base, False)

    def chunk(self, space, cache):
        cpu = self.magazines(cache)
        chunk = cpu.pop()
        if chunk is None and cpu.size < cache.magazine:
            cpu.change(cache.magazine)
        elif chunk is None and cache.swap_full(cpu):
            chunk = cpu.pop()
        chunk = cache.take() if chunk is None else chunk
        if chunk is not None:
            return chunk
        base = space.climb(cache.slab)
        return None if base is None else cache.add(base)

    def free(self, space, base, length, is_cached):
        if not is_cached:
            space.put(base, base + length)
            return
        cache = self.cache_of(space, length)
        cpu = self.magazines(cache)
        if cpu.push(base):
            return
        if cpu.size < cache.magazine:
            cpu.change(cache.magazine)
        else:
            cache.swap_empty(cpu)
        cpu.push(base)

    # answers

    def answer(self, line):
        try:
            word, values = read(line)
        except Bad as bad:
            return [f"error {bad}"]
        found = getattr(self, "on_" + word)(*values)
        return found if isinstance(found, list) else [found]

    def on_hello(self, client, inc, protocol=1):
        it = self.clients.setdefault(client, {"inc": 0, "leases": []})
        if inc < it["inc"]:
            return f"old {client} {it['inc']}"
        if inc > it["inc"]:
            for name, *segment in it["leases"]:
                self.free(self.spaces[name], *segment)
            window = {1: 1, 2: 8}[protocol]
            it.update(inc=inc, window=window, greatest=0, low=0, kept={}, leases=[])
        return f"welcome {client} {inc}" + (" 2" if it["window"] == 8 else "")

    def on_lease(self, client, inc, number, name, size, options):
        work = lambda it, head: self.lease(it, head, name, size, options)
        return self.request(client, inc, number, name, work)

    def on_release(self, client, inc, number, name, base):
        work = lambda it, head: self.release(it, head, name, base)
        return self.request(client, inc, number, name, work)

    def request(self, client, inc, number, name, work):
        it = self.clients.get(client, {"inc": 0})
        if inc != it["inc"]:
            return f"old {client} {it['inc']}"
        head = f"{client} {inc} {number}"
        if number + it["window"] <= it["greatest"]:
            return f"stale {head} {it['greatest']}"
        if number in it["kept"]:
            return it["kept"][number]
        if number > it["low"] + it["window"]:
            return f"gap {head} {it['low']}"
        reply = work(it, head) if name in self.spaces else f"refused {head} noarena"
        self.settle(it, number, reply)
        return reply

    def settle(self, it, number, reply):
        """Keeps a reply, and of the others those of the last numbers, as many as are in a window."""
        it["kept"][number] = reply
        it["greatest"] = max(it["greatest"], number)
        while it["low"] + 1 in it["kept"]:
            it["low"] += 1
        last = it["greatest"] - it["window"]
        it["kept"] = {n: kept for n, kept in it["kept"].items() if n > last}

    def lease(self, it, head, name, size, options):
        space = self.spaces[name]
        request = Request(space.arena, size, options)
        if request.is_bad():
            return f"refused {head} badrequest"
        found = self.alloc(space, request)
        if found is None:
            return f"refused {head} nofit"
        base, is_cached = found
        if len(it["leases"]) == 1024:
            self.free(space, base, request.length, is_cached)
            return f"refused {head} leases"
        it["leases"].append((name, base, request.length, is_cached))
        return f"granted {head} {name} {base} {request.length}"

    def release(self, it, head, name, base):
        found = [lease for lease in it["leases"] if lease[:2] == (name, base)]
        if not found:
            return f"refused {head} notyours"
        it["leases"].remove(found[0])
        self.free(self.spaces[name], *found[0][1:])
        return f"released {head}"

    def on_cpu(self, number):
        self.cpu = number
        self.cpus.setdefault(number, {})
        return "ok"

    def on_offline(self, number):
        for cache, cpu in self.cpus.get(number, {}).items():
            for chunk in cpu.loaded + cpu.previous:
                cache.put(chunk)
        self.cpus.get(number, {}).clear()
        return "ok"

    def all_caches(self):
        return [it for space in self.spaces.values() for it in space.caches]

    def on_tick(self):
        for cache in self.all_caches():
            cache.tick()
        return "ok"

    def on_resize(self, name, size):
        if name not in self.spaces:
            return "error noarena"
        caches = self.spaces[name].caches
        if not caches or size <= caches[0].magazine:
            return "error size"
        for cache in caches:
            cache.resize(size)
        return "ok"

    def on_grow(self, name, base, length):
        word = self.setup.wrong_grow(name, base, length)
        if word:
            return f"error {word}"
        self.setup.arenas[name].spans.append((base, base + length))
        self.spaces[name].spans.append((base, base + length))
        self.spaces[name].free.append((base, base + length))
        return "ok"

    def on_reap(self):
        units = 0
        for space in reversed(self.spaces.values()):
            for cache in space.caches:
                cache.reap_depot()
                for base in sorted(it for it in cache.slabs if cache.whole(it)):
                    del cache.slabs[base]
                    space.put(base, base + cache.slab)
                    units += cache.slab
        return f"reaped {units}"

    def on_audit(self):
        return [self.sums(name, space) for name, space in self.spaces.items()]

    def sums(self, name, space):
        total = lambda ranges: sum(end - start for start, end in ranges)
        held = lambda cpu: len(cpu.loaded) + len(cpu.previous)
        rounds = slabs = 0
        for cache in space.caches:
            count = sum(len(it) for it in cache.full + cache.old)
            count += sum(held(cpu[cache]) for cpu in self.cpus.values() if cache in cpu)
            rounds += count * cache.length
            for chunks in cache.slabs.values():
                slabs += cache.slab - (cache.slab // cache.length - len(chunks)) * cache.length
        leased = sum(it[2] for c in self.clients.values() for it in c["leases"] if it[0] == name)
        exported = sum(total(it.imported) for it in self.spaces.values() if it.source is space)
        return (f"arena {name} free {total(space.free)} slab {slabs} magazine {rounds}"
                f" exported {exported} leased {leased} hand 0")

    def on_clients(self):
        return [f"client {client} {it['inc']} {it['greatest']} {len(it['leases'])}"
                for client, it in self.clients.items()]


def run(script):
    """Returns what is written for the text of a script, and the refusal of a setup line or None."""
    *lines, rest = script.split("\n")
    rules, answers, number = Rules(), [], 0
    while number < len(lines) and lines[number].split(" ")[0] in SETUP:
        word = rules.setup.setup(lines[number])
        number += 1
        if word:
            return [], f"vmemd: line {number}: {word}"
    last = "toolong" if len(rest) > 255 else "badline"
    if number == len(lines) and rest.split(" ")[0] in SETUP:
        return [], f"vmemd: line {number + 1}: {last}"
    rules.open()
    for line in lines[number:]:
        answers += rules.answer(line)
    if rest:
        answers.append(f"error {last}")
    return answers, None


def main():
    answers, refusal = run(sys.stdin.buffer.read().decode("latin-1"))
    sys.stdout.write("".join(it + "\n" for it in answers))
    if refusal:
        print(refusal, file=sys.stderr)
    return 2 if refusal else 0


if __name__ == "__main__":
    sys.exit(main())
