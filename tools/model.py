#!/usr/bin/env python3
"""An independent slow model of the script program: it reads a script and what the program wrote.

It predicts no address. From the replies alone it recomputes what each client has leased, and says
of each answer whether it may be: the words of refusals and of setup, clients, incarnations and
numbers exactly; a grant fits its line and overlaps no lease of its space, up the chain of sources;
a repeat gets the same bytes; `nofit` comes only where nothing fits, where leases alone tell that;
the sums of `audit` are the leases', add up to the spans, and say what sources exported; `reap`
answers what left slabs and magazines. It takes memory to be ample.

  tools/model.py SCRIPT OUTPUT      checks one run; status 1 where an answer is wrong
"""
import re
import sys

MOST = 1 << 62
OPTIONS = ("align", "phase", "nocross", "min", "max")
POLICIES = ("instant", "best", "next")
NAME = re.compile(r"[a-z][a-z0-9]{0,15}")
NUMBER = re.compile(r"0|[1-9][0-9]*")
SHAPES = {"hello": "ci", "lease": "cinaq", "release": "cinaq", "cpu": "p", "offline": "p",
          "tick": "", "resize": "am", "grow": "aqq", "reap": "", "audit": "", "clients": "",
          "root": "aqqqlq", "child": "aaqlqq", "span": "aqq"}
SETUP = ("root", "child", "span")
RANGES = {"c": range(1, 65537), "i": range(1, MOST + 1), "n": range(1, MOST + 1),
          "q": range(MOST + 1), "p": range(64), "m": (3, 7, 15, 31), "v": (2,)}


class Bad(Exception):
    """A line that is refused, by its word."""


def read(line, is_setup=False):
    """Returns a line's first word and its values, or raises the word of its refusal."""
    if len(line) > 255:
        raise Bad("toolong")
    words = line.split(" ")
    if not all(re.fullmatch("[a-z0-9]+", it) for it in words):
        raise Bad("badline")
    shape = SHAPES.get(words[0])
    if shape is None or is_setup != (words[0] in SETUP):
        raise Bad("word")
    if words[0] == "hello" and len(words) == 4:
        shape += "v"
    given, options = words[1:1 + len(shape)], words[1 + len(shape):]
    names = options[::2]
    order = [OPTIONS.index(it) for it in names if it in OPTIONS]
    if len(given) < len(shape) or options and (words[0] != "lease" or len(options) % 2
            or len(order) < len(names) or order != sorted(set(order))):
        raise Bad("badline")
    for kind, word in zip(shape, given):
        if kind == "a" and not NAME.fullmatch(word) or kind == "l" and word not in POLICIES:
            raise Bad("badline")
    kinds = shape + "q" * len(names)
    values = [value(kind, word) for kind, word in zip(kinds, given + options[1::2])]
    count = len(shape)
    return words[0], values[:count] + [dict(zip(names, values[count:]))] * (words[0] == "lease")


def value(kind, word):
    if kind in "al":
        return word
    if not NUMBER.fullmatch(word) or int(word) not in RANGES[kind]:
        raise Bad("number")
    return int(word)


class Arena:
    def __init__(self, name, source, quantum, policy, most_cached, least_import=0):
        self.name, self.source, self.quantum, self.policy = name, source, quantum, policy
        self.most_cached, self.least_import, self.magazine = most_cached, least_import, 3
        self.spans, self.children, self.leases, self.used = [], [], {}, False
        self.slab = 1 << (3 * most_cached).bit_length() if most_cached else 0
        if source:
            source.children.append(self)

    def chain(self):
        return [self] + (self.source.chain() if self.source else [])

    def family(self):
        return [self] + [it for child in self.children for it in child.family()]

    def rounded(self, size):
        return -(-size // self.quantum) * self.quantum


class Request:
    """The size in whole quanta and the constraints of a lease line."""

    def __init__(self, arena, size, options):
        none = {"align": 0, "phase": 0, "nocross": 0, "min": 0, "max": MOST}
        self.quantum, self.size, self.length = arena.quantum, size, arena.rounded(size)
        self.__dict__.update(none, **options)
        self.is_constrained = any(self.__dict__[it] != none[it] for it in none)

    def is_bad(self):
        whole = lambda n: n % self.quantum == 0
        power = lambda n: n & (n - 1) == 0
        return (self.size == 0 or not power(self.align) or not whole(self.align)
                or self.phase and (self.phase >= self.align or not whole(self.phase))
                or not power(self.nocross) or not whole(self.nocross)
                or self.nocross and self.nocross < self.length
                or self.min >= self.max or self.max > MOST)

    def fits(self, base, length):
        return (length == self.length and base % self.quantum == 0
                and (not self.align or base % self.align == self.phase)
                and self.min <= base and base + length <= self.max
                and (not self.nocross
                     or base // self.nocross == (base + length - 1) // self.nocross))

    def first_in(self, start, end):
        """Returns the least fitting base in a free range, or None."""
        step = max(self.align, self.quantum)
        base = max(start, self.min)
        for _ in range(3):
            base += (self.phase - base) % step
            crossed = self.nocross and base % self.nocross + self.length > self.nocross
            if not crossed:
                break
            base += -base % self.nocross
        is_in = base + self.length <= min(end, self.max) and self.fits(base, self.length)
        return base if is_in else None


class Model:
    def __init__(self):
        self.arenas, self.clients = {}, {}
        # the units in slabs and magazines by the last audit, while nothing is leased or released
        self.idle = None
        # the CPUs made; those taken offline since a lease or release; whether a tick came after
        # that; and whether nothing was leased at a reap after that
        self.made, self.offline, self.is_ticked, self.is_empty = {0}, set(), False, False

    # setup

    def setup(self, line):
        """Takes a setup line, or returns the word by which it is refused."""
        try:
            word, values = read(line, is_setup=True)
            getattr(self, "setup_" + word)(*values)
        except Bad as bad:
            return str(bad)
        return None

    def refuse(self, *cases):
        for word, is_so in cases:
            if is_so:
                raise Bad(word)

    def wrong_range(self, base, length, quantum, spans):
        end = base + length
        return (length == 0 or end > MOST or base % quantum or length % quantum
                or any(a < end and base < b for a, b in spans))

    def wrong_caches(self, most, quantum):
        return most % quantum or most > 16 * quantum or 1 << (3 * most).bit_length() > MOST

    def setup_root(self, name, base, length, quantum, policy, most):
        self.refuse(("name", name in self.arenas), ("many", len(self.arenas) == 32),
                    ("quantum", quantum == 0 or quantum & (quantum - 1)))
        self.refuse(("cache", self.wrong_caches(most, quantum)),
                    ("range", self.wrong_range(base, length, quantum, [])))
        self.arenas[name] = Arena(name, None, quantum, policy, most)
        self.arenas[name].spans.append((base, base + length))

    def setup_child(self, name, source, quantum, policy, most, least):
        above = self.arenas.get(source)
        self.refuse(("name", name in self.arenas), ("many", len(self.arenas) == 32),
                    ("noarena", above is None))
        self.refuse(("chain", len(above.chain()) == 4),
                    ("quantum", quantum == 0 or quantum & (quantum - 1)
                     or quantum > above.quantum))
        self.refuse(("cache", self.wrong_caches(most, quantum)))
        self.arenas[name] = Arena(name, above, quantum, policy, most, least)

    def setup_span(self, name, base, length):
        arena = self.arenas.get(name)
        self.refuse(("many", arena and not arena.source and len(arena.spans) == 65536),
                    ("noarena", not arena or arena.source))
        self.refuse(("range", self.wrong_range(base, length, arena.quantum, arena.spans)))
        arena.spans.append((base, base + length))

    # answers

    def count(self, line):
        """Returns how many lines answer a line."""
        return {"audit": len(self.arenas), "clients": len(self.clients)}.get(line, 1)

    def answer(self, line, answers):
        """Returns what is wrong with the answers to a line, or None."""
        try:
            word, values = read(line)
        except Bad as bad:
            return self.only(answers, f"error {bad}")
        if word in ("hello", "lease", "release"):
            self.idle, self.offline, self.is_ticked, self.is_empty = None, set(), False, False
        return getattr(self, "on_" + word)(answers, *values)

    def only(self, answers, wanted):
        return None if answers == [wanted] else f"{answers} is answered, and not {wanted}"

    def on_hello(self, answers, client, inc, protocol=1):
        known = self.clients.get(client)
        if known and inc < known["inc"]:
            return self.only(answers, f"old {client} {known['inc']}")
        if not known or inc > known["inc"]:
            self.end_leases(client)
            # (`last` is the greatest settled number, and up to `low` all are settled)
            known = {"inc": inc, "protocol": protocol, "last": 0, "low": 0, "settled": {}}
            self.clients[client] = known
        word = " 2" if known["protocol"] == 2 else ""
        return self.only(answers, f"welcome {client} {inc}{word}")

    def end_leases(self, client):
        for arena in self.arenas.values():
            arena.leases = {b: it for b, it in arena.leases.items() if it[1] != client}

    def in_turn(self, answers, client, inc, number):
        """Returns whether the number is new, and else what is wrong with the answer."""
        known = self.clients.get(client, {"inc": 0})
        if inc != known["inc"]:
            return False, self.only(answers, f"old {client} {known['inc']}")
        last, low, settled = known["last"], known["low"], known["settled"]
        if number <= last - self.window(known):
            return False, self.only(answers, f"stale {client} {inc} {number} {last}")
        if number in settled:
            return False, self.only(answers, settled[number][0])
        if not self.is_new(known, number):
            return False, self.only(answers, f"gap {client} {inc} {number} {low}")
        settled[number] = answers
        while low + 1 in settled:
            low += 1
        known.update(last=max(last, number), low=low)
        return True, None

    def window(self, known):
        return 8 if known["protocol"] == 2 else 1

    def is_new(self, known, number):
        return number not in known["settled"] and number <= known["low"] + self.window(known)

    def on_lease(self, answers, client, inc, number, name, size, options):
        is_new, wrong = self.in_turn(answers, client, inc, number)
        if not is_new:
            return wrong
        head, arena = f"{client} {inc} {number}", self.arenas.get(name)
        if not arena:
            return self.only(answers, f"refused {head} noarena")
        request = Request(arena, size, options)
        if request.is_bad():
            return self.only(answers, f"refused {head} badrequest")
        if answers == [f"refused {head} nofit"]:
            return self.wrong_nofit(arena, request)
        count = sum(it[1] == client for a in self.arenas.values() for it in a.leases.values())
        if count >= 1024:
            return self.only(answers, f"refused {head} leases")
        granted = re.fullmatch(f"granted {head} {name} ([0-9]+) ([0-9]+)", "/".join(answers))
        if not granted:
            return f"{answers} is no answer to it"
        base, length = map(int, granted.groups())
        wrong = self.wrong_grant(arena, request, base, length)
        arena.leases[base] = (base + length, client)
        arena.chain()[-1].used = True
        return wrong

    def wrong_grant(self, arena, request, base, length):
        root, end = arena.chain()[-1], base + length
        if not request.fits(base, length):
            return "the grant doesn't fit the line"
        if not any(a <= base and end <= b for a, b in root.spans):
            return "the grant is outside the spans"
        for other in root.family():
            for start, (stop, client) in other.leases.items():
                if start < end and base < stop:
                    return f"the grant overlaps {client}'s lease of {other.name} at {start}"
        return None

    def wrong_nofit(self, arena, request):
        """Leases alone tell what is free where nothing is cached or imported, or none was ever."""
        root = arena.chain()[-1]
        is_plain = arena is root and not arena.most_cached and not arena.children
        if not is_plain and (root.used or arena is not root):
            return None
        for start, end in root.spans:
            edges = sorted((a, it[0]) for a, it in root.leases.items() if start <= a < end)
            starts = [start] + [stop for _, stop in edges]
            ends = [a for a, _ in edges] + [end]
            found = (request.first_in(*it) for it in zip(starts, ends))
            base = next((it for it in found if it is not None), None)
            if base is not None:
                return f"it is refused, and fits at {base}"
        return None

    def on_release(self, answers, client, inc, number, name, base):
        is_new, wrong = self.in_turn(answers, client, inc, number)
        if not is_new:
            return wrong
        head, arena = f"{client} {inc} {number}", self.arenas.get(name)
        if not arena:
            return self.only(answers, f"refused {head} noarena")
        if arena.leases.get(base, (0, 0))[1] != client:
            return self.only(answers, f"refused {head} notyours")
        del arena.leases[base]
        return self.only(answers, f"released {head}")

    def on_cpu(self, answers, number):
        self.made.add(number)
        return self.only(answers, "ok")

    def on_offline(self, answers, number):
        self.offline.add(number)
        return self.only(answers, "ok")

    def on_tick(self, answers):
        self.is_ticked = self.made <= self.offline
        return self.only(answers, "ok")

    def on_resize(self, answers, name, size):
        arena = self.arenas.get(name)
        if not arena:
            return self.only(answers, "error noarena")
        if not arena.most_cached or size <= arena.magazine:
            return self.only(answers, "error size")
        arena.magazine = size
        return self.only(answers, "ok")

    def on_grow(self, answers, name, base, length):
        word = self.wrong_grow(name, base, length)
        if word:
            return self.only(answers, f"error {word}")
        self.arenas[name].spans.append((base, base + length))
        return self.only(answers, "ok")

    def wrong_grow(self, name, base, length):
        """Returns the word by which a grow is refused where memory is ample, or None."""
        arena = self.arenas.get(name)
        if not arena or arena.source:
            return "noarena"
        if self.wrong_range(base, length, arena.quantum, arena.spans):
            return "range"
        return "many" if len(arena.spans) == 65536 else None

    def on_reap(self, answers):
        found = re.fullmatch("reaped ([0-9]+)", "/".join(answers))
        if not found:
            return f"{answers} is no answer to it"
        units = int(found[1])
        least = min((a.slab for a in self.arenas.values() if a.slab), default=0)
        if units and (not least or units % least):
            return f"{units} units are no whole slabs"
        self.idle = None if self.idle is None else self.idle - units
        self.is_empty = self.is_ticked and not any(a.leases for a in self.arenas.values())
        return None

    def on_clients(self, answers):
        wanted = []
        for client, it in self.clients.items():
            count = sum(a[1] == client for x in self.arenas.values() for a in x.leases.values())
            wanted.append(f"client {client} {it['inc']} {it['last']} {count}")
        return None if answers == wanted else f"{answers} is answered, and not {wanted}"

    def on_audit(self, answers):
        sums = {}
        for line, name in zip(answers, self.arenas):
            words = re.fullmatch(f"arena {name} free (.*) slab (.*) magazine (.*) exported (.*)"
                                 " leased (.*) hand 0", line)
            if not words:
                return f"{line} is no line of {name}"
            sums[name] = [int(it) for it in words.groups()]
        wrong = [self.wrong_sums(arena, sums) for arena in self.arenas.values()]
        idle = sum(it[1] + it[2] for it in sums.values())
        if self.idle not in (None, idle):
            wrong.append(f"slabs and magazines have {idle} units, and {self.idle} were left")
        if self.is_empty and idle:
            wrong.append(f"nothing is leased, all was reaped, and {idle} units are in caches")
        self.idle = idle
        return next((it for it in wrong if it), None)

    def wrong_sums(self, arena, sums):
        free, slab, magazine, exported, leased = sums[arena.name]
        total = sum(sums[arena.name])
        wanted = sum(end - start for start, (end, _) in arena.leases.items())
        if leased != wanted:
            return f"{arena.name}: {leased} are leased, and the replies say {wanted}"
        if not arena.source and total != sum(b - a for a, b in arena.spans):
            return f"{arena.name}: the homes have {total}, and not what the spans have"
        if exported != sum(sum(sums[it.name]) for it in arena.children):
            return f"{arena.name}: {exported} are exported, and not what the children have"
        if (slab or magazine) and not arena.most_cached:
            return f"{arena.name} has no caches, and they have {slab} and {magazine}"
        if any(it % arena.quantum for it in sums[arena.name]):
            return f"{arena.name}: a sum is no whole quanta"
        if arena.source and (free == total and total or total % arena.source.quantum):
            return f"{arena.name}: what it imported isn't whole, or idle and kept"
        return None


def check(script, output):
    """Returns what is wrong with a run over the text of a script, by all that it wrote."""
    *lines, rest = script.split("\n")
    output, model, is_setup, at = output.split("\n")[:-1], Model(), True, 0
    for number, line in enumerate(lines, 1):
        is_setup = is_setup and line.split(" ")[0] in SETUP
        if is_setup:
            if model.setup(line):
                return f"line {number} is refused, and yet there is output" if output else None
            continue
        count = model.count(line)
        wrong = model.answer(line, output[at:at + count])
        if wrong:
            return f"line {number}, {line[:80]}: {wrong}"
        at += count
    wanted = [f"error {'toolong' if len(rest) > 255 else 'badline'}"] if rest else []
    return None if output[at:] == wanted else f"{output[at:]} comes last, and not {wanted}"


def main():
    texts = [open(it, encoding="latin-1", newline="\n").read() for it in sys.argv[1:3]]
    wrong = check(*texts)
    print(wrong or "each answer may be")
    return 1 if wrong else 0


if __name__ == "__main__":
    sys.exit(main())
