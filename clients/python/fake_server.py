"""A server for the client's tests: the lines of vmemd in plain Python, one at a time, over TCP; it
cuts connections where it is told to."""
import re
import socket
import threading

import vmemd

MOST_LEASES = 1024
MOST = 1 << 62


class Book:
    """What is leased, to whom; arenas are numbers of units, and the lowest free ones are taken."""

    def __init__(self, arenas):
        self.arenas, self.clients, self.settled, self.again = arenas, {}, 0, 0

    def answer(self, line):
        words = line.split(" ")
        if self.again:
            self.again -= 1
            return f"again {words[1]} {words[2]} {words[3] if words[0] != 'hello' else 0}"
        if words[0] == "hello":
            return self.hello(*map(int, words[1:]))
        client, inc, number = map(int, words[1:4])
        it = self.clients.get(client, {"inc": 0})
        if inc != it["inc"]:
            return f"old {client} {it['inc']}"
        window = 8 if it["protocol"] == 2 else 1
        if number <= it["last"] - window:
            return f"stale {client} {inc} {number} {it['last']}"
        if number not in it["kept"]:
            low = next(n for n in range(it["low"], MOST) if n + 1 not in it["kept"])
            if number > low + window:
                return f"gap {client} {inc} {number} {low}"
            it["low"], it["last"], self.settled = low, max(it["last"], number), self.settled + 1
            word, rest = getattr(self, words[0])(it, words[4:])
            it["kept"][number] = f"{word} {client} {inc} {number}{rest}"
        return it["kept"][number]

    def hello(self, client, inc, protocol=1):
        it = self.clients.get(client, {"inc": 0})
        if inc < it["inc"]:
            return f"old {client} {it['inc']}"
        if inc > it["inc"]:
            it = {"inc": inc, "protocol": protocol, "low": 0, "last": 0, "kept": {}, "leases": {}}
            self.clients[client] = it
        return f"welcome {client} {inc}" + (" 2" if it["protocol"] == 2 else "")

    def lease(self, it, words):
        name, size = words[0], int(words[1])
        if name not in self.arenas:
            return "refused", " noarena"
        if size == 0:
            return "refused", " badrequest"
        taken = sorted((base, base + length) for other in self.clients.values()
                       for (arena, base), length in other["leases"].items() if arena == name)
        base = 0
        for start, end in taken:
            if base + size <= start:
                break
            base = end
        if base + size > self.arenas[name]:
            return "refused", " nofit"
        if len(it["leases"]) == MOST_LEASES:
            return "refused", " leases"
        it["leases"][name, base] = size
        return "granted", f" {name} {base} {size}"

    def release(self, it, words):
        if words[0] not in self.arenas:
            return "refused", " noarena"
        if it["leases"].pop((words[0], int(words[1])), None) is None:
            return "refused", " notyours"
        return "released", ""


class FakeServer:
    """Serves each connection in a thread of its own.

    Each cut is (direction, bytes): once so many bytes went in that direction ("in" or "out") since
    the cut before, the connection ends there. `lines` are those that were answered. The next `busy`
    connections are told so, and not served. Answers to requests are held back until `hold` of them
    are there. `ended` counts the connections that were served and are over."""

    def __init__(self, arenas, cuts=()):
        self.book, self.cuts, self.lines, self.gone = Book(arenas), list(cuts), [], 0
        self.connections, self.busy, self.replies, self.lock = 0, 0, None, threading.Lock()
        self.hold, self.ended = 1, 0
        self.listener = socket.create_server(("127.0.0.1", 0))
        self.port = self.listener.getsockname()[1]
        threading.Thread(target=self.run, daemon=True).start()

    def __enter__(self):
        return self

    def __exit__(self, *fault):
        self.listener.shutdown(socket.SHUT_RDWR)
        self.listener.close()

    def run(self):
        while True:
            try:
                link, _ = self.listener.accept()
            except OSError:
                return
            self.connections += 1
            link.setsockopt(socket.IPPROTO_TCP, socket.TCP_NODELAY, 1)
            is_busy, self.busy = self.busy > 0, max(self.busy - 1, 0)
            target = self.turn_away if is_busy else self.serve_to_its_end
            threading.Thread(target=target, args=(link,), daemon=True).start()

    def turn_away(self, link):
        """Tells a connection that it is one too many; it is over once its client ends it."""
        with link:
            try:
                link.sendall(b"error busy\n")
                link.shutdown(socket.SHUT_WR)
                while link.recv(4096):
                    pass
            except OSError:
                pass

    def serve_to_its_end(self, link):
        self.serve(link)
        with self.lock:
            self.ended += 1

    def serve(self, link):
        rest, held = b"", []
        with link:
            while True:
                try:
                    piece = link.recv(1)
                except OSError:
                    return
                if not piece or self.is_cut("in"):
                    return
                rest += piece
                if piece == b"\n":
                    line, rest = rest[:-1].decode("ascii"), b""
                    with self.lock:
                        held.append(self.answered(line))
                    if line.startswith("hello ") or len(held) >= self.hold:
                        if not all(self.write(link, it) for it in held):
                            return
                        held.clear()

    def answered(self, line):
        assert re.fullmatch("[a-z0-9]+( [a-z0-9]+)*", line) and len(line) <= 255, line
        self.lines.append(line)
        return self.replies.pop(0) if self.replies else self.book.answer(line)

    def write(self, link, text):
        for byte in f"{text}\n".encode("ascii"):
            if self.is_cut("out"):
                return False
            try:
                link.sendall(bytes([byte]))
            except OSError:
                return False
        return True

    def is_cut(self, direction):
        """Counts a byte that goes in this direction; whether the connection is cut before it."""
        if not self.cuts or self.cuts[0][0] != direction:
            return False
        self.gone += 1
        if self.gone <= self.cuts[0][1]:
            return False
        self.cuts.pop(0)
        self.gone = 0
        return True


def client_of(server, **options):
    """A client of a FakeServer."""
    given = {"number": 7, "incarnation": 1, "timeout": 5.0, "patience": 5.0, **options}
    return vmemd.Client("127.0.0.1", server.port, **given)
