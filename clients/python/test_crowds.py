"""Tests of many clients at once over a running server: VMEMD=bin/vmemd python3 -m unittest
test_crowds"""
import multiprocessing
import random
import selectors
import socket
import threading
import time
import unittest

import vmemd
from served import SECONDS, Served, needs_connections, needs_descriptors, reset


class Cutter:
    """Passes connections on to the server, and cuts each after some bytes."""

    def __init__(self, port, rng):
        self.port, self.rng = port, rng
        self.listener = socket.create_server(("127.0.0.1", 0))
        self.address = self.listener.getsockname()
        threading.Thread(target=self.run, daemon=True).start()

    def run(self):
        while True:
            try:
                link, _ = self.listener.accept()
                other = socket.create_connection(("127.0.0.1", self.port))
            except OSError:
                return
            for it in (link, other):
                it.setsockopt(socket.IPPROTO_TCP, socket.TCP_NODELAY, 1)
            for pair in ((link, other), (other, link)):
                count = self.rng.randint(0, 4000)
                threading.Thread(target=self.pass_on, args=(*pair, count), daemon=True).start()

    def pass_on(self, start, end, count):
        try:
            while count > 0:
                piece = start.recv(min(count, 4096))
                if not piece:
                    break
                end.sendall(piece)
                count -= len(piece)
        except OSError:
            pass
        for it in (start, end):
            try:
                it.shutdown(socket.SHUT_RDWR)
            except OSError:
                pass
            it.close()


def lease_and_release(number, port, owners, seconds, told):
    """One process: leases and releases through a Cutter; `owners` says whose each unit is. Every
    other one has up to eight requests on their way."""
    rng, window = random.Random(number), 1 if number % 2 else 8
    cutter = Cutter(port, rng)
    client = vmemd.Client("127.0.0.1", cutter.address[1], number, timeout=20.0, window=window)
    ends, requests, wrong = time.monotonic() + seconds, 0, []
    while time.monotonic() < ends:
        held = client.held()
        if held and rng.random() < 0.5:
            leases = rng.sample(held, min(len(held), rng.randint(1, window)))
            for it in leases:
                owners[it.base:it.end] = bytes(it.length)
            client.release_many(leases)
        else:
            sizes = [rng.randint(1, 64) for _ in range(rng.randint(1, window))]
            try:
                leases = client.lease_many("m", sizes, align=rng.choice((0, 0, 8)))
            except vmemd.NoFit:
                continue
            for it in leases:
                wrong += [tuple(it)] if any(owners[it.base:it.end]) else []
                owners[it.base:it.end] = bytes([number]) * it.length
        requests += len(leases)
    told.put((requests, wrong, [tuple(it) for it in client.held()]))
    client.disconnect()


class Crowd(Served):
    workers = 8

    def test_no_unit_is_in_two_hands(self):
        owners, told = multiprocessing.Array("B", 4096, lock=False), multiprocessing.Queue()
        words = [(it, self.port, owners, SECONDS, told) for it in range(1, 9)]
        processes = [multiprocessing.Process(target=lease_and_release, args=it) for it in words]
        for it in processes:
            it.start()
        ends = [told.get(timeout=SECONDS + 120) for _ in processes]
        for it in processes:
            it.join()
        self.assertEqual([it for _, wrong, _ in ends for it in wrong], [])
        self.assertGreater(min(requests for requests, _, _ in ends), 10)
        self.audit([lease for _, _, leases in ends for lease in leases])
        self.run_again()

    def audit(self, held):
        """What the processes held at their end and leases of all that is left are the arena."""
        rest = [self.client(number) for number in range(9, 14)]
        self.are_whole(held + [tuple(it) for client in rest for it in self.take_all(client)])
        for client in rest:
            client.release_all()
            client.disconnect()

    def run_again(self):
        """A second run of the eight: each begins a greater incarnation, which ends the leases that
        its first run left. Once all have, each leases the whole arena in one piece, in turn."""
        second = [self.client(number) for number in range(1, 9)]
        for client in second:
            client.restart()
            client.disconnect()
        for client in second:
            with client.lease("m", 4096) as whole:
                self.assertEqual(whole, ("m", 0, 4096))
            client.disconnect()

    def take_all(self, client):
        """Leases of all free units, in pieces of 64 and less, as many as a client may have."""
        try:
            for size in (64, 32, 16, 8, 4, 2, 1):
                while self.fits(client, size):
                    pass
        except vmemd.TooManyLeases:
            pass
        return client.held()

    def fits(self, client, size):
        try:
            return client.lease("m", size)
        except vmemd.NoFit:
            return None

    def are_whole(self, leases):
        """Each unit of the arena lies in one lease, and in no other."""
        ranges = sorted((base, base + length) for _, base, length in leases)
        self.assertEqual(ranges[0][0], 0)
        self.assertEqual([end for _, end in ranges], [start for start, _ in ranges[1:]] + [4096])


@needs_connections
class CrowdOfMany(Crowd):
    """There is room for as many connections as clients, so that one that was cut may be told that
    the server is busy until it has noticed that."""

    workers = 4
    connections = 8


class Speaker:
    """A client that says its next line once the one before was answered, and at random is cut off
    then and says it once more."""

    def __init__(self, crowd, number):
        self.crowd, self.number, self.link = crowd, number, None
        self.request, self.held, self.rest = 0, [], b""
        self.granted, self.line = 0, f"hello {number} 1"

    def send(self):
        while True:
            if self.link is None:
                self.link, self.rest = socket.create_connection(self.crowd.address, 20), b""
                self.link.setsockopt(socket.IPPROTO_TCP, socket.TCP_NODELAY, 1)
                self.crowd.poll.register(self.link, selectors.EVENT_READ, self)
            self.link.sendall(f"{self.line}\n".encode())
            if self.crowd.rng.random() >= self.crowd.cut:
                return
            self.crowd.cuts += 1
            self.close(self.crowd.rng.random() < 0.5)

    def close(self, is_reset=False):
        self.crowd.poll.unregister(self.link)
        if is_reset:
            reset(self.link)
        self.link.close()
        self.link = None

    def take(self):
        """Takes what came, and the answer once it is whole."""
        piece = self.link.recv(4096)
        self.rest += piece
        if not piece or self.rest == b"error busy\n":
            self.crowd.ended += 1
            self.close()
            self.send()
        elif self.rest.endswith(b"\n"):
            answer, self.rest = self.rest.decode().rstrip("\n"), b""
            self.crowd.answered(self, answer)

    def next_line(self):
        """Releases one of its leases, or leases; what it releases isn't its own from here on."""
        rng, self.request = self.crowd.rng, self.request + 1
        head = f"{self.number} 1 {self.request}"
        if rng.random() < len(self.held) / 4:
            arena, base, length = self.held.pop(rng.randrange(len(self.held)))
            self.crowd.owners[base:base + length] = bytes(length)
            return f"release {head} {arena} {base}"
        arena, most = rng.choice((("m", 32), ("d", 8)))
        return f"lease {head} {arena} {rng.randint(1, most)}"


class Conversations:
    """Speakers over one server, whose units are told by whose they are."""

    def __init__(self, port, count, cut):
        self.address, self.cut, self.rng = ("127.0.0.1", port), cut, random.Random(count)
        self.poll, self.owners = selectors.DefaultSelector(), bytearray(UNITS)
        self.granted, self.cuts, self.ended, self.wrong = 0, 0, 0, []
        self.speakers = [Speaker(self, number) for number in range(1, count + 1)]

    def run(self, grants):
        """Goes on until so many leases were granted."""
        for it in self.speakers:
            it.send()
        while self.granted < grants and not self.wrong:
            ready = self.poll.select(20)
            if not ready:
                self.wrong.append("no answer came")
            for key, _ in ready:
                key.data.take()

    def answered(self, speaker, answer):
        words, asked = answer.split(" "), speaker.line.split(" ")
        may_be = {"hello": ("welcome",), "lease": ("granted", "refused"), "release": ("released",)}
        is_right = words[0] in may_be[asked[0]] and words[1:4] == asked[1:4]
        if words[0] == "granted":
            base, length = int(words[5]), int(words[6])
            is_right = is_right and not any(self.owners[base:base + length])
            self.owners[base:base + length] = bytes([speaker.number]) * length
            speaker.held.append((words[4], base, length))
            speaker.granted += 1
            self.granted += 1
        if not is_right:
            self.wrong.append((speaker.line, answer))
        speaker.line = speaker.next_line()
        speaker.send()

    def end(self):
        """Each ends its connection, and its leases by another incarnation."""
        for it in self.speakers:
            it.close()
        for it in self.speakers:
            client = vmemd.Client(*self.address, it.number, incarnation=2, keep=False)
            client.restart()


UNITS = 8192


class Speakers(Served):
    """As many connections as are served at a time, with leases from caches, imports and arenas."""

    workers, speakers = 64, 64
    config_lines = f"root m 0 {UNITS} 1 best 0\nchild d m 1 instant 8 64\n"

    def talk(self, cut):
        them = Conversations(self.port, self.speakers, cut)
        them.run(8000)
        self.assertEqual(them.wrong, [])
        self.assertGreater(min(it.granted for it in them.speakers), 0)
        them.end()
        self.assertEqual(self.leases_in_time(201, "m", UNITS, 10), ("m", 0, UNITS))
        return them

    def test_no_unit_is_in_two_hands(self):
        them = self.talk(0)
        self.assertEqual((them.cuts, them.ended), (0, 0))

    def test_nor_where_connections_are_cut(self):
        self.assertGreater(self.talk(0.05).cuts, 100)


@needs_connections
@needs_descriptors(500)
class SpeakersOfMany(Speakers):
    workers, connections, speakers = 8, 230, 200


if __name__ == "__main__":
    unittest.main()
