"""Tests of --connections over a running server: VMEMD=bin/vmemd python3 -m unittest
test_connections"""
import time
import unittest

import vmemd
from served import Served, needs_connections


@needs_connections
class Full(Served):
    """A server that has room for three connections."""

    connections = 3

    def is_turned_away(self, link):
        with link.makefile("rb") as answers:
            self.assertEqual(answers.read(), b"error busy\n")
        link.close()

    def test_one_too_many_is_told_so(self):
        held = [self.opened(number) for number in (1, 2, 3)]
        for _ in range(50):
            self.is_turned_away(self.connected())
        for number, it in enumerate(held, 1):
            it.sendall(b"hello %d 1\n" % number)
            self.assertEqual(it.recv(100), b"welcome %d 1\n" % number)

    def test_also_where_it_wrote_first(self):
        for number in (1, 2, 3):
            self.opened(number)
        for count in range(50):
            link = self.connected()
            link.sendall(b"hello 4 1\n" * (1 + count))
            self.is_turned_away(link)
        # (a hello that was taken would have made it known)
        self.assertEqual(self.last_of(4), 0)

    def test_of_many_at_once_just_three_are_served(self):
        links = [self.connected() for _ in range(40)]
        for number, it in enumerate(links, 1):
            it.sendall(b"hello %d 1\n" % number)
        told = [it.recv(100).split()[0] for it in links]
        self.assertEqual((told.count(b"welcome"), told.count(b"error")), (3, 37))

    def last_of(self, number):
        """The incarnation of a client, asked by one of those that are served."""
        link = self.links[0]
        link.sendall(b"release %d 1 1 m 0\n" % number)
        word, client, last = link.recv(100).split()
        self.assertEqual((word, int(client)), (b"old", number))
        return int(last)

    def test_each_that_leaves_makes_room(self):
        held = [self.opened(number) for number in (1, 2, 3)]
        for number in range(4, 24):
            held.pop(0).close()
            with self.client(number, patience=20) as client:
                client.lease("m", 4096)
            held.append(self.opened_in_time(number + 20))

    def opened_in_time(self, number):
        """A connection that is served once another has left."""
        ends = time.monotonic() + 20
        while True:
            link = self.connected()
            link.sendall(b"hello %d 1\n" % number)
            if link.recv(100) == b"welcome %d 1\n" % number:
                return link
            link.close()
            self.assertLess(time.monotonic(), ends)
            time.sleep(0.01)

    def test_a_client_waits_for_room(self):
        held = [self.opened(number) for number in (1, 2, 3)]
        client = self.client(4, patience=0.5)
        with self.assertRaises(vmemd.Busy):
            client.lease("m", 1)
        held[1].close()
        with client:
            self.assertEqual(client.lease("m", 1), ("m", 0, 1))


@needs_connections
class AtRest(Served):
    """Chunks that nobody uses go back, while all connections stay."""

    connections = 16
    config_lines = "root d 0 192 1 instant 5\n"

    def lease_and_release(self, number):
        """Nine chunks of three slabs lie in the magazines of a CPU and in the depot then."""
        client = self.client(number)
        chunks = [client.lease("d", 5) for _ in range(9)]
        for it in chunks:
            it.release()
        return client

    def test_units_come_back(self):
        clients = [self.lease_and_release(number) for number in range(1, 5)]
        self.assertEqual(self.leases_in_time(5, "d", 192, 10), ("d", 0, 192))
        for it in clients:
            self.assertEqual(it.lease("d", 5).length, 5)
            it.release_all()
            it.disconnect()

    def test_also_beside_one_that_goes_on(self):
        first = self.lease_and_release(1)
        ends = time.monotonic() + 10
        with self.client(2) as second:
            while time.monotonic() < ends:
                try:
                    second.lease("d", 176)
                    break
                except vmemd.NoFit:
                    second.lease("d", 5).release()
            self.assertEqual([it.length for it in second.held()], [176])
        first.disconnect()


@needs_connections
class FewDescriptors(Served):
    """A server that may have 40 descriptors, and more connections: it tells that once."""

    connections = 100
    faults = ("vmemd: descriptors",)

    def start(self, words):
        return super().start(["sh", "-c", 'ulimit -n 40 && exec "$@"', "sh", *words])

    def answered(self, links):
        found = []
        for it in links:
            it.settimeout(0.2)
            try:
                found += [it] if it.recv(100).startswith(b"welcome") else []
            except OSError:
                pass
        return found

    def test_it_serves_those_that_it_has(self):
        links = [self.connected() for _ in range(60)]
        for number, it in enumerate(links, 1):
            it.sendall(b"hello %d 1\n" % number)
        served = self.answered(links)
        self.assertTrue(20 <= len(served) < 40, len(served))
        for number, it in enumerate(served, 1):
            it.sendall(b"hello %d 1\n" % number)
            self.assertRegex(it.recv(100), b"^(welcome|old) ")
        for it in served:
            it.close()
        time.sleep(0.5)
        self.assertGreater(len(self.answered([it for it in links if it not in served])), 15)


if __name__ == "__main__":
    unittest.main()
