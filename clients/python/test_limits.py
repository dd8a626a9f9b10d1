"""Tests of slow peers and of stops, over a running server: VMEMD=bin/vmemd python3 -m unittest
test_limits"""
import threading
import time
import unittest
from concurrent import futures

from served import Served, fill, needs_connections, needs_descriptors, small_buffers


class Slow(Served):
    """Each peer that is slow is cut off in its time, 1 second of a line and 3 of silence."""

    options = ("--line-limit", "1", "--idle-limit", "3")
    workers = 8

    def ends_between(self, link, least, most, each=lambda: None):
        """The connection is ended in time, while `each` is done five times a second."""
        begun = time.monotonic()
        link.settimeout(0.2)
        while True:
            try:
                each()
                if not link.recv(4096):
                    break
            except TimeoutError:
                self.assertLess(time.monotonic() - begun, 20)
            except OSError:
                break
        self.assertTrue(least <= time.monotonic() - begun <= most, time.monotonic() - begun)

    def no_byte(self):
        self.ends_between(self.connected(), 0.9, 2.5)

    def first_line_by_drips(self):
        link = self.connected()
        self.ends_between(link, 0.9, 2.5, lambda: link.sendall(b"h"))

    def later_line_by_drips(self):
        link = self.opened(1)
        time.sleep(1.5)
        self.ends_between(link, 0.9, 2.5, lambda: link.sendall(b"h"))

    def half_a_line(self):
        link = self.opened(2)
        link.sendall(b"hello 2 1\nhello")
        self.assertEqual(link.recv(100), b"welcome 2 1\n")
        self.ends_between(link, 0.9, 2.5)

    def silence_between_lines(self):
        self.ends_between(self.opened(3), 2.9, 4.5)

    def answers_that_are_not_taken(self):
        link = self.opened(4)
        small_buffers(link)
        begun = time.monotonic()
        with self.assertRaises(ConnectionError):
            while time.monotonic() - begun < 20:
                link.sendall(b"hello 4 1\n" * 1000)
        self.assertTrue(0.9 <= time.monotonic() - begun <= 4, time.monotonic() - begun)

    def test_each_in_its_time(self):
        peers = (self.no_byte, self.first_line_by_drips, self.later_line_by_drips, self.half_a_line,
                 self.silence_between_lines, self.answers_that_are_not_taken)
        with futures.ThreadPoolExecutor(len(peers)) as pool:
            for it in [pool.submit(it) for it in peers]:
                it.result()

    def test_many_of_them_leave_the_others(self):
        for _ in range(3 * self.workers):
            self.connected()
        with self.client(1, patience=20) as client:
            client.lease("m", 4096)


@needs_connections
class SlowOfMany(Slow):
    connections = 16


class Flood:
    """Sends lines for ever, and takes their answers, until its connection ends."""

    def __init__(self, link):
        self.link, self.thread = link, threading.Thread(target=self.run)
        self.thread.start()

    def run(self):
        try:
            while True:
                self.link.sendall(b"hello 1 1\n" * 100)
                if not self.link.recv(65536):
                    return
        except OSError:
            pass


class Graceful(Served):
    """A stop with a grace of 1 second, while other clients are connected."""

    options = ("--grace", "1")
    workers = 8

    def test_idle_ones_end_at_once(self):
        links = [self.opened(number) for number in range(1, 9)]
        self.stops_between(0, 0.9)
        for it in links:
            self.assertEqual(it.recv(100), b"")

    def test_lines_in_flight_are_answered(self):
        link, half = self.opened(1), self.opened(2)
        link.sendall(b"lease 1 1 1 m 8\n" + b"hello 1 1\n" * 99)
        half.sendall(b"lease 2 1 1 m 8\nhello 2")
        # (so that they have come before the end of its input does)
        time.sleep(0.2)
        self.stops_between(0, 0.9)
        with link.makefile("rb") as answers:
            first, *others = answers.readlines()
            self.assertRegex(first, b"granted 1 1 1 m [08] 8\n")
            self.assertEqual(others, [b"welcome 1 1\n"] * 99)
        with half.makefile("rb") as answers:
            self.assertRegex(answers.read(), b"^granted 2 1 1 m [08] 8\n")

    def test_answers_that_are_not_taken(self):
        fill(self.opened(1))
        self.stops_between(0, 3)

    def test_lines_that_go_on_coming(self):
        flood = Flood(self.opened(1))
        time.sleep(0.3)
        self.stops_between(0, 3)
        flood.thread.join()

    def test_all_of_these_at_once(self):
        for number in range(2, 6):
            self.opened(number)
        self.connected().sendall(b"hello")
        fill(self.opened(6))
        flood = Flood(self.opened(1))
        self.stops_between(0, 3)
        flood.thread.join()


@needs_connections
class GracefulOfMany(Graceful):
    connections = 16


class Ungraceful(Served):
    """A stop without a grace: clients end their connections, or their limits do."""

    options = ("--line-limit", "1", "--idle-limit", "2")
    workers = 8

    def test_clients_are_served_until_they_end(self):
        first, second = self.opened(1), self.opened(2)
        flood = Flood(self.opened(1))
        self.server.stdin.close()
        for _ in range(4):
            time.sleep(0.2)
            for number, it in enumerate((first, second), 1):
                it.sendall(b"hello %d 1\n" % number)
                self.assertEqual(it.recv(100), b"welcome %d 1\n" % number)
        self.assertIsNone(self.server.poll())
        for it in (first, second):
            it.close()
        flood.link.shutdown(2)
        flood.thread.join()
        self.stops_between(0, 0.9)

    def test_no_further_connection_is_served(self):
        self.opened(1)
        self.server.stdin.close()
        time.sleep(0.2)
        try:
            link = self.connected()
            link.sendall(b"hello 2 1\n")
            told = link.recv(100)
        except OSError:
            told = b""
        self.assertEqual(told, b"")

    def test_limits_end_the_others(self):
        self.opened(1)
        self.opened(2).sendall(b"hello")
        fill(self.opened(3), 0.5)
        self.stops_between(0, 5)


@needs_connections
class UngracefulOfMany(Ungraceful):
    connections = 16


@needs_connections
@needs_descriptors(1200)
class Thousand(Served):
    """A thousand connections that are silent after a line."""

    connections = 1100
    options = ("--grace", "2")
    workers = 16

    def setUp(self):
        super().setUp()
        before = self.memory()
        self.silent = [self.opened(number) for number in range(1, 1001)]
        self.each = (self.memory() - before) / len(self.silent)

    def test_they_cost_little_memory(self):
        """In KiB; 4,000 may take 200 MB."""
        self.assertLess(self.each, 50)

    def test_another_is_answered_soon(self):
        """Half of its answers come in 10 ms, so that a machine with other work keeps it."""
        link, times = self.opened(1001), []
        for _ in range(400):
            begun = time.monotonic()
            link.sendall(b"hello 1001 1\n")
            self.assertEqual(link.recv(100), b"welcome 1001 1\n")
            times.append(time.monotonic() - begun)
        self.assertLess(sorted(times)[200], 0.01)

    def test_a_stop_ends_them_at_once(self):
        flood = Flood(self.opened(1001))
        fill(self.opened(1002), 0.5)
        self.stops_between(0, 5)
        flood.thread.join()
        for it in self.silent:
            self.assertEqual(it.recv(100), b"")

    def test_all_may_be_busy(self):
        for turn in range(3):
            for number, it in enumerate(self.silent, 1):
                it.sendall(b"hello %d 1\n" % number)
            for number, it in enumerate(self.silent, 1):
                self.assertEqual(it.recv(100), b"welcome %d 1\n" % number)


if __name__ == "__main__":
    unittest.main()
