"""Tests of a client's incarnations, over a server that is part of them: python3 -m unittest
test_incarnations"""
import os
import tempfile
import unittest

import vmemd
from fake_server import FakeServer, client_of


class Incarnations(unittest.TestCase):
    def test_the_file_keeps_the_last_one(self):
        with tempfile.TemporaryDirectory() as folder, FakeServer({"m": 64}) as server:
            file = os.path.join(folder, "incarnation")
            for number in (1, 2, 3):
                client = client_of(server, incarnations=file)
                self.assertEqual(client.lease("m", 64), ("m", 0, 64))
                self.assertEqual(client.incarnation, number)
                self.assertEqual(vmemd.read_incarnation(file), number)
                client.disconnect()

    def test_a_new_file_begins_by_the_clock(self):
        with tempfile.TemporaryDirectory() as folder, FakeServer({"m": 64}) as server:
            file = os.path.join(folder, "incarnation")
            other = client_of(server)
            other.lease("m", 64)
            other.disconnect()
            for _ in range(2):
                client = client_of(server, incarnation=None, incarnations=file)
                last = vmemd.read_incarnation(file)
                self.assertEqual(client.lease("m", 64), ("m", 0, 64))
                self.assertGreater(client.incarnation, max(last, 10**18))
                client.disconnect()

    def test_the_file_is_followed_where_the_clock_was_set_back(self):
        with tempfile.TemporaryDirectory() as folder, FakeServer({"m": 64}) as server:
            file = os.path.join(folder, "incarnation")
            vmemd.write_incarnation(file, 4 * 10**18)
            with client_of(server, incarnation=None, incarnations=file) as client:
                client.lease("m", 64)
                self.assertEqual(client.incarnation, 4 * 10**18 + 1)

    def test_without_a_file_the_clock_goes_on(self):
        with FakeServer({"m": 64}) as server:
            for _ in range(3):
                client = client_of(server, incarnation=None)
                self.assertEqual(client.lease("m", 64), ("m", 0, 64))
                client.disconnect()

    def test_one_that_is_too_low_is_raised(self):
        with FakeServer({"m": 64}) as server:
            with client_of(server, incarnation=10**18) as client:
                client.lease("m", 1)
            with client_of(server, incarnation=5) as client:
                client.lease("m", 1)
                self.assertEqual(client.incarnation, 10**18 + 1)

    def test_one_that_was_superseded_holds_nothing(self):
        with FakeServer({"m": 64}) as server, client_of(server) as first:
            lease = first.lease("m", 64)
            with client_of(server, incarnation=2) as second:
                taken = second.lease("m", 64)
                with self.assertRaises(vmemd.Superseded) as raised:
                    first.lease("m", 1)
                self.assertEqual((raised.exception.current, first.held()), (2, []))
                self.assertFalse(first.holds(lease))
                self.assertEqual(second.held(), [taken])
            first.restart()
            self.assertEqual(first.lease("m", 64), lease)
            self.assertEqual(first.incarnation, 3)

    def test_a_new_server_knows_nobody(self):
        with FakeServer({"m": 64}) as server, client_of(server) as client:
            client.lease("m", 64)
            server.book.clients.clear()
            with self.assertRaises(vmemd.Superseded) as raised:
                client.lease("m", 1)
            self.assertEqual(raised.exception.current, 0)
            client.restart()
            self.assertEqual(client.lease("m", 64), ("m", 0, 64))

    def test_a_with_ends_also_where_the_lease_did(self):
        with FakeServer({"m": 64}) as server, client_of(server) as client:
            with self.assertRaises(vmemd.Superseded):
                with client.lease("m", 1):
                    server.book.clients.clear()
                    client.lease("m", 1)


class Twins(unittest.TestCase):
    """Two clients with one number, as two processes that share it: the later hello ends the leases
    of the earlier one, which is told so until it begins anew itself."""

    def requests(self, client, lease):
        """Each call that asks a server for something, by its name."""
        return {"lease": lambda: client.lease("m", 1),
                "lease_many": lambda: client.lease_many("m", [1, 1]),
                "release": lambda: client.release(lease),
                "release of the lease": lease.release,
                "release_many": lambda: client.release_many([lease]),
                "release_many of none": lambda: client.release_many([]),
                "release_all": client.release_all,
                "pool": lambda: client.pool("m")}

    def superseded(self, server, window=1):
        """A client whose number another uses, with the lease that it had, and that other one."""
        first = client_of(server, window=window)
        lease = first.lease("m", 4)
        second = client_of(server, window=window, incarnation=2)
        self.assertEqual(second.lease("m", 4), lease)
        return first, lease, second

    def test_nothing_begins_anew_by_itself(self):
        for window in (1, 8):
            with FakeServer({"m": 64}) as server:
                first, lease, second = self.superseded(server, window)
                pool, sent = first.pool("m"), len(server.lines)
                with self.assertRaises(vmemd.Superseded):
                    pool.lease(1)
                for _ in range(2):
                    for name, call in self.requests(first, lease).items():
                        with self.assertRaises(vmemd.Superseded, msg=name) as raised:
                            call()
                        self.assertEqual(raised.exception.current, 2)
                        self.assertEqual((first.held(), first.holds(lease)), ([], False))
                # (the first of these requests was sent, and nothing after its answer)
                self.assertEqual(len(server.lines), sent + 1)
                self.assertEqual(second.lease("m", 4), ("m", 4, 4))
                second.release_all()
                for it in (first, second):
                    it.disconnect()

    def test_restart_begins_anew(self):
        with FakeServer({"m": 64}) as server:
            first, _, second = self.superseded(server)
            for _ in range(2):
                with self.assertRaises(vmemd.Superseded):
                    first.lease("m", 1)
                first.restart()
                self.assertEqual(first.lease("m", 64), ("m", 0, 64))
                with self.assertRaises(vmemd.Superseded):
                    second.lease("m", 1)
                second.restart()
            self.assertEqual((first.incarnation, second.incarnation), (5, 6))
            for it in (first, second):
                it.disconnect()

    def test_it_says_what_happened_and_what_to_do(self):
        with FakeServer({"m": 64}) as server:
            first, _, second = self.superseded(server)
            with self.assertRaisesRegex(vmemd.Superseded, "another process .* client number 7.*"
                                                          r"restart\(\)"):
                first.lease("m", 1)
            server.book.clients.clear()
            with self.assertRaisesRegex(vmemd.Superseded, r"restarted.*restart\(\)"):
                second.lease("m", 1)
            for it in (first, second):
                it.disconnect()

    def test_two_that_read_their_file_at_once_are_two_incarnations(self):
        with tempfile.TemporaryDirectory() as folder, FakeServer({"m": 64}) as server:
            file, clients = os.path.join(folder, "incarnation"), []
            for _ in range(2):
                vmemd.write_incarnation(file, 5)
                client = client_of(server, incarnation=None, incarnations=file)
                self.assertEqual(client.lease("m", 8), ("m", 0, 8))
                clients.append(client)
            with self.assertRaises(vmemd.Superseded):
                clients[0].lease("m", 8)
            for it in clients:
                it.disconnect()

    def test_one_that_was_told_ends_its_with_quietly(self):
        with FakeServer({"m": 64}) as server:
            first, _, second = self.superseded(server)
            with first:
                with self.assertRaises(vmemd.Superseded):
                    first.lease("m", 1)
                sent = len(server.lines)
            self.assertEqual(len(server.lines), sent)
            with self.assertRaises(KeyError):
                with first:
                    raise KeyError
            second.disconnect()

    def test_one_that_was_not_told_is_so_at_the_end_of_its_with(self):
        with FakeServer({"m": 64}) as server:
            first, _, second = self.superseded(server)
            with self.assertRaises(vmemd.Superseded):
                with first:
                    pass
            third = client_of(server, incarnation=3)
            third.restart()
            with self.assertRaises(KeyError):
                with second:
                    raise KeyError
            third.disconnect()

    def test_a_restart_that_nobody_answers_is_taken_up_by_the_next_request(self):
        with FakeServer({"m": 64}) as server:
            first, _, second = self.superseded(server)
            with self.assertRaises(vmemd.Superseded):
                first.lease("m", 1)
            first.patience, server.cuts = 0.05, [("in", 0)] * 1000
            with self.assertRaises(vmemd.Unreachable):
                first.restart()
            first.patience = 5.0
            server.cuts.clear()
            self.assertEqual(first.lease("m", 64), ("m", 0, 64))
            for it in (first, second):
                it.disconnect()


class Files(unittest.TestCase):
    """Files of the last incarnation that can't be used."""

    def setUp(self):
        folder = tempfile.TemporaryDirectory()
        self.addCleanup(folder.cleanup)
        self.folder, self.file = folder.name, os.path.join(folder.name, "incarnation")

    def is_refused(self, server, file):
        """A client with this file says so, and sends nothing."""
        client, sent = client_of(server, incarnations=file), len(server.lines)
        for call in (lambda: client.lease("m", 1), client.restart):
            with self.assertRaises(vmemd.IncarnationsFileError, msg=file) as raised:
                call()
            self.assertIsInstance(raised.exception, vmemd.VmemdError)
            self.assertEqual(raised.exception.file, file)
            self.assertIn(file, str(raised.exception))
        self.assertEqual(len(server.lines), sent)
        return raised.exception

    def test_what_is_no_incarnation(self):
        with FakeServer({"m": 64}) as server:
            for content in (b"", b"\n", b"garbage", b"-1\n", b"1.5", b"1 2", b"1_0", b"0x10",
                            b"\xff", b"\xd9\xa1", b"%d\n" % (vmemd.MOST + 1), b"9" * 200):
                with open(self.file, "wb") as opened:
                    opened.write(content)
                self.is_refused(server, self.file)
                with open(self.file, "rb") as opened:
                    self.assertEqual(opened.read(), content)
            os.remove(self.file)
            with client_of(server, incarnations=self.file) as client:
                self.assertEqual(client.lease("m", 64), ("m", 0, 64))

    def test_what_cannot_be_read_or_written(self):
        with FakeServer({"m": 64}) as server:
            fault = self.is_refused(server, self.folder)
            self.assertIsInstance(fault.__cause__, IsADirectoryError)
            fault = self.is_refused(server, os.path.join(self.folder, "missing", "incarnation"))
            self.assertIsInstance(fault.__cause__, FileNotFoundError)
            os.mkdir(f"{self.file}.new")
            fault = self.is_refused(server, self.file)
            self.assertIsInstance(fault.__cause__, IsADirectoryError)

    def test_leases_stay_where_a_restart_fails(self):
        with FakeServer({"m": 64}) as server:
            with client_of(server, incarnations=self.file) as client:
                lease = client.lease("m", 8)
                with open(self.file, "wb") as opened:
                    opened.write(b"garbage")
                with self.assertRaises(vmemd.IncarnationsFileError):
                    client.restart()
                self.assertTrue(client.holds(lease))
                self.assertEqual(client.lease("m", 8), ("m", 8, 8))
            self.assertEqual(server.book.clients[7]["leases"], {})


class Exhausted(unittest.TestCase):
    """Clients that have used all numbers up to 2^62."""

    def test_incarnations_of_the_server(self):
        with FakeServer({"m": 64}) as server:
            server.book.hello(7, vmemd.MOST)
            client = client_of(server)
            for call in (lambda: client.lease("m", 1), client.restart):
                with self.assertRaisesRegex(vmemd.Exhausted, f"client 7 .*{vmemd.MOST}"):
                    call()
            client.disconnect()

    def test_incarnations_of_the_file(self):
        with FakeServer({"m": 64}) as server, tempfile.NamedTemporaryFile("w") as file:
            file.write(f"{vmemd.MOST}\n")
            file.flush()
            with self.assertRaisesRegex(vmemd.Exhausted, f"client 7 .*{vmemd.MOST}"):
                client_of(server, incarnations=file.name).lease("m", 1)
            self.assertEqual(server.lines, [])

    def test_the_greatest_is_used(self):
        with FakeServer({"m": 64}) as server:
            with client_of(server, incarnation=vmemd.MOST) as client:
                self.assertEqual(client.lease("m", 64), ("m", 0, 64))
                with self.assertRaises(vmemd.Exhausted):
                    client.restart()
                self.assertEqual(client.held(), [("m", 0, 64)])

    def test_request_numbers(self):
        with FakeServer({"m": 64}) as server, client_of(server) as client:
            client.lease("m", 1)
            client._last = vmemd.MOST
            with self.assertRaisesRegex(vmemd.Exhausted, r"client 7 .*restart\(\)"):
                client.lease("m", 1)
            client.restart()
            self.assertEqual(client.lease("m", 64), ("m", 0, 64))

    def test_a_least_incarnation_is_a_number(self):
        for least in (-1, vmemd.MOST + 1, 1.0, "1", True):
            with self.assertRaises(ValueError):
                vmemd.Client("127.0.0.1", 1, 7, incarnation=least)


if __name__ == "__main__":
    unittest.main()
