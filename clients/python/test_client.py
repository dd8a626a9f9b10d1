"""Tests of the client over a server that is part of them: python3 -m unittest test_client"""
import threading
import unittest

import vmemd
from fake_server import FakeServer, client_of


class Calls(unittest.TestCase):
    def test_lease_and_release(self):
        with FakeServer({"m": 64}) as server, client_of(server) as client:
            pool = client.pool("m")
            with pool.lease(8) as first, pool.lease(4) as second:
                self.assertEqual([first, second], [("m", 0, 8), ("m", 8, 4)])
                self.assertEqual((first.end, client.held()), (8, [first, second]))
            self.assertEqual(client.held(), [])
            self.assertEqual(server.lines, ["hello 7 1", "lease 7 1 1 m 8", "lease 7 1 2 m 4",
                                            "release 7 1 3 m 8", "release 7 1 4 m 0"])

    def test_options_are_written_in_the_protocol_s_order(self):
        with FakeServer({"m": 64}) as server, client_of(server) as client:
            client.lease("m", 1, max=9, min=1, nocross=8, phase=2, align=4)
            client.lease("m", 1, align=0, phase=0, nocross=0, min=0, max=vmemd.MOST)
            self.assertEqual(server.lines[1:], [
                "lease 7 1 1 m 1 align 4 phase 2 nocross 8 min 1 max 9", "lease 7 1 2 m 1"])

    def test_each_refusal_is_an_exception_and_uses_a_number(self):
        with FakeServer({"m": 2000}) as server, client_of(server) as client:
            for fault, arena, size in ((vmemd.NoArena, "z", 1), (vmemd.BadRequest, "m", 0),
                                       (vmemd.NoFit, "m", 2001)):
                with self.assertRaises(fault) as raised:
                    client.lease(arena, size)
                self.assertIsInstance(raised.exception, vmemd.Refused)
            first = client.lease("m", 1)
            for _ in range(1023):
                client.lease("m", 1)
            with self.assertRaises(vmemd.TooManyLeases):
                client.lease("m", 1)
            del server.book.clients[7]["leases"]["m", 0]
            with self.assertRaises(vmemd.NotYours):
                client.release(first)
            self.assertEqual(len(client.held()), 1023)
            self.assertEqual(server.book.clients[7]["last"], 1029)

    def test_a_lease_is_released_once(self):
        with FakeServer({"m": 8}) as server, client_of(server) as client:
            with client.lease("m", 8) as lease:
                lease.release()
            with self.assertRaises(ValueError):
                lease.release()
            again = client.lease("m", 8)
            self.assertEqual((again, client.holds(lease)), (lease, False))
            with self.assertRaises(ValueError):
                lease.release()
            self.assertTrue(client.holds(again))

    def test_what_is_no_request_is_never_sent(self):
        with FakeServer({"m": 8}) as server, client_of(server) as client:
            for arena, size in (("M", 1), ("", 1), ("1m", 1), ("m" * 17, 1), ("m m", 1), ("m", -1),
                                ("m", vmemd.MOST + 1), ("m", 1.0), ("m", True), ("m", "1")):
                with self.assertRaises(ValueError):
                    client.lease(arena, size)
            self.assertEqual(server.lines, [])
        for number in (0, 65537):
            with self.assertRaises(ValueError):
                vmemd.Client("127.0.0.1", 1, number)

    def test_the_end_of_a_client_releases_all(self):
        with FakeServer({"m": 8}) as server:
            with client_of(server) as client:
                client.lease("m", 1)
                client.lease("m", 2)
            self.assertEqual(server.book.clients[7]["leases"], {})

    def test_threads_share_a_client(self):
        with FakeServer({"m": 1000}) as server, client_of(server) as client:
            pool = client.pool("m")

            def use():
                for _ in range(20):
                    with pool.lease(3):
                        pass

            threads = [threading.Thread(target=use) for _ in range(8)]
            for it in threads:
                it.start()
            for it in threads:
                it.join()
            self.assertEqual((server.book.settled, client.held()), (320, []))
            self.assertEqual(len(server.lines), 321)


class Cuts(unittest.TestCase):
    def talk(self, server, **options):
        with client_of(server, **options) as client:
            first, second = client.lease("m", 8), client.lease("m", 4, align=4)
            client.release(first)
            third = client.lease("m", 2)
            self.assertEqual([first, second, third], [("m", 0, 8), ("m", 8, 4), ("m", 0, 2)])
            self.assertEqual(client.held(), [second, third])

    def test_each_byte_of_the_conversation_may_be_the_last(self):
        with FakeServer({"m": 64}) as server:
            self.talk(server)
            counts = {"in": sum(len(it) + 1 for it in server.lines), "out": 110}
        for direction, count in counts.items():
            for at in range(count):
                with FakeServer({"m": 64}, [(direction, at)]) as server:
                    self.talk(server)
                    self.assertEqual(server.book.settled, 6, (direction, at))
                    self.assertEqual(server.book.clients[7]["leases"], {})

    def test_many_cuts(self):
        for step in (1, 4, 9, 14, 23):
            cuts = [("in", step), ("out", 2 * step), ("out", step)] * 2
            with FakeServer({"m": 64}, cuts) as server:
                self.talk(server, patience=20.0)
                self.assertEqual(server.book.settled, 6)

    def test_a_connection_for_each_request(self):
        with FakeServer({"m": 64}) as server:
            self.talk(server, keep=False)
            self.assertEqual(server.connections, 7)

    def test_again_is_asked_again(self):
        with FakeServer({"m": 64}) as server:
            server.book.again = 3
            self.talk(server)
            self.assertEqual(server.lines[:4], ["hello 7 1"] * 4)
        with FakeServer({"m": 64}) as server, client_of(server, patience=0.05) as client:
            client.lease("m", 1)
            server.book.again = 1000
            with self.assertRaises(vmemd.OutOfMemory):
                client.lease("m", 1)
            server.book.again = 0

    def test_a_busy_server_is_asked_again(self):
        with FakeServer({"m": 64}) as server:
            server.busy = 3
            self.talk(server)
            self.assertEqual((server.connections, server.book.settled), (4, 6))

    def test_a_server_that_stays_busy(self):
        with FakeServer({"m": 64}) as server, client_of(server, patience=0.05) as client:
            server.busy = 1000
            with self.assertRaises(vmemd.Busy):
                client.lease("m", 1)
            self.assertEqual(server.lines, [])
            server.busy = 0
            self.assertEqual(client.lease("m", 64), ("m", 0, 64))

    def test_a_server_that_is_busy_after_a_cut(self):
        """What was sent before the cut is settled once, and what became of it is told."""
        with FakeServer({"m": 64}) as server, client_of(server) as client:
            client.lease("m", 8)
            server.cuts, server.busy = [("out", 5)], 2
            self.assertEqual(client.lease("m", 4), ("m", 8, 4))
            self.assertEqual((server.connections, server.book.settled), (4, 2))

    def test_a_lease_that_nobody_was_told_of_is_given_back(self):
        with FakeServer({"m": 64}) as server, client_of(server, patience=0.05) as client:
            kept = client.lease("m", 8)
            server.cuts = [("out", 0)] * 100
            with self.assertRaises(vmemd.Unreachable):
                client.lease("m", 4)
            self.assertEqual(len(server.book.clients[7]["leases"]), 2)
            server.cuts.clear()
            self.assertEqual(client.lease("m", 2), ("m", 8, 2))
            self.assertEqual(client.lease("m", 4), ("m", 10, 4))
            self.assertEqual(client.held()[0], kept)
            self.assertEqual(len(server.book.clients[7]["leases"]), 3)

    def test_a_release_that_nobody_answered_is_sent_again(self):
        with FakeServer({"m": 64}) as server, client_of(server, patience=0.05) as client:
            lease = client.lease("m", 64)
            server.cuts = [("in", 3)] * 100
            with self.assertRaises(vmemd.Unreachable):
                client.release(lease)
            server.cuts.clear()
            self.assertEqual(client.lease("m", 64), lease)

    def test_no_server(self):
        with FakeServer({}) as server:
            port = server.port
        client = vmemd.Client("127.0.0.1", port, 1, patience=0.05)
        with self.assertRaises(vmemd.Unreachable):
            client.lease("m", 1)


class Windows(unittest.TestCase):
    """Clients by the second protocol, with up to eight requests outstanding."""

    def bases(self, leases):
        return [it.base for it in leases]

    def test_many_leases_and_releases(self):
        with FakeServer({"m": 64}) as server, client_of(server, window=8) as client:
            leases = client.pool("m").lease_many([2] * 20, align=2)
            self.assertEqual(self.bases(leases), list(range(0, 40, 2)))
            self.assertEqual(client.held(), leases)
            client.release_many(leases[3:])
            self.assertEqual(client.held(), leases[:3])
            self.assertEqual(server.lines[0], "hello 7 1 2")
            self.assertEqual(server.lines[20:22], ["lease 7 1 20 m 2 align 2", "release 7 1 21 m 6"])
            self.assertEqual((len(server.lines), server.book.settled), (38, 37))

    def test_so_many_are_sent_before_the_first_is_answered(self):
        for window in (1, 2, 5, 8):
            with FakeServer({"m": 64}) as server:
                server.hold = window
                with client_of(server, window=window) as client:
                    leases = client.lease_many("m", [1] * window)
                    self.assertEqual(self.bases(leases), list(range(window)))
                self.assertEqual(server.connections, 1)

    def test_no_more_than_eight_are(self):
        with FakeServer({"m": 64}) as server:
            server.hold = 9
            client = client_of(server, window=8, timeout=0.2, patience=0.1)
            with self.assertRaises(vmemd.Unreachable):
                client.lease_many("m", [1] * 20)
            self.assertEqual(server.book.settled, 8)
            self.assertNotIn("lease 7 1 9 m 1", server.lines)
            client.disconnect()

    def test_a_window_is_one_to_eight(self):
        for window in (0, 9, -1, 1.5):
            with self.assertRaises(ValueError):
                vmemd.Client("127.0.0.1", 1, 7, window=window)

    def test_where_one_is_refused_none_is_held(self):
        for sizes, fault in (([8, 8, 65, 8, 8], vmemd.NoFit), ([8, 0], vmemd.BadRequest),
                             ([8] * 20, vmemd.NoFit), ([0] * 20, vmemd.BadRequest)):
            with FakeServer({"m": 64}) as server, client_of(server, window=8) as client:
                kept = client.lease("m", 4)
                with self.assertRaises(fault):
                    client.lease_many("m", sizes)
                self.assertEqual(client.held(), [kept])
                self.assertEqual(server.book.clients[7]["leases"], {("m", 0): 4})
                self.assertEqual(client.lease("m", 60), ("m", 4, 60))

    def test_many_releases_of_which_one_is_refused(self):
        with FakeServer({"m": 64}) as server, client_of(server, window=8) as client:
            leases = client.lease_many("m", [1] * 12)
            del server.book.clients[7]["leases"]["m", 2]
            with self.assertRaises(vmemd.NotYours):
                client.release_many(leases)
            self.assertEqual((client.held(), server.book.clients[7]["leases"]), ([], {}))

    def test_each_is_released_once(self):
        with FakeServer({"m": 64}) as server, client_of(server, window=8) as client:
            first, second = client.lease_many("m", [1, 1])
            for leases in ([first, first], [first, vmemd.Lease("m", 5, 1)]):
                with self.assertRaises(ValueError):
                    client.release_many(leases)
            self.assertEqual(client.held(), [first, second])
            client.release_many([])
            client.release_many([second, first])
            with self.assertRaises(ValueError):
                client.release_many([first])

    def talk(self, server, **options):
        with client_of(server, window=8, **options) as client:
            leases = client.lease_many("m", [2] * 9)
            self.assertEqual(self.bases(leases), list(range(0, 18, 2)))
            client.release_many(leases[1:])
            again = client.lease_many("m", [4, 1])
            self.assertEqual(again, [("m", 2, 4), ("m", 6, 1)])
            self.assertEqual(client.held(), [leases[0], *again])

    def is_settled_once(self, server, told=None):
        """22 requests: each was settled, and in the order of their numbers no unit is left."""
        self.assertEqual(server.book.settled, 22, told)
        self.assertEqual(sorted(server.book.clients[7]["kept"]), list(range(1, 23)), told)
        self.assertEqual(server.book.clients[7]["leases"], {}, told)

    def test_each_byte_with_eight_lines_in_flight_may_be_the_last(self):
        with FakeServer({"m": 64}) as server:
            self.talk(server)
            self.is_settled_once(server)
            counts = {"in": sum(len(it) + 1 for it in server.lines), "out": 380}
        for direction, count in counts.items():
            for at in range(0, count, 3):
                with FakeServer({"m": 64}, [(direction, at)]) as server:
                    self.talk(server)
                    self.is_settled_once(server, (direction, at))

    def test_many_cuts_with_eight_lines_in_flight(self):
        for step in (1, 7, 19, 40, 90):
            cuts = [("in", step), ("out", 2 * step), ("out", step)] * 2
            with FakeServer({"m": 64}, cuts) as server:
                self.talk(server, patience=20.0)
                self.is_settled_once(server, step)

    def test_again_and_busy_are_asked_again(self):
        with FakeServer({"m": 64}) as server:
            client = client_of(server, window=8)
            client.restart()
            server.book.again, server.busy = 5, 2
            client.disconnect()
            self.assertEqual(self.bases(client.lease_many("m", [1] * 8)), list(range(3, 8)) + [0, 1, 2])
            client.release_all()
            client.disconnect()
            self.assertEqual(server.book.settled, 16)

    def test_a_connection_whenever_none_waits(self):
        with FakeServer({"m": 64}) as server:
            server.hold = 3
            with client_of(server, window=8, keep=False) as client:
                client.lease_many("m", [1] * 3)
                self.assertEqual(server.connections, 2)

    def test_leases_that_nobody_was_told_of_are_given_back(self):
        with FakeServer({"m": 64}) as server:
            client = client_of(server, window=8, patience=0.05)
            kept = client.lease("m", 8)
            server.cuts = [("out", 50)] + [("out", 0)] * 100
            with self.assertRaises(vmemd.Unreachable):
                client.lease_many("m", [4] * 10)
            self.assertEqual(client.held(), [kept])
            server.cuts.clear()
            self.assertEqual(client.lease("m", 56), ("m", 8, 56))
            self.assertEqual(len(server.book.clients[7]["leases"]), 2)
            client.release_all()
            client.disconnect()

    def test_releases_that_nobody_answered_are_sent_again(self):
        with FakeServer({"m": 64}) as server:
            client = client_of(server, window=8, patience=0.05)
            leases = client.lease_many("m", [4] * 16)
            server.cuts = [("in", 40)] + [("in", 3)] * 100
            with self.assertRaises(vmemd.Unreachable):
                client.release_many(leases)
            self.assertEqual(client.held(), [])
            server.cuts.clear()
            self.assertEqual(client.lease("m", 64), ("m", 0, 64))
            client.release_all()
            client.disconnect()

    def test_one_that_was_superseded_with_lines_in_flight(self):
        with FakeServer({"m": 64}) as server, client_of(server, window=8) as first:
            first.lease_many("m", [1] * 8)
            with client_of(server, window=8, incarnation=2) as second:
                taken = second.lease("m", 64)
                with self.assertRaises(vmemd.Superseded):
                    first.lease_many("m", [1] * 8)
                self.assertEqual((first.held(), second.held()), ([], [taken]))
            first.restart()
            self.assertEqual(first.lease("m", 64), ("m", 0, 64))
            self.assertEqual(first.incarnation, 3)

    def test_one_that_is_superseded_when_it_gives_back(self):
        with FakeServer({"m": 64}) as server:
            client = client_of(server, window=8)
            client.restart()
            server.replies = ["granted 7 1 1 m 0 8", "granted 7 1 2 m 8 8", "refused 7 1 3 nofit",
                              "old 7 5", "old 7 5"]
            with self.assertRaises(vmemd.Superseded):
                client.lease_many("m", [8, 8, 65])
            client.restart()
            self.assertEqual((client.held(), client.lease("m", 64)), ([], ("m", 0, 64)))
            self.assertEqual(client.incarnation, 6)
            client.disconnect()

    def test_what_cannot_be_given_back_at_once_is_later(self):
        with FakeServer({"m": 64}) as server:
            client = client_of(server, window=8, patience=0.05)
            client.restart()
            server.cuts = [("out", 64)] + [("out", 0)] * 100
            with self.assertRaises(vmemd.NoFit):
                client.lease_many("m", [8, 8, 65])
            server.cuts.clear()
            self.assertEqual((client.held(), client.lease("m", 64)), ([], ("m", 0, 64)))
            client.disconnect()

    def test_a_server_of_the_first_protocol_alone(self):
        with FakeServer({"m": 64}) as server:
            client, server.replies = client_of(server, window=8), ["error badline"]
            with self.assertRaises(vmemd.ProtocolError):
                client.lease("m", 1)
            server.replies = ["welcome 7 2"]
            with self.assertRaises(vmemd.ProtocolError):
                client.restart()
            client.disconnect()

    def test_answers_that_are_none_of_ours(self):
        for wrong in ("granted 7 1 2 m 0 1", "released 7 1 1", "granted 7 1 9 m 0 1"):
            with FakeServer({"m": 64}) as server:
                client = client_of(server, window=8)
                client.restart()
                server.replies = [wrong]
                with self.assertRaises(vmemd.ProtocolError, msg=wrong):
                    client.lease_many("m", [1] * 8)
                self.assertEqual(client.held(), [])
                self.assertEqual(client.lease("m", 57).length, 57)
                client.release_all()
                client.disconnect()


class Answers(unittest.TestCase):
    def test_what_answers_nothing_of_ours(self):
        wrong = ["error word", "granted 7 1 2 m 0 1", "granted 7 2 1 m 0 1", "granted 8 1 1 m 0 1",
                 "granted 7 1 1 z 0 1", "granted 7 1 1 m 0", "released 7 1 1", "stale 7 1 1 5",
                 "gap 7 1 1 0", "refused 7 1 1 why", "welcome 7 1", "", "old 8 3", "old 7 x",
                 "granted 7 1 1 m -1 1", "a" * 300]
        for reply in wrong:
            with FakeServer({"m": 64}) as server:
                client = client_of(server)
                client.restart()
                server.replies = [reply]
                with self.assertRaises(vmemd.ProtocolError, msg=reply):
                    client.lease("m", 1)
                self.assertEqual(client.held(), [])
                client.disconnect()

    def test_a_hello_is_answered_by_welcome_or_a_greater_one(self):
        for reply in ("welcome 7 2", "welcome 8 1", "old 7 1", "old 7 0", "released 7 1 1"):
            with FakeServer({"m": 64}) as server:
                client, server.replies = client_of(server), [reply]
                with self.assertRaises(vmemd.ProtocolError, msg=reply):
                    client.lease("m", 1)
                client.disconnect()


if __name__ == "__main__":
    unittest.main()
