"""Tests of what a client raises, and of how a `with` ends, over a server that is part of them:
python3 -m unittest test_faults"""
import contextlib
import pickle
import socket
import time
import unittest
from unittest import mock

import vmemd
from fake_server import FakeServer, client_of
from ports import free_port


class Unanswered(unittest.TestCase):
    """Requests to which no answer comes."""

    def unanswered(self, client, kind=vmemd.Unreachable):
        """What a request raises."""
        with self.assertRaises(kind) as raised:
            client.lease("m", 1)
        client.disconnect()
        return raised.exception

    def test_nobody_listens(self):
        port = free_port()
        fault = self.unanswered(vmemd.Client("127.0.0.1", port, 1, patience=0.05))
        self.assertIsInstance(fault.__cause__, ConnectionRefusedError)
        self.assertEqual((fault.address, fault.answer), (("127.0.0.1", port), None))
        self.assertIn(f"127.0.0.1:{port}", str(fault))
        self.assertIn("refused", str(fault))

    def test_no_answer_in_time(self):
        with FakeServer({"m": 64}) as server:
            client = client_of(server, timeout=0.2, patience=60.0)
            client.restart()
            client.patience, server.hold = 0.05, 2
            fault = self.unanswered(client)
        self.assertIsInstance(fault.__cause__, (TimeoutError, socket.timeout))
        self.assertEqual((fault.line, fault.answer), ("lease 7 1 1 m 1", None))

    def test_a_connection_that_is_cut(self):
        with FakeServer({"m": 64}, [("out", 0)] * 1000) as server:
            fault = self.unanswered(client_of(server, patience=0.05))
            server.cuts.clear()
        self.assertIsInstance(fault.__cause__, ConnectionError)

    def test_the_last_answer_is_told(self):
        with FakeServer({"m": 64}, [("in", 0)] * 1000) as server:
            server.busy = 1
            fault = self.unanswered(client_of(server, patience=3.0))
            server.cuts.clear()
        self.assertNotIsInstance(fault, vmemd.Busy)
        self.assertIsInstance(fault.__cause__, ConnectionError)
        self.assertEqual(fault.answer, "error busy")
        self.assertIn("error busy", str(fault))

    def test_one_that_stays_busy(self):
        with FakeServer({"m": 64}) as server:
            server.busy = 1000
            fault = self.unanswered(client_of(server, patience=0.05), vmemd.Busy)
            server.busy = 0
            self.assertEqual((fault.address[1], fault.answer), (server.port, "error busy"))


class Names(unittest.TestCase):
    """Hosts that are given by a name."""

    def resolving(self, *faults):
        """A resolver with these faults in turn, and none afterwards."""
        known, left = socket.getaddrinfo, list(faults)

        def resolve(*given, **options):
            if left:
                raise left.pop(0)
            return known(*given, **options)

        return mock.patch.object(socket, "getaddrinfo", resolve)

    def is_unknown_at_once(self, host):
        """A patient client of this host raises this, and doesn't even pause."""
        client = vmemd.Client(host, 7070, 7, patience=3600)
        with mock.patch.object(time, "sleep", side_effect=AssertionError("it is patient")):
            with self.assertRaises(vmemd.UnknownHost) as raised:
                client.lease("m", 1)
        self.assertIsInstance(raised.exception, vmemd.Unreachable)
        self.assertIn(f"{host}:7070", str(raised.exception))
        return raised.exception

    def test_an_unknown_host_is_told_at_once(self):
        for code in (socket.EAI_NONAME, socket.EAI_AGAIN):
            with self.resolving(*[socket.gaierror(code, "unknown")] * 9):
                fault = self.is_unknown_at_once("nobody.invalid")
            self.assertIsInstance(fault.__cause__, socket.gaierror)

    def test_what_is_no_name_is_told_at_once(self):
        self.assertIsInstance(self.is_unknown_at_once("n" * 70).__cause__, UnicodeError)

    def test_one_that_was_reached_is_tried_again(self):
        unknown = socket.gaierror(socket.EAI_NONAME, "unknown")
        with FakeServer({"m": 64}) as server, client_of(server, patience=60.0) as client:
            client.lease("m", 8)
            client.disconnect()
            with self.resolving(unknown, unknown):
                self.assertEqual(client.lease("m", 8), ("m", 8, 8))
            client.disconnect()
            client.patience = 0.05
            with self.resolving(*[unknown] * 1000), self.assertRaises(vmemd.Unreachable) as raised:
                client.lease("m", 1)
            self.assertNotIsInstance(raised.exception, vmemd.UnknownHost)
            self.assertIs(raised.exception.__cause__, unknown)
            client.patience = 60.0


class Errors(unittest.TestCase):
    """The classes of errors."""

    def test_each_is_the_same_after_a_pickle(self):
        """So that one process of a pool can hand it to another."""
        line, place = "lease 7 1 1 m 1", ("::1", 7070)
        errors = [vmemd.VmemdError("why"), vmemd.ForkedClient(1, 2), vmemd.OutOfMemory("why"),
                  vmemd.Unreachable(line, place, "refused"), vmemd.UnknownHost(line, place, "no"),
                  vmemd.Busy(line, place, "no room", "error busy"), vmemd.Superseded(line, 0),
                  vmemd.Superseded(line, 5), vmemd.Exhausted("why"), vmemd.ProtocolError("why"),
                  vmemd.IncarnationsFileError("file", "why"),
                  *(it(line) for it in vmemd.REFUSALS.values())]
        for error in errors:
            copy = pickle.loads(pickle.dumps(error))
            self.assertIsInstance(error, vmemd.VmemdError)
            self.assertEqual((type(copy), str(copy), vars(copy)),
                             (type(error), str(error), vars(error)))
        self.assertIn("[::1]:7070", str(errors[3]))
        self.assertEqual(str(vmemd.NoFit(line)), f"nofit: {line}")


class Left(unittest.TestCase):
    """What the end of a `with` does, by an exception and without one."""

    def held(self, server):
        return server.book.clients[7]["leases"]

    def end(self, fault, *managers):
        """Ends the `with` of these, the last first, by this exception; what is raised then."""
        try:
            with contextlib.ExitStack() as stack:
                for it in managers:
                    stack.enter_context(it)
                if fault is not None:
                    raise fault
        except BaseException as raised:
            return raised
        return None

    def test_all_leases_are_released(self):
        for fault in (None, RuntimeError(), KeyboardInterrupt(), SystemExit(), vmemd.NoFit("x")):
            for window in (1, 8):
                with FakeServer({"m": 64}) as server:
                    client = client_of(server, window=window)
                    client.lease_many("m", [1] * 20)
                    self.assertIs(self.end(fault, client), fault)
                    self.assertEqual((self.held(server), client.held()), ({}, []))

    def test_leases_are_kept_on_request(self):
        for fault in (None, RuntimeError()):
            with FakeServer({"m": 64}) as server:
                client = client_of(server, keep_leases=True)
                kept = client.lease("m", 8)
                self.assertIs(self.end(fault, client, client.lease("m", 4)), fault)
                self.assertEqual((self.held(server), client.held()), ({("m", 0): 8}, [kept]))
                self.assertEqual(server.lines[-1], "release 7 1 3 m 8")

    def test_one_that_asked_for_nothing_sends_nothing(self):
        with FakeServer({"m": 64}) as server:
            for fault in (None, RuntimeError()):
                self.assertIs(self.end(fault, client_of(server)), fault)
            self.assertEqual((server.lines, server.connections), ([], 0))

    def test_leases_that_nobody_was_told_of_are_released(self):
        for keep_leases in (False, True):
            with FakeServer({"m": 64}) as server:
                client = client_of(server, keep_leases=keep_leases, patience=0.05)
                kept = client.lease("m", 8)
                server.cuts = [("out", 0)] * 1000
                with self.assertRaises(vmemd.Unreachable) as raised:
                    client.lease("m", 4)
                self.assertEqual(len(self.held(server)), 2)
                server.cuts.clear()
                client.patience = 60.0
                self.assertIs(self.end(raised.exception, client), raised.exception)
                self.assertEqual(self.held(server), {("m", 0): 8} if keep_leases else {})
                self.assertEqual(client.held(), [kept] if keep_leases else [])

    def ends_soon(self, client, stop, go_on):
        """Each end of a `with` comes soon, though the server doesn't answer, and the client is more
        patient than this test: with an exception of the block by that, else by what the release
        raises. What could not be released then, the next call releases."""
        for fault, is_of_lease in ((RuntimeError(), False), (RuntimeError(), True), (None, False)):
            lease = client.lease("m", 1)
            stop()
            begun = time.monotonic()
            with mock.patch.object(vmemd, "LEAVING", 0.2):
                raised = self.end(fault, *([lease] if is_of_lease else [client]))
            self.assertLess(time.monotonic() - begun, 20)
            if fault is None:
                self.assertIsInstance(raised, vmemd.Unreachable)
            else:
                self.assertIs(raised, fault)
                if hasattr(fault, "add_note"):
                    self.assertIn("leases were not released", fault.__notes__[0])
            self.assertEqual((client.patience, client.held()), (40.0, []))
            go_on()
            self.assertEqual(client.lease("m", 64), ("m", 0, 64))
            client.release_all()
        client.disconnect()

    def test_a_server_that_does_not_answer(self):
        with FakeServer({"m": 64}) as server:
            set_hold = lambda count: lambda: setattr(server, "hold", count)
            client = client_of(server, timeout=40.0, patience=40.0)
            self.ends_soon(client, set_hold(100), set_hold(1))

    def test_a_server_that_is_busy(self):
        with FakeServer({"m": 64}) as server:
            client = client_of(server, patience=40.0)

            def stop():
                client.disconnect()
                server.busy = 1000

            self.ends_soon(client, stop, lambda: setattr(server, "busy", 0))

    def test_how_long_it_is_patient(self):
        self.assertEqual(vmemd.LEAVING, 5.0)

    def test_a_release_that_is_refused(self):
        for fault in (None, RuntimeError()):
            with FakeServer({"m": 64}) as server:
                client = client_of(server)
                client.lease("m", 8)
                self.held(server).clear()
                raised = self.end(fault, client)
                self.assertIsInstance(raised, vmemd.NotYours if fault is None else RuntimeError)

    def test_a_client_may_be_used_again(self):
        with FakeServer({"m": 64}) as server:
            client = client_of(server)
            for fault in (None, RuntimeError()):
                self.assertIsNone(self.end(None, client))
                self.assertEqual(client.lease("m", 64), ("m", 0, 64))
                self.assertIs(self.end(fault, client), fault)
            self.assertEqual(self.held(server), {})


if __name__ == "__main__":
    unittest.main()
