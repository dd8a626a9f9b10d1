"""Tests of clients in forked processes: python3 -m unittest test_forks, with VMEMD=bin/vmemd over a
running server too"""
import contextlib
import copy
import gc
import multiprocessing
import os
import pickle
import signal
import socket
import sys
import threading
import time
import unittest
from unittest import mock

import vmemd
from fake_server import FakeServer, client_of
from served import Served

# after so many seconds a child that hangs is ended, and a test that waits in vain fails
LONGEST = 60


class Child:
    """A forked process, which tells what an act of it returned or raised. It ends after LONGEST
    seconds at most."""

    def __init__(self, act):
        reading, writing = os.pipe()
        self.process = os.fork()
        if self.process == 0:
            self.run(act, writing)
        os.close(writing)
        self.reading = open(reading, "rb")

    def run(self, act, writing):
        """The child's part, which never returns to the test."""
        status = 1
        try:
            signal.signal(signal.SIGALRM, signal.SIG_DFL)
            signal.alarm(LONGEST)
            told = raised_by(act)
            with open(writing, "wb") as out:
                out.write(pickle.dumps(told))
            status = 0
        finally:
            os._exit(status)

    def told(self):
        """What the act returned, or what it raised; the process is over then."""
        with self.reading:
            text = self.reading.read()
        _, status = os.waitpid(self.process, 0)
        if status != 0:
            raise AssertionError(f"a child ended with status {status}")
        return pickle.loads(text)


class Fork:
    """Forks at its first call. `children` then has the process id, which is 0 in the child, and the
    ends of a pipe from the child."""

    def __init__(self):
        self.children = []

    def __call__(self):
        if not self.children:
            pipe = os.pipe()
            self.children.append((os.fork(), *pipe))
            if self.children[0][0] == 0:
                signal.alarm(LONGEST)


def raised_by(act):
    """What a call raises, or returns where it raises nothing."""
    try:
        return act()
    except BaseException as fault:
        return fault


def in_child(act):
    return Child(act).told()


def wait_until(is_so):
    ends = time.monotonic() + LONGEST
    while not is_so():
        if time.monotonic() > ends:
            raise AssertionError("it didn't come to be so")
        time.sleep(0.01)


def requests(client, lease):
    """Each call on a client that only the process that made it may use, by its name."""
    pool = vmemd.Pool(client, "m")
    return {"lease": lambda: client.lease("m", 1),
            "lease_many": lambda: client.lease_many("m", [1, 1]),
            "lease of a pool": lambda: pool.lease(1),
            "lease_many of a pool": lambda: pool.lease_many([1, 1]),
            "release": lambda: client.release(lease),
            "release of the lease": lease.release,
            "release_many": lambda: client.release_many([lease]),
            "release_all": client.release_all,
            "restart": client.restart,
            "pool": lambda: client.pool("m"),
            "with": client.__enter__}


def use_inherited(client, lease):
    """What each use of an inherited client comes to: the classes of what requests raise, and what
    it tells of its leases."""
    raised = {name: type(raised_by(call)) for name, call in requests(client, lease).items()}
    client.disconnect()
    return raised, client.held(), client.holds(lease)


class Forks(unittest.TestCase):
    """Children of a process that has a client, over a server that is part of them."""

    def is_useless(self, told):
        raised, held, holds = told
        self.assertEqual({name: it for name, it in raised.items() if it != vmemd.ForkedClient}, {})
        self.assertEqual((len(raised), held, holds), (11, [], False))

    def goes_on(self, server, client, lease, sent):
        """Nothing was sent meanwhile, and the parent has its lease and its connection."""
        self.assertEqual((len(server.lines), client.holds(lease)), (sent, True))
        self.assertIn(lease, client.held())
        client.lease("m", 1).release()
        self.assertEqual((len(server.lines), server.connections), (sent + 2, 1))

    def test_a_child_cannot_use_it(self):
        for window in (1, 8):
            with FakeServer({"m": 64}) as server, client_of(server, window=window) as client:
                lease, sent = client.lease("m", 8), len(server.lines)
                for _ in range(3):
                    self.is_useless(in_child(lambda: use_inherited(client, lease)))
                    self.goes_on(server, client, lease, sent)
                    sent += 2

    def test_nor_a_grandchild(self):
        with FakeServer({"m": 64}) as server, client_of(server) as client:
            lease, sent = client.lease("m", 8), len(server.lines)
            self.is_useless(in_child(lambda: in_child(lambda: use_inherited(client, lease))))
            self.goes_on(server, client, lease, sent)

    def test_one_that_never_connected(self):
        with FakeServer({"m": 64}) as server, client_of(server) as client:
            told = in_child(lambda: raised_by(lambda: client.lease("m", 1)))
            self.assertIsInstance(told, vmemd.ForkedClient)
            self.assertEqual(server.connections, 0)
            self.assertEqual(client.lease("m", 64), ("m", 0, 64))

    def test_it_says_whose_the_client_is(self):
        with FakeServer({"m": 64}) as server, client_of(server) as client:
            told = in_child(lambda: (os.getpid(), raised_by(client.restart)))
            self.assertIsInstance(told[1], vmemd.VmemdError)
            self.assertEqual((told[1].maker, told[1].process), (os.getpid(), told[0]))
            self.assertRegex(str(told[1]), f"{os.getpid()}.*{told[0]}.*number of its own")

    def test_the_process_id_alone_shows_it(self):
        """As after a fork by a library, of which Python isn't told."""
        with FakeServer({"m": 64}) as server:
            client = client_of(server)
            lease, sent = client.lease("m", 8), len(server.lines)
            with mock.patch.object(os, "getpid", return_value=1 << 30):
                self.is_useless(use_inherited(client, lease))
            wait_until(lambda: server.ended == 1)
            self.assertEqual(len(server.lines), sent)

    def test_so_does_the_fork_alone(self):
        """As where a later child has the process id of one that is over."""
        with FakeServer({"m": 64}) as server, client_of(server) as client:
            lease, sent, ours = client.lease("m", 8), len(server.lines), os.getpid()

            def use():
                with mock.patch.object(os, "getpid", return_value=ours):
                    return use_inherited(client, lease)

            self.is_useless(in_child(use))
            self.goes_on(server, client, lease, sent)

    def test_a_child_makes_one_of_its_own(self):
        with FakeServer({"m": 64}) as server, client_of(server) as client:
            lease = client.lease("m", 8)

            def use():
                with client_of(server, number=8) as own:
                    taken = own.lease("m", 8)
                    return tuple(taken), own.holds(taken), client.holds(lease)

            self.assertEqual(in_child(use), (("m", 8, 8), True, False))
            self.assertTrue(client.holds(lease))
            self.assertEqual(server.book.clients[8]["leases"], {})
            self.assertEqual(client.lease("m", 56), ("m", 8, 56))

    def test_what_a_child_drops_sends_nothing(self):
        """The ends of a `with` of a client and of a lease, by an exception too, and garbage."""
        with FakeServer({"m": 64}) as server, client_of(server) as client:
            held = [client, client.lease("m", 8)]
            lease, sent = held[1], len(server.lines)

            def leave(*fault):
                with contextlib.ExitStack() as stack:
                    for it in held:
                        stack.push(it)
                    for it in fault:
                        raise it
                return "left"

            def collect():
                del client._link
                gc.collect()
                return "collected"

            self.assertEqual(in_child(leave), "left")
            self.assertIsInstance(in_child(lambda: leave(KeyError())), KeyError)
            self.assertEqual(in_child(collect), "collected")
            self.goes_on(server, client, lease, sent)

    def test_a_child_has_no_copy_of_the_connection(self):
        """The server sees that the parent ends it, while the child lives."""
        with FakeServer({"m": 64}) as server, client_of(server) as client:
            client.lease("m", 8)
            reading, writing = os.pipe()
            child = Child(lambda: os.read(reading, 1))
            try:
                client.disconnect()
                wait_until(lambda: server.ended == 1)
            finally:
                os.write(writing, b".")
                self.assertEqual(child.told(), b".")
                os.close(reading)
                os.close(writing)


class Interrupted(unittest.TestCase):
    """Forks while a call is under way."""

    @contextlib.contextmanager
    def call_under_way(self, server, client):
        """A thread whose request isn't answered, which has the client's lock."""
        sent, server.hold = len(server.lines), 2
        thread = threading.Thread(target=lambda: raised_by(lambda: client.lease("m", 1)))
        thread.start()
        try:
            wait_until(lambda: len(server.lines) > sent)
            yield
        finally:
            # (it asks again by and by)
            server.hold = 1
            thread.join()

    def test_of_another_thread(self):
        with FakeServer({"m": 64}) as server:
            with client_of(server, timeout=1.0, patience=600.0) as client:
                lease = client.lease("m", 8)
                with self.call_under_way(server, client):
                    told = in_child(lambda: use_inherited(client, lease))
                self.assertEqual(set(told[0].values()), {vmemd.ForkedClient})
                self.assertEqual(told[1:], ([], False))
                self.assertEqual(client.held(), [lease, ("m", 8, 1)])

    def forks(self, server, client, fork):
        """A request during which `fork` is called by its thread, in whatever way: in the child it
        raises ForkedClient, and the parent's goes on."""
        told = raised_by(lambda: client.lease("m", 8))
        process, reading, writing = fork.children[0]
        if process == 0:
            try:
                os.write(writing, type(told).__name__.encode())
            finally:
                os._exit(0)
        os.close(writing)
        with open(reading, "rb") as given:
            self.assertEqual(given.read(), b"ForkedClient")
        self.assertEqual(os.waitpid(process, 0)[1], 0)
        self.assertEqual((told, client.held()), (("m", 0, 8), [("m", 0, 8)]))
        self.assertEqual(set(server.lines), {"hello 7 1", "lease 7 1 1 m 8"})
        client.release_all()
        client.disconnect()

    def test_by_the_handler_of_a_signal(self):
        fork = Fork()
        before = signal.signal(signal.SIGUSR1, lambda *_: fork())
        self.addCleanup(signal.signal, signal.SIGUSR1, before)
        with FakeServer({"m": 64}) as server:
            client = client_of(server, timeout=1.0, patience=600.0)
            client.restart()
            server.hold = 2

            def signal_in_time():
                wait_until(lambda: len(server.lines) > 1)
                signal.pthread_kill(threading.main_thread().ident, signal.SIGUSR1)
                wait_until(lambda: fork.children)
                server.hold = 1

            thread = threading.Thread(target=signal_in_time)
            thread.start()
            self.forks(server, client, fork)
            thread.join()

    def forks_in(self, owner, name, prepare):
        """A request forks at the end of its first call of this function. How many connections were
        made in all, of which none is the child's."""
        fork, known = Fork(), getattr(owner, name)

        def call_and_fork(*given):
            found = known(*given)
            fork()
            return found

        with FakeServer({"m": 64}) as server:
            client = client_of(server)
            client.restart()
            prepare(server, client)
            with mock.patch.object(owner, name, call_and_fork):
                self.forks(server, client, fork)
            return server.connections

    def test_while_it_connects(self):
        count = self.forks_in(socket, "create_connection", lambda _, client: client.disconnect())
        self.assertEqual(count, 2)

    def test_while_it_sends(self):
        """Also if patience is over then."""
        impatient = lambda _, client: setattr(client, "patience", 0)
        self.assertEqual(self.forks_in(vmemd.Link, "send", impatient), 1)

    def test_while_it_pauses(self):
        def prepare(server, client):
            client.disconnect()
            server.busy = 1

        self.assertEqual(self.forks_in(time, "sleep", prepare), 3)


# what the processes of a pool find there, as in a program that makes its client first
CLIENT = None


def lease_of_the_global_client(size):
    return CLIENT.lease("m", size)


def lease_of_an_own_client(port, number):
    """What a process is granted that makes its client itself."""
    with vmemd.Client("127.0.0.1", port, number, incarnation=1) as client:
        return tuple(client.lease("m", 8))


class Processes(unittest.TestCase):
    """Processes that multiprocessing makes."""

    def setUp(self):
        self.server = self.enter(FakeServer({"m": 64}))
        self.client = self.enter(client_of(self.server))
        self.lease, self.sent = self.client.lease("m", 8), 2
        self.enter(mock.patch.object(sys.modules[__name__], "CLIENT", self.client))

    def enter(self, manager):
        given = manager.__enter__()
        self.addCleanup(manager.__exit__, None, None, None)
        return given

    def pool(self, method, count):
        """Processes that are over at the end of the test."""
        pool = multiprocessing.get_context(method).Pool(count)
        self.addCleanup(pool.join)
        self.addCleanup(pool.terminate)
        return pool

    def is_as_before(self):
        self.assertEqual((len(self.server.lines), self.client.held()), (self.sent, [self.lease]))
        self.assertEqual(self.client.lease("m", 1), ("m", 8, 1))

    def test_a_pool_over_a_global_client(self):
        pool = self.pool("fork", 4)
        asked = [pool.apply_async(lease_of_the_global_client, (1,)) for _ in range(8)]
        for it in asked:
            with self.assertRaises(vmemd.ForkedClient):
                it.get(LONGEST)
        self.is_as_before()

    def test_a_process_that_is_given_the_client(self):
        context = multiprocessing.get_context("fork")
        told = context.Queue()
        use = lambda client, lease: told.put(use_inherited(client, lease))
        process = context.Process(target=use, args=(self.client, self.lease), daemon=True)
        process.start()
        raised, held, holds = told.get(timeout=LONGEST)
        process.join()
        self.assertEqual((set(raised.values()), held, holds), ({vmemd.ForkedClient}, [], False))
        self.is_as_before()

    def test_processes_with_clients_of_their_own(self):
        for method, numbers in (("fork", (11, 12)), ("spawn", (13, 14))):
            pool = self.pool(method, 2)
            asked = [pool.apply_async(lease_of_an_own_client, (self.server.port, number))
                     for number in numbers]
            for it in asked:
                self.assertIn(it.get(2 * LONGEST), [("m", 8, 8), ("m", 16, 8)])
            self.assertEqual(self.client.held(), [self.lease])

    def test_a_client_is_not_given_to_a_spawned_process(self):
        process = multiprocessing.get_context("spawn").Process(target=print, args=(self.client,))
        with self.assertRaisesRegex(TypeError, "belongs to the process that made it"):
            process.start()
        self.is_as_before()

    def test_nor_is_it_copied(self):
        for make in (pickle.dumps, copy.copy, copy.deepcopy):
            with self.assertRaisesRegex(TypeError, "belongs to the process that made it"):
                make(self.client)
        self.is_as_before()


class Running(Served):
    """Forks over a running server."""

    def test_a_lease_is_in_one_process(self):
        with self.client(1) as client:
            client.lease("pid", 1)
            told = in_child(lambda: raised_by(lambda: client.lease("pid", 1)))
            self.assertIsInstance(told, vmemd.ForkedClient)
            second = client.lease("pid", 1)
            self.assertEqual((second.base, len(client.held())), (2, 2))
            with self.client(2) as other:
                self.assertEqual(len(other.lease_many("pid", [1] * 6)), 6)
                with self.assertRaises(vmemd.NoFit):
                    other.lease("pid", 1)

    def test_children_have_clients_of_their_own(self):
        def use(number):
            own = self.client(number)
            leases = own.lease_many("m", [8] * 10)
            own.disconnect()
            return [it.base for it in leases]

        with self.client(1) as client:
            client.lease("m", 8)
            children = [Child(lambda number=number: use(number)) for number in (2, 3)]
            bases = [base for it in children for base in it.told()]
            self.assertEqual(sorted(bases), list(range(8, 168, 8)))
            self.assertEqual(client.lease("m", 8), ("m", 168, 8))


if __name__ == "__main__":
    unittest.main()
