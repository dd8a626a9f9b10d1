"""Tests of the client over a running server: VMEMD=bin/vmemd python3 -m unittest test_server"""
import os
import signal
import socket
import subprocess
import sys
import tempfile
import threading
import time
import unittest

import vmemd
from served import (HAS_CONNECTIONS, PROGRAM, Served, fill, logged, needs_connections,
                    needs_serve, reset)


class Alone(Served):
    def test_lines_of_a_socket(self):
        lines = b"hello 1 1\nlease 1 1 1 m 8\nlease 1 1 1 m 8\naudit\nrelease 1 1 2 m 0\nhello"
        replies = (b"welcome 1 1\ngranted 1 1 1 m 0 8\ngranted 1 1 1 m 0 8\nerror word\n"
                   b"released 1 1 2\nerror badline\n")
        self.assertEqual(self.ask(lines), replies)
        self.assertEqual(self.ask(b"release 1 1 2 m 0\n"), b"released 1 1 2\n")

    def test_numbers_come_round(self):
        with self.client(1) as client:
            pool, bases = client.pool("pid"), []
            for _ in range(10):
                with pool.lease(1) as number:
                    bases.append(number.base)
            self.assertEqual(bases, [1, 2, 3, 4, 5, 6, 7, 8, 1, 2])

    def test_options_and_refusals(self):
        with self.client(1) as client:
            pool = client.pool("q")
            self.assertEqual(pool.lease(5, align=16, min=20), ("q", 32, 8))
            for fault, size, options in ((vmemd.BadRequest, 4, {"align": 2}),
                                         (vmemd.BadRequest, 0, {}), (vmemd.NoFit, 64, {})):
                with self.assertRaises(fault):
                    pool.lease(size, **options)
            with self.assertRaises(vmemd.NoArena):
                client.lease("none", 1)

    def test_many_at_once(self):
        for window in (1, 8):
            with self.client(window, window=window) as client:
                leases = client.pool("m").lease_many([8] * 100)
                self.assertEqual([it.base for it in leases], list(range(0, 800, 8)))
                client.release_many(leases[::2])
                self.assertEqual(client.held(), leases[1::2])
                with self.assertRaises(vmemd.NoFit):
                    client.lease_many("m", [8] * 20 + [4096])
                self.assertEqual(client.held(), leases[1::2])

    def test_eight_lines_are_answered_in_one_connection(self):
        told = self.ask(b"hello 1 1 2\n" + b"".join(b"lease 1 1 %d m 4\n" % n for n in
                                                    (8, 7, 6, 5, 4, 3, 2, 9, 1, 9)))
        self.assertEqual(told.splitlines(), [b"welcome 1 1 2", *(
            b"granted 1 1 %d m %d 4" % (8 - k, 4 * k) for k in range(7)), b"gap 1 1 9 0",
            b"granted 1 1 1 m 28 4", b"granted 1 1 9 m 32 4"])

    def test_a_greater_incarnation_ends_the_leases(self):
        with self.client(1, incarnation=5) as first:
            first.lease("m", 4096)
            with self.client(1, incarnation=6) as second:
                self.assertEqual(second.lease("m", 4096), ("m", 0, 4096))
                with self.assertRaises(vmemd.Superseded):
                    first.lease("m", 1)

    def test_of_two_with_one_number_the_earlier_is_told_until_it_restarts(self):
        with self.client(1) as first, self.client(1) as second:
            lease = first.lease("m", 4)
            self.assertEqual(second.lease("m", 4), lease)
            for _ in range(3):
                with self.assertRaises(vmemd.Superseded) as raised:
                    first.lease("m", 4)
                self.assertEqual(raised.exception.current, second.incarnation)
            self.assertEqual((first.held(), second.lease("m", 4)), ([], ("m", 4, 4)))
            first.restart()
            self.assertEqual(first.lease("m", 4), lease)
            with self.assertRaises(vmemd.Superseded):
                second.lease("m", 4)

    def test_an_exception_ends_the_leases_of_its_block(self):
        with self.assertRaises(KeyError):
            with self.client(1) as client:
                client.lease("m", 4096)
                raise KeyError
        with self.client(2, keep_leases=True) as client:
            client.lease("m", 4096)
        with self.client(3) as client, self.assertRaises(vmemd.NoFit):
            client.lease("m", 1)

    def test_half_a_line_waits_for_its_rest(self):
        half = self.opened(9)
        half.sendall(b"hello 9")
        with self.client(1) as client:
            client.lease("m", 4096)
        half.sendall(b" 1\n")
        self.assertEqual(half.recv(100), b"welcome 9 1\n")

    def test_bad_connections_leave_the_others(self):
        self.connected()
        self.connected().sendall(b"hello 9 1\nlease 9 1 1 m")
        with self.client(1) as client:
            for number in range(200):
                with socket.create_connection(("127.0.0.1", self.port)) as link:
                    link.sendall(b"hello 2 1\n" * (number % 4) + b"\xff\x00 x")
            client.lease("m", 4096)

    def test_a_peer_that_never_reads_leaves_the_others(self):
        fill(self.connected())
        with self.client(1) as client:
            client.lease("m", 4096)

    def test_connections_cut_in_a_reply_leave_the_others(self):
        for number in range(200):
            link = socket.create_connection(("127.0.0.1", self.port), 30)
            link.sendall(b"hello 2 1\n" * 500)
            self.assertTrue(b"welcome 2 1\n".startswith(link.recv(1 + number % 12)))
            reset(link)
        with self.client(1) as client:
            client.lease("m", 4096)

    @unittest.skipUnless(os.path.exists("/proc/self/status"), "memory is told in /proc")
    def test_ten_thousand_connections_take_no_more_memory(self):
        lines = b"hello 1 1\nlease 1 1 1 m 8\nrelease 1 1 2 m 0\n"
        for _ in range(1000):
            self.ask(lines)
        before = self.memory()
        for _ in range(9000):
            self.ask(lines)
        self.assertLess(self.memory() - before, 1024)


@needs_connections
class AloneOfMany(Alone):
    connections = 64


class Workers(Served):
    """What is so without --connections alone."""

    def test_an_address_that_is_taken(self):
        words = [PROGRAM, "serve", f"127.0.0.1:{self.port}", self.config, "1"]
        ran = subprocess.run(words, stdin=subprocess.DEVNULL, capture_output=True, text=True,
                             timeout=60)
        told = ran.stdout, logged(ran.stderr), ran.returncode
        self.assertEqual(told, ("", ["vmemd: listen"], 1))

    def test_more_connections_than_workers_wait(self):
        held, later = [self.opened(2) for _ in range(self.workers)], self.connected()
        later.sendall(b"hello 3 1\n")
        later.settimeout(1)
        with self.assertRaises(TimeoutError):
            later.recv(12)
        held[0].close()
        later.settimeout(30)
        self.assertEqual(later.recv(12), b"welcome 3 1\n")


class OneWorker(Served):
    workers = 1
    config_lines = "root d 0 48 1 instant 5\n"

    def test_what_connections_left_is_free_after_them(self):
        """Nine leases of 5 are the chunks of three slabs of 16. Released in order, those of the
        first slab fill the depot's magazine, and the others the worker's two."""
        with self.client(1) as client:
            chunks = [client.lease("d", 5) for _ in range(9)]
            self.assertEqual([it.base // 16 for it in chunks], [0, 0, 0, 1, 1, 1, 2, 2, 2])
            for it in chunks:
                it.release()
            with self.assertRaises(vmemd.NoFit):
                client.lease("d", 16)
        # (at that connection's end the depot had needed its magazine)
        with self.client(2) as client:
            self.assertEqual(client.lease("d", 32), ("d", 16, 32))
            with self.assertRaises(vmemd.NoFit):
                client.lease("d", 16)
        with self.client(3) as client:
            self.assertEqual(client.lease("d", 48), ("d", 0, 48))


class ManyChunks(Served):
    """Three thousand chunks lie in a depot, where thirty clients left them: more than are given
    back at a time."""

    units = 16384
    config_lines = f"root d 0 {units} 1 instant 5\n"

    def test_all_units_come_back(self):
        clients, requests = range(1, 31), range(1, 101)
        held = {}
        for number in clients:
            leases = "".join(f"lease {number} 1 {it} d 5\n" for it in requests)
            told = self.ask(f"hello {number} 1\n{leases}".encode()).decode().splitlines()
            held[number] = [it.split()[5] for it in told if it.startswith("granted ")]
        for number, bases in held.items():
            self.assertEqual(len(bases), 100)
            releases = "".join(f"release {number} 1 {it} d {base}\n"
                               for it, base in enumerate(bases, 101))
            self.assertEqual(self.ask(releases.encode()).count(b"released"), 100)
        whole = self.leases_in_time(31, "d", self.units, 20)
        self.assertEqual(whole, ("d", 0, self.units))


@needs_connections
class ManyChunksOfMany(ManyChunks):
    connections = 16


class Operated(Served):
    """Roots that grow by standard input, while clients are served."""

    config_lines = "root m 0 8 1 best 0\nroot p 0 8 8 best 0\nspan p 16 8\nchild c m 1 best 0 0\n"

    def told(self, *lines):
        """What the operator is told of each of these lines, which come at once."""
        self.server.stdin.write("".join(f"{it}\n" for it in lines))
        self.server.stdin.flush()
        return [self.server.stdout.readline().rstrip("\n") for _ in lines]

    def test_a_root_grows_under_load(self):
        done = threading.Event()

        def lease(number):
            with self.client(number) as client:
                pool = client.pool("m")
                while not done.is_set():
                    with pool.lease(1):
                        pass

        users = [threading.Thread(target=lease, args=(number,)) for number in (1, 2)]
        with self.client(3) as client:
            for it in users:
                it.start()
            try:
                with self.assertRaises(vmemd.NoFit):
                    client.lease("m", 8, min=8)
                self.assertEqual(self.told("grow m 8 8"), ["ok"])
                self.assertEqual(client.lease("m", 8, min=8), ("m", 8, 8))
                many = self.told(*(f"grow m {base} 8" for base in range(16, 8016, 8)))
                self.assertEqual(many, ["ok"] * 1000)
            finally:
                done.set()
                for it in users:
                    it.join()
            leases = client.lease_many("m", [8] * 1001)
            self.assertEqual(sorted(it.base for it in leases), [0, *range(16, 8016, 8)])

    def test_a_child_imports_what_its_source_grew_by(self):
        with self.client(1) as client:
            client.lease("m", 8)
            with self.assertRaises(vmemd.NoFit):
                client.lease("c", 8)
            self.assertEqual(self.told("grow m 100 8"), ["ok"])
            self.assertEqual(client.lease("c", 8), ("c", 100, 8))

    def test_spans_of_the_setup_and_later_ones(self):
        self.assertEqual(self.told("grow p 8 8", "grow p 16 8", "grow p 28 8", "grow c 100 8"),
                         ["ok", "error range", "error range", "error noarena"])
        with self.client(1) as client:
            bases = [client.lease("p", 8).base for _ in range(3)]
            self.assertEqual(bases, [0, 8, 16])
            with self.assertRaises(vmemd.NoFit):
                client.lease("p", 16)

    def test_no_lines_of_an_operator(self):
        lines = ["hello 1 1", "tick", "span m 8 8", "grow m 8", "grow m 8 08", "", "x" * 255,
                 "x" * 256, "x" * 100000, "grow m 8 8"]
        words = ["word", "word", "word", "badline", "number", "badline", "word", "toolong",
                 "toolong"]
        self.assertEqual(self.told(*lines), [*(f"error {it}" for it in words), "ok"])

    def test_a_line_in_pieces(self):
        for piece in ("gr", "ow m", " 8 8"):
            self.server.stdin.write(piece)
            self.server.stdin.flush()
            time.sleep(0.05)
        self.assertEqual(self.told(""), ["ok"])

    def test_over_a_connection_nothing_grows(self):
        self.assertEqual(self.ask(b"grow m 8 8\nspan m 8 8\n"), b"error word\n" * 2)
        with self.client(1) as client, self.assertRaises(vmemd.NoFit):
            client.lease("m", 8, min=8)

    def test_input_that_ends_in_a_line(self):
        with self.client(1) as client:
            client.lease("m", 8)
        self.server.stdin.write("grow m 8 8\n")
        self.server.stdin.flush()
        self.assertEqual(self.server.stdout.readline(), "ok\n")
        self.server.stdin.write("grow m 16 8")
        self.server.stdin.close()
        self.told_at_end = "error badline\n"


@needs_connections
class OperatedOfMany(Operated):
    connections = 16


@needs_serve
class Unheard(unittest.TestCase):
    """A server whose answers can't be written any more goes on until its input ends."""

    def test_it_serves_on(self):
        reading, writing = os.pipe()
        with open(reading, "rb") as given, tempfile.NamedTemporaryFile() as config:
            config.write(b"root m 0 8 1 best 0\n")
            config.flush()
            words = [PROGRAM, "serve", "127.0.0.1:0", config.name, "2"]
            server = subprocess.Popen(words, stdin=given, stdout=subprocess.PIPE,
                                      stderr=subprocess.PIPE, text=True)
            port = int(server.stdout.readline().rpartition(":")[2])
        with server:
            server.stdout.close()
            os.write(writing, b"grow m 8 8\n" * 3)
            time.sleep(0.3)
            with vmemd.Client("127.0.0.1", port, 1) as client:
                self.assertEqual(client.lease("m", 8).base, 0)
            os.write(writing, b"grow m 100 8\n")
            with vmemd.Client("127.0.0.1", port, 2) as client, self.assertRaises(vmemd.NoFit):
                client.lease("m", 8, min=100)
            self.assertIsNone(server.poll())
            os.close(writing)
            self.assertEqual(server.wait(20), 1)
            self.assertEqual(logged(server.stderr.read()), ["vmemd: write"])


@needs_serve
class Held(unittest.TestCase):
    """A server as its unit runs it, whose operator writes to a pipe."""

    hold = os.path.abspath(os.path.join(__file__, "../../../packaging/vmemd-hold"))

    def test_its_operator_writes_to_a_pipe(self):
        with tempfile.TemporaryDirectory() as folder:
            config, pipe = os.path.join(folder, "config"), os.path.join(folder, "operator")
            with open(config, "w", encoding="ascii") as opened:
                opened.write("root m 0 8 1 best 0\n")
            words = ["sh", self.hold, PROGRAM, "serve", "127.0.0.1:0", config, "1"]
            server = subprocess.Popen(words, stdout=subprocess.PIPE, stderr=subprocess.PIPE,
                                      env={**os.environ, "RUNTIME_DIRECTORY": folder}, text=True)
            with server:
                self.assertRegex(server.stdout.readline(), "^listening ")
                for line, told in (("grow m 8 8", "ok"), ("grow m 8 8", "error range"),
                                   ("audit", "error word"), ("grow m 16 8", "ok")):
                    with open(pipe, "w", encoding="ascii") as operator:
                        operator.write(f"{line}\n")
                    self.assertEqual(server.stdout.readline(), f"{told}\n")
                # (who has the pipe open keeps no server from its end)
                with open(pipe, "w", encoding="ascii"):
                    server.send_signal(signal.SIGTERM)
                    out, err = server.communicate(timeout=10)
            self.assertEqual((out, server.returncode), ("closed\n", 0))
            self.assertEqual(logged(err), ["[INFO  vmemd] vmemd closed"])


class Nonblocking(Served):
    """A server whose standard input doesn't let it wait, as one that another program set so."""

    def start(self, words):
        self.reading, self.writing = os.pipe()
        os.set_blocking(self.reading, False)
        return super().start(words, stdin=self.reading)

    def tearDown(self):
        os.write(self.writing, b"grow m 4096 8\n")
        self.assertEqual(self.server.stdout.readline(), "ok\n")
        for end in (self.reading, self.writing):
            os.close(end)
        super().tearDown()

    def test_it_serves_until_its_input_ends(self):
        with self.client(1) as client:
            client.lease("m", 4096)
            with self.assertRaises(subprocess.TimeoutExpired):
                self.server.wait(0.3)
            client.release_all()


@needs_serve
class Unreachable(unittest.TestCase):
    """A server that no connection can reach, its own neither, ends in time all the same: it runs in
    a network of its own, whose loopback interface is down."""

    apart = ["unshare", "--map-root-user", "--net"]
    hold = Held.hold
    forms = [("1",), ("4",), ("64",), *[("4", "--connections", "100")] * HAS_CONNECTIONS]

    @classmethod
    def setUpClass(cls):
        try:
            ran = subprocess.run([*cls.apart, "true"], capture_output=True, timeout=60)
            is_allowed = ran.returncode == 0
        except OSError:
            is_allowed = False
        if not is_allowed:
            why = "unshare can't make a network here: stops without loopback are left out"
            print(f"test_server: {why}", file=sys.stderr)
            raise unittest.SkipTest(why)

    def stop(self, held, form, end):
        """Starts a server, ends it as told, and says what it wrote then and its status."""
        words = [*self.apart, *held, PROGRAM, "serve", "127.0.0.1:0", os.devnull, *form]
        with subprocess.Popen(words, stdin=subprocess.PIPE, stdout=subprocess.PIPE,
                              stderr=subprocess.PIPE, text=True, start_new_session=True) as server:
            self.assertRegex(server.stdout.readline(), "^listening 127.0.0.1:[0-9]+\n$")
            end(server)
            try:
                out, err = server.communicate(timeout=10)
            except subprocess.TimeoutExpired:
                os.killpg(server.pid, signal.SIGKILL)
                raise
        return out, logged(err), server.returncode

    closed = ("closed\n", ["[INFO  vmemd] vmemd closed"], 0)

    def test_at_the_end_of_its_input(self):
        for form in self.forms:
            self.assertEqual(self.stop([], form, lambda _: None), self.closed)

    def test_at_a_signal_to_what_holds_its_input(self):
        term = lambda server: server.send_signal(signal.SIGTERM)
        for form in self.forms[1::2]:
            self.assertEqual(self.stop(["sh", self.hold], form, term), self.closed)


if __name__ == "__main__":
    unittest.main()
