"""What the tests over a running server have in common: VMEMD=bin/vmemd python3 -m unittest

They start `$VMEMD serve`, and are left out where that program has no serve. VMEMD_SECONDS is how
long the processes of a crowd run, 5 where it isn't set."""
import os
import resource
import socket
import struct
import subprocess
import tempfile
import time
import unittest

import vmemd

PROGRAM = os.environ.get("VMEMD", "")
SECONDS = float(os.environ.get("VMEMD_SECONDS", "5"))
CONFIG = "root m 0 4096 1 best 0\nroot pid 1 8 1 next 0\nroot q 0 64 4 instant 0\n"


def help_of(*words):
    if not PROGRAM:
        return ""
    told = subprocess.run([PROGRAM, *words, "--help"], capture_output=True, text=True, timeout=60)
    return told.stdout


HAS_SERVE = any(it.split()[:1] == ["serve"] for it in help_of().splitlines())
HAS_CONNECTIONS = HAS_SERVE and "--connections" in help_of("serve")

needs_serve = unittest.skipUnless(HAS_SERVE, "VMEMD names no program with serve")
needs_connections = unittest.skipUnless(HAS_CONNECTIONS, "VMEMD's serve has no --connections")


def needs_descriptors(count):
    """Leaves a test out where a process may not have so many descriptors."""
    soft, hard = resource.getrlimit(resource.RLIMIT_NOFILE)
    most = count if hard == resource.RLIM_INFINITY else min(hard, count)
    if soft != resource.RLIM_INFINITY and soft < most:
        resource.setrlimit(resource.RLIMIT_NOFILE, (most, hard))
    is_enough = hard == resource.RLIM_INFINITY or hard >= count
    return unittest.skipUnless(is_enough, f"a process may not have {count} descriptors here")


def logged(text):
    """The lines of standard error, without the one by which a build that isn't proved says so."""
    return [it for it in text.splitlines() if not it.startswith("vmemd-quick: ")]


def small_buffers(link):
    """Has so few answers wait in the system that its peer soon waits to write more."""
    link.setsockopt(socket.SOL_SOCKET, socket.SO_RCVBUF, 4096)


def reset(link):
    """Ends a connection with no word of what its peer sent or sends."""
    link.setsockopt(socket.SOL_SOCKET, socket.SO_LINGER, struct.pack("ii", 1, 0))
    link.close()


def fill(link, seconds=1):
    """Sends lines and takes no answers, until its peer hasn't taken any for so long."""
    small_buffers(link)
    link.settimeout(seconds)
    try:
        while True:
            link.sendall(b"hello 1 1\n" * 1000)
    except TimeoutError:
        pass


@needs_serve
class Served(unittest.TestCase):
    """Each test has a server of its own; at its end it tells what the test says, and that it
    closes, with status 0, and has logged just these faults. Without `connections` it serves one
    for each worker."""

    workers = 4
    connections = None
    options = ()
    faults = ()
    told_at_end = ""
    config_lines = CONFIG

    def setUp(self):
        self.folder = tempfile.TemporaryDirectory()
        self.config = os.path.join(self.folder.name, "config")
        with open(self.config, "w", encoding="ascii") as opened:
            opened.write(self.config_lines)
        many = () if self.connections is None else ("--connections", str(self.connections))
        words = [PROGRAM, "serve", *self.options, *many, "127.0.0.1:0", self.config,
                 str(self.workers)]
        self.server = self.start(words)
        told, _, address = self.server.stdout.readline().strip().partition(" ")
        self.assertEqual(told, "listening")
        self.port, self.links = int(address.rpartition(":")[2]), []

    def start(self, words, stdin=subprocess.PIPE):
        return subprocess.Popen(words, stdin=stdin, stdout=subprocess.PIPE, stderr=subprocess.PIPE,
                                text=True)

    def tearDown(self):
        for it in self.links:
            it.close()
        if self.server.stdin and self.server.stdin.closed:
            self.server.stdin = None
        try:
            out, err = self.server.communicate(timeout=60)
        finally:
            self.server.kill()
            self.folder.cleanup()
        self.assertEqual((out, self.server.returncode), (self.told_at_end + "closed\n", 0))
        self.assertEqual(logged(err), [*self.faults, "[INFO  vmemd] vmemd closed"])

    def client(self, number, **options):
        port = options.pop("port", self.port)
        return vmemd.Client("127.0.0.1", port, number, **options)

    def connected(self):
        """A connection, open until it is closed, or the test has ended."""
        link = socket.create_connection(("127.0.0.1", self.port), 20)
        link.setsockopt(socket.IPPROTO_TCP, socket.TCP_NODELAY, 1)
        self.links.append(link)
        return link

    def opened(self, number):
        """A connection whose hello was answered."""
        link = self.connected()
        link.sendall(b"hello %d 1\n" % number)
        self.assertEqual(link.recv(100), b"welcome %d 1\n" % number)
        return link

    def ask(self, text):
        """All that a connection of its own is answered to this text."""
        with self.connected() as link:
            link.sendall(text)
            link.shutdown(socket.SHUT_WR)
            with link.makefile("rb") as answers:
                return answers.read()

    def memory(self):
        """The server's resident memory, in KiB."""
        with open(f"/proc/{self.server.pid}/status", encoding="ascii") as status:
            told = dict(it.split(":", 1) for it in status)
        return int(told["VmRSS"].split()[0])

    def stops_between(self, least, most):
        """Ends the server's input; it ends in time."""
        begun = time.monotonic()
        self.server.stdin.close()
        self.server.wait(most + 20)
        took = time.monotonic() - begun
        self.assertTrue(least <= took <= most, took)

    def leases_in_time(self, number, arena, size, seconds):
        """A lease of units that come back from caches in time, though it is asked for over and
        over: what is refused keeps no CPU from rest."""
        ends = time.monotonic() + seconds
        with self.client(number, keep=False) as client:
            while True:
                try:
                    return client.lease(arena, size)
                except vmemd.NoFit:
                    self.assertLess(time.monotonic(), ends)
                    time.sleep(0.1)
