"""Tests of vmemd_top: VMEMD=bin/vmemd python3 -m unittest test_top"""
import argparse
import os
import pty
import select
import subprocess
import sys
import time
import unittest

import vmemd_top
from ports import free_port
from test_watch import Watching


class Top(unittest.TestCase):
    """What vmemd_top makes of samples."""

    TEXT = ('# HELP vmemd_units Units.\n# TYPE vmemd_units gauge\n'
            'vmemd_arena_info{arena="pid",source="space",quantum="4",qmax="16"} 1\n'
            + "".join(f'vmemd_units{{arena="pid",home="{home}"}} {n}\n' for home, n in
                      (("span", 100), ("free", 20), ("slab", 10), ("magazine", 20),
                       ("exported", 10), ("leased", 40))))

    def test_bars(self):
        look = vmemd_top.Look(1.0, vmemd_top.samples_in(self.TEXT))
        (labels, units), = vmemd_top.arenas(look)
        self.assertEqual(labels["source"], "space")
        self.assertEqual(vmemd_top.bar(units, 10), "####+++=..")
        self.assertEqual(vmemd_top.bar({it: 0 for it in units}, 5), ".....")
        shown = list(vmemd_top.lines_of(None, look, 11))
        self.assertIn("pid from space: 40 leased, 30 cached, 10 exported, 20 free of 100", shown)

    def test_addresses(self):
        for given in ("127.0.0.1:7071", "http://127.0.0.1:7071", "http://127.0.0.1:7071/",
                      "HTTP://127.0.0.1:7071/metrics"):
            self.assertEqual(vmemd_top.address_of(given), "127.0.0.1:7071")
        self.assertEqual(vmemd_top.address_of("http://[::1]:7071/"), "[::1]:7071")
        for given in ("https://127.0.0.1:7071", "http://", ""):
            with self.assertRaises(argparse.ArgumentTypeError):
                vmemd_top.address_of(given)

    def test_no_sample(self):
        with self.assertRaises(ValueError):
            vmemd_top.samples_in("<html>\n")

    def test_growth_in_a_second(self):
        text = ('vmemd_lines_total{{word="hello"}} {}\nvmemd_lines_total{{word="lease"}} {}\n'
                'vmemd_refusals_total{{word="nofit"}} {}\n')
        before, now = (vmemd_top.Look(at, vmemd_top.samples_in(text.format(*counts)))
                       for at, *counts in ((1.0, 1, 5, 0), (3.0, 2, 24, 6)))
        self.assertIn("6 requests, 0 refused", vmemd_top.lines_of(None, before, 80))
        self.assertIn("26 requests (10/s), 6 refused (3/s)", vmemd_top.lines_of(before, now, 80))


class NoTerminal(unittest.TestCase):
    """What it says where it can't show anything: one line, and a status that isn't 0."""

    words = [sys.executable, vmemd_top.__file__]

    def is_told(self, ran, status, pattern):
        self.assertEqual((ran.returncode, ran.stdout), (status, ""), ran.stderr)
        self.assertEqual(len(ran.stderr.splitlines()), 1, ran.stderr)
        self.assertRegex(ran.stderr, pattern)

    def test_output_that_is_no_terminal(self):
        ours, its = pty.openpty()
        try:
            for stdin in (subprocess.DEVNULL, its):
                ran = subprocess.run(self.words, stdin=stdin, stdout=subprocess.PIPE,
                                     stderr=subprocess.PIPE, text=True, timeout=60)
                self.is_told(ran, 2, "^vmemd_top: standard output is not a terminal; --once ")
        finally:
            os.close(ours)
            os.close(its)

    def in_terminal(self, stdin, **environment):
        """It runs with a terminal as its standard output."""
        ours, its = pty.openpty()
        try:
            return subprocess.run(self.words, stdin=its if stdin is None else stdin, stdout=its,
                                  stderr=subprocess.PIPE, text=True, timeout=60,
                                  env={**os.environ, **environment})
        finally:
            os.close(ours)
            os.close(its)

    def test_input_that_is_no_terminal(self):
        ran = self.in_terminal(subprocess.DEVNULL, TERM="xterm")
        self.assertEqual((ran.returncode, ran.stderr.count("\n")), (2, 1), ran.stderr)
        self.assertIn("standard input is not a terminal", ran.stderr)

    def test_a_terminal_that_is_unknown(self):
        ran = self.in_terminal(None, TERM="no-such-terminal")
        self.assertEqual((ran.returncode, ran.stderr.count("\n")), (2, 1), ran.stderr)
        self.assertIn("--once", ran.stderr)

    def test_a_server_that_is_not_there(self):
        words = [*self.words, "--once", f"http://127.0.0.1:{free_port()}/"]
        ran = subprocess.run(words, capture_output=True, text=True, timeout=60)
        self.is_told(ran, 1, "^vmemd_top: 127.0.0.1:[0-9]+: .*refused")


class Shown(Watching):
    """What it shows of a server."""

    def test_once_needs_no_terminal(self):
        for head, tail in (("", ""), ("http://", ""), ("http://", "/")):
            words = [sys.executable, vmemd_top.__file__, "--once",
                     f"{head}127.0.0.1:{self.watched}{tail}"]
            ran = subprocess.run(words, stdin=subprocess.DEVNULL, capture_output=True, text=True,
                                 timeout=60)
            self.assertEqual((ran.returncode, ran.stderr), (0, ""))
            self.assertIn("m: 0 leased, 0 cached, 0 exported, 4096 free of 4096", ran.stdout)

    def test_it_ends_with_q(self):
        with self.client(1) as client:
            client.lease("m", 100)
            status, shown = self.shown()
        self.assertEqual(status, 0, shown)
        self.assertIn(b"m: 100 leased, 0 cached, 0 exported, 3996 free of 4096", shown)

    def shown(self):
        """How it ends once q is typed, and what it showed until then."""
        ours, its = pty.openpty()
        words = [sys.executable, vmemd_top.__file__, f"http://127.0.0.1:{self.watched}",
                 "--seconds", "60"]
        given = {"TERM": "xterm", "LINES": "30", "COLUMNS": "90", "http_proxy": "http://127.0.0.1:1"}
        ran = subprocess.Popen(words, stdin=its, stdout=its, stderr=its,
                               env={**os.environ, **given})
        os.close(its)
        shown, ends = b"", time.monotonic() + 20
        while b"q ends" not in shown and time.monotonic() < ends:
            if select.select([ours], [], [], 1)[0]:
                shown += os.read(ours, 4096)
        os.write(ours, b"q")
        status = ran.wait(20)
        os.close(ours)
        return status, shown


if __name__ == "__main__":
    unittest.main()
