"""Tests of --metrics over a running server: VMEMD=bin/vmemd python3 -m unittest test_watch"""
import html.parser
import http.client
import json
import os
import re
import resource
import shutil
import socket
import subprocess
import time
import unittest
import urllib.parse
import urllib.request
from concurrent.futures import ThreadPoolExecutor

import vmemd_top
from ports import free_port
from served import HAS_SERVE, PROGRAM, SECONDS, Served, help_of

HAS_METRICS = HAS_SERVE and "--metrics" in help_of("serve")
HOMES = ("free", "slab", "magazine", "exported", "leased")


class Cells(html.parser.HTMLParser):
    """The numbers of a page, by the sample that each is the value of."""

    def __init__(self, text):
        super().__init__()
        self.key, self.found, self.links = None, {}, []
        self.feed(text)

    def handle_starttag(self, tag, attrs):
        attrs = dict(attrs)
        self.key = attrs.get("data-sample")
        self.links += [it for key, it in attrs.items() if key in ("src", "href")]

    def handle_data(self, data):
        if self.key is not None:
            self.found[self.key], self.key = int(data), None


class Prometheus:
    """A Prometheus server that looks each second at what is watched at a port."""

    def __init__(self, folder, watched):
        self.port, self.config = free_port(), os.path.join(folder, "prometheus.yml")
        with open(self.config, "w", encoding="ascii") as opened:
            opened.write("global: {scrape_interval: 1s, scrape_timeout: 1s}\nscrape_configs:\n"
                         f"- {{job_name: v, static_configs: [{{targets: ['127.0.0.1:{watched}']}}]}}\n")
        self.words = ["prometheus", f"--config.file={self.config}",
                      f"--storage.tsdb.path={folder}/samples",
                      f"--web.listen-address=127.0.0.1:{self.port}"]

    def __enter__(self):
        self.ran = subprocess.Popen(self.words, stdout=subprocess.DEVNULL,
                                    stderr=subprocess.DEVNULL)
        return self

    def __exit__(self, *fault):
        self.ran.terminate()
        self.ran.wait(60)

    def ask(self, query):
        """The values that a query has, by their labels but for where they were asked."""
        words = urllib.parse.urlencode({"query": query})
        with urllib.request.urlopen(f"http://127.0.0.1:{self.port}/api/v1/query?{words}",
                                    timeout=20) as answer:
            rows = json.load(answer)["data"]["result"]
        return {tuple(value for key, value in it["metric"].items()
                      if key not in ("__name__", "instance", "job")): float(it["value"][1])
                for it in rows}

    def has(self, query, wanted, seconds=30):
        """The query comes to have these values."""
        ends, told = time.monotonic() + seconds, None
        while told != wanted:
            if time.monotonic() > ends:
                raise AssertionError(f"{query}: {told}")
            time.sleep(0.2)
            try:
                told = self.ask(query)
            except OSError as fault:
                told = fault


@unittest.skipUnless(HAS_METRICS, "VMEMD's serve has no --metrics")
class Watching(Served):
    """A server that is watched."""

    def setUp(self):
        self.watched = free_port()
        self.options = ("--metrics", f"127.0.0.1:{self.watched}")
        super().setUp()

    def asked(self, method, path, body=None):
        """A request's answer: its status, its fields and its bytes."""
        link = http.client.HTTPConnection("127.0.0.1", self.watched, timeout=20)
        link.request(method, path, body)
        answer = link.getresponse()
        told = answer.status, dict(answer.getheaders()), answer.read()
        link.close()
        return told

    def samples(self):
        status, fields, text = self.asked("GET", "/metrics")
        self.assertEqual((status, fields["content-type"]),
                         (200, "text/plain; version=0.0.4; charset=utf-8"))
        return vmemd_top.samples_in(text.decode("ascii"))

    def rows(self, target):
        """The rows of a list."""
        status, fields, text = self.asked("GET", target)
        self.assertEqual((status, fields["content-type"]), (200, "application/json"), text)
        # (the text is one line for each row, and two more)
        rows = json.loads(text)
        self.assertEqual(len(text.splitlines()), len(rows) + 2)
        return rows

    def sent(self, data, seconds=8):
        """What comes on a connection that sends this, until it is ended, and after how long."""
        began = time.monotonic()
        with socket.create_connection(("127.0.0.1", self.watched), seconds) as link:
            link.sendall(data)
            told = b""
            try:
                while piece := link.recv(65536):
                    told += piece
            except ConnectionResetError:
                pass
        return told, time.monotonic() - began

    def units(self):
        """The units of each arena, by their homes."""
        found = {}
        for (name, labels), value in self.samples().items():
            if name == "vmemd_units":
                labels = dict(labels)
                found.setdefault(labels["arena"], {})[labels["home"]] = value
        return found

    def lines(self):
        return sum(it for (name, _), it in self.samples().items() if name == "vmemd_lines_total")


class Watched(Watching):
    """What is told of a server with three roots."""

    def test_families_are_whole(self):
        _, _, text = self.asked("GET", "/metrics")
        seen, now = [], None
        for line in text.decode("ascii").splitlines():
            if line.startswith("# HELP "):
                now = line.split()[2]
                self.assertNotIn(now, seen)
                seen.append(now)
            elif line.startswith("# TYPE "):
                _, _, name, kind = line.split()
                self.assertEqual((name, kind == "counter"), (now, now.endswith("_total")))
            else:
                self.assertEqual(line.partition(" ")[0].partition("{")[0], now)

    @unittest.skipUnless(shutil.which("promtool"), "there is no promtool")
    def test_promtool_finds_nothing(self):
        _, _, text = self.asked("GET", "/metrics")
        ran = subprocess.run(["promtool", "check", "metrics"], input=text, capture_output=True,
                             timeout=60)
        self.assertEqual((ran.returncode, ran.stdout), (0, b""))

    @unittest.skipUnless(shutil.which("prometheus"), "there is no prometheus")
    def test_prometheus_has_the_sums(self):
        with self.client(1) as client, Prometheus(self.folder.name, self.watched) as prometheus:
            client.lease("m", 100)
            client.lease("q", 8)
            ends = time.monotonic() + SECONDS
            prometheus.has("vmemd_leases", {(): 2})
            prometheus.has("sum by (arena) (vmemd_units{home='leased'})",
                           {("m",): 100, ("pid",): 0, ("q",): 8})
            # each second another look, and of each the homes are the span
            while time.monotonic() < ends:
                client.release(client.lease("m", 64))
            prometheus.has("sum by (arena) (vmemd_units{home!='span'})",
                           {("m",): 4096, ("pid",): 8, ("q",): 64})
            prometheus.has("sum by (arena) (vmemd_units{home='span'})",
                           {("m",): 4096, ("pid",): 8, ("q",): 64})
            prometheus.has("min_over_time(up{}[1h])", {(): 1})
            prometheus.has("sum(vmemd_lines_total)", {(): self.lines()})
            prometheus.has(f"count_over_time(up[1h]) >= bool {SECONDS / 2}", {(): 1})
            # what is told as done lately is so of a minute, where one looks each second
            lately = re.search(rb"In the last ([0-9]+) seconds: [1-9]", self.asked("GET", "/")[2])
            self.assertLess(int(lately[1]), 65)

    def test_units_sum_to_the_span(self):
        with self.client(1) as client:
            client.lease("m", 100)
            client.lease("q", 8)
            numbers = client.lease("m", 50)
            client.release(numbers)
            found = self.units()
        self.assertEqual(set(found), {"m", "pid", "q"})
        for units in found.values():
            self.assertEqual(sum(units[it] for it in HOMES), units["span"])
        self.assertEqual((found["m"]["leased"], found["q"]["leased"]), (100, 8))
        self.assertEqual((found["m"]["span"], found["pid"]["span"]), (4096, 8))

    def test_what_is_asked_and_answered_is_counted(self):
        before = self.samples()
        link = self.connected()
        for line, told in ((b"hello 1 1\n", b"welcome 1 1\n"),
                           (b"lease 1 1 1 m 8\n", b"granted 1 1 1 m 0 8\n"),
                           (b"lease 1 1 2 no 8\n", b"refused 1 1 2 noarena\n"),
                           (b"lease 1 1 3 m 5000\n", b"refused 1 1 3 nofit\n"),
                           (b"release 1 1 4 m 0\n", b"released 1 1 4\n"),
                           (b"release 1 1 4 m 0\n", b"released 1 1 4\n"),
                           (b"release 1 1 2 m 0\n", b"stale 1 1 2 4\n"),
                           (b"grow m 0 8\n", b"error word\n")):
            link.sendall(line)
            self.assertEqual(link.recv(100), told)
        now = self.samples()
        grown = {key: now[key] - before[key] for key in now
                 if key[0].endswith("_total") and now[key] != before[key]}
        word = lambda family, its: (f"vmemd_{family}_total", (("word", its),))
        self.assertEqual(grown, {
            ("vmemd_connections_total", ()): 1, word("lines", "hello"): 1,
            word("lines", "lease"): 3, word("lines", "release"): 3,
            word("replies", "welcome"): 1, word("replies", "granted"): 1,
            word("replies", "refused"): 2, word("replies", "released"): 2,
            word("replies", "stale"): 1, word("replies", "error"): 1,
            word("refusals", "noarena"): 1,
            word("refusals", "nofit"): 1})
        self.assertEqual((now["vmemd_connections", ()], now["vmemd_clients", ()]), (1, 1))

    def test_the_page_has_the_numbers_of_the_samples(self):
        with self.client(1) as client:
            client.lease("m", 100)
            _, fields, page = self.asked("GET", "/")
            samples = self.asked("GET", "/metrics")[2].decode("ascii").splitlines()
        self.assertEqual(fields["content-type"], "text/html; charset=utf-8")
        cells = Cells(page.decode("utf-8"))
        told = dict(it.rsplit(" ", 1) for it in samples if not it.startswith("#"))
        shown = {key: value for key, value in cells.found.items() if "uptime" not in key}
        self.assertEqual(shown, {key: int(told[key]) for key in shown})
        left = [it for it in told if it not in cells.found and "_info" not in it]
        self.assertEqual(left, [])
        # (it asks for nothing by itself, and each link of it leads somewhere)
        for link in set(cells.links):
            if not link.startswith("#"):
                self.assertEqual(self.asked("GET", link)[0], 200)
        self.assertEqual(len(cells.links), 3)

    def test_who_has_a_unit(self):
        row = lambda arena, base, units, client, request: {
            "arena": arena, "base": base, "units": units, "client": client, "incarnation": 1,
            "request": request}
        self.assertEqual(self.asked("GET", "/leases?arena=m&from=0&count=1000")[2], b"[\n]\n")
        ones, two = self.opened(1), self.opened(2)
        for link, line, told in ((two, b"lease 2 1 1 m 100\n", b"granted 2 1 1 m 0 100\n"),
                                 (ones, b"lease 1 1 1 m 50\n", b"granted 1 1 1 m 100 50\n"),
                                 (two, b"lease 2 1 2 m 8\n", b"granted 2 1 2 m 150 8\n"),
                                 (two, b"lease 2 1 3 pid 1\n", b"granted 2 1 3 pid 1 1\n"),
                                 (two, b"release 2 1 4 m 0\n", b"released 2 1 4\n")):
            link.sendall(line)
            self.assertEqual(link.recv(100), told)
        middle, last, pid = row("m", 100, 50, 1, 1), row("m", 150, 8, 2, 2), row("pid", 1, 1, 2, 3)
        # the lease that has the unit is the first, else the next one
        for first, found in ((0, [middle, last]), (149, [middle, last]), (150, [last]),
                             (157, [last]), (158, [])):
            self.assertEqual(self.rows(f"/leases?arena=m&from={first}&count=1000"), found)
            self.assertEqual(self.rows(f"/leases?count=1&from={first}&arena=m"), found[:1])
        self.assertEqual(self.rows("/leases?arena=pid&from=0&count=1"), [pid])
        self.assertEqual(self.rows("/clients?from=0&count=1000"), [middle, last, pid])
        self.assertEqual(self.rows("/clients?from=2&count=1000"), [last, pid])
        self.assertEqual(self.rows("/clients?from=2&count=1"), [last])
        self.assertEqual(self.rows("/clients?from=3&count=1"), [])

    def test_many_rows_come_in_pages(self):
        with self.client(1) as client:
            bases = sorted(client.lease("m", 1).base for _ in range(600))
            with self.client(2) as other:
                bases = sorted(bases + [other.lease("m", 1).base for _ in range(600)])
                first = self.rows("/leases?arena=m&from=0&count=1000")
                self.assertEqual([it["base"] for it in first], bases[:1000])
                rest = self.rows(f"/leases?arena=m&from={bases[1000]}&count=1000")
                self.assertEqual([it["base"] for it in rest], bases[1000:])
                ends = [it["client"] for it in self.rows("/clients?from=1&count=700")]
                self.assertEqual(ends, [1] * 600 + [2] * 100)

    def test_leases_of_many_clients_are_counted(self):
        # (those of 256 clients are counted under one look at the book)
        lines = (b"hello %d 1\nlease %d 1 1 m 2\n" % (it, it) for it in range(1, 601))
        told = self.ask(b"".join(lines))
        self.assertEqual(told.count(b"granted"), 600)
        now = self.samples()
        self.assertEqual((now["vmemd_clients", ()], now["vmemd_leases", ()]), (600, 600))
        ends = [it["client"] for it in self.rows("/clients?from=255&count=1000")]
        self.assertEqual(ends, list(range(255, 601)))

    def test_bad_queries(self):
        for query in ("", "?", "?arena=m", "?arena=m&from=0", "?from=0&count=1",
                      "?arena=M&from=0&count=1", "?arena=&from=0&count=1",
                      "?arena=m&from=-1&count=1", "?arena=m&from=01&count=1",
                      "?arena=m&from=0&count=0", "?arena=m&from=0&count=1001",
                      f"?arena=m&from={2**62 + 1}&count=1", "?arena=m&from=%30&count=1"):
            status, _, text = self.asked("GET", f"/leases{query}")
            self.assertEqual((status, text.count(b"\n")), (400, 1), query)
        for query in ("", "?from=1", "?count=1", "?from=x&count=1", "?from=1&count=1001"):
            self.assertEqual(self.asked("GET", f"/clients{query}")[0], 400, query)
        self.assertEqual(self.asked("GET", "/leases?arena=no&from=0&count=1")[0], 404)
        self.assertEqual(self.asked("POST", "/leases?arena=no&from=0&count=1", b"")[0], 405)
        self.assertEqual(self.asked("HEAD", "/clients?from=1&count=1")[::2], (200, b""))
        self.assertEqual(self.rows(f"/leases?arena=m&from={2**62}&count=1"), [])

    def test_version_and_uptime(self):
        before, began = self.samples()["vmemd_uptime_seconds", ()], time.monotonic()
        told = subprocess.run([PROGRAM, "--version"], capture_output=True, text=True, timeout=60)
        self.assertIn(("vmemd_build_info", (("version", told.stdout.split()[1]),)), self.samples())
        time.sleep(2)
        now = self.samples()["vmemd_uptime_seconds", ()]
        self.assertTrue(before + 1 <= now <= before + 2 + time.monotonic() - began, (before, now))

    def test_health(self):
        self.assertEqual(self.asked("GET", "/healthz")[::2], (200, b"ok\n"))
        # (it ends once this connection has, and shows itself until then)
        self.opened(1)
        self.server.stdin.close()
        ends = time.monotonic() + 10
        while self.asked("GET", "/healthz")[0] == 200:
            self.assertLess(time.monotonic(), ends)
        self.assertEqual(self.asked("GET", "/healthz")[::2], (503, b"stopping\n"))
        self.assertEqual(self.samples()["vmemd_connections", ()], 1)

    def test_heads_and_mistakes(self):
        status, fields, text = self.asked("HEAD", "/metrics")
        self.assertEqual((status, text), (200, b""))
        self.assertGreater(int(fields["content-length"]), 1000)
        self.assertEqual(self.asked("GET", "/metrics?x=1")[0], 200)
        for path in ("/metric", "/metrics/", "//", "/index.html"):
            self.assertEqual(self.asked("GET", path)[0], 404)
        for method in ("POST", "PUT", "DELETE"):
            status, fields, _ = self.asked(method, "/metrics", b"x")
            self.assertEqual((status, fields["allow"]), (405, "GET, HEAD"))
            self.assertEqual(self.asked(method, "/no")[0], 404)
        for length, status in ((1024, 405), (1025, 413)):
            self.assertEqual(self.asked("POST", "/", b"x" * length)[0], status)

    def test_a_silent_connection_is_ended_in_time(self):
        with socket.create_connection(("127.0.0.1", self.watched), 20) as silent:
            began = time.monotonic()
            # (one is answered at a time, so this one after it)
            self.assertEqual(self.asked("GET", "/healthz")[0], 200)
            self.assertTrue(4 < time.monotonic() - began < 7)
            self.assertEqual(silent.recv(100), b"")

    def test_half_a_request_is_ended_in_time(self):
        with socket.create_connection(("127.0.0.1", self.watched), 0.3) as link:
            began, told = time.monotonic(), None
            link.sendall(b"GET /metrics HTTP/1.1\r\nHost: ")
            # (however often a further byte comes)
            while told is None and time.monotonic() - began < 9:
                try:
                    told = link.recv(100)
                except TimeoutError:
                    link.sendall(b"x")
                except ConnectionError:
                    told = b""
        self.assertEqual(told, b"")
        self.assertTrue(4 < time.monotonic() - began < 7)

    def test_a_request_that_is_too_long_is_answered_or_ended(self):
        told, seconds = self.sent(b"GET /" + b"x" * 100_000 + b" HTTP/1.1\r\nHost: x\r\n\r\n")
        self.assertTrue(told[:12] in (b"", b"HTTP/1.1 414"), told[:40])
        self.assertLess(seconds, 7)
        told, seconds = self.sent(b"GET / HTTP/1.1\r\n" + b"A: b\r\n" * 10_000 + b"\r\n")
        self.assertTrue(told[:12] in (b"", b"HTTP/1.1 431"), told[:40])
        self.assertLess(seconds, 7)

    def test_one_host_is_named(self):
        # (an empty one will do, and HTTP/1.0 needs none)
        for version, hosts, status in ((b"1.1", b"", b"400"), (b"1.1", b"Host: x\r\n", b"200"),
                                       (b"1.1", b"Host:\r\n", b"200"), (b"1.0", b"", b"200"),
                                       (b"1.1", b"Host: x\r\nHost: x\r\n", b"400")):
            told, _ = self.sent(b"GET /healthz HTTP/" + version + b"\r\n" + hosts + b"\r\n")
            self.assertEqual(told.split()[1], status, (version, hosts))

    def test_lines_are_no_requests(self):
        told, _ = self.sent(b"hello 1 1\n")
        self.assertIn(told[:12], (b"", b"HTTP/1.1 400"))
        # (nor is a request a line)
        self.assertEqual(self.ask(b"GET /metrics HTTP/1.1\r\n\r\n"), b"error badline\n" * 2)

    def test_leases_go_on_beside_a_slow_scrape(self):
        with socket.create_connection(("127.0.0.1", self.watched)):
            began = time.monotonic()
            with self.client(1) as client:
                for _ in range(100):
                    client.release(client.lease("m", 1))
            self.assertLess(time.monotonic() - began, 4)


class WatchedTalks(Watched):
    """The same, of a server with a thread for each connection."""

    connections = 16

    def test_a_connection_too_many_is_counted(self):
        for number in range(1, 17):
            self.opened(number)
        with self.connected() as link:
            self.assertEqual(link.recv(100), b"error busy\n")
        now = self.samples()
        self.assertEqual([now[f"vmemd_connections{it}", ()] for it in ("", "_total", "_refused_total")],
                         [16, 16, 1])

    def test_a_connection_without_a_thread_is_counted(self):
        self.faults = ("vmemd: threads",)
        self.opened(1)
        # (there is no address left for a thread's stack, and none that a thread has left)
        limits = resource.prlimit(self.server.pid, resource.RLIMIT_AS)
        resource.prlimit(self.server.pid, resource.RLIMIT_AS, (1, limits[1]))
        with self.connected() as link:
            self.assertEqual(link.recv(100), b"")
        resource.prlimit(self.server.pid, resource.RLIMIT_AS, limits)
        now = self.samples()
        self.assertEqual([now[f"vmemd_connections{it}", ()] for it in ("", "_total", "_failed_total")],
                         [1, 1, 1])


class WatchedCpu(Watching):
    """What is told of connections that share one CPU."""

    workers, connections = 1, 16

    def test_lines_that_wait_are_counted(self):
        waits, ends = ("vmemd_cpu_waits_total", ()), time.monotonic() + 20
        self.opened(1)
        self.assertEqual(self.samples()[waits], 0)
        texts = [b"hello %d 1\n" % it * 2000 for it in range(1, 9)]
        while not self.samples()[waits]:
            self.assertLess(time.monotonic(), ends)
            with ThreadPoolExecutor(len(texts)) as threads:
                list(threads.map(self.ask, texts))
        self.assertLess(self.samples()[waits], self.lines())


class WatchedTree(Watching):
    """What is told of an arena that imports, and of one with caches."""

    config_lines = "root a 0 64 4 best 0\nchild b a 4 best 0 8\nroot c 100 64 1 instant 5\n"

    def test_each_home(self):
        link = self.opened(1)
        for line, told in ((b"lease 1 1 1 b 4\n", b"granted 1 1 1 b 0 4\n"),
                           (b"lease 1 1 2 c 1\n", b"granted 1 1 2 c 100 1\n")):
            link.sendall(line)
            self.assertEqual(link.recv(100), told)
        homes = lambda **units: {**dict.fromkeys((*HOMES, "span"), 0), **units}
        # b imports 8 units at least; a slab of c has 16, the next power of two above 3 times 5
        cached = homes(span=64, free=48, slab=15, leased=1)
        self.assertEqual(self.units(), {"a": homes(span=64, free=56, exported=8),
                                        "b": homes(span=8, free=4, leased=4), "c": cached})
        # what is released stays with the CPU
        link.sendall(b"release 1 1 3 c 100\n")
        self.assertEqual(link.recv(100), b"released 1 1 3\n")
        self.assertEqual(self.units()["c"], homes(span=64, free=48, slab=15, magazine=1))
        setups = [labels for name, labels in self.samples() if name == "vmemd_arena_info"]
        label = lambda *its: tuple(zip(("arena", "source", "quantum", "qmax"), its))
        self.assertEqual(setups, [label("a", "", "4", "0"), label("b", "a", "4", "0"),
                                  label("c", "", "1", "5")])
        self.assertIn(b', imports from <a href="#a">a</a>', self.asked("GET", "/")[2])

    def test_a_silent_watcher_keeps_it_from_its_end_no_longer(self):
        with socket.create_connection(("127.0.0.1", self.watched)):
            time.sleep(0.5)
            self.stops_between(0, 7)


if __name__ == "__main__":
    unittest.main()
