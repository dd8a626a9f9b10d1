#!/usr/bin/env python3
"""Shows a server of vmemd in a terminal: its arenas as bars, requests a second, refusals.

    vmemd_top.py [ADDRESS:PORT] [--seconds N] [--once]

It asks `http://ADDRESS:PORT/metrics` of a server that was started with `--metrics ADDRESS:PORT`
(127.0.0.1:7071 if none is given) every 2 seconds, or N. The address may also be given as that of
the server's page, `http://ADDRESS:PORT/`. It needs a terminal, and ends with q. `--once` prints one
look as lines of text and ends. It needs the standard library alone.

The exit status is 1 if `--once` gets no look at the server, and 2 if the arguments are wrong, or
there is no terminal and no `--once`."""
import argparse
import contextlib
import http.client
import os
import re
import sys
import time
import urllib.request
from collections import namedtuple

SAMPLE = re.compile(r'([a-z_]+)(?:\{(.*)\})? ([0-9]+)$')
LABEL = re.compile(r'([a-z]+)="([a-z0-9.]*)"(?:,|$)')
# what a bar is made of, from its begin on: the homes and the sign of each
PARTS = ((("leased",), "#"), (("slab", "magazine"), "+"), (("exported",), "="), (("free",), "."))

# (a server is asked itself, whatever proxy there is for others)
OPENER = urllib.request.build_opener(urllib.request.ProxyHandler({}))

# why there may be no look at a server
FAULTS = (OSError, ValueError, http.client.HTTPException)

Look = namedtuple("Look", "time samples")


def samples_in(text):
    """The samples of a text of Prometheus' format, by name and labels."""
    samples = {}
    for line in text.splitlines():
        if line and not line.startswith("#"):
            found = SAMPLE.match(line)
            if not found:
                raise ValueError(f"no sample: {line!r}")
            name, labels, value = found.groups()
            samples[name, tuple(LABEL.findall(labels or ""))] = int(value)
    return samples


def address_of(text):
    """The ADDRESS:PORT of an argument, which may be an http URL of that server."""
    scheme, _, rest = text.rpartition("://")
    address = rest.partition("/")[0]
    if scheme.lower() not in ("", "http") or not address:
        raise argparse.ArgumentTypeError(f"{text!r} isn't ADDRESS:PORT or http://ADDRESS:PORT")
    return address


def look_at(address, timeout=5):
    """What the server shows now."""
    with OPENER.open(f"http://{address}/metrics", timeout=timeout) as answer:
        return Look(time.monotonic(), samples_in(answer.read().decode("ascii")))


def total(look, name):
    """The sum of a family."""
    return sum(value for (its, _), value in look.samples.items() if its == name)


def words(look, name):
    """The values of a family by word."""
    return {dict(labels)["word"]: value for (its, labels), value in look.samples.items()
            if its == name}


def arenas(look):
    """The arenas, in order of setup: their labels, and their units by home."""
    units = {}
    for (name, labels), value in look.samples.items():
        if name == "vmemd_units":
            labels = dict(labels)
            units.setdefault(labels["arena"], {})[labels["home"]] = value
    for (name, labels), _ in look.samples.items():
        if name == "vmemd_arena_info":
            labels = dict(labels)
            yield labels, units[labels["arena"]]


def bar(units, width):
    """An arena's units as a row of signs."""
    span, signs, upto = max(units["span"], 1), "", 0
    for homes, sign in PARTS:
        upto += sum(units[it] for it in homes)
        signs += sign * (min(upto * width // span, width) - len(signs))
    return signs.ljust(width, ".")


def rate(before, now, name):
    """How much a family grew in a second; None where there is no look before."""
    if before is None or now.time <= before.time:
        return None
    return max(0, total(now, name) - total(before, name)) / (now.time - before.time)


def lines_of(before, now, width):
    """What is shown of two looks, as lines of text, with bars for this width."""
    value = lambda name: now.samples.get((name, ()), 0)
    version = next((dict(labels)["version"] for name, labels in now.samples
                    if name == "vmemd_build_info"), "")
    yield (f"vmemd {version}  up {value('vmemd_uptime_seconds')} s  "
           f"{value('vmemd_clients')} clients  {value('vmemd_leases')} leases")
    yield (f"{value('vmemd_connections')} connections, {value('vmemd_connections_total')} in all, "
           f"{value('vmemd_connections_refused_total')} refused, "
           f"{value('vmemd_connections_failed_total')} failed; "
           f"{value('vmemd_cpu_waits_total')} waits for a CPU")
    told = [f"{total(now, name)} {what}" + ("" if grown is None else f" ({grown:.0f}/s)")
            for name, what in (("vmemd_lines_total", "requests"),
                               ("vmemd_refusals_total", "refused"))
            for grown in [rate(before, now, name)]]
    yield ", ".join(told)
    yield "refused: " + ", ".join(f"{word} {n}" for word, n in
                                  words(now, "vmemd_refusals_total").items())
    yield ""
    for labels, units in arenas(now):
        source = labels["source"] and f" from {labels['source']}"
        yield (f"{labels['arena']}{source}: {units['leased']} leased, "
               f"{units['slab'] + units['magazine']} cached, {units['exported']} exported, "
               f"{units['free']} free of {units['span']}")
        yield bar(units, max(10, width - 1))
    yield ""
    yield "# leased  + cached  = exported  . free    q ends"


def run(screen, address, seconds):
    """Shows a look after another, until q."""
    import curses
    with contextlib.suppress(curses.error):
        curses.curs_set(0)
    before = now = None
    while True:
        try:
            before, now = now, look_at(address)
            shown = list(lines_of(before, now, screen.getmaxyx()[1]))
        except FAULTS as fault:
            shown = [f"{address}: {fault}", "q ends"]
        screen.erase()
        height, width = screen.getmaxyx()
        for row, line in enumerate(shown[:height]):
            screen.addnstr(row, 0, line, width - 1)
        screen.refresh()
        screen.timeout(max(1, int(1000 * seconds)))
        if screen.getch() in (ord("q"), ord("Q")):
            return


def stop(status, why):
    """Ends with one line on standard error."""
    print(f"vmemd_top: {why}", file=sys.stderr)
    sys.exit(status)


def main():
    words = argparse.ArgumentParser(description=__doc__.split("\n", maxsplit=1)[0])
    words.add_argument("address", nargs="?", default="127.0.0.1:7071", type=address_of,
                       help="ADDRESS:PORT of --metrics, or http://ADDRESS:PORT; else %(default)s")
    words.add_argument("--seconds", type=float, default=2, help="how long between two looks")
    words.add_argument("--once", action="store_true", help="one look, as text")
    given = words.parse_args()
    if given.once:
        try:
            print("\n".join(lines_of(None, look_at(given.address), 80)))
        except FAULTS as fault:
            stop(1, f"{given.address}: {fault}")
        return
    for end, name in ((1, "output"), (0, "input")):
        if not os.isatty(end):
            stop(2, f"standard {name} is not a terminal; --once prints one look as text")
    import curses
    try:
        curses.wrapper(run, given.address, given.seconds)
    except curses.error as fault:
        stop(2, f"this terminal can't be used ({fault}); --once prints one look as text")


if __name__ == "__main__":
    main()
