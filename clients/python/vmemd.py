"""A client of vmemd over TCP, with the standard library alone.

    import vmemd

    with vmemd.Client("127.0.0.1", 7070, number=7, incarnations="/var/lib/mine/vmemd") as client:
        pool = client.pool("pid")
        with pool.lease(8, align=8) as numbers:
            use(numbers.base, numbers.length)

**One process for each client number.** A client is a number, 1 to 65,536. The server keeps the
leases of different clients apart, but it can't tell two processes that use the same client number
from each other. Two guards catch the usual ways of sharing one:

- A Client belongs to the process that made it. In a process that was forked from that one
  (`os.fork`, multiprocessing, web servers that load before they fork) every call on it raises
  `ForkedClient` and sends nothing, except that `holds` returns False, `held` returns an empty list,
  and `disconnect` and the end of a `with` do nothing. Such a process makes a Client of its own,
  with another number. A Client can't be pickled or copied.
- If the server restarted, or if another process said hello with the same number, all leases of this
  client have ended. The next request raises `Superseded`, and so does every call after it, except
  those four, until `restart`: nothing else begins a new incarnation. The client learns this only
  from the server's reply to a request, so an idle client doesn't notice.

Each start of a client is an incarnation, with a greater number than the one before: the clock in
nanoseconds, or one more than the last if that is greater. With `incarnations` the last one is kept
in that file, so that the next is greater even if the clock was set back. When the server accepts
the hello of an incarnation, it ends the leases of the older ones. The requests of an incarnation
are numbered 1, 2, 3, ..

If a connection is cut, an answer doesn't come in time, or the server is busy, the client pauses,
connects again and sends the unanswered lines again, until `patience` is over. The server replies to
a line that it has settled before with the same reply, so nothing is leased or released twice. A
host name that can't be resolved for the first connection fails at once.

The end of `with vmemd.Client(..)` releases all leases that are still held, also if an exception
ends the block, unless `keep_leases=True`. There `timeout` and `patience` are 5 seconds (`LEAVING`)
at most, for each answer. If the release fails, an exception that ended the block is raised all the
same; without one, the error of the release is raised.

One request is outstanding at a time. With `window=8` up to eight are, so that many leases or
releases take fewer journeys over the network:

    with vmemd.Client("127.0.0.1", 7070, number=7, window=8) as client:
        numbers = client.lease_many("m", [8] * 100)
        client.release_many(numbers)

Several threads may use a Client; their calls go one after another. An open connection is one of
those that the server has room for: `keep=False` closes it whenever no answer is waited for.
"""
import contextlib
import os
import socket
import threading
import time
import weakref
from collections import deque, namedtuple

MOST = 1 << 62
MOST_CLIENTS = 65536
WIDEST = 8
LONGEST_REPLY = 255
# the most seconds of timeout and of patience at the end of a `with`
LEAVING = 5.0


class VmemdError(Exception):
    """The base class of this module's errors."""


class ForkedClient(VmemdError):
    """The Client was inherited by a fork: only process `maker` may use it, and this is `process`.

    Nothing was sent. Make a Client in this process, with a client number of its own."""

    def __init__(self, maker, process):
        super().__init__(maker, process)
        self.maker, self.process = maker, process

    def __str__(self):
        return (f"process {self.maker} made this Client, and process {self.process} was forked "
                "from it: make another Client here, with a client number of its own")


class Unreachable(VmemdError):
    """No answer came until patience was over. The next request settles what became of this one.

    `line` is the line without an answer, `address` the server's host and port, `reason` says why
    the last try failed, and `answer` is the last line that the server sent during the tries, or
    None. `__cause__` is the OSError that ended the last try, if one did."""

    def __init__(self, line, address, reason, answer=None):
        super().__init__(line, address, reason, answer)
        self.line, self.address, self.reason, self.answer = line, address, reason, answer

    def __str__(self):
        host, port = self.address
        place = f"[{host}]:{port}" if ":" in str(host) else f"{host}:{port}"
        last = "" if self.answer is None else f"; the last answer was {self.answer!r}"
        return f"no answer to {self.line!r} from {place}: {self.reason}{last}"


class UnknownHost(Unreachable):
    """The server's host name can't be resolved. Nothing was sent, and nothing was tried again."""


class Busy(Unreachable):
    """The server had as many connections as it serves until patience was over."""


class OutOfMemory(VmemdError):
    """The server answered `again`, out of memory, until patience was over. The next request settles
    what became of this one."""


class Superseded(VmemdError):
    """The server doesn't know this incarnation: all its leases have ended, and nothing is held.

    `current` is the incarnation that the server knows. If it is 0, the server probably restarted,
    else another process probably uses this client number. Each call raises this error until
    `restart` begins a greater incarnation. `line` is what the server replied to."""

    def __init__(self, line, current):
        super().__init__(line, current)
        self.line, self.current = line, current

    def __str__(self):
        number, incarnation = self.line.split(" ")[1:3]
        if self.current == 0:
            return (f"the server doesn't know incarnation {incarnation} of client {number}: it "
                    "probably restarted, and all its leases ended. restart() begins a new "
                    f"incarnation, which holds nothing (in reply to {self.line!r})")
        return (f"the server has incarnation {self.current} of client {number}, and the leases of "
                f"incarnation {incarnation} have ended: another process probably uses client "
                f"number {number}. Give each process a number of its own; restart() would end the "
                f"other's leases (in reply to {self.line!r})")


class Exhausted(VmemdError):
    """The client's incarnations, or the request numbers of its incarnation, have reached 2^62."""


class IncarnationsFileError(VmemdError):
    """The file of the last incarnation, `file`, can't be read or written, or holds no incarnation.

    Nothing was sent, and leases that are held stay. If the file's content is lost, remove the file:
    the next incarnation then is the clock's. `__cause__` is the error of the system, if any."""

    def __init__(self, file, reason):
        super().__init__(file, reason)
        self.file, self.reason = file, reason

    def __str__(self):
        return f"incarnations file {os.fspath(self.file)!r}: {self.reason}"


class ProtocolError(VmemdError):
    """The other side sent what doesn't answer this client. It may be another program, or another
    process may use this client number."""


class Refused(VmemdError):
    """A request was refused. It changed nothing."""

    word = None

    def __init__(self, line):
        super().__init__(line)
        self.line = line

    def __str__(self):
        return f"{self.word}: {self.line}"


class NoFit(Refused):
    """No free range of the arena, or that its sources could lend, fits the request."""

    word = "nofit"


class BadRequest(Refused):
    """The size is 0, or an option is bad for this arena's quantum."""

    word = "badrequest"


class NoArena(Refused):
    """No arena has this name."""

    word = "noarena"


class NotYours(Refused):
    """This incarnation has no lease with that arena and base."""

    word = "notyours"


class TooManyLeases(Refused):
    """The client has 1,024 leases."""

    word = "leases"


REFUSALS = {it.word: it for it in (NoFit, BadRequest, NoArena, NotYours, TooManyLeases)}

Held = namedtuple("Held", "arena base length")


class Lease(Held):
    """The units from base on, length of them, until `release` or the end of a `with`.

    A `with` that an exception ends releases them too; there `timeout` and `patience` are `LEAVING`
    seconds at most. If that fails, the exception is raised all the same, and the client's next call
    releases them."""

    client = None

    def release(self):
        """Gives the units back."""
        self.client.release(self)

    @property
    def end(self):
        """The first unit after the lease."""
        return self.base + self.length

    def __enter__(self):
        return self

    def __exit__(self, kind, fault, trace):
        if self.client.holds(self):
            if fault is None:
                self.release()
            else:
                self.client._end([self], fault)


class Pool:
    """One arena of the server, by its name."""

    def __init__(self, client, arena):
        self.client, self.arena = client, check_name(arena)

    def lease(self, size, **options):
        """Leases size units, rounded up to whole quanta; the options are `Client.lease`'s."""
        return self.client.lease(self.arena, size, **options)

    def lease_many(self, sizes, **options):
        """Leases units of each of the sizes, or nothing, as `Client.lease_many` does."""
        return self.client.lease_many(self.arena, sizes, **options)


class Ask:
    """What a request asks for, and the outcomes, by number, to which its own goes: None once nobody
    waits for it."""

    def __init__(self, word, rest, arena, outcomes):
        self.word, self.rest, self.arena, self.outcomes = word, rest, arena, outcomes
        self.line = None


class Client:
    """One client of a server, for the process that makes it; its first request, or `restart`, says
    hello.

    Times are in seconds: `timeout` for connecting and for each answer, `patience` for a request
    with all its repeats. `incarnation` is the least incarnation that is taken. `keep=False` closes
    the connection whenever no answer is waited for. `keep_leases=True` has the end of a `with`
    leave the leases that are held, which then last until a greater incarnation says hello. `window`
    is the greatest number of requests that are outstanding at a time, 1 to 8; for more than one the
    server has to know the second protocol."""

    def __init__(self, host, port, number, *, incarnation=None, incarnations=None, timeout=5.0,
                 patience=60.0, keep=True, keep_leases=False, window=1):
        if not 1 <= number <= MOST_CLIENTS:
            raise ValueError(f"a client's number is 1 to {MOST_CLIENTS}")
        if window not in range(1, WIDEST + 1):
            raise ValueError(f"a window is 1 to {WIDEST}")
        if incarnation is not None:
            check_number(incarnation)
        self.number, self.incarnation, self.window = number, 0, window
        self.address, self.timeout, self.patience, self.keep = (host, port), timeout, patience, keep
        self.keep_leases, self._file, self._least = keep_leases, incarnations, incarnation
        self._link, self._lock = Link(self.address, timeout), threading.RLock()
        self._is_open, self._last, self._current, self._held = False, 0, 0, {}
        # the line and the incarnation of the reply that superseded this one; the last line that
        # came while an answer was waited for
        self._superseded, self._answer = None, None
        # what isn't sent yet, and what is sent and not answered, by its number in rising order
        self._queue, self._outstanding = deque(), {}

    def __enter__(self):
        self._link.check_process()
        return self

    def __exit__(self, kind, fault, trace):
        if self._link.is_ours():
            try:
                with self._lock:
                    if self._superseded is None:
                        self._end([] if self.keep_leases else self.held(), fault)
            finally:
                self.disconnect()

    def __reduce__(self):
        raise TypeError("a Client can't be pickled or copied, since it belongs to the process that "
                        "made it: make another one there (of a Lease, send its base and length)")

    # public calls (what takes the lock first looks whose process it is: in a forked one, the thread
    # that held the lock isn't there)

    def pool(self, arena):
        """The arena of this name, to lease from."""
        self._link.check_process()
        self._check_known()
        return Pool(self, arena)

    def restart(self):
        """Begins a greater incarnation: the server ends all leases of the older ones. It is the
        only way on after `Superseded`. If the hello isn't answered, the next request repeats it
        with a greater incarnation still."""
        self._link.check_process()
        with self._lock:
            while True:
                incarnation = self._next_incarnation()
                self._forget()
                self.incarnation = incarnation
                head = f"{self.number} {incarnation}{' 2' if self.window > 1 else ''}"
                line = f"hello {head}"
                words = self._patiently(lambda: self._asked(line, [line]))
                if not self.keep:
                    self._link.close()
                if words == ["welcome", *head.split(" ")]:
                    self._is_open = True
                    return
                self._current = self._current_of(line, words)
                if self._current <= incarnation:
                    raise self._not_answering(line, words)

    def lease(self, arena, size, **options):
        """Leases size units of an arena, rounded up to whole quanta, and returns the Lease.

        The options are align, phase, nocross, min and max. Its base is `phase` above a multiple of
        `align`; no multiple of `nocross` lies inside it; it begins at `min` or above and ends at
        `max` or below. Raises a Refused: NoFit, BadRequest, NoArena, TooManyLeases."""
        return self.lease_many(arena, [size], **options)[0]

    def lease_many(self, arena, sizes, *, align=0, phase=0, nocross=0, min=0, max=MOST):
        """Leases units of each of the sizes, each with the options of `lease`, and returns the
        Leases in this order. It raises where one of them is refused, or isn't answered: then none
        is held, and what was granted is given back."""
        check_name(arena)
        options = (("align", align, 0), ("phase", phase, 0), ("nocross", nocross, 0),
                   ("min", min, 0), ("max", max, MOST))
        given = "".join(f" {word} {check_number(it)}" for word, it, no in options if it != no)
        outcomes = {}
        asks = [Ask("lease", f"{arena} {check_number(it)}{given}", arena, outcomes) for it in sizes]
        self._link.check_process()
        with self._lock:
            try:
                self._run(asks)
                return self._leases(outcomes)
            except BaseException:
                self._give_up(outcomes)
                raise

    def release(self, lease):
        """Gives a lease back. From this call on nothing may rely on it, also where it raises."""
        self.release_many([lease])

    def release_many(self, leases):
        """Gives leases back. From this call on nothing may rely on them, also where it raises: what
        isn't given back then, the next call gives back first. Raises the first refusal, once all
        are answered."""
        self._link.check_process()
        with self._lock:
            self._check_known()
            leases = list(leases)
            for it in leases:
                if not self.holds(it):
                    raise ValueError(f"{it} isn't held")
            if len(set(map(id, leases))) < len(leases):
                raise ValueError("one of the leases stands there twice")
            outcomes = {}
            self._queue.extend([self._taken_back(it, outcomes) for it in leases])
            if self._is_open:
                self._run([])
                self._raise_refusal(outcomes)

    def release_all(self):
        """Gives all leases back."""
        self._link.check_process()
        with self._lock:
            self.release_many(self.held())

    def held(self):
        """The leases held, in order of their grants; none after `Superseded`, and none in a forked
        process, since they are its parent's."""
        if not self._link.is_ours():
            return []
        with self._lock:
            return list(self._held.values())

    def holds(self, lease):
        """Whether this very lease is held; False after `Superseded` and in a forked process."""
        if not self._link.is_ours():
            return False
        with self._lock:
            return self._held.get((lease.arena, lease.base)) is lease

    def disconnect(self):
        """Closes the connection. Leases stay, and the next request connects again. In a forked
        process it does nothing: the copy of the connection there is closed already."""
        if self._link.is_ours():
            with self._lock:
                self._link.close()

    # requests

    def _run(self, asks):
        """Has the requests answered, and first what an earlier call left."""
        self._check_known()
        if not self._is_open:
            self.restart()
        try:
            self._work()
            self._queue.extend(asks)
            self._work()
        finally:
            self._leave()

    def _check_known(self):
        """Raises Superseded after a reply said so, until `restart`."""
        superseded = self._superseded
        if superseded is not None:
            raise Superseded(*superseded)

    def _end(self, leases, fault):
        """Releases leases at the end of a `with`. An error of the release doesn't take the place of
        the exception that ended the block, `fault`, if that is one."""
        with self._lock:
            kept = self.patience, self._link.timeout
            self.patience, self._link.timeout = (min(it, LEAVING) for it in kept)
            try:
                self.release_many(leases)
            except VmemdError as error:
                if fault is None:
                    raise
                # (from Python 3.11 on the exception tells it)
                if hasattr(fault, "add_note"):
                    fault.add_note(f"vmemd: leases were not released: {error}")
            finally:
                self.patience, self._link.timeout = kept

    def _leave(self):
        """Nobody waits for what isn't answered yet. A lease that wasn't sent won't be."""
        self._queue = deque(it for it in self._queue if it.word == "release")
        for it in (*self._queue, *self._outstanding.values()):
            it.outcomes = None

    def _leases(self, outcomes):
        """The leases that were granted; where one was refused, all others go back at once."""
        try:
            self._raise_refusal(outcomes)
        except Refused:
            self._give_up(outcomes)
            try:
                self._run([])
            except (Unreachable, OutOfMemory):
                pass
            raise
        return [outcomes[it] for it in sorted(outcomes)]

    def _raise_refusal(self, outcomes):
        for number in sorted(outcomes):
            if isinstance(outcomes[number], Refused):
                raise outcomes[number]

    def _give_up(self, outcomes):
        """Has the next call give back what was granted, since nobody wants it."""
        granted = [it for it in outcomes.values() if isinstance(it, Lease) and self.holds(it)]
        self._queue.extend(self._taken_back(it, None) for it in granted)

    def _taken_back(self, lease, outcomes):
        del self._held[lease.arena, lease.base]
        return Ask("release", f"{lease.arena} {lease.base}", lease.arena, outcomes)

    def _work(self):
        """Sends what is in the queue, as the window has room, until all is answered."""
        while self._queue or self._outstanding:
            self._patiently(self._step)

    def _patiently(self, step):
        """Returns what a step returns. A step without an answer that settles it is taken again,
        until patience is over."""
        self._answer = None
        wait, ends = 0.01, time.monotonic() + self.patience
        while True:
            try:
                return step()
            except UnknownHost:
                raise
            except (Unreachable, OutOfMemory):
                if time.monotonic() + wait > ends:
                    raise
            time.sleep(wait)
            wait = min(2 * wait, 1.0)

    def _step(self):
        """Sends what isn't sent over this connection, and takes one answer. Over a connection they
        come in the order of the lines."""
        self._number()
        unsent = [it for it in self._outstanding if it not in self._link.waiting]
        self._link.waiting.extend(unsent)
        number = self._link.waiting[0]
        line = self._outstanding[number].line
        try:
            words = self._asked(line, [self._outstanding[it].line for it in unsent])
            self._settle(number, words)
        except ProtocolError:
            self._link.close()
            raise
        finally:
            if not self.keep and not self._link.waiting:
                self._link.close()

    def _asked(self, line, lines):
        """Sends lines, and returns the words of the next answer, which is the one to `line`.
        Raises Unreachable or OutOfMemory if that answer doesn't settle it. After Unreachable, what
        comes over the connection is no answer to a further line."""
        try:
            self._link.send(lines)
            self._answer = self._link.receive()
            if self._answer == "error busy":
                raise Busy(line, self.address, "the server has no room for a connection",
                           self._answer)
        except (OSError, UnicodeError) as error:
            self._link.close()
            self._link.check_process()
            reason = str(error) or type(error).__name__
            raise self._link.fault(error)(line, self.address, reason, self._answer) from error
        except BaseException:
            self._link.close()
            raise
        words = self._answer.split(" ")
        if words[0] == "again":
            raise OutOfMemory(f"the server is out of memory for {line!r}")
        return words

    def _number(self):
        """Gives numbers to what may be sent now: they are less than a window apart."""
        while self._queue:
            least = next(iter(self._outstanding), self._last + 1)
            if self._last + 1 >= least + self.window:
                return
            if self._last == MOST:
                raise Exhausted(f"incarnation {self.incarnation} of client {self.number} has used "
                                "all request numbers up to 2^62: restart() begins another")
            self._last += 1
            it = self._queue.popleft()
            it.line = f"{it.word} {self.number} {self.incarnation} {self._last} {it.rest}"
            self._outstanding[self._last] = it

    def _settle(self, number, words):
        """Takes the answer to a number."""
        it = self._outstanding[number]
        if words[0] == "old":
            current = self._current_of(it.line, words)
            self._forget()
            self._current, self._superseded = current, (it.line, current)
            self._check_known()
        if words[1:4] != it.line.split(" ")[1:4]:
            raise self._not_answering(it.line, words)
        outcome = self._outcome(it, words)
        del self._outstanding[number]
        if isinstance(outcome, Lease):
            self._held[it.arena, outcome.base] = outcome
        if it.outcomes is not None:
            it.outcomes[number] = outcome
            if it.word == "lease" and isinstance(outcome, Refused):
                self._queue = deque(x for x in self._queue if x.outcomes is not it.outcomes)
        else:
            self._give_up({number: outcome})

    def _outcome(self, it, words):
        """The Lease, None for a release, or the Refused."""
        if words[0] == "refused" and len(words) == 5 and words[4] in REFUSALS:
            return REFUSALS[words[4]](it.line)
        if it.word == "release" and words[0] == "released" and len(words) == 4:
            return None
        is_grant = (it.word == "lease" and words[0] == "granted" and len(words) == 7
                    and words[4] == it.arena and (words[5] + words[6]).isdecimal())
        if not is_grant:
            raise self._not_answering(it.line, words)
        lease = Lease(it.arena, int(words[5]), int(words[6]))
        lease.client = self
        return lease

    def _current_of(self, line, words):
        is_old = len(words) == 3 and words[:2] == ["old", str(self.number)] and words[2].isdecimal()
        if not is_old:
            raise self._not_answering(line, words)
        return int(words[2])

    def _not_answering(self, line, words):
        why = (f": another process probably uses client number {self.number}"
               if words[0] in ("stale", "gap") else "")
        return ProtocolError(f"{' '.join(words)!r} doesn't answer {line!r}{why}")

    # incarnations

    def _forget(self):
        if self._link.waiting:
            self._link.close()
        self._is_open, self._last, self._superseded = False, 0, None
        for it in (self._queue, self._outstanding, self._held):
            it.clear()

    def _next_incarnation(self):
        """An incarnation above each that is known; kept in the file before it is used. It is the
        clock's also with a file, so that two processes that read the file at once don't begin the
        same incarnation: the server would give the second the answers of the first."""
        known = max(self.incarnation, self._current)
        if self._file is not None:
            known = max(known, read_incarnation(self._file))
        least = time.time_ns() if self._least is None else self._least
        number = max(known + 1, least)
        if number > MOST:
            raise Exhausted(f"client {self.number} has no greater incarnation than {known}, "
                            "which is 2^62: use another client number")
        if self._file is not None:
            write_incarnation(self._file, number)
        return number


class Link:
    """A connection that is made when it is needed, by the process that made the Link alone.

    `waiting` are the numbers of the requests that were sent over it and not answered, in order."""

    def __init__(self, address, timeout):
        self.address, self.timeout, self.socket, self.rest = address, timeout, None, b""
        self.waiting, self.was_connected = deque(), False
        self.maker, self.is_inherited = os.getpid(), False
        LINKS.add(self)

    def is_ours(self):
        """Whether this is the process that made the Link. (After a fork of which Python wasn't
        told, only the process id shows that it isn't.)"""
        if not self.is_inherited and os.getpid() != self.maker:
            self.inherit()
        return not self.is_inherited

    def inherit(self):
        """Gives up a copy of the Link in a forked process. Closing the copy of its socket sends
        nothing, and a call that the fork interrupted finds it closed."""
        self.is_inherited = True
        if self.socket is not None:
            with contextlib.suppress(OSError):
                self.socket.close()

    def check_process(self):
        """Raises ForkedClient in another process than the one that made the Link."""
        if not self.is_ours():
            raise ForkedClient(self.maker, os.getpid())

    def fault(self, error):
        """The class of the exception for an error of the connection. A host that was reached before
        isn't unknown: its name may be resolved again soon."""
        is_name = isinstance(error, (socket.gaierror, UnicodeError))
        return UnknownHost if is_name and not self.was_connected else Unreachable

    def send(self, lines):
        """Sends lines; OSError if the connection can't be made or was cut, ForkedClient in another
        process."""
        self.check_process()
        if self.socket is None:
            self.socket, self.rest = socket.create_connection(self.address, self.timeout), b""
            self.was_connected = True
            # (while it connected, a signal's handler may have forked)
            self.check_process()
            self.socket.setsockopt(socket.IPPROTO_TCP, socket.TCP_NODELAY, 1)
        self.socket.settimeout(self.timeout)
        if lines:
            self.socket.sendall("".join(f"{it}\n" for it in lines).encode("ascii"))

    def receive(self):
        """The next answer, without its line feed; OSError if the connection was cut."""
        deadline = time.monotonic() + self.timeout
        while b"\n" not in self.rest:
            left = deadline - time.monotonic()
            if left <= 0:
                raise TimeoutError(f"none came in {self.timeout} s")
            self.socket.settimeout(left)
            piece = self.socket.recv(4096)
            if not piece:
                raise ConnectionError("the server closed the connection")
            self.rest += piece
            if b"\n" not in self.rest and len(self.rest) > LONGEST_REPLY:
                raise ProtocolError("a reply is too long")
        reply, _, self.rest = self.rest.partition(b"\n")
        if self.waiting:
            self.waiting.popleft()
        return reply.decode("ascii", "replace")

    def close(self):
        """Ends the connection, if there is one."""
        self.waiting.clear()
        if self.socket is not None:
            self.socket.close()
            self.socket = None


LINKS = weakref.WeakSet()


def inherit_links():
    """In a forked process, gives up the copies of all Links that its parent had."""
    for it in list(LINKS):
        it.inherit()


if hasattr(os, "register_at_fork"):
    os.register_at_fork(after_in_child=inherit_links)


def check_name(name):
    is_name = (isinstance(name, str) and name.isascii() and name.isalnum() and name == name.lower()
               and name[0].isalpha() and len(name) <= 16)
    if not is_name:
        raise ValueError(f"{name!r} is no arena's name")
    return name


def check_number(number):
    if not isinstance(number, int) or isinstance(number, bool) or not 0 <= number <= MOST:
        raise ValueError(f"{number!r} isn't 0 to 2^62")
    return number


def read_incarnation(file):
    """The last incarnation used, by its file; 0 if there is none."""
    try:
        with open(file, encoding="ascii") as opened:
            text = opened.read(100)
    except FileNotFoundError:
        return 0
    except (OSError, ValueError) as error:
        raise IncarnationsFileError(file, f"it can't be read: {error}") from error
    if not text.strip().isdecimal() or int(text) > MOST:
        raise IncarnationsFileError(file, f"{text!r} is no incarnation, 0 to 2^62")
    return int(text)


def write_incarnation(file, number):
    """Keeps an incarnation in its file, so that it is there also after a power failure."""
    new = f"{os.fspath(file)}.new"
    try:
        with open(new, "w", encoding="ascii") as opened:
            opened.write(f"{number}\n")
            opened.flush()
            os.fsync(opened.fileno())
        os.replace(new, file)
        folder = os.open(os.path.dirname(os.path.abspath(file)), os.O_RDONLY)
        try:
            os.fsync(folder)
        finally:
            os.close(folder)
    except OSError as error:
        raise IncarnationsFileError(file, f"{number} can't be written: {error}") from error
