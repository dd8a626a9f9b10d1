"""Runs a program some of whose calls to the system are refused, by tools/refuse.c."""
import contextlib
import os
import subprocess
import tempfile
from pathlib import Path

ROOT = Path(__file__).resolve().parent.parent
PROGRAM = str(ROOT / "crates" / "vmemd" / "out" / "vmemd")


class Refusal:
    """The environment of a program whose Nth call is refused, or each from the Nth on."""

    def __init__(self, shim, room, call, number, goes_on):
        self.told, self.until, self.goes_on = f"{room}/told", f"{room}/until", goes_on
        self.environment = {"LD_PRELOAD": shim, "REFUSED": self.told, "REFUSE_UNTIL": self.until,
                            "REFUSE": f"{call} {number}{' on' if goes_on else ''}"}

    def was_met(self):
        return os.path.exists(self.told)

    def end(self):
        """From here on none is refused."""
        Path(self.until).touch()

    def begin_again(self):
        """From here on each is refused again, where that went on and was ended."""
        Path(self.until).unlink(missing_ok=True)


class Refuser:
    def __init__(self, folder):
        self.folder, self.shim = folder, f"{folder}/refuse.so"
        source = str(ROOT / "tools" / "refuse.c")
        words = [os.environ.get("CC", "cc"), "-O1", "-shared", "-fPIC", "-o", self.shim, source, "-ldl"]
        subprocess.run(words, check=True)

    @contextlib.contextmanager
    def refuse(self, call, number, goes_on=False):
        with tempfile.TemporaryDirectory(dir=self.folder) as room:
            yield Refusal(self.shim, room, call, number, goes_on)


@contextlib.contextmanager
def refuser():
    """What refuses calls, for as long as it is needed."""
    with tempfile.TemporaryDirectory(prefix="starve-") as folder:
        yield Refuser(folder)


def each_number(is_thin, most=None):
    """The calls to refuse, one after the other; thinned, the first 40 and every fifth after them."""
    number = 0
    while most is None or number < most:
        number += 5 if is_thin and number >= 40 else 1
        yield number
