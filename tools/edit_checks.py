"""Checks of an edited crate, over the libraries that a proof of the crates below it left."""
import re
import shutil
import subprocess
import tempfile
from pathlib import Path

from edit_texts import applied_together, bodies_of

PARTS = ("src", "specs", "proofs")
# what a proof file is told if an edit took a name away: that says nothing of a contract
NAMES = re.compile(r"has no field|is not in scope|has no `|was not admitted")
# the last line of a check that judged the functions that it was asked for
ENDED = re.compile(r"only=(\d+) proved=(\d+)")
# what a check says of a library that was built over others than those at hand
STALE = re.compile(r"module .Rattle-\w+-.*Run the lower steps again")


class Unusable(Exception):
    """Why no edit can be judged: a library that isn't proved or doesn't fit the others, or a crate that isn't proved."""


class Tree:
    """The crates of a repository, each with the libraries that it uses, and their libraries as they were built."""

    def __init__(self, root):
        self.root = root
        self.uses = {}
        for line in (root / "crates.txt").read_text().splitlines():
            head, colon, libraries = line.partition("#")[0].partition(":")
            if colon:
                self.uses[head.split()[0]] = libraries.split()

    def folder(self, crate):
        return self.root / "crates" / crate

    def library(self, crate):
        return self.folder(crate) / "out" / "rlib" / f"{crate}.rlib"

    def below(self, crate):
        """Returns the crates that this one stands on, the lowest first."""
        found = []
        for low in self.uses[crate]:
            if low in self.uses:
                found += [it for it in [*self.below(low), low] if it not in found]
        return found

    def changed(self, crate):
        """Returns when the newest of the crate's sources was written."""
        files = (it for part in PARTS for it in (self.folder(crate) / part).rglob("*") if it.is_file())
        return max(it.stat().st_mtime for it in files)

    def lines(self, crate):
        """Returns how many lines of code the crate has."""
        return sum(it.read_text().count("\n") for it in (self.folder(crate) / "src").rglob("*.rt"))

    def made(self, crate):
        """Returns when the crate's library was made, or 0 if there is none."""
        file = self.library(crate) / "format"
        return file.stat().st_mtime if file.exists() else 0

    def is_built(self, crate):
        """Whether the crate's library is newer than its sources, and each library that it uses is built and older."""
        low = [it for it in self.uses[crate] if it in self.uses]
        newest = max([self.changed(crate), *map(self.made, low)])
        return self.made(crate) > newest and all(map(self.is_built, low))

    def drop_stale(self):
        """Removes the libraries that aren't as new as their sources. `rt ci` puts libraries that it finds back in place of
        those that it makes."""
        for crate in [it for it in self.uses if not self.is_built(it)]:
            shutil.rmtree(self.library(crate).parent, ignore_errors=True)

    def build_below(self, crates):
        """Builds each library that these crates stand on and that isn't as new as its sources."""
        for low in dict.fromkeys(it for crate in crates for it in self.below(crate)):
            if not self.is_built(low):
                ran = run(["rt", "lib", "--jobs", "1"], self.folder(low))
                if ran.returncode:
                    raise Unusable(f"{ran.stdout[-2000:]}\n{low}, which others stand on, isn't proved")

    def words(self, crate, kit):
        """Returns the words by which the checker is told of the crate and of the libraries that it uses."""
        own = [it for it in self.uses[crate] if it in self.uses]
        of_kit = ["std", *(it for it in self.uses[crate] if it not in self.uses)]
        root = "src/main.rt" if (self.folder(crate) / "src" / "main.rt").exists() else "src/lib.rt"
        words = ["--crate-name", crate, root]
        words += [word for it in of_kit for word in ("--extern", f"{it}={kit}/rlibs/{it}.rlib")]
        words += ["-L", f"dependency={kit}/rlibs"]
        words += [word for it in own for word in ("--extern", f"{it}={self.library(it)}")]
        words += [word for it in self.below(crate) for word in ("-L", f"dependency={self.library(it).parent}")]
        words += ["--antt-project", f"{kit}/rattle/logic/antt-project.json", "--logic-built", f"{kit}/logic_built"]
        return [*words, "--jobs", "1"]


def run(words, folder):
    return subprocess.run(words, cwd=folder, stdin=subprocess.DEVNULL, stdout=subprocess.PIPE,
                          stderr=subprocess.STDOUT, text=True, errors="replace", check=False)


def kit():
    """Returns the folder of the toolchain."""
    return Path(run(["rt", "doc"], ".").stdout.strip()).parent


def is_refused(body, said):
    """Whether a check found a goal of this function open, or its proof wrong but for names."""
    if re.search(rf"^fn \w+::{re.escape(body.path)}: could not tell", said, re.M):
        return False
    lines = re.findall(rf"^note: (?:\./)?{body.file}:(\d+):\d+: it is not proved", said, re.M)
    if any(body.at < int(it) <= body.closes + 1 for it in lines):
        return True
    module = body.file[len("src/"):-len(".rt")]
    folder = "" if module in ("lib", "main") else module.removesuffix("/mod") + "/"
    # (a method's proof lies with its type's, whichever file its impl is in)
    places = [rf"{folder}(?:[\w+]+/)?", rf"(?:\w+/)*{body.owner}(?:\+\w+)*/" if body.owner else ""]
    place = rf"(?:{'|'.join(filter(None, places))})"
    wrong = re.findall(rf"^(?:\./)?proofs/{place}{body.name}/\w+\.antt:.*", said, re.M)
    return any(": error: " in it and not NAMES.search(it) for it in wrong)


class Checker:
    """Checks a crate with edits of its functions' bodies. Its checks share what they prove, in a folder of their own or
    in a copy of what earlier checks of the crate kept."""

    def __init__(self, tree, crate, kept):
        self.crate, self.folder, self.said = crate, tree.folder(crate), ""
        self.begin = [f"{kit()}/bin/rattle", "check", *tree.words(crate, kit()), "--incremental", str(kept)]

    def check(self, bodies, texts):
        """Checks these functions with these texts in place of the crate's; returns how many functions that were and how
        many are proved, or None if the check judged nothing."""
        paths = sorted({body.path for body in bodies})
        with tempfile.TemporaryDirectory(prefix="edit-") as room:
            for part in PARTS:
                if (self.folder / part).is_dir():
                    shutil.copytree(self.folder / part, f"{room}/{part}")
            for file, text in texts.items():
                Path(room, file).write_text(text)
            words = [*self.begin, *(word for path in paths for word in ("--only", path))]
            ran = run(words, room)
            if ran.returncode < 0:
                print(f"{self.crate}: a check was killed, most likely for memory: once more", flush=True)
                ran = run(words, room)
        self.said = ran.stdout
        if STALE.search(self.said):
            raise Unusable(f"a library below {self.crate} was built over others than those at hand")
        ended = ENDED.fullmatch(self.said.rstrip().rpartition("\n")[2])
        return (int(ended[1]), int(ended[2])) if ended and ran.returncode in (0, 1) else None

    def refused(self, group):
        """Checks the functions that these edits change, with all of them made, and returns those that are refused: each
        of their functions has a goal of its own open. None if the check judged nothing: an edit doesn't compile."""
        bodies = {edit: bodies_of(edit, self.folder) for edit in group}
        if not self.check({it for found in bodies.values() for it in found}, applied_together(group, self.folder)):
            return None
        return [edit for edit in group if all(is_refused(body, self.said) for body in bodies[edit])]

    def tried(self, group):
        """Tries edits together, by halves if that judges nothing, and yields each with whether it is refused, and if
        not, why."""
        refused = self.refused(group)
        left = [it for it in group if it not in (refused or [])]
        for edit in refused or []:
            yield edit, True, f"of {len(group)} together"
        if refused and left:
            # (a function may be hidden by the one that it calls)
            yield from self.tried(left)
        elif len(left) > 1:
            yield from self.tried(left[:len(left) // 2])
            yield from self.tried(left[len(left) // 2:])
        elif left:
            yield left[0], False, self.reason(left[0], refused is not None)

    def reason(self, edit, is_judged):
        """Returns why the last check, which had this edit alone, didn't refuse it."""
        if not is_judged:
            errors = re.findall(r"^error.*|^.*: error: .*", self.said, re.M)
            return ": ".join(["no check could judge it", *errors[:1]])
        proved = [it.path for it in bodies_of(edit, self.folder) if f"\nfn {self.crate}::{it.path}: proved" in self.said]
        return f"{proved[0]} is still proved" if proved else "no goal of its own is open, as if a proof only lacks a name"

    def is_sound(self, edits):
        """Whether the functions that these edits change are proved without them, over what the checks kept."""
        found = self.check({body for edit in edits for body in bodies_of(edit, self.folder)}, {})
        return found is not None and found[0] == found[1]
