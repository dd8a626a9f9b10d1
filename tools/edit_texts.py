"""Edits of a crate's sources: where they lie, what they change, and which functions' bodies that is."""
import re
from collections import namedtuple

# which of these a crate's edit lies in says who tries it: the toolchain's gate, make test, make edits
FOLDERS = TOOLCHAIN, GATE, MORE = "must-fail", "gate-edits", "more-edits"
NAME = re.compile(r"[A-Za-z0-9_-][A-Za-z0-9_.-]*\.edit")

# a function: its file, its path below the crate as a check prints it, its name and its owner (the type that it is a
# method of, or None), the number of the line above it, and the lines of its braces
Body = namedtuple("Body", "file path name owner at opens closes")


def edits_of(folder):
    """Returns a crate's edits in the order of their names, and a line for each file that is none."""
    found, wrong = {}, []
    for place in FOLDERS:
        for path in sorted((folder / place).glob("*")):
            if path.suffix == ".md":
                continue
            if not NAME.fullmatch(path.name) or not path.is_file():
                wrong.append(f"{place}/{path.name}: no edit has such a name")
            elif path.name in found:
                wrong.append(f"{place}/{path.name}: {found[path.name].parent.name} has one of this name")
            else:
                found[path.name] = path
    return [found[name] for name in sorted(found)], wrong


def applied(edit, folder, before=()):
    """Returns the texts that an edit of the crate in this folder changes, by their paths, over those that others changed
    before; ValueError says why it can't apply."""
    texts, path, old, pairs = dict(before), None, None, 0
    for line in edit.read_text().split("\n"):
        if line.startswith("file: "):
            path = line[len("file: "):].strip()
            if not path.startswith(("src/", "specs/", "proofs/")) or ".." in path:
                raise ValueError(f"{path} is no file of src/, specs/ or proofs/")
        elif line.startswith("old: "):
            old = line[len("old: "):]
        elif line.startswith("new:"):
            new = line[len("new:"):].removeprefix(" ")
            if not path or not old:
                raise ValueError("a line 'new:' comes before 'file:' or 'old:'")
            if path not in texts:
                if not (folder / path).is_file():
                    raise ValueError(f"there is no {path}")
                texts[path] = (folder / path).read_text()
            if texts[path].count(old) != 1:
                raise ValueError(f"{path} has {texts[path].count(old)} times: {old.strip()}")
            if old == new:
                raise ValueError(f"changes nothing: {old.strip()}")
            texts[path], old, pairs = texts[path].replace(old, new), None, pairs + 1
    if not pairs or old:
        raise ValueError("it has an 'old:' with no 'new:'" if old else "it changes nothing")
    return texts


def applied_together(group, folder):
    """Returns the texts that these edits change one after another, or None where one no longer applies."""
    texts = {}
    try:
        for edit in group:
            texts = applied(edit, folder, texts)
    except ValueError:
        return None
    return texts


def generics_end(text):
    """Returns where the list in angle brackets ends with which a text begins, or 0 where it begins with none."""
    depth = 0
    for at, letter in enumerate(text):
        depth += (letter == "<") - (letter == ">" and text[at - 1:at] not in ("-", "="))
        if depth == 0:
            return at + 1 if at else 0
    return 0


def owner_of(lines, at):
    """Returns the type of the impl or trait that begins in this line, and the trait that it implements, if it does, with
    its arguments, as a check names both."""
    head = ""
    for line in lines[at:]:
        head += f" {line.strip()}"
        if line.endswith("{"):
            break
    found = re.match(r" (?:pub(?:\(\w+\))? )?trait (\w+)", head)
    if found:
        return found[1], ""
    if not head.startswith((" impl ", " impl<")):
        return None, ""
    head = head[len(" impl"):]
    end = generics_end(head)
    own, head = re.findall(r"[<,] *(?:const )?(\w+)", head[:end]), re.sub(r"'\w+|\w+::", "", head[end:])
    trait, _, of = head.rpartition(" for ")
    words = [it for it in re.findall(r"\w+", trait) if it not in own]
    found = re.search(r"\w+", of)
    return (found[0], "".join(words)) if found else (None, "")


def module_of(file):
    """Returns the path of the module in a file of src/, with :: behind each name."""
    parts = file[len("src/"):-len(".rt")].split("/")
    if parts[-1] in ("lib", "main", "mod"):
        parts.pop()
    return "".join(f"{it}::" for it in parts)


def functions_of(file, lines, homes):
    """Returns the functions of a file in rt fmt's layout; homes has the modules of the crate's types.

    A check names a type's own method by the type's module, and a trait's by the module of its impl.
    """
    found, owner, trait = [], None, ""
    for at, line in enumerate(lines):
        if line[:1].strip() and line not in ("}", ")"):
            owner, trait = owner_of(lines, at)
        head = re.match(r"( *)(?:pub(?:\(\w+\))? )?(?:final |const )?fn (\w+)", line)
        if head and not line.endswith(";"):
            opens = next((n for n in range(at, len(lines))
                          if re.match(rf"{head[1]}(?! )(.* )?{{$", lines[n])), len(lines))
            closes = next((n for n in range(opens, len(lines)) if lines[n] == head[1] + "}"), at)
            # (a note names the line of the function's first attribute, where it has one)
            while at and lines[at - 1].startswith(head[1] + "#["):
                at -= 1
            of = owner if head[1] else None
            module = homes.get(owner, "") if of and not trait else module_of(file)
            path = module + (f"{owner}{trait}::" if of else "") + head[2]
            found.append(Body(file, path, head[2], of, at, opens, closes))
    return found


def homes_of(folder):
    """Returns the module of each type of the crate, as module_of has it; none of two types of one name."""
    found = {}
    for path in (folder / "src").rglob("*.rt"):
        for name in re.findall(r"^(?:pub(?:\(\w+\))? )?(?:struct|enum|trait) (\w+)", path.read_text(), re.M):
            module = module_of(path.relative_to(folder).as_posix())
            found[name] = "" if name in found else module
    return found


def bodies_of(edit, folder):
    """Returns the functions whose bodies an edit changes, or none where it changes anything else."""
    found, homes = set(), homes_of(folder)
    for file, text in applied(edit, folder).items():
        old, new = (folder / file).read_text().split("\n"), text.split("\n")
        bodies = functions_of(file, old, homes) if file.startswith("src/") and len(old) == len(new) else []
        for at in (n for n, (was, now) in enumerate(zip(old, new)) if was != now):
            within = [it for it in bodies if it.opens < at < it.closes]
            if not within:
                return set()
            found.add(within[-1])
    return found


def groups_of(edits, folder):
    """Returns the edits in groups that can be tried together: no two change one function, and each applies over those
    before it."""
    groups = []
    for edit in edits:
        bodies = bodies_of(edit, folder)
        for group, taken in groups:
            if taken.isdisjoint(bodies) and applied_together([*group, edit], folder) is not None:
                group.append(edit)
                taken |= bodies
                break
        else:
            groups.append(([edit], set(bodies)))
    return [group for group, _ in groups]


