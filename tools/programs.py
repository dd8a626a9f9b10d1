"""The programs that the gate leaves in crates/vmemd/out, of one compiler each."""
from pathlib import Path

BUILT = Path(__file__).resolve().parent.parent / "crates" / "vmemd" / "out"


def built():
    """Returns the paths of the first compiler's program, and of the second's where it is as new."""
    first, second = BUILT / "vmemd", BUILT / "vmemd.by-rattle"
    # (an older one is of an earlier gate, since when make has built the first anew)
    is_same = second.exists() and first.exists() and second.stat().st_mtime >= first.stat().st_mtime
    return [str(first), *([str(second)] if is_same else [])]
