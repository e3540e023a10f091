"""What tests/memory.py and tests/refusals.py share: the shim of tests/refuse.c, which refuses one call of a program."""

import os
import shutil
import subprocess
import sys
from pathlib import Path

HERE = Path(__file__).resolve().parent
LEFT_OUT = 77


def compiler_or_end(name):
    """Ends a test where there is no `cc`: as left out, or as failed where LGM_NEEDS_CC is set, as the merge gate does."""
    if shutil.which("cc"):
        return
    is_needed = bool(os.environ.get("LGM_NEEDS_CC"))
    print(f"{'FAILED' if is_needed else 'left out'}: {name}, which needs cc", flush=True)
    sys.exit(1 if is_needed else LEFT_OUT)


def built(folder):
    """The shim, built in a folder."""
    shim = folder / "refuse.so"
    subprocess.run(["cc", "-O1", "-shared", "-fPIC", "-o", shim, HERE / "refuse.c", "-ldl"], check=True)
    return shim


def settings(shim, kind, call, mark):
    """The variables of a program whose call of a kind is refused, the first or a later one. The mark is made then."""
    return {"LD_PRELOAD": str(shim), "REFUSE": kind, "REFUSE_CALL": str(call), "REFUSED": str(mark)}
