"""Finds a Python that has Electrum's package, of the version that this is written for, and continues in it.

    import interpreter
    if not interpreter.goes_on_with_electrum():
        ...                                # no Python here has it

Debian's `python3-electrum` is for the system's own Python, which mostly isn't the first `python3` of the PATH.
LGM_ELECTRUM_PYTHON names another one.
"""

from __future__ import annotations

import os
import shutil
import subprocess
import sys

VERSION = "4.3."  # others have other interfaces
WHY_NOT = f"since no Python here has Electrum {VERSION}x (python3-electrum of Debian 12)"
PROBE = ("import sys; sys.path.pop(0); import electrum.lnrouter; from electrum.version import ELECTRUM_VERSION; "
         f"sys.exit(not ELECTRUM_VERSION.startswith({VERSION!r}))")
IS_CHOSEN = "LGM_ELECTRUM_IS_CHOSEN"  # in the environment of a program that was run anew


def has_electrum(python):
    """Whether a Python has the package."""
    quiet = {"stdin": subprocess.DEVNULL, "stdout": subprocess.DEVNULL, "stderr": subprocess.DEVNULL}
    try:
        return subprocess.run([python, "-c", PROBE], timeout=60, check=False, **quiet).returncode == 0
    except (OSError, subprocess.TimeoutExpired):
        return False


def python_with_electrum():
    """The path of a Python that has the package, or None: the named one; or this, the system's, the first of the PATH."""
    named = os.environ.get("LGM_ELECTRUM_PYTHON")
    found = [named] if named else [sys.executable, "/usr/bin/python3", shutil.which("python3")]
    return next((python for python in found if python and has_electrum(python)), None)


def goes_on_with_electrum():
    """Whether this Python has the package. If only another one has it, that one runs the program anew instead."""
    if IS_CHOSEN in os.environ:
        return True
    python = python_with_electrum()
    if python is None or python == sys.executable:
        return python is not None
    sys.stdout.flush()
    os.execve(python, [python, *sys.argv], {**os.environ, IS_CHOSEN: "1"})
