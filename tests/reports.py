"""How tests/packages.py and tests/arm64.py say how a test went."""

import sys

failures = 0


def report(what, is_right):
    """Prints how a test went."""
    global failures
    failures += not is_right
    print(f"{what}: {'ok' if is_right else 'DIFFERS'}", flush=True)


def leave_out(what, why):
    """Says that a test isn't run."""
    print(f"left out: {what}, since {why}", flush=True)


def say_of(ran):
    """Shows what a command said, if it failed."""
    if ran.returncode:
        sys.stdout.write((ran.stdout + ran.stderr).decode(errors="replace"))
    return ran
