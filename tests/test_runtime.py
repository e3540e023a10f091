#!/usr/bin/env python3
"""Tests the C code of `runtime`, which stands for the kit's on ARM64: by runtime/test.c on this machine, and on ARM64 under
qemu; and the kit's own code by the same test, so that it asks for what the kit does.

    python3 tests/test_runtime.py

It needs a C compiler (`cc`): without one it is left out, with status 77, or fails where LGM_NEEDS_CC is set. For ARM64 it
needs Debian's cross compiler and `qemu-aarch64`, and for the kit's code `rt`; it says which of them is left out.
"""

import shutil
import subprocess
import sys
import tempfile
from pathlib import Path

sys.dont_write_bytecode = True  # the repository gets no made files

import shim  # noqa: E402

TOP = Path(__file__).resolve().parent.parent
RUNTIME = TOP / "runtime"
OWN = (RUNTIME / "heap.c", RUNTIME / "process.c")
FLAGS = ("-std=c11", "-O2", "-Wall", "-Wextra", "-Werror", "-Wno-alloc-size-larger-than", "-D_GNU_SOURCE",
         "-Wl,--wrap=malloc,--wrap=realloc,--wrap=free", "-pthread")
ARGUMENTS = ("", "four")


def passes(folder, compiler, code, *before):
    """Whether the test, built with some code, passes, if it is run behind these words."""
    program = folder / "test"
    subprocess.run((compiler, *FLAGS, "-static", RUNTIME / "test.c", *code, "-o", program), check=True)
    return subprocess.run((*before, program, *ARGUMENTS), check=False).returncode == 0


def kits_code():
    """The archives of the kit's C code, or nothing without the kit."""
    if not shutil.which("rt"):
        return ()
    page = subprocess.run(("rt", "doc"), stdout=subprocess.PIPE, check=True, text=True).stdout.splitlines()[0]
    return tuple(Path(page).parent / "c" / name for name in ("libos_c.a", "liblibc_c.a"))


def main():
    """Runs the test three times, or as often as it can be run here."""
    shim.compiler_or_end("tests/test_runtime.py")
    emulator = shutil.which("qemu-aarch64") or shutil.which("qemu-aarch64-static")
    cross = shutil.which("aarch64-linux-gnu-gcc")
    results = {}
    with tempfile.TemporaryDirectory() as name:
        folder = Path(name)
        results["on this machine"] = passes(folder, "cc", OWN)
        if code := kits_code():
            results["the kit's code"] = passes(folder, "cc", code)
        else:
            print("left out: the kit's C code by the test of runtime, since there is no rt", flush=True)
        if emulator and cross:
            results["ARM64"] = passes(folder, cross, OWN, emulator)
        else:
            print("left out: the test of runtime on ARM64, which needs qemu-aarch64 and aarch64-linux-gnu-gcc", flush=True)
    failed = [name for name, is_well in results.items() if not is_well]
    print(f"{len(results) - len(failed)} passed, {len(failed)} failed", *failed)
    sys.exit(1 if failed else 0)


if __name__ == "__main__":
    main()
