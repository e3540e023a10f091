"""The library in programs in C and Rust, which answer as `lgm` does."""

import os
import subprocess
import sys

from embedding.common import CHAIN, CHANNELS, HERE, TOP, answer, made_script, output, report, runs
from surface import header

WORKLOADS = ("routes", "queries", "churn", "filters", "bans")
VALGRIND = ("valgrind", "--quiet", "--error-exitcode=99", "--leak-check=full", "--errors-for-leak-kinds=all")
HELGRIND = ("valgrind", "--quiet", "--tool=helgrind", "--error-exitcode=99")


def test_installed(prefix, folder):
    """A program is built by what lgm.pc says, and runs with the shared object of the header's version."""
    version = header.read_file().version
    report("lgm.pc, version", f"\nVersion: {version}\n" in (prefix / "lib" / "pkgconfig" / "lgm.pc").read_text())
    if runs("pkg-config", "--version"):
        words = ["pkg-config", "--cflags", "--libs", "lgm"]
        environment = {**os.environ, "PKG_CONFIG_PATH": str(prefix / "lib" / "pkgconfig")}
        flags = subprocess.run(words, env=environment, check=True, stdout=subprocess.PIPE, text=True).stdout.split()
    else:
        print("left out: lgm.pc as pkg-config reads it, since there is no pkg-config", flush=True)
        flags = ["-I", prefix / "include", "-L", prefix / "lib", "-llgm"]
    program = folder / "shared"
    subprocess.run(["cc", "-std=c11", HERE / "c" / "run.c", *flags, "-o", program], check=True)
    words = ["env", f"LD_LIBRARY_PATH={prefix / 'lib'}", program, CHAIN]
    found = output(words, (HERE / "payments.txt").read_bytes())
    report("run, with the shared object", found == (HERE / "payments.out").read_bytes())
    (prefix / "lib" / "liblgm.so").unlink()
    report(f"run, with liblgm.so.{version} alone", output(words) == b"")


def test_c(out):
    """The program in C answers scripts as `lgm` does."""
    for script in sorted(HERE.glob("*.txt")):
        if script.name != "live.txt":
            wanted = script.with_suffix(".out").read_bytes()
            report(f"run, {script.name}", output([out / "run", CHAIN], script.read_bytes()) == wanted)
    for workload in WORKLOADS:
        script = made_script(workload)
        report(f"run, {workload} of {CHANNELS} channels", output([out / "run", CHAIN], script) == answer(script))


def build(out, name, *words):
    """Builds a program in C with the library."""
    words = ["cc", "-std=c11", "-O2", "-Wall", "-Wextra", "-I", TOP / "include", *words]
    subprocess.run([*words, HERE / "c" / f"{name}.c", out / "liblgm.a", "-o", out / name], check=True)


def test_faults(out):
    """Calls that fail change nothing; and nothing is freed twice, leaked, or written past its end."""
    has_valgrind = runs("valgrind", "--quiet", "true")
    for name in ("faults", "published", "attempts", "estimates", "payments", "restart"):
        build(out, name, "-g", "-Wl,--wrap=malloc,--wrap=realloc")
        report(name, output([out / name]) == b"ok\n")
        if has_valgrind:
            report(f"{name}, valgrind", output([*VALGRIND, out / name]) == b"ok\n")
    if not has_valgrind:
        print("left out: leaks and wrong accesses of the library for C, since no valgrind runs here", flush=True)
    else:
        for script in sorted(HERE.glob("[!l]*.txt")):
            found = output([*VALGRIND, out / "run", CHAIN], script.read_bytes())
            report(f"run, {script.name}, valgrind", found == script.with_suffix(".out").read_bytes())


def set_update(line, later, flag):
    """The line of an update of the same terms, but for its timestamp and bit 1 of its flags, which disables it (BOLT 7)."""
    word, digits, *verdicts = line.split()
    message = bytearray.fromhex(digits.decode())
    message[106:110] = (int.from_bytes(message[106:110], "big") + later).to_bytes(4, "big")
    message[111] = message[111] & ~2 | flag
    return b" ".join([word, bytes(message).hex().encode(), *verdicts]) + b"\n"


def updates_of(items):
    """The line of the last update of each edge, by the text of its id and the digits of the node that it leaves."""
    found = {}
    for line in items:
        message = bytes.fromhex(line.split()[1].decode())
        if message[:2] == b"\1\2":
            scid, signer = int.from_bytes(message[98:106], "big"), line.split()[2]
            found[b"%dx%dx%d" % (scid >> 40, scid >> 16 & 0xffffff, scid & 0xffff), signer] = line
    return found


def answers_without(items, tries):
    """What `lgm` answers to each of the tries on the map of these items: a payment, and the edges that it excludes. Each of
    these is disabled by a later update, and enabled again."""
    updates, script, places, later = updates_of(items), [*items], {}, 1
    for payment, excluded in tries:
        lines = [updates[edge] for edge in excluded]
        places[len(script) + len(lines) + 2] = payment, excluded
        script += [*(set_update(line, later, 2) for line in lines), b"commit\n", payment]
        script += [*(set_update(line, later + 1, 0) for line in lines), b"commit\n"]
        later += 2
    answers = {}
    for line in answer(b"".join(script)).splitlines():
        number, text = line.split(maxsplit=1)
        if int(number) in places:
            answers.setdefault(places[int(number)], []).append(text)
    return {one: b" ".join(texts) for one, texts in answers.items()}


def tries_in(served, payments):
    """What `serve` answered: the answers to tries, by version."""
    found = {}
    for line in served.splitlines():
        version, number, limits, text = line.split(maxsplit=3)
        excluded = tuple(tuple(word.split(b"/")) for word in limits[1:].split(b",") if word)
        found.setdefault(int(version), []).append(((payments[int(number)], excluded), text))
    return found


def served(out, channels, count, batch, pause, *before, tries=1):
    """Whether four readers beside a writer answer payments as `lgm` does on so many items as the version says, each tried
    so often, without the edges that failed before."""
    lines = made_script("routes", channels).splitlines(keepends=True)
    items = [line for line in lines if line.startswith(b"m ")]
    payments = [line for line in lines if line.startswith(b"route ")][:count]
    if answer(b"".join(items)).count(b" accepted\n") != len(items):
        return False  # versions count what is accepted
    half = len(items) // 2
    script = b"".join([*items[:half], b"commit\n", *items[half:], *payments])
    found = output([*before, out / "serve", "-t", str(tries), CHAIN, "4", str(batch), str(pause), "1"], script)
    found = tries_in(found or b"", payments)
    for version, answers in found.items():
        wanted = answers_without(items[:version], dict.fromkeys(one for one, _ in answers))
        if any(text != wanted[one] for one, text in answers):
            return False
    most = max((len(excluded) for answers in found.values() for (_, excluded), _ in answers), default=None)
    return most == tries - 1 and max(found) == len(items)


def test_serve(out):
    """Readers beside a writer, with a published map each."""
    build(out, "serve", "-g", "-pthread")
    report(f"serve, {CHANNELS} channels", served(out, CHANNELS, 20, 300, 0))
    report(f"serve, {CHANNELS} channels, with pauses", served(out, CHANNELS, 20, 300, 20))
    report(f"serve, {CHANNELS} channels, tried again", served(out, CHANNELS, 20, 600, 5, tries=6))
    if runs("valgrind", "--quiet", "true"):
        report("serve, valgrind", served(out, 200, 5, 50, 0, *VALGRIND, "--fair-sched=yes"))
        report("serve, valgrind, tried again", served(out, 200, 5, 50, 0, *VALGRIND, "--fair-sched=yes", tries=4))
        # Two publications, so that no network takes a second turn: helgrind doesn't know that the count of owners
        # orders what a reader did with one before what the writer does.
        report("serve, helgrind", served(out, 100, 3, 1_000, 1, *HELGRIND))


# What a payer prints of two payments of examples/payments.txt, of 10,000,000 msat. Of the first one the whole fails over the
# channel of block 600001, which then is known to carry less than 10,003,500. So a half is likely to arrive, and beside it a
# quarter, and beside that an eighth; of the last eighth no half is enough for a part. Of 5,000,000 msat C takes 500 and 300 ppm,
# and B 1,000 and 200 ppm of that. The other payment is over the channel of block 600003, for which B takes 3,000.
PAID = (b"10006500 msat over 3 channels\n5004000 msat over 3 channels\n2502750 msat over 3 channels\n"
        + 2 * b"1252125 msat over 3 channels\n" + b"whole\n", b"\n10003000 msat over 2 channels\nwhole\n")


# The payer of examples/payments.txt, and the node to which it has a channel.
PAYER_AND_PEER = [(b"\2" + bytes([letter]) * 32).hex() for letter in (10, 11)]


def is_paid(found):
    """Whether a payer's output is that of these payments."""
    return found.startswith(PAID[0]) and PAID[1] in found


def test_payers(out):
    """The payers in C and Rust pay the payments of examples/payments.txt alike."""
    words = ["cc", "-std=c11", "-O2", "-Wall", "-Wextra", "-Werror", "-I", TOP / "include", HERE / "c" / "payer.c", out / "liblgm.a"]
    subprocess.run([*words, "-o", out / "payer"], check=True)
    found = output([out / "payer", CHAIN, *PAYER_AND_PEER], (HERE / "payments.txt").read_bytes())
    report("payer.c", found is not None and is_paid(found))
    if (out / "pay").exists():
        report("payer.rs", output([out / "pay", *PAYER_AND_PEER, HERE / "payments.txt"]) == found)
    else:
        print("left out: the payer in Rust, since no cargo of its edition runs here", flush=True)


def test_routes(out):
    """The short examples find the route that the README works out."""
    found = output([sys.executable, HERE / "python" / "route.py"])
    report("route.py", found is not None and b"\n10006500 msat over 3 channels, until block 700054\n" in found)
    if (out / "route").exists():
        found = output([out / "route", HERE / "payments.txt"])
        report("route in Rust", found == b"10006500 msat over 3 channels\n")
        report("calls in Rust", output([out / "calls"]) == b"ok\n")
    else:
        print("left out: the examples in Rust, since no cargo of its edition runs here", flush=True)


def test_all(prefix, out):
    """All of these, with the library in a folder, and installed below a prefix."""
    test_installed(prefix, out)
    test_c(out)
    test_faults(out)
    test_serve(out)
    test_routes(out)
    test_payers(out)
