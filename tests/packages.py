#!/usr/bin/env python3
"""Makes the packages, and tries them in a root of their own, where neither the kit nor this repository is.

    python3 tests/packages.py [--debootstrap [--for arm64]]

The root has this machine's `/usr`, `/etc` and `/var` below a layer that takes what is written, without `/usr/local`, and has
no network. There the package for Debian is installed, used as the pages say, and removed; the wheel is installed, and the
tests of the Python package run with it; and the archive is unpacked and moved. Its program also runs where there is no other
file, and its library with another C library, musl. What is compared with stands in the pages and in the examples. With
`--debootstrap` the root is a bare Debian, of this machine's release, which is fetched first, and the compilers and Python with
it; that takes some minutes. With `--for arm64` that is one for ARM64, with the packages for ARM64 and the tests of
tests/library, which takes long: this machine has to run programs for ARM64, as it does where `qemu-user-static` and
`binfmt-support` are installed.

Those for ARM64 are otherwise tried by tests/arm64.py, without a root.

It needs what `./package` needs, and to be root, with leave to mount. Without that it ends with status 77, and says so. So it
does of those of its tests whose tool isn't there.
"""

import argparse
import base64
import hashlib
import os
import re
import shutil
import subprocess
import sys
import tempfile
import time
import zipfile
from pathlib import Path

sys.dont_write_bytecode = True  # the repository gets no made files

TOP = Path(__file__).resolve().parent.parent
sys.path[1:1] = [str(TOP), str(TOP / "examples")]

import build
import reports
from blocks import block
from clean_root import bare, layered, succeeds, with_own_mounts
from reports import leave_out, report, say_of
from surface import header

SKIPPED = 77
VERSION = (TOP / "VERSION").read_text().strip()
ANSWERS = (TOP / "examples" / "payments.out").read_bytes()
FIRST_C = block("docs/embedding.md", "#include <lgm.h>")
BUILD, _, SAID = block("docs/embedding.md", "$ cc first.c $(pkg-config").partition("\n")
FIRST_PYTHON = block("docs/embedding.md", "from lgm import ALL_FOUR, Map")
# Names that are made of the header.
NAMES = """import lgm
from lgm import *
number: int = NotNewer.number + lgm.NotNewer.number
word: str = Reason.BEYOND_BOTH.word
"""
# What the tests of the Python package need of the repository, beside themselves.
BESIDE = ("python/tests", "examples/payments.txt", "bench", "gossip")
# What those of the calls need, too.
CALLS = ("tests/library", "python/lgm", "surface", "include")
# The machines by their names for Debian and for the kernel.
MACHINES = {"amd64": "x86_64", "arm64": "aarch64"}
# The oldest glibc with which the program for Debian runs, and the shared object.
GLIBC = {"lgm": (2, 34), "liblgm.so": (2, 17)}
WHEEL_TAGS = "py3-none-manylinux2014_{0}.manylinux_2_17_{0}.musllinux_1_2_{0}"
# What slim images of Debian leave out.
SLIM = "path-exclude /usr/share/doc/*\npath-include /usr/share/doc/*/copyright\npath-exclude /usr/share/man/*\n"


def debian_name(machine):
    """The name of the package for Debian."""
    return f"lgm_{VERSION}_{machine}.deb"


def archive_name(machine):
    """The name of the archive."""
    return f"lgm-{VERSION}-{MACHINES[machine]}-linux.tar.gz"


def wheel_name(machine):
    """The name of the wheel."""
    return f"lgm-{VERSION}-{WHEEL_TAGS.format(MACHINES[machine])}.whl"


def made_packages(folder, machines):
    """Makes the packages, and once more with other settings. Their folder."""
    wanted = "all" if len(machines) == len(MACHINES) else machines[0]
    for name, settings in (("first", {}), ("second", {"TZ": "Asia/Tokyo", "LC_ALL": "C"})):
        (folder / name).mkdir()
        before = os.umask(0o077 if settings else 0o022)
        words = (TOP / "package", "--for", wanted, folder / name)
        subprocess.run(words, env={**os.environ, **settings}, cwd=folder, check=True)
        os.umask(before)
    first, second = ({file.name: file.read_bytes() for file in (folder / name).iterdir()} for name in ("first", "second"))
    names = {name(machine) for machine in machines for name in (debian_name, archive_name, wheel_name)}
    report("the same packages twice", {*first} == names and first == second)
    return folder / "first"


def versions_agree():
    """The program, the changelog and the crate have the version of the packages."""
    def found(pattern, file):
        return re.search(pattern, (TOP / file).read_text(), flags=re.MULTILINE)[1]

    program = found(r'^const VERSION: &str = "(.*)"', "crates/lgm_start/src/options.rt")
    report(f"the version {program} of the program's source", program == VERSION)
    report("the version in the changelog", found(r"^## (\S+) \(\d{4}-\d\d-\d\d\)$", "CHANGELOG.md") == VERSION)
    for machine in MACHINES:
        text = (TOP / "README.md").read_text()
        is_right = debian_name(machine) in text and archive_name(machine) in text
        report(f"the names of the packages for {machine} in the README", is_right)
    report("the version in docs/operating.md", found(r"`lgm --version`: `lgm (.*)`, the file", "docs/operating.md") == VERSION)
    report("the version of the crate", found(r'^version = "(.*)"', "examples/rust/Cargo.toml") == f"{VERSION}.0")


def record_is_right(wheel):
    """The wheel lists its files, with what they have."""
    with zipfile.ZipFile(wheel) as archive:
        own = f"lgm-{VERSION}.dist-info/RECORD"
        lines = dict(line.split(",", 1) for line in archive.read(own).decode().splitlines())
        right = lines.pop(own) == "," and {*lines, own} == {*archive.namelist()}
        for name, told in lines.items():
            content = archive.read(name)
            digest = base64.urlsafe_b64encode(hashlib.sha256(content).digest()).decode().rstrip("=")
            right &= told == f"sha256={digest},{len(content)}"
    report("the wheel's list of its files", right)


def symbols_are_old_enough(root, machine):
    """Nothing asks for a later glibc than the packages say."""
    if not root.has("readelf"):
        leave_out("the glibc that the packages need", "there is no readelf")
        return
    for file in ("/usr/bin/lgm", f"/usr/lib/{MACHINES[machine]}-linux-gnu/liblgm.so"):
        said = root.run(("readelf", "--version-info", "--wide", file)).stdout.decode()
        versions = {tuple(map(int, text.split("."))) for text in re.findall(r"Name: GLIBC_([\d.]+)", said)}
        report(f"the glibc that {Path(file).name} needs", versions and max(versions) <= GLIBC[Path(file).name])


def lintian_has_no_error(package):
    """Debian's checks of a package have no error."""
    if not shutil.which("lintian"):
        leave_out("the checks of lintian", "it isn't installed")
        return
    words = ("lintian", "--allow-root", "--fail-on", "error", package)
    report("lintian", subprocess.run(words, check=False).returncode == 0)


def types_are_right(wheel, folder):
    """The package has type hints by which the page's first program and made names are right, and other types aren't."""
    if not shutil.which("mypy"):
        leave_out("the type hints of the Python package", "there is no mypy")
        return
    with zipfile.ZipFile(wheel) as archive:
        archive.extractall(folder / "typed")
    programs = {"the page's program": (FIRST_PYTHON, 0), "made names": (NAMES, 0),
                "a wrong argument": (FIRST_PYTHON.replace("amount_msat=1_000", 'amount_msat="1_000"'), 1),
                "a wrong number": (NAMES.replace("number: int", "number: str"), 1),
                "a wrong word": (NAMES.replace("word: str", "word: int"), 1)}
    mypy = ("mypy", "--strict", "--cache-dir", folder / "cache")
    environment = {**os.environ, "MYPYPATH": str(folder / "typed")}
    checked = [("the package", folder / "typed" / "lgm", 0)]
    for number, (what, (text, status)) in enumerate(programs.items()):
        checked.append((what, folder / f"program_{number}.py", status))
        checked[-1][1].write_text(text)
    for what, file, status in checked:
        ran = subprocess.run((*mypy, file), env=environment, stdout=subprocess.PIPE, stderr=subprocess.PIPE, check=False)
        report(f"mypy, {what}", (ran if status else say_of(ran)).returncode == status)


def try_wheel(root, wheel, has_calls):
    """The wheel is installed in a new environment, runs the page's program and the package's tests, and is removed. The tests
    of tests/library go over its shared object, if they are wanted."""
    if not root.has("python3") or root.run("python3 -c 'import ensurepip'").returncode:
        leave_out("the wheel in an environment of its own", "there is no python3-venv")
        return
    root.put(wheel, f"/tmp/{wheel.name}")
    for name in (*BESIDE, *(CALLS if has_calls else ())):
        root.put(TOP / name, f"/tmp/beside/{name}")
    say_of(root.run(("python3", "-m", "venv", "/tmp/venv")))
    pip, python = ("/tmp/venv/bin/pip", "--disable-pip-version-check"), "/tmp/venv/bin/python"
    report("pip install", say_of(root.run((*pip, "install", "--no-index", f"/tmp/{wheel.name}"))).returncode == 0)
    ran = say_of(root.run((python, "-c", FIRST_PYTHON)))
    report("the first program in Python", ran.stdout.decode() == SAID.splitlines(keepends=True)[-1])
    for name in ("test_lgm.py", "test_dump.py"):
        report(f"{name}, with the wheel", say_of(root.run((python, f"/tmp/beside/python/tests/{name}"))).returncode == 0)
    if has_calls:
        shared = next((root.folder / "tmp/venv").rglob("liblgm.so.*")).relative_to(root.folder)
        ran = root.run((python, "/tmp/beside/tests/library/run.py", f"/{shared}"))
        print(ran.stdout.decode().splitlines()[-1])
        report("tests/library, with the wheel", say_of(ran).returncode == 0)
    report("pip uninstall", root.run((*pip, "uninstall", "--yes", "lgm")).returncode == 0)
    report("the wheel removed", not any((root.folder / "tmp/venv").rglob("*lgm*")))


def try_archive(root, archive):
    """The archive's README is right wherever it is unpacked, and after it was moved."""
    folder = archive.name.removesuffix(".tar.gz")
    root.put(archive, f"/tmp/{archive.name}")
    report("the archive unpacked", root.run(("tar", "-xzf", archive.name)).returncode == 0)
    (root.folder / "tmp" / "moved").mkdir()
    (root.folder / "tmp" / folder).rename(root.folder / "tmp" / "moved" / "lgm")
    place = "/tmp/moved/lgm"
    session = block("packaging/README", "bin/lgm run")
    report("the session of the archive", say_of(root.run(session, place)).stdout == ANSWERS)
    if not root.has("cc", "pkg-config"):
        leave_out("programs in C with the archive", "there is no cc or no pkg-config")
        return
    (root.folder / place.lstrip("/") / "first.c").write_text(FIRST_C)
    for first in ("export PKG_CONFIG_PATH", "cc first.c -Iinclude"):
        line = block("packaging/README", first)
        report(f"the archive's README, {first}", say_of(root.run(f"{line}\n./first", place)).stdout.decode() == SAID)


def installed(root, package, with_apt):
    """Installs the package for Debian, and says how long it and the first route took."""
    root.put(package, f"/tmp/{package.name}")
    begun = time.monotonic()
    words = ("apt-get", "install", "-y", f"./{package.name}") if with_apt else ("dpkg", "--install", package.name)
    report("the package installed", say_of(root.run(words)).returncode == 0)
    command = next(line for line in block("README.md", "sudo apt install").splitlines() if line.startswith("lgm run"))
    answers = say_of(root.run(command)).stdout
    report("the session of the README", answers == ANSWERS)
    print(f"the first route after {time.monotonic() - begun:.1f} s", flush=True)
    if root.has("python3"):
        ran = say_of(root.run(("python3", "examples/tools/client.py"), "/usr/share/lgm"))
        report("the client among the examples", b"route 10006500 700054 3\n" in ran.stdout)
    report("lgm --version", root.run("lgm --version").stderr.decode().strip() == f"lgm {VERSION}")


def manuals_are_right(root):
    """`man` shows the pages without a warning, and by the name of each call of the library its declaration."""
    if not root.has("man"):
        leave_out("the manual pages", "there is no man")
        return
    ran = root.run("man --warnings lgm")
    options = re.findall(r"^\| `(--\w+) HEX`|^\| `(--\w+) N`", (TOP / "docs/script.md").read_text(), flags=re.MULTILINE)
    shown = all("".join(option) in ran.stdout.decode() for option in options)
    report("lgm(1)", ran.returncode == 0 and not ran.stderr and shown and len(options) == 3)
    calls = [call for topic in header.read_file().described for call in topic]
    ran = root.run("man --warnings 3 lgm")
    shown = all(f"{call.name}(3)" in ran.stdout.decode() for call in calls)
    report("lgm(3)", ran.returncode == 0 and not ran.stderr and shown)
    for call in calls:
        ran = root.run(f"man --warnings {call.name}")
        shown = "".join(call.prototype.split()) in "".join(ran.stdout.decode().split())
        report(f"{call.name}(3)", ran.returncode == 0 and not ran.stderr and shown)


def completion_is_right(root):
    """bash completes what docs/script.md has."""
    if not root.has("bash"):
        leave_out("completion in bash", "there is no bash")
        return
    def completed(*words):
        line = f"COMP_WORDS=(lgm {' '.join(words)}); COMP_CWORD={len(words)}; _lgm; echo \"${{COMPREPLY[@]}}\""
        source = ". /usr/share/bash-completion/completions/lgm"
        return root.run(("bash", "-c", f"{source}; {line}")).stdout.decode().split()

    options = set(re.findall(r"^\| `(--\w+) ", (TOP / "docs/script.md").read_text(), flags=re.MULTILINE))
    report("completion", completed("r") == ["run"] and completed("l") == ["live"] and completed("run", "--chain", "''") == []
           and {*completed("live", "--")} == {*options, "--help"})


def try_program_in_c(root):
    """The first program of docs/embedding.md is built and run as the page says."""
    if not root.has("cc", "pkg-config"):
        leave_out("the first program in C", "there is no cc or no pkg-config")
        return
    (root.folder / "tmp" / "first.c").write_text(FIRST_C)
    report("the first program in C", say_of(root.run(BUILD.removeprefix("$ "))).stdout.decode() == SAID)


def try_slim(root, package):
    """On a slim image, which leaves out the pages, the session of the README and the crate are there all the same."""
    (root.folder / "etc/dpkg/dpkg.cfg.d").mkdir(exist_ok=True)
    rule = root.folder / "etc/dpkg/dpkg.cfg.d/slim"
    rule.write_text(SLIM)
    say_of(root.run(("dpkg", "--install", f"/tmp/{package.name}")))
    session = next(line for line in block("README.md", "sudo apt install").splitlines() if line.startswith("lgm run"))
    report("the session of the README, without pages", say_of(root.run(session)).stdout == ANSWERS)
    report("what a slim image has", (root.folder / "usr/share/lgm/examples/rust/Cargo.toml").exists()
           and not (root.folder / "usr/share/doc/lgm/README.md").exists())
    root.run(("dpkg", "--purge", "lgm"))
    rule.unlink()


def try_upgrade(root, package):
    """Where an older package had folders of its pages, the new one has links."""
    older, pages = root.folder / "tmp/older", root.folder / "usr/share/doc/lgm"
    say_of(root.run(("dpkg-deb", "--raw-extract", f"/tmp/{package.name}", "/tmp/older")))
    for name in ("preinst", "postinst", "postrm", "md5sums"):
        (older / "DEBIAN" / name).unlink()
    control = older / "DEBIAN/control"
    control.write_text(re.sub("(?m)^Version: .*", "Version: 1.0", control.read_text()))
    links = [it for it in (older / "usr/share/doc/lgm").iterdir() if it.is_symlink() and os.readlink(it).startswith("../../lgm/")]
    for link in links:
        link.unlink()
        link.mkdir()
        (link / "older").write_text("older\n")
    say_of(root.run(("dpkg-deb", "--root-owner-group", "--build", "/tmp/older", "/tmp/older.deb")))
    for name in ("older.deb", package.name):
        say_of(root.run(("dpkg", "--install", f"/tmp/{name}")))
    report("links in place of folders", links and all((pages / it.name).is_symlink() for it in links))
    root.run(("dpkg", "--purge", "lgm"))


def try_debian_package(root, package, with_apt, machine):
    """The package for Debian is installed, used and removed."""
    before = root.files()
    installed(root, package, with_apt)
    symbols_are_old_enough(root, machine)
    manuals_are_right(root)
    completion_is_right(root)
    try_program_in_c(root)
    report("the package removed", say_of(root.run(("dpkg", "--purge", "lgm"))).returncode == 0)
    left = root.files() - before
    print(*sorted(left), sep="\n", end="\n" if left else "")
    report("nothing left", not left)


def try_alone(packages, folder):
    """The program of the archive runs where there is no other file, not even a C library."""
    root, session = folder / "alone", block("packaging/README", "bin/lgm run").strip()
    (root / "tmp").mkdir(parents=True)
    subprocess.run(("tar", "-C", root / "tmp", "-xzf", packages / archive_name("amd64")), check=True)
    words, script = session.split(" < ")
    top = f"tmp/{archive_name('amd64').removesuffix('.tar.gz')}"
    given = (root / top / script).read_bytes()
    ran = subprocess.run(("chroot", root, f"/{top}/{words.split()[0]}", *words.split()[1:]), input=given, capture_output=True,
                         check=False)
    report("the archive's program alone", say_of(ran).stdout == ANSWERS)


def try_other_c_library(packages, folder):
    """The archive's library answers in programs with musl in place of glibc: the archive in one that has musl in it, and the
    shared object in one that loads it."""
    if not shutil.which("musl-gcc"):
        leave_out("the library with another C library", "there is no musl-gcc: apt-get install musl-tools")
        return
    tree = folder / "musl"
    tree.mkdir()
    subprocess.run(("tar", "-C", tree, "-xzf", packages / archive_name("amd64")), check=True)
    top = tree / archive_name("amd64").removesuffix(".tar.gz")
    for how, words in (("the archive", ("-static", top / "lib/liblgm.a")),
                       ("the shared object", (f"-L{top / 'lib'}", "-llgm", f"-Wl,-rpath,{top / 'lib'}"))):
        source = TOP / "examples/c/run.c"
        subprocess.run(("musl-gcc", "-std=c11", "-O2", source, f"-I{top / 'include'}", *words, "-o", tree / "run"), check=True)
        for script in sorted((TOP / "examples").glob("[!l]*.txt")):
            ran = subprocess.run((tree / "run", "c1" * 32), input=script.read_bytes(), capture_output=True, check=False)
            report(f"musl, {how}, {script.name}", say_of(ran).stdout == script.with_suffix(".out").read_bytes())


def try_crate(packages, folder):
    """The crate is packed without the network. What was packed, and what is among the examples, answer over the archive."""
    reads = ("cargo", "metadata", "--offline", "--no-deps", "--manifest-path", TOP / "examples/rust/Cargo.toml")
    if not all(shutil.which(tool) for tool in ("cargo", "cc", "pkg-config")) or not succeeds(*reads):
        leave_out("the crate as cargo packs it", "no cargo of its edition, cc and pkg-config run here")
        return
    tree, target = folder / "tree", folder / "cargo"
    tree.mkdir()
    subprocess.run(("tar", "-C", tree, "-xzf", packages / archive_name("amd64")), check=True)
    top = tree / archive_name("amd64").removesuffix(".tar.gz")
    lib = top / "lib"
    environment = {**os.environ, "CARGO_HOME": str(target / "home"), "CARGO_TARGET_DIR": str(target),
                   "PKG_CONFIG_PATH": str(lib / "pkgconfig"), "LD_LIBRARY_PATH": str(lib)}
    words = ("cargo", "package", "--quiet", "--offline", "--allow-dirty", "--no-verify")
    ran = subprocess.run(words, cwd=TOP / "examples/rust", env=environment, check=False)
    report("cargo package", ran.returncode == 0)
    subprocess.run(("tar", "-C", target, "-xzf", target / "package" / f"lgm-{VERSION}.0.crate"), check=True)
    words = ("cargo", "run", "--quiet", "--offline", "--example", "calls")
    for name, place, settings in (("pkg-config", top / "share/lgm/examples/rust", {}),
                                  ("LGM_LIBRARY_DIR", target / f"lgm-{VERSION}.0", {"LGM_LIBRARY_DIR": str(lib)})):
        ran = subprocess.run(words, cwd=place, env={**environment, **settings}, stdout=subprocess.PIPE, check=False)
        report(f"the crate's calls, by {name}", ran.stdout == b"ok\n")


class Arm64:
    """The tests of the packages for ARM64, under qemu, which run beside those of the root. What they say comes behind these."""

    def __init__(self, packages, folder):
        self.said = folder / "arm64.txt"
        with open(self.said, "wb") as file:
            words = (sys.executable, TOP / "tests" / "arm64.py", packages)
            self.process = subprocess.Popen(words, stdout=file, stderr=subprocess.STDOUT)

    def report(self):
        """Waits for their end, and reports it."""
        status = self.process.wait()
        sys.stdout.write(self.said.read_text(errors="replace"))
        if status != SKIPPED:
            report("the packages for ARM64", status == 0)


def try_in_root(stage, packages, is_bare, machine):
    """Tries the packages in a root. The exit status."""
    root = bare(stage, machine) if is_bare else layered(stage)
    if root is None:
        leave_out("tests/packages.py", "no layers can be mounted here")
        return SKIPPED
    package = packages / debian_name(machine)
    if is_bare:
        installed(root, package, True)
        root.run(("dpkg", "--purge", "lgm"))
        say_of(root.run(("apt-get", "install", "-y", "--no-install-recommends", "gcc", "libc6-dev", "pkg-config", "python3-venv",
                         "man-db", "binutils")))
    try_wheel(root, packages / wheel_name(machine), machine != "amd64")
    try_archive(root, packages / archive_name(machine))
    try_debian_package(root, package, is_bare, machine)
    try_slim(root, package)
    try_upgrade(root, package)
    return 1 if reports.failures else 0


def arguments():
    """The words of the command line."""
    parser = argparse.ArgumentParser(description=__doc__, formatter_class=argparse.RawDescriptionHelpFormatter)
    parser.add_argument("--debootstrap", action="store_true", help="in a bare Debian, which is fetched")
    parser.add_argument("--for", choices=MACHINES, default="amd64", dest="machine", help="the machine of that Debian")
    parser.add_argument("--inside", nargs=2, type=Path, metavar="FOLDER", help=argparse.SUPPRESS)
    options = parser.parse_args()
    if options.machine != "amd64" and not options.debootstrap:
        parser.error("--for goes with --debootstrap")
    return options


def main():
    """Takes the arguments, makes the packages, and tries them: those of the root in another process, with mounts of its own."""
    options = arguments()
    if options.inside:
        sys.exit(try_in_root(*options.inside, options.debootstrap, options.machine))
    missing = [tool for tool in ("dpkg-deb", "strip", "unshare", *(["debootstrap"] if options.debootstrap else []))
               if not shutil.which(tool)]
    before = with_own_mounts(options.debootstrap) if not missing else None
    if not before:
        leave_out("tests/packages.py", f"there is no {' and no '.join(missing)}" if missing else "no mounts are allowed here")
        sys.exit(SKIPPED)
    machines = ["amd64"] if (lacking := build.missing_for_arm64()) else [*MACHINES]
    if lacking:
        leave_out("the packages for ARM64", lacking)
    with tempfile.TemporaryDirectory() as name:
        folder = Path(name)
        folder.chmod(0o755)
        packages = made_packages(folder, machines)
        versions_agree()
        for machine in machines:
            record_is_right(packages / wheel_name(machine))
            lintian_has_no_error(packages / debian_name(machine))
        for_arm64 = Arm64(packages, folder) if len(machines) > 1 and not options.debootstrap else None
        types_are_right(packages / wheel_name("amd64"), folder)
        try_crate(packages, folder)
        try_alone(packages, folder)
        try_other_c_library(packages, folder)
        stage = folder / "stage"
        stage.mkdir()
        words = (*before, "sh", "-c", 'mount -t tmpfs tmpfs "$0" && exec "$@"', stage)
        more = ("--debootstrap", "--for", options.machine) if options.debootstrap else ()
        status = subprocess.run((*words, sys.executable, __file__, "--inside", stage, packages, *more), check=False).returncode
        if for_arm64:
            for_arm64.report()
    sys.exit(1 if reports.failures and status in (0, SKIPPED) else status)


if __name__ == "__main__":
    main()
