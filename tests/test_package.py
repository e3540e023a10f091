#!/usr/bin/env python3
"""Tests which parts `./package` builds before it packs them, where files that are empty stand for the sources and for what is
built; and that no page that it packs links to what it doesn't pack.

    python3 tests/test_package.py

tests/packages.py tests what it packs.
"""

import os
import sys
import tempfile
from importlib.machinery import SourceFileLoader
from importlib.util import module_from_spec, spec_from_loader
from pathlib import Path

sys.dont_write_bytecode = True  # the repository gets no made files

TOP = Path(__file__).resolve().parent.parent
sys.path.insert(1, str(TOP))  # with build.py
SOURCES = ("crates.txt", "include/lgm.h", "crates/low/src/lib.rt", "crates/lgm/src/main.rt", "crates/lgm_c/src/lib.rt",
           "runtime/heap.c", "runtime/process.c")
# What is built for x86-64 and for ARM64.
PROGRAM, PART, ARCHIVE, SHARED = "crates/lgm/out/lgm", "crates/lgm/out/lgm.o", "examples/out/liblgm.a", "examples/out/liblgm.so.7"
FOR_ARM64 = ("crates/lgm/out/arm64/lgm", "crates/lgm/out/arm64/lgm.o", "examples/out/arm64/liblgm.a",
             "examples/out/arm64/liblgm.so.7")


def loaded():
    """`./package` as a module."""
    loader = SourceFileLoader("package", str(TOP / "package"))
    module = module_from_spec(spec_from_loader(loader.name, loader))
    loader.exec_module(module)
    return module


class Place:
    """A temporary repository, and what is built in it."""

    def __init__(self, package, top):
        self.package, self.top, self.built = package, top, []
        package.TOP, package.build.TOP = top, top
        package.LIBRARIES = top / "examples/out"
        package.build_by = lambda *words: self.built.append(" ".join(Path(word).name for word in words if word != sys.executable))
        for file in SOURCES:
            self.write(file, 100)
        (top / "crates.txt").write_text("low:\nlgm: low\nlgm_c staticlib: low\n")
        (top / "include/lgm.h").write_text("#define LGM_VERSION 7\n")
        os.utime(top / "crates.txt", (100, 100))

    def write(self, file, seconds):
        """Writes an empty file with a time."""
        place = self.top / file
        place.parent.mkdir(parents=True, exist_ok=True)
        place.touch()
        os.utime(place, (seconds, seconds))

    def builds(self, machine="amd64"):
        """What is built now for a machine."""
        self.built.clear()
        self.package.build_what_is_stale(self.package.MACHINES[machine])
        return self.built


def only_what_is_stale_is_built(place):
    """What isn't there, and what is older than a source of its crate or of one below."""
    assert place.builds() == ["build.py", "build-c"]
    place.write(PROGRAM, 200)
    assert place.builds() == ["build.py", "build-c"]
    place.write(PART, 200)
    assert place.builds() == ["build-c"]
    place.write(ARCHIVE, 200)
    assert place.builds() == ["build-c"]
    place.write(SHARED, 200)
    assert place.builds() == []
    for source, wanted in (("crates/lgm/src/main.rt", ["build.py"]), ("crates/lgm_c/src/lib.rt", ["build-c"]),
                           ("crates/low/src/lib.rt", ["build.py", "build-c"]), ("crates.txt", ["build.py", "build-c"])):
        place.write(source, 300)
        assert place.builds() == wanted, source
        place.write(source, 100)
    place.write("runtime/heap.c", 300)
    assert place.builds() == []
    for_arm64 = ["build.py --for arm64", "build-c --for arm64"]
    assert place.builds("arm64") == for_arm64
    for file in FOR_ARM64:
        place.write(file, 200)
    assert place.builds("arm64") == for_arm64
    place.write("runtime/heap.c", 100)
    assert place.builds("arm64") == []
    place.write("crates/lgm/src/main.rt", 300)
    assert place.builds("arm64") == for_arm64[:1]


def says_what_is_missing(package):
    """Where a tool isn't there, a line says so, for ARM64 with the packages that have it."""
    with tempfile.TemporaryDirectory() as folder:
        before, os.environ["PATH"] = os.environ["PATH"], folder
        for name in ("dpkg-deb", "strip"):
            Path(folder, name).touch(0o755)
        said = {name: package.missing_for(machine) for name, machine in package.MACHINES.items()}
        os.environ["PATH"] = before
    assert said == {"amd64": "cc isn't on the PATH", "arm64": "aarch64-linux-gnu-gcc isn't on the PATH: apt-get install "
                    "gcc-aarch64-linux-gnu libc6-dev-arm64-cross"}, said


def builds_for_any_processor(package):
    """What is built is for any processor unless the environment says otherwise. Without `rt`, and after a failure, it ends."""
    with tempfile.TemporaryDirectory() as folder:
        rt, told = Path(folder, "rt"), Path(folder, "told")
        os.environ["PATH"] = f"{folder}:/usr/bin:/bin"
        os.environ.pop("LGM_CPU", None)
        for words, status in ((("false",), "package: something has to be built, and rt, Rattle's toolchain, isn't on the PATH"),
                              (("sh", "-c", f"echo $LGM_CPU > {told}"), None), (("false",), 1)):
            try:
                package.build_by(*words)
                assert status is None
            except SystemExit as ended:
                assert ended.code == status, ended.code
            rt.touch()
            rt.chmod(0o755)
        assert told.read_text() == "default\n"


def pages_link_to_what_is_packed(package):
    """Each link of a page leads to a packed file. One that doesn't is found."""
    files = package.pages()
    assert TOP / "docs/embedding.md" in files and TOP / "tests/pages.py" not in files
    lost = list(package.lost_links(files))
    assert not lost, lost
    fewer = files - {TOP / "bench/README.md"}
    assert "docs/speed.md links to ../bench/README.md, which isn't packed" in list(package.lost_links(fewer))
    assert not any("network.svg" in why for why in package.lost_links(fewer))
    assert any("network.svg" in why for why in package.lost_links(files - {TOP / "docs/network.svg"}))


def examples_are_where_nothing_leaves_them_out(package):
    """Nothing that is used is in the folder of pages, and each link there and from there leads to what is packed."""
    tree = package.documentation(0)
    folders = {str(parent) for place in tree for parent in Path(place).parents} | {"include", "bin"}
    for place, entry in tree.items():
        is_read = place.startswith("share/doc/lgm/")
        if isinstance(entry, package.Link):
            assert os.path.normpath(Path(place).parent / entry.target) in {*folders, *tree, "bin/lgm"}, (place, entry)
        else:
            assert is_read == (place.split("/")[3 if is_read else 2] not in package.USED), place
    names = [{place.removeprefix(top).split("/")[0] for place in tree if place.startswith(top)}
             for top in ("share/lgm/", "share/doc/lgm/")]
    assert names[0] == names[1] - {"changelog.gz", "copyright"}, names


def main():
    """Runs each."""
    package = loaded()
    pages_link_to_what_is_packed(package)
    examples_are_where_nothing_leaves_them_out(package)
    says_what_is_missing(package)
    builds_for_any_processor(package)
    with tempfile.TemporaryDirectory() as folder:
        only_what_is_stale_is_built(Place(package, Path(folder)))
    print("5 passed")


if __name__ == "__main__":
    main()
