#!/usr/bin/env python3
"""Tests the plots of examples/network: what they show, on a small network by hand and a made one, and what is said where
matplotlib is missing.

    python3 examples/network/test_plots.py

The pages are drawn by the system's Python where only that one has matplotlib. Without matplotlib they are left out.
"""

import os
import subprocess
import sys
import tempfile
from pathlib import Path
from xml.etree import ElementTree

sys.dont_write_bytecode = True  # the repository gets no made files

import plots
from top import TOP

SYSTEMS = "/usr/bin/python3"
TITLES = {"Capacity", "Channels of a node", "Base fee", "Rate"}


def has_library(python):
    """Whether a Python has matplotlib."""
    words = [python, "-c", "import matplotlib"]
    return os.access(python, os.X_OK) and subprocess.run(words, capture_output=True, check=False).returncode == 0


def summed_up(python, script, *options, **environment):
    """The status, the table and what the command says on standard error, of a script. The library may say more there,
    such as that it looks for fonts."""
    with tempfile.TemporaryDirectory() as folder:
        path = Path(folder) / "script"
        path.write_text(script)
        words = [python, "-B", TOP / "examples" / "network", "--summary", *options, path]
        done = subprocess.run(words, capture_output=True, text=True, check=False, env={**os.environ, **environment})
    return done.returncode, done.stdout, [line for line in done.stderr.splitlines() if line.startswith("network: ")]


def made_script(channels):
    """A synthetic network."""
    words = [sys.executable, TOP / "bench" / "make_script.py", "--channels", str(channels)]
    return subprocess.run(words, capture_output=True, text=True, check=True).stdout


def shares_and_bins_are_right():
    """Of four values half are 0; bins begin below the least value and end above the greatest."""
    found, percent = plots.shares([7, 0, 0, 10])
    last = {value: share for value, share in zip(found, percent)}
    assert last == {0: 50, 7: 75, 10: 100}, last
    ends = plots.decades([20, 1_000])
    assert (ends[0], round(ends[-1])) == (10, 10_000) and len(ends) == 3 * plots.BINS_A_DECADE + 1, ends


def a_missing_library_is_told():
    """With a module in its place that can't be imported there is a line, status 1, and no file."""
    with tempfile.TemporaryDirectory() as folder:
        (Path(folder) / "matplotlib.py").write_text("raise ImportError")
        page = Path(folder) / "page.svg"
        status, table, said = summed_up(sys.executable, "commit\n", "--plot", page, PYTHONPATH=folder)
        assert (status, table, said) == (1, "", [f"network: {plots.MISSING}"]) and not page.exists()
        status, _, said = summed_up(sys.executable, "commit\n", PYTHONPATH=folder)
        assert (status, said) == (0, [])


def a_page_has_four_plots(python):
    """The page is XML with the titles and the counts of the table; the table is the same, and so is a second page."""
    script = f"# A made network\n{made_script(300)}"
    status, table, _ = summed_up(python, script)
    with tempfile.TemporaryDirectory() as folder:
        pages = [Path(folder) / name for name in ("one.svg", "other.svg")]
        for page in pages:
            assert summed_up(python, script, "--plot", page) == (status, table, []) == (0, table, [])
        one, other = (page.read_bytes() for page in pages)
    assert one == other
    texts = {"".join(element.itertext()).strip() for element in ElementTree.fromstring(one).iter()
             if element.tag.endswith("}text")}
    usable = next(line.split()[-1] for line in table.splitlines() if line.strip().startswith("usable"))
    assert TITLES <= texts and "A made network" in texts, texts
    assert f"300 channels, 106 nodes, {usable} of 600 directions usable" in texts, texts


def a_page_of_nothing_is_a_page(python):
    """A network without channels has empty plots."""
    with tempfile.TemporaryDirectory() as folder:
        page = Path(folder) / "page.svg"
        assert summed_up(python, "commit\n", "--plot", page)[0] == 0
        assert "0 channels, 0 nodes, 0 of 0 directions usable" in page.read_text()


def main():
    """Runs each test that can run."""
    shares_and_bins_are_right()
    a_missing_library_is_told()
    python = next((it for it in (sys.executable, SYSTEMS) if has_library(it)), None)
    if python is None:
        print("left out: the plots of examples/network, since no Python here has matplotlib")
        print("2 passed")
        return
    a_page_has_four_plots(python)
    a_page_of_nothing_is_a_page(python)
    print("4 passed")


if __name__ == "__main__":
    main()
