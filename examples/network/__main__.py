"""Writes the network that a Lightning node knows as a script for `lgm run`, or a table that sums it up.

    python3 examples/network SOURCE > network.txt
    python3 examples/network --summary [--plot SVG] FILE

SOURCE is one of these, recognized by its content and reported on stderr:

- `gossip_store` of Core Lightning, mostly ~/.lightning/bitcoin/gossip_store;
- `gossip_db` of Electrum, mostly ~/.electrum/gossip_db. It has no capacities;
- the answer of LND's `lncli describegraph`, kept in a file. It has no messages, so they are made: for routes only.

The script has the announcements of the channels, with their capacity and updates; those of the nodes; and `commit`.
Its first line says where it comes from, and what isn't as in the network. FILE is such a script, or a SOURCE.

    --chain HEX   the chain of an answer of LND, which doesn't tell it: 64 digits, as for `lgm`. Default: mainnet
    --plot SVG    draw the network too, to this file; it needs matplotlib

If something in the source isn't as expected, a line on standard error names the record, the status is 1, and the script
has no `commit`. store.py, electrum.py, lnd.py, summary.py and plots.py say more about each.
"""

import argparse
import os
import re
import sys

import electrum
import lnd
import plots
import store
import summary
import top  # leads to gossip
from progress import Progress, clear, say

from gossip.messages import MAINNET, Fault

HEAD = 64  # bytes that tell what a file is
SQLITE = b"SQLite format 3\0"
UTF_16 = (b"\xff\xfe", b"\xfe\xff")  # as some shells of Windows write JSON
JSON = re.compile(rb"(\xef\xbb\xbf)?\s*\{")
SCRIPT = re.compile(rb"\s*(#|m |close |commit|q |filter |route )")
SCRIPTS = "a script"


def kind_of(path):
    """What a file is: the module that reads it, or SCRIPTS."""
    with open(path, "rb") as file:
        head = file.read(HEAD)
    if head.startswith(SQLITE):
        return electrum
    if JSON.match(head) or head.startswith(UTF_16):
        return lnd
    if b"\0" in head or len(head) == 1 and head[0] in store.VERSIONS:  # the flags of a record have a zero byte
        return store
    if SCRIPT.match(head):
        return SCRIPTS
    what = "is none of the files that are known" if head else "is empty"
    raise Fault(f"{path} {what}: a gossip_store, a gossip_db, an answer of describegraph")


def script_of(path, source, chain):
    """The lines of a source's script. `chain` is nothing if none was given."""
    if chain and source is not lnd:
        raise Fault(f"{path} is {source.NAME}, which names its chain itself")
    say(f"{path} is {source.NAME}")
    yield f"# {source.ABOUT}\n"
    yield from lnd.lines(path, chain or MAINNET) if source is lnd else source.lines(path)
    yield "commit\n"


def script_lines(path):
    """The lines of a file that is a script already."""
    progress, done = Progress(os.path.getsize(path)), 0
    with open(path, encoding="utf-8", errors="replace") as file:
        for line in file:
            yield line
            done += len(line)
            progress.at(done)
    clear()


def chain_hash(text):
    """The bytes of `--chain`."""
    if not re.fullmatch("[0-9a-fA-F]{64}", text):
        raise argparse.ArgumentTypeError(f"{text!r} isn't 64 hexadecimal digits")
    return bytes.fromhex(text)


def arguments():
    """The words of the command line."""
    parser = argparse.ArgumentParser(
        prog="examples/network", usage="python3 examples/network [--summary [--plot SVG]] [--chain HEX] FILE",
        description=__doc__, formatter_class=argparse.RawDescriptionHelpFormatter)
    parser.add_argument("--summary", action="store_true", help="print the table instead of the script")
    parser.add_argument("--chain", type=chain_hash, metavar="HEX", help="of an answer of LND")
    parser.add_argument("--plot", metavar="SVG", help="for --summary: the file of a page of plots")
    parser.add_argument("file", metavar="FILE", help="a source; for --summary also a script")
    words = parser.parse_args()
    if words.plot and not words.summary:
        parser.error("--plot is for --summary")
    return words


def written(words):
    """The lines of what is asked for."""
    kind = kind_of(words.file)
    if kind is SCRIPTS and not words.summary:
        raise Fault(f"{words.file} is a script already")
    if words.plot:
        plots.library()  # where it is missing this is said at once
    lines = script_lines(words.file) if kind is SCRIPTS else script_of(words.file, kind, words.chain)
    return table_lines(lines, words.plot) if words.summary else lines


def table_lines(lines, plot):
    """The lines of the table of a script, whose plots are drawn to a file if one is given."""
    network, about = summary.read(lines)
    if plot:
        plots.draw(plot, network, f"{about}\n" if about else "")
    return [f"{line}\n" for line in summary.summary(network, about)]


def main():
    """Writes to standard output."""
    words = arguments()
    try:
        sys.stdout.writelines(written(words))
        sys.stdout.flush()
    except BrokenPipeError:  # whoever reads wants no more
        os.dup2(os.open(os.devnull, os.O_WRONLY), sys.stdout.fileno())
        sys.exit(1)
    except (Fault, OSError) as fault:
        say(fault)
        sys.exit(1)


if __name__ == "__main__":
    main()
