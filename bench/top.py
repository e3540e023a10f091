"""Leads to the top of the repository, with the package `gossip` and build.py, and to the Python package `lgm`."""

import sys
from pathlib import Path

TOP = Path(__file__).resolve().parent.parent
sys.path[1:1] = [str(TOP), str(TOP / "python")]
