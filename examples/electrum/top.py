"""Leads to the top of the repository, with the package `gossip`, and to the Python package `lgm`."""

import sys
from pathlib import Path

TOP = Path(__file__).resolve().parents[2]
sys.path += [str(TOP), str(TOP / "python")]
