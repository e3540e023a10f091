"""Leads to the top of the repository: the scripts here import its package `gossip`."""

import sys
from pathlib import Path

TOP = Path(__file__).resolve().parents[2]
sys.path.insert(1, str(TOP))
