"""Reads in the sources of the library which calls leave a map as it is. Such a call has a clause that says so of this map:

    ensures same { map.new.value ≡ map.old.value }
"""

from __future__ import annotations

import re
from pathlib import Path
from typing import Dict, List

SOURCES = Path(__file__).resolve().parent.parent / "crates" / "lgm_c" / "src"
# An exported call: its name, its parameters, and its result with its clauses.
CALL = re.compile(r'#\[unsafe\(no_mangle\)\]\s*pub extern "C" fn (\w+)\((.*?)\)(.*?)^[{}]', re.DOTALL | re.MULTILINE)
SAME = re.compile(r"^ *ensures (\w+) \{ (\w+)\.new\.value ≡ \2\.old\.value \}$", re.MULTILINE)


def sources() -> str:
    """All sources of the library."""
    return "".join(file.read_text() for file in sorted(SOURCES.glob("*.rt")))


def keeping(text: str) -> Dict[str, List[str]]:
    """The names of such clauses, of each call of sources that has some."""
    found = {}
    for name, parameters, contract in CALL.findall(text):
        clauses = [clause for clause, kept in SAME.findall(contract) if re.search(rf"\b{kept}: &mut LgmMap\b", parameters)]
        if clauses:
            found[name] = clauses
    return found
