"""What include/lgm.h describes, for those that repeat it: `python3 surface/make.py` writes these files anew.

- `model`: what a header has: calls, structs, numbers, words and constants, each with its comment;
- `header`: reads include/lgm.h;
- `names`: the names of all that in Python and in Rust;
- `python_declarations`, `python_faults`: python/lgm/declarations.py and numbered.py, and the names that the package exports;
- `rust_raw`, `rust_numbers`: raw.rs, numbers.rs and version.rs of the crate;
- `pages`: tables in docs, and by `clauses` which calls of the library leave maps as they are;
- `manual`: the manual pages, which `./package` makes by it.
"""
