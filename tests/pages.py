#!/usr/bin/env python3
"""Checks that what the pages name is there: links and their anchors, files, calls, clauses and definitions.

    python3 tests/pages.py

A page names things in `code spans`. Checked are

- links to files of the repository, and to headings in them;
- paths, as `examples/tools/client.py` or `lgm_wire/specs`, also behind `python3`, and modules of specs, as `inner/ScidSet`;
- calls, as `Map::absorb`, and definitions of a module, as `Script.text_for`;
- names in a list behind such a call, as `Map::new`, `replay`: each has to be of that type, or a call of its own;
- clauses behind calls, as `decode`: `found`, `only`, each of which one of the calls before the colon has to have; and
  clauses of a call, as `least.answer`;
- all other names, which have to occur somewhere outside the pages and outside comments, unless they are those of the kit or
  of a tool;
- that the calls and types in the tables of docs/promises.md are of the crate whose row it is: of the table of every call
  public ones of that crate, of the index some of it or of a crate that it stands on;
- that the tables of docs/definitions.md list each module of specs in its folder, and no others;
- the ways in docs/architecture.md: lines of a block with a call, its crate, and its files in the crate's `src`, each of
  which has to exist, and one of which has to have the call.

Prints a line for each thing that isn't there; the exit status is then 1.
"""

import re
import sys
from collections import defaultdict
from pathlib import Path

TOP = Path(__file__).resolve().parent.parent
PAGES = sorted([*TOP.glob("*.md"), *TOP.glob("docs/*.md"), *TOP.glob("bench/*.md"), *TOP.glob("examples/*.md"),
                *TOP.glob("examples/*/*.md")])
SOURCES = ("crates/*/src/**/*.rt", "crates/*/specs/**/*.antt", "crates/*/proofs/**/*.antt", "include/*.h",
           "crates/*/must-fail/*.edit", "crates/*/args", "examples/**/*.py", "examples/c/*.c", "examples/rust/**/*.rs",
           "examples/build-c", "bench/*.py", "gossip/*.py", "tests/**/*.py", "*.py", "python/**/*.py",
           "packaging/*", "runtime/*.c", "surface/*.py", "crates.txt", "lgm", "test", "package", ".ci/run")
COMMANDS = ("rt", "lgm", "./lgm", "./test", "python3", "git", "cd", "awk", "bitcoin-cli")
# Names that aren't this repository's: the kit's, clap's, the C library's, the protocol's, placeholders.
OUTSIDE = set("""
    rt clap hex thiserror memchr itoa indexmap left_right logbook crossbeam_channel core std decimal OutOfMemory RandomState
    replace_with read_exact decode_of decode_sized encode_lower PATH HANDLES NAME PROGRAM SCRIPT N V K GLIBC_TUNABLES LC_ALL
    BUILD out may_wait tests_may Threads Wait requires ensures proves unwrap impl specs my_service
    htlc_maximum_msat htlc_minimum_msat fee_base_msat min_final_cltv_expiry_delta announcement_signatures dont_forward
    sync_complete full_information first_blocknum number_of_blocks first_timestamp timestamp_range
    channel_announcement node_announcement channel_update query_short_channel_ids reply_short_channel_ids_end
    query_channel_range reply_channel_range gossip_timestamp_filter amt_to_forward outgoing_cltv_value payment_data
    payment_metadata short_channel_id tu16 tu32 tu64 fd fe ff c1 end d1 u64
    ns/byte specs/declared network.txt out/ examples/out crates/lgm/out/lgm kept.txt shorter.txt ping KIT-ID
    temporary_channel_failure permanent_channel_failure unknown_next_peer channel_disabled fee_insufficient
    required_channel_feature_missing temporary_node_failure permanent_node_failure required_node_feature_missing
    incorrect_cltv_expiry amount_below_minimum expiry_too_soon expiry_too_far incorrect_or_unknown_payment_details
    basic_mpp mpp_timeout failure_source_index erring_index encrypted_recipient_data gossip_queries gossip_queries_ex warning
    F.texts sync.Mutex runtime.LockOSThread liblgm.a liblgm.so BUILD.bazel routes.map
    create_route_from_path memcpy memmove memset malloc realloc free cc ar slab valgrind
""".split())

MAKES_NAMES_UP = "test_pages.py"
# Comments, by the ends of the names of files: what they say isn't what there is.
COMMENTS = {".rt": r"//.*", ".antt": r"(?m)^\s*--.*|\s--\s.*", ".c": r"(?s)/\*.*?\*/", ".h": r"(?s)/\*.*?\*/", ".rs": r"//.*",
            ".py": r'"""[\s\S]*?"""|(?<!\S)#.*'}
# The tables of docs/promises.md by crate: the headings of their sections, the column of the calls, and whether these are of
# the crate alone.
BY_CRATE = (("## Index", 2, False), ("## Every call", 0, True))
HASH = re.compile(r"[0-9a-f]{64}")
NAME = re.compile(r"[A-Za-z_][A-Za-z0-9_]*")
PATH = re.compile(r"[.A-Za-z0-9_*-]+(/[.A-Za-z0-9_*-]*)+")
# A line of a way: what is called, its crate, its files in `src`, and maybe what it does.
STEP = re.compile(r" {4}[ |]+(\w.*?)(?: \(\w+\))? {2,}(lgm_\w+) +(\w[\w/]*(?:, \w[\w/]*)*)(?: {2,}.*)?")
FILE = re.compile(r"[A-Za-z0-9_-]+\.(rt|antt|py|md|txt|out|svg|c|h|edit|rs|toml|lock)")


def records():
    """The fields of each record of the specs, by its name."""
    fields = {}
    for spec in TOP.glob("crates/*/specs/**/*.antt"):
        name = None
        for line in spec.read_text().splitlines():
            if found := re.match(r"(?:pub )?record (\w+)", line):
                name = found[1]
                fields[name] = set()
            elif name and (found := re.match(r"  (?:pub )?(\w+) :", line)):
                fields[name].add(found[1])
            elif line.strip() and not line.startswith(" "):
                name = None
    return fields


def named_clauses():
    """For each call, as `decode` and as `Map::absorb`, the names of its clauses, and of the fields of records that they
    cite; and all members of each type."""
    clauses, members, fields, aliases = defaultdict(set), defaultdict(set), records(), {}
    for source in TOP.glob("crates/*/src/**/*.rt"):
        owner, call = None, None
        for line in source.read_text().splitlines():
            if found := re.match(r"pub type (\w+)(?:<.*>)? = (?:\w+::)*(\w+)", line):
                aliases[found[1]] = found[2]
            if found := re.match(r"(?:pub )?(?:impl|trait|enum|struct)\b(?:<[^{]*?>)?\s*(?:.*\bfor )?(?:\w+::)*(\w+)", line):
                owner = found[1]
            elif line.startswith("}"):
                owner = None
            if found := re.search(r"\bfn (\w+)", line):
                call = found[1]
                clauses[call]
                if owner:
                    members[owner].add(call)
                    clauses[f"{owner}::{call}"]
            elif found := re.match(r"\s*(?:ensures|requires) (\w* ?)\{", line):
                names = {found[1].strip()}.union(*(fields.get(name, ()) for name in NAME.findall(line)))
                for name in {call, f"{owner}::{call}", owner} - {None}:
                    clauses[name] |= names
            elif owner and (found := re.match(r"    (\w+)\b.*[,({]?$", line)):
                members[owner].add(found[1])
    for alias, name in aliases.items():
        members[alias] |= members[name]
    return clauses, members


def definitions():
    """For each module of specs, the names that it declares; and the fields of records, by the record's name."""
    names = defaultdict(set)
    for spec in TOP.glob("crates/*/specs/**/*.antt"):
        names[spec.stem] |= set(NAME.findall(spec.read_text()))
    return names


def declared():
    """For each crate, the names of its public functions and types, and those of all."""
    public, every = defaultdict(set), defaultdict(set)
    for source in TOP.glob("crates/*/src/**/*.rt"):
        crate, text = source.relative_to(TOP / "crates").parts[0], source.read_text()
        for is_public, name in re.findall(r"(?m)^ *(?:(pub )|pub\(crate\) )?(?:fn|struct|enum|trait|type) (\w+)", text):
            every[crate].add(name)
            if is_public:
                public[crate].add(name)
        # What a trait declares is public with it.
        for body in re.findall(r"(?ms)^pub trait .*?^}", text):
            public[crate] |= set(re.findall(r"\bfn (\w+)", body))
    return public, every


def crates_below():
    """For each crate, itself and those that it stands on."""
    lines = [line.split(":") for line in (TOP / "crates.txt").read_text().splitlines() if line and line[0] != "#"]
    return {name.split()[0]: {name.split()[0], *below.split()} for name, below in lines}


def free_calls():
    """The functions of no type: of crates but those of tests, of the library, and of its crate for Rust."""
    names = {name for source in TOP.glob("crates/*/src/**/*.rt") if not source.parts[-3].endswith("_tests")
             for name in re.findall(r"(?m)^(?:pub(?:\(crate\))? )?fn (\w+)", source.read_text())}
    for source in TOP.glob("examples/rust/src/*.rs"):
        names |= set(re.findall(r"(?m)^pub fn (\w+)", source.read_text()))
    return names | set(re.findall(r"\b(lgm_\w+)\(", (TOP / "include/lgm.h").read_text()))


def classes():
    """For each class of the Python package, its members."""
    members = defaultdict(set)
    for source in TOP.glob("python/lgm/*.py"):
        owner = None
        for line in source.read_text().splitlines():
            if found := re.match(r"class (\w+)", line):
                owner = found[1]
            elif line and line[0] not in " )#":
                owner = None
            if owner and (found := re.match(r"    (?:def )?(\w+)\b", line)):
                members[owner].add(found[1])
    return members


def anchors(page):
    """The anchors of a page's headings."""
    heads = re.findall(r"(?m)^#+ (.*)$", page.read_text())
    return {re.sub(r"[^\w\- ]", "", re.sub(r"[`*]", "", head)).strip().lower().replace(" ", "-") for head in heads}


def prose(text):
    """A page without its blocks of code, whose lines stay as empty ones."""
    lines, before = [], ""
    for line in text.splitlines():
        is_block = line.startswith("    ") and not re.match(r"\s*([-*]|\d+\.) ", line) and before in ("", None)
        lines.append("" if is_block else line)
        before = None if is_block else line.strip()
    return lines


class Checker:
    """Collects what isn't there."""

    def __init__(self):
        self.clauses, self.members = named_clauses()
        self.modules = definitions()
        self.public, self.declared = declared()
        self.below = crates_below()
        self.free = free_calls()
        self.classes = classes()
        self.words = set(OUTSIDE)
        for pattern in SOURCES:
            for source in TOP.glob(pattern):
                if "out" not in source.parts and source.is_file() and source.name != MAKES_NAMES_UP:
                    text = re.sub(COMMENTS.get(source.suffix, "(?!)"), " ", source.read_text(errors="replace"))
                    self.words |= set(NAME.findall(text))
                    self.words |= {source.stem, *source.parts}
        self.faults = []

    def page(self, page):
        """Checks a page."""
        for count, line in enumerate(prose(page.read_text()), 1):
            for why in (*self.links(page, line), *self.spans(page, line), *self.cited(line), *self.lists(line)):
                self.faults.append(f"{page.relative_to(TOP)}:{count}: {why}")

    def links(self, page, line):
        """Links of a line that lead nowhere."""
        for target in re.findall(r"\]\(([^)\s]+)\)", line):
            if re.match(r"[a-z]+:", target):
                continue
            path, _, anchor = target.partition("#")
            file = (page.parent / path).resolve() if path else page
            if not file.exists():
                yield f"there is no file {target}"
            elif anchor and anchor not in anchors(file):
                yield f"{path or page.name} has no heading #{anchor}"

    def spans(self, page, line):
        """Code spans of a line that name what isn't there."""
        for span in re.findall(r"`([^`]+)`", line):
            words = span.split()
            if not words:
                continue
            if words[0] in COMMANDS:
                words = [word for word in words[1:] if PATH.fullmatch(word) and "." in word]
            elif len(words) > 1:
                continue
            for word in words:
                if why := self.missing(page, word.strip(",;")):
                    yield why

    def listed(self, page):
        """Modules of specs that no table of a page lists, in the section of their crate, and listed ones that aren't there."""
        crates, names, there = [], set(), set()
        for line in page.read_text().splitlines():
            if line.startswith("## "):
                crates = re.findall(r"`(\w+)/specs`", line)
                for crate in crates:
                    specs = TOP / "crates" / crate / "specs"
                    found = {spec.relative_to(specs).with_suffix("").as_posix() for spec in specs.rglob("*.antt")}
                    there |= {(crate, name) for name in found - {"Lib", "inner", "reading"}}
            elif crates and line.startswith("| `"):
                column = line.split(" | ")[0]
                owners = re.findall(r" of `(\w+)`", column) or crates
                for name in re.findall(r"`([\w/]+)`", column):
                    if name not in owners:
                        names.add(next(((crate, name) for crate in owners if (crate, name) in there), (owners[0], name)))
        yield from (f"{crate} has no module {name}" for crate, name in sorted(names - there))
        yield from (f"the module {name} of {crate} isn't listed" for crate, name in sorted(there - names))

    def ways(self, page):
        """Steps of a page's ways whose crate, files or calls aren't there, by their lines."""
        before, _, way = page.read_text().partition("## The way of a line")
        for count, line in enumerate(way.splitlines(), before.count("\n") + 1):
            if not (line.startswith("     ") and re.search(r" {2,}lgm_\w+ ", line)):
                continue
            if not (found := STEP.fullmatch(line)):
                yield count, "no call, crate and files as in the other steps"
                continue
            calls, crate, files = found[1].removesuffix(", ..").split(", "), found[2], found[3].split(", ")
            sources = {file: TOP / "crates" / crate / "src" / f"{file}.rt" for file in files}
            yield from ((count, f"{crate} has no file {file}") for file, source in sources.items() if not source.exists())
            text = " ".join(source.read_text() for source in sources.values() if source.exists())
            for call in calls:
                name = call.split(".")[-1]
                if not re.search(rf"\b(?:fn|struct|enum|trait) {name}\b", text):
                    yield count, f"{crate} has no {call} in {', '.join(files)}"

    def missing(self, page, word):
        """Why a word of a code span names nothing, if so."""
        if word in OUTSIDE or "NAME" in word or word.startswith("~"):
            return ""
        if PATH.fullmatch(word) or FILE.fullmatch(word):
            word = word.rstrip("/")
            patterns = (word, f"crates/{word}", f"crates/*/{word}", f"crates/*/specs/{word}.antt")
            is_there = any(any(TOP.glob(pattern)) for pattern in patterns)
            is_there = is_there or (page.parent / word).exists() or FILE.fullmatch(word) and any(TOP.glob(f"**/{word}"))
            return "" if is_there else f"there is no file {word}"
        if found := re.fullmatch(r"(\w+)::(\w+)", word):
            if found[2] in self.members[found[1]] or found[1].islower() and found[2] in self.words:
                return ""
            return f"{found[1]} has no {found[2]}"
        if (found := re.fullmatch(r"(\w+)\.(\w+)", word)) and found[1] in self.modules:
            return "" if found[2] in self.modules[found[1]] else f"the module {found[1]} has no {found[2]}"
        if found and found[1] in self.classes:
            return "" if found[2] in self.classes[found[1]] else f"the class {found[1]} has no {found[2]}"
        if found := re.fullmatch(r"((?:\w+::)?\w+)\.(\w+)", word):
            if found[1] == "lgm":
                return "" if found[2] in self.words else f"nothing outside the pages is named {found[2]}"
            known = self.clauses.get(found[1])
            if any(found[2] in members for members in self.classes.values()):
                return ""
            return "" if known and found[2] in known else f"{found[1]} has no clause {found[2]}"
        if NAME.fullmatch(word) and not HASH.fullmatch(word) and word not in self.words and word not in self.modules:
            return f"nothing outside the pages is named {word}"
        return ""

    def lists(self, line):
        """Names in a list of calls, behind that of a type's, which are neither of that type nor calls of their own."""
        for run in re.findall(r"`\w+::\w+`(?:,? and `\w+`|, `\w+(?:::\w+)?`)+", line):
            owner = None
            for name in re.findall(r"`([\w:]+)`", run):
                owner, _, bare = name.rpartition("::") if "::" in name else (owner, "", name)
                is_type = owner[0].isupper() and bare[0].islower()
                if name == bare and is_type and not (bare in self.members[owner] or bare in self.free):
                    yield f"neither has {owner} a call {bare}, nor is there one beside"

    def by_crate(self, page):
        """Calls and types in the tables by crate that aren't of the crate of their row, by lines."""
        section, column, is_public, crate = "", None, False, None
        for count, line in enumerate(page.read_text().splitlines(), 1):
            if line.startswith("## "):
                section, crate = line, None
                column, is_public = next((more for begin, *more in BY_CRATE if line.startswith(begin)), (None, False))
            if column is None or not line.startswith("| ") or line.startswith("| call") or line.startswith("| crate"):
                continue
            cells = re.sub(r"\([^()]*\)", "", line[1:]).split(" | ")
            if found := re.search(r"^ \**`(\w+)`", cells[0]):
                crate = found[1] if found[1] in self.below else crate
            for before, name in self.calls_of(cells[column]):
                if before.endswith("of ") and name in self.below:
                    crate = name
                elif not name.startswith("lgm_"):
                    names, crates = (self.public, {crate}) if is_public else (self.declared, self.below[crate])
                    if "::" in name and not is_public:
                        crates = self.below  # some are of a crate above
                    if not all(any(part in names[at] for at in crates) for part in name.split("::")):
                        yield count, f"{crate} has no {'public ' if is_public else ''}{name}"

    @staticmethod
    def calls_of(cell):
        """The names of calls and types in a cell, each behind what stands before it; not those of clauses behind a colon."""
        for part in re.split(r"; |\*\*:? ", cell):
            yield from re.findall(r"([^`]*)`([A-Za-z_]\w*(?:::\w+)?)`", re.split(r"(?<=`): ", part)[0])

    def cited(self, line):
        """Clauses behind calls that none of the calls has."""
        span = r"`[\w:]+`"
        for calls, clauses in re.findall(rf"((?:{span}, )*{span}): ((?:{span}, )*{span})", line):
            calls = re.findall(r"`([\w:]+)`", calls)
            bare = [re.sub(r"^lgm_\w+::", "", call) for call in calls]
            known = [self.clauses[call] | self.members[call] for call in bare if call in self.clauses]
            for clause in re.findall(r"`([\w:]+)`", clauses) if known else []:
                if not any(clause in names for names in known):
                    yield f"{' and '.join(calls)} {'has' if len(calls) == 1 else 'have'} no clause {clause}"


def main():
    """Checks all pages."""
    checker = Checker()
    for page in PAGES:
        checker.page(page)
    definitions_page = TOP / "docs/definitions.md"
    promises = TOP / "docs/promises.md"
    checker.faults += [f"docs/promises.md:{count}: {why}" for count, why in checker.by_crate(promises)]
    checker.faults += [f"docs/definitions.md: {why}" for why in checker.listed(definitions_page)]
    checker.faults += [f"docs/architecture.md:{count}: {why}" for count, why in checker.ways(TOP / "docs/architecture.md")]
    print(*checker.faults, sep="\n", end="\n" if checker.faults else "")
    print(f"{len(PAGES)} pages, {len(checker.faults)} faults")
    sys.exit(1 if checker.faults else 0)


if __name__ == "__main__":
    main()
