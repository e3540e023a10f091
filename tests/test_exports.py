#!/usr/bin/env python3
"""Tests that tests/exports.py finds no difference in lgm.h as it is, and one after each change of it.

    python3 tests/test_exports.py
"""

import shutil
import sys

sys.dont_write_bytecode = True

from exports import differences, headers, layout_differs, source_text, unwrapped  # noqa: E402

# A text of the header, what is put in its place, and how the line begins that tells it.
CHANGES = (
    ("LGM_ROOM = 104", "LGM_ROOM = 204", "constant LGM_ROOM: 204"),
    ("LGM_SIG_BY = 2", "LGM_SIG_BY = 3", "constant LGM_SIG_BY: 3"),
    ("#define LGM_WORD_LEN 24", "#define LGM_WORD_LEN 16", "function lgm_word: "),
    ("    LGM_BANNED = 16,", "    LGM_BANNED = 17,", "constant LGM_BANNED: 17"),
    ("    size_t hops;\n    size_t payloads;\n", "    size_t payloads;\n    size_t hops;\n", "struct lgm_lengths: "),
    ("uint16_t cltv_expiry_delta;\n    uint32_t timestamp;", "uint32_t cltv_expiry_delta;\n    uint32_t timestamp;",
     "struct lgm_direction: "),
    ("uint16_t cltv_expiry_delta;           /*", "uint32_t cltv_expiry_delta;           /*", "struct lgm_edge: "),
    ("    uint8_t rgb[3];", "    uint8_t rgb[4];", "struct lgm_node_info: "),
    ("lgm_map *map, uint64_t scid, lgm_channel_info", "lgm_map *map, uint32_t scid, lgm_channel_info", "function lgm_channel: "),
    ("lgm_route(lgm_map *map, const lgm_payment *payment", "lgm_route(lgm_map *map, lgm_payment *payment",
     "function lgm_route: "),
    ("    const lgm_point *silent;", "    const lgm_limit *silent;", "struct lgm_attempt: "),
    ("lgm_no_route_reason(lgm_map *map, const lgm_attempt", "lgm_no_route_reason(lgm_map *map, lgm_attempt",
     "function lgm_no_route_reason: "),
    ("LGM_BEYOND_HOPS = 47", "LGM_BEYOND_HOPS = 46", "constant LGM_BEYOND_HOPS: 46"),
    ("LGM_FAULT_TLV_ORDER = 59", "LGM_FAULT_TLV_ORDER = 58", "constant LGM_FAULT_TLV_ORDER: 58"),
    ("LGM_ARGUMENT_WHICH = 120", "LGM_ARGUMENT_WHICH = 121", "constant LGM_ARGUMENT_WHICH: 121"),
    ("const lgm_arrival *arrival, lgm_hop *hops", "const lgm_arrival *arrival, const lgm_hop *hops", "function lgm_payloads: "),
    ("const lgm_record *records; /* custom records, by ascending types */\n    size_t records_len;\n    uint8_t secret",
     "lgm_record *records; /* custom records, by ascending types */\n    size_t records_len;\n    uint8_t secret",
     "struct lgm_arrival: "),
    ("    const uint8_t *value;\n    size_t value_len;", "    size_t value_len;\n    const uint8_t *value;", "struct lgm_record: "),
    ("#define LGM_MOST_LABELS 1000000", "#define LGM_MOST_LABELS 2000000", "constant LGM_MOST_LABELS: 2000000"),
    ("    LGM_SO_FAR = 27,", "    LGM_SO_FAR = 28,", "constant LGM_SO_FAR: 28"),
    ("uint64_t most_steps;   /* the most steps", "size_t most_steps;   /* the most steps", "struct lgm_search: "),
    ("    uint16_t most_delay; ", "    uint32_t most_delay; ", "struct lgm_search: "),
    ("lgm_attempt_route(lgm_map *map, const lgm_attempt *attempt, lgm_estimates *estimates",
     "lgm_attempt_route(lgm_map *map, const lgm_attempt *attempt, const lgm_estimates *estimates", "function lgm_attempt_route: "),
    ("uint32_t lgm_mark(lgm_map *map);", "void lgm_mark(lgm_map *map);", "function lgm_mark: "),
    ("void lgm_free(", "void lgm_drop(", "function lgm_drop: "),
    ("bool is_first, uint64_t *scid", "bool is_first, uint32_t *scid", "function lgm_next_channel: "),
    ("lgm_share(lgm_map *published", "lgm_share(const lgm_map *published", "function lgm_share: "),
    ("    uint64_t penalty_msat; ", "    uint32_t penalty_msat; ", "struct lgm_estimate_info: "),
    ("lgm_estimates_at(lgm_estimates *estimates, size_t place", "lgm_estimates_at(lgm_estimates *estimates, uint32_t place",
     "function lgm_estimates_at: "),
    ("LGM_FOREIGN_CODE = 85", "LGM_FOREIGN_CODE = 94", "constant LGM_FOREIGN_CODE: 94"),
    ("LGM_WHOLE = 28", "LGM_WHOLE = 29", "constant LGM_WHOLE: 29"),
    ("LGM_STAGE_PAID = 2", "LGM_STAGE_PAID = 3", "constant LGM_STAGE_PAID: 3"),
    ("LGM_PART_HELD = 0,       /", "LGM_PART_HELD = 3,       /", "constant LGM_PART_HELD: 3"),
    ("LGM_PART_FAILED = 2 ", "LGM_PART_FAILED = 1 ", "constant LGM_PART_FAILED: 1"),
    ("#define LGM_MOST_HOPS 20", "#define LGM_MOST_HOPS 27", "constant LGM_MOST_HOPS: 27"),
    ("    bool basic_mpp; ", "    uint32_t basic_mpp; ", "struct lgm_invoice: "),
    ("const lgm_sight *sight, lgm_part *part", "lgm_sight *sight, lgm_part *part", "function lgm_payer_next: "),
    ("uint8_t place, uint16_t code", "uint16_t place, uint16_t code", "function lgm_payer_failed: "),
)


def main():
    """Tries the header, each change, a library that lacks a function, and one that has another."""
    text, sources = headers.PATH.read_text(), source_text()
    header = headers.read(text)
    exported = [call.name for call in header.calls]
    failed = [f"as it is: {line}" for line in differences(header, sources, exported)]
    if shutil.which("cc") and layout_differs(sources, header):
        failed.append("as it is: the layout of a struct")
    for old, new, begins in CHANGES:
        found = differences(headers.read(text.replace(old, new)), sources, exported)
        if text.count(old) != 1 or not any(line.startswith(begins) for line in found):
            failed.append(f"{old!r} as {new!r}: {found}")
    if differences(header, sources, exported[1:]) != [f"function {exported[0]}: there in lgm.h, none in the library"]:
        failed.append(f"a library without {exported[0]}")
    if differences(header, sources, [*exported, "malloc"]) != ["function malloc: none in lgm.h, there in the library"]:
        failed.append("a library that exports more")
    more = headers.read(text.replace("void lgm_free(", "void lgm_drop(lgm_map *map);\nvoid lgm_free("))
    if unwrapped(header) or [line.split(":")[0] for line in unwrapped(more)] != ["function lgm_drop"]:
        failed.append("a function that no wrapper calls")
    print(*failed, f"{len(CHANGES) + 5} tests, {len(failed)} failed", sep="\n")
    return 1 if failed else 0


if __name__ == "__main__":
    sys.exit(main())
