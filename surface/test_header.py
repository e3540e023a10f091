#!/usr/bin/env python3
"""Tests how a header is read.

    python3 surface/test_header.py
"""

import sys
from pathlib import Path

sys.dont_write_bytecode = True  # the repository gets no made files
sys.path[0] = str(Path(__file__).resolve().parent.parent)

from surface.header import NotUnderstood, read, read_file  # noqa: E402
from surface.model import Comment, Listed, declared  # noqa: E402

SMALL = """/*
 * A library.
 *
 *   - One condition,
 *     in two lines.
 *   - Another one.
 */
#ifndef LGM_H
#define LGM_H

#ifdef __cplusplus
extern "C" {
#endif

enum {
    /* Done: it is done. */
    LGM_OK = 0,

    /* Refused: a thing is refused (page). */
    LGM_OLD = 1, /* it isn't new */
    /* 2 is never returned: why. */
    LGM_ODD = 3  /* it is odd */
};

/* A verdict. */
enum {
    LGM_SIG_BY = 2 /* one */
};

/* The version. */
#define LGM_VERSION 7

/* Most of both. */
#define LGM_MOST_ONES 20
#define LGM_MOST_TWOS 30

static inline const char *lgm_text(uint32_t number) {
    switch (number) {
    case LGM_OK: return "accepted";
    case LGM_OLD: return "old";
    case 2: return "conflict";
    case LGM_ODD: return "odd: 3";
    default: return "";
    }
}

/* A handle. */
typedef struct {
    bool is_open;
    void *at;
} lgm_things;

/* A point. */
typedef struct {
    uint8_t point[33];
} lgm_point;

typedef struct {
    lgm_point first; /* the first one */
    /* above its member,
     * in two lines */
    const lgm_point *others;
    size_t others_len;
} lgm_line;

/*
 * Looks (BOLT 7; page): all of them. And more.
 *
 * Cost: log n.
 *
 * LGM_OLD; 1 to 3, of a line; LGM_ODD.
 */
uint32_t lgm_look(lgm_things *things, const uint8_t seed[16],
                  const lgm_line *line, size_t most);
uint32_t lgm_see(void);

void lgm_free(lgm_things *things, uint8_t ones[LGM_MOST_ONES]);

#endif
"""


def refused(old, new):
    """What is said of the small header with another text in place of one."""
    assert old in SMALL, old
    try:
        read(SMALL.replace(old, new, 1))
    except NotUnderstood as why:
        return str(why)
    return None


def comments_have_paragraphs():
    """Paragraphs are divided by empty lines, and items of a list are paragraphs of their own."""
    header = read(SMALL)
    assert header.opening == Comment(("A library.", "- One condition, in two lines.", "- Another one."))
    assert header.calls[0].comment.summary == "Looks"
    assert Comment(("It is one (a; b). Two.",)).summary == "It is one" and Comment().summary == ""


def numbers_have_groups_and_words():
    """A heading holds until the next one; a number that is never returned has only a word; a verdict has none."""
    header = read(SMALL)
    found = [(one.name, one.value, one.group.name, one.text, one.word) for one in header.numbers]
    assert found == [("LGM_OK", 0, "Done", "", "accepted"), ("LGM_OLD", 1, "Refused", "it isn't new", "old"),
                     ("", 2, "Refused", "never returned: why.", "conflict"), ("LGM_ODD", 3, "Refused", "it is odd", "odd: 3"),
                     ("LGM_SIG_BY", 2, "", "one", "")]
    assert [(group.name, group.text) for group in header.groups] == [
        ("Done", "it is done."), ("Refused", "a thing is refused (page).")]
    assert [one.value for one in header.returned()] == [0, 1, 2, 3]


def constants_share_a_comment():
    """Those that follow one another without an empty line."""
    header = read(SMALL)
    assert [(one.name, one.value, one.comment.summary) for one in header.constants] == [
        ("LGM_VERSION", 7, "The version"), ("LGM_MOST_ONES", 20, "Most of both"), ("LGM_MOST_TWOS", 30, "Most of both")]
    assert header.version == 7


def structs_have_members():
    """Members are values, arrays, pointers and structs, with comments behind or above them."""
    things, point, line = read(SMALL).structs
    assert things.is_handle and not point.is_handle
    assert [str(member.type) for member in line.members] == ["lgm_point", "const lgm_point *", "size_t"]
    assert [member.comment.summary for member in line.members] == ["the first one", "above its member, in two lines", ""]
    assert [declared(member) for member in line.members] == [
        "lgm_point first", "const lgm_point *others", "size_t others_len"]
    assert str(point.members[0].type) == "uint8_t [33]" and line.comment == Comment()


def calls_have_costs_and_numbers():
    """These are apart from the comment, which later calls without an empty line have too."""
    header = read(SMALL)
    look, see, free = header.calls
    assert header.topics == ((look, see), (free,)) and [call.name for call, in header.described[2:]] == ["lgm_text"]
    assert look.comment == see.comment == Comment(("Looks (BOLT 7; page): all of them. And more.",))
    assert look.cost == see.cost == "log n." and free.cost == "" and free.comment == Comment()
    assert look.returns == see.returns == (Listed("LGM_OLD"), Listed("1 to 3", "of a line"), Listed("LGM_ODD"))
    assert [[one.value for one in header.listed(entry)] for entry in look.returns] == [[1], [1, 3], [3]]
    assert look.prototype == (
        "uint32_t lgm_look(lgm_things *things, const uint8_t seed[16], const lgm_line *line, size_t most);")
    assert see.prototype == "uint32_t lgm_see(void);"
    assert header.inline[0].prototype == "const char *lgm_text(uint32_t number);"
    assert str(free.parameters[1].type) == "uint8_t [20]"


def nothing_else_is_taken():
    """What has no form that is known is refused, with its line."""
    assert refused("uint32_t lgm_see(void);", "extern int lgm_errno;") == "line 75: extern int lgm_errno;"
    assert refused("LGM_OLD = 1,", "LGM_OLD = ONE,") == "line 20: LGM_OLD = ONE, /* it isn't new */"
    assert refused("size_t others_len;", "size_t others_len : 3;") == "line 63: size_t others_len : 3;"
    assert refused("/* 2 is never returned: why. */", "/* why */") == "a comment in an enum that is no heading: why"
    assert refused('    case LGM_ODD: return "odd: 3";\n', "") == "lgm_text has no word of LGM_ODD"
    assert refused("case LGM_ODD", "case LGM_EVEN") == "lgm_text has LGM_EVEN, and no enum does"
    assert refused("size_t most);", "unsigned char **most);") == "no declaration: unsigned char **most"


def what_calls_list_is_there():
    """In lgm.h each entry of a list is a number, and each call that returns numbers of faults lists some."""
    header = read_file()
    for call in header.calls:
        assert all(header.listed(entry) for entry in call.returns), call.name
        assert call.comment, call.name
    without = {call.name for call in header.calls if call.result.base == "uint32_t" and not call.returns}
    assert without == {"lgm_version"}, without


def main():
    """Runs each test."""
    tests = (comments_have_paragraphs, numbers_have_groups_and_words, constants_share_a_comment, structs_have_members,
             calls_have_costs_and_numbers, nothing_else_is_taken, what_calls_list_is_there)
    for test in tests:
        test()
    print(f"{len(tests)} passed")


if __name__ == "__main__":
    main()
