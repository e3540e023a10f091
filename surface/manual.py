"""Makes the manual pages: lgm(3), and one for each call, or for those that have one comment, named by the first of these.

`./package` installs them, with links for the other names of a page. Nothing of them is kept in the repository.
"""

from __future__ import annotations

import re
from typing import Dict, Iterable, Iterator, List, Sequence

from surface.model import Call, Comment, Header, Number, Struct, Type, declared
from surface.names import sentence

LIBRARY = [".SH LIBRARY", ".nf", ".B cc program.c $(pkg\\-config \\-\\-cflags \\-\\-libs lgm)", ".fi"]
# What is set in bold: code in the header's own quotes, and its names.
CODE = re.compile(r"`([^`]+)`|\b((?:lgm|LGM)_\w+)\b")


def escaped(text: str) -> str:
    """A text in which nothing is a command of roff."""
    return re.sub(r"^(?=[.'])", r"\\&", text.replace("\\", "\\e"))


def in_roff(text: str) -> str:
    """A paragraph, with code in bold, and hyphens in code that don't break."""
    return escaped(CODE.sub(lambda found: f"\0{(found[1] or found[2]).replace('-', chr(1))}\2", text)).replace(
        "\0", "\\fB").replace("\2", "\\fR").replace("\1", "\\-")


def code(text: str) -> str:
    """A line of code."""
    return escaped(text).replace("-", "\\-")


def paragraphs(comment: Comment) -> Iterator[str]:
    """A comment."""
    for paragraph in comment.paragraphs:
        if paragraph.startswith("- "):
            yield from (".IP \\(bu 2", in_roff(paragraph[2:]))
        else:
            yield from (".PP", in_roff(paragraph))


def titled(name: str, version: str, date: str, lines: Sequence[str]) -> str:
    """A page, with its title and what made it."""
    head = ('.\\" Made of include/lgm.h.', f'.TH {name.upper()} 3 "{date}" "lgm {version}" "Library Functions Manual"')
    return "\n".join([*head, *lines]) + "\n"


def prototypes(calls: Iterable[Call]) -> Iterator[str]:
    """The section of declarations, which break between parameters alone."""
    yield from (".SH SYNOPSIS", ".nh", ".ad l", ".B #include <lgm.h>")
    for call in calls:
        shown = code(call.prototype).replace(" ", "\\ ").replace(",\\ ", ", ")
        yield from (".HP 4", f'.B "{shown}"')
    yield from (".ad", ".hy")


def struct_lines(struct: Struct) -> Iterator[str]:
    """A struct as the header has it, with its comments above its members."""
    yield from (".PP", in_roff(" ".join(struct.comment.paragraphs) or f"`{struct.name}`:"), ".PP", ".nf", ".RS 4",
                "typedef struct {")
    for member in struct.members:
        if member.comment:
            yield code(f"    /* {' '.join(member.comment.paragraphs)} */")
        yield code(f"    {declared(member)};")
    yield from (code(f"}} {struct.name};"), ".RE", ".fi")


def structs_of(calls: Sequence[Call], header: Header) -> List[Struct]:
    """The structs that the parameters of calls are of, and those in these; no handles."""
    found: Dict[str, Struct] = {}

    def add(kind: Type) -> None:
        struct = header.struct_of.get(kind.base)
        if struct and not struct.is_handle and struct.name not in found:
            found[struct.name] = struct
            for member in struct.members:
                add(member.type)

    for call in calls:
        for parameter in call.parameters:
            add(parameter.type)
    return list(found.values())


def number_lines(number: Number, when: str = "") -> Iterator[str]:
    """A number with its word, and what it says."""
    said = sentence(number.text) if number.text else "Success."
    yield from (".TP", f"\\fB{number.name}\\fR ({number.value}, \\(dq{code(number.word)}\\(dq)",
                in_roff(f"{said} {sentence(when)}" if when else said))


def returned(call: Call, header: Header) -> Iterator[str]:
    """The section of what a call returns."""
    yield ".SH RETURN VALUE"
    if not call.returns:
        yield "Nothing." if call.result.base == "void" else "As described above: no number of a fault."
        return
    yield in_roff("LGM_OK, or the first of these that holds:")
    for entry in call.returns:
        for number in header.listed(entry):
            yield from number_lines(number, entry.when)


def page(topic: Sequence[Call], header: Header) -> List[str]:
    """The page of calls with one comment."""
    first = topic[0]
    summary = first.comment.summary
    names = ", ".join(call.name for call in topic)
    lines = [".SH NAME", f"{names} \\- {escaped(summary[:1].lower() + summary[1:])}", *LIBRARY,
             *prototypes(topic), ".SH DESCRIPTION", *paragraphs(first.comment)]
    if structs := structs_of(topic, header):
        lines += [".SH STRUCTS", *(line for struct in structs for line in struct_lines(struct))]
    lines += [*returned(topic[-1], header), ".SH COST", in_roff(sentence(topic[-1].cost or "constant"))]
    return [*lines, ".SH SEE ALSO", ".BR lgm (3)"]


def overview(header: Header) -> List[str]:
    """lgm(3): the header's own comment, its calls and its numbers."""
    lines = [".SH NAME", "lgm \\- verified map of Lightning gossip, with routes over it", *LIBRARY, ".SH SYNOPSIS",
             ".B #include <lgm.h>", ".SH DESCRIPTION", *paragraphs(Comment(header.opening.paragraphs[1:])), ".SH CALLS"]
    for topic in header.described:
        lines += [".TP", ", ".join(f"\\fB{call.name}\\fR(3)" for call in topic), in_roff(sentence(topic[0].comment.summary))]
    lines.append(".SH NUMBERS")
    for group in header.groups:
        lines += [".SS " + group.name, in_roff(sentence(group.text))]
        for number in header.numbers:
            if number.group == group and number.name:
                lines += number_lines(number)
    return [*lines, ".SH FILES", ".I /usr/include/lgm.h", ".SH SEE ALSO", ".BR lgm (1)", ".PP",
            ".I /usr/share/doc/lgm/docs/embedding.md", "is a guide, with a first program in C and in Python."]


def made(header: Header, version: str, date: str) -> Dict[str, str]:
    """The pages of a version of the packages, by their names."""
    pages = {"lgm": overview(header), **{topic[0].name: page(topic, header) for topic in header.described}}
    return {name: titled(name, version, date, lines) for name, lines in pages.items()}
