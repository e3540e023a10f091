"""The names that Python and Rust have for what the header declares: rules, and short tables of what goes by none."""

from __future__ import annotations

import re

from surface.model import Call, Constant, Number, Struct

# Faults whose class in Python isn't named by the rule.
CLASSES = {
    "LGM_NONE": "Nothing",
    "LGM_ARGUMENT_EDGES": "TooManyEdges",
    "LGM_ARGUMENT_LIMITS": "TooManyLimits",
    "LGM_ARGUMENT_MAXIMUM": "NoMaximum",
    "LGM_ARGUMENT_PUBLISHED": "NotPublished",
    "LGM_ARGUMENT_PAYLOADS": "PayloadsTooLong",
    "LGM_ARGUMENT_WHICH": "WrongMessage",
}
# Structs that keep the end of their name, since another one has the rest.
STRUCTS = {"lgm_payment_info": "payment_info", "lgm_part_info": "part_info"}
# Words that Rust keeps for itself, as far as a header may have them.
RUST_KEYWORDS = {"as", "box", "crate", "dyn", "fn", "impl", "in", "let", "loop", "match", "mod", "move", "mut", "pub", "ref",
                 "self", "super", "trait", "type", "unsafe", "use", "where"}


def camel(text: str) -> str:
    """A name like `NotNewer`, of `NOT_NEWER`, `not-newer` or `not newer`."""
    return "".join(word.capitalize() for word in re.split(r"[_\- ]", text.lower()))


def upper(text: str) -> str:
    """A name like `NOT_NEWER`, of `NotNewer`, `not-newer` or `not newer`."""
    return re.sub(r"(?<=[a-z0-9])(?=[A-Z])|[\- ]", "_", text).upper()


def short(one: Number | Constant | Struct | Call) -> str:
    """A name without the letters that all names of the header begin with; of a number without a name its word."""
    name = re.sub(r"^lgm_|^LGM_", "", one.name)
    if isinstance(one, Struct):
        return STRUCTS.get(one.name) or name.removesuffix("_info")
    return name or upper(getattr(one, "word", ""))


def fault_class(number: Number) -> str:
    """The class of a fault in Python: `NotNewer`, and `WrongSig` of a wrong argument."""
    return CLASSES.get(number.name) or camel(re.sub("^ARGUMENT_", "WRONG_", short(number)))


def rust_name(name: str) -> str:
    """A member or a parameter in Rust."""
    return f"r#{name}" if name in RUST_KEYWORDS else name


def sentence(text: str) -> str:
    """A text that begins with a capital letter, unless it begins with code, and ends with a period."""
    if not text:
        return ""
    begun = text if re.match(r"lgm_|LGM_", text) else text[0].upper() + text[1:]
    return begun if begun.endswith(".") else f"{begun}."
