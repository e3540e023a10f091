"""The failure messages of BOLT 4 ("Failure Messages"), by their names."""

from __future__ import annotations

import re
from typing import Dict, Union

from .library import number

BADONION, PERM, NODE, UPDATE = 0x8000, 0x4000, 0x2000, 0x1000

CODES: Dict[str, int] = {
    "invalid_realm": PERM | 1,
    "temporary_node_failure": NODE | 2,
    "permanent_node_failure": PERM | NODE | 2,
    "required_node_feature_missing": PERM | NODE | 3,
    "invalid_onion_version": BADONION | PERM | 4,
    "invalid_onion_hmac": BADONION | PERM | 5,
    "invalid_onion_key": BADONION | PERM | 6,
    "temporary_channel_failure": UPDATE | 7,
    "permanent_channel_failure": PERM | 8,
    "required_channel_feature_missing": PERM | 9,
    "unknown_next_peer": PERM | 10,
    "amount_below_minimum": UPDATE | 11,
    "fee_insufficient": UPDATE | 12,
    "incorrect_cltv_expiry": UPDATE | 13,
    "expiry_too_soon": UPDATE | 14,
    "incorrect_or_unknown_payment_details": PERM | 15,
    "incorrect_payment_amount": PERM | 16,
    "final_expiry_too_soon": 17,
    "final_incorrect_cltv_expiry": 18,
    "final_incorrect_htlc_amount": 19,
    "channel_disabled": UPDATE | 20,
    "expiry_too_far": 21,
    "invalid_onion_payload": PERM | 22,
    "mpp_timeout": 23,
    "invalid_onion_blinding": BADONION | PERM | 24,
}
NAMES = {code: name for name, code in CODES.items()}


def failure_code(failure: Union[int, str]) -> int:
    """The `failure_code` of a failure message: itself, or that of a name in any of three spellings, BOLT 4's
    (`temporary_channel_failure`), LND's (`TEMPORARY_CHANNEL_FAILURE`) or Core Lightning's (`WIRE_TEMPORARY_CHANNEL_FAILURE`).

    Raises ValueError of any other name, as LND's `UNREADABLE_FAILURE`, which is none of a failure message."""
    if not isinstance(failure, str):
        return number("code", failure, 2**16)
    found = CODES.get(re.sub("^wire_", "", failure.lower()))
    if found is None:
        raise ValueError(f"code is a failure_code of BOLT 4 or its name, as 0x1007 or 'temporary_channel_failure', and not "
                         f"{failure!r:.80}; of a failure that can't be read call `unreadable`")
    return found


def failure_name(code: int) -> str:
    """The name of a `failure_code`, or its digits if BOLT 4 names none."""
    return NAMES.get(code, f"0x{code:04x}")
