"""Compares check values: those of a copy, those that a backup had, and those of the service."""
import argparse
from collections.abc import Iterator

from cca import Label, Refused

from cca_service.ctl.command import Failed
from cca_service.ctl.doors import asked
from cca_service.ctl.opening import DIGITS, Values

NO_LABEL, NO_KEY, KEY_PART = 7, 8, 17
PATIENCE = 60.0  # seconds for a reply


def differences(wanted: Values, found: Values) -> Iterator[str]:
    """What isn't as it should be, label by label."""
    for label in sorted({*wanted, *found}):
        if label not in found:
            yield f"{label}: it is missing"
        elif label not in wanted:
            yield f"{label}: it wasn't there"
        elif wanted[label] != found[label]:
            yield f"{label}: the check value is {found[label] or 'none'}, and was {wanted[label] or 'none'}"


def service_values(socket: str, config: str | None, labels: Values) -> Values:
    """The check values that the running service gives of some labels. Those that it hasn't are missing."""
    values: Values = {}
    with asked(argparse.Namespace(socket=socket, config=config, timeout=PATIENCE)) as verbs:
        for label in labels:
            try:
                values[label] = verbs.key_test(Label(label)).hex()[:DIGITS]
            except Refused as refused:
                if refused.rule not in (NO_LABEL, NO_KEY, KEY_PART):
                    raise Failed(f"the service gives no check value: {refused}") from None
                if refused.rule != NO_LABEL:
                    values[label] = None
    return values
