"""Whom a subcommand asks: the socket of a role, or `cca` itself in a folder that no front uses."""
import argparse
import os
import re
from collections.abc import Iterator
from contextlib import contextmanager

from cca import Coprocessor, Ended, Refused, Socket, Unexpected, Verbs

from cca_service.settings import SettingsError, read_settings
from cca_service.ctl.command import SETTINGS, Exit, Failed

ROLE = re.compile(r"[A-Z][A-Z0-9]{0,7}")
PATIENCE = 60.0  # seconds for a connection, and for a reply where a subcommand doesn't take longer
LONG = 300.0  # seconds for a reply to what goes over the whole store
NO_POINT = 4  # the rule of a role without an access control point
NAMED = "CCA_FRONT"  # the variable that names the settings
CONFIG = f"the front's settings: else what {NAMED} names, else {SETTINGS}"


def add_socket(words: argparse.ArgumentParser, is_required: bool = True) -> None:
    words.add_argument("--socket", required=is_required, metavar="PATH|ROLE", help="a socket of the front, or its role")
    words.add_argument("--config", metavar="FILE", help=CONFIG)
    words.add_argument("--timeout", type=float, default=PATIENCE, metavar="SECONDS", help="for a reply, else 60")


def add_whom(words: argparse.ArgumentParser) -> None:
    """For what may be done before there is a front."""
    add_socket(words, False)
    words.add_argument("--folder", help="ask cca itself in this folder, which no front uses")
    words.add_argument("--role", help="with --folder: the role")
    words.add_argument("--audit", action="store_true", help="with --folder: with a record in the trail")
    words.add_argument("--program", default="cca", help="with --folder: the program, else cca of the path")


def path_of(socket: str, config: str | None) -> str:
    """The path of a socket that is given as such, or by its role."""
    if not ROLE.fullmatch(socket) or os.path.exists(socket):
        return socket
    file = os.path.abspath(config or os.environ.get(NAMED) or SETTINGS)
    try:
        doors = {door.role: door.path for door in read_settings(file).doors}
    except SettingsError as error:
        raise Failed(str(error), Exit.USAGE) from None
    if socket not in doors:
        raise Failed(f"{file}: no socket of the role {socket}", Exit.USAGE)
    return doors[socket]


@contextmanager
def asked(given: argparse.Namespace, patience: float | None = None) -> Iterator[Verbs]:
    """Who answers the requests of a subcommand. What gets no reply ends it."""
    front = opened(given, patience or given.timeout)
    try:
        yield front
    except Ended as end:
        raise Failed(str(end), Exit.UNREACHED) from None
    except Unexpected as error:
        raise Failed(f"what answers isn't a front of cca: {error}", Exit.UNREACHED) from None
    except OSError as error:
        if error.filename:  # one of the subcommand's own files
            raise
        raise Failed(f"no front takes a connection at {given.socket}: {error.strerror or error}", Exit.UNREACHED) from None
    finally:
        front.close()


def opened(given: argparse.Namespace, patience: float) -> Socket | Coprocessor:
    """What the words of a subcommand name. Nothing is connected or started yet."""
    if getattr(given, "folder", None) is None:
        if given.socket is None:
            raise Failed("--socket is wanted, or --folder and --role", Exit.USAGE)
        return Socket(path_of(given.socket, given.config), patience)
    if given.socket is not None or given.role is None:
        raise Failed("--folder is given with --role, and without --socket", Exit.USAGE)
    return Coprocessor(given.folder, given.audit, role=given.role, program=given.program, patience=patience)


def told(refused: Refused) -> str:
    """A refusal in a line: the rule, and for the most usual one what to do."""
    return f"{refused}{'' if refused.rule != NO_POINT else '; ask by the socket of another role'}"


def whom(given: argparse.Namespace) -> str:
    """Whom a step is sent to, for a log."""
    return str(given.socket) if given.folder is None else f"{given.role} in {given.folder}"
