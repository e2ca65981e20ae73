"""ccactl: what the operators of a service do, by a table of subcommands.

Exit statuses: 0 well; 1 something isn't as it should be; 2 wrong words; 3 someone must look, as at damaged cells, an empty
module or a changed trail; 4 the front can't be reached. A signal ends it as it ends other programs, once scratch files are
gone.
"""
import argparse
import os
import resource
import signal
import sys
from collections.abc import Sequence
from types import FrameType

from cca_service.ctl import (
    audit_log,
    backup,
    catch_up,
    ceremony,
    health,
    inventory,
    key_part,
    library,
    repair,
    restore,
    shown,
    status,
)
from cca_service.ctl.command import Command, Exit, Failed, tell

# Each file of subcommands has its own COMMANDS, and a line here.
COMMANDS: tuple[Command, ...] = (
    *status.COMMANDS,
    *health.COMMANDS,
    *shown.COMMANDS,
    *repair.COMMANDS,
    *backup.COMMANDS,
    *restore.COMMANDS,
    *catch_up.COMMANDS,
    *inventory.COMMANDS,
    *ceremony.COMMANDS,
    *key_part.COMMANDS,
    *audit_log.COMMANDS,
    *library.COMMANDS,
)
ENDING = (signal.SIGTERM, signal.SIGINT, signal.SIGHUP)


class Ending(BaseException):
    """A signal that ends the program, once what is under way has been undone or done."""

    def __init__(self, number: int):
        super().__init__(number)
        self.number = number


def end(number: int, _: FrameType | None) -> None:
    """Ends what is under way. Further signals don't break off what it still does."""
    for it in ENDING:
        signal.signal(it, signal.SIG_IGN)
    raise Ending(number)


def parser(commands: Sequence[Command]) -> argparse.ArgumentParser:
    words = argparse.ArgumentParser(prog="ccactl", description="What the operators of a cca service do.", allow_abbrev=False)
    each = words.add_subparsers(dest="command", required=True, metavar="COMMAND")
    for it in commands:
        it.add(each.add_parser(it.name, help=it.help, description=it.help, allow_abbrev=False))
    return words


def carried_out(command: Command, given: argparse.Namespace) -> int:
    """The exit status of a subcommand. What stops it is told in a line, and no traceback shows what it held."""
    try:
        status = command.run(given)
        sys.stdout.flush()
        return status
    except Failed as failed:
        tell(f"ccactl {command.name}: {failed}")
        return failed.status
    except BrokenPipeError:  # whoever read the output has left
        os.dup2(os.open(os.devnull, os.O_WRONLY), sys.stdout.fileno())
        return Exit.WRONG
    except OSError as error:
        named = f"{error.filename}: " if error.filename else ""
        tell(f"ccactl {command.name}: {named}{error.strerror or type(error).__name__}")
        return Exit.WRONG


def main(words: Sequence[str] | None = None) -> int:
    """Runs the subcommand that the words name. No key that it reads gets into a core dump, and what it writes is private."""
    given = parser(COMMANDS).parse_args(words)
    resource.setrlimit(resource.RLIMIT_CORE, (0, 0))
    os.umask(0o077)
    signal.signal(signal.SIGCHLD, signal.SIG_DFL)  # where it is ignored, no exit status of cca is seen
    for number in ENDING:
        if signal.getsignal(number) != signal.SIG_IGN:
            signal.signal(number, end)
    command = next(it for it in COMMANDS if it.name == given.command)
    try:
        return carried_out(command, given)
    except Ending as ending:
        signal.signal(ending.number, signal.SIG_DFL)
        os.kill(os.getpid(), ending.number)
        return Exit.WRONG
