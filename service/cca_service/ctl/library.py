"""`ccactl token`, `vector`, `explain` and `ask`: what the library tells of tokens and refusals, and requests to a socket."""
import argparse
import sys

from cca import explain, tokens

from cca_service import ask
from cca_service.ctl.command import Command, Exit, Failed
from cca_service.ctl.doors import CONFIG, path_of

LONGEST = 4096  # characters of a token's line that are read
STANDARD_INPUT = "-"


def add_token(words: argparse.ArgumentParser) -> None:
    words.add_argument("token", metavar="HEX", help=f"128 hexadecimal digits; {STANDARD_INPUT} is a line of standard input")


def run_token(given: argparse.Namespace) -> int:
    """0 where the token breaks no rule, 1 where it does, 2 where it is none. The enciphered key isn't shown."""
    text = given.token if given.token != STANDARD_INPUT else sys.stdin.readline(LONGEST).strip()
    return tokens.main([text])


def add_vector(words: argparse.ArgumentParser) -> None:
    words.add_argument("type", metavar="TYPE", help="a key type, as MAC")
    words.add_argument("length", metavar="LENGTH", help="8, 16 or DOUBLE-O")
    words.add_argument("words", nargs="*", metavar="WORD", help="no-export, key-part")


def run_vector(given: argparse.Namespace) -> int:
    return tokens.main_of_vector([given.type, given.length, *given.words])


def add_explain(words: argparse.ArgumentParser) -> None:
    words.add_argument("refusal", nargs="*", metavar="WORD", help="as NO 19 key; else requests and replies of standard input")


def run_explain(given: argparse.Namespace) -> int:
    return explain.main(given.refusal)


def add_ask(words: argparse.ArgumentParser) -> None:
    words.add_argument("socket", metavar="PATH|ROLE", help="a socket of the front: the requests of standard input name no role")
    words.add_argument("--config", metavar="FILE", help=CONFIG)
    words.add_argument("--timeout", type=float, metavar="SECONDS", help="for connecting, and for each reply")


def run_ask(given: argparse.Namespace) -> int:
    try:
        ask.ask_each(path_of(given.socket, given.config), given.timeout)
    except ask.Unanswered as error:
        raise Failed(str(error), Exit.UNREACHED) from None
    return Exit.WELL


COMMANDS = (
    Command("token", "what a key token says of its key", add_token, run_token),
    Command("vector", "the control vector of a key of a type and a length", add_vector, run_vector),
    Command("explain", "why a request was refused", add_explain, run_explain),
    Command("ask", "asks the front each line of standard input, and prints the replies", add_ask, run_ask),
)
