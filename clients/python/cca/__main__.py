"""python3 -m cca: why a request was refused, and what a key token says."""
import sys

from . import explain, tokens

USAGE = """usage: python3 -m cca explain [NO RULE FIELD] [< requests and replies]
       python3 -m cca token HEX
       python3 -m cca vector TYPE LENGTH [no-export] [key-part]

explain    why a request was refused: of the lines of standard input, or of one refusal, as NO 19 key
token      what a key token says of its key
vector     the control vector of a key of a type and a length, as MAC 16"""
COMMANDS = {"explain": explain.main, "token": tokens.main, "vector": tokens.main_of_vector}


def main(words: list[str]) -> int:
    if words and words[0] in COMMANDS:
        return COMMANDS[words[0]](words[1:])
    is_asked_for = words in (["--help"], ["-h"], ["help"])
    print(USAGE, file=sys.stdout if is_asked_for else sys.stderr)
    return 0 if is_asked_for else 2


if __name__ == "__main__":
    sys.exit(main(sys.argv[1:]))
