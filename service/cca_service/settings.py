"""Settings of the front, in a file as /etc/cca/front.conf:

    [front]
    folder = /var/lib/cca
    audit = /var/log/cca/trail.jsonl
    log = /var/log/cca/front.log
    program = /usr/bin/cca
    program-sum = /run/cca/program.json
    control = /run/cca/control/socket
    limit = 256
    user-limit = 64
    idle = 600

    [role TELLER]
    group = cca-teller
    socket = /run/cca/teller/socket

A section for each role: who is in the group may open the socket, and has the role. Without audit there is no trail, without
log the lines go to standard error, without program it is cca of the path, without control the front has no socket of its own,
and the numbers are those above where they are left out. Into program-sum root writes the checksum of the program. Paths are
whole ones. A comment is a line of its own behind #.
"""
import configparser
import math
import os
import re
from dataclasses import dataclass

LIMIT = 256  # connections of a socket
USER_LIMIT = 64  # connections of a user at a socket
IDLE = 600.0  # seconds after which a silent connection is closed
MOST = 1_000_000  # connections that may be named
PATH_SIZE = 107  # bytes that the path of a Unix socket may have
ROLE = re.compile(r"[A-Z][A-Z0-9]{0,7}")
GROUP = re.compile(r"[a-z_][a-z0-9_-]{0,31}")
PATH = re.compile(r"(/(?!\.\.?(/|$))[^/\s]+)+")  # whole, and neither . nor .. is a part of it
FRONT = "front"
FRONT_WORDS = ("folder", "audit", "log", "program", "program-sum", "control", "limit", "user-limit", "idle")
ROLE_WORDS = ("group", "socket")


class SettingsError(Exception):
    """What is wrong in a file of settings, and where."""


@dataclass(frozen=True)
class DoorSettings:
    """The socket of a role, and the group that may open it."""

    role: str
    path: str
    group: str


@dataclass(frozen=True)
class Settings:
    """What a file of settings says."""

    folder: str
    audit: str | None
    log: str | None
    program: str
    limit: int
    user_limit: int
    idle: float
    doors: tuple[DoorSettings, ...]
    program_sum: str | None = None
    control: str | None = None


class Section:
    """A section of the file, whose words are read one by one."""

    def __init__(self, file: str, name: str, words: dict[str, str], known: tuple[str, ...]):
        self.place, self.words = f"{file}, [{name}]", words
        for word, value in words.items():
            if word not in known:
                raise SettingsError(f"{self.place}: {word} is no setting: there are {', '.join(known)}")
            if not value.isprintable() or not value:
                raise self.wrong(word, "one word, on the line of its name")

    def wrong(self, word: str, wanted: str) -> SettingsError:
        return SettingsError(f"{self.place}: {word} = {self.words[word]!r} isn't {wanted}")

    def required(self, word: str) -> str:
        if word not in self.words:
            raise SettingsError(f"{self.place}: {word} is missing")
        return self.words[word]

    def path(self, word: str) -> str:
        """A path, which has to be there."""
        if not PATH.fullmatch(self.required(word)):
            raise self.wrong(word, "a whole path, without spaces, . and ..")
        return self.words[word]

    def socket_path(self, word: str) -> str:
        """The path of a socket, which may not be as long as others."""
        if len(os.fsencode(self.path(word))) > PATH_SIZE:
            raise self.wrong(word, f"a path of at most {PATH_SIZE} bytes")
        return self.words[word]

    def path_or_none(self, word: str) -> str | None:
        return self.path(word) if word in self.words else None

    def connections(self, word: str, otherwise: int) -> int:
        """A number of connections."""
        if word not in self.words:
            return otherwise
        if not re.fullmatch(r"[1-9][0-9]{0,6}", self.words[word]) or int(self.words[word]) > MOST:
            raise self.wrong(word, f"a number from 1 to {MOST}")
        return int(self.words[word])

    def seconds(self, word: str, otherwise: float) -> float:
        if word not in self.words:
            return otherwise
        if not re.fullmatch(r"[0-9]{1,9}(\.[0-9]{1,6})?", self.words[word]) or math.isclose(float(self.words[word]), 0.0):
            raise self.wrong(word, "a number of seconds above 0")
        return float(self.words[word])


def read_settings(path: str) -> Settings:
    """The settings of a file. SettingsError is raised where something in it is wrong, or isn't known."""
    sections = parsed(path)
    if FRONT not in sections:
        raise SettingsError(f"{path}: the section [{FRONT}] is missing")
    front = Section(path, FRONT, sections.pop(FRONT), FRONT_WORDS)
    limit = front.connections("limit", LIMIT)
    user_limit = front.connections("user-limit", min(USER_LIMIT, limit))
    if user_limit > limit:
        raise front.wrong("user-limit", f"within limit = {limit}, which all users share")
    control = front.socket_path("control") if "control" in front.words else None
    return Settings(
        folder=front.path("folder"),
        audit=front.path_or_none("audit"),
        log=front.path_or_none("log"),
        program=front.path("program") if "/" in front.words.get("program", "") else front.words.get("program", "cca"),
        limit=limit,
        user_limit=user_limit,
        idle=front.seconds("idle", IDLE),
        doors=read_doors(path, sections, control),
        program_sum=front.path_or_none("program-sum"),
        control=control,
    )


def parsed(path: str) -> dict[str, dict[str, str]]:
    """The sections of a file, with the words of each."""
    file = configparser.ConfigParser(
        interpolation=None, delimiters=("=",), comment_prefixes=("#",), default_section="", empty_lines_in_values=False
    )
    setattr(file, "optionxform", str)  # words are taken as they are written
    try:
        with open(path, encoding="utf-8") as lines:
            file.read_file(lines, path)
    except (OSError, UnicodeError) as error:
        raise SettingsError(f"{path}: {error}") from None
    except (configparser.DuplicateSectionError, configparser.DuplicateOptionError) as error:
        raise SettingsError(f"{path}, line {error.lineno}: this is given twice") from None
    except configparser.MissingSectionHeaderError as error:
        raise SettingsError(f"{path}, line {error.lineno}: no section, as [{FRONT}], is above it") from None
    except configparser.ParsingError as error:
        raise SettingsError(f"{path}, line {error.errors[0][0]}: this is no setting, as NAME = VALUE") from None
    return {name: dict(file.items(name)) for name in file.sections()}


def read_doors(file: str, sections: dict[str, dict[str, str]], control: str | None) -> tuple[DoorSettings, ...]:
    """The sockets of the roles. No two have one path, and those of one folder have one group, which the folder belongs to.
    The folder of the front's own socket is that of no role."""
    doors = tuple(read_door(file, name, words) for name, words in sections.items())
    if not doors:
        raise SettingsError(f"{file}: no role has a section, as [role TELLER]")
    paths: set[str] = set()
    groups: dict[str, str] = {}
    for door in doors:
        if control and os.path.dirname(door.path) == os.path.dirname(control):
            raise SettingsError(f"{file}, [role {door.role}]: the folder of its socket is that of the front's own one")
        if door.path in paths:
            raise SettingsError(f"{file}, [role {door.role}]: another role has the socket {door.path}")
        paths.add(door.path)
        if groups.setdefault(os.path.dirname(door.path), door.group) != door.group:
            raise SettingsError(f"{file}, [role {door.role}]: the folder of its socket is another group's")
    return doors


def read_door(file: str, name: str, words: dict[str, str]) -> DoorSettings:
    """The socket of one role."""
    kind, _, role = name.partition(" ")
    if kind != "role" or not ROLE.fullmatch(role):
        raise SettingsError(f"{file}, [{name}]: this is neither [{FRONT}] nor a role, as [role TELLER]")
    section = Section(file, name, words, ROLE_WORDS)
    door = DoorSettings(role, section.socket_path("socket"), section.required("group"))
    if not GROUP.fullmatch(door.group):
        raise section.wrong("group", "the name of a group")
    return door
