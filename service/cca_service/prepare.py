"""Makes what the sockets of the front's roles need, before it starts: `cca-front --prepare FRONT.CONF`, run by root.

A group for each role, where it is missing, and the folder of its socket. The folder belongs to the user of the service and to
the group, with mode 2750: the group may enter it and nobody else, and the socket in it gets the same group. The folder of the
front's own socket is for that user alone. The checksum of the program is written down, since the service may run the program
and not read it. The folders above are root's. Whoever could change one of them could have the rights to another folder given
away; so links aren't followed, each folder is changed by its descriptor, and where anyone but root may write nothing is done.
"""
import argparse
import grp
import os
import pwd
import stat
import subprocess
import sys

from cca_service.connections import Stop
from cca_service.program import path_of, sum_text
from cca_service.settings import Settings, SettingsError, read_settings

USER = "cca"
MODE = 0o2750
OWN_MODE = 0o700
GROUPADD = "/usr/sbin/groupadd"
ENTERED = os.O_RDONLY | os.O_DIRECTORY | os.O_NOFOLLOW | os.O_CLOEXEC
WRITTEN_BY_OTHERS = stat.S_IWGRP | stat.S_IWOTH


class Refused(Exception):
    """What can't be prepared, and why."""


def group_made(name: str) -> int:
    """The number of a group, which is made where it is missing."""
    try:
        return grp.getgrnam(name).gr_gid
    except KeyError:
        subprocess.run([GROUPADD, "--system", name], check=True)
    return grp.getgrnam(name).gr_gid


def entered(folder: int, name: str, path: str) -> int:
    """The descriptor of a folder in another one, whose path is told where it is none."""
    try:
        return os.open(name, ENTERED, dir_fd=folder)
    except OSError as error:
        raise Refused(f"{path} isn't a folder, or is a link: {error.strerror}") from None


def is_roots(folder: int) -> bool:
    """Whether nobody but root may put something in the place of what is root's in this folder."""
    found = os.fstat(folder)
    return found.st_uid == 0 and (not found.st_mode & WRITTEN_BY_OTHERS or bool(found.st_mode & stat.S_ISVTX))


def made(folder: int, name: str, mode: int) -> None:
    """Makes a folder in another one, where nothing has its name."""
    try:
        os.mkdir(name, mode, dir_fd=folder)
    except FileExistsError:
        pass


def roots_folder(path: str, is_made: bool) -> int:
    """The descriptor of a folder of root's, which is below such folders alone. Those that are missing are made, where that is
    asked."""
    folder, above = os.open("/", ENTERED), "/"
    for name in filter(None, path.split("/")):
        if not is_roots(folder):
            break
        above = os.path.join(above, name)
        if is_made:
            made(folder, name, 0o755)
        outer, folder = folder, entered(folder, name, above)
        os.close(outer)
    if not is_roots(folder):
        raise Refused(f"{above} can be written by others than root")
    return folder


def folder_made(path: str, user: int, group: int, mode: int) -> None:
    """The folder of a socket, with its owner and its mode. One that isn't the service's and holds anything is left alone."""
    above, name = os.path.split(path)
    outer = roots_folder(above, is_made=True)
    made(outer, name, 0o700)
    folder = entered(outer, name, path)
    if os.fstat(folder).st_uid != user and (os.fstat(folder).st_uid != 0 or os.listdir(folder)):
        raise Refused(f"{path} is there, and is no folder of the service: a socket needs a folder of its own")
    os.fchown(folder, user, group)
    os.fchmod(folder, mode)
    os.close(folder)
    os.close(outer)


def settings_of_root(path: str) -> Settings:
    """The settings of a file that root alone may write."""
    above, name = os.path.split(os.path.abspath(path))
    found = os.stat(name, dir_fd=roots_folder(above, is_made=False), follow_symlinks=False)
    if not stat.S_ISREG(found.st_mode) or found.st_uid != 0 or found.st_mode & WRITTEN_BY_OTHERS:
        raise Refused(f"{path} is no file that root alone may write")
    return read_settings(path)


def prepared(path: str, user: str) -> None:
    """Prepares the sockets of all roles."""
    settings = settings_of_root(path)
    kept = {settings.folder, *(os.path.dirname(log) for log in (settings.audit, settings.log) if log)}
    try:
        owner = pwd.getpwnam(user)
    except KeyError:
        raise Refused(f"the user {user} isn't there") from None
    own = os.path.dirname(settings.control) if settings.control else None
    folders = [os.path.dirname(door.path) for door in settings.doors]
    for folder in {*folders, own or folders[0]} & kept:
        raise Refused(f"{folder} has keys or logs: a socket needs a folder of its own")
    for door, folder in zip(settings.doors, folders):
        folder_made(folder, owner.pw_uid, group_made(door.group), MODE)
    if own:
        folder_made(own, owner.pw_uid, owner.pw_gid, OWN_MODE)
    if settings.program_sum:
        sum_written(settings.program_sum, settings.program)


def sum_written(path: str, program: str) -> None:
    """Writes down the checksum of the program, in a folder of root's."""
    above, name = os.path.split(path)
    folder, new = roots_folder(above, is_made=True), f".{name}.new"
    try:
        os.unlink(new, dir_fd=folder)
    except FileNotFoundError:
        pass
    file = os.open(new, os.O_WRONLY | os.O_CREAT | os.O_EXCL | os.O_NOFOLLOW | os.O_CLOEXEC, 0o644, dir_fd=folder)
    with open(file, "w", encoding="utf-8") as told:
        told.write(sum_text(path_of(program)))
    os.rename(new, name, src_dir_fd=folder, dst_dir_fd=folder)
    os.close(folder)


def main(arguments: list[str]) -> int:
    purpose = "Makes the groups of the front's roles and the folders of their sockets."
    words = argparse.ArgumentParser(prog="cca-front --prepare", description=purpose)
    words.add_argument("settings", metavar="FRONT.CONF")
    words.add_argument("--user", default=USER, help=f"the user of the service, {USER} if not given")
    given = words.parse_args(arguments)
    os.umask(0o022)
    try:
        prepared(given.settings, given.user)
        return 0
    except (Refused, Stop, SettingsError, OSError, subprocess.CalledProcessError) as error:
        print(f"prepare: {error}", file=sys.stderr)
        return 1
