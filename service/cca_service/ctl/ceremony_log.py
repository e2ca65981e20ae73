"""The log of a ceremony: a JSON object a line for each step that was sent, without its part.

    {"time": "2026-11-29T13:17:59.747456Z", "user": "anna", "by": "/run/cca/custod1/socket", "step": "FIRST",
     "check_value": "5c55f0", "result": "00", "new": "partial"}

The result is `00` where the step was carried out, the rule that refused it, or `-` where no reply came. A line is on the drive
before the outcome is shown.
"""
import json
import os
import pwd

from cca_service.trail import now


def user() -> str:
    """Who runs this, by name where there is one."""
    try:
        return pwd.getpwuid(os.getuid()).pw_name
    except KeyError:
        return str(os.getuid())


class CeremonyLog:
    """A file that lines are added to; or none, where none is named."""

    def __init__(self, path: str | None, by: str, step: str):
        self.path, self.words = path, {"user": user(), "by": by, "step": step}
        if path is not None:
            os.close(self.opened(path))  # told before anything is typed

    def opened(self, path: str) -> int:
        flags = os.O_WRONLY | os.O_APPEND | os.O_CREAT | os.O_CLOEXEC | os.O_NOFOLLOW
        return os.open(path, flags, 0o600)

    def add(self, **words: str) -> None:
        """A line, which is on the drive with the name of its file."""
        if self.path is None:
            return
        log = self.opened(self.path)
        folder = os.open(os.path.dirname(os.path.abspath(self.path)), os.O_RDONLY | os.O_DIRECTORY | os.O_CLOEXEC)
        try:
            os.write(log, (json.dumps({"time": now(), **self.words, **words}) + "\n").encode())
            os.fsync(log)
            os.fsync(folder)
        finally:
            os.close(log)
            os.close(folder)
