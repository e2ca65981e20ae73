"""A front for several clients: one `cca run`, and a Unix socket for each role.

    cca-front FOLDER SOCKET=ROLE .. [--audit LOG] [--log FILE] [--limit N] [--user-limit N] [--idle SECONDS] [--new]
    cca-front --config FILE

A client connects to a socket and sends requests without a role, as `CSNBKYT key=L:PAY`; the front puts `role=ROLE` behind the
verb. So who may open a socket, which the modes of the sockets' folders say, has that role and no other: a request with a role
of its own is no request, and is answered `NO 01 -`. Roles take turns, and within a role its connections, line by line; lines
of several connections are asked at once. A line without its newline, of a client that died in its midst, is dropped.

A line that begins with `-- not carried out` is no reply of cca, but the front's own, and the last one of its connection:
neither the request that it answers was carried out, nor one behind that.

With --audit the front starts `cca audit`, and fetches the trail into LOG. The program is `cca`, or what CCA names. The log,
on standard error or in FILE, gets a line for each request, as a JSON object; never a key, a text or a token. SIGHUP opens it
anew, and starts the program that has its name by then, where it was replaced; SIGTERM ends the front. With --control the
front has a socket of its own (control.py). settings.py says what stands in the file of --config; words of the command win
over it.
"""
import argparse
import dataclasses
import os
import signal
import socket
import sys
import time
from enum import IntEnum

from cca.client import Ended, Process
from cca_service.batches import Answers, Line, Turns
from cca_service.connections import BACKLOG, Connection, Door, Stop, limit_that_fits, locked
from cca_service.control import Answer, Caller, Control, Refused
from cca_service.journal import ERRORS, Journal
from cca_service.program import Look
from cca_service.service import Service
from cca_service.settings import IDLE, LIMIT, USER_LIMIT, DoorSettings, Settings, SettingsError, read_settings
from cca_service.state import program_of, state_of
from cca_service.trail import now
from cca_service.watching import NOTHING, READ, WRITE, Watch

CROWDED = 5.0  # seconds after which a silent connection is closed, while others wait for its place
ENDING = 5.0  # seconds that clients have to take their replies, once the front ends
SOON = 0.01  # seconds until it is tried again
LOOKING = 0.25  # seconds until it is looked again whether anything is due


class Status(IntEnum):
    """How the front ends."""

    WELL = 0
    FAILED = 1
    USAGE = 2
    LOOK = 3  # someone must look at the files before anything is started again


class Signals:
    """The signals that the front heeds. They break nothing off: each is taken up by the loop of the front, which it wakes."""

    def __init__(self) -> None:
        self.numbers: set[int] = set()
        self.woken, self.wakes = socket.socketpair()
        for it in (self.woken, self.wakes):
            it.setblocking(False)
        signal.set_wakeup_fd(self.wakes.fileno(), warn_on_full_buffer=False)
        for number in (signal.SIGTERM, signal.SIGINT, signal.SIGHUP):
            signal.signal(number, self.note)

    def note(self, number: int, _: object) -> None:
        self.numbers.add(number)

    def came(self) -> set[int]:
        """Those that came since it was asked last."""
        try:
            self.woken.recv(4096)
        except BlockingIOError:
            pass
        came, self.numbers = self.numbers, set()
        return came


class Front:
    """The loop that takes connections and lines, asks lines of all roles in turn, and sends replies."""

    def __init__(self, settings: Settings, doors: list[Door], service: Service, journal: Journal, signals: Signals):
        self.settings, self.doors, self.service, self.journal, self.signals = settings, doors, service, journal, signals
        self.limit, self.idle = limit_that_fits(settings.limit, len(doors)), settings.idle
        self.user_limit = min(settings.user_limit, self.limit)
        self.watch, self.turns, self.started = Watch(), Turns(doors, settings.audit is not None), now()
        self.watched: tuple[Process, int] | None = None  # the process of cca whose output is watched
        self.looked = 0.0  # when it was looked whether anything is due
        self.is_ending = self.is_reload_due = False
        calls = {"status": self.status, "reload": self.reload, "fetch": self.fetch}
        self.control = Control(settings.control, self.watch, calls, self.files, journal.tell) if settings.control else None

    def run(self) -> None:
        """Serves until a signal to end."""
        self.watch.set(self.signals.woken.fileno(), READ, self.signals)
        for door in self.doors:
            self.watch.set(door.listener.fileno(), READ, door)
        while not self.is_ending:
            self.watch_cca()
            for owner in self.watch.wait(self.patience()):
                self.happened(owner)
            if not self.is_ending and not self.is_held():
                self.serve(self.turns.next())
            self.journal.write()
            if time.monotonic() > self.looked + (SOON if self.is_held() else LOOKING):
                self.look()

    def patience(self) -> float:
        """For how long nothing has to be done where nothing happens."""
        if self.is_held():
            return SOON
        return 0.0 if any(door.ready for door in self.doors) else LOOKING

    def look(self) -> None:
        """Does what is due by the time."""
        self.looked = time.monotonic()
        for door in self.doors:
            self.make_room(door)
        self.service.heed_replaced()
        if self.control:
            self.control.heed_time()
        if not self.is_held():
            self.service.fetch_if_due()
            if self.is_reload_due:
                self.is_reload_due = False
                self.service.reload()

    def watch_cca(self) -> None:
        """Waits for what cca says of itself, which is its end. It may be another process than before."""
        process = self.service.cca.process
        if self.watched and self.watched[0] is not process:
            self.watch.forget(self.watched[1], self.service)
            self.watched = None
        if process and not self.watched:
            self.watched = process, process.output()
            self.watch.set(self.watched[1], READ, self.service)

    def happened(self, owner: object) -> None:
        """Does what a file is ready for."""
        if isinstance(owner, Connection):
            self.take_up(owner)
        elif isinstance(owner, Door):
            self.admit_all(owner)
        elif isinstance(owner, Service):
            self.heed_end()
        elif isinstance(owner, Signals):
            self.heed_signals()
        elif self.control:
            self.control.take_up(owner) if isinstance(owner, Caller) else self.control.admit()

    def heed_end(self) -> None:
        """cca has ended while nobody asked."""
        if self.control:
            self.control.lose_hold("cca ended")
        self.service.heed_end()
        self.watch_cca()

    def heed_signals(self) -> None:
        came = self.signals.came()
        if signal.SIGHUP in came:
            self.journal.open_anew()
            self.is_reload_due, self.looked = True, 0.0
        if came & {signal.SIGTERM, signal.SIGINT}:
            self.is_ending = True

    def is_held(self) -> bool:
        return self.control is not None and self.control.hold is not None

    # ---- connections

    def admit_all(self, door: Door) -> None:
        """Takes the connections that wait. If the socket has as many as it may, further ones wait."""
        for number in range(BACKLOG):
            connection = door.accept()
            if connection is None:
                return time.sleep(0.0 if number else SOON)  # there is no descriptor for the first one at the moment
            self.admit(connection)
            if len(door.connections) >= self.limit:
                return self.watch.set(door.listener.fileno(), NOTHING, door)

    def admit(self, connection: Connection) -> None:
        """Takes a connection, or turns it away, if its user has as many as he may."""
        door = connection.door
        if door.users[connection.uid] >= self.user_limit and not self.makes_room(door, connection.uid):
            return self.turn_away(connection)
        door.add(connection)
        self.watch.set(connection.number, READ, connection)

    def turn_away(self, connection: Connection) -> None:
        """Ends a connection of a user who has as many as he may. That is told once, until he has fewer."""
        door, uid = connection.door, connection.uid
        self.journal.counts.turned_away += 1
        if uid not in door.turned_away:
            door.turned_away.add(uid)
            self.journal.tell(event="turned away", uid=uid, role=door.role, text=f"the user has {door.users[uid]} connections")
        connection.tell_last("too many connections of this user")
        connection.socket.close()

    def take_up(self, connection: Connection) -> None:
        """Sends what there is room for, or takes what has come. A connection isn't kept by pieces of a line, nor by a reply
        that is taken bit by bit."""
        door = connection.door
        if connection not in door.connections:
            return  # it has been seen to meanwhile
        if connection.waits_for_turn():  # what else comes waits for its turn too
            return self.watch.set(connection.number, NOTHING, connection)
        was_sending = bool(connection.unsent)
        has_stayed = connection.send() if was_sending else connection.receive()
        if not has_stayed:
            return self.leave(connection)
        if not connection.unsent and (was_sending or connection.has_line()):
            door.used(connection, time.monotonic())
        self.settle(connection)

    def settle(self, connection: Connection) -> None:
        """What a connection waits for: that its reply is taken, its turn, or a line."""
        if connection.unsent:
            self.watch.set(connection.number, WRITE, connection)
        elif connection.taken and connection.has_line():
            connection.door.ready.append(connection)
        else:
            self.watch.set(connection.number, READ, connection)

    def leave(self, connection: Connection) -> None:
        """Ends a connection; its place is free."""
        door = connection.door
        self.watch.set(connection.number, NOTHING, connection)
        connection.socket.close()
        door.remove(connection)
        self.watch.set(door.listener.fileno(), READ, door)

    # ---- requests

    def serve(self, lines: list[Line]) -> None:
        """Asks lines at once, and gives each connection what came of its line. Where a line has no reply its connection ends.
        Lines that weren't begun since cca ended are asked again, unless it ended before it took any."""
        if not lines:
            return
        try:
            self.service.make_way(len(lines))
        except BaseException:
            self.turns.put_back(lines)  # nothing of them was sent
            raise
        answers = self.service.ask_all([it.request() for it in lines], [it.connection.uid for it in lines])
        done = len(answers.replies) + answers.doubts
        try:
            self.give(lines, answers)
            self.turns.put_back(lines[done:]) if done else self.tell_all(lines)
        finally:
            self.service.go_on(answers)

    def give(self, lines: list[Line], answers: Answers) -> None:
        """Sends replies, ends connections whose lines are in doubt, and notes both."""
        time_now, when, took = now(), time.monotonic(), round(answers.took * 1e6)
        replies: list[str | None] = [*answers.replies, *[None] * answers.doubts]
        for number, (line, reply) in enumerate(zip(lines, replies), answers.first):
            self.journal.request(line, number, reply, time_now, took)
            connection = line.connection
            if reply is None:
                self.leave(connection)
                continue
            connection.door.used(connection, when)
            connection.unsent = reply.encode() + b"\n"
            self.settle(connection) if connection.send() else self.leave(connection)

    def tell_all(self, lines: list[Line]) -> None:
        """Ends connections whose lines cca didn't take, and tells them so."""
        for line in lines:
            self.journal.request(line, self.service.number, None, now(), 0)
            line.connection.tell_last("cca has ended")
            self.leave(line.connection)

    # ---- its own socket

    def status(self) -> Answer:
        return {"status": state_of(self)}

    def reload(self) -> Answer:
        """Opens the log anew, and starts the program that has its name by now."""
        self.journal.open_anew()
        why = self.service.reload()
        if why is not None:
            raise Refused(why)
        return {"program": program_of(self.service)}

    def fetch(self) -> Answer:
        """Fetches the trail into its log."""
        if not self.service.trail:
            raise Refused("this front keeps no trail: it was started without audit")
        self.service.fetch()
        self.service.hold_files()
        return {"trail": self.service.trail_shown()}

    def files(self) -> Answer:
        """What is held, and by cca: so nobody else writes these files."""
        self.service.hold_files()
        return {"folder": os.path.abspath(self.settings.folder), "files": self.service.files()}

    # ---- room, and the end

    def make_room(self, door: Door) -> None:
        """Ends connections that were silent too long; sooner where others wait for their place."""
        is_crowded = len(door.connections) >= self.limit and door.is_waited_for()
        until = time.monotonic() - (min(CROWDED, self.idle) if is_crowded else self.idle)
        for connection in door.unused_since(until):
            if self.ends_if_silent(connection) and is_crowded:
                break

    def makes_room(self, door: Door, uid: int) -> bool:
        """Whether a connection of this user that was silent for some seconds makes room for another one of his."""
        until = time.monotonic() - min(CROWDED, self.idle)
        return any(self.ends_if_silent(it) for it in door.unused_since(until) if it.uid == uid)

    def ends_if_silent(self, connection: Connection) -> bool:
        """Ends a connection whose client takes no reply or sends no line, and hasn't done so just now, while another role was
        served. No line that it sends is lost."""
        if connection.waits_for_turn():
            return False
        if connection.unsent:
            is_silent = not connection.send() or bool(connection.unsent)
        else:
            is_silent = not connection.receive_last()
        if is_silent:
            self.leave(connection)
        else:
            connection.door.used(connection, time.monotonic())
            self.settle(connection)
        return is_silent

    def end(self) -> None:
        """Lets nobody send any more, and tells each client whose line waits that it wasn't carried out."""
        if self.control:
            self.control.close()
        for door in self.doors:
            door.close()
            while connection := door.accept():
                door.add(connection)
        connections = [it for door in self.doors for it in door.connections]
        waiting = [it for it in connections if it.receive_last()]
        for it in waiting:
            it.tell_last("the front has ended")
        if waiting:
            self.journal.tell(event="not carried out", connections=len(waiting))
        let_take(connections)
        for it in connections:
            it.socket.close()


def let_take(connections: list[Connection]) -> None:
    """Sends what wasn't sent yet. Clients have some seconds to make room for it."""
    until = time.monotonic() + ENDING
    left = [it for it in connections if it.unsent]
    while left and time.monotonic() < until:
        left = [it for it in left if it.send() and it.unsent]
        time.sleep(SOON if left else 0.0)


def tell_systemd(state: str) -> None:
    """Tells systemd that the front is ready, where it started it."""
    address = os.environ.get("NOTIFY_SOCKET")
    if address:
        with socket.socket(socket.AF_UNIX, socket.SOCK_DGRAM) as it:
            it.sendto(state.encode(), "\0" + address[1:] if address.startswith("@") else address)


def hold_streams() -> None:
    """Takes the numbers of standard streams that are closed, so that no other file gets them."""
    while (number := os.open(os.devnull, os.O_RDWR)) <= ERRORS:
        pass
    os.close(number)


# ---- what it is told


def named_sockets(words: list[str]) -> tuple[DoorSettings, ...]:
    """The sockets that words name, as PATH=ROLE. Whose they are the modes of their folders say."""
    pairs = [word.rpartition("=")[::2] for word in words]
    return tuple(DoorSettings(role, path, "") for path, role in pairs)


def each_once(doors: tuple[DoorSettings, ...]) -> None:
    """No two sockets may have one path."""
    seen: set[str] = set()
    for door in doors:
        if os.path.realpath(door.path) in seen:
            raise Stop(f"{door.path} is given twice: each socket has a path of its own")
        seen.add(os.path.realpath(door.path))


def told() -> argparse.ArgumentParser:
    words = argparse.ArgumentParser(description="Starts one cca, and makes a Unix socket for each role.")
    words.add_argument("words", metavar="FOLDER SOCKET=ROLE", nargs="*")
    words.add_argument("--config", metavar="FILE", help="a file of settings, as /etc/cca/front.conf")
    words.add_argument("--audit", metavar="LOG", help="start `cca audit`, and fetch the trail into this log")
    words.add_argument("--log", metavar="FILE", help="the front's log, in place of standard error; SIGHUP opens it anew")
    words.add_argument("--control", metavar="SOCKET", help="the front's own socket: its state, and holds")
    words.add_argument("--limit", type=int, help=f"connections of a socket, {LIMIT} if not given")
    words.add_argument("--user-limit", type=int, help=f"connections of a user at a socket, {USER_LIMIT} if not given")
    words.add_argument("--idle", type=float, help=f"seconds until a silent connection is closed, {IDLE:.0f} if not given")
    words.add_argument("--new", action="store_true", help="begin also where the folder has no keys yet")
    return words


def settings_of(given: argparse.Namespace) -> Settings:
    """The settings of the file, if there is one; words win over it."""
    if given.config:
        settings = read_settings(given.config)
    else:
        settings = Settings("", None, None, "cca", LIMIT, USER_LIMIT, IDLE, ())
    named = {name: getattr(given, name) for name in ("audit", "log", "control", "limit", "user_limit", "idle")}
    named |= {"folder": given.words[0] if given.words else None, "doors": named_sockets(given.words[1:]) or None}
    named["program"] = os.environ.get("CCA")
    return dataclasses.replace(settings, **{name: value for name, value in named.items() if value is not None})


def chain_of(service: Service) -> dict[str, object]:
    """Where the chain of the trail's log ends, which is kept beside it so."""
    return {"chain": service.trail.sum} if service.trail else {}


def served(settings: Settings, is_new: bool, journal: Journal, signals: Signals) -> None:
    """Everything from the locks to the end."""
    each_once(settings.doors)
    folder = locked(settings.folder, os.O_RDONLY | os.O_DIRECTORY, "this folder")
    service = Service(settings, is_new, journal)
    os.umask(0o117)  # sockets and locks are for the user and the group alone
    doors: list[Door] = []
    try:
        service.begin()
        for it in settings.doors:
            doors.append(Door(it.path, it.role, it.group))
        front = Front(settings, doors, service, journal, signals)
        journal.tell(event="ready", roles=[door.role for door in doors], request=service.first_number, **chain_of(service))
        tell_systemd("READY=1")
        try:
            front.run()
        finally:
            front.end()
        service.fetch()
        journal.tell(event="ended", **chain_of(service))
    finally:  # the trail isn't fetched where something failed: someone should look at the files first
        for door in doors:
            door.close()
        service.cca.close()
        os.close(folder)


def main() -> int:
    parser = told()
    given = parser.parse_intermixed_args()
    if not given.config and len(given.words) < 2:
        parser.error("a folder and SOCKET=ROLE are wanted, or --config")
    hold_streams()
    signals = Signals()
    signal.signal(signal.SIGCHLD, signal.SIG_DFL)  # where it is ignored, no exit status of cca is seen
    journal = Journal()
    try:
        settings = settings_of(given)
        journal = Journal(settings.log)
        served(settings, given.new, journal, signals)
        return Status.WELL
    except SettingsError as error:
        parser.error(str(error))
    except (Stop, Ended, OSError) as error:
        journal.tell(event="stopped", text=str(error))
        return Status.LOOK if isinstance(error, Look) else Status.FAILED
