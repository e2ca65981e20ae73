"""cca, as the front asks it: started again after its end, and fetched of its trail in time."""
import os
import time
from collections.abc import Sequence

from cca.client import ENDING, IN_USE, IN_USE_PAUSE, IN_USE_SECONDS, LOOK_FIRST, Broken, Coprocessor, Ended, Process
from cca_service.batches import Answers
from cca_service.connections import Stop
from cca_service.journal import Journal
from cca_service.program import Look, Program
from cca_service.settings import Settings
from cca_service.trail import HELD, Sent, TrailLog, TrailLost, now

LIVED = 1.0  # seconds after which cca that ended is started again at once
FETCH_AFTER = HELD // 2  # requests after which the trail is fetched
FETCH_SECONDS = 60.0  # after the first request that isn't in the log
FILES = ("cca.module", "cca.store")
KEPT = (*FILES, "cca.trail")


class Cca(Coprocessor):
    """cca in a folder that has both files. It is started again and again, and would make them where they aren't."""

    def __init__(self, folder: str, program: Program, command: str, is_new: bool):
        super().__init__(folder, program.path, command)
        self.program, self.is_new, self.began, self.starts = program, is_new, 0.0, 0
        self.started_at: str | None = None
        self.is_order_known = True  # whether cca ended by itself: then what is behind a line without a reply wasn't begun

    def start(self) -> Process:
        for name in FILES:
            if not self.is_new and not os.path.exists(os.path.join(self.folder, name)):
                raise Stop(f"{self.folder} has no {name}: --new is for a folder where no keys are yet")
        self.words[0], self.executable, self.passed = self.program.path, self.program.way(), (self.program.file,)
        self.began, self.started_at, self.starts = time.monotonic(), now(), self.starts + 1
        return super().start()

    def exchange(self, process: Process, lines: list[bytes]) -> list[str]:
        """The replies to lines, or Ended with those that came before the end of cca."""
        replies: list[str] = []
        self.is_order_known = False
        try:
            process.converse(lines, self.patience, replies)
        except Broken as broken:
            self.is_order_known = not str(broken) and process.wait_for_end(ENDING) is not None
            raise self.ended(str(broken), True, replies) from None
        return replies

    def pid(self) -> int | None:
        child = self.process.child if self.process else None
        return child.pid if child else None


class Service:
    """cca, which is asked lines; with a trail that is fetched in time, where it has one."""

    def __init__(self, settings: Settings, is_new: bool, journal: Journal):
        self.journal, self.settings, log = journal, settings, settings.audit
        self.program = Program(settings.program, settings.program_sum)
        self.cca = Cca(settings.folder, self.program, "audit" if log else "run", is_new)
        self.trail = TrailLog(log, settings.folder, self.program) if log else None
        self.number = self.first_number = time.time_ns() // 1000  # of the next request; no two fronts of a folder have one
        self.sent: list[Sent] = []  # the requests that aren't in the trail's log
        self.first = 0.0  # when the first of them was asked
        self.in_use_until: float | None = None  # while another program has the files, and cca is started in vain

    def begin(self) -> None:
        """A first request, so that what is wrong is told before a client asks."""
        self.journal.tell(event="program", **self.program.shown())
        self.fetch()
        self.try_program()

    def try_program(self) -> None:
        """Asks what every cca answers alike."""
        answers = self.ask_all([b"\n"], [os.getuid()])
        if answers.end:
            self.go_on(answers)
            raise answers.end
        if answers.replies != ["NO 01 -"]:
            raise Stop(f"the answer to an empty line was {answers.replies[0][:100]!r}, and no refusal: is this cca?")

    def make_way(self, count: int) -> None:
        """Fetches the trail where so many further requests would be too many."""
        if self.sent and len(self.sent) + count > FETCH_AFTER:
            self.fetch()

    def ask_all(self, requests: list[bytes], uids: Sequence[int]) -> Answers:
        """What comes of requests that are asked at once. After an end of cca `go_on` is to be called."""
        answers, began = Answers(self.number, []), time.monotonic()
        if self.trail:
            self.first, time_sent = self.first if self.sent else began, now()
            self.sent += [Sent(time_sent, uid, self.number + place) for place, uid in enumerate(uids)]
        try:
            answers.replies = self.replies(requests)
        except Ended as end:
            self.note_end(answers, end, len(requests))
        self.number += len(answers.replies) + answers.doubts
        answers.took = time.monotonic() - began
        return answers

    def replies(self, requests: list[bytes]) -> list[str]:
        """The replies of cca. It is asked once more where it had ended before it was asked."""
        try:
            return self.cca.in_turn(lambda: self.cca.replies(requests))
        except Ended as end:
            if end.in_doubt or end.replies or end.status in LOOK_FIRST:
                raise
        return self.cca.in_turn(lambda: self.cca.replies(requests))

    def note_end(self, answers: Answers, end: Ended, count: int) -> None:
        """What came of requests before cca ended: those behind the first one without a reply weren't begun, if it ended by
        itself. If it did anything else, as saying more than it was asked, no reply is taken for that to a request."""
        answers.end = end
        if (end.in_doubt or end.replies) and self.cca.is_order_known:
            answers.replies, answers.doubts = end.replies, 1
        elif end.in_doubt or end.replies:
            answers.doubts = count
        if self.trail:
            unknown = count - len(answers.replies) - answers.doubts
            del self.sent[len(self.sent) - unknown :]

    def go_on(self, answers: Answers) -> None:
        """Starts cca again after its end. Stop is raised where nothing should be asked any more."""
        end = answers.end
        if end:
            self.journal.tell(event="no reply", status=end.status, text=str(end))
            self.start_again(end, answers.doubts)

    def heed_end(self) -> None:
        """cca has ended, or said something, though nobody asked. It is started again: no other program shall get its files."""
        try:
            self.hold_files()
        except Ended as end:
            if end.status == IN_USE and self.is_patient():
                time.sleep(IN_USE_PAUSE)
                return self.hold_files()
            self.journal.tell(event="cca ended", status=end.status, text=end.why)
            if end.status not in LOOK_FIRST:  # one that ends again and again keeps nobody busy
                time.sleep(max(0.0, self.cca.began + LIVED - time.monotonic()))
            self.start_again(end)

    def is_patient(self) -> bool:
        """Whether cca that finds its files in use is started again, as it is for some seconds."""
        if self.in_use_until is None:
            self.in_use_until = time.monotonic() + IN_USE_SECONDS
        return time.monotonic() < self.in_use_until

    def start_again(self, end: Ended, doubts: int = 0) -> None:
        """Starts cca again after its end, but not after one that asks for a look."""
        if end.status in LOOK_FIRST:
            raise Stop(str(end)) if end.status == IN_USE else Look(str(end))
        self.fetch(doubts)
        self.hold_files()

    def hold_files(self) -> None:
        """Starts cca, so that no other program gets its files while no client asks."""
        self.cca.started()

    def fetch_if_due(self) -> None:
        if self.sent and time.monotonic() > self.first + FETCH_SECONDS:
            self.fetch()
            self.hold_files()

    def fetch(self, doubts: int = 0) -> None:
        """Closes cca, since it has the trail, and fetches the trail. So many of the last requests may have left no record."""
        self.in_use_until = None
        if not self.trail:
            return
        self.close()
        try:
            told = self.trail.fetch(self.sent, doubts)
        except TrailLost as lost:
            raise Look(str(lost)) if lost.status in LOOK_FIRST and lost.status != IN_USE else Stop(str(lost))
        for what in told:
            self.journal.tell(event="trail", text=what)
        self.sent = []

    def close(self) -> None:
        """Ends the input of cca, and waits for its end."""
        status = self.cca.close()
        if status in LOOK_FIRST and status != IN_USE:  # at that one it took no request
            raise Look(f"cca ended with status {status} when its input ended")

    # ---- the program

    def heed_replaced(self) -> None:
        """Tells once that another program has the name of the one that runs."""
        if self.program.is_replaced() and not self.program.is_told:
            self.program.is_told = True
            self.journal.tell(event="program replaced", **self.program.shown())

    def reload(self) -> str | None:
        """Starts the program that has the name by now, where it is another one. Where that isn't cca the one before goes on:
        why."""
        try:
            new = Program(self.settings.program, self.settings.program_sum)
        except (Stop, OSError) as error:
            self.journal.tell(event="program", text=f"it stays: {error}")
            return str(error)
        if new.identity == self.program.identity and new.sum == self.program.sum:
            new.close()
            return None
        self.fetch()
        self.close()
        before = self.program
        self.take(new)
        why = self.why_unfit()
        if why is not None:
            self.take(before)
            self.cca.last = None
        (before if why is None else new).close()
        self.journal.tell(event="program", **new.shown(), **({} if why is None else {"text": f"it isn't used: {why}"}))
        self.hold_files()
        return why

    def take(self, program: Program) -> None:
        """Starts this program from now on."""
        self.program = self.cca.program = program
        if self.trail:
            self.trail.program = program

    def why_unfit(self) -> str | None:
        """Why the program that was taken isn't cca, or can't go on with these files."""
        try:
            self.try_program()
        except (Stop, Ended, OSError) as error:
            if self.cca.process:
                self.cca.in_turn(lambda: self.cca.ended("it isn't used"))
            return str(error)
        return None

    def files(self) -> list[dict[str, object]]:
        """The files in the folder, with their sizes."""
        paths = [(name, os.path.join(self.settings.folder, name)) for name in KEPT]
        return [{"name": name, "size": os.stat(path).st_size} for name, path in paths if os.path.exists(path)]

    def trail_shown(self) -> dict[str, object] | None:
        """How much of the trail isn't in its log yet."""
        if not self.trail:
            return None
        waited = round(time.monotonic() - self.first, 3) if self.sent else None
        return {"unfetched": len(self.sent), "first_seconds": waited, "chain": self.trail.sum}
