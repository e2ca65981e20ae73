"""A client takes no reply for that to another request, whatever happens to the program or to the caller. What stands for cca here is
tests/stub/cca, which answers each line with a value of its own, and does what a line says besides: it waits, ends, or says too much."""
import os
import select
import shutil
import signal
import socketserver
import subprocess
import sys
import tempfile
import threading
import time
import unittest
from contextlib import contextmanager
from pathlib import Path
from unittest import mock

from tests.edits import CLIENTS, LIBRARIES, Edit, each_is_found
from tests.harness import TOP, Case, Fault, limited

STUB = TOP / "tests" / "stub"
CLIENT = "clients/python/cca/client.py"
sys.path.insert(0, str(LIBRARIES / "python" / "cca"))
import client  # noqa: E402
from client import Coprocessor, Ended, Status  # noqa: E402

FAULTS = [Fault('"$CCA" "$@" | sed -u "s/^NO 01/NO 02/"', case="Auditing", tells="'NO 02 -'")]

# Each takes away what one of these cases asks for.
EDITS = [
    Edit(CLIENT, "raise self.ended(str(broken), True, replies) from None", "raise", "Python.test_no_reply_in_time"),
    Edit(CLIENT, "error.add_note(", "(", "Python.test_exception_in_the_midst"),
    Edit(CLIENT, "str(self.ended(BROKEN_OFF, True, replies))", '""', "Python.test_exception_in_the_midst"),
    Edit(CLIENT, "with self.turn:", "if True:", "Python.test_threads"),
    Edit(CLIENT, 'if "\\n" in request:', "if False:", "Python.test_newline"),
    Edit(CLIENT, "if half or left or len(replies) > len(lines):", "if False:", "Python.test_more_than_asked"),
    Edit(CLIENT, "if not self.for_reply.poll(0):", "if True:", "Python.test_more_than_asked"),
    Edit(CLIENT, "if len(half) >= LONGEST_REPLY:", "if False:", "Python.test_reply_without_end"),
    Edit(CLIENT, "if self.last and self.last.status in LOOK_FIRST and self.last.status != IN_USE:", "if False:", "Python.test_ends"),
    Edit(CLIENT, "if end.status != IN_USE or", "if True or", "Python.test_in_use"),
    Edit(CLIENT, " and self.last.status != IN_USE:", ":", "Python.test_in_use_for_long"),
    Edit(CLIENT, "was_sent and status not in NONE_TAKEN", "was_sent", "Python.test_ends"),
    Edit(CLIENT, "{Status.USAGE, Status.OUT_OF_MEMORY,", "{Status.CELL_DAMAGED, Status.OUT_OF_MEMORY,", "Python.test_damaged_record"),
    Edit(CLIENT, "self.owner() not in (None, os.getpid())", "False", "Python.test_forked"),
    Edit(CLIENT, "self.child.returncode = UNKNOWN", "self.child.returncode = 0", "Python.test_lost_status"),
    Edit(CLIENT, "os.register_at_fork(after_in_child=leave_all)", "", "Python.test_child_that_lives_on"),
    Edit(CLIENT, 'if not line.endswith(b"\\n"):', "if False:", "Programs.test_half_a_line"),
    Edit("examples/clients/client.c", "if (line[length - 1] != '\\n') {", "if (line[length - 1] == '\\0') {", "Programs.test_half_a_line"),
    Edit("examples/clients/client.c", "if (came >= 0 && fflush(stdout) == 0)", "if (came >= 0 || fflush(stdout) == 0)", "Programs.test_full"),
    Edit("clients/c/cca_client.c", "F_DUPFD_CLOEXEC", "F_DUPFD", "C.test_apart"),
    Edit("clients/c/cca_client.c", "file = STDERR_FILENO + 1,", "file = STDERR_FILENO + 900,", "C.test_apart"),
    Edit("clients/c/cca_client.c", "    setsid();\n", "", "C.test_apart"),
    Edit("clients/c/cca_client.c", "if (ended < 0)", "if (ended < -1)", "C.test_lost_status"),
    Edit("clients/c/cca_client.c", "in_parent, in_child);", "in_parent, in_parent); (void)in_child;", "C.test_child_that_lives_on"),
    Edit("clients/c/cca_client.c", "    pthread_mutex_lock(&it->turn);\n    return", "    (void)it;\n    return", "C.test_threads"),
    Edit("clients/c/cca_client.c", "PTHREAD_CANCEL_DISABLE", "PTHREAD_CANCEL_ENABLE", "C.test_cancelled"),
    Edit("clients/c/cca_client.c", "&& errno == EINTR) /* by a signal", "&& 0) /*", "C.test_interrupted"),
    Edit("clients/c/cca_client.c", "if (errno != EINTR)\n            return -1;", "return -1;", "C.test_interrupted"),
    Edit("clients/c/cca_client.c", "&& milliseconds() < until)\n        nap", "&& seconds-- > 0 && until)\n        nap", "C.test_slow_end"),
    Edit("clients/c/cca_client.c", "close_ours(it);\n        if", "if (it->from != it->to)\n            close_ours(it);\n        if", "C.test_child_of_a_connection"),
    Edit("clients/c/cca_client.c", "            close_theirs(it);\n    }", "            (void)it;\n    }", "C.test_child_beside_a_start"),
    Edit("clients/c/cca_client.c", "writev(it->ends->to, line->parts, 2)", "writev(it->ends->to, line->parts, 1)", "C.test_calls"),
    Edit("clients/c/cca_client.c", "pthread_sigmask(SIG_BLOCK, &broken, &before);", "pthread_sigmask(SIG_BLOCK, NULL, &before);", "C.test_each"),
    Edit("clients/c/cca_client.c", "memchr(request, '\\n', length)", "0", "C.test_each"),
    Edit("examples/clients/client.c", "(size_t)length - 1, reply", 'strcspn(line, "\\n"), reply', "C.test_zero_byte"),
    Edit("clients/c/cca_client.c", "return is_one ? 1 : -1;", "return 1 + 0 * is_one;", "C.test_each"),
]


def own(number, word=""):
    """A request, and the reply that belongs to it alone."""
    return f"A role=B {word}{' ' * bool(word)}K{number}", f"OK value=role=B,K{number}"


class Python(unittest.TestCase):
    """The class of the client in Python."""

    def setUp(self):
        limited(self, 40)
        folder = tempfile.TemporaryDirectory()
        self.addCleanup(folder.cleanup)
        self.folder = Path(folder.name)
        self.cca = self.client()
        self.asked = 0

    def client(self, **options):
        it = Coprocessor(str(self.folder), str(STUB / "cca"), **options)
        self.addCleanup(it.close)
        return it

    def is_in_step(self, cca=None):
        """Further requests get their own replies."""
        for _ in range(5):
            self.asked += 1
            request, wanted = own(self.asked)
            self.assertEqual((cca or self.cca).ask(request), wanted)

    def carried_out(self):
        return (self.folder / "carried").read_text().splitlines()

    def signalled_once(self, happens, number):
        """Has a signal sent to this process once something happens."""

        def sends():
            until = time.monotonic() + 60
            while not happens() and time.monotonic() < until:
                time.sleep(0.01)
            os.kill(os.getpid(), number)

        threading.Thread(target=sends, daemon=True).start()

    def signalled_in_the_midst(self, number):
        """Has a signal sent to this process once the next request is carried out."""
        before = len(self.carried_out())
        self.signalled_once(lambda: len(self.carried_out()) > before, number)

    def gets_no_reply(self, word, tells, cca=None, is_in_doubt=True):
        with self.assertRaisesRegex(Ended, tells) as raised:
            (cca or self.cca).ask(own("", word)[0])
        self.assertEqual(raised.exception.in_doubt, is_in_doubt)
        self.assertRegex(str(raised.exception), "may have been carried out" if is_in_doubt else "wasn't carried out")
        return raised.exception

    def test_left_early(self):
        for reply in self.cca.ask_all([own(it)[0] for it in range(100, 400)]):
            self.assertEqual(reply, own(100)[1])
            break
        self.is_in_step()

    def test_many(self):
        pairs = [own(f"{it}{'.' * 500}") for it in range(2000)]
        self.assertEqual(self.cca.ask_all(request for request, _ in pairs), [wanted for _, wanted in pairs])
        self.assertEqual(self.cca.ask_all([]), [])
        self.is_in_step()

    def test_no_reply_in_time(self):
        self.is_in_step()
        self.cca.patience = 3.0  # once it has begun, which may take longer
        self.gets_no_reply("stub=waits20000", "no reply in time")
        self.cca.patience = 30.0
        self.is_in_step()
        self.cca.patience = 3.0
        with self.assertRaises(Ended) as raised:
            self.cca.ask_all([own(1)[0], own(2)[0], own(3, "stub=waits20000")[0], own(4)[0]])
        self.assertEqual(raised.exception.replies, [own(1)[1], own(2)[1]])
        self.cca.patience = 30.0
        self.is_in_step()

    def test_exception_in_the_midst(self):
        def late(*_):
            raise TimeoutError("the caller's own")

        signal.signal(signal.SIGUSR1, late)
        signal.signal(signal.SIGINT, signal.default_int_handler)  # also where these checks were begun in the background
        for kind, number in ((TimeoutError, signal.SIGUSR1), (KeyboardInterrupt, signal.SIGINT)):
            self.is_in_step()
            self.signalled_in_the_midst(number)
            with self.assertRaises(kind) as raised:
                self.cca.ask(own("", "stub=waits20000")[0])
            self.assertRegex(" ".join(getattr(raised.exception, "__notes__", [])), "may have been carried out")
            self.is_in_step()

    def test_request_in_the_midst(self):
        def asks(*_):
            self.cca.ask(own("X")[0])

        signal.signal(signal.SIGUSR1, asks)
        self.is_in_step()
        self.signalled_in_the_midst(signal.SIGUSR1)
        with self.assertRaisesRegex(RuntimeError, "in the midst of another one"):
            self.cca.ask(own("", "stub=waits20000")[0])
        self.is_in_step()

    def test_threads(self):
        wrong = []

        def asks(thread):
            for turn in range(100):
                request, wanted = own(f"{thread}.{turn}")
                try:
                    reply = self.cca.ask(request)
                except Exception as error:  # noqa: BLE001: a thread's error would be unseen
                    reply = repr(error)
                if reply != wanted:
                    wrong.append((request, reply))

        threads = [threading.Thread(target=asks, args=(it,)) for it in range(8)]
        for it in threads:
            it.start()
        for it in threads:
            it.join()
        self.assertEqual(wrong[:3], [])

    def test_newline(self):
        for requests in (["A role=B C", "A role=B D\nA role=B E"], ["A role=B C", "A role=B \u20ac"], "A role=B C"):
            with self.assertRaises((ValueError, TypeError)):
                self.cca.ask_all(requests)
        self.is_in_step()
        self.assertEqual(len(self.carried_out()), self.asked)

    def test_more_than_asked(self):
        self.gets_no_reply("stub=twice", "more than it was asked")
        self.is_in_step()
        self.assertEqual(self.cca.ask(own("K", "stub=later")[0]), "OK value=role=B,KK")
        select.select([self.cca.process.child.stdout], [], [], 30)
        self.gets_no_reply("", "what it wasn't asked", is_in_doubt=False)
        self.is_in_step()

    def test_reply_without_end(self):
        self.gets_no_reply("stub=endless", "a reply without an end")
        self.cca.patience = 3.0
        self.gets_no_reply("stub=half", "no reply in time")
        self.cca.patience = 30.0
        self.is_in_step()

    def test_ends(self):
        self.assertEqual(self.gets_no_reply("stub=ends8", "status 8: stub: ended").status, 8)
        self.is_in_step()
        self.gets_no_reply("stub=ends10", "status 10", is_in_doubt=False)  # its row says that no request was taken
        self.is_in_step()
        self.gets_no_reply("stub=ends7", "status 7")
        carried = self.carried_out()
        self.gets_no_reply("", "look at the files first: .*status 7", is_in_doubt=False)
        self.assertEqual(self.carried_out(), carried)

    def test_damaged_record(self):
        """A record that is damaged when it is read again: a REENCIPHER may be partly done."""
        self.assertEqual(self.gets_no_reply("stub=ends3", "status 3").status, 3)

    def in_use(self, starts):
        """A client of a program that finds its files in use, as often as is said."""
        program = self.folder / "program"
        program.write_text(
            "#!/bin/sh\n"
            f'echo >> starts; [ "$(wc -l < starts)" -gt {starts} ] || {{ echo in use >&2; exit 11; }}\n'
            f"exec '{STUB / 'cca'}' \"$@\"\n"
        )
        program.chmod(0o755)
        it = Coprocessor(str(self.folder), str(program))
        self.addCleanup(it.close)
        return it

    def test_in_use(self):
        """Files that another run uses: cca is started again for some seconds, and the request gets its reply."""
        self.is_in_step(self.in_use(3))
        self.assertEqual(len((self.folder / "starts").read_text()), 4)
        self.assertEqual(len(self.carried_out()), self.asked)

    def test_in_use_for_long(self):
        """The other run doesn't end in that time: the request wasn't carried out, and a later one is asked again."""
        cca = self.in_use(1000)
        with mock.patch.object(client, "IN_USE_SECONDS", 0.5):
            self.assertEqual(self.gets_no_reply("", "status 11: in use", cca, is_in_doubt=False).status, Status.IN_USE)
        self.assertGreater(len((self.folder / "starts").read_text()), 1)
        (self.folder / "starts").write_text("\n" * 1000)
        self.is_in_step(cca)

    def test_ended_before(self):
        self.is_in_step()
        os.kill(self.cca.process.child.pid, signal.SIGKILL)
        os.waitid(os.P_PID, self.cca.process.child.pid, os.WEXITED | os.WNOWAIT)
        self.gets_no_reply("", "status -9", is_in_doubt=False)
        self.is_in_step()

    def test_forked(self):
        self.is_in_step()
        child = os.fork()
        if child == 0:
            try:
                self.cca.ask(own("X")[0])
            except RuntimeError:
                os._exit(7)
            finally:
                os._exit(1)
        self.assertEqual(os.waitstatus_to_exitcode(os.waitpid(child, 0)[1]), 7)
        self.is_in_step()


    def test_child_that_lives_on(self):
        """A child has none of the pipes: cca ends with the input of its parent."""
        self.is_in_step()
        theirs, ours = os.pipe()
        child = os.fork()
        if child == 0:
            os.close(ours)
            os.read(theirs, 1)  # as long as its parent holds the other end
            os._exit(0)
        self.addCleanup(os.waitpid, child, 0)
        self.addCleanup(os.close, ours)
        self.cca.patience = 20.0
        self.assertEqual(self.cca.close(), 0)
        os.close(theirs)

    def test_lost_status(self):
        """Another one takes the status of cca: how it ended isn't known, and it may be that someone should look at the files."""

        waits = os.waitid

        def takes_it(kind, pid, options):
            """Takes the status before the client asks for it."""
            os.waitpid(pid, 0)
            return waits(kind, pid, options)

        self.addCleanup(signal.signal, signal.SIGCHLD, signal.getsignal(signal.SIGCHLD))
        for handler, taken in ((signal.SIG_IGN, waits), (signal.SIG_DFL, takes_it)):
            signal.signal(signal.SIGCHLD, handler)
            cca = self.client()
            self.is_in_step(cca)
            with mock.patch.object(os, "waitid", taken):
                self.assertEqual(self.gets_no_reply("stub=ends7", "status 128", cca).status, 128)
            carried = self.carried_out()
            self.gets_no_reply("", "look at the files first", cca, is_in_doubt=False)
            self.assertEqual(self.carried_out(), carried)

    def test_interrupted_end(self):
        """An exception of the caller's own while cca doesn't end: it is killed, so that the folder is free."""
        signal.signal(signal.SIGINT, signal.default_int_handler)
        self.assertEqual(self.cca.ask("A stub=deaf role=B D"), "OK value=stub=deaf,D")
        process = self.cca.process
        self.signalled_once(lambda: process.child.stdin.closed, signal.SIGINT)
        with self.assertRaises(KeyboardInterrupt):
            self.cca.close()
        self.assertEqual(process.child.returncode, -signal.SIGKILL)
        self.is_in_step()


@unittest.skipUnless(shutil.which("cc"), "cc isn't installed")
class C(unittest.TestCase):
    """The client in C, as a program and as a part of one, tests/stub/library.c."""

    @classmethod
    def setUpClass(cls):
        folder = tempfile.TemporaryDirectory()
        cls.addClassCleanup(folder.cleanup)
        cls.folder = Path(folder.name)
        words = ["cc", "-std=c99", "-D_GNU_SOURCE", "-Wall", "-Wextra", "-Werror", "-O", "-pthread", "-I", LIBRARIES / "c"]
        words += ["-U_FORTIFY_SOURCE"]  # which calls other functions than those that are interrupted
        for name, sources in (("library", [STUB / "library.c", STUB / "calls.c"]), ("client", [CLIENTS / "client.c"])):
            subprocess.run([*words, "-o", cls.folder / name, *sources, LIBRARIES / "c" / "cca_client.c", "-ldl"], check=True)

    def setUp(self):
        self.folders = [Path(tempfile.mkdtemp(dir=self.folder)) for _ in range(2)]

    def says(self, what, given="", program=STUB / "cca"):
        words = [self.folder / "library", what, program, *self.folders]
        it = subprocess.run(words, input=given, stdout=subprocess.PIPE, stderr=subprocess.DEVNULL, text=True, timeout=200)
        self.assertEqual(it.returncode, 0)
        return it.stdout.splitlines()

    @contextmanager
    def answering(self):
        """A socket that answers each line, as a front does."""

        class Answers(socketserver.StreamRequestHandler):
            def handle(self):
                for line in self.rfile:
                    self.wfile.write(b"OK value=" + line.split()[-1] + b"\n")

        with socketserver.ThreadingUnixStreamServer(str(self.folders[0] / "socket"), Answers) as server:
            thread = threading.Thread(target=server.serve_forever)
            thread.start()
            try:
                yield
            finally:
                server.shutdown()
                thread.join()

    def test_two_coprocessors(self):
        """One is stopped beside another one, which has none of its pipes."""
        self.assertEqual(self.says("two"), ["OK value=role=B,D 0 0"])

    def test_threads(self):
        self.assertEqual(self.says("threads"), ["0 0"])

    def test_forked(self):
        self.assertEqual(self.says("forked"), ["1 0"])

    def test_child_that_lives_on(self):
        """A child has none of the pipes: cca ends with the input of its parent."""
        self.assertEqual(self.says("outlived"), ["0"])

    def test_child_of_a_connection(self):
        """A child of fork has no descriptor of a connection, over which it would ask under its parent's role; the parent goes on."""
        with self.answering():
            self.assertEqual(self.says("connected"), ["0 0"])

    def test_child_beside_a_start(self):
        """Another thread forks while cca is started: the child has none of the pipes, neither our ends nor those of cca."""
        self.assertEqual(self.says("beside"), ["0 0"])

    def test_cancelled(self):
        """A thread that is cancelled while it asks leaves the client to the others."""
        self.assertEqual(self.says("cancelled"), ["1 0"])

    def test_interrupted(self):
        """A signal in each call that one may cut short: three replies, and an end with status 0."""
        self.assertEqual(self.says("interrupted"), ["0 0 0 0"])
        with self.answering():
            self.assertEqual(self.says("interrupted-socket"), ["0 0 0 0"])

    def test_storm(self):
        """Signals, up to one each 50 microseconds, beside thousands of requests: no reply is lost."""
        self.assertEqual(self.says("storm"), ["0 0"])

    def test_slow_end(self):
        """Signals cut no wait short: cca has the time to end that it was given."""
        self.assertEqual(self.says("closing"), ["0"])

    def test_calls(self):
        """A hundred requests: each is one write and one read, and is waited for twice: nothing may come before it, and then its reply."""
        self.assertEqual(self.says("counted"), ["0 100 100 200"])
        with self.answering():
            self.assertEqual(self.says("counted", program="socket"), ["0 100 100 200"])

    def test_lost_status(self):
        """Another one has the status of cca: how it ended isn't known, and it may be that someone should look at the files."""
        self.assertEqual(self.says("ignored"), ["3 2 128 0"])
        self.assertEqual(self.says("taken"), ["2 2 128 0"])

    def test_apart(self):
        """cca has none of the program's descriptors and is in a session of its own, and other programs have none of its pipes."""
        self.assertEqual(self.says("apart"), ["0 1 1 0"])

    def test_each(self):
        """0 a reply, 1 no request, 2 not sent, 3 no reply. Where none comes a second is waited for it, by a program that runs."""
        kinds = [(100, "newline", "1 -"), (100, "A stub=deaf role=B D", "0 OK value=stub=deaf,D"), (1, own(1)[0], "3 -")]
        kinds += [(1, own("", f"stub={how}")[0], "3 -") for how in ("half", "waits100000")]
        kinds += [(100, own("", f"stub={how}")[0], "3 -") for how in ("twice", "endless", "ends8")]
        kinds += [(100, own("", "stub=ends10")[0], "2 -"), (100, own("", "stub=ends7")[0], "3 -")]
        lines, wanted = [], []
        for number, (patience, request, came) in enumerate(kinds):
            lines.append(f"{patience} {request}\n")
            wanted.append(came)
            if "deaf" not in request:
                lines.append(f"100 {own(number + 10)[0]}\n")
                wanted.append(f"0 {own(number + 10)[1]}")
        wanted[-1] = "2 -"  # behind an end after which someone should look first
        self.assertEqual(self.says("each", "".join(lines)), wanted)

    def test_zero_byte(self):
        """The beginning of a line with a zero byte is no request."""
        words = [self.folder / "client", self.folders[0], STUB / "cca"]
        it = subprocess.run(words, input=b"A role=B C\0D\nA role=B E\n", stdout=subprocess.PIPE, timeout=60)
        self.assertEqual((it.returncode, (self.folders[0] / "carried").read_bytes()), (0, b"A role=B C\0D\nA role=B E\n"))


class Programs(unittest.TestCase):
    """The clients as programs, over lines of a file."""

    def setUp(self):
        folder = tempfile.TemporaryDirectory()
        self.addCleanup(folder.cleanup)
        self.folder = Path(folder.name)
        self.programs = [[sys.executable, "-B", LIBRARIES / "python" / "cca" / "client.py"]]
        if shutil.which("cc"):
            sources = [CLIENTS / "client.c", LIBRARIES / "c" / "cca_client.c"]
            subprocess.run(["cc", "-I", LIBRARIES / "c", "-o", self.folder / "client", *sources], check=True)
            self.programs.append([self.folder / "client"])

    def each(self):
        """Each client with a folder of its own."""
        for number, words in enumerate(self.programs):
            folder = self.folder / str(number)
            folder.mkdir()
            yield [*words, folder, STUB / "cca"], folder / "carried"

    def test_half_a_line(self):
        """A last line without its newline may be half a request: it isn't asked."""
        for words, carried in self.each():
            it = subprocess.run(words, input=b"A role=B C\nA role=B D", capture_output=True, timeout=60)
            self.assertEqual((it.returncode, it.stdout, carried.read_bytes()), (0, b"OK value=role=B,C\n", b"A role=B C\n"))
            self.assertIn(b"no newline", it.stderr)

    def test_full(self):
        """A reply that can't be written: the client says so and asks nothing else."""
        for words, carried in self.each():
            with open("/dev/full", "wb") as full:
                it = subprocess.run(words, input=b"A role=B C\nA role=B D\n", stdout=full, stderr=subprocess.PIPE, timeout=60)
            self.assertEqual((it.returncode, carried.read_bytes()), (1, b"A role=B C\n"))
            self.assertIn(b"No space left on device", it.stderr)


class Auditing(Case):
    """Clients that are told to start `cca audit`."""

    def test_audit(self):
        words = [[sys.executable, "-B", LIBRARIES.parent / CLIENT, "--audit", self.folder, self.program.path]]
        if shutil.which("cc"):
            sources = [CLIENTS / "client.c", LIBRARIES / "c" / "cca_client.c"]
            subprocess.run(["cc", "-I", LIBRARIES / "c", "-o", self.folder / "client", *sources], check=True)
            words.append([self.folder / "client", self.folder, self.program.path, "audit"])
        for it in words:
            came = subprocess.run(it, input=b"A\n", stdout=subprocess.PIPE, check=True)
            self.assertEqual(came.stdout.decode().strip(), "NO 01 -")
        self.assertEqual(self.cca("trail").lines, [f"{number} 01 - - -" for number in range(len(words))])


class Planted(unittest.TestCase):
    """Each fault of EDITS is found by its case."""

    def test_edits(self):
        each_is_found(self, "client_replies", EDITS)


if __name__ == "__main__":
    unittest.main()
