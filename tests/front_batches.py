"""Lines that the front asks at once: whose turn it is, what becomes of each where cca ends in their midst, and what the logs have of them."""
import hashlib
import json
import os
import signal
import unittest
from collections import deque
from types import SimpleNamespace

from tests.edits import Edit, each_is_found
from tests.front import ROLES, Fronted, children_of, connected, front_program
from tests.front_clients import TOLD
from tests.harness import TOP, Fault
from tests.keys import ONE_KEY

from cca_service import service as service_module  # noqa: E402
from cca_service.batches import MOST, MOST_AUDITED, Line, Turns, writes  # noqa: E402
from cca_service.connections import Connection  # noqa: E402
from cca_service.journal import Journal  # noqa: E402
from cca_service.service import Service  # noqa: E402
from cca_service.settings import DoorSettings, Settings  # noqa: E402

FAULTS = [Fault('"$CCA" "$@" | sed -u "s/^OK value=/OK other=/"', case="Program.test_many", tells="OK other=")]
EDITS = [
    Edit("batches.py", "self.at = (self.at + 1) % len(self.doors)\n        return lines", "pass\n        return lines", "Whose.test_flooding"),
    Edit("batches.py", "                if writes(line.text):\n                    return self.alone(line, lines)\n", "", "Whose.test_writing"),
    Edit("batches.py", "line.startswith(WRITERS) or TO_LABEL in line", "line.startswith(WRITERS)", "Whose.test_what_writes"),
    Edit("batches.py", "for line in reversed(lines):", "for line in lines:", "Whose.test_put_back"),
    Edit("batches.py", "MOST_AUDITED if is_audited else MOST", "MOST", "Whose.test_audited"),
    Edit("service.py", "answers.replies, answers.doubts = end.replies, 1", "answers.replies, answers.doubts = end.replies, count - len(end.replies)", "Ends.test_in_the_midst"),
    Edit("service.py", "answers.replies, answers.doubts = end.replies, 1", "answers.replies, answers.doubts = end.replies, 0", "Ends.test_in_the_midst"),
    Edit("service.py", " and self.cca.is_order_known:", ":", "Ends.test_more_than_asked"),
    Edit("service.py", "            del self.sent[len(self.sent) - unknown :]", "            pass", "Ends.test_records"),
    Edit("front.py", "self.turns.put_back(lines[done:]) if done else self.tell_all(lines)", "None", "Ends.test_in_the_midst"),
    Edit("service.py", "self.number += len(answers.replies) + answers.doubts", "pass", "Ends.test_records"),
    Edit("connections.py", 'self.taken[:0] = line + b"\\n"', "pass", "Ends.test_in_the_midst"),
]


class Whose(unittest.TestCase):
    """Whose turn it is; doors and connections without sockets."""

    def setUp(self):
        self.doors = [SimpleNamespace(role=role, ready=deque()) for role in ROLES]

    def add(self, door, text, count=1):
        """Connections with some lines each that wait."""
        for _ in range(count):
            it = Connection.__new__(Connection)
            it.taken, it.unsent, it.door = bytearray(b"".join(line + b"\n" for line in text)), b"", door
            door.ready.append(it)

    def roles(self, lines):
        return [it.connection.door.role for it in lines]

    def test_turns(self):
        """Roles take turns, and each connection has one line."""
        for door, count in zip(self.doors, (3, 1, 2)):
            self.add(door, [b"A K1", b"A K2"], count)
        lines = Turns(self.doors, False).next()
        self.assertEqual(self.roles(lines), ["TELLER", "OFFICER", "CUSTODY", "TELLER", "CUSTODY", "TELLER"])
        self.assertEqual({it.text for it in lines}, {b"A K1"})
        self.assertEqual(len({id(it.connection) for it in lines}), 6)

    def test_flooding(self):
        """A role with many connections takes no more turns than others that have a line; also with lines that write."""
        turns = Turns(self.doors, False)
        self.add(self.doors[0], [b"A K"], 200)
        self.add(self.doors[1], [b"A K"], 1)
        lines = turns.next()
        self.assertEqual((len(lines), self.roles(lines).index("OFFICER")), (MOST, 1))
        for door in self.doors:
            door.ready.clear()
        turns = Turns(self.doors, False)
        self.add(self.doors[0], [b"CSNBKRC label=A"], 200)
        self.add(self.doors[1], [b"A K"], 1)
        self.add(self.doors[2], [b"CSNBKRC label=A"], 1)
        self.assertEqual([self.roles(turns.next()) for _ in range(4)], [["TELLER"], ["OFFICER"], ["CUSTODY"], ["TELLER"]])

    def test_writing(self):
        """A line that writes is asked by itself, in its turn; nothing is lost and nothing comes twice."""
        turns = Turns(self.doors[:1], False)
        for text in (b"A K1", b"CSNBKRD label=A", b"A K2", b"CSNBKPI rule=FIRST to=L:X", b"CSUAACI role", b"A K3"):
            self.add(self.doors[0], [text])
        came = [[it.text for it in turns.next()] for _ in range(6)]
        self.assertEqual(came, [[b"A K1"], [b"CSNBKRD label=A"], [b"A K2"], [b"CSNBKPI rule=FIRST to=L:X"], [b"CSUAACI role"], [b"A K3"]])
        self.assertEqual(turns.next(), [])

    def test_what_writes(self):
        """Each request of the examples that changes a file is one of those that go by themselves: verbs that write, or a key that goes to a
        label."""
        rows = json.loads((TOP / "clients" / "verbs.json").read_text())["rows"]
        verbs = {"CSNBKRC", "CSNBKRD", "CSNBKRW", "CSNBMKP", "CSUAACI", "REENCIPHER"}
        for row in rows:
            line = f"{row['verb']} " + " ".join(f"{field['name']}=L:A" for field in row["fields"])
            wanted = row["verb"] in verbs or any(field["name"] == "to" for field in row["fields"])
            self.assertEqual(writes(line.encode()), wanted, line)
        self.assertTrue(writes(b"REENCIPHER"))

    def test_put_back(self):
        """Lines that weren't begun are the next ones again, before what their connections have besides."""
        turns = Turns(self.doors, False)
        for door in self.doors[:2]:
            self.add(door, [b"A K1", b"A K2"], 2)
        lines = turns.next()
        turns.put_back(lines[1:])
        again = turns.next()
        self.assertEqual([(it.connection, it.text) for it in again], [(it.connection, it.text) for it in lines[1:]])
        self.assertEqual(bytes(again[0].connection.taken), b"A K2\n")

    def test_audited(self):
        """With an audit trail fewer lines go at once."""
        self.add(self.doors[0], [b"A K"], 500)
        self.assertEqual(len(Turns(self.doors, True).next()), MOST_AUDITED)
        self.assertLess(MOST_AUDITED, MOST)

    def test_request(self):
        """The role stands behind the verb, whatever the line is."""
        door = SimpleNamespace(name=b"TELLER")
        for text, wanted in ((b"A K", b"A role=TELLER K\n"), (b"", b" role=TELLER\n"), (b" A", b" role=TELLER A\n"), (b"A", b"A role=TELLER\n")):
            self.assertEqual(Line(SimpleNamespace(door=door), text).request(), wanted)


class Batched(Fronted):
    def at_once(self, *pairs):
        """Connections whose lines, each a role and a request, come while the front waits for a slow reply: so they are asked at once."""
        slow = connected(self.folder / ROLES[0])
        self.addCleanup(slow.close)
        clients = [connected(self.folder / role) for role, _ in pairs]
        for it in clients:
            self.addCleanup(it.close)
        slow.sendall(b"A stub=waits700 SLOW\n")
        self.carries(b"SLOW")
        for it, (_, request) in zip(clients, pairs):
            it.sendall(request.encode() + b"\n")
        self.assertEqual(slow.recv(100), b"OK value=role=%b,SLOW\n" % ROLES[0].encode())
        return clients

    def carried(self, what):
        """How often cca has carried out a request with these bytes."""
        return (self.folder / "keys" / "carried").read_bytes().count(what)

    def came(self, client):
        """The next line of a client; nothing where its connection has ended."""
        with client.makefile("rb") as lines:
            return lines.readline().decode().removesuffix("\n")


class Ends(Batched):
    """cca ends in the midst of lines that were asked at once."""

    def test_in_the_midst(self):
        """Those before have their replies; the one in whose midst it ended is in doubt, and its connection ends; those behind it are asked
        again, and carried out once."""
        front = self.begin()
        pairs = [("TELLER", f"A K{number}.") for number in range(4)] + [("TELLER", "A stub=ends8 K4."), ("TELLER", "A K5."), ("TELLER", "A K6.\nA K7.")]
        clients = self.at_once(*pairs)
        self.assertEqual([self.came(it) for it in clients], [f"OK value=role=TELLER,K{number}." for number in range(4)] + [""] + [f"OK value=role=TELLER,K{it}." for it in (5, 6)])
        self.comes(lambda: self.carried(b"K7."))
        self.assertEqual([self.carried(b"K%d." % number) for number in range(8)], [1] * 8)
        self.ends_well(front)
        told = [it for it in self.told() if "verb" in it]
        self.assertEqual([it["rule"] for it in told].count("-"), 1)
        self.assertEqual(len(told), 9)

    def test_again_and_again(self):
        """Each of many is the end of cca: all connections are in doubt, one after another, and the front goes on."""
        front = self.begin()
        clients = self.at_once(*[(role, "A stub=ends8 K") for role in ROLES * 4])
        self.assertEqual([self.came(it) for it in clients], [""] * 12)
        self.assertEqual(self.carried(b"ends8"), 12)
        self.is_serving()
        self.ends_well(front)

    def test_look(self):
        """An end that asks for a look: those before have their replies, one is in doubt, and the others know that they weren't carried out."""
        front = self.begin()
        clients = self.at_once(("TELLER", "A K1"), ("TELLER", "A stub=ends7 K2"), ("TELLER", "A KNOT"), ("OFFICER", "A KNOT"))
        self.assertEqual(front.wait(60), front_program.Status.LOOK)
        came = [self.came(it) for it in clients]
        # The officer's turn is behind the first teller's.
        self.assertIn(came, (["OK value=role=TELLER,K1", "", f"{TOLD}: the front has ended", "OK value=role=OFFICER,KNOT"],
                             ["OK value=role=TELLER,K1", ""] + [f"{TOLD}: the front has ended"] * 2))
        self.assertEqual(self.carried(b"KNOT"), came.count("OK value=role=OFFICER,KNOT"))

    def test_killed(self):
        """cca is killed while it has many lines: each request has its reply, or its connection ends, and none is carried out twice."""
        front = self.begin("--audit", str(self.folder / "trail.jsonl"))
        pairs = [(role, f"A stub=waits100 K{number}{role}.") for number in range(7) for role in ROLES]
        clients = self.at_once(*pairs)
        self.carries(b"K3OFFICER.")
        os.kill(next(children_of(front.pid)), signal.SIGKILL)
        came = [self.came(it) for it in clients]
        self.assertLessEqual(came.count(""), 1)
        for (role, request), reply in zip(pairs, came):
            self.assertIn(reply, ("", f"OK value=role={role},{request.split()[-1]}"))
            self.assertEqual(self.carried(request.split()[-1].encode()), 1)
        self.ends_well(front)

    def test_records(self):
        """The trail's log has time, user and number of each request, also of one that left no record and those behind it, which were asked
        again; and the front's log has the same numbers."""
        front = self.begin("--audit", str(self.folder / "trail.jsonl"))
        clients = self.at_once(*[("TELLER", f"CSNBKYT key=L:K{number} K") for number in range(3)], ("TELLER", "A stub=ends8 K"), ("TELLER", "CSNBKYT key=L:K4 K"))
        self.assertEqual([self.came(it) == "" for it in clients], [False, False, False, True, False])
        self.ends_well(front)
        records = [json.loads(line) for line in (self.folder / "trail.jsonl").read_text().splitlines()]
        self.assertEqual([it for it in records if "told" in it], [])
        logged = {it["request"]: it for it in self.told() if "verb" in it}
        self.assertEqual({it["uid"] for it in records}, {os.getuid()})
        numbers = [it["request"] for it in records]
        self.assertEqual((len(set(numbers)), sorted(numbers)), (6, numbers))
        ready = next(it for it in self.told() if it.get("event") == "ready")
        self.assertEqual(numbers[0], ready["request"])
        for it in records[1:]:
            self.assertEqual((it["verb"], it["rule"]), (logged[it["request"]]["verb"], logged[it["request"]]["rule"]) if it["verb"] != "A" else ("A", "00"))
        self.assertEqual([it["rule"] for it in logged.values()].count("-"), 1)

    def service(self):
        doors = (DoorSettings("TELLER", str(self.folder / "TELLER"), ""),)
        service = Service(Settings(str(self.folder / "keys"), None, None, self.stands, 9, 9, 9.0, doors), True, Journal(str(self.log)))
        self.addCleanup(service.cca.close)
        service.begin()
        return service

    def test_more_than_asked(self):
        """One that says more than it was asked, half a reply, or nothing in time: no reply is taken for that to a request, and all are in
        doubt."""
        for how, number in (("twice", 2), ("half", 1), ("closed", 1)):
            with self.subTest(how):
                service = self.service()
                service.cca.patience = 0.5
                self.addCleanup(setattr, service_module, "ENDING", service_module.ENDING)
                service_module.ENDING = 0.2
                requests = [b"A role=TELLER K1\n", b"A role=TELLER K2\n", b"A role=TELLER K3\n"]
                # A line too many is seen where it comes with the last reply: it stands last.
                requests[number] = b"A role=TELLER stub=%b K\n" % how.encode()
                answers = service.ask_all(requests, [0] * 3)
                self.assertEqual((answers.replies, answers.doubts, answers.end is None), ([], 3, False))
                service.cca.patience = 60.0
                service.go_on(answers)
                self.assertEqual(service.ask_all([b"A role=TELLER K4\n"], [0]).replies, ["OK value=role=TELLER,K4"])
                service.cca.close()


class Program(Fronted):
    """The program itself."""

    def test_many(self):
        """Many clients over the keys of an example: each has its own reply, between requests that write."""
        self.stands = self.program.path
        self.ask(ONE_KEY, folder=self.folder / "keys")
        front = self.begin("--audit", str(self.folder / "trail.jsonl"), sockets=("DEFAULT",))
        clients = [connected(self.folder / "DEFAULT") for _ in range(40)]
        for number, it in enumerate(clients):
            self.addCleanup(it.close)
            it.sendall(f"CSNBKYT key=L:A\nCSNBKRC label=K{number}\nCSNBKRL prefix=K{number}\nCSNBKYT key=L:A\nCSNBKRL prefix=NO\n".encode())
        for number, it in enumerate(clients):
            with it.makefile("rb") as lines:
                came = [lines.readline().decode().strip() for _ in range(5)]
            self.assertEqual(came[:2] + came[3:], ["OK value=d5d44ff7", "OK", "OK value=d5d44ff7", "OK count=0 labels="])
            self.assertIn(f"K{number}", came[2].partition("labels=")[2].split(","))
        self.ends_well(front)
        lines = (self.folder / "trail.jsonl").read_bytes().splitlines()
        records = [json.loads(line) for line in lines]
        self.assertEqual(len([it for it in records if it.get("request")]), 201)
        for before, it in zip(lines, records[1:]):
            self.assertEqual(it["chain"], hashlib.sha256(before).hexdigest())


class Planted(unittest.TestCase):
    """Each fault of EDITS is found by its case."""

    def test_edits(self):
        each_is_found(self, "front_batches", EDITS)


if __name__ == "__main__":
    unittest.main()
