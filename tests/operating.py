"""The pages for operators, docs/operating, whose commands tools/commands/run runs: the roles that they name are those of the package and
of the service to practise on, with the points that are named; each recipe makes its state and ends it; each subcommand of ccactl is
described. And what the recipe for the end of a service leaves of a master key.
"""
import json
import re
import subprocess
import sys
import unittest
from pathlib import Path

from tests.edits import PATHS
from tests.formats import joined, made, value
from tests.harness import EXAMPLES, TOP, Case, Fault

FAULTS = [
    # the last change is answered and not carried out
    Fault(
        'given="$(cat)"; case "$given" in *CLEAR*) printf "OK new=partial\\nOK new=empty\\n" ;; *) echo "$given" | "$CCA" "$@" ;; esac',
        case="End.test_nothing_of_a_master_key",
        tells="stands in cca.module",
    ),
]

PAGES = {it.name: it.read_text() for it in sorted((TOP / "docs" / "operating").glob("*.md"))}
PACKAGED = (TOP / "tools" / "package" / "front.conf").read_text()
PRACTISED = (EXAMPLES / "practice" / "1-service.txt").read_text()
PRACTICE = EXAMPLES / "practice" / "practice"
POINTS = {it["name"]: int(it["value"], 16) for it in json.loads((TOP / "clients" / "verbs.json").read_text())["points"]}
FOR_A_CEREMONY = {"KEYPART1", "KEYPART2"}  # roles that are there for a ceremony alone


def table_of_roles():
    """Each role of the page's table, with its group and its points."""
    found = {}
    for names, points in re.findall(r"(?m)^\| ([A-Z][^|]*`cca-[^|]*) \| ([^|]*) \|", PAGES["CEREMONY.md"]):
        roles, groups, values = (re.findall(it, text) for it, text in ((r"\b[A-Z][A-Z0-9]+", names), ("`(.*?)`", names), (r"\b[0-9a-f]{8}\b", points)))
        found |= {role: (group, (values * len(roles))[at]) for at, (role, group) in enumerate(zip(roles, groups, strict=True))}
    return found


def sections():
    """Each role of the package's settings, with its group."""
    return dict(re.findall(r"(?m)^\[role (\w+)\]\ngroup = (\S+)$", PACKAGED))


def recipes():
    """Each heading of the recipes with its commands."""
    parts = re.split(r"(?m)^## (.*)\n", PAGES["RUNBOOKS.md"])[1:]
    return {name: re.findall(r"(?m)^    \$ (.*)$", text) for name, text in zip(parts[::2], parts[1::2])}


class Roles(unittest.TestCase):
    def test_package(self):
        """The settings of the package have the roles of the page, each with its group, and each with a socket below /run/cca."""
        self.assertEqual(sections(), {role: group for role, (group, _) in table_of_roles().items()})
        self.assertEqual(len(set(sections().values())), len(sections()))

    def test_practice(self):
        """The service to practise on has these roles with these points, and a socket for each; so has the first ceremony."""
        wanted = {role: points for role, (_, points) in table_of_roles().items() if role not in FOR_A_CEREMONY}
        self.assertEqual(dict(re.findall(r"action=DEFINE name=(\w+) points=(\w+)", PRACTISED)), wanted)
        for role, points in re.findall(r"action=DEFINE name=(\w+) points=(\w+)", PAGES["CEREMONY.md"] + PAGES["RUNBOOKS.md"]):
            self.assertEqual(points, table_of_roles()[role][1], role)
        self.assertEqual(set(re.search(r"for role in (.*); do", PRACTICE.read_text())[1].split()), set(sections()))

    def test_named_points(self):
        """Where the page has points by name and by number, these are the same."""
        named = re.findall(r"(?m)\b([0-9a-f]{8}): ((?:[A-Z_]+ ?)+)", PAGES["CEREMONY.md"].partition("## Points")[0])
        self.assertGreater(len(named), 5)
        for points, names in named:
            self.assertEqual(int(points, 16), sum(POINTS[it] for it in names.split()), names)

    def test_points_that_must_not_meet(self):
        """No role of the page has two points that the page keeps apart."""
        apart = [("MK_FIRST", "MK_COMBINE"), ("KPI_FIRST", "KPI_COMBINE"), ("KPI_COMBINE", "KYT"), ("KPI_COMBINE", "DEC")]
        apart += [(one, other) for one in ("MK_FIRST", "MK_COMBINE") for other in ("MK_SET", "MK_CLEAR", "KTC_NEW", "KTC_CURRENT")]
        apart += [("KPI_COMBINE", it) for it in ("KIM", "KEX", "KTR")] + [("ROLES", it) for it in POINTS if it != "ROLES"]
        for role, (_, points) in table_of_roles().items():
            for one, other in apart:
                self.assertFalse(int(points, 16) & POINTS[one] and int(points, 16) & POINTS[other], f"{role}: {one} with {other}")


class SecondModule(unittest.TestCase):
    def test_settings_and_unit(self):
        """What the page makes of the package's files for a second module names no folder, user or socket of the first one."""
        commands = re.findall(r"(?m)^sed -e '(.*)' (\S+) > (\S+)$", PAGES["INSTALL.md"])
        sources = [TOP / "tools/package/front.conf", TOP / "service/cca-front.service", TOP / "tools/package/tmpfiles.d/cca.conf"]
        self.assertEqual([Path(it).name for _, it, _ in commands], ["front.conf", "cca-front.service", "cca.conf"])
        made = [subprocess.run(["sed", "-e", it, file], capture_output=True, text=True, check=True).stdout for (it, _, _), file in zip(commands, sources)]
        settings, unit, folders = (re.sub("(?m)^#.*\n", "", it) for it in made)
        for text in (settings, folders):
            self.assertEqual(re.findall(r"\S*/cca(?!-b)\b\S*|= cca(?!-b)\S*", text), [])
        self.assertEqual(len(re.findall("cca-b/", settings)), len(re.findall("(?m)^(?!#).*/cca/", PACKAGED)))
        self.assertEqual(re.findall(r"(?m)^(?:User|Group|\w+Directory|ReadWritePaths)=(.*)$", unit), ["cca-b"] * 4 + ["/run/cca-b"])
        self.assertEqual(set(re.findall(r"(?m)^Exec\w+=.*cca-front (.*)$", unit)), {"--prepare /etc/cca/front-b.conf --user cca-b", "--config /etc/cca/front-b.conf"})


class Recipes(unittest.TestCase):
    def test_each_makes_its_state(self):
        """A reader may begin with any: the first commands make a service, and the last ones leave its folder."""
        for name, commands in recipes().items():
            if not commands or name == "A service to practise on":
                continue
            with self.subTest(name):
                self.assertRegex(commands[0], r"^practice begin [a-z-]+$")
                folder = commands[0].split()[-1]
                self.assertEqual(commands[1], f"cd {folder}")
                self.assertEqual(commands[-1], "cd ..")
                self.assertEqual(commands.count("practice end"), 1 + commands.count("practice start"))

    def test_each_subcommand(self):
        """The reference has each subcommand of ccactl, and the pages name no other one."""
        sys.path[:0] = PATHS
        try:
            from cca_service.ctl.main import COMMANDS
        finally:
            del sys.path[: len(PATHS)]
        there = {it.name for it in COMMANDS}
        table = PAGES["REFERENCE.md"].partition("## ccactl")[2].partition("**Which service.**")[0]
        described = {it for row in re.findall(r"(?m)^\| (`[^|]*) \|", table) for it in re.findall(r"`([a-z-]+)", row)}
        named = set(re.findall(r"\bccactl ([a-z][a-z-]+)", "".join(PAGES.values())))
        self.assertEqual((described - there, there - described, named - there), (set(), set(), set()))

    def test_each_event(self):
        """The page has the events of the front's log, and no other one."""
        shown = re.search(r"Lines with `event` are about the\s+front itself: (.*?)\. ", PAGES["REFERENCE.md"], re.DOTALL)[1]
        sources = "".join(it.read_text() for it in (TOP / "service" / "cca_service").glob("*.py"))
        self.assertEqual(set(re.findall("`([a-z ]+)`", shown)), set(re.findall(r'event="([a-z ]+)"', sources)))


class Practice(Case):
    def practice(self, *words):
        it = subprocess.run([PRACTICE, *words], cwd=self.folder, capture_output=True, text=True)
        return it.returncode, it.stdout, it.stderr

    def test_words(self):
        usage = "practice: usage: practice begin FOLDER, practice keys FOLDER, practice start, or practice end\n"
        for words in ([], ["begin"], ["keys"], ["end", "a"], ["frobnicate", "a"]):
            self.assertEqual(self.practice(*words), (2, "", usage))

    def test_folder_that_is_there(self):
        (self.folder / "mine").mkdir()
        (self.folder / "mine" / "file").touch()
        status, out, _ = self.practice("keys", "mine")
        self.assertEqual((status, out, [it.name for it in (self.folder / "mine").iterdir()]), (1, "", ["file"]))

    def test_check_values(self):
        """Those that the pages show are OpenSSL's."""
        parts = [bytes.fromhex(it) for it in re.findall(r"CSNBKPI .*part=(\w+)", PRACTISED)]
        keys = [joined(*parts[:2]), bytes.fromhex(re.search(r"clear=(\w+)", PRACTISED)[1]), joined(*parts[2:])]
        shown = re.findall(r"(?m)^    (?:CANARY|PAY\.\w+) key .* (\w{6})$", PAGES["RUNBOOKS.md"])
        self.assertEqual(shown[:3], [value(key)[:6] for key in keys])


class End(Case):
    def test_nothing_of_a_master_key(self):
        """After two changes of the master key and one change more of the registers, the first one stands nowhere in the file."""
        first = joined(made("one", 24), made("two", 24))
        names = [("first", 0), ("second", 2), ("third", 4)]
        for name, number in names:
            parts = [made(it, 24) for it in (("one", "two") if name == "first" else (f"part {number}", f"part {number + 1}"))]
            self.enter("SET", *parts)
            self.assertTrue(first in (self.folder / "cca.module").read_bytes(), name)
        self.enter("CLEAR", made("last", 24))
        self.assertFalse(first in (self.folder / "cca.module").read_bytes(), "the first master key stands in cca.module")

    def enter(self, action, first, *last):
        """Custodians enter parts, and the administrator sets or clears the key."""
        if not (self.folder / "cca.module").exists():
            self.ask([f"CSUAACI role=DEFAULT action=DEFINE name={it}" for it in ("CUSTOD1 points=00100000", "CUSTOD2 points=00200000", "SECADMIN points=00c00000")])
        steps = [("CUSTOD1", "FIRST", first), *(("CUSTOD2", "LAST", it) for it in last)]
        requests = [f"CSNBMKP role={role} action={step} part={part.hex()}" for role, step, part in steps]
        replies = self.ask([*requests, f"CSNBMKP role=SECADMIN action={action}"])
        self.assertEqual({it[:2] for it in replies}, {"OK"})


if __name__ == "__main__":
    unittest.main()
