"""What lists the verbs: the contents of docs/VERBS.md and the table of the README. Both follow the headings of the page."""
import re
import textwrap
from pathlib import Path

TOP = Path(__file__).resolve().parents[2]
PAGE = TOP / "docs" / "VERBS.md"
README = TOP / "README.md"
VERB = r"\b(?:CS[A-Z]{5}|REENCIPHER)\b"
OWN = "(this project's own)"


def anchor(heading):
    """The place of a heading, as the usual viewers write it."""
    return re.sub(r"[^\w\- ]", "", heading.lower()).replace(" ", "-")


def contents(page):
    """The list of contents: a section that isn't in it yet comes into the group of the one before it."""
    block = re.search(r"(?m)^- \[(?:.+\n)+", page)[0]
    groups, group = {}, ""
    for item in re.split(r"(?m)^- ", block)[1:]:
        name = "" if item.startswith("[") else item.partition(":")[0]
        groups.update((place, name) for place in re.findall(r"\]\(#([^)]+)\)", item))
    parts = []
    for heading in re.findall(r"(?m)^## (.*)$", page):
        group = groups.get(anchor(heading), group)
        title = re.sub(r" \([A-Z]\w+\)", "", heading).partition(": ")[0]
        link = f"[{title}](#{anchor(heading)})"
        if group and parts and parts[-1][0] == group:
            parts[-1][1].append(link)
        else:
            parts.append((group, [link]))
    lines = (f"- {group}: {', '.join(links)}" if group else f"- {links[0]}" for group, links in parts)
    wrapped = (textwrap.fill(line, 126, subsequent_indent="  ", break_long_words=False, break_on_hyphens=False) for line in lines)
    return page.replace(block, "".join(f"{line}\n" for line in wrapped))


def table(page, readme):
    """The table of the README: a verb that isn't in it yet comes behind the one before it, with the words of its heading."""
    before = None
    for heading in re.findall(rf"(?m)^## ((?:{VERB}).*)$", page):
        names, _, words = heading.partition(": ")
        for verb, name in re.findall(rf"({VERB})(?: \((\w+)\))?", names):
            row = re.search(rf"(?m)^\| {verb} \|.*\n", readme)
            if row is None:
                readme = readme.replace(before, before + f"| {verb} | {name or OWN} | {words} |\n")
                row = re.search(rf"(?m)^\| {verb} \|.*\n", readme)
            before = row[0]
    return readme


def made():
    """Each page, with the text that it should have."""
    page, readme = PAGE.read_text(), README.read_text()
    return [(PAGE, contents(page)), (README, table(page, readme))]
