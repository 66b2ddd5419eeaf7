"""The documents: links lead somewhere, and the files, edits and calls that they name are there."""
import os
import re
import unittest

from launcher.building import MINUTES
from launcher.usage import KIT
from tests.places import TOP
from tests.sources import edits_of, sources, text, uses

LINK = re.compile(r"\]\(([^)\s]+)\)")


def documents():
    """The paths of all documents, from the top."""
    for folder, folders, names in os.walk(TOP):
        folders[:] = [one for one in folders if one not in (".git", "out", "__pycache__")]
        for name in names:
            if name.endswith(".md"):
                yield os.path.relpath(os.path.join(folder, name), TOP)


def anchors(path):
    """The anchors of a document's headings."""
    headings = re.findall(r"^#+ (.*)$", text(path), re.M)
    return {re.sub(r"[^a-z0-9 -]", "", heading.lower()).replace(" ", "-") for heading in headings}


class Documents(unittest.TestCase):
    def test_links_lead_somewhere(self):
        for document in documents():
            for link in LINK.findall(text(document)):
                if link.startswith("http"):
                    continue
                with self.subTest(document, link=link):
                    path, _, anchor = link.partition("#")
                    beside = os.path.join(os.path.dirname(document), path)
                    to = os.path.normpath(beside) if path else document
                    self.assertTrue(os.path.exists(os.path.join(TOP, to)))
                    self.assertTrue(not anchor or anchor in anchors(to))

    def test_each_edit_in_a_table_of_claims_is_there(self):
        for crate in sorted(os.listdir(os.path.join(TOP, "crates"))):
            readme = os.path.join("crates", crate, "README.md")
            edits = os.path.join(TOP, "crates", crate, "must-fail")
            if not os.path.exists(os.path.join(TOP, readme)):
                continue
            for row in re.findall(r"^\|.*\|.*\|(.*)\|$", claims(text(readme)), re.M):
                for edit in re.findall(r"`([a-z0-9_]+)`", row):
                    with self.subTest(crate, edit=edit):
                        self.assertTrue(os.path.exists(os.path.join(edits, edit + ".edit")))

    def test_each_edit_of_the_clause_of_gate_is_there(self):
        walk = os.walk(os.path.join(TOP, "crates"))
        edits = {name.removesuffix(".edit") for _, _, names in walk for name in names}
        crates = os.listdir(os.path.join(TOP, "crates"))
        for row in re.findall(r"^\| \d+ \|.*\|(.*)\|$", text("docs/CLAIMS.md"), re.M):
            for word in re.findall(r"`([a-z0-9_]+)`", row):
                with self.subTest(word):
                    self.assertTrue(word in edits or word in crates)

    def test_each_edit_stands_in_its_crates_table(self):
        for crate in sorted(os.listdir(os.path.join(TOP, "crates"))):
            edits = os.path.join(TOP, "crates", crate, "must-fail")
            named = claims(text(os.path.join("crates", crate, "README.md")))
            for edit in os.listdir(edits) if os.path.isdir(edits) else ():
                with self.subTest(crate, edit=edit):
                    self.assertIn(f"`{edit.removesuffix('.edit')}`", named)

    def test_each_row_of_a_table_of_claims_names_an_edit(self):
        for crate in uses():
            for row in claims(text(f"crates/{crate}/README.md")).splitlines():
                with self.subTest(crate, row=row):
                    self.assertTrue(re.search(r"\|[^|]*`[a-z0-9_]+`[^|]*\|$", row))

    def test_each_claim_with_no_bug_kept_for_it_names_what_says_it(self):
        for crate, below in uses().items():
            here = "".join(map(sources, [crate, *below]))
            for claim in unbroken(text(f"crates/{crate}/README.md")):
                with self.subTest(crate, claim=claim):
                    self.assertTrue(names_in(claim))
                for name in names_in(claim):
                    with self.subTest(crate, name=name):
                        self.assertTrue(re.search(rf"\b{name}\b", here))

    def test_each_name_in_a_table_of_claims_is_in_the_sources(self):
        for crate, below in uses().items():
            here = "".join(map(sources, [crate, *below]))
            for row in re.findall(
                r"^\|(.*\|.*)\|.*\|$", claims(text(f"crates/{crate}/README.md")), re.M
            ):
                for name in names_in(row):
                    with self.subTest(crate, name=name):
                        self.assertTrue(re.search(rf"\b{name}\b", here))

    def test_each_crate_stands_in_the_index_of_claims(self):
        for crate in uses():
            with self.subTest(crate):
                self.assertIn(f"| [{crate}](../crates/{crate}/README.md) |", text("docs/CLAIMS.md"))

    def test_each_name_in_the_clause_of_gate_is_in_the_sources(self):
        here = "".join(map(sources, ["gate_program", *uses()["gate_program"]]))
        for row in re.findall(r"^\| \d+ \|.*\|(.*)\|.*\|$", text("docs/CLAIMS.md"), re.M):
            for name in names_in(row):
                with self.subTest(name):
                    self.assertTrue(re.search(rf"\b{name}\b", here))

    def test_each_law_is_a_call_of_its_crate(self):
        laws = text("docs/CLAIMS.md").split("## The laws that carry it")[1].split("\n## ")[0]
        crates = os.listdir(os.path.join(TOP, "crates"))
        for row in re.findall(r"^\|.*\|(.*)\|$", laws, re.M)[2:]:
            named = re.findall(r"`(?:\w+::)?(\w+)`", row)
            calls = "".join(sources(crate) for crate in named if crate in crates)
            edits = [name for crate in named if crate in crates for name in edits_of(crate)]
            for word in named:
                with self.subTest(word):
                    self.assertTrue(
                        word in crates or word in edits or re.search(rf"\b{word}\b", calls)
                    )

    def test_the_files_that_the_architecture_names_are_there(self):
        table = text("docs/ARCHITECTURE.md").split("| To change | Files, in order |")[1]
        crate = None
        for word in re.findall(r"`([^`]+)`", table):
            if os.path.isdir(os.path.join(TOP, "crates", word)):
                crate = word
            elif re.fullmatch(r"(?:src|specs)/\w+\.(?:rt|antt)", word):
                with self.subTest(crate, file=word):
                    self.assertTrue(os.path.exists(os.path.join(TOP, "crates", crate, word)))

    def test_the_scripts_that_documents_name_are_there(self):
        for document in documents():
            for path in re.findall(r"\b(?:tools|bench|report)/[\w/]+\.py\b", text(document)):
                with self.subTest(document, path=path):
                    self.assertTrue(os.path.exists(os.path.join(TOP, path)))

    def test_each_row_of_a_table_has_as_many_cells_as_its_head(self):
        for document in documents():
            width = None
            for line in re.sub(r"^```.*?^```", "", text(document), flags=re.M | re.S).splitlines():
                cells = len(re.findall(r"(?<!\\)\|", line)) if line.startswith("|") else None
                with self.subTest(document, row=line):
                    self.assertIn(width, (None, cells or width))
                width = cells

    def test_the_screen_of_the_page_is_the_one_that_is_proved(self):
        page = text("docs/SCREENS.md")
        for path, begin in (
            ("specs/FirstOrders.antt", "-- 100 exactly where"),
            ("src/first_orders.rt", "impl Screen for FirstOrders {"),
        ):
            proved = text(f"crates/screen_kit/{path}")
            with self.subTest(path):
                self.assertTrue(proved[proved.index(begin) :] in page)
        for line in re.findall(r"^ +set\.push\(.*$", page, re.M)[:-1]:
            with self.subTest(line):
                self.assertTrue(line in text("crates/gate_program/src/sets.rt"))

    def test_the_kit_and_the_minutes_are_those_of_the_launcher(self):
        self.assertTrue(f"`{KIT}`" in text("README.md"))
        self.assertTrue(f"about {MINUTES} minutes on four processors" in text("README.md"))


def names_in(row):
    """The names in code type in a row of a table, without paths of files."""
    words = [word for word in re.findall(r"`([^`]+)`", row) if "/" not in word]
    return re.findall(r"[A-Za-z_]\w*", " ".join(words))


def claims(readme):
    """The tables of claims of a README, those with a column of edits."""
    table = r"^\| Claim [^\n]*Edits that break it \|\n\|[-|]+\|\n((?:\|.*\n)+)"
    return "".join(re.findall(table, readme, re.M))


def unbroken(readme):
    """The claims of a README for which no bug is kept: the items of the list below the table, or the
    sentence that stands in its place."""
    found = re.search(
        r"^Proved as well, with no bug kept for it((?:.+\n)+)(?:\n((?:- (?:.+\n)+)+))?", readme, re.M
    )
    if not found:
        return []
    sentence, items = found.groups()
    return re.split(r"^- ", items, flags=re.M)[1:] if items else [sentence]


if __name__ == "__main__":
    unittest.main()
