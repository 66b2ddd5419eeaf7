"""The tables of docs/FORMATS.md are those of the sources that they tell of."""
import re
import unittest

from launcher.limit_file import KINDS, MODES
from launcher.usage import HELP
from launcher.words import SESSIONS
from tests.sources import sources, text, uses

# An arm of a match over refusals, and what it answers.
ARM = re.compile(r"((?:\|?\s*Refusal::\w+(?:\(\w+\))?\s*)+)=> ([^,]+),")


class Formats(unittest.TestCase):
    def test_the_refusals_have_the_codes_reasons_and_texts_of_the_program(self):
        code, of_order = matched("code_of", r"\d+"), matched("order_reason_of", r"\d+")
        of_request, texts = matched("request_reason_of", r"\d+"), matched("text_of", r'b"(.*?)"')
        seen = set()
        for row in table("| Refusal | D | F | G |")[1:]:
            found = variant(row[0])
            if not found:
                continue
            seen.add(found)
            with self.subTest(row[0], told=row[4]):
                self.assertEqual(row[5], code[found])
                self.assertEqual(row[6].split(",")[0], of_order[found] if row[1] else "")
                self.assertEqual(
                    row[7].split(",")[0], of_request[found] if row[2] or row[3] else ""
                )
                if found != "Screen":
                    self.assertEqual(row[8], texts[found])
        self.assertEqual(seen, set(code))

    def test_the_fields_are_those_of_the_table_that_is_proved(self):
        need = {
            "Unread": "", "Required": "required", "Optional": "optional",
            "WithLimit": "with 40=2", "WithTrade": "with 150=F",
        }
        read_as = {
            "Sequence": "sequence number", "Identifier": "id", "AnyText": "the kind",
            "SideCode": "1, 2, 5 or 6", "Quantity": "quantity", "OrdType": "1 or 2",
            "Price": "price",
        }
        rows = re.findall(r"^ +(?:∷ )?row (\d+) ((?:\w+ ?){6})$", text(
            "crates/fix_orders/specs/Table.antt"
        ), re.M)
        proved = []
        for tag, words in rows:
            read, *needs = words.split()
            here = ["once" if tag == "35" else need[one] for one in needs]
            proved.append([tag, *here, read_as[read]])
        told = [[row[0], *row[2:]] for row in table("| Tag | Name | D | F | G | 8 | 9 |")]
        self.assertEqual(told, proved)

    def test_the_statuses_are_those_of_the_help(self):
        of_run = re.split("^status of .*\n", HELP, flags=re.M)[1]
        helped = re.findall(r"^  (\d) ", of_run, re.M)
        told = [row[0] for row in table("| Status | Standard output |")]
        self.assertEqual(told, [status for status in helped if status != "1"])

    def test_the_rows_of_a_limit_file_are_those_that_the_launcher_knows(self):
        told = {}
        for kind, name, limit, prices, size, mode, rows in table("| Kind | Name | Limit |"):
            modes = re.findall("`(.*?)`|(empty)", mode)
            self.assertEqual(
                {one.encode() for one, _ in modes}, set(MODES if kind == "`account`" else [b""])
            )
            ends = tuple(int(one.replace(",", "")) for one in limit.split(" to "))
            told[kind.strip("`").encode()] = (name == "name", ends, int(rows.split()[-1]))
            self.assertEqual(prices == "prices", kind == "`symbol`")
            self.assertEqual(size, "1 to 1,000,000,000" if kind == "`symbol`" else "empty")
        self.assertEqual(told, KINDS)


    def test_the_numbers_are_those_that_words_and_trees_are_built_for(self):
        built = {
            name: int(value.replace("_", ""))
            for name, value in re.findall(
                r"^pub const (\w+): \w+ = ([\d_]+);", text("crates/fold_law/src/limits.rt"), re.M
            )
        }
        self.assertEqual(built["SESSIONS"], SESSIONS)
        for path, told in (
            ("README.md", f"1 to {SESSIONS} session files"),
            ("README.md", f"| sessions in a run | {SESSIONS} |"),
            ("README.md", f"in one tree | {built['LEAF']:,} currency units |"),
            ("docs/FORMATS.md", f"1 to {SESSIONS} session files"),
            ("docs/FORMATS.md", f"from 1 to {SESSIONS} and from 1 to 10,000"),
            ("docs/FORMATS.md", f"its value is above {built['LEAF']:,} |"),
            ("docs/GLOSSARY.md", f"a stamp of {built['STAMPS'].bit_length() - 1} bits and a value of "
             f"{built['VALUES'].bit_length() - 1} |"),
            ("report/__main__.py", f"SESSIONS_MOST = {SESSIONS}\n"),
            ("bench/model/book.py", f"LEAF_MOST = {built['LEAF']:_}\n"),
        ):
            with self.subTest(path, told=told):
                self.assertIn(told, text(path))


def matched(function, value):
    """What a function answers for each refusal, by its arms, in the crate that has them."""
    here = next(code for code in map(sources, sorted(uses())) if "fn order_reason_of(" in code)
    body = re.search(rf"^[\w() ]*fn {function}\(.*?^\}}", here, re.M | re.S).group()
    found = {}
    for refusals, answer in ARM.findall(body):
        told = re.search(value, answer)
        for one in re.findall(r"Refusal::(\w+)", refusals):
            found[one] = told.group(told.lastindex or 0) if told else None
    return found


def variant(name):
    """The refusal that a row of the table tells of, or None for a field fault."""
    words = {"account unknown": "UnknownAccount", "symbol unknown": "UnknownSymbol",
             "by a screen": "Screen", "field fault": None}
    return words.get(name, name)


def table(head):
    """The rows of the table of docs/FORMATS.md whose head begins so, each a list of cells."""
    rows = text("docs/FORMATS.md").split(head)[1].split("\n\n")[0].split("\n")[2:]
    return [[cell.strip() for cell in row[1:-1].split("|")] for row in rows]


if __name__ == "__main__":
    unittest.main()
