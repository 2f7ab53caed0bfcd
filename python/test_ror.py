"""Tests of ror.py: `python3 python/test_ror.py`. The last line says how many passed and failed."""

import contextlib
import csv
import importlib.util
import io
import os
import pathlib
import re
import shutil
import stat
import subprocess
import sys
import tempfile
import unittest
import warnings
import zipfile
from decimal import Decimal
from fractions import Fraction

sys.dont_write_bytecode = True
HERE = pathlib.Path(__file__).resolve().parent
TOP = HERE.parent
sys.path.insert(0, str(HERE))

import build_backend  # noqa: E402
import ror  # noqa: E402

HAS_PANDAS = importlib.util.find_spec("pandas") is not None
CARS = TOP / "examples" / "five-cars"


def example(name, table="table.txt"):
    folder = TOP / "examples" / name
    best_first = (folder / "options").is_file()
    return ror.Table.read(folder / table, best_first), ror.Session.read(folder / "session.txt")


def in_json(name, table="table.txt", *options):
    """The report of an example as `replay-json` writes it."""
    folder = TOP / "examples" / name
    more = (folder / "options").read_text().split() if (folder / "options").is_file() else []
    words = [ror.Program.find().ror, "replay-json", table, "session.txt", *more, *options]
    return subprocess.run(words, cwd=folder, capture_output=True).stdout


def folders():
    """Each example with each of its tables."""
    for folder in sorted((TOP / "examples").iterdir()):
        for table in sorted(folder.glob("table.*")):
            yield folder, table.name


def stated(page):
    """What stands by a page of `standing`: for each desk the number, the words and the line of each statement."""
    desks, desk = {}, None
    for line in page.split("\n"):
        head = re.fullmatch(r"(\S+|\(no name\))  after line \d+", line)
        if head:
            desk = "" if head.group(1) == "(no name)" else head.group(1)[1:]
            desks[desk] = []
        row = re.fullmatch(r" +(\d+)  (.*?)  +(?:line (\d+)|the table's file)(?: \(.*\))?", line)
        if row:
            desks[desk].append((int(row.group(1)), row.group(2), int(row.group(3)) if row.group(3) else None))
    return desks


class Examples(unittest.TestCase):
    def test_reports_are_those_of_the_examples(self):
        for folder, table in folders():
            with self.subTest(folder.name, table=table):
                report = ror.replay(*example(folder.name, table))
                self.assertEqual(report.plain, (folder / "report.txt").read_bytes())
                line = re.search(r"^accepted (\d+) wide (\d+)$", (folder / "README.md").read_text(encoding="utf-8"), re.M)
                self.assertEqual((report.accepted, report.wide), (int(line.group(1)), int(line.group(2))))
                self.assertEqual(report.status, 9 if report.wide else 0)

    def test_reports_are_checked_in_both_forms(self):
        for folder, table in folders():
            with self.subTest(folder.name, table=table):
                pair = example(folder.name, table)
                replayed, checked = ror.replay(*pair), ror.check(*pair, folder / "report.txt")
                self.assertEqual(list(checked.lines), list(replayed.lines))
                self.assertEqual(ror.check(*pair, in_json(folder.name, table)).plain, replayed.plain)

    def test_narrow_reports_have_the_bytes_of_replay(self):
        for name in ("twenty-cars", "lexicographic", "hidden-contradiction", "six-flats"):
            for bits in (15, 31):
                with self.subTest(name, bits=bits):
                    folder = TOP / "examples" / name
                    report = ror.replay(*example(name), bits=bits)
                    words = [ror.Program.find().ror, "replay", "table.txt", "session.txt", "--bits", str(bits)]
                    plain = subprocess.run(words, cwd=folder, capture_output=True).stdout
                    self.assertEqual(report.plain, plain)
                    self.assertEqual(ror.check(*example(name), in_json(name, "table.txt", "--bits", str(bits))).plain, plain)

    def test_what_stands_is_on_the_page(self):
        for folder, table in folders():
            with self.subTest(folder.name, table=table):
                report = ror.replay(*example(folder.name, table))
                for desk, rows in stated((folder / "standing.txt").read_text(encoding="utf-8")).items():
                    self.assertEqual([(it.number, it.text, it.line) for it in report.standing(desk=desk)], rows)

    def test_relations_are_those_of_the_csv(self):
        for name in ("one-relation", "twenty-cars"):
            report = ror.replay(*example(name))
            with open(TOP / "examples" / name / "relation.csv", newline="", encoding="utf-8") as file:
                rows = list(csv.DictReader(file))
            for line in {int(row["line"]) for row in rows}:
                pairs = [(row["from"], row["to"]) for row in rows if int(row["line"]) == line]
                self.assertEqual(list(report.relation(line).necessary), pairs)

    def test_classes_are_those_of_the_csv(self):
        report = ror.replay(*example("twelve-firms"))
        with open(TOP / "examples" / "twelve-firms" / "classes.csv", newline="", encoding="utf-8") as file:
            rows = list(csv.DictReader(file))
        signs = {(int(row["line"]), row["alternative"], int(row["class"])): row["sign"] for row in rows}
        found = {}
        for it in report.classes():
            for number in range(1, 5):
                only = it.lowest == it.highest
                sign = ("#" if only else "&") if number in it.necessary else "+" if number in it.possible else "."
                found[it.line, it.alternative, number] = sign
        self.assertEqual(found, signs)
        self.assertEqual([(it.lowest, it.highest) for it in report.classes(14)], [(2, 4)])

    def test_functions_are_those_of_the_csv(self):
        report = ror.replay(*example("five-cars"))
        with open(CARS / "functions-4.csv", newline="", encoding="utf-8") as file:
            rows = [(it["function"], it["criterion"], Fraction(it["level"]), Fraction(int(it["marginal"]), int(it["total"])))
                    for it in csv.DictReader(file)]
        functions = report.functions(4)
        self.assertEqual([(f.label, it.criterion, it.level, it.marginal) for f in functions for it in f.rows], rows)
        self.assertEqual(functions[1].weights, {"price": Fraction(1, 2), "power": Fraction(1, 2), "noise": 0})
        values = functions[1].values(example("five-cars")[0])
        self.assertEqual((values["c01"] * 12, values["c09"] * 12), (6, 7))
        self.assertEqual((functions[1].line, functions[1].place), (4, 1))

    def test_reasons_name_the_statements(self):
        report = ror.replay(*example("five-cars"))
        reason = report.reasons(6)[0]
        self.assertEqual(reason.numbers, (1, 4))
        self.assertEqual([(it.text, it.line) for it in reason.statements], [("prefer c10 c14", 1), ("stronger c01 c09 c10 c14", 5)])
        self.assertEqual((reason.question, reason.verdict), ("necessary c01 c09", "yes"))
        self.assertEqual(report.certificates(6).split(b"\n")[1], b"reduct 6 1 1 4")
        self.assertEqual(len(report.reasons(4)), 0)
        flats = ror.replay(*example("six-flats"))
        self.assertEqual([(it.line, it.numbers) for it in flats.reasons()],
                         [(7, (1, 2, 4)), (10, (1, 2)), (11, (1, 2, 5)), (16, (4,)), (17, (4,))])
        self.assertEqual(flats.reasons(10)[0].statements[1].text, "prefer castle station")

    def test_a_repair_names_what_it_dropped(self):
        report = ror.replay(*example("six-flats"))
        repair = report.repairs[0]
        self.assertEqual((repair.line, [(it.number, it.text, it.line) for it in repair.dropped]), (9, [(4, "prefer bridge mill", 5)]))
        self.assertEqual([it.number for it in report.standing(9)], [1, 2, 3, 5])
        self.assertEqual([it.number for it in report.standing(13)], [1, 2, 3, 4, 5])
        self.assertEqual(report.line(13).outcome, "undone")
        self.assertFalse(report.answer(7).holds)
        self.assertTrue(report.answer(15).holds)

    def test_xmcda(self):
        table, session = example("twelve-firms-in-xmcda", "table.xml")
        report = ror.replay(table, session)
        sheet = ror.read_sheet(table)
        self.assertEqual((sheet.classes, len(sheet.alternatives)), (4, 12))
        self.assertEqual(sheet.criteria[1], ror.SheetCriterion("debt", "min", False, (80, 65, 50, 35)))
        self.assertEqual(sheet.statements[6], "class oak 2 3")
        self.assertEqual((report.standing()[0].text, report.standing()[0].line), ("prefer maple fir", None))
        self.assertTrue(any(it.line is None for reason in report.reasons() for it in reason.statements))
        worst_first = ror.replay(ror.Table.from_bytes(table.to_bytes()), session)
        self.assertNotEqual(worst_first.plain, report.plain)
        with self.assertRaises(ror.TableError):
            table.alternatives
        folder = TOP / "cases" / "xmcda-opening-statements-repaired-in-a-replay"
        warnings.simplefilter("ignore", ror.RefusedWarning)
        report = ror.replay(ror.Table.read(folder / "table.xml"), ror.Session.read(folder / "session.txt"))
        self.assertEqual({it.line for repair in report.repairs for it in repair.dropped}, {None})

    def test_a_question_has_its_parts(self):
        answer = ror.replay(*example("six-vans")).answer(6)
        self.assertEqual((answer.kind, answer.alternatives, answer.criterion), ("necessary", ("bora", "alta", "delta", "cargo"), "price"))
        answer = ror.replay(*example("twelve-firms")).answers(14)[4]
        self.assertEqual((answer.kind, answer.alternatives, answer.number), ("possible-class", ("fir",), 3))

    def test_a_group(self):
        group = ror.group(*example("two-judges"))
        self.assertEqual((group.desks, group.accepted, group.wide), (("anna", "bert"), 80, 0))
        self.assertEqual(group.plain, (TOP / "examples" / "two-judges" / "group.txt").read_bytes())
        both = {("c05", "c09"), ("c05", "c10"), ("c14", "c09"), ("c14", "c10"), ("c09", "c10")}
        self.assertEqual(set(group.those("necessary_for_all")), both)
        pair = next(it for it in group if (it.first, it.second) == ("c05", "c14"))
        self.assertEqual((pair.necessary, pair.possible), ({"anna": "no", "bert": "yes"}, {"anna": "no", "bert": "yes"}))
        self.assertEqual((pair.necessary_for_some, pair.possible_for_all), ("yes", "no"))
        pair = next(it for it in group if (it.first, it.second) == ("c01", "c05"))
        self.assertEqual((pair.necessary, pair.possible), ({"anna": "no", "bert": "no"}, {"anna": "yes", "bert": "yes"}))

    def test_a_most_discriminating_function(self):
        table, session = example("one-function")
        found = ror.discriminate(table, session)[0]
        self.assertEqual((found.desk, found.outcome, found.margin), ("", "margin", Fraction(1, 6)))
        marginals = [[value * 6 for value in levels.values()] for levels in found.function.marginals.values()]
        self.assertEqual(marginals, [[0, 0, 0, 2, 3], [0, 2, 2, 3, 3], [0, 0, 0]])
        values = {name: value * 6 for name, value in found.function.values(table).items()}
        self.assertEqual(values, {"c05": 4, "c01": 3, "c09": 3, "c14": 3, "c10": 2})

    def test_a_function_on_a_linear_criterion(self):
        table = ror.Table({"q": "max linear", "p": "min linear"}, {"a": ("1/3", 5), "b": ("1/2", 5), "c": (Fraction(3, 4), 5)})
        session = ror.Session(["prefer c b", "prefer b a"])
        found = ror.discriminate(table, session)[0]
        self.assertEqual(list(found.function.marginals["q"].values()), [0, Fraction(2, 5), 1])
        self.assertEqual(list(found.function.marginals["p"].values()), [0])
        self.assertEqual(found.margin, Fraction(2, 5))
        functions = ror.replay(table, ror.Session(["prefer c b", "ask consistent"])).functions(2)
        self.assertEqual(functions[0].marginals, found.function.marginals)

    def test_outcomes_of_discriminate(self):
        table = example("two-judges")[0]
        session = ror.Session(["@x atleast c01 c05", "@y prefer c01 c05", "@y prefer c05 c01"])
        self.assertEqual([(it.desk, it.outcome) for it in ror.discriminate(table, session)], [("x", "none"), ("y", "contradiction")])

    def test_levels(self):
        spans = ror.levels(*example("three-levels"), 3, {3: 2, 4: 2, 5: 3})
        rows = {(it.first, it.second): (it.necessary, it.possible, it.contradictory, it.wide) for it in spans}
        self.assertEqual(rows["c05", "c10"], (2, 3, 4, None))
        self.assertEqual(rows["c09", "c01"], (4, 2, 4, None))
        self.assertEqual(len(rows), 20)

    def test_generate(self):
        self.assertEqual(ror.generate(7), ror.Generated(7, 18, 1168, 1041, 0, 0, 2209))


class Sessions(unittest.TestCase):
    def test_each_method_writes_its_line(self):
        session = ror.Session()
        anna = session.desk("anna")
        numbers = [
            session.prefer("a", "b"), session.atleast("a", "b"), session.same("a", "b"), session.stronger("a", "b", "c", "d"),
            session.asstrong("a", "b", "c", "d", on="q"), session.equal("a", "b", "c", "d"), session.assign("a", 2),
            session.assign("a", 1, 2), session.withdraw(3), session.replace(2, "stronger", "a", "b", "c", "d", on="q"),
            session.replace(2, "class", "a", 1, 2), session.repair(), session.undo(), session.ask_consistent(),
            session.ask_necessary("a", "b"), session.ask_necessary("a", "b", "c", "d", on="q"), session.ask_possible("a", "b"),
            anna.ask_possible("a", "b", "c", "d"), anna.ask_relation(), anna.ask_classes("a"), anna.ask_possible_class("a", 1),
            anna.ask_necessary_class("a", 2), session.comment("said on Monday"),
        ]
        self.assertEqual(numbers, list(range(1, 24)))
        self.assertEqual(session.lines, (
            "prefer a b", "atleast a b", "same a b", "stronger a b c d", "asstrong a b c d on q", "equal a b c d", "class a 2 2",
            "class a 1 2", "withdraw 3", "replace 2 stronger a b c d on q", "replace 2 class a 1 2", "repair", "undo",
            "ask consistent", "ask necessary a b", "ask necessary a b c d on q", "ask possible a b", "@anna ask possible a b c d",
            "@anna ask relation", "@anna ask classes a", "@anna ask possible-class a 1", "@anna ask necessary-class a 2",
            "# said on Monday"))
        table = ror.Table({"q": "max"}, {"a": [1], "b": [2], "c": [3], "d": [4]}, classes=2)
        self.assertEqual([it.refusal for it in ror.replay(table, session).refused], [])

    def test_no_name_slips_in_as_something_else(self):
        session = ror.Session()
        for name in ("Fiat 500", "a\tb", "a\n", "a\nundo", "", "#a", "@a", "x" * 65, "é" * 33, "\ud800", "a\x7f", "a\x00", 7, None):
            for call in (lambda: session.prefer(name, "b"), lambda: session.ask_classes(name),
                         lambda: session.replace(1, "same", "b", name),
                         lambda: session.stronger("a", "b", "c", "d", on="" if name is None else name)):
                with self.assertRaises(ror.SessionError):
                    call()
        for name in ("a b", "a\n", "x" * 65, 7):
            with self.assertRaises(ror.SessionError):
                session.desk(name)
        for number in (-1, 1.0, True, "1", 10**9):
            with self.assertRaises(ror.SessionError):
                session.withdraw(number)
        for call in (lambda: session.ask_necessary("a", "b", "c"), lambda: session.ask_necessary("a", "b", on="q"),
                     lambda: session.replace(1, "prefer", "a"), lambda: session.replace(1, "ask", "relation", "a"),
                     lambda: session.replace(1, "prefer", "a", "b", on="q"), lambda: session.add_line("prefer a b\nundo"),
                     lambda: ror.Session("prefer a b")):
            with self.assertRaises(ror.SessionError):
                call()
        self.assertEqual(session.lines, ())

    def test_bytes_stay_as_they_are(self):
        data = b"# x\r\nprefer a b\r\n\n\t@j  ask\tconsistent"
        session = ror.Session.from_bytes(data)
        self.assertEqual(session.to_bytes(), data)
        self.assertEqual(session.ask_relation(), 5)
        report = ror.replay(ror.Table({"q": "max"}, {"a": [1], "b": [0]}), session)
        self.assertEqual([(it.number, it.desk, it.text) for it in report.lines],
                         [(2, "", "prefer a b"), (4, "j", "ask consistent"), (5, "", "ask relation")])

    def test_lines_are_lines_again(self):
        session = ror.Session.from_bytes("# é\r\nprefer a b\r\n\r\nundo".encode())
        self.assertEqual(session.lines, ("# é", "prefer a b", "", "undo"))
        self.assertEqual(ror.Session(session.lines).lines, session.lines)
        self.assertEqual((session.undo(), session.lines[-1]), (5, "undo"))


class Tables(unittest.TestCase):
    def test_amounts_are_exact(self):
        given = ["0.1", 0.1, Decimal("0.10"), Fraction(1, 10), "1/10", "+01/010"]
        table = ror.Table({"q": "max"}, {f"a{place}": [amount] for place, amount in enumerate(given)})
        self.assertEqual({table.performances(name)["q"] for name in table.alternatives}, {Fraction(1, 10)})
        self.assertEqual(ror.read_sheet(table).criteria[0].levels, (Fraction(1, 10),))
        exact = ror.Table({"q": "max"}, {
            "a": [999999999999999999], "b": [Decimal("1E+5")], "c": [1e-07], "d": [0.1 + 0.2], "e": [Decimal("-0.50")], "f": [1e16]})
        self.assertEqual(exact.to_bytes().decode().split("\n")[2:-1], [
            "alternative a 999999999999999999", "alternative b 100000", "alternative c 0.0000001", "alternative d 0.30000000000000004",
            "alternative e -0.50", "alternative f 10000000000000000"])
        self.assertEqual(len(ror.read_sheet(exact).criteria[0].levels), 6)

    def test_what_is_no_amount_is_refused(self):
        for amount in ("3,5", "1e5", "", " 1", "1.", ".5", "1/0", "1/-2", "1 2", "٣", "1\n", 10**18, 1e-20, float("nan"), float("inf"),
                       Decimal("NaN"), Fraction(1, 10**18), True, None, b"1", 1j, [1]):
            with self.subTest(repr(amount)), self.assertRaises(ror.TableError) as raised:
                ror.Table({"q": "max"}, {"a": [amount]})
            self.assertEqual(raised.exception.word, "BadNumber")

    def test_tables_are_read_back(self):
        table = ror.Table([ror.Criterion("p", "min", True), ror.Criterion("q", "max")], {"a": {"q": 1, "p": "2.5"}, "b": (3, 4)}, 3)
        again = ror.Table.from_bytes(table.to_bytes())
        self.assertEqual((again.criteria, again.alternatives, again.classes), (table.criteria, ("a", "b"), 3))
        self.assertEqual(again.performances("a"), {"p": Fraction(5, 2), "q": 1})
        for name in ("five-cars", "six-vans", "twelve-firms", "lexicographic"):
            plain, sheet = example(name)[0], ror.read_sheet(example(name)[0])
            self.assertEqual(plain.alternatives, sheet.alternatives)
            self.assertEqual([(it.name, it.direction, it.linear) for it in plain.criteria],
                             [(it.name, it.direction, it.linear) for it in sheet.criteria])
            for place, criterion in enumerate(sheet.criteria):
                amounts = {plain.performances(it)[criterion.name] for it in plain.alternatives}
                self.assertEqual(amounts, set(sheet.criteria[place].levels))
            self.assertEqual(plain.classes, sheet.classes)

    def test_faults_are_named(self):
        q = {"q": "max"}
        for word, call in (
            ("BadLine", lambda: ror.Table({"q": "more"}, {})), ("BadLine", lambda: ror.Table([ror.Criterion("q", "up")], {})),
            ("RepeatedId", lambda: ror.Table([ror.Criterion("q", "max"), ror.Criterion("q", "min")], {})),
            ("MissingPerformance", lambda: ror.Table(q, {"a": []})), ("BadLine", lambda: ror.Table(q, {"a": [1, 2]})),
            ("MissingPerformance", lambda: ror.Table(q, {"a": {}})), ("BadLine", lambda: ror.Table(q, {"a": {"q": 1, "r": 2}})),
            ("BadLine", lambda: ror.Table(q, {"a": "1"})), ("BadLine", lambda: ror.Table({**q, "p": "min"}, {"a": {7, 3}})),
            ("BadLine", lambda: ror.Table(q, {"a b": [1]})),
            ("BadLine", lambda: ror.Table({"q r": "max"}, {})), ("BadNumber", lambda: ror.Table(q, {"a": [1]}, classes=-1)),
            ("UnknownAlternative", lambda: ror.Table(q, {"a": [1]}).performances("b")),
            ("Form", lambda: ror.Table.from_bytes(b"").alternatives),
            ("BadNumber", lambda: ror.Table.from_bytes(b"ror-table 1\ncriterion q max\nalternative a x\n").criteria),
        ):
            with self.assertRaises(ror.TableError) as raised:
                call()
            self.assertEqual(raised.exception.word, word)

    def test_nothing_is_shown_that_the_program_refuses(self):
        tables = {path.read_bytes() for path in (TOP / "cases").glob("*/table.txt") if path.stat().st_size < 200_000}
        for table in filter(lambda it: not it.is_xmcda, map(ror.Table.from_bytes, tables)):
            faults = []
            for call in (ror.read_sheet, ror.Table._parse):
                try:
                    call(table)
                    faults.append(None)
                except ror.TableError as error:
                    faults.append((error.word, error.line))
            if faults[0] is None or faults[0][0] not in ("TooMany Classes", "WideScale"):
                self.assertEqual(*faults, table.to_bytes()[:400])

    def test_an_amount_has_one_meaning(self):
        table = ror.Table({"q": "max"}, {"a": [0.1], "b": [0.2]})
        function = ror.replay(table, ror.Session(["ask consistent"])).functions(1)[0]
        for amount, share in ((0.1, 0), (0.2, 1), ("0.20", 1), (Decimal("0.1"), 0), ("1/5", 1)):
            self.assertEqual(function.value({"q": amount}), share)
        for amount in (0.3, None, "x"):
            with self.assertRaises(ror.TableError):
                function.value({"q": amount})

    def test_hostile_names(self):
        names = ["on", "undo", "a,b\"c", "--", "é\u0085x", "p\u2028q", "NA", "\ufeffz", "L" * 64, "\"", "=1+2", "line", "it's", "\\n",
                 "a\u00a0b", "<&>", "\U0001f697", "\u202ex", "yes", "wide", "|", "end", "base", "%s", "${x}", "{0}"]
        criteria = ["on", "q,\"r", "\u00a0", "M" * 64]
        table = ror.Table(dict.fromkeys(criteria, "max"),
                          {name: [place, -place, place % 3, place % 5] for place, name in enumerate(names)}, classes=2)
        session = ror.Session()
        for place, name in enumerate(names[1:]):
            session.desk(name).stronger(name, names[place], names[place], name, on=criteria[place % 4])
            session.desk(name).ask_necessary(name, names[place])
            session.desk(name).assign(name, 1, 2)
            session.desk(name).ask_classes(name)
        line = session.ask_relation()
        report = ror.replay(table, session)
        self.assertEqual(len(report.refused), 0)
        self.assertEqual(list(dict.fromkeys(it.first for it in report.relation(line))), names)
        self.assertEqual([it.alternative for it in report.classes()], names[1:])
        self.assertEqual(report.desks[:-1], tuple(names[1:]))
        self.assertEqual(ror.read_sheet(table).alternatives, tuple(names))
        self.assertEqual(list(report.functions(line)[0].marginals), criteria)
        self.assertEqual(list(ror.check(table, session, report.plain).lines), list(report.lines))
        for place, name in enumerate(names[1:]):
            self.assertEqual(report.standing(desk=name)[1].text, f"class {name} 1 2")
            self.assertEqual(report.answer(4 * place + 2).alternatives, (name, names[place]))
        report.reasons(2)
        self.assertEqual(ror.group(table, session).desks[:-1], tuple(names[1:]))


class Faults(unittest.TestCase):
    table, session = example("five-cars")

    def test_a_bad_table_is_raised_with_line_word_and_advice(self):
        bad = ror.Table.from_bytes(b"ror-table 1\ncriterion q max\nalternative a 3,5\n")
        for call in (lambda: ror.replay(bad, self.session), lambda: ror.read_sheet(bad), lambda: ror.group(bad, self.session)):
            with self.assertRaises(ror.TableError) as raised:
                call()
            error = raised.exception
            self.assertEqual((error.status, error.said, error.word, error.line), (3, "bad table: BadNumber line 3", "BadNumber", 3))
            self.assertIn("a comma in a number", error.advice)
            self.assertIn("a comma in a number", str(error))
        with self.assertRaises(ror.TableError) as raised:
            ror.replay(ror.Table.from_bytes(b"<XMCDA><a></XMCDA>"), self.session)
        self.assertEqual((raised.exception.word, raised.exception.line), ("Mismatched", 1))
        with self.assertRaises(ror.TableError) as raised:
            ror.replay(ror.Table({"q": "max"}, {str(place): [place] for place in range(201)}), self.session)
        self.assertEqual((raised.exception.word, raised.exception.line), ("TooMany Alternatives", 203))

    def test_a_bad_session(self):
        with self.assertRaises(ror.SessionError) as raised:
            ror.replay(self.table, ror.Session(["prefer c01 c05", "prefer c01"]))
        error = raised.exception
        self.assertEqual((error.status, error.word, error.line), (4, "BadLine", 2))
        self.assertIn("a name is missing", error.advice)
        with self.assertRaises(ror.SessionError) as raised:
            ror.replay(self.table, ror.Session.from_bytes(b"\xff"))
        self.assertEqual((raised.exception.word, raised.exception.line), ("NotUtf8", None))

    def test_a_rejected_report(self):
        report = (CARS / "report.txt").read_bytes()
        forged = report.replace(b"answer necessary c01 c09 yes", b"answer necessary c01 c09 no", 1)
        with self.assertRaises(ror.ReportError) as raised:
            ror.check(self.table, self.session, forged)
        error = raised.exception
        self.assertEqual((error.status, error.block, error.word, error.line), (5, 6, "answer 1 WrongVerdict", None))
        self.assertTrue(error.advice)
        with self.assertRaises(ror.ReportError) as raised:
            ror.check(self.table, self.session, b"")
        self.assertEqual((raised.exception.block, raised.exception.word, raised.exception.line), (0, "BadLine", 1))
        self.assertIn("likely", raised.exception.advice)
        for data, word in ((b"{", "BadJson"), (b'{"blocks":[],"report":1.0}', "BadShape"), (b'{"blocks":[],"report":1}', "WrongBlock")):
            with self.assertRaises(ror.ReportError) as raised:
                ror.check(self.table, self.session, data)
            self.assertEqual(raised.exception.word, word)
        with self.assertRaises(ror.ReportError):
            ror.check(self.table, ror.Session(["prefer c01 c05"]), report)

    def test_unsuited_sessions_and_bad_levels(self):
        with self.assertRaises(ror.UnsuitedError) as raised:
            ror.group(*example("six-flats"))
        self.assertEqual((raised.exception.status, raised.exception.line), (10, 9))
        with self.assertRaises(ror.UnsuitedError):
            ror.levels(*example("two-judges"), 2, {})
        for count, put, word in ((2, {9: 1}, "UnknownStatement"), (0, {}, "BadLine"), (2, {1: 3}, "BadLine")):
            with self.assertRaises(ror.LevelsError) as raised:
                ror.levels(*example("three-levels"), count, put)
            self.assertEqual((raised.exception.status, raised.exception.word), (11, word))
        with self.assertRaises(ror.LevelsError):
            ror.levels(*example("three-levels"), 2.5, {})

    def test_other_calls_that_fail(self):
        with self.assertRaisesRegex(ror.UsageError, "15, 31, 63 or 127: 16"):
            ror.replay(self.table, self.session, bits=16)
        with self.assertRaisesRegex(ror.UsageError, "no number from 0 to 999999999: -1"):
            ror.generate(-1)
        with self.assertRaises(ror.TableError):
            ror.replay("table.txt", self.session)
        with self.assertRaises(ror.SessionError):
            ror.replay(self.table, "session.txt")

    def test_all_that_goes_wrong_is_an_error_of_this_file(self):
        with tempfile.TemporaryDirectory() as folder:
            none = pathlib.Path(folder, "none")
            for kind, call in (
                (ror.FileError, lambda: ror.Table.read(none)), (ror.FileError, lambda: ror.Session.read(folder)),
                (ror.FileError, lambda: ror.check(self.table, self.session, str(none))),
                (ror.OutputError, lambda: self.table.write(folder)), (ror.OutputError, lambda: self.session.write(none / "x")),
                (ror.TableError, lambda: ror.Table({"q": "max"}, [("a", [1])])), (ror.TableError, lambda: ror.Table(["q"], {"a": [1]})),
                (ror.TableError, lambda: ror.Table({"q": "max"}, {"a": 1})), (ror.SessionError, lambda: ror.Session([1])),
            ):
                with self.assertRaises(kind):
                    call()
            pathlib.Path(folder, "ror").symlink_to(ror.Program.find().ror)
            pathlib.Path(folder, "ror_show").write_text("no program", encoding="utf-8")
            with self.assertRaises(ror.TableError) as raised:
                ror.replay(ror.Table.from_bytes(b"x"), self.session, program=folder)
            self.assertEqual((raised.exception.word, raised.exception.line, raised.exception.advice), ("Form", 1, ""))

    def test_nothing_is_shown_that_a_check_rejects(self):
        real = ror.Program.find()
        with tempfile.TemporaryDirectory() as folder:
            def refuse(command):
                for name, program in (("ror", real.ror), ("ror_show", real.ror_show)):
                    text = f"case $1 in {command}) echo 'rejected: block 1 WrongBlock' >&2; exit 5 ;; esac\nexec '{program}' \"$@\"\n"
                    pathlib.Path(folder, name).write_text("#!/bin/sh\n" + text, encoding="utf-8")
                    pathlib.Path(folder, name).chmod(0o755)

            refuse("*-json")
            report = ror.replay(self.table, self.session, program=folder)
            plain = report.plain
            self.assertEqual(ror.check(self.table, self.session, plain, program=folder).plain, plain)
            refuse("none")
            report = ror.check(self.table, self.session, plain, program=folder)
            for command, call in (
                ("check", lambda: ror.replay(self.table, self.session, program=folder)),
                ("check", lambda: ror.check(self.table, self.session, plain, program=folder)),
                ("check-json", lambda: ror.check(self.table, self.session, in_json("five-cars"), program=folder)),
                ("check", lambda: ror.check(self.table, self.session, in_json("five-cars"), program=folder)),
                ("check-why", lambda: report.reasons(6)),
                ("check-group", lambda: ror.group(*example("two-judges"), program=folder)),
                ("check-discriminate", lambda: ror.discriminate(*example("one-function"), program=folder)),
                ("functions", lambda: ror.discriminate(*example("one-function"), program=folder)),
                ("check-levels", lambda: ror.levels(*example("three-levels"), 3, {}, program=folder)),
            ):
                refuse(command)
                with self.subTest(command), self.assertRaises(ror.ReportError):
                    call()

    def test_refused_lines_are_told(self):
        with self.assertWarnsRegex(ror.RefusedWarning, r"1 \(UnknownAlternative\), 3 \(UnknownClass\), 4 \(NothingToUndo\)$"):
            report = ror.replay(self.table, ror.Session(["prefer c01 c99", "ask relation", "ask classes c01", "undo"]))
        self.assertEqual([(it.number, it.text, it.refusal) for it in report.refused], [
            (1, "prefer c01 c99", "UnknownAlternative"), (3, "ask classes c01", "UnknownClass"), (4, "undo", "NothingToUndo")])
        with self.assertRaises(ror.NoAnswerError) as raised:
            report.classes(3)
        self.assertEqual((raised.exception.word, raised.exception.line), ("UnknownClass", 3))

    def test_lines_that_other_commands_refuse_are_told(self):
        session = ror.Session.from_bytes(b"prefer c01 c05\r\nprefer c01 c99\r\nask\trelation\nask classes c99\nprefer c05 c09")
        for call in (ror.group, ror.discriminate, ror.levels):
            more = [2] if call is ror.levels else []
            with self.subTest(call.__name__), self.assertWarnsRegex(ror.RefusedWarning, r"2 \(UnknownAlternative\)$") as warned:
                call(self.table, session, *more)
            self.assertEqual(warned.filename, __file__)
            with warnings.catch_warnings():
                warnings.simplefilter("error")
                call(self.table, ror.Session(["prefer c01 c05", "ask classes c99"]), *more)
        with self.assertWarns(ror.RefusedWarning) as warned:
            self.assertEqual(repr(ror.replay(self.table, session)), "<ror.Report accepted 40 wide 0 refused 2>")
        self.assertEqual(warned.filename, __file__)

    def test_of_two_equal_keys_the_last_one_counts(self):
        data = in_json("five-cars")
        twice = data.replace(b'"verdict":"no"', b'"verdict":"yes","verdict":"no"')
        self.assertNotEqual(data, twice)
        self.assertEqual(ror.check(self.table, self.session, twice).plain, ror.replay(self.table, self.session).plain)

    def test_a_function_of_a_session_of_any_lines(self):
        table, session = example("one-function")
        wanted = ror.discriminate(table, session)[0].function.marginals
        for data in (b"# a\0b\rc \xc3\xa9\r\n" + session.to_bytes(), session.to_bytes().replace(b"\n", b"\r\n"),
                     b"#\n" * (100_000 - len(session.lines)) + session.to_bytes()):
            self.assertEqual(ror.discriminate(table, ror.Session.from_bytes(data))[0].function.marginals, wanted)
        folder = TOP / "examples" / "twelve-firms-in-xmcda"
        found = ror.discriminate(ror.Table.read(folder / "table.xml", True), ror.Session(["withdraw 7"]))
        self.assertEqual(found[0].outcome, "margin")

    def test_what_was_not_asked_is_raised(self):
        report = ror.replay(*example("one-relation"))
        for call in (report.relation, lambda: report.relation(1), lambda: report.line(99), lambda: report.answer(5),
                     lambda: report.classes(5), lambda: report.functions(1), lambda: report.reasons(2),
                     lambda: report.standing(desk="x"), lambda: report.relation(5).pair("c01", "c01")):
            with self.assertRaises(ror.NoAnswerError):
                call()

    def test_a_contradiction_is_no_relation(self):
        session = ror.Session(["prefer c01 c05", "prefer c05 c01", "ask relation", "ask consistent", "ask necessary c01 c05"])
        report = ror.replay(self.table, session)
        relation = report.relation()
        self.assertEqual({it.necessary for it in relation}, {"contradiction"})
        for call in (lambda: relation.necessary, lambda: relation.possible, lambda: relation.is_necessary("c01", "c05"),
                     lambda: report.answer(5).holds):
            with self.assertRaises(ror.ContradictionError):
                call()
        self.assertFalse(report.answer(4).holds)
        table = ror.Table({"q": "max"}, {"a": [1], "b": [2]}, classes=2)
        classes = ror.replay(table, ror.Session(["prefer a b", "prefer b a", "ask classes a"])).classes()
        self.assertEqual(classes.records()[0]["possible_verdicts"], ("contradiction", "contradiction"))
        with self.assertRaises(ror.ContradictionError):
            classes[0].lowest

    def test_what_is_too_wide_concludes_nothing(self):
        folder = TOP / "cases" / "check-json-of-each-body-and-verdict"
        pair = ror.Table.read(folder / "table.txt"), ror.Session.read(folder / "session.txt")
        warnings.simplefilter("ignore", ror.RefusedWarning)
        report = ror.check(*pair, folder / "report.json")
        self.assertEqual((report.status, report.accepted, report.wide), (9, 3, 2))
        self.assertEqual(ror.check(*pair, report.plain).lines[-1], report.lines[-1])
        wide = next(it for it in report.answers() if it.verdict == "wide")
        with self.assertRaises(ror.WideError) as raised:
            wide.holds
        self.assertEqual((raised.exception.status, raised.exception.word, raised.exception.line), (9, "wide", wide.line))
        self.assertIn("repair-wide", [it.outcome for it in report.lines])

    def test_wide_groups_functions_and_spans(self):
        def case(name):
            folder = TOP / "cases" / name
            return ror.Table.read(folder / "table.txt"), ror.Session.read(folder / "session.txt")

        group = ror.group(*case("group-at-15-bits-with-wide-answers"), bits=15)
        self.assertEqual((group.accepted, group.wide), (21, 27))
        with self.assertRaises(ror.WideError):
            group.those("necessary_for_all")
        outcomes = [it.outcome for it in ror.discriminate(*case("discriminate-of-four-desks-at-15-bits"), bits=15)]
        self.assertEqual(outcomes.count("wide"), 1)
        table, session = case("group-at-15-bits-with-wide-answers")
        spans = ror.levels(table, ror.Session(session.lines[:2]), 2, {}, bits=15)
        self.assertTrue(any(it.wide for it in spans))
        self.assertTrue(all((it.necessary is None) == (it.wide is not None) for it in spans))

    def test_programs_are_looked_for(self):
        found = ror.Program.find()
        kept = {name: os.environ.pop(name, None) for name in ("ROR", "ROR_SHOW")}
        try:
            self.assertEqual(ror.Program.find(), ror.Program(str(TOP / "ror"), str(TOP / "ror_show")))
            self.assertEqual(ror.Program.find(TOP), ror.Program.find(TOP / "ror"))
            os.environ["ROR"] = str(TOP / "programs" / "ror")
            self.assertEqual(ror.Program.find().ror_show, str(TOP / "programs" / "ror_show"))
            os.environ["ROR"] = str(TOP / "none")
            with self.assertRaises(ror.ProgramError):
                ror.Program.find()
            with self.assertRaises(ror.ProgramError):
                ror.replay(self.table, self.session, program=TOP / "README.md")
        finally:
            for name, value in kept.items():
                os.environ.pop(name, None)
                if value is not None:
                    os.environ[name] = value
        with tempfile.TemporaryDirectory() as folder:
            for name in ("ror", "ror_show"):
                path = pathlib.Path(folder, name)
                path.write_text("#!/bin/sh\necho 'ror: the program needs glibc 2.34 or later' >&2\nexit 126\n")
                path.chmod(0o755)
            with self.assertRaises(ror.ProgramError) as raised:
                ror.replay(self.table, self.session, program=folder)
            self.assertIn("glibc", str(raised.exception))
            for name, script in (("ror", "kill -9 $$"), ("ror", "echo nonsense")):
                pathlib.Path(folder, name).write_text(f"#!/bin/sh\n{script}\n")
                with self.assertRaises(ror.ProgramError):
                    ror.replay(self.table, self.session, program=folder)
            pathlib.Path(folder, "ror").write_text("#!/bin/sh\nexec sleep 60\n")
            slow = ror.Program(folder + "/ror", folder + "/ror_show", timeout=0.1)
            for call in (lambda: ror.replay(self.table, self.session, program=slow), lambda: ror.generate(7, program=slow)):
                with self.assertRaisesRegex(ror.ProgramError, "after 0.1 seconds"):
                    call()
            pathlib.Path(folder, "ror").chmod(0o644)
            with self.assertRaises(ror.ProgramError):
                ror.replay(self.table, self.session, program=folder)
        self.assertEqual(ror.Program.find(found), found)
        near = ror.Program(os.path.relpath(found.ror), os.path.relpath(found.ror_show))
        self.assertEqual(ror.replay(self.table, self.session, program=near).accepted, 3)


class Frames(unittest.TestCase):
    def test_notebooks_show_rows(self):
        table = ror.Table({"<q>": "max"}, {"<b>": [1], "a&b": [2]})
        report = ror.replay(table, ror.Session(["prefer a&b <b>", "ask relation"]))
        relation = report.relation()
        self.assertEqual(repr(relation), "<ror.Relation of 2: first, second, necessary, possible>")
        self.assertEqual(relation._repr_html_(), (
            "<table><tr><th>first</th><th>second</th><th>necessary</th><th>possible</th></tr>"
            "<tr><td>&lt;b&gt;</td><td>a&amp;b</td><td>no</td><td>no</td></tr>"
            "<tr><td>a&amp;b</td><td>&lt;b&gt;</td><td>yes</td><td>yes</td></tr></table>"))
        self.assertIn("<td>&lt;q&gt;</td><td>2</td><td>1</td>", report.functions(2)[0]._repr_html_())
        flats = ror.replay(*example("six-flats"))
        self.assertIn("<td>9</td><td></td><td>prefer bridge mill</td>", flats.repairs._repr_html_())
        self.assertIn("<td>1, 2, 4</td>", flats.reasons()._repr_html_())
        cars = ror.replay(*example("twenty-cars"))
        self.assertIn("</table><p>and 280 more</p>", cars.relation(26)._repr_html_())
        self.assertEqual(cars.relation(26)._repr_html_().count("<tr>"), 101)
        self.assertLess(len(cars.lines._repr_html_()), 10_000)

    @unittest.skipUnless(HAS_PANDAS, "pandas isn't here")
    def test_frames(self):
        import pandas

        table, session = example("one-relation")
        report = ror.replay(table, session)
        frame = report.relation(7).to_frame()
        self.assertEqual((list(frame.columns), len(frame)), (["first", "second", "necessary", "possible"], 20))
        self.assertEqual(len(frame[frame.necessary == "yes"]), 9)
        self.assertEqual(report.functions(7)[0].to_frame().shape, (13, 3))
        self.assertEqual(report.reasons(7).to_frame().shape[1], 6)
        self.assertEqual(report.lines.to_frame().shape[0], 7)
        self.assertEqual(table.to_frame().loc["c01", "price"], 9900)
        firms = ror.replay(*example("twelve-firms")).classes().to_frame()
        self.assertEqual(firms.loc[firms.line == 14, "possible_verdicts"].item(), ("no", "yes", "yes", "yes"))
        self.assertEqual(ror.group(*example("two-judges")).to_frame().shape, (20, 6))
        made = pandas.DataFrame({"q": [1, 2], "p": [0.1, 2.5]}, index=["a", "b"])
        self.assertEqual(ror.Table.from_frame(made, {"q": "max", "p": "min"}).performances("a"), {"q": 1, "p": Fraction(1, 10)})
        for index, column, word in ((["a", "a"], "q", "RepeatedId"), ([1, 2], "q", "BadLine"), (["a", "b"], "p", "MissingPerformance")):
            with self.assertRaises(ror.TableError) as raised:
                ror.Table.from_frame(pandas.DataFrame({"q": [1, 2]}, index=index), {column: "max"})
            self.assertEqual(raised.exception.word, word)

    @unittest.skipIf(HAS_PANDAS, "pandas is here")
    def test_no_frames(self):
        with self.assertRaises(ror.RorError):
            ror.replay(*example("one-relation")).relation(7).to_frame()


class Package(unittest.TestCase):
    def test_a_wheel_has_the_programs_and_runs_alone(self):
        with tempfile.TemporaryDirectory() as folder:
            name = build_backend.build_wheel(folder)
            with zipfile.ZipFile(pathlib.Path(folder, name)) as archive:
                for member in archive.infolist():
                    path = pathlib.Path(archive.extract(member, folder))
                    path.chmod(stat.S_IMODE(member.external_attr >> 16))
            code = "import ror; print(ror.generate(7).accepted, ror.Program.find().ror)"
            environment = {"PATH": os.environ["PATH"], "PYTHONDONTWRITEBYTECODE": "1"}
            done = subprocess.run([sys.executable, "-c", code], cwd=folder, env=environment, capture_output=True, text=True)
            self.assertEqual(done.stdout, f"2209 {os.path.realpath(folder)}/ror/ror_programs/ror\n")
            self.assertTrue(pathlib.Path(folder, "ror", "py.typed").is_file())

    @unittest.skipUnless(importlib.util.find_spec("pip"), "pip isn't here")
    def test_pip_installs_it_without_a_network(self):
        with tempfile.TemporaryDirectory() as folder:
            words = ["-m", "pip", "install", "--quiet", "--no-index", "--disable-pip-version-check", "--target", folder, str(HERE)]
            environment = {**os.environ, "PYTHONDONTWRITEBYTECODE": "1", "PIP_ROOT_USER_ACTION": "ignore"}
            done = subprocess.run([sys.executable, *words], env=environment, capture_output=True, text=True)
            self.assertEqual(done.returncode, 0, done.stderr)
            code = "import ror; print(ror.generate(7).accepted, ror.__file__)"
            environment = {"PATH": os.environ["PATH"], "PYTHONDONTWRITEBYTECODE": "1", "PYTHONPATH": folder}
            done = subprocess.run([sys.executable, "-c", code], cwd=folder, env=environment, capture_output=True, text=True)
            self.assertEqual(done.stdout, f"2209 {folder}/ror/__init__.py\n")

    def test_the_sources_build_the_same_wheel(self):
        with tempfile.TemporaryDirectory() as folder:
            archive = pathlib.Path(folder, build_backend.build_sdist(folder))
            subprocess.run(["tar", "xzf", str(archive)], cwd=folder, check=True)
            code = "import build_backend, sys; build_backend.build_wheel(sys.argv[1])"
            environment = {**os.environ, "PYTHONDONTWRITEBYTECODE": "1"}
            subprocess.run([sys.executable, "-c", code, folder], cwd=pathlib.Path(folder, "ror-1"), env=environment, check=True)
            wheel = next(pathlib.Path(folder).glob("*.whl"))
            with tempfile.TemporaryDirectory() as other:
                self.assertEqual(wheel.read_bytes(), pathlib.Path(other, build_backend.build_wheel(other)).read_bytes())


    @unittest.skipUnless(shutil.which("mypy"), "mypy isn't here")
    def test_types(self):
        with tempfile.TemporaryDirectory() as folder:
            words = ["mypy", "--strict", "--cache-dir", folder, str(HERE / "ror.py")]
            done = subprocess.run(words, capture_output=True, text=True)
            self.assertEqual(done.returncode, 0, done.stdout + done.stderr)


class Pages(unittest.TestCase):
    def test_the_notebook_runs_as_written(self):
        page = (TOP / "docs" / "notebook.md").read_text(encoding="utf-8")
        blocks = re.findall(r"^```(\w*)\n(.*?)^```$", page, re.M | re.S)
        self.assertTrue(any(kind == "python" for kind, _ in blocks))
        names, printed, before = {}, "", os.getcwd()
        os.chdir(TOP)
        try:
            for kind, text in blocks:
                if kind == "python":
                    self.assertEqual(printed, "")
                    if "to_frame" in text and not HAS_PANDAS:
                        continue
                    out = io.StringIO()
                    with contextlib.redirect_stdout(out):
                        exec(compile(text, "notebook.md", "exec"), names)
                    printed = out.getvalue()
                elif kind == "":
                    self.assertEqual(printed, text)
                    printed = ""
        finally:
            os.chdir(before)
        self.assertEqual(printed, "")


class Counting(unittest.TextTestResult):
    """Counts the tests that passed: how those that were skipped are counted differs between versions of Python."""

    passed = 0

    def addSuccess(self, test):
        super().addSuccess(test)
        self.passed += 1


def main():
    suite = unittest.defaultTestLoader.loadTestsFromModule(sys.modules["__main__"])
    result = unittest.TextTestRunner(verbosity=0, resultclass=Counting).run(suite)
    failed = len({test.id().split(" ")[0] for test, _ in result.failures + result.errors})
    print(f"{result.passed} passed, {failed} failed")
    return 1 if failed or not result.passed else 0


if __name__ == "__main__":
    sys.exit(main())
