"""Tests of the client without the program: against prepared replies, and of what it prints."""

import os
import pickle
import tempfile
import unittest

import tablebuilder
from tablebuilder import Busy, CannotDescribe, Category, Ended, OlderRelease, OutOfMemory
from tablebuilder import Refused, Table
from tablebuilder import Unexpected, Unkept, Variable
from tests.prepared import OLDER, REPLIES, prepared_port

try:
    import pandas
except ImportError:
    pandas = None


class WithServer(unittest.TestCase):
    replies = REPLIES

    def setUp(self):
        told = prepared_port(self.replies)
        self.port = told.__enter__()
        self.addCleanup(told.__exit__, None, None, None)
        # (the system may give the port of another test)
        tablebuilder.forget_releases()

    def connect(self, timeout=60):
        session = tablebuilder.connect(self.port, timeout=timeout)
        self.addCleanup(session.close)
        return session


class Replies(WithServer):
    def test_labels_with_quotes_and_other_letters(self):
        table = self.connect().table("AREA", labels=True)
        self.assertEqual(list(table), [('Nord, "Ö" 1', 3), ("Süd", None), ("", 1_000_000)])
        self.assertEqual((table.dimensions, table.release), (("AREA",), 12))

    def test_memory_may_be_tried_again(self):
        session = self.connect()
        for call, wanted in [
            (lambda: session.table("SEX").counts, [1, 2]),
            (lambda: session.drop(104), 1),
            (session.publish, 1),
            (lambda: session.cache(8), None),
        ]:
            self.assertRaises(OutOfMemory, call)
            self.assertEqual(call(), wanted)

    def test_a_batch_that_is_not_kept_is_held_still(self):
        session = self.connect()
        self.assertRaises(OutOfMemory, session.publish)
        self.assertEqual(session.publish(), 1)
        self.assertEqual(session.drop(103), 1)
        for _ in range(2):
            self.assertRaises(Unkept, session.publish)
        self.assertEqual(session.drop(103), 2)

    def test_an_earlier_release_than_one_before(self):
        session, other = self.connect(), self.connect()
        self.assertEqual(session.table("BACK").release, 5)
        with self.assertRaises(OlderRelease) as caught:
            session.table("BACK")
        fault = caught.exception
        self.assertEqual((fault.release, fault.printed), (4, 5))
        self.assertEqual(tablebuilder.table_of(fault.reply).counts, [2])
        self.assertEqual(session.table("BACK", at=3).release, 3)
        # (another session at the same address)
        self.assertRaises(OlderRelease, other.table, "MANY")
        tablebuilder.forget_releases()
        self.assertEqual(session.table("BACK").release, 4)

    def test_a_reply_that_is_cut(self):
        session = self.connect()
        self.assertRaises(Ended, session.table, "CUT")
        self.assertFalse(session.is_open)

    def test_a_reply_of_something_else(self):
        for query in ("OTHER", "BYTES", "UNKEPT"):
            session = self.connect()
            self.assertRaises(Unexpected, session.table, query)
            self.assertFalse(session.is_open)

    def test_no_reply_in_time(self):
        session = self.connect(timeout=0.2)
        self.assertRaises(Busy, session.table, "WAIT")
        with self.assertRaises(Ended) as caught:
            session.table("SEX")
        self.assertNotIsInstance(caught.exception, Busy)

    def test_none_in_time_after_others_is_no_busy_port(self):
        session = self.connect(timeout=0.2)
        self.assertRaises(OutOfMemory, session.table, "SEX")
        with self.assertRaises(Ended) as caught:
            session.table("WAIT")
        self.assertNotIsInstance(caught.exception, Busy)

    def test_lines_without_a_reply(self):
        session = self.connect(timeout=5)
        for line in ("", " \t", "# a comment"):
            self.assertEqual(session.ask(line), [])
        self.assertEqual(session.ask("table MANY")[-2:], ["m49,49", "."])
        self.assertEqual(session.ask(" quit "), [])
        self.assertFalse(session.is_open)


class Descriptions(WithServer):
    def test_variables_and_recodes(self):
        session = self.connect()
        wanted = [("SEX", "variable", 2), ("AGE", "variable", 3), ("AREA", "variable", 2)]
        wanted.append(("AGE2", "recode of AGE", 2))
        self.assertEqual(session.variables(), [Variable(*it) for it in wanted])
        self.assertEqual([it.recodes for it in session.variables()], [None, None, None, "AGE"])

    def test_codes_and_groups(self):
        session = self.connect()
        sexes = [Category("1", "Male", ()), Category("2", "Female", ())]
        self.assertEqual(session.codes("SEX"), sexes)
        self.assertEqual(session.codes("AREA")[0], Category("E1", "North, rural", ()))
        groups = [Category("young", None, ("0-15",)), Category("old", None, ("16-64", "65+"))]
        self.assertEqual(session.codes("AGE2"), groups)

    def test_what_is_neither(self):
        session = self.connect()
        with self.assertRaises(Refused) as caught:
            session.codes("NOSUCH")
        self.assertNotIsInstance(caught.exception, CannotDescribe)
        self.assertEqual((caught.exception.number, caught.exception.position), (3, 2))
        for name in ("", "SEX x", "SEX\ndrop 1"):
            self.assertRaises(ValueError, session.codes, name)
        self.assertRaises(OutOfMemory, session.codes, "MEMORY")
        self.assertEqual(session.codes("MEMORY"), [Category("m", "", ())])

    def test_a_list_of_something_else(self):
        session = self.connect()
        self.assertRaises(Unexpected, session.codes, "OTHER")
        self.assertFalse(session.is_open)


class Older(WithServer):
    replies = OLDER

    def test_an_older_server(self):
        session = self.connect()
        for call in (session.variables, lambda: session.codes("SEX")):
            with self.assertRaises(CannotDescribe) as caught:
                call()
            self.assertIn("of an earlier version", str(caught.exception))
        self.assertEqual(session.table("SEX").counts, [1, 2])


class Prints(WithServer):
    def test_a_short_table(self):
        session = self.connect()
        self.assertEqual(
            str(session.table("AGE by SEX", totals=True)),
            "release 3, 9 places\n"
            "AGE    SEX    count\n"
            "65+    2          1\n"
            "65+    1          2\n"
            "65+    Total      3\n"
            "0-15   2          4\n"
            "0-15   1          5\n"
            "0-15   Total      9\n"
            "Total  2          5\n"
            "Total  1          7\n"
            "Total  Total     12",
        )

    def test_a_long_table(self):
        lines = repr(self.connect().table("MANY")).splitlines()
        self.assertEqual(lines[:3], ["release 0, 50 places", "MANY  count", "m0        0"])
        self.assertEqual(lines[11:], ["m9        9", ".. 39 more", "m49      49"])

    def test_all_of_a_table_that_is_cut_by_one(self):
        table = Table(0, ("A",), (list("abcd"),), [1, 2, None, 4])
        self.assertEqual(table.text(3).count("\n"), 5)
        self.assertIn("c      c", table.text(3))

    def test_saved(self):
        with tempfile.TemporaryDirectory() as folder:
            path = os.path.join(folder, "table.csv")
            self.connect().table("AREA", labels=True).save(path)
            with open(path, encoding="utf-8", newline="") as file:
                text = file.read()
        self.assertEqual(text, 'AREA,count\n"Nord, ""Ö"" 1",3\nSüd,c\n,1000000\n')


@unittest.skipUnless(pandas, "pandas isn't there")
class Frames(WithServer):
    def frame(self, *words, **more):
        return self.connect().table(*words, **more).frame()

    def test_columns(self):
        frame = self.frame("count by SEX")
        self.assertEqual(list(frame.columns), ["count", "SEX", "count_"])
        self.assertEqual(str(frame["count_"].dtype), "Int64")
        self.assertEqual([bool(it) for it in frame["count_"].isna()], [False, True, False, False])
        self.assertEqual(frame["count_"].sum(), 12)
        frame = self.frame("count by count_")
        self.assertEqual(list(frame.columns), ["count", "count_", "count__"])

    def test_categories_are_in_the_tables_order(self):
        frame = self.frame("AGE by SEX", totals=True)
        self.assertEqual(frame.attrs["release"], 3)
        for name, wanted in (("AGE", ["65+", "0-15", "Total"]), ("SEX", ["2", "1", "Total"])):
            self.assertTrue(frame[name].cat.ordered)
            self.assertEqual(list(frame[name].cat.categories), wanted)
        shuffled = frame.sample(frac=1, random_state=1).sort_values(["AGE", "SEX"])
        self.assertEqual(list(shuffled["count"]), list(frame["count"]))

    def test_labels_that_are_equal(self):
        ages = self.frame("AGE", totals=True, labels=True)["AGE"]
        self.assertEqual(list(ages.cat.categories), ["same", "old", "Total"])
        self.assertEqual(list(ages), ["Total", "same", "same", "old", "Total"])


class Explanations(unittest.TestCase):
    def assertTold(self, fault, *lines):
        self.assertEqual(str(fault).splitlines(), list(lines))

    def test_what_was_expected(self):
        for query, position, told in [
            ("table SEX with", 4, "`totals` or `labels`"),
            ("table SEX with labels with", 5, "the end"),
            ("table SEX with totals with", 6, "`labels`"),
            ("table SEX with totals by", 5, "`with` or the end"),
            ("table", 2, "a name"),
            ("table SEX,", 3, "`by`, `where`, `with` or the end"),
            ("table SEX where", 4, "a name"),
            ("table SEX where AGE", 5, "`not` or `in`"),
            ("table SEX where AGE not", 6, "`in`"),
            ("table SEX where AGE in", 6, "`(`"),
            ("table SEX where AGE in (", 7, "a code"),
            ("table SEX where AGE in (by by", 8, "`,` or `)`"),
            ("table SEX where AGE in (by,", 9, "a code"),
            ("table SEX where AGE in (by)", 9, "`and`, `with` or the end"),
            ("tables SEX", 1, "`table`"),
            ("at 4 tables SEX", 1, "`table`"),
            ("at 4294967296 table SEX", 1, "`table`"),
        ]:
            fault = Refused(query, 2, "Syntax", position)
            self.assertEqual(
                str(fault).splitlines()[0], f"refused 2 Syntax {position}: expected {told}"
            )

    def test_the_caret(self):
        for query, word, position, place, size in [
            ("table AGE by FOO where SEX in (9)", "UnknownName", 4, 13, 3),
            ("table AGE where SEX in (9)", "UnknownCode", 7, 24, 1),
            ("at 12\ttable  AGE by AGE", "RepeatedDimension", 4, 20, 3),
            ("at 4294967296 table SEX", "Syntax", 1, 0, 2),
            ("table SEX with  ", "Syntax", 4, 15, 1),
            ("table Ä", "NotText", 7, 6, 1),
            ("at 3 table Ää", "NotText", 10, 12, 1),
        ]:
            with self.subTest(query):
                told = str(Refused(query, 1, word, position)).splitlines()
                self.assertEqual(told[1], "    " + query.replace("\t", " "))
                self.assertEqual(told[2], "    " + " " * place + "^" * size)

    def test_a_long_line(self):
        query = "table AGE where SEX in (" + ", ".join(["1"] * 60) + ", FOO, " + "1, " * 60 + "1)"
        position = 6 + 2 * 60 + 1
        _, line, caret = str(Refused(query, 4, "UnknownCode", position)).splitlines()
        self.assertLess(len(line), 90)
        self.assertEqual(line[caret.index("^") :][: caret.count("^")], "FOO")

    def test_faults_without_a_place(self):
        self.assertTold(
            Refused("at 7 table SEX", 10, "NoSuchRelease", 3),
            "refused 10 NoSuchRelease 3: the last release is 3",
            "    at 7 table SEX",
        )
        self.assertTold(
            Refused("at 0 table SEX", 11, "Withdrawn", 2),
            "refused 11 Withdrawn 2: the release was taken back: the oldest one that is shown is 2",
            "    at 0 table SEX",
        )
        self.assertTold(
            Refused("publish", 5, "Nothing", edit=0),
            "refused batch 0 5 Nothing: no edit is held",
            "    publish",
        )
        self.assertTold(
            Refused("drop 0", 2, "BadNumber"),
            "refused edit 2 BadNumber: a number is out of its range",
            "    drop 0",
        )
        self.assertTold(Refused("table SEX", 12, "Later", 2), "refused 12 Later 2", *[
            "    table SEX",
            "          ^^^",
        ])

    def test_the_custodians_words_at_an_analysts_port(self):
        self.assertIn("first port", str(Refused("publish", 2, "Syntax", 1)))

    def test_it_goes_through_pickle(self):
        fault = pickle.loads(pickle.dumps(Refused("drop 0", 2, "BadNumber", edit=3)))
        self.assertEqual((fault.word, fault.edit, fault.line), ("BadNumber", 3, "drop 0"))
