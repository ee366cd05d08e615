"""Tests of the package. `python3 -m unittest discover ports/python/tests`, with the shared library where the package looks for it.

KERZHOMA_PROGRAM names the command line, and KERZHOMA_RECORDS the program of ports/c/records.c: their answers are compared with the
package's. KERZHOMA_DOCUMENTS names a folder with more documents (*.xml) for all of it; ports/check sets the three.
"""
import copy
import datetime
import io
import os
import pickle
import random
import subprocess
import sys
import tempfile
import unittest
import uuid
from dataclasses import asdict, replace
from pathlib import Path

HERE = Path(__file__).resolve().parent
TOP = HERE.parents[2]
if os.environ.get("KERZHOMA_INSTALLED") is None:
    sys.path.insert(0, str(HERE.parent))

import kerzhoma  # noqa: E402
from kerzhoma import Property, Refused, Report, Run, TestCase, TestSuite, Timestamp  # noqa: E402
from kerzhoma._decode import report_of  # noqa: E402
from kerzhoma._encode import _RECORD, _Layout, nanoseconds  # noqa: E402
from kerzhoma._library import LIBRARY, RECORD, Area  # noqa: E402

PROGRAM = os.environ.get("KERZHOMA_PROGRAM")
RECORDS = os.environ.get("KERZHOMA_RECORDS")


def documents():
    stored = TOP / "ports" / "rust" / "tests"
    folders = [TOP / "example", TOP / "example" / "refused", stored / "reports", stored / "quick_junit", stored / "refused"]
    folders += [Path(folder) for folder in [os.environ.get("KERZHOMA_DOCUMENTS")] if folder]
    return [file for folder in folders for file in sorted(folder.glob("*.xml"))]


def run(*command):
    return subprocess.run([str(c) for c in command], stdout=subprocess.PIPE, stderr=subprocess.PIPE)


def accepted():
    """The documents that are reports."""
    for file in documents():
        try:
            yield file, kerzhoma.read(file)
        except Refused:
            pass


def full():
    """A report with every field."""
    moment = Timestamp(2021, 4, 1, 10, 52, 37, 125_000_000, -480)
    flaky = Run("error", moment, 0.25, "m", "t", "trace", "out", "err", "text")
    cases = [
        TestCase("a", classname="c", assertions=3, timestamp=moment, time=0.5, system_out="o", system_err="e", extra={"file": "f"}),
        TestCase("b", "failure", message="m <&>", type="t", description="d", runs=[flaky, Run()], rerun_kind="flaky"),
        TestCase("c", "error", runs=[Run("failure", description="again")], properties=[Property("p", "q"), Property("p", "r")]),
        TestCase("d \u20ac \U0001f600", "skipped", message="not now"),
        TestCase("e", runs=[Run("error")]),
    ]
    suite = TestSuite("lab", disabled=2, timestamp=moment, time=1.0, cases=cases, system_out="so", system_err="se")
    suite.properties.append(Property("env", "x"))
    suite.extra["package"] = "p"
    suite.hostname = "bench-7"
    report = Report("r", uuid.UUID(int=7), moment, 2.5, suites=[suite, TestSuite("empty")])
    report.count()
    return report


# characters of one to four bytes; of two bytes those that are Latin-1, and others
WIDTHS = ["aZ09 _<&", "\u0080\u00e9\u00ff", "\u0100\u0436\u07ff", "\u0800\u20ac\ufffd", "\U00010000\U0001f600\U0010ffff"]


def made(text):
    """A report whose texts are those that the function gives, in every field that has one."""

    def run(kind):
        return Run(kind, message=text(), type=text(), stack_trace=text(), system_out=text(), system_err=text(), description=text())

    def main(outcome, **more):
        return TestCase(text(), outcome, text(), message=text(), type=text(), description=text(), system_out=text(), **more)

    def suite():
        plain = [TestCase(text(), classname=text(), time=0.5, extra={"file": text()}) for _ in range(4)]
        others = [main("failure", runs=[run("error")]), main("error", system_err=text()), main("skipped")]
        others += [TestCase(text(), properties=[Property(text(), text())], extra={"a": text(), "b": text()}, runs=[run("failure")])]
        outputs = {"system_out": text(), "system_err": text(), "hostname": text()}
        return TestSuite(text(), cases=plain + others, properties=[Property(text(), text())], extra={"package": text()}, **outputs)

    return Report(text(), suites=[suite(), suite()])


def beyond():
    """Reports with no text beyond ASCII, one at every seventh place, some, and all, of each width and mixed."""
    chance = random.Random(44)

    def letters(alphabet):
        # no white space at the ends, which reading takes off where it gathers a text
        return "".join(chance.choice(alphabet) for _ in range(chance.randrange(1, 40))).strip() or "x"

    for place in range(0, 200, 7):
        numbers = iter(range(10**6))
        yield made(lambda: letters(WIDTHS[1 + place % 4] if next(numbers) == place else WIDTHS[0]))
    for share in (0, 0.01, 0.1, 0.5, 1):
        for wide in [*WIDTHS[1:], "".join(WIDTHS)]:
            yield made(lambda: letters(wide if chance.random() < share else WIDTHS[0]))


class Shared(_Layout):
    """A layout whose texts lie in one text, where they overlap."""

    def __init__(self, whole):
        super().__init__()
        self.whole = whole.encode()

    def put(self, row, bit, word, text):
        if text is not None:
            row[1] |= 1 << bit
            row[word], row[word + 1] = self.whole.index(text.encode()), len(text.encode())


def text_field(name, text):
    return b"" if text is None else b" %s=%d:%s" % (name.encode(), len(text.encode()), text.encode())


def times(of):
    line = ""
    if of.timestamp is not None:
        t = of.timestamp
        away, sign = abs(t.offset_minutes), "-" if t.offset_minutes < 0 else "+"
        line += f" timestamp={t.year:04}-{t.month:02}-{t.day:02}T{t.hour:02}:{t.minute:02}:{t.second:02}.{t.nanosecond:09}"
        line += f"{sign}{away // 60:02}:{away % 60:02}"
    if of.time is not None:
        line += " time=%d.%09d" % divmod(nanoseconds(of.time), 10**9)
    return line.encode()


def counts(of):
    line = f" tests={of.tests} failures={of.failures} errors={of.errors} skipped={of.skipped}"
    return (line + (f" disabled={of.disabled}" if of.disabled is not None else "")).encode()


def pairs(kind, pairs):
    return [kind + text_field("name", name) + text_field("value", value) for name, value in pairs]


def properties(of):
    return [(p.name, p.value) for p in of.properties]


def outputs(of):
    return text_field("system-out", of.system_out) + text_field("system-err", of.system_err)


def told_main(case):
    fields = text_field("message", case.message) + text_field("type", case.type) + text_field("description", case.description)
    return case.outcome.encode() + fields + (b" flaky" if case.rerun_kind == "flaky" and not case.runs else b"")


def told_run(run, family):
    fields = text_field("message", run.message) + text_field("type", run.type) + text_field("description", run.description)
    fields += text_field("stack-trace", run.stack_trace) + outputs(run) + times(run)
    return f"{family}{run.kind.capitalize()}".encode() + fields


def told_case(case):
    line = b"case" + text_field("name", case.name) + text_field("classname", case.classname) + outputs(case)
    line += f" assertions={case.assertions}".encode() if case.assertions is not None else b""
    lines = [line + times(case)] + pairs(b"case-extra", case.extra.items()) + pairs(b"case-property", properties(case))
    lines += [told_main(case)] if case.outcome != "success" else []
    return lines + [told_run(run, "flaky" if case.outcome == "success" else case.rerun_kind) for run in case.runs]


def told(report):
    """The lines of ports/c/records.c for a report in the order that it is written in."""
    lines = [b"report" + text_field("name", report.name)]
    lines[0] += f" uuid={report.uuid.hex}".encode() if report.uuid else b""
    lines[0] += times(report) + counts(report)
    for suite in report.suites:
        lines.append(b"suite" + text_field("name", suite.name) + outputs(suite) + text_field("hostname", suite.hostname))
        lines[-1] += times(suite) + counts(suite)
        lines += pairs(b"suite-extra", suite.extra.items()) + pairs(b"suite-property", properties(suite))
        for case in suite.cases:
            lines += told_case(case)
    return b"\n".join(lines) + b"\n"


class Documents(unittest.TestCase):
    def test_come_back_equal(self):
        seen = 0
        for file, report in accepted():
            with self.subTest(file.name):
                again = report.to_xml()
                try:
                    second = kerzhoma.loads(again)
                except Refused as refused:
                    # an extra's key that is no name, a character that XML doesn't have, or a document above the limits
                    self.assertIn(refused.number, (9, 16, 18))
                    continue
                self.assertEqual(second.listing(), report.listing())
                self.assertEqual(kerzhoma.loads(second.to_xml()), second)
                seen += 1
        self.assertGreater(seen, 3)

    @unittest.skipUnless(PROGRAM, "KERZHOMA_PROGRAM isn't set")
    def test_as_the_command_line(self):
        lists, refusals = 0, 0
        with tempfile.TemporaryDirectory() as room:
            for file in documents():
                with self.subTest(file.name):
                    line = run(PROGRAM, "list", "--xml", file)
                    try:
                        report = kerzhoma.read(file)
                    except Refused as refused:
                        self.assertEqual(line.returncode, 1)
                        explained = run(PROGRAM, "explain", "--xml", file)
                        line = (explained.stdout + explained.stderr).decode()
                        self.assertIn(refused.explain().partition(": ")[0].partition(" at byte")[0], line)
                        self.assertIn(f"{file}:{refused.line}:{refused.column}: refused {refused.number}", line)
                        refusals += 1
                        continue
                    self.assertEqual((line.returncode, line.stdout.decode()), (0, report.listing()))
                    written = Path(room) / "written.xml"
                    self.assertEqual(run(PROGRAM, "write", "--xml", file, "-o", written).returncode, 0)
                    self.assertEqual(written.read_bytes().decode(), report.to_xml())
                    lists += 1
        self.assertTrue(lists > 3 and refusals > 1, (lists, refusals))

    @unittest.skipUnless(RECORDS, "KERZHOMA_RECORDS isn't set")
    def test_as_the_accessors_of_c(self):
        seen = 0
        with tempfile.TemporaryDirectory() as room:
            file = Path(room) / "report.xml"
            for report in [full(), *beyond()] + [report for _, report in accepted()]:
                file.write_bytes(report.to_xml().encode())
                try:
                    report = kerzhoma.read(file)
                except Refused:
                    continue
                self.assertEqual(run(RECORDS, file).stdout, told(report))
                seen += 1
        self.assertGreater(seen, 3)


class Values(unittest.TestCase):
    def test_every_field(self):
        report = full()
        self.assertEqual((report.tests, report.failures, report.errors, report.skipped, report.disabled), (5, 1, 1, 1, 2))
        again = kerzhoma.loads(report.to_xml())
        self.assertEqual(again, report)
        self.assertEqual(again.listing(), report.listing())
        self.assertIn('(case "a" "c" 0.500 success flaky 0)', report.listing())
        self.assertIn('(case "b" - - failure flaky 2', report.listing())

    def test_texts_beyond_ascii(self):
        for report in beyond():
            again = kerzhoma.loads(report.to_xml())
            self.assertEqual(again, report)
            self.assertEqual(again.listing(), report.listing())

    def test_texts_that_share_bytes(self):
        chance = random.Random(12)
        for alphabet in [*WIDTHS, *(WIDTHS[0] * 9 + wide for wide in WIDTHS), "".join(WIDTHS)]:
            whole = "".join(chance.choice(alphabet) for _ in range(300))

            def text():
                start = chance.randrange(300)
                return whole[start : start + chance.randrange(40)]

            layout = Shared(whole + "filepackageab")
            report = made(text)
            layout.report(report)
            data = b"".join(_RECORD.pack(*row) for row in layout.rows)
            # a record and a byte more than there are
            records, texts, out = Area(len(data) + 4 * RECORD), Area(len(layout.whole) + 1), Area(65536)
            records.bytes[: len(data)], texts.bytes[:-1] = data, layout.whole
            told = LIBRARY.kerzhoma_list(*records.front(len(data) // 4), *texts.front(len(layout.whole)), *out.lent)
            self.assertEqual(out.bytes[: told.length].decode(), report.listing())
            self.assertEqual(report_of(records, len(records.bytes) // 4, texts, len(texts.bytes)), report)
            self.assertFalse(any(records.bytes) or any(texts.bytes))

    def test_copies(self):
        report = kerzhoma.loads(full().to_xml())
        self.assertEqual(copy.deepcopy(report), report)
        self.assertEqual(pickle.loads(pickle.dumps(report)), report)
        self.assertEqual(replace(report.suites[0].cases[1], name="x").message, "m <&>")
        self.assertEqual(asdict(report)["suites"][0]["cases"][0]["properties"], [])
        plain = kerzhoma.loads("<testsuites><testsuite name='s'><testcase name='a'/></testsuite></testsuites>").suites[0].cases[0]
        self.assertEqual(plain, TestCase("a"))
        self.assertEqual(repr(plain), repr(TestCase("a")))
        with self.assertRaises(AttributeError):
            plain.nothing

    def test_times(self):
        for n in [0, 1, 999_999_999, 10**9, 123_456_789_012, 8388607_999999999, 8388607_999999998, 8388607_000000001, 4194304_000000003]:
            seconds, nanos = divmod(n, 10**9)
            document = f"<testsuites time='{seconds}.{nanos:09}'/>"
            self.assertEqual(nanoseconds(kerzhoma.loads(document).time), n)
        self.assertEqual(kerzhoma.loads("<testsuites time='0.1'/>").time, 0.1)

    def test_timestamps(self):
        moment = kerzhoma.loads("<testsuites timestamp='1990-12-31T15:59:59.123456789-08:00'/>").timestamp
        self.assertEqual(str(moment), "1990-12-31T15:59:59.123456789-08:00")
        self.assertEqual(moment.datetime().utcoffset(), datetime.timedelta(hours=-8))
        self.assertEqual(Timestamp.of(moment.datetime()), replace(moment, nanosecond=123_456_000))

    def test_what_no_report_has(self):
        def case(**fields):
            return Report(suites=[TestSuite("s", cases=[TestCase("a", **fields)])])

        bad = [case(outcome="passed"), case(outcome="skipped", runs=[Run()]), case(message="m"), case(time=-1.0), case(time=8388608.0)]
        bad += [case(outcome="error", rerun_kind="x"), case(runs=[Run("x")]), Report(tests=-1), Report(tests=1 << 64)]
        bad += [case(timestamp=Timestamp(2023, 2, 29, 0, 0, 0)), case(timestamp=Timestamp(2023, 1, 1, 0, 0, 0, 0, 1440))]
        for report in bad:
            with self.assertRaises(ValueError):
                report.listing()
        self.assertEqual(case(outcome="failure", message="a\x00\x1bb").suites[0].cases[0].message, "a\x00\x1bb")
        self.assertIn('message="ab"', case(outcome="failure", message="a\x00\x1bb").to_xml())

    def test_above_the_limits(self):
        many = Report(suites=[TestSuite("s", cases=[TestCase("a") for _ in range(65536)])])
        with self.assertRaises(ValueError):
            many.to_xml()
        with self.assertRaises(Refused) as caught:
            kerzhoma.loads(b" " * 16777217)
        self.assertEqual((caught.exception.number, caught.exception.byte), (11, 16777216))
        with self.assertRaises(Refused) as caught:
            kerzhoma.loads(b"<a>" + b"<b/>\n" * 40000 + b"</a>")
        # `<b/>` and the newline behind it are two events
        self.assertEqual((caught.exception.number, caught.exception.line, caught.exception.column), (16, 32768, 5))


class Refusals(unittest.TestCase):
    def refused(self, document):
        with self.assertRaises(Refused) as caught:
            kerzhoma.loads(document)
        return caught.exception

    def test_place(self):
        e = self.refused("<testsuites>\n  <testsuite name='l\u00e4b'\n    time='soon'/></testsuites>")
        self.assertEqual((e.number, e.path, e.line, e.column), (5, "testsuites/testsuite[0]/@time", 3, 11))
        self.assertTrue(str(e).startswith("refused 5 at testsuites/testsuite[0]/@time: a time must be digits"))
        self.assertTrue(e.reason.startswith("a time must be digits"))
        again = pickle.loads(pickle.dumps(e))
        self.assertEqual((str(again), again.number, again.line, again.explain()), (str(e), e.number, e.line, e.explain()))

    def test_names_are_private(self):
        e = self.refused("<testsuites><testsuite name='secret'><testcase/></testsuite></testsuites>")
        self.assertEqual((e.number, e.path), (7, "testsuites/testsuite[0]/testcase[0]/@name"))
        self.assertNotIn("secret", str(e))
        self.assertIn('testsuite[0]("secret")/testcase[0]/@name', e.explain())

    def test_documents(self):
        e = self.refused("<a>\n\u00e9<</a>")
        self.assertEqual((e.number, e.path, e.byte, e.line, e.column), (18, "", 7, 2, 3))
        self.assertEqual(self.refused(b"").number, 18)
        self.assertEqual(self.refused("<!DOCTYPE a><a/>").number, 19)
        e = self.refused("<testsuite/>")
        self.assertEqual((e.number, e.path), (8, ""))
        self.assertIsInstance(e, ValueError)

    def test_files(self):
        with self.assertRaises(OSError):
            kerzhoma.read(TOP / "there" / "is" / "none")
        document = b"<testsuites name='r'/>"
        self.assertEqual(kerzhoma.read(io.BytesIO(document)).name, "r")
        with tempfile.TemporaryDirectory() as room:
            pipe = Path(room) / "pipe"
            os.mkfifo(pipe)
            with subprocess.Popen([sys.executable, "-c", f"open({str(pipe)!r}, 'wb').write({document!r})"]):
                self.assertEqual(kerzhoma.read(pipe).name, "r")

    def test_one_after_the_other(self):
        """Areas are used again: nothing of the document before is left."""
        long = "<testsuites name='%s'><testsuite name='s' a='b'><testcase name='c' time='1'/></testsuite></testsuites>" % ("x" * 5000)
        for _ in range(3):
            self.assertEqual(len(kerzhoma.loads(long).name), 5000)
            self.assertEqual(kerzhoma.loads("<testsuites/>"), Report())
            self.refused("<testsuites><testsuite/></testsuites>")


if __name__ == "__main__":
    unittest.main()
