#!/usr/bin/env python3
"""What the program should print, from the calls in `stdin`: the builders of the crate's report.rs and the events of its serialize.rs
written out anew, with the rules B1 to B10 where a call is refused. Run it here: expected.py | cmp - stdout"""
import re, sys

FIELDS = "classname message type description stackTrace system-out system-err hostname".split()
FAMILIES = {"flaky": ("flakyFailure", "flakyError"), "rerun": ("rerunFailure", "rerunError")}
STAMP = "2026-02-28T%02d:30:59.125+02:00"
UUID = "123e4567-e89b-12d3-a456-426614174000"


class Refused(Exception):
    pass


def need(test, number=15):
    if not test:
        raise Refused(number)


def filtered(text):
    return re.sub("[\0-\x08\x0b\x0c\x0e-\x1f]", "", text)


class Element:
    """A report, suite, case, main status element or run, with what was set."""

    def __init__(self, kind, **rest):
        self.kind, self.extras, self.properties, self.runs = kind, {}, [], []
        self.__dict__.update(rest)
        self.fields = {}

    def has(self, field):
        if field == "classname":
            return self.kind == "case"
        if field in ("message", "type", "description"):
            return self.kind in ("main", "run")
        if field == "stackTrace":
            return self.kind == "run"
        if field == "hostname":
            return self.kind == "suite"
        return self.kind in ("suite", "case", "run")

    def timed(self):
        return self.kind != "main"


class Run:
    def __init__(self):
        self.records = self.bytes = 0
        self.room = (0, 0)
        self.report = None
        self.ended = False

    def text(self, raw, lossy=False):
        try:
            s = raw.decode("utf-8", "replace" if lossy else "strict")
        except UnicodeDecodeError:
            raise Refused(2)
        s = filtered(s)
        need(self.bytes + len(s.encode()) <= self.room[1], 13)
        self.bytes += len(s.encode())
        return s

    def record(self):
        need(self.records < self.room[0], 12)
        self.records += 1

    def begin(self, name):
        self.records = self.bytes = 0
        self.report, self.ended = None, False
        self.record()
        self.report = self.last = Element("report", suites=[], sums=[0] * 4, disabled=None)
        self.suite = self.case = None
        if name is not None:
            self.report.fields["name"] = self.text(name)

    def sum_up(self):
        if self.suite:
            self.report.sums = [a + b for a, b in zip(self.report.sums, self.suite.sums)]
            if self.suite.disabled is not None:
                self.report.disabled = (self.report.disabled or 0) + self.suite.disabled

    def at(self, code):
        main = self.case.main if self.case else None
        return [self.report, self.suite, self.case, main, self.last][code]

    def call(self, name, rest):
        code = rest[0] % 16 if rest else 0
        more = rest[2:]
        n = more[0] % 16 if more else 0
        if name in (b"report", b"unnamed"):
            return self.begin(rest if name == b"report" else None)
        need(self.report and not self.ended)
        if name == b"suite":
            self.sum_up()
            self.record()
            self.suite = self.last = Element("suite", cases=[], sums=[0] * 4, disabled=None)
            self.case = None
            self.suite.fields["name"] = self.text(rest)
            self.report.suites.append(self.suite)
        elif name == b"case":
            need(self.suite)
            self.record()
            self.case = self.last = Element("case", main=None, family="flaky")
            self.case.fields["name"] = self.text(more)
            self.suite.cases.append(self.case)
            self.suite.sums[0] += 1
            if code:
                self.suite.sums[code] += 1
                self.record()
                self.case.main = self.last = Element("main", tag=["failure", "error", "skipped"][code - 1])
                self.case.family = "rerun"
        elif name == b"rerun":
            need(self.case and not (self.case.main and self.case.main.tag == "skipped"))
            self.record()
            self.last = Element("run", error=code)
            self.case.runs.append(self.last)
        elif name in (b"property", b"extra"):
            key, value = more.split(b"=", 1)
            of = [self.suite, self.case][code]
            need(of and not of.runs and not (name == b"extra" and of.properties) and not (code == 0 and of.cases))
            key, value = self.text(key), self.text(value)
            if name == b"property":
                self.record()
                of.properties.append((key, value))
            else:
                if key not in of.extras:
                    self.record()
                of.extras[key] = value
            self.last = (of.main or of) if code else of
        elif name in (b"text", b"lossy"):
            of, field = self.at(code), FIELDS[n]
            need(of and of.has(field) and (name == b"text" or field.startswith("system")))
            of.fields[field] = self.text(more[2:], name == b"lossy")
        elif name in (b"stamp", b"time"):
            of = self.at(code)
            need(of and of.timed())
            of.fields[name.decode()] = STAMP % n if name == b"stamp" else "%.3f" % (n + 62500000 / 1000000000)
        elif name == b"uuid":
            self.report.fields["uuid"] = UUID
        elif name == b"number":
            of = [self.case, self.suite][code]
            need(of)
            if code:
                of.disabled = n * 1000000000
            else:
                of.fields["assertions"] = str(n * 1000000000)
        elif name == b"kind":
            need(self.case and self.case.main and self.case.main.tag != "skipped")
            self.case.family = ["flaky", "rerun"][code]
        else:
            self.sum_up()
            self.ended = True


def esc(s):
    table = {"&": "&amp;", "<": "&lt;", ">": "&gt;", "'": "&apos;", '"': "&quot;"}
    return "".join(table.get(c, c) for c in s)


def quoted(s):
    return "-" if s is None else '"%s"' % "".join({'"': '\\"', "\\": "\\\\", "\n": "\\n", "\t": "\\t", "\r": "\\r"}.get(c, c) for c in s)


def dash(x):
    return "-" if x is None else str(x)


def listing(r):
    def head(e, name):
        t, f, err, sk = e.sums
        return "(%s %s %d %d %d %d %s" % (name, quoted(e.fields.get("name")), t, f, err, sk, dash(e.disabled))

    out = head(r, "report")
    for s in r.suites:
        out += "\n" + head(s, "suite")
        for c in s.cases:
            status = c.main.tag if c.main else "success"
            family = "none" if status == "skipped" else c.family
            # the crate keeps the kind of no runs too, the records only that of some
            if c.main and status != "skipped" and not c.runs:
                family = "rerun"
            out += "\n(case %s %s %s %s %s %d" % (
                quoted(c.fields["name"]), quoted(c.fields.get("classname")), dash(c.fields.get("time")), status, family, len(c.runs))
            for x in c.runs:
                out += "\n(run %s %s)" % (["failure", "error"][x.error], dash(x.fields.get("time")))
            out += ")"
        out += ")"
    return out + ")\n"


def events(r):
    out = []

    def tag(kind, name, *pairs):
        out.append("%d %s%s" % (kind, name, "".join(' %s="%s"' % (k, esc(v)) for k, v in pairs if v is not None)))

    def of(e, *keys):
        return [({"stamp": "timestamp"}.get(k, k), e.fields.get(k)) for k in keys]

    def output(e, name):
        if name in e.fields:
            tag(0, name), out.append("3 " + esc(e.fields[name])), tag(2, name)

    def properties(e):
        if e.properties:
            tag(0, "properties")
            for k, v in e.properties:
                tag(1, "property", ("name", k), ("value", v))
            tag(2, "properties")

    def run(e, name):
        tag(0, name, *of(e, "stamp", "time", "message", "type"))
        described = "description" in e.fields
        if described:
            out.append("3 " + esc(e.fields["description"]))
        for k in ("stackTrace", "system-out", "system-err"):
            if k in e.fields:
                if described:
                    out.append("9 ")
                described = False
                output(e, k)
        tag(2, name)

    def case(c):
        pairs = of(c, "name", "classname", "assertions", "stamp", "time") + list(c.extras.items())
        if not (c.properties or c.main or c.runs or "system-out" in c.fields or "system-err" in c.fields):
            return tag(1, "testcase", *pairs)
        tag(0, "testcase", *pairs)
        properties(c)
        if c.main:
            d = c.main.fields.get("description")
            tag(1 if d is None else 0, c.main.tag, *of(c.main, "message", "type"))
            if d is not None:
                out.append("3 " + esc(d)), tag(2, c.main.tag)
        for x in c.runs:
            run(x, FAMILIES[c.family][x.error])
        output(c, "system-out"), output(c, "system-err"), tag(2, "testcase")

    tag(6, 'xml version="1.0" encoding="UTF-8"')
    t, f, err, sk = map(str, r.sums)
    disabled = None if r.disabled is None else str(r.disabled)
    tag(0, "testsuites", *of(r, "name"), ("tests", t), ("skipped", sk), ("failures", f), ("errors", err), ("disabled", disabled), *of(r, "uuid", "stamp", "time"))
    for s in r.suites:
        t, f, err, sk = map(str, s.sums)
        disabled = None if s.disabled is None else str(s.disabled)
        pairs = of(s, "name") + [("tests", t), ("skipped", sk), ("errors", err), ("failures", f), ("disabled", disabled)]
        pairs += of(s, "stamp", "time", "hostname") + list(s.extras.items())
        if not (s.properties or s.cases or "system-out" in s.fields or "system-err" in s.fields):
            tag(1, "testsuite", *pairs)
            continue
        tag(0, "testsuite", *pairs)
        properties(s)
        for c in s.cases:
            case(c)
        output(s, "system-out"), output(s, "system-err"), tag(2, "testsuite")
    tag(2, "testsuites")
    return "\n".join(out + ["7 ", "9 "]) + "\n"


def main():
    x, out = Run(), b""
    for line in open("stdin", "rb").read().split(b"\n")[:-1]:
        name, _, rest = line.partition(b" ")
        if name == b"areas":
            x.room = (int(rest[:4]), int(rest[5:9]))
        elif name == b"count":
            out += b"%d records, %d bytes\n" % (x.records, x.bytes)
        elif name == b"show":
            out += (listing(x.report) + events(x.report)).encode()
        else:
            try:
                x.call(name, rest)
            except Refused as why:
                if x.records:
                    out += b"refused %d, zero: %s\n" % (why.args[0], line)
                x.report, x.records, x.bytes = None, 0, 0
    sys.stdout.buffer.write(out)


main()
