"""JUnit test reports, read, listed and written by Kerzhoma's proved library.

    import kerzhoma

    report = kerzhoma.read("report.xml")
    for suite in report.suites:
        for case in suite.cases:
            if case.outcome in ("failure", "error"):
                print(suite.name, case.name, case.message)
    print(report.listing())

`read` and `loads` raise `Refused` where the document isn't a report, with the number of docs/REFUSALS.md, the path, line and column.
"""
from ._calls import loads, read
from ._refused import Refused
from ._types import Property, Report, Run, TestCase, TestSuite, Timestamp

__all__ = ["Property", "Refused", "Report", "Run", "TestCase", "TestSuite", "Timestamp", "loads", "read"]
__version__ = "0.1.0"
