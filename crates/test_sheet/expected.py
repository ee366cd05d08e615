#!/usr/bin/env python3
"""What test_sheet prints, by the rules C4 to C9 alone: expected.py | cmp - stdout"""
MOST = 2**64 - 1


def printed(reports, room=256):
    """Reports are tests, failures, errors, skipped, and disabled or None."""
    sums = [sum(report[i] for report in reports) for i in range(4)]
    there = [report[4] for report in reports if report[4] is not None]
    disabled = sum(there) if there else None
    if max(sums + [disabled or 0]) > MOST:
        return refused(17)
    tests, failures, errors, skipped = sums
    passed = max(0, tests - failures - errors - skipped)
    shown = "-" if disabled is None else disabled
    text = f"(tests {tests})\n(failures {failures})\n(errors {errors})\n(skipped {skipped})\n(disabled {shown})\n(passed {passed} {tests})\n"
    return text if len(text) <= room else refused(16)


def refused(number):
    return f"refused {number} 4294967295 4294967295 0\n"


def without(tests, failures=0, errors=0, skipped=0):
    return (tests, failures, errors, skipped, None)


def having(tests, disabled):
    return (tests, 0, 0, 0, disabled)


print(printed([]), end="")
print(printed([without(5, 1, 0, 1)], 72), end="")
print(printed([without(5, 1, 0, 1)], 71), end="")
print(printed([having(2, 0), having(3, 4)]), end="")
print(printed([having(2, 0)]), end="")
print(printed([without(4, 1, 1, 1), without(0, 1, 1, 0)]), end="")
print(printed([without(MOST, MOST, MOST, MOST)]), end="")
print(printed([having(MOST, MOST)]), end="")
print(printed([having(1, 0), having(MOST, MOST)]), end="")
print(printed([having(MOST, MOST), having(0, 1)], 1), end="")
