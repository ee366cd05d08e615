#!/usr/bin/env python3
"""Reading a document into Python's dataclasses: least processor time of 60 turns, in milliseconds. bench/report.py FILE"""
import sys
import time
from pathlib import Path

sys.path.insert(0, str(Path(__file__).resolve().parent.parent / "ports" / "python"))
import kerzhoma  # noqa: E402

best = float("inf")
for _ in range(60):
    began = time.thread_time()
    report = kerzhoma.read(sys.argv[1])
    best = min(best, time.thread_time() - began)
    del report
print(f"document to dataclasses {best * 1e3:.2f}")
