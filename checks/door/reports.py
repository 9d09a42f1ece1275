"""Looks at the reports that threads.c left, each with its script, by what must be true of every run (checks/check_report.py).
reports.py FOLDER"""
import glob
import os
import sys

sys.path.insert(0, os.path.dirname(os.path.realpath(__file__)) + "/..")
sys.dont_write_bytecode = True
import check_report  # noqa: E402

passed = failed = 0
for path in sorted(glob.glob(sys.argv[1] + "/*.out")):
    name, way, threads, status = os.path.basename(path)[:-4].rsplit(".", 3)
    with open(f"{sys.argv[1]}/{name}.lab", encoding="ascii") as script, open(path, encoding="ascii") as report:
        problems = check_report.problems_of(script.read(), report.read(), status=int(status))
    for problem in problems:
        print("FAILED", os.path.basename(path), problem)
    passed, failed = passed + (not problems), failed + bool(problems)
print(f"{passed} passed, {failed} failed")
sys.exit(bool(failed) or not passed)
