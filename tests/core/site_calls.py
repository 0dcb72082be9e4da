"""Eight callers of one site in threads of their own, by the program test_site. It compares their receipts with the history of the site's yard, and
that with the yard's report; then it prints the report, and else nothing."""
from shared.checks import Runs

# eight callers have 1,250 connections each, and install rules thirteen times
REPORT = b"admitted 10000 live 0\n"


def check(program, failures):
    """How many runs there were: threads take their turns otherwise in each."""
    runs = Runs("site_calls", failures, program)
    for number in (1, 2):
        runs.ended("run %d" % number, runs.run([]), 0, REPORT)
    return runs.tests
