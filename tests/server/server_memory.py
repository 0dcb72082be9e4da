"""Runs `tcpserver` with one request for memory refused: the first, then the second, until runs meet no refusal.

Each run serves two connections, one that the rules allow and one that they deny. A refusal may end the server with `out
of memory` and exit code 111, or change what happens to one connection: it is closed and not counted, dropped, not
started, or one of its streams ends early. It never gets more than it should, no other connection changes, and the
server ends as it does with ample memory. If connections are handed over, no stream ends early.
"""
import os
import re
import select

from shared import log_forms, refusals
from shared.log_forms import ANY
from shared.server_runs import WAIT, Amiss

MOST_REQUESTS = 3000
# runs without a refusal in succession that end the series
LAST = 3
BANNER = "hello\n"
ALLOWED, DENIED = "127.0.0.1", "127.0.0.2"
TABLE = "127.0.0.1 Mail.Example\n127.0.0.2 two.example\n=mail.example 127.0.0.1\n=two.example 127.0.0.2\n"
RULES = '=mail.example:allow,A="one",B=/two words/\n127.0.0.2:deny\n:deny\n'
# the lines that a refusal may bring, beside those of a run with ample memory
MORE = [
    "out of memory", log_forms.drop(ANY, "out of memory"), log_forms.start(ANY, "out of memory"), log_forms.any_end(ANY),
    log_forms.status(ANY, ANY), log_forms.pid(ANY, "127.0.0.[12]"), log_forms.verdict("(ok|deny)", ANY, ".*", ".*"), log_forms.retired(ANY),
]


class Refusals:
    """Runs of one command, each with its own request refused."""

    def __init__(self, suite, name, options, program, answer, early=None, recorded=False):
        self.suite = suite
        self.name = name
        self.options = options
        self.program = program
        self.answers = {ALLOWED: answer, DENIED: BANNER.encode()}
        # what the program says where its input ended before it got any
        self.early = answer if early is None else early
        self.forms = [re.compile(form) for form in MORE + ([r"\d+ [<>] .*"] if recorded else [])]
        self.requests = refusals.Requests(suite.folder)

    def serve(self, request):
        """One run: what clients got, in order, the exit code and the log."""
        # few variables, since each takes memory for each connection
        variables = {"PATH": os.environ["PATH"], "TCPREMOTEINFO": "x", "SOME": "thing"}
        variables.update(self.requests.variables(request))
        try:
            server = self.suite.start(self.options, self.program, env=variables)
        except Amiss:
            code = self.suite.running[-1].wait(WAIT)
            with open(self.suite.last_log, "rb") as log:
                return None, code, log.read()
        got = []
        with server:
            for number in range(8):
                if select.select([server.process.stdout], [], [], 0)[0] and server.process.wait(WAIT) is not None:
                    break
                source = (ALLOWED, DENIED)[number % 2]
                try:
                    got.append((source, server.ask(b"a\n", source=source)))
                except OSError:
                    break
            if len(got) > 2 and got[-1][1] == b"":
                # this one came while the server ended
                got.pop()
            return got, server.end(), server.lines()

    def is_right(self, got, code, lines):
        """What may come of a refusal."""
        if got is None:
            return code == 111 and lines in (b"ucspi: out of memory\n", b"tcpserver: out of memory\n")
        changed = sum(answer != self.answers[source] for source, answer in got)
        fronts = all(self.answers[source].startswith(answer) or self.is_early(source, answer) for source, answer in got)
        known = all(any(form.fullmatch(line) for form in self.forms) for line in lines)
        ended = code == 0 or (code == 111 and lines[-1] == "out of memory")
        return changed <= 1 and fronts and known and ended

    def is_early(self, source, answer):
        return source == ALLOWED and self.early.startswith(answer)

    def run_all(self):
        runs = without = 0
        for request in range(1, MOST_REQUESTS):
            outcome = self.serve(request)
            self.suite.end_running()
            runs += 1
            self.suite.holds("%s, request %d refused" % (self.name, request), self.is_right(*outcome), repr(outcome))
            if self.requests.is_refused():
                os.unlink(self.requests.mark)
                without = 0
                continue
            wanted = [(source, self.answers[source]) for source in (ALLOWED, DENIED)]
            self.suite.expect("%s, without a refusal" % self.name, (outcome[0], outcome[1]), (wanted, 0))
            without += 1
            if without == LAST:
                return
        self.suite.fail(self.name, "more than %d requests" % MOST_REQUESTS)


def rules_and_names(suite):
    """The options and the program of a connection that has all but wrappers: names, rules with settings, a banner."""
    options = ["-v", "-k", "2", "-c", "2", "-m", "2", "-N", suite.path("table", TABLE), "-p", "-x", suite.install(RULES), "-B", BANNER, "-l", "me"]
    return options, ["sh", "-c", 'read a; echo "$a$A$B$TCPREMOTEHOST"']


def handed_over(suite):
    """All that a connection may have that is handed over."""
    options, program = rules_and_names(suite)
    Refusals(suite, "names and rules", options, program, BANNER.encode() + b"aonetwo wordsmail.example\n", BANNER.encode()).run_all()


def rules_names_and_wrappers(suite):
    """All that a connection may have: names, rules with settings, a banner, wrappers, a recorder."""
    options, program = rules_and_names(suite)
    early = b"onetwo wordsmail.example\r\n"
    wrapped = options + ["-w", "recordio,fixcrio"]
    answer = BANNER.encode() + b"a\r" + early
    Refusals(suite, "names, rules and wrappers", wrapped, program, answer, BANNER.encode() + early, True).run_all()


def starts_that_fail(suite):
    """A program that can't be started."""
    options = ["-v", "-k", "2", "-c", "1", "-N", suite.path("table", TABLE), "-x", suite.install(RULES), "-B", BANNER]
    refused = Refusals(suite, "a program that is not there", options, ["/nonexistent"], BANNER.encode())
    refused.forms.append(re.compile(log_forms.start(ANY, "not found")))
    refused.run_all()


CHECKS = [rules_names_and_wrappers, starts_that_fail]
COMMON = []
HANDED = [handed_over, starts_that_fail]
