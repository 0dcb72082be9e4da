"""Runs with one request for memory refused: the first, then the second, until a run meets no refusal (`refused_request.c`)."""
import os
import subprocess

from shared import small_programs
from shared.checks import LIMIT, Checks

SCRIPTS = {
    "rules, stops and questions": (
        b'|joe@127.0.0.1:allow,R="1",S=/two words/\n|10.2-3.:deny\n|=.example:allow,H="x"\n|:deny\n'
        b"install\nask 127.0.0.1 info=joe\nask 10.3.0.1\nreader r\nask 1.1.1.1 host=a.B.example\n"
        b"ask 1.1.1.1 info=joe host=b.org\n|1.2.3.4:allowed\ninstall\nask 4.4.4.4\n# done\n\ninstall\nask 1.1.1.1\n"
        b"|:allow\nbegin\nto synced\naskby r 10.3.0.1\nto named\nstop empty\n|:deny\nbegin\nto done\nto fresh\nask 1.1.1.1\n"
        b"stop junk\naskby r 1.1.1.1\nask 1.1.1.1\nbegin\nto named\nstop kept\nask 1.1.1.1 info=joe\n|x:y\nbegin\n"
    ),
    "events": (
        b"events 3 2\nevent admitted 1 1.1.1.1\nevent admitted 2 1.1.1.1\nevent opened 1 yes\nevent decided 1 allow\n"
        b"event started 1\nevent retired 1\nevent dropped 2\nreplay\nevent admitted 3 1.1.1.1\nevent admitted 4 1.1.1.1\nreplay\n"
        b"event stop\nevent phase fresh\nreplay\nevents 1\nevent admitted 1 2.2.2.2\nevent stop\nreplay\n"
    ),
    "a log": (
        b"|=.example:deny\n|1.1.1.:deny\ninstall\nverdicts\ntcpserver: ok 1 :1.1.1.1:25 a.B.example:2.2.2.2::1\ntcpserver: status: 1/40\n"
        b"tcpserver: ok 2 :1.1.1.1:25 a?b:2.2.2.2::1\ntcpserver: deny 3 here:1.1.1.1:25 :2.2.2.2:joe:1\ntcpserver: ok 4 :1.1.1.1:25 :1.1.1.9::1\n"
    ),
    "a bad command": b"|:deny\ninstall\nask 1.1.1.1\nask 1.1\n",
}
OLD = b":deny\n"
NEW = b'joe@10.0.0.1:allow,R="1",S=/two words/\n10.2-3.:deny\n=.example:allow,H="x"\n:deny\n'
PEER = {"TCPREMOTEIP": "10.0.0.1", "TCPREMOTEHOST": "A.example", "TCPREMOTEINFO": "joe"}
STREAM = b"a\r\nb\n" + b"c" * 1000 + b"\n\r\nlast"
MOST_REQUESTS = 5000


class Requests:
    """The requests for memory of one run after another."""

    def __init__(self, folder):
        self.preload = small_programs.library("shared/refused_request.c", folder)
        self.mark = os.path.join(folder, "mark")

    def variables(self, number):
        """The variables under which the request of this number is refused."""
        return {"LD_PRELOAD": self.preload, "REFUSED_REQUEST": str(number), "REFUSAL_MARK": self.mark}

    def is_refused(self):
        """Whether the last run met its refusal."""
        return os.path.exists(self.mark)

    def each(self):
        """The number of each request, with its variables, until a run has met no refusal."""
        for number in range(1, MOST_REQUESTS):
            yield number, self.variables(number)
            if not self.is_refused():
                return
            os.unlink(self.mark)
        raise ValueError("more than %d requests" % MOST_REQUESTS)


def run(words, folder, given, environment):
    ended = subprocess.run(words, cwd=folder, input=given, env=environment, stdout=subprocess.PIPE, stderr=subprocess.PIPE, timeout=LIMIT)
    return ended.returncode, ended.stdout, ended.stderr


def lines_in(text):
    return text.split(b"\n")


def is_out_of_memory(tool, outcome, ample):
    code, output, errors = outcome
    return code == 111 and errors == b"%s: out of memory\n" % tool.encode() and ample[1].startswith(output)


class Refusals(Checks):
    """Runs of the program with one request refused, each in a folder of its own."""

    def __init__(self, group, failures, program, folder):
        super().__init__(group, failures)
        self.program = program
        self.folder = folder
        self.requests = Requests(folder)

    def install(self, name, text):
        """Makes a folder with the rules file of a text."""
        folder = os.path.join(self.folder, name)
        os.makedirs(folder, exist_ok=True)
        subprocess.run([self.program, "tcprules", "rules", "tmp"], cwd=folder, input=text, check=True)
        return folder

    def each_of_streams(self, name, words, given):
        """The same of a tool that runs a program between pumps: a pump that met a refusal ends, so that what comes out is a front."""
        ample = run([self.program] + words, self.folder, given, dict(os.environ))
        faults = [text % words[0].encode() for text in (b"%s: out of memory\n", b"%s: cannot start\n")] + [b"ucspi: out of memory\n"]
        for request, variables in self.requests.each():
            outcome = run([self.program] + words, self.folder, given, dict(os.environ, **variables))
            code, output, errors = outcome
            is_fault = code == 111 and errors in faults and output == b""
            # a recorder that met a refusal leaves lines out; a program whose output is not read may end by a signal
            is_cut = code in (ample[0], 111) and ample[1].startswith(output) and set(lines_in(errors)) <= set(lines_in(ample[2]))
            self.holds("%s, request %d refused" % (name, request), is_fault or is_cut, outcome)
            if not self.requests.is_refused() and (code, output, sorted(lines_in(errors))) != (ample[0], ample[1], sorted(lines_in(ample[2]))):
                self.fail("%s, without a refusal" % name, outcome)

    def each(self, name, words, given, look):
        """Each request of a run of these words is refused in turn; `look` makes a folder and tells whether what stands in it is right."""
        environment = dict(os.environ, **PEER)
        ample = run([self.program] + words, look.folder(), given, environment)
        # while the words are read no tool is known
        tool = "ucspi"
        for request, variables in self.requests.each():
            outcome = run([self.program] + words, look.folder(), given, dict(environment, **variables))
            is_ample = outcome == ample
            if is_out_of_memory(words[0], outcome, ample):
                tool = words[0]
            is_right = (is_ample or is_out_of_memory(tool, outcome, ample)) and look.is_right(is_ample)
            self.holds("%s, request %d refused" % (name, request), is_right, outcome)


class Nothing:
    """No files are looked at."""

    def __init__(self, folder):
        self.path = folder

    def folder(self):
        return self.path

    def is_right(self, is_ample):
        return True
