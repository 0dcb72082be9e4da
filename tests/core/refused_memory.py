"""Runs the program with one request for memory refused: the first, then the second, until a run meets no refusal.

Each run has to end as one with ample memory does, or with `out of memory` and exit code 111, after the first answers of
that run. The rules file is the new one if the run succeeded, and otherwise the old one.
"""
import os
import tempfile

from shared.refusals import NEW, OLD, SCRIPTS, STREAM, Nothing, Refusals


class RulesFile:
    """A folder with the old rules file, where a run that succeeded leaves the new one, and any other the old one."""

    def __init__(self, refused):
        self.refused = refused
        self.new = self.file(refused.install("new", NEW))
        self.old = self.file(refused.install("old", OLD))
        self.path = os.path.join(refused.folder, "old")

    @staticmethod
    def file(folder):
        with open(os.path.join(folder, "rules"), "rb") as file:
            return file.read()

    def folder(self):
        with open(os.path.join(self.path, "rules"), "wb") as file:
            file.write(self.old)
        return self.path

    def is_right(self, is_ample):
        return self.file(self.path) == (self.new if is_ample else self.old)


def check(program, failures):
    """Each tool, with each of its requests refused: how many runs there were."""
    with tempfile.TemporaryDirectory() as folder:
        refused = Refusals("refused_memory", failures, program, folder)
        for name, script in SCRIPTS.items():
            refused.each(name, ["rulesim"], script, Nothing(folder))
        refused.each("an installation", ["tcprules", "rules", "tmp"], NEW, RulesFile(refused))
        asked = Nothing(refused.install("asked", NEW))
        refused.each("a question", ["tcprulescheck", "rules"], b"", asked)
        refused.each("addcr", ["addcr"], STREAM, Nothing(folder))
        refused.each("delcr", ["delcr"], STREAM, Nothing(folder))
        refused.each_of_streams("fixcrio", ["fixcrio", "cat"], STREAM)
        refused.each_of_streams("recordio", ["recordio", "cat"], STREAM)
        return refused.tests
