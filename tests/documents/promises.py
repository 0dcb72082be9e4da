"""Compares the list of promises in docs/internals/PROOFS.md with the sources: each crate is there, and each function,
law and clause that a promise names stands in it. So do the edits and the groups of `tests/run` that a promise names,
which would notice a breach.

Below a promise stand its crate with the contracts, and then what would notice a breach. Contracts are parts with a `;`
or `and` between them: the name of a function, of a law, of a module or of a crate, then those of its clauses. An edit
stands in `crates/CRATE/must-fail/`, where the gate tries it, or in `tests/edits/CRATE/`, where `scripts/edits` does.
This module checks that each edit and each plant can be made: its old texts stand once in the files that it names.
"""
import glob
import os
import re

from shared.checks import TOP, Checks


def rows():
    """The promises of the list: the crate of each, its contracts, and what would notice a breach."""
    with open(os.path.join(TOP, "docs", "internals", "PROOFS.md"), encoding="utf-8") as file:
        text = file.read()
    part = text[text.index("\n## The promises\n") + 1:].partition("\n## ")[0]
    for promise in re.split(r"^- ", part, flags=re.M)[1:]:
        lines = [" ".join(line.split()) for line in re.split(r"^  - ", promise.partition("\n\n")[0], flags=re.M)]
        crate, _, contract = lines[1].partition(": ")
        yield crate.strip("`"), contract, lines[2]


def is_crate(name):
    return os.path.isdir(os.path.join(TOP, "crates", name, "src"))


def sources(crate):
    """All of a crate's sources in one text."""
    folder = os.path.join(TOP, "crates", crate, "src")
    texts = []
    for name in sorted(os.listdir(folder)):
        with open(os.path.join(folder, name), encoding="utf-8") as file:
            texts.append(file.read())
    return "\n".join(texts)


def contracts(text, name):
    """What stands behind the heads of the functions of this name, up to the next function."""
    return "\n".join(re.findall(r"\bfn %s\b.*?(?=\bfn |\Z)" % name, text, re.S))


def amiss(crate, part):
    """The names of a part that are not there."""
    head, *clauses = re.findall(r"`([\w:]+)`", part)
    if is_crate(head):
        text = sources(head)
    else:
        before, _, name = head.rpartition("::")
        text = sources(before if before and is_crate(before) else crate)
        if part.strip().startswith("law"):
            return [law for law in [name] + clauses if not contracts(text, law)]
        if not re.search(r"\b(?:fn|mod) %s\b" % name, text):
            return [head]
        text = contracts(text, name) or text
    return [clause for clause in clauses if not re.search(r"\b(?:ensures|requires) %s\b" % clause, text)]


def edits():
    """The files of all edits, by the names that rows have for them: CRATE/NAME.edit."""
    found = {}
    for folder in (os.path.join(TOP, "crates", "*", "must-fail"), os.path.join(TOP, "tests", "edits", "*")):
        for path in glob.glob(os.path.join(folder, "*.edit")):
            crate, name = path.replace(os.sep + "must-fail", "").split(os.sep)[-2:]
            found["%s/%s" % (crate, name)] = path
    return found


def unmade(crate, path):
    """The old texts of an edit or a plant that do not stand once in the file that it names, which is in this folder."""
    lost, text = [], ""
    with open(path, encoding="utf-8") as edit:
        for line in edit.read().split("\n"):
            word, _, rest = line.partition(": ")
            if word == "file":
                with open(os.path.join(crate, rest.strip()), encoding="utf-8") as file:
                    text = file.read()
            elif word == "old" and text.count(rest) != 1:
                lost.append(rest)
    return lost


def unknown(notice, groups, known):
    """The names of a last cell that are neither an edit nor a group; the cell itself where it names nothing."""
    names = re.findall(r"`([^`]+)`", notice)
    return [name for name in names if name not in (known if name.endswith(".edit") else groups)] if names else [notice]


def check(groups, failures):
    """How many parts and names were looked at; `groups` are the names of all groups of tests and of their parts."""
    checks, known = Checks("promises", failures), edits()
    for name, path in sorted(known.items()):
        lost = unmade(os.path.join(TOP, "crates", name.partition("/")[0]), path)
        checks.expect("%s: what stands no more in the file that it edits" % name, lost, [])
    for path in sorted(glob.glob(os.path.join(TOP, "tests", "plants", "*.plant"))):
        lost = unmade(os.path.join(TOP, "crates"), path)
        checks.expect("%s: what stands no more in the file that it edits" % os.path.basename(path), lost, [])
    for crate, contract, notice in rows():
        checks.expect("%s: what is neither an edit nor a group" % crate, unknown(notice, groups, known), [])
        if not is_crate(crate):
            checks.fail("there is no crate " + crate)
            continue
        for part in re.split(r"; | and (?=`)", contract):
            if "`" in part:
                checks.expect("%s: what it does not have" % crate, amiss(crate, part), [])
    return checks.tests
