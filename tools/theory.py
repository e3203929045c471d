"""Theories as the program prints them, for the scripts beside this file. Nothing of these scripts is proved.

The canonical text has a statement on each line: facts, rules, pairs. DDL names the program that is asked; it is `ddl` above this folder
where the variable is not set.
"""

import os
import re
import signal
import subprocess
import sys
import tempfile
from collections import namedtuple

ROOT = os.path.dirname(os.path.dirname(os.path.realpath(__file__)))
RULE = re.compile(r"(\w+): (?:(.*) )?(->|=>|~>) (\S+)")

# who reads no further, as `head`, is no fault
signal.signal(signal.SIGPIPE, signal.SIG_DFL)

Rule = namedtuple("Rule", "label body kind head text")
Theory = namedtuple("Theory", "facts rules pairs text")


def end_with(usage):
    print(usage, end="", file=sys.stderr)
    sys.exit(2)


class Unanswered(SystemExit):
    """The program had no answer but this line. A script ends with its status then."""

    def __init__(self, status, said):
        super().__init__(status)
        self.said = said


def answer(*words, text=None, retell=None):
    """What the program prints on these words, with a text on its standard input. Where it has no answer, that is the end here too.

    `retell` changes what the launcher says on standard error then."""
    errors = subprocess.PIPE if retell else None
    run = subprocess.run([os.environ.get("DDL", ROOT + "/ddl"), *words], input=text, stdout=subprocess.PIPE, stderr=errors, text=True, check=False)
    if retell:
        sys.stderr.write(retell(run.stderr))
    if run.returncode != 0:
        sys.stdout.write(run.stdout)
        sys.stdout.flush()
        raise Unanswered(run.returncode, run.stdout)
    return run.stdout


def rule_of(line):
    label, body, kind, head = RULE.fullmatch(line).groups()
    return Rule(label, body.split(", ") if body else [], kind, head, line)


def read(file, retell=None):
    """The theory of a file. Its canonical text is the same theory, so the program need not read the file again."""
    printed = answer("print", file, retell=retell)
    facts, rules, pairs = [], [], []
    for line in printed.splitlines():
        if line.startswith(">> "):
            facts.append(line[3:])
        elif ":" in line:
            rules.append(rule_of(line))
        else:
            pairs.append(tuple(line.split(" > ")))
    return Theory(facts, rules, pairs, printed)


def text_of(file):
    """A last line has its end, so that none runs into the next file."""
    with open(0 if file == "-" else file, encoding="utf-8", errors="surrogateescape", newline="") as it:
        text = it.read()
    return text if text.endswith("\n") or not text else text + "\n"


def place(files, texts, line):
    """Which file has a line of all of them, and as which of its own."""
    for file, text in zip(files, texts):
        count = text.count("\n")
        if line <= count:
            return file, line
        line -= count
    return files[-1], line


def read_all(files):
    """The theory of several files, which are read as one in this order."""
    if len(files) == 1:
        return read(files[0])
    script = os.path.basename(sys.argv[0])
    try:
        texts = [text_of(file) for file in files]
    except OSError as error:
        print("%s: %s: %s" % (script, error.filename or "-", error.strerror), file=sys.stderr)
        sys.exit(4)
    with tempfile.TemporaryDirectory() as folder:
        name = os.path.join(folder, "all.dfl")
        with open(name, "w", encoding="utf-8", errors="surrogateescape", newline="") as joined:
            joined.writelines(texts)

        def retell(said):
            return re.sub(re.escape(name) + ":([0-9]+)", lambda at: "%s:%d" % place(files, texts, int(at.group(1))), said)

        try:
            return read(name, retell)
        except Unanswered as stop:
            found = re.match("refused line ([0-9]+) ", stop.said)
            if found:
                file, line = place(files, texts, int(found.group(1)))
                print("%s: that is line %d of %s" % (script, line, file), file=sys.stderr)
            raise


def verdicts(family, theory):
    """The sign of each literal that the theory mentions: + where it is proved, - where it is refuted, ? where neither."""
    lines = answer("conclude", family, "-", text=theory.text).splitlines()
    return {line[3:]: line[0] for line in lines}


def by_head(theory):
    heads = {}
    for rule in theory.rules:
        heads.setdefault(rule.head, []).append(rule)
    return heads


def opposite(literal):
    mode, bracket, sign_and_atom = literal.rpartition("]")
    other = sign_and_atom[1:] if sign_and_atom.startswith("-") else "-" + sign_and_atom
    return mode + bracket + other


def atom(literal):
    return literal.rpartition("]")[2].lstrip("-")


def mode(literal):
    return literal[1:].partition("]")[0] if literal.startswith("[") else None
