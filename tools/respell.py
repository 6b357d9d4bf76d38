#!/usr/bin/env python3
"""Bring the names of definitions and lemmas to snake case.

Run once, at the top of the repository, after the toolchain's own port.py. A name is a word with hyphens
that an .antt file of this repository declares. It is respelled in .antt files, in the clauses of .rt
files, in the edits of must-fail/ and, between backquotes, in comments and pages. Names of the library and
names that the toolchain generates (of goals, steps and facts) are left, and so are functions of src/,
strings, inputs and outputs.
"""
import glob
import re

NAME = re.compile(r"[A-Za-z_][\w']*(?:-[\w']+)+")
# names that would fall together with a function of src/ that stands beside them
OTHERS = {"first-record": "cleared_record"}


def files(pattern):
    found = glob.glob("crates/**/" + pattern, recursive=True)
    return sorted(f for f in found if "/out/" not in f)


def split(line, mark):
    """The code of a line, and its comment."""
    at = 0 if line.startswith(mark) else line.find(" " + mark)
    if at < 0:
        return line, ""
    return line[:at], line[at:]


def code_of(path, mark):
    return "\n".join(split(line, mark)[0] for line in open(path).read().split("\n"))


def foreign(text):
    """The names of a file that are the library's or the toolchain's."""
    found = set()
    for m in re.finditer(r"use (Rattle\.std\.[\w.]+|[\w.+-]*\.(?:Goals|Given)[\w.+-]*)\.\{([^}]*)\}", text):
        found.update(NAME.findall(m[2]))
    found.update(m[1] for m in re.finditer(r"\bgoal\.(" + NAME.pattern + ")", text))
    return found


def declared():
    """The names that are declared here, and all words of the code."""
    own, words = set(), set()
    for path in files("*.antt"):
        text = code_of(path, "--")
        words.update(re.findall(r"[A-Za-z_][\w']*", text))
        here = set()
        for m in re.finditer(r"(?m)^\s*(?:abbrev pub |pub abbrev |abbrev |pub data |data |pub record |record |pub )?((?:[\w'-]+ )+):", text):
            here.update(NAME.findall(m[1]))
        for m in re.finditer(r"(?:\(|\{|let |λ )((?:[\w'-]+ )*[\w'-]+)(?: :|\.| =)", text):
            here.update(NAME.findall(m[1]))
        for m in re.finditer(r" as ([\w'-]+)", text):
            here.update(NAME.findall(m[1]))
        own.update(here - foreign(text))
    return own, words


def spelled(name):
    return OTHERS.get(name, name.replace("-", "_"))


def main():
    own, words = declared()

    def code(text, left):
        return NAME.sub(lambda m: spelled(m[0]) if m[0] in own and m[0] not in left else m[0], text)

    def late(text):
        # also names that port.py had respelled in code alone
        return NAME.sub(lambda m: spelled(m[0]) if m[0] in own or spelled(m[0]) in words else m[0], text)

    def quoted(text):
        return re.sub(r"`[^`]*`", lambda m: late(m[0]), text)

    def write(path, old, new):
        if new != old:
            open(path, "w").write(new)

    def turn(path, mark):
        old = open(path).read()
        left = foreign(code_of(path, mark))
        new = []
        for line in old.split("\n"):
            text, comment = split(line, mark)
            new.append(code(text, left) + quoted(comment))
        write(path, old, "\n".join(new))

    for path in files("*.antt"):
        turn(path, "--")
    for path in files("*.rt"):
        turn(path, "//")
    for path in files("*.edit"):
        old = open(path).read()
        write(path, old, late(old))
    for path in sorted(glob.glob("docs/*.md")) + ["README.md"]:
        old = open(path).read()
        write(path, old, quoted(old))


if __name__ == "__main__":
    main()
