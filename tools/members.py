#!/usr/bin/env python3
"""Cites the members of a bound by their path: in the clauses of functions with <F: Field>, the names field, value and
Value become F.field, F.value and F.Value.

usage: tools/members.py            at the top of the repository, after tools/respell.py

It goes through crates/*/src and prints each file that it changes. A second run changes nothing.
"""
import os
import re
import sys

FUNCTION = re.compile(r'\s*(?:pub(?:\(crate\))? )?(?:extern "C" )?fn (\w+)(<[^(]*>)?\(')
CLAUSE = re.compile(r"\s*(requires|ensures)\b")
MEMBER = re.compile(r"(?<![\w.'-])(field|value|Value)(?![\w'-])")


def turned(text):
    """The text with the members cited by path, and how many lines changed."""
    out, generic, clause, n = [], False, False, 0
    for line in text.split("\n"):
        begins = FUNCTION.match(line)
        if begins:
            generic, clause = "F: Field" in (begins.group(2) or ""), False
        if line.strip() == "{":
            generic, clause = False, False
        starts = CLAUSE.match(line)
        if generic and starts:
            clause = True
        if generic and clause:
            head, brace, rest = line.partition("{") if starts else ("", "", line)
            new = head + brace + MEMBER.sub(r"F.\1", rest)
            n += new != line
            line = new
        out.append(line)
    return "\n".join(out), n


def main():
    for folder, _, names in os.walk("crates"):
        if "src" not in folder.split(os.sep):
            continue
        for name in sorted(names):
            path = os.path.join(folder, name)
            if not name.endswith(".rt"):
                continue
            with open(path, encoding="utf-8") as f:
                text = f.read()
            new, n = turned(text)
            if n:
                with open(path, "w", encoding="utf-8") as f:
                    f.write(new)
                print(path, n)


if __name__ == "__main__":
    sys.exit(main())
