#!/usr/bin/env python3
"""Brings the repository's own definitions and lemmas to one spelling: words in snake case, types in camel case.

usage: tools/respell.py            at the top of the repository, after port.py and before any edit by hand

It renames what the repository's own .antt files declare with a dash (a definition, a lemma, a field, a constructor, an
argument of a module), and a citation of a label or a function of src/ that still has dashes. A name that begins with a
capital letter loses its dashes, any other has an underscore for each. Names of the library and names that the check
makes (loop-i-preserved, in_ok-x) stay, and so does prose but for what stands in `..`. It goes through
crates/*/{specs,proofs,src,must-fail} and docs/, and prints what falls together. A second run changes nothing.
"""
import collections
import os
import re
import sys

WORD = r"[A-Za-z][\w'-]*[\w']|[A-Za-z]"
TOKEN = re.compile(r"--[^\n]*|//[^\n]*|\"(?:[^\"\\\n]|\\.)*\"|(?<![\w'-])(?:" + WORD + r")(?![\w'-])")
ANTT = re.compile(r"--[^\n]*|\"(?:[^\"\\\n]|\\.)*\"|(?<![\w'-])(?:" + WORD + r")(?![\w'-])")
DECLARED = re.compile(
    r"^\s*(?:pub |abbrev |unfoldable |opaque |private )*(?:(?:record|data)\s+)?(" + WORD + r")\s*(?:[({].*)?:(?!:)(.*)$"
)
MADE = re.compile(
    r"^(loop|if|then|else|in|made|returns|index|overflow|overflow_\w+|offset|slice|from|match|invariant|measure|"
    r"iterator|deref|type|nonzero|no_deeper|branch)-"
)


def files(*kinds):
    for folder, dirs, names in os.walk("crates"):
        dirs[:] = sorted(d for d in dirs if d != "out")
        for n in sorted(names):
            if n.endswith(kinds):
                yield os.path.join(folder, n)


def pages():
    return [os.path.join("docs", n) for n in os.listdir("docs") if n.endswith(".md")] if os.path.isdir("docs") else []


def read(p):
    with open(p, encoding="utf-8", newline="") as f:
        return f.read()


def declared():
    """The names with a dash that the .antt files declare; what answers a goal of the check is none of them."""
    own = collections.defaultdict(set)
    for p in files(".antt"):
        answers = os.path.basename(p) in ("Answers.antt", "Invariants.antt", "Proof.antt")
        for line in read(p).split("\n"):
            line = re.sub(r"--.*", "", line)
            m = DECLARED.match(line)
            if not m or "-" not in m.group(1):
                continue
            if answers and re.search(r"\bgoal\.", m.group(2)):
                continue
            own[m.group(1)].add(p)
    return own


def of_source():
    """Labels of clauses, functions and fields of src/, each with an underscore."""
    labels, functions = set(), set()
    for p in files(".rt"):
        t = read(p)
        labels |= set(re.findall(r"\b(?:requires|ensures)\s+(\w+)\s*\{", t))
        functions |= set(re.findall(r"\bfn\s+(\w+)", t))
        functions |= set(re.findall(r"\bghost\s+(\w+)\s*:", t))
    return {x for x in labels if "_" in x}, {x for x in functions if "_" in x}


def respelt(name):
    if name[0].isupper():
        return "".join(w[:1].upper() + w[1:] for w in name.split("-"))
    return re.sub(r"(?<=[a-z])[A-Z]", lambda m: "_" + m.group(0).lower(), name.replace("-", "_"))


def main():
    own = declared()
    labels, functions = of_source()
    to = {n: respelt(n) for n in own if not (MADE.match(n) and all("/Answers.antt" in p or "/Invariants.antt" in p for p in own[n]))}
    for x in labels:
        to.setdefault(x.replace("_", "-"), x)
    for p in files(".rt", ".antt"):
        for x in re.findall(r" as ([a-z]+[A-Z]\w*)", read(p)):
            to[x] = respelt(x)
    into = collections.defaultdict(set)
    seen = collections.Counter()
    for p in files(".antt", ".rt"):
        for t in ANTT.findall(read(p)):
            seen[t] += 1
    for n, m in to.items():
        into[m].add(n)
    for m, ns in sorted(into.items()):
        both = ns | ({m} if seen[m] else set())
        if len(both) > 1:
            print("falls together:", m, "from", ", ".join(sorted(f"{n} ({seen[n]})" for n in both)))
    called = {x.replace("_", "-"): x for x in functions}

    def in_antt(m):
        t = m.group(0)
        if t[:2] == "--":
            return re.sub(r"`[^`]*`", lambda q: ANTT.sub(in_antt, q.group(0)), t)
        if t[0] == '"':
            return t
        if t in to:
            return to[t]
        if t in called and m.string[m.start() - 1 : m.start()] == ".":
            return called[t]
        return t

    def in_rt(m):
        t = m.group(0)
        if t[:2] == "//":
            return re.sub(r"`[^`]*`", lambda q: TOKEN.sub(in_rt, q.group(0)), t)
        return t if t[0] == '"' or t[:2] == "--" else to.get(t, t)

    n = 0
    for p in files(".antt", ".rt", ".edit"):
        old = read(p)
        new = (ANTT.sub(in_antt, old) if p.endswith(".antt") else TOKEN.sub(in_rt, old))
        if new != old:
            n += 1
            with open(p, "w", encoding="utf-8", newline="") as f:
                f.write(new)
    for p in sorted(pages()):
        old = read(p)
        new = re.sub(r"`[^`\n]*`", lambda q: ANTT.sub(lambda m: to.get(m.group(0), m.group(0)), q.group(0)), old)
        if new != old:
            n += 1
            with open(p, "w", encoding="utf-8", newline="") as f:
                f.write(new)
    print(f"{len(to)} names, {n} files")


if __name__ == "__main__":
    sys.exit(main())
