#!/usr/bin/env python3
"""Brings the names of this repository's own definitions and lemmas to one spelling: words in snake case, types in upper camel case.

usage: python3 tools/respell.py          at the top of the repository, once, after the toolchain's own script
       python3 tools/respell.py --list   prints old and new names and writes nothing

It turns the names that specs/ and proofs/ declare, wherever they stand in specs/, proofs/ and the clauses of src/. Names that a file
takes from elsewhere stay, and so do those that the check makes for a function's proof (goals, steps of the code), code, strings and comments.
"""

import collections
import glob
import os
import re
import sys

# What it turns has been turned: names of the code that have come since are not its to change.
if os.path.exists("docs/PORT.md") and "--list" not in sys.argv:
    sys.exit("respell.py: the names of this repository have been turned already (docs/PORT.md); it does nothing")

NAME = r"[A-Za-zℕℤ_][\w'ℕℤ]*(?:-[\w'ℕℤ]+)*"
WORD = re.compile(NAME)
CRATES = sorted(c for c in os.listdir("crates") if os.path.isdir(os.path.join("crates", c, "src")))
GIVEN = {"Answers.antt", "Invariants.antt", "Choices.antt", "Proof.antt"}


def files():
    for c in CRATES:
        for pattern in ("specs/**/*.antt", "proofs/**/*.antt", "src/**/*.rt"):
            yield from sorted(glob.glob(os.path.join("crates", c, pattern), recursive=True))


def is_ours(path):
    parts = path.split(".")
    return parts[0] == "Rattle" and len(parts) > 1 and parts[1] in CRATES or path == ""


def quiet(text, rust):
    """The text with comments and strings blanked, of the same length."""
    shape = r'//[^\n]*|"(?:\\.|[^"\\])*"' if rust else r'--(?![\w-])[^\n]*|^--[^\n]*|"(?:\\.|[^"\\])*"'
    return re.sub(shape, lambda m: " " * len(m[0]), text, flags=re.M)


def foreign(text):
    names = set()
    for m in re.finditer(r"\buse\s+([\w.'◌+\-]*?)\.?\{([^}]*)\}", text):
        if not is_ours(m[1]):
            names |= {w.strip().split(" ")[0] for w in m[2].split(",")}
    return names


def goals(text):
    return set(re.findall(r"goal\.(" + NAME + ")", text))


def turned(name):
    if name[0].isupper():
        return "".join(w[:1].upper() + w[1:] for w in name.split("-")) if "-" in name else name
    name = name.replace("-", "_")
    return re.sub(r"(?<=[a-z0-9])[A-Z](?=[a-z])", lambda m: "_" + m[0].lower(), name)


def declared():
    own = collections.defaultdict(set)
    for f in files():
        if f.endswith(".rt"):
            continue
        with open(f, encoding="utf-8") as it:
            t = quiet(it.read(), False)
        made = goals(t) if os.path.basename(f) in GIVEN else set()
        for m in re.finditer(r"^[ ]*(?:(?:pub|abbrev|unfoldable|data|record)\s+)*(" + NAME + r"(?:[ ]+" + NAME + r")*)[ ]*(?:[:{(]|$)", t, re.M):
            for n in m[1].split():
                if n not in made:
                    own[n].add(f)
        if os.path.basename(f) not in GIVEN:
            for m in re.finditer(r"\blet\s+(" + NAME + r")\s*[:=]", t):
                own[m[1]].add(f)
            for m in re.finditer(r"λ((?:\s+(?:" + NAME + r"|\{[^}]*\}))+)\.", t):
                for n in re.findall(NAME, m[1]):
                    own[n].add(f)
            for m in re.finditer(r"[({]((?:" + NAME + r"\s+)*" + NAME + r")\s*:", t):
                for n in m[1].split():
                    own[n].add(f)
            # variables on the left of a definition
            for m in re.finditer(r"^[ ]*(" + NAME + r"(?:[ ]+[^=\n]*)?)=", t, re.M):
                for n in re.findall(NAME, m[1]):
                    own[n].add(f)
    for f in files():
        with open(f, encoding="utf-8") as it:
            for m in re.finditer(r"\bas\s+(" + NAME + r")", quiet(it.read(), f.endswith(".rt"))):
                own[m[1]].add(f)
    return {n for n in own if turned(n) != n and not (n[0].isupper() and "-" not in n)}


def main():
    own = declared()
    print(f"{len(own)} names of this repository's own are turned")
    after = collections.defaultdict(set)
    for f in files():
        with open(f, encoding="utf-8") as it:
            text = it.read()
        rust = f.endswith(".rt")
        t = quiet(text, rust)
        kept = foreign(t)
        given = os.path.basename(f) in GIVEN
        made = goals(t) if given else set()
        out, at, here = [], 0, {}
        for m in WORD.finditer(t):
            n = m[0]
            if rust and "-" not in n and n not in own:
                continue
            before = t[max(0, m.start() - 3) : m.start()]
            if n not in own or n in kept or n in made or (given and re.search(r"(?<![\w.])[clwg]\.$", before)) or (given and before.endswith("al.")):
                here.setdefault(n, set()).add(n)
                continue
            if rust and "-" not in n:
                here.setdefault(n, set()).add(n)
                # a name in camel case stands in a clause only
                line = t[t.rfind("\n", 0, m.start()) + 1 : m.start()].lstrip()
                if not re.match(r"(ghost|requires|ensures|rule|pub ghost)\b", line):
                    continue
            out.append(text[at : m.start()])
            out.append(turned(n))
            at = m.end()
            here.setdefault(turned(n), set()).add(n)
        out.append(text[at:])
        for n, olds in here.items():
            if len(olds) > 1:
                print(f"look: {f}: {', '.join(sorted(olds))} fall together")
        new = "".join(out)
        for n in WORD.findall(quiet(new, rust)):
            if "-" in n and n not in foreign(quiet(new, rust)) and not given:
                after[n].add(f)
        if new != text and "--list" not in sys.argv:
            with open(f, "w", encoding="utf-8") as it:
                it.write(new)
    for n, fs in sorted(after.items()):
        print(f"left: {n}: {', '.join(sorted(fs))[:120]}")
    if "--list" in sys.argv:
        for n in sorted(own):
            print(f"{n} -> {turned(n)}")


main()
