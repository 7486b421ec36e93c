#!/usr/bin/env python3
"""Lists the places in crates/*/src that are written in an older form than the language has, by the points of docs/DESIGN-PASS.md.

usage: python3 tools/census.py [POINT..]   at the top of the repository; prints each place and, last, how many there are by point
"""
import re
import sys
from collections import defaultdict
from pathlib import Path

CRATES = sorted(p.name for p in Path("crates").iterdir() if (p / "src").is_dir())


def sources():
    for crate in CRATES:
        for path in sorted(Path("crates", crate, "src").glob("**/*.rt")):
            yield crate, path, path.read_text()


def code_lines(text):
    """Lines of code: no comment, no clause."""
    for number, line in enumerate(text.split("\n"), 1):
        bare = line.strip()
        if bare.startswith(("//", "ghost", "requires", "ensures", "use ", "pub use ")):
            continue
        yield number, bare


def matching(patterns):
    """The places of code that one of some patterns fits."""
    for crate, path, text in sources():
        for number, line in code_lines(text):
            if any(re.search(p, line) for p in patterns):
                yield path, number, line


FUNCTION = re.compile(r"(?:pub(?:\(crate\))? )?(?:const )?fn (\w+)(?:<[^{;]*?>)?\(", re.S)


def functions(text):
    """Name, line, parameters, answer, clauses and body of each function."""
    for m in FUNCTION.finditer(text):
        depth, i = 1, m.end()
        while depth and i < len(text):
            depth += {"(": 1, ")": -1}.get(text[i], 0)
            i += 1
        parameters = text[m.end() : i - 1]
        rest = text[i:]
        end = re.search(r"\n *\{\n|\{\n|\{\}|;\n", rest)
        head = rest[: end.start()] if end else ""
        answer = re.match(r"\s*->\s*([^\n{]*)", head)
        j = i + (end.start() if end else 0)
        body = ""
        if end and ";" not in end.group():
            j = text.index("{", j)
            depth, k = 1, j + 1
            while depth and k < len(text):
                depth += {"{": 1, "}": -1}.get(text[k], 0)
                k += 1
            body = text[j + 1 : k - 1]
        yield {
            "name": m.group(1),
            "line": text[: m.start()].count("\n") + 1,
            "parameters": [p.strip() for p in split(parameters) if p.strip()],
            "answer": answer.group(1).strip() if answer else "",
            "clauses": re.findall(r"(?:requires|ensures)[^{\n]*\{([^\n]*)\}", head),
            "body": body,
        }


def split(parameters):
    depth, start = 0, 0
    for i, c in enumerate(parameters):
        depth += {"(": 1, "<": 1, "[": 1, ")": -1, ">": -1, "]": -1}.get(c, 0)
        if c == "," and depth == 0:
            yield parameters[start:i]
            start = i + 1
    yield parameters[start:]


def point_1():
    """Flags, codes, answers that mean nothing, and errors handed on by hand."""
    patterns = [
        r"Err\((\w+)\) => return Err\(\1\)",
        r"Err\((\w+)\) => Err\(",
        r"Err\(_\) => Err\(",
        r"Ok\(\(\)\) => Ok\(\(\)\)",
        r"Ok\(\(\)\) => \{\}",
        r"Ok\((\w+)\) => Ok\(\1\)|Ok\((\w+)\) => \2,",
        r"Err\(_\) => unreachable\(\)",
        r"Result<\(\), \(\)>",
        r"-> Result<bool",
        r"None => None,",
        r"None => return None",
        r"\bNONE\b",
        r"break '\w+ 0;",
    ]
    for path, number, line in matching(patterns):
        if "fn is_" not in line:
            yield path, number, line
    for crate, path, text in sources():
        for f in functions(text):
            if f["answer"] == "u8" and f["body"].strip() == "0":
                yield path, f["line"], f"fn {f['name']} answers a number that means nothing"
            if f["answer"] == "bool" and re.search(r"is_ok\(\)", f["body"]):
                yield path, f["line"], f"fn {f['name']} answers a flag of success"


def shape(body):
    """A body with its types, numbers and texts left out."""
    body = re.sub(r"//[^\n]*", "", body)
    body = re.sub(r"\b[A-Z]\w*\b", "T", body)
    body = re.sub(r"\b\d[\d_]*\w*\b|\btrue\b|\bfalse\b", "1", body)
    body = re.sub(r"b?\"[^\"]*\"", '""', body)
    return re.sub(r"\s+", "", body)


def point_2():
    """Functions whose bodies differ only in a type, a number or a text, and functions of one name and shape in two types or crates."""
    seen = defaultdict(list)
    for crate, path, text in sources():
        if crate.endswith("_tests"):
            continue
        for f in functions(text):
            key = shape(f["body"])
            if len(key) > 12:
                seen[key].append((path, f["line"], f["name"]))
    for places in seen.values():
        if len(places) > 1:
            for path, line, name in places:
                yield path, line, f"fn {name}, as {', '.join(n for p, l, n in places if (p, l) != (path, line))}"


def point_3():
    """Loops that count an index: a range whose number is a place of a table in the loop, `while` over an order, and counters of one function raised by one."""
    for crate, path, text in sources():
        lines = text.split("\n")
        for number, line in code_lines(text):
            m = re.match(r"for (\w+) in \w+\.\.", line)
            if m:
                indent = len(lines[number - 1]) - len(lines[number - 1].lstrip())
                end = next(k for k in range(number, len(lines)) if lines[k].startswith(" " * indent + "}"))
                if re.search(rf"\[{m.group(1)}\b|\({m.group(1)}\)\]|, {m.group(1)}, \w+\);|\* {m.group(1)}\b", "\n".join(lines[number:end])):
                    yield path, number, line
            elif re.match(r"while \w+ [<>] ", line) or ".len() - 1]" in line:
                yield path, number, line
            elif re.match(r"(\w+) (\+= 1|= \1\.saturating_add\(1\));", line):
                yield path, number, line


def point_4():
    """Comparison, conversion and printing by hand."""
    patterns = [
        r"fn refusal\(self\)|fn number\(self\)",
        r"fn less\(|fn precedes",
        r"fn print_(?!help|sheet|records|links|outcome)\w+",
        r"impl\b[^:]* (PartialEq|Eq|PartialOrd|Ord|Clone|Copy|Debug) for ",
    ]
    yield from matching(patterns)


def point_5():
    """Clauses that stand in three functions or more of a crate, and functions of seven parameters or more."""
    for crate in CRATES:
        seen = defaultdict(list)
        for path in sorted(Path("crates", crate, "src").glob("**/*.rt")):
            for f in functions(path.read_text()):
                for clause in f["clauses"]:
                    for part in re.split(r"\) × \(", clause):
                        fact = re.sub(r"\.(now|old|new|entry)\b", "", re.sub(r"[()\s]+", " ", part)).strip()
                        if len(fact) > 24 and "result" not in fact:
                            seen[fact].append((path, f["line"], f["name"]))
                if len(f["parameters"]) >= 7:
                    yield path, f["line"], f"fn {f['name']} has {len(f['parameters'])} parameters"
        for fact, places in seen.items():
            if len({(p, l) for p, l, _ in places}) >= 3:
                path, line, _ = places[0]
                yield path, line, f"{len(places)} functions: {fact[:90]}"


def point_6():
    """A table with its length beside it, tables side by side, sorted lists."""
    for crate, path, text in sources():
        for f in functions(text):
            parameters = f["parameters"]
            tables = [p for p in parameters if re.search(r"&(?:'\w+ )?(?:mut )?\[", p)]
            if tables and any(re.match(r"(count|len|length|size): (usize|u16)", p) for p in parameters):
                yield path, f["line"], f"fn {f['name']}: a table and a count beside it"
            if len(tables) >= 3:
                yield path, f["line"], f"fn {f['name']}: {len(tables)} tables side by side"
        for m in re.finditer(r"struct (\w+)[^{;]*\{([^}]*)\}", text):
            fields = m.group(2)
            line = text[: m.start()].count("\n") + 1
            if len(re.findall(r"\[(?:u16|u32|bool|C)", fields)) >= 3:
                yield path, line, f"struct {m.group(1)}: tables side by side"
            if re.search(r"\[", fields) and re.search(r"\b(len|count|length): (usize|u16)", fields):
                yield path, line, f"struct {m.group(1)}: a table and its length"
            if re.search(r"Vec<Entry", fields):
                yield path, line, f"struct {m.group(1)}: a sorted list"


def point_7():
    """Functions that differ in the step they run, and tables of functions."""
    for crate, path, text in sources():
        for number, line in code_lines(text):
            if re.search(r"\bfn\(\w|&dyn |Box<dyn ", line):
                yield path, number, line
        loops = defaultdict(list)
        for f in functions(text):
            for head in re.findall(r"\n\s*((?:for|while) [^\n]*\{)\n", "\n" + f["body"]):
                loops[head].append((f["line"], f["name"]))
        for head, places in loops.items():
            if len(places) > 1:
                for line, name in places:
                    yield path, line, f"fn {name}: the loop `{head}` with another step"


def point_8():
    """Answers and lemmas, by crate."""
    for crate in CRATES:
        answers = lemmas = lines = 0
        for path in Path("crates", crate, "proofs").glob("**/*.antt"):
            text = path.read_text()
            lines += text.count("\n")
            found = len(re.findall(r"^(?:abbrev )?(?:pub )?[^\s:(){}]+ : ", text, re.M))
            if path.name in ("Answers.antt", "Invariants.antt", "Proof.antt"):
                answers += found
            else:
                lemmas += found
        if lines:
            yield Path("crates", crate, "proofs"), 0, f"{answers} answers and invariants, {lemmas} lemmas, {lines} lines"


def main():
    wanted = [int(a) for a in sys.argv[1:]] or list(range(1, 9))
    totals = {}
    for point in wanted:
        places = list(dict.fromkeys(globals()[f"point_{point}"]()))
        totals[point] = len(places)
        for path, line, what in places:
            print(f"{point}  {path}:{line}  {what}")
    print()
    for point, total in totals.items():
        print(f"point {point}: {total} places  ({globals()[f'point_{point}'].__doc__})")


main()
