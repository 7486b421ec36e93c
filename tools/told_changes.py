#!/usr/bin/env python3
# Fails, and names it, where a public function of the crates boards and desks is given a board,
# a desk or a hold by `&mut` or by value, or answers a hold, and its contract has no clause `does`.
# Such a function could close a link, say, or make a second hold of a circuit, in silence.
import pathlib
import re
import sys

top = pathlib.Path(__file__).resolve().parent.parent
HEAD = r"^[ \t]*(?:#\[.*?\]\s*)*(pub(?:\([^)]*\))?\s+)?(?:(?:const|unsafe)\s+)*(?:fn\s+(\w+)|impl\b)"


def balanced(text, opened, closed):
    """The text within its first bracket, and the text behind that."""
    depth, first = 0, text.index(opened)
    for at in range(first, len(text)):
        depth += (text[at] == opened) - (text[at] == closed)
        if depth == 0:
            return text[first + 1 : at], text[at + 1 :]
    return text[first + 1 :], ""


silent = []
for crate in ("boards", "desks"):
    for file in sorted((top / "crates" / crate / "src").rglob("*.rt")):
        text = re.sub(r"//.*", "", file.read_text()).replace("->", "→")
        heads = list(re.finditer(HEAD, text, re.M))
        of_trait = False
        for head, following in zip(heads, heads[1:] + [None]):
            item = text[head.end() : following.start() if following else len(text)]
            if not head[2]:
                of_trait = " for " in item.split("{")[0]
                continue
            behind = balanced(item, "<", ">")[1] if item.lstrip().startswith("<") else item
            given, rest = balanced(behind, "(", ")")
            answer = re.split(r"\b(?:where|requires|ensures)\b|\{", rest)[0]
            lent = re.sub(r"&\s*(?:'\w+\s+)?(?!(?:'\w+\s+)?mut\b)[\w:]+", "", given)
            kept = re.search(r"\bself\b|\b(?:Self|Board|Desk|Hold|Held|ReturnedHold)\b", lent)
            made = re.search(r"\b(?:Hold|Held|ReturnedHold)\b", answer)
            public = of_trait or (head[1] or "").strip() == "pub"
            if public and (kept or made) and not re.search(r"\bensures does \{", item):
                silent.append(f"{file.relative_to(top)}: `{head[2]}` says in no clause `does` what it does")
sys.exit("\n".join(silent) or 0)
