#!/usr/bin/env python3
"""Brings the names of specs/ and of proof files to today's spelling: words in snake case, types in upper camel case.

usage: python3 tools/respell.py    once, at the top of the repository, right after the kit's port.py

Turned are the names that specs/ declares, those of lemmas beside a function's proof, and the proof of a function f, which is f_spec:
where they stand in specs/, proofs/, the clauses of src/, must-fail edits, and between backticks in comments and pages. Functions of
src/, names of goals, strings, inputs and outputs stay as they are.
"""

import collections
import glob
import os
import re

# names that would fall together with another, or that are types
CHOSEN = {
    "Settled-form": "SettledForm",
    "set-states": "SetStates",
    "Paper-as-Reply": "PaperReply",
    "lineFour": "line_four_bytes",  # line_four is a function of src/
    "line-at": "line_at_lem",
    "runs-in": "runs_in_lem",
    "end-u": "end_u_below",
    "end-v": "end_v_below",
    "formE": "entry_e",
    "first-bad": "first_bad_lem",
    "sound-by": "sound_by_lem",
    "confirmed-by": "confirmed_by_lem",
    "right_by": "right_by_lem",
    "all-by": "all_by_lem",
    "both-fed": "both_fed",
    "one-bare": "one_bare",
    "written-in-alike": "written_in_alike",
    "written-in-sound": "written_in_sound",
    "cost-is": "cost_is",
}
DECLARED = re.compile(r"\s*(?:(?:abbrev|unfoldable|pub|data|record|ruleset) )*([^\s:(){}.;,λ=|∷]+) (?:\(.*\) |\{.*\} )*: (.*)")
WORD = re.compile(r"[^\s(){}.;,λ|\[\]`]+")
CLAUSE = re.compile(r"ghost use|\b(?:requires|ensures)\b")


def spelled(name):
    """The name in snake case; a type, which begins with a capital and has no dash, stays."""
    if name[0].isupper() and "-" not in name:
        return name
    return re.sub(r"([a-z0-9])([A-Z])", lambda m: m[1] + "_" + m[2].lower(), name).replace("-", "_")


def names(antt):
    """What each name becomes, of those that change."""
    turned = dict(CHOSEN)
    for path in antt:
        for line in open(path):
            m = DECLARED.match(line)
            of_goal = m and ("/proofs/" in path and (re.search(r"\b(?:tie|goal)\.", m[2]) or m[1].endswith("-spec")))
            if m and not of_goal and m[1][0].isalpha() and spelled(m[1]) != m[1]:
                turned.setdefault(m[1], spelled(m[1]))
    return turned


def respell(text, turned):
    return WORD.sub(lambda m: turned.get(m[0], m[0]), text)


def in_backticks(text, turned):
    return re.sub(r"`[^`\n]+`", lambda m: respell(m[0], turned), text)


def turn(path, turned):
    with open(path) as f:
        lines = f.read().split("\n")
    for i, line in enumerate(lines):
        if path.endswith(".md"):
            lines[i] = in_backticks(line, turned)
        elif path.endswith(".antt"):
            code, dashes, comment = line.partition("--") if line.lstrip().startswith("--") else (line, "", "")
            lines[i] = respell(code, turned) + dashes + in_backticks(comment, turned)
        elif path.endswith(".edit"):
            if line.startswith(("old: ", "new: ")):
                lines[i] = line[:5] + respell(line[5:], turned)
        elif CLAUSE.search(line):
            lines[i] = respell(line, turned)
    text = "\n".join(lines)
    if path.endswith("/Proof.antt"):  # the proof of a function f
        text = re.sub(r"(?m)^pub \S+-spec : |^\S+-spec =", lambda m: re.sub(r"\S+-spec", os.path.basename(os.path.dirname(path)) + "_spec", m[0]), text)
    with open(path, "w") as f:
        f.write(text)


def main():
    found = collections.defaultdict(list)
    for path in sorted(glob.glob("crates/*/**/*", recursive=True)):
        if "/out/" not in path:
            found[path.rpartition(".")[2]].append(path)
    turned = names(found["antt"])
    # a name that two would have, or that one has already, means one of the two
    become = collections.Counter(turned.values())
    words = {w for path in found["antt"] for w in WORD.findall(open(path).read())}
    for old, new in sorted(turned.items()):
        if become[new] > 1 or (new in words and new not in turned):
            raise SystemExit(f"respell: {old} would be {new}, which another name is or becomes: choose one in CHOSEN")
    for path in found["antt"] + found["rt"] + found["edit"] + ["README.md"] + sorted(glob.glob("docs/*.md")):
        turn(path, turned)
    print(f"respell: {len(turned)} names")


main()
