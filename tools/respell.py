#!/usr/bin/env python3
"""Spells the repository's own definitions, lemmas, fields and constructors in snake case, as today's library spells its own.

usage: python3 tools/respell.py [--check] [ROOT]

A name that specs/ or a file of lemmas below proofs/ declares turns where it has a capital after a small letter, or a dash: `fieldOk` to `field_ok`,
`a-caret-is-its-keys` to `a_caret_is_its_keys`. It turns as a whole word, in .antt and .rt files and in must-fail edits, and in code spans of comments and
of .md files. Types, modules, functions of src/, strings and what Rattle makes for a function (in proofs/F/) keep their names. Two names that would fall
together, or one that would meet another word of some file, are told on a line that begins 'clash:', unless APART says what is written instead. A second
run writes nothing.
"""
import collections
import os
import re
import sys

# Lemmas and fields whose snake case is the name of a definition: what they are spelled instead.
APART = {
    "each-once": "each_only_once",
    "is-first": "is_the_first",
    "is-id": "is_the_id",
}
APART |= {n: n.replace("-", "_") + "_lem" for n in (
    "arrange-all bare-look free-well hit-of kids-well measure-all no-style onto-all put-in root-well text-of-keys with-input with-nodes with-styling with-text"
).split()}
# The same for names that were in snake case already, each in the files of one crate's proofs: there they turn first.
APART_IN = {
    "crates/boxes/proofs": {"holds_at": "holds_at_lem"},
    "crates/desk/proofs/Corollaries.antt": {"no_text": "no_text_lem"},
    "crates/tree/proofs/Prechecks.antt": {"is_live": "lives"},
    "crates/tree/proofs/FieldParts.antt": {"is_live": "lives"},
}

WORD = re.compile(r'[^\s(){}.;,@"«»\[\]`]+')
QUIET_ANTT = re.compile(r'"(?:[^"\\\n]|\\.)*"|--[^\n]*')
QUIET_RT = re.compile(r'b?"(?:[^"\\]|\\.)*"|//[^\n]*|b?\'(?:[^\'\\]|\\.)\'')
SPAN = re.compile(r"`[^`\n]*`")
FRONT = ("abbrev", "unfoldable", "pub", "record", "data", "ruleset")


def files(root, ends):
    for top in ("crates", "docs", "tests", "examples", "."):
        at = os.path.join(root, top)
        for folder, dirs, names in os.walk(at):
            dirs[:] = [] if top == "." else sorted(d for d in dirs if d not in ("out", "target", ".git"))
            for n in sorted(names):
                if n.endswith(ends):
                    yield os.path.join(folder, n)


def is_function_proof(path):
    return "/proofs/" in path.replace(os.sep, "/") and os.path.basename(path) in ("Proof.antt", "Answers.antt", "Invariants.antt")


def declared(path):
    """The names that a file declares, its fields and constructors among them."""
    with open(path, encoding="utf-8") as f:
        text = f.read()
    found = set()
    for line in QUIET_ANTT.sub("", text).split("\n"):
        words = line.split()
        while words and words[0] in FRONT:
            words.pop(0)
        if len(words) < 2 or not WORD.fullmatch(words[0]):
            continue
        depth = 0
        for w in words[1:]:
            if depth == 0 and w == ":":
                found.add(words[0])
                break
            if depth == 0 and w[0] not in "({":
                break
            depth += sum(w.count(c) for c in "({[") - sum(w.count(c) for c in ")}]")
    return found


def snake(name):
    return APART.get(name) or re.sub(r"(?<=[a-z0-9])[A-Z]+", lambda m: "_" + m[0].lower(), name).replace("-", "_")


def table(root):
    names = set()
    for p in files(root, ".antt"):
        if not is_function_proof(p):
            names |= declared(p)
    rows = {n: snake(n) for n in names if re.match(r"[a-z]", n) and snake(n) != n}
    met = collections.defaultdict(set)
    for n in names:
        met[rows.get(n, n)].add(n)
    return rows, [(new, sorted(olds)) for new, olds in sorted(met.items()) if len(olds) > 1]


def turn(text, rows, quiet, spans):
    put = lambda part: WORD.sub(lambda m: rows.get(m[0], m[0]), part)
    in_spans = lambda part: SPAN.sub(lambda m: put(m[0]), part)
    if quiet is None:
        return in_spans(text)
    out, at = [], 0
    for m in quiet.finditer(text):
        out.append(put(text[at : m.start()]))
        out.append(in_spans(m[0]) if spans and m[0][:2] in ("--", "//") else m[0])
        at = m.end()
    return "".join(out) + put(text[at:])


def is_turned(text, first):
    words = set(WORD.findall(text))
    return any(new in words for new in first.values())


def main(argv):
    check = "--check" in argv
    argv = [a for a in argv if a != "--check"]
    root = argv[0] if argv else "."
    rows, together = table(root)
    for new, olds in together:
        print(f"clash: {', '.join(olds)} would all be {new}")
    back = {new: old for old, new in rows.items()}
    written = 0
    for p in sorted(set(files(root, (".antt", ".rt", ".edit", ".md")))):
        with open(p, encoding="utf-8") as f:
            text = f.read()
        quiet = QUIET_ANTT if p.endswith(".antt") else QUIET_RT if p.endswith(".rt") else None
        if p.endswith(".antt") or p.endswith(".rt"):
            code = set(WORD.findall(quiet.sub("", text)))
            for w in sorted(code & set(back)):
                if back[w] in code:
                    print(f"clash: {os.path.relpath(p, root)} has {w} and {back[w]}")
        at = os.path.relpath(p, root)
        first = {k: v for where, words in APART_IN.items() if at.startswith(where) and not is_function_proof(p) for k, v in words.items()}
        if p.endswith(".antt") and first and not is_turned(text, first):
            text = turn(text, first, quiet, True)
        if p.endswith(".edit"):
            new = WORD.sub(lambda m: rows.get(m[0], m[0]), text)
        else:
            new = turn(text, rows, quiet, True)
        if new != text:
            written += 1
            if not check:
                with open(p, "w", encoding="utf-8") as f:
                    f.write(new)
    print(f"respell: {len(rows)} names, {written} files")
    return 0


if __name__ == "__main__":
    raise SystemExit(main(sys.argv[1:]))
