#!/usr/bin/env python3
"""places.py [POINT..]: lists the places in crates/*/src that docs/DESIGN-PASS.md counts, a line for each, and their number.

Points: 1 own enums, flags with a value, numbers for kinds; 2 twins; 3 loops that count an index; 4 equality, conversion and printing by hand;
5 facts and parameters that come together; 6 buffers with a length beside them; 7 switches on which step to run. It reads text and knows no types:
what a line means is for a reader to say."""
import collections
import glob
import os
import re
import sys

os.chdir(os.path.join(os.path.dirname(os.path.abspath(__file__)), ".."))


def items():
    """Functions: (file, line, name, signature, clauses, body). Comments are blanked, lines kept."""
    for path in sorted(glob.glob("crates/*/src/**/*.rt", recursive=True)):
        text = re.sub(r"//[^\n]*", "", open(path, encoding="utf-8").read())
        for m in re.finditer(r"^( *)(?:pub(?:\(crate\))? )?(?:extern \"C\" )?fn (\w+)", text, re.M):
            end = re.search(r"^" + m.group(1) + r"\}", text[m.start():], re.M)
            whole = text[m.start():m.start() + end.end()] if end else text[m.start():]
            brace = re.search(r"^" + m.group(1) + r"\{|\) *(?:-> [^\n{]*)?\{$|\{$", whole, re.M)
            cut = brace.start() if brace else len(whole)
            head = whole[:cut]
            split = re.search(r"^\s*(requires|ensures)\b", head, re.M)
            sign = head[:split.start()] if split else head
            yield path, text.count("\n", 0, m.start()) + 1, m.group(2), sign, head[len(sign):], whole[cut:]


def lines(pattern, flags=0):
    for path in sorted(glob.glob("crates/*/src/**/*.rt", recursive=True)):
        for n, line in enumerate(open(path, encoding="utf-8"), 1):
            line = re.sub(r"//.*", "", line.rstrip("\n"))
            if re.search(pattern, line, flags):
                yield path, n, line.strip()


def parts(text):
    return re.findall(r"b?\"(?:[^\"\\]|\\.)*\"|b?'(?:[^'\\]|\\.)'|\w+|[^\w\s]", text)


KEEP = set("if else while for in return match let mut fn loop break continue self true false as ref".split())


def shape(text):
    """The tokens with names, numbers and strings blanked."""
    return " ".join(t if t in KEEP or not re.match(r"[\w\"'b]", t) else "x" for t in parts(text))


def point1():
    yield from (("enum",) + p for p in lines(r"^(pub(\(crate\))? )?enum "))
    yield from (("flag",) + p for p in lines(r"^\s*(pub )?(ok|found|well|live|untouched): bool,"))
    yield from (("number",) + p for p in lines(r"^\s*(pub(\(crate\))? )?const \w+: (u8|u16|u32|usize) = [0-9]"))
    for path, n, name, _, _, body in items():
        arms = re.findall(r"^\s+[0-9]+(?: \| [0-9]+)* => ", body, re.M)
        if arms:
            yield "number", path, n, "%s: a match on %d numbers" % (name, len(arms))


def point2():
    groups = collections.defaultdict(list)
    for path, n, name, sign, _, body in items():
        s = shape(re.sub(r"^[^(]*", "", sign) + body)
        if len(s.split()) >= 24:
            groups[s].append((path, n, name))
    for s in sorted(groups, key=lambda s: groups[s]):
        if len(groups[s]) > 1:
            for k, (path, n, name) in enumerate(groups[s]):
                yield "twin" if k == 0 else "  of", path, n, name
    types = collections.defaultdict(list)
    for path in sorted(glob.glob("crates/*/src/**/*.rt", recursive=True)):
        text = re.sub(r"//[^\n]*", "", open(path, encoding="utf-8").read())
        for m in re.finditer(r"^(?:pub(?:\(crate\))? )?(?:struct|enum) (\w+)[^{;]*\{(.*?)^\}", text, re.M | re.S):
            fields = re.sub(r"\bpub(\(crate\))?\b", "", m.group(2))
            names = re.sub(r":[^,]*,|\([^)]*\)", ",", fields)
            types[" ".join(parts(names))].append((path, text.count("\n", 0, m.start()) + 1, m.group(1)))
    for s in sorted(types, key=lambda s: types[s]):
        if len(types[s]) > 1:
            for k, (path, n, name) in enumerate(types[s]):
                yield "type" if k == 0 else "  of", path, n, name


def point3():
    yield from (("while",) + p for p in lines(r"^\s*while ") if " let " not in p[2])
    yield from (("range",) + p for p in lines(r"^\s*for \w+ in .*\.\."))


def point4():
    for path, n, name, sign, _, body in items():
        if len(re.findall(r"\w+\.\w+ == \w+\.\w+", body)) >= 2:
            yield "equality", path, n, name
        elif re.match(r"\s*\{\s*[\w.]+ as \w+\s*\}", body):
            yield "conversion", path, n, name
        elif re.search(r"=> (\d+|true|false|0x\w+),", body) and len(re.findall(r"=> [^,{]*,", body)) >= 2 and not re.search(r"=> \w+\(", body):
            yield "conversion", path, n, name
        elif re.match(r"put", name) and "Print" in sign:
            yield "printing", path, n, name


def point5():
    facts, pairs = collections.defaultdict(set), collections.defaultdict(set)
    for path, n, name, sign, clauses, _ in items():
        where = "%s:%d %s" % (path, n, name)
        for req in re.findall(r"requires[^{]*\{(.*)\}", clauses):
            for fact in re.split(r" × ", req.strip()):
                facts[path.split("/")[1], fact.strip(" ()")].add(where)
        args = re.findall(r"(\w+): ([^,()]*(?:\([^()]*\))?[^,()]*)", sign[sign.find("("):])
        args = [(a, t.strip()) for a, t in args if "impl" not in t]
        for i in range(len(args)):
            for j in range(i + 1, len(args)):
                pairs[path.split("/")[1], args[i], args[j]].add(where)
    for (crate, fact), at in sorted(facts.items()):
        if len(at) >= 3:
            yield "fact", crate, len(at), fact
    for (crate, a, b), at in sorted(pairs.items()):
        if len(at) >= 3:
            yield "together", crate, len(at), "%s: %s, %s: %s" % (a + b)


def point6():
    for path in sorted(glob.glob("crates/*/src/**/*.rt", recursive=True)):
        text = re.sub(r"//[^\n]*", "", open(path, encoding="utf-8").read())
        for m in re.finditer(r"^(?:pub(?:\(crate\))? )?struct (\w+)[^{;]*\{(.*?)^\}", text, re.M | re.S):
            if re.search(r"\[[^\];]+; \w+\]", m.group(2)) and re.search(r"\w*(len|count|given|lines)\w*: (usize|u\d+)", m.group(2)):
                yield "struct", path, text.count("\n", 0, m.start()) + 1, m.group(1)
    for path, n, name, sign, _, _ in items():
        if re.search(r"\w+: &?(mut )?\[[^\];]+; \w+\]", sign) and re.search(r"\b(n|len|count|room|held|at): (usize|u8|u32)", sign):
            yield "argument", path, n, name


def point7():
    for path, n, name, sign, _, body in items():
        arms = re.findall(r"=> [\w:]+\(", body)
        if re.match(r"\s*\{\s*(let [^\n]*\n\s*)*match ", body) and len(arms) >= 4:
            yield "switch", path, n, "%s: %d arms that call" % (name, len(arms))


def main():
    for k in map(int, sys.argv[1:] or range(1, 8)):
        found = list(globals()["point%d" % k]())
        for place in found:
            print("%d %-10s %s:%s %s" % ((k,) + place))
        heads = [p for p in found if p[0] != "  of"]
        print("%d: %d places" % (k, len(heads)))


main()
