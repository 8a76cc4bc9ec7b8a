#!/usr/bin/env python3
"""The places of docs/DESIGN-PASS.md, by point: places.py [FOLDER] [POINT]. It reads crates/*/src of FOLDER (the top of the repository) and prints
a line for each place and the count of each kind. What it finds is where to look; the page says what each place is."""
import glob, os, re, sys
from collections import defaultdict

root = sys.argv[1] if len(sys.argv) > 1 else "."
only = sys.argv[2] if len(sys.argv) > 2 else ""
files = sorted(glob.glob(os.path.join(root, "crates/*/src/**/*.rt"), recursive=True))


def short(f):
    return os.path.relpath(f, os.path.join(root, "crates")).replace("/src/lib.rt", "").replace("/src/", "/").replace(".rt", "")


def functions(text):
    """Name, line, parameters, result, clauses and body of each function, methods too."""
    for m in re.finditer(r"(?m)^\s*(?:pub )?(?:extern \"C\" )?fn (\w+)", text):
        i = text.index("(", m.end())
        depth = 0
        j = i
        while True:
            depth += {"(": 1, ")": -1}.get(text[j], 0)
            j += 1
            if depth == 0:
                break
        indent = re.match(r"\s*", m.group(0).lstrip("\n")).group(0)
        k = re.search(r"(?m)^" + indent + r"\{$|\{\n", text[j:])
        end = re.search(r"(?m)^" + indent + r"\}", text[j:])
        if not end:
            continue
        head_end = text.find("\n" + indent + "{\n", j)
        same = text.find(" {\n", j, text.find("\n", j) + 1)
        if same != -1 and (head_end == -1 or same < head_end):
            head_end = same
        if head_end == -1:
            continue
        stop = j + end.end()
        yield m.group(1), text.count("\n", 0, m.start()) + 1, text[i + 1 : j - 1], text[j:head_end], text[head_end:stop]


def parameters(text):
    out, depth, last = [], 0, ""
    for c in text:
        depth += {"(": 1, "[": 1, "<": 1, ")": -1, "]": -1, ">": -1}.get(c, 0)
        if c == "," and depth == 0:
            out.append(last.strip())
            last = ""
        else:
            last += c
    if last.strip():
        out.append(last.strip())
    return out


found = defaultdict(list)
facts = defaultdict(set)
travel = defaultdict(set)
shapes = defaultdict(list)
for f in files:
    text = open(f).read()
    c = short(f)
    lines = text.split("\n")
    code = [re.sub(r"//.*", "", l) for l in lines]
    for n, l in enumerate(code, 1):
        here = f"{c}:{n}"
        if re.match(r"\s*(pub )?enum \w+", l):
            found["1a own enums (those of the shape of Option or Result are told on the page)"].append((here, l.strip()))
        if re.search(r"\b(rank|class|number|fault|stage|kind|operation|relation|blocks): u(8|16|32|64)\b", l):
            found["1b numbers for kinds and refusals: fields and parameters"].append((here, l.strip()[:90]))
        if re.search(r"\b(known|reduction|faulty|obstructed): bool\b", l):
            found["1c flags with values beside them"].append((here, l.strip()[:90]))
        if re.search(r"\.len\(\) \+ 1|\b\w+\.len\(\) < \w+(\.next)?\b|<= \w+\.len\(\)", l):
            found["1d places past the end that stand for none"].append((here, l.strip()[:90]))
        if re.match(r"\s*(while|loop)\b", l):
            found["3 loops that are no `for`"].append((here, l.strip()[:90]))
        if re.search(r"\bfn (same_\w+|equal|starts|larger|smaller|higher_of|lower_of|maximum|wide|sum|word_of|index_of|kind_number|relation_number|relation|lower|digit|letter|clear|copy_front|fill)\b", l):
            found["4a equality, order, conversion and library methods written by hand"].append((here, l.strip()[:90]))
        if re.match(r"#\[derive\(Clone, Copy\)\]", l):
            found["4b types with no derive but Clone and Copy"].append((here, lines[n].strip()[:60]))
        if re.search(r"\b(\w+): \1\b", l) and "fn " not in l and "{" not in l.split(":")[0]:
            found["4c fields written twice"].append((here, l.strip()[:60]))
        if re.search(r"\[u32; WORDS\]|pub const (ROW|OWN|ENTRY|WORDS|COUNTS)\b", l):
            found["6 words laid out by hand"].append((here, l.strip()[:60]))
    for name, line, ps, head, body in functions(text):
        ps = parameters(ps)
        if len(ps) > 6:
            found["5a functions of seven parameters and more"].append((f"{c}:{line}", f"{name}: {len(ps)}"))
        for x in re.findall(r"requires (?:\w+ )?\{(.*?)\}\n", head + "\n", re.S):
            for part in re.split(r"×", x):
                part = re.sub(r"\s+", " ", part.strip()).strip("() ")
                if part:
                    facts[part].add(f"{c}::{name}")
        names = sorted(re.sub(r"\bmut ", "", p.split(":")[0].strip()) for p in ps if ":" in p)
        for i in range(len(names)):
            for j in range(i + 1, len(names)):
                for k in range(j + 1, len(names)):
                    travel[(names[i], names[j], names[k])].add(f"{c}::{name}")
        plain = re.sub(r"//.*", "", body)
        count = plain.count("\n")
        if count >= 5:
            keep = {"if", "else", "return", "let", "mut", "while", "for", "in", "match", "true", "false", "as", "fn"}
            shape = re.sub(r"[A-Za-z_]\w*(::\w+)*", lambda m: m.group(0) if m.group(0) in keep else "x", plain)
            shape = re.sub(r"\b\d+\b", "0", re.sub(r"b'.'|b\"[^\"]*\"", "0", shape))
            shape = re.sub(r"[+*/-]|wrapping", "+", re.sub(r"\s+", " ", shape))
            shapes[shape].append(f"{c}:{line} {name}")
        for m in re.finditer(r"match (\w+(?:\.\w+)?) \{", plain):
            pass
        if re.search(r"match (what|manner|extent|reading|operation|fetch|shape|deed)\b", plain):
            found["7 switches on which step to run"].append((f"{c}:{line}", name))
for shape, where in shapes.items():
    if len(where) > 1:
        found["2 functions alike but for names and numbers"].append((where[0].split()[0], " ~ ".join(where)))
for part, where in sorted(facts.items()):
    if len(where) > 2:
        found["5b facts required by three functions and more"].append((f"{len(where)}", part[:100]))
for t, where in sorted(travel.items()):
    if len(where) > 7:
        found["5c parameters that travel together in eight functions and more"].append((f"{len(where)}", ", ".join(t)))

for key in sorted(found):
    if only and not key.startswith(only):
        continue
    print(f"## {key}: {len(found[key])}")
    for a, b in found[key]:
        print(f"   {a}  {b}")
print("counts: " + "; ".join(f"{k.split()[0]} {len(v)}" for k, v in sorted(found.items())))
