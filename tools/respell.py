#!/usr/bin/env python3
"""Brings the repository's own names in specs/, proofs/ and clauses to today's spelling. Run once, right after port.py, at the top.

usage: tools/respell.py

Words are in snake case, types in camel case. Own are the names that some file of specs/ or proofs/ uses and does not import from a library.
Functions of src/, exported C names, strings, inputs and outputs keep their names. It stops, and writes nothing, where two names of a file fall together.
"""
import collections
import glob
import os
import re
import sys

TOKEN = re.compile(r"[^\s(){}.;,@\"«»\[\]|`]+")
OLD = re.compile(r"^[A-Za-z][\w]*(-[\w]+)*[?!₀-₉]*'*$")
USE = re.compile(r"\buse\s+([^\s;{}]+?)(?:\.\{([^}]*)\})?(?:\s+as\s+(\S+))?(?=[;\s]|$)", re.M)
# Types of two words, and names that would fall together with another.
SPECIAL = {
    "Answers-factor": "AnswersFactor", "Answers-indices": "AnswersIndices", "Answers-ref": "AnswersRef",
    "Answers-subscripts": "AnswersSubscripts", "Claims-one": "ClaimsOne", "Do-Ends": "DoEnds", "If-Ends": "IfEnds",
    "Met-expr": "MetExpr", "None-of": "NoneOf", "Reads-compared": "ReadsCompared", "Reads-factor": "ReadsFactor",
    "Reads-ref": "ReadsRef", "Serial-at": "SerialAt", "Setting-to": "SettingTo", "Stale-row": "StaleRow", "Sums-job": "SumsJob",
    "assigned-rank": "rank_assigned", "in-line": "within_line", "lines-form": "lines_form_lem", "even-of": "even_of_lem",
    "sign-word": "sign_word_lem", "cell-of": "subscripted_cell",
}
# Words of one file that are in snake case already and would fall together with another.
LOCAL = {"crates/expressions/proofs/Factors.antt": {"rank_of": "rank_within"}}


def is_old(word):
    return bool(OLD.match(word)) and ("-" in word or (word[0].islower() and re.search(r"[a-z0-9][A-Z]", word) is not None))


def turned(word):
    if word in SPECIAL:
        return SPECIAL[word]
    word = re.sub(r"(?<=[a-z0-9])([A-Z])(?=[a-z])", lambda m: "_" + m[1].lower(), word)
    word = re.sub(r"(?<=[a-z0-9])([A-Z])(?=\b|-|'|_)", lambda m: "_" + m[1].lower(), word)
    return word.replace("-", "_")


def read(path):
    with open(path, encoding="utf-8") as f:
        return f.read()


def code_of(text):
    """The text without its comments and strings, in the same places."""
    blank = lambda m: re.sub(r"[^\n]", " ", m[0])
    return re.sub(r"(?<![^\s(){};,])--[^\n]*|\"(?:[^\"\\\n]|\\.)*\"", blank, text)


def imports(text, crates):
    """The names that a file imports from libraries, and its names for library modules."""
    names, modules = set(), set()
    for m in USE.finditer(code_of(text)):
        head = m[1].split(".")
        own = head[0] == "Rattle" and len(head) > 1 and head[1] in crates
        if own:
            continue
        if m[2] is None:
            modules.add(m[3] or head[-1])
            continue
        for item in m[2].split(","):
            item = item.split(" as ")
            names.add(item[-1].strip())
            names.add(item[0].strip())
    return names, modules


def words(code):
    for m in TOKEN.finditer(code):
        yield m


def main():
    crates = set(os.listdir("crates"))
    antt = sorted(glob.glob("crates/*/specs/**/*.antt", recursive=True) + glob.glob("crates/*/proofs/**/*.antt", recursive=True))
    texts = {p: read(p) for p in antt}
    own = set()
    for p in antt:
        if os.path.basename(p) == "Proof.antt":
            continue
        taken, modules = imports(texts[p], crates)
        code = code_of(texts[p])
        for m in words(code):
            w = m[0]
            if is_old(w) and w not in taken:
                behind = re.search(r"([^\s(){};,.]+)\.$", code[: m.start()])
                if behind and behind[1] in modules:
                    continue
                own.add(w)
    written, bad = {}, 0
    for p in antt:
        taken, modules = imports(texts[p], crates)
        code = code_of(texts[p])
        hand = os.path.basename(p) == "Proof.antt"
        out, at, met = [], 0, collections.defaultdict(set)
        for m in words(code):
            w, new = m[0], m[0]
            if w in LOCAL.get(p, {}):
                new = LOCAL[p][w]
            elif w in own and w not in taken:
                behind = re.search(r"([^\s(){};,.]+)\.$", code[: m.start()])
                if not (behind and (behind[1] in modules or hand and behind[1] == "tie")):
                    new = turned(w)
            met[new].add(w)
            out.append(texts[p][at : m.start()] + new)
            at = m.end()
        out.append(texts[p][at:])
        for new, olds in sorted(met.items()):
            if len(olds) > 1 and not hand:
                print(f"{p}: {sorted(olds)} fall together as {new}")
                bad += 1
        text = "".join(out)
        # an item 'a as a'
        text = re.sub(r"(?<=[\s{,])([^\s{},]+) as \1(?=[,}\s])", r"\1", text)
        written[p] = spans(text, own, r"(?<![^\s(){};,])--[^\n]*")
    for p in sorted(glob.glob("crates/*/src/**/*.rt", recursive=True)):
        written[p] = rust(read(p), own)
    for p in ["README.md", *sorted(glob.glob("docs/*.md"))]:
        if os.path.basename(p) != "PORT.md":
            written[p] = spans(read(p), own, r"(?s).*")
    if bad:
        sys.exit(1)
    for p, text in written.items():
        with open(p, "w", encoding="utf-8") as f:
            f.write(text)
    print(len({w for w in own}), "names")


def respelled(text, own):
    return TOKEN.sub(lambda m: turned(m[0]) if m[0] in own else m[0], text)


def spans(text, own, where):
    """Names in the code spans of comments."""
    return re.sub(where, lambda m: re.sub(r"`[^`\n]+`", lambda s: respelled(s[0], own), m[0]), text)


CLAUSE = re.compile(r"\bghost use\b[^;]*;|\b(?:requires|ensures|ghost|invariant)\*?\s*(?:\w+\s*)?(?::\s*)?(?=\{)|//[^\n]*")


def rust(text, own):
    """Clauses, 'ghost use' items, and code spans of comments. Other names that a 'ghost use' item gives are turned where it gives them."""
    given = {w for m in re.finditer(r"\bghost use\b[^;]*;", text) for w in re.findall(r" as (\w+)", m[0]) if is_old(w)}
    names = own | given
    out, at = [], 0
    while True:
        m = CLAUSE.search(text, at)
        if not m:
            break
        out.append(text[at : m.start()])
        end = m.end()
        if text[end : end + 1] == "{" and not m[0].startswith(("//", "ghost use")):
            depth = 0
            while True:
                depth += {"{": 1, "}": -1}.get(text[end], 0)
                end += 1
                if depth == 0:
                    break
        part = text[m.start() : end]
        if part.startswith("//"):
            part = re.sub(r"`[^`\n]+`", lambda s: respelled(s[0], own), part)
        else:
            part = re.sub(r"(?<=[\s{,])([^\s{},]+) as \1(?=[,}\s])", r"\1", respelled(part, names))
        out.append(part)
        at = end
    out.append(text[at:])
    return "".join(out)


if __name__ == "__main__":
    main()
