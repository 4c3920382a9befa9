#!/usr/bin/env python3
"""Brings names of definitions and lemmas to the spelling of today's Rattle: words in snake case, a dash only between two names.

usage: python3 tools/respell.py [FOLDER]    once, after the kit's port.py, at the top of the tree (or of FOLDER)

tools/respelled.txt has a line `old new` for each name. Every word of that name in a .antt or .rt file below crates/ and in a must-fail
edit is respelled; functions, strings and outputs are not in the table. Edits are also brought to the form that port.py gave the
code: a field stands tight, a path has one form, a clause names `result`, `x.now`, `x.old` and `x.new`. What no longer stands exactly
once in its file is listed, to be mended by hand.
"""
import os
import re
import sys

here = os.path.dirname(os.path.realpath(__file__))
root = sys.argv[1] if len(sys.argv) > 1 else "."
names = dict(l.split() for l in open(os.path.join(here, "respelled.txt"), encoding="utf-8"))
WORD = re.compile(r"[^\s(){}\[\],;.⌜⌝`\"|]+")


def respelled(text):
    def word(m):
        w = m[0]
        front = "λ" if w.startswith("λ") else ""
        return front + names.get(w[len(front):], w[len(front):])
    return WORD.sub(word, text)


FIELD = re.compile(r"\(([\w'₀-₉]+(?:\.[\w'₀-₉]+)*) \.([\w'-]+)\)")
LOOSE = re.compile(r"(?<=[\w')₀-₉]) \.([a-z0-9][\w'-]*)")
PRELUDE = {"getD": "get_or"}


def edited(text, rust):
    t = text
    t = re.sub(r"Rattle·(\w+)·(specs|proofs)\.\2\.", r"Rattle.\1.\2.", t)
    t = re.sub(r"Rattle·(\w+)\.", r"Rattle.\1.", t)
    t = re.sub(r"Rattle\.(\w+)\.(specs|proofs)\.\2\.", r"Rattle.\1.\2.", t)
    for a, b in PRELUDE.items():
        t = re.sub(r"(?<![\w'-])%s(?![\w'-])" % a, b, t)
    t = re.sub(r"(?<![\w.])_([^\w\s]{1,2})_(?![\w])", r"◌\1◌", t)
    if not rust or "⌜" in t or "now " in t:
        t = re.sub(r"now \((\w+) \.entry\)", r"\1.old", t)
        t = re.sub(r"now \((\w+) \.exit\)", r"\1.new", t)
        t = re.sub(r"now \((\w+(?: \.\w+)*)\)", lambda m: m[1].replace(" .", ".") + ".now", t)
        t = re.sub(r"\bnow (\w+)", r"\1.now", t)
        t = re.sub(r"\((\w+\.(?:old|new|now))\)", r"\1", t)
        while FIELD.search(t):
            t = FIELD.sub(r"\1.\2", t)
        t = LOOSE.sub(r".\1", t)
        t = re.sub(r"⌜ ?(.*?) ?⌝", r"\1", t)
    t = respelled(t)
    if not rust:
        t = re.sub(r"(?<![\w'-])[a-z][a-z0-9]*(?:[A-Z][a-z0-9]*)+(?![\w'])", lambda m: re.sub(r"(?<=[a-z0-9])[A-Z]", lambda c: "_" + c[0].lower(), m[0]), t)
    return t


def main():
    left = 0
    for folder, dirs, files in sorted(os.walk(os.path.join(root, "crates"))):
        dirs[:] = sorted(d for d in dirs if d != "out")
        for f in sorted(files):
            p = os.path.join(folder, f)
            if f.endswith((".antt", ".rt")):
                was = open(p, encoding="utf-8").read()
                now = respelled(was)
                if now != was:
                    open(p, "w", encoding="utf-8").write(now)
    for folder, dirs, files in sorted(os.walk(os.path.join(root, "crates"))):
        if os.path.basename(folder) != "must-fail":
            continue
        crate = os.path.dirname(folder)
        for f in sorted(files):
            p = os.path.join(folder, f)
            lines = open(p, encoding="utf-8").read().split("\n")
            file = next(l for l in lines if l.startswith("file: "))[6:].strip()
            rust = file.endswith(".rt")
            body = open(os.path.join(crate, file), encoding="utf-8").read()
            out = []
            for l in lines:
                m = re.match(r"(old|new): (.*)$", l)
                if not m:
                    out.append(l)
                    continue
                t = m[2] if rust and m[1] == "old" and body.count(m[2]) == 1 else edited(m[2], rust)
                if m[1] == "old":
                    if body.count(t) != 1:
                        print(f"left: {os.path.relpath(p, root)}: stands {body.count(t)} times: {t}")
                        left += 1
                    else:
                        kept = t == m[2]
                elif rust and kept and not re.search(r"⌜|·|\bnow \w", m[2]):
                    t = m[2]
                if m[1] == "new" and body.count(last) == 1:
                    body = body.replace(last, t)
                if m[1] == "old":
                    last = t
                out.append(f"{m[1]}: {t}")
            open(p, "w", encoding="utf-8").write("\n".join(out))
    print(f"respell: {left} texts of edits left by hand")


main()
