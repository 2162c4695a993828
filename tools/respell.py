#!/usr/bin/env python3
"""Spells the names that specs/ and proofs/ declare as today's Rattle does, once, after port.py: words in snake case, types in
camel case, a dash only between two names. A choice by a test is std's `if◌then◌else◌`, of which line/specs/Test had its own.

usage: respell.py [--list] FOLDER      FOLDER has crates/; --list prints the new names and writes nothing

Names of Rust code, exported C names, strings, comments, inputs and outputs stay. So does whatever a function's Proof.antt names
by its own or by a goal's label, and a name that would fall together with another.
"""
import collections
import glob
import os
import re
import sys

KIT = "/opt/rattle/rattle"
DECLARED = re.compile(r"^( *)(?:(?:abbrev|unfoldable|pub|opaque|data|record)\s+)*([^\s:(){},.;@]+)((?:\s*(?:\{[^{}]*\}|\([^()]*\)))*)\s*:(?=\s)", re.M)
TOKEN = re.compile(r"[^\s(){}.;,@\"«»\[\]]+")
# words that stand for an operator or a constructor, and so are names in a lemma's name
OPERATORS = set("le lt ge gt eq ne add sub mul div mod suc zero append cons nil snoc mem not and or iff min max".split())
# a name of std's has this spelling
CHOSEN = {"stringBytes": "bytes_of_string"}
TAKEN = {"in", "at", "as", "if", "let", "where", "of", "open", "data", "record", "module"}


def texts(root, kinds):
    for kind in kinds:
        for path in sorted(glob.glob(f"{root}/crates/*/{kind}", recursive=True)):
            if "/out/" not in path:
                yield path


def read(path):
    with open(path, encoding="utf-8") as it:
        return it.read()


def bare(text):
    return re.sub(r"--.*", "", text)


def snake(name):
    name = re.sub(r"(?<=[a-z0-9])([A-Z]+)(?=[A-Z][a-z]|\b|[-_'])", lambda m: "_" + m[1].lower(), name)
    return re.sub(r"(?<=[a-z0-9])[A-Z]", lambda m: "_" + m[0].lower(), name)


def main(argv):
    shown = "--list" in argv
    root = [a for a in argv if a != "--list"][0]
    antt = list(texts(root, ["specs/**/*.antt", "proofs/**/*.antt"]))
    declared = collections.defaultdict(set)
    for path in antt:
        if path.endswith("/Proof.antt"):
            continue
        for found in DECLARED.finditer(bare(read(path))):
            declared[found[2]].add(path)
    std = set()
    for page in ("std/specs/Prelude.antt", "std/proofs/Common.antt"):
        std |= set(TOKEN.findall(bare(read(f"{KIT}/{page}"))))
    yours = {n for n in declared if re.match(r"[a-z]", n)}
    first = {n: snake(n) for n in yours if "-" not in n}
    words = {v for k, v in first.items()} | {n for n in declared if n[0].isupper()} | {n for n in std if "-" not in n} | OPERATORS
    new = {}
    for n in yours:
        if "-" not in n:
            to = first[n]
        else:
            parts = n.split("-")
            parts = [first.get(p, p if re.match(r"[A-Z]", p) else snake(p)) for p in parts]
            to = parts[0]
            for left, right in zip(parts, parts[1:]):
                both = left in words and right in words
                to += ("-" if both or re.match(r"[A-Z]", left) else "_") + right
        if to != n:
            new[n] = to
    # the function keeps the name, the lemma that has it gets `_lem`
    new.update({n: to for n, to in CHOSEN.items() if n in declared})
    wanted = {to: n for n, to in new.items() if "-" not in n}
    for n in declared:
        if n in wanted and n not in first.values():
            new[n] = n + "_lem"
    for n in sorted(declared):
        if n in wanted and n not in new:
            new[n] = n + "_lem"
    back = collections.Counter(new.values())
    for n, to in sorted(new.items(), key=lambda it: ("-" not in it[0], it)):
        if back[to] > 1 or to in declared and to not in new or to in std or to in TAKEN:
            if "-" in n and to + "_lem" not in declared and to + "_lem" not in back:
                new[n] = to + "_lem"
                back[to + "_lem"] += 1
                back[to] -= 1
            else:
                print(f"stays: {n}, since {to} stands", file=sys.stderr)
                del new[n]
    count = collections.Counter(new.values())
    assert all(v == 1 for v in count.values()), [k for k, v in count.items() if v > 1]
    # a binder of the same spelling would hide it
    for path in antt:
        found = set(TOKEN.findall(bare(read(path)))) & set(new.values())
        if found and not path.endswith("/Proof.antt"):
            print(f"look: {os.path.relpath(path, root)} has {' '.join(sorted(found))}", file=sys.stderr)
    if shown:
        for n in sorted(new):
            print(n, new[n])
        return
    camel = {n: to for n, to in new.items() if "-" not in n}
    for path in antt:
        text = read(path)
        proof = path.endswith("/Proof.antt")
        own = {m[2] for m in DECLARED.finditer(bare(text))} if proof else set()
        out = []
        for line in text.split("\n"):
            code, mark, note = re.match(r"(.*?)(--(?=\s|$).*)?$", line, re.S).groups()[0], "", ""
            rest = line[len(code):]

            def turn(m):
                n = m[0]
                if n in own and "-" in n:
                    return n
                if proof and m.start() and code[m.start() - 1] == "." and "-" in n and not re.search(r"use .*$", code[: m.start()]):
                    return n
                return new.get(n, n)

            code = TOKEN.sub(turn, code)
            rest = re.sub(r"`([^`]+)`", lambda m: "`" + new.get(m[1], m[1]) + "`", rest)
            out.append(code + rest)
        text = "\n".join(out)
        text = choose(text)
        if text != read(path):
            with open(path, "w", encoding="utf-8") as it:
                it.write(text)
    for path in texts(root, ["src/**/*.rt", "must-fail/*.edit"]):
        text = read(path)
        turned = re.sub(r"(?<![\w.'-])[a-z]\w*[A-Z]\w*(?![\w-])|(?<=[.])[a-z]\w*[A-Z]\w*(?![\w-])", lambda m: camel.get(m[0], m[0]), text)
        turned = choose(turned)
        if turned != text:
            with open(path, "w", encoding="utf-8") as it:
                it.write(turned)


OWN = re.compile(r"^((?:ghost )?use Rattle\.line\.specs\.Test\.\{)([^}]*)(\};?)\n", re.M)


def choose(text):
    """Takes `if◌then◌else◌` from std, and line's own away."""
    text = re.sub(r"\ninfixr 20 if◌then◌else◌\n(?:--[^\n]*\n)?abbrev pub if◌then◌else◌ :[^\n]*\nif true then x else y = x\nif false then x else y = y\n", "\n", text)
    found = OWN.search(text)
    asked = "line/specs/Test" in text or found
    if found and "if◌then◌else◌" in found[2]:
        rest = [n for n in re.split(r",\s*", found[2]) if n and n != "if◌then◌else◌"]
        line = found[1] + ", ".join(rest) + found[3] + "\n" if rest else ""
        text = text[: found.start()] + line + text[found.end() :]
        return imported(text, "if◌then◌else◌")
    return text


def imported(text, name):
    found = re.search(r"^((?:ghost )?use Rattle\.std\.specs\.Prelude\.\{)([^}]*)(\};?)$", text, re.M)
    if found:
        return text[: found.end(2)] + ", " + name + text[found.end(2) :]
    first = re.search(r"^use ", text, re.M)
    line = f"use Rattle.std.specs.Prelude.{{{name}}}\n"
    if not first:
        return text
    return text[: first.start()] + line + text[first.start() :]


if __name__ == "__main__":
    main(sys.argv[1:])
