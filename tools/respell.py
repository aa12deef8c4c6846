#!/usr/bin/env python3
"""Brings the repository's own definitions and lemmas to today's spelling, after the kit's port.py: words in snake case, types and facts in camel case.

usage: tools/respell.py [FOLDER]

A name is the repository's own if a file of specs/, or one of proofs/ beside the folders of functions, declares it; with a dash, if it isn't the library's. Names of src/ keep their spelling, and so do
names that the prover makes. A lemma whose name would fall together with that of a definition or another lemma gets the ending _lem. Files are rewritten in place,
and so are the names in backquotes of README.md and docs/.
"""
import collections
import glob
import os
import re
import sys

NAME = r"[A-Za-z_⊎≡∷][\w'⊎≡∷<≤-]*"
TOKEN = re.compile(r"(?<![\w'⊎≡∷-])" + NAME)
DECLARED = re.compile(r"^ *(?:(?:unfoldable|abbrev) )*(?:pub )?((?:" + NAME + r" )+)(?:\{[^}]*\} )*(?:\([^()]*\) )*: ")
OTHER = re.compile(r"^ *(?:pub )?(?:ruleset|record|data|module) (" + NAME + ")")
# definitions that are types; those of one word are respelled outside comments, where they are declared or imported
TYPES = {"targetSmall": "TargetSmall", "operationSmall": "OperationSmall"}
WORDS = {"lent": "Lent", "rowed": "Rowed"}
READY = re.compile(r"lined\.specs\.Ready\.\{|lined/specs/Ready\.antt")


def snake(name):
    name = re.sub(r"(?<=[a-z0-9])([A-Z])", lambda m: "_" + m[1].lower(), name) if name[0].islower() else name
    return name.replace("-", "_")


def bare(text):
    return re.sub(r"--.*", "", text)


def logic(root):
    return sorted(glob.glob(root + "/crates/*/specs/**/*.antt", recursive=True) + glob.glob(root + "/crates/*/proofs/**/*.antt", recursive=True))


def of_function(path):
    return os.path.basename(path) == "Proof.antt"


def declared(root):
    """Each own name with the kinds of place that declare it: specs or proofs."""
    names = collections.defaultdict(set)
    for path in logic(root):
        if of_function(path):
            continue
        kind = "specs" if "/specs/" in path else "proofs"
        for line in bare(open(path).read()).split("\n"):
            m = DECLARED.match(line)
            for name in m[1].split() if m else []:
                names[name].add(kind)
            m = OTHER.match(line)
            if m:
                names[m[1]].add(kind)
        for name in re.findall(r"(?<![\w'.⊎≡∷-])[a-z]\w*-[\w'-]*", bare(open(path).read())):
            names[name].add(kind)
    return names


def imported(root):
    """What is taken from the library."""
    names = set()
    for path in logic(root):
        for m in re.finditer(r"(?m)^use (?!Rattle\.)[^\n{]*\{([^}]*)\}", open(path).read()):
            names |= {word.split(" as ")[-1].strip() for word in m[1].split(",")}
    return names


def renamings(root):
    names, library = declared(root), imported(root)
    turn = {}
    for name in sorted(names, key=lambda n: ("specs" not in names[n], n)):
        to = TYPES.get(name) or (snake(name) if name[0].islower() or "-" in name else name)
        if to == name or name in library:
            continue
        if to in turn.values() or to in library or to in names and "specs" not in names[name]:
            to += "_lem"
        elif to in names:
            turn[to] = to + "_lem"
        turn[name] = to
    return turn


def respelled(text, turn, fields):
    def one(m):
        name = m[0]
        if name not in turn:
            return name
        # behind a dot a name with no capital is one of src/ or one that the prover made, unless it is a field
        if m.start() and text[m.start() - 1] == "." and name not in fields and not re.search("[A-Z]", name):
            return name
        return turn[name]

    return TOKEN.sub(one, text)


def typed(path, text):
    if not READY.search(text + path):
        return text
    code = lambda line: re.sub(r"^((?:(?!--|//).)*)", lambda m: re.sub(r"(?<![\w'.-])(lent|rowed)(?![\w'-])", lambda w: WORDS[w[0]], m[1]), line)
    return "\n".join(code(line) for line in text.split("\n"))


def main(root):
    names, turn = declared(root), renamings(root)
    fields = set()
    for path in logic(root):
        if not of_function(path):
            record = False
            for line in bare(open(path).read()).split("\n"):
                if re.match(r" *(pub )?record ", line):
                    record = True
                elif line and not line.startswith(" "):
                    record = False
                elif record and DECLARED.match(line):
                    fields |= set(DECLARED.match(line)[1].split())
    for path in logic(root):
        text = open(path).read()
        new = typed(path, respelled(text, turn, fields))
        if of_function(path):
            new = re.sub(r"(?<![\w'.-])[a-z][\w-]*-spec(?![\w'-])", lambda m: m[0].replace("-", "_"), new)
        if new != text:
            open(path, "w").write(new)
    capitals = {k: v for k, v in turn.items() if re.search("[A-Z]", k)}
    for path in sorted(glob.glob(root + "/crates/*/src/**/*.rt", recursive=True)):
        text = open(path).read()
        new = typed(path, respelled(text, capitals, fields))
        if new != text:
            open(path, "w").write(new)
    last = {turn.get(name, name) for name in names}

    def named(m):
        name = m[1]
        to = turn.get(name) or turn.get(name.replace("-", "_")) or (snake(name) if snake(name) in last else name)
        return m[0].replace(name, to)

    for path in [root + "/README.md"] + sorted(glob.glob(root + "/docs/*.md")):
        if os.path.exists(path) and not os.path.basename(path).startswith("PORT"):
            text = open(path).read()
            new = re.sub(r"`(?:[a-z_]+: )?([A-Za-z][^`\s/.]*)`", named, text)
            if new != text:
                open(path, "w").write(new)
    return turn


if __name__ == "__main__":
    main(sys.argv[1] if len(sys.argv) > 1 else ".")
