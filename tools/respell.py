#!/usr/bin/env python3
"""Brings the repository's own definitions and lemmas to the spelling of today's Rattle, after its porting script:
words in snake case, for names in camel case and for names with dashes. Types and modules keep their capitals.

usage: tools/respell.py [--list]        at the top of the repository, once

Functions of src/, exported names, strings, inputs and outputs keep their names. A lemma that would get the name of a
definition is called NAME_lem. --list prints what would be renamed, and writes nothing.
"""
import collections
import glob
import re
import sys

W = r"[^\s(){}.;,@\"«»\[\]\\]+"
TOKEN = re.compile(r"--[^\n]*|\"(?:[^\"\\\n]|\\.)*\"|" + W + r"|.", re.S)
CAMEL = re.compile(r"^[a-z][a-z0-9]*([A-Z][A-Za-z0-9]*)+[₀-₉'′]*$")
DEFINED = re.compile(r"^(\s*)((?:abbrev|pub|unfoldable|private)\s+)*(" + W + r")\s+:\s")
# Lemmas without a dash that would get the name of a definition, and the folders in which they stand and are cited.
ALIKE = {
    "same_bool": ["base_group/proofs", "base/proofs"],
    "digit_value": ["catalogue/proofs/Laws"],
    "same_word": ["format/proofs"],
    "takes_all": ["format/proofs"],
    "whole_words": ["probe_request/proofs/Requests"],
    "name_in": ["stanza_words/proofs/Laws", "stanza_distinct/proofs"],
    "one_more": ["stanza_stored/proofs"],
    "no_words": ["stanza_types/proofs"],
    "is_name": ["stanza_words/proofs/Laws"],
}
USE = re.compile(r"^(?:ghost |pub )*use ([^\s{;]+?)(?:\.\{([^}]*)\})?;?\s*(?:as \S+)?$", re.M | re.S)


def shared():
    """The files whose names other files cite: definitions and lemmas, not a function's own proof."""
    return sorted(glob.glob("crates/*/specs/*.antt") + glob.glob("crates/*/proofs/*.antt"))


def files():
    return shared() + sorted(f for f in glob.glob("crates/*/proofs/*/**/*.antt", recursive=True))


def read(path):
    with open(path, encoding="utf-8") as f:
        return f.read()


def snake(name):
    name = re.sub(r"(?<=[a-z0-9])(?=[A-Z])", "_", name) if CAMEL.match(name) else name
    return name.replace("-", "_").lower()


def own_crates():
    return {p.split("/")[1] for p in glob.glob("crates/*/")}


def imported(text, crates):
    """The names that a file takes from the kit."""
    out = set()
    for m in USE.finditer(text):
        parts = m.group(1).split(".")
        if parts[0] == "Rattle" and len(parts) > 1 and parts[1] in crates:
            continue
        names = m.group(2).split(",") if m.group(2) else [parts[-1]]
        out |= {n.strip().split(" ")[0] for n in names}
    return out


def definitions():
    """Each name that a shared file defines, with the files and whether it is a definition of specs/."""
    out = collections.defaultdict(set)
    for path in shared():
        for line in read(path).splitlines():
            m = DEFINED.match(line)
            if m:
                out[m.group(3)].add(path)
    return out


def table(crates):
    defined = definitions()
    used = collections.Counter()
    locals_ = set()
    kit = set()
    for path in files():
        text = read(path)
        kit |= imported(text, crates)
        locals_ |= {t for t in TOKEN.findall(text) if CAMEL.match(t)}
    new = {}
    for name in sorted(locals_ - kit):
        new[name] = snake(name)
    taken = set(new.values()) | {n for n in defined if "-" not in n and n not in new}
    for name in sorted(defined):
        if "-" in name and not name[0].isupper() and "◌" not in name:
            to = snake(name)
            if to in taken:
                to += "_lem"
            new[name] = to
    return new, defined


def turn(text, new, stay, own_proof, crates):
    out = []
    path = []
    tokens = TOKEN.findall(text)
    for i, t in enumerate(tokens):
        dotted = i > 0 and tokens[i - 1] == "."
        if t == ".":
            out.append(t)
            continue
        path = path + [t] if dotted else [t]
        if t in new and not t.startswith("--") and not t.startswith('"'):
            ours = len(path) > 1 and path[0] == "Rattle" and path[1] in crates
            camel = CAMEL.match(t)
            if dotted and not camel and not ours and own_proof:
                out.append(t)
            elif t in stay and not ours:
                out.append(t)
            else:
                out.append(new[t])
        elif t.startswith("--"):
            out.append(re.sub(W, lambda m: new[m.group()] if CAMEL.match(m.group()) and m.group() in new else m.group(), t))
        else:
            out.append(t)
    return re.sub(r"(?<=\w)′", "'", "".join(out))


def braced(text, new, stay, crates):
    """Turns the names of a use list in braces, whose path stands before it."""
    def one(m):
        parts = m.group(1).split(".")
        ours = parts[0] == "Rattle" and len(parts) > 1 and parts[1] in crates
        if not ours:
            return m.group()
        names = [n.strip() for n in m.group(2).split(",")]
        return m.group().replace("{" + m.group(2) + "}", "{" + ", ".join(new.get(n, n) for n in names) + "}")
    return re.sub(r"(?m)^(?:ghost |pub )*use ([^\s{;]+?)\.\{([^}]*)\}", one, text)


def main():
    crates = own_crates()
    new, defined = table(crates)
    if "--list" in sys.argv:
        for k, v in sorted(new.items()):
            print(k, v)
        return
    for path in files():
        text = read(path)
        for name, folders in ALIKE.items():
            if any(path.startswith("crates/" + folder) for folder in folders):
                text = re.sub(r"(?<![\w.'-])" + name + r"(?![\w.'-])", name + "_lem", text)
        stay = {n for n in imported(text, crates) if n not in new or not CAMEL.match(n)}
        own_proof = path.count("/") > 3
        done = turn(braced(text, new, stay, crates), new, stay, own_proof, crates)
        if done != read(path):
            with open(path, "w", encoding="utf-8") as f:
                f.write(done)
    for path in sorted(glob.glob("crates/*/src/**/*.rt", recursive=True)):
        text = read(path)
        lines = []
        for line in text.split("\n"):
            code, slash, comment = line.partition("//")
            code = re.sub(W, lambda m: new.get(m.group(), m.group()) if CAMEL.match(m.group()) else m.group(), code)
            comment = re.sub(W, lambda m: new.get(m.group(), m.group()) if CAMEL.match(m.group()) else m.group(), comment)
            lines.append(code + slash + comment)
        done = "\n".join(lines)
        if done != text:
            with open(path, "w", encoding="utf-8") as f:
                f.write(done)


if __name__ == "__main__":
    main()
