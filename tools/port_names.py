#!/usr/bin/env python3
"""Brings the repository's own definitions and lemmas to snake case, once, after the toolchain's own port script.

usage: python3 tools/port_names.py      at the top of the repository

In specs/ and proofs/: a name in camel case that begins in lower case becomes snake case, and the dashes of a name become
underscores, but that a dash behind a definition's name stays (tabulateFrom-at is tabulate_from-at). A lemma that would then have
a definition's name gets _lem. In src/: the names in clauses and ghost imports alone. Functions, fields, exported names and
strings of src/ keep their spelling, and so do the names of the library.
"""
import collections
import glob
import os
import re
import sys

ID = r"[^\W\d][\w'·-]*"
HEAD = r"\s*(?:abbrev |unfoldable |pub )*"


def own_names(files):
    """Where each name is defined: a signature, a field, a constructor, a type."""
    own = collections.defaultdict(set)
    for path in files:
        generated = path.endswith(("/Proof.antt", "/Invariants.antt", "/Answers.antt"))
        for line in open(path, encoding="utf-8"):
            m = re.match(HEAD + r"((?:" + ID + r"\s+)*" + ID + r")\s*:\s", line)
            if m and not (generated and re.search(r":\s+tie\.|:\s+\{M : ", line)):
                for name in m.group(1).split():
                    own[name].add(path)
            m = re.match(HEAD + r"(?:data|record)\s+(?:pub\s+)?(" + ID + ")", line) or re.match(r"\s*\|\s*(" + ID + r")\s*:", line)
            if m:
                own[m.group(1)].add(path)
    return own


def library_names(files):
    """The names that some file imports from elsewhere than the repository's own crates."""
    crates = {p.split("/")[1] for p in files}
    out = set()
    for path in files:
        for where, names in re.findall(r"^(?:ghost )?use ([\w.·+]+)\.\{([^}]*)\}", open(path, encoding="utf-8").read(), re.M):
            parts = where.split(".")
            if parts[0] != "Rattle" or parts[1] not in crates or ".declared" in where:
                out |= {n.strip().split(" as ")[0] for n in names.split(",")}
    return out


def camel(name):
    return re.sub(r"([a-z0-9])([A-Z])", lambda m: m.group(1) + "_" + m.group(2).lower(), name)


def main():
    files = sorted(glob.glob("crates/*/specs/**/*.antt", recursive=True) + glob.glob("crates/*/proofs/**/*.antt", recursive=True))
    sources = sorted(glob.glob("crates/*/src/**/*.rt", recursive=True))
    own = own_names(files)
    library = library_names(files + sources)
    new = {}
    for name in sorted(own):
        if not name[0].islower():
            continue
        head, dash, tail = name.partition("-")
        if dash and re.search("[A-Z]", head):
            to = camel(head) + "-" + camel(tail).replace("-", "_")
        else:
            to = camel(name).replace("-", "_")
        if to != name:
            new[name] = to
    both = sorted(n for n in new if n in library)
    for n in both:
        print("kept, a name of the library too:", n, sorted(own[n]))
        del new[n]
    # The library's script has given this lemma the name that its definition now gets.
    if "productValue" in new and "product_value" in own:
        new["product_value"] = "product_value_lem"
    # Where two names would fall together the lemma, the one with a dash, or else the later one, gets _lem.
    taken = {n for n in own if n not in new} | library
    taken |= {to for to in new.values() if to.endswith("_lem")}
    for name in sorted((n for n in new if not new[n].endswith("_lem")), key=lambda n: ("-" in n, n)):
        to = new[name]
        while to in taken:
            to += "_lem"
        if to != new[name]:
            print("would fall together:", name, "->", to)
        new[name] = to
        taken.add(to)
    token = re.compile(r"(?<![\w'·-])" + ID)
    swap = lambda m: new.get(m.group(0), m.group(0))

    def tokens(text):
        # A dash that ends a token is no part of a name, and neither is a field behind a dash.
        return token.sub(swap, text)

    for path in files:
        text = open(path, encoding="utf-8").read()
        out = "".join(l if l.lstrip().startswith("--") else tokens(l) for l in text.splitlines(keepends=True))
        if out != text:
            open(path, "w", encoding="utf-8").write(out)
    clause = re.compile(r"^\s*(?:ghost use|requires|ensures|ghost)\b")
    for path in sources:
        lines = open(path, encoding="utf-8").read().splitlines(keepends=True)
        out, depth = [], 0
        for line in lines:
            if depth or clause.match(line):
                depth += line.count("{") - line.count("}")
                depth = max(depth, 0)
                line = tokens(line)
            out.append(line)
        if out != lines:
            open(path, "w", encoding="utf-8").write("".join(out))
    with open("/tmp/port_names.txt", "w", encoding="utf-8") as f:
        for name in sorted(new):
            f.write(f"{name} {new[name]}\n")
    print(len(new), "names; the list is in /tmp/port_names.txt")


if __name__ == "__main__":
    sys.exit(main())
