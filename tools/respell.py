#!/usr/bin/env python3
"""Brings the repository's own definitions and lemmas to the spelling of today's Rattle: words in snake case, facts in camel case.

usage: tools/respell.py [ROOT]     after port.py, once; rewrites crates/, README.md and docs/ in place
       tools/respell.py --list [ROOT]   says what it would rename, a name a line, and writes nothing

A name is the repository's own where a signature in specs/*.antt or proofs/*.antt declares it, or where a lemma there binds it.
Functions of src/, exported names, strings, inputs and outputs have no such names: theirs are in snake case already.
A dash stays where it joins two names that are themselves defined (`every-append`), and is `_` between plain words. A lemma whose
name would fall together with a definition's gets `_lem`.
"""
import collections
import glob
import os
import re
import sys

SIGNATURE = re.compile(r"^\s*(?:(?:pub|abbrev|unfoldable)\s+)*([^\s:(){}]+)\s*:(?!=)\s(.*)$")
TOKEN = re.compile(r"[A-Za-zℕ][A-Za-z0-9_'≢≡≤ℕ]*(?:-[A-Za-z0-9_'≢≡≤ℕ<+*&/]+)*")
USE = re.compile(r"^\s*(?:ghost )?use ([^\s{;]+?)(?:\.\{([^}]*)\})?(?: as \S+)?;?\s*$")
# names of the library that stand behind a path
LEAVE = {"suc-suc"}
# names that share a line with others, or are given by `as`
ALSO = {"writeK": "write_k", "readK": "read_k", "noW": "no_w", "noZ": "no_z"}
ALSO |= {"a" + n: "a_" + n.lower() for n in "Host Chunk Block Place Clock Time Value".split()}
# words of the library that lemma names are made of
LIBRARY = set("length take drop set get get_or append cons reverse map replicate zero suc add sub mul eqb ltb leb not sum".split())


def read(path):
    with open(path, encoding="utf-8") as f:
        return f.read()


def declared(root):
    """Each name that a signature declares, with the rest of its first line."""
    found = {}
    for path in sorted(glob.glob(root + "/crates/*/specs/*.antt") + glob.glob(root + "/crates/*/proofs/*.antt")):
        for line in read(path).splitlines():
            m = SIGNATURE.match(line)
            if m and not line.strip().startswith("--"):
                found.setdefault(m.group(1), []).append((path, m.group(2)))
    return found


def crates(root):
    return {c for c in os.listdir(root + "/crates") if os.path.isdir(root + "/crates/" + c)}


def imported(text, own):
    """The names that a file takes from outside the repository."""
    names = set()
    for line in text.splitlines():
        m = USE.match(line)
        if m and m.group(2) and not (m.group(1).split(".")[0] == "Rattle" and m.group(1).split(".")[1] in own):
            for n in m.group(2).split(","):
                names.update(n.strip().split(" as "))
    return names


def words(name):
    """Camel case to snake case; a dash is left."""
    name = re.sub(r"(?<=[a-z0-9])([A-Z]+)(?=$|[-_'\d])", lambda m: "_" + m.group(1).lower(), name)
    return re.sub(r"(?<=[a-z0-9])([A-Z])", lambda m: "_" + m.group(1).lower(), name)


def spelled(name, names, fact):
    if fact:
        return name[0].upper() + name[1:].replace("-", "_") if "_" not in name else "".join(w[0].upper() + w[1:] for w in name.split("_"))
    if name[0].isupper() and not re.match(r"[A-Z][a-z]*-", name):
        return name
    parts = name.split("-")
    joined = "-" if all(p in names or p in LIBRARY for p in parts) else "_"
    return joined.join(p if p[:1].isupper() else words(p) for p in parts)


def table(root):
    found = declared(root)
    own = crates(root)
    facts = {n for n, at in found.items() if n[0].islower() and any(re.search(r"Type 0\s*$", rest) for _, rest in at)}
    renamed = {n: spelled(n, found, n in facts) for n in found if re.match(r"[A-Za-z]", n)}
    # the uniqueness of a function's answer: its name keeps its spelling, and a dash joins it to the word
    for n, at in found.items():
        if n.endswith("-unique") and at[0][0].endswith("/proofs/Unique.antt") and "/rules/" not in at[0][0]:
            renamed[n] = n[: -len("-unique")].replace("-", "_") + "-unique"
    # names that a lemma binds: a dash there is between plain words
    for path in glob.glob(root + "/crates/*/proofs/*.antt"):
        text = read(path)
        outside = imported(text, own)
        for n in set(TOKEN.findall(re.sub(r"--.*", "", text))):
            if n not in renamed and n not in outside and n not in LEAVE and ("-" in n or n == "New-is") and not n.startswith("Rattle"):
                renamed[n] = n.replace("-", "_") if n != "New-is" else "new_is"
    renamed = {n: to for n, to in (renamed | ALSO).items() if n != to}
    # where two would fall together, the definition has the name and the lemma `_lem`
    taken = {to for n, to in renamed.items() if "-" not in n} | {n for n in found if n not in renamed}
    renamed = {n: to + "_lem" if "-" in n and to in taken else to for n, to in renamed.items()}
    return renamed, found


def lemmas(root, renamed, found):
    """Lemmas spelled so already whose name a definition now takes: each with its module."""
    of_camel = {to for n, to in renamed.items() if "-" not in n}
    return {n: {p[len(root) :].replace("/crates/", "Rattle.").replace("/", ".")[: -len(".antt")] for p, _ in found[n]} for n in of_camel if n in found}


def lent(text, path, root, clash, own):
    """The lemmas of `clash` that a file declares or takes in, with their new names."""
    module = path[len(root) :].replace("/crates/", "Rattle.").replace("/", ".")[: -len(".antt")]
    here = {n for n, at in clash.items() if module in at}
    for line in text.splitlines():
        m = USE.match(line)
        if m and m.group(2):
            here.update(n for n in re.split(r"[,\s]+", m.group(2)) if m.group(1) in clash.get(n, ()))
    return {n: n + "_lem" for n in here}


def turned(text, renamed, skip):
    text = re.sub(r"◌([a-z]+[A-Z]\w*)◌", lambda m: "◌%s◌" % words(m.group(1)), text)
    return TOKEN.sub(lambda m: m.group(0) if m.group(0) in skip else renamed.get(m.group(0), m.group(0)), text)


def main(argv):
    only_list = "--list" in argv
    root = ([a for a in argv if not a.startswith("--")] or ["."])[0]
    renamed, found = table(root)
    own = crates(root)
    clash = lemmas(root, renamed, found)
    together = collections.defaultdict(set)
    for n, to in renamed.items():
        together[to].add(n)
        if to in found and to != n:
            together[to].add(to)
    if only_list:
        for n in sorted(renamed):
            print(n, renamed[n])
        for n in sorted(clash):
            print("lemma", n, sorted(clash[n]))
        for to, ns in sorted(together.items()):
            if len(ns) > 1:
                print("fall together:", to, sorted(ns))
        return 0
    prose = {n for n in renamed if re.fullmatch("[a-z]+", n)}  # words of the language too: names in .antt alone
    paths = [p for p in glob.glob(root + "/crates/**/*", recursive=True) if p.endswith((".antt", ".rt", ".edit")) and "/out/" not in p]
    for path in paths:
        text = read(path)
        plain = set() if path.endswith(".antt") else prose
        new = turned(text, renamed | lent(text, path, root, clash, own), imported(text, own) | plain)
        if new != text:
            with open(path, "w", encoding="utf-8") as f:
                f.write(new)
    for path in [root + "/README.md"] + glob.glob(root + "/docs/*.md"):
        if path.endswith("PORT.md"):
            continue
        text = read(path)
        new = re.sub(r"`[^`\n]+`|\|[^\n]*\|", lambda m: turned(m.group(0), renamed, prose), text)
        if new != text:
            with open(path, "w", encoding="utf-8") as f:
                f.write(new)
    return 0


if __name__ == "__main__":
    raise SystemExit(main(sys.argv[1:]))
