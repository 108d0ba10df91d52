#!/usr/bin/env python3
"""Brings the repository's own definitions, fields and lemmas to today's spelling: words in snake case, `'` for a prime.

usage: python3 tools/respell.py        at the top of a checkout, once, right after the kit's port.py

A name is one that a file of specs/ or proofs/ declares or binds. Names of the library (imported from any module that is not the
repository's), names that the check makes for goals (`name : tie.Need-..`, and what stands behind `tie.`), functions of src/, exported
names and strings stay. Types and modules keep their upper camel case. A lemma that would get the name of a definition gets `_lem`.
It turns crates/*/specs, crates/*/proofs, the clauses and `ghost use` lines of crates/*/src, and the texts of must-fail edits.
"""
import collections
import glob
import os
import re

TOKEN = re.compile(r"--[^\n]*|\"(?:[^\"\\\n]|\\.)*\"|[^\s(){};,.\"\[\]@\\]+")
LIBRARY = ("Rattle.std", "Rattle.core")
# names that meet another one of the same spelling, and what they are called instead, by file
APART = {
    "crates/model/proofs/Bundle.antt": {"entry-at": "entry_at_lem"},
    "crates/model/proofs/Writer.antt": {"head_bytes": "head_bytes_lem"},
    "crates/model/proofs/Clashes.antt": {"pair_place": "pair_place_lem"},
    "crates/model/proofs/Stages.antt": {"not_after": "not_after_lem"},
    "crates/session/proofs/Calls.antt": {"went_back": "went_back_lem"},
}
EVERYWHERE = {"atBound": "at_bound_count", "cycle-of": "cycle_of", "free-left": "free_left", "starts-left": "starts_left", "is-legal": "is_legal", "legal-at": "legal_at"}


def own(module):
    return module.startswith("Rattle.") and not module.startswith(LIBRARY)


def spelled(name):
    """The name in snake case."""
    name = name.replace("getD", "get_or").replace("get_d", "get_or").replace("′", "'")
    return re.sub(r"([a-z0-9])([A-Z])", lambda m: m[1] + "_" + m[2].lower(), name).replace("-", "_")


def odd(name):
    """Whether the name is a word of the old spelling."""
    return bool(re.search(r"[A-Za-z0-9']-[A-Za-z0-9]|[a-z0-9][A-Z]|′|get_d_", name)) and not name[0].isupper() and "◌" not in name


def turned(text, names, walk=False):
    def one(m):
        k = m[0]
        if k.startswith("--"):
            return re.sub(r"`([^`\n]*)`", lambda q: "`" + TOKEN.sub(lambda t: names.get(t[0], t[0]), q[1]) + "`", k)
        if k.startswith('"'):
            return k
        if m.start() >= 4 and text[m.start() - 4 : m.start()] == "tie.":
            return k
        new = names.get(k, k)
        # behind a dot, a walk through code names a step of the code
        return spelled(k) if walk and new.endswith("_lem") and text[m.start() - 1 : m.start()] == "." else new

    return TOKEN.sub(one, text)


def read(path):
    with open(path, encoding="utf-8") as f:
        return f.read()


def write(path, text):
    with open(path, "w", encoding="utf-8") as f:
        f.write(text)


def main():
    shared = sorted(glob.glob("crates/*/specs/**/*.antt", recursive=True) + glob.glob("crates/*/proofs/*.antt"))
    walks = sorted(p for p in glob.glob("crates/*/proofs/*/**/*.antt", recursive=True) if p not in shared)
    texts = {p: read(p) for p in shared + walks}
    library, found = set(), collections.Counter()
    for p, text in texts.items():
        for m in re.finditer(r"^(?:pub )?use ([\w.+ℤℕ-]+?)\.\{([^}]*)\}", text, re.M):
            if not own(m[1]):
                library |= {n.strip().split(" as ")[0].strip() for n in m[2].split(",")}
    for p in shared:
        for m in TOKEN.finditer(texts[p]):
            if not m[0].startswith(("--", '"')):
                found[m[0]] += 1
    camel = {spelled(k) for k in found if odd(k) and "-" not in k and re.search("[a-z0-9][A-Z]", k)}
    lemmas = set()
    for p in shared:
        lemmas |= set(re.findall(r"^(?:module _.*\n)? *(?:pub )?([a-z][\w'-]*-[\w'-]+)(?: \{[^}]*\})* :", texts[p], re.M))
    names = {}
    for k in found:
        if odd(k) and k not in library:
            new = EVERYWHERE.get(k, spelled(k))
            names[k] = new + "_lem" if k not in EVERYWHERE and k in lemmas and (new in camel or new in library or new in found and new == "flat_map") else new
    for p in shared:
        write(p, turned(texts[p], {**names, **APART.get(p, {})}))
    for p in walks:
        text = texts[p]
        goals = set(re.findall(r"^([\w'-]+) : tie\.", text, re.M))
        here = {k: v for k, v in names.items() if k not in goals}
        for k in re.findall(r"^(?:pub |abbrev )*([a-z][\w'-]*)(?: \{[^}]*\})* :(?! tie\.)", text, re.M):
            if odd(k) and k not in library:
                here.setdefault(k, spelled(k))
        write(p, turned(text, here, walk=True))
    plain = {k: v for k, v in names.items() if not re.fullmatch(r"[a-z]+-[a-z]+", k) or k in lemmas or found[k] > 0}
    for p in sorted(glob.glob("crates/*/src/**/*.rt", recursive=True)):
        text = read(p)
        lines = []
        for line in text.split("\n"):
            at = line.find("//")
            head, tail = (line, "") if at < 0 else (line[:at], line[at:])
            head = turned(head, plain) if re.search("ghost|requires|ensures|invariant|[{≡→λ×∧]", head) else head
            tail = re.sub(r"`([^`\n]*)`", lambda q: "`" + TOKEN.sub(lambda t: plain.get(t[0], t[0]), q[1]) + "`", tail)
            lines.append(head + tail)
        write(p, "\n".join(lines))
    for p in sorted(glob.glob("crates/*/must-fail/*.edit")):
        write(p, "\n".join(turned(line, plain) if line.startswith(("old:", "new:")) else line for line in read(p).split("\n")))
    clash = collections.defaultdict(set)
    for k, v in names.items():
        clash[v].add(k)
    for v, ks in sorted(clash.items()):
        if len(ks) > 1 or v in found and v not in ks and odd(next(iter(ks))):
            print("meet:", v, sorted(ks), "also there" if v in found else "")
    print("names:", len(names))


main()
