#!/usr/bin/env python3
"""Respells a repository's own words and lemmas in snake case, in every file that names them.

usage: respell.py [--write] [OLD=NEW..] [TOP]      without --write it only lists the renamings and what falls together; OLD=NEW chooses a name, as CHOSEN does

A name is one of ours if a file below crates/*/specs or crates/*/proofs declares it. `zeroState` becomes `zero_state`; in specs/ a dash becomes `_`
too (`never-zero` to `never_zero`). Lemmas of proofs/ keep their dashes, which join names, as `length-swap` does.
Functions of src/, exported C names, strings and numbers keep their spelling. Texts outside crates/ are respelled inside `backticks` alone.
"""
import glob, os, re, sys, collections

TOKEN = re.compile(r"[A-Za-zμλκσρτ_ℕ][\w'′₀-₉ℕ]*(?:-[\w'′₀-₉ℕ]+)*")
HEAD = re.compile(r"^(\s*)((?:(?:pub|unfoldable|abbrev|opaque|private|instance)\s+)*)([^\s:(){}\[\]=]+)((?:\s+[^\s:(){}\[\]=]+)*)\s*:\s")
GENERATED = re.compile(r"^(loop|invariant|decreases|returns|the-|Need|At|In|After|Then|Else|enum|struct|slice|cast|add|sub|mul|bounds|same|overflow|element|shr|shl|rem|div|nonzero|way|if\d|shared|well|index)-")
# `reads_on` is a field and a lemma already, and what was `getD` is `get_or` now.
CHOSEN = {"readsOn": "row_reads_on", "getD-exchanged": "get_or-exchanged", "getD-le-total": "get_or-le-total"}
KIT = os.environ.get("RATTLE_KIT") or os.path.dirname(os.path.dirname(os.path.realpath(os.popen("rt doc").read().strip() or "/")))


def snake(name):
    parts = []
    for part in name.split("-"):
        part = re.sub(r"(?<=[a-z0-9'])([A-Z])", lambda m: "_" + m.group(1).lower(), part) if re.match(r"[a-zμ]", part) else part
        parts.append(part)
    return "-".join(parts).replace("′", "'")


def code(text):
    return re.sub(r"--.*", "", text)


def declared(path):
    """Names that the file declares at its top, and the fields and constructors of its records and data."""
    names = []
    for line in code(open(path, encoding="utf-8").read()).splitlines():
        m = HEAD.match(line)
        if m and (m.group(1) == "" or re.match(r"\s+pub\s", line) or m.group(1) == "  "):
            names += [m.group(3)] + m.group(4).split()
    return [n for n in names if TOKEN.fullmatch(n) and re.match(r"[a-zμ]", n)]


def main(argv):
    write = "--write" in argv
    top = next((a for a in argv if not a.startswith("--") and "=" not in a), ".")
    chosen = CHOSEN | dict(a.split("=") for a in argv if "=" in a)
    os.chdir(top)
    specs = glob.glob("crates/*/specs/**/*.antt", recursive=True)
    proofs = glob.glob("crates/*/proofs/**/*.antt", recursive=True)
    ours = collections.defaultdict(set)
    for f in specs + proofs:
        for n in declared(f):
            ours[n].add(f)
    std = set()
    for f in glob.glob(os.path.join(KIT, "rattle", "std", "**", "*.antt"), recursive=True):
        std |= set(TOKEN.findall(code(open(f, encoding="utf-8", errors="replace").read())))
    to = {}
    for n in sorted(ours):
        if GENERATED.match(n) and all("/proofs/" in f and os.path.basename(f) == "Proof.antt" for f in ours[n]):
            continue
        s = snake(n)
        if "-" in s and any("/specs/" in f for f in ours[n]):
            s = s.replace("-", "_")
        if s != n:
            to[n] = s
    # lower camel case that nothing declares at a line's head is a variable: the same rule
    for f in specs + proofs:
        for t in TOKEN.findall(code(open(f, encoding="utf-8").read())):
            if re.match(r"[a-z]", t) and re.search(r"[A-Z]", t) and "-" not in t and t not in to and t not in std:
                to[t] = snake(t)
    to.update(chosen)
    # a lemma that has the name already gets `_lem` where both stand in one file; elsewhere the two never meet
    named = {}
    for f in specs + proofs + glob.glob("crates/*/src/**/*.rt", recursive=True):
        named[f] = set(TOKEN.findall(code(open(f, encoding="utf-8").read())))
    fall = 0
    for n, s in sorted(to.items()):
        if s in ours and s not in to and any({n, s} <= names for names in named.values()):
            if all("/proofs/" in f for f in ours[s]) and not any(f.endswith(".rt") and s in names for f, names in named.items()):
                to[s] = s + "_lem"
                print(f"{n} becomes {s}, so the lemma {s} becomes {s}_lem")
            else:
                fall += 1
                print(f"falls together: {n} and {s}")
    back = collections.defaultdict(set)
    for n, s in to.items():
        back[s].add(n)
    for s, ns in sorted(back.items()):
        if len(ns) > 1:
            fall += 1
            print(f"falls together: {' and '.join(sorted(ns))} as {s}")
        if s in std and not ns & std:
            print(f"a word of std has this name too: {', '.join(sorted(ns))} as {s}")
    print(f"{len(to)} names to respell, {fall} fall together")
    if not write:
        for n, s in sorted(to.items()):
            print(f"  {n} -> {s}")
        return 1 if fall else 0
    one = lambda m: to.get(m.group(0), m.group(0))
    source = set()
    for f in glob.glob("crates/*/src/**/*.rt", recursive=True):
        source |= {w for w in re.findall(r"[A-Za-z]\w*", open(f, encoding="utf-8").read()) if "_" in w}
    dashed = lambda m: m.group(0).replace("-", "_") if m.group(0)[1:].replace("-", "_") in source else m.group(0)
    changed = 0
    for f in specs + proofs + glob.glob("crates/*/src/**/*.rt", recursive=True) + glob.glob("crates/*/must-fail/*.edit") + glob.glob("tests/edits/**/*.edit", recursive=True):
        t = open(f, encoding="utf-8").read()
        if f.endswith(".antt"):
            n = TOKEN.sub(one, t)
            n = re.sub(r"\.[a-z][\w'-]*-[\w'-]*", dashed, n)  # fields of structs keep their spelling
        else:
            quoted = re.split(r'("(?:[^"\\\n]|\\.)*")', t)
            n = "".join(q if i % 2 else TOKEN.sub(one, q) for i, q in enumerate(quoted))
        if n != t:
            open(f, "w", encoding="utf-8").write(n)
            changed += 1
    for f in glob.glob("docs/**/*.md", recursive=True) + glob.glob("*.md") + glob.glob("rust/**/*.md", recursive=True):
        t = open(f, encoding="utf-8").read()
        n = re.sub(r"`[^`\n]*`", lambda m: TOKEN.sub(one, m.group(0)), t)
        if n != t:
            open(f, "w", encoding="utf-8").write(n)
            changed += 1
    print(f"{changed} files written")
    return 0


if __name__ == "__main__":
    raise SystemExit(main(sys.argv[1:]))
