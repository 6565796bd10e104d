#!/usr/bin/env python3
"""Brings the repository's own definitions and lemmas to the spelling of Rattle's kit 13: words in snake case, a dash only behind the name
of a definition or a type, rooms of lemmas in camel case.

usage: tools/port/names.py [--list] [FOLDER]     once, after the kit's port.py; FOLDER is a checkout's top (this one, if none is given)

A name that a library has too stays, and so do Rust's names, names in strings, and files that tools/walks made. Two names never fall
together: where the new spelling stands already, the name ends in _lem, and where that stands too, it stays and is printed.
"""

import os
import re
import sys

HERE = os.path.dirname(os.path.realpath(__file__))
WORD = r"[^\s(){};,.\"«»]+"
TOKEN = re.compile(r"\"(?:[^\"\\\n]|\\.)*\"|" + WORD)
DECLARED = re.compile(r"^\s*(?:(?:abbrev|unfoldable|pub)\s+)*(" + WORD + r"(?: " + WORD + r")*) :(?: |$)")
HEADED = re.compile(r"^\s*(?:pub )?(?:data|record) (" + WORD + ")")
USE = re.compile(r"\buse ([\w.+'·-]+?)\.?\{([^}]*)\}", re.S)
KEPT = {"pub", "abbrev", "unfoldable", "data", "record", "let", "use", "module", "where", "open", "mod", "in", "elim", "λ", "="}
# What the list library's lemmas are named after.
LISTS = set("length take drop append get_or set paste replicate map filter sum reverse fold max min pow add mul sub lt le".split())


def texts(root):
    for folder, dirs, files in os.walk(os.path.join(root, "crates")):
        dirs[:] = sorted(d for d in dirs if d not in ("out", "Walks", "must-fail"))
        if os.path.basename(folder) == "Proof":
            continue
        for f in sorted(files):
            if f.endswith((".antt", ".rt")):
                yield os.path.join(folder, f)


def is_walk(path):
    return os.path.basename(path) == "Proof.antt"


def codes(text, mark):
    """The lines of a text with their comments cut off."""
    for line in text.splitlines():
        at = line.find(mark)
        yield line if at < 0 else line[:at]


def snake(word):
    word = re.sub(r"([a-z0-9₀-₉])([A-Z])", lambda m: m[1] + "_" + m[2].lower(), word)
    return word


def spelled(name, known):
    """The new spelling of a lower-case name: its words are joined by _, and by a dash behind the name of something."""
    if not re.match(r"[a-zμκ]", name) or "·" in name or "ℕ" in name:
        return name
    words = [snake(w) for w in name.split("-")]
    if any(not w for w in words):
        return name
    made, at = "", 0
    while at < len(words):
        n = next((n for n in range(len(words) - at, 0, -1) if "_".join(words[at : at + n]) in known), 0)
        piece = "_".join(words[at : at + n]) if n else words[at]
        if not made:
            made = piece
        else:
            made += ("-" if n and was else "_") + piece if not was else "-" + piece
        was = bool(n)
        at += n or 1
    return made


def table(root):
    declared, foreign, files = {}, set(), []
    for path in texts(root):
        with open(path, encoding="utf-8") as f:
            text = f.read()
        for m in USE.finditer(text):
            if not m[1].startswith("Rattle.") or m[1].startswith(("Rattle.std", "Rattle.core")):
                foreign |= {w.strip() for part in m[2].split(",") for w in part.split(" as ")}
        bare = "\n".join(codes(text, "--" if path.endswith(".antt") else "//"))
        names = {t for t in TOKEN.findall(bare) if t[0] != '"'}
        if path.endswith(".rt"):
            # What a parameter, a local or a constant is called hides a definition of the name.
            files.append((names, set(re.findall(r"\b(\w+)\s*:(?!:)", bare)) | set(re.findall(r"\b(?:let|mut|for|const|struct|enum) (\w+)", bare))))
            continue
        # A name behind a dot is a module's or a field's, and hides nothing.
        files.append((names, {t for t in TOKEN.findall(re.sub(r"\.[^\s(){};,.\"«»]+", " ", bare)) if t[0] != '"'}))
        if is_walk(path):
            continue
        for line in bare.splitlines():
            m = DECLARED.match(line)
            if m and not KEPT & set(m[1].split()):
                for n in m[1].split():
                    declared.setdefault(n, set()).add("/specs/" in path and not line.startswith(" "))
    known = LISTS | {snake(n) for n, where in declared.items() if True in where and "-" not in n and n[0].islower()}
    known |= {n for n in foreign if "-" not in n and n[:1].islower() and len(n) > 2}
    to, kept = {}, []
    taken = set(declared) | foreign | KEPT
    # Definitions choose first, then what was in camel case; who comes late gets the ending that a lemma gets beside its function.
    for n in sorted(declared, key=lambda n: (True not in declared[n], "-" in n, n)):
        new = spelled(n, known)
        if new == n or n in foreign:
            continue
        hiding = set().union(*(h for names, h in files if n in names))
        new = next((w for w in (new, new + "_lem") if w not in taken and w not in hiding), None)
        if new is None:
            kept.append((n, spelled(n, known)))
            continue
        taken.add(new)
        to[n] = new
    return to, kept


def turned(text, to, mark):
    out = []
    for line in text.splitlines(keepends=True):
        at = line.find(mark)
        code, rest = (line, "") if at < 0 else (line[:at], line[at:])
        code = TOKEN.sub(lambda m: m[0] if m[0][0] == '"' else to.get(m[0], m[0]), code)
        rest = re.sub(r"[A-Za-z0-9₀-₉'_-]+", lambda m: to.get(m[0], m[0]) if re.search(r"[a-z][A-Z]", m[0]) else m[0], rest)
        out.append(code + rest)
    return "".join(out)


def camel(room):
    return room[0].upper() + room[1:]


def rooms(root):
    """The folders of lemmas in laws/proofs, whose names are modules."""
    inside = os.path.join(root, "crates", "laws", "proofs")
    return [d for d in sorted(os.listdir(inside)) if os.path.isdir(os.path.join(inside, d)) and d[0].islower()]


def main(argv):
    listing = "--list" in argv
    argv = [a for a in argv if a != "--list"]
    root = os.path.abspath(argv[0]) if argv else os.path.dirname(os.path.dirname(HERE))
    to, kept = table(root)
    for n, new in kept:
        print(f"stays, since {new} stands already: {n}")
    if listing:
        for n in sorted(to):
            print(f"{n}\t{to[n]}")
        return 0
    named = rooms(root)
    path = re.compile(r"\bRattle\.laws\.proofs\.(" + "|".join(named or ["-"]) + r")(?![\w'-])")
    for p in list(texts(root)):
        with open(p, encoding="utf-8") as f:
            text = f.read()
        new = turned(text, to, "--" if p.endswith(".antt") else "//")
        new = path.sub(lambda m: "Rattle.laws.proofs." + camel(m[1]), new)
        if p.endswith("laws/proofs/Lib.antt"):
            new = re.sub(r"(?m)^((?:pub )?mod )(" + "|".join(named or ["-"]) + r")$", lambda m: m[1] + camel(m[2]), new)
        if new != text:
            with open(p, "w", encoding="utf-8") as f:
                f.write(new)
    inside = os.path.join(root, "crates", "laws", "proofs")
    for d in named:
        os.rename(os.path.join(inside, d), os.path.join(inside, camel(d)))
        if os.path.exists(os.path.join(inside, d + ".antt")):
            os.rename(os.path.join(inside, d + ".antt"), os.path.join(inside, camel(d) + ".antt"))
    print(f"{len(to)} names respelled, {len(kept)} kept, {len(named)} rooms")
    return 0


if __name__ == "__main__":
    raise SystemExit(main(sys.argv[1:]))
