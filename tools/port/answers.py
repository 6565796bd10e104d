#!/usr/bin/env python3
"""Turns a crate's Proof.antt files, which answered each need by its place in a chain, into Invariants.antt and Answers.antt.

usage: tools/port/answers.py CRATE NAMES

CRATE is the crate's folder, NAMES the names.json that `rattle check --generated DIR --old-names` writes for it. An answer that was
`search rules` is left to the check. What it could not turn it names in a line that begins 'left:'.
"""

import json
import os
import re
import sys

W = r"[^\s(){};,.\"«»\[\]]+"
PATH = re.compile(r"(?<![\w.'₀-₉-])(" + W + r")((?:\." + W + r")*)")
# names.py may have taken a step for a lemma of its name.
plain = lambda s: re.sub("-lem$", "", s.replace("_", "-"))


def clause_of(path, n):
    """Which of n clauses a path into the nested pairs of them leads to, and the rest of the path; None if it leads to several."""
    k, at = 0, 0
    while k < n - 1:
        if at == len(path) or path[at] not in ("0", "1"):
            return None
        at += 1
        if path[at - 1] == "0":
            break
        k += 1
    return k, path[at:]


left = []


class Function:
    def __init__(self, names):
        self.names = names
        self.places = names["places"]
        self.at = {p[0]: i for i, p in enumerate(self.places)}
        self.needs = {}
        for i, (old, new) in enumerate(names["needs"]):
            self.needs[plain(old)] = (old, new, names["asked_at"][i][0] if i < len(names["asked_at"]) else None)

    def need(self, word):
        """The need that a proof calls Need-WORD."""
        word = plain(word)
        for w in (word, re.sub(r"^(overflow|nonzero|bounds)-", "", word), re.sub(r"^slice-bounds-", "part-", word)):
            if w in self.needs:
                return self.needs[w]
        return None

    def above(self, place):
        """The places from this one up to the start, the nearest first."""
        out = []
        while place is not None and place in self.at:
            out.append(self.at[place])
            place = self.places[self.at[place]][1]
        return out

    def turned(self, fields, place):
        """What a path of fields behind c is called today, as a list."""
        fields = list(fields)
        while fields and fields[0] == "before":
            fields.pop(0)
        if not fields:
            return []
        first = plain(fields[0])
        chain = self.above(place) if place else range(len(self.places))
        names = self.names
        if first == "requires" and names["pre"] and len(fields) > 1 and fields[1] in ("0", "1"):
            clauses = names["pre"]["fields"]
            found = clause_of(fields[1 + names["pre"]["before"] :], len(clauses))
            return ["requires", clauses[found[0]], *found[1]] if found else None
        for i in chain:
            for var, step in names["typed"][i] if i < len(names["typed"]) else []:
                if plain(step) == first and (len(fields) == 1 or fields[1] not in ("result", "ensures", "new")):
                    rest = fields[1:]
                    return ["type_inv", var, *(rest[1:] if rest[:1] == ["given"] else rest)]
        best, own, is_part = None, None, False
        for i in chain:
            arm = names["arms"][i] if i < len(names["arms"]) else None
            for new, step, path in arm[2] if arm else []:
                if plain(step) != first:
                    continue
                if new.endswith("-own"):
                    own = own or [arm[0], new, *fields[1:]]
                    continue
                wanted, given = [plain(x) for x in path], [plain(x) for x in fields[1 : 1 + len(path)]]
                if wanted == given and (best is None or len(path) > best[0]):
                    best = (len(path), [arm[0], new, *fields[1 + len(path) :]])
                is_part = is_part or (len(given) < len(wanted) and wanted[: len(given)] == given)
        if best:
            return best[1]
        if is_part:
            return None
        if own:
            return own
        for i in chain:
            old, new = self.places[i][2]
            if plain(old) != first or not old:
                continue
            rest = fields[1:]
            for a, b in self.places[i][4]:
                if rest and plain(a) == plain(rest[0]):
                    rest = [b, *rest[1:]]
                    break
            clause = names["clauses"][i] if i < len(names["clauses"]) else None
            if clause and len(clause["fields"]) > 1 and len(rest) > 1 and rest[0] == "ensures" and rest[1] in ("0", "1"):
                found = clause_of(rest[1:], len(clause["fields"]))
                if not found:
                    return None
                rest = ["ensures", clause["fields"][found[0]], *found[1]]
            params = names["params"].get(self.places[i][3]) or []
            if len(rest) > 1 and rest[0] in ("new", "auto", "kept"):
                k = 1
                while k < len(rest) and rest[k] == "1":
                    k += 1
                if k < len(rest) and rest[k] == "0" and k - 1 < len(params):
                    rest = [rest[0], params[k - 1], *rest[k + 1 :]]
            return [new, *rest]
        return fields


def body_turned(f, text, place, where):
    """The text of an answer with its paths turned. A local that only goes up the chain is c itself."""
    env = {"c": []}

    def path(m):
        head, rest = m[1], [x for x in m[2].split(".") if x]
        if head not in env:
            return m[0]
        full = env[head] + rest
        new = f.turned(full, place)
        if new is None:
            left.append(f"{where}: {'.'.join(full)} leads to several things")
            return ".".join(["c", *full])
        if head == "c" or not env[head]:
            return ".".join(["c", *new])
        stem = f.turned(env[head], place)
        if stem is not None and new[: len(stem)] == stem:
            return ".".join([head, *new[len(stem) :]])
        return ".".join(["c", *new])

    out, at = [], 0
    token = re.compile(r"let (" + W + r") = (" + W + r"(?:\." + W + r")*) in\s*|" + PATH.pattern)
    for m in token.finditer(text):
        if m.start() < at:
            continue
        out.append(text[at : m.start()])
        at = m.end()
        if m[1]:
            head, *rest = m[2].split(".")
            if head in env:
                full = env[head] + rest
                env[m[1]] = full
                new = f.turned(full, place)
                if new is None:
                    continue
                if not new:
                    env[m[1]] = []
                    continue
                whole = PATH.match(m[2])
                out.append(f"let {m[1]} = {path(whole)} in" + m[0][m[0].rindex(" in") + 3 :])
            else:
                env.pop(m[1], None)
                out.append(m[0])
        else:
            out.append(path(re.match(PATH.pattern, m[0])))
    out.append(text[at:])
    return "".join(out)


def top_split(text, sep=","):
    parts, depth, start = [], 0, 0
    for i, ch in enumerate(text):
        if ch in "([{":
            depth += 1
        elif ch in ")]}":
            depth -= 1
        elif ch == sep and depth == 0:
            parts.append(text[start:i])
            start = i + 1
    parts.append(text[start:])
    return [p.strip() for p in parts]


def as_record(body, clauses, where):
    """A nest of pairs as the record of the clauses' names."""
    text = body.rstrip()
    n = len(clauses)
    if text.strip() == "search rules":
        return text
    if text.endswith(")"):
        depth, i = 0, len(text) - 1
        while i >= 0:
            depth += (text[i] == ")") - (text[i] == "(")
            if depth == 0:
                break
            i -= 1
        before = text[:i].rstrip()
        parts, last = [], text[i:]
        while len(parts) < n - 1 and last.startswith("("):
            pair = [p for p in top_split(last[1:-1]) if p]
            if len(pair) != 2:
                break
            parts.append(pair[0])
            last = pair[1]
        if len(parts) == n - 1 and (not before or before.endswith((" in", "\nin", "λ _.")) or before == "in"):
            return f"{text[:i]}record {{ " + "; ".join(f"{c} = {p}" for c, p in zip(clauses, [*parts, last])) + " }"
    paths = [".1" * i + (".0" if i < n - 1 else "") for i in range(n)]
    return f"let told = {text} in record {{ " + "; ".join(f"{c} = told{p}" for c, p in zip(clauses, paths)) + " }"


def blocks(text):
    out, now = [], []
    for line in text.split("\n"):
        if line and not line[0].isspace() and now and (not now[-1].strip() or now[-1].startswith("use ")):
            out.append("\n".join(now).rstrip())
            now = []
        now.append(line)
    out.append("\n".join(now).rstrip())
    return [b for b in out if b.strip()]


def sub_words(text, to):
    return re.sub(r"(?<![\w.'₀-₉-])(" + W + ")", lambda m: to.get(m[1], m[1]), text)


def convert(crate, name, names, folder, path):
    """The two files' texts for a Proof.antt."""
    f = Function(names)
    with open(path, encoding="utf-8") as it:
        text = it.read()
    home = f"Rattle.{name}.proofs." + os.path.relpath(folder, os.path.join(crate, "proofs")).replace("/", ".")
    head, uses, invariants, answers, helpers = [], [], [], [], []
    tie = re.search(r"(?m)^use \S+\.Tie as (\S+)$", text)
    tie = tie[1] if tie else "tie"
    for b in blocks(text):
        lines = b.split("\n")
        comments = []
        while lines and lines[0].startswith("--"):
            comments.append(lines.pop(0))
        if not lines or not "".join(lines).strip():
            head += comments if not uses and not answers else []
            continue
        body = "\n".join(lines)
        if lines[0].startswith("use "):
            if not uses:
                head += comments
            if not re.search(r"\.(Statement\.\{statement\}|(Proof\.)?Tie as|(Proof\.)?Lts\b)", body):
                uses.append(body)
            continue
        where = f"{path}: {lines[0][:60]}"
        m = re.match(r"(?:abbrev )?(?:pub )?(" + W + r") : " + re.escape(tie) + r"\.(invariant|decreases)-(\S+)", body)
        if m:
            loop = next((i for i, l in enumerate(names["loops"]) if plain(l[0][0]) == plain(m[3])), None)
            eq = re.search(r"(?m)^" + re.escape(m[1]) + r"((?: \S+)*?) =\s+", body)
            if loop is None or not eq:
                left.append(where + ": no such loop")
                continue
            (old, new), variables = names["loops"][loop]
            changed = names["changed"][loop]
            args = eq[1].split()
            # The values at the loop's start come first, then those of this turn.
            to = {}
            if len(args) != len(variables) + sum(map(bool, changed)):
                left.append(f"{where}: {len(args)} arguments for {variables} {changed}")
            for a, v, c in zip(args, variables, changed):
                to[a] = f"l.initial.{v}" if c else f"l.{v}"
            for a, v in zip(args[len(variables) :], [v for v, c in zip(variables, changed) if c]):
                to[a] = f"l.{v}"
            made = sub_words(body[eq.end() :], to)
            kind = m[2]
            unfold = "".join(l + "\n" for l in lines if l.startswith("unfolding"))
            invariants.append("\n".join(comments + [f"abbrev pub {kind}-{new} : goal.{kind}-{new}", unfold + f"{kind}-{new} l = {made}"]))
            continue
        m = re.match(r"(?:pub )?(" + W + r") : " + re.escape(tie) + r"\.Need-(\S+)", body)
        if m:
            need = f.need(m[2])
            if not need:
                left.append(f"{where}: no need {m[2]}; there are {' '.join(n for n, _ in names['needs'])}")
                continue
            old, new, place = need
            eq = re.search(r"(?m)^" + re.escape(m[1]) + r"((?: \S+)*?) =\s+", body)
            if not eq:
                left.append(where + ": no equation")
                continue
            args, rest = eq[1].split(), body[eq.end() :]
            if rest.strip() in ("search rules", "λ _. search rules"):
                continue
            if "κs" in re.findall(W, rest):
                left.append(where + ": κs is used")
            rest = body_turned(f, rest, place, where)
            asked = names["asked"].get(old)
            if asked and len(asked) > 1:
                rest = as_record(rest, asked, where)
            unfold = "".join(l + "\n" for l in lines[: body[: eq.start()].count("\n") + 1] if l.startswith("unfolding"))
            args = [a for a in args if a != "κs"]
            answers.append("\n".join(comments + [f"pub {new} : goal.{new}", unfold + f"{new} {' '.join(args)} = {rest}"]))
            continue
        if re.match(r"pub \S+[-_]spec : \{M : Type 1\}", body):
            continue
        if tie + "." in body:
            left.append(f"{where}: a lemma over a place")
            places = {plain(p[0]): names["places_by_name"][i] for i, p in enumerate(names["places"])}
            body = re.sub(re.escape(tie) + r"\.([A-Z][\w-]*)", lambda m: places.get(plain(m[1]), m[1]), body)
            body = body_turned(f, body, None, where)
        helpers.append("\n".join(comments + [body]))
    used = lambda h: re.match(r"(?:(?:abbrev|pub|unfoldable) )*(" + W + ")", re.sub(r"(?m)^--.*\n", "", h))
    needed = [h for h in helpers if used(h) and any(used(h)[1] in re.findall(W, i) for i in invariants)]
    if needed:
        left.append(f"{path}: the invariants cite {' '.join(used(h)[1] for h in needed)}")
    use = "\n".join(uses)
    out = {}
    if invariants:
        out["Invariants.antt"] = "\n".join(head) + ("\n" if head else "") + (use + "\n" if use else "") + f"use {home}.Given as goal\n\n" + "\n\n".join(needed + invariants) + "\n"
    if answers:
        out["Answers.antt"] = "\n".join(head) + ("\n" if head else "") + (use + "\n" if use else "") + f"use {home}.Goals as goal\n\n" + "\n\n".join(helpers + answers) + "\n"
    return out


def main(argv):
    crate, file = argv
    crate = os.path.abspath(crate)
    name = os.path.basename(crate)
    with open(file, encoding="utf-8") as it:
        listed = json.load(it)
    done = 0
    for module, names in listed.items():
        if not module.endswith(".Lts"):
            continue
        path = module.split(".", 1)[1][: -len(".Lts")].replace(".", "/").replace("«", "").replace("»", "")
        folder = os.path.join(crate, "proofs", path)
        proof = os.path.join(folder, "Proof.antt")
        if not os.path.exists(proof):
            continue
        for f, text in convert(crate, name, names, folder, proof).items():
            with open(os.path.join(folder, f), "w", encoding="utf-8") as it:
                it.write(text)
        os.remove(proof)
        done += 1
    for l in left:
        print("left: " + l)
    print(f"{name}: {done} proofs turned, {len(left)} things left")


if __name__ == "__main__":
    main(sys.argv[1:])
