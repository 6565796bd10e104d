#!/usr/bin/env python3
"""Brings must-fail edits over: each 'old:' and 'new:' of an older checkout is respelled as the file that it edits was.

usage: tools/port/edits.py OLDER [CRATE..]

OLDER is a checkout from before the port. How a word is spelled today is read off the files: their lines stand side by side. An edit is
respelled word by word, and one whose old text doesn't stand once in today's file is named in a line that begins 'left:', for a look by hand.
"""

import collections
import difflib
import os
import re
import sys

HERE = os.path.dirname(os.path.realpath(__file__))
ROOT = os.path.dirname(os.path.dirname(HERE))
TOKEN = re.compile(r"\"(?:[^\"\\\n]|\\.)*\"|[^\s(){};,.\"«»]+|[(){};,.«»]")


def read(path):
    with open(path, encoding="utf-8") as it:
        return it.read()


def tight(text):
    """Projections as they are written today: x .f is x.f, and (x .f) is x.f."""
    text = re.sub(r"(?<=[\w'′₀-₉)]) \.(?=[a-z0-9])", ".", text)
    text = re.sub(r"\(([\w'′₀-₉]+(?:\.[\w'′₀-₉-]+)+)\)", r"\1", text)
    return re.sub(r"\(now ([\w'′₀-₉]+)\)|(?<![\w])now ([\w'′₀-₉]+)(?![\w.])", lambda m: (m[1] or m[2]) + ".now", text)


def files(root, crate):
    for part in ("src", "specs", "proofs"):
        for folder, dirs, names in os.walk(os.path.join(root, "crates", crate, part)):
            dirs[:] = [d for d in dirs if d not in ("Walks", "Proof")]
            for n in names:
                if n.endswith((".rt", ".antt")):
                    yield os.path.relpath(os.path.join(folder, n), os.path.join(root, "crates", crate))


def today(crate, name):
    path = os.path.join(ROOT, "crates", crate, name)
    if os.path.exists(path):
        return path
    parts = name.split("/")
    path = os.path.join(ROOT, "crates", crate, *[p[:1].upper() + p[1:] if i == 1 else p for i, p in enumerate(parts)])
    return path if os.path.exists(path) else None


def learn(older, crate, counts):
    for name in files(older, crate):
        path = today(crate, name)
        if not path:
            continue
        a = [TOKEN.findall(tight(l)) for l in read(os.path.join(older, "crates", crate, name)).split("\n")]
        b = [TOKEN.findall(l) for l in read(path).split("\n")]
        for tag, i, j, k, n in difflib.SequenceMatcher(None, [" ".join(x) for x in a], [" ".join(x) for x in b], autojunk=False).get_opcodes():
            if tag == "equal":
                for x in a[i:j]:
                    for t in x:
                        counts[t][t] += 1
            elif tag == "replace" and j - i == n - k:
                for x, y in zip(a[i:j], b[k:n]):
                    if len(x) == len(y):
                        for s, t in zip(x, y):
                            counts[s][t] += 1


def spelled(text, words):
    text = tight(text)
    return TOKEN.sub(lambda m: words.get(m[0], m[0]), text)



def stands(text, wanted):
    """The one stretch of a line of the text that has these tokens, or None."""
    tokens = TOKEN.findall(wanted)
    if not tokens:
        return None
    pattern = r"[ ]*".join(re.escape(t) for t in tokens)
    lead = r"(?<![^\s(){};,.\"«»])" if re.match(r"[^\s(){};,.\"«»]", tokens[0]) else ""
    end = r"(?![^\s(){};,.\"«»])" if re.match(r"[^\s(){};,.\"«»]", tokens[-1]) else ""
    found = re.findall(lead + pattern + end, text)
    return found[0] if len(found) == 1 else None


def main(argv):
    older, only = argv[0], set(argv[1:])
    done, left = 0, 0
    for crate in sorted(os.listdir(os.path.join(older, "crates"))):
        folder = os.path.join(older, "crates", crate, "must-fail")
        if not os.path.isdir(folder) or (only and crate not in only):
            continue
        counts = collections.defaultdict(collections.Counter)
        for c in {crate, "definition", "facts"}:
            learn(older, c, counts)
        words = {s: c.most_common(1)[0][0] for s, c in counts.items()}
        for edit in sorted(os.listdir(folder)):
            out, why, now, is_as_it_was = [], None, "", False
            for line in read(os.path.join(folder, edit)).split("\n"):
                if line.startswith("file: "):
                    name = line[6:].strip()
                    path = today(crate, name)
                    now = read(path) if path else ""
                    why = why if path else f"no file {name}"
                elif line.startswith("old: "):
                    given = line[5:]
                    is_as_it_was = now.count(given) == 1
                    if not is_as_it_was:
                        mine = spelled(given, words)
                        found = stands(now, mine) or stands(now, tight(given))
                        why = why if found else f"{name} has not once: {mine}"
                        line = "old: " + (found or mine)
                elif line.startswith("new: ") and not is_as_it_was:
                    line = "new: " + spelled(line[5:], words).strip()
                out.append(line)
            if why:
                print(f"left: {crate}/must-fail/{edit}: {why}")
                left += 1
            with open(os.path.join(ROOT, "crates", crate, "must-fail", edit), "w", encoding="utf-8") as it:
                it.write("\n".join(out))
            done += not why
    print(f"{done} edits fit, {left} left")


if __name__ == "__main__":
    main(sys.argv[1:])
