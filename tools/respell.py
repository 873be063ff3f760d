#!/usr/bin/env python3
"""Brings the repository's own names to the spelling of today's Rattle, once, after the kit's port script (docs/PORT.md).

Words of specs/ and proofs/ are in snake case (`sameBytes` is `same_bytes`), modules in upper camel case (`proofs/laws/tag_list` is `proofs/Laws/TagList`),
a prime is an apostrophe. It turns the .rt, .antt and .edit files of crates/ and the pages README.md and docs/*.md; names of src/, strings, inputs and outputs
keep their spelling. It stops where two names would fall together, and says which new names some file had already (a function of src/ and the definition
of what it answers share a name).
"""

import os
import re
import subprocess
import sys

# Lemmas whose names the definitions that they speak of take now: in these files they get `_lem`.
LEMMAS = {
    "same_bytes": ("slices/proofs/laws/SameBytes", "mac_theorems/proofs/laws/answers/Verdicts", "mac_frame/proofs/laws/frame/FrameLayout"),
    "item_by": ("dataset/proofs/laws/header/FilledHeaders",),
    "items_at": ("dataset/proofs/laws/reading/Loops", "stream/proofs/laws/writer/ItemsLoop"),
    "two_bytes": ("selection/proofs/laws/items/MacIdTests", "selection/proofs/laws/select/SelectPlaces"),
    "written_in": ("eddyplume/proofs/Theorems",),
}
TOKEN = re.compile(r"[A-Za-z0-9_₀-₉◌'-]+")
PAGES = ["README.md"] + [f"docs/{p}.md" for p in ("DECISIONS", "NUMBERS", "RULES", "TRACEABILITY", "TRUST")]


def snake(word):
    return re.sub(r"(?<=[a-z0-9])([A-Z]+)", lambda m: "_" + m.group(1).lower(), word)


def camel(word):
    return "".join(part[:1].upper() + part[1:] for part in word.split("_"))


def files(*endings):
    for folder, dirs, names in os.walk("crates"):
        dirs[:] = sorted(d for d in dirs if d != "out")
        for n in sorted(names):
            if n.endswith(endings):
                yield os.path.join(folder, n)


def text(path):
    with open(path, encoding="utf-8") as f:
        return f.read()


def write(path, t):
    with open(path, "w", encoding="utf-8") as f:
        f.write(t)


def bare(path):
    """The text less comments and strings."""
    t = text(path)
    t = re.sub(r"--.*", "", t) if path.endswith(".antt") else re.sub(r"//.*", "", t)
    return re.sub(r'"(\\.|[^"\\])*"', '""', t)


def words():
    """Each word in lower camel case of the .antt files, and what it becomes."""
    all_words, turned = set(), {}
    for p in files(".antt", ".rt"):
        for token in TOKEN.findall(bare(p)):
            for part in re.split(r"[-◌]", token):
                all_words.add(part)
                if p.endswith(".antt") and re.fullmatch(r"[a-z][a-z0-9₀-₉]*[A-Z].*", part):
                    turned[part] = snake(part)
    seen = {}
    for old, new in sorted(turned.items()):
        if seen.setdefault(new, old) != old:
            sys.exit(f"respell: {old} and {seen[new]} fall together as {new}")
        if new in all_words:
            print(f"look: {old} becomes {new}, which some file has already")
    return turned, all_words


def more(turned, all_words, t):
    """What the port script has turned already, where it did not look: pages and edits."""
    for w in set(re.findall(r"(?<![A-Za-z0-9_])[a-z][a-z0-9]*[A-Z][A-Za-z0-9]*", t)):
        if w not in turned and snake(w) in all_words:
            turned = dict(turned, **{w: snake(w)})
    return turned


def turn(turned, t):
    t = t.replace("′", "'")
    return re.sub(r"(?<![A-Za-z0-9_])[a-z][A-Za-z0-9₀-₉]*(?![A-Za-z0-9])", lambda m: turned.get(m.group(), m.group()), t)


def lemmas():
    for word, places in LEMMAS.items():
        for place in places:
            p = f"crates/{place}.antt"
            write(p, re.sub(rf"(?<![A-Za-z0-9_-]){word}(?![A-Za-z0-9_-])", word + "_lem", text(p)))


def modules():
    """Moves proofs/laws and what lies in it, and says how paths to it change."""
    paths = {}
    for crate in sorted(os.listdir("crates")):
        laws = os.path.join("crates", crate, "proofs", "laws")
        if not os.path.isdir(laws):
            continue
        for name in sorted(os.listdir(laws)):
            word = name[: -len(".antt")] if name.endswith(".antt") else name
            if word != camel(word):
                paths[word] = camel(word)
                subprocess.check_call(["git", "mv", os.path.join(laws, name), os.path.join(laws, camel(word) + name[len(word):])])
        subprocess.check_call(["git", "mv", laws, laws[:-4] + "Laws"])
        subprocess.check_call(["git", "mv", laws + ".antt", laws[:-4] + "Laws.antt"])
    return paths


def turn_modules(paths, path, t):
    inner = "|".join(sorted(paths, key=len, reverse=True))
    t = re.sub(rf"\bproofs([./])laws\b([./])({inner})\b", lambda m: f"proofs{m[1]}Laws{m[2]}{paths[m[3]]}", t)
    t = re.sub(r"\bproofs([./])laws\b", r"proofs\1Laws", t)
    if path.endswith("proofs/Lib.antt"):
        t = re.sub(r"\bmod laws\b", "mod Laws", t)
    if path.endswith("proofs/Laws.antt"):
        t = re.sub(rf"\bmod ({inner})\b", lambda m: "mod " + paths[m[1]], t)
    return t


def main():
    turned, all_words = words()
    lemmas()
    paths = modules()
    for p in list(files(".antt", ".rt", ".edit")) + PAGES:
        old = text(p)
        here = turned if p.endswith((".rt", ".antt")) else more(turned, all_words, old)
        new = turn_modules(paths, p, turn(here, old))
        if new != old:
            write(p, new)
    print(f"respell: {len(turned)} words, {len(paths)} modules")


main()
