#!/usr/bin/env python3
"""Brings the repository's own names in specifications and proofs to snake case, types to camel case.

usage: python3 tools/spell_names.py [FOLDER]     over FOLDER/crates (this folder), in place, once

A definition or lemma that reads `row-cell` becomes `row_cell`, a statement `All-fair` becomes
`AllFair`. In the files of answers and invariants, names that the checker makes take the spelling
of the source names that they hold, as `copy_row-requires`. Functions of src/ keep their names.
Two names of one file of specifications or proofs that would fall together are reported, and nothing
is written; in a source file a definition may have the name of the function that it describes."""
import os
import re
import sys

NAME = r"[^\s:(){};,.\[\]|\\λ]+"
WORD = re.compile(r"[A-Za-z0-9_'][A-Za-z0-9_'\-]*(?:[≡≢≤<+∷⊑][A-Za-z0-9_'\-]*)*")
# made by the check, and no name of ours
MADE = re.compile(r"^(returns|loop-|invariant|decreases|overflow|bounds|slice[-_]bounds|offset[-_]bounds|nonzero|ghost-|then-|else-|in-|if-)|-requires|-init$|-preserved$|-smaller$")
ODD = {"nth-getD": "nth_get_or", "Tail-of": "tail_of", "Laid_out": "LaidOut"}
PREFIXES = [("overflow-", "overflow_"), ("slice-bounds-", "slice_bounds-"), ("offset-bounds-", "offset_bounds-"), ("nonzero-", "nonzero_"), ("invariant-of-", "invariant_of-")]


def files(root):
    for folder, dirs, names in os.walk(os.path.join(root, "crates")):
        dirs[:] = sorted(d for d in dirs if d != "out")
        for name in sorted(names):
            if name.endswith((".antt", ".rt")):
                yield os.path.join(folder, name)


def of_answers(path):
    return os.path.basename(path) in ("Answers.antt", "Invariants.antt")


def declared(path, text):
    """The names that a file of specifications, lemmas or answers declares, and the aliases of a source file."""
    found = set(re.findall(r"\bas (" + NAME + r")", text))
    if path.endswith(".rt"):
        return found
    for line in text.split("\n"):
        m = re.match(r"^\s*(?:(?:abbrev|unfoldable|pub|ruleset)\s+)*(" + NAME + r")\s*(?:\{.*?\}|\(.*?\))*\s*:", line)
        if m and not (of_answers(path) and MADE.search(m.group(1))):
            found.add(m.group(1))
        m = re.match(r"^\s*(?:pub\s+)?(?:record|data)\s+(?:pub\s+)?(" + NAME + r")", line)
        if m:
            found.add(m.group(1))
    return found


def spelled(name):
    if name in ODD:
        return ODD[name]
    if name[:1].isupper():
        return "".join(part[:1].upper() + part[1:] for part in name.split("-"))
    return name.replace("-", "_")


def source_names(root):
    found = {}
    for path in files(root):
        if path.endswith(".rt"):
            crate = path.split(os.sep + "crates" + os.sep)[1].split(os.sep)[0]
            with open(path, encoding="utf-8") as f:
                found.setdefault(crate, set()).update(re.findall(r"\b[A-Za-z][A-Za-z0-9]*(?:_[A-Za-z0-9]+)+\b", f.read()))
    return found


def made(word, names):
    """A name that the check makes: source names keep their underscores, as do the check's own words."""
    for old, new in PREFIXES:
        if word.startswith(old):
            word = new + word[len(old):]
    word = re.sub(r"(?<![A-Za-z0-9])in-(ok|err)-", r"in_\1-", word)
    for name in names:
        dashed = name.replace("_", "-")
        word = re.sub(r"(?<![A-Za-z0-9_])" + re.escape(dashed) + r"(?![A-Za-z0-9_])", name, word)
    return word


def main(argv):
    root = os.path.abspath(argv[0] if argv else ".")
    texts = {}
    for path in files(root):
        with open(path, encoding="utf-8") as f:
            texts[path] = f.read()
    ours = {}
    for path, text in texts.items():
        for name in declared(path, text):
            if name in ODD or "-" in name and re.match(r"^[A-Za-z]", name):
                ours[name] = spelled(name)
    sources = {c: sorted(n, key=len, reverse=True) for c, n in source_names(root).items()}
    out, bad = {}, []
    for path, text in texts.items():
        crate = path.split(os.sep + "crates" + os.sep)[1].split(os.sep)[0]
        met = {}

        def turn(m):
            word = m.group(0)
            new = ours.get(word)
            if new is None:
                new = made(word, sources.get(crate, [])) if of_answers(path) and "-" in word else word
            path_part = m.string[m.end():m.end() + 1] == "." and m.string.lstrip().startswith("use ")
            if path.endswith(".antt") and not path_part and met.setdefault(new, word) != word and not (of_answers(path) and MADE.search(word)):
                bad.append("%s: %s and %s fall together as %s" % (path, met[new], word, new))
            return new

        parts = text.split("\n")
        for i, line in enumerate(parts):
            code, mark, said = line.partition("-- " if path.endswith(".antt") else "//")
            if path.endswith(".rt") and '"' in code:
                continue
            parts[i] = WORD.sub(turn, code) + mark + said
        out[path] = "\n".join(parts)
    if bad:
        print("\n".join(sorted(set(bad))))
        return 1
    for path, text in out.items():
        if text != texts[path]:
            with open(path, "w", encoding="utf-8") as f:
                f.write(text)
    print("%d names, %d files" % (len(ours), sum(out[p] != texts[p] for p in texts)))
    return 0


if __name__ == "__main__":
    raise SystemExit(main(sys.argv[1:]))
