#!/usr/bin/env python3
"""Spells the repository's own names in specs/, proofs/ and the clauses of src/ as today's Rattle does: words in snake case.

usage: tools/respell.py [--check] [FOLDER]     FOLDER: the top of the repository (default: this one)

A name that begins with a small letter and has a capital or a dash in it is written with underscores, as `frameOf` and `frame-of` would be
`frame_of`. What a file imports from a library that is not the repository's keeps its spelling, and so do the names that Rattle makes of a
function's code in a `Proof.antt`. NAMES below gives another spelling where two names of one file would fall together. In a file of src/
only `ghost use` lines and clauses turn. --check writes nothing and says where names fall together.
"""
import os
import re
import sys

WORD = re.compile(r"[^\s(){}.;,@\"«»\[\]|\\`:]+")
OWN = re.compile(r"^Rattle[.·](?!std\b|core\b)")
# Lemmas and local names with the spelling of a definition that is in scope beside them
LEMMAS = """after-entry after-row counters-fit discovery-writes encodable-report first-fields greatest-below ids-at in-form in-range is-day is-discovery
is-function is-low is-period is-schedule is-sized is-wrong least-above months-by no-row number-as number-in own-call own-returned own-told
parameters-of password-size places-from read-refusal record-bytes records-bytes refusal-number resumed-by row-line set-from step-refusal too-short
unit-type with-identity years-by""".split()
NAMES = {name: name.replace("-", "_") + "_lem" for name in LEMMAS} | {
    "ids-as": "ids_same",
    "opened-as": "opened_same",
    "records-as": "records_same",
}
# Lemmas that port.py spelled like the definition beside them: the files that have them
MERGED = {
    "ids_at": ("captures/proofs/Pieces.antt", "captures/proofs/reading/open/Proof.antt"),
    "too_short": ("rewriting/proofs/Outcomes.antt",),
    "least_above": ("store/proofs/Laws.antt", "store/proofs/NewValues.antt", "store/proofs/Searches.antt"),
}


def respelled(word):
    if word in NAMES:
        return NAMES[word]
    if not re.match(r"[a-z]", word) or "◌" in word:
        return word
    if not re.search(r"[A-Z]|[a-z0-9₀-₉'′]-[a-zA-Z0-9ℕℤ]", word):
        return word
    if re.search(r"[^A-Za-z0-9_\-'′₀-₉ℕℤ]", word):
        return word
    word = re.sub(r"([a-z0-9])([A-Z])", r"\1_\2", word).lower()
    return word.replace("-", "_")


def code_and_quiet(text):
    """Pieces of antt text: (is code, piece)."""
    at = 0
    for m in re.finditer(r'"(?:[^"\\\n]|\\.)*"|(?<![^\s(){}.;,])--[^\n]*', text):
        yield True, text[at : m.start()]
        yield False, m[0]
        at = m.end()
    yield True, text[at:]


def imports(text):
    """Names that the use lines bring from libraries that are not the repository's."""
    kept = set()
    for m in re.finditer(r"(?m)^\s*(?:pub )?(?:ghost )?use ([^\s;{]+?)\.?(?:\{([^}]*)\}|( as [^\s;]+))?;?\s*$", text):
        path, items = m[1], m[2]
        if OWN.match(path) or items is None:
            continue
        for item in items.split(","):
            item = item.strip()
            if not item:
                continue
            parts = item.split(" as ")
            kept.add(parts[0].strip())
    return kept


def own_imports(text):
    found = set()
    for m in re.finditer(r"(?m)^\s*(?:pub )?(?:ghost )?use ([^\s;{]+?)\.?\{([^}]*)\};?\s*$", text):
        if OWN.match(m[1]):
            for item in m[2].split(","):
                found.add(item.split(" as ")[-1].strip())
    return found


def turn_code(code, kept, fields=None):
    """With `fields`, of a `Proof.antt`: what stands behind a dot turns only if it is a field of the repository's own."""

    def turn(m):
        if m[0] in kept or (fields is not None and code[m.start() - 1 : m.start()] == "." and m[0] not in fields):
            return m[0]
        return respelled(m[0])

    return WORD.sub(turn, code)


def turn_comment(comment, kept):
    return re.sub(r"`[^`\n]*`", lambda m: turn_code(m[0], kept), comment)


def turn_antt(text, fields=None):
    kept = imports(text)
    seen = {}
    out = []
    for is_code, piece in code_and_quiet(text):
        if is_code:
            for w in WORD.findall(piece):
                new = w if w in kept else respelled(w)
                seen.setdefault(new, set()).add(w)
            out.append(turn_code(piece, kept, fields))
        else:
            out.append(turn_comment(piece, kept) if piece.startswith("--") else piece)
    return "".join(out), {n: o for n, o in seen.items() if len(o) > 1}


def spans_of_clauses(text):
    """The places of `ghost use` items and of clauses in a file of src/."""
    for m in re.finditer(r"(?m)^\s*ghost use [^;]*;", text):
        yield m.start(), m.end()
    for m in re.finditer(r"\b(?:requires|ensures|invariant|ghost)\b[^{;\n]*\{", text):
        depth, i = 1, m.end()
        while depth and i < len(text):
            depth += {"{": 1, "}": -1}.get(text[i], 0)
            i += 1
        if not text[m.start() : m.end()].startswith("ghost use"):
            yield m.end(), i


def turn_rt(text):
    kept = imports(text)
    spans = sorted(spans_of_clauses(text))
    out, at, seen = [], 0, {}
    for start, end in spans:
        if start < at:
            continue
        out.append(text[at:start])
        piece = text[start:end]
        for w in WORD.findall(piece):
            new = w if w in kept else respelled(w)
            seen.setdefault(new, set()).add(w)
        out.append(turn_code(piece, kept))
        at = end
    out.append(text[at:])
    clash = {n: o for n, o in seen.items() if len(o) > 1}
    plain = "".join(p for p in re.split(r"//[^\n]*", "".join(text[a:b] for a, b in gaps(spans, len(text)))))
    words = set(re.findall(r"\b[a-z_][A-Za-z0-9_]*\b", plain))
    for n, o in seen.items():
        changed = {w for w in o if w != n}
        if changed and n in words:
            clash.setdefault(n, set()).update(o | {"(src) " + n})
    return "".join(out), clash


def gaps(spans, size):
    at = 0
    for start, end in spans:
        if start > at:
            yield at, start
        at = max(at, end)
    yield at, size


def files(root):
    for folder, dirs, names in os.walk(os.path.join(root, "crates")):
        dirs[:] = sorted(d for d in dirs if d not in ("out", ".git", "must-fail"))
        for name in sorted(names):
            if name.endswith((".rt", ".antt")):
                yield os.path.join(folder, name)


def main(argv):
    check = "--check" in argv
    rest = [a for a in argv if not a.startswith("--")]
    root = rest[0] if rest else os.path.join(os.path.dirname(os.path.abspath(__file__)), "..")
    fields = set()
    for path in files(root):
        if path.endswith(".antt") and not path.endswith("/Proof.antt"):
            with open(path, encoding="utf-8") as f:
                fields |= set(re.findall(r"(?m)^  (?:pub )?([a-z][A-Za-z0-9]*(?:-[A-Za-z0-9]+)+) ?:", f.read()))
    for path in files(root):
        with open(path, encoding="utf-8") as f:
            text = f.read()
        for name, places in MERGED.items():
            if path.endswith(places):
                text = re.sub(rf"(?<![\w.'-]){name}(?![\w'-])", name + "_lem", text)
        if path.endswith(".rt"):
            new, clash = turn_rt(text)
        else:
            new, clash = turn_antt(text, fields if path.endswith("/Proof.antt") else None)
        for name, olds in sorted(clash.items()):
            print(f"{os.path.relpath(path, root)}: {name}: {', '.join(sorted(olds))}")
        if not check and new != text:
            with open(path, "w", encoding="utf-8") as f:
                f.write(new)
    return 0


if __name__ == "__main__":
    raise SystemExit(main(sys.argv[1:]))
